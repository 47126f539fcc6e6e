"""Runs the command `fontcut-web`."""
import sys

from .command import main

sys.exit(main())
