"""Runs the command `fontcut-pdf`."""
import sys

from .command import main

sys.exit(main())
