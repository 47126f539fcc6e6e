"""The modules of the kit, whose commands `rt` runs: they stand beside its page."""
import importlib
import os
import subprocess
import sys
from typing import Any


def kit_folder() -> str:
    """The folder of the kit's commands."""
    page = subprocess.run(["rt", "doc"], capture_output=True, text=True, check=True).stdout.strip()
    return os.path.join(os.path.dirname(page), "bin")


def kit() -> Any:
    """The kit's own module, which knows by what words a crate is checked, and how a stamp is made."""
    sys.path.insert(0, kit_folder())
    return importlib.import_module("rtlib")
