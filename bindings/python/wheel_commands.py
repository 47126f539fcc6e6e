"""The commands of the wheel. One whose packages are not there says in a line what to install."""
import importlib
import os
import sys

_INSTALL = "pip install 'fontcut[{}]'"


def program() -> int:
    """The command `fontcut`: runs the program, which the wheel has inside, in the place of this process."""
    path = os.path.join(os.path.dirname(os.path.abspath(__file__)), "bin", "fontcut")
    try:
        os.execv(path, ["fontcut", *sys.argv[1:]])
    except OSError as error:
        print(f"fontcut: cannot run {path}: {error.strerror}", file=sys.stderr)
        return 3


def pdf() -> int:
    """The command `fontcut-pdf`, which looks for its package itself."""
    status: int = importlib.import_module("fontcut_pdf").main(install=_INSTALL.format("pdf"))
    return status


def web() -> int:
    """The command `fontcut-web`, which looks for its packages itself."""
    status: int = importlib.import_module("fontcut_web").main(install=_INSTALL.format("web"))
    return status
