"""What the modules of the package share: errors, the packages that a command needs, and the codes of ranges."""
from __future__ import annotations

import importlib
import logging
import sys
from importlib.util import find_spec
from types import ModuleType
from typing import Dict, Iterable, Iterator, List, Sequence, Tuple

# The modules that a package may be imported as. fontTools takes either of those for Brotli; newer Pythons bring tomli
# by another name.
_MODULES: Dict[str, Tuple[str, ...]] = {"fontTools": ("fontTools",), "brotli": ("brotli", "brotlicffi"),
                                       "tomli": ("tomllib", "tomli")}

# The kinds of cuts, those that have the layout tables, and these tables.
KINDS = "full", "lean", "layout", "variable"
SHAPED = "layout", "variable"
LAYOUT_TABLES = "BASE", "GDEF", "GPOS", "GSUB", "kern"
# The values of font-display (CSS Fonts 4).
DISPLAYS = "auto", "block", "swap", "fallback", "optional"
# What files of WOFF begin with, and all fonts.
WOFF, WOFF2 = b"wOFF", b"wOF2"
FONTS = b"\0\1\0\0", b"OTTO", b"true", b"ttcf", WOFF, WOFF2

# fontTools tells what it drops and what is odd in a font, which is told here otherwise.
logging.getLogger("fontTools").addHandler(logging.NullHandler())


class Refused(Exception):
    """A file is refused, and nothing was written."""


class UsageError(Exception):
    """The words of the command line, or those of a list of slices, are wrong."""


class Missing(Exception):
    """A package that is needed is not installed for the Python that runs."""

    def __init__(self, packages: Sequence[str]):
        super().__init__(packages)

    def __str__(self) -> str:
        return f"{sys.executable or 'this Python'} has no {' and '.join(self.args[0])}"


class MissingProgram(Exception):
    """A program that is needed is not installed."""

    def __init__(self, program: str, install: str):
        super().__init__(program, install)

    def __str__(self) -> str:
        return f"needs {self.args[0]}: {self.args[1]}"


def codes_in(ranges: Iterable[Tuple[int, int]]) -> Iterator[int]:
    """The codes of ranges, in their order."""
    return (code for first, last in ranges for code in range(first, last + 1))


def need(*packages: str) -> None:
    """Raises `Missing`, with all packages that are not there."""
    lacking: List[str] = [package for package in packages if not any(map(find_spec, _MODULES[package]))]
    if lacking:
        raise Missing(lacking)


def part(name: str) -> ModuleType:
    """A module of the package that stands over fontTools."""
    need("fontTools")
    return importlib.import_module(f".{name}", __package__)
