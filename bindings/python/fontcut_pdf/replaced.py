"""Files that a command would replace, and that cannot be meant: PDF files that it did not write, and whole fonts."""
from __future__ import annotations

import os
from typing import Sequence

from fontcut_output import is_whole_font, read

from .common import Refused, UsageError
from .embedding import is_tagged
from .files import opened
from .font import Font
from .survey import surveyed


def is_pdf(path: str) -> bool:
    """Whether a path is that of a PDF file. Raises `OSError` where a file cannot be read, for then it may be one."""
    if not os.path.isfile(path):
        return False
    with open(path, "rb") as file:
        return b"%PDF-" in file.read(1024)


def _is_made_here(font: Font) -> bool:
    """Whether a font has a program that this package has made. Those of simple fonts are no cuts, but have its tags."""
    is_read = "/FontFile2" in font.descriptor and not font.program.kind.startswith("refused")
    return is_read and is_tagged(font.name, font.program.read())


def _is_output(path: str) -> bool:
    """Whether a PDF file has a font that this package has made. A file that is refused is no output of it."""
    try:
        with opened(path) as pdf:
            return any(map(_is_made_here, surveyed(pdf, lambda font: False)))
    except Refused:
        return False


def check_shrunk(source: str, out: str, data: bytes) -> None:
    """Raises `UsageError` where bytes would replace a PDF file at OUT that is lost then. It is not where OUT is IN, has
    these bytes or those of IN, or has fonts of this package, as what an earlier run wrote."""
    if not is_pdf(out) or os.path.samefile(source, out) or read(out) in (data, read(source)) or _is_output(out):
        return
    raise UsageError(f"{out} is a PDF file already, and shrink would replace it: name another OUT; --force replaces "
                     f"{out}")


def check_extracted(paths: Sequence[str]) -> None:
    """Raises `UsageError` where a cut would replace a whole font."""
    for path in filter(is_whole_font, paths):
        raise UsageError(f"{path} is a font, and no cut: name another FOLDER; --force replaces {path}")
