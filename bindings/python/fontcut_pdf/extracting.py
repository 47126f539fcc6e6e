"""Lean cuts out of a PDF file, as font files."""
from __future__ import annotations

import itertools
import re
from typing import Collection, Dict, List, Tuple

from pikepdf import Pdf

from .common import Refused
from .embedding import without_tag
from .survey import surveyed


def _new_name(font: str, taken: Collection[str]) -> str:
    """A name for the file of a font that none of the others has, also where capitals do not count."""
    stem = re.sub(r"[^A-Za-z0-9._-]+", "-", font).strip(".-") or "font"
    names = (f"{stem}-{number}.ttf" if number > 1 else f"{stem}.ttf" for number in itertools.count(1))
    known = set(map(str.casefold, taken))
    return next(name for name in names if name.casefold() not in known)


def extract(pdf: Pdf) -> List[Tuple[str, bytes]]:
    """The lean cuts that a file has embedded, each once, and a name for the file of each, without a folder: that of the
    font, with a number where a name comes again. A cut that is not lean comes as the lean one. Those for PDF join with
    those of other files, and the others with the lean cuts of `fontcut`. Raises `Refused` where there is no cut."""
    cuts: Dict[bytes, str] = {}
    for font in surveyed(pdf, lambda font: False):
        if font.is_cut and font.program.lean not in cuts:
            cuts[font.program.lean] = _new_name(without_tag(font.name), cuts.values())
    if not cuts:
        raise Refused("it has no font that is a cut")
    return [(name, cut) for cut, name in cuts.items()]
