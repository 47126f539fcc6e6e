"""How many bytes the instructions of glyphs take of the fonts that pages load."""
from __future__ import annotations

import functools
import io
from typing import Iterator, Mapping, Tuple

from fontTools.subset import Options
from fontTools.ttLib import TTFont

from .malformed import MALFORMED
from .processes import side_by_side
from .woff import packed

# What is told of: a saving of so many bytes, and of so large a part of the file.
_LEAST, _PART = 1000, 0.1


def _without(cut: bytes) -> bytes:
    """A cut without instructions, or nothing, where it has no program for these, or cannot be read."""
    try:
        font = TTFont(io.BytesIO(cut), recalcBBoxes=False, recalcTimestamp=False, lazy=True)
        if "fpgm" not in font:
            return b""
        for tag in [tag for tag in font.keys() if tag.strip() in Options().hinting_tables]:
            del font[tag]
        for name in font.getGlyphOrder():
            font["glyf"][name].removeHinting()
        made = io.BytesIO()
        font.save(made, reorderTables=None)
        return made.getvalue()
    except MALFORMED:
        return b""


def _saving(cut: bytes, small: bytes) -> int:
    """How many bytes the WOFF2 file of a cut would be shorter without instructions, if these are many."""
    plain = _without(cut)
    saved = len(small) - len(packed(plain)) if plain else 0
    return saved if saved >= max(_LEAST, _PART * len(small)) else 0


def told(cuts: Mapping[str, Tuple[bytes, bytes]]) -> Iterator[str]:
    """What is said of fonts, by the names of their files, if instructions take much of a cut and its WOFF2 file."""
    saved = side_by_side([functools.partial(_saving, cut, small) for cut, small in cuts.values()])
    some = [f"{each:,} of {len(small):,} bytes of {name}"
            for each, (name, (_, small)) in zip(saved, cuts.items()) if each]
    if some:
        yield (f"hinting = false would save {', '.join(some)}: instructions sharpen small letters on Windows; hinting = "
               "true keeps them without this line")
