"""Hints are dropped from cuts, by fontTools. Viewers of PDF files draw without them, but for a few at small sizes."""
from __future__ import annotations

import io

import fontcut
from fontcut_web.malformed import MALFORMED
from fontTools.subset import Options
from fontTools.ttLib import TTFont

from .common import Unclear

# The tables that instructions of glyphs need (OpenType 1.9, The TrueType Instruction Set).
_TABLES = "cvt ", "fpgm", "prep"


def without_hints(cut: bytes) -> bytes:
    """The lean cut, for the same glyphs, of the font of a lean cut without hints. All such cuts of one font join, since
    nothing is dropped or measured that depends on which glyphs are there. Raises `Unclear` where fontTools cannot read
    the cut."""
    try:
        font = TTFont(io.BytesIO(cut), recalcBBoxes=False, recalcTimestamp=False)
        # What the subsetter of fontTools does with these tables where it drops hints.
        font["maxp"].prune_pre_subset(font, Options(hinting=False))
        for glyph in font["glyf"].glyphs.values():
            glyph.trim(remove_hinting=True)
        for tag in _TABLES:
            if tag in font:
                del font[tag]
        made = io.BytesIO()
        font.save(made, reorderTables=None)
        return fontcut.cut(made.getvalue(), fontcut.codes(cut), kind="lean", gids=fontcut.kept_glyphs(cut, kind="lean"))
    except (*MALFORMED, fontcut.Refused) as error:
        raise Unclear(f"its hints cannot be dropped: {' '.join(str(error).split())}") from error
