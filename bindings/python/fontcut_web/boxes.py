"""A font whose every character is a box, which is seen where another font lacks one."""
from __future__ import annotations

import functools
import io
import struct
import unicodedata
from typing import Iterator, List, Tuple

from fontTools.fontBuilder import FontBuilder
from fontTools.pens.ttGlyphPen import TTGlyphPen
from fontTools.ttLib.tables.DefaultTable import DefaultTable

_UNITS, _EDGE = 1000, 60
# No other font has this height above and below the line, so that it is seen which font gives lines their height.
_ABOVE, _BELOW = 1307, -413
_LAST = 0x10FFFF
# Characters that shapers hide if a font lacks them, beside those of the categories of controls and formats (Unicode,
# Default_Ignorable_Code_Point), and those that are none.
_HIDDEN = (0x34F, 0x34F), (0x115F, 0x1160), (0x17B4, 0x17B5), (0x180B, 0x180F), (0x2028, 0x2029), (0x2060, 0x206F), \
          (0x3164, 0x3164), (0xD800, 0xDFFF), (0xFE00, 0xFE0F), (0xFFA0, 0xFFA0), (0xFFF0, 0xFFF8), (0xE0000, 0xE0FFF)
# No control or format is beyond this one that is not among those.
_LAST_FORMAT = 0x1D17A


def _shown_ranges() -> Iterator[Tuple[int, int]]:
    """The ranges of characters that are shown."""
    hidden = {code for code in range(_LAST_FORMAT + 1) if unicodedata.category(chr(code)) in ("Cc", "Cf")}
    ranges = sorted([*_HIDDEN, *((code, code) for code in hidden)])
    first = 0
    for start, end in ranges:
        if first < start:
            yield first, start - 1
        first = max(first, end + 1)
    yield first, _LAST


def _characters() -> DefaultTable:
    """A table cmap that maps all shown characters to one glyph (OpenType 1.9, cmap, Format 13: Many-to-one range
    mappings)."""
    groups: List[bytes] = [struct.pack(">3L", first, last, 1) for first, last in _shown_ranges()]
    data = b"".join(groups)
    table = DefaultTable("cmap")
    table.data = struct.pack(">4HL", 0, 1, 3, 10, 12)
    table.data += struct.pack(">2H3L", 13, 0, 16 + len(data), 0, len(groups)) + data
    return table


@functools.lru_cache(maxsize=None)
def boxes() -> bytes:
    """The font."""
    pen = TTGlyphPen(None)
    for low, high, turns in ((0, _UNITS, 1), (_EDGE, _UNITS - _EDGE, -1)):
        corners = [(low, low), (low, high), (high, high), (high, low)][::turns]
        pen.moveTo(corners[0])
        for corner in corners[1:]:
            pen.lineTo(corner)
        pen.closePath()
    names, font = [".notdef", "box"], FontBuilder(_UNITS, isTTF=True)
    font.setupGlyphOrder(names)
    font.setupCharacterMap({})
    box = pen.glyph()
    font.setupGlyf(dict.fromkeys(names, box))
    font.setupHorizontalMetrics({name: (_UNITS, 0) for name in names})
    font.setupHorizontalHeader(ascent=_ABOVE, descent=_BELOW)
    font.setupNameTable({"familyName": "boxes", "styleName": "Regular"})
    font.setupOS2()
    font.setupPost()
    font.font["cmap"] = _characters()
    made = io.BytesIO()
    font.font.save(made)
    return made.getvalue()
