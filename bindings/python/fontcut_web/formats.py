"""What a file is that fontcut refuses: outlines, bitmaps or colours that it does not cut."""
from __future__ import annotations

import struct
from typing import Set

_NO_OUTLINES = "without outlines in glyf"
# What a file is that begins so, and a font without `glyf` that has one of these tables, the first of which decides; as
# the program says it.
_FORMATS = {b"OTTO": "an OpenType font with CFF outlines, and not with TrueType outlines",
            b"ttcf": "a collection of fonts"}
_WITHOUT_GLYF = {b"CBDT": f"a font of colour bitmaps (CBDT), {_NO_OUTLINES}",
                 b"sbix": f"a font of colour bitmaps (sbix), {_NO_OUTLINES}",
                 b"CFF2": f"a font with CFF2 outlines, {_NO_OUTLINES}",
                 b"CFF ": f"a font with CFF outlines, {_NO_OUTLINES}",
                 b"SVG ": f"a colour font of SVG images, {_NO_OUTLINES}",
                 b"EBDT": f"a font of bitmaps (EBDT), {_NO_OUTLINES}",
                 b"COLR": f"a colour font (COLR), {_NO_OUTLINES}"}


def _tables(data: bytes) -> Set[bytes]:
    """The tags of the tables of a font, as far as its directory goes (OpenType 1.9, Table Directory)."""
    count = struct.unpack_from(">H", data, 4)[0] if len(data) >= 12 else 0
    return {data[at:at + 4] for at in range(12, min(12 + 16 * count, len(data)), 16)}


def format_of(data: bytes) -> str:
    """What a file is, or an empty text where nothing explains that it is refused."""
    if data[:4] in _FORMATS:
        return _FORMATS[data[:4]]
    tables = _tables(data)
    return "" if b"glyf" in tables else next((what for tag, what in _WITHOUT_GLYF.items() if tag in tables), "")
