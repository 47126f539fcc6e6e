"""A second reading of tables of variations, apart from the program: which fonts variable cuts refuse, and what `gvar`
has for each glyph.

It follows OpenType 1.9, `gvar` ("'gvar' header", "Shared tuples array" and "The glyphVariationData table array") and
the header of `fvar`. The insides of a glyph's data are not read.
"""
import struct
from functools import lru_cache
from typing import NamedTuple, Optional

from font_reading import Refusal, record_refusal, table, tables_of, u16
from layout_reading import LAYOUT, links_of

VARIATIONS = [b"HVAR", b"MVAR", b"STAT", b"VVAR", b"avar", b"cvar", b"fvar", b"gvar"]
# What a variable cut has besides the tables of a lean cut.
ADDED = sorted(LAYOUT + VARIATIONS)

# The program makes no variable cuts yet, and no call gives this refusal.
BAD_VARIATIONS = 28, "bad variations"


class Header(NamedTuple):
    """The header of `gvar`, with the names of the standard."""

    majorVersion: int
    minorVersion: int
    axisCount: int
    sharedTupleCount: int
    sharedTuplesOffset: int
    glyphCount: int
    flags: int
    glyphVariationDataArrayOffset: int


FIELDS = struct.Struct(">HHHHIHHI")
LONG_OFFSETS = 1  # the only flag


class Variations(NamedTuple):
    """What a `gvar` has: its first eight bytes, which end with the numbers of axes and of shared tuples; these tuples;
    and the GlyphVariationData of each glyph, which may be empty."""

    front: bytes
    shared_tuples: bytes
    data: list[bytes]


def places_of(gvar: bytes, header: Header) -> list[int]:
    """Where the data of each glyph begins in a `gvar`, and where the last one ends. Short offsets are halves."""
    form, unit = ("I", 1) if header.flags == LONG_OFFSETS else ("H", 2)
    offsets = struct.unpack_from(f">{header.glyphCount + 1}{form}", gvar, FIELDS.size)
    return [header.glyphVariationDataArrayOffset + unit * offset for offset in offsets]


def read_gvar(gvar: bytes, axes: Optional[int], glyphs: int) -> Optional[Variations]:
    """What a `gvar` has in a font of so many axes and glyphs, or None if it is refused. Axes are None if no `fvar` has
    their number."""
    if len(gvar) < FIELDS.size:
        return None
    header = Header(*FIELDS.unpack_from(gvar))
    if (header.majorVersion, header.minorVersion) != (1, 0) or header.flags not in (0, LONG_OFFSETS):
        return None
    if (header.axisCount, header.glyphCount) != (axes, glyphs):
        return None
    offsets_end = FIELDS.size + (4 if header.flags == LONG_OFFSETS else 2) * (glyphs + 1)
    tuples_at, size = header.sharedTuplesOffset, 2 * header.axisCount * header.sharedTupleCount
    if offsets_end > len(gvar) or header.sharedTupleCount and not offsets_end <= tuples_at <= len(gvar) - size:
        return None
    places = places_of(gvar, header)
    if any(place > following for place, following in zip(places, [*places[1:], len(gvar)])):
        return None
    data = [gvar[begin:end] for begin, end in zip(places, places[1:])]
    return Variations(gvar[:8], gvar[tuples_at:tuples_at + size], data)


@lru_cache(2)  # of two files that are joined
def variations_of(file: bytes) -> Optional[Variations]:
    """What the `gvar` of a font has, which is accepted without it, or None if it is refused."""
    tables = tables_of(file)
    fvar = tables.get(b"fvar", b"")
    return read_gvar(tables[b"gvar"], u16(fvar, 8) if len(fvar) >= 10 else None, u16(table(file, b"maxp"), 4))


def own_gsub(file: bytes) -> bytes:
    """The GSUB of a variable cut of a font, which is that of the font. If there is none there are no links."""
    return tables_of(file).get(b"GSUB", b"")


def exact_refusal(file: bytes) -> Optional[Refusal]:
    """The number and text of the first refusal that applies to a font, which is accepted without its tables of layout
    and of variations, for variable cuts for which no links are followed, or None."""
    refusal: Optional[Refusal] = record_refusal(file, ADDED)
    if refusal is None and b"gvar" in tables_of(file) and variations_of(file) is None:
        return BAD_VARIATIONS
    return refusal


def variable_refusal(file: bytes) -> Optional[Refusal]:
    """The same for variable cuts for which links are followed, which a GSUB that cannot be read refuses before `gvar`
    is looked at."""
    refusal: Optional[Refusal] = record_refusal(file, ADDED)
    if refusal is None and links_of(own_gsub(file)) is None:
        return 27, "bad layout"
    return refusal or exact_refusal(file)
