"""Tables of variations that are typed in, with what a second reading finds in them, and tables that are refused.

They are those of LETTERS in layout_making.py, which has ten glyphs.
"""
from typing import NamedTuple, Optional

from layout_making import coverage, gsub, lookup, numbers, single
from variable_making import fvar, gvar, some_axes, with_fields
from variable_reading import VARIATIONS

# What LETTERS has of each glyph where nothing else is said, with long offsets and with short ones.
DATA = [bytes.fromhex(word) for word in (
    "A0A1", "B0B1B2B3B4", "", "C0", "D0D1D2D3", "", "E0E1E2E3E4E5E6", "F0F1", "121314151617", "1A1B1C")]
EVEN = [part + bytes(len(part) % 2) for part in DATA]
TUPLES = [bytes.fromhex("4000"), bytes.fromhex("C000")]
NONE = [b""] * 10
# Where the offsets of ten glyphs end, by the value of flags.
END = {0: 20 + 2 * 11, 1: 20 + 4 * 11}

ONE_AXIS = fvar(*some_axes(1))
LONG, SHORT = gvar(DATA, TUPLES), gvar(EVEN, TUPLES, flags=0)

# LONG, byte for byte.
TYPED_LONG = bytes.fromhex(
    "0001" "0000"  # majorVersion, minorVersion
    "0001" "0002"  # axisCount, sharedTupleCount
    "00000040"  # sharedTuplesOffset
    "000A" "0001"  # glyphCount, flags
    "00000044"  # glyphVariationDataArrayOffset
    "00000000" "00000002" "00000007" "00000007" "00000008" "0000000C"  # where the data of glyphs 0 to 5 begins
    "0000000C" "00000013" "00000015" "0000001B" "0000001E"  # of glyphs 6 to 9, and where the last one ends
    "4000" "C000"  # the shared tuples
    "A0A1" "B0B1B2B3B4" "C0" "D0D1D2D3" "E0E1E2E3E4E5E6" "F0F1" "121314151617" "1A1B1C")  # the data

# SHORT, byte for byte.
TYPED_SHORT = bytes.fromhex(
    "0001" "0000" "0001" "0002"  # majorVersion, minorVersion, axisCount, sharedTupleCount
    "0000002A" "000A" "0000" "0000002E"  # sharedTuplesOffset, glyphCount, flags, glyphVariationDataArrayOffset
    "0000" "0001" "0004" "0004" "0005" "0007" "0007" "000B" "000C" "000F" "0011"  # the offsets, by halves
    "4000" "C000"  # the shared tuples
    "A0A1" "B0B1B2B3B400" "C000" "D0D1D2D3" "E0E1E2E3E4E5E600" "F0F1" "121314151617" "1A1B1C00")  # the data


class Read(NamedTuple):
    """A `gvar` that is accepted, what is read of it, and its `fvar`."""

    name: str
    gvar: bytes
    shared_tuples: bytes = b"".join(TUPLES)
    data: list[bytes] = DATA
    fvar: bytes = ONE_AXIS


def slices(table: bytes, *places: int) -> list[bytes]:
    """What stands in a table between each place and the next one."""
    return [table[begin:end] for begin, end in zip(places, places[1:])]


# Data of glyph 0 over the header, of 1 over the offsets, of 2 over the tuples, and of the others nothing.
OVER_ALL = with_fields(gvar(DATA, TUPLES, offsets=[0, 20, 64, 68, *[68] * 7]), glyphVariationDataArrayOffset=0)
OVER_HALF = with_fields(gvar(EVEN, TUPLES, flags=0, offsets=[2, 18, 40, 44, *[44] * 7]),
                        glyphVariationDataArrayOffset=2)
AMID = with_fields(gvar([b"\1\2\x40\0\xC0\0\7", *NONE[1:]]), sharedTupleCount=2, sharedTuplesOffset=END[1] + 2)
REST = gvar([b"\1\2\3\4\5\6\7\x08"], TUPLES, offsets=[3, 5, 5, 5, 5, 5, 5, 5, 5, 5, 8])

ACCEPTED = [
    Read("long offsets", LONG), Read("short offsets", SHORT, data=EVEN),
    Read("a gap after the offsets", gvar(DATA, TUPLES, gaps=(b"gap", b"", b""))),
    Read("a gap after the tuples", gvar(DATA, TUPLES, gaps=(b"", b"gap", b""))),
    Read("bytes after the data", gvar(DATA, TUPLES, gaps=(b"", b"", b"\0rest"))),
    Read("bytes after short data", gvar(EVEN, TUPLES, flags=0, gaps=(b"", b"", b"\0")), data=EVEN),
    Read("the first offset is not 0", REST, data=[b"\4\5", *NONE[:8], b"\6\7\x08"]),
    Read("the first short offset is not 0", gvar([b"\1\2\3\4\5\6"], TUPLES, flags=0, offsets=[2, *[4] * 9, 6]),
         data=[b"\3\4", *NONE[:8], b"\5\6"]),
    Read("tuples after the data", with_fields(
        gvar(DATA, gaps=(b"", b"", b"".join(TUPLES))), sharedTupleCount=2, sharedTuplesOffset=END[1] + 30)),
    Read("tuples within the data", AMID, data=[b"\1\2\x40\0\xC0\0\7", *NONE[1:]]),
    Read("data over all other parts", OVER_ALL, data=[*slices(OVER_ALL, 0, 20, 64, 68), *NONE[:7]]),
    Read("short data over all other parts", OVER_HALF, data=[*slices(OVER_HALF, 4, 20, 42, 46), *NONE[:7]]),
    Read("no shared tuples", gvar(DATA), b""),
    Read("no shared tuples, offset 0", with_fields(gvar(DATA), sharedTuplesOffset=0), b""),
    Read("no shared tuples, an offset far off", with_fields(gvar(DATA), sharedTuplesOffset=0xFFFFFFFF), b""),
    Read("no data", gvar(NONE, TUPLES), data=NONE),
    Read("no data and no tuples", gvar(NONE), b"", NONE),
    Read("no data, by offsets that are not 0", gvar([b"data"], TUPLES, offsets=[4] * 11), data=NONE),
    Read("two axes", gvar(DATA, [b"1234"], axes=2), b"1234", fvar=fvar(*some_axes(2))),
    Read("no axis", gvar(DATA, axes=0), b"", fvar=fvar()),
    Read("no axis, and tuples of no bytes", with_fields(gvar(DATA, axes=0), sharedTupleCount=3), b"", fvar=fvar()),
    Read("no axis, and tuples of no bytes at the end",
         with_fields(gvar(DATA, axes=0), sharedTupleCount=65535, sharedTuplesOffset=END[1] + 30), b"", fvar=fvar()),
    Read("an fvar of ten bytes", LONG, fvar=bytes(8) + b"\0\1"),
    Read("an fvar of which nothing else is read", LONG, fvar=b"\xff" * 8 + b"\0\1" + b"\xff" * 8),
]

FALLING = [0, 2, 7, 7, 8, 12, 11, 19, 21, 27, 30]


class Refused(NamedTuple):
    """A `gvar` that is refused, with its `fvar`."""

    name: str
    gvar: bytes
    fvar: Optional[bytes] = ONE_AXIS


def changed(name: str, **fields: int) -> Refused:
    """LONG with other fields."""
    return Refused(name, with_fields(LONG, **fields))


REFUSED = [
    Refused("no byte", b""), Refused("nineteen bytes", LONG[:19]), Refused("a header alone", LONG[:20]),
    changed("version 0.0", majorVersion=0), changed("version 2.0", majorVersion=2),
    changed("version 1.1", minorVersion=1), changed("version 0.1", majorVersion=0, minorVersion=1),
    Refused("no fvar", LONG, None), Refused("an empty fvar", LONG, b""),
    Refused("an fvar of nine bytes", LONG, ONE_AXIS[:9]),
    Refused("no axis without fvar", gvar(DATA, axes=0), None),
    Refused("no axis in an fvar of nine bytes", gvar(DATA, axes=0), bytes(9)),
    Refused("one axis more than fvar", gvar(DATA, [b"1234"], axes=2)),
    Refused("one axis fewer than fvar", LONG, fvar(*some_axes(2))),
    Refused("no axis, and one in fvar", gvar(DATA, axes=0)),
    Refused("a glyph fewer", gvar(DATA[:9], TUPLES)), Refused("a glyph more", gvar([*DATA, b"\1"], TUPLES)),
    changed("no glyph", glyphCount=0), changed("one glyph more without its offset", glyphCount=11),
    # Offsets that are all 0 are right in both forms.
    *(Refused(f"flags 0x{flags:04X}", with_fields(gvar(NONE), flags=flags))
      for flags in (0x0002, 0x0003, 0x0100, 0x0101, 0x8000, 0x8001, 0xFFFF)),
    Refused("long offsets that end a byte early", gvar(NONE)[:-1]),
    Refused("short offsets that end a byte early", gvar(NONE, flags=0)[:-1]),
    Refused("short offsets that are said to be long", gvar(NONE, flags=0)[:14] + b"\0\1" + gvar(NONE, flags=0)[16:]),
    changed("tuples that begin a byte early", sharedTuplesOffset=END[1] - 1),
    changed("tuples at 0", sharedTuplesOffset=0), changed("tuples over the header", sharedTuplesOffset=16),
    changed("tuples that end a byte late", sharedTuplesOffset=len(LONG) - 3),
    changed("tuples after the end", sharedTuplesOffset=len(LONG)),
    changed("tuples far off", sharedTuplesOffset=0xFFFFFFFE),
    changed("more tuples than there is room for", sharedTupleCount=18),
    Refused("short offsets, and tuples a byte early", with_fields(SHORT, sharedTuplesOffset=END[0] - 1)),
    Refused("tuples of no bytes a byte early",
            with_fields(gvar(DATA, axes=0), sharedTupleCount=1, sharedTuplesOffset=END[1] - 1), fvar()),
    Refused("tuples of no bytes after the end",
            with_fields(gvar(DATA, axes=0), sharedTupleCount=1, sharedTuplesOffset=END[1] + 31), fvar()),
    Refused("an offset that falls", gvar(DATA, TUPLES, offsets=FALLING)),
    Refused("a first offset above the second", gvar(DATA, TUPLES, offsets=[1, *[0] * 10])),
    Refused("a last offset that falls", gvar(DATA, TUPLES, offsets=[*[2] * 10, 1])),
    Refused("a short offset that falls", gvar(EVEN, TUPLES, flags=0, offsets=[*[4] * 10, 2])),
    Refused("an offset that falls, and the end is right", gvar(DATA, TUPLES, offsets=[0, 30, *[0] * 8, 30])),
    Refused("the last byte of the data is missing", LONG[:-1]),
    Refused("the last byte of short data is missing", SHORT[:-1]),
    Refused("a last short offset past the end", gvar(EVEN, TUPLES, flags=0, offsets=[*[0] * 10, 36])),
    Refused("an offset past the end by far", gvar(DATA, TUPLES, offsets=[*[0] * 10, 0xFFFFFFFF])),
    changed("data that ends a byte late", glyphVariationDataArrayOffset=len(LONG) - 29),
    Refused("data of no bytes after the end",
            with_fields(gvar(NONE, TUPLES), glyphVariationDataArrayOffset=END[1] + 5)),
    # These are in the table if their sum wraps at 32 bits.
    Refused("an offset that would wrap", with_fields(gvar(DATA, TUPLES, offsets=[1, 3, *[3] * 9]),
                                                     glyphVariationDataArrayOffset=0xFFFFFFFF)),
    Refused("all offsets are past the end", with_fields(gvar(NONE, TUPLES), glyphVariationDataArrayOffset=0xFFFFFFFF)),
]

# Tables whose last byte is wanted: each shorter one is refused.
CUT_OFF = {
    "long": LONG, "short": SHORT, "no data": gvar(NONE), "tuples at the end": ACCEPTED[8].gvar,
    "tuples and no data": gvar(NONE, TUPLES), "data over all": OVER_ALL[:68],
}

# A GSUB of version 1.1 whose lookup list lies over the offset to variations, so that layout cuts do not see its links.
# They lead from A to 9 and from C to 7, which is composed of 8; that from 8 to 5 is not followed.
LINKED = gsub(lookup(1, single(coverage(1, 3, 8), 9, 7, 5)), minor=1)

# The gvar of the variable cuts of LETTERS with LINKED: for U+0041, which keeps 0, 1 and 9, of LONG; for U+0043, which
# keeps 0, 3, 7 and 8, of SHORT; for no code, which keeps 0, of no tuples.
CUT_OF_A = bytes.fromhex(
    "0001" "0000" "0001" "0002" "00000040" "000A" "0001" "00000044"  # as TYPED_LONG has it
    "00000000" "00000002" "00000007" "00000007" "00000007" "00000007"  # glyphs 0 to 5
    "00000007" "00000007" "00000007" "00000007" "0000000A"  # glyphs 6 to 9, and the end
    "4000" "C000"  # the shared tuples
    "A0A1" "B0B1B2B3B4" "1A1B1C")  # glyphs 0, 1 and 9, without padding
CUT_OF_C = bytes.fromhex(
    "0001" "0000" "0001" "0002" "00000040" "000A" "0001" "00000044"  # long offsets, though SHORT has others
    "00000000" "00000002" "00000002" "00000002" "00000004" "00000004"  # glyphs 0 to 5
    "00000004" "00000004" "00000006" "0000000C" "0000000C"  # glyphs 6 to 9, and the end
    "4000" "C000"  # the shared tuples
    "A0A1" "C000" "F0F1" "121314151617")  # glyphs 0, 3, 7 and 8
CUT_OF_NOTHING = bytes.fromhex(
    "0001" "0000" "0001" "0000" "00000040" "000A" "0001" "00000040"  # no shared tuples, and where they would be
    "00000000" "00000002" "00000002" "00000002" "00000002" "00000002"  # glyphs 0 to 5
    "00000002" "00000002" "00000002" "00000002" "00000002"  # glyphs 6 to 9, and the end
    "A0A1")  # glyph 0

# A GSUB of which a lookup of type 5 lies over the offset to variations.
BAD_ONCE_CLEARED = numbers(1, 1, 0, 1, 6, 0, 5, 0, 0)

# Tables of which GSUB and gvar are bad.
BAD_TABLES = {b"GSUB": numbers(2, 0, 0, 0, 0), b"gvar": b"", b"fvar": ONE_AXIS}

# Tables of LETTERS: all those of layout, with offsets to variations, which stay, and all those of variations.
VARIED = {
    b"BASE": bytes.fromhex("00010001 00080009 00000044"), b"GSUB": LINKED, b"kern": b"kern",
    b"GDEF": bytes.fromhex("00010003 0000000000000000 0000 00010002"),
    b"GPOS": bytes.fromhex("00010001 000000000000 00000001"),
    **{tag: tag + b"\1\2\3" for tag in VARIATIONS}, b"fvar": ONE_AXIS, b"gvar": LONG,
}

# What the cut of LETTERS with VARIED for U+0041 has of each glyph, and tables with this that no cut has; the first one
# has data of another glyph too.
KEPT_DATA = [DATA[0], DATA[1], *[b""] * 7, DATA[9]]
MORE_DATA = gvar([*KEPT_DATA[:2], b"\1", *KEPT_DATA[3:]], TUPLES)
NO_CUTS = {
    "short offsets": gvar([part + bytes(len(part) % 2) for part in KEPT_DATA], TUPLES, flags=0),
    "tuples after the data": with_fields(gvar(KEPT_DATA, gaps=(b"", b"", b"".join(TUPLES))), sharedTupleCount=2,
                                         sharedTuplesOffset=END[1] + len(b"".join(KEPT_DATA))),
    "a byte before the data": gvar([b"\0", *KEPT_DATA], TUPLES, offsets=[1, 3, *[8] * 8, 11]),
    "a byte after the data": CUT_OF_A + b"\0",
    "a gap after the offsets": gvar(KEPT_DATA, TUPLES, gaps=(b"\0", b"", b"")),
    "a gap after the tuples": gvar(KEPT_DATA, TUPLES, gaps=(b"", b"\0", b"")),
    "no tuples, offset 0": with_fields(gvar(KEPT_DATA), sharedTuplesOffset=0),
}
