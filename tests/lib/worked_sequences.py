"""Subtables of variation sequences that are typed in, for the font of ten glyphs of `layout_making`: which sequences a
font with them has, and how a cut has them."""
import struct
from typing import NamedTuple, Sequence

from sequence_making import Lists, format14, u24_bytes
from sequence_reading import Pair

LAST_CODE = 0x10FFFF
# Ranges of all codes up to U+FFFFF, as many as sequences may be: 4,096 of 256 codes.
MOST = [(code, 255) for code in range(0, 0x100000, 0x100)]


class Typed(NamedTuple):
    """Subtables of encoding records 0/5, and the glyphs of the sequences that a font with these has. It maps U+0041 to
    U+0046 to the glyphs 1 to 6, and has ten glyphs."""

    name: str
    subtables: Sequence[bytes]
    pairs: dict[Pair, int]


def one(name: str, pairs: dict[Pair, int], *rows: Lists) -> Typed:
    """A font with one subtable."""
    return Typed(name, [format14(*rows)], pairs)


def same_list(*selectors: int) -> bytes:
    """A subtable whose selectors share one list of mappings, that of U+0042 to glyph 5."""
    place = 10 + 11 * len(selectors)
    records = b"".join(u24_bytes(selector) + struct.pack(">II", 0, place) for selector in selectors)
    return struct.pack(">HII", 14, place + 9, len(selectors)) + records + bytes.fromhex("00000001 000042 0005")


FIRST, SECOND, THIRD = 0xFE00, 0xFE01, 0xE0100
PLAIN = format14(Lists(FIRST, [(0x41, 0)], [(0x42, 5)]))
PLAIN_PAIRS: dict[Pair, int] = {(FIRST, 0x41): 1, (FIRST, 0x42): 5}


def with_number(subtable: bytes, at: int, size: int, number: int) -> bytes:
    """A subtable with another number at a place."""
    return subtable[:at] + number.to_bytes(size, "big") + subtable[at + size:]


READ = [
    one("no selector", {}),
    one("a range", {(FIRST, 0x41): 1, (FIRST, 0x42): 2}, Lists(FIRST, [(0x41, 1)])),
    one("a mapping", {(FIRST, 0x41): 9}, Lists(FIRST, [], [(0x41, 9)])),
    one("a mapping of a character that is not mapped", {(THIRD, 0x4E00): 7}, Lists(THIRD, [], [(0x4E00, 7)])),
    one("ranges over characters that are not mapped", {(FIRST, 0x41): 1, (FIRST, 0x46): 6},
        Lists(FIRST, [(0x3F, 2), (0x46, 255), (0x4E00, 0)])),
    one("glyphs that are not there", {(FIRST, 0x43): 9}, Lists(FIRST, [], [(0x41, 0), (0x42, 10), (0x43, 9)])),
    one("a selector without lists, and another", {(SECOND, 0x41): 1}, Lists(FIRST), Lists(SECOND, [(0x41, 0)])),
    one("selectors that Unicode has not", {(0, 0x41): 1, (LAST_CODE, 0x41): 2},
        Lists(0, [(0x41, 0)]), Lists(LAST_CODE, [], [(0x41, 2)])),
    one("the same in two selectors", {(FIRST, 0x41): 1, (SECOND, 0x41): 1},
        Lists(FIRST, [(0x41, 0)]), Lists(SECOND, [], [(0x41, 1)])),
    one("ranges that touch", {(FIRST, 0x41): 1, (FIRST, 0x42): 2, (FIRST, 0x43): 3},
        Lists(FIRST, [(0x41, 1), (0x43, 0)])),
    one("a mapping between ranges", {(FIRST, 0x41): 1, (FIRST, 0x42): 8, (FIRST, 0x43): 3},
        Lists(FIRST, [(0x41, 0), (0x43, 0)], [(0x42, 8)])),
    one("the first and the last character", {(FIRST, 0): 3, (FIRST, LAST_CODE): 4},
        Lists(FIRST, [], [(0, 3), (LAST_CODE, 4)])),
    one("a range to the last character", {}, Lists(FIRST, [(LAST_CODE - 255, 255)])),
    one("as many as there may be", {(FIRST, code): code - 0x40 for code in range(0x41, 0x47)}, Lists(FIRST, MOST)),
    Typed("bytes after the subtable", [PLAIN + b"\0\1"], PLAIN_PAIRS),
    Typed("bytes after the lists", [with_number(PLAIN + b"\0\1", 2, 4, len(PLAIN) + 2)], PLAIN_PAIRS),
    Typed("a list that two selectors share", [same_list(FIRST, THIRD)], {(FIRST, 0x42): 5, (THIRD, 0x42): 5}),
]

NOT_READ = [
    one("selectors that descend", {}, Lists(SECOND, [(0x41, 0)]), Lists(FIRST, [(0x41, 0)])),
    one("a selector twice", {}, Lists(FIRST, [(0x41, 0)]), Lists(FIRST, [(0x42, 0)])),
    one("a selector past the last character", {}, Lists(FIRST, [(0x41, 0)]), Lists(LAST_CODE + 1, [(0x41, 0)])),
    one("ranges that descend", {}, Lists(FIRST, [(0x43, 0), (0x41, 0)])),
    one("ranges that overlap", {}, Lists(FIRST, [(0x41, 2), (0x43, 0)])),
    one("a range past the last character", {}, Lists(FIRST, [(0x41, 0), (LAST_CODE, 1)])),
    one("mappings that descend", {}, Lists(FIRST, [], [(0x42, 1), (0x41, 1)])),
    one("a mapping twice", {}, Lists(FIRST, [], [(0x41, 1), (0x41, 1)])),
    one("a mapping past the last character", {}, Lists(FIRST, [], [(0x41, 1), (LAST_CODE + 1, 1)])),
    one("a character in both lists", {}, Lists(FIRST, [(0x41, 2)], [(0x42, 5)])),
    one("a second selector that is not in order", {}, Lists(FIRST, [(0x41, 0)]), Lists(SECOND, [(0x42, 0), (0x41, 0)])),
    one("one more than there may be", {}, Lists(FIRST, MOST, [(0x100000, 1)])),
    Typed("two subtables", [PLAIN, PLAIN], {}),
    Typed("two records, and one of another format", [PLAIN, with_number(PLAIN, 0, 2, 12)], {}),
    Typed("another format", [with_number(PLAIN, 0, 2, 13)], {}),
    Typed("a length that cuts the last list off", [with_number(PLAIN, 2, 4, len(PLAIN) - 1)], {}),
    Typed("a length past the end of cmap", [with_number(PLAIN, 2, 4, len(PLAIN) + 1)], {}),
    Typed("the greatest length", [with_number(PLAIN, 2, 4, 0xFFFFFFFF)], {}),
    Typed("a length of less than the header", [with_number(format14(), 2, 4, 9)], {}),
    Typed("one selector more than there is room for", [with_number(format14(), 6, 4, 1)], {}),
    Typed("the greatest number of selectors", [with_number(PLAIN, 6, 4, 0xFFFFFFFF)], {}),
    Typed("the greatest number of ranges", [with_number(PLAIN, 21, 4, 0xFFFFFFFF)], {}),
    Typed("the greatest number of mappings", [with_number(PLAIN, 29, 4, 0xFFFFFFFF)], {}),
    Typed("the greatest offset of ranges", [with_number(PLAIN, 13, 4, 0xFFFFFFFF)], {}),
    Typed("the greatest offset of mappings", [with_number(PLAIN, 17, 4, 0xFFFFFFFF)], {}),
    Typed("an offset to the end", [with_number(PLAIN, 17, 4, len(PLAIN))], {}),
]

# A subtable, and the `cmap` of the cut for U+0042 and glyph 5 of a font that has it.
CUT_OF = format14(Lists(FIRST, [(0x42, 0)], [(0x41, 5), (0x43, 5)]), Lists(THIRD, [], [(0x42, 2), (0x46, 6)]))
CUT_CMAP = bytes.fromhex("""
    0000 0003
    0000 0004 0000001C
    0000 0005 00000038
    0003 000A 0000001C
    000C 0000 0000001C 00000000 00000001
    00000042 00000042 00000002
    000E 0000003C 00000002
    00FE00 00000000 00000020
    0E0100 00000000 00000033
    00000003 000041 0005 000042 0002 000043 0005
    00000001 000042 0002
""")
