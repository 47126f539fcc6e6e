"""A small reading of variation sequences, apart from the program: the glyph of each selector and character, and the
subtable of `cmap` that says so.

It follows OpenType 1.9, cmap, "Format 14: Unicode variation sequences". That a table is read strictly or not at all,
and that cuts have no default ranges, is this project's own.
"""
import struct
from itertools import groupby
from typing import Mapping, NamedTuple, Optional, Sequence

from font_reading import u16, u32

MOST_PAIRS = 1_048_576
LAST_CODE = 0x10FFFF
HEADER, RECORD, RANGE, MAPPING = 10, 11, 4, 5  # the sizes of the standard's structures in bytes

Pair = tuple[int, int]  # a selector and a code


def u24(data: bytes, at: int) -> int:
    return int.from_bytes(data[at:at + 3], "big")


class Selector(NamedTuple):
    """A VariationSelector record: the selector, and the offsets to its ranges and its mappings, of which 0 is none."""

    number: int
    ranges: int
    mappings: int

    def size(self, table: bytes) -> int:
        """How many codes its lists have, which lie in the table."""
        ranges = listed(table, self.ranges)
        more = table[self.ranges + 7:self.ranges + 4 + RANGE * ranges:RANGE]
        return ranges + sum(more) + listed(table, self.mappings)

    def spans(self, table: bytes) -> list[tuple[int, int]]:
        """The first and the last code of each range."""
        places = range(self.ranges + 4, self.ranges + 4 + RANGE * listed(table, self.ranges), RANGE)
        return [(u24(table, at), u24(table, at) + table[at + 3]) for at in places]

    def glyphs(self, table: bytes) -> list[tuple[int, int]]:
        """The code and the glyph of each mapping."""
        places = range(self.mappings + 4, self.mappings + 4 + MAPPING * listed(table, self.mappings), MAPPING)
        return [(u24(table, at), u16(table, at + 3)) for at in places]


def listed(table: bytes, at: int) -> int:
    """How many items a list has, whose offset is 0 if there is none."""
    return u32(table, at) if at else 0


def is_inside(table: bytes, at: int, size: int) -> bool:
    """Whether a list of items of this size lies in the table."""
    return at == 0 or (at + 4 <= len(table) and at + 4 + size * u32(table, at) <= len(table))


def only_subtable(cmap: bytes) -> Optional[bytes]:
    """The subtable of the only encoding record 0/5 from its start to the end that it states, if it is of format 14 and
    lies in `cmap`."""
    count = u16(cmap, 2) if len(cmap) >= 4 else 0
    records = [struct.unpack_from(">HHI", cmap, at) for at in range(4, min(4 + 8 * count, len(cmap) - 7), 8)]
    places = [place for platform, encoding, place in records if (platform, encoding) == (0, 5)]
    table = cmap[places[0]:] if len(places) == 1 else b""
    if len(table) < HEADER or u16(table, 0) != 14 or not HEADER <= u32(table, 2) <= len(table):
        return None
    return table[:u32(table, 2)]


def selectors_of(table: bytes) -> Optional[list[Selector]]:
    """The records of a subtable, if they and all their lists lie in it, they ascend, and they have not too many codes
    together."""
    count = u32(table, 6)
    if HEADER + RECORD * count > len(table):
        return None
    found = [Selector(u24(table, at), u32(table, at + 3), u32(table, at + 7))
             for at in range(HEADER, HEADER + RECORD * count, RECORD)]
    if not are_ascending([(one.number, one.number) for one in found]):
        return None
    pairs = 0
    for one in found:
        if not is_inside(table, one.ranges, RANGE) or not is_inside(table, one.mappings, MAPPING):
            return None
        pairs += one.size(table)
        if pairs > MOST_PAIRS:
            return None
    return found


def are_ascending(spans: Sequence[tuple[int, int]]) -> bool:
    """Whether spans of codes ascend without overlap, and no code is above the last one that there is."""
    return all(last <= LAST_CODE for _, last in spans) and all(
        one[1] < other[0] for one, other in zip(spans, spans[1:]))


def entries(cmap: bytes) -> dict[Pair, Optional[int]]:
    """What a `cmap` says of variation sequences: their glyphs, or None for that of the code; nothing at all if the
    subtable is not strictly well formed."""
    table, found = only_subtable(cmap), dict[Pair, Optional[int]]()
    for selector in (selectors_of(table) or []) if table else []:
        assert table, "it has selectors"
        spans, glyphs = selector.spans(table), selector.glyphs(table)
        plain = {code for first, last in spans for code in range(first, last + 1)}
        if not are_ascending(spans) or not are_ascending([(code, code) for code, _ in glyphs]) or (
                any(code in plain for code, _ in glyphs)):
            return {}
        found.update({(selector.number, code): None for code in plain})
        found.update({(selector.number, code): glyph for code, glyph in glyphs})
    return found


def sequences_in(cmap: bytes, mapped: Mapping[int, int], count: int) -> dict[Pair, int]:
    """The glyph, which is there, of each sequence of a font with this map and so many glyphs."""
    found = {pair: mapped.get(pair[1], 0) if glyph is None else glyph for pair, glyph in entries(cmap).items()}
    return {pair: glyph for pair, glyph in sorted(found.items()) if 0 < glyph < count}


def sequence_subtable(sequences: Mapping[Pair, int]) -> bytes:
    """The subtable of format 14 in which each sequence is a mapping of its own: the records of the selectors, and then
    their lists, end to end."""
    rows = [(selector, [struct.pack(">I", code)[1:] + struct.pack(">H", glyph) for (_, code), glyph in group])
            for selector, group in groupby(sorted(sequences.items()), lambda item: item[0][0])]
    records, lists = bytearray(), bytearray()
    for selector, mappings in rows:
        place = HEADER + RECORD * len(rows) + len(lists)
        records += struct.pack(">I", selector)[1:] + struct.pack(">II", 0, place)
        lists += struct.pack(">I", len(mappings)) + b"".join(mappings)
    return struct.pack(">HII", 14, HEADER + len(records) + len(lists), len(rows)) + bytes(records + lists)
