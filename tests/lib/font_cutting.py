"""A small maker of cuts, apart from the program: the bytes that `fontcut subset` has to write.

It follows OpenType 1.9, "Organization of an OpenType Font", `cmap` ("Format 12: Segmented coverage"),
`loca`, `glyf` and `head`, and docs/FORMAT.md, which says what a cut keeps.
"""
import struct
from array import array
from functools import lru_cache
from typing import Container, Iterable, Mapping, NamedTuple, Optional, Sequence

from font_reading import (KEPT, component_size, mapping, offset, records_of, search_fields, table, table_of, u16,
                          word_sum)
from sequence_reading import Pair, sequence_subtable, sequences_in

Ranges = Sequence[tuple[int, int]]  # of codes, both ends included


class Group(NamedTuple):
    """A group of a subtable of format 12."""

    first: int
    last: int
    glyph: int


ALL = [(0, 0x10FFFF)]


def ranges(words: str) -> list[tuple[int, int]]:
    """The ranges that typed words name, all of them well made."""
    ends = [word.removeprefix("U+").split("-") for word in words.split()]
    return [(int(pair[0], 16), int(pair[-1], 16)) for pair in ends]


def codes_of(words: str) -> list[int]:
    """The codes of range words."""
    return [code for first, last in ranges(words.replace(",", " ")) for code in range(first, last + 1)]


def ranges_of(codes: Iterable[int]) -> list[tuple[int, int]]:
    """The fewest ranges of these codes."""
    found: list[tuple[int, int]] = []
    for code in sorted(codes):
        if found and found[-1][1] == code - 1:
            found[-1] = found[-1][0], code
        else:
            found.append((code, code))
    return found


def padded(data: bytes) -> bytes:
    """The bytes, and the fewest zeros that fill them to a multiple of 4."""
    return bytes(data) + bytes(-len(data) % 4)


@lru_cache(2)  # of two files that are joined
def outlines(file: bytes) -> list[bytes]:
    """The records of all glyphs, in order of number."""
    glyf, loca, form = table(file, b"glyf"), table(file, b"loca"), u16(table(file, b"head"), 50)
    count = u16(table(file, b"maxp"), 4)
    places = [offset(loca, form, index) for index in range(count + 1)]
    return [glyf[begin:end] for begin, end in zip(places, places[1:])]


def component_glyphs(record: bytes) -> list[int]:
    """The glyphs that a record is composed of; a simple or an empty one of none."""
    place, more = 10, len(record) > 0 and record[0] >= 0x80
    glyphs: list[int] = []
    while more:
        flags, glyph = struct.unpack_from(">HH", record, place)
        glyphs.append(glyph)
        place += component_size(flags)
        more = flags & 0x20 != 0
    return glyphs


@lru_cache(2)  # of two files that are joined
def whole_map(file: bytes) -> dict[int, int]:
    """The glyph of each code that is mapped."""
    return mapping(table(file, b"cmap"), u16(table(file, b"maxp"), 4))


@lru_cache(2)  # of two files that are joined
def sequences(file: bytes) -> dict[Pair, int]:
    """The glyph of each variation sequence, by selector and code."""
    return sequences_in(table(file, b"cmap"), whole_map(file), u16(table(file, b"maxp"), 4))


def wanted_map(file: bytes, wanted: Ranges) -> dict[int, int]:
    """The same of the codes that lie in one of the wanted ranges."""
    return {code: glyph for code, glyph in whole_map(file).items()
            if any(first <= code <= last for first, last in wanted)}


def kept_glyphs(records: Sequence[bytes], glyphs: Iterable[int]) -> set[int]:
    """What chains of components lead to from .notdef and from these glyphs."""
    kept: set[int] = set()
    left = [0, *glyphs]
    while left:
        glyph = left.pop()
        if glyph not in kept:
            kept.add(glyph)
            left += component_glyphs(records[glyph])
    return kept


def groups_of(glyphs: Mapping[int, int]) -> list[Group]:
    """The fewest groups, ascending, that spell a map from codes to glyphs."""
    groups: list[Group] = []
    for code, glyph in sorted(glyphs.items()):
        if groups and (groups[-1].last + 1, groups[-1].glyph + code - groups[-1].first) == (code, glyph):
            groups[-1] = groups[-1]._replace(last=code)
        else:
            groups.append(Group(code, code, glyph))
    return groups


def cmap_table(groups: Sequence[tuple[int, int, int]], variants: Optional[Mapping[Pair, int]] = None) -> bytes:
    """A `cmap` with two records, 0/4 and 3/10, of one subtable of format 12. If there are variation sequences, a third
    record between them, 0/5, is of a subtable of format 14, which stands after the other one."""
    subtable = struct.pack(">HHIII", 12, 0, 16 + 12 * len(groups), 0, len(groups))
    subtable += b"".join(struct.pack(">III", *group) for group in groups)
    if not variants:
        return struct.pack(">HHHHIHHI", 0, 2, 0, 4, 20, 3, 10, 20) + subtable
    header = struct.pack(">HHHHIHHIHHI", 0, 3, 0, 4, 28, 0, 5, 28 + len(subtable), 3, 10, 28)
    return header + subtable + sequence_subtable(variants)


def cmap_with_sequences(file: bytes, wanted: Ranges, kept: Container[int]) -> bytes:
    """The `cmap` of a cut of a font that has the variation sequences of the kept glyphs."""
    variants = {pair: glyph for pair, glyph in sequences(file).items() if glyph in kept}
    return cmap_table(groups_of(wanted_map(file, wanted)), variants)


def glyf_and_loca(records: Iterable[bytes], kept: Container[int]) -> tuple[bytes, bytes]:
    """The outlines of the kept glyphs, each padded, and the long offsets of all glyphs."""
    glyf, places = bytearray(), array("I", [0])
    for glyph, record in enumerate(records):
        if glyph in kept:
            glyf += padded(record)
        places.append(len(glyf))
    # A `glyf` without a byte would be refused by some readers.
    return bytes(glyf) or bytes(4), struct.pack(f">{len(places)}I", *places)


def adjusted(head: bytes, adjustment: int) -> bytes:
    """The `head` with this checksumAdjustment."""
    return head[:8] + struct.pack(">I", adjustment) + head[12:]


def assembled(tables: Mapping[bytes, bytes]) -> bytes:
    """The file of these tables: the directory, then the tables in order of tag, all sums and search fields right."""
    summed = {**tables, b"head": adjusted(tables[b"head"], 0)}
    directory = struct.pack(">IHHHH", 0x00010000, len(tables), *(search_fields(len(tables)) or (0, 0, 0)))
    place = 12 + 16 * len(tables)
    for tag, data in sorted(summed.items()):
        directory += struct.pack(">4sIII", tag, word_sum(data), place, len(data))
        place += len(padded(data))

    def whole() -> bytes:
        return directory + b"".join(padded(data) for _, data in sorted(summed.items()))

    summed[b"head"] = adjusted(summed[b"head"], (0xB1B0AFBA - word_sum(whole())) % 2**32)
    return whole()


def cut_tables(file: bytes, wanted: Ranges, kept: Optional[Container[int]] = None) -> dict[bytes, bytes]:
    """The tables of the cut of a font for wanted ranges of codes, by tag; with the outlines of other kept glyphs where
    these are given."""
    records, glyphs = outlines(file), wanted_map(file, wanted)
    if kept is None:
        kept = kept_glyphs(records, glyphs.values())
    tables = {record.tag: table_of(file, record) for record in records_of(file) if record.tag in KEPT}
    tables[b"cmap"] = cmap_table(groups_of(glyphs))
    tables[b"glyf"], tables[b"loca"] = glyf_and_loca(records, kept)
    head = tables[b"head"]
    tables[b"head"] = head[:50] + struct.pack(">h", 1) + head[52:]
    return tables


def cut_size(tables: Mapping[bytes, bytes]) -> int:
    """How many bytes the file of these tables has."""
    return 12 + 16 * len(tables) + sum(len(data) + -len(data) % 4 for data in tables.values())


def cut(file: bytes, wanted: Ranges) -> bytes:
    """The cut of a font that is accepted, for wanted ranges of codes."""
    return assembled(cut_tables(file, wanted))


def in_first_profile(tables: Mapping[bytes, bytes]) -> dict[bytes, bytes]:
    """The tables of a cut as they were before: `cmap` has one record, 3/10, and `glyf` the outlines alone."""
    cmap = struct.pack(">HHHHI", 0, 1, 3, 10, 12) + tables[b"cmap"][20:]
    glyf = tables[b"glyf"] if any(tables[b"loca"]) else b""
    return {**tables, b"cmap": cmap, b"glyf": glyf}


def old_cut(file: bytes, wanted: Ranges) -> bytes:
    """The cut of a font that is accepted, for wanted ranges of codes, in the first profile."""
    return assembled(in_first_profile(cut_tables(file, wanted)))


def cut_form(file: bytes) -> str:
    """What `show` says of a file that is accepted: whether it is its own cut for all codes, in which profile."""
    tables = cut_tables(file, ALL)
    if assembled(tables) == file:
        return "yes"
    return "old" if assembled(in_first_profile(tables)) == file else "no"
