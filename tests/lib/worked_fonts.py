"""Small fonts that are made of the font of six glyphs: other records, tables, mappings, directories, field by field."""
import struct
from typing import Iterable, Mapping, Optional, Sequence, Union
from font_changing import with_tables
from font_cutting import assembled
from font_reading import adjustment_of, checksum_of, records_of, search_fields
from worked_cuts import BASE6, base6_tables, with_byte

# A table's tag, and a place and the byte there, or bytes that stand behind what it has.
Change = Union[tuple[bytes, int, int], tuple[bytes, bytes]]

# The records of its glyphs.
RECORDS = [BASE6[192:204], BASE6[204:218], BASE6[218:228], BASE6[228:250], b"", BASE6[250:262]]


def composite(components: Iterable[tuple[int, int]], rest: bytes = b"") -> bytes:
    """The record of a composite: each component is flags and a glyph, and has two bytes of arguments, whatever its
    flags say."""
    parts = b"".join(struct.pack(">HHH", flags, glyph, 0) for flags, glyph in components)
    return b"\xff\xff" + bytes(8) + parts + rest


def with_records(changed: Mapping[int, bytes]) -> bytes:
    """The font with other records for some of its glyphs, each of an even length."""
    records = [changed.get(glyph, record) for glyph, record in enumerate(RECORDS)]
    places = [sum(map(len, records[:glyph])) // 2 for glyph in range(7)]
    return with_tables(BASE6, {b"glyf": b"".join(records), b"loca": struct.pack(">7H", *places)})


def with_first_component(glyph: int) -> bytes:
    """The record of glyph 3 with this glyph as its first component."""
    return with_byte(RECORDS[3], 13, glyph)


def composite_of_composite() -> bytes:
    return with_records({5: composite([(0x0002, 3)])})


def ring_of_two() -> bytes:
    """Glyphs 3 and 5 have each other as components."""
    return with_records({3: with_first_component(5), 5: composite([(0x0002, 3)])})


def glyph_of_itself() -> bytes:
    return with_records({3: with_first_component(3)})


def changed(*changes: Change) -> bytes:
    """The font with changes: a table's tag, and a place and the byte there, or the bytes behind what it has."""
    tables = base6_tables()
    for change in changes:
        table = tables.get(change[0], b"")
        place, new = change[1], change[-1]
        if isinstance(place, int) and isinstance(new, int):
            tables[change[0]] = with_byte(table, place, new)
        elif isinstance(new, bytes):
            tables[change[0]] = table + new
    return assembled(tables)


def other_outline() -> bytes:
    """The last byte of glyph 1 is another."""
    return changed((b"glyf", 25, 0x23))


def moved(file: bytes, tag: bytes, table: bytes) -> bytes:
    """A file whose record of this tag names these bytes, which stand behind all others. No sum is made right."""
    slot = next(slot for slot, record in enumerate(records_of(file)) if record.tag == tag)
    at = 12 + 16 * slot + 8
    return file[:at] + struct.pack(">II", len(file), len(table)) + file[at + 8:] + table


def with_bytes_at(file: bytes, at: int, data: bytes) -> bytes:
    """A file with these bytes from a place on. No sum is made right."""
    return file[:at] + data + file[at + len(data):]


# Mappings.

def format4(segments: Sequence[tuple[int, int, int, int]], array: Sequence[int] = ()) -> bytes:
    """A subtable of format 4: startCode, endCode, idDelta and idRangeOffset of each segment, and the glyphIdArray."""
    starts, ends, deltas, offsets = zip(*segments) if segments else [()] * 4
    fields = [4, 0, 0, 2 * len(segments), 0, 0, 0, *ends, 0, *starts, *(delta % 65536 for delta in deltas), *offsets]
    return struct.pack(f">{len(fields) + len(array)}H", *fields, *array)


def by_deltas(*listed: tuple[int, int, int]) -> bytes:
    """A `cmap` of segments, of which startCode, endCode and the glyph of startCode are listed."""
    return cmap_of((3, 1, format4([(start, end, glyph - start, 0) for start, end, glyph in listed])))


def format12(groups: Sequence[tuple[int, int, int]], count: Optional[int] = None) -> bytes:
    """A subtable of format 12 with these groups, which says that it has as many, or another number of them."""
    header = struct.pack(">HHIII", 12, 0, 0, 0, len(groups) if count is None else count)
    return header + b"".join(struct.pack(">III", *group) for group in groups)


def cmap_of(*subtables: tuple[int, int, bytes]) -> bytes:
    """A `cmap` of subtables, one after the other, each behind its platform and encoding."""
    records, bodies, place = b"", b"", 4 + 8 * len(subtables)
    for platform, encoding, subtable in subtables:
        records += struct.pack(">HHI", platform, encoding, place + len(bodies))
        bodies += subtable
    return struct.pack(">HH", 0, len(subtables)) + records + bodies


def font_with(cmap: bytes, glyphs: int = 6) -> bytes:
    """The font with another `cmap`, and where there are other than six glyphs, with as many empty ones."""
    tables = {**base6_tables(), b"cmap": cmap}
    if glyphs != 6:
        maxp, hhea = tables[b"maxp"], tables[b"hhea"]
        tables.update({b"maxp": maxp[:4] + struct.pack(">H", glyphs) + maxp[6:], b"hhea": hhea[:34] + b"\0\1",
                       b"hmtx": bytes(2 * glyphs + 2), b"loca": bytes(2 * glyphs + 2), b"glyf": b""})
    return assembled(tables)


def one_more_code() -> bytes:
    """U+0043 is mapped to glyph 2 besides."""
    return font_with(by_deltas((0x20, 0x20, 4), (0x41, 0x41, 1), (0x42, 0x42, 5), (0x43, 0x43, 2), (0xC1, 0xC1, 3),
                               (0xFFFF, 0xFFFF, 0)))


# U+0042 has glyph 3 by the glyphIdArray, U+0041 an entry of 0, and the last segment's entry is past the table.
BY_ARRAY = bytes.fromhex("""
    00000001 00030001 0000000C
    00040024 00000004 00040001
    00000042 FFFF0000 0041FFFF
    00050001 0004FFFF 0000FFFE
""")


def by_groups() -> bytes:
    """The groups (41, 41, 5) and (42, 10FFFF, 0) under 3/10 behind the segments of the font under 3/1."""
    return font_with(cmap_of((3, 1, BASE6[136:192]), (3, 10, format12([(0x41, 0x41, 5), (0x42, 0x10FFFF, 0)]))))


# Directories.

def file_of_records(records: Sequence[tuple[bytes, int, int, int]], rest: bytes = b"") -> bytes:
    """A file of these records (tag, checksum, offset, length) and of bytes behind them. No sum is made right."""
    fields = search_fields(len(records)) or (0, 0, 0)
    directory = struct.pack(">IHHHH", 0x00010000, len(records), *fields)
    return directory + b"".join(struct.pack(">4sIII", *record) for record in records) + rest


def summed(file: bytes) -> bytes:
    """A file with right sums in the place of its own."""
    made = bytearray(file)
    for slot, record in enumerate(records_of(made)):
        struct.pack_into(">I", made, 12 + 16 * slot + 4, checksum_of(made, record))
    place = next(record.offset for record in records_of(made) if record.tag == b"head") + 8
    struct.pack_into(">I", made, place, adjustment_of(bytes(made), place))
    return bytes(made)


def with_records_behind(added: list[tuple[bytes, int, int, int]]) -> bytes:
    """The font with these records behind its own, all sums right."""
    higher = 16 * len(added)
    own = [(tag, 0, offset + higher, length) for tag, _, offset, length in records_of(BASE6)]
    return summed(file_of_records(own + added, BASE6[124:]))


def name_over_glyf() -> bytes:
    """A last record `name` lies over the bytes of `glyf`."""
    return with_records_behind([(b"name", 0, 208, 70)])


def many_records() -> bytes:
    """65,528 empty records `zzzz` stand behind the font's own."""
    return with_records_behind([(b"zzzz", 0, 0, 0)] * 65_528)
