"""Fonts that are made of a font by small changes, all their sums right, but where tags or places are changed."""
import struct
from typing import Mapping, Optional
from font_cutting import Group, assembled, cmap_table, cut, groups_of, ranges, sequences, whole_map
from font_reading import offset, records_of, table, tables_of, u16


def turned(data: bytes, place: int) -> bytes:
    """The bytes with the one at this place turned, which is then another."""
    made = bytearray(data)
    made[place] ^= 0xFF
    return bytes(made)


def with_tables(file: bytes, changed: Mapping[bytes, Optional[bytes]]) -> bytes:
    """The font with other bytes for some tables, or without those for which there is None; its sums are right."""
    tables: dict[bytes, Optional[bytes]] = {**tables_of(file), **changed}
    return assembled({tag: data for tag, data in tables.items() if data is not None})


def with_bytes(file: bytes, places: Mapping[bytes, int]) -> bytes:
    """The font with a byte of some tables turned."""
    return with_tables(file, {tag: turned(table(file, tag), place) for tag, place in places.items()})


def with_codes(file: bytes, codes: Mapping[int, int]) -> bytes:
    """The font with some codes on other glyphs."""
    return with_tables(file, {b"cmap": cmap_table(groups_of({**whole_map(file), **codes}), sequences(file))})


def with_all_codes(file: bytes, count: int) -> bytes:
    """The font with so many glyphs, which are empty, and each code on one of them."""
    step = count - 1
    groups = [Group(first, min(first + step, 0x110000) - 1, 1) for first in range(0, 0x110000, step)]
    maxp, hhea = table(file, b"maxp"), table(file, b"hhea")
    return with_tables(file, {
        b"cmap": cmap_table(groups), b"maxp": maxp[:4] + struct.pack(">H", count) + maxp[6:],
        b"hhea": hhea[:34] + struct.pack(">H", 1), b"hmtx": bytes(2 * count + 2), b"loca": bytes(2 * count + 2)})


def without_code(file: bytes, code: int) -> bytes:
    """The font without a code."""
    glyphs = {other: glyph for other, glyph in whole_map(file).items() if other != code}
    return with_tables(file, {b"cmap": cmap_table(groups_of(glyphs), sequences(file))})


def with_outlines(file: bytes, *glyphs: int) -> bytes:
    """The font with the last byte of the outline of some simple glyphs turned, which is not looked at."""
    glyf, loca, form = table(file, b"glyf"), table(file, b"loca"), u16(table(file, b"head"), 50)
    for glyph in glyphs:
        end = offset(loca, form, glyph + 1)
        assert end, "the glyph has no outline"
        glyf = turned(glyf, end - 1)
    return with_tables(file, {b"glyf": glyf})


def with_family(file: bytes, family: str) -> bytes:
    """The font with this family as its only name."""
    name = family.encode("utf-16-be")
    header = struct.pack(">HHH", 0, 1, 18)
    windows, unicode_bmp, american, family_name = 3, 1, 0x409, 1
    record = struct.pack(">HHHHHH", windows, unicode_bmp, american, family_name, len(name), 0)
    return with_tables(file, {b"name": header + record + name})


def with_classes(file: bytes, weight: int, width: int) -> bytes:
    """The font with other classes of weight and width."""
    os2 = table(file, b"OS/2")
    return with_tables(file, {b"OS/2": os2[:4] + struct.pack(">HH", weight, width) + os2[8:]})


def renamed(file: bytes, *tags: str) -> bytes:
    """The font with other tags for its last records. Its sums and their order are not right."""
    made = bytearray(file)
    places = [12 + 16 * slot for slot in range(len(records_of(file)))][-len(tags):]
    for place, tag in zip(places, tags):
        made[place:place + 4] = tag.encode()
    return bytes(made)


def far_off(file: bytes, *tags: str) -> bytes:
    """The font with a place past its end in the records of these tags. Its sums are not right."""
    made = bytearray(file)
    for slot, record in enumerate(records_of(file)):
        if record.tag.decode() in tags:
            made[12 + 16 * slot + 8:16 + 16 * slot + 8] = (len(file) - 3).to_bytes(4, "big")
    return bytes(made)


def cut_for(file: bytes, words: str) -> bytes:
    """The cut of a font for the ranges that typed words name."""
    return cut(file, ranges(words))
