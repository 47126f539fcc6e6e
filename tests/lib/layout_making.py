"""Tables of layout that are made field by field, or at random, and fonts that have them.

It follows OpenType 1.9, "OpenType Layout Common Table Formats" and `GSUB`. Offsets are right unless they are given.
"""
import random
import struct
from typing import Iterable, Mapping, Sequence

from font_changing import with_tables
from font_cutting import assembled, cmap_table, groups_of
from font_reading import table, u16, u32
from layout_reading import LAYOUT
from random_fonts import outlines_of
from sequence_making import Lists, cmap_with, format14
from worked_cuts import base6_tables

# A table of layout of one script, the one for all.
ALL_SCRIPTS = bytes.fromhex("00010000 000A 0000 0000 0001") + b"DFLT\0\0"

Subtable = tuple[int, bytes]  # its lookup type and its bytes


def numbers(*values: int) -> bytes:
    """Numbers of 16 bits."""
    return struct.pack(f">{len(values)}H", *(value % 65536 for value in values))


def after(header: Sequence[int], parts: Iterable[bytes]) -> bytes:
    """The numbers of a header, the count of the parts, an offset to each from the header's begin, and the parts."""
    listed = list(parts)
    place, offsets = 2 * len(header) + 2 + 2 * len(listed), []
    for part in listed:
        offsets.append(place)
        place += len(part)
    return numbers(*header, len(listed), *offsets) + b"".join(listed)


def coverage(*glyphs: int) -> bytes:
    """A Coverage of format 1."""
    return numbers(1, len(glyphs), *glyphs)


def coverage_of_ranges(*ranges: tuple[int, int, int]) -> bytes:
    """A Coverage of format 2, of startGlyphID, endGlyphID and startCoverageIndex of each range."""
    return numbers(2, len(ranges), *(field for fields in ranges for field in fields))


def shifted(covered: bytes, delta: int) -> bytes:
    """A subtable of type 1, format 1."""
    return numbers(1, 6, delta) + covered


def single(covered: bytes, *glyphs: int) -> bytes:
    """A subtable of type 1, format 2."""
    return numbers(2, 6 + 2 * len(glyphs), len(glyphs), *glyphs) + covered


def with_sets(covered: bytes, *sets: bytes) -> bytes:
    """A subtable of type 2, 3 or 4: its sets, and then its Coverage."""
    made = after([1, 0], sets)
    return made[:2] + numbers(len(made)) + made[4:] + covered


def sequence(*glyphs: int) -> bytes:
    """A Sequence or an AlternateSet."""
    return numbers(len(glyphs), *glyphs)


def ligature(glyph: int, *components: int) -> bytes:
    """A Ligature, with its components after the first."""
    return numbers(glyph, len(components) + 1, *components)


def ligatures(*listed: bytes) -> bytes:
    """A LigatureSet."""
    return after([], listed)


def reverse(covered: bytes, *glyphs: int) -> bytes:
    """A subtable of type 8, which looks at one glyph before and two after; their Coverage tables are not there."""
    return numbers(1, 16 + 2 * len(glyphs), 1, 0, 2, 0, 0, len(glyphs), *glyphs) + covered


def extension(kind: int, subtable: bytes, form: int = 1, offset: int = 8) -> bytes:
    """A subtable of type 7, and the one that it names."""
    return numbers(form, kind) + struct.pack(">I", offset) + subtable


def lookup(kind: int, *subtables: bytes) -> bytes:
    """A lookup without flags."""
    return after([kind, 0], subtables)


def gsub(*lookups: bytes, minor: int = 0) -> bytes:
    """A GSUB without scripts and features, whose lookup list begins at 10: in version 1.1 over the offset to its
    variations."""
    return numbers(1, minor, 0, 0, 10) + after([], lookups)


def gsub_of_one(kind: int, subtable: bytes) -> bytes:
    """A GSUB of one lookup of one subtable."""
    return gsub(lookup(kind, subtable))


# The codes of LETTERS: U+0041 is mapped to glyph 1, and so on.
LETTERS_CODES = {0x41 + index: 1 + index for index in range(6)}


def letters_tables() -> dict[bytes, bytes]:
    """The tables of a font of ten glyphs. The glyphs 1 to 6 are mapped, and 7 is composed of 8; each has an outline and
    a bearing that is not zero."""
    records = [b"\0\0" + bytes([glyph]) * 10 for glyph in range(10)]
    records[7] = b"\xff\xff" + bytes(8) + struct.pack(">HHH", 0x0002, 8, 0)
    tables: dict[bytes, bytes] = base6_tables()
    head, hhea, maxp = tables[b"head"], tables[b"hhea"], tables[b"maxp"]
    tables.update(outlines_of(records))
    tables.update({
        b"cmap": cmap_table(groups_of(LETTERS_CODES)), b"head": head[:50] + b"\0\1" + head[52:],
        b"maxp": maxp[:4] + numbers(10) + maxp[6:], b"hhea": hhea[:34] + numbers(10),
        b"hmtx": b"".join(numbers(500, 1 + glyph) for glyph in range(10)),
    })
    return tables


def letters(layout: Mapping[bytes, bytes]) -> bytes:
    """The font of ten glyphs with these tables of layout."""
    made: bytes = assembled({**letters_tables(), **layout})
    return made


def with_last(*tables: bytes) -> bytes:
    """The font of ten glyphs with these tables after its own, whatever their tags."""
    return letters({f"~{at:03}".encode(): data for at, data in enumerate(tables)})


def kept_in(file: bytes) -> tuple[set[int], set[int]]:
    """The glyphs that have an outline in a cut of the font of ten glyphs, and those that have a bearing."""
    loca, hmtx = table(file, b"loca"), table(file, b"hmtx")
    return ({glyph for glyph in range(10) if u32(loca, 4 * glyph) < u32(loca, 4 * glyph + 4)},
            {glyph for glyph in range(10) if u16(hmtx, 4 * glyph + 2)})


# GSUB at random.

STRANGE = (0, 1, 255, 500, 65534, 65535)


def random_glyph(chance: random.Random, count: int) -> int:
    """Mostly a glyph of a font of this many, and at times another number."""
    return chance.randrange(count) if chance.random() < 0.85 else chance.choice(STRANGE)


def random_glyphs(chance: random.Random, count: int, most: int = 4) -> list[int]:
    return [random_glyph(chance, count) for _ in range(chance.choice((0, *range(1, most + 1), *range(1, most + 1))))]


def random_coverage(chance: random.Random, count: int) -> bytes:
    """Glyphs or ranges in any order, with repetitions, overlaps, indices past the entries and ranges of no glyph."""
    if chance.random() < 0.5:
        return coverage(*random_glyphs(chance, count))
    firsts = random_glyphs(chance, count, 3)
    return coverage_of_ranges(*((first, min(first + chance.choice((-1, 0, 0, 1, 3)), 65535) % 65536,
                                 chance.choice((0, 0, 0, 1, 2, 65535))) for first in firsts))


def random_ligatures(chance: random.Random, count: int) -> bytes:
    return ligatures(*(ligature(random_glyph(chance, count), *random_glyphs(chance, count, 2))
                       for _ in range(chance.randint(0, 3))))


def random_subtable(chance: random.Random, kind: int, count: int) -> bytes:
    """A subtable of a type, which lies whole in the table."""
    covered = random_coverage(chance, count)
    if kind == 1 and chance.random() < 0.5:
        return shifted(covered, chance.choice((1, -1, 2, -3, 300, 0)))
    if kind == 1:
        return single(covered, *random_glyphs(chance, count))
    if kind in (2, 3):
        return with_sets(covered, *(sequence(*random_glyphs(chance, count)) for _ in range(chance.randint(0, 3))))
    if kind == 4:
        return with_sets(covered, *(random_ligatures(chance, count) for _ in range(chance.randint(0, 3))))
    if kind == 7:
        inner = chance.choice((1, 2, 3, 4, 5, 6, 8))
        return extension(inner, random_subtable(chance, inner, count), offset=chance.choice((8, 8, 8, 0)))
    return reverse(covered, *random_glyphs(chance, count)) if kind == 8 else chance.randbytes(chance.choice((0, 4)))


def random_gsub(chance: random.Random, count: int) -> bytes:
    """A GSUB for a font of this many glyphs, which is accepted; but where its lookup list lies over the offset to its
    variations, cleaning takes the lookups away."""
    lookups = []
    for _ in range(chance.randint(0, 5)):
        kind = chance.choice((1, 2, 3, 4, 4, 5, 6, 7, 7, 8))
        lookups.append(lookup(kind, *(random_subtable(chance, kind, count) for _ in range(chance.randint(0, 3)))))
    return gsub(*lookups, minor=int(chance.random() < 0.1))


def spoiled(chance: random.Random, table: bytes) -> bytes:
    """A table with other numbers at some places, or cut off."""
    made = bytearray(table)
    for _ in range(chance.choice((0, 1, 1, 2))):
        place = 2 * chance.randrange(max(len(made) // 2, 1))
        made[place:place + 2] = numbers(chance.choice((0, 1, 2, 3, 6, 7, 8, 9, 20, 65535, chance.randrange(64))))
    return bytes(made[:chance.randrange(len(made) + 1)] if chance.random() < 0.15 else made)


def random_header(chance: random.Random) -> bytes:
    """A table of layout other than GSUB, which is not read: its version is looked at, and its bytes are copied."""
    version = numbers(chance.choice((1, 1, 1, 0, 2)), chance.choice((0, 1, 2, 3, 4)))
    return (version + chance.randbytes(20))[:chance.choice((0, 2, 4, 11, 12, 13, 14, 17, 18, 19, 24))]


def random_layout(chance: random.Random, count: int) -> dict[bytes, bytes]:
    """Some tables of layout, of which GSUB is accepted."""
    tables = {tag: random_header(chance) for tag in LAYOUT if chance.random() < 0.4}
    tables.pop(b"GSUB", None)
    if chance.random() < 0.9:
        tables[b"GSUB"] = random_gsub(chance, count)
    return tables


def with_layout(font: bytes, layout: Mapping[bytes, bytes]) -> bytes:
    """A font with these tables of layout and no others."""
    made: bytes = with_tables(font, {**dict.fromkeys(LAYOUT), **layout})
    return made


def font_of_sequences() -> bytes:
    """A font that maps A, B, Arabic beh and Thai ko kai, with the variation sequences of A and U+FE00, which has the
    glyph that A has, and of B and U+E0100, which has another one."""
    known = [(0x41, 0x42, 1), (0x628, 0x628, 3), (0xE01, 0xE01, 4)]
    sequences = format14(Lists(0xFE00, ranges=[(0x41, 0)]), Lists(0xE0100, mappings=[(0x42, 5)]))
    return letters({b"cmap": cmap_with(cmap_table(known), sequences), b"GPOS": ALL_SCRIPTS})


# Texts, and the glyphs that the font of `font_of_sequences` has for their variation sequences.
VARIANTS: list[tuple[str, list[int]]] = [
    ("", []), ("AB", []), ("A\ufe00", [1]), ("B\U000e0100", [5]), ("B\U000e0100 A\ufe00A\ufe00", [1, 5]),
    ("A\U000e0100B\ufe00", []), ("\ufe00A", []), ("A\ufe00\U000e0100", [1]), ("B \U000e0100", []),
    ("B\u200d\U000e0100\U000e0100", []), ("\u0628\ufe00\u0e01\ufe0f\U000e0100\ufe00", [])]
