"""Subtables of variation sequences for tests (OpenType 1.9, cmap, Format 14), typed in, made at random or spoiled, and
fonts that have them."""
import random
import struct
from typing import NamedTuple, Sequence

from font_changing import with_tables
from font_cutting import outlines, sequences
from font_reading import table, u16, u32
from random_fonts import CODES
from sequence_reading import HEADER, MAPPING, RANGE, RECORD, Pair, sequence_subtable

SELECTORS = 0xFE00, 0xFE01, 0xE0100
EDGES = 0, 1, 2, 9, 10, 14, 0xFF, 0x100, 0xFFFF, 0x10FFFF, 0x110000, 0xFFFFFF, 0x7FFFFFFF, 0x80000000, 0xFFFFFFFF


class Lists(NamedTuple):
    """A selector, its ranges as first codes and how many more there are, and its mappings as codes and glyphs."""

    selector: int
    ranges: Sequence[tuple[int, int]] = ()
    mappings: Sequence[tuple[int, int]] = ()


def u24_bytes(number: int) -> bytes:
    return struct.pack(">I", number)[1:]


def format14(*rows: Lists) -> bytes:
    """The subtable of these selectors in this order, with no list where there is nothing to list."""
    records, lists = b"", b""
    for selector, ranges, mappings in rows:
        records += u24_bytes(selector)
        for items, made in ((ranges, [u24_bytes(code) + bytes([more]) for code, more in ranges]),
                            (mappings, [u24_bytes(code) + struct.pack(">H", glyph) for code, glyph in mappings])):
            records += struct.pack(">I", HEADER + RECORD * len(rows) + len(lists) if items else 0)
            lists += struct.pack(">I", len(items)) + b"".join(made) if items else b""
    return struct.pack(">HII", 14, HEADER + len(records) + len(lists), len(rows)) + records + lists


def cmap_with(cmap: bytes, *subtables: bytes) -> bytes:
    """A `cmap` with one encoding record 0/5 for each of these subtables, and no others. They stand at its end."""
    end = 4 + 8 * u16(cmap, 2)
    records = [struct.unpack_from(">HHI", cmap, at) for at in range(4, end, 8)]
    records = [record for record in records if record[:2] != (0, 5)]
    moved = 4 + 8 * (len(records) + len(subtables)) - end
    rows, place = [(platform, encoding, at + moved) for platform, encoding, at in records], len(cmap) + moved
    for subtable in subtables:
        rows.append((0, 5, place))
        place += len(subtable)
    return cmap[:2] + struct.pack(">H", len(rows)) + b"".join(
        struct.pack(">HHI", *row) for row in sorted(rows)) + cmap[end:] + b"".join(subtables)


def with_subtables(file: bytes, *subtables: bytes) -> bytes:
    """The font with these subtables of variation sequences."""
    made: bytes = with_tables(file, {b"cmap": cmap_with(table(file, b"cmap"), *subtables)})
    return made


def with_pairs(file: bytes, pairs: dict[Pair, int]) -> bytes:
    """The font with these variation sequences, each as a mapping."""
    return with_subtables(file, sequence_subtable(pairs))


# At random.

def random_lists(chance: random.Random, selector: int, glyphs: int) -> Lists:
    """Some ranges and mappings of a selector, in order: of codes of which a font maps some, and of glyphs of which some
    are not there."""
    ranges, mappings, code = [], [], CODES[0] - 2
    while code < CODES[-1] + 2:
        kind = chance.random()
        if kind < 0.2:
            ranges.append((code, chance.choice((0, 0, 1, 3))))
            code += ranges[-1][1]
        elif kind < 0.5:
            mappings.append((code, chance.randrange(glyphs + chance.choice((0, 0, 3)))))
        code += chance.choice((1, 1, 2, 5))
    return Lists(selector, ranges, mappings)


def random_format14(chance: random.Random, glyphs: int) -> bytes:
    """A subtable that is read strictly."""
    selectors = sorted(chance.sample(SELECTORS, chance.choice((0, 1, 1, 2, 3))))
    return format14(*(random_lists(chance, selector, glyphs) for selector in selectors))


def places_in(subtable: bytes) -> list[tuple[int, int]]:
    """The places and the sizes of all numbers of a subtable that is strictly well formed."""
    found = [(0, 2), (2, 4), (6, 4)]
    for at in range(HEADER, HEADER + RECORD * u32(subtable, 6), RECORD):
        found += [(at, 3), (at + 3, 4), (at + 7, 4)]
        for field, size in (at + 3, RANGE), (at + 7, MAPPING):
            items = u32(subtable, field)
            if items:
                found.append((items, 4))
                for item in range(items + 4, items + 4 + size * u32(subtable, items), size):
                    found += [(item, 3), (item + 3, size - 3)]
    return found


def spoiled14(chance: random.Random, subtable: bytes) -> bytes:
    """A subtable with other numbers: one beside the own, that of another place, or one at which rules change; or with
    the front of it alone. Most are not read."""
    made, places = bytearray(subtable), places_in(subtable)
    for _ in range(chance.choice((1, 1, 2, 3))):
        # Half of what is changed is how much there is and where.
        at, size = chance.choice(places if chance.random() < 0.5 else [one for one in places if one[1] == 4])
        other, other_size = chance.choice(places)
        number = chance.choice((int.from_bytes(made[at:at + size], "big") + chance.choice((-1, 1)),
                                int.from_bytes(made[other:other + other_size], "big"), chance.choice(EDGES)))
        made[at:at + size] = (number % 256**size).to_bytes(size, "big")
    return bytes(made[:chance.randrange(len(made))] if chance.random() < 0.1 else made)


def with_random_sequences(chance: random.Random, file: bytes) -> bytes:
    """The font with variation sequences: strict ones, spoiled ones, two subtables, or none."""
    subtable, kind = random_format14(chance, len(outlines(file))), chance.random()
    if kind < 0.1:
        return file
    if kind < 0.25:
        subtable = spoiled14(chance, subtable)
    return with_subtables(file, *[subtable] * (2 if kind > 0.97 else 1))


def with_other_pairs(chance: random.Random, file: bytes) -> bytes:
    """The font with another variation sequence, or with those of one or of each glyph on another one. Each is a
    mapping, as in a cut."""
    count, pairs, kind = len(outlines(file)), dict(sequences(file)), chance.random()
    other, moved = chance.randint(min(1, count - 1), count - 1), chance.choice([*pairs.values()] or [0])
    if kind < 0.2:
        pairs[chance.choice(SELECTORS), chance.choice(CODES)] = other
    elif kind < 0.5:
        pairs = {pair: other if glyph == moved else glyph for pair, glyph in pairs.items()}
    else:
        pairs = {pair: (glyph + other) % count for pair, glyph in pairs.items()}
    pairs = {pair: glyph for pair, glyph in pairs.items() if glyph}
    return with_subtables(file, *([sequence_subtable(pairs)] if pairs else []))
