"""Tables of variations that are made field by field, at random, or for the outlines of a static font, and fonts that
have them.

It follows OpenType 1.9, `fvar`, `gvar` and "OpenType Font Variations Common Table Formats" (tuple variation data).
"""
import random
import struct
from itertools import accumulate
from typing import Mapping, Optional, Sequence

from font_changing import far_off, renamed, turned, with_codes, with_tables
from font_cutting import component_glyphs, outlines
from font_reading import table, tables_of, u16
from layout_making import random_layout, spoiled
from random_fonts import CODES, random_font
from variable_cutting import gvar_of
from variable_reading import ADDED, FIELDS, VARIATIONS, Header, variable_refusal, variations_of

Axis = tuple[str, int, int, int]  # its tag, and the least, the default and the greatest value

WEIGHT, WIDTH = ("wght", 100, 400, 900), ("wdth", 75, 100, 125)
# Flags of tupleIndex and of tupleVariationCount; flags of a run of deltas, and how many it has at most; the point
# numbers that stand for all points, and how many points after those of an outline move its metrics.
EMBEDDED_PEAK_TUPLE, PRIVATE_POINT_NUMBERS, SHARED_POINT_NUMBERS = 0x8000, 0x2000, 0x8000
DELTAS_ARE_ZERO, DELTAS_ARE_WORDS, RUN = 0x80, 0x40, 64
ALL_POINTS, PHANTOM_POINTS = b"\0", 4


def fvar(*axes: Axis) -> bytes:
    """An `fvar` without instances."""
    made = struct.pack(">HHHHHHHH", 1, 0, 16, 2, len(axes), 20, 0, 4 * len(axes) + 4)
    for tag, *values in axes:
        made += tag.encode() + struct.pack(">3iHH", *(value << 16 for value in values), 0, 256)
    return made


def some_axes(count: int) -> list[Axis]:
    """So many axes, each with a tag of its own."""
    return [(f"AX{at:02}", -1, 0, 1) for at in range(count)]


def gvar(data: Sequence[bytes], tuples: Sequence[bytes] = (), *, axes: int = 1, flags: int = 1,
         gaps: tuple[bytes, bytes, bytes] = (b"", b"", b""), offsets: Optional[Sequence[int]] = None) -> bytes:
    """A `gvar` with the data of each glyph and shared tuples, which has bytes in the gaps after the offsets, after the
    tuples and after the data. Its offsets, in bytes, are right unless they are given."""
    form, unit = ("I", 1) if flags & 1 else ("H", 2)
    offsets = [0, *accumulate(map(len, data))] if offsets is None else offsets
    packed = struct.pack(f">{len(offsets)}{form}", *(offset // unit for offset in offsets))
    tuples_at = FIELDS.size + len(packed) + len(gaps[0])
    data_at = tuples_at + len(b"".join(tuples)) + len(gaps[1])
    header = FIELDS.pack(1, 0, axes, len(tuples), tuples_at, len(offsets) - 1, flags, data_at)
    return b"".join([header, packed, gaps[0], *tuples, gaps[1], *data, gaps[2]])


def with_fields(made: bytes, **fields: int) -> bytes:
    """A `gvar` with other fields in its header."""
    header = Header(*FIELDS.unpack_from(made))._replace(**fields)
    return FIELDS.pack(*header) + made[FIELDS.size:]


# At random.

def well_made_gvar(chance: random.Random, glyphs: int, axes: int) -> bytes:
    """A `gvar` whose parts follow each other, with bytes between them or not."""
    flags = chance.randrange(2) if glyphs < 9000 else 1  # short offsets are not enough for all data
    data = [chance.randbytes((2 - flags) * chance.choice((0, 0, 1, 2, 3, 7))) for _ in range(glyphs)]
    tuples = [chance.randbytes(2 * axes) for _ in range(chance.choice((0, 0, 1, 2, 5)))]
    gaps = chance.choice(((0, 0, 0), (0, 0, 0), (0, 0, 1), (0, 3, 0), (2, 0, 0), (5, 1, 4)))
    first, middle, last = map(chance.randbytes, gaps)
    return gvar(data, tuples, axes=axes, flags=flags, gaps=(first, middle, last))


def scattered_gvar(chance: random.Random, glyphs: int, axes: int) -> bytes:
    """A `gvar` whose tuples stand anywhere after the offsets, and whose data stands anywhere, over other parts too."""
    flags, tuples = chance.randrange(2), chance.choice((0, 1, 2, 5))
    offsets_end, size, unit = FIELDS.size + (2, 4)[flags] * (glyphs + 1), 2 * axes * tuples, 2 - flags
    room = chance.randbytes(size + chance.randrange(4 * min(glyphs, 1000) + 2))
    end = offsets_end + len(room)
    data_at = chance.choice((0, 4, FIELDS.size, offsets_end, end, chance.randint(0, end)))
    units = range(min((end - data_at) // unit, 65535) + 1)
    offsets = sorted(unit * chance.choice(units) for _ in range(glyphs + 1))
    tuples_at = chance.randint(offsets_end, end - size) if tuples else chance.choice((0, offsets_end, 0xFFFFFFFF))
    return with_fields(gvar([room], axes=axes, flags=flags, offsets=offsets), sharedTupleCount=tuples,
                       sharedTuplesOffset=tuples_at, glyphVariationDataArrayOffset=data_at)


def random_gvar(chance: random.Random, glyphs: int, axes: int) -> bytes:
    """A `gvar` for a font of so many glyphs and axes, which is accepted."""
    return chance.choice((well_made_gvar, scattered_gvar))(chance, glyphs, axes)


def spoiled_gvar(chance: random.Random, made: bytes) -> bytes:
    """A `gvar` with another number in its header or among its offsets, or cut off. It may still be accepted."""
    kind = chance.random()
    if kind < 0.2:
        return made[:chance.randrange(len(made))]
    if kind < 0.6:
        name = chance.choice(Header._fields)
        value, most = Header(*FIELDS.unpack_from(made))._asdict()[name], 0xFFFFFFFF if "Offset" in name else 0xFFFF
        other = chance.choice((0, 1, 2, most, value - 1, value + 1, chance.randrange(256), len(made), len(made) + 1))
        return with_fields(made, **{name: other % (most + 1)})
    changed, place = bytearray(made), chance.randrange(FIELDS.size, len(made), 2)
    changed[place:place + 2] = chance.choice((b"\0\0", b"\0\1", b"\xff\xff", chance.randbytes(2)))[:len(made) - place]
    return bytes(changed)


def random_fvar(chance: random.Random, axes: int) -> bytes:
    """An `fvar` of so many axes, of which no more than their number may be there."""
    whole = fvar(*some_axes(axes))
    return chance.choice((whole, whole, whole[:10], chance.randbytes(8) + whole[8:10] + chance.randbytes(3)))


def random_variations(chance: random.Random, glyphs: int) -> dict[bytes, bytes]:
    """Some tables of variations for a font of so many glyphs, which are accepted."""
    tables = {tag: chance.randbytes(chance.choice((0, 1, 4, 11))) for tag in VARIATIONS if chance.random() < 0.4}
    axes = chance.choice((0, 1, 1, 2, 3))
    tables.pop(b"gvar", None)
    if chance.random() < 0.9:
        tables.update({b"fvar": random_fvar(chance, axes), b"gvar": random_gvar(chance, glyphs, axes)})
    return tables


def spoiled_variations(chance: random.Random, tables: Mapping[bytes, bytes]) -> dict[bytes, bytes]:
    """Tables of variations of which one that is read is changed, or `fvar` is taken away."""
    made = dict(tables)
    if b"gvar" in made and chance.random() < 0.8:
        made[b"gvar"] = spoiled_gvar(chance, made[b"gvar"])
    elif chance.random() < 0.5:
        made.pop(b"fvar", None)
    else:
        made[b"fvar"] = chance.choice((bytes(9), bytes(8) + b"\0\1", bytes(8) + b"\0\4" + bytes(90)))
    return made


def with_glyphs(font: bytes, count: int) -> bytes:
    """A random font with empty glyphs after its own, so that it has so many. A code is mapped to the last one."""
    maxp, loca = table(font, b"maxp"), table(font, b"loca")
    more = count - u16(maxp, 4)
    changed = {tag: tables_of(font)[tag] + bytes(2 * more) for tag in (b"hmtx", b"vmtx") if tag in tables_of(font)}
    changed.update({b"maxp": maxp[:4] + struct.pack(">H", count) + maxp[6:], b"loca": loca + loca[-4:] * more})
    return with_codes(with_tables(font, changed), {CODES[-1]: count - 1})


def with_added(font: bytes, added: Mapping[bytes, bytes]) -> bytes:
    """A font with these tables of layout and of variations, and no others of them."""
    return with_tables(font, {**dict.fromkeys(ADDED), **added})


def accepted_font(chance: random.Random, count: int = 0) -> bytes:
    """A random font with tables of layout and of variations, which is accepted. It has this many glyphs, or a few if no
    number is given."""
    while True:
        font = random_font(chance)
        font = with_glyphs(font, count) if count else font
        glyphs = len(outlines(font))
        font = with_added(font, {**random_layout(chance, glyphs), **random_variations(chance, glyphs)})
        if not variable_refusal(font):
            return font


def spoiled_font(chance: random.Random, font: bytes) -> bytes:
    """A font of which one thing that variable cuts look at is changed: tables, their tags or their places."""
    kind, tables = chance.random(), {tag: data for tag, data in tables_of(font).items() if tag in ADDED}
    if kind < 0.15:
        tags = [chance.choice(ADDED).decode() for _ in range(2)]
        return renamed(with_tables(font, {f"~{at}".encode(): chance.randbytes(9) for at in (100, 101)}), *tags)
    if kind < 0.3:
        return far_off(font, *(chance.choice(ADDED).decode() for _ in range(3)))
    if kind < 0.4:
        return with_added(font, {**tables, b"GSUB": spoiled(chance, tables.get(b"GSUB", b""))})
    return with_added(font, spoiled_variations(chance, tables))


def other_data(chance: random.Random, font: bytes) -> bytes:
    """A font with other variation data of a glyph, if it has a `gvar`."""
    found = variations_of(font) if b"gvar" in tables_of(font) else None
    if found is None:
        return font
    data, glyph = list(found.data), chance.randrange(len(found.data))
    data[glyph] = chance.choice((b"", data[glyph] + b"\0", chance.randbytes(3), chance.randbytes(len(data[glyph]))))
    return with_tables(font, {b"gvar": gvar_of(found._replace(data=data), range(len(data)))})


def other_table(chance: random.Random, font: bytes) -> bytes:
    """A font with another byte in a table of layout or of variations, or without it."""
    tag = chance.choice([*ADDED, b"gvar", b"gvar"])
    data = tables_of(font).get(tag, b"")
    other = turned(data, chance.randrange(len(data))) if data else bytes(4)
    return with_tables(font, {tag: None if chance.random() < 0.1 else other})


def other_variations(chance: random.Random, font: bytes) -> bytes:
    """A font with other variation data, or with another table of layout or of variations, which is still accepted."""
    while True:
        made = chance.choice((other_data, other_table))(chance, font)
        if not variable_refusal(made):
            return made


# For the outlines of a static font.

def points_of(record: bytes) -> int:
    """How many points `gvar` counts in a glyph: those of its contours or its components, and four of its metrics."""
    contours: int = struct.unpack_from(">h", record)[0] if record else 0
    if contours < 0:
        return len(component_glyphs(record)) + PHANTOM_POINTS
    return (u16(record, 8 + 2 * contours) + 1 if contours else 0) + PHANTOM_POINTS


def packed_deltas(deltas: Sequence[int]) -> bytes:
    """Deltas in runs of zeros, of bytes or of words."""
    made = b""
    for at in range(0, len(deltas), RUN):
        run = deltas[at:at + RUN]
        if not any(run):
            made += bytes([DELTAS_ARE_ZERO | len(run) - 1])
        elif all(-128 <= delta < 128 for delta in run):
            made += bytes([len(run) - 1]) + struct.pack(f">{len(run)}b", *run)
        else:
            made += bytes([DELTAS_ARE_WORDS | len(run) - 1]) + struct.pack(f">{len(run)}h", *run)
    return made


def variation_data(tuples: Sequence[tuple[int, bytes, Sequence[int]]], shared_points: bool = False) -> bytes:
    """GlyphVariationData of tuples with deltas of all points. A tuple is the number of a shared tuple, a peak of its
    own that is taken instead if it has bytes, and the deltas, first those of x and then those of y."""
    headers, serialized = b"", ALL_POINTS if shared_points else b""
    for index, peak, deltas in tuples:
        points = b"" if shared_points else ALL_POINTS
        half = len(deltas) // 2
        part = points + packed_deltas(deltas[:half]) + packed_deltas(deltas[half:])
        flags = (EMBEDDED_PEAK_TUPLE if peak else index) | (0 if shared_points else PRIVATE_POINT_NUMBERS)
        headers += struct.pack(">HH", len(part), flags) + peak
        serialized += part
    count = len(tuples) | (SHARED_POINT_NUMBERS if shared_points else 0)
    return struct.pack(">HH", count, 4 + len(headers)) + headers + serialized


def random_deltas(chance: random.Random, points: int) -> list[int]:
    most = chance.choice((0, 20, 60, 200))
    return [chance.randint(-most, most) for _ in range(2 * points)]


PEAKS = [struct.pack(">hh", *peak) for peak in ((0x4000, 0), (-0x4000, 0), (0, 0x4000), (0, -0x4000))]
CORNERS = [struct.pack(">hh", *peak) for peak in ((0x4000, 0x4000), (-0x4000, 0x2000), (0x1000, -0x4000))]


def random_data(chance: random.Random, points: int) -> bytes:
    """GlyphVariationData of some tuples, or none."""
    tuples = [(chance.randrange(len(PEAKS)), chance.choice((b"", b"", *CORNERS)), random_deltas(chance, points))
              for _ in range(chance.choice((0, 1, 2, 3)))]
    return variation_data(tuples, chance.random() < 0.3) if tuples else b""


def made_variable(chance: random.Random, file: bytes) -> bytes:
    """A static font with axes of weight and width, and with random variations of its outlines and metrics. Its `gvar`
    has short offsets if they are enough."""
    data = [random_data(chance, points_of(record)) for record in outlines(file)]
    even = [part + bytes(len(part) % 2) for part in data]
    is_short = sum(map(len, even)) <= 2 * 65535
    made = gvar(even if is_short else data, PEAKS, axes=2, flags=0 if is_short else 1)
    return with_tables(file, {b"fvar": fvar(WEIGHT, WIDTH), b"gvar": made})
