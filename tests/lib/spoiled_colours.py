"""Tables of colours that are spoiled or made to be read slowly (OpenType 1.9, COLR), and fonts that have some."""
import random
import struct
from typing import Iterator, NamedTuple, Sequence

from colour_making import (EDGES, INDEX_MAP, SPOILED_STORES, STORE, box_of, composite, glyph_paint, layered, moved,
                           of_glyph, painted, palettes, piece_of, random_colours, scattered, solid, u24, with_colours)
from colour_reading import (BASE, LAYER, LAYERS, LINE, MOST_DEPTH, PAINT, PAINTS, PLACE, ROOT, STOPS, VARYING_LINE,
                            Colour, Colours, NotRead, Piece, Reader, Store, number)
from font_cutting import outlines

# Tables with other numbers.

class Field(NamedTuple):
    """A number of a table: its place, its size, and whether it is an offset or a count."""

    at: int
    size: int
    leads: bool


def fields_of_records(start: int, count: int, sizes: Sequence[int], leading: Sequence[int]) -> Iterator[Field]:
    """The fields of records of these sizes, of which some are offsets or counts, by their places in a record."""
    for at in range(start, start + sum(sizes) * count, sum(sizes)):
        for index, size in enumerate(sizes):
            yield Field(at + sum(sizes[:index]), size, index in leading)


def fields_of_piece(kind: str, start: int, piece: Piece) -> Iterator[Field]:
    """The fields of a piece: its format or count, its offsets, its glyph, and its last number."""
    yield Field(start, 1, True)
    if kind == PAINT:
        form = PAINTS[piece.data[0]]
        yield from (Field(start + at, 3, True) for at, _ in form.offsets)
        if form.glyph is not None:
            yield Field(start + form.glyph, 2, False)
        if piece.has_layers():
            yield from (Field(start + 1, 1, True), Field(start + 2, 4, True))
    elif kind in STOPS:
        yield Field(start + 1, 2, True)
    yield Field(start + len(piece.data) - 2, 2, False)


def fields_in(table: bytes, count: int) -> list[Field]:
    """The fields of a table that is read strictly."""
    version, found = number(table, 0, 2), [Field(0, 2, True), Field(2, 2, True), Field(4, 4, True), Field(8, 4, True),
                                           Field(12, 2, True)]
    found += fields_of_records(number(table, 4, 4), number(table, 2, 2), (2, 2, 2), (1, 2))
    found += fields_of_records(number(table, 8, 4), number(table, 12, 2), (2, 2), ())
    if version == 0:
        return found
    found += [Field(at, 4, True) for at in (14, 18, 22, 26, 30)]
    for field, before, sizes, leading in (14, 0, (2, 4), (1,)), (18, 0, (4,), (0,)), (22, 1, (2, 2, 3), (2,)):
        start = number(table, field, 4)
        if start:
            found += [Field(start, before, True)] * before + [Field(start + before, 4, True)]
            found += fields_of_records(start + before + 4, number(table, start + before, 4), sizes, leading)
    reader = Reader(table, count)
    reader.read()
    for (kind, start), piece in reader.pieces.items():
        found += fields_of_piece(kind, start, piece)
    for field, size in (26, len(INDEX_MAP)), (30, len(STORE)):
        start = number(table, field, 4)
        found += [Field(at, 2, False) for at in range(start, min(start + size, len(table)), 2)] if start else []
    return found


def with_field(table: bytes, field: Field, value: int) -> bytes:
    made = bytearray(table)
    made[field.at:field.at + field.size] = (value % 256**field.size).to_bytes(field.size, "big")
    return bytes(made)


def spoiled(chance: random.Random, table: bytes, count: int) -> bytes:
    """A table that is read strictly with other numbers: one beside the own, that of another place, or one at which
    rules change; or the front of it alone. Most are not read."""
    try:
        fields = fields_in(table, count)
    except NotRead:  # with the small limits of some tests
        return table
    leading = [field for field in fields if field.leads]
    for _ in range(chance.choice((1, 1, 1, 2, 3))):
        field, other = chance.choice(leading if chance.random() < 0.5 else fields), chance.choice(fields)
        own = number(table, field.at, field.size)
        table = with_field(table, field, chance.choice((
            own - 1, own + 1, number(table, other.at, other.size), count, chance.choice(EDGES))))
    return table[:chance.randrange(len(table))] if chance.random() < 0.08 else table


# Hostile tables, all of fonts of ten glyphs.

def raw(roots: Sequence[tuple[int, int]], layers: Sequence[int], body: bytes, clips: bytes = b"") -> bytes:
    """A table of version 1 of these bytes, with the places in it of the paints of glyphs and of LayerList."""
    base_list, layer_list = 34, 34 + 4 + ROOT * len(roots)
    start = layer_list + 4 + PLACE * len(layers)
    header = struct.pack(">HHIIHIIIII", 1, 0, 0, 0, 0, base_list, layer_list, start + len(body) if clips else 0, 0, 0)
    return (header + struct.pack(">I", len(roots))
            + b"".join(struct.pack(">HI", glyph, start + at - base_list) for glyph, at in roots)
            + struct.pack(">I", len(layers)) + b"".join(struct.pack(">I", start + at - layer_list) for at in layers)
            + body + clips)


def doubled(paints: int, last: Piece, glyphs: int = 1) -> bytes:
    """PaintComposite so many times, each of which names the next one twice, and a paint at the end."""
    body = b"".join(struct.pack(">B", 32) + u24(8) + b"\3" + u24(8) for _ in range(paints))
    return raw([(1 + at, 0) for at in range(glyphs)], [], body + last.data)


def looping() -> dict[str, bytes]:
    """Tables in which paints lead to themselves, by what they are: those of PaintColrGlyph alone are read."""
    layers = struct.pack(">BBI", LAYERS, 1, 0)
    return {
        "a glyph that is painted as itself": painted(of_glyph(1)),
        "two glyphs that are painted as each other": painted(of_glyph(2), of_glyph(1)),
        "layers that have themselves": raw([(1, 0)], [0], layers),
        "layers that have each other": raw([(1, 0)], [0, 6], struct.pack(">BBI", LAYERS, 1, 1) + layers),
        "layers that have themselves below a paint": raw(
            [(1, 0)], [0], b"\x0e" + u24(8) + bytes(4) + layers),
        "layers that have themselves 255 times": raw([(1, 0)], [0] * 255, struct.pack(">BBI", LAYERS, 255, 0)),
        "a clip of glyphs that are none": raw(
            [], [], b"\1" + bytes(8), struct.pack(">BIHH", 1, 1, 0, 65534) + u24(12)),
    }


def gradient(stops: int) -> Piece:
    """PaintLinearGradient of so many stops."""
    line = piece_of(LINE, struct.pack(">BH", 0, stops) + bytes(STOPS[LINE] * stops))
    return piece_of(PAINT, b"\4" + bytes(15), [line])


def heavy(stops: int) -> bytes:
    """A table in which a glyph has all but 261,591 of the most bytes that there may be, and a gradient of so many
    stops."""
    return painted(layered(*[gradient(65_535)] * 42, gradient(stops), *[solid(0)] * 4))


def hostile() -> dict[str, bytes]:
    """Tables that are large where they are written, or nested deeply, by what they are; of some a walk has no end."""
    wide = b"".join(struct.pack(">BBI", LAYERS, 255, 255 * (1 + at)) for at in range(40)) + solid(0).data
    layers = [6 * min(1 + at // 255, 40) for at in range(255 * 41)]
    return {
        **looping(),
        "15 paints that each name the next one twice": doubled(15, solid(0)),
        "20 paints that each name the next one twice, too many bytes": doubled(20, solid(0), 2),
        "63 paints that each name the next one twice": doubled(63, solid(0)),
        "64 paints that each name the next one twice, too deep": doubled(64, solid(0)),
        "40 paints of 255 layers that are all the next one": raw([(1, 0)], layers, wide),
        "nested as deep as may be": painted(moved(solid(0), MOST_DEPTH - 1)),
        "nested one deeper": painted(moved(solid(0), MOST_DEPTH)),
        "a color line as deep as may be": painted(moved(gradient(0), MOST_DEPTH - 2)),
        "a color line one deeper": painted(moved(gradient(0), MOST_DEPTH - 1)),
        "as many bytes as may be": heavy(43_592),
        "six bytes too many": heavy(43_593),
        "layers of version 0 that all glyphs share": struct.pack(">HHIIH", 0, 9, 14, 14 + BASE * 9, 8000) + b"".join(
            struct.pack(">HHH", glyph, 0, 8000) for glyph in range(9)) + bytes(LAYER * 8000),
        "as many layers of version 0 as may be": struct.pack(">HHIIH", 0, 3, 14, 14 + BASE * 3, 21845) + b"".join(
            struct.pack(">HHH", glyph, 0, 21845) for glyph in range(3)) + bytes(LAYER * 21845),
    }


def spoiled_tables(seed: int, total: int, count: int) -> Iterator[tuple[str, bytes]]:
    """So many tables by what they are: the hostile ones; each field of a table of each version, set to what is beside
    it and to edges; and others by chance."""
    chance, made = random.Random(seed), 0
    for name, table in hostile().items():
        made += 1
        yield name, table
    plain = scattered(chance, Colours(0, {1: Colour(((2, 0), (3, 1))), 4: Colour(((2, 0),)), 5: Colour(())}))
    rich = scattered(chance, Colours(1, {
        1: Colour(None, layered(glyph_paint(2, solid(1)), of_glyph(3)), box_of(0, 0, 9, 9)),
        2: Colour(None, None, box_of(0, 0, 9, 9)), 3: Colour(((4, 1),), composite(solid(2), moved(solid(3)))),
        4: Colour(None, piece_of(PAINT, b"\5" + bytes(19), [piece_of(VARYING_LINE, b"\1\0\1" + bytes(10))])),
        6: Colour(None, None, box_of(1, 2, 3, 4, varying=5))}, Store(INDEX_MAP, STORE)))
    for table in plain, rich:
        for field in sorted({*fields_in(table, count)}):
            own = number(table, field.at, field.size)
            for value in sorted({own - 1, own + 1, chance.choice(EDGES)} if field.leads else {count}):
                made += 1
                yield f"the number {own} at {field.at} as {value}", with_field(table, field, value)
    while made < total:
        made += 1
        yield f"by chance, {made}", spoiled(chance, scattered(chance, random_colours(chance, count)), count)


def random_table(chance: random.Random, count: int) -> bytes:
    """A table that is read strictly most of the time."""
    said = random_colours(chance, count)
    if said.version and chance.random() < 0.2:
        said = said._replace(store=chance.choice(SPOILED_STORES))
    table = scattered(chance, said)
    return spoiled(chance, table, count) if chance.random() < 0.15 else table


def spoiled_palettes(chance: random.Random) -> bytes:
    table = bytearray(palettes(chance, chance.choice((0, 0, 1, 7))))
    table[chance.randrange(len(table))] = chance.choice((0, 1, 0xFF))
    return bytes(table[:chance.choice((0, 1, 13, len(table), len(table)))])


def coloured(chance: random.Random, file: bytes, is_spoiled: bool = False) -> bytes:
    """The font with colours by chance, of which a few are not read, or some if it is to be spoiled."""
    count, share = len(outlines(file)), 0.5 if is_spoiled else 0.05
    table = scattered(chance, random_colours(chance, count))
    if chance.random() < share:
        table = spoiled(chance, table, count)
    kind = chance.random()
    return with_colours(file, None if kind < 0.05 else table, None if 0.05 < kind < 0.2 else palettes(chance))
