"""Colour tables for tests (OpenType 1.9, COLR), piece by piece and at random, and fonts that have them."""
import random
import struct
from typing import Iterable, Mapping, Optional, Sequence

from colour_reading import (AFFINES, BOX, BOXES, CLIP, HEADERS, LAYERS, PAINT, PAINTS, PLACE, ROOT, STOPS, Colour,
                            Colours, Layers, Piece, Store)
from font_changing import with_tables

EDGES = 0, 1, 2, 3, 9, 10, 14, 34, 64, 65, 0xFF, 0x100, 0xFFFF, 0xFFFFFF, 0x7FFFFFFF, 0x80000000, 0xFFFFFFFF


def u24(value: int) -> bytes:
    return struct.pack(">I", value)[1:]


def with_colours(file: bytes, table: Optional[bytes], palettes: Optional[bytes] = None) -> bytes:
    """The font with these tables COLR and CPAL, or without them."""
    made: bytes = with_tables(file, {b"COLR": table, b"CPAL": palettes})
    return made


# Pieces.

def piece_of(kind: str, data: bytes, below: Sequence[Piece] = (), names: Iterable[int] = ()) -> Piece:
    """What has these bytes, with zeros for offsets, and leads to these."""
    every = frozenset(names).union(*(one.names for one in below))
    return Piece(len(data) + sum(one.size for one in below), kind, data, tuple(below),
                 1 + max((one.depth for one in below), default=0), every)


def solid(entry: int) -> Piece:
    """PaintSolid."""
    return piece_of(PAINT, struct.pack(">BHh", 2, entry, 0x4000))


def glyph_paint(glyph: int, paint: Piece) -> Piece:
    """PaintGlyph."""
    return piece_of(PAINT, struct.pack(">B3xH", 10, glyph), [paint], [glyph])


def of_glyph(glyph: int) -> Piece:
    """PaintColrGlyph."""
    return piece_of(PAINT, struct.pack(">BH", 11, glyph), (), [glyph])


def layered(*paints: Piece) -> Piece:
    """PaintColrLayers."""
    return piece_of(PAINT, bytes((LAYERS, len(paints), 0, 0, 0, 0)), paints)


def moved(paint: Piece, times: int = 1) -> Piece:
    """So many PaintTranslate before a paint."""
    for _ in range(times):
        paint = piece_of(PAINT, struct.pack(">B3xhh", 14, 1, 2), [paint])
    return paint


def composite(source: Piece, backdrop: Piece) -> Piece:
    """PaintComposite."""
    return piece_of(PAINT, struct.pack(">B3xB3x", 32, 3), [source, backdrop])


def box_of(*sides: int, varying: Optional[int] = None) -> Piece:
    """ClipBox, of format 2 if it varies."""
    more = b"" if varying is None else struct.pack(">I", varying)
    return piece_of(BOX, struct.pack(">Bhhhh", 2 if more else 1, *sides) + more)


def random_other(chance: random.Random, kind: str) -> Piece:
    """A color line, an affine or a clip box."""
    if kind in STOPS:
        stops = chance.choice((0, 1, 2, 3))
        return piece_of(kind, struct.pack(">BH", chance.randrange(3), stops) + chance.randbytes(STOPS[kind] * stops))
    if kind == BOX:
        form = chance.choice((1, 1, 2))
        return piece_of(kind, bytes([form]) + chance.choice((b"\0" * 16, b"\1" * 16))[:BOXES[form].length - 1])
    return piece_of(kind, chance.choice((b"\0", b"\1", b"\2")) * AFFINES[kind])


def random_paint(chance: random.Random, count: int, depth: int = 4) -> Piece:
    """A paint of a font of so many glyphs, nested no deeper than this."""
    leaves = (2, 3, 11) if depth < 2 else (2, 10, 11)
    form = chance.choice(leaves) if chance.random() < 0.4 or depth < 2 else chance.choice([1, 1, 10, *PAINTS])
    if form == LAYERS:
        return layered(*(random_paint(chance, count, depth - 1) for _ in range(chance.choice((0, 1, 2, 2, 3)))))
    laid = PAINTS[form]
    data, names = bytearray([form]) + chance.choice((b"\0", b"\1")) * (laid.length - 1), list[int]()
    for at, _ in laid.offsets:
        data[at:at + 3] = bytes(3)
    if laid.glyph is not None:
        names = [chance.randrange(count)]
        data[laid.glyph:laid.glyph + 2] = struct.pack(">H", names[0])
    return piece_of(PAINT, bytes(data), [random_paint(chance, count, depth - 1) if kind == PAINT else
                                         random_other(chance, kind) for _, kind in laid.offsets], names)


def random_layers(chance: random.Random, count: int) -> Layers:
    return tuple((chance.randrange(count), chance.choice((0, 1, 0xFFFF))) for _ in range(chance.choice((0, 1, 2, 3))))


# Stores that are read, and some that are not.
INDEX_MAP = bytes.fromhex("00000002" "0001")  # format, entryFormat, mapCount, entries
STORE = bytes.fromhex(
    "0001" "0000000c" "0001" "00000016"  # format, variationRegionListOffset, itemVariationDataCount, an offset
    "0001" "0001" "000040004000"  # VariationRegionList: axisCount, regionCount, a region
    "0002" "0001" "0001" "0000" "ffe0" "0020")  # ItemVariationData: itemCount, wordDeltaCount, regionIndexCount, deltas
STORES = [Store(), Store(), Store(INDEX_MAP, STORE), Store(b"", STORE)]
SPOILED_STORES = [Store(INDEX_MAP[:5], STORE), Store(b"\2" + INDEX_MAP[1:], STORE), Store(INDEX_MAP, STORE[:-1]),
                  Store(INDEX_MAP, b"\0\2" + STORE[2:]), Store(b"", STORE[:2] + bytes(4) + STORE[6:])]


def random_colour(chance: random.Random, count: int, version: int) -> Colour:
    """What may be said of a glyph; nothing at all too."""
    if version == 0:
        return Colour(random_layers(chance, count) if chance.random() < 0.7 else None)
    return Colour(random_layers(chance, count) if chance.random() < 0.2 else None,
                  random_paint(chance, count) if chance.random() < 0.7 else None,
                  random_other(chance, BOX) if chance.random() < 0.5 else None)


def only_said(glyphs: Mapping[int, Colour]) -> dict[int, Colour]:
    """The glyphs of which something is said."""
    return {glyph: colour for glyph, colour in sorted(glyphs.items()) if colour != Colour()}


def random_colours(chance: random.Random, count: int, version: Optional[int] = None) -> Colours:
    """What a table may say of some glyphs, of a version or any."""
    version = chance.choice((0, 1, 1)) if version is None else version
    glyphs = chance.sample(range(count), chance.randint(0, min(count, 5)))
    return Colours(version, only_said({glyph: random_colour(chance, count, version) for glyph in glyphs}),
                   chance.choice(STORES) if version else Store())


def other_colours(chance: random.Random, count: int, said: Colours) -> Colours:
    """The same but for one glyph, or what varies."""
    if said.version and chance.random() < 0.2:
        return said._replace(store=chance.choice(STORES))
    glyph = chance.choice([*said.glyphs, chance.randrange(count)])
    return said._replace(glyphs=only_said({**said.glyphs, glyph: random_colour(chance, count, said.version)}))


# Tables that are read, and are not as they are written: shared, with gaps, and in another order.

class Scattered:
    """A table that says something of glyphs: what is equal stands once, most of the time, and nothing follows on what
    leads to it."""

    def __init__(self, chance: random.Random, said: Colours) -> None:
        self.chance, self.said = chance, said
        self.layers: list[Piece] = []  # of LayerList
        self.order: list[Piece] = []  # of all pieces, each before what its offsets lead to
        self.seen: set[Piece] = set()

    def gap(self) -> bytes:
        return self.chance.randbytes(self.chance.choice((0, 0, 0, 1, 5)))

    def note(self, piece: Piece) -> None:
        """Notes a piece and all that it leads to."""
        if piece in self.seen:
            return
        self.seen.add(piece)
        for below in piece.below:
            self.note(below)
        if piece.has_layers() and self.first(piece) is None:
            self.layers += piece.below
        self.order.insert(0, piece)

    def first(self, piece: Piece) -> Optional[int]:
        """Where the layers of a paint stand in LayerList."""
        size = len(piece.below)
        return next((at for at in range(len(self.layers) + 1 - size)
                     if tuple(self.layers[at:at + size]) == piece.below), None)

    def plain(self) -> tuple[list[bytes], list[tuple[int, int]]]:
        """The BaseGlyph and the Layer records."""
        layers: list[tuple[int, int]] = [(0xFFFF, 7)] * self.chance.choice((0, 0, 1))
        bases = []
        for glyph, colour in self.said.glyphs.items():
            if colour.layers is not None:
                size = len(colour.layers)
                first = next((at for at in range(len(layers) + 1 - size)
                              if tuple(layers[at:at + size]) == colour.layers), len(layers))
                layers += colour.layers if first == len(layers) else ()
                bases.append(struct.pack(">HHH", glyph, first, size))
        return bases, layers

    def clips(self) -> list[tuple[int, int, Piece]]:
        """The spans of glyphs with one clip box."""
        found: list[tuple[int, int, Piece]] = []
        for glyph, colour in self.said.glyphs.items():
            if colour.box and found and found[-1][1:] == (glyph - 1, colour.box) and self.chance.random() < 0.8:
                found[-1] = found[-1][0], glyph, colour.box
            elif colour.box:
                found.append((glyph, glyph, colour.box))
        return found

    def table(self) -> bytes:
        bases, layers = self.plain()
        rows = b"".join(struct.pack(">HH", *layer) for layer in layers)
        header = HEADERS[self.said.version]
        made = bytearray(header) + self.gap()
        made[:4] = struct.pack(">HH", self.said.version, len(bases))
        made[12:14] = struct.pack(">H", len(layers))
        for field, data in (8, rows), (4, b"".join(bases)):
            if data:
                made[field:field + 4] = struct.pack(">I", len(made))
                made += data + self.gap()
        return bytes(made if self.said.version == 0 else self.with_paints(made))

    def with_paints(self, made: bytearray) -> bytearray:
        """The table with its lists of version 1."""
        roots = [(glyph, colour.paint) for glyph, colour in self.said.glyphs.items() if colour.paint]
        clips = self.clips()
        for piece in [paint for _, paint in roots] + [box for _, _, box in clips]:
            self.note(piece)
        more = self.chance.choice((0, 0, 1))  # layers that no paint has, whose offset is 0
        sizes = {22: 5 + CLIP * len(clips), 18: 4 + PLACE * (len(self.layers) + more), 14: 4 + ROOT * len(roots)}
        starts: dict[int, int] = {}
        for field in self.chance.sample(sorted(sizes), 3):
            if sizes[field] > 5 or self.chance.random() < 0.3:
                starts[field] = len(made)
                made[field:field + 4] = struct.pack(">I", len(made))
                made += bytes(sizes[field]) + self.gap()
        places = self.put_pieces(made)
        for field, head, rows in (
                (14, struct.pack(">I", len(roots)),
                 [struct.pack(">HI", glyph, places[paint] - starts[14]) for glyph, paint in roots]),
                (18, struct.pack(">I", len(self.layers) + more),
                 [struct.pack(">I", places[one] - starts[18]) for one in self.layers] + [bytes(4)] * more),
                (22, struct.pack(">BI", 1, len(clips)), [struct.pack(">HH", first, last) + u24(
                    places[box] - starts[22]) for first, last, box in clips])):
            if field in starts:
                made[starts[field]:starts[field] + sizes[field]] = head + b"".join(rows)
        for field, data in zip((26, 30), self.said.store):
            if data:
                made[field:field + 4] = struct.pack(">I", len(made))
                made += data + self.gap()
        return made

    def put_pieces(self, made: bytearray) -> dict[Piece, int]:
        """Puts all pieces at the end, and returns their places."""
        places, starts = dict[Piece, int](), []
        for piece in self.order:
            made += self.gap()
            places[piece] = len(made)
            starts.append(len(made))
            made += piece.data
        for piece, start in zip(self.order, starts):
            if piece.has_layers():
                made[start + 2:start + 6] = struct.pack(">I", self.first(piece) or 0)
            elif piece.below:
                for (at, _), below in zip(PAINTS[piece.data[0]].offsets, piece.below):
                    made[start + at:start + at + 3] = u24(places[below] - start)
        return places


def scattered(chance: random.Random, said: Colours) -> bytes:
    """A table that says this, and is not as it is written."""
    return Scattered(chance, said).table()


def painted(*paints: Piece) -> bytes:
    """The table in which the glyphs from 1 on have these paints."""
    return scattered(random.Random(0), Colours(1, {1 + at: Colour(None, paint) for at, paint in enumerate(paints)}))


def palettes(chance: random.Random, version: int = 0, entries: int = 3) -> bytes:
    """A CPAL of one palette, or one that is spoiled: it is copied, whatever it says."""
    header = struct.pack(">HHHHIH", version, entries, 1, entries, 14, 0)
    table = bytearray(header + chance.randbytes(4 * entries))
    return bytes(table)
