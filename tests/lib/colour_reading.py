"""A small reading of colour tables, apart from the program: what a COLR says of each glyph, and the table that says so.

It follows OpenType 1.9, COLR, and for what varies "OpenType Font Variations Common Table Formats". That a table is read
strictly or not at all, that depth and sizes are bounded, and that nothing that is written is shared, is this project's
own.
"""
import struct
from functools import lru_cache
from itertools import accumulate
from typing import Iterable, Mapping, NamedTuple, NoReturn, Optional, Sequence

MOST_LAYERS, MOST_BYTES, MOST_DEPTH = 65_535, 16_777_215, 64
HEADERS = 14, 34  # the sizes of the header in bytes, by version
BASE, LAYER, ROOT, PLACE, CLIP = 6, 4, 6, 4, 7  # and of the records

# What offsets lead to.
PAINT, LINE, VARYING_LINE, AFFINE, VARYING_AFFINE, BOX = (
    "paint", "color line", "varying color line", "affine", "varying affine", "clip box")
STOPS = {LINE: 6, VARYING_LINE: 10}  # the sizes of ColorStop and VarColorStop
AFFINES = {AFFINE: 24, VARYING_AFFINE: 28}
LAYERS = 1  # the format of PaintColrLayers, which has numLayers at 1, and firstLayerIndex at 2


class NotRead(Exception):
    """A table has something that is unknown, out of order, not all there, or too much."""


class Form(NamedTuple):
    """How something is laid out: its length, the places of its offsets of three bytes with what these lead to, and the
    place of a glyph that it names."""

    length: int
    offsets: tuple[tuple[int, str], ...] = ()
    glyph: Optional[int] = None


def on_paint(length: int) -> Form:
    """The form of a paint that changes another one."""
    return Form(length, ((1, PAINT),))


# The paints by format.
PAINTS = {
    LAYERS: Form(6),
    2: Form(5),  # PaintSolid
    3: Form(9),  # PaintVarSolid
    4: Form(16, ((1, LINE),)),  # PaintLinearGradient
    5: Form(20, ((1, VARYING_LINE),)),  # PaintVarLinearGradient
    6: Form(16, ((1, LINE),)),  # PaintRadialGradient
    7: Form(20, ((1, VARYING_LINE),)),  # PaintVarRadialGradient
    8: Form(12, ((1, LINE),)),  # PaintSweepGradient
    9: Form(16, ((1, VARYING_LINE),)),  # PaintVarSweepGradient
    10: Form(6, ((1, PAINT),), 4),  # PaintGlyph
    11: Form(3, (), 1),  # PaintColrGlyph
    12: Form(7, ((1, PAINT), (4, AFFINE))),  # PaintTransform
    13: Form(7, ((1, PAINT), (4, VARYING_AFFINE))),  # PaintVarTransform
    14: on_paint(8), 15: on_paint(12),  # PaintTranslate, PaintVarTranslate
    16: on_paint(8), 17: on_paint(12),  # PaintScale, PaintVarScale
    18: on_paint(12), 19: on_paint(16),  # PaintScaleAroundCenter, PaintVarScaleAroundCenter
    20: on_paint(6), 21: on_paint(10),  # PaintScaleUniform, PaintVarScaleUniform
    22: on_paint(10), 23: on_paint(14),  # PaintScaleUniformAroundCenter, PaintVarScaleUniformAroundCenter
    24: on_paint(6), 25: on_paint(10),  # PaintRotate, PaintVarRotate
    26: on_paint(10), 27: on_paint(14),  # PaintRotateAroundCenter, PaintVarRotateAroundCenter
    28: on_paint(8), 29: on_paint(12),  # PaintSkew, PaintVarSkew
    30: on_paint(12), 31: on_paint(16),  # PaintSkewAroundCenter, PaintVarSkewAroundCenter
    32: Form(8, ((1, PAINT), (5, PAINT))),  # PaintComposite
}
BOXES = {1: Form(9), 2: Form(13)}  # ClipBox, format 1 and 2


class Piece(NamedTuple):
    """A paint, color line, affine or clip box, with zeros for its offsets and for firstLayerIndex, and what these lead
    to, in their order; the size of all in bytes, how deep it is nested, and the glyphs that are named."""

    size: int
    kind: str
    data: bytes
    below: tuple["Piece", ...]
    depth: int
    names: frozenset[int]

    def has_layers(self) -> bool:
        return self.kind == PAINT and self.data[0] == LAYERS


Layers = tuple[tuple[int, int], ...]  # glyphs and palette entries


class Colour(NamedTuple):
    """What a table says of a glyph: its layers of version 0, of which there may be none, its paint and its clip box."""

    layers: Optional[Layers] = None
    paint: Optional[Piece] = None
    box: Optional[Piece] = None

    def names(self) -> frozenset[int]:
        """The glyphs that it names."""
        return frozenset(glyph for glyph, _ in self.layers or ()) | (self.paint.names if self.paint else frozenset())

    def size(self) -> int:
        """How many bytes it has."""
        return LAYER * len(self.layers or ()) + sum(piece.size for piece in (self.paint, self.box) if piece)


class Store(NamedTuple):
    """What varies: the bytes of the DeltaSetIndexMap and of the ItemVariationStore, each none if it is not read."""

    index_map: bytes = b""
    store: bytes = b""


class Colours(NamedTuple):
    """What a table says: its version, the glyphs of which it says something, and what varies."""

    version: int
    glyphs: Mapping[int, Colour]
    store: Store = Store()

    def has_room(self) -> bool:
        """Whether a table has room for this, with nothing shared."""
        layers = sum(len(colour.layers or ()) for colour in self.glyphs.values())
        return layers <= MOST_LAYERS and sum(colour.size() for colour in self.glyphs.values()) <= MOST_BYTES


def number(data: bytes, at: int, size: int) -> int:
    """The number of so many bytes at a place; bytes that are not there are zeros."""
    return int.from_bytes(data[at:at + size].ljust(size, b"\0"), "big")


def place_from(start: int, offset: int) -> int:
    """The place that an offset leads to, or 0, where nothing is, if it is 0."""
    return start + offset if offset else 0


def refuse() -> NoReturn:
    raise NotRead


def ensure(holds: bool) -> None:
    if not holds:
        raise NotRead


# Reading.

def form_of(kind: str, table: bytes, at: int) -> Optional[Form]:
    """The form of what stands at a place."""
    if kind in AFFINES:
        return Form(AFFINES[kind])
    if kind in STOPS:
        return Form(3 + STOPS[kind] * number(table, at + 1, 2))
    return (BOXES if kind == BOX else PAINTS).get(number(table, at, 1))


class Reader:
    """A table of a font of so many glyphs that is being read. Each place is read once, whatever leads to it, so that
    sizes that double with each paint are seen without a walk."""

    def __init__(self, table: bytes, count: int) -> None:
        self.table, self.count = table, count
        self.layers: Sequence[int] = ()  # the places of LayerList
        self.pieces: dict[tuple[str, int], Piece] = {}

    def rows(self, at: int, count: int, size: int) -> list[bytes]:
        """The records of a list, which are all there."""
        ensure(at + size * count <= len(self.table))
        return [self.table[place:place + size] for place in range(at, at + size * count, size)]

    def plain_rows(self, field: int, count: int, size: int) -> list[bytes]:
        """The records of a list of version 0, by the place of its offset."""
        at = number(self.table, field, 4)
        ensure(at > 0 or count == 0)
        return self.rows(at, count, size) if count else []

    def listed(self, field: int, before: int, size: int) -> tuple[int, list[bytes]]:
        """Where a list of version 1 stands, and its records. It has so many bytes before its count."""
        at = number(self.table, field, 4)
        if at == 0:
            return 0, []
        ensure(at + before + 4 <= len(self.table))
        return at, self.rows(at + before + 4, number(self.table, at + before, 4), size)

    def own_layers(self) -> dict[int, Layers]:
        """The layers of version 0 of each base glyph."""
        bases = self.plain_rows(4, number(self.table, 2, 2), BASE)
        rows = self.plain_rows(8, number(self.table, 12, 2), LAYER)
        layers = [(number(row, 0, 2), number(row, 2, 2)) for row in rows]
        found, least = dict[int, Layers](), 0
        for glyph, first, count in struct.iter_unpack(">HHH", b"".join(bases)):
            ensure(least <= glyph < self.count and first + count <= len(layers))
            found[glyph], least = tuple(layers[first:first + count]), glyph + 1
            ensure(all(other < self.count for other, _ in found[glyph]))
        return found

    def piece(self, kind: str, place: int, depth: int = 1) -> Piece:
        """What stands at a place, so deep below a glyph."""
        found = self.pieces.get((kind, place))
        if found is None:
            found = self.pieces[kind, place] = self.new_piece(kind, place, depth)
        ensure(depth + found.depth - 1 <= MOST_DEPTH)
        return found

    def new_piece(self, kind: str, place: int, depth: int) -> Piece:
        ensure(place > 0 and depth <= MOST_DEPTH)
        form = form_of(kind, self.table, place) or refuse()
        ensure(place + form.length <= len(self.table))
        data, places = bytearray(self.table[place:place + form.length]), list[tuple[str, int]]()
        for at, other in form.offsets:
            places.append((other, place_from(place, number(data, at, 3))))
            data[at:at + 3] = bytes(3)
        if kind == PAINT and data[0] == LAYERS:
            first, count = number(data, 2, 4), data[1]
            ensure(count == 0 or first + count <= len(self.layers))
            places = [(PAINT, layer) for layer in self.layers[first:first + count]]
            data[2:6] = bytes(4)
        names = frozenset([number(data, form.glyph, 2)] if form.glyph is not None else [])
        ensure(all(glyph < self.count for glyph in names))
        below = tuple(self.piece(other, at, depth + 1) for other, at in places)
        return Piece(len(data) + sum(piece.size for piece in below), kind, bytes(data), below,
                     1 + max((piece.depth for piece in below), default=0), names.union(*(one.names for one in below)))

    def paints(self) -> dict[int, Piece]:
        """The paint of each base glyph of version 1."""
        start, rows = self.listed(14, 0, ROOT)
        found, least = dict[int, Piece](), 0
        for glyph, offset in struct.iter_unpack(">HI", b"".join(rows)):
            ensure(least <= glyph < self.count)
            found[glyph], least = self.piece(PAINT, place_from(start, offset)), glyph + 1
        return found

    def boxes(self) -> dict[int, Piece]:
        """The clip box of each glyph that has one."""
        start, rows = self.listed(22, 1, CLIP)
        ensure(start == 0 or self.table[start] == 1)
        found, least = dict[int, Piece](), 0
        for row in rows:
            first, last = number(row, 0, 2), number(row, 2, 2)
            ensure(least <= first <= last < self.count)
            found.update(dict.fromkeys(range(first, last + 1), self.piece(BOX, place_from(start, number(row, 4, 3)))))
            least = last + 1
        return found

    def read(self) -> Colours:
        """What the table says."""
        version = number(self.table, 0, 2)
        ensure(version < len(HEADERS) and HEADERS[version] <= len(self.table))
        layers, paints, boxes, store = self.own_layers(), dict[int, Piece](), dict[int, Piece](), Store()
        if version == 1:
            start, rows = self.listed(18, 0, PLACE)
            self.layers = [place_from(start, number(row, 0, 4)) for row in rows]
            paints, boxes, store = self.paints(), self.boxes(), store_of(self.table)
        glyphs = sorted({*layers, *paints, *boxes})
        found = Colours(version, {
            glyph: Colour(layers.get(glyph), paints.get(glyph), boxes.get(glyph)) for glyph in glyphs}, store)
        ensure(found.has_room())
        return found


@lru_cache(8)  # of two files that are joined, their join and a font, each asked for its glyphs and its links
def colours_in(table: bytes, count: int) -> Optional[Colours]:
    """What a COLR says in a font of so many glyphs, or None if it is not strictly well formed."""
    try:
        return Reader(table, count).read()
    except NotRead:
        return None


# What varies.

def front(data: bytes, size: int) -> bytes:
    """So many bytes of the front, if they are there."""
    return data[:size] if size <= len(data) else b""


def index_map_in(data: bytes) -> bytes:
    """The DeltaSetIndexMap at the front: format, entryFormat, mapCount, and the entries."""
    entry, counts = number(data, 1, 1) // 16 % 4 + 1, {0: 2, 1: 4}
    size = counts.get(number(data, 0, 1))
    return front(data, 2 + size + entry * number(data, 2, size)) if size else b""


def data_end(store: bytes, at: int) -> int:
    """Where an ItemVariationData ends: itemCount, wordDeltaCount, regionIndexCount, indices, and sets of deltas."""
    items, words, regions = (number(store, at + field, 2) for field in (0, 2, 4))
    is_long, words = words >> 15, words & 0x7FFF
    return at + 6 + 2 * regions + items * (1 + is_long) * (words + regions)


def store_in(data: bytes) -> bytes:
    """The ItemVariationStore of format 1 at the front, to the end of its last piece: format,
    variationRegionListOffset, itemVariationDataCount and offsets, the regions, and the data."""
    regions, count = number(data, 2, 4), number(data, 6, 2)
    if number(data, 0, 2) != 1 or regions == 0 or 8 + 4 * count > len(data):
        return b""
    places = [number(data, 8 + 4 * index, 4) for index in range(count)]
    regions_end = regions + 4 + 6 * number(data, regions, 2) * number(data, regions + 2, 2)
    return front(data, max(8 + 4 * count, regions_end, *(data_end(data, at) for at in places if at), 0))


def store_of(table: bytes) -> Store:
    """What varies in a table of version 1."""
    places = [number(table, field, 4) for field in (26, 30)]
    return Store(*(read(table[at:]) if at else b"" for read, at in zip((index_map_in, store_in), places)))


# Writing.

class Pieces:
    """Pieces that are written, each followed by what it leads to. Places are counted from the first one on."""

    def __init__(self, pieces: Iterable[Piece]) -> None:
        self.data, self.layers = bytearray(), list[int]()
        self.starts = [self.put(piece) for piece in pieces]

    def put(self, piece: Piece) -> int:
        start, own = len(self.data), bytearray(piece.data)
        *places, _ = accumulate((one.size for one in piece.below), initial=start + len(own))
        if piece.has_layers():
            own[2:6] = struct.pack(">I", len(self.layers))
            self.layers += places
        elif piece.below:
            for (field, _), place in zip(PAINTS[own[0]].offsets, places):
                own[field:field + 3] = (place - start).to_bytes(3, "big")
        self.data += own
        for one in piece.below:
            self.put(one)
        return start


def offset_of(data: bytes, place: int) -> int:
    """The offset of a list, which is 0 if it is empty."""
    return place if data else 0


def listed(fields: Sequence[bytes], front_bytes: bytes = b"") -> bytes:
    """A list of these records, with bytes before its count; nothing if there are no records."""
    return front_bytes + struct.pack(">I", len(fields)) + b"".join(fields) if fields else b""


def plain_lists(said: Colours) -> tuple[bytes, bytes]:
    """The BaseGlyph and the Layer records of what is said."""
    rows = [(glyph, colour.layers) for glyph, colour in sorted(said.glyphs.items()) if colour.layers is not None]
    firsts = accumulate((len(layers) for _, layers in rows), initial=0)
    bases = b"".join(struct.pack(">HHH", glyph, first, len(layers)) for (glyph, layers), first in zip(rows, firsts))
    return bases, b"".join(struct.pack(">HH", *layer) for _, layers in rows for layer in layers)


def colour_table(said: Colours) -> bytes:
    """The table that says this: the header; the lists of version 0; BaseGlyphList, LayerList, paints; ClipList, boxes;
    and what varies. It has room for it."""
    bases, layers = plain_lists(said)
    start = HEADERS[said.version]
    header = struct.pack(">HHIIH", said.version, len(bases) // BASE, offset_of(bases, start),
                         offset_of(layers, start + len(bases)), len(layers) // LAYER)
    if said.version == 0:
        return header + bases + layers
    paints = {glyph: colour.paint for glyph, colour in sorted(said.glyphs.items()) if colour.paint}
    boxes = {glyph: colour.box for glyph, colour in sorted(said.glyphs.items()) if colour.box}
    painted, boxed = Pieces(paints.values()), Pieces(boxes.values())
    before = [len(listed([bytes(size)] * count, front_bytes)) for size, count, front_bytes in (
        (ROOT, len(paints), b""), (PLACE, len(painted.layers), b""), (CLIP, len(boxes), b"\1"))]
    roots = listed([struct.pack(">HI", glyph, before[0] + before[1] + at)
                    for glyph, at in zip(paints, painted.starts)])
    places = listed([struct.pack(">I", before[1] + at) for at in painted.layers])
    clips = listed([struct.pack(">HH", glyph, glyph) + (before[2] + at).to_bytes(3, "big")
                    for glyph, at in zip(boxes, boxed.starts)], b"\1")
    lists = [bases, layers, roots, places, bytes(painted.data), clips, bytes(boxed.data), *said.store]
    ends = list(accumulate(map(len, lists), initial=start))
    offsets = [offset_of(lists[at], ends[at]) for at in (2, 3, 5, 7, 8)]
    return header + struct.pack(">IIIII", *offsets) + b"".join(lists)
