"""Tables of colours that are typed in, for fonts of five glyphs: what is said of a glyph, and what cuts have."""
from typing import NamedTuple


def typed(*rows: str) -> bytes:
    """The bytes of rows in hexadecimal."""
    return bytes.fromhex("".join(rows))


class Typed(NamedTuple):
    """A table, whether what varies is kept, the table of the frame, those of some parts by their glyphs, and that of
    all parts."""

    name: str
    table: bytes
    varies: bool
    frame: bytes
    parts: dict[int, bytes]
    whole: bytes


NO_LAYERS = typed("0000 0000 00000000 00000000 0000")
LAYERS = typed(
    "0000 0002 0000000e 0000001a 0003",  # version, numBaseGlyphRecords, offsets, numLayerRecords
    "0001 0000 0001", "0002 0001 0002",  # BaseGlyph: glyphID, firstLayerIndex, numLayers
    "0004 0002", "0003 0000", "0004 0001")  # Layer: glyphID, paletteIndex
SHARED_LAYERS = typed(
    "0000 0003 0000001a 0000000e 0003", "0003 0000", "0004 0001", "ffff 0007",
    "0001 0001 0001", "0002 0000 0002", "0003 0003 0000")
OWN_LAYERS = typed(
    "0000 0003 0000000e 00000020 0003", "0001 0000 0001", "0002 0001 0002", "0003 0003 0000",
    "0004 0001", "0003 0000", "0004 0001")
LAYERS_OF_1 = typed("0000 0001 0000000e 00000014 0001", "0001 0000 0001", "0004 0002")
LAYERS_OF_2 = typed("0000 0001 0000000e 00000014 0002", "0002 0000 0002", "0003 0000", "0004 0001")
NO_LAYERS_OF_3 = typed("0000 0001 0000000e 00000000 0000", "0003 0000 0000")

NO_RECORDS = "0001 0000 00000000 00000000 0000"
SOLID, GRADIENT, OF_GLYPH = "02 0001 4000", "04 000010 0001 0002 0003 0004 0005 0006 00 0001 0000 0000 4000", "0b 0001"
CLIP_BOX = "01 0000 0000 000a 0014"
NO_PAINTS = typed(NO_RECORDS, "00000000 00000000 00000000 00000000 00000000")
PAINTS = typed(
    NO_RECORDS, "00000022 00000043 00000071 00000000 00000000",  # offsets from baseGlyphListOffset on
    "00000002", "0001 00000010", "0002 0000001b",  # BaseGlyphList
    "0a 000006 0003", SOLID,  # PaintGlyph, PaintSolid
    "01 02 00000000",  # PaintColrLayers
    "00000002 0000000c 0000002b",  # LayerList
    "0a 000006 0003", GRADIENT, OF_GLYPH,
    "01 00000001", "0001 0002 00000c", CLIP_BOX)  # ClipList
OWN_PAINTS = typed(
    NO_RECORDS, "00000022 00000032 00000071 00000000 00000000",
    "00000002", "0001 0000001c", "0002 00000027",
    "00000002 0000001d 0000003c",
    "0a 000006 0003", SOLID, "01 02 00000000", "0a 000006 0003", GRADIENT, OF_GLYPH,
    "01 00000002", "0001 0001 000013", "0002 0002 00001c", CLIP_BOX, CLIP_BOX)
PAINT_OF_2 = typed(
    NO_RECORDS, "00000022 0000002c 00000060 00000000 00000000",
    "00000001", "0002 00000016", "00000002 00000012 00000031",
    "01 02 00000000", "0a 000006 0003", GRADIENT, OF_GLYPH,
    "01 00000001", "0002 0002 00000c", CLIP_BOX)

FADING = "03 0001 4000 00000000"  # PaintVarSolid
MAP = "00 00 0001 00"  # DeltaSetIndexMap
STORE = typed(
    "0001 0000000c 0001 00000016",  # ItemVariationStore
    "0001 0001 0000 4000 4000", "0001 0001 0001 0000 e000")  # VariationRegionList, ItemVariationData
VARYING = typed(NO_RECORDS, "00000022 00000000 00000000 00000035 0000003a", "00000001", "0001 0000000a", FADING, MAP,
                STORE.hex())
NO_VARYING = typed(NO_RECORDS, "00000000 00000000 00000000 00000022 00000027", MAP, STORE.hex())
FADING_OF_1 = typed(NO_RECORDS, "00000022 00000000 00000000 00000000 00000000", "00000001", "0001 0000000a", FADING)

OFFSETS = "00000022 0000002c 00000000 00000000 00000000"  # BaseGlyphList of one glyph, LayerList
OTHER_SOLID = "02 0002 4000"
NESTED = typed(
    NO_RECORDS, OFFSETS, "00000001", "0004 0000002a", "00000003 00000015 00000010 0000001a",
    SOLID, OTHER_SOLID, "01 01 00000000", "01 02 00000001")
OWN_NESTED = typed(
    NO_RECORDS, OFFSETS, "00000001", "0004 0000001a", "00000003 00000016 0000001b 00000021",
    "01 02 00000000", SOLID, "01 01 00000002", OTHER_SOLID)

ONE_LIST = "00000022 00000000 00000000 00000000 00000000"
COMPOSED = typed(  # PaintComposite of one paint twice, below PaintTransform
    NO_RECORDS, ONE_LIST, "00000001", "0000 0000000a", "0c 00001f 000007", "00010000" * 6, "20 000008 03 000008", SOLID)
OWN_COMPOSED = typed(
    NO_RECORDS, ONE_LIST, "00000001", "0000 0000000a", "0c 000007 000019", "20 000008 03 00000d", SOLID, SOLID,
    "00010000" * 6)
EMPTY_LISTS = typed(  # three lists of nothing, two of them one
    NO_RECORDS, "00000022 00000022 00000026 00000000 00000000", "00000000", "01 00000000")

WORKED = [
    Typed("version 0", LAYERS, False, NO_LAYERS, {1: LAYERS_OF_1, 2: LAYERS_OF_2, 3: b""}, LAYERS),
    Typed("version 0, shared", SHARED_LAYERS, True, NO_LAYERS, {2: LAYERS_OF_2, 3: NO_LAYERS_OF_3}, OWN_LAYERS),
    Typed("version 1", PAINTS, False, NO_PAINTS, {2: PAINT_OF_2, 3: b""}, OWN_PAINTS),
    Typed("version 1, what varies", VARYING, True, NO_VARYING, {1: FADING_OF_1}, VARYING),
    Typed("version 1, without what varies", VARYING, False, NO_PAINTS, {1: FADING_OF_1}, FADING_OF_1),
    Typed("layers of layers", NESTED, False, NO_PAINTS, {4: OWN_NESTED}, OWN_NESTED),
    Typed("two offsets", COMPOSED, False, NO_PAINTS, {0: OWN_COMPOSED}, OWN_COMPOSED),
    Typed("empty lists", EMPTY_LISTS, False, NO_PAINTS, {}, NO_PAINTS),
]


def with_byte(table: bytes, at: int, byte: int) -> bytes:
    return table[:at] + bytes([byte]) + table[at + 1:]


# Tables that are not read.
NOT_READ = [
    ("no byte", b""), ("a header of 13 bytes", NO_LAYERS[:13]), ("a header of 33 bytes", NO_PAINTS[:33]),
    ("version 2", with_byte(NO_PAINTS, 1, 2)), ("base glyphs at 0", with_byte(LAYERS, 7, 0)),
    ("layers at 0", with_byte(LAYERS, 11, 0)), ("a layer too few", LAYERS[:-1]),
    ("a base glyph that is none", with_byte(LAYERS, 21, 5)), ("base glyphs that descend", with_byte(LAYERS, 15, 2)),
    ("a layer that is no glyph", with_byte(LAYERS, 27, 5)), ("layers past the last", with_byte(LAYERS, 23, 2)),
    ("a paint at 0", with_byte(PAINTS, 43, 0)), ("a paint of format 33", with_byte(PAINTS, 50, 33)),
    ("a paint of format 0", with_byte(PAINTS, 50, 0)), ("PaintGlyph of no glyph", with_byte(PAINTS, 55, 5)),
    ("PaintColrGlyph of no glyph", with_byte(PAINTS, 112, 5)), ("layers past LayerList", with_byte(PAINTS, 66, 1)),
    ("a color line at 0", with_byte(PAINTS, 88, 0)), ("a clip box of format 3", with_byte(PAINTS, 125, 3)),
    ("ClipList of format 2", with_byte(PAINTS, 113, 2)), ("a clip that ends too early", with_byte(PAINTS, 119, 3)),
    ("a clip of no glyph", with_byte(PAINTS, 121, 5)), ("a clip box that is not all there", PAINTS[:-1]),
]
