"""Fonts with colours, which fontTools makes of Debian's fonts, or which Debian has, and what fontTools reads of
them."""
import glob
import json
import os
import subprocess
from functools import cache
from typing import Any, NamedTuple, Optional, Sequence

from checks import DEJAVU, INTER, PYTHON, by_fonttools, check, put, room, run, skip
from colour_cutting import LAYOUT_CUTS, VARIABLE, ColourCuts
from colour_reading import Colours, Piece

# Where Debian's package firefox-esr has its font, and where the package may be.
TWEMOJI = "/usr/lib/firefox-esr/fonts/TwemojiMozilla.ttf"
PACKAGES = "/var/cache/apt/archives/firefox-esr_*.deb"

# Makes a font with colours of another one, by a version, a seed, and how many glyphs are to have some. What varies has
# a store of two axes or one.
BUILT = """
import random, sys
from fontTools.colorLib.builder import buildCOLR, buildCPAL
from fontTools.ttLib import TTFont
from fontTools.ttLib.tables import otTables as ot
from fontTools.varLib.builder import buildDeltaSetIndexMap, buildVarData, buildVarRegionList, buildVarStore

FIELDS = {
    "Solid": "PaletteIndex Alpha", "LinearGradient": "x0 y0 x1 y1 x2 y2", "RadialGradient": "x0 y0 r0 x1 y1 r1",
    "SweepGradient": "centerX centerY startAngle endAngle", "Transform": "", "Translate": "dx dy",
    "Scale": "scaleX scaleY", "ScaleAroundCenter": "scaleX scaleY centerX centerY", "ScaleUniform": "scale",
    "ScaleUniformAroundCenter": "scale centerX centerY", "Rotate": "angle",
    "RotateAroundCenter": "angle centerX centerY", "Skew": "xSkewAngle ySkewAngle",
    "SkewAroundCenter": "xSkewAngle ySkewAngle centerX centerY"}
path, out, version, seed, count = *sys.argv[1:3], *map(int, sys.argv[3:])
font, chance = TTFont(path), random.Random(seed)
order = font.getGlyphOrder()
axes = font["fvar"].axes if "fvar" in font else []

def named(codes):
    return [name for code, name in sorted(font.getBestCmap().items()) if code in codes]

base = (named(range(0x41, 0x5B)) + named(range(0x61, 0x7B)) + [name for name in order if name[:1] == "f" and any(
    part in name for part in ("_i", "_l", "fi", "fl"))] + named(range(0xC0, 0x17F)))[:count]
parts = named(range(0x21, 0x7F))

def value(field):
    if field == "PaletteIndex":
        return chance.choice((0, 1, 2, 0xFFFF))
    if field == "Alpha":
        return chance.choice((0.25, 0.5, 1))
    if "cale" in field:
        return chance.choice((0.5, 0.75, 1.25))
    if field in ("startAngle", "endAngle", "r0", "r1"):
        return chance.choice((0, 45, 90, 180))
    return chance.choice((-30, 15, 45) if "ngle" in field else (-30, 0, 15, 45, 200))

def varying():
    return {"VarIndexBase": chance.choice((0, 1, 0xFFFFFFFF))} if axes else {}

def paint(depth):
    kind = chance.choice("Solid Solid Glyph Glyph ColrGlyph Layers".split() if chance.random() < 0.5 else
                         [*FIELDS, "Composite", "Layers"])
    if depth == 0 or kind == "Solid":
        return of_fields("Solid", depth)
    if kind == "Glyph":
        return {"Format": ot.PaintFormat.PaintGlyph, "Glyph": chance.choice(parts), "Paint": paint(depth - 1)}
    if kind == "ColrGlyph":
        return {"Format": ot.PaintFormat.PaintColrGlyph, "Glyph": chance.choice(base)}
    if kind == "Layers":
        return {"Format": ot.PaintFormat.PaintColrLayers,
                "Layers": [paint(depth - 1) for _ in range(chance.randint(2, 4))]}
    if kind == "Composite":
        return {"Format": ot.PaintFormat.PaintComposite, "SourcePaint": paint(depth - 1),
                "CompositeMode": chance.choice(("src_over", "xor", "multiply")), "BackdropPaint": paint(depth - 1)}
    return of_fields(kind, depth)

def of_fields(kind, depth):
    varies = varying() if chance.random() < 0.5 else {}
    made = {"Format": getattr(ot.PaintFormat, f"Paint{'Var' if varies else ''}{kind}"), **varies}
    made.update((field, value(field)) for field in FIELDS[kind].split())
    if "Gradient" in kind:
        stops = [{"StopOffset": at, "PaletteIndex": value("PaletteIndex"), "Alpha": 1, **varying_of(varies)}
                 for at in (0, 0.5, 1)]
        made["ColorLine"] = {"Extend": chance.choice(("pad", "repeat", "reflect")), "ColorStop": stops}
    elif kind != "Solid":
        made["Paint"] = paint(depth - 1)
    if kind == "Transform":
        made.pop("VarIndexBase", None)
        made["Transform"] = {**dict(zip("xx yx xy yy dx dy".split(), (1, 0, 0.5, 1, 30, value("dy")))),
                             **varying_of(varies)}
    return made

def varying_of(varies):
    return varying() if varies else {}

def layers():
    return [(chance.choice(parts), chance.choice((0, 1, 2, 0xFFFF))) for _ in range(chance.randint(1, 4))]

# With a store fontTools takes no layers of version 0, nor if it is asked for version 1.
glyphs = {name: layers() if version == 0 or not axes and chance.random() < 0.2 else paint(chance.randint(1, 5))
          for name in base}
boxes = {name: (-50, -300, chance.choice((900, 1200)), 1500, *varying().values()) for name in base
         if chance.random() < 0.6}
more = {"clipBoxes": boxes} if version else {}
if axes:
    regions = [{axes[0].axisTag: (0, 1, 1)}, {axes[0].axisTag: (-1, -1, 0)}]
    data = buildVarData([0, 1], [[100, -100], [40, -200], [0, 300]], optimize=False)
    more["varStore"] = buildVarStore(buildVarRegionList(regions, [axis.axisTag for axis in axes]), [data])
    more["varIndexMap"] = buildDeltaSetIndexMap([0, 1, 2, 1, 0, 2, 1, 0, 2])
font["COLR"] = buildCOLR(glyphs, None if version else 0, glyphMap=font.getReverseGlyphMap(), **more)
font["CPAL"] = buildCPAL([[(0.8, 0.1, 0.1, 1), (0.1, 0.2, 0.9, 1), (0, 0.6, 0.3, 0.75)]])
font.save(out)
"""

# Prints what fontTools reads of COLR in each font: the layers of version 0 of each glyph, its paint and its clip box as
# trees of bytes with zeros for offsets, and its paint as it is unbuilt.
READ = """
import hashlib, json, sys
from fontTools.colorLib.unbuilder import unbuildColrV1
from fontTools.ttLib import TTFont
from fontTools.ttLib.tables import otTables as ot
from fontTools.ttLib.tables.otBase import CountReference, OTTableReader, OTTableWriter
from fontTools.ttLib.tables.otConverters import Table24

def reading(path):
    font, table, number = TTFont(path), ot.COLR(), lambda name: int(name[1:])
    # Names of glyphs that a cut has too; and fontTools' own reader lacks lists of version 0 that are empty.
    font.setGlyphOrder([f"g{glyph}" for glyph in range(font["maxp"].numGlyphs)])
    table.decompile(OTTableReader(font.reader["COLR"], tableTag="COLR"), font)
    found = {"version": table.Version, "layers": {}, "paints": {}, "boxes": {}, "unbuilt": {}}
    records = table.LayerRecordArray.LayerRecord if table.LayerRecordArray else []
    for base in table.BaseGlyphRecordArray.BaseGlyphRecord if table.BaseGlyphRecordArray else []:
        found["layers"][number(base.BaseGlyph)] = [[number(layer.LayerGlyph), layer.PaletteIndex] for layer in records[
            base.FirstLayerIndex:base.FirstLayerIndex + base.NumLayers]]
    if table.Version == 0:
        return found
    paints = table.LayerList.Paint if table.LayerList else []

    def tree(piece):
        writer = OTTableWriter(tableTag="COLR")
        piece.compile(writer, font)
        data = b"".join(bytes(item.offsetSize) if isinstance(item, OTTableWriter) else
                        item.getCountData() if isinstance(item, CountReference) else item for item in writer.items)
        below = [getattr(piece, field.name) for field in piece.getConverters() if isinstance(field, Table24)]
        if isinstance(piece, ot.Paint) and piece.Format == ot.PaintFormat.PaintColrLayers:
            below, data = paints[piece.FirstLayerIndex:piece.FirstLayerIndex + piece.NumLayers], data[:2] + bytes(4)
        return [data.hex(), [tree(one) for one in below]]

    if table.BaseGlyphList:
        for base in table.BaseGlyphList.BaseGlyphPaintRecord:
            found["paints"][number(base.BaseGlyph)] = tree(base.Paint)
        for name, paint in unbuildColrV1(table.LayerList, table.BaseGlyphList).items():
            found["unbuilt"][number(name)] = hashlib.sha256(repr(paint).encode()).hexdigest()
    if table.ClipList:
        found["boxes"] = {number(name): tree(box) for name, box in table.ClipList.clips.items()}
    return found

print(json.dumps([reading(path) for path in sys.argv[1:]]))
"""


class ColourFont(NamedTuple):
    """A font with colours: its name, its path, and the kind of its cuts."""

    name: str
    path: str
    cuts: ColourCuts


class Recipe(NamedTuple):
    """How a font is made: of which other one, in which version, and how many glyphs are to have colours."""

    name: str
    source: str
    package: str
    version: int
    coloured: int
    cuts: ColourCuts = LAYOUT_CUTS


RECIPES = [
    Recipe("DejaVu Sans, version 0", f"{DEJAVU}/DejaVuSans.ttf", "fonts-dejavu-core", 0, 120),
    Recipe("DejaVu Sans, version 1", f"{DEJAVU}/DejaVuSans.ttf", "fonts-dejavu-core", 1, 120),
    Recipe("DejaVu Sans Mono, version 1", f"{DEJAVU}/DejaVuSansMono.ttf", "fonts-dejavu-core", 1, 400),
    Recipe("Inter, version 1, variable", f"{INTER}/Inter.var.ttf", "fonts-inter-variable", 1, 120, VARIABLE),
]


def twemoji() -> Optional[str]:
    """The path of Twemoji Mozilla, which is installed, or taken out of its package, or None."""
    if os.path.exists(TWEMOJI):
        return TWEMOJI
    packages = sorted(glob.glob(PACKAGES))
    if not packages:
        return None
    path = os.path.join(room(), "TwemojiMozilla.ttf")
    with subprocess.Popen(["dpkg-deb", "--fsys-tarfile", packages[-1]], stdout=subprocess.PIPE) as package:
        status, font, _ = run("tar", "-xO", f".{TWEMOJI}", stdin=package.stdout)
    put(path, font)
    return path if status == 0 and font else None


@cache
def colour_fonts() -> list[ColourFont]:
    """All of them; those that cannot be made are skipped."""
    found = []
    for at, recipe in enumerate(RECIPES):
        path = os.path.join(room(), f"colours {at}.ttf")
        if not os.path.exists(recipe.source):
            skip(recipe.name, f"Debian's package {recipe.package} is not installed")
            continue
        words = [recipe.source, path, *map(str, (recipe.version, at, recipe.coloured))]
        status, _, err = run(PYTHON, "-c", BUILT, *words)
        if b"No module named 'fontTools'" in err:
            skip(recipe.name, "Debian's package python3-fonttools is not installed")
            continue
        check(f"{recipe.name} is made", status == 0, err.decode())
        found += [ColourFont(recipe.name, path, recipe.cuts)] if status == 0 else []
    path = twemoji() or ""
    if path:
        found.append(ColourFont("Twemoji Mozilla, version 0", path, LAYOUT_CUTS))
    else:
        skip("Twemoji Mozilla", "Debian's package firefox-esr is not installed, nor in apt's cache")
    return found


def tree_of(piece: Piece) -> list[Any]:
    return [piece.data.hex(), [tree_of(one) for one in piece.below]]


def as_fonttools(said: Colours) -> dict[str, Any]:
    """What is said, as fontTools reads it, but for what it unbuilds."""
    glyphs = said.glyphs.items()
    return {
        "version": said.version,
        "layers": {str(glyph): [list(layer) for layer in colour.layers] for glyph, colour in glyphs
                   if colour.layers is not None},
        "paints": {str(glyph): tree_of(colour.paint) for glyph, colour in glyphs if colour.paint},
        "boxes": {str(glyph): tree_of(colour.box) for glyph, colour in glyphs if colour.box},
    }


def read_by_fonttools(paths: Sequence[str]) -> Optional[list[dict[str, Any]]]:
    """What fontTools reads of COLR in these fonts, or None where it is not installed."""
    found = by_fonttools(READ, paths)
    return None if found is None else json.loads(json.dumps(found))
