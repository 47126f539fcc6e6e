"""The program over fonts with colours, beside the second reading: what `tests/colours` skips as long as the program
drops them."""
import os
import random
import resource
import tempfile
from functools import cache, partial
from typing import NamedTuple, Optional, Sequence

from checks import (DONE, NO_WORDS, built, by_fonttools, check, held, put, quiet, read, room, same, same_bytes, skip,
                    spread)
from colour_cutting import LAYOUT_CUTS, VARIABLE, ColourCuts
from colour_fonts import ColourFont, colour_fonts
from colour_joining import JOINED
from colour_laws import colour_font, with_other_colours
from colour_making import (INDEX_MAP, STORE, box_of, glyph_paint, layered, moved, of_glyph, palettes, scattered, solid,
                           with_colours)
from colour_reading import Colour, Colours, Store, colour_table
from font_changing import with_tables
import font_cutting
from font_cutting import outlines, ranges, ranges_of, whole_map
from font_reading import tables_of
from glyph_cutting import EVERYTHING, Wanted, either
from glyph_making import random_wanted
from layout_making import gsub_of_one, coverage, letters, ligature, ligatures, with_sets
import lean_cutting
from lean_joining import join_all
from random_joins import join_as_joiner, put_all, random_tree
from sequence_making import with_pairs
from shaping import glyphs_in, shaped
from spoiled_colours import gradient, hostile, spoiled_palettes
from tried_glyphs import CLOSED, EXACTLY, made_as_read, of_itself, option
from tried_kinds import TriedKind, join_refused, joined, refused_as, sanitized_as_font
from variable_making import with_glyphs

KINDS: Sequence[ColourCuts] = (LAYOUT_CUTS, VARIABLE)


def tried(cuts: ColourCuts) -> TriedKind:
    """A kind of cuts, as scripts about commands ask for it."""
    return TriedKind(cuts.name, cuts.closing_refusal, lambda font, codes: cuts.closed_cut(font, Wanted(codes)), cuts,
                     partial(join_all, kind=JOINED[cuts.name]))


TRIED = {cuts.name: tried(cuts) for cuts in KINDS}
RANDOM, JOINS, TREES, SETS = 60, 150, 2, 3
TIMES, FLOOR, OF_BYTES, TRIES = 5, 0.05, 0.1, 10  # of a slow cut: times of a fast one, seconds more, and more of a MB


@cache
def keeps_colours() -> bool:
    """Whether the program keeps colours in layout cuts."""
    built()
    path, out = (os.path.join(room(), name) for name in ("small.ttf", "small cut.ttf"))
    put(path, with_colours(letters({}), colour_table(Colours(0, {1: Colour(((2, 0),))})), palettes(random.Random(0))))
    same("a layout cut of a font with colours", DONE, quiet("subset", "--layout", path, out, "U+41"))
    return b"COLR" in tables_of(read(out))


def lacks_colours(name: str) -> bool:
    """Whether a case is skipped, and counts that."""
    if not keeps_colours():
        skip(name, "the program drops colours")
    return not keeps_colours()


# Cuts.

def cuts_of_font(cuts: ColourCuts, title: str, file: bytes, sets: Sequence[Wanted], most: int = 9) -> list[bytes]:
    """Exact and closed cuts of a font, and cuts of these, beside the second reading. Returns the exact ones."""
    made = []
    with tempfile.TemporaryDirectory() as folder:
        path, out = os.path.join(folder, "font.ttf"), os.path.join(folder, "out.ttf")
        put(path, file)
        for number, wanted in enumerate(sets):
            for how in EXACTLY, CLOSED:
                cut = made_as_read(cuts, (path, out), f"{title}, {number}, {how}", wanted, how)
                if cut is None:
                    continue
                made += [cut] if how == EXACTLY else []
                if number < most:
                    of_itself(cuts, f"{title}, {number}, {how}", folder, path, cut)
        for words, lesser in (NO_WORDS, font_cutting.cut), (["--lean"], lean_cutting.lean_cut):
            same(f"{title}: subset {words}", DONE, quiet("subset", *words, path, out, "U+41-45"))
            same_bytes(f"{title}: {words or 'full'} cuts drop colours", lesser(file, ranges("U+41-45")), held(out))
    return made


def by_chance(cuts: ColourCuts) -> None:
    """Cuts of random fonts."""
    chance = random.Random(f"colours {cuts.name}")
    for number in range(RANDOM):
        font = colour_font(chance, cuts)
        sets = [random_wanted(chance, len(outlines(font))) for _ in range(2)]
        cuts_of_font(cuts, f"{cuts.name} {number}", font, sets, 1)


def sets_for(font: ColourFont) -> list[Wanted]:
    """Characters and glyphs of a font: some of both, and of those with colours."""
    file, chance = read(font.path), random.Random(font.name)
    codes, said = sorted(whole_map(file)), sorted(font.cuts.colours(file))
    return [Wanted(ranges_of(chance.sample(codes, 20)), frozenset(chance.sample(range(len(outlines(file))), 20))),
            Wanted([], frozenset(chance.sample(said, 20))), Wanted(ranges_of(chance.sample(codes, 30)))][:SETS]


def of_colour_font(font: ColourFont) -> None:
    """Cuts of a font that fontTools made, or that Debian has, and their joins."""
    file, sets = read(font.path), sets_for(font)
    files = cuts_of_font(font.cuts, font.name, file, sets, 1)
    with tempfile.TemporaryDirectory() as folder:
        out = os.path.join(folder, "out.ttf")
        for number, made in enumerate(files):
            put(out, made)
            if whole_map(made):  # ots-sanitize refuses a mapping of nothing
                sanitized_as_font(f"{font.name}, {number}", font.path, out)
        exact = [font.cuts.closed(file, wanted, b"") for wanted in sets]
        wanted_bytes, paths = font.cuts.cut(file, either(*exact)), put_all(folder, files)
        for number in range(TREES):
            with tempfile.TemporaryDirectory(dir=folder) as place:
                tree, failed = random_tree(place, paths, random.Random(number), option(font.cuts))
            same(f"{font.name}: tree {number}: join", [], failed)
            same_bytes(f"{font.name}: tree {number}", wanted_bytes, tree)


def typed_fonts() -> dict[str, bytes]:
    """Fonts of ten glyphs, in which U+0042 and U+0043 are a ligature, glyph 7, by what they are."""
    layout = {b"GSUB": gsub_of_one(4, with_sets(coverage(2), ligatures(ligature(7, 3))))}
    palette = palettes(random.Random(1))
    said = {
        "layers of layers of version 0": Colours(0, {1: Colour(((8, 0), (2, 1))), 7: Colour(((9, 0),)), 8: Colour(())}),
        "a painted ligature": Colours(1, {7: Colour(None, of_glyph(5)), 5: Colour(None, glyph_paint(9, solid(0)))}),
        "a layer that is substituted": Colours(1, {1: Colour(None, layered(glyph_paint(2, solid(0)), of_glyph(3)))}),
        "a clip box alone": Colours(1, {9: Colour(None, None, box_of(0, 0, 9, 9))}),
        "nothing of any glyph": Colours(0, {}),
        "what varies": Colours(1, {1: Colour(None, None, box_of(0, 0, 9, 9, varying=0))}, Store(INDEX_MAP, STORE)),
        "colours of .notdef": Colours(0, {0: Colour(((4, 0),))}),
    }
    fonts = {name: with_colours(letters(layout), scattered(random.Random(2), one), palette)
             for name, one in said.items()}
    return {**fonts, "a COLR without a byte": with_colours(letters(layout), b"", palette),
            "CPAL without COLR": with_colours(letters(layout), None, palette),
            "COLR without CPAL": with_tables(fonts["a painted ligature"], {b"CPAL": None}),
            "a spoiled CPAL": with_tables(fonts["a painted ligature"], {b"CPAL": b"\xff\7\0"})}


def try_cuts() -> None:
    """Cuts of typed fonts, of random ones, and of those that fontTools made."""
    for name, font in typed_fonts().items():
        for cuts in KINDS:
            sets = [Wanted([(0x41, 0x41)]), Wanted([(0x42, 0x43)], frozenset({9})), Wanted([], frozenset({1, 7, 500})),
                    EVERYTHING]
            cuts_of_font(cuts, f"{cuts.name}, {name}", font, sets)
    spread(by_chance, KINDS)
    spread(of_colour_font, colour_fonts())


# Refusals.

BAD = with_colours(letters({}), b"\0\2", b"")
BAD_COLOURS = "refused 30 bad colours"


def with_two(tag: bytes) -> bytes:
    """A font with two tables of a tag."""
    made = bytearray(with_tables(letters({}), {b"COLR": b"", b"CPAL": b"", b"CPAM": b"", b"COLS": b""}))
    at = made.index({b"COLR": b"COLS", b"CPAL": b"CPAM"}[tag])
    made[at:at + 4] = tag
    return bytes(made)


def try_refused(spoiled: Sequence[tuple[str, bytes]]) -> None:
    """What is refused of typed fonts, after what else is, and of spoiled ones."""
    with tempfile.TemporaryDirectory() as folder:
        path, out = os.path.join(folder, "font.ttf"), os.path.join(folder, "out.ttf")
        rows = [("a COLR that is not read", BAD), ("after 27", with_tables(BAD, {b"GSUB": b"\0"})),
                ("two tables COLR", with_two(b"COLR")), ("two tables CPAL", with_two(b"CPAL"))]
        for cuts in KINDS:
            refused_as(TRIED[cuts.name], folder, f"{cuts.name}, {rows[0][0]}", BAD, BAD_COLOURS)
            more = [("after 28", with_tables(BAD, {b"gvar": b"\0"}))] if cuts.name == "variable" else []
            for (name, font), how in [(row, how) for row in rows + more for how in (EXACTLY, CLOSED)]:
                put(path, font)
                made_as_read(cuts, (path, out), f"{cuts.name}, {how}, {name}", Wanted([(0x41, 0x41)]), how)
        chance = random.Random(30)
        for number, (name, data) in enumerate(spoiled):
            cuts, how = KINDS[number % 2], (EXACTLY, CLOSED)[number // 2 % 2]
            put(path, with_colours(letters({}), data, spoiled_palettes(chance)))
            wanted = chance.choice((EVERYTHING, Wanted([(0x41, 0x42)], frozenset(chance.sample(range(10), 3)))))
            made_as_read(cuts, (path, out), f"spoiled, {cuts.name}, {how}, {name}", wanted, how)


# Joins.

class Side(NamedTuple):
    """What a file of a join is the cut of and for: the tables COLR and CPAL of the font of ten glyphs, numbers of
    glyphs, a byte of `hhea` that is changed, and the sequence of U+0041 and U+FE00, if it has a glyph."""

    colours: Optional[bytes]
    numbers: frozenset[int]
    palette: bytes = b"one"
    variant: Optional[int] = None

    def file(self, cuts: ColourCuts) -> bytes:
        font = letters({}) if self.variant is None else with_pairs(letters({}), {(0xFE00, 0x41): self.variant})
        return cuts.cut(with_colours(font, self.colours, self.palette), Wanted([], self.numbers))


def layers(version: int = 0, **said: int) -> bytes:
    """The table in which some glyphs have so many layers of version 0."""
    return colour_table(Colours(version, {int(name[1:]): Colour(((3, 0),) * count) for name, count in said.items()}))


def boxed(store: Store = Store(), **said: int) -> bytes:
    """The table in which some glyphs have a clip box of this height."""
    return colour_table(Colours(1, {int(name[1:]): Colour(None, None, box_of(0, 0, 9, high))
                                    for name, high in said.items()}, store))


def gradients(first: int, second: int, more: int) -> bytes:
    """The table in which two glyphs have so many gradients of all stops, and the second one of more stops. It has no
    room for more than 16,777,215 bytes."""
    heavy_paint = layered(*[gradient(65_535)] * second, gradient(more), *[solid(0)] * 4)
    light_paint = layered(*[gradient(65_535)] * first)
    return colour_table(Colours(1, {1: Colour(None, light_paint), 2: Colour(None, heavy_paint)}))


ONE, TWO, BOTH = frozenset({1}), frozenset({2}), frozenset({1, 2})
FRAMES, PALETTES, LONG = "2: refused 21 different table COLR", "2: refused 21 different table CPAL", (
    "2: refused 29 table too long COLR")
VARYING = Store(INDEX_MAP, STORE)


class Row(NamedTuple):
    """A pair of files, and the lines of the refusal in layout and in variable cuts, if their join is refused."""

    name: str
    files: tuple[Side, Side]
    lines: tuple[Optional[str], Optional[str]] = (None, None)


def pair(name: str, one: Side, other: Side, line: Optional[str] = None) -> Row:
    """A pair that is joined or refused alike in both kinds."""
    return Row(name, (one, other), (line, line))


ROWS = [
    pair("one table", Side(layers(g1=1, g2=2), ONE), Side(layers(g1=1, g2=2), TWO)),
    pair("another glyph is not kept", Side(layers(g1=1, g2=2), ONE), Side(layers(g2=3), TWO)),
    pair("another version", Side(layers(g1=1), ONE), Side(layers(1, g1=1), TWO), FRAMES),
    pair("no COLR", Side(layers(g1=1), ONE), Side(None, TWO), FRAMES),
    Row("what varies in one", (Side(boxed(g1=1), ONE), Side(boxed(VARYING, g1=1), TWO)), (None, FRAMES)),
    pair("one COLR that is not read", Side(b"\0\2", ONE), Side(b"\0\2", TWO)),
    pair("two that are not read", Side(b"\0\2", ONE), Side(b"\0\3", TWO), FRAMES),
    pair("one that is not read", Side(layers(g1=1), ONE), Side(b"\0\2", TWO), FRAMES),
    pair("one without a byte", Side(b"", ONE), Side(b"", TWO)),
    pair("another CPAL", Side(layers(g1=1), ONE), Side(layers(g1=1), TWO, b"other"), PALETTES),
    pair("COLR is before CPAL", Side(layers(g1=1), ONE), Side(layers(1, g1=1), TWO, b"other"), FRAMES),
    pair("a glyph has other layers", Side(layers(g1=1, g2=1), BOTH), Side(layers(g1=1, g2=2), TWO),
         "2: refused 23 different glyph 2"),
    pair("a glyph has none", Side(layers(g1=1, g2=1), BOTH), Side(layers(g2=1), BOTH),
         "2: refused 23 different glyph 1"),
    pair("a glyph has a list of none", Side(layers(g1=0), BOTH), Side(layers(), BOTH),
         "2: refused 23 different glyph 1"),
    pair("another clip box", Side(boxed(g1=1, g2=1), BOTH), Side(boxed(g1=1, g2=2), BOTH),
         "2: refused 23 different glyph 2"),
    pair("as many layers as may be", Side(layers(g1=40_000), ONE), Side(layers(g2=25_535), TWO)),
    pair("one layer too many", Side(layers(g1=40_000), ONE), Side(layers(g2=25_536), TWO), LONG),
    pair("23 is first", Side(layers(g1=40_000, g3=1), ONE | {3}), Side(layers(g2=25_536, g3=2), TWO | {3}),
         "2: refused 23 different glyph 3"),
    pair("COLR is before cmap", Side(layers(g1=40_000), ONE, variant=1), Side(layers(g2=25_536), TWO, variant=2),
         LONG),
    pair("cmap", Side(layers(g1=4), ONE, variant=1), Side(layers(g2=6), TWO, variant=2),
         "2: refused 29 table too long cmap"),
]


def try_joins() -> None:
    """Joins of typed files in both orders, of random ones, and of as many bytes as there may be."""
    for at, cuts in enumerate(KINDS):
        kind = TRIED[cuts.name]
        for row in ROWS:
            title, files, line = f"{cuts.name}, {row.name}", [side.file(cuts) for side in row.files], row.lines[at]
            for order in files, files[::-1]:
                with tempfile.TemporaryDirectory() as folder:
                    if line:
                        join_refused(kind, folder, title, order, line)
                    else:
                        wanted, _ = join_all(order, JOINED[cuts.name])
                        assert wanted, "the join is made by the second reading"
                        joined(kind, folder, title, order, wanted)
        with tempfile.TemporaryDirectory() as folder:
            most_bytes(cuts, folder)
            random_joins(cuts, folder)


def most_bytes(cuts: ColourCuts, folder: str) -> None:
    """Two files with as many bytes of paints as a table has room for, and with six more."""
    first = Side(gradients(20, 0, 0), ONE).file(cuts)
    for name, stops, line in ("as many bytes as may be", 43_591, None), ("six bytes too many", 43_592, LONG):
        files = [first, Side(gradients(0, 22, stops), TWO).file(cuts)]
        if line:
            join_refused(TRIED[cuts.name], folder, name, files, line)
        else:
            wanted, _ = join_all(files, JOINED[cuts.name])
            assert wanted, "the join is made by the second reading"
            joined(TRIED[cuts.name], folder, name, files, wanted)


def random_joins(cuts: ColourCuts, folder: str) -> None:
    """Joins of cuts of versions of a font, in which a glyph has other colours."""
    chance = random.Random(f"joins of colours {cuts.name}")

    def files() -> list[bytes]:
        font = colour_font(chance, cuts)
        versions = [font, with_other_colours(chance, font), font]
        sets = [random_wanted(chance, len(outlines(font))) for _ in range(chance.randint(2, 4))]
        return [cuts.cut(chance.choice(versions), one) for one in sets]

    join_as_joiner(folder, JOINS, files, partial(join_all, kind=JOINED[cuts.name]), option(cuts),
                   differences=("21 different table", "23 different glyph"))


# Slow cuts.

def seconds(*words: str) -> float:
    """The seconds of the processor that a run takes, whatever it answers."""
    before = resource.getrusage(resource.RUSAGE_CHILDREN)
    status, _, err = quiet("subset", *words)
    answers = (0, b""), (1, f"fontcut: {BAD_COLOURS}\n".encode())
    check(f"{words[-1]}: it ends with a cut, or refused", (status, err) in answers, err)
    after = resource.getrusage(resource.RUSAGE_CHILDREN)
    return after.ru_utime + after.ru_stime - before.ru_utime - before.ru_stime


def slow_fonts() -> dict[str, bytes]:
    """Fonts with tables that are made to be read slowly."""
    wide, line = with_glyphs(letters({}), 65_535), layered(*[moved(solid(0))] * 255)
    boxes = Colours(1, {glyph: Colour(None, None, box_of(0, 0, 9, 9)) for glyph in range(65_535)})
    paints = Colours(1, {glyph: Colour(None, line) for glyph in range(1, 4_000)})
    many = Colours(0, {glyph: Colour(((glyph, 0),)) for glyph in range(65_535)})
    fonts = {name: with_colours(letters({}), data) for name, data in hostile().items()}
    return {**fonts, **{name: with_colours(wide, data) for name, data in (
        ("clip boxes of 65,535 glyphs", scattered(random.Random(3), boxes)), ("layers of as many", colour_table(many)),
        ("paints that 3,999 glyphs share", scattered(random.Random(3), paints)))}}


def try_slow_cuts() -> None:
    """Cuts of fonts with tables that are made to be read slowly: they take no longer than reading and writing does."""
    with tempfile.TemporaryDirectory() as folder:
        path, out = os.path.join(folder, "font.ttf"), os.path.join(folder, "out.ttf")
        for name, font in slow_fonts().items():
            put(path, with_colours(font, None))
            words = ["--layout", EXACTLY, path, out, "everything"]
            plain = min(seconds(*words) for _ in range(3))
            put(path, font)
            size = len(LAYOUT_CUTS.colour_tables(font, range(65_536)).get(b"COLR", b""))
            allowed = TIMES * plain + FLOOR + OF_BYTES * size / 1_000_000
            least = min(seconds(*words) for _ in range(2))
            for _ in range(TRIES):
                least = least if least <= allowed else min(least, seconds(*words))
            check(f"{name}, {size} bytes: {least:.3f} s of {allowed:.3f} s", least <= allowed)


# Strings and drawings.

# Prints how FreeType draws these glyphs in color in each of some files, by the sums of the bytes.
DRAWN = """
import hashlib, json, sys
import freetype
with open(sys.argv[1]) as opened:
    glyphs = json.load(opened)
def drawn(face, glyph):
    face.load_glyph(glyph, freetype.FT_LOAD_RENDER | freetype.FT_LOAD_COLOR)
    bitmap = face.glyph.bitmap
    row = [bitmap.width, bitmap.rows, bitmap.pixel_mode, face.glyph.bitmap_left, face.glyph.bitmap_top]
    return [*row, hashlib.sha256(bytes(bitmap.buffer)).hexdigest()]
def drawings(path):
    face = freetype.Face(path)
    face.set_char_size(48 * 64)
    return [drawn(face, glyph) for glyph in glyphs]
print(json.dumps([drawings(path) for path in sys.argv[2:]]))
"""
IN_COLOR = 7  # FT_PIXEL_MODE_BGRA


def draw(font: ColourFont) -> tuple[int, int]:
    """Shapes lines with a font and with cuts for them by HarfBuzz, and draws the glyphs by FreeType. Returns how many
    were drawn in color, and how many of these differ in a cut without the font's colours."""
    file, chance = read(font.path), random.Random(font.name)
    codes = [code for code in sorted(whole_map(file)) if chr(code).isprintable()]
    said = font.cuts.colours(file)
    coloured = [code for code in codes if whole_map(file)[code] in said]
    lines = ["ffi fl AVAT"] + [
        "".join(map(chr, chance.sample(coloured, 8) + chance.sample(codes, 2))) for _ in range(20)]
    with tempfile.TemporaryDirectory() as folder:
        path = partial(os.path.join, folder)
        put(path("lines"), "".join(f"{line}\n" for line in lines).encode())
        whole = shaped(font.path, path("lines"))
        glyphs = sorted(set().union(*map(glyphs_in, whole)))
        halves = [glyphs[::2], glyphs[1::2]]
        for name, numbers, how in (("exact.ttf", glyphs, EXACTLY), ("closed.ttf", glyphs, CLOSED),
                                   ("0.ttf", halves[0], EXACTLY), ("1.ttf", halves[1], EXACTLY)):
            same(f"{font.name}: {name}", DONE, quiet(
                "subset", option(font.cuts), how, "--text-file", path("lines"), "--gids", ",".join(map(str, numbers)),
                font.path, path(name)))
        same(f"{font.name}: join", DONE, quiet("join", option(font.cuts), "-o", path("join.ttf"), path("0.ttf"),
                                               path("1.ttf")))
        names = ["exact.ttf", "closed.ttf", "join.ttf"]
        for name in names:
            same(f"{font.name}, {name}: {len(lines)} lines are shaped as with the font", whole,
                 shaped(path(name), path("lines")))
        put(path("without.ttf"), with_colours(read(path("exact.ttf")), None))
        put(path("glyphs"), str(glyphs).encode())
        found = by_fonttools(DRAWN, [path("glyphs"), font.path, *map(path, [*names, "without.ttf"])])
    if found is None:
        skip(f"{font.name}: drawn by FreeType", "Debian's package python3-freetype is not installed")
        return 0, 0
    for name, drawn in zip(names, found[1:]):
        same(f"{font.name}, {name}: {len(glyphs)} glyphs are drawn as of the font", found[0], drawn)
    in_color = [number for number, row in enumerate(found[0]) if row[2] == IN_COLOR]
    return len(in_color), sum(found[0][number] != found[-1][number] for number in in_color)


def try_drawing() -> None:
    """What HarfBuzz shapes and FreeType draws with cuts, as with the fonts; it draws layers of version 0."""
    fonts = [font for font in colour_fonts() if font.name.endswith("version 0")]
    drawn, differing = map(sum, zip((0, 0), *spread(draw, fonts)))
    check(f"{drawn} glyphs were drawn in color, {differing} of them otherwise without colours",
          not fonts or drawn == differing > 50)
