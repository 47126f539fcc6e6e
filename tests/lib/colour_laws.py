"""Laws of colour tables, of cuts that keep colours and of their joins, as a second reading makes them."""
import random
from typing import Container, Iterator, NamedTuple, Optional, Sequence

from colour_cutting import LAYOUT_CUTS, STILL, ColourCuts, Division
from colour_making import other_colours, palettes, random_colours, scattered, with_colours
import colour_reading
from colour_reading import Colour, Colours, Store, colours_in
from font_cutting import outlines, ranges_of, wanted_map
from font_reading import tables_of
from glyph_cutting import EVERYTHING, LEAN, Wanted, either
from glyph_laws import Law, laws_of_cut, laws_of_files, laws_of_two, laws_of_union
from glyph_making import another_version, font_for, random_wanted
from layout_reading import links_of
from lean_joining import Kind
from random_joins import damaged
from spoiled_colours import coloured, random_table

COUNT = 8  # glyphs of the fonts of tables by themselves
EVERY = frozenset(range(COUNT))

READ_BACK = "parts of several tables that fit are read back"
SAYS = "a cut says of kept glyphs what the table says"
UNION = "the join of cuts is the cut of the union"
ALIKE = "a table is read alike with what varies and without it"
FRAME = "a frame is its own frame, and says nothing of glyphs"
STORE = "a frame has what varies, if that is kept"
WITHOUT = "the cut without what varies of a cut with it is that of the table"


# Tables by themselves.

def with_limits(small: bool) -> None:
    """Sets small limits in this process, or the right ones."""
    limits = (4, 120, 4) if small else (65_535, 16_777_215, 64)
    colour_reading.MOST_LAYERS, colour_reading.MOST_BYTES, colour_reading.MOST_DEPTH = limits
    colours_in.cache_clear()


def said_in(table: bytes) -> dict[int, Colour]:
    """What a table says of glyphs, whatever the definition of its parts."""
    found = colours_in(table, COUNT)
    return dict(found.glyphs) if found else {}


def some_glyphs(chance: random.Random) -> frozenset[int]:
    return frozenset(glyph for glyph in range(COUNT) if chance.random() < 0.5)


class Side(NamedTuple):
    """A cut table, and the glyphs that it keeps."""

    table: bytes
    kept: frozenset[int]


def cut_of(division: Division, table: bytes, kept: Container[int]) -> bytes:
    return division.cut(table, COUNT, kept)


def joined(division: Division, first: Optional[Side], second: Optional[Side]) -> Optional[Side]:
    """The join of two cut tables, or None where they differ, or where what they say does not fit."""
    if first is None or second is None:
        return None
    frame, here, there = division.frame(first.table, COUNT), division.parts(first.table, COUNT), division.parts(
        second.table, COUNT)
    united = {**there, **here}
    if frame != division.frame(second.table, COUNT) or not division.fits(frame, COUNT, united) or any(
            here.get(glyph) != there.get(glyph) for glyph in first.kept & second.kept):
        return None
    return Side(division.whole(frame, COUNT, united), first.kept | second.kept)


def laws_of_table(chance: random.Random, division: Division, table: bytes) -> Iterator[Law]:
    """The laws of a table, whether it is divided or not."""
    frame, parts, said = division.frame(table, COUNT), division.parts(table, COUNT), said_in(table)
    one, other, third = (some_glyphs(chance) for _ in range(3))
    yield ALIKE, (STILL.read(table, COUNT) is None) == (division.read(table, COUNT) is None)
    yield FRAME, division.frame(frame, COUNT) == frame and said_in(frame) == {}
    varying, found = colours_in(table, COUNT), colours_in(frame, COUNT)
    yield STORE, varying is None or found is not None and found.store == (
        varying.store if division.varies else Store())
    yield "parts of a table fit its frame", division.fits(frame, COUNT, parts)
    whole, made = cut_of(division, table, EVERY), cut_of(division, table, one)
    yield "the table of all parts says what the table says", said_in(whole) == said
    yield "the table of all parts has the frame of the table", division.frame(whole, COUNT) == frame
    yield "what is written is written so again", cut_of(division, whole, EVERY) == whole
    yield SAYS, said_in(made) == {glyph: said[glyph] for glyph in one & said.keys()}
    yield "a cut of a cut is that of the table", cut_of(division, made, other) == cut_of(division, table, one & other)
    first, second, last = (Side(cut_of(division, table, kept), kept) for kept in (one, other, third))
    both = joined(division, first, second)
    yield UNION, both == Side(cut_of(division, table, one | other), one | other) == joined(division, second, first)
    yield "a cut joins with itself", joined(division, first, first) == first
    yield "joins associate", joined(division, both, last) == joined(division, first, joined(division, second, last))
    yield WITHOUT, STILL.frame(frame, COUNT) == STILL.frame(table, COUNT) and (
        cut_of(STILL, made, EVERY) == cut_of(STILL, table, one))


def laws_of_tables(chance: random.Random, division: Division, tables: Sequence[bytes]) -> Iterator[Law]:
    """The laws of joins of cuts of several tables, and of parts of them that are put together."""
    (one, other), kept = chance.choices(tables, k=2), (some_glyphs(chance), some_glyphs(chance))
    first, second = (Side(cut_of(division, table, some), some) for table, some in zip((one, other), kept))
    found = joined(division, first, second)
    yield "joins commute", found == joined(division, second, first)
    above = [table for table in tables if all(
        cut_of(division, table, side.kept) == side.table for side in (first, second))]
    yield "both are cuts of their join", found is None or all(
        cut_of(division, found.table, side.kept) == side.table for side in (first, second))
    yield "cuts of one table are joined", found is not None or not above
    frame = division.frame(one, COUNT)
    alike = [division.parts(table, COUNT) for table in tables if division.frame(table, COUNT) == frame]
    mixed = [(glyph, chance.choice(alike).get(glyph)) for glyph in range(COUNT)]
    parts = {glyph: part for glyph, part in mixed if part is not None}
    if division.fits(frame, COUNT, parts):
        whole = division.whole(frame, COUNT, parts)
        yield READ_BACK, division.parts(whole, COUNT) == parts and division.frame(whole, COUNT) == frame
        fewer = {glyph: part for glyph, part in parts.items() if chance.random() < 0.7}
        yield "fewer parts fit", division.fits(frame, COUNT, fewer)


def tables_by_chance(chance: random.Random) -> list[bytes]:
    """Some tables, of which most say nearly the same."""
    said, found = random_colours(chance, COUNT), [random_table(chance, COUNT)]
    for _ in range(4):
        found.append(scattered(chance, said))
        said = other_colours(chance, COUNT, said)
    return found


def laws_by_chance(seed: int, division: Division) -> Iterator[tuple[Law, object]]:
    """The laws of some tables, each with these."""
    chance = random.Random(seed)
    tables = [table for table in tables_by_chance(chance) if colours_in(table, COUNT) or chance.random() < 0.3]
    shown = [table.hex() for table in tables]
    for table in tables:
        for law in laws_of_table(chance, division, table):
            yield law, shown
    for _ in range(6):
        for law in laws_of_tables(chance, division, tables or [b""]):
            yield law, shown


# Fonts.

def colour_font(chance: random.Random, cuts: ColourCuts) -> bytes:
    """A small font with colours that is accepted for cuts of a kind."""
    made: bytes = coloured(chance, font_for(chance, cuts))
    return made


def with_other_colours(chance: random.Random, file: bytes) -> bytes:
    """The font in which a glyph has other colours, or another palette is there, or none."""
    tables, count = tables_of(file), len(outlines(file))
    said: Optional[Colours] = colours_in(tables.get(b"COLR", b""), count)
    if said is None or chance.random() < 0.1:
        return bytes(with_colours(file, tables.get(b"COLR"), palettes(chance)))
    return bytes(with_colours(file, scattered(chance, other_colours(chance, count, said)), tables.get(b"CPAL")))


def other_version(chance: random.Random, cuts: ColourCuts, file: bytes) -> bytes:
    """The font in which something may be otherwise."""
    if chance.random() < 0.6:
        return with_other_colours(chance, file)
    tables = tables_of(file)
    made: bytes = another_version(chance, cuts, file)
    return bytes(with_colours(made, tables.get(b"COLR"), tables.get(b"CPAL")))


def colour_family(chance: random.Random, cuts: ColourCuts, fonts: int, files: int) -> tuple[list[bytes], list[bytes]]:
    """Some versions of a font, and files that are cuts of them, or cuts that were changed, or these fonts."""
    versions, made = [colour_font(chance, cuts)], []
    while len(versions) < fonts:
        versions.append(other_version(chance, cuts, versions[0]))
    for _ in range(files):
        font, sort = chance.choice(versions), chance.random()
        file = cuts.cut(font, random_wanted(chance, len(outlines(font))))
        if sort < 0.1:
            file = damaged(file, chance)
        elif sort < 0.3:
            file = other_version(chance, cuts, file)
        made.append(font if sort > 0.95 else file)
    return versions, made


def laws_of_colours(cuts: ColourCuts, font: bytes, wanted: Wanted) -> Iterator[Law]:
    """The laws of what a cut of a font says of colours, and of cuts of other kinds of it."""
    made, kept, tables = cuts.cut(font, wanted), cuts.kept(font, wanted), tables_of(font)
    said = cuts.colours(font)
    yield "a cut says of kept glyphs what the font says", cuts.colours(made) == {
        glyph: said[glyph] for glyph in kept & said.keys()}
    yield "glyphs with colours are there", said.keys() <= cuts.there(font)
    yield "CPAL is the font's beside a COLR, and else there is none", tables_of(made).get(b"CPAL") == (
        tables.get(b"CPAL") if b"COLR" in tables else None)
    yield "a font without a COLR has the cuts of before", cuts.cut(
        bytes(with_colours(font, None)), wanted) == bytes(with_colours(made, None)) or bool(said)
    yield "the lean cut of a cut for everything is that of the font", LEAN.cut(made, EVERYTHING) == LEAN.cut(
        font, Wanted(wanted.codes, frozenset(kept)))
    if cuts.name == "variable":
        yield "the layout cut of a cut for everything is that of the font", LAYOUT_CUTS.cut(
            made, EVERYTHING) == LAYOUT_CUTS.cut(font, Wanted(wanted.codes, frozenset(kept)))


def laws_of_closures(cuts: ColourCuts, font: bytes, gsub: bytes, first: Wanted, second: Wanted) -> Iterator[Law]:
    """The laws of what is wanted with what colours and links of a GSUB lead to."""
    links, names = links_of(gsub), cuts.names(font)
    assert links is not None, "the font is refused"
    one, other, both = (cuts.closed(font, wanted, gsub) for wanted in (first, second, either(first, second)))
    yield "a closure grows", first.glyphs <= one.glyphs
    yield "the closure of a union is the union of the closures", both.glyphs == one.glyphs | other.glyphs
    yield "a closure is its own closure", cuts.closed(font, one, gsub) == one
    roots = one.glyphs | {0, *wanted_map(font, first.codes).values()}
    yield "a closure is closed under links and colours", all(
        links.get(glyph, set()) <= one.glyphs and names.get(glyph, frozenset()) <= one.glyphs for glyph in roots)


def laws_of_closed_cuts(cuts: ColourCuts, font: bytes, gsub: bytes, first: Wanted, second: Wanted) -> Iterator[Law]:
    """The laws of cuts for that."""
    def closed(file: bytes, wanted: Wanted) -> Wanted:
        return cuts.closed(file, wanted, gsub)

    def closed_cut(file: bytes, wanted: Wanted) -> bytes:
        return cuts.cut(file, closed(file, wanted))

    made, whole = cuts.cut(font, second), closed_cut(font, either(first, second))
    inner = Wanted(ranges_of(wanted_map(made, first.codes)), first.glyphs)
    yield "on a cut the closure is within that on the font", closed(made, first).glyphs <= closed(font, inner).glyphs
    yield "a closed cut of a closed cut is that of the font", closed_cut(whole, first) == closed_cut(font, first)
    yield "a closed cut says of what was wanted what the font says, and of all that it leads to", all(
        cuts.colours(whole).get(glyph) == cuts.colours(font).get(glyph) for glyph in closed(font, first).glyphs)


def laws_of_font(kind: Kind, font: bytes, sets: Sequence[Wanted]) -> Iterator[Law]:
    """The laws of a font, which is accepted, and of its cuts for three wanted sets."""
    cuts = kind.cuts
    assert isinstance(cuts, ColourCuts), "its cuts keep colours"
    for wanted in sets:
        yield from laws_of_cut(cuts, font, wanted)
        yield from laws_of_colours(cuts, font, wanted)
    yield from laws_of_two(cuts, font, *sets[:2])
    yield from laws_of_union(kind, font, sets)
    links = [b""] * (not cuts.exact_refusal(font)) + [cuts.gsub(font)] * (not cuts.closing_refusal(font))
    for gsub in links:
        yield from laws_of_closures(cuts, font, gsub, *sets[:2])
        yield from laws_of_closed_cuts(cuts, font, gsub, *sets[:2])


def font_laws_of_round(seed: int, kind: Kind) -> Iterator[tuple[Law, object]]:
    """The laws of a family of fonts, their cuts and changed cuts."""
    chance, cuts = random.Random(seed), kind.cuts
    assert isinstance(cuts, ColourCuts), "its cuts keep colours"
    fonts, files = colour_family(chance, cuts, chance.randint(1, 3), 5)
    for font in fonts:
        sets = [random_wanted(chance, len(outlines(font))) for _ in range(3)]
        for law in laws_of_font(kind, font, sets):
            yield law, (font.hex(), sets)
    for law in laws_of_files(chance, kind, files, fonts):
        yield law, [file.hex() for file in files]


def closure_laws_of_round(seed: int, cuts: ColourCuts) -> Iterator[tuple[Law, object]]:
    """The laws of closures in a font."""
    chance = random.Random(seed)
    font = colour_font(chance, cuts)
    first, second = (random_wanted(chance, len(outlines(font))) for _ in range(2))
    if not cuts.closing_refusal(font):
        for law in laws_of_closures(cuts, font, cuts.gsub(font), first, second):
            yield law, (font.hex(), first, second)
