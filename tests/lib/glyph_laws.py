"""Laws of cuts for characters and glyph numbers, and of their joins, as a second reading makes them: what has to hold
of each font that is accepted, and of any files."""
import random
from itertools import product
from typing import Iterator, Mapping, Optional, Sequence

from font_cutting import kept_glyphs, outlines, ranges_of, wanted_map, whole_map
from font_reading import Refusal, findings
from glyph_cutting import ALL_CODES, EVERYTHING, KINDS, CutKind, Wanted, either
import layout_cutting
from layout_joining import LAYOUT_CUTS
from layout_reading import links_of
import lean_cutting
from lean_joining import LEAN, Kind, join, join_refusal
import variable_cutting
from variable_joining import VARIABLE_CUTS

Law = tuple[str, bool]  # what it says, and whether it holds

JOINED_KINDS: Mapping[str, Kind] = {"lean": LEAN, "layout": LAYOUT_CUTS, "variable": VARIABLE_CUTS}
# The cuts that there were before glyph numbers: for characters alone, and for layout and variable cuts with all that
# links lead to.
BEFORE = {"lean": lean_cutting.lean_cut, "layout": layout_cutting.layout_cut, "variable": variable_cutting.variable_cut}


# Of one font.

def reached(font: bytes, wanted: Wanted) -> set[int]:
    """What components lead to from .notdef, the glyphs of wanted characters and the wanted glyphs."""
    records = outlines(font)
    numbers = {glyph for glyph in wanted.glyphs if glyph < len(records)} if len(wanted.glyphs) < len(records) else (
        set(range(len(records))) & wanted.glyphs)
    found: set[int] = kept_glyphs(records, {*wanted_map(font, wanted.codes).values(), *numbers})
    return found


def within(cuts: CutKind, made: bytes, wanted: Wanted) -> Wanted:
    """What is wanted of a cut, as it is wanted of the font: the characters that it maps, and the glyphs that are
    there."""
    return Wanted(ranges_of(wanted_map(made, wanted.codes)), wanted.glyphs & cuts.there(made))


def laws_of_cut(cuts: CutKind, font: bytes, wanted: Wanted) -> Iterator[Law]:
    """The laws of a cut of a font."""
    made, kept = cuts.cut(font, wanted), cuts.kept(font, wanted)
    before, after, parts = cuts.glyphs(font), cuts.glyphs(made), reached(font, wanted)
    yield "what a cut keeps is what was kept", cuts.keeps(made) == kept
    yield "there in a cut is what is kept and there", cuts.there(made) == kept & cuts.there(font)
    yield "a cut has the records of wanted glyphs and of all their parts", all(
        after[glyph] == before[glyph] for glyph in parts)
    yield "all other records are blank", all(
        glyph.is_blank() for number, glyph in enumerate(after) if number not in parts)
    yield "a cut maps the wanted characters", whole_map(made) == wanted_map(font, wanted.codes)
    yield "a cut has the variation sequences of the glyphs that it keeps", cuts.sequences(made) == {
        pair: glyph for pair, glyph in cuts.sequences(font).items() if glyph in kept}
    yield "a cut is accepted and has no finding", cuts.accepts(made) and not findings(made)
    yield "a cut is a cut", cuts.is_cut(made)
    yield "a cut belongs to its font and to itself", cuts.is_cut_of(made, font) and cuts.is_cut_of(made, made)
    yield "the kept glyphs by their numbers give the same cut", cuts.cut(
        font, Wanted(wanted.codes, frozenset(kept))) == made


def laws_of_two(cuts: CutKind, font: bytes, first: Wanted, second: Wanted) -> Iterator[Law]:
    """The laws of cuts of a font for two wanted sets."""
    made, both = cuts.cut(font, first), either(first, second)
    yield "kept of a union is the union of what is kept", cuts.kept(font, both) == (
        cuts.kept(font, first) | cuts.kept(font, second))
    yield "a cut belongs to the cut for more", cuts.is_cut_of(made, cuts.cut(font, both))
    yield "a cut of a cut is that of the font", cuts.cut(made, second) == cuts.cut(font, within(cuts, made, second))
    of_codes = Wanted(second.codes)
    yield "a cut of a cut by characters is that of the font", cuts.cut(made, of_codes) == cuts.cut(
        font, within(cuts, made, of_codes))
    inner = cuts.cut(font, Wanted(ranges_of(wanted_map(font, first.codes).keys() & wanted_map(font, second.codes)),
                                  first.glyphs & second.glyphs))
    yield "the cut for what both want is below both", all(
        cuts.is_cut_of(inner, cuts.cut(font, one)) for one in (first, second))


def laws_of_union(kind: Kind, font: bytes, sets: Sequence[Wanted]) -> Iterator[Law]:
    """The laws of joins of cuts of one font for three wanted sets."""
    first, second, third = (kind.cuts.cut(font, one) for one in sets)
    both, all_three = kind.cuts.cut(font, either(*sets[:2])), kind.cuts.cut(font, either(*sets))
    yield "the join is the cut of the union", joined(kind, first, second) == both
    yield "joins commute", joined(kind, second, first) == joined(kind, first, second)
    yield "a cut joins with itself", joined(kind, first, first) == first
    yield "joins associate", joined(kind, joined(kind, first, second), third) == all_three == joined(
        kind, first, joined(kind, second, third))


def joined(kind: Kind, first: Optional[bytes], second: Optional[bytes]) -> Optional[bytes]:
    """The join of two files, or None where there is none."""
    if first is None or second is None or join_refusal(first, second, kind):
        return None
    made: bytes = join(first, second, kind)
    return made


def laws_of_kinds(cuts: CutKind, font: bytes, wanted: Wanted) -> Iterator[Law]:
    """The laws of cuts of another kind of a cut: they are those of the font."""
    made = cuts.cut(font, wanted)
    for other in KINDS[:[kind.name for kind in KINDS].index(cuts.name)]:
        yield f"the {other.name} cut of a cut for everything is that of the font", other.cut(
            made, EVERYTHING) == other.cut(font, wanted)
        yield f"the {other.name} cut of a cut for all characters is that of the font", other.cut(
            made, ALL_CODES) == other.cut(font, Wanted(wanted.codes))


def laws_of_closure(cuts: CutKind, font: bytes, first: Wanted, second: Wanted) -> Iterator[Law]:
    """The laws of closures in a font whose GSUB can be read."""
    links = links_of(cuts.gsub(font))
    assert links is not None, "the font is refused"
    closed, other, both = (cuts.closure(font, one) for one in (first, second, either(first, second)))
    yield "a closure grows", first.glyphs <= closed.glyphs
    yield "the closure of a union is the union of the closures", both.glyphs == closed.glyphs | other.glyphs
    yield "a closure is its own closure", cuts.closure(font, closed) == closed
    roots = closed.glyphs | {0, *wanted_map(font, first.codes).values()}
    yield "a closure is closed under links", all(links.get(glyph, set()) <= closed.glyphs for glyph in roots)
    made, whole = cuts.cut(font, second), cuts.closed_cut(font, either(first, second))
    inner = Wanted(ranges_of(wanted_map(made, first.codes)), first.glyphs)
    yield ("on a cut the closure is that on the font",
           cuts.closure(made, first).glyphs == cuts.closure(font, inner).glyphs)
    yield ("a closed cut of a closed cut is that of the font",
           cuts.closed_cut(whole, first) == cuts.closed_cut(font, first))
    of_codes = Wanted(first.codes)
    yield "a cut of before is the closed cut for characters", cuts.closed_cut(font, of_codes) == BEFORE[cuts.name](
        font, first.codes)
    yield "a cut of before is a cut", cuts.is_cut(BEFORE[cuts.name](font, first.codes))


def laws_of_font(kind: Kind, font: bytes, sets: Sequence[Wanted]) -> Iterator[Law]:
    """The laws of a font, which is accepted, and of its cuts for three wanted sets."""
    cuts = kind.cuts
    for one in sets:
        yield from laws_of_cut(cuts, font, one)
    yield from laws_of_two(cuts, font, *sets[:2])
    yield from laws_of_union(kind, font, sets)
    yield from laws_of_kinds(cuts, font, sets[0])
    if cuts.name == "lean":
        yield "a cut of before is the cut for characters", cuts.cut(font, Wanted(sets[0].codes)) == BEFORE["lean"](
            font, sets[0].codes)
    elif not cuts.closing_refusal(font):
        yield from laws_of_closure(cuts, font, *sets[:2])


# Of any files.

def names_a_difference(refusal: Optional[Refusal]) -> bool:
    """Whether a join is refused because of what tells two cuts apart."""
    return refusal is not None and refusal[0] in (21, 22, 23, 29)


def laws_of_pair(kind: Kind, first: bytes, second: bytes, above: Sequence[bytes]) -> Iterator[Law]:
    """The laws of the join of two files, beside fonts of which both are cuts, which are all there are among some."""
    refusal, other = join_refusal(first, second, kind), join_refusal(second, first, kind)
    if refusal is None:
        made: bytes = join(first, second, kind)
        yield "joins commute", other is None and made == join(second, first, kind)
        yield "a join has the variation sequences of both files", kind.cuts.sequences(made) == {
            **kind.cuts.sequences(first), **kind.cuts.sequences(second)}
        yield "a join is a cut of which both files are cuts", kind.cuts.is_cut(made) and all(
            kind.cuts.is_cut_of(file, made) for file in (first, second))
        yield "a join is a cut of all of which both files are", all(kind.cuts.is_cut_of(made, font) for font in above)
    elif names_a_difference(refusal):
        yield "a difference is the same in both orders", refusal == other
        yield "files that differ are cuts of nothing together", not above
    else:
        yield "a file that is refused is refused in both orders", other is not None and not names_a_difference(other)


def laws_of_files(chance: random.Random, kind: Kind, files: Sequence[bytes], fonts: Sequence[bytes]) -> Iterator[Law]:
    """The laws of any files, beside these and some fonts that are accepted."""
    cuts = kind.cuts
    able = [file for file in files if cuts.accepts(file)]
    others = [*able, *fonts]
    above = {file: [font for font in others if cuts.is_cut_of(file, font)] for file in able}
    for file in able:
        yield "a file is a cut of itself where it is one of anything", bool(above[file]) == cuts.is_cut(file) == (
            file in above[file])
    for first, second in product(files, repeat=2):
        both = [font for font in above.get(first, ()) if font in above.get(second, ())]
        yield from laws_of_pair(kind, first, second, both)
    for _ in range(len(files)):
        first, second, third = chance.choices(files, k=3)
        yield "joins associate", joined(kind, joined(kind, first, second), third) == joined(
            kind, first, joined(kind, second, third))
