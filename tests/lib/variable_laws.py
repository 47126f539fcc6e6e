"""Laws of variable cuts and of their joins, as a second reading makes them: what has to hold of each font that is
accepted, and of any two files."""
import random
from collections import Counter
from typing import Iterator, Sequence

from checks import check
from font_changing import with_tables
from font_cutting import ALL, Ranges, wanted_map
from font_joining import file_refusal
from font_reading import table, tables_of
from glyph_cutting import VARIABLE
from glyph_laws import Law, laws_of_pair
from layout_cutting import cleaned_tables, layout_cut
from layout_reading import cleaned
from lean_cutting import lean_cut
from variable_cutting import gvar_of, variable_cut, variable_kept
from variable_joining import VARIABLE_CUTS, join, join_all
from variable_reading import VARIATIONS, own_gsub, variable_refusal, variations_of

Broken = dict[str, list[object]]  # of each law that does not hold, the fonts and sets of codes


def laws_of_cuts(chance: random.Random, font: bytes, sets: Sequence[Ranges]) -> Iterator[Law]:
    """The laws of a font, which is accepted, and of its cuts for some sets of codes."""
    cuts, codes = [variable_cut(font, some) for some in sets], [pair for some in sets for pair in some]
    whole, one = variable_cut(font, codes), chance.randrange(len(sets))
    yield "a cut is accepted", not file_refusal(whole) and not variable_refusal(whole)
    yield "a cut is its own cut for its codes", variable_cut(cuts[one], sets[one]) == cuts[one]
    yield "a cut is its own cut for all codes", VARIABLE.is_cut(whole) and VARIABLE.is_cut(cuts[one])
    yield "a cut of a cut is that of the font", variable_cut(whole, sets[one]) == cuts[one]
    yield "a cut belongs to the font and to a cut for more codes", (
        VARIABLE.is_cut_of(cuts[one], font) and VARIABLE.is_cut_of(cuts[one], whole))
    yield "the lean cut of a cut is that of the font", (
        lean_cut(whole, sets[one]) == lean_cut(font, sets[one]) and lean_cut(whole, ALL) == lean_cut(font, codes))
    yield from laws_of_joins(chance, cuts, whole)
    yield from laws_of_layout(font, whole, codes)
    if b"gvar" in tables_of(font):
        yield from laws_of_gvar(font, whole, codes)


def laws_of_joins(chance: random.Random, cuts: list[bytes], whole: bytes) -> Iterator[Law]:
    """The laws of cuts of a font, and of its cut for the codes of all of them."""
    again = [*cuts, *chance.sample(cuts, chance.randint(0, len(cuts)))]
    chance.shuffle(again)
    yield "the join is the cut for all codes, in any order and repetition", join_all(again) == (whole, None)
    left = [*cuts, cuts[0]]
    while len(left) > 1:
        left.append(join(left.pop(chance.randrange(len(left))), left.pop(chance.randrange(len(left)))))
    yield "the join is the cut for all codes, in any grouping", left == [whole]


def laws_of_layout(font: bytes, made: bytes, wanted: Ranges) -> Iterator[Law]:
    """The laws of a cut beside the layout cut for the same codes, if no links are cleared in the font."""
    if cleaned(b"GSUB", own_gsub(font)) != own_gsub(font):
        return
    layout = layout_cut(font, wanted)
    yield "the layout cut of a cut is that of the font", layout_cut(made, wanted) == layout
    yield "a cut is the layout cut, with tables of variations and layout as it was", (
        with_tables(made, {**dict.fromkeys(VARIATIONS), **cleaned_tables(font)}) == layout)
    static = with_tables(font, dict.fromkeys(VARIATIONS))
    if cleaned_tables(font).items() <= tables_of(font).items():
        yield "without variations and with nothing to clear the cut is the layout cut", (
            variable_cut(static, wanted) == layout_cut(static, wanted))


def laws_of_gvar(font: bytes, made: bytes, wanted: Ranges) -> Iterator[Law]:
    """The laws of the `gvar` of a cut."""
    found, seen = variations_of(font), variations_of(made)
    assert found and seen, "the font is refused"
    kept, count = variable_kept(font, wanted_map(font, wanted).values()), len(found.data)
    yield "gvar has the variation data of the kept glyphs", seen == found._replace(
        data=[data if glyph in kept else b"" for glyph, data in enumerate(found.data)])
    yield "gvar is as long as its parts", len(table(made, b"gvar")) == (
        20 + 4 * (count + 1) + len(found.shared_tuples) + sum(len(found.data[glyph]) for glyph in kept))
    every = with_tables(font, {b"gvar": gvar_of(found, range(count))})
    yield "gvar made anew for all glyphs has the same cuts", variable_cut(every, wanted) == made


def laws(chance: random.Random, font: bytes, sets: Sequence[Ranges], broken: Broken) -> Counter[str]:
    """Which laws were looked at for a font and sets of codes; those that do not hold are noted."""
    seen: Counter[str] = Counter()
    for law, holds in laws_of_cuts(chance, font, sets):
        seen[law] += 1
        if not holds:
            broken.setdefault(law, []).append((font.hex()[:20_000], sets))
    return seen


def all_hold(name: str, seen: Counter[str], broken: Broken) -> None:
    """Checks that each law that was looked at holds."""
    for law, count in seen.items():
        check(f"{name}: {law}, {count} times", law not in broken, *broken.get(law, [])[:1])


def is_answered_rightly(first: bytes, second: bytes, fonts: Sequence[bytes]) -> bool:
    """Whether a join is made where both files are cuts of one of these fonts, and is a cut of it, or is refused
    rightly."""
    able = VARIABLE.accepts(first) and VARIABLE.accepts(second)
    above = [font for font in fonts if able and VARIABLE.is_cut_of(first, font) and VARIABLE.is_cut_of(second, font)]
    return all(holds for _, holds in laws_of_pair(VARIABLE_CUTS, first, second, above))
