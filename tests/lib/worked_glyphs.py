"""Cuts for glyph numbers of fonts of four glyphs, and joins of such files, with what is typed in of each."""
from typing import NamedTuple, Optional, Sequence

from glyph_cutting import ALL_CODES, EVERYTHING, Wanted
from glyph_making import BLANK, INK, OTHER_INK, ZEROS, Part, font_of, made_of

A, B = {0x41: 1}, {0x42: 2}
OF_A, OF_B, NOTHING = Wanted([(0x41, 0x41)]), Wanted([(0x42, 0x42)]), Wanted([])


def numbered(*glyphs: int) -> Wanted:
    return Wanted([], frozenset(glyphs))


def four(first: Part = BLANK, second: Part = BLANK, third: Part = BLANK, *, notdef: Part = BLANK,
         codes: dict[int, int] = {}, pairs: int = 4, is_variable: bool = False) -> bytes:
    """A font of .notdef and three glyphs, which are blank and not mapped unless it is said."""
    made: bytes = font_of([notdef, first, second, third], codes, pairs, is_variable)
    return made


class Made(NamedTuple):
    """What a font's cut for what is wanted, or the cut of that for what is wanted next, and so on, has at last: which
    glyphs are there, and the advance and the bearing of glyph 1."""

    name: str
    font: bytes
    wanted: Sequence[Wanted]
    there: set[int]
    metrics: tuple[int, int] = (0, 0)
    kind: str = "lean"


class Joined(NamedTuple):
    """Two files that join, so that both are cuts of their join, or in which a glyph differs."""

    name: str
    first: bytes
    second: bytes
    different: Optional[int] = None
    kind: str = "lean"


INKED, OTHER, SPACE = Part(INK), Part(OTHER_INK), Part(advance=7)
DATA, OTHER_DATA = Part(data=b"\1\2"), Part(data=b"\1\3")
# Glyph 1 has no pair of its own but the last one, whose advance is that of the glyphs 2 and 3 too.
LAST, LAST_INKED, LAST_BEARING = Part(advance=500), Part(INK, 500), Part(advance=500, bearing=9)
PART_AND_LETTER = four(INKED, made_of(1), codes=B)
LETTER = four(INKED, codes=A)
UNMAPPED = four(INKED)

JOINED = [
    Joined("glyph 1 mapped and blank; unmapped ink", four(codes=A), four(INKED), 1),
    Joined("glyph 1 mapped and blank; mapped, with an advance", four(codes=A), four(SPACE, codes=A), 1),
    Joined("glyph 1 unmapped and blank; unmapped ink", four(), four(INKED)),
    Joined("glyph 1 unmapped and blank; mapped ink", four(), four(INKED, codes=A)),
    Joined("glyph 2 is made of a blank glyph 1; glyph 1 is ink", four(BLANK, made_of(1)), four(INKED), 1),
    Joined("glyph 2 is made of a blank glyph 1, in both", four(BLANK, made_of(1)), four(BLANK, made_of(1), codes=B)),
    Joined(".notdef is blank; .notdef is ink", four(), four(notdef=INKED), 0),
    Joined("two different inks, unmapped", four(INKED), four(OTHER), 1),
    Joined("2 pairs: a cut without glyph 1, and one with it", four(LAST, pairs=2), four(LAST_INKED, pairs=2)),
    Joined("variable: blank but for its data; other data", four(DATA, is_variable=True),
           four(OTHER_DATA, is_variable=True), 1, "variable"),
    Joined("variable: mapped and blank; blank but for its data", four(codes=A, is_variable=True),
           four(DATA, is_variable=True), 1, "variable"),
]

MADE = [
    Made("a space by its number: its advance is kept", four(SPACE), [numbered(1)], {1}, (7, 0)),
    Made("the same, not wanted", four(SPACE), [NOTHING], set()),
    Made("a space that is kept is a cut", four(SPACE), [numbered(1), EVERYTHING], {1}, (7, 0)),
    Made("it is none by characters alone", four(SPACE), [numbered(1), ALL_CODES], set()),
    Made("a blank glyph by its number: as if not wanted", four(SPACE), [numbered(2)], set()),
    Made("2 pairs: there are, for a blank glyph 1 with the last advance", four(LAST, pairs=2), [EVERYTHING], set(),
         (500, 0)),
    Made("the same with a bearing", four(LAST_BEARING, pairs=2), [EVERYTHING], {1}, (500, 9)),
    Made("2 pairs: the last advance stays, though nothing is wanted", four(LAST_BEARING, pairs=2), [NOTHING], set(),
         (500, 0)),
    Made("2 pairs: the last advance stays, though others are wanted", four(LAST, INKED, pairs=2), [numbered(2)], {2},
         (500, 0)),
    Made("an outline of 12 zeros (no contours) is there", four(Part(ZEROS)), [numbered(1)], {1}),
    Made("variable: a glyph blank but for its data is there", four(DATA, is_variable=True), [numbered(1)], {1},
         kind="variable"),
    Made("in the lean kind it is not", four(DATA, is_variable=True), [numbered(1)], set()),
    Made("glyph 1, kept as a part only", PART_AND_LETTER, [OF_B], {1, 2}),
    Made("glyph 1, kept as a part only, then wanted by its number", PART_AND_LETTER, [OF_B, numbered(1)], {1}),
    Made("glyph 1, kept by its character, then wanted by its number", LETTER, [OF_A, numbered(1)], {1}),
    Made("glyph 1 by its number, then its character wanted", LETTER, [numbered(1), OF_A], set()),
    Made("all characters, no glyphs: drops an unmapped glyph", UNMAPPED, [EVERYTHING, ALL_CODES], set()),
    Made("all characters and glyphs: keeps it", UNMAPPED, [EVERYTHING, EVERYTHING], {1}),
    Made("characters and numbers", four(INKED, OTHER, INKED, codes=A), [Wanted(OF_A.codes, frozenset({3}))], {1, 3}),
    Made("a composite by its number", PART_AND_LETTER, [numbered(2)], {1, 2}),
]

# A number that is no glyph is as if not wanted in the definition. The program refuses it.
NO_GLYPH = Made("a number that is no glyph: as if not wanted", four(SPACE), [numbered(1, 4, 65535)], {1}, (7, 0))
