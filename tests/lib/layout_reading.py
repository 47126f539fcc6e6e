"""A second reading of the tables of layout, apart from the program: what layout cuts clear in them, which fonts they
refuse, and which glyphs they keep.

It follows OpenType 1.9, "OpenType Layout Common Table Formats" (lookup lists and Coverage tables), `GSUB` (lookup types
1 to 8), and the headers of `BASE`, `GDEF` and `GPOS`.
"""
from functools import lru_cache
from typing import Callable, Iterable, Iterator, NamedTuple, Optional

from font_reading import record_refusal, tables_of, u16, u32

LAYOUT = [b"BASE", b"GDEF", b"GPOS", b"GSUB", b"kern"]
STEP_LIMIT = 1_048_576

# Where a table has the offset to its variations, and from which minor version on.
VARIATIONS = {b"BASE": (8, 1), b"GDEF": (14, 3), b"GPOS": (10, 1), b"GSUB": (10, 1)}

Links = dict[int, set[int]]


class BadLayout(Exception):
    """A GSUB has something that is unknown or does not lie within it, or takes too many steps to read."""


class Span(NamedTuple):
    """An item of a Coverage: neighbouring glyphs, and the Coverage index of the first of them."""
    first: int
    last: int
    first_index: int


def cleaned(tag: bytes, table: bytes) -> bytes:
    """A table of layout with zeros for the offset to its variations, where it has that field whole. A cut has no
    `fvar`, and browsers refuse a font with variations that lacks it."""
    place, minor = VARIATIONS.get(tag, (len(table), 0))
    if len(table) < place + 4 or u16(table, 0) != 1 or u16(table, 2) < minor:
        return table
    return table[:place] + bytes(4) + table[place + 4:]


class Reader:
    """A GSUB that is being read, with the steps that were taken and the links that were found so far."""

    def __init__(self, table: bytes) -> None:
        self.table = table
        self.steps = 0
        self.links: Links = {}

    def step(self) -> None:
        self.steps += 1
        if self.steps > STEP_LIMIT:
            raise BadLayout

    def link(self, glyph: int, other: int) -> None:
        self.step()
        self.links.setdefault(glyph, set()).add(other)

    def number(self, place: int) -> int:
        if place + 2 > len(self.table):
            raise BadLayout
        value: int = u16(self.table, place)
        return value

    def numbers(self, place: int) -> list[int]:
        """The items after a count."""
        count = self.number(place)
        if place + 2 + 2 * count > len(self.table):
            raise BadLayout
        return [u16(self.table, place + 2 + 2 * index) for index in range(count)]

    def read(self) -> None:
        """Reads the header and all lookups of the list, whatever features name them."""
        if len(self.table) < 10 or u16(self.table, 0) != 1:
            raise BadLayout
        place = u16(self.table, 8)
        for offset in self.numbers(place) if place else []:
            self.step()
            if offset:
                self.lookup(place + offset)

    def lookup(self, place: int) -> None:
        """Reads a lookup: its type, its flags, which do not matter, and its subtables."""
        subtables = self.numbers(place + 4)
        kind = self.number(place)
        if not 1 <= kind <= 8:
            raise BadLayout
        for offset in subtables:
            self.step()
            if offset and kind == 7:
                self.extension(place + offset)
            elif offset:
                self.subtable(kind, place + offset)

    def extension(self, place: int) -> None:
        """Reads a subtable of type 7, which names the type and the place of another one."""
        if place + 8 > len(self.table):
            raise BadLayout
        form, kind, offset = u16(self.table, place), u16(self.table, place + 2), u32(self.table, place + 4)
        if form != 1 or not 1 <= kind <= 8 or kind == 7:
            raise BadLayout
        self.step()
        if offset:
            self.subtable(kind, place + offset)

    def subtable(self, kind: int, place: int) -> None:
        """Reads a subtable of a type other than 7. Those of types 5 and 6 call other lookups, which are read anyway."""
        if kind in (5, 6):
            return
        entry = self.entries(kind, place)
        for span in self.coverage(place, self.number(place + 2)):
            self.step()
            for glyph in range(span.first, span.last + 1):
                self.step()
                entry(glyph, span.first_index + glyph - span.first)

    def entries(self, kind: int, place: int) -> Callable[[int, int], None]:
        """What reads the entry of a glyph with a Coverage index."""
        form = self.number(place)
        if (kind, form) == (1, 1):
            delta = self.number(place + 4)
            return lambda glyph, index: self.link(glyph, (glyph + delta) % 65536)
        if (kind, form) == (1, 2):
            return self.substitutes(self.numbers(place + 4))
        if form != 1:
            raise BadLayout
        if kind == 8:
            after_backtrack = place + 6 + 2 * len(self.numbers(place + 4))
            return self.substitutes(self.numbers(after_backtrack + 2 + 2 * len(self.numbers(after_backtrack))))
        return self.sets(self.numbers(place + 4), place, self.ligatures if kind == 4 else self.sequence)

    def substitutes(self, glyphs: list[int]) -> Callable[[int, int], None]:
        """What reads the entry of a glyph where each index has a substitute."""
        def entry(glyph: int, index: int) -> None:
            if index < len(glyphs):
                self.link(glyph, glyphs[index])
        return entry

    def sets(self, offsets: list[int], place: int, read: Callable[[int, int], None]) -> Callable[[int, int], None]:
        """What reads the entry of a glyph where each index has an offset from the subtable."""
        def entry(glyph: int, index: int) -> None:
            if index < len(offsets):
                self.step()
                if offsets[index]:
                    read(glyph, place + offsets[index])
        return entry

    def sequence(self, glyph: int, place: int) -> None:
        """Reads a Sequence or an AlternateSet."""
        for other in self.numbers(place):
            self.link(glyph, other)

    def ligatures(self, glyph: int, place: int) -> None:
        """Reads a LigatureSet. Whether the other components can be there does not matter: the first one is enough."""
        for offset in self.numbers(place):
            self.step()
            if not offset:
                continue
            ligature = place + offset
            more_components = max(self.number(ligature + 2) - 1, 0)
            if ligature + 4 + 2 * more_components > len(self.table):
                raise BadLayout
            self.link(glyph, self.number(ligature))

    def coverage(self, place: int, offset: int) -> Iterator[Span]:
        """The items of a Coverage at an offset from a place."""
        self.step()
        if not offset:
            return iter(())
        place += offset
        form, count = self.number(place), self.number(place + 2)
        if form not in (1, 2) or place + 4 + (2, 6)[form - 1] * count > len(self.table):
            raise BadLayout
        if form == 1:
            return (Span(glyph, glyph, index) for index, glyph in enumerate(self.numbers(place + 2)))
        starts = range(place + 4, place + 4 + 6 * count, 6)
        return (Span(*(u16(self.table, start + field) for field in (0, 2, 4))) for start in starts)


@lru_cache(8)
def links_of(gsub: bytes) -> Optional[Links]:
    """Which glyphs a GSUB may put in for each glyph, over all numbers of 16 bits, or None where it is refused. An empty
    one, or none, has no links."""
    reader = Reader(gsub)
    try:
        if gsub:
            reader.read()
    except BadLayout:
        return None
    return reader.links


def gsub_of(file: bytes) -> bytes:
    """The GSUB of a layout cut of a font. Links are those of the cleaned table, as a lookup list may overlap the field
    that is cleared."""
    return cleaned(b"GSUB", tables_of(file).get(b"GSUB", b""))


def layout_refusal(file: bytes) -> Optional[tuple[int, str]]:
    """The number and text of the first refusal of the tables of layout that applies to a font that is accepted without
    them, or None."""
    refusal: Optional[tuple[int, str]] = record_refusal(file, LAYOUT)
    if refusal is None and links_of(gsub_of(file)) is None:
        return 27, "bad layout"
    return refusal


@lru_cache(32)  # of a few cuts of one font, and of their joins
def linked(gsub: bytes, glyphs: frozenset[int]) -> frozenset[int]:
    """What links of a GSUB lead to from .notdef and these glyphs, in any number of steps. Some of these numbers may be
    no glyphs of the font."""
    links = links_of(gsub)
    assert links is not None, "the font is refused"
    reached: set[int] = set()
    left = [0, *glyphs]
    while left:
        glyph = left.pop()
        if glyph not in reached:
            reached.add(glyph)
            left += links.get(glyph, ())
    return frozenset(reached)


def roots(gsub: bytes, glyphs: Iterable[int], count: int) -> set[int]:
    """The glyphs of a font of this many, with this GSUB, that shaping may give for .notdef and these glyphs, before
    components are followed."""
    return {glyph for glyph in linked(gsub, frozenset(glyphs)) if glyph < count}
