"""A small maker of layout and variable cuts that keep colours, apart from the program.

A cut's COLR says of each kept glyph what the font's says, and nothing of others; one that is not read strictly is
copied. CPAL is copied beside a COLR. A glyph of which something is said is there. What colours name is wanted by closed
requests, together with what links of GSUB lead to, and by exact requests alone.
"""
from functools import lru_cache
from typing import Callable, Container, Iterable, Mapping, NamedTuple, Optional

from colour_reading import Colour, Colours, Store, colour_table, colours_in
from font_cutting import assembled, wanted_map
from font_reading import Refusal, record_refusal, table, tables_of, u16
import glyph_cutting
from glyph_cutting import CutKind, Glyph, Wanted
from layout_reading import LAYOUT, links_of
from variable_reading import ADDED, exact_refusal

COLOURS = [b"COLR", b"CPAL"]
BAD_COLOURS = 30, "bad colours"


class Division(NamedTuple):
    """How a colour table is divided by glyph: its frame is the table that says nothing of any glyph, and has what
    varies if that is kept; a glyph's part is what the table says of it."""

    varies: bool

    def read(self, colr: bytes, count: int) -> Optional[Colours]:
        """What a table says in a font of so many glyphs, or None if it is its own frame."""
        found: Optional[Colours] = colours_in(colr, count)
        return found if found is None or self.varies else found._replace(store=Store())

    def frame(self, colr: bytes, count: int) -> bytes:
        return self.whole(colr, count, {})

    def parts(self, colr: bytes, count: int) -> dict[int, Colour]:
        found = self.read(colr, count)
        return dict(found.glyphs) if found else {}

    def whole(self, frame: bytes, count: int, parts: Mapping[int, Colour]) -> bytes:
        """The table of a frame that has these parts of glyphs, which fit."""
        found = self.read(frame, count)
        made: bytes = colour_table(found._replace(glyphs=parts)) if found else frame
        return made

    def fits(self, frame: bytes, count: int, parts: Mapping[int, Colour]) -> bool:
        found = self.read(frame, count)
        return found is None or bool(found._replace(glyphs=parts).has_room())

    def kept(self, colr: bytes, count: int, kept: Container[int]) -> dict[int, Colour]:
        """The parts of the kept glyphs."""
        return {glyph: colour for glyph, colour in self.parts(colr, count).items() if glyph in kept}

    def cut(self, colr: bytes, count: int, kept: Container[int]) -> bytes:
        """The table of a cut that keeps these glyphs."""
        return self.whole(self.frame(colr, count), count, self.kept(colr, count, kept))


STILL, VARYING = Division(False), Division(True)


def glyph_count(file: bytes) -> int:
    count: int = u16(table(file, b"maxp"), 4)
    return count


def reached(links: Callable[[int], Iterable[int]], glyphs: Iterable[int]) -> frozenset[int]:
    """What links lead to from .notdef and these glyphs, in any number of steps."""
    found, left = set[int](), [0, *glyphs]
    while left:
        glyph = left.pop()
        if glyph not in found:
            found.add(glyph)
            left += links(glyph)
    return frozenset(found)


@lru_cache(4, typed=True)  # of two files that are joined, their join and a font; kinds of one shape are not one
def coloured_glyphs(cuts: "ColourCuts", file: bytes) -> list[Glyph]:
    """The glyphs of a font, with what is said of them."""
    parts = cuts.colours(file)
    return [glyph._replace(colour=parts.get(number)) for number, glyph in enumerate(CutKind.glyphs(cuts, file))]


class ColourCuts(CutKind):
    """A kind of cuts that keep colours. Its refusals have those of the colours' records, and for closed requests that
    of a COLR whose links are not known."""

    def division(self) -> Division:
        return VARYING if self.name == "variable" else STILL

    def colours(self, file: bytes) -> dict[int, Colour]:
        """What is said of glyphs."""
        tables = tables_of(file)
        return self.division().parts(tables[b"COLR"], glyph_count(file)) if b"COLR" in tables else {}

    def glyphs(self, file: bytes) -> list[Glyph]:
        return coloured_glyphs(self, file)

    def colour_tables(self, file: bytes, kept: Container[int]) -> dict[bytes, bytes]:
        """The tables of colours of a cut that keeps these glyphs."""
        tables = {tag: data for tag, data in tables_of(file).items() if tag in COLOURS}
        if b"COLR" not in tables:
            return {}
        return {**tables, b"COLR": self.division().cut(tables[b"COLR"], glyph_count(file), kept)}

    def cut(self, file: bytes, wanted: Wanted) -> bytes:
        kept = self.kept(file, wanted)
        made: bytes = assembled({**self.tables(file, wanted.codes, kept), **self.colour_tables(file, kept)})
        return made

    def names(self, file: bytes) -> dict[int, frozenset[int]]:
        """The glyphs that the colours of each glyph name."""
        return {glyph: colour.names() for glyph, colour in self.colours(file).items()}

    def closed(self, file: bytes, wanted: Wanted, gsub: bytes) -> Wanted:
        """What is wanted, with what colours and links of a GSUB lead to together."""
        links, names = links_of(gsub), self.names(file)
        assert links is not None, "the font is refused"
        known: Mapping[int, Iterable[int]] = links
        return Wanted(wanted.codes, reached(lambda glyph: (*known.get(glyph, ()), *names.get(glyph, ())), [
            *wanted_map(file, wanted.codes).values(), *wanted.glyphs]))

    def closure(self, file: bytes, wanted: Wanted) -> Wanted:
        return self.closed(file, wanted, self.gsub(file))

    def exact_cut(self, file: bytes, wanted: Wanted) -> bytes:
        return self.cut(file, self.closed(file, wanted, b""))

    def exact_refusal(self, file: bytes) -> Optional[Refusal]:
        return self.refusal(file) or unlinked_refusal(file)


def unlinked_refusal(file: bytes) -> Optional[Refusal]:
    """The refusal of a font with a COLR whose links are not known, or None. One without a byte has none."""
    colr = tables_of(file).get(b"COLR", b"")
    return BAD_COLOURS if colr and colours_in(colr, glyph_count(file)) is None else None


# The refusals for cuts, which come before those of what is in the tables.

def layout_refusal(file: bytes) -> Optional[Refusal]:
    refusal: Optional[Refusal] = record_refusal(file, sorted(LAYOUT + COLOURS))
    return refusal


def variable_refusal(file: bytes) -> Optional[Refusal]:
    refusal: Optional[Refusal] = record_refusal(file, sorted(ADDED + COLOURS))
    return refusal or exact_refusal(file)


# And for closed requests.

def closed_layout_refusal(file: bytes) -> Optional[Refusal]:
    return layout_refusal(file) or glyph_cutting.LAYOUT_CUTS.closing_refusal(file) or unlinked_refusal(file)


def closed_variable_refusal(file: bytes) -> Optional[Refusal]:
    refusal: Optional[Refusal] = record_refusal(file, sorted(ADDED + COLOURS))
    return refusal or glyph_cutting.VARIABLE.closing_refusal(file) or unlinked_refusal(file)


LAYOUT_CUTS = ColourCuts(*glyph_cutting.LAYOUT_CUTS)._replace(
    refusal=layout_refusal, closing_refusal=closed_layout_refusal)
VARIABLE = ColourCuts(*glyph_cutting.VARIABLE)._replace(
    refusal=variable_refusal, closing_refusal=closed_variable_refusal)
