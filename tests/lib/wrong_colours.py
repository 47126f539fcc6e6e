"""Wrong definitions of how colours are divided, kept and joined, each of which breaks a law."""
from functools import partial
from typing import Callable, Container, Iterator, Mapping, NamedTuple, Optional

from colour_cutting import STILL, ColourCuts, Division
from colour_joining import JOINED
from colour_laws import (ALIKE, FRAME, READ_BACK, SAYS, STORE, UNION, closure_laws_of_round, font_laws_of_round,
                         laws_by_chance)
from colour_reading import LAYERS, PAINT, Colour, Colours, NotRead, Piece, Reader, Store, number
from font_reading import tables_of
from glyph_cutting import CutKind, Wanted
from glyph_laws import Law
from lean_joining import Kind

class BadStoresAreWhole(Division):
    """A table of which what varies is not read is its own frame, if that is kept."""

    def read(self, colr: bytes, count: int) -> Optional[Colours]:
        found = super().read(colr, count)
        places = [number(colr, at, 4) for at in (26, 30)] if found and found.version else []
        is_bad = any(place and not data for place, data in zip(places, found.store)) if found and self.varies else False
        return None if is_bad else found


class BoundsAreNotSeen(Division):
    def fits(self, frame: bytes, count: int, parts: Mapping[int, Colour]) -> bool:
        return True


class EmptyListsAreNone(Division):
    """A glyph whose list of layers is empty has no part."""

    def parts(self, colr: bytes, count: int) -> dict[int, Colour]:
        return {glyph: colour for glyph, colour in super().parts(colr, count).items() if colour != Colour(())}


class LayersStayInFrames(Division):
    """The frame has the layers of all glyphs."""

    def frame(self, colr: bytes, count: int) -> bytes:
        return self.whole(colr, count, {
            glyph: colour._replace(paint=None, box=None) for glyph, colour in self.parts(colr, count).items()
            if colour.layers is not None})


class LayersOfOtherGlyphsGo(Division):
    """A cut has the layers of kept glyphs alone."""

    def kept(self, colr: bytes, count: int, kept: Container[int]) -> dict[int, Colour]:
        return {glyph: colour if colour.layers is None else colour._replace(
            layers=tuple(layer for layer in colour.layers if layer[0] in kept))
            for glyph, colour in super().kept(colr, count, kept).items()}


class PaintsOfOtherGlyphsGo(Division):
    """A cut has the paints that name kept glyphs alone."""

    def kept(self, colr: bytes, count: int, kept: Container[int]) -> dict[int, Colour]:
        return {glyph: colour for glyph, colour in super().kept(colr, count, kept).items()
                if all(name in kept for name in colour.names())}


class StoresAreForgotten(Division):
    """A cut of a table with what varies has none of it."""

    def whole(self, frame: bytes, count: int, parts: Mapping[int, Colour]) -> bytes:
        return STILL.whole(frame, count, parts)


class IndexReader(Reader):
    """Paints keep their firstLayerIndex."""

    def new_piece(self, kind: str, place: int, depth: int) -> Piece:
        found = super().new_piece(kind, place, depth)
        is_layers = kind == PAINT and found.data[0] == LAYERS
        return found._replace(data=self.table[place:place + 6]) if is_layers else found


class IndicesStay(Division):
    def read(self, colr: bytes, count: int) -> Optional[Colours]:
        try:
            found = IndexReader(colr, count).read()
        except NotRead:
            return None
        return found if self.varies else found._replace(store=Store())


class OnlyLayersAreCounted(ColourCuts):
    """A glyph with colours alone is not there."""

    def there(self, file: bytes) -> frozenset[int]:
        return frozenset(number for number, glyph in enumerate(self.glyphs(file)) if not glyph._replace(
            colour=None).is_blank())


class ColoursAreFollowedLast(ColourCuts):
    """Colours are followed after links of GSUB, and these not again."""

    def closed(self, file: bytes, wanted: Wanted, gsub: bytes) -> Wanted:
        linked = CutKind.closure(self._replace(gsub=lambda _: gsub), file, wanted)
        return super().closed(file, linked, b"")


class ColoursAreNotFollowedOn(ColourCuts):
    """Of what colours lead to colours are not followed."""

    def closed(self, file: bytes, wanted: Wanted, gsub: bytes) -> Wanted:
        linked, names = CutKind.closure(self._replace(gsub=lambda _: gsub), file, wanted), self.names(file)
        return Wanted(wanted.codes, frozenset(linked.glyphs).union(*(names.get(glyph, ()) for glyph in linked.glyphs)))


class PalettesStay(ColourCuts):
    """CPAL is kept without a COLR."""

    def colour_tables(self, file: bytes, kept: Container[int]) -> dict[bytes, bytes]:
        palettes = {tag: data for tag, data in tables_of(file).items() if tag == b"CPAL"}
        return {**palettes, **super().colour_tables(file, kept)}


class ColoursAreNotCompared(Kind):
    def different_glyph(self, first: bytes, second: bytes) -> Optional[int]:
        here, there = ({number: glyph._replace(colour=None) for number, glyph in self.kept(file).items()}
                       for file in (first, second))
        return min((glyph for glyph in here.keys() & there.keys() if here[glyph] != there[glyph]), default=None)


class Wrong(NamedTuple):
    """A wrong definition, a law that it breaks, and what gives the laws of a round."""

    name: str
    law: str
    round: Callable[[int], Iterator[tuple[Law, object]]]
    small: bool = False


def of_division(wrong: type[Division], law: str, varies: bool = False, small: bool = False) -> Wrong:
    return Wrong(wrong.__name__, law, partial(laws_by_chance, division=wrong(varies)), small)


def of_cuts(wrong: type[ColourCuts], law: str, name: str = "layout") -> Wrong:
    kind = JOINED[name]
    return Wrong(wrong.__name__, law, partial(font_laws_of_round, kind=kind._replace(cuts=wrong(*kind.cuts))))


def of_closures(wrong: type[ColourCuts], law: str, name: str = "layout") -> Wrong:
    return Wrong(wrong.__name__, law, partial(closure_laws_of_round, cuts=wrong(*JOINED[name].cuts)))


UPPER_BOUND = "a join is a cut of which both files are cuts"
WRONG = [
    of_division(BadStoresAreWhole, ALIKE, True), of_division(BoundsAreNotSeen, READ_BACK, small=True),
    of_division(EmptyListsAreNone, SAYS), of_division(LayersStayInFrames, FRAME),
    of_division(LayersOfOtherGlyphsGo, UNION), of_division(PaintsOfOtherGlyphsGo, UNION),
    of_division(StoresAreForgotten, STORE, True), of_division(IndicesStay, UNION),
    of_cuts(OnlyLayersAreCounted, "glyphs with colours are there"),
    of_closures(ColoursAreFollowedLast, "a closure is its own closure"),
    of_closures(ColoursAreNotFollowedOn, "a closure is closed under links and colours", "variable"),
    of_cuts(PalettesStay, "CPAL is the font's beside a COLR, and else there is none"),
    Wrong("ColoursAreNotCompared", UPPER_BOUND, partial(
        font_laws_of_round, kind=ColoursAreNotCompared(*JOINED["layout"]))),
]
