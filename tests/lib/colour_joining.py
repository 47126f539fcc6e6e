"""A small join of layout and variable cuts that keep colours, apart from the program: the bytes of the join, or why
there is none.

What two cuts have in common of COLR is its frame; what is said of a glyph is compared and united with its outline.
"""
from typing import Callable, Mapping, Optional

from colour_cutting import COLOURS, LAYOUT_CUTS, VARIABLE, ColourCuts, glyph_count
from colour_reading import Colour
from font_reading import tables_of
from glyph_cutting import CutKind
import layout_joining
from lean_joining import Kind
import variable_joining


def colours_of(kind: CutKind, first: bytes, second: bytes) -> dict[int, Colour]:
    """What either cut says of a glyph. Of one that both keep they say the same."""
    assert isinstance(kind, ColourCuts), "its cuts keep colours"
    return {**kind.colours(second), **kind.colours(first)}


class ColourJoins(Kind):
    """Joins of a kind of cuts that keep colours."""

    def table_too_long(self, first: bytes, second: bytes) -> Optional[bytes]:
        assert isinstance(self.cuts, ColourCuts), "its cuts keep colours"
        colr, parts = tables_of(first).get(b"COLR"), colours_of(self.cuts, first, second)
        if colr is not None and not self.cuts.division().fits(colr, glyph_count(first), parts):
            return b"COLR"
        return Kind.table_too_long(self, first, second)


def shared_in(cuts: ColourCuts, plain: Callable[[bytes], dict[bytes, bytes]]) -> Callable[[bytes], dict[bytes, bytes]]:
    """What gives what cuts of one font have in common, their colours too."""
    return lambda file: {**plain(file), **cuts.colour_tables(file, ())}


def united_in(cuts: ColourCuts, plain: Callable[[bytes, bytes], dict[bytes, bytes]]) -> Callable[
        [bytes, bytes], dict[bytes, bytes]]:
    """What gives the tables with what belongs to glyphs of both files, their colours too."""
    def united(first: bytes, second: bytes) -> dict[bytes, bytes]:
        tables, colr = plain(first, second), tables_of(first).get(b"COLR")
        if colr is None:
            return tables
        parts = colours_of(cuts, first, second)
        return {**tables, b"COLR": cuts.division().whole(colr, glyph_count(first), parts)}
    return united


def with_colours(plain: Kind, cuts: ColourCuts) -> ColourJoins:
    return ColourJoins(sorted([*plain.tags, *COLOURS]), shared_in(cuts, plain.shared), cuts,
                       united_in(cuts, plain.data_tables))


LAYOUT_JOINS = with_colours(layout_joining.LAYOUT_CUTS, LAYOUT_CUTS)
VARIABLE_JOINS = with_colours(variable_joining.VARIABLE_CUTS, VARIABLE)
JOINED: Mapping[str, ColourJoins] = {"layout": LAYOUT_JOINS, "variable": VARIABLE_JOINS}
