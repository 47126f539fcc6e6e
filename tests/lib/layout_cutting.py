"""A small maker of layout cuts, apart from the program: lean cuts that have the tables of layout and the variation
sequences too, and all glyphs that shaping may give for the wanted characters.

It follows the definition of layout cuts in crates/font_theory/specs/Kinds.antt.
"""
from typing import Container, Iterable, Optional

from font_cutting import Ranges, assembled, cmap_with_sequences, kept_glyphs, outlines, wanted_map
from font_reading import tables_of
from layout_reading import LAYOUT, cleaned, gsub_of, roots
from lean_cutting import lean_tables


def cleaned_tables(file: bytes) -> dict[bytes, bytes]:
    """The tables of layout of a cut of a font, by tag."""
    return {tag: cleaned(tag, table) for tag, table in tables_of(file).items() if tag in LAYOUT}


def layout_kept(file: bytes, glyphs: Iterable[int]) -> set[int]:
    """The glyphs that a layout cut keeps for these. No links are followed from components, which are never shaped."""
    records: list[bytes] = outlines(file)
    kept: set[int] = kept_glyphs(records, roots(gsub_of(file), glyphs, len(records)))
    return kept


def layout_tables(file: bytes, wanted: Ranges, kept: Optional[Container[int]] = None) -> dict[bytes, bytes]:
    """The tables of the layout cut of a font for wanted ranges of codes, by tag; with other kept glyphs where these are
    given."""
    if kept is None:
        kept = layout_kept(file, wanted_map(file, wanted).values())
    tables = {**lean_tables(file, wanted, kept), **cleaned_tables(file)}
    return {**tables, b"cmap": cmap_with_sequences(file, wanted, kept)}


def layout_cut(file: bytes, wanted: Ranges) -> bytes:
    """The layout cut of a font that is accepted, its tables of layout too, for wanted ranges of codes."""
    made: bytes = assembled(layout_tables(file, wanted))
    return made
