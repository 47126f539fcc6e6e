"""A small join of layout cuts, apart from the program: the bytes that `fontcut join --layout` has to write, or why it
writes none.

Layout cuts are joined as lean cuts are; the tables of layout are among those that have to be the same.
"""
from typing import Optional, Sequence

from font_reading import KEPT
import glyph_cutting
from layout_cutting import cleaned_tables
from layout_reading import LAYOUT
import lean_joining
from lean_joining import Kind, shared


def layout_shared(file: bytes) -> dict[bytes, bytes]:
    """By tag what two layout cuts of one font have in common of their copied tables."""
    return {**shared(file), **cleaned_tables(file)}


LAYOUT_CUTS = Kind(sorted(KEPT + LAYOUT), layout_shared, glyph_cutting.LAYOUT_CUTS)


def join(first: bytes, second: bytes) -> bytes:
    """The join of two layout cuts that is not refused."""
    made: bytes = lean_joining.join(first, second, LAYOUT_CUTS)
    return made


def join_all(files: Sequence[bytes]) -> tuple[Optional[bytes], Optional[str]]:
    """The join of one file or more, and no line; or none, and the line that says why."""
    joined, line = lean_joining.join_all(files, LAYOUT_CUTS)
    return joined, line
