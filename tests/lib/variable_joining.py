"""A small join of variable cuts, apart from the program: the bytes of the join, or why there is none.

Variable cuts are joined as layout cuts are. The tables of variations are among those that have to be the same, except
for the variation data of glyphs in `gvar`, which is compared and united with their outlines and metrics.
"""
from typing import Optional, Sequence

from font_reading import KEPT, Refusal, tables_of
import glyph_cutting
from glyph_cutting import data_of
import lean_joining
from lean_joining import Kind, shared
from variable_cutting import copied_tables, gvar_of
from variable_reading import ADDED, Variations, variations_of


def read(file: bytes) -> Optional[Variations]:
    """What the `gvar` of a variable cut has, or None if the cut has none."""
    return variations_of(file) if b"gvar" in tables_of(file) else None


def variable_shared(file: bytes) -> dict[bytes, bytes]:
    """By tag what two variable cuts of one font have in common of their copied tables. Of `gvar` these are the first
    eight bytes and the shared tuples."""
    tables, found = {**shared(file), **copied_tables(file)}, read(file)
    return {**tables, b"gvar": found.front + found.shared_tuples} if found else tables


def joined_gvar(first: bytes, second: bytes) -> dict[bytes, bytes]:
    """The `gvar` of the join of two variable cuts that nothing tells apart, by its tag, or nothing if they have none. A
    cut has no data for the glyphs that the other alone keeps."""
    found, others = read(first), data_of(second)
    if found is None:
        return {}
    united = [data or others[glyph] for glyph, data in enumerate(found.data)]
    return {b"gvar": gvar_of(found._replace(data=united), range(len(united)))}


VARIABLE_CUTS = Kind(sorted(KEPT + ADDED), variable_shared, glyph_cutting.VARIABLE, joined_gvar)


def join_refusal(first: bytes, second: bytes) -> Optional[Refusal]:
    """The number and text of the first refusal of a join of two files that applies, or None."""
    refused: Optional[Refusal] = lean_joining.join_refusal(first, second, VARIABLE_CUTS)
    return refused


def join(first: bytes, second: bytes) -> bytes:
    """The join of two variable cuts that is not refused."""
    made: bytes = lean_joining.join(first, second, VARIABLE_CUTS)
    return made


def join_all(files: Sequence[bytes]) -> tuple[Optional[bytes], Optional[str]]:
    """The join of one file or more, and no line; or none, and the line that says why."""
    joined, line = lean_joining.join_all(files, VARIABLE_CUTS)
    return joined, line
