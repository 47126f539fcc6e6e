"""A small maker of variable cuts, apart from the program: layout cuts that have the tables of variations too, so that
those of layout stay as they are.

It follows OpenType 1.9, `gvar`. The `gvar` of a cut has the variation data of the kept glyphs, byte for byte. Its
offsets are long, because whether short ones are enough depends on which other glyphs are kept.
"""
import struct
from itertools import accumulate
from typing import Container, Iterable, Optional

from font_cutting import Ranges, assembled, cmap_with_sequences, kept_glyphs, outlines, wanted_map
from font_reading import tables_of
from layout_reading import roots
from lean_cutting import lean_tables
from variable_reading import ADDED, FIELDS, LONG_OFFSETS, Variations, own_gsub, variations_of

COPIED = [tag for tag in ADDED if tag != b"gvar"]


def gvar_of(found: Variations, kept: Container[int]) -> bytes:
    """The `gvar` that has what another one has for some glyphs, and no data for others. Data is not padded: HarfBuzz
    ignores data that lacks zeros at its end, and with padding it would read it."""
    data = [part if glyph in kept else b"" for glyph, part in enumerate(found.data)]
    tuples_at = FIELDS.size + 4 * (len(data) + 1)
    header = struct.pack(">IHHI", tuples_at, len(data), LONG_OFFSETS, tuples_at + len(found.shared_tuples))
    offsets = struct.pack(f">{len(data) + 1}I", 0, *accumulate(map(len, data)))
    return found.front + header + offsets + found.shared_tuples + b"".join(data)


def copied_tables(file: bytes) -> dict[bytes, bytes]:
    """The tables of layout and of variations that a variable cut has as the font has them, by tag."""
    return {tag: table for tag, table in tables_of(file).items() if tag in COPIED}


def variable_kept(file: bytes, glyphs: Iterable[int]) -> set[int]:
    """The glyphs that a variable cut keeps for these: those of a layout cut, by the links of GSUB as it is."""
    records: list[bytes] = outlines(file)
    kept: set[int] = kept_glyphs(records, roots(own_gsub(file), glyphs, len(records)))
    return kept


def variable_tables(file: bytes, wanted: Ranges, kept: Optional[Container[int]] = None) -> dict[bytes, bytes]:
    """The tables of the variable cut of a font for wanted ranges of codes, by tag; with other kept glyphs where these
    are given."""
    if kept is None:
        kept = variable_kept(file, wanted_map(file, wanted).values())
    tables = {**lean_tables(file, wanted, kept), **copied_tables(file)}
    tables[b"cmap"] = cmap_with_sequences(file, wanted, kept)
    if b"gvar" in tables_of(file):
        found = variations_of(file)
        assert found is not None, "the font is refused"
        tables[b"gvar"] = gvar_of(found, kept)
    return tables


def variable_cut(file: bytes, wanted: Ranges) -> bytes:
    """The variable cut of a font for wanted ranges of codes. The font is accepted, its tables of layout and of
    variations too."""
    made: bytes = assembled(variable_tables(file, wanted))
    return made
