"""A small maker of lean cuts, apart from the program: cuts with the metrics of the kept glyphs alone, and a `post`
without names.

It follows OpenType 1.9, `hmtx`, `vmtx` and `post` ("Version 3.0"), and the definition of lean cuts in
crates/font_theory/specs/Kinds.antt.
"""
from typing import Container, Mapping, Optional

from font_cutting import Ranges, assembled, cut_tables, kept_glyphs, outlines, wanted_map
from font_reading import u16

# The tables that say how many pairs a table of metrics has, and these.
METRICS = ((b"hhea", b"hmtx"), (b"vhea", b"vmtx"))


def pairs_in(tables: Mapping[bytes, bytes], header: bytes, name: bytes, glyphs: int) -> int:
    """The number of pairs of a table of metrics, or 0 where its header does not describe it."""
    data = tables.get(header, b"")
    pairs = u16(data, 34) if len(data) >= 36 else 0
    if not 1 <= pairs <= glyphs or len(tables.get(name, b"")) < 4 * pairs + 2 * (glyphs - pairs):
        return 0
    return pairs


def entry(pairs: int, glyph: int) -> tuple[int, int]:
    """The place and the size of what is of one glyph alone: a pair, or from the last pair on the bearing, for the last
    advance is that of all glyphs from there on."""
    if glyph < pairs - 1:
        return 4 * glyph, 4
    if glyph == pairs - 1:
        return 4 * glyph + 2, 2
    return 4 * pairs + 2 * (glyph - pairs), 2


def cleared(table: bytes, pairs: int, glyphs: int, kept: Container[int]) -> bytes:
    """A table of metrics with zeros for the glyphs that are not kept; one of no pairs stays as it is."""
    made = bytearray(table)
    for glyph in range(glyphs if pairs else 0):
        if glyph not in kept:
            place, size = entry(pairs, glyph)
            made[place:place + size] = bytes(size)
    return bytes(made)


def without_names(post: bytes) -> bytes:
    """A `post` in version 3.0, or as it is where it is too short for the fields of every version."""
    return post if len(post) < 32 else bytes.fromhex("00030000") + post[4:32]


def lean_tables(file: bytes, wanted: Ranges, kept: Optional[Container[int]] = None) -> dict[bytes, bytes]:
    """The tables of the lean cut of a font for wanted ranges of codes, by tag; with the outlines and metrics of other
    kept glyphs where these are given."""
    records = outlines(file)
    if kept is None:
        kept = kept_glyphs(records, wanted_map(file, wanted).values())
    tables = cut_tables(file, wanted, kept)
    for header, name in METRICS:
        if name in tables:
            pairs = pairs_in(tables, header, name, len(records))
            tables[name] = cleared(tables[name], pairs, len(records), kept)
    if b"post" in tables:
        tables[b"post"] = without_names(tables[b"post"])
    return tables


def lean_cut(file: bytes, wanted: Ranges) -> bytes:
    """The lean cut of a font that is accepted, for wanted ranges of codes."""
    return assembled(lean_tables(file, wanted))
