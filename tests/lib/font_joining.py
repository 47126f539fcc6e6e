"""A small join of cuts, apart from the program: the bytes that `fontcut join` has to write, or why it writes none.

It follows docs/FORMAT.md, which says what a cut keeps, and compares what two cuts keep: the tables that are
copied, the glyphs of codes, and the outlines of glyphs.
"""
from typing import Mapping, Optional, Sequence

from font_cutting import (assembled, cmap_table, cut_form, cut_size, glyf_and_loca, groups_of, kept_glyphs, outlines,
                          whole_map)
from font_reading import KEPT, MAX_FILE, Refusal, directory_refusal, font_refusal, tables_of, tag_text

# The tables of which a cut holds its font's own bytes; of `head` it has all but checksumAdjustment.
COPIED = [tag for tag in KEPT if tag not in (b"cmap", b"glyf", b"loca")]


def copied(file: bytes) -> dict[bytes, bytes]:
    """By tag what a cut has of its font, byte for byte."""
    tables = {tag: data for tag, data in tables_of(file).items() if tag in COPIED}
    tables[b"head"] = tables[b"head"][:8] + tables[b"head"][12:]
    return tables


def kept(file: bytes) -> dict[int, bytes]:
    """By number the outlines of the glyphs that a cut keeps, the empty ones too."""
    records = outlines(file)
    return {glyph: records[glyph] for glyph in kept_glyphs(records, whole_map(file).values())}


def different(first: Mapping[int, object], second: Mapping[int, object]) -> Optional[int]:
    """The least key under which both have something, but not the same, or None."""
    return min((key for key in first.keys() & second.keys() if first[key] != second[key]), default=None)


def different_table(first: bytes, second: bytes) -> Optional[bytes]:
    """The least tag of a copied table that one of two cuts lacks, or that differs, or None."""
    here, there = copied(first), copied(second)
    return next((tag for tag in COPIED if here.get(tag) != there.get(tag)), None)


def file_refusal(file: bytes) -> Optional[Refusal]:
    """The number and text of the first refusal of a file that applies, or None."""
    return directory_refusal(file) or font_refusal(file)


def difference_refusal(first: bytes, second: bytes) -> Optional[Refusal]:
    """The number and text of what tells two cuts apart first, or None."""
    tag = different_table(first, second)
    if tag is not None:
        return 21, f"different table {tag_text(tag)}"
    code = different(whole_map(first), whole_map(second))
    if code is not None:
        return 22, f"different mapping U+{code:04X}"
    glyph = different(kept(first), kept(second))
    return None if glyph is None else (23, f"different glyph {glyph}")


def joined_tables(first: bytes, second: bytes) -> dict[bytes, bytes]:
    """The tables of the join of two cuts that nothing tells apart, by tag."""
    tables = tables_of(first)
    tables[b"cmap"] = cmap_table(groups_of({**whole_map(first), **whole_map(second)}))
    records = {**kept(first), **kept(second)}
    every = [records.get(glyph, b"") for glyph in range(len(outlines(first)))]
    tables[b"glyf"], tables[b"loca"] = glyf_and_loca(every, records.keys())
    return tables


def join_refusal(first: bytes, second: bytes) -> Optional[Refusal]:
    """The number and text of the first refusal of a join of two files that applies, or None."""
    refused = file_refusal(first) or file_refusal(second)
    if refused:
        return refused
    for name, file in ("first", first), ("second", second):
        if cut_form(file) == "no":
            return 20, f"not a cut: {name}"
    refused = difference_refusal(first, second)
    if refused:
        return refused
    size = cut_size(joined_tables(first, second))
    return (18, f"too large {size}") if size > MAX_FILE else None


def join(first: bytes, second: bytes) -> bytes:
    """The join of two cuts that is not refused: in the second profile, whichever they are in."""
    return assembled(joined_tables(first, second))


def join_all(files: Sequence[bytes]) -> tuple[Optional[bytes], Optional[str]]:
    """The join of one file or more, and no line; or none, and the line that says why.

    The first file is joined with itself, and what comes of it with each next one.
    """
    joined = files[0]
    for step, file in enumerate(files):
        refused = join_refusal(joined, file)
        if refused:
            return None, "fontcut: file {}: refused {} {}\n".format(step + 1, *refused)
        joined = join(joined, file)
    return joined, None
