"""Tables of layout that are typed in, with the glyphs that layout cuts keep for them, and tables that are refused.

They are those of LETTERS in layout_making.py: U+0041 to U+0046 are mapped to the glyphs 1 to 6, and glyph 7 is composed
of 8. Glyph 500 is none, and links lead over it all the same.
"""
from typing import NamedTuple

from layout_making import (after, coverage, coverage_of_ranges, extension, gsub, gsub_of_one, ligature, ligatures,
                           lookup, numbers, reverse, sequence, shifted, single, with_sets)


class Kept(NamedTuple):
    """A GSUB, and the glyphs that the layout cut for a character keeps."""
    name: str
    gsub: bytes
    word: str
    kept: set[int]


A_TO_9 = single(coverage(1), 9)
LIGATURE = with_sets(coverage(1), ligatures(ligature(9, 2, 3)))

# What would be read at the place that an offset of 0 is taken from is refused, or has a link to another glyph, but in a
# Coverage.
NOTHING_AT = {
    "lookup list": numbers(1, 4, 0, 0, 0),
    "lookup": numbers(1, 0, 0, 0, 10, 1, 0),
    "subtable": numbers(1, 0, 0, 0, 10, 1, 4, 3, 0, 1, 0),
    "subtable of type 7": numbers(1, 0, 0, 0, 10, 1, 4, 7, 0, 1, 0),
    "Coverage": gsub_of_one(1, numbers(2, 0, 1, 9)),
    "Sequence": gsub_of_one(2, numbers(1, 8, 1, 0) + coverage(1)),
    "AlternateSet": gsub_of_one(3, numbers(1, 8, 1, 0) + coverage(1)),
    "LigatureSet": gsub_of_one(4, numbers(1, 8, 1, 0) + coverage_of_ranges((1, 1, 0))),
    "Ligature": gsub_of_one(4, numbers(1, 8, 1, 14) + coverage(1) + numbers(2, 0, 0)),
    "extension": gsub_of_one(7, extension(1, A_TO_9, offset=0)),
}

KEPT = [
    Kept("no lookup", gsub(), "U+41", {0, 1}),
    Kept("an empty table", b"", "U+41", {0, 1}),
    Kept("a later minor version", numbers(1, 7, 0, 0, 14, 9, 9) + after([], [lookup(1, A_TO_9)]), "U+41", {0, 1, 9}),
    Kept("type 1 by a delta", gsub_of_one(1, shifted(coverage(1), 8)), "U+41", {0, 1, 9}),
    Kept("a delta below zero", gsub_of_one(1, shifted(coverage(3), -2)), "U+43", {0, 1, 3}),
    Kept("deltas that wrap", gsub(lookup(1, shifted(coverage(1), -2)), lookup(1, shifted(coverage(65535), 10))),
         "U+41", {0, 1, 9}),
    Kept("type 1 by a list", gsub_of_one(1, single(coverage(1, 2), 8, 9)), "U+42", {0, 2, 9}),
    Kept("type 2", gsub_of_one(2, with_sets(coverage(1), sequence(4, 9))), "U+41", {0, 1, 4, 9}),
    Kept("type 2, and no glyph", gsub_of_one(2, with_sets(coverage(1), sequence())), "U+41", {0, 1}),
    Kept("type 3", gsub_of_one(3, with_sets(coverage(2), sequence(8, 9))), "U+42", {0, 2, 8, 9}),
    Kept("a ligature wants its first part", gsub_of_one(4, LIGATURE), "U+41", {0, 1, 9}),
    Kept("a ligature does not want its second part", gsub_of_one(4, LIGATURE), "U+42", {0, 2}),
    Kept("a ligature of one part", gsub_of_one(4, with_sets(coverage(1), ligatures(ligature(9)))), "U+41", {0, 1, 9}),
    Kept("a ligature of no part", gsub_of_one(4, with_sets(coverage(1), ligatures(numbers(9, 0)))), "U+41", {0, 1, 9}),
    Kept("type 5 and 6 are not read", gsub(lookup(5, b"", numbers(9, 9)), lookup(6, numbers(0))), "U+41", {0, 1}),
    Kept("type 7", gsub_of_one(7, extension(4, LIGATURE)), "U+41", {0, 1, 9}),
    Kept("type 7 of type 5", gsub_of_one(7, extension(5, b"")), "U+41", {0, 1}),
    Kept("type 8", gsub_of_one(8, reverse(coverage(2), 9)), "U+42", {0, 2, 9}),
    Kept("links from .notdef", gsub_of_one(1, single(coverage(0), 9)), "", {0, 9}),
    Kept("links from what links lead to", gsub(lookup(1, single(coverage(2), 9)), lookup(1, single(coverage(1), 2))),
         "U+41", {0, 1, 2, 9}),
    Kept("a ring of links", gsub_of_one(1, single(coverage(1, 2), 2, 1)), "U+41", {0, 1, 2}),
    Kept("links over numbers that are no glyphs",
         gsub(lookup(1, single(coverage(1), 500)), lookup(1, single(coverage(500), 9))), "U+41", {0, 1, 9}),
    Kept("components of what links lead to", gsub_of_one(1, single(coverage(1), 7)), "U+41", {0, 1, 7, 8}),
    Kept("no links from components", gsub_of_one(1, single(coverage(1, 8), 7, 9)), "U+41", {0, 1, 7, 8}),
    Kept("links from a composite", gsub_of_one(1, single(coverage(1, 7), 7, 9)), "U+41", {0, 1, 7, 8, 9}),
    Kept("glyphs out of order and twice", gsub_of_one(1, single(coverage(3, 1, 1), 4, 5, 9)), "U+41", {0, 1, 5, 9}),
    Kept("ranges that overlap", gsub_of_one(1, single(coverage_of_ranges((2, 3, 1), (1, 3, 0)), 4, 5, 9)), "U+43",
         {0, 3, 9}),
    Kept("a range that begins within the list", gsub_of_one(1, single(coverage_of_ranges((1, 2, 1)), 8, 9)), "U+41",
         {0, 1, 9}),
    Kept("more glyphs than entries", gsub_of_one(1, single(coverage(2, 1), 9)), "U+41", {0, 1}),
    Kept("more entries than glyphs", gsub_of_one(1, single(coverage(1), 9, 8)), "U+41", {0, 1, 9}),
    Kept("an index that does not wrap", gsub_of_one(1, single(coverage_of_ranges((1, 2, 65535)), 9)), "U+42", {0, 2}),
    Kept("a range of no glyph", gsub_of_one(1, single(coverage_of_ranges((3, 1, 0)), 9, 9, 9)), "U+42", {0, 2}),
    Kept("each subtable", gsub(lookup(1, single(coverage(2), 8), A_TO_9)), "U+41", {0, 1, 9}),
    Kept("links are read after cleaning", gsub(lookup(1, A_TO_9), minor=1), "U+41", {0, 1}),
    Kept("no offset to variations in version 1.0", gsub(lookup(1, A_TO_9)), "U+41", {0, 1, 9}),
    Kept("the offset to variations is not whole", numbers(1, 1, 0, 0, 0) + bytes(3), "U+41", {0, 1}),
    *(Kept(f"an offset of 0, {what}", table, "U+41", {0, 1}) for what, table in NOTHING_AT.items()),
]

# A GSUB with a lookup of each type, whose last bytes are wanted: what is cut off it is refused, but for nothing at all.
CUT_OFF = {
    "type 1 by a delta": gsub_of_one(1, shifted(coverage(1), 8)),
    "type 1 by a list": gsub_of_one(1, single(coverage_of_ranges((1, 1, 0)), 9)),
    "type 2": gsub_of_one(2, numbers(1, 8, 1, 14) + coverage(1) + sequence(4, 9)),
    "type 3": gsub_of_one(3, with_sets(coverage(1), sequence(4, 9))),
    "type 4": gsub_of_one(4, numbers(1, 8, 1, 14) + coverage(1) + ligatures(ligature(9, 2, 3))),
    "type 7": gsub_of_one(7, extension(3, with_sets(coverage(1), sequence(4, 9)))),
    "type 8": gsub_of_one(8, reverse(coverage(2), 9)),
}

FAR = 0xFFF0

REFUSED = {
    "version 0": numbers(0, 0, 0, 0, 0),
    "version 2": numbers(2, 0, 0, 0, 0),
    "a lookup list that is far off": numbers(1, 0, 0, 0, FAR),
    "a lookup list that is cut off": numbers(1, 0, 0, 0, 10, 1),
    "a lookup that is far off": numbers(1, 0, 0, 0, 10, 1, FAR),
    "type 0": gsub_of_one(0, A_TO_9),
    "type 9": gsub_of_one(9, A_TO_9),
    "type 0 without subtables": gsub(lookup(0)),
    "type 9 without subtables": gsub(lookup(9)),
    "a lookup without its last offset": gsub(lookup(1))[:-2] + numbers(1),
    "a subtable that is far off": numbers(1, 0, 0, 0, 10, 1, 4, 1, 0, 1, FAR),
    **{f"type {kind}, format {form}": gsub_of_one(kind, numbers(form) + subtable[2:]) for kind, form, subtable in (
        (1, 0, A_TO_9), (1, 3, A_TO_9), (2, 2, with_sets(coverage(1), sequence(9))), (2, 0, with_sets(coverage(1))),
        (3, 2, with_sets(coverage(1), sequence(9))), (4, 2, LIGATURE), (8, 2, reverse(coverage(1), 9)))},
    "type 7, format 2": gsub_of_one(7, extension(1, A_TO_9, form=2)),
    **{f"an extension of type {kind}": gsub_of_one(7, extension(kind, extension(1, A_TO_9))) for kind in (0, 7, 9)},
    **{f"an extension of type {kind}, offset 0": gsub_of_one(7, extension(kind, b"", offset=0)) for kind in (0, 7, 9)},
    "an extension that is far off": gsub_of_one(7, extension(1, A_TO_9, offset=0xFFFFFFF0)),
    "a Coverage of format 0": gsub_of_one(1, shifted(numbers(0, 1, 1), 8)),
    "a Coverage of format 3": gsub_of_one(1, shifted(numbers(3, 1, 1, 1, 0), 8)),
    "a Coverage that is far off": gsub_of_one(1, numbers(1, FAR, 8)),
    "a Sequence that is far off": gsub_of_one(2, numbers(1, 8, 1, FAR) + coverage(1)),
    "an AlternateSet that is far off": gsub_of_one(3, numbers(1, 8, 1, FAR) + coverage(1)),
    "a LigatureSet that is far off": gsub_of_one(4, numbers(1, 8, 1, FAR) + coverage(1)),
    "a Ligature that is far off": gsub_of_one(4, with_sets(coverage(1), numbers(1, FAR))),
    "a Ligature without a component": gsub_of_one(4, numbers(1, 8, 1, 14) + coverage(1) + numbers(1, 4, 9, 3, 2)),
    "one bad lookup of many": gsub(lookup(1, A_TO_9), lookup(3), lookup(4, numbers(2, 0, 0)), lookup(1, A_TO_9)),
}


def sharing_lookups(lookups: int, subtables: int, nothing: int) -> bytes:
    """A list that names one lookup many times, and then some offsets of 0. The lookup has subtables of which nothing is
    there. Each offset is a step."""
    listed = lookups + nothing
    offsets = [2 + 2 * listed] * lookups + [0] * nothing
    return numbers(1, 0, 0, 0, 10, listed, *offsets) + numbers(1, 0, subtables, *[0] * subtables)


def sharing_sequences(ranges: int, glyphs: int, nothing: int) -> bytes:
    """A lookup of type 2, and some offsets of 0. Many ranges cover glyph 1, and each leads to the same Sequence. Steps
    are the offsets to the lookup, its subtable and its Coverage, each range, its glyph, the offset to the Sequence of
    that, and each glyph of the Sequence."""
    subtable = numbers(1, 8 + 2 * (glyphs + 1), 1, 8) + sequence(*[9] * glyphs)
    listed = numbers(1 + nothing, 4 + 2 * nothing, *[0] * nothing)
    return numbers(1, 0, 0, 0, 10) + listed + numbers(2, 0, 1, 8) + subtable + coverage_of_ranges(*[(1, 1, 0)] * ranges)


# 1,024 lookups of 1,023 subtables are 1,024 * 1,024 steps. Each of 1,000 ranges of a glyph with 1,045 others is 1,048
# steps, and 576 more are the offsets to the lookup, its subtable and its Coverage, and those of 0.
AT_THE_LIMIT = {
    "lookups and subtables": (sharing_lookups(1024, 1023, 0), {0, 1}),
    "ranges and links": (sharing_sequences(1000, 1045, 573), {0, 1, 9}),
}
PAST_THE_LIMIT = {
    "lookups and subtables": sharing_lookups(1024, 1023, 1),
    "ranges and links": sharing_sequences(1000, 1045, 574),
    "one link more of each range": sharing_sequences(1000, 1046, 573),
    # 30,000 lookups, which are one, of 30,000 subtables, which are one, with 1,000 ligatures.
    "lookups that share all": numbers(1, 0, 0, 0, 10, 30_000, *[60_002] * 30_000)
    + numbers(4, 0, 30_000, *[60_006] * 30_000) + numbers(1, 8, 1, 14) + coverage(1)
    + ligatures(*[ligature(9)] * 1000),
}
