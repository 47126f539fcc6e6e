"""A small maker of cuts for characters and glyph numbers, apart from the program, for the kinds lean, layout and
variable.

It follows the definition in docs/FORMAT.md. A cut has the maps of the wanted characters. It keeps the glyphs that these
are mapped to, the wanted glyphs that are there, and what they are composed of. A glyph is there unless its outline and
its variation data are empty, its own metrics are zero, and no variation sequence has it.
"""
from functools import lru_cache
from typing import AbstractSet, Callable, Container, Mapping, NamedTuple, Optional, Sequence

from colour_reading import Colour
from font_cutting import (ALL, Ranges, assembled, kept_glyphs, outlines, padded, ranges_of, sequences, wanted_map,
                          whole_map)
from font_joining import file_refusal
from font_reading import Refusal, record_refusal, tables_of
from layout_cutting import layout_tables
from layout_reading import LAYOUT, gsub_of, layout_refusal, linked
from lean_cutting import METRICS, entry, lean_tables, pairs_in
from sequence_reading import Pair
from variable_cutting import variable_tables
from variable_reading import exact_refusal, own_gsub, variable_refusal, variations_of

ALL_NUMBERS = frozenset(range(65536))


class Wanted(NamedTuple):
    """What is wanted of a font: characters, and glyph numbers, some of which may be no glyphs of the font."""

    codes: Ranges
    glyphs: AbstractSet[int] = frozenset()


EVERYTHING = Wanted(ALL, ALL_NUMBERS)
ALL_CODES = Wanted(ALL)


def either(*wanted: Wanted) -> Wanted:
    """What is in one of them at least."""
    return Wanted([pair for one in wanted for pair in one.codes], frozenset().union(*(one.glyphs for one in wanted)))


class Glyph(NamedTuple):
    """What a font has of a glyph: its outline, which is filled up with zeros to a multiple of 4; its bytes of metrics,
    without the advance of the last pair, which other glyphs have too; its variation data; its variation sequences; and
    in kinds of cuts that keep them its colours."""

    outline: bytes
    metrics: bytes
    data: bytes
    pairs: tuple[Pair, ...]
    colour: Optional[Colour] = None

    def is_blank(self) -> bool:
        return not (self.outline or any(self.metrics) or self.data or self.pairs or self.colour)


def no_data(_: bytes) -> Sequence[bytes]:
    """The variation data of glyphs in kinds of cuts that have none."""
    return ()


def no_sequences(_: bytes) -> Mapping[Pair, int]:
    """The variation sequences in kinds of cuts that have none."""
    return {}


def data_of(file: bytes) -> Sequence[bytes]:
    """The variation data of each glyph of a font, if there is a `gvar`."""
    if b"gvar" not in tables_of(file):
        return ()
    found = variations_of(file)
    assert found is not None, "the font is refused"
    return found.data


@lru_cache(4)  # of two files that are joined, their join and a font
def glyphs_in(file: bytes, data_in: Callable[[bytes], Sequence[bytes]],
              pairs_of: Callable[[bytes], Mapping[Pair, int]]) -> list[Glyph]:
    """The glyphs of a font."""
    records, tables = outlines(file), tables_of(file)
    metrics = [b""] * len(records)
    for header, name in METRICS:
        pairs = pairs_in(tables, header, name, len(records))
        for glyph in range(len(records) if pairs else 0):
            place, size = entry(pairs, glyph)
            metrics[glyph] += tables[name][place:place + size]
    data = data_in(file) or [b""] * len(records)
    variants: list[list[Pair]] = [[] for _ in records]
    for pair, glyph in pairs_of(file).items():
        variants[glyph].append(pair)
    return [Glyph(padded(outline), own, part, tuple(pairs))
            for outline, own, part, pairs in zip(records, metrics, data, variants)]


class CutKind(NamedTuple):
    """A kind of cuts: its name, the tables of a cut of a font for characters that keeps these glyphs, the variation
    data of each glyph, the variation sequences, the GSUB whose links are followed, and the first refusal of a font that
    is accepted as such, for cuts and for closures."""

    name: str
    tables: Callable[[bytes, Ranges, Container[int]], dict[bytes, bytes]]
    data: Callable[[bytes], Sequence[bytes]]
    sequences: Callable[[bytes], Mapping[Pair, int]]
    gsub: Callable[[bytes], bytes]
    refusal: Callable[[bytes], Optional[Refusal]]
    closing_refusal: Callable[[bytes], Optional[Refusal]]

    def accepts(self, file: bytes) -> bool:
        """Whether a file is accepted for cuts."""
        return not file_refusal(file) and not self.refusal(file)

    def glyphs(self, file: bytes) -> list[Glyph]:
        return glyphs_in(file, self.data, self.sequences)

    def there(self, file: bytes) -> frozenset[int]:
        """The glyphs of a font that are there."""
        return frozenset(number for number, glyph in enumerate(self.glyphs(file)) if not glyph.is_blank())

    def roots(self, file: bytes, wanted: Wanted) -> set[int]:
        """The glyphs that are kept before components are followed."""
        return {0, *wanted_map(file, wanted.codes).values(), *(self.there(file) & wanted.glyphs)}

    def kept(self, file: bytes, wanted: Wanted) -> set[int]:
        """The glyphs that a cut of a font keeps."""
        found: set[int] = kept_glyphs(outlines(file), self.roots(file, wanted))
        return found

    def cut(self, file: bytes, wanted: Wanted) -> bytes:
        """The cut of a font that is accepted."""
        made: bytes = assembled(self.tables(file, wanted.codes, self.kept(file, wanted)))
        return made

    def keeps(self, file: bytes) -> set[int]:
        """The glyphs that a cut kept when it was made, blank ones too."""
        return self.kept(file, EVERYTHING)

    def is_cut(self, file: bytes) -> bool:
        """Whether a font is a cut: its own one for everything."""
        return self.cut(file, EVERYTHING) == file

    def own(self, file: bytes) -> Wanted:
        """What a cut has: the characters that it maps, and the glyphs that are there."""
        return Wanted(ranges_of(whole_map(file)), self.there(file))

    def is_cut_of(self, made: bytes, file: bytes) -> bool:
        """Whether a font is a cut of another one: the one for what it has."""
        return self.cut(file, self.own(made)) == made

    def closure(self, file: bytes, wanted: Wanted) -> Wanted:
        """What is wanted, with all numbers that links of GSUB lead to from it and from .notdef. They are followed from
        numbers that are no glyphs too."""
        glyphs = {*wanted_map(file, wanted.codes).values(), *wanted.glyphs}
        return Wanted(wanted.codes, linked(self.gsub(file), frozenset(glyphs)))

    def closed_cut(self, file: bytes, wanted: Wanted) -> bytes:
        """The cut for the closure of what is wanted."""
        return self.cut(file, self.closure(file, wanted))

    def exact_cut(self, file: bytes, wanted: Wanted) -> bytes:
        """The cut for an exact request, for which no links of GSUB are followed."""
        return self.cut(file, wanted)

    def exact_refusal(self, file: bytes) -> Optional[Refusal]:
        """The first refusal of a font that is accepted as such, for exact requests."""
        return self.refusal(file)


def accepted(_: bytes) -> None:
    """The refusal for lean cuts of a font that is accepted: there is none."""


def no_links(_: bytes) -> bytes:
    """The GSUB for lean cuts, in which no text is shaped: there is none."""
    return b""


def layout_exact_refusal(file: bytes) -> Optional[Refusal]:
    """The first refusal for layout cuts of an accepted font. A GSUB that cannot be read refuses closures alone."""
    refused: Optional[Refusal] = record_refusal(file, LAYOUT)
    return refused


LEAN = CutKind("lean", lean_tables, no_data, no_sequences, no_links, accepted, accepted)
LAYOUT_CUTS = CutKind("layout", layout_tables, no_data, sequences, gsub_of, layout_exact_refusal, layout_refusal)
VARIABLE = CutKind("variable", variable_tables, data_of, sequences, own_gsub, exact_refusal, variable_refusal)
KINDS = (LEAN, LAYOUT_CUTS, VARIABLE)
