"""A small join of lean cuts, apart from the program: the bytes that `fontcut join --lean` has to write, or why it
writes none.

It follows docs/FORMAT.md and the definition of lean cuts: of `hmtx` and `vmtx` two files share what belongs to no
single glyph, and what belongs to a glyph is compared and united with its outline. Another kind of cut that is joined
in the same way brings a `Kind` of its own, and may have variation sequences, which belong to their glyphs.
"""
from typing import Callable, Iterable, NamedTuple, Optional, Sequence

from font_cutting import assembled, cmap_table, cut_size, glyf_and_loca, groups_of, outlines, whole_map
from font_joining import copied, different, file_refusal
from font_reading import KEPT, MAX_FILE, Refusal, tables_of, tag_text
import glyph_cutting
from glyph_cutting import CutKind, Glyph
from lean_cutting import METRICS, cleared, entry, pairs_in, without_names
from sequence_reading import MOST_PAIRS


def no_tables(_: bytes, __: bytes) -> dict[bytes, bytes]:
    """For a kind of cut whose glyphs have outlines and metrics alone."""
    return {}


class Kind(NamedTuple):
    """What is particular to joins of a kind of cuts: the tags of its tables in order, what two cuts of one font have in
    common of their copied tables, and the kind. If glyphs have more than outlines and metrics, there are also the
    tables with that of the join of two files."""

    tags: Sequence[bytes]
    shared: Callable[[bytes], dict[bytes, bytes]]
    cuts: CutKind
    data_tables: Callable[[bytes, bytes], dict[bytes, bytes]] = no_tables

    def kept(self, file: bytes) -> dict[int, Glyph]:
        """By number the glyphs that a cut keeps, blank ones too."""
        glyphs = self.cuts.glyphs(file)
        return {number: glyphs[number] for number in self.cuts.keeps(file)}

    def refusal(self, file: bytes, name: str) -> Optional[Refusal]:
        """The number and text of the refusal of a font, the first or the second, that is no cut, or None. Its tables of
        layout and of variations can be refused too, which is seen in the same place."""
        return self.cuts.refusal(file) or (None if self.cuts.is_cut(file) else (20, f"not a cut: {name}"))

    def different_glyph(self, first: bytes, second: bytes) -> Optional[int]:
        """The least glyph that both cuts keep and in which they differ, or None."""
        found: Optional[int] = different(self.kept(first), self.kept(second))
        return found

    def has_room(self, first: bytes, second: bytes) -> bool:
        """Whether the variation sequences of both cuts fit into one `cmap`: none has two glyphs, and there are not too
        many."""
        here, there = self.cuts.sequences(first), self.cuts.sequences(second)
        return len(here.keys() | there.keys()) <= MOST_PAIRS and all(
            here[pair] == there[pair] for pair in here.keys() & there.keys())

    def table_too_long(self, first: bytes, second: bytes) -> Optional[bytes]:
        """The tag of the table that has no room for what belongs to glyphs of both cuts, or None."""
        return None if self.has_room(first, second) else b"cmap"


def shared(file: bytes) -> dict[bytes, bytes]:
    """By tag what two lean cuts of one font have in common of their copied tables."""
    tables, glyphs = copied(file), len(outlines(file))
    for header, name in METRICS:
        if name in tables:
            tables[name] = cleared(tables[name], pairs_in(tables, header, name, glyphs), glyphs, ())
    if b"post" in tables:
        tables[b"post"] = without_names(tables[b"post"])
    return tables


LEAN = Kind(KEPT, shared, glyph_cutting.LEAN)


def different_table(first: bytes, second: bytes, kind: Kind) -> Optional[bytes]:
    """The least tag of a table of which two lean cuts do not share what they should, or None."""
    here, there = kind.shared(first), kind.shared(second)
    return next((tag for tag in kind.tags if here.get(tag) != there.get(tag)), None)


def difference_refusal(first: bytes, second: bytes, kind: Kind) -> Optional[Refusal]:
    """The number and text of what tells two lean cuts apart first, or None."""
    tag = different_table(first, second, kind)
    if tag is not None:
        return 21, f"different table {tag_text(tag)}"
    code = different(whole_map(first), whole_map(second))
    if code is not None:
        return 22, f"different mapping U+{code:04X}"
    glyph = kind.different_glyph(first, second)
    if glyph is not None:
        return 23, f"different glyph {glyph}"
    tag = kind.table_too_long(first, second)
    return None if tag is None else (29, f"table too long {tag_text(tag)}")


def with_metrics(table: bytes, other: bytes, pairs: int, glyphs: Iterable[int]) -> bytes:
    """A table of metrics with what another one has of these glyphs."""
    made = bytearray(table)
    for glyph in glyphs if pairs else ():
        place, size = entry(pairs, glyph)
        made[place:place + size] = other[place:place + size]
    return bytes(made)


def joined_tables(first: bytes, second: bytes, kind: Kind) -> dict[bytes, bytes]:
    """The tables of the join of two lean cuts that nothing tells apart, by tag."""
    tables, others, glyphs = tables_of(first), tables_of(second), len(outlines(first))
    for header, name in METRICS:
        if name in tables:
            pairs = pairs_in(tables, header, name, glyphs)
            tables[name] = with_metrics(tables[name], others[name], pairs, kind.kept(second))
    tables[b"cmap"] = cmap_table(groups_of({**whole_map(first), **whole_map(second)}),
                                 {**kind.cuts.sequences(first), **kind.cuts.sequences(second)})
    records = {number: glyph.outline for file in (first, second) for number, glyph in kind.kept(file).items()}
    tables[b"glyf"], tables[b"loca"] = glyf_and_loca([records.get(glyph, b"") for glyph in range(glyphs)],
                                                     records.keys())
    return {**tables, **kind.data_tables(first, second)}


def join_refusal(first: bytes, second: bytes, kind: Kind = LEAN) -> Optional[Refusal]:
    """The number and text of the first refusal of a join of two files that applies, or None."""
    refused = (file_refusal(first) or file_refusal(second) or kind.refusal(first, "first")
               or kind.refusal(second, "second") or difference_refusal(first, second, kind))
    if refused:
        return refused
    size = cut_size(joined_tables(first, second, kind))
    return (18, f"too large {size}") if size > MAX_FILE else None


def join(first: bytes, second: bytes, kind: Kind = LEAN) -> bytes:
    """The join of two lean cuts that is not refused."""
    return assembled(joined_tables(first, second, kind))


def join_all(files: Sequence[bytes], kind: Kind = LEAN) -> tuple[Optional[bytes], Optional[str]]:
    """The join of one file or more, and no line; or none, and the line that says why. The first file is joined with
    itself, and what comes of it with each next one."""
    joined = files[0]
    for step, file in enumerate(files):
        refused = join_refusal(joined, file, kind)
        if refused:
            return None, "fontcut: file {}: refused {} {}\n".format(step + 1, *refused)
        joined = join(joined, file, kind)
    return joined, None
