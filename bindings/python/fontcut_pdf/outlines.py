"""Outlines, which readers show as bookmarks (ISO 32000-1, 12.3.3): those of merged files become one, in which each file
has an entry, and its own outline below that."""
from __future__ import annotations

from dataclasses import dataclass, field
from typing import Dict, Iterator, List, NamedTuple, Optional, Sequence, Tuple

from pikepdf import Array, Dictionary, Name, Object, Pdf, String

from .common import MALFORMED, Id, copied, entries, is_number, names_in


@dataclass
class Source:
    """A file whose pages were copied.

    title   what its entry says
    pages   its pages, in order
    copied  their copies
    copies  the first copy of each page, by what names the page in its file
    """

    pdf: Pdf
    title: str
    pages: Sequence[Object]
    copied: Sequence[Object]
    copies: Dict[Id, Object] = field(init=False)

    def __post_init__(self) -> None:
        self.copies = {page.objgen: copy for page, copy in reversed(list(zip(self.pages, self.copied)))}


class _Entry(NamedTuple):
    """An entry that is written, how deep it stands, and whether it shows what is below it."""

    made: Object
    depth: int
    is_open: bool


def _items(outline: Object) -> Iterator[Tuple[Object, int]]:
    """The entries of an outline from the top, and how deep they stand. One that comes again is passed over."""
    waiting, seen = [(outline.get("/First"), 0)], set()
    while waiting:
        item, depth = waiting.pop()
        if isinstance(item, Dictionary) and item.objgen not in seen:
            seen.update([item.objgen] if item.is_indirect else [])
            yield item, depth
            waiting += [(item.get("/Next"), depth), (item.get("/First"), depth + 1)]


def _names(pdf: Pdf) -> Dict[bytes, Object]:
    """The places that have names in a file (ISO 32000-1, 12.3.2.3): names begin with a slash, and strings do not."""
    found = {key.unparse(): value for key, value in entries(pdf.Root.get("/Dests", Dictionary()))}
    return {**found, **names_in(pdf.Root.get("/Names", Dictionary()).get("/Dests"))}


class _Writer:
    """Writes the entries of one file."""

    def __init__(self, pdf: Pdf, source: Source):
        self.pdf, self.source = pdf, source
        self.names = _names(source.pdf)

    def entry(self, item: Object) -> Object:
        """A copy of an entry, which leads to the copy of its page."""
        made = Dictionary(Title=String(bytes(item.Title)) if isinstance(item.get("/Title"), String) else String(""))
        colour, flags, action = item.get("/C"), item.get("/F"), item.get("/A")
        if isinstance(colour, Array) and len(colour) == 3 and all(map(is_number, colour)):
            made.C = Array(list(colour))
        if isinstance(flags, int):
            made.F = flags
        is_leading = isinstance(action, Dictionary) and action.get("/S") == Name.GoTo
        place = self._place(action.get("/D") if is_leading else item.get("/Dest"))
        if place is not None:
            made.Dest = place
        elif isinstance(action, Dictionary) and not is_leading:
            made.A = self.pdf.copy_foreign(self.source.pdf.make_indirect(copied(action, "/Next")))
        return self.pdf.make_indirect(made)

    def _place(self, place: Optional[Object]) -> Optional[Array]:
        """The same place in the copy of its page, or None where there is no such page."""
        if isinstance(place, (Name, String)):
            place = self.names.get(place.unparse() if isinstance(place, Name) else bytes(place))
        if isinstance(place, Dictionary):
            place = place.get("/D")
        if not isinstance(place, Array) or len(place) == 0:
            return None
        page, *how = place
        if isinstance(page, int) and 0 <= page < len(self.source.pages):
            page = self.source.pages[page]
        copy = self.source.copies.get(page.objgen) if isinstance(page, Dictionary) else None
        is_plain = all(part is None or is_number(part) or isinstance(part, Name) for part in how)
        return Array([copy, *how]) if copy is not None and is_plain else None


def _outline(pdf: Pdf) -> Object:
    outline = pdf.Root.get("/Outlines")
    return outline if isinstance(outline, Dictionary) else Dictionary()


def _below(pdf: Pdf, source: Source) -> Iterator[_Entry]:
    """The entries of the outline of a file, below that of the file itself."""
    writer = _Writer(pdf, source)
    for item, depth in _items(_outline(source.pdf)):
        count = item.get("/Count", 0)
        yield _Entry(writer.entry(item), depth + 1, isinstance(count, int) and count > 0)


def _entries_of(pdf: Pdf, source: Source) -> List[_Entry]:
    """The entry of a file, and those of its own outline below it. An outline that is malformed is left out."""
    top = Dictionary(Title=String(source.title))
    if source.pages:
        top.Dest = Array([source.copied[0], Name.Fit])
    try:
        below = list(_below(pdf, source))
    except MALFORMED:
        below = []
    return [_Entry(pdf.make_indirect(top), 0, True), *below]


def _link(root: Object, rows: Sequence[_Entry]) -> None:
    """Links entries with those above, before and after them."""
    above = [root]
    for made, depth, _ in rows:
        del above[depth + 1:]
        made.Parent = parent = above[depth]
        if "/Last" in parent:
            made.Prev = parent.Last
            parent.Last.Next = made
        else:
            parent.First = made
        parent.Last = made
        above.append(made)


def _count(root: Object, rows: Sequence[_Entry]) -> None:
    """Says of each entry how many are shown below it, or would be: then the number is negative."""
    below: List[int] = []  # by depth, of the entries that come later
    for made, depth, is_open in reversed(rows):
        below += [0] * (depth + 2 - len(below))
        shown = below[depth + 1]
        below[depth + 1] = 0
        if shown:
            made.Count = shown if is_open else -shown
        below[depth] += 1 + (shown if is_open else 0)
    root.Count = below[0]


def add_outline(pdf: Pdf, sources: Sequence[Source]) -> None:
    """Gives a file the outlines of the files whose pages it has, where one of them has an outline."""
    if not any(isinstance(_outline(source.pdf).get("/First"), Dictionary) for source in sources):
        return
    rows = [entry for source in sources for entry in _entries_of(pdf, source)]
    root = pdf.make_indirect(Dictionary(Type=Name.Outlines))
    _link(root, rows)
    _count(root, rows)
    pdf.Root.Outlines = root
