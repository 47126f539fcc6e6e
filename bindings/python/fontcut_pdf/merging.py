"""The pages of several PDF files become one file, in which fonts that join are one font."""
from __future__ import annotations

from bisect import bisect_right
from contextlib import contextmanager
from typing import Iterator, List, Optional, Sequence, Tuple

from pikepdf import Array, Dictionary, Name, Object, Pdf, String

from .common import MALFORMED, Outcome, Refused, dictionaries, names_in, values
from .drawing import annotations_of, pages_of
from .joining import join_fonts
from .outlines import Source, add_outline
from .survey import NO_FONT, producer, refusing


# What ReportLab writes for a document without a title.
_NO_TITLE = "untitled"


def _has_title(pdf: Pdf) -> bool:
    """Whether a file says its title (ISO 32000-1, 14.3.3)."""
    info = pdf.trailer.get("/Info")
    title = info.get("/Title") if isinstance(info, Dictionary) else None
    return isinstance(title, String) and str(title).strip() not in ("", _NO_TITLE)


def _has_attachments(pdf: Pdf) -> bool:
    """Whether files are attached to a file (ISO 32000-1, 7.11.4)."""
    names = pdf.Root.get("/Names")
    return isinstance(names, Dictionary) and bool(names_in(names.get("/EmbeddedFiles")))


def not_kept(pdf: Pdf) -> List[str]:
    """What a file has that its readers see and a merge does not keep: `title` and `attachments`. Malformed ones do not
    count."""
    try:
        found = {"title": _has_title(pdf), "attachments": _has_attachments(pdf)}
    except MALFORMED:
        return []
    return [what for what, is_there in found.items() if is_there]


def _may_hide(thing: Object) -> bool:
    """Whether a dictionary hides something where layers are shown (ISO 32000-1, 8.11.2.2)."""
    return thing.get("/Type") == Name.OCMD and ("/VE" in thing or thing.get("/P") in (Name.AllOff, Name.AnyOff))


def _shows_each_layer(shown: Optional[Object]) -> bool:
    """Whether each layer is shown by what a file says of layers (ISO 32000-1, 8.11.4.3)."""
    if not isinstance(shown, Dictionary) or shown.get("/BaseState", Name.ON) != Name.ON:
        return False
    lists = [shown[key] for key in ("/OFF", "/AS") if key in shown]
    return all(isinstance(layers, Array) and len(layers) == 0 for layers in lists)


def refuse_layers(pdf: Pdf) -> None:
    """Which layers are hidden stands in what belongs to a file as a whole (ISO 32000-1, 8.11.4), which a merge does
    not keep, so that their text would be shown."""
    if "/OCProperties" not in pdf.Root:
        return
    with refusing():
        if not _shows_each_layer(pdf.Root.OCProperties.get("/D")) or any(map(_may_hide, dictionaries(pdf))):
            raise Refused("it has layers that may be hidden")


def _actions(first: List[Object]) -> Iterator[Object]:
    """These actions, and those that follow them (ISO 32000-1, 12.6.2)."""
    waiting, seen = first[::-1], set()
    while waiting:
        action = waiting.pop()
        if isinstance(action, Dictionary) and action.objgen not in seen:
            # What stands in another object has no number of its own, and cannot hold itself.
            seen.update([action.objgen] if action.is_indirect else [])
            yield action
            following = action.get("/Next")
            waiting += reversed(list(following)) if isinstance(following, Array) else [following]


def _places(page: Object) -> Iterator[Array]:
    """The places to which links of a page lead, as far as these name a page themselves (ISO 32000-1, 12.3.2)."""
    for annotation in annotations_of(page):
        actions = _actions([annotation.get("/A"), *values(annotation, "/AA")])
        for place in (annotation.get("/Dest"), *(action.get("/D") for action in actions)):
            if isinstance(place, Array) and len(place) > 0:
                yield place


def _lead_links(source: Source) -> None:
    """Lets links lead to the copies of their pages. What a page names is copied with it, but for pages: those that
    come later are null where a link leads to them. A page that stands twice in its file has two copies, and links
    lead to the first."""
    for page, copied in zip(source.pages, source.copied):
        for place, copy in zip(_places(page), _places(copied)):
            if isinstance(place[0], Dictionary) and place[0].objgen in source.copies:
                copy[0] = source.copies[place[0].objgen]


def _sources(pdf: Pdf, sources: Sequence[Pdf], titles: Sequence[str], first: Sequence[int]) -> List[Source]:
    """The files whose pages a file has, each with the copies of its pages."""
    copied, made = pages_of(pdf), []
    for source, title, begin in zip(sources, titles, first):
        pages = pages_of(source)
        made.append(Source(source, title, pages, copied[begin:begin + len(pages)]))
    return made


@contextmanager
def _refusing_file(number: int) -> Iterator[None]:
    """Within it, a refusal is one of a file, by its place."""
    try:
        yield
    except Refused as refusal:
        refusal.file = number
        raise


@contextmanager
def _refusing_page(sources: Sequence[Pdf], first: Sequence[int], hinting: bool) -> Iterator[None]:
    """Within it, a refusal of a page is one of its file. Each file begins after so many pages. A refusal that names
    no page is one of the first file that is refused by itself too."""
    try:
        yield
    except Refused as refusal:
        if refusal.page:
            refusal.file = bisect_right(first, refusal.page - 1) - 1
            refusal.page -= first[refusal.file]
        elif refusal.args == (NO_FONT,):
            refusal.file = 0
        else:
            refusal.file = _refused_alone(sources, refusal, hinting)
        raise


def _refused_alone(sources: Sequence[Pdf], refusal: Refused, hinting: bool) -> Optional[int]:
    """The first file whose pages are refused for this by themselves, or None where all files together are."""
    for number, source in enumerate(sources):
        pdf = Pdf.new()
        pdf.pages.extend(source.pages)
        try:
            join_fonts(pdf, hinting=hinting)
        except Refused as alone:
            if alone.args == refusal.args:
                return number
    return None


def _refuse_without_fonts(first: Sequence[int], outcomes: Sequence[Outcome]) -> None:
    """Refuses the first file of which no page has an embedded font."""
    found = {bisect_right(first, outcome.page - 1) - 1 for outcome in outcomes}
    for number in range(len(first)):
        with _refusing_file(number):
            if number not in found:
                raise Refused(NO_FONT)


def merge(sources: Sequence[Pdf], titles: Optional[Sequence[str]] = None,
          hinting: bool = True) -> Tuple[Pdf, List[Outcome]]:
    """A file of the pages of all files, in order, in which whole fonts are shrunk, fonts that join are one font, and
    without `hinting` none of these has hints; and what became of each font. The files have to stay open until it is
    saved. Raises `Refused` where a file has no embedded font, or a
    layer that may be hidden, and its `file` is then the place of that file among all, from 0.

    Pages keep what they have, their annotations too, with links to other pages of their file. Where a file has an
    outline (bookmarks), each file has an entry at the top with its title, and its own outline below that. What else
    belongs to a file as a whole is not kept: labels of pages, names that links lead to, fields of forms, tags,
    attachments, output intents and metadata."""
    pdf, first, count = Pdf.new(), [], 0
    for number, source in enumerate(sources):
        with _refusing_file(number), refusing():
            refuse_layers(source)
            first.append(count)
            count += len(source.pages)
            pdf.pages.extend(source.pages)
    added = _sources(pdf, sources, titles or [f"Document {number + 1}" for number in range(len(sources))], first)
    for number, one in enumerate(added):
        with _refusing_file(number), refusing():
            _lead_links(one)
    names = list(map(producer, sources))
    with _refusing_page(sources, first, hinting):
        outcomes = join_fonts(pdf, lambda page: names[bisect_right(first, page - 1) - 1] if page else "", hinting)
    _refuse_without_fonts(first, outcomes)
    add_outline(pdf, added)
    return pdf, outcomes
