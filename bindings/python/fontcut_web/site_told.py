"""What is said of the pages of a site: what is not known of them, and which characters no font of theirs has."""
from __future__ import annotations

import os
from typing import Dict, Iterator, List, Mapping, NamedTuple, Sequence, Set, Tuple

import fontcut

from . import sequences
from .common import SHAPED
from .icons import lacking
from .matching import matched
from .sets import some_of, some_words
from .shown import BY_FEATURES, FIELDS, LABELS, LOST, OPEN, SCRIPTS, added_to
from .site_fonts import Base
from .site_pages import EXACT, Modes, SitePage, own_file
from .site_report import REPORT
from .site_settings import Settings
from .site_written import written_by
from .styles import Source, cased

# Which setting helps with what is not known of a page.
_CLOSED_FOR_TEXT = ("its cuts are closed, for other text in letters that it shows (exact makes smaller ones, for its "
                    "own text alone)")
_LETTERS = "other letters are in no cut: name them by text, unicodes or languages of a [[page]]"
_ADDED = "text that it adds is not known"
_CLOSED_FOR_FEATURES = "its cuts are closed, for all features (exact makes smaller ones, for those that are known)"
# How much of the selectors of a rule is said.
_LONGEST = 80


# By the names of pages: the names of elements, files of fonts, and letters that none of these has.
Lacked = Mapping[str, Sequence[Tuple[str, List[str], List[int]]]]


class _Page(NamedTuple):
    """A page that has fonts, and these."""

    page: SitePage
    fonts: List[Base]


def _of_pages(found: Sequence[Tuple[Base, Sequence[SitePage]]], pages: Sequence[SitePage]) -> List[_Page]:
    shows = [(base, {page.name for page in some}) for base, some in found]
    every = [_Page(page, [base for base, some in shows if page.name in some]) for page in pages]
    return [one for one in every if one.fonts]


def _unknown(one: _Page, modes: Modes) -> Iterator[str]:
    """What is said of what is not known of a page, and which setting helps with it."""
    page = one.page
    is_written = bool(page.written.every or written_by([base.settings for base in one.fonts]).every)
    is_closed = page.name not in modes.closed and any(base.kind in SHAPED for base in one.fonts)
    for line in page.shown.unknown if page.name not in modes.exact else ():
        line = line.replace(BY_FEATURES, "").replace(f"{page.shown.path}: ", f"{page.name}: ", 1)
        if line.endswith(SCRIPTS):
            line = f"{page.name}: it runs scripts"
            helps = [*([_CLOSED_FOR_TEXT] if is_closed else []), *([] if is_written else [_LETTERS])]
        else:
            helps = [*([_ADDED] if line.endswith(LOST) else []), *([_CLOSED_FOR_FEATURES] if is_closed else [])]
        if helps and not line.endswith(FIELDS):
            yield f"{line}: {'; '.join(helps)}"


def _texts(page: SitePage) -> Iterator[Tuple[Set[int], Source]]:
    """The characters that are added to a page, with what adds them."""
    added = added_to(page.page, page.read)
    for one in added.texts:
        yield set(map(ord, one.text)), one.source
    for case, source in added.cases.items():
        yield {ord(letter) for text in cased(page.shown.text, case, page.page.languages) for letter in text}, source


def _origin(settings: Settings, source: Source) -> str:
    """What adds characters, as it is said."""
    prelude = source.selectors.prelude
    name = prelude if len(prelude) <= _LONGEST else f"{prelude[:_LONGEST]}.."
    if not source.name:
        return f"browsers add to {name}"
    if not prelude:
        return f"{source.name} of an element adds"
    return f"{name} {{ {source.name} }} of {os.path.relpath(source.path, settings.folder)} adds"


def _lacking_codes(one: _Page) -> List[int]:
    """The characters that a page has and none of its fonts."""
    letters = {letter for letter in one.page.shown.text if letter.isprintable()} - one.page.shown.of_fields
    codes = sorted(sequences.without_selectors(map(ord, letters)))
    for base in one.fonts:
        codes = lacking(base.whole, codes)
    return codes


def _lacking_here(page: SitePage, lacked: Sequence[Tuple[str, List[str], List[int]]], known: Set[int]) -> Iterator[str]:
    """The characters that elements of a page have and no font of theirs, beside those that no font has."""
    for tag, files, codes in lacked:
        left = [code for code in codes if code not in known]
        if left:
            yield (f"{page.name}: no font of <{tag}> has {some_words(left)}: by its font-family it is drawn in "
                   f"{', '.join(files)}")


def _lacking(settings: Settings, one: _Page, codes: Sequence[int]) -> Iterator[str]:
    """What is said of characters that a page has and none of its fonts, with the rules that add them."""
    page = one.page
    own = {ord(letter) for letter in f"{page.page.text}{page.written.text}"}
    texts = list(_texts(page)) if set(codes) - own else []
    asked = list(dict.fromkeys(source.selectors for some, source in texts if not some.isdisjoint(codes)))
    matching = matched(page.page, page.path, asked)
    origins: Dict[str, List[int]] = {}
    for code in codes:
        sources = [source for some, source in texts if code in some] if code not in own else []
        # A rule that is about no element may be one of another page, even if a script could make such an element.
        source = next((one for one in sources if not one.path or one.selectors in matching), None)
        if source or not sources:
            origins.setdefault(f", which {_origin(settings, source)}" if source else "", []).append(code)
    yield from (f"{page.name}: no font of it has {some_words(some)}{origin}" for origin, some in origins.items())


def _colours(pages: Sequence[_Page]) -> Iterator[str]:
    """The fonts whose colours cuts drop."""
    for base in {base.key: base for one in pages for base in one.fonts}.values():
        colours = fontcut.lost(base.whole, (), kind=base.kind).colours
        if colours:
            yield f"{os.path.basename(base.settings.file)} has colours ({colours}), which cuts drop"


def _open(modes: Modes, found: Sequence[Tuple[Base, Sequence[SitePage]]]) -> Iterator[str]:
    """What is said of pages with text of style sheets that is not known, for which cuts are exact."""
    names = dict.fromkeys(page.name for base, some in found for page in some
                          if page.shown.open and base.kind in SHAPED and modes.of(page, base.settings) == EXACT)
    if names:
        yield f"{some_of(list(names))}: {OPEN}"


def lacking_of(settings: Settings, found: Sequence[Tuple[Base, Sequence[SitePage]]], pages: Sequence[SitePage],
               lacked: Lacked) -> Iterator[str]:
    """What is said of characters of pages that no font of theirs has, or of the elements that have them."""
    for one in _of_pages(found, pages):
        codes = _lacking_codes(one)
        yield from _lacking(settings, one, codes)
        yield from _lacking_here(one.page, lacked.get(one.page.name, ()), set(codes))


def stale(settings: Settings, pages: Sequence[SitePage], written: Set[str], with_fonts: Set[str]) -> Iterator[str]:
    """What is said of pages that link fonts of the output which are not among the files that are written, as they have
    got new names; and of pages with fonts that link such style sheets."""
    found = {page.name: name for page in pages for name in sorted(
        {own_file(settings, page.name, one) for one in page.page.attributes.get("href", ())} - {"", *written})
        if name.endswith((".woff2", ".css") if page.name in with_fonts else ".woff2")}
    if found:
        first, ending = next(iter(found)), "s" if len(found) == 1 else ""
        yield (f"{some_of(list(found))} link{ending} {os.path.join(settings.out, found[first])}"
               f"{'' if len(found) == 1 else ' and others'}, not among the files of this build: copy the lines of "
               f"head from {os.path.join(settings.out, REPORT)}")


def told(settings: Settings, modes: Modes, found: Sequence[Tuple[Base, Sequence[SitePage]]], pages: Sequence[SitePage]
         ) -> Iterator[str]:
    """What is not known of pages, and what is drawn otherwise by cuts."""
    shown = _of_pages(found, pages)
    for one in shown:
        yield from _unknown(one, modes)
        page = one.page
        if page.shown.has_fields and not page.written.letters and not any(
                base.settings.languages for base in one.fonts):
            yield (f"{page.name}: readers write to it, and letters that it does not show are of no font of it: "
                   "name languages of the page or of a font")
    labelled = [one.page.name for one in shown if one.page.page.labels]
    yield from [f"{some_of(labelled)}: {LABELS}"] if labelled else []
    yield from _open(modes, found)
    yield from _colours(shown)
    for one in shown:
        its_fonts = [(os.path.basename(base.settings.file), base.whole, base.kind) for base in one.fonts]
        yield from (f"{one.page.name}: {line}" for line in sequences.told(one.page.shown.text, its_fonts))
