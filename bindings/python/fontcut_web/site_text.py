"""What each font of a site is shown in: the text of the elements that have its family, weight and style."""
from __future__ import annotations

import difflib
import functools
import os
import re
from typing import Any, Collection, Dict, Iterator, List, Mapping, NamedTuple, Optional, Sequence, Set, Tuple

import fontcut
from fontcut_output import read

from . import preparing, sequences
from .common import part
from .faces import face_of, limits_in, varying
from .icons import is_of_icons, may_have_icons, unmade
from .malformed import MALFORMED
from .matching import lacking
from .pages import decoded, lines_of
from .processes import in_groups
from .sets import codes_of, some_of
from .shown import added_to, numbers_of, shown_by
from .site_pages import SitePage, is_own
from .site_settings import FontSettings, Settings
from .site_written import written_by
from .styles import file_of, sheets_of

# The address of a script of a page, and what loads others.
_SOURCE = re.compile(r"<script\b[^>]*?\ssrc\s*=\s*[\"']?([^\"'\s>]+)", re.I)
_LOADING = re.compile(r"<script\b[^>]*?\stype\s*=\s*[\"']?module|\bimport\s*\(|\bimportScripts\s*\(", re.I)
# A list of families in the text of a style sheet.
_FAMILY = re.compile(r"font-family\s*:\s*([^;{}]+)", re.I)
# Weights of CSS.
_LEAST, _MOST = 1.0, 1000.0


class SiteFont(NamedTuple):
    """A font of a site: its settings, what its files are called, the font, and the names of the pages that show it."""

    settings: FontSettings
    name: str
    whole: fontcut.Font
    pages: Set[str]


class Part(NamedTuple):
    """What fonts may draw of a page: the numbers of those that are named for it, and lines of each that some element
    may have, with the characters of those of which not all is known, letters that no font of their element has, and
    words of elements that a font of icons draws, and the families of elements; or why these are not known."""

    named: Collection[int]
    lines: Dict[int, List[str]]
    open: Dict[int, List[str]]
    lacked: Sequence[Any] = ()
    unknown: str = ""
    icons: Mapping[int, Set[str]] = {}
    families: Collection[str] = ()


def _weights(words: str) -> Tuple[float, float]:
    """The range of weights that a font has in style sheets; all, if that is not known."""
    try:
        found = [float(word) for word in words.split()]
    except ValueError:
        found = []
    return (found[0], found[-1]) if found else (_LEAST, _MOST)


def _choice(font: SiteFont) -> object:
    """A font as elements may choose it."""
    how, data = font.settings, font.whole.data
    limits = preparing.limits_of(how.instance) if how.instance else {}
    face = face_of(data, font.name)
    if how.kind in ("", "variable"):
        face = varying(data, face)
    weights, style = _weights(how.weight or str(face.weight)), how.style or face.style
    if "wght" in limits and not how.weight:
        weights = limits_in(data, "wght", limits["wght"])
    if "slnt" in limits and not how.style:
        style = "normal" if limits_in(data, "slnt", limits["slnt"]) == (0.0, 0.0) else "oblique 0deg"
    choice = part("drawn_text").Choice
    found: object = choice((how.family or face.family).lower(), style, weights, face.stretch,
                           frozenset(codes_of(font.whole)), may_have_icons(font.whole) and is_of_icons(font.whole))
    return found


def _unknown(page: SitePage) -> str:
    """Why it is not known which elements of a page have which font, or an empty text."""
    if "scripts" in page.page.writers:
        return "it runs scripts"
    lost = page.read.lost
    return f"the style sheet {lost[0]} is no file beside it" if lost else ""


def _scripts(page: SitePage) -> Optional[List[str]]:
    """The text of a page, whose scripts may name families, and those of its scripts; nothing where one is not there, or
    may load others."""
    texts = [decoded(read(page.path))]
    for address in _SOURCE.findall(texts[0]):
        path = file_of(address, os.path.dirname(page.path))
        if not os.path.isfile(path):
            return None
        texts.append(read(path).decode("utf-8", "replace"))
    return None if any(map(_LOADING.search, texts)) else texts


def _named(page: SitePage, choices: Sequence[Any]) -> Collection[int]:
    """The fonts of which a page has the family somewhere, in its text, its style sheets or its scripts; all, where
    these are not there."""
    texts = None if page.read.lost else _scripts(page)
    if texts is None:
        return range(len(choices))
    sheets = [sheet.text for sheet in sheets_of(page.page, page.path)[0]]
    words = " ".join("\n".join([*texts, *sheets]).lower().split())
    return [at for at, choice in enumerate(choices) if not choice.family.isascii() or choice.family in words]


def _drawn(settings: Settings, page: SitePage, choices: Sequence[Any], is_written: bool) -> Part:
    """What fonts may draw of a page, to which readers may write other text in some of them."""
    why, every = _unknown(page), range(len(choices))
    if why:
        sheets = "\n".join(sheet.text for sheet in sheets_of(page.page, page.path)[0])
        names = {name.strip(" \t\n\"'").lower() for value in _FAMILY.findall(sheets) for name in value.split(",")}
        return Part(_named(page, choices), {}, {}, (), why, {}, names)
    drawn_text = part("drawn_text")
    asked = drawn_text.Asked(page.path, added_to(page.page, page.read), numbers_of(page.page, page.read.styles),
                             functools.partial(is_own, settings, page.name), page.page.languages,
                             is_written or bool(page.written.every))
    try:
        found = drawn_text.drawn_texts(read(page.path), asked, choices)
    except (*MALFORMED, RecursionError) as error:
        return Part(every, {}, {}, (), f"it or a style sheet is not understood: {error or type(error).__name__}")
    if not {letter for letter in page.page.text if not letter.isspace() and letter.isprintable()} <= found.letters:
        return Part(every, {}, {}, (), "its text is not read as browsers read it")
    return Part(list(found.lines), found.lines, found.open, found.lacked, "", found.icons,
                found.families)


def _view(page: SitePage, lines: Sequence[str], unknown: Sequence[str]) -> SitePage:
    """A page as a font shows it that may draw these lines, and others of which not all is known. It has the blank too,
    for the height of lines."""
    text = "\n".join([*lines, " "])
    shown = shown_by(page.page._replace(text=text, blocks=lines_of(text)), page.path, page.read,
                     text=page.written.text, drawn=unknown)
    return page.seen(shown)


class Views(NamedTuple):
    """The pages of each font as it shows them; lines that say of which pages it is not known what fonts show; by the
    names of pages, letters that no font of their element has: its name, the files of these fonts, and the letters; and
    the families that elements of pages have."""

    pages: List[List[SitePage]]
    said: List[str]
    lacked: Dict[str, List[Tuple[str, List[str], List[int]]]] = {}
    families: Set[str] = set()

    def near_to(self, family: str) -> str:
        """What is said of a font of a family that no page has: the nearest one that some page has."""
        near = difflib.get_close_matches(family.lower(), self.families, 1, 0.8)
        return f': pages name "{near[0]}", and its family is "{family}"' if near and family.lower() not in near else ""


def _lacked(one: Part, fonts: Sequence[SiteFont]) -> Iterator[Tuple[str, List[str], List[int]]]:
    """The letters of elements that none of their fonts has, nor composes of others."""
    for tag, faces, codes in one.lacked:
        left = sorted(sequences.without_selectors(codes))
        for face in faces:
            left = fontcut.missing(fonts[face].whole, left)
        if left:
            yield tag, [os.path.basename(fonts[face].settings.file) for face in sorted(faces)], left


def _parts(settings: Settings, fonts: Sequence[SiteFont], pages: Sequence[SitePage]) -> List[Part]:
    """What the fonts of each page may draw of it, by their numbers among all."""
    choices = [_choice(font) for font in fonts]
    written = [bool(written_by([font.settings]).every) for font in fonts]
    numbers = [[at for at, font in enumerate(fonts) if page.name in font.pages] for page in pages]
    found = in_groups([functools.partial(_drawn, settings, page, [choices[at] for at in its],
                                         any(written[at] for at in its)) for page, its in zip(pages, numbers)])
    return [Part([its[at] for at in one.named], {its[at]: lines for at, lines in one.lines.items()},
                 {its[at]: lines for at, lines in one.open.items()},
                 [lacked._replace(faces=frozenset(its[at] for at in lacked.faces)) for lacked in one.lacked],
                 one.unknown, {its[at]: words for at, words in one.icons.items()}, one.families)
            for one, its in zip(found, numbers)]


def views(settings: Settings, fonts: Sequence[SiteFont], pages: Sequence[SitePage]) -> Views:
    """The pages of each font as it shows them: with all their text, if it is not known which of it is drawn in which
    font, or if no page names a family of a font."""
    found: List[List[SitePage]] = [[page for page in pages if page.name in font.pages] for font in fonts]
    counts = {page.name: sum(page.name in font.pages for font in fonts) for page in pages}
    absent = lacking() if settings.is_by_family else ()
    if absent and max(counts.values()) > 1:
        return Views(found, [f"each font has all text of its pages, for this Python has no {' and '.join(absent)}"])
    if absent or not settings.is_by_family:
        return Views(found, [])
    shown = [page for page in pages if counts[page.name]]
    parts = dict(zip((page.name for page in shown), _parts(settings, fonts, shown)))
    families: Set[str] = set().union(*(one.families for one in parts.values()))
    if not any(one.named for one in parts.values()):
        every = Views(found, [], {}, families)
        near = (every.near_to(font.settings.family or face_of(font.whole.data, font.name).family) for font in fonts)
        return every._replace(said=["no page names a family of these fonts in a style sheet: each font has all text of "
                                    f"its pages{next(filter(None, near), '')}"])
    for at, its in enumerate(found):
        found[at] = [_seen(page, parts[page.name], at) for page in its if at in parts[page.name].named]
    said = [*_said(parts), *_said_of_icons(parts, fonts)]
    return Views(found, said, {name: list(_lacked(one, fonts)) for name, one in parts.items()}, families)


def _said(parts: Mapping[str, Part]) -> Iterator[str]:
    """What is said of pages, by their names."""
    yield from (f"{name}: {one.unknown}: each of its fonts has all its text" for name, one in parts.items()
                if one.unknown and len(one.named) > 1)
    others = [name for name, one in parts.items() if not one.named]
    if others:
        yield f"no font is made for pages whose style sheets name no family of one: {some_of(others)}"


def _said_of_icons(parts: Mapping[str, Part], fonts: Sequence[SiteFont]) -> Iterator[str]:
    """What is said of words in fonts of icons that name none."""
    for name, one in parts.items():
        for at, words in one.icons.items():
            yield from (f"{name}: {os.path.basename(fonts[at].settings.file)} has {line}"
                        for line in unmade(fonts[at].whole, words))


def _seen(page: SitePage, drawn: Part, font: int) -> SitePage:
    """A page as a font of this number shows it."""
    return page if drawn.unknown else _view(page, drawn.lines[font], drawn.open.get(font, ()))
