"""The pages of a site: what each shows, its section, and whether its cuts are exact or closed."""
from __future__ import annotations

import functools
import os
from typing import Dict, List, NamedTuple, Sequence, Set

from .common import UsageError
from .inputs import read_pages
from .pages import Page
from .processes import in_groups
from .shown import Read, Shown, letters_of, read_styles, shown_by, with_features
from .site_settings import SITE, FontSettings, Settings, named, page_names, sections_of
from .site_state import digest_of
from .site_written import Written, written_to
from .styles import Features, parts_of

EXACT, CLOSED = "exact", "closed"


class SitePage(NamedTuple):
    """A page: its name, which is its path from the folder of the site; its section; its file; what is read of it, and
    of its style sheets; what it shows; the characters of that, with those that a shaper takes for them; what is written
    to it; a digest of all that its cuts depend on; and whether what it shows is the part of a font."""

    name: str
    section: str
    path: str
    page: Page
    read: Read
    shown: Shown
    letters: Set[str]
    written: Written
    digest: str
    is_part: bool = False

    @property
    def is_empty(self) -> bool:
        """Whether nothing is drawn of the page, and nothing is written to it, as far as all of that is known."""
        is_shown = bool(self.shown.text.replace("\0", "").strip())
        return not (is_shown or self.shown.unknown or self.written.every)

    def without_letters(self) -> SitePage:
        """The page as a font shows it that has no letters of languages."""
        written = self.written._replace(letters=frozenset())
        return self._replace(written=written, digest=_digest(self.shown, written))

    def seen(self, shown: Shown) -> SitePage:
        """The page as a font shows it that draws this of it alone."""
        return self._replace(shown=shown, letters=letters_of(shown), digest=_digest(shown, self.written),
                             is_part=True)

    def shaped_with(self, more: Sequence[Features]) -> SitePage:
        """The page as a font shows it that has more sets of features."""
        shown = with_features(self.shown, more) if more else self.shown
        return self._replace(shown=shown, digest=_digest(shown, self.written))


class Modes(NamedTuple):
    """The pages that the settings name as exact, as closed, and as those that are not drawn to check them."""

    exact: Set[str]
    closed: Set[str]
    unchecked: Set[str]

    def of(self, page: SitePage, font: FontSettings) -> str:
        """Whether the cut of a font for a page is exact or closed. If nothing is named, it is exact where all text is
        known: not if readers write to the page or in this font, in languages that the settings name, or if the page
        has other text."""
        if page.name in self.exact:
            return EXACT
        is_known = not (page.shown.unknown or font.languages or page.written.letters)
        return EXACT if is_known and page.name not in self.closed else CLOSED


def _digest(shown: Shown, written: Written) -> str:
    """A digest of what the cuts of a page depend on."""
    return digest_of([shown.text, shown.blocks, shown.languages, sorted(shown.directions), shown.features, shown.open,
                      written.digest])


def own_file(settings: Settings, name: str, address: str) -> str:
    """The file of the output that an address in a page names, by its name there, or nothing."""
    host, path = parts_of(address)
    front = f"{parts_of(settings.address)[1].rstrip('/')}/"
    if settings.address and path.startswith(front):
        return path[len(front):]
    folder = "" if path.startswith("/") else os.path.dirname(name)
    found = os.path.normpath(os.path.join(folder, path.lstrip("/")))
    return found[len(settings.out) + 1:] if not host and found.startswith(f"{settings.out}{os.sep}") else ""


def is_own(settings: Settings, name: str, address: str) -> bool:
    """Whether a page links a style sheet of the output, which says nothing of its text."""
    return bool(own_file(settings, name, address))


def _page(settings: Settings, name: str, section: str, written: Written) -> SitePage:
    """What is read of a page, to which this is written."""
    path = os.path.join(settings.folder, name)
    page, = read_pages([path])
    page = page._replace(links=[link for link in page.links if not is_own(settings, name, link)])
    read = read_styles(page, path)
    shown = shown_by(page, path, read, text=written.text)
    return SitePage(name, section, path, page, read, shown, letters_of(shown), written, _digest(shown, written))


def pages_of(settings: Settings) -> List[SitePage]:
    """The pages of a site, in order of their names."""
    names = page_names(settings)
    sections = sections_of(settings, names)
    written = written_to(settings, names)
    return in_groups([functools.partial(_page, settings, name, sections[name], written[name]) for name in names])


def modes_of(settings: Settings, pages: Sequence[SitePage]) -> Modes:
    """The pages that the settings name. Raises `UsageError` for one that is named as both."""
    names = [page.name for page in pages]
    modes = Modes(named(settings, EXACT, settings.exact, names), named(settings, CLOSED, settings.closed, names),
                  named(settings, "unchecked", settings.unchecked, names))
    for name in sorted(modes.exact & modes.closed):
        raise UsageError(f"{settings.path}: {name} is named as exact and as closed")
    return modes


def languages_of(settings: Settings, pages: Sequence[SitePage]) -> Dict[str, str]:
    """The languages that each page shares its prepared fonts with, as `de-tr`: its own, and where pages of a section
    are in several, which share a file, all of these. Nothing, where fonts are prepared for the whole site."""
    if settings.prepare_by == SITE:
        return {page.name: "" for page in pages}
    found: List[Set[str]] = []
    for section in dict.fromkeys(page.section for page in pages):
        shared = {_language(page) for page in pages if page.section == section}
        others = [one for one in found if one & shared]
        found = [one for one in found if not one & shared] + [shared.union(*others)]
    return {page.name: "-".join(sorted(one)) for page in pages for one in found if _language(page) in one}


def _language(page: SitePage) -> str:
    """The language of a page, which is the first that it names, without its script and its country."""
    named = [language for language in page.shown.languages if language]
    return named[0].partition("-")[0].lower() if named else "und"
