"""What is written to pages of a site beside what they show: letters of languages, more text, ranges of characters."""
from __future__ import annotations

import functools
from typing import Dict, FrozenSet, List, NamedTuple, Sequence, Set, Union

from . import characters
from .pages import lines_of
from .shown import Shown, letters_of
from .site_settings import FontSettings, PageSettings, Settings, named
from .site_state import digest_of


class Written(NamedTuple):
    """What may be written: the letters of languages, which closed cuts have; text that is shaped with that of pages;
    and other characters, which all cuts have."""

    letters: FrozenSet[str] = frozenset()
    text: str = ""
    others: FrozenSet[str] = frozenset()

    @property
    def every(self) -> Set[str]:
        """All characters, with those that a shaper takes for the text."""
        return {*self.letters, *self.others, *characters.of_texts([self.text])}

    @property
    def digest(self) -> str:
        return digest_of([sorted(self.letters), self.text, sorted(self.others)])


@functools.lru_cache(maxsize=None)
def _of_languages(languages: Sequence[str]) -> FrozenSet[str]:
    """The letters of languages, each list of which is read once."""
    return frozenset(characters.of_languages(languages, "unicodes") if languages else ())


def written_by(settings: Sequence[Union[FontSettings, PageSettings]]) -> Written:
    """What settings of a font or of pages say together. Raises `UsageError` for a language that is not known."""
    letters = [_of_languages(tuple(one.languages)) for one in settings]
    others = [characters.of_ranges(one.unicodes) for one in settings]
    return Written(frozenset().union(*letters), "\n".join(one.text for one in settings if one.text),
                   frozenset().union(*others))


def written_to(settings: Settings, names: Sequence[str]) -> Dict[str, Written]:
    """What is written to each page. Raises `UsageError` for a pattern that names none of these pages."""
    found: Dict[str, List[PageSettings]] = {name: [] for name in names}
    for number, one in enumerate(settings.written, 1):
        for name in named(settings, f"page {number}", one.files, names):
            found[name].append(one)
    return {name: written_by(some) for name, some in found.items()}


def with_text(page: Shown, text: str) -> Shown:
    """What a page shows, with more text."""
    return page._replace(text=f"{page.text}\0{text}", blocks=[*page.blocks, *lines_of(text)]) if text else page


def letters_with(page: Shown, written: Sequence[Written]) -> Set[str]:
    """The characters of a closed cut for a page: those that it shows, and all that may be written to it."""
    return letters_of(page).union(*(one.every for one in written))
