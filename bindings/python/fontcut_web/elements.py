"""The elements of a page: what selectors ask of each, and within which others it stands."""
from __future__ import annotations

import re
from typing import Dict, FrozenSet, List, Mapping, NamedTuple, Tuple

# Elements that have no end (HTML, void elements).
_EMPTY = frozenset("area base br col embed hr img input link meta param source track wbr".split())
# Elements that go on behind the end of one in which they were begun (HTML, the list of active formatting elements).
_FORMATTING = frozenset("a b big code em font i nobr s small strike strong tt u".split())
# What a name in a style sheet has only behind a backslash, and how far off it is written here: in names of elements and
# in selectors, so that these are parted where they end.
_ESCAPED, _AWAY = re.compile(r"[\0-,./:-@\[-^`{-\x7f]"), 0xF0000


class Element(NamedTuple):
    """What selectors ask of an element, in small letters, and its own declarations."""

    tag: str
    name: str
    classes: FrozenSet[str]
    style: str


# An element, and the place of the one in which it stands, which is -1 for one that stands in none.
Placed = Tuple[int, Element]


def plain(name: str) -> str:
    """A name of an element or a class in small letters, with characters of ASCII that part selectors written away."""
    return _ESCAPED.sub(lambda found: chr(_AWAY + ord(found[0])), name.lower())


class Elements:
    """Collects the elements of a page, each once if it stands in the same ones. Where an end is left out, what follows
    may stand in more of them here than in a browser, but never in fewer."""

    def __init__(self) -> None:
        self.found: Dict[Placed, int] = {}
        self._open: List[Tuple[str, int]] = []

    def begin(self, tag: str, given: Mapping[str, str]) -> None:
        """An element begins, with these attributes."""
        element = Element(tag, plain(given.get("id", "")), frozenset(map(plain, given.get("class", "").split())),
                          given.get("style", ""))
        place = self.found.setdefault((self._open[-1][1] if self._open else -1, element), len(self.found))
        if tag not in _EMPTY:
            self._open.append((tag, place))

    def end(self, tag: str) -> None:
        """The last element of this name ends that is open, and those in it, but for formatting ones."""
        at = next((at for at in range(len(self._open) - 1, -1, -1) if self._open[at][0] == tag), None)
        if at is not None:
            left = [one for one in self._open[at + 1:] if tag in _FORMATTING or one[0] in _FORMATTING]
            self._open[at:] = left
