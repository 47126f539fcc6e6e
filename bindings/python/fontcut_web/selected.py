"""The elements of a page that selectors are about, as browsers read them, as far as that is known (Selectors 4)."""
from __future__ import annotations

import re
from typing import Any, Dict, Iterable, List, Match

import cssselect2

from .cascade import element_of, known_selectors
from .rules import Selectors

# What stands for a part of an element, or asks for a state of it that may come.
_PARTS = re.compile(r"""::[\w-]+(?:\([^()]*\))?|:(?:before|after|first-line|first-letter|hover|active|focus|focus-within
    |focus-visible|visited|link|any-link|target|checked|indeterminate|disabled|enabled|required|optional|valid|invalid
    |user-valid|user-invalid|in-range|out-of-range|read-only|read-write|placeholder-shown|autofill|default|open
    |fullscreen|modal|popover-open)(?![\w(-])""", re.I | re.X)
_PARENTHESES = re.compile(r"\([^()]*\)")


def _without(found: Match[str]) -> str:
    """What is left of a part that is taken away: any element, where nothing else is said of it."""
    before = found.string[:found.start()]
    return "*" if not before or before[-1] in " >+~," else ""


def widened(prelude: str) -> str:
    """Selectors without parts and states of elements; an empty text where others ask for these."""
    outside = _PARENTHESES.sub("", _PARENTHESES.sub("", prelude))
    is_asked = len(_PARTS.findall(outside)) < len(_PARTS.findall(prelude))
    return "" if is_asked else _PARTS.sub(_without, prelude)


class Selected:
    """Finds elements of a page, whose selectors are read as they are written if that is exact."""

    def __init__(self, document: Any, is_exact: bool) -> None:
        self.is_exact = is_exact
        self.every = list(cssselect2.ElementWrapper.from_html_root(document).iter_subtree())

    def elements_of(self, every: Iterable[Selectors]) -> Dict[Selectors, List[Any]]:
        """The elements of each of some selectors, and more where these are not known."""
        found: Dict[Selectors, List[Any]] = {one: [] for one in every}
        matcher, others = cssselect2.Matcher(), []
        for one in found:
            selectors = known_selectors(widened(one.prelude), self.is_exact and one.is_whole)
            for selector in selectors:
                matcher.add_selector(selector, one)
            others += [] if selectors else [one]
        for element in self.every:
            node = element.etree_element
            own = element_of(node)
            its = {one: None for *_, one in matcher.match(element)}
            its.update((one, None) for one in others if any(subject.may_be(own) for subject in one.subjects))
            for one in its:
                found[one].append(node)
        return found
