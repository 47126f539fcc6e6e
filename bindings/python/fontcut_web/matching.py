"""Which rules of style sheets may be about an element of a page, as far as no script changes it."""
from __future__ import annotations

import contextlib
import functools
import importlib
import os
import re
from importlib.util import find_spec
from typing import List, Optional, Sequence, Set, Tuple

from fontcut_output import read

from .elements import Element
from .pages import Page, lines_of
from .rules import Selectors
from .styles import Matching

PACKAGES = "html5lib", "tinycss2", "cssselect2"
# What packages raise where a page is malformed.
MALFORMED = AssertionError, AttributeError, LookupError, RecursionError, TypeError, ValueError
# Elements that browsers make where a page has none (HTML, Tree construction).
_IMPLIED = [Element(tag, "", frozenset(), "") for tag in ("html", "head", "body", "tbody", "colgroup")]
# Selectors of which the last part says all, but for pseudo-elements.
_PLAIN = re.compile(r"(?:[\w.#*-]|[^\0-\x7f]|\s*,\s*|::?(?:before|after|marker|placeholder|first-line|first-letter))+")


def lacking() -> Sequence[str]:
    """The packages that are not there by which selectors are read as browsers read them."""
    return [name for name in PACKAGES if find_spec(name) is None]


def _near(page: Page, every: Sequence[Selectors]) -> Set[Selectors]:
    """Those of some selectors whose last part is about an element of a page."""
    elements = {*_IMPLIED, *(element for _, element in page.elements)}
    return {one for one in every if any(subject.may_be(element) for subject in one.subjects for element in elements)}


def matched(page: Page, path: str, every: Sequence[Selectors]) -> Set[Selectors]:
    """Those of some selectors that may be about an element of a page in a file."""
    near = _near(page, every)
    asked = [one for one in near if one.is_whole and not _PLAIN.fullmatch(one.prelude)]
    if not asked or lacking():
        return near
    cascade, selected = (importlib.import_module(f".{name}", __package__) for name in ("cascade", "selected"))
    try:
        found = selected.Selected(*cascade.document_of(read(path))).elements_of(asked)
    except MALFORMED:
        return near
    return near - {one for one in asked if not found[one]}


def lines_added(page: Page, path: str, numbers: str, added: str) -> Tuple[List[str], List[str]]:
    """The blocks of a page in a file with what style sheets add to them, of which these are the characters and those of
    numbers; and the characters of those of which not all is known, which are all where the page cannot be read as
    browsers read it."""
    if not lacking():
        with contextlib.suppress(*MALFORMED):
            generated = importlib.import_module(".generated", __package__)
            blocks, unknown = generated.texts_with(read(path), os.path.dirname(path), page.languages, numbers)
            return lines_of("\n".join(blocks)), lines_of("\n".join(unknown))
    return [], [" ".join([*page.blocks, added])]


def matching_of(page: Page, path: str) -> Optional[Matching]:
    """Tells which selectors may be about an element of a page in a file; nothing where scripts run, which may change
    its elements."""
    return None if "scripts" in page.writers else functools.partial(matched, page, path)
