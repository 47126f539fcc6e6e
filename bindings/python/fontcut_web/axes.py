"""Whether pages use the axes of a variable font, by their elements and style sheets (CSS Fonts 4, Font Variations)."""
from __future__ import annotations

import re
from typing import Iterable, List, Mapping, Set, Tuple

from .faces import default_place
from .pages import Page
from .rules import COMMENT
from .styles import sheets_of

# Elements that browsers draw bold or slanted if no style sheet says otherwise (HTML, Rendering).
_BOLD = frozenset("b strong h1 h2 h3 h4 h5 h6 th optgroup".split())
_SLANTED = frozenset("i em cite dfn var address".split())
# The value of each property that is usual for an axis, in numbers of the axis.
_USUAL = {"wght": 400.0, "wdth": 100.0, "slnt": 0.0, "ital": 0.0}
# What a declaration says of each of these axes, and the values that ask for what is usual.
_DECLARED = {
    "wght": re.compile(r"(?<![\w-])font-weight\s*:(?!\s*(?:normal|400|inherit|unset)\s*(?:!|;|\}|$))"
                       r"|(?<![\w-])font\s*:[^;}]*?(?:bold|lighter|\b[1-9]\d{0,2}\s+\S)", re.I),
    "slnt": re.compile(r"(?<![\w-])font-style\s*:(?!\s*(?:normal|inherit|unset)\s*(?:!|;|\}|$))"
                       r"|(?<![\w-])font\s*:[^;}]*?(?:italic|oblique)", re.I),
    "wdth": re.compile(r"(?<![\w-])font-(?:stretch|width)\s*:(?!\s*(?:normal|100%|inherit|unset)\s*(?:!|;|\}|$))"
                       r"|(?<![\w-])font\s*:[^;}]*?(?:condensed|expanded)", re.I)}
_DECLARED["ital"] = _DECLARED["slnt"]
# What may set any axis: settings of variations, values of custom properties, and those of animations by scripts.
_ANY = re.compile(r"font-variation-settings|(?<![\w-])font(?:-[a-z]+)?\s*:[^;}]*var\(", re.I)


def _is_used(tag: str, default: float, page: Page, text: str) -> bool:
    """Whether a page with this text of style sheets draws an axis at another value than its default one."""
    if tag not in _USUAL:
        # Browsers set opsz by the size of text; others are set by settings of variations.
        return tag == "opsz"
    if default != _USUAL[tag] or _DECLARED[tag].search(text):
        return True
    tags = {element.tag for _, element in page.elements}
    return bool(tags & {"wght": _BOLD, "slnt": _SLANTED, "ital": _SLANTED}.get(tag, frozenset()))


def _used(page: Page, path: str, axes: Mapping[str, float]) -> Set[str]:
    """The axes that a page in a file uses, of these, which have these default values. One whose style sheets are not
    all there, or that scripts change, may use any."""
    sheets, lost = sheets_of(page, path)
    texts = [*(sheet.text for sheet in sheets), *(f"{one};" for one in page.attributes.get("style", ()))]
    text = COMMENT.sub(" ", "\n".join(texts))
    if lost or "scripts" in page.writers or _ANY.search(text):
        return set(axes)
    return {tag for tag, default in axes.items() if _is_used(tag, default, page, text)}


def kind_for(data: bytes, pages: Iterable[Tuple[Page, str]]) -> str:
    """The kind of cuts of a font for pages in files: variable if one uses an axis of it, and layout otherwise."""
    axes = default_place(data)
    return "variable" if axes and any(_used(page, path, axes) for page, path in pages) else "layout"


def unused(data: bytes, pages: Iterable[Tuple[Page, str]]) -> List[str]:
    """The axes of a font that no page in a file uses, where some are used: its default place on them is all that is
    seen."""
    axes = default_place(data)
    used: Set[str] = set().union(*(_used(page, path, axes) for page, path in pages)) if axes else set()
    return sorted(set(axes) - used) if used else []
