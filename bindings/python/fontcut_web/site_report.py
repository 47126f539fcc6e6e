"""What a site is told of its fonts: style sheets, lines for the heads of pages, and bytes beside those of whole
fonts."""
from __future__ import annotations

import json
import os
import unicodedata
from typing import Dict, Iterable, Iterator, List, Mapping, NamedTuple, Sequence, Tuple

from .common import Refused
from .faces import Face
from .sets import Slice
from .sheet import Placed, Styled, address_of, mark, preload, style_sheet
from .site_pages import SitePage
from .site_settings import Settings
from .site_state import SectionState

REPORT = "site.json"
# The categories of characters that are not in every font: letters, marks, symbols as arrows, and icons.
_OF_ONE_FONT = "Lu", "Ll", "Lt", "Lm", "Lo", "Mn", "Mc", "Me", "So", "Co"
# What each text that is written begins with, by which it is known.
_WRITTEN = mark("site")


class Made(NamedTuple):
    """The cut of a font for a section, the face and the characters that its rule has, the bytes of the whole font as
    WOFF2 (0 where they are not known), and whether it was made by this run."""

    font: str
    section: str
    face: Face
    codes: List[int]
    whole: int
    state: SectionState
    is_new: bool


def check_faces(found: Iterable[Tuple[str, Face, str]]) -> None:
    """Raises `Refused` where the style sheet of a section could not tell two fonts apart: here are sections, each with
    the face of a font and its file."""
    faces: Dict[Tuple[str, Face], str] = {}
    for section, face, font in found:
        other = faces.setdefault((section, face), font)
        if other != font:
            raise Refused(f"{font}: it has the family, style, weight and width of {other} on pages of {section}: "
                          f"{face}; name another family for it, or other pages")


def _sheet(made: Sequence[Made], display: str) -> str:
    """The style sheet of a section."""
    return style_sheet([Styled(one.face, one.face, [_placed(one)]) for one in made], display, "site")


def _placed(one: Made) -> Placed:
    """The file of a cut, as a style sheet names it."""
    return Placed(Slice(one.section, one.codes), one.state.woff2.name)


def sheets(made: Sequence[Made], display: str) -> Dict[str, str]:
    """The style sheet of each section, by the name of its file."""
    names = dict.fromkeys(one.section for one in made)
    return {f"{name}.css": _sheet([one for one in made if one.section == name], display) for name in names}


def is_ours(text: bytes) -> bool:
    """Whether a file was written by this command."""
    return _WRITTEN.encode() in text[:200]


def _address(settings: Settings, page: SitePage, name: str) -> str:
    """How a page addresses a file of the output."""
    if settings.address:
        return f"{settings.address.rstrip('/')}/{address_of(name)}"
    path = os.path.relpath(os.path.join(settings.out, name), os.path.dirname(page.name) or os.curdir)
    return address_of(path.replace(os.sep, "/"))


def _first(page: SitePage, made: Sequence[Made]) -> Sequence[Made]:
    """The fonts that a page needs at once: those whose letters or symbols it shows. Others may have no more than
    blanks, digits and punctuation for it, which other fonts of it have too."""
    letters = {ord(letter) for letter in page.shown.text if unicodedata.category(letter) in _OF_ONE_FONT}
    return [one for one in made if letters.intersection(one.codes)] or made


def _row(settings: Settings, page: SitePage, made: Sequence[Made]) -> Dict[str, object]:
    """What is told of a page: lines for its head, and the bytes that it takes, where two fonts may be one file."""
    rows = [{"font": one.font, "file": one.state.woff2.name, "bytes": one.state.woff2.size, **_whole([one]),
             "cut": one.state.pages[page.name].partition(":")[0]} for one in made]
    files = {one.state.woff2.name: one.state.woff2.size for one in made}
    head = dict.fromkeys(preload(_placed(one), _address(settings, page, one.state.woff2.name))
                         for one in _first(page, made))
    sheet = f'<link rel="stylesheet" href="{_address(settings, page, page.section + ".css")}">'
    return {"section": page.section, "head": [*head, sheet] if made else [], "fonts": rows,
            "bytes": sum(files.values()), **_whole(made)}


def _whole(made: Sequence[Made]) -> Dict[str, int]:
    """The bytes of whole fonts as WOFF2, each file once, if all are known."""
    wholes = {one.font: one.whole for one in made}
    return {"whole": sum(wholes.values())} if all(wholes.values()) else {}


def report(settings: Settings, pages: Sequence[SitePage], made: Sequence[Made]) -> str:
    """What is told of the site, as JSON."""
    rows = {page.name: _row(settings, page, [one for one in made if page.name in one.state.pages]) for page in pages}
    # Names of files that are no UTF-8 are escaped.
    return json.dumps({"made": _WRITTEN, "pages": rows}, indent=2) + "\n"


def lines(told: str) -> Iterator[str]:
    """The bytes of each page, beside those of the whole fonts where these are known."""
    rows = json.loads(told)["pages"]
    is_known = all("whole" in row for row in rows.values())
    yield f"{'bytes':>11}{'  whole fonts' if is_known else ''}  page"
    for name, row in rows.items():
        whole = f" {row['whole']:>12,}" if is_known else ""
        yield f"{row['bytes']:>11,}{whole}  {name}"
