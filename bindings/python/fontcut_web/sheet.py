"""The style sheet of slices, a page that shows them, and how such files are known again."""
from __future__ import annotations

import html
import os
import re
import unicodedata
from typing import Iterable, Iterator, List, NamedTuple, Sequence
from urllib.parse import quote

from .faces import Face
from .sets import Slice, page_range, range_words

# How many slices of a font the page shows, and how many characters of each.
_SHOWN_SLICES, _SHOWN_CHARACTERS = 8, 40
_FORMATS = {".ttf": "truetype", ".woff2": "woff2"}
_TYPES = {".ttf": "font/ttf", ".woff2": "font/woff2"}
# How style sheets and pages begin whose comment does not say yet that fontcut-web wrote them.
_CHARSET, _HEAD = '@charset "utf-8";\n', '<!DOCTYPE html>\n'
_EARLIER = tuple(text.encode() for text in (
    f"{_CHARSET}@font-face {{\n  font-family: ",
    *(f'{_HEAD}<html lang="en">\n<head>\n<meta charset="utf-8">\n<title>{title}</title>\n'
      for title in ("Fonts in slices", "Icons"))))


class Placed(NamedTuple):
    """A slice, and the name of the file that a browser loads for it."""

    slice: Slice
    file: str

    @property
    def ending(self) -> str:
        return self.file[self.file.rindex("."):]


class Styled(NamedTuple):
    """A font as the style sheet has it: its face, the face of its default instance, which the page shows, and its
    slices."""

    face: Face
    shown: Face
    placed: List[Placed]


def address_of(name: str) -> str:
    """The name of a file as an address has it, whatever its bytes are."""
    return quote(os.fsencode(name))


def string(text: str) -> str:
    """A text as a string of CSS, fit for a style element of HTML too."""
    escaped = re.sub(r'["\\]', r"\\\g<0>", text)
    return '"' + re.sub(r"[\0-\x1f\x7f<]", lambda found: f"\\{ord(found[0]):x} ", escaped) + '"'


def declarations(face: Face) -> List[str]:
    """What rules and pages say of a font."""
    lines = [f"font-family: {string(face.family)};", f"font-style: {face.style};", f"font-weight: {face.weight};"]
    return lines + ([] if face.stretch == "100%" else [f"font-stretch: {face.stretch};"])


def block(selector: str, declarations: Iterable[str]) -> str:
    return "".join([f"{selector} {{\n", *(f"  {line}\n" for line in declarations), "}\n"])


def mark(command: str) -> str:
    """What the comment says at the beginning of a file that a command of fontcut-web writes."""
    return f"Written by fontcut-web {command}."


def is_written(text: bytes) -> bool:
    """Whether a style sheet or a page was written by fontcut-web."""
    return b"Written by fontcut-web " in text[:200] or text.startswith(_EARLIER)


def sheet_of(command: str, rules: Iterable[str]) -> str:
    """A style sheet of these rules, written by a command."""
    return "".join([_CHARSET, f"/* {mark(command)} */\n", *rules])


def page_of(command: str, title: str, lines: Iterable[str]) -> str:
    """A page with this title whose other lines are these, written by a command."""
    return "".join([_HEAD, f"<!-- {mark(command)} -->\n", '<html lang="en">\n<head>\n<meta charset="utf-8">\n',
                    f"<title>{title}</title>\n", *lines, "</body>\n</html>\n"])


def style_sheet(fonts: Sequence[Styled], display: str, command: str, is_sliced: bool = False) -> str:
    """A rule for each font of a page, or for each slice. A browser loads it when a page has one of its characters."""
    rules, ranges = [], range_words if is_sliced else page_range
    for font in fonts:
        for placed in font.placed:
            rules.append(block("@font-face", [
                *declarations(font.face), f"font-display: {display};",
                f'src: url("{address_of(placed.file)}") format("{_FORMATS[placed.ending]}");',
                f"unicode-range: {ranges(placed.slice.codes)};"]))
    return sheet_of(command, rules)


def preload(placed: Placed, address: str) -> str:
    """A line for the head of a page, by which a browser asks for a file at once that has this address."""
    return f'<link rel="preload" as="font" type="{_TYPES[placed.ending]}" href="{address}" crossorigin>'


def preloads(fonts: Sequence[Styled]) -> List[str]:
    """Such a line for the first slice of each font, for a page beside it."""
    return [preload(first, address_of(first.file)) for first in (font.placed[0] for font in fonts)]


def _letters(codes: Iterable[int]) -> str:
    """Some letters and digits among characters."""
    letters = [chr(code) for code in codes if unicodedata.category(chr(code)) in ("Lu", "Ll", "Lo", "Nd")]
    return "".join(letters[:_SHOWN_CHARACTERS])


def _shown(number: int, font: Styled) -> Iterator[str]:
    """What the page shows of a font."""
    yield f"<h2>{html.escape(font.face.family)}, {font.face.style} {font.face.weight}</h2>\n"
    yield f'<section class="font-{number}">\n'
    for placed in font.placed[:_SHOWN_SLICES]:
        letters = _letters(placed.slice.codes)
        if letters:
            yield f"<p>{html.escape(letters)}</p>\n"
    yield "</section>\n"


def page(fonts: Sequence[Styled], sheet: str) -> str:
    """A page that shows letters of the slices of each font."""
    classes = [block(f".font-{number}", declarations(font.shown)) for number, font in enumerate(fonts, 1)]
    return page_of("slice", "Fonts in slices", [
        *(f"{line}\n" for line in preloads(fonts)),
        f'<link rel="stylesheet" href="{sheet}">\n<style>\nsection {{\n  font-size: 32px;\n}}\n', *classes,
        "</style>\n</head>\n<body>\n",
        *(part for number, font in enumerate(fonts, 1) for part in _shown(number, font))])
