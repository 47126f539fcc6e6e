"""The command `fontcut-web icons`: a font of some icons, a style sheet with a class for each, and a page."""
from __future__ import annotations

import argparse
import difflib
import html
import io
import json
import os
import re
from typing import Dict, Iterable, Iterator, List, NamedTuple, Optional, Sequence, Set, Tuple

import fontcut
from fontcut_output import print_line, read, write
from fontTools.ttLib import TTFont

from .common import Refused, UsageError
from .faces import Face, face_of, varying
from .inputs import accepted, refusing
from .malformed import MALFORMED
from .replaced import check_read, check_whole, check_written
from .sets import codes_of
from .sheet import address_of, block, declarations, page_of, sheet_of
from .woff import packed

SHEET, PAGE = "icons.css", "icons.html"
# How many names are told that are near to one that is not there; and how near a word of a text is to one at least.
_NEAR, _NEARER = 3, 0.75
# A line of a file of code points: a name, and a code in hexadecimal.
_LINE = re.compile(r"(\S+)[ \t]+(?:U\+|0x)?([0-9A-Fa-f]{1,6})")
# Types of lookups of GSUB: a ligature, and one whose table stands elsewhere. Names of `post` that are made up.
_LIGATURE, _EXTENSION, _WITHOUT_NAMES = 4, 7, 3.0
# A word that is typed for an icon.
_TYPED = re.compile(r"[A-Za-z][A-Za-z0-9_]+")
# How many letters a word has at least: ligatures of text are of two or three.
_WORD = 4
# Codes that have no character of their own, of which an icon has one.
_PRIVATE = range(0xE000, 0xF900)
# A font of icons has so many of these at least.
_LEAST = 20
_BLANK = 0x20


class Icon(NamedTuple):
    """An icon, by its name and the character of its glyph."""

    name: str
    code: int


def listed(path: str) -> Dict[str, int]:
    """The codes of a file of code points, by their names. Raises `UsageError` for a line of another form."""
    found: Dict[str, int] = {}
    try:
        lines = read(path).decode("utf-8-sig").splitlines()
    except UnicodeDecodeError as error:
        raise UsageError(f"{path}: not UTF-8") from error
    for number, line in enumerate(lines, 1):
        row = _LINE.fullmatch(line.strip())
        if row:
            found[row[1]] = int(row[2], 16)
        elif line.strip():
            raise UsageError(f"{path}: line {number}: write a name and a code, as home e88a")
    return found


def _codes(font: fontcut.Font) -> Dict[int, int]:
    """The code of each glyph that has one: in a private area if there is one, and otherwise the least."""
    codes = codes_of(font)
    rows = sorted(zip(fontcut.glyphs(font, codes), codes), key=lambda row: (row[1] not in _PRIVATE, row[1]))
    return dict(reversed(rows))


def _letters(font: fontcut.Font) -> Dict[int, str]:
    """The character of ASCII of each glyph that has one: a small letter if there is one."""
    letters = sorted(map(chr, range(0x21, 0x7F)), key=lambda letter: (letter.islower(), letter))
    return {glyph: letter for glyph, letter in zip(fontcut.glyphs(font, "".join(letters)), letters) if glyph}


def _ligatures(opened: TTFont) -> Iterator[Tuple[List[str], str]]:
    """The ligatures of a font: the names of their glyphs, and that of the glyph that takes their place."""
    lookups = opened["GSUB"].table.LookupList if "GSUB" in opened else None
    for lookup in lookups.Lookup if lookups else ():
        for table in lookup.SubTable:
            table = table.ExtSubTable if table.LookupType == _EXTENSION else table
            for first, rows in table.ligatures.items() if table.LookupType == _LIGATURE else ():
                yield from (([first, *row.Component], row.LigGlyph) for row in rows)


def may_have_icons(font: fontcut.Font) -> bool:
    """Whether a font has as many characters without a meaning of their own as fonts of icons have, which is soon known.
    """
    return sum(code in _PRIVATE for code in codes_of(font)) >= _LEAST


def lacking(font: fontcut.Font, codes: Iterable[int]) -> List[int]:
    """Those of some characters that a font lacks and that are missed in it: a font of icons needs no blank."""
    absent = fontcut.missing(font, codes)
    return [code for code in absent if code != _BLANK or not may_have_icons(font)]


def is_of_icons(font: fontcut.Font) -> bool:
    """Whether the ligatures of a font are icons: most of them are typed as a word, as those of no text are."""
    letters = _letters(font)
    try:
        opened = TTFont(io.BytesIO(font.data), lazy=True)
        typed = [parts for parts, _ in _ligatures(opened) if all(letters.get(opened.getGlyphID(one)) for one in parts)]
    except MALFORMED:
        return False
    return 2 * sum(len(parts) >= _WORD for parts in typed) > len(typed)


def unmade(font: fontcut.Font, words: Iterable[str], is_of_text: bool = False) -> List[str]:
    """What is said of words that no ligatures of a font of icons make, with the nearest that they do. Those that may be
    of a text are meant for icons if they are near to one."""
    letters, opened = _letters(font), TTFont(io.BytesIO(font.data), lazy=True)
    typed = {"".join(letters.get(opened.getGlyphID(part), " ") for part in parts) for parts, _ in _ligatures(opened)}
    others = sorted(word for word in words if _TYPED.fullmatch(word) and not _is_made(word, typed))
    if is_of_text:
        others = [word for word in others if word.islower() and difflib.get_close_matches(word, typed, 1, _NEARER)]
    return [_no_icon(word, typed) for word in others]


def _is_made(word: str, typed: Set[str]) -> bool:
    """Whether a word is one of some, or several of these in a row."""
    ends = {0}
    for last in range(1, len(word) + 1):
        if any(word[first:last] in typed for first in ends):
            ends.add(last)
    return len(word) in ends


def _no_icon(name: str, names: Iterable[str]) -> str:
    """What is said of an icon that is not there, with the nearest ones."""
    near = difflib.get_close_matches(name, names, _NEAR)
    return f"no icon {name!r}" + (f" (nearest: {', '.join(near)})" if near else "")


def _glyph_names(font: fontcut.Font) -> Iterator[Tuple[str, int]]:
    """The names that a font has for glyphs: those of its table `post`, and then its ligatures, as they are typed."""
    opened = TTFont(io.BytesIO(font.data), lazy=True)
    has_names = "post" in opened and opened["post"].formatType != _WITHOUT_NAMES
    yield from ((name, glyph) for glyph, name in enumerate(opened.getGlyphOrder() if has_names else ()))
    letters = _letters(font)
    for parts, glyph in _ligatures(opened):
        typed = [letters.get(opened.getGlyphID(part), "") for part in parts]
        if all(typed):
            yield "".join(typed), opened.getGlyphID(glyph)


def known(font: fontcut.Font, points: Optional[str]) -> Dict[str, int]:
    """The codes of the icons of a font, by their names: those of `post`, those of ligatures, and those of a file of
    code points, of which the last count."""
    codes = _codes(font)
    try:
        found = {name: codes[glyph] for name, glyph in _glyph_names(font) if codes.get(glyph)}
    except MALFORMED as error:
        raise Refused(f"its names of glyphs cannot be read: {error}") from error
    mapped = set(codes_of(font))
    found.update((name, code) for name, code in (listed(points) if points else {}).items() if code in mapped)
    return found


def _points_beside(path: str) -> Optional[str]:
    """The file of code points that stands beside a font."""
    beside = [f"{path}.codepoints", f"{os.path.splitext(path)[0]}.codepoints"]
    return next((one for one in beside if os.path.exists(one)), None)


def chosen(names: Sequence[str], codes: Dict[str, int]) -> List[Icon]:
    """The icons of some names, each once. Raises `Refused` for names that are not there, with the nearest."""
    said = [_no_icon(name, codes) for name in dict.fromkeys(names) if name not in codes]
    if said:
        raise Refused("; ".join(said))
    return [Icon(name, codes[name]) for name in dict.fromkeys(names)]


def _selector(name: str) -> str:
    """The class of an icon, as CSS has it."""
    return ".icon-" + re.sub(r"[^A-Za-z0-9_-]", lambda found: f"\\{ord(found[0]):x} ", name)


def style_sheet(face: Face, file: str, icons: Sequence[Icon]) -> str:
    """The rule of the font, one for what icons have in common, and one for each."""
    source = f'src: url("{address_of(file)}") format("woff2");'
    every = ",\n".join(f"{_selector(icon.name)}::before" for icon in icons)
    shared = [*declarations(face), "font-feature-settings: normal;", "letter-spacing: normal;", "line-height: 1;",
              "text-transform: none;"]
    rules = [block(f"{_selector(icon.name)}::before", [f'content: "\\{icon.code:x}";']) for icon in icons]
    return sheet_of("icons", [block("@font-face", [*declarations(face), "font-display: block;", source]),
                              block(every, shared), *rules])


def page(icons: Sequence[Icon]) -> str:
    """A page that shows icons, each with its name."""
    rows = [f'<p><span class="icon-{html.escape(icon.name)}" aria-hidden="true"></span> {html.escape(icon.name)}</p>\n'
            for icon in icons]
    return page_of("icons", "Icons", [
        f'<link rel="stylesheet" href="{SHEET}">\n<style>\nspan {{\n  font-size: 32px;\n}}\n</style>\n',
        "</head>\n<body>\n", *rows])


def _check_out(given: argparse.Namespace, fonts: Sequence[str], points: Optional[str]) -> None:
    """Raises `UsageError` for a file in DIR that must not be replaced."""
    sheets = [os.path.join(given.out, name) for name in (SHEET, PAGE)]
    paths = [os.path.join(given.out, name) for name in fonts]
    check_read([given.font, *([points] if points else [])], [*paths, *sheets])
    if not given.force:
        check_whole(paths)
        check_written(sheets)


def run(given: argparse.Namespace) -> None:
    """Writes the cut for some icons, as it is and as WOFF2, its style sheet and a page."""
    font = accepted(given.font)
    base, points = os.path.splitext(os.path.basename(given.font))[0], given.codepoints or _points_beside(given.font)
    file, packed_file = f"{base}-icons.ttf", f"{base}-icons.woff2"
    _check_out(given, [file, packed_file], points)
    with refusing(given.font):
        icons = chosen(given.names, known(font, points))
        cut = fontcut.cut(font, [icon.code for icon in icons], kind=given.kind)
        packed_cut = packed(cut)
    shown = face_of(font.data, base)
    face = varying(font.data, shown) if given.kind == "variable" else shown
    os.makedirs(given.out, exist_ok=True)
    files = {file: cut, packed_file: packed_cut, SHEET: style_sheet(face, packed_file, icons).encode(),
             PAGE: page(icons).encode()}
    # The style sheet names a file that is there, and the page names the style sheet.
    for name, data in files.items():
        write(os.path.join(given.out, name), data)
    if given.json:
        told = [{"name": icon.name, "code": f"U+{icon.code:04X}", "class": f"icon-{icon.name}"} for icon in icons]
        print_line(json.dumps({"font": given.font, "bytes": {name: len(data) for name, data in files.items()},
                               "icons": told}, indent=2))
    else:
        sheet = os.path.join(given.out, SHEET)
        print_line(f"{os.path.join(given.out, packed_file)}: {len(packed_cut):,} bytes, a {given.kind} cut of "
                   f"{len(icons)} icon{'' if len(icons) == 1 else 's'}; {sheet} has a class for each, as "
                   f"icon-{icons[0].name}")
