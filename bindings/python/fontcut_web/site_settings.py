"""What the file `fontcut.toml` of a site says: its pages, its fonts, and what each font is prepared for."""
from __future__ import annotations

import glob
import importlib
import os
import re
import sys
from typing import Any, Dict, Iterator, List, Mapping, NamedTuple, Optional, Sequence, Set

import fontcut
from fontcut_output import read

from .common import DISPLAYS, SHAPED, UsageError, need

FILE = "fontcut.toml"
# What stands beside the output: prepared fonts, cuts, and what they were made of.
WORK = ".fontcut"
_STYLES = "", "normal", "italic", "oblique"
# Whether fonts are prepared once for the pages in each language, or for the whole site.
LANGUAGE, SITE = "language", "site"
# Whether fonts have the text of the elements that have their family, weight and style, or all text of their pages.
FAMILY, PAGE = "family", "page"
_NAMES, _KERNS = ("keep", "least"), ("auto", "keep", "drop")
_KINDS = "", "lean", *SHAPED
# A weight of style sheets, or the least and the most one of a variable font.
_WEIGHT, _LEAST, _MOST = re.compile(r"[0-9]+(?:\.[0-9]+)?"), 1, 1000
# The line that begins a font.
_FONT = re.compile(r"\s*\[\[\s*font\s*\]\]")
# A key of TOML that needs no quotation marks, which can be the name of a file too.
_BARE = re.compile(r"[A-Za-z0-9_-]+")


class FontSettings(NamedTuple):
    """A font of a site: its file, patterns of the pages that show it, the languages that it is prepared for beside its
    pages, more text and ranges of characters, how it is prepared, the kind of its cuts, and what style sheets call it.
    What is empty is as the font has it."""

    file: str
    pages: List[str] = ["**/*"]
    languages: List[str] = []
    text: str = ""
    unicodes: str = ""
    features: str = "default"
    hinting: Optional[bool] = None
    names: str = "least"
    kern: str = "auto"
    instance: str = ""
    kind: str = ""
    family: str = ""
    style: str = ""
    weight: str = ""

    @property
    def is_hinted(self) -> bool:
        """Whether it keeps the instructions of glyphs, as it does if the settings do not say it."""
        return self.hinting is not False


class PageSettings(NamedTuple):
    """Patterns of pages, with what readers write to these: languages, and more text and ranges of characters."""

    files: List[str]
    languages: List[str] = []
    text: str = ""
    unicodes: str = ""


class Settings(NamedTuple):
    """What a site is: the folder of its pages, that of its fonts and how pages address it, patterns of its pages, of
    those whose cuts are exact or closed, of those that are not checked, and of the pages of each section; its fonts,
    and what is written to pages; and what each font is prepared for."""

    folder: str
    fonts: List[FontSettings]
    pages: List[str] = ["**/*.html", "**/*.htm"]
    exact: List[str] = []
    closed: List[str] = []
    unchecked: List[str] = []
    sections: Mapping[str, List[str]] = {}
    written: Sequence[PageSettings] = ()
    out: str = "fonts"
    address: str = ""
    display: str = "swap"
    prepare_by: str = LANGUAGE
    text_by: str = FAMILY

    @property
    def is_by_family(self) -> bool:
        """Whether fonts have the text of their elements alone."""
        return self.text_by == FAMILY

    @property
    def path(self) -> str:
        """The file of the settings."""
        return os.path.join(self.folder, FILE)

    @property
    def output(self) -> str:
        """The folder of the fonts."""
        return os.path.join(self.folder, self.out)

    @property
    def work(self) -> str:
        """The folder of what stands beside them."""
        return os.path.join(self.folder, WORK)


def _is_like(value: object, default: object) -> bool:
    """Whether a value has the type of a default, which is a text, a truth, or a list of texts."""
    if isinstance(default, list):
        return isinstance(value, list) and all(isinstance(one, str) for one in value)
    return isinstance(value, type(default))


def _values(where: str, table: object, defaults: Mapping[str, object], tables: Sequence[str] = ()) -> Dict[str, Any]:
    """The values of a table, whose keys and types are those of the defaults. Raises `UsageError` for others, which
    names these and the tables that may stand beside them."""
    if not isinstance(table, dict):
        raise UsageError(f"{where} is not a table")
    for key, value in table.items():
        if key not in defaults:
            raise UsageError(f"{where}: there is no setting {key}: the settings are {', '.join([*defaults, *tables])}")
        if not _is_like(value, defaults[key]):
            meant = {list: "a list of texts", bool: "true or false", str: "a text"}[type(defaults[key])]
            raise UsageError(f"{where}: {key} has to be {meant}")
    return dict(table)


def _check_weight(where: str, weight: str) -> None:
    """Raises `UsageError` where a weight is none of style sheets."""
    words = weight.split()
    if weight in ("", "normal", "bold") or len(words) in (1, 2) and all(
            _WEIGHT.fullmatch(word) and _LEAST <= float(word) <= _MOST for word in words):
        return
    raise UsageError(f"{where}: weight is normal, bold, or one or two numbers from {_LEAST} to {_MOST}")


def _check_choice(where: str, key: str, value: str, choices: Sequence[str]) -> None:
    if value not in choices:
        raise UsageError(f"{where}: {key} is one of {', '.join(filter(None, choices))}")


def _font(path: str, number: int, table: object) -> FontSettings:
    """A font of the settings in a file. A path of it is one from the folder of the settings."""
    where = f"{path}: font {number}"
    if isinstance(table, dict) and isinstance(table.get("weight"), int) and not isinstance(table["weight"], bool):
        table = {**table, "weight": str(table["weight"])}
    values = _values(where, table, {"file": "", **FontSettings._field_defaults, "hinting": True})
    if not values.get("file"):
        raise UsageError(f"{where}: file is missing")
    if not values.get("family", "font").strip():
        raise UsageError(f"{where}: family is empty: leave it out for the name that the font has")
    values["file"] = os.path.join(os.path.dirname(path), values["file"])
    found = FontSettings(**values)
    for key, choices in (("style", _STYLES), ("names", _NAMES), ("kern", _KERNS), ("kind", _KINDS)):
        _check_choice(where, key, getattr(found, key), choices)
    _check_unicodes(where, found.unicodes)
    _check_weight(where, found.weight)
    return found


def _places(path: str, count: int) -> List[str]:
    """What each of the fonts of a file is called, with its line if it has one of its own."""
    lines = [number for number, line in enumerate(read(path).decode().splitlines(), 1) if _FONT.match(line)]
    return [f"font {number}" + (f" in line {lines[number - 1]}" if len(lines) == count else "")
            for number in range(1, count + 1)]


def _check_once(path: str, fonts: Sequence[FontSettings]) -> None:
    """Raises `UsageError` where a font stands twice with the same settings, so that it would be made twice."""
    seen: List[FontSettings] = []
    for font in fonts:
        one = font._replace(file=os.path.realpath(font.file))
        if one in seen:
            places = _places(path, len(fonts))
            raise UsageError(f"{path}: {places[len(seen)]} is {places[seen.index(one)]} again, with the same file and "
                             "the same settings: write it once")
        seen.append(one)


def _written(path: str, number: int, table: object) -> PageSettings:
    """What is written to some pages, by the settings in a file."""
    where, no_patterns = f"{path}: page {number}", []  # type: str, List[str]
    values = _values(where, table, {"files": no_patterns, **PageSettings._field_defaults})
    if not values.get("files"):
        raise UsageError(f"{where}: files is missing")
    found = PageSettings(**values)
    _check_unicodes(where, found.unicodes)
    return found


def _check_unicodes(where: str, words: str) -> None:
    """Raises `UsageError` where words are no ranges of characters."""
    try:
        fontcut.ranges(words)
    except ValueError as error:
        raise UsageError(f"{where}: unicodes: {error}") from error


def _sections(path: str, table: object) -> Dict[str, List[str]]:
    """The patterns of the pages of each section."""
    where, no_patterns = f"{path}: sections", []  # type: str, List[str]
    values = _values(where, table, dict.fromkeys(table, no_patterns) if isinstance(table, dict) else {})
    for name in values:
        if not _BARE.fullmatch(name):
            raise UsageError(f"{where}: bad name {name!r}: write letters of ASCII, digits, _ and -")
    return values


def _table(path: str) -> Dict[str, Any]:
    """The table in a file of TOML. Raises `UsageError` where it is malformed."""
    need("tomli")
    reader = importlib.import_module("tomllib" if sys.version_info >= (3, 11) else "tomli")
    try:
        found: Dict[str, Any] = reader.loads(read(path).decode())
    except ValueError as error:
        raise UsageError(f"{path}: {error}") from error
    return found


def settings_of(folder: str) -> Settings:
    """The settings of the site in a folder. Raises `UsageError` where they are wrong, and `OSError` where there are
    none."""
    path = os.path.join(folder, FILE)
    table = _table(path)
    fonts, sections, pages = table.pop("font", []), table.pop("sections", {}), table.pop("page", [])
    defaults = {key: value for key, value in Settings._field_defaults.items() if key not in ("sections", "written")}
    values = _values(path, table, defaults, ("[sections]", "[[font]]", "[[page]]"))
    if not isinstance(fonts, list) or not fonts:
        raise UsageError(f"{path}: it names no font: write [[font]], and below it file = \"Sans.ttf\"")
    if not isinstance(pages, list):
        raise UsageError(f"{path}: page is not a list of tables: write [[page]], and below it files = [\"*.html\"]")
    found = Settings(folder, [_font(path, number, font) for number, font in enumerate(fonts, 1)],
                     sections=_sections(path, sections),
                     written=[_written(path, number, page) for number, page in enumerate(pages, 1)], **values)
    _check_once(path, found.fonts)
    _check_choice(path, "display", found.display, DISPLAYS)
    _check_choice(path, "prepare_by", found.prepare_by, (LANGUAGE, SITE))
    _check_choice(path, "text_by", found.text_by, (FAMILY, PAGE))
    inside = os.path.relpath(os.path.realpath(found.output), os.path.realpath(folder))
    if inside == os.curdir or inside.split(os.sep)[0] in (os.pardir, WORK):
        raise UsageError(f"{path}: out has to be a folder below that of the site")
    return found._replace(out=inside if os.path.isabs(found.out) else os.path.normpath(found.out))


def _matching(folder: str, pattern: str) -> Iterator[str]:
    """The names of the files of a folder that match a pattern, with `/` between folders."""
    for path in glob.glob(os.path.join(glob.escape(folder), pattern), recursive=True):
        if os.path.isfile(path):
            yield os.path.relpath(path, folder).replace(os.sep, "/")


def page_names(settings: Settings) -> List[str]:
    """The names of all pages. Raises `UsageError` for a pattern of the settings that names none."""
    every: Set[str] = set()
    for pattern in settings.pages:
        found = {name for name in _matching(settings.folder, pattern) if not name.startswith(f"{settings.out}/")}
        if not found and pattern not in Settings._field_defaults["pages"]:
            raise UsageError(f"{settings.path}: pages: {pattern} is the name of no page")
        every |= found
    if not every:
        raise UsageError(f"{settings.path}: no page is there: pages is {', '.join(settings.pages)}")
    return sorted(every)


def named(settings: Settings, where: str, patterns: Sequence[str], pages: Sequence[str]) -> Set[str]:
    """The pages that patterns name. Raises `UsageError` for a pattern that names none."""
    found: Set[str] = set()
    for pattern in patterns:
        some = set(_matching(settings.folder, pattern)).intersection(pages)
        if not some:
            raise UsageError(f"{settings.path}: {where}: {pattern} is the name of no page")
        found |= some
    return found


def sections_of(settings: Settings, pages: Sequence[str]) -> Dict[str, str]:
    """The section of each page; a page that none names is one of its own. Raises `UsageError` where a page is of two
    sections, or two sections have one name."""
    found: Dict[str, str] = {}
    for name, patterns in settings.sections.items():
        for page in sorted(named(settings, f"sections: {name}", patterns, pages)):
            if page in found:
                raise UsageError(f"{settings.path}: {page} is of the sections {found[page]} and {name}")
            found[page] = name
    taken = {name.casefold() for name in settings.sections}
    for page in pages:
        if page not in found:
            found[page] = os.path.splitext(page)[0].replace("/", "-")
            if found[page].casefold() in taken:
                raise UsageError(f"{settings.path}: two sections have the name {found[page]}: one is of {page}")
            taken.add(found[page].casefold())
    return found
