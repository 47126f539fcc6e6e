"""What style sheets say of how text is shaped: features, capitals, and text that they add (CSS Fonts 4, CSS Text 3)."""
from __future__ import annotations

import os
import re
import unicodedata
from typing import (Callable, Collection, Dict, Hashable, Iterable, Iterator, List, NamedTuple, Optional, Sequence, Set,
                    Tuple, TypeVar)
from urllib.parse import unquote, urlsplit

from . import counters
from .common import UsageError
from .custom_values import Custom, custom_of, values_of
from .pages import Page
from .rules import ANY, COMMENT, STRING, Selectors, Subject, calm, rules_of, unescaped

Item = TypeVar("Item", bound=Hashable)
# Some features with the value that each is set to.
Features = Tuple[Tuple[str, int], ...]

# The descriptors of counter styles, which add text, and other properties.
_COUNTERS = "symbols", "additive-symbols", "prefix", "suffix", "negative", "pad", "system"
_PROPERTIES = ("font-feature-settings|font-language-override|font-variant(?:-[a-z-]+)?|font|text-transform|content|"
               "quotes|text-combine(?:-upright)?|text-overflow|hyphens|hyphenate-character|line-clamp|"
               f"list-style(?:-type|-position)?|text-emphasis(?:-style)?|direction|unicode-bidi|writing-mode|{'|'.join(_COUNTERS)}")
_VALUE = rf"(?:{STRING}|[^;{{}}\"'])*"
_DECLARATION = re.compile(rf"(?<![\w-])(?:-(?:webkit|moz|ms)-)?({_PROPERTIES})\s*:\s*({_VALUE})", re.I)
_IMPORTANT = re.compile(r"!\s*important\s*$", re.I)
_IMPORT = re.compile(rf"@import\s+(?:url\(\s*)?({STRING}|[^\s;)\"']+)", re.I)
_SETTING = re.compile(r"[\"']([\x20-\x7e]{4})[\"']\s*(on|off|\d+)?", re.I)
# Strings and addresses, which are no words of CSS; an attribute that a text shows, and calls with a counter style.
_NO_WORDS = re.compile(rf"{STRING}|url\([^)]*\)", re.I)
_ATTRIBUTE = re.compile(r"attr\(\s*([^\s,)]+)", re.I)
_COUNTER = re.compile(r"counters?\(([^)]*)\)", re.I)
# Properties that elements within an element have too, if these say nothing else.
_INHERITED = frozenset("""list-style list-style-type quotes text-emphasis text-emphasis-style hyphens
    hyphenate-character""".split())
# What stands before a counter style, with its name, and the words that may name it.
_COUNTER_STYLE, _WORDS = re.compile(r"@counter-style ([\w-]+)", re.I), re.compile(r"(?:[\w-]|[^\0-\x7f])+")
# Marks that capitals of Greek go without.
_ACCENTS = re.compile("[\u0300\u0301\u0313\u0314\u0342\u0345]")

# The features that the words of font-variant stand for, by the properties that have these words; those of a word that
# turns them off are set to 0. Where a font lacks small capitals of one form, a browser takes those of another.
_VARIANTS: Dict[str, Dict[str, str]] = {
    "font-variant-ligatures": {
        "common-ligatures": "liga clig", "discretionary-ligatures": "dlig", "historical-ligatures": "hlig",
        "contextual": "calt"},
    "font-variant-caps": {
        "small-caps": "smcp", "all-small-caps": "smcp c2sc", "petite-caps": "pcap smcp",
        "all-petite-caps": "pcap c2pc smcp c2sc", "unicase": "unic smcp", "titling-caps": "titl"},
    "font-variant-numeric": {
        "lining-nums": "lnum", "oldstyle-nums": "onum", "proportional-nums": "pnum", "tabular-nums": "tnum",
        "diagonal-fractions": "frac", "stacked-fractions": "afrc", "ordinal": "ordn", "slashed-zero": "zero"},
    "font-variant-east-asian": {
        "jis78": "jp78", "jis83": "jp83", "jis90": "jp90", "jis04": "jp04", "simplified": "smpl",
        "traditional": "trad", "full-width": "fwid", "proportional-width": "pwid", "ruby": "ruby"},
    "font-variant-alternates": {"historical-forms": "hist"},
    "font-variant-position": {"sub": "subs", "super": "sups"}}
_OFF: Dict[str, str] = {"no-common-ligatures": "liga clig", "no-discretionary-ligatures": "dlig",
                        "no-historical-ligatures": "hlig", "no-contextual": "calt", "none": "liga clig dlig hlig calt"}
# The features for letters that stand side by side in a vertical line (CSS Writing Modes 4, text-combine-upright): a
# browser takes one of them, by how many letters these are. Each is a value of one property, named behind it.
_COMBINED = "hwid", "twid", "qwid"
SETTINGS, _LIGATURES = "font-feature-settings", "font-variant-ligatures"
_CAPITALS = frozenset("small-caps all-small-caps petite-caps all-petite-caps unicase".split())
# Quotation marks that browsers take, by the language of a text; the first are those of any other.
_QUOTES = "\u201c\u201d\u2018\u2019\u201e\u201a\xab\xbb\u2039\u203a"
_CORNERS = "\u300c\u300d\u300e\u300f"
_WITH_CORNERS = "ja", "zh", "yue"


class StyleSheet(NamedTuple):
    """The text of a style sheet, and the path of the file in which it stands."""

    text: str
    path: str


class FeatureRule(NamedTuple):
    """The features that a rule sets, by property, with what its elements may be."""

    subjects: Tuple[Subject, ...]
    features: Dict[str, Features]


class Source(NamedTuple):
    """What adds text to elements: the selectors of a rule, the path of its style sheet, and a property, of which
    elements within these may have what it says; or the elements alone, where browsers add it by themselves."""

    selectors: Selectors
    path: str = ""
    name: str = ""

    @property
    def is_inherited(self) -> bool:
        return self.name in _INHERITED


class Added(NamedTuple):
    """Text that is added to elements, and what adds it."""

    text: str
    source: Source


class Styles(NamedTuple):
    """What style sheets say: the rules that set features, the cases that text is changed to, each with what asks for
    it first, text that is added, and attributes whose values are, the directions of text, as a page has them and `ttb`
    for vertical lines, what could not be read, and whether marks of lists may stand in the lines of text."""

    rules: List[FeatureRule]
    cases: Dict[str, Source]
    texts: List[Added]
    attributes: List[Added]
    directions: Set[str]
    unread: List[str]
    is_inside: bool = False


# Which of the selectors of rules may be about an element.
Matching = Callable[[Sequence[Selectors]], Collection[Selectors]]


def _variant(name: str, words: Sequence[str]) -> Iterator[Tuple[str, Features]]:
    """The features that a property of font-variant sets, or each of them where it is the one for all."""
    for one, known in _VARIANTS.items():
        if name in ("font-variant", one):
            off = _OFF if one == _LIGATURES else {}
            found = [(tag, value) for words_of, value in ((known, 1), (off, 0)) for word in words
                     for tag in words_of.get(word, "").split()]
            yield one, tuple(found)


def _settings(value: str) -> Iterator[Tuple[str, int]]:
    """The features of font-feature-settings."""
    for tag, number in _SETTING.findall(value):
        yield tag, {"": 1, "on": 1, "off": 0}.get(number.lower(), int(number) if number.isdigit() else 0)


def _features(name: str, value: str) -> Iterator[Tuple[str, Features]]:
    """The features that a declaration sets, by the properties that it is for."""
    if name == SETTINGS:
        yield name, tuple(_settings(value))
    elif name.startswith("font-variant"):
        yield from _variant(name, value.lower().split())
    elif name == "font":
        yield SETTINGS, ()
        yield from _variant("font-variant", [word for word in value.lower().split() if word == "small-caps"])
    elif name.startswith("text-combine") and value.strip().lower() != "none":
        yield from ((f"text-combine {tag}", ((tag, 1),)) for tag in _COMBINED)


def features_in(declarations: str) -> Dict[str, Features]:
    """The features that declarations set, by property."""
    declared = declarations_of(calm(declarations))
    return {name: features for one in declared for name, features in _features(*one)}


def _cases(name: str, value: str) -> Set[str]:
    """The cases that a declaration changes text to, or that a browser takes for small capitals that a font lacks."""
    words = set(value.lower().split())
    if name == "text-transform":
        return words & {"uppercase", "lowercase", "capitalize"}
    return {"uppercase"} if name.startswith("font") and words & _CAPITALS else set()


def cased(text: str, case: str, languages: Sequence[str]) -> List[str]:
    """A text in another case, as browsers write it in some languages."""
    known = {language[:2].lower() for language in languages}
    if case == "capitalize":
        return [re.sub(r"(?<![\w'\u2019])\w", lambda found: found[0].title(), text)]
    made = [text.upper() if case == "uppercase" else text.lower()]
    if known & {"tr", "az"}:
        made.append(text.replace("i", "\u0130").upper() if case == "uppercase" else text.replace("I", "\u0131").lower())
    if "el" in known and case == "uppercase":
        made.append(unicodedata.normalize("NFC", _ACCENTS.sub("", unicodedata.normalize("NFD", text.upper()))))
    return made


def quotes_of(languages: Sequence[str]) -> str:
    """The quotation marks that browsers may take in some languages."""
    return _QUOTES + (_CORNERS if any(one.lower().startswith(_WITH_CORNERS) for one in languages) else "")


def _counted(name: str, value: str) -> Iterator[str]:
    """The characters of numbers and marks that a declaration asks for."""
    words = _NO_WORDS.sub(" ", value)
    if name.startswith("list-style") or name == "system":
        yield from counters.of_styles(words)
    elif name.startswith("text-emphasis"):
        yield from counters.of_emphasis(words)
    elif name == "content":
        for listed in _COUNTER.findall(words):
            _, comma, style = listed.rpartition(",")
            yield from list(counters.of_styles(style, has_marks=True)) if comma else [counters.digits()]


def _texts(name: str, value: str, languages: Sequence[str]) -> Iterator[str]:
    """Text that a declaration adds to a page in these languages."""
    yield from _counted(name, value)
    if name in _COUNTERS:
        yield from map(_string, re.findall(STRING, value))
        # Symbols may be words, too.
        yield unescaped(_NO_WORDS.sub(" ", value)) if name != "system" else ""
    elif not name.startswith("font"):
        yield from map(_string, re.findall(STRING, value))
    if name in ("text-overflow", "line-clamp"):
        yield "\u2026"
    if name == "hyphens":
        yield "-\u2010"
    if name == "content" and "-quote" in value.lower():
        yield quotes_of(languages)


def _string(text: str) -> str:
    """What a string of CSS stands for."""
    return unescaped(text[1:-1])


def _attributes(name: str, value: str) -> Iterator[str]:
    """The attributes of elements that a declaration adds as text."""
    if name == "content":
        yield from (found.lower() for found in _ATTRIBUTE.findall(_NO_WORDS.sub(" ", value)))


def _directions(name: str, value: str) -> Set[str]:
    """Directions that a declaration gives to text."""
    value = value.strip().lower()
    found = {("direction", "rtl"): "rtl", ("unicode-bidi", "bidi-override"): "override",
             ("unicode-bidi", "isolate-override"): "override"}.get((name, value), "")
    is_vertical = name == "writing-mode" and not value.startswith("horizontal")
    return {"ttb"} if is_vertical else {found} - {""}


def _unread(name: str, value: str) -> Iterator[str]:
    """What a declaration says that only a browser can tell."""
    is_set = "var(" in value and name.startswith("font-")
    is_wide = name == "text-transform" and "full" in value
    is_alternate = name in ("font-variant", "font-variant-alternates") and re.search(r"\b(?!var)[a-z-]+\(", value)
    if is_set or is_wide or is_alternate or name == "font-language-override":
        yield f"{name}: {value.strip()}"


def declarations_of(text: str) -> Iterator[Tuple[str, str]]:
    """The names and values of declarations that are known here."""
    for name, value in _DECLARATION.findall(text):
        yield name.lower(), _IMPORTANT.sub("", value)


def _resolved(text: str, custom: Custom) -> Iterator[Tuple[str, str]]:
    """The same, of those that add text with each value that custom properties may give them."""
    for name, value in declarations_of(text):
        is_set = "var(" in value.lower() and not name.startswith("font")
        yield from ((name, one) for one in (values_of(value, custom) if is_set else [value]))


def _once(items: Iterable[Item]) -> List[Item]:
    """Items in their order, each once."""
    return list(dict.fromkeys(items))


class _Block(NamedTuple):
    """The declarations of a rule that are known here, the selectors of the rule, and the path of its style sheet, which
    those of a single element do not have."""

    selectors: Selectors
    path: Optional[str]
    declarations: List[Tuple[str, str]]


def _blocks(sheets: Sequence[StyleSheet], inline: Sequence[str], matching: Optional[Matching]) -> List[_Block]:
    """The rules of style sheets that may be about an element, and the declarations of single elements. A counter style
    that none of these names counts nothing, if no script does."""
    read = [(sheet.path, rule.selectors, "; ".join(rule.declarations))
            for sheet in sheets for rule in rules_of(sheet.text)]
    own = list(map(calm, inline))
    custom = custom_of([*((selectors.prelude, text) for _, selectors, text in read), *(("", text) for text in own)])
    rules = [_Block(selectors, path, list(_resolved(text, custom))) for path, selectors, text in read]
    every = [_Block(ANY, None, list(_resolved(text, custom))) for text in own]
    if matching is None:
        return [*rules, *every]
    known = matching(_once(block.selectors for block in rules if block.declarations))
    every = [*(block for block in rules if block.selectors in known), *every]
    words = {word for block in every for _, value in block.declarations for word in _WORDS.findall(value)}
    styles = [(block, _COUNTER_STYLE.match(block.selectors.prelude)) for block in every]
    return [block for block, style in styles if not style or style[1] in words]


def styles_of(sheets: Sequence[StyleSheet], inline: Sequence[str], languages: Sequence[str],
              matching: Optional[Matching] = None) -> Styles:
    """What style sheets say, and declarations of single elements, for a page in these languages: all rules, or those
    alone whose selectors may be about an element of it."""
    found, is_inside = Styles([], {}, [], [], set(), []), False
    for block in _blocks(sheets, inline, matching):
        features: Dict[str, Features] = {}
        for name, value in block.declarations:
            source = Source(block.selectors, block.path or "", name)
            features.update(_features(name, value))
            found.texts.extend(Added(text, source) for text in _texts(name, value, languages) if text)
            found.attributes.extend(Added(one, source) for one in _attributes(name, value))
            found.directions.update(_directions(name, value))
            found.unread.extend(_unread(name, value))
            is_inside = is_inside or name.startswith("list-style") and "inside" in value.lower()
            for case in sorted(_cases(name, value)):
                found.cases.setdefault(case, source)
        if features and block.path is not None:
            found.rules.append(FeatureRule(block.selectors.subjects, features))
    return found._replace(texts=_once(found.texts), attributes=_once(found.attributes), unread=_once(found.unread),
                          is_inside=is_inside)


def parts_of(address: str) -> Tuple[str, str]:
    """The scheme and the host of an address, and its path. Both are empty where it is malformed, or no file has it."""
    try:
        parts = urlsplit(address)
    except ValueError:
        return "", ""
    path = unquote(parts.path)
    return ("", "") if "\0" in path else (parts.scheme + parts.netloc, path)


def file_of(address: str, folder: str) -> str:
    """The path of a style sheet that a page or another style sheet in a folder names, or an empty text."""
    host, path = parts_of(address)
    return "" if host or not path or path.startswith("/") else os.path.join(folder, path)


def _linked(address: str, folder: str, seen: Set[str], lost: List[str]) -> Iterator[StyleSheet]:
    """A linked style sheet, and those that it imports."""
    path = file_of(address, folder)
    if path in seen:
        return
    try:
        with open(path, encoding="utf-8-sig", errors="replace") as opened:
            text = opened.read()
    except OSError:
        lost.append(address)
        return
    seen.add(path)
    yield StyleSheet(text, path)
    yield from _imported(text, os.path.dirname(path), seen, lost)


def _imported(text: str, folder: str, seen: Set[str], lost: List[str]) -> Iterator[StyleSheet]:
    """The style sheets that one imports, which has this text."""
    for address in _IMPORT.findall(COMMENT.sub(" ", text)):
        yield from _linked(address.strip("\"'"), folder, seen, lost)


def sheets_of(page: Page, path: str) -> Tuple[List[StyleSheet], List[str]]:
    """The style sheets of a page in a file, and the addresses of those that are no files beside it."""
    folder, lost = os.path.dirname(path), []  # type: str, List[str]
    seen: Set[str] = set()
    sheets = [StyleSheet(text, path) for text in page.styles]
    for text in page.styles:
        sheets += _imported(text, folder, seen, lost)
    for address in page.links:
        sheets += _linked(address, folder, seen, lost)
    return sheets, lost


def features_of(words: Sequence[str]) -> List[Features]:
    """The features of each list, as in `smcp,onum=2,liga=0`. Raises `UsageError` for what is none."""
    found: List[Features] = []
    for listed in words:
        pairs = [re.fullmatch(r"\s*([\x21-\x7e]{4})(?:=(\d+))?\s*", word) for word in listed.split(",")]
        if not all(pairs):
            raise UsageError(f"{listed!r} is no list of features: write smcp,onum or liga=0")
        found.append(tuple(sorted((pair[1], int(pair[2] or 1)) for pair in pairs if pair)))
    return found
