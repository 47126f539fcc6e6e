"""What a page shows, as far as its text and its style sheets tell."""
from __future__ import annotations

import re
import unicodedata
from typing import Dict, Iterator, List, NamedTuple, Optional, Sequence, Set, Tuple

import fontcut

from . import own_faces
from .feature_sets import MOST, feature_sets
from .matching import lines_added, matching_of
from .pages import HIDDEN, Page, lines_of, shown
from .rules import Selectors, Subject
from .styles import Added, Features, Source, Styles, cased, features_in, quotes_of, sheets_of, styles_of

# What makes an element a part of a line, which may be none otherwise.
_IN_LINES = re.compile(r"(?<![\w-])display\s*:\s*(?:inline\s*(?:flow\s*)?(?:[;}!]|$)|contents|var\()", re.I)
# A letter of Hebrew, which composes with nothing that is before it.
_TURNED = "\u05d0"
# Numbers of lists have figures of one width (HTML, Rendering, Lists).
_NUMBERS: Features = (("tnum", 1),)
# What can be done about style sheets that are not understood.
BY_FEATURES = ": name its features by --features"
# What is said of a page whose scripts may write text, of a style sheet that is not there, of buttons and fields that
# say nothing, of text of style sheets that is not known, and of a page to which readers write.
SCRIPTS = "it runs scripts, and text that they write may vanish"
LOST = "is no file beside it"
LABELS = ("browsers write in fields and on buttons in their own language, of which English is known: value, alt and "
          "summary say what they show")
OPEN = ("text that style sheets add is not all known before it is drawn, as numbers: letters in lines with it have all "
        "their forms")
FIELDS = "it has fields, and text that readers write in this font may vanish"


class Shown(NamedTuple):
    """What a page shows, as far as it can be known, and what cannot: blocks of text, the languages that it is shown in,
    directions, the sets of features that its runs of text have, all features that its style sheets turn on, whether
    readers write to it, lines that say the rest, the characters of blocks of which not all is known, as numbers in
    them, and the characters that browsers alone write in fields, in another font where one lacks them."""

    path: str
    text: str
    blocks: List[str]
    languages: List[str]
    directions: Set[str]
    features: List[Features]
    turned_on: Set[str]
    has_fields: bool
    unknown: List[str]
    open: List[str]
    of_fields: Set[str]


class Read(NamedTuple):
    """What the style sheets of a page say of its elements, the addresses of those that are no files beside it, the
    rules by which they load fonts, and the blocks to which they add text, with those of which not all is known."""

    styles: Styles
    lost: List[str]
    faces: List[own_faces.Placed]
    added: Tuple[List[str], List[str]]


def read_styles(page: Page, path: str) -> Read:
    """Reads the style sheets of a page in a file."""
    sheets, lost = sheets_of(page, path)
    styles = styles_of(sheets, page.attributes.get("style", ()), page.languages, matching_of(page, path))
    letters = "".join(dict.fromkeys("".join(one.text for one in _added(page, styles))))
    texts = [*(sheet.text for sheet in sheets), *page.attributes.get("style", ())]
    is_asked = _has_added(page, styles) or any(map(_IN_LINES.search, texts)) or any(
        "-" in element.tag for _, element in page.elements)
    lines = lines_added(page, path, numbers_of(page, styles), letters) if is_asked else ([], [])
    return Read(styles, lost, own_faces.faces_of(sheets), lines)


def _has_added(page: Page, styles: Styles) -> bool:
    """Whether style sheets or browsers add text to lines of a page."""
    names = {one.source.name for one in [*styles.texts, *styles.attributes]}
    return page.has_quotes or "content" in names or styles.is_inside


def numbers_of(page: Page, styles: Styles) -> str:
    """The characters of numbers and marks that browsers may write in lines of a page."""
    lists = (one.text for one in styles.texts
             if one.source.name.startswith("list-style") or one.source.selectors.prelude.startswith("@counter-style"))
    return "".join(dict.fromkeys("".join([*page.made, *lists])))


class Additions(NamedTuple):
    """What browsers add to the text of a page: texts, each with what adds it, and the cases that they change text to,
    with what asks for these."""

    texts: List[Added]
    cases: Dict[str, Source]


def _elements(*tags: str) -> Source:
    """Elements to which browsers add text by themselves."""
    return Source(Selectors(", ".join(tags), tuple(Subject(tag, "", frozenset()) for tag in tags)))


def _added(page: Page, styles: Styles) -> List[Added]:
    made = [Added(text, _elements("ol", "li", "input")) for text in page.made]
    made += [Added(text, _elements("input", "details")) for text in page.labels]
    quotes = [Added(quotes_of(page.languages), _elements("q"))] if page.has_quotes else []
    values = [Added(value, one.source) for one in styles.attributes for value in page.attributes.get(one.text, ())]
    return [*made, *styles.texts, *quotes, *values]


def added_to(page: Page, read: Read) -> Additions:
    """What browsers add to the text of a page with these style sheets."""
    return Additions(_added(page, read.styles), read.styles.cases)


def _of_fields(page: Page, styles: Styles, text: str) -> Set[str]:
    """The characters that browsers alone write in fields and on buttons of a page, which has more text."""
    others = page._replace(labels=[], made=[one for one in page.made if one != HIDDEN])
    known = {letter for one in _added(others, styles) for letter in one.text}
    return set("".join([*page.labels, *({HIDDEN} & {*page.made})])) - known - set(page.text) - set(text)


def shown_by(page: Page, path: str, read: Read, more: Sequence[Features] = (), text: str = "",
             drawn: Optional[Sequence[str]] = None) -> Shown:
    """What a page in a file shows, with its style sheets, with more sets of features, and with more text. The text of
    one that is drawn in part has what browsers add, with these blocks of which not all is known."""
    styles, lost, _, (within, unknown) = read
    added = [one.text for one in _added(page, styles)] if drawn is None else []
    blocks = [*page.blocks, *(within if drawn is None else ()), *lines_of("\n".join([*added, text]))]
    every = list(unknown if drawn is None else drawn)
    every += [other for case in styles.cases for block in every for other in cased(block, case, page.languages)]
    blocks += [other for case in styles.cases for block in blocks for other in cased(block, case, page.languages)]
    more = [*more, *([_NUMBERS] if _has_numbers(page, styles) else [])]
    sets = _with_more(feature_sets(page.elements, styles.rules, "scripts" in page.writers), more)
    # What stands between parts is no character of them, and composes with none.
    whole = "\0".join([page.text, text, *added, *blocks])
    return Shown(path, whole, list(dict.fromkeys(blocks)), ["", *page.languages], _directions(page, styles, blocks),
                 sets[:MOST], _turned_on(page, styles, more), "fields" in page.writers,
                 list(_unknown(page, path, styles, lost, len(sets) > MOST)), every, _of_fields(page, styles, text))


def _has_numbers(page: Page, styles: Styles) -> bool:
    """Whether a page has lists with numbers, as far as its elements and style sheets tell."""
    is_list = any(element.tag == "ol" for _, element in page.elements)
    return is_list or any(one.source.name.startswith("list-style") for one in styles.texts)


def _with_more(sets: Sequence[Features], more: Sequence[Features]) -> List[Features]:
    """Sets of features, and each of these with each of more sets."""
    both = [tuple(sorted({**dict(one), **dict(other)}.items())) for other in ((), *more) for one in sets]
    return list(dict.fromkeys(both))


def with_features(page: Shown, more: Sequence[Features]) -> Shown:
    """What a page shows, with more sets of features."""
    sets = _with_more(page.features, more)
    unknown = [_many(page.path)] if len(sets) > MOST else []
    return page._replace(features=sets[:MOST], unknown=list(dict.fromkeys([*page.unknown, *unknown])))


def _many(path: str) -> str:
    """What is said of a page that has more sets of features than are shaped."""
    return f"{path}: its text may have features in more than {MOST} ways, and is shaped in as many"


def _turned_on(page: Page, styles: Styles, more: Sequence[Features]) -> Set[str]:
    """The features that style sheets and elements turn on, whatever they are about."""
    every = [*(rule.features for rule in styles.rules), *map(features_in, page.attributes.get("style", ()))]
    sets = [*(features for one in every for features in one.values()), *more]
    return {tag for features in sets for tag, value in features if value}


def letters_of(page: Shown) -> Set[str]:
    """The characters of what a page shows, and those that a shaper takes for them in its directions."""
    found = set(page.text) | set(fontcut.needed(page.text))
    if page.directions & {"rtl", "override"}:
        # Beside a letter from right to left, those that mirror others are needed.
        found |= set(fontcut.needed(f"{page.text}\0{_TURNED}")) - {_TURNED}
    if "ttb" in page.directions:
        found |= {chr(form) for form, code in _upright().items() if code in page.text}
    return shown("".join(found))


def _upright() -> Dict[int, str]:
    """The characters that have forms for vertical lines, by these forms, which shapers take where a font has no feature
    for them."""
    forms = {form: unicodedata.decomposition(chr(form)).split() for form in range(0xFE10, 0xFE50)}
    return {form: chr(int(parts[1], 16)) for form, parts in forms.items() if parts[:1] == ["<vertical>"]}


def _directions(page: Page, styles: Styles, blocks: Sequence[str]) -> Set[str]:
    """The directions of a page, as its style sheets and its letters have them too."""
    classes = set(map(unicodedata.bidirectional, "".join(blocks)))
    return page.directions | styles.directions | (set() if classes.isdisjoint(("R", "AL")) else {"rtl"})


def _unknown(page: Page, path: str, styles: Styles, lost: Sequence[str], is_more: bool) -> Iterator[str]:
    """What cannot be known of a page."""
    said = {"scripts": SCRIPTS, "fields": FIELDS}
    yield from (f"{path}: {said[writer]}" for writer in page.writers)
    yield from (f"{path}: the style sheet {address} {LOST}{BY_FEATURES}" for address in lost)
    yield from (f"{path}: {declared!r} is not understood{BY_FEATURES}" for declared in styles.unread)
    if is_more:
        yield _many(path)
