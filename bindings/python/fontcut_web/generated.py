"""Text that style sheets put before and after the text of elements, in the lines in which it is drawn (CSS Generated
Content 3): a letter may be drawn otherwise beside another one."""
from __future__ import annotations

import itertools
import re
from typing import Any, Dict, Iterable, Iterator, List, NamedTuple, Sequence, Set, Tuple

import cssselect2
import tinycss2

from . import counters
from .cascade import Cascade, element_of, known_selectors, listed, tag_of
from .font_values import resolved
from .pages import INLINE, SILENT, ended
from .rules import Selectors, Subject, subjects_of
from .selected import Selected, widened
from .styles import quotes_of

# What stands for a part of an element that text is added to, at the end of a selector.
_PLACE = re.compile(r"^(.*?)::?(before|after|marker)((?::[\w-]+)*)\s*$", re.I | re.S)
BEFORE, AFTER = "before", "after"
# What stands for quotation marks in a text until they are known.
_OPEN, _CLOSE = "\1", "\2"
# Quotation marks that browsers take by the language, each with the one that ends what it begins.
_PAIRS = [("\u201c", "\u201d"), ("\u2018", "\u2019"), ("\u201e", "\u201c"), ("\u201a", "\u2018"), ("\u201e", "\u201d"),
          ("\u201a", "\u2019"), ("\u201d", "\u201d"), ("\u2019", "\u2019"), ("\xab", "\xbb"), ("\xbb", "\xab"),
          ("\u2039", "\u203a"), ("\u203a", "\u2039"), ("\u300c", "\u300d"), ("\u300e", "\u300f")]
# How many ways of drawing a line are shaped at most, beside the one without what is added.
MOST = 64
_BLANKS, _HALF = re.compile("[ \t\n\f\r]+"), re.compile("[\ud800-\udfff]")
_QUOTES = {"open-quote": _OPEN, "close-quote": _CLOSE}
_ADDRESSES = frozenset("url image-set -webkit-image-set image cross-fade element".split())


class Slot(NamedTuple):
    """What may be added at a place: texts, and the characters of what is not known before it is drawn, as numbers."""

    texts: Tuple[str, ...]
    open: str = ""


NO_SLOT = Slot(("",))
# Values of `display` by which an element is a part of a line, and elements that are so beside those of pages: those
# that authors name, which have a hyphen, too.
_IN_LINES = frozenset(["inline", "contents", "inline flow", "flow inline"])
_INLINE = frozenset(["output", "map", "slot"])


class _Content(NamedTuple):
    """What a declaration adds, in each way in which custom properties may be set; with the number of its style sheet,
    whether it is important, how special its selector is, and whether it surely applies."""

    place: str
    values: Sequence[Sequence[Any]]
    sheet: int
    is_important: bool
    special: Tuple[int, ...]
    is_sure: bool


class Line(NamedTuple):
    """A block of text with what is added to it, in one of the ways in which that may be: pieces of text, each with the
    element that it is of; and the characters of what is not known, if some is not."""

    pieces: List[Tuple[str, Any]]
    open: str = ""


def _text(string: Any) -> str:
    """The text of a string, without halves of characters."""
    return _HALF.sub("\ufffd", str(string.value))


def _is_in_line(declared: Any) -> bool:
    """Whether a declaration makes an element a part of a line."""
    value = " ".join(tinycss2.serialize(declared.value).lower().split())
    return declared.lower_name == "display" and (value in _IN_LINES or "var(" in value)


def _strings(tokens: Iterable[Any]) -> Iterator[str]:
    """The texts of strings, and of those in calls."""
    for one in tokens:
        if one.type == "string":
            yield _text(one)
        elif one.type == "function":
            yield from _strings(one.arguments)


def _attribute(call: Any, node: Any) -> Tuple[str, str]:
    """The text of an attribute of an element, and characters that are not known where another type is asked for."""
    words = [one for one in call.arguments if one.type not in ("whitespace", "comment")]
    name = words[0].lower_value if words and words[0].type == "ident" else ""
    value = next((str(value) for key, value in node.items() if str(key).lower() == name), None)
    if name and (len(words) == 1 or words[1].type == "literal" and words[1].value == ","):
        return "".join(_strings(words[2:])) if value is None else value, ""
    return "", "".join([value or "", *_strings(words)]) or " "


class Contents:
    """What style sheets add before and after the text of the elements of a page, whose numbers and marks of lists have
    these characters."""

    def __init__(self, cascade: Cascade, languages: Sequence[str], numbers: str) -> None:
        self.cascade, self.numbers = cascade, numbers
        self.matcher, self.others = cssselect2.Matcher(), []  # type: Any, List[Tuple[Subject, _Content]]
        self.every = [*(block for *_, block, _ in cascade.blocks), *cascade.inline.values()]
        self.pairs = self._pairs(languages)
        lists = [one for block in self.every for one in block if one.lower_name.startswith("list-style")]
        self.is_inside = any("inside" in tinycss2.serialize(one.value).lower() for one in lists)
        for number, prelude, block, is_sure in cascade.blocks:
            declared = [one for one in block if one.lower_name == "content"]
            for selector in listed(prelude) if declared else ():
                for one in declared:
                    self._add(selector, one, number, is_sure)
        self.slots, self.inline = self._slots(), set(self._inline())

    def _inline(self) -> Iterator[Any]:
        """The elements that may be parts of a line, beside those that are so in every page."""
        rules = [(prelude, block) for _, prelude, block, _ in self.cascade.blocks if any(map(_is_in_line, block))]
        selectors = [Selectors(one, tuple(subjects_of(one)), True) for prelude, _ in rules for one in listed(prelude)
                     if not _PLACE.match(one)]
        found = Selected(self.cascade.document, self.cascade.is_exact).elements_of(selectors)
        yield from (node for nodes in found.values() for node in nodes)
        yield from (node for node, block in self.cascade.inline.items() if any(map(_is_in_line, block)))
        yield from (node for node in self.cascade.document.iter() if "-" in tag_of(node) or tag_of(node) in _INLINE)

    def _pairs(self, languages: Sequence[str]) -> List[str]:
        """The quotation marks that may stand around text, two and two: those of languages, and of style sheets."""
        known = quotes_of(languages)
        found = [pair for pair in _PAIRS if set(pair) <= set(known)]
        own: List[str] = []
        for one in (one for block in self.every for one in block if one.lower_name == "quotes"):
            for value in resolved(one.value, self.cascade.custom):
                strings = list(_strings(value))
                own += [f"{first}\0{last}" for first, last in zip(strings[::2], strings[1::2])]
        return list(dict.fromkeys([*(f"{first}\0{last}" for first, last in found), *own]))

    def _add(self, selector: str, declared: Any, sheet: int, is_sure: bool) -> None:
        """Adds a declaration of a rule with this selector."""
        found = _PLACE.match(selector)
        place = found[2].lower() if found else ""
        if not found and selector.strip() != "*":
            return
        values = list(resolved(declared.value, self.cascade.custom))
        base = (found[1].strip() if found else "") or "*"
        base = f"{base}*" if base[-1] in ">+~" else base
        known = known_selectors(base, is_sure and bool(found) and not found[3]) if found else []
        content = _Content(place, values, sheet, declared.important, (), bool(known))
        selectors = known or known_selectors(widened(base), self.cascade.is_exact)
        for one in selectors:
            self.matcher.add_selector(one, content._replace(special=one.specificity))
        self.others += [] if selectors else [(subject, content) for subject in subjects_of(base)]

    def _slots(self) -> Dict[Any, Dict[str, Slot]]:
        """What is added to each element, by the place."""
        found: Dict[Any, Dict[str, Slot]] = {}
        for one in cssselect2.ElementWrapper.from_html_root(self.cascade.document).iter_subtree():
            node = one.etree_element
            element = element_of(node)
            every = [content for *_, content in self.matcher.match(one)]
            every += [content for subject, content in self.others if subject.may_be(element)]
            is_marked = self.is_inside and element.tag in ("li", "summary")
            if is_marked or element.tag == "q" or any(content.place for content in every):
                found[node] = {place: self._slot(node, place, [
                    content for content in every if content.place in (place, "")
                    or content.place == "marker" and place == BEFORE]) for place in (BEFORE, AFTER)}
        return found

    def _slot(self, node: Any, place: str, every: Sequence[_Content]) -> Slot:
        """What may be added to an element at a place. Of what surely applies the last of the most special counts. A
        mark of a list stands apart, or in the line."""
        sure = [one for one in every if one.is_sure and one.place == place]
        if sure:
            most = max((one.is_important, one.special) for one in sure)
            last = {one.sheet: one for one in sure if (one.is_important, one.special) == most}
            every = [*last.values(), *(one for one in every if one not in sure)]
        itself = [] if sure else [_QUOTES["open-quote" if place == BEFORE else "close-quote"]
                                  if tag_of(node) == "q" else ""]
        added = [self._added(value, node) for one in every for value in one.values]
        texts = dict.fromkeys([*itself, *(text for text, _ in added)])
        numbers = self.numbers if self.is_inside and place == BEFORE and tag_of(node) in ("li", "summary") else ""
        return Slot(tuple(texts), "".join(dict.fromkeys("".join([numbers, *(unknown for _, unknown in added)]))))

    def _added(self, tokens: Sequence[Any], node: Any) -> Tuple[str, str]:
        """The text of a value of `content`, and the characters of what is not known of it. What comes after a slash is
        read aloud alone."""
        shown = itertools.takewhile(lambda one: not (one.type == "literal" and one.value == "/"), tokens)
        items = [self._item(one, node) for one in shown]
        return "".join(text for text, _ in items), "".join(unknown for _, unknown in items)

    def _item(self, one: Any, node: Any) -> Tuple[str, str]:
        """The text of a part of a value of `content`, and the characters of one that is not known."""
        if one.type == "string":
            return _text(one), ""
        if one.type == "ident":
            return _QUOTES.get(one.lower_value, ""), ""
        if one.type != "function" or one.lower_name in _ADDRESSES:
            return "", ""
        if one.lower_name == "attr":
            return _attribute(one, node)
        if one.lower_name == "var":
            values = (self.cascade.custom.get(getattr(word, "value", ""), ()) for word in one.arguments)
            return "", "".join(text for some in values for value in some for text in _strings(value))
        styles = counters.of_styles(tinycss2.serialize(one.arguments).rpartition(",")[2], has_marks=True)
        return "", "".join([counters.digits(), *styles, *_strings(one.arguments), self.numbers])

    def of(self, node: Any, place: str) -> Slot:
        """What may be added to an element at a place."""
        return self.slots.get(node, {}).get(place, NO_SLOT)


# A piece of a block: what may stand there, and the element that it is of.
_Piece = Tuple[Slot, Any]


def _blocks(contents: Contents, node: Any, inline: Set[Any]) -> Iterator[List[_Piece]]:
    """The blocks of an element and those in it, each in pieces, where some elements are inline beside others; those of
    an inline element with added text by themselves too, for it may stand in a line of its own."""
    found: List[_Piece] = []

    def walk(node: Any) -> Iterator[List[_Piece]]:
        tag = tag_of(node)
        if not tag or tag in SILENT:
            return
        is_inline = tag in INLINE or node in inline
        if not is_inline:
            yield from ended(found)
        start = len(found)
        before, after = (contents.of(node, place) for place in (BEFORE, AFTER))
        found.append((before, node))
        if node.text:
            found.append((Slot((node.text,)), node))
        for child in node:
            yield from walk(child)
            if child.tail:
                found.append((Slot((child.tail,)), node))
        found.append((after, node))
        if not is_inline:
            yield from ended(found)
        elif node in contents.slots:
            yield list(found[start:])

    yield from walk(node)
    yield from ended(found)


def _is_nested(block: Sequence[_Piece]) -> bool:
    """Whether quotation marks stand in others."""
    depth = 0
    for slot, _ in block:
        for text in slot.texts:
            depth += text.count(_OPEN)
        if depth > 1:
            return True
        depth -= min(depth, max(text.count(_CLOSE) for text in slot.texts))
    return False


def _quoted(pieces: Sequence[Tuple[str, Any]], pair: str) -> List[Tuple[str, Any]]:
    first, _, last = pair.partition("\0")
    return [(text.replace(_OPEN, first).replace(_CLOSE, last), node) for text, node in pieces]


def _ways(block: Sequence[_Piece], pairs: Sequence[str]) -> Iterator[Line]:
    """A block in each of the ways in which text may be added to it: an open one, if these are not known or too many."""
    count, unknown = 1, "".join(slot.open for slot, _ in block)
    for slot, _ in block:
        count = min(count * len(slot.texts), MOST + 1)
    is_quoted = any(mark in text for slot, _ in block for text in slot.texts for mark in (_OPEN, _CLOSE))
    marks = "".join(pairs).replace("\0", "") if is_quoted else ""
    nodes = [node for _, node in block]
    if unknown or count * (len(pairs) if is_quoted else 1) > MOST or _is_nested(block):
        every = "".join(text for slot, _ in block for text in slot.texts if len(slot.texts) > 1)
        letters = [("".join(slot.texts).replace(_OPEN, "").replace(_CLOSE, ""), node) for slot, node in block]
        yield Line(letters, f"{unknown}{marks}{every.replace(_OPEN, '').replace(_CLOSE, '')} ")
        return
    for texts in itertools.product(*(slot.texts for slot, _ in block)):
        way = list(zip(texts, nodes))
        yield from (Line(_quoted(way, pair)) for pair in (pairs if is_quoted else ["\0"]))


def lines_with(contents: Contents) -> Iterator[Line]:
    """The blocks of a page to which text is added, in each of the ways in which that may be, and those that are longer
    than they look."""
    for inline in [set(), contents.inline] if contents.inline else [set()]:
        for block in _blocks(contents, contents.cascade.document, inline):
            if any(node in contents.slots or node in inline for _, node in block):
                yield from _ways(block, contents.pairs)


def texts_with(data: bytes, folder: str, languages: Sequence[str], numbers: str) -> Tuple[List[str], List[str]]:
    """The blocks of a page to which text is added; and of those of which not all is known, the characters."""
    contents = Contents(Cascade(data, folder, lambda _: False), languages, numbers)
    every = list(lines_with(contents))
    texts = [_BLANKS.sub(" ", "".join(text for text, _ in line.pieces)) + line.open for line in every]
    return ([text for text, line in zip(texts, every) if not line.open],
            [text for text, line in zip(texts, every) if line.open])
