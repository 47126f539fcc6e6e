"""Which fonts the elements of a page may have, by its style sheets (CSS Cascade 5). What only a browser knows, as
states of elements, sizes of windows and layers, adds fonts to those that an element has, and takes none away."""
from __future__ import annotations

import os
import re
from typing import Any, Callable, Dict, FrozenSet, Iterable, Iterator, List, Mapping, NamedTuple, Sequence, Tuple

import cssselect2
import html5lib
import tinycss2
from fontcut_output import read

from .elements import Element, plain
from .font_values import FAMILY, INITIAL, STYLE, WEIGHT, Change, Fonts, bolder, changes_of
from .pages import decoded
from .rules import Subject, subjects_of
from .styles import file_of

PROPERTIES = FAMILY, WEIGHT, STYLE
# Selectors that are read here as browsers read them. All others may be about each element like their last part.
_KNOWN = re.compile(r"""(?:[\w\s.#>+~*,()-]|[^\0-\x7f]|\[[\w-]+\]|\[(?:lang|dir|type)[~|^$*]?=("?)[a-z-]+\1\]
    |:(?:root|first-child|last-child|only-child|first-of-type|last-of-type|not|is|where|lang)(?![\w-])
    |:nth-(?:last-)?(?:child|of-type)(?=\([\s\dn+-]*(?:odd|even)?\)))+""", re.X)
# Rules around others, which may apply or not; those whose declarations any element may have; media that are always
# there; and a selector of any element.
_CONDITIONS = frozenset("media supports layer container scope document starting-style".split())
_ANYWHERE = frozenset(["keyframes", "-webkit-keyframes", "-moz-keyframes"])
# Attributes whose values have small and capital letters alike, of those that are asked for (HTML, Case-sensitivity of
# selectors).
_SMALL = "lang", "dir", "type"
# As special as what an element says of itself.
_OWN = (1 << 30,)
_SHOWN = frozenset(["", "all"])
_ANY = "*"
# A selector of a rule in another one where the outer one stands against a word; and so many selectors are told apart.
_JOINED, _MOST_NESTED = re.compile(r"[\w\])]&|&[\w*]"), 64
_TYPES = "", "text/css"
# What browsers say of elements (HTML, Rendering): bold ones, slanted ones, and those in the family monospace.
_BOLDER, _BOLD = frozenset(["b", "strong"]), frozenset("h1 h2 h3 h4 h5 h6 th".split())
_SLANTED = frozenset("i em cite dfn var address".split())
_MONOSPACE = frozenset("code kbd pre samp tt xmp listing plaintext".split())
# Elements that may also be as if nothing was around them: controls, and tables without a document type.
_APART = frozenset("input textarea select button optgroup option table math".split())
_MONO = frozenset([("monospace",)])


class Declared(NamedTuple):
    """What a declaration makes of a property, in each way in which that may be: with the text of a style sheet, whether
    it is important, how special its selector is, and whether it surely applies to the elements of its rule."""

    name: str
    changes: List[Change]
    sheet: int
    is_important: bool
    special: Tuple[int, ...]
    is_sure: bool


class Rules(NamedTuple):
    """The rules of style sheets that say something of fonts: those whose elements are known, and those that may be
    about elements like a subject."""

    known: List[Tuple[Any, List[Declared]]]
    others: List[Tuple[Subject, List[Declared]]]


class Sheet(NamedTuple):
    """The text of a style sheet, and whether all of it surely applies."""

    text: str
    is_sure: bool


def document_of(data: bytes) -> Tuple[Any, bool]:
    """The elements of a page as a browser has them, and whether its selectors are read as they are written: not without
    a document type."""
    parser = html5lib.HTMLParser(namespaceHTMLElements=False)
    found = parser.parse(decoded(data))
    is_exact = parser.compatMode != "quirks"
    for node in found.iter():
        for name in _SMALL:
            if node.get(name):
                node.set(name, node.get(name).lower())
        is_exact = is_exact and str(node.get("http-equiv", "")).lower() != "content-language"
    return found, is_exact


def tag_of(node: Any) -> str:
    """The name of an element, without its namespace. Comments have none."""
    return node.tag.rpartition("}")[2].lower() if isinstance(node.tag, str) else ""


def element_of(node: Any) -> Element:
    """What selectors ask of an element."""
    classes = frozenset(map(plain, str(node.get("class", "")).split()))
    return Element(tag_of(node), plain(str(node.get("id", ""))), classes, "")


def _imports(sheet: Sheet, folder: str, seen: FrozenSet[str]) -> Iterator[Sheet]:
    """A style sheet, after those that it imports."""
    for rule in tinycss2.parse_stylesheet(sheet.text, True, True):
        if rule.type == "at-rule" and rule.lower_at_keyword == "import":
            words = [one for one in rule.prelude if one.type != "whitespace"]
            address = str(getattr(words[0], "value", "")) if words else ""
            if words and words[0].type == "function":
                address = "".join(str(one.value) for one in words[0].arguments if one.type == "string")
            yield from _file(address, folder, sheet.is_sure and len(words) == 1, seen)
    yield sheet


def _file(address: str, folder: str, is_sure: bool, seen: FrozenSet[str]) -> Iterator[Sheet]:
    """The style sheet at an address, and those that it imports. Those that are lost are said elsewhere."""
    path = file_of(address, folder)
    if not path or path in seen or not os.path.isfile(path):
        return
    text = read(path).decode("utf-8-sig", "replace")
    yield from _imports(Sheet(text, is_sure), os.path.dirname(path), seen | {path})


def sheets_in(document: Any, folder: str, is_own: Callable[[str], bool]) -> Iterator[Sheet]:
    """The style sheets of a page in a folder, in their order, but for those at addresses of its own fonts."""
    for node in document.iter():
        is_sure = str(node.get("media", "")).strip().lower() in _SHOWN and node.get("disabled") is None
        is_sure = is_sure and str(node.get("type", "")).strip().lower() in _TYPES
        words = str(node.get("rel", "")).lower().split()
        if tag_of(node) == "style":
            yield from _imports(Sheet("".join(node.itertext()), is_sure), folder, frozenset())
        elif tag_of(node) == "link" and "stylesheet" in words and not is_own(str(node.get("href", ""))):
            yield from _file(str(node.get("href", "")), folder, is_sure and "alternate" not in words, frozenset())


def _blocks(rules: Iterable[Any], is_sure: bool) -> Iterator[Tuple[str, List[Any], bool]]:
    """The selectors of each rule with its declarations, and whether it surely applies; `*` where it may be about any
    element."""
    for rule in rules:
        if rule.type == "qualified-rule":
            yield tinycss2.serialize(rule.prelude), _declarations(rule.content), is_sure
            # Rules in a rule are about other elements.
            yield from _nested(tinycss2.serialize(rule.prelude), rule.content)
        elif rule.type == "at-rule" and rule.content is not None:
            prelude = tinycss2.serialize(rule.prelude).strip().lower()
            if rule.lower_at_keyword in _CONDITIONS:
                is_shown = rule.lower_at_keyword == "media" and prelude in _SHOWN
                yield from _blocks(tinycss2.parse_rule_list(rule.content, True, True), is_sure and is_shown)
            elif rule.lower_at_keyword in _ANYWHERE:
                yield from _anywhere(rule.content)
            elif rule.lower_at_keyword == "property":
                declared = _declarations(rule.content)
                for one in declared:
                    one.name = prelude if one.lower_name == "initial-value" else one.name
                yield _ANY, declared, False


def listed(prelude: str) -> List[str]:
    """The selectors of a list."""
    parts: List[List[Any]] = [[]]
    for token in tinycss2.parse_component_value_list(prelude, True):
        if token.type == "literal" and token.value == ",":
            parts.append([])
        else:
            parts[-1].append(token)
    return [tinycss2.serialize(one).strip() for one in parts]


def _within(prelude: str, nested: str) -> str:
    """The selectors of a rule in another one (CSS Nesting 1); `*` where they are not known."""
    inner, outer = listed(nested), listed(prelude)
    if _JOINED.search(nested) or len(inner) * len(outer) > _MOST_NESTED:
        return _ANY
    return ", ".join(one.replace("&", around) if "&" in one else f"{around} {one}" for one in inner for around in outer)


def _nested(prelude: str, content: Sequence[Any]) -> Iterator[Tuple[str, List[Any], bool]]:
    """The rules in a rule with these selectors."""
    before: List[Any] = []
    for token in content:
        if token.type == "{} block":
            words = tinycss2.serialize(before).strip()
            is_condition = words[:1] == "@" and re.split(r"[\s(]", words[1:])[0].lower() in _CONDITIONS
            if words[:1] == "@" and not is_condition:
                yield from _anywhere(token.content)
            else:
                selectors = prelude if is_condition else _within(prelude, words)
                yield selectors, _declarations(token.content), False
                yield from _nested(selectors, token.content)
        before = [] if token.type == "{} block" or token.type == "literal" and token.value == ";" else [*before, token]


def _declarations(content: Sequence[Any]) -> List[Any]:
    """The declarations of a block, between the blocks in it."""
    parts: List[List[Any]] = [[]]
    for token in content:
        if token.type == "{} block":
            parts.append([])
        else:
            parts[-1].append(token)
    return [one for part in parts for one in tinycss2.parse_declaration_list(part, True, True)
            if one.type == "declaration"]


def _anywhere(content: Sequence[Any]) -> Iterator[Tuple[str, List[Any], bool]]:
    """The declarations of a block, and of those in it, which any element may have."""
    yield _ANY, _declarations(content), False
    for block in content:
        if block.type == "{} block":
            yield from _anywhere(block.content)


def _custom(blocks: Iterable[Sequence[Any]]) -> Dict[str, List[Sequence[Any]]]:
    """The values of each custom property."""
    found: Dict[str, List[Sequence[Any]]] = {}
    for declared in blocks:
        for one in declared:
            if one.name.startswith("--"):
                values = found.setdefault(one.name, [])
                if tinycss2.serialize(one.value) not in map(tinycss2.serialize, values):
                    values.append(one.value)
    return found


def _declared(block: Sequence[Any], sheet: int, special: Tuple[int, ...], is_sure: bool,
              custom: Mapping[str, Sequence[Sequence[Any]]]) -> List[Declared]:
    """What declarations say of fonts."""
    return [Declared(name, changes, sheet, one.important, special, is_sure) for one in block
            for name, changes in changes_of(one.lower_name, one.value, custom).items()]


def known_selectors(prelude: str, is_sure: bool) -> List[Any]:
    """The selectors of a rule, if all are read here as by browsers."""
    if is_sure and _KNOWN.fullmatch(prelude):
        try:
            found: List[Any] = cssselect2.compile_selector_list(prelude)
            return found
        except cssselect2.SelectorError:
            pass
    return []


class Cascade:
    """The fonts that elements of a page may have."""

    def __init__(self, data: bytes, folder: str, is_own: Callable[[str], bool]) -> None:
        self.document, self.is_exact = document_of(data)
        sheets = list(sheets_in(self.document, folder, is_own))
        self.blocks = [(number, *block) for number, sheet in enumerate(sheets)
                       for block in _blocks(tinycss2.parse_stylesheet(sheet.text, True, True),
                                            sheet.is_sure and self.is_exact)]
        self.inline = {node: _declarations(tinycss2.parse_component_value_list(str(node.get("style"))))
                       for node in self.document.iter() if node.get("style")}
        self.custom = _custom([*(block for _, _, block, _ in self.blocks), *self.inline.values()])
        self.matcher, self.others = cssselect2.Matcher(), []  # type: Any, List[Tuple[Subject, List[Declared]]]
        for number, prelude, block, is_sure in self.blocks:
            self._add(number, prelude, block, is_sure)

    def _add(self, number: int, prelude: str, block: Sequence[Any], is_sure: bool) -> None:
        """Adds a rule of a style sheet."""
        selectors = known_selectors(prelude, is_sure)
        for selector in selectors:
            declared = _declared(block, number, selector.specificity, True, self.custom)
            if declared:
                self.matcher.add_selector(selector, declared)
        declared = [] if selectors else _declared(block, number, (), False, self.custom)
        if declared:
            self.others += [(subject, declared) for subject in subjects_of(prelude)]

    def fonts(self) -> Iterator[Tuple[Any, Fonts]]:
        """Each element, with the fonts that it may have, those around it first."""
        found: Dict[Any, Fonts] = {}
        for one in cssselect2.ElementWrapper.from_html_root(self.document).iter_subtree():
            node = one.etree_element
            around = found[one.parent.etree_element] if one.parent is not None else INITIAL
            found[node] = self._of(one, around)
            yield node, found[node]

    def _of(self, one: Any, around: Fonts) -> Fonts:
        """The fonts of an element within one that has these."""
        node = one.etree_element
        element = element_of(node)
        declared = [each for *_, some in self.matcher.match(one) for each in some]
        declared += [each for subject, some in self.others if subject.may_be(element) for each in some]
        declared += _declared(self.inline.get(node, ()), -1, _OWN, True, self.custom)
        declared += self._attributes(node)
        own = _by_itself(element.tag, around)
        return Fonts(*(_cascaded([each for each in declared if each.name == name], around, own[at])
                       for at, name in enumerate(PROPERTIES)))

    def _attributes(self, node: Any) -> List[Declared]:
        """What attributes say of the font of an element, which style sheets may say otherwise."""
        said = {FAMILY: [node.get("face"), node.get("font-family")], WEIGHT: [node.get("font-weight")],
                STYLE: [node.get("font-style")]}
        text = ";".join(f"{name}:{value}" for name, values in said.items() for value in values if value)
        return _declared(_declarations(tinycss2.parse_component_value_list(text)), -1, (), False, self.custom)


def _by_itself(tag: str, around: Fonts) -> Fonts:
    """The fonts of an element by its name alone, within another one."""
    families, weights, styles = around
    weights = frozenset(map(bolder, weights)) if tag in _BOLDER else frozenset([700.0]) if tag in _BOLD else weights
    styles = frozenset(["italic"]) if tag in _SLANTED else styles
    families = _MONO if tag in _MONOSPACE else families
    if tag in _APART:
        return Fonts(families | INITIAL.families, weights | {400.0, 700.0}, styles | INITIAL.styles)
    return Fonts(families, weights, styles)


def _cascaded(declared: Sequence[Declared], around: Fonts, own: FrozenSet[Any]) -> FrozenSet[Any]:
    """What a property of an element within one of these fonts may be, which is so by itself. Of declarations that
    surely apply the last of the most special ones counts; of several style sheets any may be the last."""
    found = own
    sure = [one for one in declared if one.is_sure]
    if sure:
        most = max((one.is_important, one.special) for one in sure)
        last = {one.sheet: one for one in sure if (one.is_important, one.special) == most}
        found = frozenset().union(*(change(around) for one in last.values() for change in one.changes))
    return found.union(*(change(around) for one in declared if not one.is_sure for change in one.changes))
