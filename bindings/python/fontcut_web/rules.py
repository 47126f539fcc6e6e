"""The rules of style sheets: the declarations of each, and the elements that it may be about (CSS Syntax 3, Selectors
4)."""
from __future__ import annotations

import re
from typing import FrozenSet, Iterator, List, Match, NamedTuple, Tuple

from .elements import Element, plain

STRING = r"\"(?:[^\"\\]|\\.)*\"|'(?:[^'\\]|\\.)*'"
COMMENT = re.compile(r"/\*.*?\*/", re.S)
ESCAPE = re.compile(r"\\(?:([0-9a-fA-F]{1,6})\s?|(.))", re.S)
_PARENTHESES, _ATTRIBUTE = re.compile(r"\([^()]*\)"), re.compile(r"\[[^\]]*\]")
_COMBINATORS = re.compile(r"[\s>+~|]+")
# A part of a selector: a pseudo-class or an element, a class, a name, or a tag.
_PART = re.compile(r"(::?|[.#]|)((?:[\w-]|[^\0-\x7f])+)")
# What stands before rules that are about the elements of their own selectors.
_CONDITION = re.compile(r"@(?:media|supports|layer|container|scope|document|starting-style)(?![\w-])", re.I)
# What stands before the steps of an animation, which any element may have.
_STEP = re.compile(r"from|to|[\d.]+%")


class Subject(NamedTuple):
    """What an element has to be for a selector, as far as the element alone tells. What is empty is any."""

    tag: str
    name: str
    classes: FrozenSet[str]

    def may_be(self, element: Element) -> bool:
        """Whether a selector may be about an element. What it asks of others, and of states, is not looked at."""
        return (self.tag in ("", element.tag) and self.name in ("", element.name) and self.classes <= element.classes)


class Selectors(NamedTuple):
    """What stands before the declarations of a rule, in one line; what its elements may be by its last parts; and
    whether all that it asks of them stands there, as it does not for a rule in another one."""

    prelude: str
    subjects: Tuple[Subject, ...]
    is_whole: bool = False


ANY = Selectors("", (Subject("", "", frozenset()),))


class Rule(NamedTuple):
    """A rule: its selectors, and the text of each of its declarations."""

    selectors: Selectors
    declarations: List[str]


def unescaped(text: str) -> str:
    """A text of CSS with what its escapes stand for."""
    return ESCAPE.sub(lambda found: _escaped(found).strip("\n"), text)


def _escaped(found: Match[str]) -> str:
    """What an escape stands for, which is U+FFFD for a number that no character has (CSS Syntax 3, Consume an escaped
    code point)."""
    if not found[1]:
        return found[2]
    code = int(found[1], 16)
    return chr(code) if 0 < code < 0xD800 or 0xDFFF < code <= 0x10FFFF else "\ufffd"


def calm(sheet: str) -> str:
    """A style sheet without comments, whose strings have no braces and no semicolons."""
    escaped = {"{": "\\7b ", "}": "\\7d ", ";": "\\3b "}
    return re.sub(STRING, lambda found: "".join(escaped.get(one, one) for one in found[0]), COMMENT.sub(" ", sheet))


def _subject(selector: str) -> Subject:
    """What the last element of a selector may be."""
    if _STEP.fullmatch(selector.strip()):
        return ANY.subjects[0]
    parts = _PART.findall(_COMBINATORS.split(selector.strip())[-1])
    tag, name = ("".join(word for mark, word in parts if mark == wanted).lower() for wanted in ("", "#"))
    return Subject(tag, name, frozenset(word.lower() for mark, word in parts if mark == "."))


def subjects_of(prelude: str) -> List[Subject]:
    """What the elements of a list of selectors may be."""
    text = ESCAPE.sub(lambda found: plain(_escaped(found)), re.sub(STRING, "", prelude))
    before = ""
    while before != text:
        before, text = text, _PARENTHESES.sub("", text)
    return list(map(_subject, _ATTRIBUTE.sub("", text).split(",")))


def _within(prelude: str, around: Selectors) -> Selectors:
    """The selectors of a block that has this before it, in a block with others. Conditions leave it to the block
    around."""
    prelude = " ".join(prelude.split())
    is_in_rule = around.prelude[:1] not in ("", "@")
    if not prelude.startswith("@"):
        is_whole = not around.prelude or bool(_CONDITION.match(around.prelude))
        return Selectors(prelude, tuple(subjects_of(prelude)), is_whole)
    return around if is_in_rule and _CONDITION.match(prelude) else Selectors(prelude, around.subjects)


def rules_of(sheet: str) -> Iterator[Rule]:
    """The rules of the text of a style sheet, in the order of their ends. Those in other rules are rules, too."""
    opened = [Rule(ANY, [])]
    for text, end in re.findall(r"([^{};]*)([{};]|$)", calm(sheet)):
        if end == "{":
            opened.append(Rule(_within(text, opened[-1].selectors), []))
            continue
        opened[-1].declarations.append(text)
        if end == "}" and len(opened) > 1:
            yield opened.pop()
    while opened:
        yield opened.pop()
