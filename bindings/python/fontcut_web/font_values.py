"""What declarations say of the font of an element: its families, its weight and its style (CSS Fonts 4)."""
from __future__ import annotations

from typing import Any, Callable, Dict, FrozenSet, Iterator, List, Mapping, NamedTuple, Optional, Sequence, Set, Tuple

# A list of families in small letters; what is not known is of any.
Families = Tuple[str, ...]
ANY: Families = ("*",)
# Values that a weight or a style may have where they are not known.
ANY_WEIGHT, ANY_STYLE = -1.0, "*"
FAMILY, WEIGHT, STYLE = "font-family", "font-weight", "font-style"
_KEYWORDS = frozenset("inherit unset initial revert revert-layer".split())
_SYSTEM = frozenset("caption icon menu message-box small-caption status-bar".split())
_STYLES = "italic", "oblique", "normal"
# How deep custom properties may name others, and how many values each may have.
_DEEPEST, _MOST = 4, 16


class Fonts(NamedTuple):
    """What the font of an element may be: lists of families, weights and styles."""

    families: FrozenSet[Families]
    weights: FrozenSet[float]
    styles: FrozenSet[str]


INITIAL = Fonts(frozenset([()]), frozenset([400.0]), frozenset(["normal"]))
# What a declaration makes of what the element around may have.
Change = Callable[[Fonts], FrozenSet[Any]]
# The values of custom properties, by their names, whatever elements these are of.
Custom = Mapping[str, Sequence[Sequence[Any]]]


def bolder(weight: float) -> float:
    """A weight that is relative to another one (CSS Fonts 4, Relative Weights)."""
    if weight < 0:
        return ANY_WEIGHT
    return 400.0 if weight < 350 else 700.0 if weight < 550 else max(900.0, weight)


def lighter(weight: float) -> float:
    """The same, for a lighter one."""
    if weight < 0:
        return ANY_WEIGHT
    return min(weight, 100.0) if weight < 550 else 400.0 if weight < 750 else 700.0


def _always(*values: Any) -> Change:
    return lambda _: frozenset(values)


def _keyword(name: str, word: str) -> Change:
    """What a keyword of all properties makes."""
    at = (FAMILY, WEIGHT, STYLE).index(name)
    if word in ("inherit", "unset"):
        return lambda around: around[at]
    if word == "initial":
        return lambda _: INITIAL[at]
    # What browsers say of the element by themselves.
    others: FrozenSet[Any] = (frozenset([()]), frozenset([400.0, 700.0]), frozenset(["normal", "italic"]))[at]
    return lambda around: around[at] | others


def _words(tokens: Sequence[Any]) -> List[Any]:
    return [one for one in tokens if one.type not in ("whitespace", "comment")]


def _parted(tokens: Sequence[Any]) -> List[List[Any]]:
    """Tokens between commas."""
    found: List[List[Any]] = [[]]
    for token in tokens:
        if token.type == "literal" and token.value == ",":
            found.append([])
        else:
            found[-1].append(token)
    return found


def _family_names(tokens: Sequence[Any]) -> Optional[Families]:
    """The families of a list, or None where one is neither a string nor names."""
    names: List[str] = []
    for part in map(_words, _parted(tokens)):
        if len(part) == 1 and part[0].type == "string":
            names.append(part[0].value.lower())
        elif part and all(one.type == "ident" for one in part):
            names.append(" ".join(one.value for one in part).lower())
        elif not (len(part) == 1 and part[0].type == "function" and part[0].lower_name in ("generic", "local")):
            return None
    return tuple(names)


def _values_of(call: Any, custom: Custom) -> List[List[Any]]:
    """The values that a call of `var` may stand for: those of its property, and what stands after the first comma."""
    name, *others = _parted(call.arguments)
    key = "".join(one.value for one in _words(name) if one.type == "ident")
    return [list(value) for value in custom.get(key, ())] + ([list(call.arguments[len(name) + 1:])] if others else [])


def resolved(tokens: Sequence[Any], custom: Custom, depth: int = 0) -> Iterator[List[Any]]:
    """What tokens stand for where custom properties may have any of their values. A call is left that has none, or one
    of too many, which is not understood then."""
    at = next((at for at, one in enumerate(tokens) if one.type == "function" and one.lower_name == "var"), None)
    values = _values_of(tokens[at], custom) if at is not None and depth < _DEEPEST else []
    if at is None or not 0 < len(values) <= _MOST:
        yield list(tokens)
        return
    for value in values:
        yield from resolved([*tokens[:at], *value, *tokens[at + 1:]], custom, depth + 1)


def _family(tokens: Sequence[Any]) -> Change:
    words = _words(tokens)
    if len(words) == 1 and words[0].type == "ident" and words[0].lower_value in _KEYWORDS:
        return _keyword(FAMILY, words[0].lower_value)
    names = _family_names(tokens)
    return _always(ANY if names is None else names)


def _weight(tokens: Sequence[Any]) -> Change:
    words = _words(tokens)
    if len(words) == 1 and words[0].type == "number" and 1 <= words[0].value <= 1000:
        return _always(float(words[0].value))
    word = words[0].lower_value if len(words) == 1 and words[0].type == "ident" else ""
    if word in _KEYWORDS:
        return _keyword(WEIGHT, word)
    if word in ("bolder", "lighter"):
        turn = bolder if word == "bolder" else lighter
        return lambda around: frozenset(map(turn, around.weights))
    return _always({"normal": 400.0, "bold": 700.0}.get(word, ANY_WEIGHT))


def _style(tokens: Sequence[Any]) -> Change:
    words = _words(tokens)
    word = words[0].lower_value if words and words[0].type == "ident" else ""
    if word in _KEYWORDS and len(words) == 1:
        return _keyword(STYLE, word)
    return _always(word if word in _STYLES else ANY_STYLE)


def _shorthand(tokens: Sequence[Any]) -> Dict[str, Change]:
    """What the property `font` says. Its families come after the size and the height of lines."""
    words = _words(tokens)
    if len(words) == 1 and words[0].type == "ident" and words[0].lower_value in _KEYWORDS:
        return {name: _keyword(name, words[0].lower_value) for name in (FAMILY, WEIGHT, STYLE)}
    if len(words) == 1 and words[0].type == "ident" and words[0].lower_value in _SYSTEM:
        return {FAMILY: _always(()), WEIGHT: _always(ANY_WEIGHT), STYLE: _always(ANY_STYLE)}
    sizes = [at for at, one in enumerate(words) if one.type in ("dimension", "percentage")]
    slash = next((at for at, one in enumerate(words) if one.type == "literal" and one.value == "/"), None)
    size = slash + 1 if slash is not None else sizes[-1] if sizes else None
    names = _family_names(words[size + 1:]) if size is not None else None
    if size is None or not names or any(one.type == "function" for one in words):
        return {FAMILY: _always(ANY), WEIGHT: _always(ANY_WEIGHT), STYLE: _always(ANY_STYLE)}
    front = words[:size]
    idents = {one.lower_value for one in front if one.type == "ident"}
    style = next((word for word in _STYLES[:2] if word in idents), "normal")
    number = next((float(one.value) for one in front if one.type == "number" and one.value >= 1), 400.0)
    return {FAMILY: _always(names), STYLE: _always(style), WEIGHT: _weight([one for one in front if one.type == "ident"
            and one.lower_value in ("bold", "bolder", "lighter")]) if idents & {"bold", "bolder", "lighter"}
            else _always(number)}


def _changes(name: str, tokens: Sequence[Any]) -> Dict[str, Change]:
    if name == "font":
        return _shorthand(tokens)
    if name == "all":
        word = "".join(one.lower_value for one in _words(tokens) if one.type == "ident")
        return {each: _keyword(each, word if word in _KEYWORDS else "revert") for each in (FAMILY, WEIGHT, STYLE)}
    return {name: {FAMILY: _family, WEIGHT: _weight, STYLE: _style}[name](tokens)}


def changes_of(name: str, tokens: Sequence[Any], custom: Custom) -> Dict[str, List[Change]]:
    """What a declaration makes of each of the three properties, in each way in which custom properties may be set."""
    found: Dict[str, List[Change]] = {}
    if name in ("font", "all", FAMILY, WEIGHT, STYLE):
        for value in resolved(tokens, custom):
            for each, change in _changes(name, value).items():
                found.setdefault(each, []).append(change)
    return found
