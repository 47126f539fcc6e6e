"""The sets of features that runs of text of a page have, by its style sheets (CSS Fonts 4, Font Feature Properties)."""
from __future__ import annotations

import itertools
from typing import Dict, FrozenSet, Iterable, Iterator, List, Mapping, Sequence, Tuple

from .elements import Element, Placed
from .styles import SETTINGS, FeatureRule, Features, features_in

# As many sets of a page are shaped at most.
MOST = 64
# What each property of an element may set, as far as rules alone tell: nothing is one of it.
Choices = Mapping[str, FrozenSet[Features]]
_NOTHING: FrozenSet[Features] = frozenset([()])


def _own(element: Element, rules: Sequence[FeatureRule]) -> Iterator[Dict[str, Features]]:
    """What the rules that may be about an element set, and its own declarations."""
    yield from (rule.features for rule in rules if any(one.may_be(element) for one in rule.subjects))
    if element.style:
        yield features_in(element.style)


def _with(inherited: Choices, own: Iterable[Mapping[str, Features]]) -> Choices:
    """What the properties of an element may set: what the one around it has, or what one of its own rules sets. Which
    rule applies only a browser knows, and which value of a property that has several, named after a blank."""
    found = dict(inherited)
    for features in own:
        for name, value in ((name.partition(" ")[0], value) for name, value in features.items()):
            found[name] = found.get(name, _NOTHING) | {value}
    return found


def _sets(choices: Choices) -> Iterator[Features]:
    """The sets of features of an element: one choice of each property. Those of font-feature-settings come last."""
    names = sorted(choices, key=lambda name: (name == SETTINGS, name))
    for chosen in itertools.product(*(sorted(choices[name]) for name in names)):
        merged: Dict[str, int] = {}
        for features in chosen:
            merged.update(features)
        yield tuple(sorted(merged.items()))


def _choices(elements: Sequence[Placed], rules: Sequence[FeatureRule]) -> List[Choices]:
    """What the properties of each element may set."""
    found: List[Choices] = []
    known: Dict[Element, List[Dict[str, Features]]] = {}
    for place, element in elements:
        if element not in known:
            known[element] = list(_own(element, rules))
        around = found[place] if place >= 0 else {}
        found.append(_with(around, known[element]) if known[element] else around)
    return found


def feature_sets(elements: Sequence[Placed], rules: Sequence[FeatureRule], is_changing: bool) -> List[Features]:
    """The sets of features that elements of a page may have, each once, at most one more than are shaped. Where scripts
    may change elements, each rule by itself is one."""
    each = [*_choices(elements, rules), *([_with({}, [rule.features]) for rule in rules] if is_changing else [])]
    differing = {tuple(sorted(choices.items())): choices for choices in each if choices}
    sets = itertools.chain.from_iterable(map(_sets, differing.values()))
    found: Dict[Features, None] = {(): None}
    for one in sets:
        found[one] = None
        if len(found) > MOST:
            break
    return list(found)
