"""What calls of `var` stand for: the values of custom properties, whatever elements these are of (CSS Custom Properties
1)."""
from __future__ import annotations

import re
from typing import Dict, Iterable, List, Mapping, Sequence, Tuple

from .rules import STRING

_NAME = r"--(?:[\w-]|[^\0-\x7f]|\\.)*"
_SET = re.compile(rf"(?<![\w-])({_NAME})\s*:\s*((?:{STRING}|[^;{{}}\"'])*)")
_CALL = re.compile(rf"var\(\s*({_NAME})\s*(?:,((?:{STRING}|[^()\"'])*))?\)", re.I)
_DEEPEST, _MOST = 4, 64
# The values of custom properties, by their names.
Custom = Mapping[str, Sequence[str]]


def custom_of(rules: Iterable[Tuple[str, str]]) -> Custom:
    """The values of custom properties, of rules with these words before their declarations."""
    found: Dict[str, List[str]] = {}
    for prelude, declarations in rules:
        if prelude.lower().startswith("@property"):
            declarations = re.sub(r"initial-value(?=\s*:)", prelude[len("@property"):].strip(), declarations)
        for name, value in _SET.findall(declarations):
            found.setdefault(name, []).append(value.strip())
    return {name: list(dict.fromkeys(values)) for name, values in found.items()}


def values_of(value: str, custom: Custom, depth: int = 0) -> List[str]:
    """The values that one may stand for. Where these are too many, one that has the words of all."""
    call = _CALL.search(value)
    if not call or depth >= _DEEPEST:
        return [value]
    its = [*custom.get(call[1], ()), *([call[2]] if call[2] is not None else [])]
    every = [found for one in its
             for found in values_of(f"{value[:call.start()]} {one} {value[call.end():]}", custom, depth + 1)]
    return list(dict.fromkeys(every)) if len(every) <= _MOST else [" ".join(dict.fromkeys(every))]
