"""Finds functions that do the same."""
import hashlib
from typing import Mapping

from .llvm import Function, Value


def shape_of(function: Function, numbers: Mapping[str, int]) -> str:
    """What a function does, with numbers for the functions that it names."""

    def shown(value: Value) -> Value:
        if value.name in numbers and value.code == "global":
            return value._replace(name=f"@{numbers[value.name]}")
        return value._replace(parts=tuple(map(shown, value.parts))) if value.parts else value

    blocks = [(label, [(op.code, op.name, op.type, op.labels, op.how, op.number, [shown(value) for value in op.args])
                       for op in ops]) for label, ops in function.blocks.items()]
    whole = repr((function.result, function.args, function.told, function.exported and function.name, blocks))
    return hashlib.sha256(whole.encode()).hexdigest()


def merged(functions: Mapping[str, Function]) -> dict[str, str]:
    """For each function the first one, by its name, that does the same: what they call does the same too."""
    shapes = {}
    for name in sorted(functions):
        calls = [call for call in functions[name].globals() if call in functions]
        shapes[name] = shape_of(functions[name], {call: at for at, call in enumerate(calls)}), calls
    same, count = dict.fromkeys(functions, ""), 0
    while True:
        alike: dict[tuple[str, ...], list[str]] = {}
        for name, (shape, calls) in shapes.items():
            alike.setdefault((shape, *(same[call] for call in calls)), []).append(name)
        same = {name: those[0] for those in alike.values() for name in those}
        if len(alike) == count:
            return same
        count = len(alike)
