"""Writes the functions of a module of LLVM in C, with the constants that they use."""
import os
import re
from typing import Iterable, Sequence

from .body import Body
from .c_types import Types
from .constants import constant_names, defined
from .errors import Refused
from .llvm import Function
from .merging import merged
from .module import Module

# What each file begins with.
MADE = """\
/* {}, in C.
 * It is made of the crates of this repository and of the kit's libraries, which were proved and compiled to LLVM's IR
 * by rattle; tools/translator has translated that. Do not edit it: tools/generate writes it. */
"""
# What all files stand on.
BASE = "types.h", "intrinsics.h", "vectors.h", "heap.h"
RUNTIME = os.path.join(os.path.dirname(os.path.abspath(__file__)), "runtime")


def runtime(*names: str) -> str:
    """Files of the C that a translation stands on."""
    texts = []
    for name in names:
        with open(os.path.join(RUNTIME, name), encoding="ascii") as opened:
            texts.append(opened.read())
    return "\n".join(texts)


class Translation:
    """The functions of a module that are reached from some of them, each written in C."""

    def __init__(self, module: Module, roots: Iterable[str], standing_on: str) -> None:
        self.module, self.types = module, Types()
        self.system = set(re.findall(r"\bsys_(\w+)\(", standing_on))
        self.same = merged(module.functions)
        self.names = constant_names(module.constants)
        self.reached: dict[str, Function] = {}
        left = list(roots)
        while left:
            name = self.same[left.pop()]
            if name not in self.reached:
                self.reached[name] = module.functions[name]
                left += [one for one in module.functions[name].globals() if one in module.functions]
        self.bodies = {name: Body(self, function).text() for name, function in sorted(self.reached.items())}

    def called(self, name: str) -> str:
        """A function by its name in C."""
        if name in self.same:
            return self.same[name]
        if name in self.module.declared and name.lstrip("_") in self.system:
            return f"sys_{name.lstrip('_')}"
        raise Refused(f"find {name} in the runtime")

    def address(self, name: str) -> str:
        """The address of a constant or a function, as a pointer to bytes."""
        if name not in self.names:
            return f"(u8 *){self.called(name)}"
        return f"(u8 *){'&' if len(self.module.constants[name].parts) > 1 else ''}{self.names[name]}"

    def head(self, name: str, linkage: str = "static") -> str:
        """How a function is declared."""
        function = self.reached[name]
        listed = ", ".join(self.types.declared(arg.type, arg.name) for arg in function.args) or "void"
        words = [linkage, *(word.upper() for word in function.told), self.types.declared(function.result, name)]
        return f"{' '.join(filter(None, words))}({listed})"

    def definitions(self, names: Iterable[str], linkage: str = "static") -> list[str]:
        """The functions of these names."""
        return [line for name in names for line in [f"{self.head(name, linkage)} {{", *self.bodies[name], "}", ""]]

    def constants_of(self, names: Iterable[str]) -> list[str]:
        """The constants that functions use, in an order in which each comes after those that it names."""
        kept: dict[str, str] = {}

        def add(name: str) -> None:
            if self.names[name] not in kept:
                for part in self.module.constants[name].parts:
                    if not isinstance(part, bytes) and part.name in self.names and part.name != name:
                        add(part.name)
                kept[self.names[name]] = name

        used = {one for name in names for one in self.reached[name].globals() if one in self.names}
        for name in sorted(used, key=lambda one: self.names[one]):
            add(name)
        return list(kept.values())

    def constants(self, names: Sequence[str]) -> list[str]:
        """These constants in C."""
        addresses = {name: self.address(name) for name in [*self.names, *self.same]}
        return [defined(self.names[name], self.module.constants[name], addresses) for name in names]
