"""Writes the library for C: its module, and the functions of its header, which call those of the module."""
import re

from .errors import Refused
from .module import Module
from .translation import BASE, MADE, Translation, runtime

COMMENT = re.compile(r"/\*.*?\*/", re.S)
DECLARATION = re.compile(r"^(\w[^#;{}]*\([^;{}]*\));$", re.M)
HEAD = re.compile(r"(\w+) (\w+)\((.*)\)")
ARGUMENT = re.compile(r"(\w[\w ]*[ *]+)(\w+)(?:, |$)")
# The struct that calls take and return.
STRUCT = "fontcut_answer"


def export(result: str, name: str, listed: str) -> list[str]:
    """A function of a header. A struct is passed and returned as C does it, and to the module by its address."""
    given = ["(u8 *)&made"] if result == STRUCT else []
    for kind, word in ARGUMENT.findall("" if listed == "void" else listed):
        given.append(f"(u8 *){word}" if "*" in kind else f"(u8 *)&{word}" if kind.strip() == STRUCT else word)
    call = f"own_{name}({', '.join(given)});"
    body = [f"    {'' if result == 'void' else 'return '}{call}"]
    if result == STRUCT:
        body = [f"    {STRUCT} made;", f"    {call}", "    return made;"]
    return [f"EXPORT {result} {name}({listed}) {{", *body, "}", ""]


def exports(header: str, names: set[str]) -> list[str]:
    """The functions of a header, which have to be those that a module exports."""
    lines, found = [], set()
    for declared in DECLARATION.findall(COMMENT.sub("", header)):
        head = HEAD.fullmatch(" ".join(declared.split()))
        if not head:
            raise Refused(f"read the declaration {' '.join(declared.split())[:200]}")
        found.add(head[2])
        lines += export(*head.groups())
    if found != names:
        raise Refused(f"find in the header and in the module: {', '.join(sorted(found ^ names))}")
    return lines


def translate_library(text: str, header: str) -> dict[str, str]:
    """The library for C in one file, from its module and its header."""
    standing_on = runtime(*BASE, "library.h")
    module = Module(text)
    roots = [name for name, function in module.functions.items() if function.exported]
    translation = Translation(module, roots, standing_on)
    names = sorted(translation.reached)
    bodies = translation.definitions(names)
    heads = [f"{translation.head(name)};" for name in names]
    constants = translation.constants(translation.constants_of(names))
    lines = [MADE.format("The library fontcut for C"), standing_on, *translation.types.definitions(), "",
             *constants, "", *heads, "", *bodies, *exports(header, {name[len("own_"):] for name in roots})]
    return {"libfontcut.c": "\n".join(lines)}
