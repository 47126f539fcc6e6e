"""Writes the program in parts, which are compiled side by side."""
from .errors import Refused
from .llvm import Function
from .module import Module
from .parts import file_of
from .translation import BASE, MADE, Translation, runtime

# The file of the program that asks the system, and what of the runtime any file may call.
SYSTEM, HEAP = "system", frozenset({"rattle_alloc", "rattle_realloc", "rattle_dealloc"})
# What main does that C does itself, or leaves out. A broken pipe is no signal.
IGNORED = frozenset({"__sysv_signal", "__x86_get_cpuid_feature_leaf", "__write"})
BROKEN_PIPE = [(13, ""), (1, ""), (0, "__sysv_signal")]


def start_of(module: Module) -> str:
    """The function that main calls after it has asked what the processor can. C asks nothing of the processor."""
    main = module.functions.get("own_main")
    calls = [op.args for op in main.ops() if op.code == "call"] if main else []
    names = [args[-1].name for args in calls if not args[-1].name.startswith("llvm.")]
    starts = [name for name in names if name in module.functions]
    others = set(names) - {*IGNORED, *starts}
    if len(starts) != 1 or others or [(arg.number, arg.name) for arg in calls[0]] != BROKEN_PIPE:
        raise Refused(f"translate a main that calls {', '.join(names)}")
    return starts[0]


class Program:
    """A program in parts. Each function is in the file that its name says, and static where no other file calls it."""

    def __init__(self, translation: Translation, start: str) -> None:
        self.translation, self.start = translation, translation.same[start]
        self.files_of = {name: self.file_of(name) for name in translation.reached}
        self.shared = {self.start} | {
            callee for name, function in translation.reached.items() for callee in self.callees(function)
            if self.files_of[callee] != self.files_of[name]}

    def file_of(self, name: str) -> str:
        """The file of a function. What asks the system is in one file, with what that stands on."""
        module = self.translation.module
        if any(one in module.declared and one.lstrip("_") in self.translation.system and one not in HEAP
               for one in self.translation.reached[name].globals()):
            return SYSTEM
        return file_of(module.origins[name])

    def callees(self, function: Function) -> set[str]:
        """The functions that a function names."""
        same = self.translation.same
        return {same[name] for name in function.globals() if name in same}

    def files(self) -> dict[str, str]:
        """The files by their names."""
        parts: dict[str, list[str]] = {SYSTEM: []}
        for name in sorted(self.translation.reached):
            parts.setdefault(self.files_of[name], []).append(name)
        made = {f"program/{part}.c": self.part(part, names) for part, names in sorted(parts.items())}
        return {"program/program.h": self.header(), **made}

    def header(self) -> str:
        """What all parts share: types and the functions that other parts call."""
        heads = [f"{self.translation.head(name, 'HIDDEN')};" for name in sorted(self.shared)]
        return "\n".join([MADE.format("What all parts of the program fontcut share"), runtime(*BASE),
                          *self.translation.types.definitions(), "", *heads, ""])

    def part(self, part: str, names: list[str]) -> str:
        """A part: its constants and its functions."""
        translation = self.translation
        own = [name for name in names if name not in self.shared]
        heads = [f"{translation.head(name)};" for name in own]
        bodies = [line for name in names
                  for line in translation.definitions([name], "" if name in self.shared else "static")]
        lines = [MADE.format(f"The part {part} of the program fontcut"), '#include "program.h"', "",
                 *translation.constants(translation.constants_of(names)), "", *heads, "", *bodies]
        if part == SYSTEM:
            lines[2:2] = [runtime("process.h")]
            lines += ["int main(int count, char **words) {", "    begin(count, words);",
                      f"    return (int){self.start}();", "}", ""]
        return "\n".join(lines)


def translate_program(text: str) -> dict[str, str]:
    """The program in parts, which are compiled side by side, and their header."""
    module = Module(text)
    start = start_of(module)
    translation = Translation(module, [start], runtime(*BASE, "process.h"))
    return Program(translation, start).files()
