"""A program and a library as they run on a machine, here or under an emulator, and what is asked of two of them, which
have to answer alike."""
from __future__ import annotations

import hashlib
import os
import struct
from functools import cache
from typing import Optional, Sequence

from checks import DONE, TOP, Ran, check, put, read, run, same
from worked_cuts import BASE6

LIB = os.path.join(TOP, "tests", "lib")
CLOSES = 1  # the flag of a request that follows the links of GSUB
# What is wanted of each font; a join is of the first two.
SETS = (["41-5A"], ["61-7A"], ["20-7E", "A0-17F"], ["370-3FF", "1F00-1FFF"], ["0-10FFFF"])
KINDS: dict[str, list[str]] = {
    "full": [], "lean": ["--lean"], "layout": ["--layout"], "variable": ["--variable"]}

# What is run of each machine's program: a line of bash, the words of the program, and the status that is wanted.
FAILURES: list[tuple[str, list[str], int]] = [
    ('"$@" >/dev/full', ["--help"], 3), ('"$@" >/dev/full', ["subset", "font.ttf", "-", "all"], 3),
    ('"$@"', ["subset", "font.ttf", "/dev/full", "all"], 3), ('"$@" >&-', ["show", "font.ttf"], 3),
    ('"$@" >&-', ["subset", "font.ttf", "-", "all"], 3), ('"$@" <&-', ["check", "-"], 3),
    ('"$@" <&- >&- 2>&-', ["check", "font.ttf"], 3), ('"$@" 2>&-', ["check", "absent.ttf"], 3),
    ('"$@" <font.ttf', ["check", "-"], 0), ('"$@" <short.ttf', ["check", "-"], 1),
    ('"$@"', ["check", "short.ttf"], 1), ('"$@"', ["check", "absent.ttf"], 3), ('"$@"', ["check", "."], 3),
    ('"$@"', ["check", "font.ttf/"], 3), ('"$@"', ["subset", "font.ttf", "absent/out.ttf", "all"], 3),
    ('"$@"', ["subset", "font.ttf", ".", "all"], 3), ('"$@"', ["subset", "font.ttf", "out.ttf", "U+G"], 2),
    ('"$@"', ["frobnicate"], 2), ('"$@"', ["subset", "font.ttf"], 2), ('exec -a other "$@"', ["--version"], 0),
    ('"$@" "$(printf "\\\\377")"', ["check"], 2), ('"$@" "$(printf "%0100000d" 0)"', ["check"], 3),
    ('"$@" ""', ["check"], 3), ('"$@" $(seq -f "U+%g" 1 9999)', ["subset", "font.ttf", "many.ttf"], 0),
    ('ulimit -f 0; trap "" XFSZ; "$@"', ["subset", "font.ttf", "full.ttf", "all"], 3),
    ('"$@"', [], 0),
]


class Machine:
    """How a program runs on a machine, and the program, the compiler and the library for it."""

    def __init__(self, folder: str, name: str, program: str, library: str, compiler: Sequence[str] = ("gcc",),
                 starts: Sequence[str] = ()) -> None:
        self.folder, self.name, self.program = os.path.join(folder, name), name, program
        self.library, self.compiler, self.starts = library, list(compiler), list(starts)
        self.own_texts: dict[bytes, bytes] = {}  # of errors, where the C library has others than glibc
        os.mkdir(self.folder)

    def run(self, *words: str, **how: object) -> Ran:
        """Runs the program, in the machine's folder."""
        return run(*self.starts, self.program, *words, cwd=self.folder, **how)

    def run_shell(self, line: str, *words: str) -> Ran:
        """Runs a line of bash, in which "$@" is the program with words."""
        status, out, err = run("bash", "-c", line, "bash", *self.starts, self.program, *words, cwd=self.folder)
        for own, other in self.own_texts.items():
            err = err.replace(own, other)
        return status, out, err

    def run_calls(self, source: str, **how: Optional[bytes]) -> Ran:
        """Compiles a program in C over the library, and runs it."""
        program = os.path.join(self.folder, os.path.basename(source) + ".out")
        words = ["-std=c99", "-D_GNU_SOURCE", "-O1", "-I", os.path.join(TOP, "include"), "-o", program]
        same(f"{self.name}: {os.path.basename(source)} is compiled", DONE, run(
            *self.compiler, *words, source, self.library, "-pthread"))
        return run("env", f"LD_LIBRARY_PATH={os.path.dirname(self.library)}", *self.starts, program, cwd=self.folder,
                   **how)

    def sums(self, start: str, end: str = "") -> dict[str, str]:
        """The sums of the files in the folder whose names begin and end so; each is removed."""
        found = {}
        for name in sorted(os.listdir(self.folder)):
            path = os.path.join(self.folder, name)
            if name.startswith(start) and name.endswith(end):
                found[name] = hashlib.sha256(read(path)).hexdigest()
                os.remove(path)
        return found


@cache
def made_of(machine: Machine, path: str) -> tuple[list[Ran], dict[str, str]]:
    """The answers of the program for a font, and the sum of each file that it writes: cuts of each kind, and joins."""
    told = [machine.run(command, path) for command in ("check", "show", "codes")]
    for kind, words in KINDS.items():
        for number, wanted in enumerate(SETS):
            told.append(machine.run("subset", *words, path, f"{kind}{number}.ttf", *(f"U+{one}" for one in wanted)))
        told.append(machine.run("join", *words, "-o", f"{kind}.ttf", f"{kind}0.ttf", f"{kind}1.ttf"))
        told.append(machine.run("belongs", *words, f"{kind}.ttf", path))
        told.append(machine.run("join", *words, "-o", f"{kind}_bad.ttf", f"{kind}0.ttf", path))
    return told, machine.sums("", ".ttf")


def same_program(here: Machine, there: Machine, fonts: Sequence[str]) -> None:
    """Both programs answer the same and write the same files."""
    same(f"{there.name}: demo", here.run("demo"), there.run("demo"))
    for path in fonts:
        wanted = made_of(here, path)
        made = len(KINDS) * (len(SETS) + 1)
        check(f"{os.path.basename(path)}: cuts and joins of each kind are made", len(wanted[1]) == made, wanted)
        same(f"{there.name}: the program does the same with {os.path.basename(path)}", wanted, made_of(there, path))


def same_failures(here: Machine, there: Machine) -> None:
    """Both programs end with the same status and say the same where something fails, and leave the same files."""
    for machine in here, there:
        put(os.path.join(machine.folder, "font.ttf"), BASE6)
        put(os.path.join(machine.folder, "short.ttf"), BASE6[:-1])
        os.chmod(machine.folder, 0o755)
    for line, words, status in FAILURES:
        wanted = here.run_shell(line, *words)
        same(f"{line} {words}: the status", status, wanted[0])
        same(f"{there.name}: {line} {words}: the same", wanted, there.run_shell(line, *words))
    same(f"{there.name}: the files that are left", *(machine.sums("", ".ttf") for machine in (here, there)))


def range_of(wanted: str) -> str:
    """A range as the lines have it."""
    return wanted if "-" in wanted else f"{wanted}-{wanted}"


def request(kind: int, ranges: str, glyphs: str = "", flags: int = CLOSES, more: int = 0) -> str:
    """The words of a request for ranges and the glyphs of a file, as tests/lib/library_calls.c reads them."""
    return f"+{kind},{flags},{more},{glyphs} {ranges}".rstrip()


def lines_of_calls(path: str, name: str) -> list[str]:
    """Lines for tests/lib/library_calls.c: what is asked of a font, and the files that this writes."""
    lines = [f"check {path}", f"codes {path} {name}.codes 20000", f"info {path} {name}.info"]
    for kind in range(len(KINDS) + 1):  # the last number is no kind's
        cuts = []
        for number, wanted in enumerate(SETS):
            cuts.append(f"{name}{kind}{number}.ttf")
            lines.append(f"cut {path} {cuts[-1]} - {request(kind, ' '.join(map(range_of, wanted)))}")
        exact, closed = (request(kind, "41-43", "glyphs.in", flags) for flags in (0, CLOSES))
        lines += [f"cuts {path} {name}{kind}.cuts - - {closed} {exact} {request(kind, '')}", f"form {kind} {path}",
                  f"cut {path} {name}{kind}.exact - {exact}",
                  f"closure {path} {name}{kind}.closure 65536 {closed}", f"lost {path} {name}{kind}.lost {closed}"]
        if kind < len(KINDS):
            lines += [f"belongs {kind} {cuts[0]} {path}", f"join {kind} {name}{kind}.ttf - {cuts[0]} {cuts[1]}",
                      f"join {kind} {name}{kind}.ttf - {cuts[0]} {path}", f"form {kind} {cuts[0]}",
                      f"kept {kind} {cuts[0]} {name}{kind}.kept 65536"]
    return lines


@cache
def answers_of(machine: Machine, lines: bytes) -> tuple[Ran, dict[str, str]]:
    """What the library answers to lines, and the sum of each file that it writes."""
    put(os.path.join(machine.folder, "glyphs.in"), struct.pack("<3H", 1, 5, 7))
    told = machine.run_calls(os.path.join(LIB, "library_calls.c"), input=lines, stdin=None)
    return told, machine.sums("out")


def same_library(here: Machine, there: Machine, fonts: Sequence[str]) -> None:
    """Both libraries answer each call alike, and write the same."""
    lines = "".join(f"{line}\n" for number, path in enumerate(fonts)
                    for line in lines_of_calls(path, f"out{number}_")).encode()
    (wanted, files), (found, other_files) = answers_of(here, lines), answers_of(there, lines)
    check("the library answers each line", wanted[0] == 0 and wanted[1].count(b"\n") == lines.count(b"\n"), wanted[2])
    same(f"{there.name}: the library answers the same", wanted, found)
    check("the library writes files for each font", len(files) > 10 * len(fonts), files)
    same(f"{there.name}: the library writes the same", files, other_files)
