"""What the same tasks cost two builds of the program: instructions by callgrind, times in turn, and memory."""
import os
import re
from typing import NamedTuple, Optional, Sequence

from checks import DEJAVU, NO_WORDS, run
from timing import Timed, in_turn

LARGE = "/usr/share/fonts/truetype/lxgw-wenkai/LXGWWenKai-Regular.ttf"  # Debian's package fonts-lxgw-wenkai
SMALL = f"{DEJAVU}/DejaVuSansMono.ttf"
OUT = "out.ttf"
JOINED = 20  # cuts, of 256 codes each
FIRST = 0x4E00
RUNS = 25


class Task(NamedTuple):
    """A task by its name, its words, and what is the most that a build may take of the proved program's instructions,
    by the kind of its compiler."""

    name: str
    words: Sequence[str]
    most: dict[str, float]


CUTS, JOINS = {"clang": 1.06, "gcc": 1.12}, {"clang": 1.2, "gcc": 1.3}


def parts() -> list[str]:
    """The names of the cuts that are joined."""
    return [f"part{number}.ttf" for number in range(JOINED)]


def tasks() -> list[Task]:
    """The tasks whose fonts are there. They read and write in a folder that `prepare` has filled."""
    small, large = os.path.exists(SMALL), os.path.exists(LARGE)
    listed = [(small, "a small font, ASCII", ["subset", SMALL, OUT, "U+20-7E"], CUTS),
              (large, "a large font, ASCII", ["subset", LARGE, OUT, "U+20-7E"], CUTS),
              (large, "the same, a lean cut", ["subset", LARGE, OUT, "--lean", "U+20-7E"], CUTS),
              (large, "the same, a layout cut", ["subset", LARGE, OUT, "--layout", "U+20-7E"], CUTS),
              (large, "all characters", ["subset", LARGE, OUT, "all"], CUTS),
              (large, f"a join of {JOINED} full cuts", ["join", "-o", OUT, *parts()], JOINS),
              (large, f"a join of {JOINED} lean cuts", ["join", "--lean", "-o", OUT, *(f"lean_{it}" for it in parts())],
               JOINS),
              (large, "a check", ["check", LARGE], CUTS), (True, "its version", ["--version"], CUTS)]
    return [Task(name, words, most) for is_there, name, words, most in listed if is_there]


def prepare(folder: str, program: str) -> None:
    """Makes the cuts that are joined."""
    if not os.path.exists(LARGE):
        return
    for number, name in enumerate(parts()):
        word = f"U+{FIRST + 256 * number:X}-{FIRST + 256 * number + 255:X}"
        for prefix, kind in (("", NO_WORDS), ("lean_", ["--lean"])):
            ran = run(program, "subset", *kind, LARGE, os.path.join(folder, prefix + name), word)
            if ran != (0, b"", b""):
                raise RuntimeError(f"{program} makes no cut: {ran}")


def times(folder: str, runs: str, programs: Sequence[str], words: Sequence[str]) -> list[Optional[Timed]]:
    """What runs of the programs took in turn, by tests/lib/runs.c, the program at `runs`."""
    before = os.getcwd()
    os.chdir(folder)
    try:
        return in_turn(runs, OUT, [[program, *words] for program in programs], 0, RUNS, RUNS, worst=1)
    finally:
        os.chdir(before)


def kind_of(compiler: str) -> str:
    """Whether a compiler is clang or gcc, by what it says of its version."""
    told = run(*compiler.split(), "--version")[1].decode()
    return "clang" if re.search("clang", told) else "gcc"
