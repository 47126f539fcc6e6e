"""Random runs of two builds of the program, over real and damaged fonts: both get the same words, files and standard
input, and have to do the same."""
from __future__ import annotations

import os
import random
import tempfile
from functools import cache
from typing import NamedTuple

from checks import check, files_below, put, read, run

FONTS = "/usr/share/fonts"
LARGEST = 3 << 20  # bytes of a font
LISTS = ("U+20-7E", "all", "U+41", "U+41-5A,U+61-7A", "everything", "U+0-10FFFF", "U+3B1", "U+4E00-4EFF", "*", "",
         "U+1F600")
TEXTS = ("Hello", "Ünïcödé e\u0301", "", "office ffi", "\u0645\u0631\u062d\u0628\u0627", "\u4f60\u597d", "a",
         "\u0915\u094d\u0937")
KINDS: tuple[list[str], ...] = (
    [], ["--lean"], ["--layout"], ["--variable"], ["--layout", "--drop", "kern"], ["--variable", "--drop", "GPOS,GSUB"])
OPTIONS: tuple[list[str], ...] = (
    [], ["U+41-5A"], ["all"], ["--report"], ["--strict"], ["--force"], ["--exclude", "U+41"], ["--exactly"],
    ["--complete", "U+E9"])
SLICE_OPTIONS: tuple[list[str], ...] = ([], ["--css", "Name"], ["--strict"])
OUTS = ("out.ttf", "out.ttf", "out.ttf", "out.ttf", "out.ttf", "out.ttf", "-", "folder/out.ttf", "font.ttf",
        "missing/out.ttf", "folder")
# Words of any line, most of which make no sense together.
WORDS = ("subset", "slice", "join", "check", "show", "codes", "belongs", "demo", "help", "--help", "--version",
         "--quiet", "--verbose", "-o", "--text", "--unicodes", "--gids", "--glyphs", "--lean", "--layout", "--variable",
         "--drop", "--exactly", "--complete", "--exclude", "--report", "--strict", "--no-layout-closure", "--force",
         "--", "-", "font.ttf", "other.ttf", "out.ttf", "missing.ttf", "folder", "U+41", "U+", "U+110000", "12-3",
         "kern", "\udcff\udcfe", "é")
FILES = {"codes.txt": b"U+41 # A\n61-66, 3b1\nU+E9 5 600\n", "text.txt": "\ufeffSome text, ffi Ä\n".encode(),
         "slices.txt": b"latin U+20-7E\ngreek U+370-3FF\nrest all\n"}

# What a run leaves: its status, standard output and standard error; and of each file its bytes and its mode.
Done = tuple[int, bytes, bytes]
Left = dict[str, tuple[bytes, int]]


class Turn(NamedTuple):
    """Runs in one folder, one after the other, and the two fonts in it."""

    number: int
    font: str
    other: str
    lines: list[list[str]]


@cache
def fonts() -> list[str]:
    """The fonts of this machine that are not large."""
    paths = [os.path.join(FONTS, name) for name in files_below(FONTS)]
    named = [path for path in paths if path.lower().endswith((".ttf", ".otf", ".ttc"))]
    return [path for path in named if os.path.getsize(path) <= LARGEST]


def damaged(data: bytes, chance: random.Random) -> bytes:
    """A font with some bytes changed, cut off or added."""
    made = bytearray(data)
    for _ in range(chance.randrange(6)):
        most = min(len(made), chance.choice([64, 512, 4096, len(made)]))
        made[chance.randrange(most)] = chance.choice([0, 1, 255, chance.randrange(256)])
    if chance.random() < 0.2:
        del made[chance.randrange(len(made) + 1):]
    if chance.random() < 0.05:
        made += bytes(chance.randrange(40))
    return bytes(made)


def subset(chance: random.Random) -> list[str]:
    """The words of a cut."""
    asked: list[list[str]] = [
        ["--text", chance.choice(TEXTS)], ["--unicodes", chance.choice(LISTS)],
        ["--gids", chance.choice(["0", "1-9", "5,7-9,0x1F", "70000", "3"])], ["--codes-file", "codes.txt"],
        ["--text-file", chance.choice(["text.txt", "-"])], []]
    return ["subset", "font.ttf", chance.choice(OUTS), *chance.choice(KINDS), *chance.choice(asked),
            *chance.choice(OPTIONS)]


def joins(chance: random.Random) -> list[list[str]]:
    """The words of three cuts of a font, and of their join."""
    kind, cuts = chance.choice(KINDS), ["cut0.ttf", "cut1.ttf", "cut2.ttf"]
    made = [["subset", "font.ttf", cut, *kind, "--unicodes", chance.choice(LISTS)] for cut in cuts]
    return [*made, ["join", "-o", "joined.ttf", *kind[:1], *cuts], ["belongs", "joined.ttf", "font.ttf", *kind],
            ["belongs", "cut0.ttf", "font.ttf"], ["check", "joined.ttf"], ["show", "joined.ttf"],
            ["join", "-o", "-", "cut1.ttf"]]


def lines_of(chance: random.Random) -> list[list[str]]:
    """The words of the runs of a turn."""
    kind = chance.choice(KINDS)
    others: list[list[list[str]]] = [
        [["check", "font.ttf"], ["show", "font.ttf"], ["codes", "font.ttf"], ["codes", "font.ttf", "--glyphs"]],
        joins(chance),
        [["subset", "font.ttf", "a.ttf", "U+41"], ["subset", "other.ttf", "b.ttf", "U+42"],
         ["join", "-o", "c.ttf", "a.ttf", "b.ttf"], ["belongs", "a.ttf", "other.ttf"], ["join", "c.ttf", "a.ttf"],
         ["join", "-o", "c.ttf", "font.ttf"]],
        [["slice", "font.ttf", "slices", "--slices", "slices.txt", *kind, *chance.choice(SLICE_OPTIONS)]],
        [["check", "-"], ["subset", "-", "-", "U+20-7E", *kind]],
        [[chance.choice(["--quiet", "--verbose"]), *subset(chance)]],
        [[chance.choice(WORDS) for _ in range(chance.randrange(6))]]]
    return [subset(chance)] if chance.random() < 1 / 3 else chance.choice(others)


def turns(count: int, first: int = 0) -> list[Turn]:
    """Turns that have so many runs together, or a few more."""
    made: list[Turn] = []
    while sum(len(turn.lines) for turn in made) < count:
        number = first + len(made)
        chance = random.Random(number)
        made.append(Turn(number, chance.choice(fonts()), chance.choice(fonts()), lines_of(chance)))
    return made


def fill(folder: str, turn: Turn) -> bytes:
    """Puts the files of a turn into a folder, and returns the font, which is damaged in a third of all turns."""
    chance, data = random.Random(f"damage {turn.number}"), read(turn.font)
    if chance.random() < 1 / 3:
        data = damaged(data, chance)
    os.makedirs(os.path.join(folder, "folder"))
    for name, held in {**FILES, "font.ttf": data, "other.ttf": read(turn.other)}.items():
        put(os.path.join(folder, name), held)
    return data


def left_in(folder: str) -> Left:
    """The files in a folder."""
    paths = [(name, os.path.join(folder, name)) for name in files_below(folder)]
    return {name: (read(path), os.stat(path).st_mode) for name, path in paths}


def compare(task: tuple[str, str, Turn]) -> dict[int, int]:
    """Runs a turn by two programs. Returns how often each status came."""
    *programs, turn = task
    statuses: dict[int, int] = {}
    with tempfile.TemporaryDirectory() as folder:
        places = [os.path.join(folder, name) for name in ("one", "two")]
        given = [fill(place, turn) for place in places][0]
        for words in turn.lines:
            done = [run(program, *words, cwd=place, input=given, stdin=None)
                    for program, place in zip(programs, places)]
            left = [left_in(place) for place in places]
            differing = [name for name in {**left[0], **left[1]} if left[0].get(name) != left[1].get(name)]
            check(f"turn {turn.number}: {words!a}: the same", done[0] == done[1] and not differing, turn.font,
                  *(f"{str(one)[:600]}" for one in done), differing)
            statuses[done[0][0]] = statuses.get(done[0][0], 0) + 1
    return statuses
