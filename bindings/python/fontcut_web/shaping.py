"""Calls of HarfBuzz's program `hb-shape`, for texts that are given; `shaped` says which texts of pages to give it."""
from __future__ import annotations

import contextlib
import os
import re
import shutil
import subprocess
import tempfile
from typing import List, Mapping, NamedTuple, Optional, Sequence, Set, Tuple

from .common import Refused

PROGRAM = "hb-shape"
INSTALL = "apt install libharfbuzz-bin"
# Texts are not in the language of whoever runs this; paths are in UTF-8.
_NO_LANGUAGE = {**os.environ, "LC_ALL": "C.UTF-8"}
# A glyph as hb-shape prints it: its number, its cluster, its offsets and its advances, some of which may be left out.
_GLYPH = re.compile(r"(\d+)=(\d+)(?:@(-?\d+),(-?\d+))?(?:\+(-?\d+)(?:,(-?\d+))?)?")
_NUMBER = re.compile(r"\d+")
# What parts words and lines for `hb-shape --batch`, how many bytes a line of it may have, and in how many settings one
# call shapes texts: all that it prints is held in memory.
_PARTS, _LONGEST, _AT_ONCE = re.compile("[;\r\n\0]"), 4000, 64


class Setting(NamedTuple):
    """How texts are shaped: in a language, in a direction (`ltr`, `rtl`, `ttb`), with features that are on or off as
    hb-shape reads them, at a place of the axes, and in a script. What is empty is as the text has it."""

    language: str = ""
    direction: str = ""
    features: Tuple[str, ...] = ()
    place: Tuple[Tuple[str, float], ...] = ()
    script: str = ""

    def words(self) -> List[str]:
        """The setting as the words of a command line."""
        named = {"language": self.language, "direction": self.direction, "script": self.script,
                 "features": ",".join(self.features),
                 "variations": ",".join(f"{tag}={value:g}" for tag, value in self.place)}
        return [f"--{name}={value}" for name, value in named.items() if value]


def is_there() -> bool:
    """Whether texts can be shaped here."""
    return shutil.which(PROGRAM) is not None


def version() -> str:
    """What HarfBuzz says of its version, or an empty text where it is not there."""
    if not is_there():
        return ""
    ran = subprocess.run([PROGRAM, "--version"], stdin=subprocess.DEVNULL, capture_output=True, check=False)
    return " ".join(ran.stdout.decode("ascii", "replace").split())


def _told(words: Sequence[str], count: int, given: str = "") -> List[str]:
    """The lines that hb-shape prints, which have to be so many, with these words and this on its standard input."""
    ran = subprocess.run([PROGRAM, *words], input=os.fsencode(given), capture_output=True, check=False,
                         env=_NO_LANGUAGE)
    told = ran.stdout.decode("ascii", "replace").splitlines()
    if ran.returncode or len(told) != count:
        said = " ".join(ran.stderr.decode("utf-8", "replace").split()) or f"it printed {len(told)} lines"
        raise Refused(f"{PROGRAM} cannot shape {count} texts: {said}")
    return told


def _is_for_batch(words: Sequence[str]) -> bool:
    """Whether words fit in a line of `hb-shape --batch`, which parts them by semicolons."""
    return not any(_PARTS.search(word) for word in words) and len(os.fsencode(";".join(words))) < _LONGEST


def _shaped(rows: Sequence[Sequence[str]], count: int) -> List[str]:
    """The lines that hb-shape prints with each of these words, so many each time. If it can, it begins once for all of
    them: `--batch`, by which HarfBuzz tests itself, reads words from lines, and keeps the font."""
    if len(rows) > 1 and all(map(_is_for_batch, rows)):
        with contextlib.suppress(Refused):
            return _told(["--batch"], len(rows) * count, "".join(f"{';'.join(row)}\n" for row in rows))
    return [line for row in rows for line in _told(row, count)]


def _lines(path: str, texts: Sequence[str], every: Sequence[Sequence[str]]) -> List[str]:
    """What hb-shape prints of texts, with each of these words. No text is empty, or has an end of a line."""
    with tempfile.NamedTemporaryFile(suffix=".txt") as lines:
        lines.write("".join(f"{text}\n" for text in texts).encode("utf-8", "replace"))
        lines.flush()
        rows = [["--shapers=ot", "--no-glyph-names", *words, f"--text-file={lines.name}", path] for words in every]
        try:
            return _shaped(rows, len(texts))
        except Refused as refusal:
            raise Refused(f"{path}: {refusal}") from refusal


def glyphs(path: str, texts: Sequence[str], settings: Sequence[Setting]) -> List[Set[int]]:
    """The numbers of the glyphs that each of the texts is shaped into by the font in a file, in any of the settings."""
    found: List[Set[str]] = [set() for _ in texts]
    for first in range(0, len(settings) if texts else 0, _AT_ONCE):
        every = [["--no-clusters", "--no-positions", *one.words()] for one in settings[first:first + _AT_ONCE]]
        told = _lines(path, texts, every)
        for number, numbers in enumerate(found):
            numbers.update(_NUMBER.findall(" ".join(told[number::len(texts)])))
    return [set(map(int, numbers)) for numbers in found]


def _numbers(line: str) -> List[Tuple[int, ...]]:
    """The numbers of each glyph of a line: the glyph's own, its cluster, then offsets and advances."""
    return [tuple(int(number or 0) for number in found) for found in _GLYPH.findall(line)]


def _drawn(line: str) -> List[Tuple[int, ...]]:
    """The numbers of the glyphs of a line that browsers draw. A cluster with a character that the font lacks, whose
    glyph is 0, they draw in another font."""
    every = _numbers(line)
    lacking = {numbers[1] for numbers in every if numbers[0] == 0}
    return [numbers for numbers in every if numbers[1] not in lacking]


def _is_near(one: str, other: str, most: int) -> bool:
    """Whether two lines have the same glyphs and clusters where the font is drawn, and offsets and advances that are
    off by so many units at most."""
    drawn, others = _drawn(one), _drawn(other)
    return len(drawn) == len(others) and all(
        first[:2] == second[:2] and max(abs(left - right) for left, right in zip(first[2:], second[2:])) <= most
        for first, second in zip(drawn, others))


def difference(paths: Tuple[str, str], texts: Sequence[str], settings: Tuple[Setting, Setting],
               most: int = 0) -> Optional[str]:
    """The first of the texts that the fonts in two files shape otherwise, each by its own setting, or None. Offsets and
    advances may be off by so many units."""
    if not texts:
        return None
    told = [_lines(path, texts, [setting.words()]) for path, setting in zip(paths, settings)]
    return next((text for text, one, other in zip(texts, *told) if one != other and not _is_near(one, other, most)),
                None)


def place_of(values: Mapping[str, float]) -> Tuple[Tuple[str, float], ...]:
    """A place of axes as a setting has it."""
    return tuple(sorted(values.items()))
