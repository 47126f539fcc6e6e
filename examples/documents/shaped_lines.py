"""The glyphs of lines of text in any direction, and where they stand. ICU finds the directions and scripts of a line,
and `hb-shape` shapes each part in the first font that has its letters.

It needs Debian's packages python3-icu and libharfbuzz-bin."""
import itertools
import json
import pathlib
import subprocess
import unicodedata
from typing import Dict, Iterator, List, NamedTuple, Sequence, Tuple

import fontcut
import icu

# What has no script of its own: digits, signs and marks.
SHARED = {"Zyyy", "Zinh"}


class Lacking(Exception):
    """No font has a letter."""


class Font:
    """A font in a file: its path, its bytes, and how many points a unit of it has at a size."""

    def __init__(self, path: str, size: float) -> None:
        self.path, self.data = path, pathlib.Path(path).read_bytes()
        self.scale = size / fontcut.info(self.data).units_per_em


class Run(NamedTuple):
    """A part of a line that has one direction: its first letter, its text and whether it goes from right to left."""

    start: int
    text: str
    is_right_to_left: bool


class Glyph(NamedTuple):
    """A glyph on a line: the place of its font among all, its number, where it stands, in points from the start of the
    line, and its text: the first glyph of some that are shaped together has the text of all."""

    font: int
    number: int
    x: float
    y: float
    text: str


class Cluster(NamedTuple):
    """Glyphs whose text is told together: all of it, its glyphs, and whether it has letters from right to left."""

    text: str
    glyphs: List[Glyph]
    is_right_to_left: bool


def runs(line: str) -> Iterator[Run]:
    """The runs of a line, from left to right (Unicode, UAX 9)."""
    bidi, words = icu.Bidi(), line.encode("utf-16-le")
    bidi.setPara(icu.UnicodeString(line), icu.Bidi.DEFAULT_LTR)
    for number in range(bidi.countRuns()):
        start, length, direction = bidi.getVisualRun(number)
        before, text = (words[2 * first:2 * last].decode("utf-16-le") for first, last in (
            (0, start), (start, start + length)))
        yield Run(len(before), text, direction == icu.UBiDiDirection.RTL)


def is_written_left(run: Run) -> bool:
    """Whether a run has a letter of a script that is written from right to left."""
    return any(unicodedata.bidirectional(letter) in ("R", "AL") for letter in run.text)


def font_of(letter: str, fonts: Sequence[Font], last: int) -> int:
    """The place of the first font that has a letter. A space or a mark stays in the font of the letter before it, if
    that has it, and so does what is not drawn at all."""
    places = [place for place, font in enumerate(fonts) if fontcut.glyphs(font.data, letter)[0]]
    kind = unicodedata.category(letter)
    if kind == "Cf" or (last in places and kind[0] in "MZ"):
        return last
    if not places:
        raise Lacking(f"no font has U+{ord(letter):04X}")
    return places[0]


def parts(text: str, fonts: Sequence[Font]) -> List[Tuple[str, int]]:
    """A text in parts of one script and one font, each with the place of its font."""
    found: List[Tuple[str, int]] = []
    last, scripts = 0, set(SHARED)
    for letter in text:
        font, script = font_of(letter, fonts, last), icu.Script.getScript(letter).getShortName()
        if found and font == last and (script in SHARED or scripts <= {script, *SHARED}):
            found[-1] = found[-1][0] + letter, font
        else:
            found.append((letter, font))
            scripts = set()
        scripts.add(script)
        last = font
    return found


def shaped(text: str, path: str, is_right_to_left: bool) -> Iterator[Tuple[str, List[Dict[str, int]]]]:
    """The clusters of a text, from left to right: the text of each, and its glyphs as hb-shape has them."""
    words = ["hb-shape", "--output-format=json", "--no-glyph-names", path,
             f"--direction={'rtl' if is_right_to_left else 'ltr'}",
             f"--unicodes={','.join(f'{ord(letter):X}' for letter in text)}"]
    glyphs = json.loads(subprocess.run(words, capture_output=True, check=True).stdout)
    starts = sorted({glyph["cl"] for glyph in glyphs}) + [len(text)]
    ends = dict(zip(starts, starts[1:]))
    for start, some in itertools.groupby(glyphs, lambda glyph: int(glyph["cl"])):
        yield text[start:ends[start]], list(some)


def clusters_of(run: Run, fonts: Sequence[Font], x: float) -> Tuple[List[Cluster], float]:
    """The clusters of a run that begins at a place, and where it ends. A letter comes before its marks, so that what
    reads the text does not take the marks for words of their own."""
    found, order = [], -1 if run.is_right_to_left else 1
    for part, place in parts(run.text, fonts)[::order]:
        scale = fonts[place].scale
        for text, some in shaped(part, fonts[place].path, run.is_right_to_left):
            glyphs = []
            for glyph in some:
                glyphs.append((place, glyph["g"], x + glyph["dx"] * scale, glyph["dy"] * scale))
                x += glyph["ax"] * scale
            told = itertools.chain([text], itertools.repeat(""))
            made = [Glyph(*glyph, own) for glyph, own in zip(glyphs[::order], told)]
            found.append(Cluster(text, made, True))
    return found, x


def clusters(line: str, fonts: Sequence[Font]) -> List[Cluster]:
    """The clusters of a line, from left to right. All that stands between letters of scripts from right to left is one:
    also numbers and words that follow one another from right to left, which look as if they did from left to right."""
    found, x = [], 0.0
    for is_left, group in itertools.groupby(runs(line), is_written_left):
        some, made = list(group), []
        for run in some:
            more, x = clusters_of(run, fonts, x)
            made += more
        if not is_left:
            text = "".join(run.text for run in sorted(some))
            made = [Cluster(text, [glyph for cluster in made for glyph in cluster.glyphs], False)]
        found += made
    return found
