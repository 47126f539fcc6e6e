"""What variation sequences cost a page as WOFF2: exact cuts for a sentence and some sequences, beside cuts that keep
the same glyphs of the same font without its sequences."""
import os
import shutil
import sys
from typing import NamedTuple, Optional, Sequence

from checks import BABELSTONE, BIZUD, HANAZONO, IPAEX, PROGRAM, VLGOTHIC, put, read, run, skip
from document import table
from font_cutting import sequences
from measure import need
from pages import length_of
from sequence_making import with_subtables
from shaping_texts import TEXTS

FONTS = [(f"{IPAEX}/ipaexg.ttf", "fonts-ipaexfont-gothic"),
         (f"{VLGOTHIC}/VL-Gothic-Regular.ttf", "fonts-vlgothic"),
         (f"{BIZUD}/BIZUDGothic-Regular.ttf", "fonts-morisawa-bizud-gothic"),
         (f"{HANAZONO}/HanaMinA.ttf", "fonts-hanazono"),
         (f"{BABELSTONE}/BabelStoneHan.ttf", "fonts-babelstone-han")]
SEQUENCES = 24  # of a page
TITLES = "font", "sequences", "of the page", "bytes of the cut", "without sequences", "ratio"


class Row(NamedTuple):
    """A font, how many sequences it has, how many the page has, and the bytes of the cut with and without them."""

    font: str
    of_font: int
    of_page: int
    kept: int
    plain: int


def spread(found: Sequence[tuple[int, int]]) -> list[tuple[int, int]]:
    """Some sequences of a font, at even distances."""
    return [found[index * len(found) // SEQUENCES] for index in range(min(SEQUENCES, len(found)))]


def cut_length(font: str, out: str, *words: str) -> int:
    """The bytes as WOFF2 of an exact cut."""
    ran = run(PROGRAM, "subset", "--layout", "--no-layout-closure", "--quiet", font, out, *words)
    need(f"{font}: an exact cut", ran[0] == 0, ran)
    return length_of(out).woff2 or 0


def row(folder: str, path: str) -> Row:
    """What the sequences of a font cost a page."""
    name, font = os.path.basename(path)[:-len(".ttf")], read(path)
    print(f"{name}: sequences of a page", file=sys.stderr, flush=True)
    text, plain, out = (os.path.join(folder, file) for file in ("page.txt", "plain.ttf", "cut.ttf"))
    every = sequences(font)
    wanted = spread(sorted(every))
    sentence = next(text for text in TEXTS if text.startswith("すべて"))
    put(text, f"{sentence}\n{''.join(chr(code) + chr(selector) for selector, code in wanted)}\n".encode())
    put(plain, with_subtables(font))
    numbers = ",".join(str(glyph) for glyph in sorted({every[one] for one in wanted}))
    kept = cut_length(path, out, "--text-file", text)
    return Row(name, len(every), len(wanted), kept,
               cut_length(plain, out, "--text-file", text, "--gids", numbers))


def measured(folder: str) -> Optional[list[Row]]:
    """The rows of the fonts that are there, or None where a program is not."""
    if not shutil.which("woff2_compress"):
        skip("bytes of sequences", "not installed: woff2_compress")
        return None
    for path, package in FONTS:
        if not os.path.exists(path):
            skip(path, f"Debian's package {package} is not installed")
    return [row(folder, path) for path, _ in FONTS if os.path.exists(path)]


def tables(rows: Optional[Sequence[Row]]) -> dict[str, str]:
    """The table, by its name in docs/performance/data."""
    if not rows:
        return {"sequences": "Not measured, for a program was not there."}
    return {"sequences": table(TITLES, [
        [one.font, f"{one.of_font:,}", one.of_page, f"{one.kept:,}", f"{one.plain:,}", f"{one.kept / one.plain:.3f}"]
        for one in rows])}
