"""How long the fonts of merged documents are, deflated as in a PDF file: the join of lean cuts, beside a subset for
each document that other programs trim."""
import os
import subprocess
import sys
import zlib
from concurrent.futures import ThreadPoolExecutor
from typing import Iterator, NamedTuple, Optional, Sequence

from checks import DEJAVU, PROGRAM, read, run, skip
from cut_sizes import mapped_codes
from document_texts import document_lines
from join_timing import SOURCE
from measure import DEBIAN_PYTHON, DROPPED, HB_SUBSET, Font, need

COUNTS = 2, 10, 50
PATHS = f"{DEJAVU}/DejaVuSans.ttf", SOURCE
# What a program that reads a font by glyph numbers does not need.
TRIMMED = f"{DROPPED},name,post,OS/2"
WAYS = "joined lean cuts", "a lean cut each", "hb-subset each", "pyftsubset each"


class Merged(NamedTuple):
    """The deflated bytes of the fonts of the first documents, by the name of the way that they were made."""

    font: str
    documents: int
    sizes: dict[str, int]


def deflated(path: str) -> int:
    """The length of a file, deflated."""
    return len(zlib.compress(read(path), 9))


class Maker:
    """Makes the fonts of documents in a folder."""

    def __init__(self, folder: str, font: str) -> None:
        self.folder, self.font = folder, font
        name = os.path.basename(font)[:-4]
        codes = set(mapped_codes(Font(name, font, 0, 0)))
        self.wanted = [sorted({ord(letter) for line in lines for letter in line})
                       for lines in document_lines(name, codes, max(COUNTS))]

    def made(self, job: tuple[str, int]) -> Optional[int]:
        """The deflated length of the font for a document, made in one way; None where it cannot be made."""
        way, number = job
        out, codes = f"{self.folder}/{way}-{number}.ttf", f"{self.folder}/{way}-{number}.codes"
        with open(codes, "w", encoding="ascii") as file:
            file.writelines(f"U+{code:X}\n" for code in self.wanted[number])
        others = ["--retain-gids", f"--unicodes-file={codes}", TRIMMED, f"--output-file={out}"]
        words = {WAYS[1]: [PROGRAM, "subset", "--lean", self.font, out, "--codes-file", codes],
                 WAYS[2]: [HB_SUBSET, *others, self.font],
                 WAYS[3]: [DEBIAN_PYTHON, "-m", "fontTools.subset", self.font, *others]}[way]
        try:
            ran = subprocess.run(words, stdin=subprocess.DEVNULL, capture_output=True, check=False)
        except FileNotFoundError:
            return None
        return deflated(out) if ran.returncode == 0 else None

    def joined(self, count: int) -> int:
        """The deflated length of the join of the lean cuts for the first documents."""
        out = f"{self.folder}/joined.ttf"
        cuts = [f"{self.folder}/{WAYS[1]}-{number}.ttf" for number in range(count)]
        ran = run(PROGRAM, "join", "--lean", out, *cuts)
        need(f"{self.font}: {count} cuts join", ran == (0, b"", b""), ran)
        return deflated(out)

    def rows(self, ways: Sequence[str], threads: ThreadPoolExecutor) -> Iterator[Merged]:
        """The lengths for each number of documents."""
        name = os.path.basename(self.font)[:-4]
        each: dict[str, list[int]] = {}
        for way in ways:
            lengths = list(threads.map(self.made, [(way, number) for number in range(max(COUNTS))]))
            each[way] = [length for length in lengths if length is not None]
        for way in [way for way in ways if len(each[way]) < max(COUNTS)]:
            skip(f"{name}: {way}", "it failed, or is not installed")
            del each[way]
        need(f"{name}: the lean cuts are made", WAYS[1] in each)
        for count in COUNTS:
            sizes = {way: sum(each[way][:count]) for way in each}
            yield Merged(name, count, {WAYS[0]: self.joined(count), **sizes})


def measured(folder: str, is_quick: bool) -> list[Merged]:
    """The lengths for each font and number of documents; of a quick run without pyftsubset."""
    rows: list[Merged] = []
    with ThreadPoolExecutor(os.cpu_count()) as threads:
        for path in filter(os.path.exists, PATHS):
            print(f"{os.path.basename(path)[:-4]}: fonts of documents", file=sys.stderr, flush=True)
            rows += Maker(folder, path).rows(WAYS[1:-1] if is_quick else WAYS[1:], threads)
    return rows
