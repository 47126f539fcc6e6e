"""How long cuts are: as they are, by Brotli and as WOFF2, beside what other programs write for the same codes."""
import os
import subprocess
import sys
from typing import NamedTuple, Sequence

from checks import PROGRAM, found_in, run, skip
from measure import DEBIAN_PYTHON, DROPPED, HB_SUBSET, Font, fonts, need

SETS = "ASCII", "100 characters", "1,000 characters"
WAYS = "cut", "lean cut", "hb-subset", "pyftsubset"


class Packed(NamedTuple):
    """The bytes of a file as it is, by Brotli and as WOFF2."""

    raw: int
    brotli: int
    woff2: int


class Sizes(NamedTuple):
    """The lengths of a font for a set, by the name of the way that it was made."""

    font: Font
    wanted: str
    made: dict[str, Packed]


def mapped_codes(font: Font) -> list[int]:
    """The codes that a font maps, as `fontcut codes` prints them."""
    codes: list[int] = []
    for word in run(PROGRAM, "codes", font.path)[1].decode().split():
        first, last = found_in(word, r"^U\+([0-9A-F]+)(?:-([0-9A-F]+))?$").groups()
        codes += range(int(first, 16), int(last or first, 16) + 1)
    return codes


def spread(codes: Sequence[int], count: int) -> list[int]:
    """So many of the codes as are asked for, or all, evenly from the first to the last."""
    count = min(count, len(codes))
    return [codes[len(codes) * k // count] for k in range(count)]


def wanted_codes(font: Font) -> dict[str, list[int]]:
    """The codes of each set."""
    codes = mapped_codes(font)
    return dict(zip(SETS, [list(range(0x20, 0x7F)), spread(codes, 100), spread(codes, 1000)]))


def packed(path: str) -> Packed:
    """The length of a file as it is, by Brotli and as WOFF2. It is removed."""
    raw = os.path.getsize(path)
    brotli = len(subprocess.run(["brotli", "-q", "11", "-c", path], capture_output=True, check=True).stdout)
    subprocess.run(["woff2_compress", path], capture_output=True, check=True)
    woff2 = path[:-len("ttf")] + "woff2"
    length = os.path.getsize(woff2)
    os.remove(woff2)
    os.remove(path)
    return Packed(raw, brotli, length)


class Sizer:
    """Makes the files in a folder."""

    def __init__(self, folder: str, wanted_ways: Sequence[str]) -> None:
        self.wanted_ways = wanted_ways
        self.codes, self.out = os.path.join(folder, "codes"), os.path.join(folder, "sized.ttf")

    def ways(self, font: Font) -> dict[str, list[str]]:
        """The words by which each program makes its file."""
        subset = [PROGRAM, "subset", font.path, self.out, "--codes-file", self.codes]
        others = ["--retain-gids", f"--unicodes-file={self.codes}", DROPPED, f"--output-file={self.out}"]
        return dict(zip(WAYS, [subset, [*subset, "--lean"], [HB_SUBSET, *others, font.path],
                               [DEBIAN_PYTHON, "-m", "fontTools.subset", font.path, *others]]))

    def made(self, font: Font, wanted: str, codes: Sequence[int]) -> Sizes:
        """What each way makes of a font for the codes of a set."""
        with open(self.codes, "w", encoding="ascii") as out:
            out.writelines(f"U+{code:X}\n" for code in codes)
        found = {}
        ways = self.ways(font)
        for way in self.wanted_ways:
            try:
                is_made = not run(*ways[way], timeout=None)[0]
            except FileNotFoundError:
                is_made = False
            if is_made:
                found[way] = packed(self.out)
            else:
                skip(f"{font.name}, {wanted}: {way}", "it failed, or is not installed")
        need(f"{font.name}, {wanted}: both cuts are made", "cut" in found and "lean cut" in found)
        return Sizes(font, wanted, found)


def measured(folder: str, is_quick: bool) -> list[Sizes]:
    """The lengths for each font and set; of a quick run without pyftsubset."""
    sizer = Sizer(folder, WAYS[:-1] if is_quick else WAYS)
    rows: list[Sizes] = []
    for font in fonts():
        print(f"{font.name}: lengths of cuts", file=sys.stderr, flush=True)
        rows += [sizer.made(font, wanted, codes) for wanted, codes in wanted_codes(font).items()]
    return rows
