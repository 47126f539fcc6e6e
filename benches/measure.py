"""What is measured: ten fonts, four sets of wanted codes, and the programs and calls that run in turn over them."""
import os
import subprocess
import sys
import time
from typing import Iterable, NamedTuple, Optional, Sequence

from checks import (BABELSTONE, DEJAVU, FREEFONT, HANAZONO, LIBERATION, PROGRAM, VLGOTHIC, check, end, read, run,
                    skip)
from font_reading import table, u16
from join_timing import COUNTS, SOURCE, Joined, cuts_to_join, time_join
from timing import (BENCHES, IDEOGRAPHS, LIB, Called, Timed, calls_in_turn, compiled, compiled_calls, in_turn,
                    put_ranges)

OXYGEN = "/usr/share/fonts/truetype/oxygen"  # Debian's package fonts-oxygen
IPAFONT = "/usr/share/fonts/opentype/ipafont-gothic"  # Debian's package fonts-ipafont-gothic

PATHS = (f"{OXYGEN}/Oxygen-Sans.ttf", f"{FREEFONT}/FreeMonoBold.ttf", f"{LIBERATION}/LiberationSans-Regular.ttf",
         f"{DEJAVU}/DejaVuSans.ttf", f"{FREEFONT}/FreeSerif.ttf", f"{VLGOTHIC}/VL-Gothic-Regular.ttf",
         f"{IPAFONT}/ipag.ttf", SOURCE, f"{HANAZONO}/HanaMinA.ttf", f"{BABELSTONE}/BabelStoneHan.ttf")
SIZED = "DejaVuSans", "VL-Gothic-Regular", "LXGWWenKai-Regular", "BabelStoneHan"  # about 1, 4, 16 and 52 MB

HB_SUBSET = "/usr/bin/hb-subset"
DEBIAN_PYTHON = "/usr/bin/python3"
DROPPED = "--drop-tables+=GSUB,GPOS,GDEF,kern"
LONGEST = 60  # seconds that a run of pyftsubset may take


class Wanted(NamedTuple):
    """A set of wanted codes: its ranges, and the words by which fontcut, hb-subset and pyftsubset are asked for it."""

    name: str
    ranges: list[tuple[int, int]]
    fontcut: list[str]
    hb: str
    pyft: str


class Effort(NamedTuple):
    """How long is measured: the milliseconds that each program or way is given, the least and the most of its runs."""

    run_ms: int
    least: int
    most: int
    call_ms: int
    least_calls: int
    joins: Sequence[int]


FULL = Effort(700, 9, 300, 400, 7, COUNTS)
QUICK = Effort(60, 3, 20, 60, 3, COUNTS[:2])


class Font(NamedTuple):
    """A font: its bytes, and how many glyphs it has."""

    name: str
    path: str
    size: int
    glyphs: int


class Programs(NamedTuple):
    """A font for a set: the bytes of the cut, what each program took by its name, and the milliseconds of a run of
    pyftsubset, where there was one."""

    font: Font
    wanted: str
    size: int
    took: dict[str, Timed]
    pyftsubset: Optional[float]


class Calls(NamedTuple):
    """The same of calls in one process."""

    font: Font
    wanted: str
    size: int
    took: dict[str, Called]


class Checks(NamedTuple):
    """A font, and what `check` of it took, and reading and summing it, by their names."""

    font: Font
    took: dict[str, Timed]


class Figures(NamedTuple):
    """All that is measured of the ten fonts and of joins, and what a program takes that does nothing."""

    fonts: list[Font]
    programs: list[Programs]
    calls: list[Calls]
    checks: list[Checks]
    joins: list[Joined]
    nothing: Timed


def fonts() -> list[Font]:
    """The ten fonts, in order of size; one that is not installed is skipped."""
    found = []
    for path in PATHS:
        if os.path.exists(path):
            glyphs = u16(table(read(path), b"maxp"), 4)
            found.append(Font(os.path.basename(path)[:-4], path, os.path.getsize(path), glyphs))
        else:
            skip(os.path.basename(path), "its package is not installed")
    return found


def wanted_sets(folder: str) -> list[Wanted]:
    """The four sets. The ideographs go to a file, which each program reads."""
    codes = os.path.join(folder, "ideographs")
    with open(codes, "w", encoding="ascii") as out:
        out.writelines(f"U+{code:X}\n" for code in IDEOGRAPHS)
    by_file = f"--unicodes-file={codes}"
    return [
        Wanted("ASCII", [(0x20, 0x7E)], ["U+20-7E"], "--unicodes=20-7E", "--unicodes=20-7E"),
        Wanted("3,000 ideographs", [(code, code) for code in IDEOGRAPHS], ["--codes-file", codes], by_file, by_file),
        Wanted("all", [(0, 0x10FFFF)], ["U+0-10FFFF"], "--unicodes=*", "--unicodes=*"),
        Wanted("none", [], ["--text", ""], "--unicodes=", "--gids=0"),
    ]


def need(name: str, holds: object, *details: object) -> None:
    """Ends all where this does not hold."""
    if not holds:
        check(name, False, *details)
        end()


class Bench:
    """The compiled programs in a folder, and what is measured with them."""

    def __init__(self, folder: str, library: str, effort: Effort) -> None:
        self.folder = folder
        self.effort = effort
        self.out = os.path.join(folder, "out.ttf")
        self.runs = compiled(folder, os.path.join(LIB, "runs.c"))
        self.word_sum = compiled(folder, os.path.join(LIB, "word_sum.c"))
        self.sum_and_write = compiled(folder, os.path.join(LIB, "sum_and_write.c"))
        self.floor = compiled(folder, os.path.join(BENCHES, "floor.c"))
        self.calls = compiled_calls(folder, library)
        self.wanted = wanted_sets(folder)

    def turns(self, programs: Iterable[Sequence[object]], worst: int = 0) -> list[Optional[Timed]]:
        """What each program took, in turn."""
        effort = self.effort
        return in_turn(self.runs, self.out, programs, effort.run_ms, effort.least, effort.most, worst)

    def cut_size(self, font: Font, wanted: Wanted) -> int:
        """Makes a cut once, and returns its bytes."""
        ran = run(PROGRAM, "subset", "--quiet", font.path, self.out, *wanted.fontcut)
        need(f"{font.name}, {wanted.name}: the cut is made", ran == (0, b"", b""), ran)
        return os.path.getsize(self.out)

    def programs(self, font: Font, wanted: Wanted) -> Programs:
        """The program beside the floor, hb-subset and, once, pyftsubset."""
        size = self.cut_size(font, wanted)
        words: dict[str, list[object]] = {"fontcut": [PROGRAM, "subset", font.path, self.out, *wanted.fontcut],
                                          "floor": [self.floor, font.path, self.out, size]}
        if os.path.exists(HB_SUBSET):
            to_out = f"--output-file={self.out}"
            words["hb-subset"] = [HB_SUBSET, "--retain-gids", wanted.hb, DROPPED, to_out, font.path]
        took = {name: timed for name, timed in zip(words, self.turns(list(words.values()))) if timed}
        need(f"{font.name}, {wanted.name}: each run ends well", took.keys() >= {"fontcut", "floor"})
        if "hb-subset" not in took:
            skip(f"{font.name}, {wanted.name}: hb-subset", "it failed, or is not installed")
        slow = None if self.effort is QUICK else self.by_fonttools(font, wanted)
        return Programs(font, wanted.name, size, took, slow)

    def by_fonttools(self, font: Font, wanted: Wanted) -> Optional[float]:
        """The milliseconds of one run of pyftsubset, or None where it is not there or takes too long."""
        words = [DEBIAN_PYTHON, "-m", "fontTools.subset", font.path, "--retain-gids", wanted.pyft, DROPPED,
                 f"--output-file={self.out}"]
        begin = time.perf_counter()
        try:
            ran = subprocess.run(words, stdin=subprocess.DEVNULL, capture_output=True, timeout=LONGEST, check=False)
        except subprocess.TimeoutExpired:
            return None
        return 1000 * (time.perf_counter() - begin) if ran.returncode == 0 else None

    def in_process(self, font: Font, wanted: Wanted) -> Calls:
        """A cut in memory, and one of a font that was accepted before, beside a lean cut, HarfBuzz's call, the same of
        a face that is kept, and a copy with a sum."""
        ranges = os.path.join(self.folder, "ranges")
        put_ranges(ranges, wanted.ranges)
        took = calls_in_turn(self.calls, font.path, ranges, self.effort.call_ms, self.effort.least_calls)
        need(f"{font.name}, {wanted.name}: the calls make both cuts", "cut" in took and "lean" in took)
        if "hb" not in took:
            skip(f"{font.name}, {wanted.name}: hb_subset_or_fail", "it failed, or is not installed")
        return Calls(font, wanted.name, took["cut"].size, took)

    def checks(self, font: Font) -> Checks:
        """`check` beside reading the font and summing its words. Its status is 1 where it prints a finding."""
        turns = self.turns([[PROGRAM, "check", font.path], [self.word_sum, font.path]], worst=1)
        took = {name: timed for name, timed in zip(("check", "read and sum"), turns) if timed}
        need(f"{font.name}: it is checked", len(took) == 2)
        return Checks(font, took)

    def joins(self) -> list[Joined]:
        """Joins of 2 to 400 cuts beside reading, summing and writing."""
        if not os.path.exists(SOURCE):
            skip("joins", "Debian's package fonts-lxgw-wenkai is not installed")
            return []
        return list(map(self.joined, self.effort.joins))

    def joined(self, count: int) -> Joined:
        """The join of so many cuts."""
        with cuts_to_join(self.folder, count) as cuts:
            return time_join(cuts, self.sum_and_write, self.runs)

    def nothing(self) -> Timed:
        """What a program takes that does nothing."""
        took = self.turns([["/bin/true"]])[0]
        assert took, "/bin/true fails"
        return took


def measured(bench: Bench) -> Figures:
    """Measures all of it, and says how far it is."""
    all_fonts = fonts()
    checks, programs, calls = [], [], []
    for font in all_fonts:
        print(f"{font.name}: {font.size} bytes", file=sys.stderr, flush=True)
        checks.append(bench.checks(font))
        for wanted in bench.wanted:
            programs.append(bench.programs(font, wanted))
            calls.append(bench.in_process(font, wanted))
    print("joins", file=sys.stderr, flush=True)
    return Figures(all_fonts, programs, calls, checks, bench.joins(), bench.nothing())
