"""What layout cuts cost for a page of text, for a slice and for all of a script: their bytes beside those of other cuts
and of hb-subset, and the time of the program and of calls in one process."""
import os
import shutil
import subprocess
import sys
from typing import Iterator, NamedTuple, Optional

from checks import DEJAVU, NOTO, PROGRAM, run, skip
from cut_sizes import mapped_codes
from fontcut import needed
from fontcut_web import presets
from measure import DROPPED, HB_SUBSET, Bench, Font, need
from shaping_texts import TEXTS
from timing import Called, Timed, calls_in_turn, compiled_calls, put_ranges

# How the texts of a page begin.
TEXTS_OF = {"Latin": ("All human", "Official"), "Arabic": ("يولد", "وقد", "بِسْمِ"), "Devanagari": ("सभी", "क्षत्रिय"),
            "Khmer": ("មនុស្ស", "ស្ត្រី")}
SLICE, ALL = "Latin slice", ", all"
LATIN, OTHER_LATIN = f"{NOTO}/NotoSans-Regular.ttf", f"{DEJAVU}/DejaVuSans.ttf"
SHAPED = {"Arabic": f"{NOTO}/NotoNaskhArabic-Regular.ttf", "Devanagari": f"{NOTO}/NotoSansDevanagari-Regular.ttf",
          "Khmer": f"{NOTO}/NotoSansKhmer-Regular.ttf"}
FONTS_OF = [("Latin", LATIN), ("Latin", OTHER_LATIN), *SHAPED.items(), (SLICE, LATIN), (SLICE, OTHER_LATIN),
            *((name + ALL, path) for name, path in SHAPED.items())]
PACKAGES = {NOTO: "Debian's package fonts-noto-core", DEJAVU: "Debian's package fonts-dejavu-core"}

FULL, LEAN, LAYOUT = "full", "lean", "layout"
WITHOUT, WITH, USUAL = "hb-subset without layout", "hb-subset with layout", "hb-subset, glyphs renumbered"
WAYS = FULL, LEAN, LAYOUT, WITHOUT, WITH, USUAL
CUTS = WAYS[:3]


class Page(NamedTuple):
    """What is wanted of a font: the name of the page, the slice or the script, the font, and the codes."""

    name: str
    font: str
    path: str
    codes: list[int]


class Length(NamedTuple):
    """The bytes of a file, as it is and as WOFF2, which is None where it was not packed."""

    raw: int
    woff2: Optional[int]


class Measured(NamedTuple):
    """A page, the length of what each way makes, and what programs and calls took, all by their names."""

    page: Page
    made: dict[str, Length]
    programs: dict[str, Optional[Timed]]
    calls: dict[str, Called]


def codes_of(name: str, path: str) -> list[int]:
    """The codes of a page, those that a shaper needs for its texts among them, of the slice, or of all of a font."""
    if name.endswith(ALL):
        return mapped_codes(Font(name, path, 0, 0))
    if name == SLICE:
        return [code for first, last in presets.web()["latin"] for code in range(first, last + 1)]
    texts = [text for text in TEXTS if text.startswith(TEXTS_OF[name])]
    need(f"{name}: the texts of the page are there", len(texts) == len(TEXTS_OF[name]))
    return sorted({ord(letter) for text in texts for letter in needed(text)})


def pages() -> Iterator[Page]:
    """The pages, the slice and the scripts whose fonts are installed."""
    for name, path in FONTS_OF:
        if os.path.exists(path):
            yield Page(name, os.path.basename(path)[:-4].partition("-")[0], path, codes_of(name, path))
        else:
            skip(f"{name}: {path}", f"{PACKAGES[os.path.dirname(path)]} is not installed")


def length_of(path: str) -> Length:
    """The length of a file, as it is and as WOFF2. It is removed."""
    raw, woff2 = os.path.getsize(path), None
    if shutil.which("woff2_compress"):
        subprocess.run(["woff2_compress", path], capture_output=True, check=True)
        packed = path[:-len("ttf")] + "woff2"
        woff2 = os.path.getsize(packed)
        os.remove(packed)
    os.remove(path)
    return Length(raw, woff2)


class Pages:
    """Makes and times the cuts of pages by what a Bench has compiled."""

    def __init__(self, bench: Bench, library: str) -> None:
        self.bench = bench
        self.out, self.codes = os.path.join(bench.folder, "page.ttf"), os.path.join(bench.folder, "page.codes")
        self.calls = compiled_calls(bench.folder, library, "layout_in_process.c")

    def ways(self, page: Page) -> dict[str, list[str]]:
        """The words by which each way makes its file."""
        subset = [PROGRAM, "subset", page.path, self.out, "--codes-file", self.codes]
        other = [HB_SUBSET, f"--unicodes-file={self.codes}", f"--output-file={self.out}", page.path]
        words = [subset, [*subset, "--lean"], [*subset, "--layout"], [*other, "--retain-gids", DROPPED],
                 [*other, "--retain-gids", "--layout-features=*"], other]
        return dict(zip(WAYS, words))

    def made(self, page: Page, ways: dict[str, list[str]]) -> dict[str, Length]:
        """The length of what each way makes."""
        found = {}
        for way, words in ways.items():
            ran = run(*words) if os.path.exists(words[0]) else None
            if ran and ran[0] == 0:
                found[way] = length_of(self.out)
            else:
                skip(f"{page.name}, {page.font}: {way}", "it failed, or Debian's package libharfbuzz-bin is not there")
        need(f"{page.name}, {page.font}: the cuts are made", found.keys() >= set(CUTS))
        return found

    def programs(self, found: dict[str, Length], ways: dict[str, list[str]]) -> dict[str, Optional[Timed]]:
        """What the program takes for a layout cut, and hb-subset with layout."""
        timed = [way for way in (LAYOUT, WITH) if way in found]
        return dict(zip(timed, self.bench.turns([ways[way] for way in timed])))

    def timed_calls(self, page: Page) -> dict[str, Called]:
        """What calls in one process take."""
        ranges = os.path.join(self.bench.folder, "page.ranges")
        put_ranges(ranges, [(code, code) for code in page.codes])
        effort = self.bench.effort
        took = calls_in_turn(self.calls, page.path, ranges, effort.call_ms, effort.least_calls)
        need(f"{page.name}, {page.font}: the calls make layout cuts", took.keys() >= {"layout", "checked", "cuts"})
        if "kept" not in took:
            skip(f"{page.name}, {page.font}: hb_subset_or_fail", "Debian's package libharfbuzz-dev is not installed")
        return took

    def measured(self, page: Page) -> Measured:
        """Makes and times all of a page."""
        print(f"{page.name}, {page.font}: layout cuts", file=sys.stderr, flush=True)
        with open(self.codes, "w", encoding="ascii") as out:
            out.writelines(f"U+{code:X}\n" for code in page.codes)
        ways = self.ways(page)
        made = self.made(page, ways)
        return Measured(page, made, self.programs(made, ways), self.timed_calls(page))


def measured(bench: Bench, library: str) -> list[Measured]:
    """What is measured of each page."""
    if not shutil.which("woff2_compress"):
        skip("layout cuts as WOFF2", "Debian's package woff2 is not installed")
    maker = Pages(bench, library)
    return [maker.measured(page) for page in pages()]
