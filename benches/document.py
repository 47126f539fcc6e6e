"""The tables of docs/PERFORMANCE.md and docs/performance: what was measured, and what it is held against."""
import math
import os
import platform
import re
from typing import Callable, Iterable, Iterator, Mapping, Optional, Protocol, Sequence, TypeVar, Union

import cut_sizes
import merged_sizes
from checks import TOP, run
from commands import Way
from cut_sizes import Packed, Sizes
from join_timing import Joined
from measure import DEBIAN_PYTHON, HB_SUBSET, SIZED, Calls, Checks, Figures, Font, Programs
from merged_sizes import Merged
from timing import Called, Timed

MB = 1_000_000
SETS = "ASCII", "3,000 ideographs", "all", "none"

Times = Union[Timed, Called]
# Ratios, or other numbers, of each font by the names of the sets.
ByFont = dict[Font, dict[str, float]]
# The cells of a row of a table.
Cells = Sequence[object]


class Row(Protocol):
    """A font for a set, the bytes of its cut, and what programs or calls took by their names."""

    @property
    def font(self) -> Font: ...
    @property
    def wanted(self) -> str: ...
    @property
    def size(self) -> int: ...
    @property
    def took(self) -> Mapping[str, Times]: ...


AnyRow = TypeVar("AnyRow", bound=Row)


def mean(ratios: Sequence[float]) -> float:
    """The geometric mean."""
    return math.exp(sum(map(math.log, ratios)) / len(ratios))


def number(value: float) -> str:
    """Three digits that count, or all of a whole number's."""
    if value >= 100:
        return f"{value:,.0f}"
    return f"{value:.{max(0, 2 - math.floor(math.log10(value)))}f}" if value > 0 else "0"


def ratio(value: Optional[float]) -> str:
    """Two digits behind the point, one more where the first two say little, one less for a large ratio."""
    if value is None:
        return "–"
    return f"{value:.3f}" if value < 0.1 else f"{value:.2f}" if value < 10 else f"{value:.1f}"


def table(titles: Sequence[str], rows: Iterable[Cells]) -> str:
    """A table: a line of titles, and one for each row, with tabs between the cells."""
    return "\n".join("\t".join(map(str, line)) for line in [titles, *rows])


def by_font(rows: Iterable[AnyRow], value: Callable[[AnyRow], float]) -> ByFont:
    """A dictionary of each font's values, by set."""
    found: ByFont = {}
    for row in rows:
        found.setdefault(row.font, {})[row.wanted] = value(row)
    return found


def ratios_of(rows: Iterable[AnyRow], one: str, other: str, kind: str = "least") -> ByFont:
    """The ratios of two contenders' times by font and set, where both were measured."""
    both = [row for row in rows if row.took.get(one) and row.took.get(other)]
    return by_font(both, lambda row: float(getattr(row.took[one], kind) / getattr(row.took[other], kind)))


def column(ratios: ByFont, wanted: Iterable[str]) -> list[tuple[float, str]]:
    """Ratios for the wanted sets over all fonts, with the names of the fonts."""
    return [(values[name], f"{font.name}, {name}") for font, values in ratios.items() for name in wanted
            if name in values]


def ratio_table(ratios: ByFont) -> str:
    """A row a font, a column a set, and the geometric means at the end."""
    rows: list[Cells] = [[font.name, f"{font.size / MB:.2f}", *(ratio(values.get(name)) for name in SETS)]
                         for font, values in ratios.items()]
    means = [mean([value for value, _ in column(ratios, [name])]) for name in SETS]
    return table(["font", "MB", *SETS], rows + [["geometric mean", "", *map(ratio, means)]])


def held_row(what: str, limit: float, found: float, worst: str, show: Callable[[float], str] = ratio) -> Cells:
    """A row of what was set: the figure, the farthest font, and whether the limit is held."""
    return [what, show(limit), show(found), worst, "yes" if found <= limit else "**no**"]


def mean_row(what: str, limit: float, ratios: ByFont, wanted: Iterable[str]) -> Cells:
    """A row for a geometric mean."""
    pairs = column(ratios, wanted)
    if not pairs:
        return [what, ratio(limit), "–", "–", "not measured"]
    most, name = max(pairs)
    return held_row(what, limit, mean([value for value, _ in pairs]), f"{ratio(most)} ({name})")


def most_row(what: str, limit: float, ratios: ByFont, wanted: Iterable[str] = SETS) -> Cells:
    """A row for the largest of all ratios."""
    pairs = column(ratios, wanted)
    if not pairs:
        return [what, ratio(limit), "–", "–", "not measured"]
    most, name = max(pairs)
    above = sum(value > limit for value, _ in pairs)
    return held_row(what, limit, most, f"{name}; {above} of {len(pairs)} are above")


def beside_font(rows: Iterable[Programs], who: str) -> tuple[int, str]:
    """The most memory above the font, in bytes, and where that was."""
    return max((row.took[who].peak - row.font.size, f"{row.font.name}, {row.wanted}") for row in rows)


def lean_memory(row: Calls) -> float:
    """How many bytes of the heap a lean cut holds at most more than a cut, for each glyph of the font."""
    return (row.took["lean"].held - row.took["cut"].held) / row.font.glyphs


def lean_memory_row(limit: float, rows: Iterable[Calls]) -> Cells:
    """A row for the memory of lean cuts."""
    most, name = max((lean_memory(row), f"{row.font.name}, {row.wanted}") for row in rows)
    return held_row("memory of a lean cut above that of a cut, bytes a glyph", limit, most, name)


def lean_memory_table(rows: Iterable[Calls]) -> str:
    """A row a font: its glyphs, and for each set the bytes a glyph that a lean cut holds at most above a cut."""
    lines = [[font.name, f"{font.glyphs:,}", *(ratio(values.get(name)) for name in SETS)]
             for font, values in by_font(rows, lean_memory).items()]
    return table(["font", "glyphs", *SETS], lines)


def of_others(found: Figures, where: str) -> str:
    """The most memory above the font's size of the floor at the same font and set, and what nothing takes."""
    mine = [row for row in found.programs if f"{row.font.name}, {row.wanted}" == where]
    return (f"the floor {beside_font(mine, 'floor')[0] / MB:.2f}, "
            f"a program that does nothing {found.nothing.peak / MB:.2f}")


def held(found: Figures) -> list[Cells]:
    """What was set, and what was measured."""
    calls, programs = found.calls, found.programs
    hb, copy = ratios_of(calls, "cut", "hb"), ratios_of(calls, "cut", "copy")
    kept = ratios_of(calls, "checked", "kept")
    floor = ratios_of(programs, "fontcut", "floor", "median")
    tool = ratios_of(programs, "fontcut", "hb-subset", "median")
    peak, where = beside_font(programs, "fontcut")
    return [
        mean_row("`cut` : `hb_subset_or_fail`, ASCII", 1.1, hb, ["ASCII"]),
        mean_row("the same, 3,000 ideographs", 0.5, hb, ["3,000 ideographs"]),
        mean_row("the same, all", 0.2, hb, ["all"]),
        most_row("the same, the largest of any font and set", 2.5, hb),
        mean_row("`cut` of an accepted font : `hb_subset_or_fail` of a kept face, ASCII", 0.35, kept, ["ASCII"]),
        mean_row("the same, 3,000 ideographs", 0.3, kept, ["3,000 ideographs"]),
        most_row("the same, the largest of any font, ASCII and ideographs", 1, kept, SETS[:2]),
        mean_row("`cut` : copy and sum, all", 1.3, copy, ["all"]),
        mean_row("lean cut : `cut`, all fonts and sets", 1.05, ratios_of(calls, "lean", "cut"), SETS),
        lean_memory_row(12, calls),
        mean_row("program : floor, all fonts and sets", 1.12, floor, SETS),
        mean_row("the same, 3,000 ideographs", 1.25, floor, ["3,000 ideographs"]),
        mean_row("program : `hb-subset`, all", 0.45, tool, ["all"]),
        held_row("peak memory above the font's size, MB", 1.0, peak / MB, f"{where}; {of_others(found, where)}"),
    ]


def times_table(rows: Sequence[Row], names: Sequence[str]) -> str:
    """A row a font and set: the least and the median of each contender in milliseconds."""
    def cells(row: Row) -> Iterator[str]:
        timed = (row.took.get(name) for name in names)
        return (f"{number(one.least)}, {number(one.median)}" if one else "–" for one in timed)
    return table(["font", "wanted", "bytes of the cut", *names],
                 [[row.font.name, row.wanted, f"{row.size:,}", *cells(row)] for row in rows])


def slow_table(rows: Iterable[Programs]) -> str:
    """How many times as long pyftsubset takes; one run each."""
    timed = [row for row in rows if row.pyftsubset]
    ratios = by_font(timed, lambda row: (row.pyftsubset or 0) / row.took["fontcut"].median)
    return ratio_table(ratios) if ratios else "pyftsubset was not there, or was left out."


def memory_table(rows: Sequence[Programs], fonts: Iterable[Font]) -> str:
    """The most memory above the font's size over all sets, in MB."""
    names = [name for name in ("fontcut", "floor", "hb-subset") if all(row.took.get(name) for row in rows)]
    lines = []
    for font in fonts:
        mine = [row for row in rows if row.font == font]
        beside = [beside_font(mine, name)[0] / MB for name in names]
        lines.append([font.name, f"{font.size / MB:.2f}", *(f"{more:.2f}" for more in beside)])
    return table(["font", "MB", *names], lines)


def join_table(joins: Iterable[Joined]) -> str:
    """A row for each number of cuts."""
    rows = []
    for one in joins:
        ours, floor = one.join, one.floor
        rows.append([one.cuts, f"{one.read / 2**20:.1f}", f"{one.written / 2**20:.1f}",
                     f"{ours.processor:.1f}, {ours.processor_median:.1f}",
                     f"{floor.processor:.1f}, {floor.processor_median:.1f}", ratio(ours.processor / floor.processor),
                     f"{ours.processor / (one.read / 2**20):.2f}", f"{(ours.peak - one.read) / 2**20:.1f}"])
    return table(["cuts", "MiB read", "MiB written", "join, ms", "C program, ms", "ratio", "ms a MiB read",
                  "MiB of memory beside the files"], rows)


def check_table(rows: Iterable[Checks]) -> str:
    """`check` beside reading and summing."""
    lines = []
    for row in rows:
        ours, floor = row.took["check"], row.took["read and sum"]
        lines.append([row.font.name, f"{row.font.size / MB:.2f}", f"{number(ours.least)}, {number(ours.median)}",
                      f"{number(floor.least)}, {number(floor.median)}", ratio(ours.least / floor.least),
                      ratio(ours.median / floor.median)])
    return table(["font", "MB", "check, ms", "read and sum, ms", "ratio of the least", "of the medians"], lines)


def sizes(found: Figures) -> list[tuple[Font, dict[str, float]]]:
    """For fonts of about 1, 4, 16 and 52 MB, the least milliseconds over the MB by what was done."""
    points = []
    for name in SIZED:
        font = next((one for one in found.fonts if one.name == name), None)
        if not font:
            continue
        checks = next(row.took for row in found.checks if row.font == font)
        calls = next(row.took for row in found.calls if row.font == font and row.wanted == "all")
        program = next(row.took for row in found.programs if row.font == font and row.wanted == "all")
        least: dict[str, Times] = {
            "check": checks["check"], "read and sum": checks["read and sum"], "subset, all": program["fontcut"],
            "cut, all, in process": calls["cut"], "copy and sum, in process": calls["copy"]}
        points.append((font, {what: one.least / (font.size / MB) for what, one in least.items()}))
    return points


def size_table(found: Figures) -> str:
    """The time over size."""
    points = sizes(found)
    if not points:
        return "None of the fonts is installed."
    whats = list(points[0][1])
    rows = [[font.name, f"{font.size / MB:.2f}", *(number(least[what]) for what in whats)] for font, least in points]
    return table(["font", "MB", *whats], rows)


def length_ratios(rows: Iterable[Sizes], wanted: str, one: str, other: str, kind: str) -> list[tuple[float, str]]:
    """The ratios of two ways' lengths for a set, with the names of the fonts."""
    both = [row for row in rows if row.wanted == wanted and one in row.made and other in row.made]
    return [(getattr(row.made[one], kind) / getattr(row.made[other], kind), row.font.name) for row in both]


def length_rows(rows: Sequence[Sizes]) -> Iterator[Cells]:
    """Rows of what was set: lean cuts as WOFF2 beside those of hb-subset, for each set."""
    for wanted in cut_sizes.SETS:
        pairs = length_ratios(rows, wanted, "lean cut", "hb-subset", "woff2")
        what = f"lean cut : `hb-subset`, bytes as WOFF2, {wanted}"
        if pairs:
            most, name = max(pairs)
            yield held_row(what, 1.25, mean([value for value, _ in pairs]), f"{ratio(most)} ({name})")
        else:
            yield [what, ratio(1.25), "–", "–", "not measured"]


def length_means(rows: Sequence[Sizes]) -> str:
    """For each set the geometric means of the lengths of each way, beside those of lean cuts."""
    lines = []
    for wanted in cut_sizes.SETS:
        for way in cut_sizes.WAYS:
            found = [length_ratios(rows, wanted, way, "lean cut", kind) for kind in cut_sizes.Packed._fields]
            means = [ratio(mean([value for value, _ in pairs])) if pairs else "–" for pairs in found]
            lines.append([wanted, way, *means])
    return table(["wanted", "made by", "raw", "Brotli", "WOFF2"], lines)


def length_table(rows: Iterable[Sizes]) -> str:
    """The bytes of each way for each font and set: as they are, and as WOFF2."""
    def cell(made: Optional[Packed]) -> str:
        return f"{made.raw:,}, {made.woff2:,}" if made else "–"
    return table(["font", "wanted", *cut_sizes.WAYS],
                 [[row.font.name, row.wanted, *(cell(row.made.get(way)) for way in cut_sizes.WAYS)] for row in rows])


def merged_table(rows: Sequence[Merged]) -> str:
    """The bytes of the fonts of merged documents, and those of the joined cuts beside them."""
    def cell(sizes: Mapping[str, int], way: str) -> str:
        if way not in sizes:
            return "–"
        return f"{sizes[way]:,}" + ("" if way == merged_sizes.WAYS[0] else f", {ratio(sizes[way] / least(sizes))}")

    def least(sizes: Mapping[str, int]) -> int:
        return sizes[merged_sizes.WAYS[0]]

    if not rows:
        return "Not measured, for the fonts were not there."
    return table(["font", "documents", *merged_sizes.WAYS],
                 [[row.font, row.documents, *(cell(row.sizes, way) for way in merged_sizes.WAYS)] for row in rows])


def ways_table(ways: Sequence[Way]) -> str:
    """The seconds and the bytes of each way, with their ratios to the first."""
    if not ways:
        return "Not measured, for a package was not there."
    rows = [[way.name, number(way.seconds), ratio(way.seconds / ways[0].seconds), f"{way.size:,}",
             ratio(way.size / ways[0].size)] for way in ways]
    return table(["way", "seconds", "ratio", "bytes", "ratio"], rows)


def first_line(*words: str) -> str:
    """What a program says of its version."""
    try:
        return run(*words)[1].decode(errors="replace").splitlines()[0].strip()
    except (IndexError, FileNotFoundError):
        return "not there"


def machine() -> str:
    """The machine and the programs, in a sentence; no name of a host."""
    with open("/proc/cpuinfo", encoding="utf-8") as opened:
        named = re.search(r"^model name\s*:\s*(.*)$", opened.read(), re.M)
    processor = f" ({named.group(1).strip()})" if named else ""
    with open(os.path.join(TOP, "VERSION"), encoding="utf-8") as opened:
        version = opened.read().strip()
    tools = first_line(DEBIAN_PYTHON, "-c", "import fontTools; print(fontTools.version)")
    return (f"{os.cpu_count()} cores{processor}, {platform.system()} {platform.release()}; fontcut {version}, "
            f"{first_line(HB_SUBSET, '--version')}, fontTools {tools}, {first_line('gcc', '--version')}")
