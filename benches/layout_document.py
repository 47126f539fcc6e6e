"""The tables of docs/PERFORMANCE.md on layout cuts."""
from typing import Iterable, Iterator, Mapping, NamedTuple, Optional, Sequence

from document import Times, held_row, mean, number, ratio, table
from layout_reading import STEP_LIMIT
from layout_steps import Table
from pages import ALL, FULL, LAYOUT, LEAN, SLICE, TEXTS_OF, USUAL, WAYS, WITH, WITHOUT, Length, Measured

# What is held: the time of a cut of an opened font beside that of a kept face, and the milliseconds that reading a GSUB
# of as many steps as may be takes.
MOST_BESIDE_KEPT = 0.35
MOST_OF_STEPS = 40

# What the rows of the table of pages are called.
TAKEN = {
    FULL: "full cut", LEAN: "lean cut", LAYOUT: "layout cut", WITHOUT: "`hb-subset --retain-gids`, without layout",
    WITH: "`hb-subset --retain-gids`, with layout", USUAL: "`hb-subset`, which renumbers glyphs",
}
# Which pages it has: of one that is measured with several fonts one, and of the scripts one.
TAKEN_FONTS = {"Latin": "NotoSans", SLICE: "NotoSans"}
TAKEN_SCRIPT = "Devanagari" + ALL
NOTHING = "–"


class Layout(NamedTuple):
    """What was measured of layout cuts: of pages, and of reading GSUB, the tables that are made to cost much and real
    ones."""

    pages: list[Measured]
    steps: dict[str, list[Table]]


def is_taken(row: Measured) -> bool:
    """Whether a page is one of that table."""
    name, font = row.page.name, row.page.font
    return font == TAKEN_FONTS.get(name, font) and (name == TAKEN_SCRIPT or not name.endswith(ALL))


def woff2(row: Measured, way: str) -> Optional[int]:
    """The bytes as WOFF2, or None."""
    return row.made[way].woff2 if way in row.made else None


def taken_table(rows: Iterable[Measured]) -> str:
    """What to take: a row a way, a column a page, with bytes as WOFF2."""
    taken = [row for row in rows if is_taken(row)]
    lines = [[text, *(f"{size:,}" if (size := woff2(row, way)) else NOTHING for row in taken)]
             for way, text in TAKEN.items()]
    ratios = [f"{TAKEN[LAYOUT]} : {TAKEN[WITH]}", *(ratio(beside(row, WITH)) for row in taken)]
    return table(["bytes as WOFF2", *(row.page.name for row in taken)], [*lines, ratios])


def length_table(rows: Iterable[Measured]) -> str:
    """The bytes of each way for each page: as they are, and as WOFF2."""
    def cell(made: Optional[Length]) -> str:
        return f"{made.raw:,}, {made.woff2:,}" if made and made.woff2 else f"{made.raw:,}" if made else NOTHING

    lines = [[row.page.name, row.page.font, f"{len(row.page.codes):,}", *(cell(row.made.get(way)) for way in WAYS),
              ratio(beside(row, WITH)), ratio(beside(row, USUAL))] for row in rows]
    return table(["wanted", "font", "characters", *WAYS, "layout : with layout", "layout : renumbered"], lines)


def beside(row: Measured, way: str) -> Optional[float]:
    """How many times as long a layout cut is as WOFF2, or None."""
    mine, other = woff2(row, LAYOUT), woff2(row, way)
    return mine / other if mine and other else None


def timed_cells(took: Mapping[str, Optional[Times]], names: Iterable[str]) -> Iterator[str]:
    """The least and the median of each in milliseconds."""
    for name in names:
        one = took.get(name)
        yield f"{number(one.least)}, {number(one.median)}" if one else NOTHING


def ratio_of(took: Mapping[str, Optional[Times]], one: str, other: str, kind: str = "least") -> Optional[float]:
    """The ratio of two times, or None."""
    mine, others = took.get(one), took.get(other)
    return float(getattr(mine, kind) / getattr(others, kind)) if mine and others else None


def program_table(rows: Iterable[Measured]) -> str:
    """The program beside hb-subset with layout."""
    names = LAYOUT, WITH
    lines = [[row.page.name, row.page.font, *timed_cells(row.programs, names),
              ratio(ratio_of(row.programs, *names, "median"))] for row in rows]
    return table(["wanted", "font", "fontcut --layout", "hb-subset with layout", "ratio of the medians"], lines)


def call_table(rows: Sequence[Measured]) -> str:
    """Calls in one process, and their ratios."""
    names = "layout", "hb", "checked", "cuts", "kept"
    ratios = ("layout", "hb"), ("checked", "kept"), ("cuts", "kept")
    lines = [[row.page.name, row.page.font, *timed_cells(row.calls, names),
              *(ratio(ratio_of(row.calls, *pair)) for pair in ratios)] for row in rows]
    means = [[found for row in rows if (found := ratio_of(row.calls, *pair))] for pair in ratios]
    last = ["geometric mean", "", *[""] * len(names), *(ratio(mean(found)) if found else NOTHING for found in means)]
    return table(["wanted", "font", *names, *(f"{one} : {other}" for one, other in ratios)], [*lines, last])


def step_table(tables: Iterable[Table]) -> str:
    """What reading tables took beside the loops."""
    lines = []
    for one in tables:
        took = one.took
        lines.append([one.name, f"{one.size:,}", f"{one.steps:,}", f"{one.links:,}",
                      *timed_cells(took, ("fontcut", "loop")), ratio(ratio_of(took, "fontcut", "loop")),
                      number(1e6 * took["fontcut"].least / one.steps)])
    return table(["GSUB", "bytes", "steps", "links", "fontcut, ms", "C loops, ms", "ratio of the least", "ns a step"],
                 lines)


def held_table(found: Layout) -> str:
    """What was set for layout cuts, and what was measured."""
    titles = ["what", "at most", "measured", "the farthest", "held"]
    what = "layout cut of an opened font : `hb_subset_or_fail` of a kept face, pages"
    pairs = [(value, f"{row.page.name}, {row.page.font}") for row in found.pages
             if row.page.name in TEXTS_OF and (value := ratio_of(row.calls, "cuts", "kept"))]
    if pairs:
        most, name = max(pairs)
        lines = [held_row(what, MOST_BESIDE_KEPT, mean([value for value, _ in pairs]), f"{ratio(most)} ({name})")]
    else:
        lines = [[what, ratio(MOST_BESIDE_KEPT), NOTHING, NOTHING, "not measured"]]
    most, name = max((one.took["fontcut"].least, one.name) for one in found.steps["hostile"])
    lines.append(held_row(f"reading a `GSUB` of {STEP_LIMIT:,} steps, ms", MOST_OF_STEPS, most, name, number))
    return table(titles, lines)


def tables(found: Layout) -> dict[str, str]:
    """All tables, by their names in docs/performance/data."""
    rows, steps = found.pages, found.steps
    return {
        "layout_held": held_table(found),
        "layout_taken": taken_table(rows),
        "layout_lengths": length_table(rows),
        "layout_programs": program_table(rows),
        "layout_calls": call_table(rows),
        "layout_hostile": step_table(steps["hostile"]),
        "layout_real": step_table(steps["real"]) if steps["real"] else "None of the fonts is installed.",
    }
