"""The tables of docs/PERFORMANCE.md and its web.md on the package for browsers and node."""
from statistics import median
from typing import Iterable, Iterator, Mapping, NamedTuple, Optional, Sequence

from document import number, ratio, table
from timing import Called
from web_speed import NATIVE, NODE, Speed
from wire import BROTLI, GZIP, KNOWN, OTHER_WHOLE, SLICES, WHOLE, Wire

MOST_IN_NODE = 7  # times as long as native calls
NOTHING = "–"
CALLS = {"cut": "lean cut of a kept font, ASCII", "join": "join of 20 slices of 100 characters"}
WAYS = GZIP, BROTLI, KNOWN, WHOLE, OTHER_WHOLE, SLICES
# The ways of the page of results, and what they are called there.
TAKEN = {BROTLI: "joined cuts, Brotli", KNOWN: "joined cuts, with a dictionary", WHOLE: "a whole cut each time, WOFF2",
         OTHER_WHOLE: "`hb-subset`, a whole font each time, WOFF2", SLICES: "`hb-subset`, slices, WOFF2"}


class Web(NamedTuple):
    """What was measured of the package: the bytes on the wire, the speed of calls, and the length of the module."""

    wire: list[Wire]
    speed: list[Speed]
    module: Optional[int]


def wire_lines(row: Wire) -> Iterator[list[str]]:
    """A line for each way to fetch what ten texts need."""
    all_of_slices = sum(row.sizes.get(SLICES, ()))
    for way in WAYS:
        sizes = row.sizes.get(way)
        cells = [f"{sizes[0]:,}", f"{sum(sizes[1:]):,}", f"{sum(sizes):,}"] if sizes else [NOTHING] * 3
        beside = ratio(sum(sizes) / all_of_slices) if sizes and all_of_slices else NOTHING
        yield [f"{row.font}, {row.kind}", way, *cells, beside]


def wire_table(rows: Iterable[Wire]) -> str:
    """The bytes on the wire: a row for each font, kind and way."""
    titles = ["font and cuts", "what is fetched", "first text", "nine more", "all ten", ": slices"]
    return table(titles, [line for row in rows for line in wire_lines(row)])


def taken_table(rows: Iterable[Wire]) -> str:
    """The bytes on the wire for all texts: a row for each font and kind."""
    return table(["font and cuts", *TAKEN.values()],
                 [[f"{row.font}, {row.kind}",
                   *(f"{sum(row.sizes[way]):,}" if row.sizes.get(way) else NOTHING for way in TAKEN)]
                  for row in rows])


def added_texts(rows: Iterable[Wire]) -> str:
    """How many characters each text adds, in a sentence for each font and kind."""
    return " ".join(f"{row.font}, {row.kind}: {', '.join(map(str, row.added))}." for row in rows)


def took(turns: Sequence[Mapping[str, Called]], name: str) -> tuple[float, float]:
    """The least and the median of all turns in milliseconds."""
    return min(one[name].least for one in turns), median(one[name].median for one in turns)


def speed_table(speeds: Iterable[Speed]) -> str:
    """Calls in node beside native ones."""
    lines: list[list[object]] = []
    for speed in speeds:
        for name, what in CALLS.items():
            native, node = took(speed.turns[NATIVE], name), took(speed.turns[NODE], name)
            found = node[0] / native[0]
            lines.append([what, speed.font, *(f"{number(one)}, {number(middle)}" for one, middle in (native, node)),
                          ratio(found), MOST_IN_NODE, "yes" if found <= MOST_IN_NODE else "**no**"])
    return table(["call", "font", "native, ms", "node, ms", "ratio of the least", "at most", "held"], lines)


def tables(found: Web) -> dict[str, str]:
    """All tables, by their names in docs/performance/data."""
    wires, speeds, module = found.wire, found.speed, found.module
    return {
        "web_module": f"{module / 1000:.0f} KB as Brotli" if module else "a length that was not measured",
        "web_taken": taken_table(wires) if wires else "None of the fonts is installed.",
        "web_wire": wire_table(wires) if wires else "None of the fonts is installed.",
        "web_added": added_texts(wires),
        "web_speed": speed_table(speeds) if speeds else "Not measured, for a package is not installed.",
    }
