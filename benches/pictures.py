"""The pictures of docs/PERFORMANCE.md, drawn by matplotlib: SVG with text as text, the same bytes for the same
figures."""
import io
import os
from typing import Any, Optional, Sequence

import matplotlib

matplotlib.use("svg")
import matplotlib.pyplot as plt
from matplotlib.ticker import FuncFormatter, NullLocator

import cut_sizes
import dark_form
from cut_sizes import Sizes
from document import MB, SETS, Row, sizes
from join_timing import Joined
from measure import Figures, Font, Programs

COLOURS = {"fontcut": "#0b5394", "cut": "#0b5394", "lean cut": "#0b5394", "join": "#0b5394",
           "floor": "#8a8a8a", "copy": "#8a8a8a", "hb-subset": "#d9730d", "hb": "#d9730d", "pyftsubset": "#5b8c3e"}
LABELS = {"cut": "fontcut_subset", "hb": "hb_subset_or_fail", "copy": "copy and sum",
          "floor": "floor (read, copy, sum, write)", "pyftsubset": "pyftsubset (one run)"}
STYLE = {"svg.fonttype": "none", "svg.hashsalt": "fontcut", "font.family": "sans-serif", "font.size": 10,
         "axes.grid": True, "grid.color": "#dddddd", "axes.axisbelow": True, "axes.spines.top": False,
         "axes.spines.right": False, "figure.facecolor": "white", "axes.facecolor": "white"}
SIZES = [0.05, 0.5, 5, 50]
RATES = [0.1, 0.2, 0.5, 1, 2, 5, 10]


def plain(value: float, _: object = None) -> str:
    """A number of an axis, with no power of ten."""
    return f"{value:,.0f}" if value >= 1 else f"{value:g}"


def log_axes(axes: Any, ticks: Sequence[float]) -> None:
    """Both axes by powers of ten."""
    axes.set_xscale("log")
    axes.set_yscale("log")
    axes.set_xticks(ticks)
    for axis in (axes.xaxis, axes.yaxis):
        axis.set_major_formatter(FuncFormatter(plain))
        axis.set_minor_locator(NullLocator())


def keep(figure: Any, path: str) -> None:
    """Writes a picture, with no date in it, and with a dark form."""
    drawn = io.StringIO()
    figure.savefig(drawn, format="svg", metadata={"Date": None, "Creator": None})
    plt.close(figure)
    with open(path, "w", encoding="utf-8") as out:
        out.write(dark_form.added(drawn.getvalue()))


def milliseconds(row: Row, name: str) -> Optional[float]:
    """The median of a contender's runs, or the time of the only one; None where there is none."""
    if name == "pyftsubset":
        return row.pyftsubset if isinstance(row, Programs) else None
    return row.took[name].median if name in row.took else None


def by_size(path: str, title: str, rows: Sequence[Row], names: Sequence[str]) -> None:
    """A panel for each set: the milliseconds of each contender over the size of the font."""
    figure, panels = plt.subplots(2, 2, figsize=(8.4, 6.4), sharex=True, sharey=True)
    for axes, wanted in zip(panels.flat, SETS):
        for order, name in enumerate(names):
            points = [(row.font.size / MB, taken) for row in rows
                      if row.wanted == wanted and (taken := milliseconds(row, name))]
            if points:
                axes.plot(*zip(*points), marker="o", markersize=3.5, linewidth=1.5, color=COLOURS[name],
                          label=LABELS.get(name, name), zorder=9 - order)
        log_axes(axes, SIZES)
        axes.set_title(wanted, fontsize=10, loc="left")
    for axes in panels[1]:
        axes.set_xlabel("size of the font, MB")
    for axes in panels[:, 0]:
        axes.set_ylabel("median, ms")
    handles, labels = panels[0, 0].get_legend_handles_labels()
    figure.suptitle(title, x=0.02, y=0.98, ha="left", fontsize=12)
    figure.legend(handles, labels, loc="upper left", bbox_to_anchor=(0.01, 0.955), ncol=len(labels), frameon=False)
    figure.tight_layout(rect=(0, 0, 1, 0.955))
    keep(figure, path)


def of_lengths(path: str, rows: Sequence[Sizes]) -> None:
    """A panel for each set: the bytes of each way's file as WOFF2, over the size of the font."""
    figure, panels = plt.subplots(1, len(cut_sizes.SETS), figsize=(8.4, 3.6), sharex=True, sharey=True)
    for axes, wanted in zip(panels, cut_sizes.SETS):
        for order, way in enumerate(cut_sizes.WAYS):
            points = [(row.font.size / MB, row.made[way].woff2 / 1000) for row in rows
                      if row.wanted == wanted and way in row.made]
            if points:
                axes.plot(*zip(*points), marker="o", markersize=3.5, linewidth=1.5, color=COLOURS[way],
                          linestyle="--" if way == "cut" else "-", label=way, zorder=9 - order)
        log_axes(axes, SIZES)
        axes.set_title(wanted, fontsize=10, loc="left")
        axes.set_xlabel("size of the font, MB")
    panels[0].set_ylabel("bytes as WOFF2, in thousands")
    handles, labels = panels[0].get_legend_handles_labels()
    figure.suptitle("How long cuts are", x=0.02, y=0.98, ha="left", fontsize=12)
    figure.legend(handles, labels, loc="upper left", bbox_to_anchor=(0.01, 0.93), ncol=len(labels), frameon=False)
    figure.tight_layout(rect=(0, 0, 1, 0.9))
    keep(figure, path)


def of_joins(path: str, joins: Sequence[Joined]) -> None:
    """Joins and the C program, over the bytes that are read."""
    figure, axes = plt.subplots(figsize=(6.4, 3.8))
    read = [one.read / 2**20 for one in joins]
    axes.plot(read, [one.join.processor for one in joins], marker="o", color=COLOURS["join"], label="fontcut join")
    axes.plot(read, [one.floor.processor for one in joins], marker="o", color=COLOURS["floor"],
              label="C program: read, sum, write")
    for one in joins:
        few = one.cuts <= 20  # their labels lie below the line, for above it is the axis
        axes.annotate(f"{one.cuts} cuts", (one.read / 2**20, one.join.processor), textcoords="offset points",
                      xytext=(8, -10) if few else (-4, 7), ha="left" if few else "right", fontsize=9)
    axes.set_xlabel("MiB read")
    axes.set_ylabel("least time of the processor, ms")
    axes.set_xlim(left=0)
    axes.set_ylim(bottom=0)
    axes.set_title("Joins of many cuts", loc="left", fontsize=12)
    axes.legend(frameon=False, loc="lower right")
    figure.tight_layout()
    keep(figure, path)


def of_sizes(path: str, points: Sequence[tuple[Font, dict[str, float]]]) -> None:
    """The time over the size of the font, for each thing that was done."""
    figure, axes = plt.subplots(figsize=(8.4, 3.8))
    colours = {"check": "#0b5394", "read and sum": "#8a8a8a", "subset, all": "#a64d79",
               "cut, all, in process": "#0b5394", "copy and sum, in process": "#8a8a8a"}
    for what in points[0][1]:
        axes.plot([font.size / MB for font, _ in points], [least[what] for _, least in points], marker="o",
                  color=colours[what], linestyle="--" if "process" in what else "-", label=what)
    log_axes(axes, [font.size / MB for font, _ in points])
    low, high = axes.get_ylim()
    axes.set_yticks([rate for rate in RATES if low <= rate <= high])
    axes.xaxis.set_major_formatter(FuncFormatter(lambda value, _: f"{value:.2g}"))
    axes.set_xlabel("size of the font, MB")
    axes.set_ylabel("least time, ms a MB")
    axes.set_title("Time over size", loc="left", fontsize=12)
    axes.legend(frameon=False, loc="center left", bbox_to_anchor=(1.0, 0.5))
    figure.tight_layout()
    keep(figure, path)


def draw(folder: str, found: Figures, lengths: Sequence[Sizes]) -> None:
    """Writes all pictures to the folder."""
    with matplotlib.rc_context(STYLE):
        by_size(os.path.join(folder, "speed_program.svg"), "Programs: a cut, from file to file", found.programs,
                ("fontcut", "floor", "hb-subset", "pyftsubset"))
        by_size(os.path.join(folder, "speed_in_process.svg"), "In process: a cut, from memory to memory",
                found.calls, ("cut", "hb", "copy"))
        of_lengths(os.path.join(folder, "cut_sizes.svg"), lengths)
        if found.joins:
            of_joins(os.path.join(folder, "speed_joins.svg"), found.joins)
        points = sizes(found)
        if points:
            of_sizes(os.path.join(folder, "speed_sizes.svg"), points)
