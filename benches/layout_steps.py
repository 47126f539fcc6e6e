"""What reading the links of a GSUB costs: of tables that are made to cost much, as many steps as may be, and of the
largest tables of real fonts, beside loops in C that take the same steps (layout_steps.c)."""
import os
import sys
from typing import Iterator, NamedTuple

from checks import DEJAVU, NOTO, put, read, skip
from layout_making import letters
from layout_reading import STEP_LIMIT, Reader, gsub_of
from measure import Bench, need
from slow_layouts import slow_layouts
from timing import Called, called, compiled_calls

KLEE = "/usr/share/fonts/truetype/klee"  # Debian's package fonts-klee
REAL = [(KLEE, "fonts-klee", "KleeOne-Regular"), (NOTO, "fonts-noto-core", "NotoSansSignWriting-Regular"),
        (NOTO, "fonts-noto-core", "NotoNastaliqUrdu-Regular"), (NOTO, "fonts-noto-core", "NotoSerifMyanmar-Regular"),
        (NOTO, "fonts-noto-core", "NotoSansDevanagari-Regular"), (DEJAVU, "fonts-dejavu-core", "DejaVuSans")]


class Table(NamedTuple):
    """A GSUB: what it is called, its bytes, its steps and links, and what reading it took, by the names of the ways."""

    name: str
    size: int
    steps: int
    links: int
    took: dict[str, Called]


class Steps:
    """Times tables in a folder: in a font of ten glyphs, so that little else is timed."""

    def __init__(self, bench: Bench, library: str) -> None:
        self.effort, self.path = bench.effort, os.path.join(bench.folder, "steps.ttf")
        self.loops = compiled_calls(bench.folder, library, "layout_steps.c")

    def table(self, name: str, gsub: bytes) -> Table:
        """Reads a GSUB by a second reading, and times it."""
        reader = Reader(gsub)
        reader.read()
        put(self.path, letters({b"GSUB": gsub}))
        took = called(self.loops, [self.path], self.effort.call_ms, self.effort.least_calls)
        need(f"{name}: all ways read it", took.keys() == {"fontcut", "lean", "loop"})
        need(f"{name}: the loops take the steps", took["loop"].size == reader.steps, took["loop"].size, reader.steps)
        return Table(name, len(gsub), reader.steps, sum(map(len, reader.links.values())), took)

    def hostile(self) -> list[Table]:
        """The tables of as many steps as may be."""
        tables = [self.table(name, gsub) for name, gsub in slow_layouts().items()]
        need("they have as many steps as may be", {table.steps for table in tables} == {STEP_LIMIT}, tables)
        return tables

    def real(self) -> Iterator[Table]:
        """The tables of the fonts that are installed."""
        for folder, package, name in REAL:
            path = f"{folder}/{name}.ttf"
            if os.path.exists(path):
                yield self.table(name, gsub_of(read(path)))
            else:
                skip(f"{name}.ttf", f"Debian's package {package} is not installed")


def measured(bench: Bench, library: str) -> dict[str, list[Table]]:
    """What reading hostile tables and real ones took."""
    print("steps of GSUB", file=sys.stderr, flush=True)
    steps = Steps(bench, library)
    return {"hostile": steps.hostile(), "real": list(steps.real())}
