"""What the program compiled from gen/ costs, beside the one that the kit compiled: instructions, times and memory."""
from __future__ import annotations

import os
import shutil
from typing import NamedTuple, Optional

from build_costs import Task, kind_of, prepare, tasks, times
from checks import PROVED, TOP, check, run, skip
from document import MB, ratio, table
from timing import LIB, Timed, compiled, instructions

COMPILERS = "gcc", "clang"


class Cost(NamedTuple):
    """What a task took a build: instructions, if callgrind is there, and times with the most memory."""

    instructions: Optional[int]
    took: Optional[Timed]


class Row(NamedTuple):
    """A task, what it took the proved program, and what it took those of the compilers, by their names."""

    task: Task
    proved: Cost
    compiled: dict[str, Cost]


def built(compiler: str) -> Optional[str]:
    """The program by a compiler, or None where that is not there."""
    if not shutil.which(compiler):
        skip(f"the program by {compiler}", f"Debian's package {compiler} is not installed")
        return None
    status, told, err = run(os.path.join(TOP, "tools", "program"),
                            env={**os.environ, "CC": compiler, "FONTCUT_BUILD": "generated"}, timeout=900)
    check(f"the program by {compiler} is compiled", status == 0, err.decode())
    return told.decode().strip() if status == 0 else None


def measured(folder: str) -> list[Row]:
    """What each task took each build. Nothing is measured where there is no proved program, or no compiler."""
    programs = {compiler: path for compiler in COMPILERS if (path := built(compiler))}
    proved = os.path.join(PROVED, "bin", "fontcut")
    if not os.path.exists(proved) or not programs:
        skip("the program compiled from gen/", "there is no proved program, or no compiler")
        return []
    runs = compiled(folder, os.path.join(LIB, "runs.c"))
    prepare(folder, proved)
    paths = [proved, *programs.values()]
    rows = []
    for task in tasks():
        took = times(folder, runs, paths, task.words)
        counted = [instructions(path, *task.words, folder=folder) if shutil.which("valgrind") else None
                   for path in paths]
        costs = [Cost(*both) for both in zip(counted, took)]
        rows.append(Row(task, costs[0], dict(zip(programs, costs[1:]))))
    return rows


def over(cost: Cost, proved: Cost) -> list[str]:
    """The ratios of instructions and of least times, and how much more memory there was, in MB."""
    if not cost.took or not proved.took:
        return ["–"] * 3
    counted = cost.instructions / proved.instructions if cost.instructions and proved.instructions else None
    more = (cost.took.peak - proved.took.peak) / MB
    return [ratio(counted), ratio(cost.took.least / proved.took.least), f"{more:+.2f}"]


def cost_table(rows: list[Row]) -> str:
    """The table of all tasks."""
    if not rows:
        return "Not measured, for there was no proved program or no compiler."
    names = list(rows[0].compiled)
    titles = [f"{kind_of(name)}: {what}" for name in names for what in ("instructions", "time", "memory, MB")]
    return table(["task", "proved, ms", *titles], [
        [row.task.name, f"{row.proved.took.least:.2f}" if row.proved.took else "–",
         *(cell for name in names for cell in over(row.compiled[name], row.proved))] for row in rows])
