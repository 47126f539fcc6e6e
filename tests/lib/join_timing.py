"""Times the join of 2 to 400 cuts of a font of 16 MB beside a C program that reads the same files, sums their words and
writes as many bytes (sum_and_write.c), and counts its instructions."""
import filecmp
import os
from contextlib import contextmanager
from typing import Iterator, NamedTuple, Sequence
from checks import PROGRAM, check, end, run, same
from timing import Timed, in_turn, least_of

SOURCE = "/usr/share/fonts/truetype/lxgw-wenkai/LXGWWenKai-Regular.ttf"  # Debian's package fonts-lxgw-wenkai
FIRST, LAST = 0x4E00, 0x9DFF
COUNTS = 2, 20, 100, 400
TIMES = 7
TIMES_OF_FEW = 25  # a short run is disturbed more
FEW = 20  # cuts
# The words for a kind of cuts.
FULL: Sequence[str] = ()
LEAN = ("--lean",)


class Cuts(NamedTuple):
    """The paths of cuts, that of their join, the line that joins them, and the bytes that are read and written."""

    paths: list[str]
    out: str
    line: list[str]
    read: int
    written: int


class Joined(NamedTuple):
    """How many cuts were joined, the bytes that are read and written, and what the join and the C program took."""

    cuts: int
    read: int
    written: int
    join: Timed
    floor: Timed


def words_of(count: int) -> list[str]:
    """The ranges of the codes that the cuts take: equal slices."""
    edges = [FIRST + (LAST + 1 - FIRST) * k // count for k in range(count + 1)]
    return [f"U+{low:X}-{high - 1:X}" for low, high in zip(edges, edges[1:])]


@contextmanager
def cuts_to_join(folder: str, count: int, kind: Sequence[str] = FULL) -> Iterator[Cuts]:
    """Makes so many cuts of a kind, and checks their join. The cuts are removed at the end."""
    paths: list[str] = []
    for k, word in enumerate(words_of(count)):
        paths.append(os.path.join(folder, f"{count}-{k}.ttf"))
        run(PROGRAM, "subset", *kind, SOURCE, paths[-1], word)
    out, whole = (os.path.join(folder, name) for name in ("joined.ttf", "whole.ttf"))
    line = [PROGRAM, "join", *kind, out, *paths]
    same(f"join of {count} cuts", (0, b"", b""), run(*line))
    run(PROGRAM, "subset", *kind, SOURCE, whole, f"U+{FIRST:X}-{LAST:X}")
    check(f"the join of {count} cuts is the cut for all their codes", filecmp.cmp(out, whole, shallow=False))
    yield Cuts(paths, out, line, sum(map(os.path.getsize, paths)), os.path.getsize(whole))
    for path in paths:
        os.remove(path)


def time_join(cuts: Cuts, floor: str, runs: str, tries: int = 1, most: float = 0.0) -> Joined:
    """Measures the join of cuts and the C program at the path `floor`, a few times more where the join takes more than
    `most` times as long. Of each the least counts, which other work on the machine disturbs least."""
    times = TIMES_OF_FEW if len(cuts.paths) <= FEW else TIMES
    programs: list[list[object]] = [list(cuts.line), [floor, cuts.out, cuts.written, *cuts.paths]]
    took: list[Timed] = []
    for _ in range(tries):
        ran = [one for one in in_turn(runs, cuts.out, programs, 0, times, times) if one]
        if len(ran) < len(programs):
            check(f"runs over {len(cuts.paths)} cuts end well", False)
            end()
        took = [least_of(*both) for both in zip(took, ran)] if took else ran
        if took[0].processor <= most * took[1].processor:
            break
    return Joined(len(cuts.paths), cuts.read, cuts.written, *took)
