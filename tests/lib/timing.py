"""What the measuring scripts share: C programs that are compiled, programs that run in turn, calls in one process."""
import os
import subprocess
from typing import Iterable, NamedTuple, Optional, Sequence
from checks import TOP, found_in, run

LIB = os.path.join(TOP, "tests", "lib")
BENCHES = os.path.join(TOP, "benches")

# 3,000 codes, spread evenly over U+4E00-9FFF.
IDEOGRAPHS = [0x4E00 + 0x5200 * k // 3000 for k in range(3000)]


class Timed(NamedTuple):
    """What runs of a program took: the least and the median in milliseconds of wall clock, both of the processor's
    time, and the most memory in bytes."""

    least: float
    median: float
    processor: float
    processor_median: float
    peak: int


class Called(NamedTuple):
    """What calls in one process took: the bytes that a call makes, the least and the median in milliseconds, and the
    most bytes that a call of the library held of the heap at once."""

    size: int
    least: float
    median: float
    held: int


def compiled(folder: str, source: str, *words: str) -> str:
    """Compiles a C program of these sources into the folder, and returns its path."""
    name = os.path.splitext(os.path.basename(source))[0]
    path = os.path.join(folder, name)
    ran = run("gcc", "-O2", "-o", path, source, *words)
    if ran != (0, b"", b""):
        raise RuntimeError(f"gcc does not compile {name}: {ran[2].decode(errors='replace')}")
    return path


def in_turn(runs: str, out: str, programs: Iterable[Iterable[object]], milliseconds: int, least: int, most: int,
            worst: int = 0) -> list[Optional[Timed]]:
    """Runs programs in turn by tests/lib/runs.c, the program at `runs`, each as long as it is told, and `out` removed
    before each run. Returns what each took, or None for one that ended with a status above the worst."""
    words = [word for program in programs for word in (";", *map(str, program))]
    status, lines, err = run(runs, str(milliseconds), str(least), str(most), str(worst), out, *words, timeout=3600)
    if status:
        raise RuntimeError(err.decode(errors="replace"))
    return [None if line == "failed" else timed(line.split()) for line in lines.decode().splitlines()]


def instructions(*words: str, folder: str = ".") -> int:
    """How many instructions a program takes, without those of the system, by valgrind's callgrind: as many on every
    machine."""
    ran = run("valgrind", "--tool=callgrind", "--callgrind-out-file=/dev/null", *words, cwd=folder, timeout=900)
    return int(found_in(ran[2].decode(errors="replace"), r"Collected : (\d+)")[1])


def timed(words: Iterable[str]) -> Timed:
    """What a line of runs.c says."""
    least, median, processor, processor_median, peak, _ = map(int, words)
    return Timed(least / 1e6, median / 1e6, processor / 1e6, processor_median / 1e6, peak)


def least_of(one: Timed, other: Timed) -> Timed:
    """The least times that two measurements of a program found, and the most memory."""
    return Timed(min(one.least, other.least), min(one.median, other.median), min(one.processor, other.processor),
                 min(one.processor_median, other.processor_median), max(one.peak, other.peak))


def harfbuzz() -> Optional[list[str]]:
    """The words that a C program is compiled with to call HarfBuzz's subsetter, or None where that cannot be had."""
    try:
        ran = subprocess.run(["pkg-config", "--cflags", "--libs", "harfbuzz-subset"], capture_output=True, text=True)
    except FileNotFoundError:
        return None
    return ran.stdout.split() if ran.returncode == 0 else None


def compiled_calls(folder: str, library: str, name: str = "in_process.c") -> str:
    """Compiles a program of benches/ that includes in_memory.h over the static library, with HarfBuzz where that can be
    had."""
    words = harfbuzz()
    words = ["-DNO_HARFBUZZ"] if words is None else words
    header = f"-I{os.path.join(TOP, 'include')}"
    return compiled(folder, os.path.join(BENCHES, name), "-std=c99", "-D_GNU_SOURCE", header, library,
                    "-Wl,--wrap=malloc,--wrap=realloc,--wrap=free", *words)


def put_ranges(path: str, ranges: Iterable[tuple[int, int]]) -> None:
    """Writes ranges of codes as benches/in_process.c reads them."""
    with open(path, "w", encoding="ascii") as out:
        out.writelines(f"{first:X}-{last:X}\n" for first, last in ranges)


def called(calls: str, words: Sequence[str], milliseconds: int, least: int) -> dict[str, Called]:
    """Runs a program that includes in_memory.h, that at `calls`, over these words. Returns what each way took, by its
    name. A way that fails is left out."""
    status, lines, err = run(calls, *words, str(milliseconds), str(least), timeout=3600)
    if status:
        raise RuntimeError(f"{words[0]}: status {status}: {err.decode(errors='replace')}")
    rows = [line.split() for line in lines.decode().splitlines()]
    return {name: Called(int(size), int(low) / 1e6, int(median) / 1e6, int(held))
            for name, size, low, median, _, held in rows}


def calls_in_turn(calls: str, font: str, ranges: str, milliseconds: int, least: int) -> dict[str, Called]:
    """Runs benches/in_process.c or benches/layout_in_process.c, the program at `calls`, over a font and a file of
    ranges."""
    return called(calls, [font, ranges], milliseconds, least)
