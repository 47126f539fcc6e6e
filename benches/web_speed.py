"""What lean cuts and joins of the package for browsers and node take in node, beside the native library."""
import os
import shutil
import sys
from typing import NamedTuple, Optional

from checks import built_package, put, read, skip
from cut_sizes import mapped_codes, spread
from join_timing import SOURCE
from measure import Bench, Font, need
from timing import BENCHES, Called, called, compiled_calls, put_ranges
from wire import LATIN, PACKAGES, by_brotli
import fontcut

PATHS = LATIN, SOURCE
SLICES, OF_EACH = 20, 100
TURNS = 3  # how often both are run, one after the other
NATIVE, NODE = "native", "node"
ASCII = [(0x20, 0x7E)]


class Speed(NamedTuple):
    """A font, and what native calls and those in node took: by the side, in each turn, what each call took by its
    name."""

    font: str
    turns: dict[str, list[dict[str, Called]]]


def slices(font: Font) -> list[list[int]]:
    """The codes of each slice: characters that the font maps, spread evenly over them and in their order."""
    codes = spread(mapped_codes(font), SLICES * OF_EACH)
    return [codes[at:at + OF_EACH] for at in range(0, len(codes), OF_EACH)]


class Speeds:
    """Times calls by what is compiled in a folder."""

    def __init__(self, bench: Bench, library: str) -> None:
        self.bench, self.package = bench, built_package()
        self.calls = compiled_calls(bench.folder, library, "web_in_process.c")
        self.ranges = os.path.join(bench.folder, "web.ranges")
        put_ranges(self.ranges, ASCII)

    def measured(self, path: str) -> Speed:
        """What both sides took with a font."""
        font = Font(os.path.basename(path)[:-4], path, os.path.getsize(path), 0)
        print(f"{font.name}: calls in node", file=sys.stderr, flush=True)
        files = [os.path.join(self.bench.folder, f"slice-{number}.ttf") for number in range(SLICES)]
        with open(path, "rb") as opened:
            for name, cut in zip(files, fontcut.slices(opened.read(), slices(font), kind="lean")):
                put(name, cut)
        words = [path, self.ranges, *files]
        programs = {NATIVE: (self.calls, words), NODE: ("node", [f"{BENCHES}/web_speed.mjs", self.package, *words])}
        found: dict[str, list[dict[str, Called]]] = {side: [] for side in programs}
        for _ in range(TURNS):
            for side, (program, given) in programs.items():
                found[side].append(called(program, given, self.bench.effort.call_ms, self.bench.effort.least_calls))
        sizes = {tuple((name, one.size) for name, one in took.items()) for turns in found.values() for took in turns}
        need(f"{font.name}: node and the library make cuts and joins of one length", len(sizes) == 1, sizes)
        return Speed(font.name, found)


def module_size() -> Optional[int]:
    """The length of the module as Brotli, or None where it cannot be packed."""
    if not shutil.which("brotli"):
        skip("the length of the module", "Debian's package brotli is not installed")
        return None
    return by_brotli(read(os.path.join(built_package(), "fontcut.wasm")))


def measured(bench: Bench, library: str, shared: str) -> list[Speed]:
    """What is measured of each font."""
    if not shutil.which("node"):
        skip("calls in node", "Debian's package nodejs is not installed")
        return []
    os.environ["FONTCUT_LIBRARY"] = shared
    maker = Speeds(bench, library)
    for path in PATHS:
        if not os.path.exists(path):
            skip(f"{os.path.basename(path)}: calls in node", f"Debian's package {PACKAGES[path]} is not installed")
    return [maker.measured(path) for path in PATHS if os.path.exists(path)]
