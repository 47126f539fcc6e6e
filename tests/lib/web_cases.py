"""Cases for tests/web_module: calls over real and broken fonts, with what the native library answers by fontcut.py."""
import hashlib
import json
import os
import random
import warnings
from types import ModuleType
from typing import Callable, Iterable, Iterator, Sequence, TypedDict

KINDS = ("full", "lean", "layout", "variable")
BROKEN = 130  # files of each of two fonts


def digest(data: bytes) -> str:
    return hashlib.sha256(data).hexdigest()


def spread(ranges: Iterable[tuple[int, int]], count: int) -> list[int]:
    """So many of the codes of the ranges, spread evenly."""
    codes = [code for first, last in ranges for code in range(first, last + 1)]
    return codes[::max(1, len(codes) // count)][:count]


class Row(TypedDict):
    """A call by its name, the names of its files, what else is given, and the value or the refusal that is wanted."""

    call: str
    files: Sequence[str]
    given: dict[str, object]
    wanted: dict[str, object]


class Cases:
    """The cases, and the folder of their files."""

    def __init__(self, folder: str, library: ModuleType) -> None:
        self.folder, self.library = folder, library
        warnings.simplefilter("ignore", library.FontcutWarning)
        self.rows: list[Row] = []
        self.count = 0

    def put(self, data: bytes) -> str:
        """Keeps a file, and returns its name."""
        self.count += 1
        name = f"{self.count}.bin"
        with open(os.path.join(self.folder, name), "wb") as out:
            out.write(data)
        return name

    def add(self, call: str, files: Sequence[str], answer: Callable[[], object], **given: object) -> None:
        """Adds what the native library answers, which is called here: a value, or what it refuses."""
        wanted: dict[str, object]
        try:
            wanted = {"value": answer()}
        except self.library.NoGlyph as refused:
            wanted = {"refused": [102, f"no such glyph at {refused.index}", refused.index, None]}
        except self.library.Refused as refused:
            wanted = {"refused": [refused.number, refused.text, refused.argument, refused.file]}
        self.rows.append({"call": call, "files": files, "given": given, "wanted": wanted})

    def written(self) -> None:
        with open(os.path.join(self.folder, "cases.json"), "w", encoding="ascii") as out:
            json.dump(self.rows, out)


def numbers_of(cases: Cases, name: str, font: bytes) -> None:
    """The calls that answer numbers of a font."""
    library, mapped = cases.library, cases.library.codes(font)
    count = library.info(font).glyph_count
    codes, glyphs = [*range(0x20, 0x7F), *spread(mapped, 50), 0x10FFFF], spread([(0, count - 1)], 200)
    cases.add("check", [name], lambda: library.check(font))
    cases.add("codes", [name], lambda: [list(one) for one in library.codes(font)])
    cases.add("info", [name], lambda: list(library.info(font)))
    cases.add("glyphs", [name], lambda: library.glyphs(font, codes), codes=codes)
    for some in glyphs, [*glyphs, count], [0, -1], [65536, 0], []:
        cases.add("metrics", [name], lambda: [list(one) for one in library.metrics(font, some)], glyphs=some)


def cuts_of(cases: Cases, name: str, font: bytes, kind: str, chance: random.Random) -> bytes:
    """The cuts of a font for six sets, by one call for each and by one for all, and joins of twenty cuts by chance."""
    library, mapped = cases.library, cases.library.codes(font)
    ascii_codes = (0x20, 0x7E)
    sets: list[Sequence[object]] = [[ascii_codes], [ascii_codes, (0xA0, 0xFF)], spread(mapped, 100),
                                    spread(mapped, 1000), [(0, 0x10FFFF)], []]
    for some in sets:
        cases.add("subset", [name], lambda: digest(library.cut(font, some, kind=kind)),
                  unicodes=some, kind=kind)
        cases.add("subsetSize", [name], lambda: library.cut_size(font, some, kind=kind),
                  unicodes=some, kind=kind)
    some_sets: list[list[Sequence[object]]] = [sets, []]
    for many in some_sets:
        cases.add("cuts", [name], lambda: list(map(digest, library.slices(font, many, kind=kind))),
                  sets=[{"unicodes": one} for one in many], kind=kind)
    pool = spread(mapped, 2000)
    parts: list[bytes] = [library.cut(font, chance.sample(pool, min(len(pool), 60)), kind=kind) for _ in range(20)]
    names = [cases.put(part) for part in parts]
    for count in 1, 2, 20:
        cases.add("join", names[:count], lambda: digest(library.join(parts[:count], kind=kind)), kind=kind)
    cases.add("join", [names[0], name], lambda: digest(library.join([parts[0], font], kind=kind)), kind=kind)
    cases.add("belongs", [names[0], name], lambda: library.belongs(parts[0], font, kind=kind), kind=kind)
    cases.add("belongs", [name, names[0]], lambda: library.belongs(font, parts[0], kind=kind), kind=kind)
    cases.add("belongs", [names[0], name], lambda: library.belongs(parts[0], font))
    cases.add("belongs", [name, names[0]], lambda: library.belongs(font, parts[0]))
    for file, data in (name, font), (names[0], parts[0]):
        cases.add("cutForm", [file], lambda: library._form(data, library._KINDS[kind]).name, kind=kind)
    return parts[0]


def cuts_by_number(cases: Cases, name: str, font: bytes, kind: str) -> None:
    """Cuts of a font for characters and glyph numbers, exact and closed ones, their closures, and the glyphs that a cut
    keeps; and numbers that are refused."""
    library, count = cases.library, cases.library.info(font).glyph_count
    lists: list[list[int]] = [[], spread([(0, count - 1)], 100), [count - 1, 0, 0], [0, count], [0, -1, 65536]]
    for gids in lists:
        for closes in True, False:
            for call, made in ("subset", lambda *words, **of: digest(library.cut(*words, **of))), \
                    ("subsetSize", library.cut_size):
                cases.add(call, [name], lambda: made(font, "fi", gids=gids, kind=kind, layout_closure=closes),
                          text="fi", gids=gids, kind=kind, layoutClosure=closes)
            cases.add("cuts", [name], lambda: list(map(digest, library.slices(
                font, ["a", "fi", ""], gids=[[3, 4], None, gids], kind=kind, layout_closure=closes))),
                sets=[{"text": "a", "gids": [3, 4]}, {"text": "fi"}, {"gids": gids}], kind=kind, layoutClosure=closes)
        cases.add("closure", [name], lambda: library.closure(font, "fi", gids, kind=kind),
                  text="fi", gids=gids, kind=kind)
    exact = library.cut(font, "fi", gids=[count - 1], kind=kind)
    for file, data in (name, font), (cases.put(exact), exact):
        cases.add("keptGlyphs", [file], lambda: library.kept_glyphs(data, kind=kind), kind=kind)


def broken(font: bytes, chance: random.Random) -> Iterator[bytes]:
    """Broken files of a font."""
    yield from (b"", font[:11], font[:100], font[:-1], font[:len(font) // 2], b"ttcf" + font[4:], b"OTTO" + font[4:])
    for _ in range(BROKEN):
        data = bytearray(font)
        for _ in range(chance.choice([1, 3, 20])):
            place = chance.randrange(min(400, len(data))) if chance.random() < 0.7 else chance.randrange(len(data))
            data[place] = chance.choice([0, 1, 0x7F, 0x80, 0xFF, chance.randrange(256)])
        yield bytes(data)


def of_broken(cases: Cases, data: bytes, good: tuple[str, bytes]) -> None:
    """The calls over a broken file, and its join with a good cut."""
    library, name = cases.library, cases.put(data)
    cases.add("check", [name], lambda: library.check(data))
    cases.add("codes", [name], lambda: [list(one) for one in library.codes(data)])
    cases.add("info", [name], lambda: list(library.info(data)))
    for kind in KINDS:
        cases.add("subset", [name], lambda: digest(library.cut(data, "Hello", kind=kind)), text="Hello", kind=kind)
        cases.add("keptGlyphs", [name], lambda: library.kept_glyphs(data, kind=kind), kind=kind)
    for kind in "lean", "layout", "variable":
        cases.add("subset", [name], lambda: digest(library.cut(data, "", gids=[1, 2], kind=kind)),
                  gids=[1, 2], kind=kind)
    cases.add("closure", [name], lambda: library.closure(data, "AB", [1]), text="AB", gids=[1])
    cases.add("join", [good[0], name], lambda: digest(library.join([good[1], data], kind="lean")), kind="lean")
    cases.add("belongs", [name, good[0]], lambda: library.belongs(data, good[1], kind="lean"), kind="lean")
    cases.add("belongs", [name, good[0]], lambda: library.belongs(data, good[1]))


def make(folder: str, library: ModuleType, fonts: Iterable[str], small: bytes) -> list[Row]:
    """Writes the cases of some fonts, and of broken files of a small font and of a lean cut."""
    cases, chance, leans = Cases(folder, library), random.Random(1), []
    for path in fonts:
        with open(path, "rb") as opened:
            font = opened.read()
        name = cases.put(font)
        numbers_of(cases, name, font)
        leans.append({kind: cuts_of(cases, name, font, kind, chance) for kind in KINDS}["lean"])
        for kind in KINDS[1:]:
            cuts_by_number(cases, name, font, kind)
    good = cases.put(leans[-1]), leans[-1]
    for base in small, leans[-1]:
        for data in broken(base, chance):
            of_broken(cases, data, good)
    names = [cases.put(one) for one in leans]
    cases.add("join", names, lambda: digest(library.join(leans, kind="lean")), kind="lean")
    cases.add("join", [], lambda: digest(library.join([], kind="lean")), kind="lean")
    cases.written()
    return cases.rows
