"""The program over fonts for layout or variable cuts, beside the second reading of the kind: for the scripts about
these cuts and their joins."""
import filecmp
import os
import random
import shutil
import struct
from typing import Callable, Iterable, NamedTuple, Optional, Sequence

from checks import DONE, NO_WORDS, PROGRAM, check, held, put, quiet, read, run, same, same_bytes, sanitized
import font_cutting
from font_cutting import Ranges, ranges, whole_map
from font_reading import MAX_FILE, Refusal, records_of
import glyph_cutting
from glyph_cutting import CutKind
import layout_cutting
import layout_joining
from layout_making import letters
from layout_reading import layout_refusal
import lean_cutting
from random_fonts import CODES
from random_joins import put_all, random_tree
import variable_cutting
import variable_joining
from variable_reading import variable_refusal

WELL_MADE = (0, b"findings 0\naccepted\n", b"")
YES, NO = (0, b"yes\n", b""), (1, b"no\n", b"")

# Tables for which a font of ten glyphs is refused as such, and why.
BAD_FONTS = [("a font without a mapping", {b"cmap": b""}, "13 no mapping"),
             ("a bad glyph", {b"glyf": bytes(9), b"loca": bytes(40) + b"\0\0\0\x09"}, "17 bad glyph 9")]


class TriedKind(NamedTuple):
    """A kind of cuts by its second reading: the first refusal of a font that is accepted, for cuts for codes, these
    cuts, the kind for cuts in which no links are followed, and the join of files or the line that says why there is
    none."""

    name: str
    refusal: Callable[[bytes], Optional[Refusal]]
    cut: Callable[[bytes, Ranges], bytes]
    exact: CutKind
    join_all: Callable[[Sequence[bytes]], tuple[Optional[bytes], Optional[str]]]

    def option(self) -> str:
        return f"--{self.name}"

    def cut_for(self, font: bytes, words: str) -> bytes:
        """The cut of a font for ranges, as words."""
        return self.cut(font, ranges(words))


LAYOUT = TriedKind("layout", layout_refusal, layout_cutting.layout_cut, glyph_cutting.LAYOUT_CUTS,
                   layout_joining.join_all)
VARIABLE = TriedKind("variable", variable_refusal, variable_cutting.variable_cut, glyph_cutting.VARIABLE,
                     variable_joining.join_all)


# Cuts.

def made_cut(kind: TriedKind, name: str, path: str, out: str, words: Sequence[str], wanted: Ranges) -> bytes:
    """Checks the cut of a font against the second reading; returns its bytes."""
    same(f"{name}: subset {kind.option()}", DONE, quiet("subset", kind.option(), "--text", "", path, out, *words))
    made, font = read(out), read(path)
    same_bytes(f"{name}: the {kind.name} cut", kind.cut(font, wanted), made)
    return made


def of_itself(kind: TriedKind, name: str, folder: str, path: str, made: bytes) -> None:
    """Checks what holds of each cut of the kind: it belongs to itself and to its font, it is its own cut, and the lean
    cut of it is that of its font."""
    out, again, lean = (os.path.join(folder, f"{word}.ttf") for word in ("of_itself", "again", "lean"))
    put(out, made)
    same(f"{name}: check", WELL_MADE, run(PROGRAM, "check", out))
    same(f"{name}: belongs {kind.option()}", YES, quiet("belongs", kind.option(), out, path))
    same(f"{name}: it belongs to itself", YES, quiet("belongs", kind.option(), out, out))
    same(f"{name}: the {kind.name} cut of it for all codes", DONE, quiet("subset", kind.option(), out, again, "all"))
    same_bytes(f"{name}: is the same file", made, held(again))
    same(f"{name}: the lean cut of it", DONE, quiet("subset", "--lean", out, lean, "all"))
    codes = [(code, code) for code in whole_map(made)]
    same_bytes(f"{name}: is that of the font", lean_cutting.lean_cut(read(path), codes), held(lean))


def refused_as(kind: TriedKind, folder: str, name: str, font: bytes, line: str) -> None:
    """Checks that each command that makes cuts for codes refuses a font for cuts of the kind with this line, and OUT
    stays as it was, and that `join` and `belongs` answer what the second reading says, since they follow no links. Full
    and lean cuts are made of it, and are those of the font of ten glyphs without tables of layout and of variations."""
    path, out, slices = (os.path.join(folder, name) for name in ("font.ttf", "out.ttf", "slices"))
    put(path, font)
    put(out, b"as it was")
    put(slices, b"a U+41\n")
    option, wanted = kind.option(), f"fontcut: {line}\n".encode()
    same(f"{name}: subset {option}", ((1, b"", wanted), b"as it was"),
         (quiet("subset", option, path, out, "U+41"), held(out)))
    (joined, line_of_join), refusal = kind.join_all([font]), kind.exact.refusal(font)
    same(f"{name}: join {option}", (1, b"", line_of_join.encode()) if line_of_join else DONE,
         quiet("join", option, "-o", out, path))
    same_bytes(f"{name}: join {option}, OUT", joined or b"as it was", held(out))
    put(out, b"as it was")
    of_file = "fontcut: file 1: refused {} {}\n".format(*(refusal or (0, ""))).encode()
    belongs = (1, b"", of_file) if refusal else YES if kind.exact.is_cut(font) else NO
    same(f"{name}: belongs {option}", belongs, quiet("belongs", option, path, path))
    same(f"{name}: slice {option}", (1, b"", wanted),
         quiet("slice", option, path, os.path.join(folder, "none"), "--slices", slices))
    same_bytes(f"{name}: OUT", b"as it was", held(out))
    for words, cut in (NO_WORDS, font_cutting.cut), (["--lean"], lean_cutting.lean_cut):
        same(f"{name}: subset {words}", DONE, quiet("subset", *words, path, out, "U+41"))
        same_bytes(f"{name}: subset {words}, the cut", cut(letters({}), ranges("U+41")), held(out))


def refused_alone(kind: TriedKind, name: str, path: str, out: str, words: Sequence[str]) -> None:
    """Checks that a font is refused as the second reading says."""
    refusal = kind.refusal(read(path))
    assert refusal, "the font is accepted"
    line = f"fontcut: refused {refusal[0]} {refusal[1]}\n"
    same(f"{name}: refused", (1, b"", line.encode()), quiet("subset", kind.option(), "--text", "", path, out, *words))


def after_the_font(kind: TriedKind, folder: str, rows: Iterable[tuple[str, bytes, str]]) -> None:
    """Checks that what is refused of a font as such comes first. A row is a name, a font and a line."""
    path, out = os.path.join(folder, "font.ttf"), os.path.join(folder, "none.ttf")
    for name, font, line in rows:
        put(path, font)
        same(name, ((1, b"", f"fontcut: refused {line}\n".encode()), None),
             (quiet("subset", kind.option(), path, out, "U+41"), held(out)))


def accepted_lengths(kind: TriedKind, folder: str, fonts: Sequence[bytes], refused: str) -> list[int]:
    """Which of these fonts, a row of prefixes of a table, are not refused with this line, by their indices."""
    path, out = os.path.join(folder, "font.ttf"), os.path.join(folder, "prefix.ttf")
    accepted = []
    for length, font in enumerate(fonts):
        put(path, font)
        if quiet("subset", kind.option(), path, out, "U+41") != (1, b"", f"fontcut: refused {refused}\n".encode()):
            accepted.append(length)
    return accepted


def belonging(kind: TriedKind, folder: str, rows: Iterable[tuple[str, bytes, bytes, bool]]) -> None:
    """Files that are cuts of others, and files that are not. A row is a name, a file, the other one and the answer."""
    paths = os.path.join(folder, "cut.ttf"), os.path.join(folder, "font.ttf")
    for name, cut, of, answer in rows:
        put(paths[0], cut)
        put(paths[1], of)
        same(f"belongs {kind.option()}: {name}", YES if answer else NO, quiet("belongs", kind.option(), *paths))
        same(f"belongs {kind.option()}: {name}, by a second reading", answer, kind.exact.is_cut_of(cut, of))


def made_slices(kind: TriedKind, folder: str, font: bytes, slices: dict[str, str]) -> dict[str, bytes]:
    """Checks the slices of a font for words, by their names, against the second reading; returns the files."""
    path, listed, made = (os.path.join(folder, name) for name in ("font.ttf", "slices", "made"))
    put(path, font)
    put(listed, "".join(f"{name} {words}\n" for name, words in slices.items()).encode())
    same(f"slice {kind.option()}", DONE, quiet("slice", kind.option(), path, made, "--slices", listed))
    files = {name: read(os.path.join(made, f"{name}.ttf")) for name in slices}
    for name, words in slices.items():
        same_bytes(f"slice {kind.option()}: {name}", kind.cut_for(font, words), files[name])
    return files


def sanitized_as_font(name: str, path: str, out: str) -> None:
    """Checks that ots-sanitize accepts the cut of a font that it accepts."""
    if shutil.which("ots-sanitize") and run("ots-sanitize", path, os.devnull)[0]:
        print("ots-sanitize refuses the font itself:", path)
    else:
        sanitized(name, out)


# Joins.

def joined(kind: TriedKind, folder: str, name: str, files: Sequence[bytes], wanted: bytes) -> None:
    """Checks that files join into a file, by a second reading too."""
    out = os.path.join(folder, "out.ttf")
    same(f"{name}: join {kind.option()}", DONE, quiet("join", kind.option(), "-o", out, *put_all(folder, list(files))))
    same_bytes(f"{name}: the join", wanted, held(out))
    same(f"{name}: by a second reading", (wanted, None), kind.join_all(files))


def join_refused(kind: TriedKind, folder: str, name: str, files: Sequence[bytes], line: str) -> None:
    """Checks that a join is refused with this line, by a second reading too, and OUT is as it was."""
    out, wanted = os.path.join(folder, "out.ttf"), f"fontcut: file {line}\n"
    put(out, b"as it was")
    same(f"{name}: {line}", ((1, b"", wanted.encode()), b"as it was"),
         (quiet("join", kind.option(), "-o", out, *put_all(folder, list(files))), held(out)))
    same(f"{name}, by a second reading", (None, wanted), kind.join_all(files))


def wide_font(kind: TriedKind, path: str, tags: Sequence[bytes]) -> None:
    """Makes the font of ten glyphs with tables of these tags over one region of zeros, so long that its cut for U+0041
    has as many bytes as a file may have. Its sums are wrong."""
    font = letters(dict.fromkeys(tags, b""))
    bytes_left = MAX_FILE - len(kind.cut_for(font, "U+41"))
    region = bytes_left // (4 * len(tags)) * 4
    lengths, made = {**dict.fromkeys(tags, region), tags[0]: bytes_left - (len(tags) - 1) * region}, bytearray(font)
    for slot, record in enumerate(records_of(font)):
        if record.tag in lengths:
            struct.pack_into(">II", made, 12 + 16 * slot + 8, len(font), lengths[record.tag])
    put(path, made)
    os.truncate(path, len(font) + max(lengths.values()))


def too_large(kind: TriedKind, folder: str, wide: str, more: int) -> None:
    """Checks a font whose cuts for U+0041 and for U+0042 have as many bytes as a file may have, and whose cut for both
    has so many more: these two are made, and the cut for both and their join are refused."""
    first, second, out = (os.path.join(folder, f"{name}.ttf") for name in ("first", "second", "out"))
    for path, word in (first, "U+41"), (second, "U+42"):
        same(f"a large cut, {word}", (DONE, MAX_FILE),
             (quiet("subset", kind.option(), wide, path, word), os.path.getsize(path)))
    put(out, b"as it was")
    line = f"fontcut: refused 18 too large {MAX_FILE + more}\n".encode()
    same("a cut that is too large", ((1, b"", line), b"as it was"),
         (quiet("subset", kind.option(), wide, out, "U+41-42"), held(out)))
    same("a join that is too large", ((1, b"", line.replace(b"refused", b"file 2: refused")), b"as it was"),
         (quiet("join", kind.option(), "-o", out, first, second), held(out)))
    same("the largest cut twice", DONE, quiet("join", kind.option(), "-o", out, first, first))
    check("is the same file", filecmp.cmp(out, first, shallow=False))


def joins_of_one_font(kind: TriedKind, folder: str, chance: random.Random, fonts: int,
                      made: Callable[[random.Random], bytes]) -> None:
    """Checks that cuts of one font, in any order and some of them twice, all at once and a few at a time, join into its
    cut for all their codes: for so many random fonts."""
    differing, out = [], os.path.join(folder, "out.ttf")
    for number in range(fonts):
        font = made(chance)
        sets = [[(code, code) for code in chance.sample(CODES, chance.randrange(6))]
                for _ in range(chance.randint(1, 5))]
        order = [*sets, *chance.sample(sets, chance.randint(0, len(sets)))]
        chance.shuffle(order)
        paths = put_all(folder, [kind.cut(font, some) for some in order])
        answer, wanted = quiet("join", kind.option(), "-o", out, *paths), kind.cut(font, sum(sets, []))
        tree, failed = random_tree(folder, paths, chance, kind.option())
        if (answer, held(out), tree, failed) != (DONE, wanted, wanted, []):
            differing.append(f"font {number}, {font.hex()}, {order}: {answer}, {failed}")
    check(f"{fonts} random fonts: the join is the {kind.name} cut for all codes", not differing, *differing[:3])
