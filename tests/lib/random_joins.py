"""What tests of joins choose at random: versions of a font, damage to their cuts, and the order of joins."""
import os
import random
import tempfile
from collections import Counter
from typing import Callable, NamedTuple, Optional, Sequence

from checks import DONE, Ran, check, held, put, quiet, read, same, same_bytes
from font_changing import turned, with_bytes, with_codes, with_tables, without_code
from font_cutting import Ranges, outlines, ranges, whole_map
from font_reading import table, tables_of
from random_fonts import CODES

METRICS = (b"hmtx", b"vmtx")


def with_outline(font: bytes, glyph: int) -> bytes:
    """The font with a byte of a glyph's bounds turned, if it has an outline."""
    records = outlines(font)
    if not records[glyph]:
        return font
    place = int.from_bytes(table(font, b"loca")[4 * glyph:4 * glyph + 4], "big") + 9
    return with_tables(font, {b"glyf": turned(table(font, b"glyf"), place)})


def with_metric(font: bytes, chance: random.Random) -> bytes:
    """The font with a byte of its metrics turned."""
    tables = {tag: data for tag, data in tables_of(font).items() if tag in METRICS and data}
    tag = chance.choice(sorted(tables))
    return with_bytes(font, {tag: chance.randrange(len(tables[tag]))})


def random_change(font: bytes, chance: random.Random) -> bytes:
    """Another version of a font: with a code on another glyph or without it, other metrics, another outline, or another
    byte of a table that cuts of one font have in common."""
    kind, count = chance.randrange(8), len(outlines(font))
    if kind == 0 and count > 1:
        return with_codes(font, {chance.choice(CODES): chance.randrange(1, count)})
    if kind == 1 and whole_map(font):
        return without_code(font, chance.choice(sorted(whole_map(font))))
    if kind in (2, 3, 4):
        return with_metric(font, chance)
    if kind == 5:
        return with_bytes(font, {chance.choice([b"head", b"hhea"]): 3})
    return with_outline(font, chance.randrange(count))


def random_version(font: bytes, chance: random.Random) -> bytes:
    for _ in range(chance.choice([0, 1, 1, 2])):
        font = random_change(font, chance)
    return font


def damaged(file: bytes, chance: random.Random) -> bytes:
    """A file with another byte, or cut off, or longer, or a table with another byte and the sums right."""
    kind = chance.randrange(4)
    if kind == 0:
        return file[:chance.randrange(len(file))]
    if kind == 1:
        return file + bytes(chance.choice([1, 4]))
    if kind == 2:
        return turned(file, chance.randrange(len(file)))
    tables = {tag: data for tag, data in tables_of(file).items() if data}
    tag = chance.choice([b"hmtx", b"hmtx", b"glyf", b"loca", b"maxp", b"head", *tables])
    return with_bytes(file, {tag: chance.randrange(len(tables[tag]))})


def put_all(folder: str, files: Sequence[bytes]) -> list[str]:
    """The paths of the files, which are made."""
    paths = [os.path.join(folder, f"{at}.ttf") for at in range(len(files))]
    for path, file in zip(paths, files):
        put(path, file)
    return paths


def random_tree(folder: str, cuts: list[str], chance: random.Random,
                option: str) -> tuple[Optional[bytes], list[tuple[Ran, list[str]]]]:
    """Joins each cut once at least, some twice, a few at a time, until one file is left: it,
    and all answers but DONE. The option says of which kind the cuts are."""
    left, between = cuts + chance.sample(cuts, len(cuts) // 5), 0
    failed: list[tuple[Ran, list[str]]] = []
    chance.shuffle(left)
    while len(left) > 1:
        taken = [left.pop(chance.randrange(len(left))) for _ in range(min(len(left), chance.choice([1, 2, 2, 3, 5])))]
        out = os.path.join(folder, f"between {between}.ttf")
        between += 1
        answer = quiet("join", option, "-o", out, *taken)
        if answer != DONE:
            failed.append((answer, taken))
        left.insert(chance.randrange(len(left) + 1), out)
    return held(left[0]), failed


# What a joiner answers: a join, or the line that says why there is none.
Joiner = Callable[[Sequence[bytes]], tuple[Optional[bytes], Optional[str]]]
# By which words of these lines it is seen that each kind of difference is met.
DIFFERENCES = ("20 not a", "21 different table", "22 different mapping", "23 different glyph")


def join_as_joiner(folder: str, joins: int, files_of: Callable[[], list[bytes]], join_all: Joiner, *words: str,
                   differences: Sequence[str] = DIFFERENCES) -> None:
    """Joins random files, so often, and compares with a joiner of a second reading. The words say of which kind the
    files are. Each of the differences is to be met, and a third of the files to be joined."""
    differing, out = [], os.path.join(folder, "out.ttf")
    answers: Counter[str] = Counter()
    for number in range(joins):
        files = files_of()
        joined, line = join_all(files)
        put(out, b"as it was")
        wanted = ((1, b"", line.encode()), b"as it was") if line else (DONE, joined)
        found = quiet("join", *words, "-o", out, *put_all(folder, files)), held(out)
        if wanted != found:
            differing.append(f"join {number}, {[file.hex() for file in files]}: wanted {wanted}, found {found}")
        answers[" ".join(line.split()[4:7]) if line else "joined"] += 1
    print(f"answers of {' '.join(['join', *words])}, or their first words:", dict(answers.most_common()))
    check(f"{joins} random joins", not differing, *differing[:3])
    check("each kind of difference is met, and a third of them are joined",
          all(answers[kind] for kind in differences) and 3 * answers["joined"] >= joins, dict(answers))


class Trees(NamedTuple):
    """Random trees over cuts of a real font: the option for their kind, what makes them by a second reading, the seed,
    how many cuts and trees there are, and how many more codes a cut has than one."""

    option: str
    cut: Callable[[bytes, Ranges], bytes]
    seed: int
    cuts: int
    trees: int
    spans: Sequence[int]


def trees_of(font: str, how: Trees) -> None:
    """Random trees over cuts of a real font, against its cut for all codes of them."""
    chance, title, file = random.Random(how.seed), os.path.basename(font), read(font)
    codes, words = sorted(whole_map(file)), []
    with tempfile.TemporaryDirectory() as folder:
        cuts = [os.path.join(folder, f"cut {at}.ttf") for at in range(how.cuts)]
        for cut in cuts:
            first = chance.choice(codes)
            words.append(f"U+{first:X}-{min(first + chance.choice(how.spans), 0x10FFFF):X}")
            same(f"{title}: subset {how.option} {words[-1]}", DONE, quiet("subset", how.option, font, cut, words[-1]))
        wanted = how.cut(file, ranges(" ".join(words)))
        for number in range(how.trees):
            with tempfile.TemporaryDirectory(dir=folder) as place:
                joined, failed = random_tree(place, cuts, chance, how.option)
            same(f"{title}: tree {number}: join {how.option}", [], failed)
            same_bytes(f"{title}: tree {number}", wanted, joined)
