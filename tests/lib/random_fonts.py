"""Small fonts made at random, all of them accepted: with few glyphs, few pairs of metrics, tables of vertical metrics
that are described or not, and `post` of any length."""
import random
import struct
from typing import Iterable

from font_cutting import ALL, assembled, cmap_table, groups_of, padded
from worked_cuts import base6_tables

CODES = range(0x40, 0x58)


def random_record(chance: random.Random, count: int) -> bytes:
    """An empty glyph, a simple one of no contour, or a composite of one or two others."""
    kind = chance.random()
    if kind < 0.2:
        return b""
    bounds = chance.randbytes(8)
    if kind < 0.7:
        return b"\0\0" + bounds + chance.randbytes(chance.choice((0, 1, 2, 5)))
    parts = chance.choice((1, 2))
    record = b"\xFF\xFF" + bounds
    for part in range(parts):
        more = 0x20 if part + 1 < parts else 0
        record += struct.pack(">HHbb", 0x0002 | more, chance.randrange(count), 1, 2)
    return record


def outlines_of(records: Iterable[bytes]) -> dict[bytes, bytes]:
    """`glyf` and a long `loca` of these records."""
    glyf, places = b"", [0]
    for record in records:
        glyf += padded(record)
        places.append(len(glyf))
    return {b"glyf": glyf, b"loca": struct.pack(f">{len(places)}I", *places)}


def random_metrics(chance: random.Random, count: int, pairs: int) -> bytes:
    """A table of metrics, with bytes after the bearings now and then."""
    return chance.randbytes(4 * pairs + 2 * (count - pairs) + chance.choice((0, 0, 0, 3)))


def vertical(chance: random.Random, count: int) -> dict[bytes, bytes]:
    """No `vhea` and `vmtx`, or one of them, or both, `vmtx` described by `vhea` or not."""
    pairs = chance.choice((0, 1, count, count + 1, chance.randint(1, count)))
    tables = {b"vhea": chance.randbytes(34) + struct.pack(">H", pairs),
              b"vmtx": random_metrics(chance, count, max(1, min(pairs, count)))}
    kind = chance.randrange(6)
    if kind == 0:
        return {}
    if kind in (1, 2):
        del tables[(b"vhea", b"vmtx")[kind - 1]]
    elif kind == 3:
        name = chance.choice((b"vhea", b"vmtx"))
        tables[name] = tables[name][:-1]
    return tables


def random_font(chance: random.Random) -> bytes:
    """One font."""
    count = chance.randint(1, 10)
    pairs = chance.choice((1, count, chance.randint(1, count)))
    tables = base6_tables()
    head, hhea, maxp = tables[b"head"], tables[b"hhea"], tables[b"maxp"]
    codes = {code: chance.randrange(count) for code in chance.sample(CODES, chance.randint(0, len(CODES)))}
    tables.update(outlines_of([random_record(chance, count) for _ in range(count)]))
    tables.update(vertical(chance, count))
    tables.update({
        b"cmap": cmap_table(groups_of({code: glyph for code, glyph in codes.items() if glyph})),
        b"head": head[:50] + b"\0\1" + head[52:], b"maxp": maxp[:4] + struct.pack(">H", count) + maxp[6:],
        b"hhea": hhea[:34] + struct.pack(">H", pairs), b"hmtx": random_metrics(chance, count, pairs),
    })
    if chance.random() < 0.8:
        tables[b"post"] = chance.randbytes(chance.choice((0, 3, 31, 32, 33, 60)))
    return assembled(tables)


def random_words(chance: random.Random) -> tuple[list[str], list[tuple[int, int]]]:
    """Words for some of the codes, for all, or for none."""
    kind = chance.random()
    if kind < 0.15:
        return [], []
    if kind < 0.3:
        return ["all"], ALL
    codes = chance.sample(CODES, chance.randint(1, 8))
    return [f"U+{code:X}" for code in codes], [(code, code) for code in codes]
