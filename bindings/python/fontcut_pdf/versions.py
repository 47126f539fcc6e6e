"""What cuts have to have in common to join, by which those are told apart that do not: fonts of one name may be many,
and are not compared each with each."""
from __future__ import annotations

import hashlib
import struct
from typing import Dict, Iterator, Mapping, Optional, Tuple, Union

import fontcut

from .tables import DRAWN, tables_of

# What a cut keeps: (CODE, a character) with its glyph, and (GLYPH, a glyph) with its metrics and its outline.
CODE, GLYPH = 0, 1
Kept = Dict[Tuple[int, int], Union[int, bytes]]
_MADE = b"cmap", b"glyf", b"loca"


def _pairs(tables: Mapping[bytes, bytes], header: bytes) -> int:
    """How many pairs of an advance and a bearing a table of metrics has, by the last field of its header."""
    return int(struct.unpack_from(">H", tables.get(header, b"").ljust(36, b"\0"), 34)[0])


def shared(cut: bytes) -> Dict[str, bytes]:
    """A digest for each table of a lean cut, of what a join wants to be the same in all files: of `head` all but its
    sum, and of metrics what is of no single glyph."""
    tables = tables_of(cut)
    found: Dict[str, bytes] = {}
    glyphs = struct.unpack_from(">H", tables[b"maxp"], 4)[0]
    for tag, data in tables.items():
        if tag == b"head":
            data = data[:8] + data[12:]
        elif tag in (b"hmtx", b"vmtx"):
            pairs = _pairs(tables, tag[:1] + b"hea")
            data = b"%d " % len(data) + data[max(0, 4 * pairs - 4):4 * pairs - 2] + data[2 * pairs + 2 * glyphs:]
        if tag not in _MADE:
            found[tag.decode("latin-1")] = hashlib.sha256(data).digest()
    return found


def drawn(digests: Mapping[str, bytes]) -> Tuple[Tuple[str, bytes], ...]:
    """Of digests those of the tables that draw glyphs, ascending."""
    return tuple(sorted((tag, digest) for tag, digest in digests.items() if tag.encode("latin-1") in DRAWN))


def different_table(one: Mapping[str, bytes], other: Mapping[str, bytes]) -> Optional[str]:
    """The least tag whose table differs, as the join says it."""
    tags = [tag for tag in {*one, *other} if one.get(tag) != other.get(tag)]
    return f"different table {min(tags)}" if tags else None


def _outlines(tables: Mapping[bytes, bytes]) -> Iterator[Tuple[int, bytes]]:
    """Each glyph with its metrics and its outline, whose last zeros may be padding."""
    places, outlines = tables[b"loca"], tables[b"glyf"]
    metrics, pairs = tables.get(b"hmtx", b""), _pairs(tables, b"hhea")
    offsets = struct.unpack(f">{len(places) // 4}I", places)
    for glyph, (first, last) in enumerate(zip(offsets, offsets[1:])):
        at = 4 * glyph if glyph < pairs else 2 * pairs + 2 * glyph
        yield glyph, metrics[at:at + (4 if glyph < pairs else 2)] + outlines[first:last].rstrip(b"\0")


def kept(cut: bytes) -> Kept:
    """What a lean cut keeps: the glyph of each character, and the metrics and the outline of each glyph."""
    codes = [code for first, last in fontcut.codes(cut) for code in range(first, last + 1)]
    found: Kept = {(CODE, code): glyph for code, glyph in zip(codes, fontcut.glyphs(cut, codes))}
    records = dict(_outlines(tables_of(cut)))
    found.update(((GLYPH, glyph), records[glyph]) for glyph in fontcut.kept_glyphs(cut, kind="lean"))
    return found


def different_item(one: Kept, other: Kept) -> Optional[str]:
    """The least character or glyph that differs, as the join says it."""
    kinds = [key for key, value in other.items() if one.get(key, value) != value]
    if not kinds:
        return None
    kind, number = min(kinds)
    return f"different mapping U+{number:X}" if kind == CODE else f"different glyph {number}"
