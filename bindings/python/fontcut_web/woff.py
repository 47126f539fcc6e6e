"""WOFF2 is written, WOFF and WOFF2 are read, and tables are dropped, by fontTools."""
from __future__ import annotations

import contextlib
import io
import struct
import zlib
from typing import Iterable, Iterator, List, Mapping, Optional, Tuple

from fontTools.ttLib import TTFont, woff2
from fontTools.ttLib.sfnt import calcChecksum

from .common import WOFF, WOFF2, Refused, need
from .malformed import MALFORMED

# What fontcut takes at most, unpacked.
MOST_UNPACKED = 128 << 20
# How many times its own length a WOFF2 file may unpack to: browsers refuse one that unpacks to more, as that of a few
# glyphs of a large font does.
_MOST_RATIO = 100
# What is raised where a file is malformed that is packed.
_MALFORMED = (*MALFORMED, zlib.error, *([woff2.brotli.error] if woff2.haveBrotli else []))


@contextlib.contextmanager
def _refusing(why: str) -> Iterator[None]:
    """Within it, what is raised for a malformed file is a refusal, which begins like this."""
    try:
        yield
    except _MALFORMED as error:
        raise Refused(f"{why}: {' '.join(str(error).split()) or type(error).__name__}") from error


def packed(data: bytes) -> bytes:
    """A font as WOFF2, which encodes outlines anew. Raises `Refused` where these are malformed, which fontcut takes as
    they are."""
    need("brotli")
    with _refusing("fontTools cannot pack it as WOFF2"):
        made = _compressed(data, "glyf", "loca")
        return made if _lacking(made) <= 0 else _padded(_compressed(data, "glyf", "loca", "hmtx"))


def _compressed(data: bytes, *transformed: str) -> bytes:
    made = io.BytesIO()
    woff2.compress(io.BytesIO(data), made, transform_tables=set(transformed))
    return made.getvalue()


def _lacking(data: bytes) -> int:
    """How many bytes a WOFF2 file lacks for browsers to take it (WOFF 2.0, 4.1)."""
    if struct.unpack_from(">I", data, 16)[0] <= _MOST_RATIO * len(data) // 2:
        return 0
    lengths: List[int] = [table.length for table in woff2.WOFF2Reader(io.BytesIO(data)).tables.values()]
    return -(-sum(lengths) // _MOST_RATIO) - len(data)


def _padded(data: bytes) -> bytes:
    """A WOFF2 file with as much private data as it lacks for browsers to take it (WOFF 2.0, 4.1 and 7)."""
    more = max(0, _lacking(data) + 3 & -4)
    made = bytearray(data + bytes(more))
    if more:
        struct.pack_into(">I", made, 8, len(made))
        struct.pack_into(">2I", made, 40, len(data), more)
    return bytes(made)


def compressed_size(data: bytes) -> Optional[int]:
    """How many bytes of a text a browser loads that takes Brotli, or None where Brotli is not installed."""
    return len(woff2.brotli.compress(data)) if woff2.haveBrotli else None


def unpacked(data: bytes) -> bytes:
    """The font that a WOFF or WOFF2 file has. Raises `Refused` where it is neither, or is damaged."""
    if data[:4] not in (WOFF, WOFF2):
        raise Refused("it is neither WOFF nor WOFF2")
    if data[:4] == WOFF2:
        need("brotli")
    # The length that it says the font has (WOFF 1.0, 4; WOFF 2.0, 4.1).
    if len(data) < 20 or struct.unpack_from(">I", data, 16)[0] > MOST_UNPACKED:
        raise Refused(f"it is damaged, or has more than {MOST_UNPACKED} bytes of tables")
    with _refusing("it is damaged"):
        return _unpacked(data)


def without(data: bytes, tags: Iterable[str]) -> bytes:
    """A font as if it lacked some tables. Raises `Refused` where it is malformed."""
    with _refusing("fontTools cannot read it"):
        font = TTFont(io.BytesIO(data), recalcBBoxes=False, recalcTimestamp=False, lazy=True)
        for tag in set(tags).intersection(font.keys()):
            del font[tag]
        made = io.BytesIO()
        font.save(made, reorderTables=None)
        return made.getvalue()


def with_tables(data: bytes, tables: Mapping[str, Optional[bytes]]) -> bytes:
    """A font that is accepted with other tables of some tags, and without those of `None` (OpenType 1.9, Organization
    of an OpenType Font). fontTools would add up all of a large font again."""
    other = {tag.encode("ascii"): table for tag, table in tables.items()}
    rows: List[Tuple[bytes, int, bytes]] = []
    for at in range(12, 12 + 16 * struct.unpack_from(">H", data, 4)[0], 16):
        tag, checksum, offset, length = struct.unpack_from(">4s3L", data, at)
        if tag not in other:
            rows.append((tag, checksum, data[offset:offset + length]))
    rows += [(tag, calcChecksum(table), table) for tag, table in other.items() if table is not None]
    return _font_of(data[:4], sorted(rows))


def _font_of(version: bytes, rows: List[Tuple[bytes, int, bytes]]) -> bytes:
    """A font of tables with their tags and checksums."""
    most = 1 << len(rows).bit_length() - 1
    records, parts, end = [], [], 12 + 16 * len(rows)
    for tag, checksum, table in rows:
        records.append(struct.pack(">4s3L", tag, checksum, end, len(table)))
        parts += [table, bytes(-len(table) % 4)]
        end += len(table) + len(parts[-1])
    head = struct.pack(">4s4H", version, len(rows), 16 * most, most.bit_length() - 1, 16 * (len(rows) - most))
    return b"".join([head, *records, *parts])


def _unpacked(data: bytes) -> bytes:
    font = TTFont(io.BytesIO(data), recalcBBoxes=False, recalcTimestamp=False)
    font.flavor = font.flavorData = None
    made = io.BytesIO()
    font.save(made, reorderTables=False)
    return made.getvalue()
