"""The tables of TrueType programs (OpenType 1.9, Table Directory), and those that a PDF file needs."""
from __future__ import annotations

import struct
from typing import Any, Dict, List, Mapping, Tuple

# What draws glyphs by their numbers (ISO 32000-1, 9.9). Names and layout are for other programs than viewers.
DRAWN = b"cvt ", b"fpgm", b"glyf", b"head", b"hhea", b"hmtx", b"loca", b"maxp", b"prep"
# A cmap up to its only subtable, and one that has no characters (OpenType 1.9, cmap, Format 12).
CMAP_FRONT = struct.pack(">4HI", 0, 1, 3, 10, 12)
_NO_CHARACTERS = CMAP_FRONT + struct.pack(">2H3I", 12, 0, 16, 0, 0)


def _records(font: bytes) -> List[Tuple[Any, ...]]:
    """The tag, the checksum, the offset and the length of each table."""
    count = struct.unpack_from(">H", font, 4)[0]
    return [struct.unpack_from(">4s3I", font, 12 + 16 * number) for number in range(count)]


def tables_of(font: bytes) -> Dict[bytes, bytes]:
    """The tables of an accepted font."""
    return {tag: font[offset:offset + length] for tag, _, offset, length in _records(font)}


def is_sound(font: bytes) -> bool:
    """Whether each table is listed once and lies in the file. Raises `struct.error` where the directory does not."""
    records = _records(font)
    return (len({tag for tag, *_ in records}) == len(records)
            and all(offset + length <= len(font) for _, _, offset, length in records))


def prepared(font: bytes, cmap: bytes = _NO_CHARACTERS) -> bytes:
    """A font without the tables that a PDF file does not need, and with no characters, or with those of another cmap.
    All its cuts join, whatever the tables of the font were that it lacks. It may be accepted where the font is not.
    Raises `struct.error` or `ValueError` where the directory is malformed: all else is for fontcut to find."""
    kept = [record for record in _records(font) if record[0] in DRAWN]
    if len({record[0] for record in kept}) < len(kept):
        raise ValueError("a table is listed twice")
    begin = 12 + 16 * (len(kept) + 1)
    # The font comes after the new directory and the cmap as it is. fontcut reads no sums.
    rows = [struct.pack(">4s3I", b"cmap", 0, begin, len(cmap))]
    rows += [struct.pack(">4s3I", tag, 0, offset + begin + len(cmap), length) for tag, _, offset, length in kept]
    return b"".join([font[:4], struct.pack(">H6x", len(rows)), *rows, cmap, font])


def _sum(data: bytes) -> int:
    """The checksum of whole words (OpenType 1.9, Calculating Checksums)."""
    total: int = sum(struct.unpack(f">{len(data) // 4}I", data))
    return total % (1 << 32)


def assembled(tables: Mapping[bytes, bytes]) -> bytes:
    """A font of tables, with right checksums. One of them is head."""
    log = len(tables).bit_length() - 1
    made = bytearray(struct.pack(">I4H", 0x10000, len(tables), 16 << log, log, 16 * len(tables) - (16 << log)))
    body, at = bytearray(), 12 + 16 * len(tables)
    for tag, data in sorted(tables.items()):
        if tag == b"head":
            data, head = data[:8] + bytes(4) + data[12:], at + len(body)
        padded = data + bytes(-len(data) % 4)
        made += struct.pack(">4s3I", tag, _sum(padded), at + len(body), len(data))
        body += padded
    made += body
    struct.pack_into(">I", made, head + 8, (0xB1B0AFBA - _sum(made)) % (1 << 32))
    return bytes(made)
