"""Subtables of variation sequences that are made to be read slowly: each has as many selectors, ranges or mappings as
may be, or more."""
import struct

from sequence_making import Lists, format14, u24_bytes
from sequence_reading import HEADER, LAST_CODE, MAPPING, MOST_PAIRS, RANGE, RECORD

FAR = 40_503  # odd, so that its multiples modulo 65,536 are all numbers


def sharing(selectors: int, size: int, part: bytes) -> bytes:
    """A subtable of so many selectors that share a list of items of this size, if there are any: of ranges, or of
    mappings."""
    place, items = HEADER + RECORD * selectors, len(part) // size
    fields = struct.pack(">II", *((place, 0) if size == RANGE else (0, place)) if items else (0, 0))
    records = b"".join(u24_bytes(selector) + fields for selector in range(selectors))
    listed = struct.pack(">I", items) + part if items else b""
    return struct.pack(">HII", 14, place + len(listed), selectors) + records + listed


def ranges_apart(count: int) -> bytes:
    """Ranges of one code each, none beside another."""
    return b"".join(u24_bytes(2 * at) + b"\0" for at in range(count))


def slow_sequences() -> dict[str, bytes]:
    """Such subtables by what they are. The last three have too many sequences, which are not read."""
    half, one = MOST_PAIRS // 2, u24_bytes(0x41)
    scattered = [(code, FAR * code % 65_536) for code in range(MOST_PAIRS)]
    return {
        "selectors without lists": sharing(LAST_CODE + 1, RANGE, b""),
        "selectors that share a mapping": sharing(MOST_PAIRS, MAPPING, one + b"\0\1"),
        "a thousand selectors that share as many mappings": sharing(
            1024, MAPPING, b"".join(u24_bytes(code) + struct.pack(">H", 1 + code) for code in range(1024))),
        "ranges and mappings that alternate": format14(Lists(
            0xFE00, [(2 * at, 0) for at in range(half)], [(2 * at + 1, 1 + at % 65_535) for at in range(half)])),
        "mappings to glyphs far apart": format14(Lists(0xFE00, [], scattered)),
        "one mapping too many": format14(Lists(0xFE00, [], [*scattered, (MOST_PAIRS, 1)])),
        "selectors that share long ranges": sharing(LAST_CODE + 1, RANGE, ranges_apart(half)),
        "selectors that share long mappings": sharing(
            LAST_CODE + 1, MAPPING, b"".join(u24_bytes(code) + b"\0\1" for code in range(half))),
    }
