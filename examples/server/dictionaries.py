"""Cuts that are packed with another cut of the font, which the browser has, as a dictionary. RFC 9842, Compression
Dictionary Transport.

This needs Debian's package python3-zstandard; without it no cut is packed so.
"""
import base64
import hashlib
import re
import urllib.parse
from typing import Any, Dict, List, Optional, Tuple

import fontcut

try:
    import zstandard
    CAN_PACK = True
except ImportError:
    CAN_PACK = False

Environ = Dict[str, Any]  # of WSGI: texts, and some objects of the server

# What is longer is no dictionary, and is not packed with one: that would take a worker too long.
LONGEST = 2 << 20
LONGEST_ID = 1024  # characters, by RFC 9842
LEVEL = 7  # of zstd; higher ones take many times as long for a hundredth of the bytes
DCZ_BEGIN = bytes.fromhex("5e2a4d1820000000")  # of an answer in the coding `dcz`; the digest of the dictionary follows
VARY = [("Vary", "Accept-Encoding, Available-Dictionary")] if CAN_PACK else []


def can_serve(cut: bytes) -> bool:
    """Whether a cut may be packed, or be a dictionary."""
    return CAN_PACK and len(cut) <= LONGEST


def offer(cut: bytes, name: str, wanted: List[Tuple[int, int]], gids: List[int], kind: str) -> List[Tuple[str, str]]:
    """What tells a browser to keep a cut as a dictionary for other answers of the font, if it may. It sends the
    identifier back with each request, and that says how the cut is made again: no worker has to keep it."""
    words = ",".join(f"{first:X}-{last:X}" if first < last else f"{first:X}" for first, last in wanted)
    known = " ".join([kind, words, *([",".join(map(str, gids))] if gids else [])])
    if len(known) > LONGEST_ID or not can_serve(cut):
        return []
    # A path without folders is one beside the answer's own, wherever the application is mounted.
    return [("Use-As-Dictionary", f'match="{urllib.parse.quote(name)}*", id="{known}"')]


def known_to(environ: Environ, font: fontcut.Bytes) -> Optional[bytes]:
    """The cut of a font that the browser has as a dictionary, or None where it has none that is made again as it is
    there."""
    known = re.fullmatch(r'"(full|lean|layout|variable) ([0-9A-F,-]*)(?: ([0-9,]+))?"',
                         environ.get("HTTP_DICTIONARY_ID", ""))
    if not known or not re.search(r"(^|,)\s*dcz\s*(,|$)", environ.get("HTTP_ACCEPT_ENCODING", "")):
        return None
    try:
        gids = list(map(int, known[3].split(","))) if known[3] else None
        cut = fontcut.cut(font, fontcut.ranges([known[2]]), kind=known[1], gids=gids)
    except (ValueError, MemoryError, fontcut.FontcutError):
        return None
    digest = base64.b64encode(hashlib.sha256(cut).digest()).decode()
    return cut if environ.get("HTTP_AVAILABLE_DICTIONARY") == f":{digest}:" and can_serve(cut) else None


def packed(cut: bytes, known: bytes) -> bytes:
    """A cut in the coding `dcz`: packed by zstd with a dictionary."""
    raw = zstandard.ZstdCompressionDict(known, dict_type=zstandard.DICT_TYPE_RAWCONTENT)
    packer = zstandard.ZstdCompressor(level=LEVEL, dict_data=raw, write_dict_id=False)
    return b"".join([DCZ_BEGIN, hashlib.sha256(known).digest(), packer.compress(cut)])
