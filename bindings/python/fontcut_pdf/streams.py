"""The bytes of streams. They are read only where they are needed, and no more of them than there may be: a short stream
can unpack into any number of bytes (ISO 32000-1, 7.4)."""
from __future__ import annotations

import base64
import zlib
from typing import Iterable, Iterator, List, Sequence

from pikepdf import Array, Name, Stream

from .common import MALFORMED, Unclear
from .limits import MOST_OF_PROGRAM

# How many bytes one byte can unpack into.
_RATIOS = {"/FlateDecode": 1032, "/Fl": 1032, "/ASCII85Decode": 4, "/A85": 4, "/ASCIIHexDecode": 1, "/AHx": 1,
           "/RunLengthDecode": 64, "/RL": 64, "/LZWDecode": 2560, "/LZW": 2560}
_FLATE, _ASCII85 = ("/FlateDecode", "/Fl"), ("/ASCII85Decode", "/A85")
_PIECE = 1 << 14


def _pieces(data: bytes) -> Iterator[bytes]:
    return (data[at:at + _PIECE] for at in range(0, len(data), _PIECE))


def _inflated(packed: Iterable[bytes]) -> Iterator[bytes]:
    """What comes out of pieces by Flate. Where they are damaged, that is for qpdf to say."""
    unpacking = zlib.decompressobj()
    try:
        for piece in packed:
            yield from _pieces(unpacking.decompress(piece))
    except zlib.error:
        return


def _filters(stream: Stream) -> List[str]:
    found = stream.get("/Filter")
    names = list(found) if isinstance(found, Array) else [found]
    return [str(name) for name in names if isinstance(name, Name)]


def _ratio(filters: List[str]) -> int:
    """How many bytes one byte can unpack into by filters. Those that pictures have are not unpacked."""
    ratio = 1
    for name in filters:
        ratio *= _RATIOS.get(name, 1)
    return ratio


def _from_ascii85(data: bytes) -> bytes:
    try:
        return base64.a85decode(data.partition(b"~")[0].strip(), ignorechars=b" \t\n\r\v\f\0")
    except ValueError:
        return b""


def _counted(packed: bytes, filters: List[str], most: int) -> int:
    """How many bytes come out by filters: the exact number by Flate and ASCII85, with which nearly all streams are
    packed, and an upper bound by other ones. Any number above the most stands for what is more."""
    unpacked: Iterable[bytes] = _pieces(packed)
    while filters and filters[0] in _FLATE + _ASCII85:
        is_flate, filters = filters[0] in _FLATE, filters[1:]
        unpacked = _inflated(unpacked) if is_flate else _pieces(_from_ascii85(b"".join(unpacked)))
    count, ratio = 0, _ratio(filters)
    for piece in unpacked:
        count += len(piece) * ratio
        if count > most:
            break
    return count


def _afford(size: int) -> None:
    """Raises `MemoryError` where there is not so much memory. qpdf says of a stream then that it is damaged."""
    bytearray(size)


def raw(stream: Stream) -> bytes:
    """The bytes of a stream as they are packed."""
    try:
        packed: bytes = stream.read_raw_bytes()
        return packed
    except MALFORMED:
        _afford(8 * int(stream.get("/Length", 0)))
        raise


def unpacked(stream: Stream) -> bytes:
    """The bytes of a stream, of which there are not too many, as `check_length` says."""
    try:
        data: bytes = stream.read_bytes()
        return data
    except MALFORMED:
        packed = raw(stream)
        # Buffers of qpdf double as they grow.
        _afford(8 * (len(packed) + _counted(packed, _filters(stream), MOST_OF_PROGRAM)))
        raise


def check_length(what: str, streams: Sequence[Stream], most: int) -> None:
    """Raises `Unclear` where streams have more bytes together than are read of them."""
    packed = [(raw(stream), _filters(stream)) for stream in streams]
    if sum(len(data) * _ratio(filters) for data, filters in packed) <= most:
        return
    left = most
    for data, filters in packed:
        left -= _counted(data, filters, left)
        if left < 0:
            raise Unclear(f"{what} has more than {most} bytes")


def read(what: str, stream: Stream, most: int) -> bytes:
    """The bytes of a stream. Raises `Unclear` where there are more than are read."""
    check_length(what, [stream], most)
    return unpacked(stream)
