"""What commands read: pages and fonts; and files of these for other programs."""
from __future__ import annotations

import contextlib
import difflib
import hashlib
import os
import tempfile
from typing import Iterable, Iterator, List, Optional, Sequence

import fontcut
from fontcut_output import read, write

from . import pages
from .common import FONTS, LAYOUT_TABLES, SHAPED, WOFF, WOFF2, Refused, UsageError, part
from .formats import format_of


def _is_font(data: bytes) -> bool:
    """Whether a file begins as fonts do: some of their first bytes are zero, which no text has."""
    return data[:4] in FONTS and b"\0" in data[:16]


def read_pages(paths: Sequence[str], order: str = "") -> List[pages.Page]:
    """The pages in files. Raises `UsageError` for a font, with the order that its command takes files in."""
    found: List[pages.Page] = []
    for path in paths:
        data = read(path)
        if _is_font(data):
            raise UsageError(f"{path} is a font, and no page{order}")
        try:
            found.append(pages.page_of(data))
        except Refused as refusal:
            raise Refused(f"{path}: {refusal}") from refusal
    return found


@contextlib.contextmanager
def refusing(path: str, data: bytes = b"") -> Iterator[None]:
    """Within it, a refusal names its file, and says what it is if that explains it."""
    try:
        yield
    except (fontcut.Refused, Refused) as refusal:
        what = format_of(data)
        raise Refused(f"{path}: {refusal}{': ' if what else ''}{what}") from refusal


def font_of(path: str) -> bytes:
    """The bytes of the font in a file, which may be a WOFF or WOFF2 file."""
    data = read(path)
    with refusing(path):
        unpacked: bytes = part("woff").unpacked(data) if data[:4] in (WOFF, WOFF2) else data
    return unpacked


def accepted(path: str) -> fontcut.Font:
    """The font in a file, which may be a WOFF or WOFF2 file."""
    data = font_of(path)
    with refusing(path, data):
        return fontcut.Font(data)


def sha256(data: bytes) -> str:
    """The digest of a file, as sha256sum prints it."""
    return hashlib.sha256(data).hexdigest()


def file_in(folder: str, name: str, data: bytes) -> str:
    """The path of a new file in a folder that has these bytes, which other programs read."""
    path = os.path.join(folder, name)
    with open(path, "wb") as out:
        out.write(data)
    return path


@contextlib.contextmanager
def as_file(path: str, font: fontcut.Font) -> Iterator[str]:
    """The path of a file of the font in a file: that file, or another one where it is packed."""
    if read(path) == font.data:
        yield path
        return
    with tempfile.TemporaryDirectory() as folder:
        unpacked = os.path.join(folder, f"{os.path.basename(path)}.ttf")
        write(unpacked, font.data)
        yield unpacked


def dropped_tables(words: Sequence[str], kind: Optional[str]) -> List[str]:
    """The layout tables that fonts are cut without, by lists of these. Raises `UsageError` for others, and for a kind
    that is named and has none."""
    tables = [tag.strip() for listed in words for tag in listed.split(",")]
    for tag in tables:
        if tag not in LAYOUT_TABLES:
            near = difflib.get_close_matches(tag.upper(), LAYOUT_TABLES, 1, 0.5)
            raise UsageError(f"--drop {tag}: the tables are {', '.join(LAYOUT_TABLES)}"
                             f"{f': did you mean {near[0]}?' if near else ''}")
    if tables and kind not in (None, *SHAPED):
        raise UsageError("--drop is for layout and variable cuts: others have no layout tables")
    return tables


def mapped(font: fontcut.Font, letters: Iterable[str]) -> List[int]:
    """The code points of the characters that a font maps, in ascending order."""
    codes = sorted(set(map(ord, letters)))
    absent = set(fontcut.missing(font, codes))
    return [code for code in codes if code not in absent]
