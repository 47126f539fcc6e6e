"""Files that a command would replace, and that cannot be meant: those that it reads, whole fonts of cuts, and style
sheets and pages of others."""
from __future__ import annotations

import contextlib
import os
from typing import Iterable, Optional, Sequence

import fontcut
from fontcut_output import is_whole_font, read

from .common import KINDS, WOFF, WOFF2, UsageError, part

# What names end in of files of a site that are no fonts.
_NO_FONTS = frozenset(""".css .js .mjs .json .toml .txt .md .xml .svg .png .jpg .jpeg .gif .webp .html .htm
    .xhtml""".split())


def is_same(one: str, other: str) -> bool:
    """Whether two paths lead to one file, which is there."""
    with contextlib.suppress(OSError):
        return os.path.samefile(one, other)
    return False


def _belongs(cut: bytes, font: fontcut.Font, kind: str) -> bool:
    """Whether a file is a cut of a font, of a kind for which neither is refused."""
    with contextlib.suppress(fontcut.Refused):
        return fontcut.belongs(cut, font, kind=kind)
    return False


def _whole(path: str) -> Optional[fontcut.Font]:
    """The font in a file, if it has one that is no cut."""
    with contextlib.suppress(fontcut.Refused, OSError):
        font = fontcut.Font(read(path))
        return font if fontcut.form(font.data) is fontcut.Form.NO_CUT else None
    return None


def _is_packed(path: str) -> bool:
    """Whether a file is a WOFF or WOFF2 file."""
    with open(path, "rb") as file:
        return file.read(4) in (WOFF, WOFF2)


def check_font(source: str, font: fontcut.Font, out: str) -> None:
    """Raises `UsageError` where OUT is the font of which the font in a file is a cut. A cut that was packed is no cut
    when it is unpacked, so what is made of a packed font replaces no font but cuts."""
    whole = _whole(out) if os.path.isfile(out) else None
    if whole is None:
        return
    is_cut = fontcut.form(font.data) is not fontcut.Form.NO_CUT
    if is_cut and any(_belongs(font.data, whole, kind) for kind in KINDS):
        raise UsageError(f"{out} is the font, and {source} a cut of it: nothing was written")
    if _is_packed(source):
        raise UsageError(f"{out} is a font, and {source} may be a cut of it: --force writes")


def check_unpacked(out: str, fonts: Sequence[bytes]) -> None:
    """Raises `UsageError` where OUT has a font that is no cut, and is none of these, which a command makes of a file
    and can make again."""
    if is_whole_font(out) and read(out) not in fonts:
        raise UsageError(f"{out} is a font already, and no cut: name another file; --force replaces {out}")


def check_read(paths: Sequence[str], written: Iterable[str], instead: str = "another folder") -> None:
    """Raises `UsageError` where a file that is to be written is one of those that are read. It says what to name
    instead."""
    for out in filter(os.path.exists, written):
        if any(is_same(path, out) for path in paths):
            raise UsageError(f"{out} is read, and would be replaced: name {instead}")


def check_whole(written: Iterable[str]) -> None:
    """Raises `UsageError` where a file that is to be written is a font that is no cut."""
    for out in written:
        if is_whole_font(out):
            raise UsageError(f"{out} is a font already, and no cut: name another folder; --force replaces {out}")


def check_written(paths: Iterable[str]) -> None:
    """Raises `UsageError` where a style sheet or a page that is to be written would replace one of somebody else."""
    for path in filter(os.path.isfile, paths):
        if not part("sheet").is_written(read(path)):
            raise UsageError(f"{path} is not written by fontcut-web: name another folder; --force replaces {path}")


def check_name(out: str, is_packed: bool) -> None:
    """Raises `UsageError` for an OUT that would not be what its name says. It may be WOFF2 where it is packed."""
    front, ending = os.path.splitext(out)
    if ending.lower() in _NO_FONTS:
        raise UsageError(f"{out} would be a font, and its name says {ending}: name a file that ends in .ttf"
                         + (" or .woff2" if is_packed else ""))
    if ending.lower() not in ((".woff",) if is_packed else (".woff", ".woff2")):
        return
    packed = f", or a WOFF2 file, as {front}.woff2" if is_packed else ""
    raise UsageError(f"{out}: OUT is a TrueType file, as {front}.ttf{packed}")
