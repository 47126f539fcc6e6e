"""Cuts become a small font for a device, which does not join: fontTools renumbers the glyphs, and FreeType has to draw
each character as in the cuts."""
from __future__ import annotations

import argparse
import io
from typing import Dict, List, NamedTuple, Optional, Sequence, Tuple

import fontcut
import freetype
from fontcut_output import print_line, write
from fontTools.subset import Options, Subsetter
from fontTools.ttLib import TTFont
from fontTools.ttLib.tables._c_m_a_p import CmapSubtable

from .common import Refused, UsageError, codes_in
from .inputs import accepted
from .malformed import MALFORMED
from .replaced import check_name, check_read, check_unpacked

_KINDS = {fontcut.Form.LEAN: "lean", fontcut.Form.LAYOUT: "layout", fontcut.Form.VARIABLE: "variable"}
# The sizes at which hinted outlines are compared, in pixels an em.
_SIZES = 10, 13, 16, 24, 40
_LAST_OF_FORMAT_4 = 0xFFFF


class _Made(NamedTuple):
    """A font for a device: its bytes, and the new number of each glyph that it has, by the old one."""

    data: bytes
    numbers: Dict[int, int]


def _why_not(paths: Sequence[str], fonts: Sequence[bytes], refused: fontcut.Refused) -> str:
    """Why files are not joined: one is no cut, or two are cuts of two kinds, or of two fonts."""
    at = refused.file or 0
    forms = [fontcut.form(fonts[place]) for place in (0, at)]
    first, kind = (_KINDS.get(form, "full") for form in forms)
    if forms[1] is fontcut.Form.NO_CUT:
        return f"{paths[at]}: it is no cut"
    if first != kind:
        option = "" if first == "full" else f" --{first}"
        return (f"{paths[at]} is a {kind} cut, and {paths[0]} a {first} cut: cuts of one kind alone are joined; "
                f"fontcut subset{option} makes {first} cuts")
    return f"{paths[at]}: {refused.text}"


def _joined(paths: Sequence[str], fonts: Sequence[bytes]) -> Tuple[str, bytes]:
    """The kind of the cuts in files, and their join. A lean cut may be a full one too."""
    form, refused = fontcut.form(fonts[0]), None
    if form is fontcut.Form.NO_CUT:
        raise Refused(f"{paths[0]}: it is no cut")
    for kind in _KINDS.get(form, "full"), "full":
        try:
            return kind, fontcut.join(fonts, kind=kind)
        except fontcut.Refused as refusal:
            refused = refused or refusal
    assert refused is not None
    raise Refused(_why_not(paths, fonts, refused)) from refused


def _map_for_all(font: TTFont) -> None:
    """Gives a font a cmap of format 4, which all programs read, and keeps that of format 12 if it has more, and that of
    variation sequences."""
    mapped = font.getBestCmap() or {}
    short = CmapSubtable.newSubtable(4)
    short.platformID, short.platEncID, short.language = 3, 1, 0
    short.cmap = {code: name for code, name in mapped.items() if code <= _LAST_OF_FORMAT_4}
    is_more = len(short.cmap) < len(mapped)
    font["cmap"].tables = [short, *(table for table in font["cmap"].tables if is_more or table.format == 14)]


def _renumbered(cut: bytes, kind: str, hinting: bool, outline: bool) -> _Made:
    """A cut whose glyphs follow one another, with hints or without them, and with the outline of .notdef or without."""
    font = TTFont(io.BytesIO(cut), recalcBBoxes=False, recalcTimestamp=False)
    subsetter = Subsetter(Options(hinting=hinting, notdef_outline=outline, layout_features=["*"], legacy_kern=True,
                                  harfbuzz_repacker=False))
    subsetter.populate(gids=fontcut.kept_glyphs(cut, kind=kind), unicodes=codes_in(fontcut.codes(cut)))
    subsetter.subset(font)
    _map_for_all(font)
    made = io.BytesIO()
    font.save(made)
    return _Made(made.getvalue(), dict(subsetter.glyph_index_map))


def _drawn(face: freetype.Face, code: int, flags: int) -> Tuple[object, ...]:
    """How FreeType draws a character: the points of its outline, and its advance."""
    face.load_glyph(face.get_char_index(code), flags)
    outline = face.glyph.outline
    return outline.points, [tag & 3 for tag in outline.tags], outline.contours, face.glyph.advance.x


def _different(cut: bytes, made: bytes, hinting: bool) -> Optional[int]:
    """The first character that FreeType does not draw as in the cut: its outline in font units, and with hints also as
    these move it. Its own hinter is left out, which looks at other letters of a font too."""
    faces = [freetype.Face(io.BytesIO(data)) for data in (cut, made)]
    ways = [(0, freetype.FT_LOAD_NO_SCALE), *((size, freetype.FT_LOAD_NO_AUTOHINT) for size in _SIZES if hinting)]
    codes = list(codes_in(fontcut.codes(cut)))
    for size, flags in ways:
        for face in faces:
            face.set_pixel_sizes(0, size or _SIZES[0])
        for code in codes:
            one, other = (_drawn(face, code, flags) for face in faces)
            if one != other:
                return code
    return None


def _made(paths: Sequence[str], given: argparse.Namespace) -> _Made:
    """The font for a device that the cuts in files come to. Raises `Refused` where it is not drawn as these are."""
    kind, cut = _joined(paths, [accepted(path).data for path in paths])
    try:
        made = _renumbered(cut, kind, not given.no_hinting, given.notdef_outline)
        code = _different(cut, made.data, not given.no_hinting)
    except (*MALFORMED, freetype.FT_Exception) as error:
        raise Refused(f"{paths[0]}: it cannot be renumbered: {' '.join(str(error).split())}") from error
    if code is not None:
        raise Refused(f"{paths[0]}: FreeType would draw U+{code:04X} otherwise")
    return made


def run(given: argparse.Namespace) -> None:
    """Makes a font for a device."""
    *paths, out = given.files
    if not paths:
        raise UsageError("device takes CUT.. and OUT")
    check_name(out, is_packed=False)
    check_read(paths, [out], "another file as OUT")
    check_read(paths, [given.map] if given.map else [], "another file for --map")
    made = _made(paths, given)
    if not given.force:
        check_unpacked(out, [made.data])
    write(out, made.data)
    if given.map:
        lines: List[str] = [f"{old} {new}\n" for old, new in sorted(made.numbers.items())]
        write(given.map, "".join(lines).encode())
    print_line(f"{out}: {len(made.data)} bytes, {len(made.numbers)} glyphs")
