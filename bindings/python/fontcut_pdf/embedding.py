"""Lean cuts in PDF files: how fonts are written (ISO 32000-1, 9.7 to 9.10), and fonts embedded for a text or for
glyphs."""
from __future__ import annotations

import hashlib
import re
import struct
import unicodedata
import warnings
import zlib
from collections import Counter
from dataclasses import dataclass
from typing import Dict, FrozenSet, Iterable, List, Mapping, Optional, Sequence, Tuple

import fontcut
from pikepdf import Array, Dictionary, Name, Object, Pdf, Stream, String

from .common import Number
from .tables import prepared, tables_of


def postscript_name(font: bytes) -> str:
    """The name of a font for PostScript, name 6 of `name` (OpenType 1.9, name)."""
    table = tables_of(font).get(b"name", b"")
    if len(table) >= 6:
        count, storage = struct.unpack_from(">2H", table, 2)
        for at in range(6, min(6 + 12 * count, len(table) - 11), 12):
            platform, _, _, kind, length, offset = struct.unpack_from(">6H", table, at)
            text = table[storage + offset:storage + offset + length]
            if kind == 6 and text:
                return text.decode("latin-1" if platform == 1 else "utf-16-be", "replace")
    return "Font"


def _tag(program: bytes) -> str:
    """What begins the name of a font over a program that is made here: its bytes make the letters."""
    letters = "".join(chr(ord("A") + byte % 26) for byte in hashlib.sha256(program).digest()[:6])
    return f"{letters}+"


def tagged(name: str, program: bytes) -> Name:
    """A name with a subset tag (ISO 32000-1, 9.6.4), which is made from the bytes of the program."""
    return Name(f"/{_tag(program)}{re.sub(r'[^!-~]|[][()<>{}/%#]', '', without_tag(name)) or 'Font'}")


def is_tagged(name: str, program: bytes) -> bool:
    """Whether a name has the subset tag that is made from the bytes of a program. Other programs make other tags."""
    return name.startswith(_tag(program))


def without_tag(name: str) -> str:
    """A name of a font without its subset tag."""
    return re.sub(r"^/?([A-Z]{6}\+)?", "", name)


def program_stream(pdf: Pdf, data: bytes) -> Tuple[Stream, int]:
    """A stream for FontFile2 (ISO 32000-1, 9.9), and how many bytes it takes in a file."""
    stream, packed = Stream(pdf, b""), zlib.compress(data, 9)
    stream.write(packed, filter=Name.FlateDecode)
    stream.Length1 = len(data)
    return stream, len(packed)


def _written_widths(widths: Mapping[int, Number]) -> Tuple[Array, Number]:
    """W and DW (ISO 32000-1, 9.7.4.3): DW is the width that most glyphs have, and W has those of the others."""
    usual = Counter(widths.values()).most_common(1)[0][0] if widths else 1000
    rows: List[Tuple[int, List[Number]]] = []
    for glyph, width in sorted(widths.items()):
        if width != usual:
            if rows and glyph == rows[-1][0] + len(rows[-1][1]):
                rows[-1][1].append(width)
            else:
                rows.append((glyph, [width]))
    return Array([part for first, row in rows for part in (first, Array(row))]), usual


def to_unicode(pdf: Pdf, texts: Mapping[int, Optional[bytes]]) -> Optional[Stream]:
    """ToUnicode (ISO 32000-1, 9.10.3) for the texts of glyphs in UTF-16, or None where no glyph has one. A block has at
    most a hundred glyphs."""
    rows = [f"<{glyph:04X}> <{text.hex().upper()}>\n" for glyph, text in sorted(texts.items()) if text is not None]
    blocks = [rows[at:at + 100] for at in range(0, len(rows), 100)]
    if not rows:
        return None
    return Stream(pdf, "".join([
        "/CIDInit /ProcSet findresource begin\n12 dict begin\nbegincmap\n",
        "/CIDSystemInfo << /Registry (Adobe) /Ordering (UCS) /Supplement 0 >> def\n",
        "/CMapName /Adobe-Identity-UCS def\n/CMapType 2 def\n",
        "1 begincodespacerange\n<0000> <FFFF>\nendcodespacerange\n",
        *(f"{len(block)} beginbfchar\n{''.join(block)}endbfchar\n" for block in blocks),
        "endcmap\nCMapName currentdict /CMap defineresource pop\nend\nend\n"]).encode())


def descendant_font(pdf: Pdf, name: Name, descriptor: Object, widths: Mapping[int, Number]) -> Object:
    """A CIDFont by glyph numbers (ISO 32000-1, 9.7.4)."""
    written, usual = _written_widths(widths)
    system = Dictionary(Registry=String("Adobe"), Ordering=String("Identity"), Supplement=0)
    return pdf.make_indirect(Dictionary(
        Type=Name.Font, Subtype=Name.CIDFontType2, BaseFont=name, CIDSystemInfo=system, FontDescriptor=descriptor,
        DW=usual, W=written, CIDToGIDMap=Name.Identity))


def composite_font(pdf: Pdf, name: Name, descendant: Object, to_unicode: Optional[Object]) -> Object:
    """A Type 0 font (ISO 32000-1, 9.7.6)."""
    made = Dictionary(Type=Name.Font, Subtype=Name.Type0, BaseFont=name, Encoding=Name("/Identity-H"),
                      DescendantFonts=Array([descendant]))
    if to_unicode is not None:
        made.ToUnicode = to_unicode
    return pdf.make_indirect(made)


def _descriptor(pdf: Pdf, font: bytes, cut: bytes, name: Name) -> Object:
    """The descriptor of a cut (ISO 32000-1, 9.8), from `head`, `hhea`, `OS/2` and `post` of its font."""
    info, tables = fontcut.info(font), tables_of(font)
    os2, post = tables.get(b"OS/2", b""), tables.get(b"post", b"")
    units = max(1, info.units_per_em)
    ascent, descent, *box = (round(1000 * value / units) for value in (
        info.ascender, info.descender, info.x_min, info.y_min, info.x_max, info.y_max))
    weight = struct.unpack_from(">H", os2, 4)[0] if len(os2) >= 6 else 400
    # sCapHeight is there from version 2 on.
    has_height = len(os2) >= 90 and struct.unpack_from(">H", os2)[0] >= 2
    height = round(1000 * struct.unpack_from(">h", os2, 88)[0] / units) if has_height else ascent
    angle, fixed = (struct.unpack_from(">i4xI", post, 4) if len(post) >= 16 else (0, 0))
    # Bit 1: of fixed pitch; bit 3: not of the standard Latin characters alone; bit 7: italic.
    flags = 4 | (1 if fixed else 0) | (64 if angle else 0)
    return pdf.make_indirect(Dictionary(
        Type=Name.FontDescriptor, FontName=name, Flags=flags, FontBBox=Array(box),
        ItalicAngle=round(angle / 65536), Ascent=ascent, Descent=descent, CapHeight=height,
        # No table has the thickness of stems: an estimate from the weight.
        StemV=50 + (weight * weight) // 4225, FontFile2=program_stream(pdf, cut)[0]))


@dataclass
class Embedded:
    """A font in a PDF file.

    font      the Type 0 font, for the Font dictionary of a page's resources
    glyphs    the glyph of each character of the text for which it was embedded
    numbers   the glyphs for which it was embedded
    """

    font: Object
    glyphs: Dict[str, int]
    numbers: FrozenSet[int]

    def show(self, text: str) -> bytes:
        """The string that shows a text, as it stands before `Tj` in a content stream. Raises `ValueError` for a
        character that is not of the text for which the font was embedded."""
        lacking = [letter for letter in text if letter not in self.glyphs]
        if lacking:
            raise ValueError(f"not embedded: U+{ord(lacking[0]):04X}")
        return self.show_glyphs(self.glyphs[letter] for letter in text)

    def show_glyphs(self, glyphs: Iterable[int]) -> bytes:
        """The string that shows glyphs, as it stands before `Tj`, or within the array before `TJ`. Raises `ValueError`
        for a glyph for which the font was not embedded."""
        shown = list(glyphs)
        lacking = [glyph for glyph in shown if glyph not in self.numbers]
        if lacking:
            raise ValueError(f"not embedded: glyph {lacking[0]}")
        return b"<" + b"".join(b"%04X" % glyph for glyph in shown) + b">"


def _mapped(font: bytes, codes: Sequence[int]) -> Dict[int, int]:
    """The glyph of each character. Raises `ValueError` for a character that the font lacks."""
    glyphs = dict(zip(codes, fontcut.glyphs(font, codes)))
    lacking = [code for code, glyph in glyphs.items() if glyph == 0]
    if lacking:
        raise ValueError(f"the font lacks U+{lacking[0]:04X}")
    return glyphs


def _warn_unshaped(font: bytes, text: str) -> None:
    """Warns the caller of `embed` of a text that `show` draws otherwise than it is written."""
    backwards = (letter for letter in text if unicodedata.bidirectional(letter) in ("R", "AL"))
    letter = fontcut.unshaped(font, text) or next(backwards, None)
    if letter is not None:
        warnings.warn(f"show does not shape {fontcut.script_of(letter)}, and draws it from left to right: shape the "
                      "text, and embed its glyphs", fontcut.FontcutWarning, stacklevel=3)


def embed(pdf: Pdf, font: bytes, text: str = "", *, glyphs: Optional[Mapping[int, str]] = None) -> Embedded:
    """Embeds the lean cut of a font for the characters of a text, or for the glyphs of a text that was shaped.

    `glyphs` has the text of each glyph, as programs read it from a page: one character, several for a ligature, or ""
    for a glyph that adds nothing to the text, such as the second one of a letter. With glyphs alone the program has no
    character, and only the tables that a PDF file needs. Cuts with characters and cuts without them join in a merge.

    Where the font has one glyph for two of the characters, a program that reads the text of a page finds the first of
    them by its code. There is a `FontcutWarning` if the characters of `text` have to be shaped, which `show` does not
    do: their letters join or change places by the font, or are written from right to left. Raises `ValueError` for a
    character or a glyph that the font lacks, and `fontcut.Refused` for a font that is refused."""
    fontcut.check(font)
    shaped, codes = dict(glyphs or {}), sorted(set(map(ord, text)))
    cut = fontcut.cut(font if codes else prepared(font), codes, kind="lean", gids=list(shaped))
    _warn_unshaped(font, text)
    mapped = _mapped(font, codes)
    units, kept = max(1, fontcut.info(cut).units_per_em), sorted({*mapped.values(), *shaped})
    widths = {glyph: round(1000 * width / units) for glyph, width in zip(kept, fontcut.advances(cut, kept))}
    texts = {glyph: chr(code).encode("utf-16-be") for code, glyph in reversed(mapped.items())}
    texts.update((glyph, told.encode("utf-16-be")) for glyph, told in shaped.items() if told)
    name = tagged(postscript_name(font), cut)
    inner = descendant_font(pdf, name, _descriptor(pdf, font, cut, name), widths)
    made = composite_font(pdf, name, inner, to_unicode(pdf, texts))
    return Embedded(made, {chr(code): glyph for code, glyph in mapped.items()}, frozenset(kept))
