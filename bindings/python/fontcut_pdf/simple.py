"""Which glyphs viewers may find for bytes in simple fonts (ISO 32000-1, 9.6.6.4); plain content is in `plain`.

Viewers look for the glyph of a byte in several ways: by the character of its name in the encoding, by the code of that
in MacRoman, by the byte itself. What any of these finds is taken. Where what the standard names first finds nothing,
viewers go by the names of glyphs, and the font is left as it is."""
from __future__ import annotations

import struct
from typing import Callable, Dict, Iterable, List, Mapping, Optional, Sequence, Tuple

import fontcut
from pikepdf import Dictionary, Name, Object

from .common import MALFORMED, Unclear
from .tables import CMAP_FRONT, is_sound, prepared, tables_of

# The platform and the encoding of subtables of cmap (OpenType 1.9, cmap): of symbols, of MacRoman, and of variations.
_SYMBOLS, _MAC, _VARIATIONS = (3, 0), (1, 0), (0, 5)
# Where the codes of symbols begin.
_BEGINS = 0, 0xF000, 0xF100, 0xF200
# Characters of which a name may mean either (ISO 32000-1, annex D).
_ALIKE = ("\u2126\u03a9", "\u2206\u0394", "\xb5\u03bc", "\xa4\u20ac", "\xa0 ", "\xad-", "\u2215\u2044", "\xb7\u2219",
          "\xaf\u02c9")
# How many subtables are looked into. Fonts have two to five.
_MOST_SUBTABLES = 16
# The bytes of WinAnsiEncoding that stand for a bullet.
_BULLETS = 0x7F, 0x81, 0x8D, 0x8F, 0x90, 0x9D
# Where StandardEncoding is not ASCII, with blanks for bytes without a character.
_STANDARD = {0x27: "’", 0x60: "‘", **dict(enumerate(
    "¡¢£⁄¥ƒ§¤'“«‹›ﬁﬂ –†‡· ¶•‚„”»…‰ ¿ `´ˆ˜¯˘˙¨ ˚¸ ˝˛ˇ—                Æ ª    ŁØŒº     æ   ı  łøœß", 0xA1))}

# The glyphs that a subtable of cmap has for codes, by its platform and its encoding.
Subtables = Dict[Tuple[int, int], Dict[int, int]]


def _standard(byte: int) -> str:
    letter = _STANDARD.get(byte, chr(byte) if byte < 0x7F else " ")
    return letter if byte == 0x20 else letter.strip(" ")


def _win_ansi(byte: int) -> str:
    return "•" if byte in _BULLETS else bytes([byte]).decode("cp1252")


def _mac_roman(byte: int) -> str:
    return bytes([byte]).decode("mac_roman")


_ENCODINGS: Dict[Optional[str], Callable[[int], str]] = {
    None: _standard, "/WinAnsiEncoding": _win_ansi, "/MacRomanEncoding": _mac_roman}


def _encoding(font: Object) -> Optional[str]:
    """The name of the encoding of a font, or None where it has none."""
    held = font.get("/Encoding")
    if isinstance(held, Dictionary):
        if len(held.get("/Differences", ())) > 0:
            raise Unclear("its encoding names glyphs")
        held = held.get("/BaseEncoding")
    if held is None:
        return None
    if not isinstance(held, Name) or str(held) not in _ENCODINGS:
        raise Unclear("its encoding is not WinAnsi or MacRoman")
    return str(held)


def _characters(letters: Iterable[str]) -> List[int]:
    """The characters that are meant where one of these is."""
    return sorted({ord(other) for letter in letters if letter
                   for other in next((row for row in _ALIKE if letter in row), letter)})


def _mac_codes(characters: Iterable[int]) -> List[int]:
    """The codes of characters in MacRoman."""
    return [code for character in characters for code in chr(character).encode("mac_roman", "ignore")]


def _codes(byte: int) -> List[int]:
    """The codes by which viewers may look for a byte in a subtable."""
    characters = _characters(letter_of(byte) for letter_of in _ENCODINGS.values())
    return [*characters, *_mac_codes(characters), *(begin + byte for begin in _BEGINS)]


def _found(program: bytes, subtable: bytes, codes: Sequence[int]) -> Dict[int, int]:
    """The glyphs that a subtable of cmap has for codes. Formats 4 and 12 are for fontcut."""
    kind = struct.unpack_from(">H", subtable)[0]
    if kind == 0:
        found = {code: subtable[6 + code] for code in codes if code < 256}
    elif kind == 6:
        first, count = struct.unpack_from(">2H", subtable, 6)
        row = struct.unpack_from(f">{count}H", subtable, 10)
        found = {code: row[code - first] for code in codes if first <= code < first + count}
    elif kind in (4, 12):
        found = dict(zip(codes, fontcut.glyphs(prepared(program, CMAP_FRONT + subtable), codes)))
    else:
        raise ValueError(f"a subtable of format {kind}")
    return {code: glyph for code, glyph in found.items() if glyph}


def subtables_of(program: bytes) -> Optional[Subtables]:
    """What each subtable of the cmap of a program has for the codes by which viewers may look for bytes, or None where
    it is malformed or odd."""
    codes = sorted({code for byte in range(256) for code in _codes(byte)})
    found: Subtables = {}
    try:
        if not is_sound(program):
            return None
        cmap = tables_of(program).get(b"cmap", bytes(4))
        records = list(struct.iter_unpack(">2HI", cmap[4:4 + 8 * struct.unpack_from(">H", cmap, 2)[0]]))
        if len({record[:2] for record in records}) < len(records) or len(records) > _MOST_SUBTABLES:
            return None
        for platform, encoding, offset in records:
            if (platform, encoding) != _VARIATIONS:
                found[platform, encoding] = _found(program, cmap[offset:], codes)
    except (*MALFORMED, fontcut.Refused):
        return None
    return found


def _by_byte(byte: int, subtables: Subtables) -> bool:
    """Whether a viewer finds a glyph by a byte itself, or has no subtable for that."""
    if _SYMBOLS in subtables:
        return any(begin + byte in subtables[_SYMBOLS] for begin in _BEGINS)
    return byte in subtables.get(_MAC, {byte: 1})


def _by_name(letter: str, subtables: Subtables) -> bool:
    """Whether a viewer finds a glyph by the character of a name."""
    characters = _characters([letter])
    unicode = [found for (platform, encoding), found in subtables.items()
               if platform == 0 or (platform, encoding) in ((3, 1), (3, 10))]
    if unicode:
        return all(any(character in found for character in characters) for found in unicode)
    return any(code in subtables.get(_MAC, {}) for code in _mac_codes(characters))


def glyphs_of_bytes(font: Object, is_symbolic: bool, subtables: Optional[Subtables], shown: Mapping[int, int]
                    ) -> Dict[int, int]:
    """The first page that shows each glyph which viewers may find for bytes, by the first page that shows each byte."""
    encoding = _encoding(font)
    found: Dict[int, int] = {}
    if subtables is None:
        raise Unclear("its cmap is malformed or odd")
    is_by_byte = is_symbolic or encoding is None
    is_by_name = encoding is not None or not is_symbolic or not {_SYMBOLS, _MAC} & set(subtables)
    for byte, page in shown.items():
        is_found = not is_by_byte or _by_byte(byte, subtables)
        if not is_found or (is_by_name and not _by_name(_ENCODINGS[encoding](byte), subtables)):
            raise Unclear(f"a viewer may find the glyph of byte {byte} by its name alone")
        codes = _codes(byte)
        for glyph in (subtable[code] for subtable in subtables.values() for code in codes if code in subtable):
            found.setdefault(glyph, page)
    return found
