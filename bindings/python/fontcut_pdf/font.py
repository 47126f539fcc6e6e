"""A font of a PDF file (ISO 32000-1, 9.6 to 9.10): its program, what is shown in it, its widths and its texts."""
from __future__ import annotations

import hashlib
import re
import struct
from dataclasses import dataclass, field
from functools import cached_property
from typing import Dict, Iterable, Iterator, List, Optional, Sequence, Set, Tuple

import fontcut
import pikepdf
from pikepdf import Array, Dictionary, Name, Object, Pdf, Stream, String

from .common import Id, Number, Outcome, Refused, Unclear, copied, is_written, place
from .content import strictly
from .limits import MOST_OF_MAP, MOST_OF_PROGRAM, MOST_OF_TEXTS, MOST_WORK
from .simple import Subtables, glyphs_of_bytes, subtables_of
from .streams import check_length, raw, read, unpacked
from .tables import DRAWN, prepared, tables_of

# The flag of a font whose characters are not those of Latin letters (ISO 32000-1, 9.8.2).
_SYMBOLIC = 4
# How many texts one ToUnicode may state: twice what there are glyphs.
_MOST_STATED = 2 * 0x10000


class Reading:
    """What has been read of one file, and what may still be. A short file can ask for the same work again and again."""

    def __init__(self) -> None:
        self.left = MOST_WORK
        self.texts: Dict[Id, Optional[Dict[int, bytes]]] = {}

    def spend(self, count: int) -> None:
        """Raises `Refused` where a file asks for too much."""
        self.left -= count
        if self.left < 0:
            raise Refused(f"its fonts have more than {MOST_WORK} widths and texts")

    def texts_of(self, pdf: Pdf, to_unicode: Object) -> Optional[Dict[int, bytes]]:
        """The text that ToUnicode states for each glyph, or None where it has other things than texts of single glyphs
        and ranges."""
        if to_unicode.objgen not in self.texts or not to_unicode.is_indirect:
            try:
                with strictly(pdf):
                    self.texts[to_unicode.objgen] = _stated_texts(to_unicode, self)
            except Unclear:
                self.texts[to_unicode.objgen] = None
        return self.texts[to_unicode.objgen]


class Program:
    """An embedded font program.

    stream    where it stands
    size      the bytes that it takes in its file, packed as it is there
    kind      `lean cut`, `lean cut for PDF` for one of a prepared font, `cut`, `no cut` for another font that is
              accepted, as it is or prepared, or why it is none of these
    """

    def __init__(self, stream: Stream):
        self.stream, self.size = stream, len(raw(stream))
        try:
            self.kind = _kind(read("a font program", stream, MOST_OF_PROGRAM))
        except Unclear:
            self.kind = "refused: too large"

    @property
    def is_lean(self) -> bool:
        """Whether it is a lean cut."""
        return self.kind in ("lean cut", _PREPARED)

    def read(self) -> bytes:
        """Its bytes."""
        return unpacked(self.stream)

    @cached_property
    def lean(self) -> bytes:
        """The lean cut that a cut comes to."""
        cut = self.read()
        return cut if self.is_lean else fontcut.cut(cut, fontcut.codes(cut), kind="lean")

    @cached_property
    def subtables(self) -> Optional[Subtables]:
        """What its cmap has for the bytes of simple fonts."""
        return subtables_of(self.read())


_PREPARED = "lean cut for PDF"


def _kind(data: bytes) -> str:
    try:
        if fontcut.is_cut(data, kind="lean"):
            return _PREPARED if set(tables_of(data)) <= {*DRAWN, b"cmap"} else "lean cut"
        return "cut" if fontcut.form(data) in (fontcut.Form.CURRENT, fontcut.Form.OLD) else "no cut"
    except fontcut.Refused as refusal:
        return "no cut" if _is_accepted_prepared(data) else f"refused: {refusal.text}"


def _is_accepted_prepared(data: bytes) -> bool:
    """Whether a program is accepted without the tables that a PDF file does not need, of which it may have none."""
    try:
        fontcut.check(prepared(data))
    except (fontcut.Refused, struct.error, ValueError):
        return False
    return True


class Programs:
    """The programs of a file, each once."""

    def __init__(self) -> None:
        self._by_stream: Dict[Id, Program] = {}
        self._by_bytes: Dict[bytes, Program] = {}

    def of(self, stream: Stream) -> Program:
        """The program of a stream. That of two streams is one where their bytes are the same, packed alike."""
        known = self._by_stream.get(stream.objgen)
        if known is None:
            said = copied(stream.stream_dict, "/Length").unparse(resolved=True)
            digest = hashlib.sha256(raw(stream)).digest() + said
            known = self._by_bytes.get(digest) or Program(stream)
            self._by_stream[stream.objgen] = self._by_bytes[digest] = known
        return known


@dataclass(eq=False)
class Font:
    """A font of a PDF file: where it stands, and what is shown in it.

    places    the dictionaries that name it, and by which key
    page      the first page that has it, from 1; 0 where no page has it
    shown     sets of strings that are shown in it, each with the first page that does, by what names the set
    unclear   why it has to stay as it is, where that is known from the pages
    program   the embedded program, from when it is read
    shrunk    what became of it, if its program is the cut of another one
    """

    pdf: Pdf
    object: Object
    page: int
    places: List[Tuple[Object, Name]] = field(default_factory=list)
    shown: Dict[int, Tuple[int, Set[bytes]]] = field(default_factory=dict)
    unclear: Optional[str] = None
    program: Program = field(init=False)
    reading: Reading = field(default_factory=Reading)
    shrunk: Optional[Outcome] = None

    @property
    def name(self) -> str:
        """The name as it stands in a file: it may have any bytes, and those that are no letters stand as `#0A`."""
        name = self.object.get("/BaseFont")
        return str(name.unparse()[1:].decode()) if isinstance(name, Name) else "?"

    @property
    def is_subset(self) -> bool:
        """Whether its name says that it is a subset (ISO 32000-1, 9.6.4). Some programs name whole fonts so."""
        return re.match(r"[A-Z]{6}\+", self.name) is not None

    @property
    def descendant(self) -> Object:
        """The CIDFont of a composite font, and a simple font itself."""
        if self.object.get("/Subtype") == Name.Type0:
            return self.object.DescendantFonts[0]
        return self.object

    @property
    def descriptor(self) -> Object:
        """Its descriptor. A font that has none is not embedded, and all but `key` is asked of embedded fonts alone."""
        return self.descendant.get("/FontDescriptor")

    @property
    def key(self) -> Optional[str]:
        """The key of its descriptor at which the embedded program stands, or None."""
        descriptor = self.descriptor
        if not isinstance(descriptor, Dictionary):
            return None
        return next((key for key in ("/FontFile", "/FontFile2", "/FontFile3")
                     if isinstance(descriptor.get(key), Stream)), None)

    @property
    def kind(self) -> str:
        """What its program is: as that says, or `no TrueType font`."""
        return self.program.kind if "/FontFile2" in self.descriptor else "no TrueType font"

    @property
    def is_cut(self) -> bool:
        """Whether its program is a cut."""
        return "/FontFile2" in self.descriptor and (self.program.is_lean or self.program.kind == "cut")

    @property
    def map(self) -> Object:
        """The map from its numbers to the glyphs of its program: a stream, or the name Identity."""
        return self.descendant.get("/CIDToGIDMap", Name.Identity)

    @property
    def is_by_glyph(self) -> bool:
        """Whether its strings are glyph numbers of a TrueType program, or numbers that a stream maps to these."""
        return (self.object.get("/Subtype") == Name.Type0
                and self.object.get("/Encoding") in (Name("/Identity-H"), Name("/Identity-V"))
                and self.descendant.get("/Subtype") == Name.CIDFontType2
                and (self.map == Name.Identity or isinstance(self.map, Stream)) and "/FontFile2" in self.descriptor)

    @property
    def is_simple(self) -> bool:
        """Whether its strings are bytes, for which viewers look in a TrueType program."""
        return self.object.get("/Subtype") == Name.TrueType and "/FontFile2" in self.descriptor

    @property
    def is_plain(self) -> bool:
        """Whether such a font has nothing but glyph numbers from left to right, so that its dictionaries can be made
        anew."""
        return bool(self.object.get("/Encoding") == Name("/Identity-H") and self.map == Name.Identity)

    @property
    def is_of_no_collection(self) -> bool:
        """Whether its numbers are those of no collection of characters (ISO 32000-1, 9.7.3), by which programs would
        read them, and it says so, without which some draw nothing."""
        system = self.descendant.get("/CIDSystemInfo")
        return isinstance(system, Dictionary) and (system.get("/Registry"), system.get("/Ordering")) == (
            String("Adobe"), String("Identity"))

    def numbers(self) -> Dict[int, int]:
        """The first page that shows each number, of a font by glyph numbers."""
        found: Dict[int, int] = {}
        for page, strings in self.shown.values():
            odd = [len(string) for string in strings if len(string) % 2]
            if odd:
                raise Unclear(f"{place(page)} shows a string of {min(odd)} bytes, which is odd")
            text = b"".join(strings)
            # Pages come in their order, and what no page shows comes last.
            found.update(dict.fromkeys(set(struct.unpack(f">{len(text) // 2}H", text)).difference(found), page))
        return found

    def glyphs(self) -> Dict[int, int]:
        """The first page that shows each glyph, of a font by glyph numbers (ISO 32000-1, 9.7.4.2), and of a simple one
        each that viewers may find."""
        if self.is_simple:
            return self._glyphs_of_bytes()
        numbers = self.numbers()
        if not isinstance(self.map, Stream):
            return numbers
        with strictly(self.pdf):
            data = read("CIDToGIDMap", self.map, MOST_OF_MAP)
        self.reading.spend(len(data) // 2)
        mapped = struct.unpack(f">{len(data) // 2}H", data[:len(data) // 2 * 2])
        found: Dict[int, int] = {}
        for number, page in numbers.items():
            # Behind the end of the map some programs draw .notdef, and others the glyph of that number.
            found.setdefault(mapped[number] if number < len(mapped) else number, page)
        return found

    def _glyphs_of_bytes(self) -> Dict[int, int]:
        shown: Dict[int, int] = {}
        for page, strings in self.shown.values():
            shown.update(dict.fromkeys(set(b"".join(strings)).difference(shown), page))
        flags = self.descriptor.get("/Flags")
        if not isinstance(flags, int):
            raise Unclear("its descriptor has no Flags")
        return glyphs_of_bytes(self.object, bool(flags & _SYMBOLIC), self.program.subtables, shown)

    def widths(self, glyphs: Iterable[int]) -> Dict[int, Number]:
        """The widths that W has, and of each of these glyphs (ISO 32000-1, 9.7.4.3)."""
        stated: Dict[int, Number] = {}
        for first, row in _rows(list(self.descendant.get("/W", ()))):
            self.reading.spend(len(row))
            for glyph, width in enumerate(row, first):
                # Of two widths some programs take the first, and others the last.
                if stated.setdefault(glyph, width) != width:
                    raise Unclear(f"W has two widths of glyph {glyph}")
        found = {**dict.fromkeys(glyphs, self.descendant.get("/DW", 1000)), **stated}
        if not all(0 <= glyph <= 0xFFFF and is_written(width) for glyph, width in found.items()):
            raise Unclear("W is malformed")
        return {glyph: width or 0 for glyph, width in found.items()}

    def box(self) -> List[Number]:
        """The box of the descriptor."""
        sides = list(self.descriptor.get("/FontBBox", ()))
        if len(sides) != 4 or not all(map(is_written, sides)):
            raise Unclear("FontBBox is malformed")
        return [side or 0 for side in sides]

    def texts(self, glyphs: Iterable[int]) -> Optional[Dict[int, Optional[bytes]]]:
        """The texts that ToUnicode has of glyphs, in UTF-16, and None for each of these glyphs that it does not have
        (ISO 32000-1, 9.10.3). None in all where it has other things than texts of single glyphs and ranges."""
        found: Dict[int, Optional[bytes]] = dict.fromkeys(glyphs)
        if "/ToUnicode" not in self.object:
            return found
        stated = self.reading.texts_of(self.pdf, self.object.ToUnicode)
        if stated is None:
            return None
        self.reading.spend(len(stated))
        return {**found, **stated}


def _rows(parts: List[Object]) -> Iterator[Tuple[int, List[Number]]]:
    """The rows of W: the first glyph of each, and widths from there on. A row is a glyph and an array of widths, or the
    first and the last glyph of a range and its width."""
    at = count = 0
    while at < len(parts):
        row = parts[at:at + 3]
        length = 2 if len(row) > 1 and isinstance(row[1], Array) else 3
        glyphs = row[:length - 1]
        if len(row) < length or not all(isinstance(glyph, int) for glyph in glyphs) or glyphs != sorted(glyphs):
            raise Unclear("W is malformed")
        if not 0 <= glyphs[0] <= glyphs[-1] <= 0xFFFF:
            raise Unclear("W has widths of no glyph")
        widths = list(row[1]) if length == 2 else [row[2]] * (row[1] - row[0] + 1)
        yield row[0], widths
        at, count = at + length, count + len(widths)
        if count > 2 * 0x10000:
            # As with those of ToUnicode.
            raise Unclear("W has more widths than there are glyphs")


def _stated_texts(to_unicode: Object, reading: Reading) -> Dict[int, bytes]:
    """The text that ToUnicode states for each glyph."""
    check_length("ToUnicode", [to_unicode], MOST_OF_TEXTS)
    stated: Dict[int, bytes] = {}
    left = _MOST_STATED
    for instruction in pikepdf.parse_content_stream(to_unicode):
        for glyph, text in _texts_in(str(instruction.operator), list(instruction.operands)):
            left -= 1
            if left < 0:
                # A short file can state them all again and again.
                raise Unclear("ToUnicode has more texts than there are glyphs")
            if stated.setdefault(glyph, text) != text:
                raise Unclear(f"ToUnicode has two texts of glyph {glyph}")
    reading.spend(_MOST_STATED - left)
    return stated


def _texts_in(operator: str, operands: Sequence[Object]) -> Iterator[Tuple[int, bytes]]:
    """The glyphs and texts that an operator of ToUnicode ends."""
    size = {"endbfchar": 2, "endbfrange": 3}.get(operator, 0)
    if operator == "usecmap" or operator.startswith("endcid") or (size and len(operands) % size):
        raise Unclear("ToUnicode is not a list of texts")
    for at in range(0, len(operands) if size else 0, size or 1):
        glyphs, texts = range(_code(operands[at]), _code(operands[at + size - 2]) + 1), operands[at + size - 1]
        if not isinstance(texts, Array):
            # Only the last byte counts on, and bytes() raises where that goes beyond 255.
            text = bytes(texts)
            texts = [text[:-1] + bytes([text[-1] + step]) for step in range(len(glyphs))]
        if len(texts) != len(glyphs):
            raise Unclear("ToUnicode has other texts than glyphs")
        yield from zip(glyphs, map(bytes, texts))


def _code(string: Object) -> int:
    """A glyph number of two bytes."""
    return int(struct.unpack(">H", bytes(string))[0])
