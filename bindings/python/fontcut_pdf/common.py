"""What the modules of the package share: errors, outcomes, and small questions about objects of PDF files."""
from __future__ import annotations

import copy
import re
import struct
from decimal import Decimal
from typing import Dict, Iterator, List, NamedTuple, Optional, SupportsAbs, Tuple, Union

import pikepdf
from pikepdf import Array, Dictionary, Name, Object, Pdf, Stream, String

Number = Union[int, float, Decimal]
# The number and the generation of an object, which name it in its file.
Id = Tuple[int, int]

# What pikepdf and readings of malformed objects raise. Where pikepdf warns in code of its own, and warnings are errors,
# Python raises a SystemError, whose cause is the warning.
MALFORMED = (pikepdf.PdfError, pikepdf.DataDecodingError, struct.error, AttributeError, IndexError, KeyError,
             OverflowError, RuntimeError, SystemError, TypeError, UserWarning, ValueError)

# What qpdf says where it gets no memory, for which it has no error of its own.
_OUT_OF_MEMORY = re.compile("bad_alloc|(?:out of|insufficient|not enough) memory|memory error", re.I)


class Refused(Exception):
    """A PDF file is refused: it is damaged or encrypted, has no embedded font, asks for more work than there may be, or
    has a signature or layers that may be hidden.

    page    the page that is refused, from 1; 0 where it is what no page shows, and None where it is the whole file
    file    of a merge, the place of the file among all, from 0, where that is known
    """

    def __init__(self, text: str, page: Optional[int] = None):
        super().__init__(text)
        self.page = page
        self.file: Optional[int] = None

    def __str__(self) -> str:
        text = super().__str__()
        return text if self.page is None else f"{place(self.page)} {text}"


class UsageError(Exception):
    """The words of the command line are wrong, and nothing was written."""


class Unclear(Exception):
    """What a part of a file says is not sure, and fonts that it uses stay as they are."""


class Outcome(NamedTuple):
    """What became of one font.

    page      the first page that has it, from 1; 0 where it is on no page, but on a hidden one or a button's icon
    name      its name, with the subset tag
    before    the bytes that its program takes in the file, packed as it is there
    after     those of the program that took its place, or None where it stays as it is
    said      in words: what was done, or why it stays
    expected  whether it stays although it is a font of the kind that takes part
    """

    page: int
    name: str
    before: int
    after: Optional[int]
    said: str
    expected: bool = False


def line(error: object) -> str:
    """What an error says, in one line, without the name that `opened` gives all files. Raises `MemoryError` if it says
    that there is no memory."""
    text = re.sub(r"^(?:WARNING: )?file(?:: | (?=\())", "", " ".join(str(error).split())) or type(error).__name__
    if _OUT_OF_MEMORY.search(text):
        raise MemoryError(text)
    return text


def place(page: int) -> str:
    """A page as it is named in messages."""
    return f"page {page}" if page else "what no page shows"


def is_number(thing: object) -> bool:
    return isinstance(thing, (int, float, Decimal)) and not isinstance(thing, bool)


def is_written(thing: object) -> bool:
    """Whether it is a number that can be written to a file, where none has an exponent (ISO 32000-1, 7.3.3), as Python
    writes very small and very large ones, and the 0 of 0.0000000 too, for which 0 is written."""
    if isinstance(thing, bool) or not isinstance(thing, (int, float, Decimal)):
        return False
    number: SupportsAbs[Number] = thing
    return abs(number) < 10 ** 9 and (thing == 0 or "E" not in str(thing).upper())


# How a value names another object, in what qpdf writes.
_REFERENCE = re.compile(rb"(?<![^\s\[<>])\d+ \d+ R(?![^\s\]<>/])")


def _odd_entries(dictionary: Object) -> List[Tuple[Name, Object]]:
    """The entries of a dictionary of which a key is no UTF-8, so that pikepdf cannot give it as text. It reads keys as
    names where they stand in an array."""
    inner = dictionary.unparse(resolved=True).strip()[len(b"<<"):-len(b">>")]
    keys = list(Object.parse(b"[" + _REFERENCE.sub(b"null", inner) + b"]"))[::2]
    return [(key, dictionary[key]) for key in keys]


def entries(dictionary: Object) -> List[Tuple[Name, Object]]:
    """The keys of a dictionary and their values. A key may have any bytes."""
    try:
        return [(Name(key), value) for key, value in dictionary.items()]
    except UnicodeDecodeError:
        return _odd_entries(dictionary)


def values(holder: Object, key: str) -> List[Object]:
    """The values of the dictionary at a key of another one, or none."""
    inner = holder.get(key)
    if not isinstance(inner, Dictionary):
        return []
    try:
        return [value for _, value in inner.items()]
    except UnicodeDecodeError:
        return [value for _, value in _odd_entries(inner)]


def copied(dictionary: Object, without: str = "") -> Object:
    """A dictionary with the same entries, but for one."""
    made = copy.copy(dictionary)
    if without in made:
        del made[without]
    return made


def names_in(tree: Optional[Object]) -> Dict[bytes, Object]:
    """The values of a name tree (ISO 32000-1, 7.9.6)."""
    found: Dict[bytes, Object] = {}
    waiting, seen = [tree], set()
    while waiting:
        node = waiting.pop()
        if isinstance(node, Dictionary) and node.objgen not in seen:
            seen.update([node.objgen] if node.is_indirect else [])
            waiting += list(node.get("/Kids", ()))
            row = list(node.get("/Names", ()))
            found.update((bytes(key), value) for key, value in zip(row[::2], row[1::2]) if isinstance(key, String))
    return found


def parts(thing: Object) -> List[Object]:
    """The objects that stand in an object, or that it names."""
    if isinstance(thing, Stream):
        thing = thing.stream_dict
    if isinstance(thing, Array):
        found = list(thing)
    elif isinstance(thing, Dictionary):
        found = [value for _, value in entries(thing)]
    else:
        found = []
    return [part for part in found if isinstance(part, Object)]


def dictionaries(pdf: Pdf) -> Iterator[Object]:
    """All dictionaries of a file but those of streams, those too that stand in other things."""
    waiting = list(pdf.objects)
    while waiting:
        thing = waiting.pop()
        if isinstance(thing, Dictionary):
            yield thing
        waiting += [part for part in parts(thing) if not part.is_indirect]
