"""Content streams that are plain (ISO 32000-1, 7.8.2); simple fonts are in `simple`.

Plain are those of nearly all pages: without a comment, a picture, or anything else of which there may be several
readings. They are read here in a tenth of the time that objects of qpdf take; all others are for qpdf."""
from __future__ import annotations

import re
from typing import FrozenSet, Iterable, List, Match, Optional, Sequence, Tuple

# The operators of content streams (ISO 32000-1, annex A). A stream that has another one may be read in several ways.
OPERATORS: FrozenSet[str] = frozenset("""b B b* B* BDC BMC BT BX c cm CS cs d d0 d1 Do DP EMC ET EX f F f* G g gs h i j
    J K k l m M MP n q Q re RG rg ri s S SC sc SCN scn sh T* Tc Td TD Tf Tj TJ TL Tm Tr Ts Tw Tz v w W W* y '
    \"""".split())
# Those that choose a font, show text, or keep the font and bring it back.
OF_TEXT: FrozenSet[str] = frozenset("""BT ET q Q Tf Tj TJ ' \"""".split())

# An operator and its operands.
Instruction = Tuple[str, Sequence[object]]


# What may come after a number or a name.
_END = rb"(?=[\t\n\r /\[\]()<>])"
_NUMBER = rb"[+-]?(?:[0-9]{1,9}(?:\.[0-9]{0,15})?|\.[0-9]{1,15})" + _END
_NAME = rb"/[A-Za-z0-9_.+*-]+" + _END
_ESCAPE = rb"\\(?:[nrtbf()\\]|[0-3][0-7]{2})"
_STRING = rb"(?:\([^()\\\r]*(?:" + _ESCAPE + rb"[^()\\\r]*)*\)|<[0-9A-Fa-f]*>)"
_SPACE = rb"[\t\n\r ]"
# In all of these there is one way to match what stands there, so that a search takes time that grows with it; and a
# match takes memory for each part, so that there are not too many.
_NUMBERS = rb"\[(?:" + _SPACE + rb"|" + _NUMBER + rb"){0,999}\]"
# A dictionary of marked content.
_MARKS = (rb"<<(?:" + _SPACE + rb"*" + _NAME + _SPACE + rb"*(?:" + _NAME + rb"|" + _NUMBER + rb")){1,99}" + _SPACE
          + rb"*>>")
_TEXTS = rb"\[(?:" + _SPACE + rb"|" + _NUMBER + rb"|" + _STRING + rb"){0,9999}\]"
# The end of an operator, and the space up to what comes next.
_DONE = rb"(?:" + _SPACE + rb"+|(?=[/\[(<])|\Z)"


def _one_of(operators: Iterable[str]) -> bytes:
    # Longer ones come first.
    escaped = [re.escape(operator.encode()) for operator in sorted(operators, reverse=True)]
    return rb"(?:" + rb"|".join(escaped) + rb")" + _DONE


_OTHER = (rb"(?:(?:" + rb"|".join((_NUMBER, _NAME, _NUMBERS, _MARKS)) + rb")" + _SPACE + rb"*){0,99}"
          + _one_of(OPERATORS - OF_TEXT))
_TEXT = rb"(?:" + _STRING + _SPACE + rb"*(?:Tj|')" + _DONE + rb"|" + _TEXTS + _SPACE + rb"*TJ" + _DONE + rb")"
# Text that is shown in one font, and operators that do not change it and have no strings.
_RUN = re.compile(rb"(?:" + _TEXT + rb"|" + _OTHER + rb"){1,1000}")
_TURN = re.compile(rb"(?:(" + _NAME + rb")" + _SPACE + rb"*" + _NUMBER + _SPACE + rb"*(Tf)|(BT|ET|q|Q))" + _DONE)
_STRINGS = re.compile(_STRING)
_ESCAPES = re.compile(_ESCAPE)
_LETTERS = {b"n": b"\n", b"r": b"\r", b"t": b"\t", b"b": b"\b", b"f": b"\f"}


def _escaped(escape: Match[bytes]) -> bytes:
    """The byte that stands after a backslash (ISO 32000-1, 7.3.4.2)."""
    letter = escape[0][1:]
    return bytes([int(letter, 8)]) if len(letter) == 3 else _LETTERS.get(letter, letter)


def _bytes_of(string: bytes) -> bytes:
    if string[:1] == b"(":
        return string[1:-1] if b"\\" not in string else _ESCAPES.sub(_escaped, string[1:-1])
    digits = string[1:-1].decode()
    return bytes.fromhex(digits if len(digits) % 2 == 0 else digits + "0")


def plainly(data: bytes) -> Optional[List[Instruction]]:
    """What operators of text do in content, or None where it is not plain. Names are bytes here with their slash, sizes
    are 0, and one `TJ` has the strings of all operators that show text in one font."""
    found: List[Instruction] = []
    at = len(data) - len(data.lstrip(b"\t\n\r "))
    while at < len(data):
        run = _RUN.match(data, at)
        if run:
            strings = _STRINGS.findall(run[0])
            found += [("TJ", [list(map(_bytes_of, strings))])] if strings else []
        else:
            run = _TURN.match(data, at)
            if run is None:
                return None
            found.append(("Tf", [run[1], 0]) if run[2] else (run[3].decode(), []))
        at = run.end()
    return found
