"""What content streams show (ISO 32000-1, 7.8.2 and 9.4): the strings, by the name of their font."""
from __future__ import annotations

import warnings
from contextlib import contextmanager
from typing import Dict, Iterator, List, Optional, Sequence, Set, Tuple

import pikepdf
from pikepdf import Array, ContentStreamInlineImage, Name, Object, Pdf, Stream, String

from .common import MALFORMED, Unclear, is_number, line
from .plain import OF_TEXT, OPERATORS, Instruction, plainly
from .limits import MOST_OF_CONTENT, MOST_OF_OTHER
from .streams import check_length, unpacked

# The strings that content shows in the font of each name, which stands here as a file has it: `/F#E9`.
Shown = Dict[bytes, Set[bytes]]


def warned(pdf: Pdf) -> List[str]:
    """What qpdf has warned of since this was asked last, a line each. A warning may quote bytes of the file that are no
    text."""
    try:
        return [line(warning) for warning in pdf.get_warnings()]
    except UnicodeDecodeError as error:
        return [line(error)]


@contextmanager
def strictly(pdf: Pdf) -> Iterator[None]:
    """Within it, whatever qpdf or pikepdf warns of raises `Unclear`, as what they raise does."""
    warned(pdf)
    try:
        with warnings.catch_warnings():
            warnings.simplefilter("error", UserWarning)
            yield
    except MALFORMED as error:
        raise Unclear(line(error.__cause__ or error)) from error
    told = warned(pdf)
    if told:
        raise Unclear(told[0])


def _strings(operator: str, operands: Sequence[object]) -> Iterator[bytes]:
    """The strings that an operator shows."""
    if len(operands) != (3 if operator == '"' else 1):
        raise Unclear(f"{operator} has {len(operands)} operands")
    parts = operands[-1:]
    if operator == "TJ" and isinstance(operands[0], (list, Array)):
        parts = list(operands[0])
    for part in parts:
        if isinstance(part, bytes):
            yield part
        elif isinstance(part, String):
            yield bytes(part)
        elif operator != "TJ" or not is_number(part):
            raise Unclear(f"{operator} has an operand that it should not have")


def streams_of(content: Object) -> List[Stream]:
    """The streams of the content of a page, or the stream of a form."""
    held = content if isinstance(content, Stream) else content.get("/Contents")
    found = list(held) if isinstance(held, Array) else [] if held is None else [held]
    if not all(isinstance(part, Stream) for part in found):
        raise Unclear("its content is no stream")
    return found


def shown(pdf: Pdf, content: Object) -> Tuple[Shown, int]:
    """The strings that a page, or a stream of content, shows in the font of each name, and how many bytes it has. `q`
    and `Q` keep the font and bring it back."""
    with strictly(pdf):
        streams = streams_of(content)
        check_length("its content", streams, MOST_OF_CONTENT)
        data = _joined(streams)
        instructions = plainly(data)
        if instructions is None and len(data) > MOST_OF_OTHER:
            raise Unclear(f"its content has more than {MOST_OF_OTHER} bytes, and comments or pictures")
        return strings_by_font(by_qpdf(content) if instructions is None else instructions), len(data)


def _joined(streams: Sequence[Stream]) -> bytes:
    """The bytes of the streams of a page, with a line end between them where there is none, as qpdf reads them."""
    parts: List[bytes] = []
    for stream in streams:
        if parts and not parts[-1].endswith(b"\n"):
            parts.append(b"\n")
        parts.append(unpacked(stream))
    return b"".join(parts)


def by_qpdf(content: Object) -> List[Instruction]:
    """The operators of text of any content, with their operands."""
    parsed = pikepdf.parse_content_stream(content if isinstance(content, Stream) else pikepdf.Page(content))
    instructions = [(str(instruction.operator), instruction) for instruction in parsed
                    if not isinstance(instruction, ContentStreamInlineImage)]
    unknown = next((operator for operator, _ in instructions if operator not in OPERATORS), None)
    if unknown:
        raise Unclear(f"unknown operator {unknown}")
    return [(operator, list(instruction.operands)) for operator, instruction in instructions if operator in OF_TEXT]


def strings_by_font(instructions: Sequence[Instruction]) -> Shown:
    """The strings that operators show, by the name of their font."""
    font: Optional[bytes] = None
    kept: List[Optional[bytes]] = []
    is_text = False
    found: Shown = {}
    for operator, operands in instructions:
        if operator in ("BT", "ET"):
            is_text = operator == "BT"
        elif operator in ("q", "Q") and is_text:
            raise Unclear(f"{operator} stands within text")
        elif operator == "q":
            kept.append(font)
        elif operator == "Q" and kept:
            font = kept.pop()
        elif operator == "Tf":
            font = _chosen(operands)
        elif operator in ("Tj", "TJ", "'", '"'):
            if font is None:
                raise Unclear("text is shown before a font is chosen")
            found.setdefault(font, set()).update(_strings(operator, operands))
    return found


def _chosen(operands: Sequence[object]) -> bytes:
    """The name of the font that Tf chooses."""
    if len(operands) == 2 and is_number(operands[1]):
        if isinstance(operands[0], bytes):
            return operands[0]
        if isinstance(operands[0], Name):
            name: bytes = operands[0].unparse()
            return name
    raise Unclear("Tf has operands that it should not have")
