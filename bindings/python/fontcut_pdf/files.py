"""PDF files are opened, and those refused that are damaged or encrypted."""
from __future__ import annotations

import io
import warnings
from contextlib import ExitStack, contextmanager
from typing import Iterator, List, Set, Tuple

import pikepdf
from pikepdf import Array, Dictionary, Object, Pdf

from .common import MALFORMED, Id, Refused, line
from .content import warned
from .limits import DEEPEST


class _File(io.BufferedReader):
    """A file that has no name in what qpdf says of it, for that is said already."""

    def __repr__(self) -> str:
        return "file"


@contextmanager
def opened(path: str) -> Iterator[Pdf]:
    """A PDF file that is neither damaged nor encrypted. Raises `Refused` for others, and `OSError` where it cannot be
    read. What qpdf would mend is refused too, for other programs may mend it in another way. The bytes of streams are
    not looked at here: what is damaged in one that is needed is found where it is read."""
    # pikepdf takes no path that is no text, but the file.
    with _File(io.FileIO(path)) as file, ExitStack() as stack:
        try:
            pdf = stack.enter_context(Pdf.open(file, attempt_recovery=False, inherit_page_attributes=False))
            if pdf.is_encrypted:
                raise Refused("it is encrypted")
            _refuse_deep_pages(pdf)
            told = _checked(pdf)
            if pdf.Root.Pages.get("/Count") != len(pdf.pages):
                told.append("the page tree does not have as many pages as it says")
        except pikepdf.PasswordError as error:
            raise Refused("it is encrypted") from error
        except MALFORMED as error:
            raise Refused(f"it is damaged: {line(error)}") from error
        if told:
            raise Refused(f"it is damaged: {told[0]}")
        yield pdf


def _refuse_deep_pages(pdf: Pdf) -> None:
    """qpdf calls itself for each node of the page tree below another (ISO 32000-1, 7.7.3), so that a very deep tree
    ends the process. The nodes are looked at in the order in which qpdf does it."""
    waiting: List[Tuple[Object, int]] = [(pdf.Root.get("/Pages"), 0)]
    seen: Set[Id] = set()
    while waiting:
        node, depth = waiting.pop()
        kids = node.get("/Kids") if isinstance(node, Dictionary) else None
        if depth > DEEPEST:
            raise Refused("its page tree is too deep")
        if isinstance(kids, Array) and node.objgen not in seen:
            # What stands in another object has no number of its own, and cannot hold itself.
            seen.update([node.objgen] if node.is_indirect else [])
            waiting += [(kid, depth + 1) for kid in reversed(list(kids))]


def _checked(pdf: Pdf) -> List[str]:
    """What qpdf finds wrong in the objects of a file, all of which it reads here."""
    try:
        with warnings.catch_warnings():
            warnings.simplefilter("error", UserWarning)
            len(pdf.objects)
            return warned(pdf)
    except MALFORMED as error:
        return [line(error)]
