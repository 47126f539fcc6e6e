"""What the commands of `fontcut-pdf` do."""
from __future__ import annotations

import argparse
import io
import logging
import os
import sys
from collections import Counter
from contextlib import ExitStack, contextmanager
from typing import Dict, Iterator, List, Optional, Sequence, Tuple

import pikepdf
from fontcut_output import Progress, print_line, read, reason, write
from pikepdf import Pdf

from .common import Outcome, Refused, UsageError, line, place
from .extracting import extract
from .files import opened
from .merging import merge, not_kept
from .replaced import check_extracted, check_shrunk, is_pdf
from .shrinking import shrink
from .survey import fonts


# The first version of PDF in which objects may be packed together (ISO 32000-1, 7.5.7).
_WITH_STREAMS_OF_OBJECTS = "1.5"


def _saved(pdf: Pdf, version: str) -> bytes:
    """The bytes of a file of at least a version, whose objects are packed if that allows it. pikepdf ends the process
    where it cannot write to a file itself."""
    made, modes = io.BytesIO(), pikepdf.ObjectStreamMode
    mode = modes.generate if version >= _WITH_STREAMS_OF_OBJECTS else modes.preserve
    pdf.save(made, min_version=version, object_stream_mode=mode)
    return made.getvalue()


def _say(outcome: Outcome, file: str, page: int) -> str:
    size = f"{outcome.before} bytes" if outcome.after is None else f"{outcome.before} bytes, now {outcome.after}"
    return f"{file}: {place(page)}: {outcome.name}: {size}: {outcome.said}"


def _shrunk(source: str, hinting: bool) -> Tuple[List[Outcome], Optional[bytes]]:
    """What became of the fonts of a file, and the bytes of the smaller file, or None where there is none."""
    with _named([source]), opened(source) as pdf:
        outcomes, before = shrink(pdf, hinting), os.path.getsize(source)
        if all(outcome.after is None for outcome in outcomes):
            return outcomes, None
        data = _saved(pdf, pdf.pdf_version)
    if len(data) < before:
        return outcomes, data
    why = f"kept: shrunk, the file would have {len(data)} bytes of {before}"
    return [outcome if outcome.after is None else outcome._replace(after=None, said=why, expected=True)
            for outcome in outcomes], None


def _pairs(given: argparse.Namespace) -> List[Tuple[str, str]]:
    """The files that are shrunk, each with its OUT."""
    if given.folder is None:
        if len(given.files) != 2:
            raise UsageError("shrink takes IN and OUT, or FILES and --out DIR")
        return [(given.files[0], given.files[1])]
    pairs = [(source, os.path.join(given.folder, os.path.basename(source))) for source in given.files]
    several = [out for out, count in Counter(out for _, out in pairs).items() if count > 1]
    if several:
        raise UsageError(f"several of the files would become {several[0]}")
    os.makedirs(given.folder, exist_ok=True)
    return pairs


def _shrink_file(given: argparse.Namespace, source: str, out: str, which: str) -> None:
    """Shrinks one file, and says what became of its fonts: of those that are expected to be shrunk, or of all."""
    before = os.path.getsize(source)
    with Progress("fontcut-pdf") as progress:
        progress.say(f"reading {which}")
        outcomes, made = _shrunk(source, not given.no_hinting)
        data = read(source) if made is None else made
        if not given.force:
            check_shrunk(source, out, data)
        write(out, data)
    for outcome in outcomes:
        if given.report:
            print_line(_say(outcome, source, outcome.page))
        elif outcome.expected:
            print(f"fontcut-pdf: {_say(outcome, source, outcome.page)}", file=sys.stderr)
    if given.report:
        print_line(f"{out}: {os.path.getsize(out)} bytes of {before}{': kept' if made is None else ''}")


def _run_shrink(given: argparse.Namespace) -> int:
    """Shrinks files. Of several those that are refused are left out."""
    status, pairs = 0, _pairs(given)
    for number, (source, out) in enumerate(pairs, 1):
        try:
            _shrink_file(given, source, out, f"{number} of {len(pairs)} files")
        except Refused as refusal:
            print(f"fontcut-pdf: {refusal}", file=sys.stderr)
            status = 1
    return status


def _title(path: str) -> str:
    """The name of a file, as the outline says it."""
    name = os.fsencode(os.path.basename(path)).decode("utf-8", "replace")
    return name[:-4] if name.lower().endswith(".pdf") else name


def _take_output(given: argparse.Namespace) -> None:
    """Takes the first file of a merge for OUT, as it was written once, where -o names none. Raises `UsageError` where
    that is no file but OUT, or a PDF file."""
    if given.out is not None:
        return
    given.out, *given.files = given.files
    if not given.files:
        raise UsageError(f"merge has no file but {given.out}: write merge -o OUT {given.out}")
    if is_pdf(given.out):
        raise UsageError(f"{given.out} is a PDF file already, and merge would replace it: write merge -o OUT "
                         f"{given.out} .. to merge it, or merge -o {given.out} .. to replace it")


def _say_not_kept(lost: Dict[str, List[str]]) -> None:
    """Says what a merge does not keep, and of which files."""
    for what, paths in lost.items():
        more = f" and of {len(paths) - 1} more" if len(paths) > 1 else ""
        print(f"fontcut-pdf: not kept: the {what} of {paths[0]}{more}", file=sys.stderr)


def _run_merge(given: argparse.Namespace) -> int:
    _take_output(given)
    before = sum(map(os.path.getsize, given.files))
    pages: List[Tuple[str, int]] = []
    lost: Dict[str, List[str]] = {}
    with ExitStack() as stack:
        progress, sources = stack.enter_context(Progress("fontcut-pdf")), []
        for number, path in enumerate(given.files, 1):
            progress.say(f"reading {number} of {len(given.files)} files")
            with _named([path]):
                sources.append(stack.enter_context(opened(path)))
                for what in not_kept(sources[-1]):
                    lost.setdefault(what, []).append(path)
            pages += [(path, page) for page in range(1, len(sources[-1].pages) + 1)]
        progress.say(f"joining the fonts of {len(pages)} pages")
        with _named(given.files):
            pdf, outcomes = merge(sources, list(map(_title, given.files)), not given.no_hinting)
        progress.say(f"writing {len(pages)} pages")
        version = max(_WITH_STREAMS_OF_OBJECTS, *(source.pdf_version for source in sources))
        write(given.out, _saved(pdf, version))
    _say_not_kept(lost)
    if given.report:
        for outcome in outcomes:
            print_line(_say(outcome, *(pages[outcome.page - 1] if outcome.page else (given.out, 0))))
        print_line(f"{given.out}: {os.path.getsize(given.out)} bytes of {before}")
    return 0


def _run_fonts(given: argparse.Namespace) -> int:
    with _named([given.file]), opened(given.file) as pdf:
        for outcome in fonts(pdf):
            print_line(f"{place(outcome.page)}: {outcome.name}: {outcome.before} bytes: {outcome.said}")
    return 0


def _run_extract(given: argparse.Namespace) -> int:
    with _named([given.file]), opened(given.file) as pdf:
        found = [(os.path.join(given.folder, name), cut) for name, cut in extract(pdf)]
    if not given.force:
        check_extracted([path for path, _ in found])
    os.makedirs(given.folder, exist_ok=True)
    for path, cut in found:
        write(path, cut)
        print_line(f"{path}: {len(cut)} bytes")
    return 0


@contextmanager
def _named(paths: Sequence[str]) -> Iterator[None]:
    """Within it, a refusal names its file, or all files together where none of them is refused by itself."""
    try:
        yield
    except Refused as refusal:
        place_of = paths[refusal.file or 0] if refusal.file is not None or len(paths) == 1 else "all files together"
        raise Refused(f"{place_of}: {refusal}") from refusal


_TASKS = {"shrink": _run_shrink, "merge": _run_merge, "fonts": _run_fonts, "extract": _run_extract}


def run(given: argparse.Namespace) -> int:
    """Runs a command, and returns its exit status."""
    logging.disable()
    try:
        return _TASKS[given.command](given)
    except UsageError as error:
        print(f"fontcut-pdf: {error}", file=sys.stderr)
        return 2
    except Refused as refusal:
        print(f"fontcut-pdf: {refusal}", file=sys.stderr)
        return 1
    except MemoryError:
        print("fontcut-pdf: no memory", file=sys.stderr)
        return 1
    except (pikepdf.PdfError, pikepdf.DataDecodingError) as error:
        print(f"fontcut-pdf: {line(error)}", file=sys.stderr)
        return 1
    except OSError as error:
        print(f"fontcut-pdf: {reason(error)}", file=sys.stderr)
        return 3
    except KeyboardInterrupt:
        # The line of progress is gone, and no file is half written.
        os.write(2, b"\n")
        return 130
