"""The words of the command `fontcut-pdf`, and its help. They need no other package; `tasks` does the work."""
from __future__ import annotations

import argparse
import importlib
import sys
from importlib.util import find_spec
from typing import Any, Callable, Optional, Sequence

import fontcut
from fontcut_output import CommandParser

from .limits import (DEEPEST, MOST_CLASSES, MOST_OF_CONTENT, MOST_OF_OTHER, MOST_OF_PROGRAM, MOST_OF_TEXTS,
                     MOST_WORK)

INSTALL = "pip install 'fontcut[pdf]'"
_LIMITS = f"""\
Limits: unpacked, at most {MOST_OF_CONTENT >> 20} MiB of the content of a page, of a form or of a glyph are read, or
{MOST_OF_OTHER >> 20} MiB if it has comments or pictures; of a font {MOST_OF_PROGRAM >> 20} MiB, and of its ToUnicode \
{MOST_OF_TEXTS >> 20} MiB.
If there is more, the fonts in question stay as they are. A file is refused if its fonts have more than
{MOST_WORK // 1_000_000} million widths and texts, or if its page tree is more than {DEEPEST} nodes deep.
Of fonts of one name that do not join with each other, only the first {MOST_CLASSES} are compared with the others.

Exit status: 0 done; 1 a file is refused, and nothing was written; 2 usage error; 3 a file cannot be read or
written.
"""

_NOT_KEPT = """\
page labels, named destinations of links, form fields and their signatures, tags,
attachments, output intents and metadata. A file with layers that may be hidden is refused.
"""

_WHAT = """\
Works on PDF files whose fonts are lean cuts of fontcut: shrinks whole fonts to what the pages show, and joins the
fonts of several files when the files are merged. Pages look the same, and have the same text. OUT is replaced
atomically.

  fontcut-pdf shrink in.pdf out.pdf
  fontcut-pdf shrink invoices/*.pdf --out small
  fontcut-pdf merge -o all.pdf one.pdf two.pdf
"""

_SHRINK = """\
Fonts become lean cuts for the glyphs that the pages show, with only the tables that a PDF file needs; the pages stay
the same. This is done to whole fonts, and to subsets whose glyphs have kept their numbers: of composite fonts that are
used by glyph numbers (Identity-H or Identity-V), and of simple TrueType fonts with a standard encoding, which keep
their cmap and post. Subsets with glyph numbers of their own stay as they are. If it is not certain what a font shows,
it stays as it is, and is named. If OUT would not be smaller, it is a copy of IN, and the fonts are reported as kept. A
signed file is refused.

OUT may be IN, or what an earlier run wrote. Another PDF file at OUT is kept, which is a usage error, unless --force is
given. With --out each of FILES gets a file of its name in DIR, which is much faster than a call for each. Those that
are refused are named and left out, and the exit status is 1.
"""

_MERGE = f"""\
Writes the pages of all FILES to OUT, in order. Whole fonts are shrunk first, as by shrink. Fonts that are cuts of one
font become one font; other fonts that are byte for byte the same are stored once. Without -o the first of FILES is OUT,
and refused if it is a PDF file already. Simple fonts do not join.

Kept: pages with everything that belongs to them, including annotations and links to pages of their file; and
bookmarks (outlines), below an entry with the name of each file.
Not kept: {_NOT_KEPT}Titles and attachments that are not kept are named on standard error.
"""


_EXTRACT = """\
Writes each lean cut that FILE has embedded to a file in FOLDER, named like the font, and prints its name. Files of
these names are replaced; if one is a whole font, nothing is written without --force. Those that `fonts` calls lean cuts
for PDF join with each other, and the others with the lean cuts of fontcut.
"""


def _add_listings(commands: Any) -> None:
    """Adds the commands that write no PDF file."""
    raw = argparse.RawDescriptionHelpFormatter
    command = commands.add_parser("fonts", help="list the embedded fonts", epilog=_LIMITS, formatter_class=raw,
                                  description="Lists the embedded fonts, their bytes, and whether each is a lean cut.")
    command.add_argument("file", metavar="FILE")
    command = commands.add_parser("extract", help="write the lean cuts as font files", epilog=_LIMITS,
                                  formatter_class=raw, description=_EXTRACT)
    command.add_argument("file", metavar="FILE")
    command.add_argument("folder", metavar="FOLDER")
    command.add_argument("--force", action="store_true", help="replace whole fonts")


def _add_hinting(command: argparse.ArgumentParser) -> None:
    command.add_argument("--no-hinting", action="store_true",
                         help="drop the hints of fonts, which few viewers use, and with them up to half of the bytes; "
                              "by fontTools, in all files that are to be merged")


def _parser() -> argparse.ArgumentParser:
    raw = argparse.RawDescriptionHelpFormatter
    parser = argparse.ArgumentParser(prog="fontcut-pdf", description=_WHAT, formatter_class=raw,
                                     epilog=f"Not kept by merge: {_NOT_KEPT}\n{_LIMITS}")
    parser.add_argument("--version", action="version", version=f"fontcut-pdf {fontcut.__version__}")
    commands = parser.add_subparsers(dest="command", required=True, metavar="COMMAND", parser_class=CommandParser)
    command = commands.add_parser("shrink", help="make lean cuts of whole fonts, for what the pages show",
                                  usage="fontcut-pdf shrink [options] IN OUT\n"
                                        "       fontcut-pdf shrink [options] FILES.. --out DIR",
                                  description=_SHRINK, epilog=_LIMITS, formatter_class=raw)
    command.add_argument("files", metavar="FILES", nargs="+", help="IN and OUT, or with --out files that are shrunk")
    command.add_argument("--out", metavar="DIR", dest="folder", help="the folder for the smaller files")
    _add_hinting(command)
    command.add_argument("--report", action="store_true", help="say what became of each font")
    command.add_argument("--force", action="store_true", help="replace whatever stands at OUT")
    command = commands.add_parser("merge", help="put the pages of files into one, where fonts that join are one font",
                                  usage="fontcut-pdf merge [options] -o OUT FILES..", description=_MERGE,
                                  epilog=_LIMITS, formatter_class=raw)
    command.add_argument("-o", "--output", metavar="OUT", dest="out",
                         help="the file that is made; what stands there is replaced")
    command.add_argument("files", metavar="FILES", nargs="+")
    _add_hinting(command)
    command.add_argument("--report", action="store_true", help="say what became of each font")
    _add_listings(commands)
    return parser


def main(words: Optional[Sequence[str]] = None, install: str = INSTALL) -> int:
    """Runs the command, and returns its exit status. `install` is what to do where pikepdf is not there."""
    given = _parser().parse_args(words)
    if getattr(given, "no_hinting", False) and find_spec("fontTools") is None:
        print("fontcut-pdf: --no-hinting needs fontTools: apt install python3-fonttools, or pip install fonttools",
              file=sys.stderr)
        return 3
    try:
        run: Callable[[argparse.Namespace], int] = importlib.import_module(".tasks", __package__).run
    except ImportError as error:
        # A module that is there may not be loaded where there is little memory.
        is_there = not isinstance(error, ModuleNotFoundError)
        print(f"fontcut-pdf: {f'cannot import {error}' if is_there else f'needs {error.name}: {install}'}",
              file=sys.stderr)
        return 3
    return run(given)
