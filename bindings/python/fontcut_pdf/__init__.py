"""PDF files whose fonts are lean cuts: embeds, shrinks and joins fonts (ISO 32000-1, 9.7 to 9.10).

    import fontcut_pdf
    used = fontcut_pdf.embed(pdf, font, "Hello")       # for a page's resources: used.font
    content = b"BT /F 12 Tf " + used.show("Hello") + b" Tj ET"
    used = fontcut_pdf.embed(pdf, font, glyphs={43: "H", 1354: "ffi"})     # of shaped text, with the text of each
    content = b"BT /F 12 Tf " + used.show_glyphs([43, 1354]) + b" Tj ET"

    fontcut-pdf shrink [--report] [--force] IN OUT     fonts become lean cuts for the glyphs that the pages show
    fontcut-pdf merge [--report] -o OUT FILES..        the pages of all files; fonts that join become one font
    fontcut-pdf fonts FILE                             lists the embedded fonts
    fontcut-pdf extract [--force] FILE FOLDER          writes the lean cuts as font files

`python3 -m fontcut_pdf` runs the same command. pikepdf reads and writes the files. A font qualifies if it is a
composite font that is used by glyph numbers: a Type 0 font with the encoding Identity-H or Identity-V, over a
CIDFontType2. With such a font the text of a page is glyph numbers, or numbers that CIDToGIDMap maps to these, and every
cut keeps them, so no page changes. `shrink` also cuts simple TrueType fonts with a standard encoding. All other fonts
stay as they are, and so do subsets in which another program has numbered the glyphs anew.

OUT is replaced atomically. Without `--force`, `shrink` keeps a PDF file at OUT that is neither IN nor an output of this
command, and `extract` keeps whole fonts. Exit status: 0 done; 1 a file is refused, and nothing was written; 2 usage
error; 3 a file cannot be read or written. A file is refused if it is damaged or encrypted, has no embedded font, or
would take more work than the limits allow; by `shrink` if it is signed, and by `merge` if it has layers that may be
hidden; and if memory runs out. `fontcut-pdf --help` has the limits.
"""
from __future__ import annotations

import importlib
from typing import TYPE_CHECKING, Any

if TYPE_CHECKING:
    from .command import main
    from .common import Outcome, Refused
    from .embedding import Embedded, embed
    from .extracting import extract
    from .files import opened
    from .joining import join_fonts
    from .merging import merge
    from .shrinking import shrink
    from .survey import fonts

__all__ = ["Embedded", "Outcome", "Refused", "embed", "extract", "fonts", "join_fonts", "main", "merge", "opened",
           "shrink"]

# Where these names are imported from when they are asked for, so that the help of the command needs no pikepdf.
_PLACES = {"main": "command", "Outcome": "common", "Refused": "common", "Embedded": "embedding", "embed": "embedding",
           "extract": "extracting", "opened": "files", "join_fonts": "joining", "merge": "merging",
           "shrink": "shrinking", "fonts": "survey"}


def __getattr__(name: str) -> Any:
    if name not in _PLACES:
        raise AttributeError(f"module {__name__!r} has no attribute {name!r}")
    return getattr(importlib.import_module(f".{_PLACES[name]}", __name__), name)
