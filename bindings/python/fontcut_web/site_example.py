"""Settings for a folder that has none, to copy: of its pages, and of its fonts, or of those of the system that its
pages name."""
from __future__ import annotations

import contextlib
import glob
import json
import os
import re
import subprocess
from typing import Dict, Iterable, Iterator, List, Sequence, Set, Tuple

import fontcut

from .common import Missing, MissingProgram, Refused, UsageError
from .faces import Face, face_of
from .inputs import accepted, read_pages
from .own_faces import Placed, called, faces_of
from .site_report import REPORT
from .site_pages import pages_of
from .site_settings import FILE, WORK, FontSettings, Settings, page_names
from .site_text import SiteFont, views
from .styles import sheets_of

# Of files of one face the first is named.
_ENDINGS = ".ttf", ".woff2", ".woff"
# Of the families of the system that pages name, fonts of these styles are named.
_STYLES = "Regular", "Book", "Bold"
_MOST_FONTS = 20


def _texts(folder: str, names: Sequence[str]) -> Tuple[List[str], List[Placed]]:
    """The texts of pages that may name families: style sheets, and styles of elements; and the rules by which they load
    fonts."""
    texts: List[str] = []
    faces: Dict[Placed, None] = {}
    for name in names:
        with contextlib.suppress(Refused, UsageError, OSError):
            page, = read_pages([os.path.join(folder, name)])
            sheets = sheets_of(page, os.path.join(folder, name))[0]
            texts += [*(sheet.text for sheet in sheets), *page.attributes.get("style", ())]
            faces.update(dict.fromkeys(faces_of(sheets)))
    return texts, list(faces)


def _inside(folder: str) -> List[str]:
    """The files in a folder that may be fonts, those first that are preferred, and none that was made by this command.
    """
    found = [path for ending in _ENDINGS
             for path in sorted(glob.glob(os.path.join(glob.escape(folder), "**", f"*{ending}"), recursive=True))]
    return [path for path in found if os.path.relpath(path, folder).split(os.sep)[0] != WORK
            and not os.path.exists(os.path.join(os.path.dirname(path), REPORT))]


def _is_named(family: str, styles: str) -> bool:
    """Whether a family stands in a text in small letters, and not within the name of another one."""
    return bool(re.search(rf"(?<![\w-]){re.escape(family.lower())}(?!\s*[\w-])", styles))


def _of_system(styles: str) -> List[str]:
    """The files of fonts of the system whose families stand in a text in small letters."""
    words = ["fc-list", "--format", "%{file}\t%{family[0]}\t%{style[0]}\n"]
    with contextlib.suppress(OSError):
        told = subprocess.run(words, stdin=subprocess.DEVNULL, capture_output=True, check=False).stdout
        rows = [row.split("\t") for row in told.decode("utf-8", "replace").splitlines()]
        return sorted(row[0] for row in rows if len(row) == 3 and row[2] in _STYLES and _is_named(row[1], styles))
    return []


def _faces(paths: Iterable[str]) -> Dict[Face, str]:
    """The fonts in files that fontcut takes and that are no cuts, by their faces."""
    found: Dict[Face, str] = {}
    for path in paths:
        with contextlib.suppress(Refused, fontcut.Refused, OSError):
            font = accepted(path)
            if len(found) < _MOST_FONTS and fontcut.form(font.data) is fontcut.Form.NO_CUT:
                found.setdefault(face_of(font.data, os.path.basename(path)), path)
    return found


def _lines_of(face: Face, path: str, styles: str, family: str) -> Iterator[str]:
    """The lines of a font, which style sheets call by a family, if that is not its own."""
    is_named = family or _is_named(face.family, styles)
    unnamed = "" if is_named else ", which no style sheet of a page names yet"
    yield ""
    yield f"[[font]]  # {face.family}, {face.style}, {face.weight}{unnamed}"
    yield f"file = {json.dumps(path, ensure_ascii=False)}"
    if family.lower() not in ("", face.family.lower()):
        yield f"family = {json.dumps(family, ensure_ascii=False)}"


def _undrawn(settings: Settings, names: Sequence[str], fonts: Sequence[FontSettings]) -> Set[str]:
    """The files of fonts in whose weight, style and family no page draws text, as far as that is known."""
    with contextlib.suppress(Refused, UsageError, OSError, MissingProgram, Missing):
        every = [SiteFont(font, os.path.basename(font.file), accepted(font.file), set(names)) for font in fonts]
        shown = views(settings._replace(fonts=list(fonts)), every, pages_of(settings)).pages
        return {font.file for font, pages in zip(fonts, shown) if not pages} if any(shown) else set()
    return set()


def example(folder: str) -> Iterator[str]:
    """The lines of settings for a folder."""
    settings = Settings(folder, [])
    try:
        names = page_names(settings)
    except UsageError:
        names = []
    texts, own = _texts(folder, names)
    styles = "\n".join(texts).lower()
    inside = {face: os.path.relpath(path, folder).replace(os.sep, "/")
              for face, path in _faces(_inside(folder)).items()}
    fonts = inside or _faces(_of_system(styles))
    yield f"# Settings to copy to {os.path.join(folder, FILE)}. Pages that are there now: {len(names)}."
    yield "# fontcut-web site --help has all settings."
    yield f"pages = {json.dumps(settings.pages)}"
    paths = {path: os.path.join(folder, path) for path in fonts.values()}
    families = {path: (called(whole, own, folder, paths.values()) or [""])[0] for path, whole in paths.items()}
    undrawn = _undrawn(settings, names, [FontSettings(whole, family=families[path]) for path, whole in paths.items()])
    for face, path in fonts.items():
        if paths[path] in undrawn:
            yield from ("", f"# {face.family}, {face.style}, {face.weight}, in which no page draws text: {path}")
        else:
            yield from _lines_of(face, path, styles, families[path])
    if not fonts:
        yield from ("", "[[font]]", 'file = "Sans.ttf"  # no font is here: write the path of one')
