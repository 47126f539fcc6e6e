"""The rules by which style sheets of pages load fonts themselves (CSS Fonts 4, `@font-face`)."""
from __future__ import annotations

import functools
import os
import re
from typing import Dict, Iterable, Iterator, List, NamedTuple, Optional, Sequence, Set, Tuple

from .rules import STRING, rules_of, unescaped
from .sets import some_of
from .styles import StyleSheet, parts_of

_RULE = "@font-face"
_ADDRESS = re.compile(rf"url\(\s*({STRING}|[^)\s]*)\s*\)", re.I)


class OwnFace(NamedTuple):
    """A rule: the family that it names, the addresses of the files that it loads, and whether it bounds their
    characters."""

    family: str
    addresses: Tuple[str, ...]
    is_bounded: bool


# A rule, with the path of its style sheet.
Placed = Tuple[str, OwnFace]


def _plain_path(path: str) -> str:
    """The path of a file without its ending: a font may be there as WOFF2, too."""
    return os.path.splitext(os.path.abspath(path))[0].casefold()


def _plain(value: str) -> str:
    """A string or a word of CSS as what it stands for."""
    value = value.strip()
    return unescaped(value[1:-1] if re.fullmatch(STRING, value) else value)


def _face(declarations: Sequence[str]) -> OwnFace:
    """The rule of these declarations."""
    parts = [one.partition(":") for one in declarations]
    said: Dict[str, str] = {name.strip().lower(): value for name, _, value in parts}
    addresses = map(_plain, _ADDRESS.findall(said.get("src", "")))
    return OwnFace(_plain(said.get("font-family", "")), tuple(addresses), "unicode-range" in said)


@functools.lru_cache(maxsize=None)
def _faces(sheet: str) -> List[OwnFace]:
    """The rules of a style sheet, which many pages have."""
    if _RULE not in sheet.lower():
        return []
    return [_face(rule.declarations) for rule in rules_of(sheet) if rule.selectors.prelude.lower() == _RULE]


def faces_of(sheets: Sequence[StyleSheet]) -> List[Placed]:
    """The rules of style sheets."""
    return [(sheet.path, face) for sheet in sheets for face in _faces(sheet.text)]


def _loaded(address: str, sheet: str, folder: str, fonts: Sequence[str]) -> Optional[str]:
    """The one of these fonts, without its ending, that an address of a style sheet loads: that file, or if none is, the
    only one that is called so, for the file may be copied elsewhere."""
    host, path = parts_of(address)
    base = folder if path.startswith("/") else os.path.dirname(sheet)
    found = _plain_path(os.path.join(base, path.lstrip("/")))
    if found in fonts and not host:
        return found
    called = [one for one in fonts if os.path.basename(one) == os.path.basename(found)]
    return called[0] if len(called) == 1 else None


def called(file: str, faces: Iterable[Placed], folder: str, files: Iterable[str]) -> List[str]:
    """The families by which style sheets of a site in a folder load the font in one of these files."""
    own, fonts = _plain_path(file), sorted(set(map(_plain_path, files)))
    return list(dict.fromkeys(face.family for sheet, face in faces if face.family and own in (
        _loaded(address, sheet, folder, fonts) for address in face.addresses)))


def told(file: str, family: str, faces: Iterable[Placed], folder: str, files: Iterable[str]) -> Iterator[str]:
    """What is said of the font in one of the files of a site in a folder, of this family, which style sheets of the
    site load by such rules."""
    own, fonts = _plain_path(file), sorted(set(map(_plain_path, files)))
    found: Dict[Tuple[str, bool], Set[str]] = {}
    for sheet, face in faces:
        if own in (_loaded(address, sheet, folder, fonts) for address in face.addresses):
            found.setdefault((face.family, face.is_bounded), set()).add(os.path.relpath(sheet, folder))
    for (name, is_bounded), sheets in sorted(found.items()):
        some, ending = some_of(sorted(sheets)), "" if len(sheets) > 1 else "s"
        if name and name.lower() != family.lower():
            yield f'{some} call{ending} this font "{name}": set family = "{name}"'
        bound = ", whose unicode-range is not kept" if is_bounded else ""
        its, rule = ("their", "those rules") if len(sheets) > 1 else ("its", "that rule")
        yield f"{some} load{ending} the whole font by an @font-face of {its} own{bound}: take {rule} away"
