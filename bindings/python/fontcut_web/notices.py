"""What a cut of a kind drops though its text needs it: the shaping of scripts, and the axes of a variable font."""
from __future__ import annotations

import io
from typing import Dict, Iterable, List, NamedTuple, Sequence, Set

import fontcut
from fontTools import unicodedata as properties
from fontTools.ttLib import TTFont

from .common import SHAPED
from .malformed import MALFORMED

# The scripts of what several scripts share, that of marks of any script, and the letter that shapers put below a mark
# which has none.
_SHARED, _INHERITED, _CIRCLE = ("Zinh", "Zyyy", "Zzzz"), "Zinh", 0x25CC


def _shaped(font: bytes, codes: Iterable[int]) -> List[str]:
    """The scripts of characters that a font shapes, of those whose text cannot be read otherwise."""
    by_script: Dict[str, List[int]] = {}
    for code in codes:
        by_script.setdefault(properties.script(chr(code)), []).append(code)
    opened = fontcut.Font(font)
    return [script for script in sorted(by_script)
            if script not in _SHARED and fontcut.lost(opened, by_script[script]).scripts]


class ShapedScript(NamedTuple):
    """A script that a font shapes, by its name: its letters and marks, and these with what it shares with others."""

    name: str
    own: Set[int]
    whole: Set[int]


def shaped_scripts(font: bytes, codes: Sequence[int]) -> List[ShapedScript]:
    """The scripts of characters that a font shapes. The first of these shares the marks of any script."""
    found: List[ShapedScript] = []
    for script in _shaped(font, codes):
        wanted = {script} if found else {script, _INHERITED}
        own = {code for code in codes if properties.script(chr(code)) == script}
        shared = {code for code in codes if wanted & properties.script_extension(chr(code))}
        circle = set() if found else {_CIRCLE}.intersection(codes)
        found.append(ShapedScript(str(properties.script_name(script)), own, own | shared | circle))
    return found


def dropped(name: str, font: bytes, codes: Iterable[int], kind: str) -> List[str]:
    """The lines that are said of a cut of a font for some characters, of a kind."""
    scripts = [] if kind in SHAPED else list(map(properties.script_name, _shaped(font, codes)))
    try:
        opened = TTFont(io.BytesIO(font), lazy=True)
        axes = [axis.axisTag for axis in opened["fvar"].axes] if "fvar" in opened and kind != "variable" else []
    except MALFORMED:
        # A table that fontTools does not read has no axes.
        axes = []
    said = [f"{name} shapes {', '.join(scripts)}, which a {kind} cut drops: take --layout"] if scripts else []
    return said + ([f"{name} varies {', '.join(axes)}: take --variable, or --quiet"] if axes else [])
