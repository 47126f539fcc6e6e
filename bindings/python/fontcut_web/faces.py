"""What a style sheet says of a font, which is what the tables `name`, `OS/2`, `head` and `fvar` of the font say
(OpenType 1.9)."""
from __future__ import annotations

import io
import os
from typing import Dict, NamedTuple, Tuple, Union

from fontTools.misc.textTools import Tag
from fontTools.ttLib import TTFont

from .malformed import MALFORMED

# The widths that usWidthClass stands for, from 1 on (CSS Fonts 4, 2.5).
_WIDTHS = "50%", "62.5%", "75%", "87.5%", "100%", "112.5%", "125%", "150%", "200%"
_ITALIC, _OBLIQUE = 0x001, 0x200


class Face(NamedTuple):
    """A font as a style sheet names it: the values of font-family, font-style, font-weight and font-stretch. Of a
    variable font a rule has ranges of these."""

    family: str
    style: str
    weight: Union[int, str]
    stretch: str

    def __str__(self) -> str:
        return f"{self.family}, {self.style}, {self.weight}, {self.stretch}"


def face_of(data: bytes, name: str) -> Face:
    """The face of a font. One without a name of its own has this one of a file, which may be no UTF-8."""
    font = TTFont(io.BytesIO(data), lazy=True)
    return Face(_family(font) or os.fsencode(name).decode("utf-8", "replace"), _style(font), _weight(font),
                _stretch(font))


def varying(data: bytes, face: Face) -> Face:
    """The face of a font that stays variable, whose default instance has this face: with the range of weights of the
    axis `wght`, of widths of `wdth`, and of slants of `slnt`, which counts the degrees the other way round (CSS Fonts
    4, `font-style`). No value of CSS is a range of `ital`."""
    axes = axes_of(data)
    if "wght" in axes:
        least, most = axes["wght"]
        face = face._replace(weight=_range(max(least, 1), min(most, 1000), ""))
    if "wdth" in axes:
        face = face._replace(stretch=_range(*axes["wdth"], "%"))
    if "slnt" in axes:
        least, most = axes["slnt"]
        face = face._replace(style=f"oblique {_range(-most, -least, 'deg')}")
    return face


def is_variable(data: bytes) -> bool:
    """Whether a font has axes."""
    return bool(axes_of(data))


def _axes(data: bytes) -> Dict[str, Tuple[float, float, float]]:
    """The least, the default and the greatest value of each axis of a font."""
    try:
        font = TTFont(io.BytesIO(data), lazy=True)
        axes = font["fvar"].axes if "fvar" in font else []
    except MALFORMED:
        axes = []
    return {str(axis.axisTag): (axis.minValue, axis.defaultValue, axis.maxValue) for axis in axes}


def axes_of(data: bytes) -> Dict[str, Tuple[float, float]]:
    """The least and the greatest value of each axis of a font."""
    return {tag: (least, most) for tag, (least, _, most) in _axes(data).items()}


def limits_in(data: bytes, tag: str, limit: Union[None, float, Tuple[float, float]]) -> Tuple[float, float]:
    """The values of an axis of a font that stay by a limit: a range, one value, or for `None` the default one."""
    default = default_place(data).get(tag, 0.0)
    at = default if limit is None else limit
    return at if isinstance(at, tuple) else (at, at)


def default_place(data: bytes) -> Dict[str, float]:
    """The default value of each axis of a font."""
    return {tag: default for tag, (_, default, _) in _axes(data).items()}


def _range(least: float, most: float, unit: str) -> str:
    """A range of CSS, which is one value where it has one alone."""
    ends = [f"{end + 0.0:g}{unit}" for end in (least, most)]  # no zero is below zero
    return ends[0] if ends[0] == ends[1] else " ".join(ends)


def _family(font: TTFont) -> str:
    try:
        return font["name"].getBestFamilyName() or ""
    except MALFORMED:
        return ""


def _number(font: TTFont, table: str, key: str, otherwise: int) -> int:
    """A number of a table, or another one where the table is not there, or is malformed."""
    try:
        return int(getattr(font[Tag(table)], key))
    except MALFORMED:
        return otherwise


def _style(font: TTFont) -> str:
    selection = _number(font, "OS/2", "fsSelection", 0)
    if selection & _OBLIQUE:
        return "oblique"
    return "italic" if selection & _ITALIC or _number(font, "head", "macStyle", 0) & 2 else "normal"


def _weight(font: TTFont) -> int:
    weight = _number(font, "OS/2", "usWeightClass", 400)
    # Some old fonts have 1 to 9 there, by which the hundreds are meant.
    return min(1000, 100 * weight if weight < 10 else weight) or 400


def _stretch(font: TTFont) -> str:
    width = _number(font, "OS/2", "usWidthClass", 5)
    return _WIDTHS[width - 1] if 1 <= width <= len(_WIDTHS) else "100%"
