"""The variable fonts that tests take: those that are installed, and static ones that are made variable. Also sets of
their codes, and settings of their axes."""
import os
import random
import struct
from functools import cache
from typing import Sequence

from checks import DEJAVU, INTER, KARLA, LIBERATION, NOTO, files_below, put, read, real_fonts, room, skip
from font_changing import with_tables
from font_cutting import Ranges, ranges_of
from font_joining import file_refusal
from font_reading import table, u16
from variable_making import made_variable

FONTS = "/usr/share/fonts"
# Debian's packages with variable fonts, and the folder of each.
PACKAGES = {"fonts-inter-variable": INTER, "fonts-karla": KARLA}
# Fonts of several scripts that are made variable.
STATIC = {
    DEJAVU: ("fonts-dejavu-core", "DejaVuSans-Bold"), LIBERATION: ("fonts-liberation2", "LiberationSerif-Italic"),
    NOTO: ("fonts-noto-core", "NotoNaskhArabic-Regular NotoSerifDevanagari-Regular NotoSerifKhmer-Regular"),
}

Setting = dict[str, float]  # values of axes by their tags


def has_gvar(path: str) -> bool:
    """Whether a file is a font with a `gvar`; no more of it is read than needed."""
    with open(path, "rb") as opened:
        header = opened.read(12)
        return header[:4] in (b"\0\1\0\0", b"true") and len(header) == 12 and any(
            opened.read(16)[:4] == b"gvar" for _ in range(u16(header, 4)))


@cache
def variable_fonts() -> list[str]:
    """The paths of the installed variable fonts that are accepted without their variations."""
    for package, folder in PACKAGES.items():
        if not os.path.isdir(folder):
            skip(f"the fonts of {os.path.basename(folder)}", f"Debian's package {package} is not installed")
    paths = [os.path.join(FONTS, name) for name in files_below(FONTS) if name.lower().endswith(".ttf")]
    return [path for path in paths if has_gvar(path) and not file_refusal(read(path))]


@cache
def fonts() -> list[str]:
    """The paths of variable fonts: installed ones, some of these without HVAR, and static ones made variable."""
    made = {path: with_tables(read(path), {b"HVAR": None}) for path in variable_fonts()[-3:]}
    made.update({path: made_variable(random.Random(path), read(path)) for path in real_fonts(STATIC)})
    paths = [os.path.join(room(), f"made {os.path.basename(path)}") for path in made]
    for path, font in zip(paths, made.values()):
        put(path, font)
    print(f"{len(variable_fonts())} variable fonts, and {len(made)} that are made")
    return [*variable_fonts(), *paths]


def sets_of(chance: random.Random, codes: Sequence[int]) -> list[Ranges]:
    """Sets of some codes of a font: neighbours, any, and those of Latin."""
    first = chance.randrange(max(len(codes) - 40, 1))
    latin = [code for code in codes if code < 0x100]
    some = codes[first:first + 40], chance.sample(codes, min(40, len(codes))), latin
    return [ranges_of(part) for part in some if part]


def axes_of(font: bytes) -> dict[str, tuple[float, float, float]]:
    """The least, the default and the greatest value of each axis."""
    axes, found = table(font, b"fvar"), {}
    for at in range(u16(axes, 8)):
        tag, *values = struct.unpack_from(">4s3i", axes, u16(axes, 4) + u16(axes, 10) * at)
        found[tag.decode()] = (values[0] / 65536, values[1] / 65536, values[2] / 65536)
    return found


def settings_of(chance: random.Random, font: bytes) -> list[Setting]:
    """Settings of the axes: the defaults; of each axis its ends and a value between; of all axes at once the same."""
    axes = axes_of(font)
    found: list[Setting] = [{}]
    for tags in [[tag] for tag in axes] + [list(axes)] * (len(axes) > 1):
        found += [{tag: axes[tag][end] for tag in tags} for end in (0, 2)]
        found.append({tag: round(chance.uniform(axes[tag][0], axes[tag][2]), 2) for tag in tags})
    return found
