"""The program over fonts for characters and glyph numbers, beside the second reading, of each kind of cuts that has
them."""
import os
from typing import Optional, Sequence

from checks import DONE, PROGRAM, Ran, held, put, quiet, read, run, same, same_bytes
from font_cutting import ALL
from font_joining import file_refusal
from font_reading import Refusal
from glyph_cutting import EVERYTHING, CutKind, Wanted
from tried_kinds import WELL_MADE, YES

EXACTLY, CLOSED = "--no-layout-closure", "--force"  # of which the second changes nothing here


def option(cuts: CutKind) -> str:
    return f"--{cuts.name}"


def words_for(wanted: Wanted) -> list[str]:
    """The words of a line for what is wanted."""
    if wanted == EVERYTHING:
        return ["everything"]
    numbers = ["--gids", ",".join(map(str, sorted(wanted.glyphs)))] if wanted.glyphs else []
    codes = ["all"] if wanted.codes == ALL else [f"U+{first:X}-{last:X}" for first, last in wanted.codes]
    return ["--text", "", *numbers, *codes]


def subset(cuts: CutKind, path: str, out: str, wanted: Wanted, how: str = EXACTLY) -> Ran:
    return quiet("subset", option(cuts), how, path, out, *words_for(wanted))


def refusal_of(cuts: CutKind, file: bytes, how: str) -> Optional[Refusal]:
    """The first refusal of a font for a cut that is closed or not."""
    return file_refusal(file) or (cuts.exact_refusal if how == EXACTLY else cuts.closing_refusal)(file)


def made_as_read(cuts: CutKind, paths: Sequence[str], name: str, wanted: Wanted,
                 how: str) -> Optional[bytes]:
    """Checks a cut of a font, or its refusal, against the second reading; the paths are of the font and of OUT."""
    path, out = paths
    font = read(path)
    refusal = refusal_of(cuts, font, how)
    if refusal:
        line = f"fontcut: refused {refusal[0]} {refusal[1]}\n"
        same(f"{name}: refused", (1, b"", line.encode()), subset(cuts, path, out, wanted, how))
        return None
    same(f"{name}: subset", DONE, subset(cuts, path, out, wanted, how))
    made = cuts.exact_cut(font, wanted) if how == EXACTLY else cuts.closed_cut(font, wanted)
    same_bytes(f"{name}: the cut", made, held(out))
    return made


def of_itself(cuts: CutKind, name: str, folder: str, path: str, made: bytes) -> None:
    """Checks what holds of each cut: it has no finding, belongs to its font and to itself, and is its own cut."""
    out, again = os.path.join(folder, "of_itself.ttf"), os.path.join(folder, "again.ttf")
    put(out, made)
    same(f"{name}: check", WELL_MADE, run(PROGRAM, "check", out))
    same(f"{name}: it belongs to its font and to itself", (YES, YES),
         tuple(quiet("belongs", option(cuts), out, of) for of in (path, out)))
    same(f"{name}: its cut for everything", DONE, subset(cuts, out, again, EVERYTHING))
    same_bytes(f"{name}: is the same file", made, held(again))
