"""A small font with variation sequences, and the sequences that cuts of it have, by the second reading."""
import os
from typing import Mapping

from checks import HANAZONO, PYTHON, check, read, run
from font_cutting import sequences, whole_map
from sequence_reading import Pair

# Of Debian's package fonts-hanazono, which has each sequence as a mapping of its own.
LARGE = f"{HANAZONO}/HanaMinA.ttf"
# A text with a sequence, for which the font has another glyph than for the character alone, and the selector and the
# character of the sequence.
TEXT, PAIR = "\u845b\U000e0100\u57ce\u5e02", (0xE0100, 0x845B)
SMALLER = """
import sys
from fontTools.subset import Subsetter
from fontTools.ttLib import TTFont
font, subsetter = TTFont(sys.argv[1], lazy=True), Subsetter()
subsetter.populate(unicodes=[0x20, 0x61, 0x845B, 0x57CE, 0x5E02])
subsetter.subset(font)
font.save(sys.argv[2])
"""

# Glyphs by selectors and characters.
Sequences = Mapping[Pair, int]


def is_made_small(path: str) -> bool:
    """Makes a small font of a blank, `a` and the characters of the text, with all sequences of these, if the package is
    there that has the large one."""
    if not os.path.exists(LARGE):
        return False
    status, _, err = run(PYTHON, "-c", SMALLER, LARGE, path)
    check("a small font with sequences", status == 0, err)
    return status == 0


def sequences_of(path: str) -> Sequences:
    """The sequences of the font in a file, with their glyphs."""
    found: Sequences = sequences(read(path))
    return found


def kept_of(path: str, codes: str, *pairs: Pair) -> Sequences:
    """The sequences that a cut of the font in a file has for these characters and sequences: those of the glyphs of
    both."""
    known, glyphs = sequences_of(path), whole_map(read(path))
    kept = {*(glyphs[ord(code)] for code in codes), *(known[pair] for pair in pairs)}
    return {pair: glyph for pair, glyph in known.items() if glyph in kept}
