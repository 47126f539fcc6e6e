"""Variation sequences: a character and a selector, for which a font may have a glyph of its own (OpenType 1.9, cmap,
Format 14: Unicode variation sequences). Layout and variable cuts keep those whose glyphs they keep, others none."""
from __future__ import annotations

import io
import re
from typing import Iterable, Iterator, List, Match, Sequence, Set, Tuple

import fontcut

from .common import SHAPED, part

_SELECTORS = "\u180b-\u180d\u180f\ufe00-\ufe0f\U000e0100-\U000e01ef"
_SELECTOR, _PAIR = re.compile(f"[{_SELECTORS}]"), re.compile(f"([^{_SELECTORS}])([{_SELECTORS}])")
# Selectors of colour and of its absence, which are for the fonts of the system.
_OF_EMOJI = 0xFE0E, 0xFE0F
# How many sequences are named.
_NAMED = 5
# A word of a list that names a sequence, as the program has it.
_WORD = re.compile(r"(?<![^\s,;])U\+([0-9A-F]{1,6})\+([0-9A-F]{1,6})(?![^\s,;])", re.I)

Sequences = Set[Tuple[int, int]]


def without_selectors(codes: Iterable[int]) -> List[int]:
    """Codes that are no selectors: these are drawn by no glyph of their own."""
    return [code for code in codes if not _SELECTOR.match(chr(code))]


def plain(text: str) -> str:
    """A text without selectors."""
    return _SELECTOR.sub("", text)


def sequences_in(text: str) -> Sequences:
    """The sequences of a text."""
    return {(ord(letter), ord(selector)) for letter, selector in _PAIR.findall(text)}


def named_by(words: str) -> Tuple[str, List[str]]:
    """A list of ranges with words for sequences, as U+845B+E0100: the list with their characters alone, and the
    sequences. Words of no sequence stay."""
    found: List[str] = []

    def character_of(word: Match[str]) -> str:
        code, selector = int(word[1], 16), int(word[2], 16)
        if max(code, selector) > 0x10FFFF or not _SELECTOR.match(chr(selector)):
            return word[0]
        # A surrogate is no character of a text.
        found.extend([] if 0xD800 <= code <= 0xDFFF else [chr(code) + chr(selector)])
        return f"U+{word[1]}"

    return _WORD.sub(character_of, words), found


def word_of(sequence: str) -> str:
    """The word of lists for a sequence."""
    code, selector = map(ord, sequence)
    return f"U+{code:X}+{selector:X}"


def _sequences_of(font: bytes) -> Tuple[Sequences, Sequences]:
    """The sequences of a font, and those of them for which it has other glyphs than for the characters alone."""
    malformed = part("malformed").MALFORMED
    try:
        opened = part("woff").TTFont(io.BytesIO(font), lazy=True)
        tables = [table.uvsDict for table in opened["cmap"].tables if table.format == 14]
        every = {(code, selector): glyph
                 for table in tables for selector, some in table.items() for code, glyph in some}
        mapped = opened.getBestCmap() or {} if every else {}
    except malformed:
        return set(), set()
    return set(every), {one for one, glyph in every.items() if glyph not in (None, mapped.get(one[0]))}


def distinct(font: bytes) -> Sequences:
    """The sequences for which a font has other glyphs than for the characters alone."""
    return _sequences_of(font)[1]


def _listed(sequences: Iterable[Tuple[int, int]]) -> str:
    """Sequences as they are named."""
    words = [f"U+{code:04X} U+{selector:04X}" for code, selector in sorted(sequences)]
    more = f" and {len(words) - _NAMED} more" if len(words) > _NAMED else ""
    return f"the variation sequence{'s' if len(words) > 1 else ''} {', '.join(words[:_NAMED])}{more}"


def _kept(font: fontcut.Font, wanted: Sequences) -> Sequences:
    """The sequences of these that layout and variable cuts of a font may keep: those that the program reads."""
    return {one for one in wanted if fontcut.variants(font, "".join(map(chr, one)))}


def told(text: str, fonts: Sequence[Tuple[str, fontcut.Font, str]], none_has: str = "no font has") -> Iterator[str]:
    """What is said of the sequences of a text, by these fonts with their names and the kinds of their cuts: which of
    them a cut draws in the plain form, and which no font has, in these words."""
    left = wanted = sequences_in(text)
    for name, font, kind in fonts if wanted else ():
        every, drawn = (wanted & some for some in _sequences_of(font.data))
        left, kept = left - every, _kept(font, drawn)
        lost = drawn - kept if kind in SHAPED else drawn
        if lost:
            hint = "" if lost - kept else ", and a layout cut keeps"
            yield f"{name} has {_listed(lost)}, which a {kind} cut drops{hint}: plain forms are drawn"
    lost = {one for one in left if one[1] not in _OF_EMOJI}
    if lost:
        yield f"{none_has} {_listed(lost)}"
