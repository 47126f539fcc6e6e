"""The slices that a command line asks for, with the orders of characters by use that it names; and the command
`fontcut-web slices`, which prints slices as the program reads them."""
from __future__ import annotations

import argparse
from collections import Counter
from typing import List, Sequence, Tuple

from fontcut_output import print_line, read

from . import pages
from .common import UsageError, need
from .inputs import accepted, read_pages
from .presets import characters_of
from .sequences import sequences_in, word_of
from .sets import (REST, Asked, Equal, asked, codes_of, divided, named_codes, range_words, sequences_of,
                   with_sequences)

# What names of pages end in, among the names of fonts.
_PAGES = ".html", ".htm", ".xhtml", ".txt"


def order_of(path: str) -> List[int]:
    """The characters of a file of text, in the order in which they first stand there."""
    try:
        return characters_of(read(path).decode("utf-8-sig"))
    except UnicodeDecodeError as error:
        raise UsageError(f"{path}: not UTF-8") from error


def counted(read: Sequence[pages.Page]) -> List[int]:
    """The characters of pages by how many pages show them, then by how often they do, then by their codes."""
    shown = [pages.shown(page.text) for page in read]
    places = Counter(letter for letters in shown for letter in letters)
    times = Counter(letter for page in read for letter in page.text)
    return list(map(ord, sorted(places, key=lambda letter: (-places[letter], -times[letter], letter))))


def fonts_and_slices(given: argparse.Namespace) -> Tuple[List[str], List[Asked]]:
    """The fonts that the words name, and the slices. Words that are names of pages are these for `pages:COUNT`."""
    found = [path for path in given.fonts if path.lower().endswith(_PAGES)]
    fonts = [path for path in given.fonts if path not in found]
    by_pages = any(word.startswith("pages:") for word in given.slices)
    if by_pages and not found:
        raise UsageError(f"pages:COUNT counts the characters of pages: name files that end in {', '.join(_PAGES)}")
    if found and not by_pages:
        raise UsageError(f"{found[0]}: pages are for --slices pages:COUNT")
    if not fonts:
        raise UsageError("no font is named")
    order = order_of(given.order) if given.order else []
    shown = read_pages(found)
    drawn = ["".join(map(chr, pair)) for pair in set().union(*(sequences_in(page.text) for page in shown))]
    wanted = [one._replace(sequences=drawn) if isinstance(one, Equal) else one
              for one in asked(given.slices, order, counted(shown))]
    if not wanted:
        raise UsageError("the list names no slice")
    if given.rest and REST in (name for one in wanted for name in one.names()):
        raise UsageError(f"two slices have the name {REST}")
    return fonts, wanted


def listed(codes: Sequence[int], wanted: Sequence[Asked]) -> List[str]:
    """The lines of slices of some characters, as the program reads them: a name and ranges in each, and variation
    sequences."""
    slices = with_sequences(divided(codes, wanted), sequences_of(wanted))
    return [f"{one.name} {', '.join([range_words(one.codes), *map(word_of, one.sequences)])}" for one in slices]


def run(given: argparse.Namespace) -> None:
    """Prints slices."""
    wanted = asked(given.slices, order_of(given.order) if given.order else [])
    if given.font:
        need("fontTools")
        codes = codes_of(accepted(given.font))
    else:
        codes = named_codes(wanted)
    for line in listed(codes, wanted):
        print_line(line)
