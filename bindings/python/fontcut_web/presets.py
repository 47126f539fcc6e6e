"""The slices that are known by name: the files of the folder lists, which the package for JavaScript has too."""
from __future__ import annotations

import functools
import json
import os
import re
from typing import Dict, List, NamedTuple, Tuple, TypedDict

import fontcut

from .common import codes_in

_FOLDER = os.path.join(os.path.dirname(os.path.abspath(__file__)), "lists")
# How the first slices of a language are made: by default so that a page loads few bytes.
SIZES = FEW_BYTES, FEW_FILES = "few-bytes", "few-files"
# How many slices a language has, and how many characters each of those has at least that follow the first ones.
PARTS, LEAST = 100, 50
# What an order ranks after the characters that it lists.
_IDEOGRAPHS = "U+3400-4DBF U+4E00-9FFF U+F900-FAFF U+20000-323AF"

# What languages.json says of a language: ranges, and counts of slices with how many characters each has.
_Said = TypedDict("_Said", {"signs": str, "few-bytes": List[Tuple[int, int]], "few-files": List[Tuple[int, int]]})


class Language(NamedTuple):
    """What is known of a language of thousands of characters: its signs, which each page has; its characters in the
    order of their use; and, by the name of each way, how many characters its first slices have."""

    signs: List[fontcut.Range]
    order: List[int]
    sizes: Dict[str, List[int]]


def _text(name: str) -> str:
    with open(os.path.join(_FOLDER, name), encoding="utf-8") as opened:
        return opened.read()


def _ranges(words: str) -> List[fontcut.Range]:
    """The ranges of a list of this package, ascending. A build writes the presets, so this needs no library."""
    rows: List[Tuple[str, str]] = re.findall(r"U\+([0-9A-F]+)(?:-([0-9A-F]+))?", words)
    return sorted(fontcut.Range(int(first, 16), int(last or first, 16)) for first, last in rows)


def _lines(name: str) -> Dict[str, List[fontcut.Range]]:
    rows = (line.partition(" ") for line in _text(name).splitlines() if not line.startswith("#"))
    return {name: _ranges(words) for name, _, words in rows}


@functools.lru_cache(maxsize=None)
def web() -> Dict[str, List[fontcut.Range]]:
    """The ranges of the subsets of Google Fonts, by their names there."""
    return _lines("web.txt")


@functools.lru_cache(maxsize=None)
def scripts() -> Dict[str, List[fontcut.Range]]:
    """The ranges of all other scripts, by their names in Unicode."""
    return _lines("scripts.txt")


@functools.lru_cache(maxsize=None)
def _languages() -> Dict[str, _Said]:
    said: Dict[str, _Said] = json.loads(_text("languages.json"))
    return said


def unicode_version() -> str:
    """The version of Unicode whose files the lists were made from."""
    found: List[str] = re.findall(r"files of Unicode ([0-9.]*[0-9])", _text("scripts.txt"))
    return found[0]


def languages() -> List[str]:
    """The names of the languages whose characters are in the order of their use."""
    return list(_languages())


def characters_of(text: str) -> List[int]:
    """The characters of a text in the order in which they first stand in it, without blanks."""
    return list(map(ord, dict.fromkeys(re.sub(r"[\s\ufeff]", "", text))))


@functools.lru_cache(maxsize=None)
def language(name: str) -> Language:
    """What is known of a language. Its order ends with the ideographs of which nothing is known, by their codes."""
    said = _languages()[name]
    order = dict.fromkeys(characters_of(_text(f"{name}.txt")))
    order.update((code, None) for code in codes_in(_ranges(_IDEOGRAPHS)))
    rows = {FEW_BYTES: said["few-bytes"], FEW_FILES: said["few-files"]}
    sizes = {size: [each for count, each in rows[size] for _ in range(count)] for size in SIZES}
    return Language(_ranges(said["signs"]), list(order), sizes)
