"""The characters that a font is prepared for: those of languages, of scripts, and of pages."""
from __future__ import annotations

import functools
import random
import unicodedata
from typing import Dict, Iterable, Iterator, List, Sequence, Set

import fontcut
from fontTools import unicodedata as properties

from . import pages
from .common import UsageError, codes_in
from .languages import EVERY, TABLE

# Languages of thousands of characters have those of a standard of their country, which Python knows as an encoding.
_STANDARDS = {"zh": "gb2312", "zh-hans": "gb2312", "zh-hant": "big5", "yue": "big5", "yue-hant": "big5",
              "yue-hans": "gb2312", "ja": "iso2022_jp", "ko": "cp949"}
# Where Chinese is written in traditional characters.
_TRADITIONAL = "tw", "hk", "mo"
# Names of writing systems of several scripts (ISO 15924).
_SYSTEMS = {"Jpan": ["Hani", "Hira", "Kana"], "Kore": ["Hang", "Hani"], "Hans": ["Hani"], "Hant": ["Hani"],
            "Hrkt": ["Hira", "Kana"]}
# Marks of any script.
_INHERITED = "Zinh"
# How many texts are made of the letters of a script, and how long these are.
_TEXTS, _LONGEST = 200, 8


@functools.lru_cache(maxsize=None)
def _rows() -> Dict[str, str]:
    """The characters of each language, by its tag in small letters."""
    rows = (line.partition(":") for line in TABLE.replace("\n ", " ").splitlines())
    return {name.lower(): words for names, _, words in rows for name in names.split()}


def _tag(language: str, otherwise: str) -> str:
    """The tag by which a language is known, which may be a part of the tag that is given: `de` for `de-AT`. The error
    for another says how its characters can be named otherwise."""
    parts = language.strip().lower().replace("_", "-").split("-")
    if parts[0] in ("zh", "yue") and set(parts) & set(_TRADITIONAL):
        return f"{parts[0]}-hant"
    known = _rows().keys() | _STANDARDS.keys()
    tags = ["-".join(parts[:count]) for count in range(len(parts), 0, -1)]
    tag = next((tag for tag in tags if tag in known), None)
    if tag is None:
        raise UsageError(f"the characters of the language {language.strip()!r} are not known: write a tag, as en or "
                         f"sr-Latn, or name them by {otherwise}")
    return tag


def _encoded(encoding: str) -> Set[str]:
    """The characters of the Basic Multilingual Plane that an encoding has."""
    found = set()
    for code in (*range(0x20, 0xD800), *range(0xE000, 0x10000)):
        if chr(code).encode(encoding, "ignore"):
            found.add(chr(code))
    return found


def _letters(words: str) -> Set[str]:
    return set(map(chr, codes_in(fontcut.ranges(words))))


def _with_needed(letters: Iterable[str]) -> Set[str]:
    """Characters, and those that a shaper takes for each."""
    return pages.shown(fontcut.needed("\n".join(letters)))


def of_languages(languages: Sequence[str], otherwise: str = "--unicodes") -> Set[str]:
    """The characters of languages and those that every language has, with what a shaper takes for them. Raises
    `UsageError` for a language that is not known, which says how else its characters can be named."""
    found = _letters(EVERY)
    for tag in (_tag(language, otherwise) for language in languages):
        found |= _encoded(_STANDARDS[tag]) if tag in _STANDARDS else _letters(_rows()[tag])
    return _with_needed(found)


def _script_names(scripts: Sequence[str]) -> Iterator[str]:
    for script in scripts:
        name = script.strip().capitalize()
        if name in _SYSTEMS:
            yield from _SYSTEMS[name]
            continue
        try:
            properties.script_name(name)
        except KeyError as error:
            raise UsageError(f"there is no script {script.strip()!r}: write Latn, Arab or Deva") from error
        yield name


def of_scripts(scripts: Sequence[str], font: fontcut.Font) -> Set[str]:
    """The characters of a font that are of scripts, marks of any script, and the characters that every language has,
    with what a shaper takes for them. Raises `UsageError` for a script that is not known."""
    wanted = {*_script_names(scripts), _INHERITED}
    letters = map(chr, codes_in(fontcut.codes(font)))
    return _with_needed({*_letters(EVERY), *(one for one in letters if wanted & properties.script_extension(one))})


def of_ranges(words: str) -> Set[str]:
    """The characters of ranges, without any that a shaper takes for them."""
    return {chr(code) for code in codes_in(fontcut.ranges(words)) if not 0xD800 <= code <= 0xDFFF}


def of_texts(texts: Sequence[str]) -> Set[str]:
    """The characters of texts, with what a shaper takes for them."""
    return pages.shown("".join([*texts, *map(fontcut.needed, texts)]))


def scripts_of(letters: Iterable[str]) -> Set[str]:
    """The scripts of letters."""
    return set(map(properties.script, letters)) - {"Zyyy", _INHERITED, "Zzzz"}


def samples(letters: Iterable[str]) -> List[str]:
    """Texts of characters: each character that a line may have, and words of the letters and marks of each script that
    are made by chance, the same each time."""
    found = sorted(letter for letter in letters if unicodedata.category(letter) not in ("Cc", "Cs"))
    scripts: Dict[str, List[str]] = {}
    for letter in found:
        if unicodedata.category(letter)[0] in "LM":
            scripts.setdefault(properties.script(letter), []).append(letter)
    marks = scripts.pop(_INHERITED, [])
    chance = random.Random(1)
    for _, some in sorted(scripts.items()):
        some = some + marks[:len(some) // 4]
        found += ["".join(chance.choices(some, k=chance.randint(2, _LONGEST))) for _ in range(_TEXTS)]
    return found
