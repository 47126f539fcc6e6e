"""The slices that are asked for: presets, the lines of a file, and slices by how often characters are used."""
from __future__ import annotations

import importlib
import re
from bisect import bisect_right
from collections import Counter
from typing import Dict, Iterable, Iterator, List, NamedTuple, Sequence, Set, Union

import fontcut
from fontcut_output import read

from . import presets
from .common import UsageError, codes_in
from .sequences import named_by

# All subsets of Google Fonts, and the presets of all scripts that a font has.
WEB, AUTO = "web", "auto"
MOST_EQUAL = 9999
_EQUAL = re.compile(r"(equal|pages):([1-9][0-9]*)")
# A name that a file can have in each folder and in a style sheet, as the program has it.
_NAME = re.compile(r"[A-Za-z0-9][A-Za-z0-9._-]*")
# The scripts whose presets have other names, and how many of a language's first characters tell that a font is of it.
_OF_WEB = {"latin": ("latin", "latin-ext", "vietnamese"), "greek": ("greek", "greek-ext"),
           "cyrillic": ("cyrillic", "cyrillic-ext")}
_OF_LANGUAGES = "han", "hangul", "hiragana", "katakana", "bopomofo"
_TELLING = 2000
# A preset of which a font has fewer characters has no slice of its own.
_FEW = 8
# How many ranges of characters a message has at most.
_SHOWN = 20
_BLANK = 0x20
# The last slice of `auto`: what is of no script. The last slice of other lists, where it is asked for.
_OTHERS, REST = "others", "rest"


class Slice(NamedTuple):
    """A slice of a font: its name, the characters of the font that it has, in ascending order, and the variation
    sequences of these that it is to draw."""

    name: str
    codes: List[int]
    sequences: Sequence[str] = ()


class Listed(NamedTuple):
    """A slice of these ranges, which are in ascending order, and the file that has it, if that is no preset, with the
    variation sequences that its line names."""

    name: str
    ranges: List[fontcut.Range]
    path: str = ""
    sequences: Sequence[str] = ()

    def names(self) -> List[str]:
        return [self.name]

    def slices(self, left: Sequence[int]) -> List[Slice]:
        """The slice of those of the characters that stand in the ranges."""
        firsts = [one.first for one in self.ranges]
        places = ((code, bisect_right(firsts, code) - 1) for code in left)
        return [Slice(self.name, [code for code, place in places if place >= 0 and code <= self.ranges[place].last])]


class Equal(NamedTuple):
    """As many slices of what is left, which have as many characters each: in an order, and then by their codes; with
    the variation sequences of the pages by which they are ordered."""

    parts: int
    order: Sequence[int] = ()
    sequences: Sequence[str] = ()

    def names(self) -> List[str]:
        return _numbered("", self.parts)

    def slices(self, left: Sequence[int]) -> List[Slice]:
        """The slices of all characters."""
        return _divided(self.names(), _by_use(left, self.order), [], self.parts)


class Ranked(NamedTuple):
    """A slice of the signs of a language, and slices of its characters by their use, which may be in another order."""

    name: str
    size: str
    order: Sequence[int] = ()

    def names(self) -> List[str]:
        return [self.name, *_numbered(f"{self.name}-", presets.PARTS)]

    def slices(self, left: Sequence[int]) -> List[Slice]:
        """The slices of those of the characters that are signs, or are in the order of the language."""
        known = presets.language(self.name)
        signs = Listed(self.name, known.signs).slices(left)
        own = set(known.order).intersection(left).difference(signs[0].codes)
        sizes = known.sizes[self.size]
        rest = max(0, len(own) - sum(sizes))
        parts = min(presets.PARTS - len(sizes), -(-rest // presets.LEAST))
        return signs + _divided(self.names()[1:], _by_use(own, [*self.order, *known.order]), sizes, parts)


class Auto(NamedTuple):
    """The presets of the scripts of the characters, in the order of the presets, but for those of some names."""

    order: Sequence[int]
    taken: Sequence[str]

    def names(self) -> List[str]:
        return [_OTHERS]

    def slices(self, left: Sequence[int]) -> List[Slice]:
        """The slices of all characters."""
        found = set(scripts_of(left))
        words = [name for script, names in _OF_WEB.items() if script in found for name in names]
        words += [_language_of(set(left))] if found & set(_OF_LANGUAGES) else []
        words += [script for script in presets.scripts() if script in found]
        wanted = [_preset(word, self.order) for word in words if word not in self.taken]
        others = Listed(_OTHERS, fontcut.ranges("all"))
        counts = {one.name: len(one.codes) for one in divided(left, [*wanted, others])}
        many = [one for one in wanted if sum(counts.get(name, 0) for name in one.names()) >= _FEW]
        return divided(left, [*many, others])


Asked = Union[Listed, Equal, Ranked, Auto]


def _numbered(front: str, count: int) -> List[str]:
    """Names with numbers from 1, which have as many digits each."""
    width = len(str(count))
    return [f"{front}{number:0{width}}" for number in range(1, count + 1)]


def _by_use(codes: Iterable[int], order: Sequence[int]) -> List[int]:
    """Codes in an order, and then those that it lacks, by their codes."""
    ranks: Dict[int, int] = {}
    for rank, code in enumerate(order):
        ranks.setdefault(code, rank)
    return sorted(codes, key=lambda code: (ranks.get(code, len(order)), code))


def _divided(names: Sequence[str], codes: Sequence[int], sizes: Sequence[int], parts: int) -> List[Slice]:
    """The slices of codes that have these sizes, and then as many of the same size."""
    ends = [sum(sizes[:count]) for count in range(len(sizes) + 1)]
    rest = max(0, len(codes) - ends[-1])
    ends += [ends[-1] + rest * part // parts for part in range(1, parts + 1)]
    return [Slice(name, sorted(codes[first:last])) for name, first, last in zip(names, ends, ends[1:])]


def scripts_of(codes: Iterable[int]) -> Dict[str, int]:
    """How many of the characters are of each script: its name as a preset has it. Others are of none."""
    # Lists are printed without fontTools too.
    properties = importlib.import_module("fontTools.unicodedata")
    counts = Counter(properties.script(chr(code)) for code in codes)
    return {properties.script_name(script).lower().replace(" ", "-"): count
            for script, count in sorted(counts.items()) if script not in ("Zyyy", "Zinh", "Zzzz")}


def _language_of(codes: Set[int]) -> str:
    """The language of whose first characters a font has most, the first of those of which it has as many."""
    counts = {name: len(codes.intersection(presets.language(name).order[:_TELLING])) for name in presets.languages()}
    return max(counts, key=lambda name: counts[name])


def asked(words: Sequence[str], order: Sequence[int] = (), counted: Sequence[int] = ()) -> List[Asked]:
    """The slices that presets and files name, in an order of the user's, and in one that is counted on pages. Raises
    `UsageError` for a list that names no slices, or two of one name, and `OSError` for a file that cannot be read."""
    found = [one for word in words for one in _named(word, order, counted)]
    names = [name for one in found for name in one.names()]
    name, count = Counter(names).most_common(1)[0] if found else ("", 0)
    if count > 1:
        raise UsageError(f"two slices have the name {name}")
    return [one._replace(taken=names) if isinstance(one, Auto) else one for one in found]


def _named(word: str, order: Sequence[int], counted: Sequence[int]) -> Iterator[Asked]:
    equal = _EQUAL.fullmatch(word)
    kind = word.partition(":")[0]
    if equal and int(equal[2]) <= MOST_EQUAL:
        yield Equal(int(equal[2]), [*counted, *order] if kind == "pages" else order)
    elif kind in ("equal", "pages") and kind != word:
        raise UsageError(f"{word}: write {kind}:1 to {kind}:{MOST_EQUAL}")
    elif word == AUTO:
        yield Auto(order, ())
    elif word == WEB or kind in known():
        for name in presets.web() if word == WEB else [word]:
            yield _preset(name, order)
    else:
        yield from _lines(word)


def known() -> List[str]:
    """The names of all presets of scripts and languages."""
    return [*presets.web(), *presets.languages(), *presets.scripts()]


def _preset(word: str, order: Sequence[int]) -> Asked:
    """The slices of a preset that is known."""
    name, _, size = word.partition(":")
    if name in presets.languages() and (size or presets.FEW_BYTES) in presets.SIZES:
        return Ranked(name, size or presets.FEW_BYTES, order)
    if size:
        sizes = " or ".join(f"{language}:{one}" for language in presets.languages()[:1] for one in presets.SIZES)
        raise UsageError(f"{word}: sizes are for Chinese, Japanese and Korean: write {sizes}")
    return Listed(name, {**presets.web(), **presets.scripts()}[name])


def _lines(path: str) -> Iterator[Listed]:
    """The slices of a file: in each line a name and its ranges, as `fontcut slice` reads them."""
    try:
        text = read(path).decode("utf-8-sig")
    except UnicodeDecodeError as error:
        raise UsageError(f"{path}: not UTF-8") from error
    except FileNotFoundError as error:
        names = ", ".join([*presets.web(), *presets.languages(), WEB, AUTO, "equal:COUNT", "pages:COUNT"])
        raise UsageError(f"{path}: there is no such file, and the presets are {names}, and the names of scripts as "
                         "arabic or devanagari") from error
    for number, line in enumerate(text.split("\n"), 1):
        name, _, words = line.partition("#")[0].replace("\t", " ").strip().partition(" ")
        if name and not _NAME.fullmatch(name):
            raise UsageError(f"{path}: line {number}: bad name {name[:40]!r}: write letters of ASCII, digits and . _ -")
        if name:
            words, sequences = named_by(words)
            try:
                yield Listed(name, fontcut.ranges(words), path, sequences)
            except ValueError as error:
                raise UsageError(f"{path}: line {number}: {error}") from error


def codes_of(font: Union[bytes, fontcut.Font]) -> List[int]:
    """The characters that a font maps, in ascending order."""
    return list(codes_in(fontcut.codes(font)))


def named_codes(wanted: Iterable[Asked]) -> List[int]:
    """The characters that slices name, in ascending order. Raises `UsageError` for slices that only a font has."""
    found: Set[int] = set()
    for one in wanted:
        if isinstance(one, (Equal, Auto)):
            raise UsageError("equal, pages and auto are for a font: name it by --font")
        ranges = one.ranges if isinstance(one, Listed) else presets.language(one.name).signs
        found.update(codes_in(ranges))
        found.update(presets.language(one.name).order if isinstance(one, Ranked) else ())
    return sorted(found)


def divided(codes: Sequence[int], wanted: Iterable[Asked], whole: Sequence[Set[int]] = ()) -> List[Slice]:
    """The slices that have some of the characters. A character is in the first slice that names it, and in no other,
    so that a browser loads it once. Equal slices divide none of the sets of characters that are to be whole."""
    left = list(codes)
    found: List[Slice] = []
    for one in wanted:
        made = one.slices(left)
        made = _undivided(made, whole) if isinstance(one, Equal) else made
        found += [each for each in made if each.codes]
        inside = {code for each in made for code in each.codes}
        left = [code for code in left if code not in inside]
    return found


def sequences_of(wanted: Iterable[Asked]) -> List[str]:
    """The variation sequences that slices name, each once."""
    return sorted({pair for one in wanted if isinstance(one, (Listed, Equal)) for pair in one.sequences})


def with_sequences(slices: Iterable[Slice], sequences: Iterable[str]) -> List[Slice]:
    """Slices with variation sequences: browsers load the slice that has the character of a sequence."""
    by_code: Dict[int, List[str]] = {}
    for pair in sequences:
        by_code.setdefault(ord(pair[0]), []).append(pair)
    return [one._replace(sequences=[pair for code in one.codes for pair in by_code.get(code, ())]) for one in slices]


def empty_names(wanted: Iterable[Asked], slices: Iterable[Slice]) -> List[str]:
    """The names of the slices of files that are not among these slices, as they have no character."""
    made = {one.name for one in slices}
    return [one.name for one in wanted if isinstance(one, Listed) and one.path and one.name not in made]


def _undivided(slices: Sequence[Slice], whole: Sequence[Set[int]]) -> List[Slice]:
    """Slices of which each has all or none of a set of characters: the first that has one of them gets all."""
    sets = [set(one.codes) for one in slices]
    for together in whole:
        first: Set[int] = next((one for one in sets if one & together), set())
        moved: Set[int] = set().union(*(one & together for one in sets))
        for one in sets:
            one -= moved
        first |= moved
    return [Slice(one.name, sorted(codes)) for one, codes in zip(slices, sets)]


def unsliced(codes: Sequence[int], slices: Iterable[Slice]) -> Dict[str, int]:
    """The scripts of which no character is in a slice, and how many characters of each there are."""
    inside = scripts_of(code for one in slices for code in one.codes)
    return {script: count for script, count in scripts_of(codes).items() if script not in inside}


def left_out(codes: Sequence[int], slices: Iterable[Slice]) -> List[int]:
    """The characters that are in no slice, though they are of no script, or of one of which a slice has characters.
    Controls are not among them, which no page shows."""
    properties = importlib.import_module("fontTools.unicodedata")
    inside = {code for one in slices for code in one.codes}
    scripts = {properties.script(chr(code)) for code in inside} | {"Zyyy", "Zinh", "Zzzz"}
    return [code for code in codes if code not in inside and properties.script_extension(chr(code)) & scripts
            and properties.category(chr(code)) != "Cc"]


def _rows(codes: Iterable[int]) -> List[List[int]]:
    """Codes in ascending order as the first and the last of each range."""
    rows: List[List[int]] = []
    for code in codes:
        if rows and code == rows[-1][1] + 1:
            rows[-1][1] = code
        else:
            rows.append([code, code])
    return rows


def _words_of(rows: Iterable[Sequence[int]]) -> str:
    return ", ".join(f"U+{first:X}" if first == last else f"U+{first:X}-{last:X}" for first, last in rows)


def range_words(codes: Iterable[int]) -> str:
    """Codes in ascending order as a `unicode-range` of CSS has them."""
    return _words_of(_rows(codes))


def page_range(codes: Iterable[int]) -> str:
    """The same for the font of a page, which has the blank too, whether or not the font maps it: only a font of which
    the range has the blank gives lines their height (CSS Fonts 4, first available font)."""
    return range_words(sorted({_BLANK, *codes}))


def some_of(names: Sequence[str], most: int = _SHOWN) -> str:
    """Names for a message: the first of them, and how many others there are."""
    more = len(names) - most
    return ", ".join(names[:most]) + (f" and {more:,} more" if more > 0 else "")


def some_words(codes: Iterable[int], most: int = _SHOWN) -> str:
    """The same for a message: the first ranges, and how many characters there are in others."""
    rows = _rows(codes)
    more = sum(last - first + 1 for first, last in rows[most:])
    return _words_of(rows[:most]) + (f" and {more:,} more" if more else "")
