"""The command `fontcut-web prepare`: its options, files and checks; `preparing` makes the font, by fontTools."""
from __future__ import annotations

import argparse
import contextlib
import json
import os
import sys
import tempfile
from typing import Dict, Iterator, List, Mapping, NamedTuple, Optional, Sequence, Set, Tuple

import fontcut
from fontcut_output import print_line, read, write

from . import characters, preparing, shaping
from .common import KINDS, Refused, UsageError, codes_in
from .feature_tags import check_spelling
from .inputs import accepted, file_in, mapped, read_pages, sha256
from .preparing import Limit, Prepared, PrepareOptions
from .replaced import check_unpacked, is_same
from .sets import codes_of, range_words, some_words
from .shaping import Setting, place_of
from .shown import LOST, Shown, letters_of, read_styles, shown_by

# By how many units an instance of fontTools may differ from what HarfBuzz makes of the variable font: each rounds other
# sums.
_ROUNDED = 2
# How many lines of pages are tried at most.
_MOST_LINES = 2000


class Otherwise(Refused):
    """A prepared font would shape a text otherwise than the font in a file."""

    def __init__(self, path: str, text: str):
        super().__init__(path, text)
        self.text = text

    def __str__(self) -> str:
        return f"{self.args[0]}: prepared, it would shape {self.text!r} otherwise"


class Wanted(NamedTuple):
    """What a font is prepared for: the characters of it, those that it lacks, and texts to try it with."""

    codes: List[int]
    lacking: List[int]
    texts: List[str]


def _listed(words: Optional[str]) -> List[str]:
    """The words of a list with commas."""
    return [word for word in (words or "").split(",") if word.strip()]


def _unicodes(words: Optional[str], font: fontcut.Font) -> Set[str]:
    """The characters of a font that ranges name, without any that a shaper takes for them."""
    try:
        ranges = fontcut.ranges(words or "")
    except ValueError as error:
        raise UsageError(f"--unicodes: {error}") from error
    if ranges == fontcut.ranges("all"):
        return set(map(chr, codes_of(font)))
    return {chr(code) for code in codes_in(ranges) if not 0xD800 <= code <= 0xDFFF}


def _shown(paths: Sequence[str]) -> List[Shown]:
    """What pages in files show, with their style sheets. Says which of these are not there."""
    found = read_pages(paths, ": FONT and OUT come before --pages")
    pages = [shown_by(page, path, read_styles(page, path)) for page, path in zip(found, paths)]
    for line in (line for page in pages for line in page.unknown if LOST in line):
        print(f"fontcut-web: {line}", file=sys.stderr)
    return pages


def _with_features(words: str, font: fontcut.Font, pages: Sequence[Shown]) -> str:
    """The list of features that stay, with those of a font that style sheets of pages turn on."""
    asked = preparing.features_of(words)
    if asked is None:
        return words
    turned_on = set().union(*(page.turned_on for page in pages)) - set(asked)
    return ",".join([words, *sorted(turned_on - set(preparing.lacking_features(font.data, turned_on)))])


def _wanted(given: argparse.Namespace, font: fontcut.Font, pages: Sequence[Shown]) -> Wanted:
    """What a command line asks a font to be prepared for, with pages."""
    letters = set().union(*map(letters_of, pages)) | _unicodes(given.unicodes, font)
    letters |= characters.of_languages(_listed(given.languages)) if given.languages else set()
    letters |= characters.of_scripts(_listed(given.scripts), font) if given.scripts else set()
    codes = mapped(font, letters)
    if not codes:
        raise Refused(f"{given.font}: it maps no character that is wanted")
    return wanted_of(font, codes, letters, [page.blocks for page in pages])


def wanted_of(font: fontcut.Font, codes: List[int], letters: Set[str], blocks: Sequence[Sequence[str]]) -> Wanted:
    """What a font is prepared for, whose code points among these letters are those, with blocks of pages to try it
    with."""
    lines = list(dict.fromkeys(block for some in blocks for block in some))[:_MOST_LINES]
    return Wanted(codes, sorted(set(map(ord, letters)) - set(codes)), [*lines, *samples(font, set(map(chr, codes)))])


def samples(font: fontcut.Font, kept: Set[str]) -> List[str]:
    """Texts of kept characters that take no character of the font that is not kept."""
    texts = characters.samples(kept)
    taken = [set(fontcut.needed(text)) - kept for text in texts]
    others = set(map(chr, mapped(font, set().union(*taken))))
    return [text for text, some in zip(texts, taken) if not some & others and text.strip()]


def _refusals(data: bytes) -> Dict[str, str]:
    """Of which kinds no cut can be made of a font, and why."""
    found: Dict[str, str] = {}
    for kind in KINDS:
        try:
            fontcut.cut_size(data, [], kind=kind)
        except fontcut.Refused as refusal:
            found[kind] = str(refusal)
    return found


def _check_kinds(path: str, font: fontcut.Font, made: bytes) -> None:
    """Raises `Refused` where a kind of cuts can be made of a font and not of the prepared one."""
    before = _refusals(font.data)
    for kind, refusal in _refusals(made).items():
        if kind not in before:
            raise Refused(f"{path}: prepared, it is refused for {kind} cuts: {refusal}")
        print(f"fontcut-web: {path}: no {kind} cuts can be made of it: {refusal}", file=sys.stderr)


def _places(one: Prepared, limits: Mapping[str, Limit]) -> Iterator[Tuple[Dict[str, float], Dict[str, float]]]:
    """Places of the axes that a font had, and the same places of those that it has now: the default one, and the ends
    of all axes."""
    pinned = {tag: one.before.axes[tag][1] if limit is None else limit for tag, limit in limits.items()
              if not isinstance(limit, tuple)}
    for end in (1, 0, 2) if one.after.axes else (1,):
        now = {tag: values[end] for tag, values in one.after.axes.items()}
        yield {**pinned, **now}, now


def _off(one: Prepared, how: PrepareOptions) -> Tuple[str, ...]:
    """The features that shapers use without being asked and a prepared font no longer has, as they are turned off."""
    gone = set() if how.features is None else set(preparing.default_features()) - set(how.features)
    gone |= {"kern"} if how.kern == "drop" else set()
    had = {*one.before.features, *(["kern"] if "kern" in one.before.tables else [])}
    return tuple(f"-{tag}" for tag in sorted(gone & had))


def _check_shapes(path: str, font: fontcut.Font, one: Prepared, how: PrepareOptions, texts: Sequence[str]) -> None:
    """Raises `Otherwise` for a text that the prepared font shapes otherwise, but for features that were dropped, and
    for characters that the font lacks."""
    off, most = _off(one, how), _ROUNDED if how.limits else 0
    with tempfile.TemporaryDirectory() as folder:
        whole = file_in(folder, "whole.ttf", preparing.as_taken(font.data, how))
        made = file_in(folder, "prepared.ttf", one.data)
        for before, now in _places(one, how.limits):
            settings = Setting(features=off, place=place_of(before)), Setting(features=off, place=place_of(now))
            text = shaping.difference((whole, made), texts, settings, most)
            if text is not None:
                raise Otherwise(path, text)


def _is_prepared_from(path: str, font: str) -> bool:
    """Whether what stands beside a prepared font says that it was made of the font in a file."""
    with contextlib.suppress(OSError, ValueError, LookupError, TypeError, RecursionError):
        known: object = json.loads(read(f"{path}.json"))["font"]["sha256"]
        return known == sha256(read(font))
    return False


def is_prepared(path: str) -> bool:
    """Whether what stands beside a font says that it was prepared as it is."""
    with contextlib.suppress(OSError, ValueError, LookupError, TypeError, RecursionError):
        known: object = json.loads(read(f"{path}.json"))["out"]["sha256"]
        return known == sha256(read(path))
    return False


def _check_out(given: argparse.Namespace) -> None:
    """Raises `UsageError` for an OUT that cannot be meant."""
    out = given.out
    if out.lower().endswith((".woff", ".woff2")):
        raise UsageError(f"{out}: cuts are made of OUT, which is no WOFF file")
    if out.lower().endswith((".html", ".htm", ".xhtml")):
        raise UsageError(f"{out} would be replaced by a font: FONT and OUT come before --pages")
    if is_same(given.font, out):
        raise UsageError(f"{out} is FONT, which has more than the prepared font: name another file")
    if os.path.exists(out) and not os.path.isfile(out):
        raise UsageError(f"{out} is no file: OUT.json is written beside OUT")
    if _is_prepared_from(given.font, out):
        raise UsageError(f"{out} is the font, and {given.font} was prepared from it: nothing was written")
    if not given.force and not is_prepared(out):
        check_unpacked(out, [])


def _again(given: argparse.Namespace, codes: Sequence[int]) -> List[str]:
    """The options that make the same font again, whatever becomes of pages and tables of languages."""
    words = [f"--unicodes={range_words(codes)}", f"--features={given.features}", f"--names={given.names}",
             f"--kern={given.kern}"]
    return [*words, *(["--no-hinting"] if given.no_hinting else []),
            *([f"--instance={given.instance}"] if given.instance else [])]


def _record(given: argparse.Namespace, whole: bytes, wanted: Wanted, one: Prepared) -> Dict[str, object]:
    """What is kept beside OUT, of a file with these bytes."""
    names = "languages", "scripts", "unicodes", "pages"
    asked = {name: getattr(given, name) for name in names if getattr(given, name)}
    return {
        "font": {"file": os.path.basename(given.font), "bytes": len(whole), "sha256": sha256(whole)},
        "out": {"file": os.path.basename(given.out), "bytes": len(one.data), "sha256": sha256(one.data)},
        "prepared_for": asked, "lacking": range_words(wanted.lacking), "options": _again(given, wanted.codes),
        "said": list(preparing.dropped(one)),
        "versions": {"fontcut-web": fontcut.__version__, "fontTools": preparing.VERSION}}


def made_of(path: str, font: fontcut.Font, wanted: Wanted, how: PrepareOptions) -> Prepared:
    """A font that is prepared, and accepted for each kind of cuts for which the font in a file is; where texts can be
    shaped, it shapes them as that font. Raises `Refused` otherwise."""
    try:
        one = preparing.prepared(font.data, how, sorted(characters.scripts_of(map(chr, wanted.codes))))
    except Refused as refusal:
        raise Refused(f"{path}: {refusal}") from refusal
    _check_kinds(path, font, one.data)
    if shaping.is_there():
        _check_shapes(path, font, one, how, wanted.texts)
    return one


def _say(given: argparse.Namespace, wanted: Wanted, how: PrepareOptions, one: Prepared) -> None:
    """Says on standard error what was dropped, and what the font lacks."""
    lines = list(preparing.dropped(one))
    if wanted.lacking:
        count, some = len(wanted.lacking), some_words(wanted.lacking)
        every = "" if some == range_words(wanted.lacking) else f"; {given.out}.json has all"
        lines.append(f"{given.font} lacks {count} of {count + len(wanted.codes)} characters: {some}{every}")
    unknown = sorted(set(how.features or []) - set(one.before.features) - set(preparing.default_features()))
    if unknown:
        lines.append(f"{given.font} has no feature {', '.join(unknown)}")
    if not shaping.is_there():
        lines.append(f"it was not seen whether it shapes texts as {given.font} does: {shaping.INSTALL}")
    for line in lines:
        print(f"fontcut-web: {line}", file=sys.stderr)


def run(given: argparse.Namespace) -> None:
    """Prepares a font."""
    _check_out(given)
    limits = preparing.limits_of(given.instance) if given.instance else {}
    features = preparing.features_of(given.features)
    font = accepted(given.font)
    asked = set(features or []) - set(preparing.default_features())
    check_spelling(given.font, preparing.lacking_features(font.data, asked))
    if not any((given.languages, given.scripts, given.unicodes, given.pages)):
        raise UsageError("name what the font is prepared for: --languages, --scripts, --unicodes or --pages")
    pages = _shown(given.pages or [])
    given.features = _with_features(given.features, font, pages)
    wanted = _wanted(given, font, pages)
    features = preparing.features_of(given.features)
    how = PrepareOptions(wanted.codes, features, not given.no_hinting, limits, given.names, given.kern)
    one = made_of(given.font, font, wanted, how)
    record = json.dumps(_record(given, read(given.font), wanted, one), indent=2, ensure_ascii=True) + "\n"
    write(given.out, one.data)
    write(f"{given.out}.json", record.encode())
    if given.json:
        print_line(record.rstrip())
    else:
        _say(given, wanted, how, one)
