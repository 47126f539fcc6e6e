"""Fonts in slices: the cuts, their WOFF2 files, a style sheet and a page."""
from __future__ import annotations

import functools
import os
from typing import Callable, Dict, Iterator, List, Mapping, NamedTuple, Optional, Sequence, Set, Tuple

import fontcut
from fontcut_output import Progress, write

from . import fitted, sequences, sliced_losses
from .common import SHAPED, Refused
from .faces import Face, face_of, is_variable, varying
from .inputs import font_of, refusing
from .notices import ShapedScript, dropped, shaped_scripts
from .prepare import is_prepared, samples
from .presets import languages
from .processes import one_by_one
from .sets import (REST, Asked, Slice, codes_of, divided, empty_names, left_out, range_words, sequences_of, unsliced,
                   with_sequences)
from .sheet import Placed, Styled, page, preloads, style_sheet
from .woff import compressed_size, packed, without

SHEET, PAGE = "fonts.css", "index.html"
# How many characters are named that are in no slice.
_NAMED = 5
# How many slices are made before they are written, all of which are in memory.
_AT_ONCE = 16
# A font whose layout tables have so many bytes at most, prepared for all slices, is not prepared for each of them.
_SHARED = 4096


class Font(NamedTuple):
    """A font that is accepted, with the slices that are wanted of it. `kind` is the kind of its cuts, and `is_fitted`
    says whether it is prepared for them first. `face` is what the style sheet says of it, `shown` the face of its
    default instance, `base` begins the names of the files, `features` are those that it keeps beside those of shapers
    if it is prepared, and `unsliced` has the scripts of which no character is in a slice, with how many characters the
    font has of each, and `left_out` the other characters in no slice. `notices` are the lines that are said of all
    this, and of what the cuts drop."""

    path: str
    font: fontcut.Font
    kind: str
    is_fitted: bool
    face: Face
    shown: Face
    slices: List[Slice]
    base: str
    features: Set[str]
    unsliced: Dict[str, int]
    left_out: List[int]
    notices: List[str]


class Written(NamedTuple):
    """A slice that is written: its files, with the bytes of each; no WOFF2 file where none is wanted."""

    slice: Slice
    cut: Tuple[str, int]
    woff2: Optional[Tuple[str, int]]


class SliceOptions(NamedTuple):
    """How slices are written: of which kind of cut, which is layout or variable, as the font is, if none is named, and
    what besides; the tables that fonts are taken to lack; whether a last slice has the characters that are left out,
    whether equal slices divide scripts that are shaped, and whether fonts are cut as they are; and the features that
    those that are not keep beside those of shapers, where `None` is all."""

    kind: Optional[str] = None
    woff2: bool = False
    css: bool = False
    display: str = "swap"
    strict: bool = False
    drop: Sequence[str] = ()
    rest: bool = False
    is_dividing: bool = False
    as_is: bool = False
    features: Optional[Sequence[str]] = ()

    def kind_of(self, font: bytes) -> str:
        """The kind of cuts of a font."""
        return self.kind or ("variable" if is_variable(font) else "layout")


def accepted(path: str, how: SliceOptions) -> fontcut.Font:
    """The font in a file without the tables that are dropped, of which cuts can be made."""
    data = font_of(path)
    with refusing(path, data):
        font = fontcut.Font(without(data, how.drop) if how.drop else data)
        # Tables of layout and of variations are refused for some kinds alone: here, and not when other fonts are
        # written already.
        fontcut.cut_size(font, [], kind=how.kind_of(data))
    return font


def _base(path: str, slices: Sequence[Slice], taken: Set[str]) -> str:
    """What begins the names of a font's files: the name of its file, with a number where another font has these
    names."""
    stem = os.path.splitext(os.path.basename(path))[0]
    base, number = stem, 1
    while any(f"{base}-{one.name}".casefold() in taken for one in slices):
        number += 1
        base = f"{stem}-{number}"
    taken.update(f"{base}-{one.name}".casefold() for one in slices)
    return base


def opened(paths: Sequence[str], asked: Sequence[Asked], how: SliceOptions) -> List[Font]:
    """The fonts and their slices. Raises `Refused` where one is refused, or maps none of the characters, or where two
    could not be told apart in a style sheet."""
    found: List[Font] = []
    taken: Set[str] = set()
    seen: Dict[Face, str] = {}
    for path in paths:
        one = _opened(path, asked, how)
        if how.css and one.face in seen:
            raise Refused(f"{path}: it has the family, style, weight and width of {seen[one.face]}: {one.face}")
        seen[one.face] = path
        found.append(one._replace(base=_base(path, one.slices, taken)))
    return found


def _opened(path: str, asked: Sequence[Asked], how: SliceOptions) -> Font:
    """A font and its slices, whose files have no names yet."""
    font = accepted(path, how)
    kind = how.kind_of(font.data)
    shown = face_of(font.data, os.path.splitext(os.path.basename(path))[0])
    face = varying(font.data, shown) if kind == "variable" else shown
    codes = codes_of(font)
    scripts = shaped_scripts(font.data, codes) if kind in SHAPED else []
    slices = divided(codes, asked, [] if how.is_dividing else [script.whole for script in scripts])
    if not slices:
        raise Refused(f"{path}: it maps no character of these slices")
    lost, rest = unsliced(codes, slices), left_out(codes, slices)
    if lost and how.strict:
        raise Refused(lost_words(path, lost))
    if how.rest and rest:
        slices, rest = [*slices, Slice(REST, rest)], []
    slices, empty = with_sequences(slices, sequences_of(asked)), empty_names(asked, slices)
    notices = [f"{path}: slices that are left without a character are not written: {', '.join(empty)}"
               ] if empty else []
    notices += [*([lost_words(path, lost)] if lost else []), *([left_words(path, rest)] if rest else [])]
    notices += _divided_words(path, scripts, divided(codes, asked), slices)
    notices += dropped(path, font.data, (code for one in slices for code in one.codes), kind)
    drawn = "".join(pair for one in slices for pair in one.sequences)
    notices += sequences.told(drawn, [(path, font, kind)], f"{path} lacks")
    notices += sliced_losses.unknown(path, font.data, how.features)
    is_fitted, features = kind in SHAPED and not how.as_is and not is_prepared(path), set()  # type: bool, Set[str]
    if is_fitted:
        features = sliced_losses.kept(path, font.data, how.features)
    return Font(path, font, kind, is_fitted, face, shown, slices, "", features, lost, rest, notices)


def _divided_words(path: str, scripts: Sequence[ShapedScript], plain: Sequence[Slice], slices: Sequence[Slice]
                   ) -> Iterator[str]:
    """What is said of scripts that a font shapes whose letters would be in more than one of these slices, or are."""
    for script in scripts:
        before, after = ([one.name for one in some if script.own.intersection(one.codes)] for some in (plain, slices))
        if len(after) > 1:
            yield (f"{path}: {script.name} is shaped, and is in the slices {', '.join(after)}: letters of two slices do "
                   "not join")
        elif len(before) > 1:
            yield (f"{path}: {script.name} is shaped, so it is not divided: all of it is in the slice {after[0]}; "
                   "--force divides it")


def lost_words(path: str, lost: Mapping[str, int]) -> str:
    """What is said of the scripts of a font of which no character is in a slice."""
    scripts = ", ".join(f"{script} ({count} characters)" for script, count in lost.items())
    return f"{path}: no slice has {scripts}: add the slices of these names, or auto"


def left_words(path: str, rest: Sequence[int]) -> str:
    """What is said of other characters of a font that are in no slice."""
    some = ", ".join(f"U+{code:04X}" for code in rest[:_NAMED])
    more = f" and {len(rest) - _NAMED} more" if len(rest) > _NAMED else ""
    are = "1 character of these scripts or of none is" if len(rest) == 1 else \
        f"{len(rest)} characters of these scripts or of none are"
    return f"{path}: {are} in no slice: {some}{more}: --rest writes them as the last slice"


def _put(folder: str, name: str, data: bytes) -> Tuple[str, int]:
    write(os.path.join(folder, name), data)
    return name, len(data)


class Base(NamedTuple):
    """What slices of a font are cut of: the font as it is, or prepared, and then perhaps once more for each of them."""

    font: fontcut.Font
    is_for_each: bool


def _codes(font: Font) -> List[int]:
    """The characters of the slices of a font."""
    return sorted({code for one in font.slices for code in one.codes})


def _base_of(font: Font) -> Base:
    """What the slices of a font are cut of. Raises `Refused` where it is to be prepared and cannot be. A prepared font
    has layout tables for all slices, if these are small: those for Chinese, Japanese and Korean mostly are, whose
    slices are many."""
    if not font.is_fitted:
        return Base(font.font, False)
    base = fitted.fitted(font.font, _codes(font), font.kind, font.features)
    return Base(base, len(font.slices) > 1 and fitted.layout_size(base) > _SHARED)


def _cut(font: Font, base: Base, one: Slice) -> bytes:
    """The cut of a font for a slice, which shapes texts of its characters as the font does."""
    source = base.font
    if base.is_for_each:
        with refusing(font.path):
            # fontTools reads the cut much faster than the font, which has all characters, but no layout cut of a font
            # that varies: its GDEF has lost the variations that are looked for there.
            if not is_variable(font.font.data):
                source = fontcut.Font(fontcut.cut(source, one.codes, kind=font.kind, gids=_drawn(font, one)))
            source = fitted.fitted(source, one.codes, font.kind, font.features)
    with refusing(font.path):
        cut = fontcut.cut(source, one.codes, kind=font.kind, gids=_drawn(font, one))
    if font.is_fitted:
        # The cut has the variation sequences alone that are named. Of those that the font lacks the selector is drawn
        # as a blank, which is perhaps in another slice.
        texts = map(sequences.plain, samples(font.font, set(map(chr, one.codes))))
        drawn = (pair for pair in one.sequences if fontcut.variants(font.font, pair))
        fitted.check(font.path, font.font, cut, font.kind, [*texts, *drawn], sliced_losses.tried(font.features))
    return cut


def _drawn(font: Font, one: Slice) -> Optional[List[int]]:
    """The glyphs of the variation sequences of a slice, for kinds of cuts that keep these."""
    return fontcut.variants(font.font, "".join(one.sequences)) if font.kind in SHAPED and one.sequences else None


def _made(font: Font, make: Callable[[], bytes], is_packed: bool) -> Tuple[bytes, Optional[bytes]]:
    """A cut, and its WOFF2 file where one is wanted."""
    cut = make()
    with refusing(font.path):
        return cut, packed(cut) if is_packed else None


def _cuts(font: Font, base: Base, is_packed: bool) -> Iterator[Tuple[Slice, bytes, Optional[bytes]]]:
    """The slices of a font, each with its cut and its WOFF2 file."""
    if font.is_fitted:
        made = one_by_one([functools.partial(_made, font, functools.partial(_cut, font, base, one), is_packed)
                           for one in font.slices], _AT_ONCE)
        yield from ((one, cut, small) for one, (cut, small) in zip(font.slices, made))
        return
    for at in range(0, len(font.slices), _AT_ONCE):
        some = font.slices[at:at + _AT_ONCE]
        # One call cuts the font faster for all of them.
        drawn = [_drawn(font, one) for one in some]
        with refusing(font.path):
            whole = fontcut.slices(base.font, [one.codes for one in some], kind=font.kind,
                                   gids=drawn if any(drawn) else None)
        made = one_by_one([functools.partial(_made, font, functools.partial(bytes, cut), is_packed) for cut in whole],
                          _AT_ONCE)
        yield from ((one, cut, small) for one, (cut, small) in zip(some, made))


def _ready(font: Font) -> Tuple[Font, Base]:
    """A font with what its slices are cut of. One that cannot be prepared is cut as it is, which is said."""
    try:
        return font, _base_of(font)
    except Refused as refusal:
        font.notices.append(fitted.as_it_is(font.path, refusal))
        font = font._replace(is_fitted=False)
        return font, _base_of(font)


def _slices(fonts: Sequence[Font], folder: str, how: SliceOptions, progress: Progress
            ) -> Iterator[Tuple[Font, List[Written]]]:
    """Writes the slices of each font."""
    count, number = sum(len(font.slices) for font in fonts), 0
    for font in fonts:
        progress.say("preparing it" if font.is_fitted else "cutting it", os.path.basename(font.path))
        font, base = _ready(font)
        written: List[Written] = []
        lost = sliced_losses.sequences_in(font.font, _codes(font)) if font.kind in SHAPED else set()
        for one, cut, small in _cuts(font, base, how.woff2):
            number += 1
            lost = lost and lost - sequences.distinct(cut)
            progress.say(f"slice {number} of {count}", os.path.basename(font.path))
            name = f"{font.base}-{one.name}"
            written.append(Written(one, _put(folder, f"{name}.ttf", cut),
                                   None if small is None else _put(folder, f"{name}.woff2", small)))
        font.notices.extend(sliced_losses.dropped(font.path, _lost_features(font), lost))
        font.notices.extend(_loaded_words(font.path, {one.slice.name: (one.woff2 or one.cut)[1] for one in written}))
        yield font, written


def _loaded_words(path: str, sizes: Mapping[str, int]) -> Iterator[str]:
    """What is said of the bytes that a page loads of slices by the use of a language, which have these sizes."""
    for language in languages():
        first, *rest = [size for name, size in sizes.items() if name.startswith(f"{language}-")] or [0]
        if language in sizes and rest:
            yield (f"{path}: nearly each page in {language} loads {sizes[language] + first:,} bytes of the first two "
                   f"slices, and mostly {sorted(rest)[len(rest) // 2]:,} of each rarer one: for text that is known, "
                   "fontcut-web text makes one small file")


def _lost_features(font: Font) -> Set[str]:
    """The features that a font has for the characters of its slices and that these lack, if it is prepared for them."""
    lost = sliced_losses.others(font.font.data, font.features) if font.is_fitted else set()
    if not lost:
        return lost
    return lost & sliced_losses.others(fitted.fitted(font.font, _codes(font), font.kind, lost).data, font.features)


def paths_of(fonts: Sequence[Font], folder: str, how: SliceOptions) -> List[str]:
    """The paths of all files that are written for fonts."""
    endings = [".ttf", ".woff2"] if how.woff2 else [".ttf"]
    names = [f"{font.base}-{one.name}{ending}" for font in fonts for one in font.slices for ending in endings]
    return [os.path.join(folder, name) for name in [*names, *([SHEET, PAGE] if how.css else [])]]


def write_slices(fonts: Sequence[Font], folder: str, how: SliceOptions, progress: Progress) -> Dict[str, object]:
    """Writes the slices of fonts to a folder, and then, where they are wanted, a style sheet and a page. Returns what
    was written, as `--json` prints it."""
    os.makedirs(folder, exist_ok=True)
    written = list(_slices(fonts, folder, how, progress))
    told: Dict[str, object] = {"fonts": [_told(font, made) for font, made in written]}
    if how.css:
        styled = [Styled(font.face, font.shown, [Placed(one.slice, (one.woff2 or one.cut)[0]) for one in made])
                  for font, made in written]
        # The style sheet names files that are all there, and the page names the style sheet.
        sheet = style_sheet(styled, how.display, "slice", is_sliced=True).encode()
        _put(folder, SHEET, sheet)
        _put(folder, PAGE, page(styled, SHEET).encode())
        told.update(css=SHEET, css_bytes=len(sheet), css_brotli_bytes=compressed_size(sheet), page=PAGE,
                    preload=preloads(styled))
    return told


def _told(font: Font, made: Sequence[Written]) -> Dict[str, object]:
    rows = []
    for one in made:
        row = {"name": one.slice.name, "file": one.cut[0], "bytes": one.cut[1], "characters": len(one.slice.codes),
               "unicode_range": range_words(one.slice.codes)}
        rows.append({**row, **({"woff2": one.woff2[0], "woff2_bytes": one.woff2[1]} if one.woff2 else {})})
    return {"font": font.path, "kind": font.kind, "prepared": font.is_fitted, **font.face._asdict(), "slices": rows,
            "in_no_slice": font.unsliced,
            "left_out": range_words(font.left_out), "notices": font.notices}
