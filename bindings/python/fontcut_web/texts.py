"""The command `fontcut-web text`: a cut of a font for the text of pages."""
from __future__ import annotations

import argparse
import contextlib
import json
import os
import sys
from typing import Dict, Iterable, List, Mapping, NamedTuple, Sequence, Set, Tuple

import fontcut
from fontcut_output import Progress, print_line, write

from . import losses, pages, sequences, styles
from .common import SHAPED, Missing, Refused, UsageError, need, part
from .feature_tags import misspelt
from .inputs import accepted, as_file, dropped_tables, mapped, read_pages, refusing
from .replaced import check_font, check_name, check_written, is_same
from .sets import Slice, page_range, range_words, some_words
from .shown import LABELS, OPEN, Shown, letters_of, read_styles, shown_by

# What is said of an option without a character, as where a variable of a shell is empty.
NO_TEXT = "--text is empty: it names no character"
# In so many sets of features texts are tried at most.
_TRIED = 16


class Cut(NamedTuple):
    """A cut of a font and its characters; what `--json` reports beside them, as its glyphs, and lines that warn; and
    whether it is closed though all text of its pages is known."""

    data: bytes
    codes: List[int]
    report: Dict[str, object]
    warnings: List[str]
    may_be_exact: bool = False


def _is_prepared(given: argparse.Namespace, source: str) -> bool:
    """Whether a font is prepared before it is cut: for cuts that have its layout tables, if it was not before."""
    return given.kind in SHAPED and not given.as_is and not part("prepare").is_prepared(source)


def _fitted(given: argparse.Namespace, font: fontcut.Font, shown: Sequence[Shown]) -> fontcut.Font:
    """The font, prepared for pages. Raises `Refused` where that cannot be."""
    codes = mapped(font, set().union(*map(letters_of, shown)))
    features: Set[str] = set().union(*(page.turned_on for page in shown))
    prepared: fontcut.Font = part("fitted").fitted(font, codes, given.kind, features, given.unused)
    return prepared


def _check_shapes(given: argparse.Namespace, font: fontcut.Font, source: str, cut: Cut, shown: Sequence[Shown]) -> None:
    """Raises `Refused` where the cut of a prepared font shapes text of pages otherwise than the font; other words of
    their letters too, if it has what these take."""
    letters = set(map(chr, cut.codes))
    texts = part("prepare").wanted_of(font, cut.codes, letters, [page.blocks for page in shown]).texts
    lines = {block for page in shown for block in page.blocks}
    # The cut has the variation sequences of lines alone.
    others = [] if given.shaped else [sequences.plain(text) for text in texts if text not in lines]
    sets = [(), *{tuple(f"{tag}={value}" for tag, value in one) for page in shown for one in page.features if one}]
    part("fitted").check(source, font, cut.data, given.kind,
                         [*(text for text in texts if text in lines), *others], sorted(sets)[:_TRIED])


def _closed(given: argparse.Namespace, font: fontcut.Font, shown: Sequence[Shown]) -> Cut:
    """The cut for the characters of pages; where it is to be shaped, also for those that a shaper takes for them, and
    for the glyphs of their variation sequences."""
    is_shaped = given.kind in SHAPED
    kept = mapped(font, set().union(*map(letters_of if is_shaped else _letters, shown)))
    drawn = set().union(*(fontcut.variants(font, page.text) for page in shown)) if is_shaped else None
    return Cut(fontcut.cut(font, kept, kind=given.kind, gids=drawn), kept, {}, [])


def _letters(page: Shown) -> Set[str]:
    """The characters of what a page shows."""
    return pages.shown(page.text)


def _exact(given: argparse.Namespace, font: fontcut.Font, source: str, shown: Sequence[Shown]) -> Cut:
    """The cut for the glyphs that pages take, and for the characters that a shaper takes for their text."""
    shaped = part("shaped")
    with as_file(source, font) as path, Progress("fontcut-web", given.quiet) as progress:
        exact = shaped.exact_cut(path, font, shown, given.kind, shaped.Said(progress, os.path.basename(source)))
    unknown = [line for page in shown for line in page.unknown]
    unknown += [f"{page.path}: {OPEN}" for page in shown if page.open]
    return Cut(exact.data, exact.codes, {"glyphs": exact.glyphs, "unknown": unknown}, unknown)


def _check_words(given: argparse.Namespace) -> None:
    """Raises `UsageError` for words that do not go together."""
    if len(given.files) < 3:
        raise UsageError("text needs one page at least, and then FONT and OUT")
    source, out = given.files[-2:]
    if out.lower().endswith((".html", ".htm", ".xhtml")):
        raise UsageError(f"{out} would be replaced by a font: FONT and OUT come last")
    check_name(out, is_packed=True)
    if is_same(source, out) and not given.force:
        raise UsageError(f"{out} is FONT, which has more than its cut: name another file")
    if given.shaped and given.kind not in (None, *SHAPED):
        raise UsageError(f"--shaped is for layout and variable cuts, and --{given.kind} asks for another kind")
    if given.css and not out.endswith((".ttf", ".woff2")):
        raise UsageError(f"{out}: a style sheet is for a file whose name ends in .ttf or .woff2")
    if given.features and not given.shaped and (given.as_is or given.kind not in (None, *SHAPED)):
        raise UsageError("--features is for layout and variable cuts of a prepared font, and for --shaped: others have "
                         "all features or none")


def _lacking(given: argparse.Namespace, source: str, font: fontcut.Font, shown: Sequence[Shown]) -> List[int]:
    """The characters of the pages that a font lacks, which are told. Raises `Refused` where that is asked for."""
    letters = set().union(*(_letters(page) - page.of_fields for page in shown))
    codes = sorted(sequences.without_selectors(map(ord, letters)))
    lacking = _missed(font, codes)
    if lacking:
        said = f"{source} lacks {len(lacking)} of {len(codes)} characters: {some_words(lacking)}"
        if given.strict:
            raise Refused(said)
        if not given.json and not given.quiet:
            print(f"fontcut-web: {said}", file=sys.stderr)
    return lacking


def _missed(font: fontcut.Font, codes: Sequence[int]) -> List[int]:
    """Those of some characters that a font lacks, and that are missed in a font of icons, where fontTools is there to
    know these."""
    with contextlib.suppress(Missing):
        found: List[int] = part("icons").lacking(font, codes)
        return found
    return fontcut.missing(font, codes)


def _unknown_features(given: argparse.Namespace, source: str, font: fontcut.Font) -> List[str]:
    """What is said of features that `--features` turns on and the font does not have."""
    tags = {tag for one in styles.features_of(given.features or []) for tag, value in one if value}
    lacking = part("preparing").lacking_features(font.data, tags) if tags else []
    near = misspelt(lacking)
    return [f"{source} has no feature {', '.join(lacking)}{': did you mean ' if near else ''}"
            f"{', '.join(near.values())}{'?' if near else ''}"] if lacking else []


def _dropped(given: argparse.Namespace, source: str, font: fontcut.Font, cut: Cut, shown: Sequence[Shown]) -> List[str]:
    """What is said of words that name nothing, and of what the cut drops: of variation sequences, where fontTools is
    there to know them."""
    lines = [NO_TEXT] if given.text == "" else []
    lines += _unknown_features(given, source, font)
    lines += losses.lines(source, font, cut.codes, given.kind, given.named is not None)
    with contextlib.suppress(Missing):
        lines += [f"{page.path}: {line}" for page in shown
                  for line in sequences.told(page.text, [(source, font, given.kind)])]
    return lines


def _of_icons(source: str, font: fontcut.Font, words: Mapping[str, Sequence[str]]) -> List[str]:
    """What is said of a font of icons, and of words of pages, by the names of these, that name no icon of it, where
    fontTools is there to know them."""
    with contextlib.suppress(Missing):
        icons = part("icons")
        if icons.may_have_icons(font) and icons.is_of_icons(font):
            return [f"{source} is a font of icons: fontcut-web icons cuts it for their names, and much smaller",
                    *(f"{path}: {source} has {line}" for path, some in words.items()
                      for line in icons.unmade(font, some, is_of_text=True))]
    return []


def _sheet_beside(out: str) -> str:
    """The path of the style sheet beside OUT."""
    return f"{os.path.splitext(out)[0]}.css"


def _write_sheet(given: argparse.Namespace, font: fontcut.Font, source: str, cut: Cut) -> Dict[str, object]:
    """Writes a style sheet beside OUT that gives the cut the font's family. Returns what `--json` reports of it."""
    out: str = given.files[-1]
    faces, sheet = part("faces"), part("sheet")
    face = faces.face_of(font.data, os.path.splitext(os.path.basename(source))[0])
    face = faces.varying(cut.data, face) if given.kind == "variable" else face
    placed = sheet.Placed(Slice(os.path.basename(out), cut.codes), os.path.basename(out))
    styled = [sheet.Styled(face, face, [placed])]
    path = _sheet_beside(out)
    write(path, sheet.style_sheet(styled, given.display, "text").encode())
    return {"css": path, "preload": sheet.preloads(styled)[0]}


def _needed(given: argparse.Namespace) -> None:
    """Raises `Missing` where a package is not there that the words take."""
    is_packed = given.files[-1].lower().endswith(".woff2")
    is_read = given.shaped or given.check or given.css or given.kind not in ("lean", "full")
    need(*["fontTools"] if is_packed or is_read else [], *["brotli"] if is_packed else [])


def _base(given: argparse.Namespace, font: fontcut.Font, source: str, shown: Sequence[Shown]
          ) -> Tuple[fontcut.Font, List[str]]:
    """What is cut: the font, prepared where that is to be and can be; and what is said if it cannot."""
    if not _is_prepared(given, source):
        return font, []
    # What is refused as it is is not refused for being prepared.
    fontcut.cut_size(font, [], kind=given.kind)
    try:
        return _fitted(given, font, shown), []
    except Refused as refusal:
        return font, [part("fitted").as_it_is(source, refusal)]


def _made(given: argparse.Namespace, font: fontcut.Font, source: str, shown: Sequence[Shown]) -> Cut:
    """The cut of a font for pages; of what was prepared of it, if that is so."""
    try:
        base, said = _base(given, font, source, shown)
        cut = _exact(given, base, source, shown) if given.shaped else _closed(given, base, shown)
    except fontcut.Refused as refusal:
        raise Refused(f"{source}: {refusal}") from refusal
    if base is not font:
        _check_shapes(given, font, source, cut, shown)
    return cut._replace(report={**cut.report, "kind": given.kind, "prepared": base is not font},
                        warnings=[*cut.warnings, *said],
                        may_be_exact=not given.shaped and not any(page.unknown or page.open for page in shown))


def _said(given: argparse.Namespace, source: str, out: str, length: int, cut: Cut) -> str:
    """What is said of the cut that was written: whether the font was prepared for it, so that it joins with no other,
    and whether it could be smaller."""
    name = os.path.basename(source)
    smaller = "; --shaped makes an exact one, of just the glyphs of its text" if cut.may_be_exact else ""
    how = (f"{name}, which was prepared for it: it joins with no other cut; --as-is makes one that does{smaller}"
           if cut.report["prepared"] else f"{name} as it is, which joins with its other {given.kind} cuts")
    if out.lower().endswith(".woff2") and not cut.report["prepared"]:
        how = f"{name} as it is"
    return f"{out}: {length:,} bytes, a {given.kind} cut of {how}"


def _report(given: argparse.Namespace, length: int, cut: Cut, lacking: List[int], notices: List[str],
            sheet: Dict[str, object]) -> None:
    """Prints what was written, and says what is to be known of it."""
    *_, source, out = given.files
    if given.json:
        print_line(json.dumps({"file": out, "bytes": length, "characters": len(cut.codes),
                               "unicode_range": range_words(cut.codes), "lacking": range_words(lacking),
                               "notices": notices, **cut.report, **sheet}, indent=2))
    elif not given.quiet:
        print_line(_said(given, source, out, length, cut))
        _say([*cut.warnings, *notices])


def _say(lines: Iterable[str]) -> None:
    for line in lines:
        print(f"fontcut-web: {line}", file=sys.stderr)


def _check_drawn(given: argparse.Namespace, every: Sequence[object], notices: Sequence[str]) -> None:
    """Raises `Refused` where a page is drawn otherwise by the cut, after what is said of the cut, which may be why."""
    try:
        part("drawn").check(every)
    except Refused as refusal:
        _say(() if given.quiet else notices)
        if given.kind in SHAPED or any(": take --" in line for line in notices):
            raise
        raise Refused(f"{refusal}; a {given.kind} cut has no kerning and no ligatures: take --layout") from refusal


def run(given: argparse.Namespace) -> None:
    """Writes a cut for the text of pages."""
    _check_words(given)
    *paths, source, out = given.files
    _needed(given)
    read = read_pages(paths, ": pages come first")
    drop, font = dropped_tables(given.drop or [], given.kind), accepted(source)
    if not given.force:
        check_font(source, font, out)
        if given.css:
            check_written([_sheet_beside(out)])
    if drop:
        with refusing(source):
            font = fontcut.Font(part("woff").without(font.data, drop))
    given.named = given.kind
    given.unused = [] if given.kind else part("axes").unused(font.data, zip(read, paths))
    given.kind = given.kind or part("axes").kind_for(font.data, zip(read, paths))
    more = styles.features_of(given.features or [])
    shown = [shown_by(page, path, read_styles(page, path), more, given.text or "") for page, path in zip(read, paths)]
    lacking = _lacking(given, source, font, shown)
    cut = _made(given, font, source, shown)
    with refusing(source):
        data = part("woff").packed(cut.data) if out.lower().endswith(".woff2") else cut.data
    notices = [*(f"{one.path}: it draws no text" for one in shown if not one.text.strip("\0 \t\r\n\f")),
               *_dropped(given, source, font, cut, shown),
               *(f"{path}: {LABELS}" for page, path in zip(read, paths) if page.labels),
               *_of_icons(source, font, {path: page.words for page, path in zip(read, paths)})]
    if given.check:
        drawn = part("drawn")
        ranges = page_range(cut.codes) if given.css else ""
        every = [drawn.Drawn(path, font.data, data, drawn.is_still(page), ranges) for path, page in zip(paths, read)]
        _check_drawn(given, every, [*cut.warnings, *notices])
    write(out, data)
    sheet = _write_sheet(given, font, source, cut) if given.css else {}
    _report(given, len(data), cut, lacking, notices, sheet)
