"""The command `fontcut-web site`: the fonts of a site, which are made anew where something has changed."""
from __future__ import annotations

import argparse
import os
import sys
from typing import Dict, Iterator, List, Mapping, NamedTuple, Sequence, Set, Tuple

import fontcut
from fontcut_output import Progress, print_line

from . import hinting, own_faces, preparing, site_example
from .common import Refused, UsageError, need
from .drawn import Differs
from .faces import face_of
from .feature_tags import check_spelling
from .icons import is_of_icons
from .inputs import accepted, mapped
from .sets import codes_of
from .shaped import own_sets
from .site_fonts import Base, Run, Wished, bases, programs, sections, wished
from .site_pages import SitePage, languages_of, modes_of, pages_of
from .site_report import REPORT, Made, check_faces, is_ours, lines, report, sheets
from .site_settings import FILE, Settings, named, settings_of
from .site_state import NOTHING, FontState, Place, SectionState, State, bytes_at, put_text
from .site_text import SiteFont, views
from .site_told import Lacked, lacking_of, stale
from .site_told import told as told_of
from .site_written import written_by


def _names(settings: Settings) -> List[str]:
    """What the files of each font are called: as its own file, with a number where another has that name."""
    found: List[str] = []
    taken: Set[str] = set()
    for font in settings.fonts:
        stem = os.path.splitext(os.path.basename(font.file))[0]
        name, number = stem, 1
        while name.casefold() in taken:
            number += 1
            name = f"{stem}-{number}"
        taken.add(name.casefold())
        found.append(name)
    return found


def _lacking_features(font: SiteFont) -> List[str]:
    """What is said of features that the settings of a font name and the font does not have."""
    named = set(preparing.features_of(font.settings.features) or []) - set(preparing.default_features())
    lacking = preparing.lacking_features(font.whole.data, named)
    check_spelling(font.settings.file, lacking)
    return [f"{font.settings.file} has no feature {', '.join(lacking)}"] if lacking else []


def _shown_in(run: Run, font: SiteFont, pages: Sequence[SitePage], empty: Set[str]) -> List[SitePage]:
    """Pages as a font shows them: with the features that its settings keep, and without those of these names, which
    show nothing. One of icons has no letters of the languages that readers write in, which would bring all icons."""
    sets = own_sets(font.whole.data, font.settings.features)
    is_written = bool(written_by([font.settings]).every)
    its = [page.shaped_with(sets) for page in pages if is_written or page.name not in empty]
    if any(page.written.letters for page in its) and is_of_icons(font.whole):
        run.said.append(f"{font.settings.file}: its ligatures are icons: languages of a [[page]] are not for it")
        return [page.without_letters() for page in its]
    return its


class Found(NamedTuple):
    """The fonts that are prepared, each with its pages, which have characters of it; and by the names of pages, letters
    that no font of their element has."""

    bases: List[Tuple[Base, List[SitePage]]]
    lacked: Lacked


def _bases(run: Run, settings: Settings, pages: Sequence[SitePage], before: State) -> Found:
    """The fonts that are prepared."""
    names, languages = [page.name for page in pages], languages_of(settings, pages)
    fonts = [SiteFont(font, name, accepted(font.file), named(settings, os.path.basename(font.file), font.pages, names))
             for font, name in zip(settings.fonts, _names(settings))]
    seen = views(settings, fonts, pages)
    run.said.extend(seen.said)
    every, empty = [], {page.name for page in pages if page.is_empty}  # type: List[Wished], Set[str]
    for number, (font, shown) in enumerate(zip(fonts, seen.pages), 1):
        family = font.settings.family or face_of(font.whole.data, font.name).family
        run.said.extend(_lacking_features(font))
        its = _shown_in(run, font, shown, empty)
        wishes = wished(font.settings, font.name, font.whole, its, languages, before)
        if not wishes and not any(page.name in font.pages and (
                page.name in empty or mapped(font.whole, page.letters)) for page in pages):
            raise Refused(f"{font.settings.file}: it maps no character of its pages")
        if not wishes:
            run.said.append(f"font {number}, {font.settings.file}: no page draws text in it: nothing is made of it"
                            f"{seen.near_to(family)}")
        run.said.extend(f"font {number}, {font.settings.file}: {line}" for line in own_faces.told(
            font.settings.file, family,
            {face for page in pages if page.name in font.pages for face in page.read.faces}, settings.folder,
            [one.file for one in settings.fonts]))
        every += wishes
    return Found([(base, [page for page in one.pages if mapped(base.font, page.letters)])
                  for one, base in zip(every, bases(run, every))], seen.lacked)


def _made(run: Run, base: Base, state: FontState) -> List[Made]:
    """The cuts of a font for its sections, which has this state."""
    found: List[Made] = []
    for name, section in state.sections.items():
        old = base.state.sections.get(name)
        cut = run.place.kept(run.place.work, section.cut) or b""
        found.append(Made(base.settings.file, name, base.face, codes_of(cut), state.whole, section,
                          old is None or old.woff2 != section.woff2))
    return found


def _unhinted(place: Place, found: Sequence[Tuple[Base, Sequence[SitePage]]], states: Sequence[FontState], before: State
              ) -> Iterator[str]:
    """What is said of fonts that no run has made before and whose settings do not say whether they are hinted, by the
    longest file of each."""
    longest: Dict[str, SectionState] = {}
    for (base, _), state in zip(found, states):
        if base.settings.hinting is None and base.key not in before.fonts and state.sections:
            name = os.path.basename(base.settings.file)
            known = [longest[name]] if name in longest else []
            longest[name] = max([*known, *state.sections.values()], key=lambda one: one.woff2.size)
    yield from hinting.told({name: (place.kept(place.work, one.cut) or b"", place.kept(place.output, one.woff2) or b"")
                             for name, one in longest.items()})


def _check_ours(place: Place, before: State, names: Sequence[str]) -> None:
    """Raises `Refused` where a file would be replaced that this command has not written."""
    for name in names:
        data = bytes_at(place.output, name)
        if data is not None and name not in before.sheets and not is_ours(data):
            raise Refused(f"{os.path.join(place.output, name)} is not written by fontcut-web site: move it away, or "
                          "name another folder as out")


def _write(place: Place, texts: Mapping[str, str], told: str, state: State) -> int:
    """Replaces style sheets and the report, and then the state. How many style sheets have changed."""
    changed = [put_text(place.output, name, text) for name, text in texts.items()]
    put_text(place.output, REPORT, told)
    place.keep(state)
    return sum(changed)


def _run(run: Run, settings: Settings, before: State) -> Tuple[str, List[str]]:
    """Makes what has changed. The report, and what is said at the end."""
    pages = pages_of(settings)
    modes = modes_of(settings, pages)
    found, lacked = _bases(run, settings, pages, before)
    check_faces((page.section, base.face, base.settings.file) for base, its in found for page in its)
    run.said.extend(told_of(settings, modes, found, pages))
    lacking = list(lacking_of(settings, found, pages, lacked))
    if run.is_strict and lacking:
        raise Refused("\n".join(lacking))
    run.said.extend(lacking)
    states, checked = sections(run, found, modes)
    every = [one for (base, _), state in zip(found, states) for one in _made(run, base, state)]
    run.said.extend(_unhinted(run.place, found, states, before))
    texts = sheets(every, settings.display)
    _check_ours(run.place, before, [*texts, REPORT])
    run.said.extend(stale(settings, pages, {*texts, *(one.state.woff2.name for one in every)},
                          {name for one in every for name in one.state.pages}))
    fonts = {base.key: state for (base, _), state in zip(found, states)}
    told = report(settings, pages, every)
    changed = _write(run.place, texts, told, State(programs(), fonts, [*texts, REPORT]))
    count = sum(one.is_new for one in every)
    return told, [*checked, f"made anew: {count} of {len(every)} fonts, {changed} of {len(texts)} style sheets"]


def _settings(folder: str) -> Settings:
    """The settings of the site in a folder. Where it has none, or an empty file, as a shell makes it for what is
    printed, some are printed that it could have."""
    path = os.path.join(folder, FILE)
    is_empty = os.path.isfile(path) and not os.path.getsize(path)
    if os.path.isdir(folder) and (is_empty or not os.path.exists(path)):
        for line in site_example.example(folder):
            print_line(line)
    if is_empty:
        raise UsageError(f"{path} is empty")
    return settings_of(folder)


def _say(lines: Sequence[str]) -> None:
    for line in lines:
        print(f"fontcut-web: {line}", file=sys.stderr)


def run(given: argparse.Namespace) -> None:
    """Makes the fonts of a site."""
    need("fontTools", "brotli", "tomli")
    settings = _settings(given.folder)
    place, said = Place(settings.output, settings.work), []  # type: Place, List[str]
    with place.locked(), Progress("fontcut-web", given.quiet) as progress:
        before = NOTHING if given.anew else place.state()
        if before.programs and before.programs != programs():
            said.append("all fonts are made anew: a program has another version")
            before = NOTHING
        try:
            told, last = _run(Run(place, said, given.check, given.whole, given.strict, progress), settings, before)
        except Differs:
            _say(() if given.quiet else said)
            raise
    _say(() if given.quiet else [*said, *(last[:-1] if given.json else [])])
    for line in [told.rstrip()] if given.json else [] if given.quiet else [*lines(told), *last]:
        print_line(line)
