"""The fonts of a site: each is prepared once, for its pages or for languages, and cut and joined for sections."""
from __future__ import annotations

import functools
import itertools
import os
from typing import Dict, List, Mapping, NamedTuple, Optional, Sequence, Set, Tuple

import fontcut
from fontcut_output import Progress, read

from . import drawn, preparing, shaped, shaping
from .axes import kind_for, unused
from .common import SHAPED, Refused, codes_in
from .faces import Face, face_of, varying
from .inputs import accepted, mapped, refusing, sha256
from .prepare import Otherwise, made_of, wanted_of
from .preparing import PrepareOptions
from .processes import side_by_side
from .sets import codes_of, page_range, range_words, some_of, some_words
from .shaped import Known, Said
from .sheet import declarations
from .site_drawn import Asked, check
from .site_pages import CLOSED, EXACT, Modes, SitePage
from .site_settings import FILE, FontSettings
from .site_state import File, FontState, Place, SectionState, State, digest, digest_of
from .site_written import letters_with, with_text, written_by
from .styles import sheets_of
from .woff import packed

# What lets pages be that differ.
_ACCEPTS = (f"those that are drawn alike are not drawn again, and {FILE} may name pages that are not to be drawn: "
            "unchecked = [\"page.html\"]")
# How many ranges of new characters are named.
_NAMED = 8


class Run(NamedTuple):
    """A run: its folders, what is said in it, whether pages are drawn, whether their bytes are compared with those of
    whole fonts, whether no font may lack characters of a page, and how far it is."""

    place: Place
    said: List[str]
    is_drawn: bool
    is_compared: bool
    is_strict: bool
    progress: Progress


class Base(NamedTuple):
    """A font that is prepared: what its state is kept by, what its files are called, its settings, the whole font, the
    path of the prepared one and that font, the kind of its cuts, its face, and its state, which has the sections of the
    last run that are cuts of it."""

    key: str
    name: str
    settings: FontSettings
    whole: fontcut.Font
    path: str
    font: fontcut.Font
    kind: str
    face: Face
    state: FontState


def programs() -> Dict[str, str]:
    """The versions of what fonts are made by."""
    return {"fontcut-web": fontcut.__version__, "fontTools": preparing.VERSION, "hb-shape": shaping.version()}


def _codes(words: str) -> Set[int]:
    return set(codes_in(fontcut.ranges(words)))


def _features(one: FontSettings, pages: Sequence[SitePage]) -> Optional[List[str]]:
    """The features that stay of a font: those of its settings, and those that the style sheets of its pages turn on;
    all are `None`."""
    asked = preparing.features_of(one.features)
    turned_on = set().union(*(page.shown.turned_on for page in pages))
    return None if asked is None else sorted({*asked, *turned_on})


def _why(old: FontState, keys: Sequence[str], pages: Sequence[SitePage], codes: Sequence[int],
         features: Optional[List[str]]) -> str:
    """Why a font is prepared anew, or an empty text."""
    if old.key not in keys:
        return "its file, its settings, the axes that pages use or a program has changed"
    lacking = sorted(set(codes) - _codes(old.codes))
    if lacking:
        new = set(map(chr, lacking))
        page = next((page.name for page in pages if new & (page.letters | page.written.every)), FILE)
        return f"{page} has {some_words(lacking, _NAMED)}, which it had not"
    if old.features is None or features is not None and set(features) <= set(old.features):
        return ""
    return f"{', '.join(sorted(set(features or []) - set(old.features))) or 'all'} is a feature that it had not"


class Wished(NamedTuple):
    """A font that is to be prepared for pages: its settings, what its files are called, the whole font, the languages
    of the pages where these decide, and its state after the last run."""

    settings: FontSettings
    name: str
    whole: fontcut.Font
    languages: str
    pages: List[SitePage]
    old: Optional[FontState]

    @property
    def key(self) -> str:
        """What its state is kept by."""
        return key_of(self.name, self.languages)


def key_of(name: str, languages: str) -> str:
    """What the state of a font for pages in some languages is kept by."""
    return f"{name}:{languages}" if languages else name


def wished(one: FontSettings, name: str, whole: fontcut.Font, pages: Sequence[SitePage], languages: Mapping[str, str],
           before: State) -> List[Wished]:
    """A font for pages, once for each of these lists of languages, by the name of the page, of which it has characters.
    """
    found: List[Wished] = []
    for its in dict.fromkeys(languages[page.name] for page in pages):
        some = [page for page in pages if languages[page.name] == its]
        if mapped(whole, _letters(one, some)):
            found.append(Wished(one, name, whole, its, some, before.fonts.get(key_of(name, its))))
    return found


class Ready(NamedTuple):
    """A font that is ready to be cut: its bytes, and why it is not prepared, if it is not."""

    data: bytes
    why: str = ""


def _prepared(one: Wished) -> Ready:
    """The font, prepared; or as it is, where it would shape text of pages otherwise then."""
    how, letters = one.settings, _letters(one.settings, one.pages)
    codes = mapped(one.whole, letters)
    limits = preparing.limits_of(how.instance) if how.instance else dict.fromkeys(_unused(one))
    options = PrepareOptions(codes, _features(how, one.pages), how.is_hinted, limits, how.names, how.kern)
    wanted = wanted_of(one.whole, codes, letters, [page.shown.blocks for page in one.pages])
    try:
        return Ready(made_of(how.file, one.whole, wanted, options).data)
    except Otherwise as refusal:
        page = next((page.name for page in one.pages if refusal.text in page.shown.blocks), "")
        why = f"{refusal}{f', which is of {page}' if page else ''}"
        if how.instance:
            raise Refused(f"{why}: without instance it is cut as it is") from refusal
        return Ready(one.whole.data, f"{why}: it is cut as it is")


def _put(run: Run, one: Wished, ready: Ready) -> FontState:
    """Writes a font that is ready to be cut. One that is still not prepared keeps its cuts."""
    prepared, old = run.place.put(run.place.work, one.name, ".ttf", ready.data), one.old
    is_as_before = bool(ready.why and old and old.why and old.prepared.digest == prepared.digest)
    run.said.extend([ready.why] if ready.why else [f"{os.path.basename(one.settings.file)} is prepared now, and its "
                                                   "files get new names"] if old and old.why else [])
    codes = mapped(one.whole, _letters(one.settings, one.pages))
    return FontState(digest(one.whole.data), _key(one, _unused(one)), prepared, range_words(codes),
                     None if ready.why else _features(one.settings, one.pages), _known_whole(one),
                     old.sections if old and is_as_before else {}, old.shaped if old and is_as_before else {},
                     ready.why, _tried(one.pages) if ready.why else "")


def _tried(pages: Sequence[SitePage]) -> str:
    """A digest of pages that a font could not be prepared for: it is tried again when one of them has changed."""
    return digest_of(sorted([page.name, page.digest] for page in pages))


def _known_whole(one: Wished) -> int:
    """The bytes of the whole font as WOFF2, where these are known."""
    return one.old.whole if one.old and one.old.source == digest(one.whole.data) else 0


def _whole(one: Wished) -> int:
    """The bytes of the whole font as WOFF2, which takes long to make."""
    with refusing(one.name):
        return len(packed(one.whole.data))


def _letters(one: FontSettings, pages: Sequence[SitePage]) -> Set[str]:
    """The characters that a font is prepared for."""
    return set().union(*(page.letters | page.written.every for page in pages), written_by([one]).every)


def _unused(one: Wished) -> List[str]:
    """The axes that no page uses, which a prepared font goes without, unless its settings say which it has."""
    how = one.settings
    return [] if how.kind or how.instance else unused(one.whole.data, [(page.page, page.path) for page in one.pages])


def _keys(one: Wished) -> List[str]:
    """Digests of what a prepared font may be made of: without all axes that no page uses, or with some of these."""
    tags = _unused(one)
    return [_key(one, some) for count in range(len(tags), -1, -1) for some in itertools.combinations(tags, count)]


def _key(wanted: Wished, pinned: Sequence[str]) -> str:
    """A digest of what a prepared font is made of, beside the characters of pages: without some axes."""
    one = wanted.settings
    options: Dict[str, object] = {
        "languages": sorted(one.languages), "written": written_by([one]).digest, "features": one.features,
        "hinting": one.is_hinted, "names": one.names, "kern": one.kern, "instance": one.instance}
    options.update({"pinned": list(pinned)} if pinned else {})
    return digest(wanted.whole.data, digest_of(options).encode())


def _kept(run: Run, one: Wished) -> Optional[FontState]:
    """The state of the last run, if the font that was prepared is there, and has all that is wanted. Of one that was
    not prepared that is said again, unless its pages have changed."""
    if one.old is None or run.place.kept(run.place.work, one.old.prepared) is None:
        return None
    keys = _keys(one)
    if one.old.why and one.old.key in keys:
        is_same = one.old.tried == _tried(one.pages)
        run.said.extend([one.old.why] if is_same else [])
        return one.old if is_same else None
    codes = mapped(one.whole, _letters(one.settings, one.pages))
    why = _why(one.old, keys, one.pages, codes, _features(one.settings, one.pages))
    if why:
        its = f" for pages in {one.languages.replace('-', ', ')}" if one.languages else ""
        run.said.append(f"{os.path.basename(one.settings.file)} is prepared anew{its}, and its files get new names: "
                        f"{why}")
    return None if why else one.old


def bases(run: Run, every: Sequence[Wished]) -> List[Base]:
    """Fonts that are prepared, those side by side that are prepared anew."""
    states = [_kept(run, one) for one in every]
    anew = [one for one, state in zip(every, states) if state is None]
    run.progress.say("preparing it", anew[0].name if anew else "")
    prepared = iter(side_by_side([functools.partial(_prepared, one) for one in anew]))
    found = [_put(run, one, next(prepared)) if state is None else state for one, state in zip(every, states)]
    if run.is_compared:
        run.progress.say("packing the whole font, to compare its bytes", every[0].name)
        unknown = {one.name: one for one, state in zip(every, found) if not state.whole}
        wholes = dict(zip(unknown, side_by_side([functools.partial(_whole, one) for one in unknown.values()])))
        found = [state._replace(whole=wholes.get(one.name, state.whole)) for one, state in zip(every, found)]
    return [_base(run, one, state) for one, state in zip(every, found)]


def _base(run: Run, one: Wished, state: FontState) -> Base:
    """A font that is prepared, with its face."""
    how, path = one.settings, os.path.join(run.place.work, state.prepared.name)
    font = accepted(path)
    kind = how.kind or kind_for(font.data, [(page.page, page.path) for page in one.pages])
    face = face_of(font.data, one.name)
    face = varying(font.data, face) if kind == "variable" else face
    face = Face(how.family or face.family, how.style or face.style, how.weight or str(face.weight), face.stretch)
    return Base(one.key, one.name, how, one.whole, path, font, kind, face, state)


def _mode(base: Base, page: SitePage, modes: Modes) -> str:
    """Whether the cut of a font for a page is exact, closed, or lean, which is neither."""
    mode = modes.of(page, base.settings) if base.kind in SHAPED else base.kind
    return CLOSED if mode == EXACT and shaped.is_too_much(base.path, page.shown, base.kind) else mode


def _cut(run: Run, base: Base, page: SitePage, mode: str, known: Known) -> bytes:
    """The cut of a font for a page."""
    written = [written_by([base.settings]), page.written]
    shown = with_text(page.shown._replace(path=page.name), written[0].text)
    try:
        if mode == EXACT:
            others: Set[str] = set().union(*(one.others for one in written))
            said = Said(run.progress, base.name)
            return shaped.exact_cut(base.path, base.font, [shown], base.kind, said, others, known).data
        drawn = fontcut.variants(base.font, shown.text) if base.kind in SHAPED else None
        return fontcut.cut(base.font, mapped(base.font, letters_with(shown, written)), kind=base.kind, gids=drawn)
    except fontcut.Refused as refusal:
        raise Refused(f"{base.settings.file}: {refusal}") from refusal


def _before(run: Run, base: Base, old: Optional[SectionState], wanted: Mapping[str, str]) -> Optional[bytes]:
    """The cut of a section that new characters are joined into, or None. A cut is not taken that was closed for a page
    and is to be exact."""
    if old is None or old.base != _cuts_of(base):
        return None
    modes = {name: key.partition(":")[0] for name, key in wanted.items()}
    if any(key.partition(":")[0] != modes.get(name, key.partition(":")[0]) for name, key in old.pages.items()):
        return None
    return run.place.kept(run.place.work, old.cut)


def _cuts_of(base: Base) -> str:
    """A digest of what a cut is a cut of."""
    return digest_of([base.state.prepared.digest, base.kind])


class Section(NamedTuple):
    """A section whose cut is to be there: its font, its name, its pages, how each of these is read, its state after the
    last run, and the cut of that run, if new characters are joined into it."""

    base: Base
    name: str
    pages: List[SitePage]
    keys: Dict[str, str]
    old: Optional[SectionState]
    before: Optional[bytes]

    def changed(self) -> List[SitePage]:
        """The pages whose cuts are joined."""
        known = self.old.pages if self.old and self.before is not None else {}
        return [page for page in self.pages if known.get(page.name) != self.keys[page.name]]


class Cut(NamedTuple):
    """The cut of a section, its WOFF2 if it is another than that of the last run, and what is known of how texts are
    shaped."""

    data: bytes
    woff2: Optional[bytes]
    known: Known


def _section(run: Run, base: Base, name: str, pages: Sequence[SitePage], modes: Modes) -> Section:
    """A section with these pages."""
    old, written = base.state.sections.get(name), written_by([base.settings]).digest
    keys = {page.name: f"{_mode(base, page, modes)}:{digest_of([page.digest, written])}" for page in pages}
    return Section(base, name, list(pages), keys, old, _before(run, base, old, keys))


def _made(run: Run, one: Section) -> Cut:
    """The cut of a section: that of the last run, into which the cuts of pages are joined that have changed."""
    base, known = one.base, {manner: dict(parts) for manner, parts in one.base.state.shaped.items()}
    cuts = [] if one.before is None else [one.before]
    for page in one.changed():
        run.progress.say(f"cutting it for {page.name}", base.name)
        cuts.append(_cut(run, base, page, one.keys[page.name].partition(":")[0], known))
    data = fontcut.join(cuts, kind=base.kind) if len(cuts) > 1 else cuts[0]
    if one.old and data == one.before and run.place.kept(run.place.output, one.old.woff2) is not None:
        return Cut(data, None, known)
    run.progress.say(f"packing it for {one.name}", base.name)
    with refusing(base.name):
        small = packed(data)
    return Cut(data, small, known)


def _passed(run: Run, one: Section, modes: Modes) -> Dict[str, str]:
    """The same after this run."""
    if not run.is_drawn:
        return _checked(one)
    return {name: key for name, key in one.keys.items() if name not in modes.unchecked or name in _checked(one)}


def _checked(one: Section) -> Dict[str, str]:
    """How each page of a section was read that was drawn by its cut as by the whole font, and is so since: what is
    joined into a cut changes nothing of other pages."""
    if one.old is None or one.before is None:
        return {}
    return {name: key for name, key in one.old.checked.items() if one.keys.get(name) == key}


def _written(run: Run, one: Section, cut: Cut, known: Sequence[File], checked: Dict[str, str]) -> SectionState:
    """Writes the files of a section, and returns its state. Files of the last run are known."""
    if one.old and cut.woff2 is None:
        return one.old._replace(pages=one.keys, checked=checked)
    file_name = f"{one.base.name}-{one.name}"
    return SectionState(_cuts_of(one.base), one.keys, run.place.put(run.place.work, file_name, ".ttf", cut.data),
                        run.place.put_font(file_name, cut.woff2 or b"", known), checked)


def _woff2(run: Run, one: Section, cut: Cut) -> bytes:
    """The WOFF2 of a section, which was made by this run, or by one before it."""
    if cut.woff2 is not None or one.old is None:
        return cut.woff2 or b""
    return run.place.kept(run.place.output, one.old.woff2) or b""


def _asked(run: Run, every: Sequence[Section], cuts: Sequence[Cut], name: str) -> Asked:
    """A page of this name with its fonts and cuts: all of it by each font, or if fonts have parts of it, all of these
    at once."""
    its = [(one, cut, page) for one, cut in zip(every, cuts) for page in one.pages if page.name == name]
    page = its[0][2]
    is_still, found = drawn.is_still(page.page), []  # type: bool, List[drawn.Compared]
    for one, cut, page in (row for row in its if not row[2].is_part and name not in _checked(row[0])):
        found.append(drawn.Drawn(page.path, one.base.whole.data, _woff2(run, one, cut), is_still,
                                 page_range(codes_of(cut.data))))
    if any(page.is_part and name not in _checked(one) for one, _, page in its):
        found.append(drawn.DrawnBy(page.path, [drawn.Family(
            one.base.face.family, declarations(one.base.face), one.base.whole.data, _woff2(run, one, cut),
            page_range(codes_of(cut.data))) for one, cut, _ in its], is_still))
    sheets = [sheet.text for sheet in sheets_of(page.page, page.path)[0]]
    keys = sorted([_cuts_of(one.base), one.keys[name], *declarations(one.base.face)] for one, _, _ in its)
    return Asked(name, found, digest_of([name, sha256(read(page.path)), sheets, keys]))


def _check(run: Run, every: Sequence[Section], cuts: Sequence[Cut], modes: Modes) -> str:
    """Draws the pages that were not drawn yet, and says which these are."""
    run.progress.say("drawing pages")
    names = list(dict.fromkeys(page.name for one in every for page in one.pages))
    left = [name for name in names if name in modes.unchecked]
    drawn_names = [name for name in names if name not in modes.unchecked and any(
        page.name == name and name not in _checked(one) for one in every for page in one.pages)]
    count = check(run.place, [_asked(run, every, cuts, name) for name in drawn_names], _ACCEPTS)
    unchecked = f"; not {some_of(left)}, by unchecked of the settings" if left else ""
    if not count:
        return (f"checked: no page, for none has changed since it was; --anew --check makes all anew and checks all "
                f"({len(names)}){unchecked}")
    others = "; the others were before, and have not changed" if count < len(names) - len(left) else ""
    return f"checked: {count} of {len(names)} pages, which are drawn as by the whole fonts{others}{unchecked}"


class Sections(NamedTuple):
    """The states of fonts with the cuts of their sections, and what was checked, if that was asked for."""

    states: List[FontState]
    checked: List[str]


def sections(run: Run, found: Sequence[Tuple[Base, Sequence[SitePage]]], modes: Modes) -> Sections:
    """The states of fonts with the cuts of their sections, which are made side by side."""
    every = [_section(run, base, name, [page for page in pages if page.section == name], modes)
             for base, pages in found for name in dict.fromkeys(page.section for page in pages)]
    cuts = side_by_side([functools.partial(_made, run, one) for one in every])
    checked = [_check(run, every, cuts, modes)] if run.is_drawn else []
    states: Dict[str, FontState] = {base.key: base.state._replace(sections={}) for base, _ in found}
    known = [one.old.woff2 for one in every if one.old]
    for one, cut in zip(every, cuts):
        state = states[one.base.key]
        for manner, parts in cut.known.items():
            state.shaped.setdefault(manner, {}).update(parts)
        state.sections[one.name] = _written(run, one, cut, known, _passed(run, one, modes))
    return Sections([states[base.key] for base, _ in found], checked)
