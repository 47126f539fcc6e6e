"""What is kept of a site between runs, beside its output: prepared fonts, cuts, and a file of what they were made of.

Files of the output and of this folder have names by their bytes, and are never changed. Style sheets name them and are
replaced when all of them are there; then the file of the state is, and then files go that nothing names any more. So a
run that is killed leaves a site that is whole, and the next one goes on from the state before it."""
from __future__ import annotations

import contextlib
import fcntl
import glob
import hashlib
import json
import os
from typing import Any, Dict, Iterable, Iterator, List, Mapping, NamedTuple, Optional

from fontcut_output import read, write

from .common import Refused
from .inputs import sha256

_STATE, _LOCK, _BEGUN = "state.json", "lock", "begun.txt"
# What `write` makes beside a file before it replaces it, and a killed run leaves.
_UNFINISHED = ".fontcut-????????"
_VERSION = 2
_DIGITS = 8


def digest(*parts: bytes) -> str:
    """A digest of some bytes, which tells where each of them ends."""
    found = hashlib.sha256()
    for part in parts:
        found.update(b"%d:" % len(part))
        found.update(part)
    return found.hexdigest()


def digest_of(value: object) -> str:
    """A digest of what JSON has."""
    return digest(json.dumps(value, sort_keys=True).encode())


class File(NamedTuple):
    """A file that is kept: its name, the digest of its bytes, and how many there are."""

    name: str
    digest: str
    size: int


class SectionState(NamedTuple):
    """The cut of a section: what it is a cut of, how each of its pages was read, its files, and how each of its pages
    was read that was drawn by it as by the whole font."""

    base: str
    pages: Dict[str, str]
    cut: File
    woff2: File
    checked: Dict[str, str]


class FontState(NamedTuple):
    """A font: a digest of it, one of it with its settings, the prepared font, the characters and features that this
    has, the bytes of the whole font as WOFF2 (0 where they are not known), its cuts, the glyphs that it takes for parts
    of texts, by digests of how they are shaped and of these parts, and if it is not prepared, why, and a digest of the
    pages that it was not prepared for."""

    source: str
    key: str
    prepared: File
    codes: str
    features: Optional[List[str]]
    whole: int
    sections: Dict[str, SectionState]
    shaped: Dict[str, Dict[str, List[int]]]
    why: str = ""
    tried: str = ""


class State(NamedTuple):
    """What a run has made: by which programs, its fonts by the names of their files, and its style sheets."""

    programs: Dict[str, str]
    fonts: Dict[str, FontState]
    sheets: List[str]

    def outputs(self) -> List[str]:
        """The names of the files of the output."""
        fonts = [section.woff2.name for font in self.fonts.values() for section in font.sections.values()]
        return [*fonts, *self.sheets]

    def works(self) -> List[str]:
        """The names of the files beside it."""
        cuts = [section.cut.name for font in self.fonts.values() for section in font.sections.values()]
        return [*(font.prepared.name for font in self.fonts.values()), *cuts]


NOTHING = State({}, {}, [])


def _section(told: Mapping[str, Any]) -> SectionState:
    return SectionState(told["base"], dict(told["pages"]), File(*told["cut"]), File(*told["woff2"]),
                        dict(told.get("checked", {})))


def _font(told: Mapping[str, Any]) -> FontState:
    sections = {name: _section(section) for name, section in told["sections"].items()}
    shaped = {manner: {part: list(map(int, glyphs.split())) for part, glyphs in parts.items()}
              for manner, parts in told["shaped"].items()}
    return FontState(told["source"], told["key"], File(*told["prepared"]), told["codes"], told["features"],
                     told["whole"], sections, shaped, told.get("why", ""), told.get("tried", ""))


def _told(font: FontState) -> Dict[str, Any]:
    """A font as the file of the state has it, where the glyphs of each part of a text stand in one line."""
    shaped = {manner: {part: " ".join(map(str, glyphs)) for part, glyphs in parts.items()}
              for manner, parts in font.shaped.items()}
    sections = {name: section._asdict() for name, section in font.sections.items()}
    return {**font._asdict(), "sections": sections, "shaped": shaped}


class Place:
    """The folders of a site: that of its output, and that of what stands beside it. One run at a time has them."""

    def __init__(self, output: str, work: str) -> None:
        self.output, self.work = output, work
        self.fonts: Dict[str, File] = {}

    @contextlib.contextmanager
    def locked(self) -> Iterator[None]:
        """Keeps other runs away. What a killed run left is removed."""
        os.makedirs(self.output, exist_ok=True)
        os.makedirs(self.work, exist_ok=True)
        with open(os.path.join(self.work, _LOCK), "ab") as lock:
            try:
                fcntl.flock(lock, fcntl.LOCK_EX | fcntl.LOCK_NB)
            except BlockingIOError as error:
                raise Refused(f"{self.work}: another run is at work on this site") from error
            for folder in self.output, self.work:
                for path in glob.glob(os.path.join(glob.escape(folder), _UNFINISHED)):
                    os.unlink(path)
            yield

    def state(self) -> State:
        """What the last run that ended has made; nothing where that cannot be read."""
        with contextlib.suppress(OSError, ValueError, TypeError, KeyError, AttributeError):
            told = json.loads(read(os.path.join(self.work, _STATE)))
            if told["version"] == _VERSION:
                return State(dict(told["programs"]), {name: _font(font) for name, font in told["fonts"].items()},
                             list(told["sheets"]))
        return NOTHING

    def keep(self, state: State) -> None:
        """Keeps what a run has made, which ends it, and removes what is no longer named."""
        before = self.state()
        told = {"version": _VERSION, "programs": state.programs, "sheets": state.sheets,
                "fonts": {name: _told(font) for name, font in state.fonts.items()}}
        # Where this run is killed before it has removed them, the next one does.
        self._begin({*before.outputs(), *before.works()} - {*state.outputs(), *state.works()})
        put_text(self.work, _STATE, f"{json.dumps(told, indent=1, sort_keys=True)}\n")
        begun = (bytes_at(self.work, _BEGUN) or b"").decode(errors="surrogateescape").splitlines()
        _remove(self.output, {*begun} - {*state.outputs()})
        _remove(self.work, {*begun} - {*state.works()})
        _remove(self.work, [_BEGUN])

    def _begin(self, names: Iterable[str]) -> None:
        """Notes the names of files that are removed, if no state names them in the end."""
        lines = "".join(f"{name}\n" for name in names)
        if lines:
            with open(os.path.join(self.work, _BEGUN), "a", encoding="utf-8", errors="surrogateescape") as begun:
                begun.write(lines)

    def kept(self, folder: str, file: File) -> Optional[bytes]:
        """The bytes of a file, or None where it is not there or has others."""
        data = bytes_at(folder, file.name)
        return data if data is not None and sha256(data) == file.digest else None

    def put_font(self, base: str, data: bytes, known: Iterable[File] = ()) -> File:
        """Writes a font of the output. One with the bytes of a font that is known, or that this run has written, is
        that file, so that a visitor loads it once."""
        for file in known:
            self.fonts.setdefault(file.digest, file)
        found = sha256(data)
        self.fonts[found] = self.put(self.output, base, ".woff2", data, self.fonts.get(found))
        return self.fonts[found]

    def put(self, folder: str, base: str, ending: str, data: bytes, same: Optional[File] = None) -> File:
        """Writes a file whose name ends with digits of its digest, or that of the same bytes, and returns what is kept
        of it."""
        found = sha256(data)
        file = same or File(f"{base}-{found[:_DIGITS]}{ending}", found, len(data))
        if self.kept(folder, file) is None:
            self._begin([file.name])
            write(os.path.join(folder, file.name), data)
        return file


def bytes_at(folder: str, name: str) -> Optional[bytes]:
    """The bytes of a file, or None where it is not there."""
    try:
        return read(os.path.join(folder, name))
    except FileNotFoundError:
        return None


def put_text(folder: str, name: str, text: str) -> bool:
    """Replaces a file by a text where it has another, and returns whether it had."""
    data = text.encode()
    if bytes_at(folder, name) == data:
        return False
    write(os.path.join(folder, name), data)
    return True


def _remove(folder: str, names: Iterable[str]) -> None:
    for name in names:
        with contextlib.suppress(FileNotFoundError):
            os.unlink(os.path.join(folder, name))
