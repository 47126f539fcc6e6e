"""What a page fetches that shows ten texts one after the other: cuts for the characters that lack, as examples/server
answers for them, a whole font each time, or slices that do not join."""
import base64
import gzip
import hashlib
import os
import shutil
import subprocess
import sys
import urllib.parse
from typing import Callable, Iterable, NamedTuple, Optional, Sequence

import fontcut
from checks import DEJAVU, PROGRAM, TOP, put, run, skip
from cut_sizes import mapped_codes
from document_texts import document_lines
from fontcut import needed
from join_timing import SOURCE
from measure import DROPPED, HB_SUBSET, Font, need
from pages import length_of
from shaping_texts import TEXTS

TEXT_COUNT = 10
# How the texts begin of a page in Latin, Greek and Cyrillic letters.
BEGINS = ("All human", "Tous les", "Alle Menschen", "Wszyscy", "Bütün", "Όλοι", "Ἐν ἀρχῇ", "Все люди", "Всі люди",
          "Сва")
LEAN, LAYOUT = "lean", "layout"
LATIN = f"{DEJAVU}/DejaVuSans.ttf"
FONTS = (SOURCE, LEAN), (LATIN, LEAN), (LATIN, LAYOUT)
PACKAGES = {SOURCE: "fonts-lxgw-wenkai", LATIN: "fonts-dejavu-core"}

GZIP, BROTLI = "cuts that are joined, by gzip as nginx packs", "the same, by Brotli"
KNOWN = "the same, the first one by gzip and then a dictionary"
WHOLE, OTHER_WHOLE = "a whole cut each time, WOFF2", "`hb-subset`, a whole font each time, WOFF2"
SLICES = "`hb-subset`, slices that do not join, WOFF2"


class Wire(NamedTuple):
    """A font, the kind of its cuts, how many characters each text adds, and by its name what each way fetches for each
    text, in bytes. A way whose program is not there is left out."""

    font: str
    kind: str
    added: list[int]
    sizes: dict[str, list[int]]


def additions(path: str, kind: str) -> list[list[int]]:
    """For each text the codes that the texts before it did not need, of those that the font maps."""
    name = os.path.basename(path)[:-4]
    mapped = set(mapped_codes(Font(name, path, 0, 0)))
    if path == SOURCE:
        texts = ["".join(lines) for lines in document_lines(name, mapped, TEXT_COUNT)]
    else:
        texts = [text for begin in BEGINS for text in TEXTS if text.startswith(begin)]
    need(f"{name}: the texts are there", len(texts) == TEXT_COUNT)
    found: list[list[int]] = []
    known: set[int] = set()
    for text in texts:
        codes = {ord(letter) for letter in (needed(text) if kind == LAYOUT else text)} & mapped
        found.append(sorted(codes - known))
        known |= codes
    need(f"{name}: each text adds characters", all(found))
    return found


class Browser:
    """Asks the application of examples/server for cuts of a font, and may keep the first one as a dictionary."""

    def __init__(self, application: Callable[..., Iterable[bytes]], path: str, kind: str, keeps: bool) -> None:
        self.application, self.name, self.kind, self.keeps = application, os.path.basename(path), kind, keeps
        self.known: dict[str, str] = {}
        self.headers: dict[str, str] = {}

    def ask(self, codes: Sequence[int]) -> tuple[bytes, Optional[str]]:
        """The bytes of the answer for these codes, and its coding, if it has one."""
        query = urllib.parse.urlencode({"unicodes": ",".join(f"{code:X}" for code in codes), "kind": self.kind})
        environ = {"REQUEST_METHOD": "GET", "PATH_INFO": f"/{self.name}", "QUERY_STRING": query, **self.known}
        body = b"".join(self.application(environ, self.starts))
        if self.keeps and not self.known and "Use-As-Dictionary" in self.headers:
            digest = base64.b64encode(hashlib.sha256(body).digest()).decode()
            self.known = {"HTTP_AVAILABLE_DICTIONARY": f":{digest}:", "HTTP_ACCEPT_ENCODING": "gzip, dcb, dcz",
                          "HTTP_DICTIONARY_ID": self.headers["Use-As-Dictionary"].partition("id=")[2]}
        return body, self.headers.get("Content-Encoding")

    def starts(self, status: str, headers: Iterable[tuple[str, str]]) -> None:
        """Keeps the headers of an answer."""
        need(f"{self.name}: the server answers", status == "200 OK", status)
        self.headers = dict(headers)


def by_brotli(data: bytes) -> int:
    """The length of bytes by Brotli at its highest level."""
    return len(subprocess.run(["brotli", "-q", "11", "-c"], input=data, capture_output=True, check=True).stdout)


def by_gzip(data: bytes) -> int:
    """The length of bytes by gzip at its lowest level, which is that of nginx."""
    return len(gzip.compress(data, 1))


class Wires:
    """Makes what each way fetches, in a folder."""

    def __init__(self, folder: str) -> None:
        import app  # of examples/server, which `measured` puts on the path
        import dictionaries
        fonts = os.path.join(folder, "fonts")
        os.makedirs(fonts)
        for path in {path for path, _ in FONTS if os.path.exists(path)}:
            os.symlink(path, os.path.join(fonts, os.path.basename(path)))
        self.application, self.has_dictionaries = app.Application(fonts), dictionaries.CAN_PACK
        self.out, self.codes = os.path.join(folder, "wire.ttf"), os.path.join(folder, "wire.codes")

    def cuts(self, path: str, kind: str, added: list[list[int]]) -> dict[str, list[int]]:
        """What is fetched of cuts that a page joins."""
        browser = Browser(self.application, path, kind, keeps=False)
        cuts = [browser.ask(codes)[0] for codes in added]
        every = browser.ask(sorted(sum(added, [])))[0]
        need(f"{path}: the cuts join to the cut for all texts", fontcut.join(cuts, kind=kind) == every)
        found = {GZIP: list(map(by_gzip, cuts))}
        if shutil.which("brotli"):
            found[BROTLI] = list(map(by_brotli, cuts))
        return found

    def packed(self, path: str, kind: str, added: list[list[int]]) -> dict[str, list[int]]:
        """What is fetched of them by a browser that takes dictionaries. What has no dictionary nginx packs."""
        if not self.has_dictionaries:
            skip(f"{os.path.basename(path)}: dictionaries", "Debian's package python3-zstandard is not installed")
            return {}
        browser = Browser(self.application, path, kind, keeps=True)
        answers = [browser.ask(codes) for codes in added]
        codings = [coding for _, coding in answers]
        need(f"{path}: dictionaries are taken", codings == [None] + ["dcz"] * (TEXT_COUNT - 1), codings)
        return {KNOWN: [len(body) if coding else by_gzip(body) for body, coding in answers]}

    def woff2(self, codes: Sequence[int], *words: str) -> int:
        """The length as WOFF2 of what a program writes for these codes."""
        put(self.codes, "".join(f"U+{code:X}\n" for code in codes).encode())
        ran = run(*words)
        need(f"{words[0]} ends well", ran[0] == 0, words, ran[2])
        length = length_of(self.out).woff2
        assert length, "woff2_compress is there"
        return length

    def fonts(self, path: str, kind: str, added: list[list[int]]) -> dict[str, list[int]]:
        """What is fetched where each text is answered with a whole font, or with a slice that does not join."""
        if not shutil.which("woff2_compress"):
            skip(f"{os.path.basename(path)}: WOFF2", "Debian's package woff2 is not installed")
            return {}
        so_far = [sorted(sum(added[:count + 1], [])) for count in range(len(added))]
        cut = [PROGRAM, "subset", f"--{kind}", path, self.out, "--codes-file", self.codes]
        found = {WHOLE: [self.woff2(codes, *cut) for codes in so_far]}
        if not os.path.exists(HB_SUBSET):
            skip(f"{os.path.basename(path)}: hb-subset", "Debian's package libharfbuzz-bin is not installed")
            return found
        other = [HB_SUBSET, f"--unicodes-file={self.codes}", f"--output-file={self.out}", path]
        other += [DROPPED] if kind == LEAN else []
        found[OTHER_WHOLE] = [self.woff2(codes, *other) for codes in so_far]
        found[SLICES] = [self.woff2(codes, *other) for codes in added]
        return found


def measured(folder: str, library: str) -> list[Wire]:
    """What each way fetches, of each font and kind."""
    os.environ["FONTCUT_LIBRARY"] = library
    sys.path.insert(0, os.path.join(TOP, "examples", "server"))
    maker = Wires(folder)
    rows: list[Wire] = []
    if not shutil.which("brotli"):
        skip("cuts by Brotli", "Debian's package brotli is not installed")
    for path, kind in FONTS:
        if not os.path.exists(path):
            skip(f"{os.path.basename(path)}: bytes on the wire", f"Debian's package {PACKAGES[path]} is not installed")
            continue
        print(f"{os.path.basename(path)}, {kind}: bytes on the wire", file=sys.stderr, flush=True)
        added = additions(path, kind)
        ways = {**maker.cuts(path, kind, added), **maker.packed(path, kind, added), **maker.fonts(path, kind, added)}
        rows.append(Wire(os.path.basename(path)[:-4].partition("-")[0], kind, list(map(len, added)), ways))
    return rows
