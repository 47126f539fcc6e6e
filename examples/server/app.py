"""Serves cuts of the fonts of a folder: a WSGI application with the module `fontcut` and the standard library.

    GET /NAME.ttf?unicodes=U+20-7E,U+4??        the cut of the font NAME.ttf for these code points
    GET /NAME.ttf?text=Hello                    for these characters
    GET /NAME.ttf?unicodes=U+20-7E&kind=lean    the lean cut, with kind=layout or kind=variable the cut of that kind

The variable FONTS names the folder. Each worker maps its fonts when it starts, and tests each once. A request names one
of these fonts; no path from outside is opened. The bytes of the font, the kind and the set determine the answer, so its
ETag is made from these. Caches may keep it forever: a font that changes gets another name. If a browser has a cut of
the font, another one is sent to it compressed with that, if `dictionaries` can do so.
"""
import hashlib
import mmap
import os
import re
import urllib.parse
from typing import Callable, Dict, List, NamedTuple, Optional, Tuple

import dictionaries
import fontcut

# Less than the longest line that gunicorn may be told to take, so that a query which is too long is answered here.
LONGEST_QUERY = 8000
FOREVER = ("Cache-Control", "public, max-age=31536000, immutable")
KINDS = ("full", "lean", "layout", "variable")
# Those of which the text is shaped: it needs more characters than its own, and glyphs of its variation sequences.
SHAPED = ("layout", "variable")
Range = Tuple[int, int]


class Font(NamedTuple):
    """The bytes of a font, their digest, and why it is refused, if it is."""

    data: mmap.mmap
    digest: str
    refusal: Optional[str]


class Answer(Exception):
    """An answer that is no cut: its status and its text."""

    def __init__(self, status: str, text: str):
        super().__init__(text)
        self.status = status
        self.text = text


def opened(path: str) -> Font:
    with open(path, "rb") as file:
        # Bytes that may not be written the module copies for each call. These may be, though nothing writes to them.
        data = mmap.mmap(file.fileno(), 0, access=mmap.ACCESS_COPY)
    try:
        fontcut.check(data)
        refusal = None
    except fontcut.Refused as refused:
        refusal = refused.text
    return Font(data, hashlib.sha256(data).hexdigest(), refusal)


def fonts_of(folder: str) -> Dict[str, Font]:
    """The fonts of a folder by their names."""
    return {entry.name: opened(entry.path) for entry in os.scandir(folder)
            if entry.is_file() and entry.name.endswith(".ttf") and entry.stat().st_size}


def wanted_by(query: str) -> Tuple[List[Range], List[str], str]:
    """What a query asks for: code points, the texts that are to be shaped, and the kind of the cut."""
    if len(query) > LONGEST_QUERY:
        raise Answer("414 URI Too Long", f"a query has {LONGEST_QUERY} characters at most")
    try:
        # WSGI has each byte as a character. A plus sign that is not written as %2B stands for a blank.
        asked = urllib.parse.parse_qs(query.encode("latin-1").decode(), keep_blank_values=True,
                                      strict_parsing=bool(query), errors="strict", max_num_fields=8)
    except ValueError:
        raise Answer("400 Bad Request", "bad query") from None
    if not asked.keys() <= {"unicodes", "text", "kind"} or not asked.keys() & {"unicodes", "text"}:
        raise Answer("400 Bad Request", "a query has unicodes or text, and may have kind")
    kind, texts = asked.get("kind", ["full"])[-1], asked.get("text", [])
    if kind not in KINDS:
        raise Answer("400 Bad Request", "kind is full, lean, layout or variable")
    lists = [re.sub(r"(?<![^\s,;:-])([Uu]) (?=[0-9A-Fa-f?])", r"\1+", value) for value in asked.get("unicodes", ())]
    letters = set("".join(map(fontcut.needed, texts) if kind in SHAPED else texts))
    try:
        ranges = fontcut.ranges([*lists, *(f"U+{ord(letter):X}" for letter in letters)])
    except ValueError as error:
        raise Answer("400 Bad Request", str(error)) from None
    return [(first, last) for first, last in ranges], texts if kind in SHAPED else [], kind


def made(font: Font, ranges: List[Range], gids: List[int], kind: str) -> bytes:
    """The cut."""
    try:
        return fontcut.cut(font.data, ranges, kind=kind, gids=gids or None)
    except fontcut.Refused as refused:
        raise Answer("502 Bad Gateway", f"the cut is refused: {refused.text}") from None
    except MemoryError:
        raise Answer("503 Service Unavailable", "no memory") from None


class Application:
    """The WSGI application."""

    def __init__(self, folder: str):
        self.fonts = fonts_of(folder)

    def __call__(self, environ: dictionaries.Environ, start_response: Callable[..., object]) -> List[bytes]:
        head = environ["REQUEST_METHOD"] == "HEAD"
        try:
            status, headers, body = self.answer(environ)
        except Answer as answer:
            status, body = answer.status, (answer.text + "\n").encode()
            headers = [("Content-Type", "text/plain; charset=utf-8"), ("Cache-Control", "no-store")]
        if body is not None:
            headers.append(("Content-Length", str(len(body))))
        start_response(status, headers)
        return [] if head or body is None else [body]

    def answer(self, environ: dictionaries.Environ) -> Tuple[str, List[Tuple[str, str]], Optional[bytes]]:
        """The status, headers and body of an answer; of a cut that the client has, no body."""
        if environ["REQUEST_METHOD"] not in ("GET", "HEAD"):
            raise Answer("405 Method Not Allowed", "GET and HEAD are answered")
        name = os.fsdecode(environ.get("PATH_INFO", "").encode("latin-1")).lstrip("/")
        font = self.fonts.get(name)
        if font is None:
            raise Answer("404 Not Found", "there is no such font")
        ranges, texts, kind = wanted_by(environ.get("QUERY_STRING", ""))
        if font.refusal:
            raise Answer("502 Bad Gateway", f"the font is refused: {font.refusal}")
        gids = sorted({glyph for text in texts for glyph in fontcut.variants(font.data, text)})
        tag = '"' + hashlib.sha256(f"{font.digest} {kind} {ranges} {gids}".encode()).hexdigest() + '"'
        headers = [FOREVER, ("Content-Type", "font/ttf"), ("Access-Control-Allow-Origin", "*"), *dictionaries.VARY]
        if tag in environ.get("HTTP_IF_NONE_MATCH", ""):
            return "304 Not Modified", [("ETag", tag), *headers], None
        cut = made(font, ranges, gids, kind)
        known = dictionaries.known_to(environ, font.data) if dictionaries.can_serve(cut) else None
        if known is None:
            return "200 OK", [("ETag", tag), *headers, *dictionaries.offer(cut, name, ranges, gids, kind)], cut
        # A strong tag would say that these are the bytes of the cut.
        return "200 OK", [("ETag", f"W/{tag}"), *headers, ("Content-Encoding", "dcz")], dictionaries.packed(cut, known)


if "FONTS" in os.environ:
    application = Application(os.environ["FONTS"])
