"""What pages of HTML show, and what they say of how it is shaped."""
from __future__ import annotations

import codecs
import re
import unicodedata
from html.parser import HTMLParser
from typing import Dict, Iterator, List, Mapping, NamedTuple, Optional, Sequence, Set, Tuple, TypeVar

from . import counters
from .common import Refused
from .elements import Elements, Placed

# Elements whose text is not drawn in a page. Browsers show titles beside it, in a font of the system.
SILENT = "script", "style", "title"
# Types of inputs whose value is not drawn.
_UNDRAWN = "hidden", "checkbox", "radio", "range", "color", "file", "image"
# Elements that are parts of a line, so that a word may go on across their ends.
INLINE = frozenset("""a abbr acronym b bdi bdo big cite code data del dfn em font i ins kbd label mark q rp rt ruby s
    samp small span strike strong sub sup time tt u var wbr""".split())
# Types of scripts that run, and of fields that readers write to.
_RUNNING = "", "module", "text/javascript", "application/javascript"
_WRITTEN = "", "text", "search", "email", "url", "tel", "password", "number", "date"
# Values of the attribute contenteditable with which readers write to an element (HTML, contenteditable).
_EDITED = "", "true", "plaintext-only"
# What stands between words, beside the ends of lines.
_CONTROLS = re.compile("[\0-\x09\x0b-\x20\x7f-\x9f]+")
# What Chromium and Firefox write in English in fields and on buttons that say nothing else, by their types.
_LABELS = {"submit": ["Submit", "Submit Query"], "reset": ["Reset"], "image": ["Submit", "Submit Query"],
           "file": ["Choose File", "Choose Files", "No file chosen", "Browse\u2026", "No file selected.",
                    "No files selected."],
           "date": ["mm/dd/yyyy"], "time": ["--:-- --", "AM", "PM"],
           "datetime-local": ["mm/dd/yyyy, --:-- --", "AM", "PM"],
           "month": ["--------- ----"], "week": ["Week --, ----"]}
_NAMED_BY = {"submit": "value", "reset": "value", "image": "alt"}
_SUMMARY = "Details"
# The mark that a browser draws for each character of a password.
HIDDEN = "\u2022"
_CHARSET = re.compile(rb"<meta[^>]+charset\s*=\s*[\"']?\s*([\w.:-]+)", re.I)
_MARKS = {codecs.BOM_UTF8: "utf-8-sig", codecs.BOM_UTF16_LE: "utf-16", codecs.BOM_UTF16_BE: "utf-16"}
# What browsers take these names for (Encoding Standard, 4.2).
_BROWSERS = {"iso8859-1": "windows-1252", "ascii": "windows-1252", "utf-16": "utf-8", "utf-16-le": "utf-8",
             "utf-16-be": "utf-8"}
_SOFT_HYPHEN, _HYPHENS, _BLANKS = "\u00ad", "-\u2010", set("\t\n\f\r")


def is_drawn(name: str, tag: str, kind: str, is_listed: bool) -> bool:
    """Whether an attribute of an element is drawn: for a picture, in a field, on a button or in a list. An input has a
    type, and options that are listed may be chosen for a field."""
    if tag == "input" and kind == "hidden":
        return False
    if name == "value":
        return tag == "li" or tag == "option" and is_listed or tag == "input" and kind not in _UNDRAWN
    return name in ("alt", "placeholder") or name == "label" and tag in ("option", "optgroup")


_Piece = TypeVar("_Piece")


def ended(block: List[_Piece]) -> Iterator[List[_Piece]]:
    """A block of text that ends, in pieces, if it has any; the next one begins without."""
    if block:
        yield list(block)
        block.clear()


def labels_of(tag: str, given: Mapping[str, str]) -> List[str]:
    """What browsers write by themselves in a field or on a button with these attributes."""
    kind = given.get("type", "").strip().lower()
    return _LABELS.get(kind, []) if tag == "input" and _NAMED_BY.get(kind, "") not in given else []


def is_field(tag: str, given: Mapping[str, str]) -> bool:
    """Whether readers write to an element with these attributes."""
    is_input = tag == "input" and given.get("type", "").lower() in _WRITTEN
    return is_input or tag in ("textarea", "select") or given.get("contenteditable", "false").lower() in _EDITED


def lines_of(text: str) -> List[str]:
    """The lines of a text that show something, each once, with blanks as they are shown and no control characters."""
    lines = (" ".join(filter(None, _CONTROLS.split(line))) for line in text.split("\n"))
    return list(dict.fromkeys(filter(None, lines)))


class Page(NamedTuple):
    """What is read of a page: the text that it draws; the same by its blocks, each with blanks as they are shown; what
    browsers add to elements, as numbers of lists; the languages that it names; its style sheets, and the addresses of
    others; `rtl` if a part goes from right to left, and `override` if one does whatever its letters are; which scripts
    and fields it has that write other text; the values of attributes, by their names; its elements, each with the place
    of the one in which it stands, before it; whether browsers put quotation marks around some; what they write by
    themselves, in their own language, in fields and on buttons; and words that stand alone between tags."""

    text: str
    blocks: List[str]
    made: List[str]
    languages: List[str]
    styles: List[str]
    links: List[str]
    directions: Set[str]
    writers: List[str]
    attributes: Mapping[str, Sequence[str]]
    elements: List[Placed]
    has_quotes: bool
    labels: List[str]
    words: List[str]


class _Reader(HTMLParser):
    """Collects the text of a page, in which entities are resolved, and what shapes it."""

    def __init__(self) -> None:
        super().__init__(convert_charrefs=True)
        self.texts: List[str] = []
        self.silent: Optional[str] = None
        self.is_listing = False
        self.running: List[str] = []
        self.found: Dict[str, List[str]] = {"languages": [], "styles": [], "links": [], "writers": [], "made": [],
                                            "labels": []}
        # Whether each of the elements `details` that are open has a summary.
        self.details: List[bool] = []
        self.directions: Set[str] = set()
        self.elements = Elements()
        self.attributes: Dict[str, Dict[str, None]] = {}

    def handle_starttag(self, tag: str, attrs: List[Tuple[str, Optional[str]]]) -> None:
        given = {name: value or "" for name, value in attrs}
        self.elements.begin(tag, given)
        for name, value in given.items():
            self.attributes.setdefault(name, {})[value] = None
        kind = given.get("type", "").lower()
        drawn = [value for name, value in attrs if value and is_drawn(name, tag, kind, self.is_listing)]
        self.texts += drawn
        self.running += [*(f"\n{text}\n" for text in drawn), *([] if tag in INLINE else ["\n"])]
        self.is_listing = self.is_listing or tag == "datalist"
        if tag in SILENT:
            self.silent = tag
        if tag == "title":
            # There is no element within it (HTML, RCDATA state): what looks like a tag is text.
            self.set_cdata_mode(tag)
        self._find(tag, given)

    def _find(self, tag: str, given: Mapping[str, str]) -> None:
        """Collects what a tag says of how text is shaped."""
        found = self.found
        found["labels"] += labels_of(tag, given)
        self.details += [False] if tag == "details" else []
        if tag == "summary" and self.details:
            self.details[-1] = True
        found["languages"] += [given[name].strip() for name in ("lang", "xml:lang") if given.get(name, "").strip()]
        if tag == "link" and "stylesheet" in given.get("rel", "").lower().split() and "href" in given:
            found["links"].append(given["href"])
        if tag == "meta" and given.get("http-equiv", "").lower() == "content-language":
            found["languages"] += filter(None, map(str.strip, given.get("content", "").split(",")))
        self.directions |= {"override"} if tag == "bdo" else {given.get("dir", "").lower()} & {"rtl"}
        if tag == "script" and given.get("type", "").lower() in _RUNNING or any(name[:2] == "on" for name in given):
            found["writers"].append("scripts")
        if is_field(tag, given):
            found["writers"].append("fields")
        if tag in ("ol", "li"):
            found["made"] += [counters.of_type(given.get("type", "")), counters.digits() if tag == "ol" else ""]
        elif tag == "input" and given.get("type", "").lower() == "password":
            found["made"].append(HIDDEN)

    def handle_endtag(self, tag: str) -> None:
        self.elements.end(tag)
        if tag not in INLINE:
            self.running.append("\n")
        if tag == "title":
            # One that ends with its start, as in SVG, would silence what follows.
            self.clear_cdata_mode()
        if tag == "datalist":
            self.is_listing = False
        if tag == "details" and self.details and not self.details.pop():
            self.found["labels"].append(_SUMMARY)
        if tag == self.silent:
            self.silent = None

    def handle_data(self, data: str) -> None:
        if self.silent is None:
            self.texts.append(data)
            self.running.append(re.sub("[ \t\n\f\r]+", " ", data))
        elif self.silent == "style":
            self.found["styles"].append(data)

    def page(self) -> Page:
        """What was read."""
        self.found["labels"] += [] if all(self.details) else [_SUMMARY]
        found = {name: list(dict.fromkeys(values)) for name, values in self.found.items()}
        elements = list(self.elements.found)
        return Page("".join(self.texts), lines_of("".join(self.running)), list(filter(None, found["made"])),
                    found["languages"], found["styles"], found["links"], self.directions, found["writers"],
                    {name: list(values) for name, values in self.attributes.items()}, elements,
                    any(element.tag == "q" for _, element in elements), found["labels"],
                    list(dict.fromkeys(text.strip() for text in self.texts if len(text.split()) == 1)))


def decoded(data: bytes) -> str:
    """The text of a page, in the encoding that a mark at its front or a meta element names, or in UTF-8."""
    named = _CHARSET.search(data[:1024])
    name = named[1].decode("ascii", "replace") if named else "utf-8"
    try:
        name = codecs.lookup(name).name
        name = next((known for mark, known in _MARKS.items() if data.startswith(mark)), _BROWSERS.get(name, name))
        return data.decode(name)
    except LookupError as error:
        raise Refused(f"it has the encoding {name}, which is not known") from error
    except UnicodeDecodeError as error:
        raise Refused(f"it is not in {name}: byte 0x{data[error.start]:02X} at {error.start}; name its encoding in a meta "
                      "element, as <meta charset=iso-8859-1>") from error
    except UnicodeError as error:
        raise Refused(f"it is not in {name}: {error}") from error


def page_of(data: bytes) -> Page:
    """What is read of a page. Raises `Refused` for a page whose encoding is not known, or is another than it says."""
    reader = _Reader()
    try:
        reader.feed(decoded(data))
        reader.close()
    except AssertionError as error:
        # The parser of Python knows no way on from some markup that is malformed.
        raise Refused(f"it is malformed: {error}") from error
    return reader.page()


def shown(text: str) -> Set[str]:
    """The characters of the text of a page that are shown, and those that are shown where its lines are broken."""
    found = set(text)
    # A line that is broken at a soft hyphen shows a hyphen, and the end of a line of the page shows a blank.
    found.update(_HYPHENS if _SOFT_HYPHEN in found else "", " " if found & _BLANKS else "")
    return {letter for letter in found if unicodedata.category(letter) not in ("Cc", "Cs")}
