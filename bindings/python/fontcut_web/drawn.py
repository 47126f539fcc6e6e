"""Pages are drawn by Chromium, with a whole font and with its cut, and the pictures are compared."""
from __future__ import annotations

import contextlib
import functools
import html
import json
import os
import re
import secrets
import shutil
import tempfile
from typing import Any, Dict, Iterator, List, NamedTuple, Optional, Sequence, Tuple, Union
from urllib.request import pathname2url

from fontcut_output import read

from .boxes import boxes
from .browser import Browser, Failed
from .common import MissingProgram, Refused
from .differing import Difference, kept, place_of, words_of
from .inputs import file_in, sha256
from .pages import Page, decoded
from .processes import processors, side_by_side
from .sheet import string

_PROGRAMS = "chromium", "chromium-browser", "google-chrome"
# How a browser begins, without what no picture needs and takes time then.
_WORDS = ("--headless=new", "--disable-gpu", "--hide-scrollbars", "--force-device-scale-factor=1",
          "--font-render-hinting=none", "--allow-file-access-from-files", "--no-first-run", "--disable-extensions",
          "--disable-component-update", "--disable-background-networking", "--disable-sync", "--disable-default-apps")
# The size of the window, in pixels, and how much of a page is drawn that is higher than it.
_WIDTH, _HEIGHT, _MOST = 1000, 1000, 8000
_SECONDS = 120
# How many pages a browser draws at least if more of them are begun: to begin one takes as long as two pages.
_LEAST = 3
# How long scripts of a page run, by its own clock.
_MILLISECONDS = 10000
# Waits until the fonts are there that a page asks for when it is laid out, and lays all of it out anew by these: digits
# upright in vertical lines keep the width that another font gave them. What is animated is drawn as it ends, and
# without what has no end: pictures are of different moments.
_FONTS = """(async () => {
    const root = document.documentElement;
    do {
        root.getBoundingClientRect();
        await document.fonts.ready;
        root.getBoundingClientRect();
    } while (document.fonts.status !== "loaded");
    root.style.display = "none";
    root.getBoundingClientRect();
    root.style.removeProperty("display");
    root.getBoundingClientRect();
    for (const one of document.getAnimations()) {
        try {
            one.finish();
        } catch {
            one.cancel();
        }
    }
})()"""
# Elements with pages of their own.
_OTHERS = "iframe", "frame", "object", "embed"
_BOXES = "boxes"
_DIFFERS = "it is drawn otherwise by the cut than by the whole font"
_EXPIRED = "Emulation.virtualTimeBudgetExpired"
# All text is drawn in the font, whatever the style sheets say, and what it lacks as boxes: the browser would take it of
# a font of the system, which may be the whole font. No font of the system has the names of these families.
_STYLE = """<style>@font-face {{ font-family: font-{name}; src: url("{font}"); font-display: block; {more} }}
@font-face {{ font-family: boxes-{name}; src: url("{boxes}"); font-display: block; }}
*, *::before, *::after, *::first-letter, *::first-line, *::marker, *::placeholder {{
  font-family: font-{name}, boxes-{name} !important; }}
</style>"""
# Each font has its own family for elements that style sheets give it, under a name that no font of the system has, and
# what they lack are boxes. What has no element, as text of style sheets, is drawn by the names of the page.
_RULE = """@font-face {{ {declared} src: url("{font}"); font-display: block; {more} }}
"""
_RENAMED = """<style>{rules}@font-face {{ font-family: boxes-{name}; src: url("{boxes}"); font-display: block;
  }}</style>
<script>(() => {{
  const known = new Map({known});
  const names = list => list.match(/"(?:[^"\\\\]|\\\\.)*"|[^,]+/g) || [];
  const plain = name => name.trim().replace(/^"|"$/g, "").replace(/\\\\(.)/g, "$1").toLowerCase();
  const every = [...document.querySelectorAll("*")].map(one => [one, names(getComputedStyle(one).fontFamily)]);
  for (const [one, list] of every) {{
    const found = list.map(name => known.get(plain(name))).filter(name => name);
    if (one.style) one.style.setProperty("font-family", [...found, "boxes-{name}"].join(), "important");
  }}
}})();</script>
"""
# Outlines are drawn as they are. FreeType's automatic hinting moves them by what it finds in other letters of a file,
# so that a cut without these would be drawn a little otherwise.
_UNHINTED = """<?xml version="1.0"?>
<!DOCTYPE fontconfig SYSTEM "fonts.dtd">
<fontconfig>
  <include ignore_missing="yes">/etc/fonts/fonts.conf</include>
  <match target="pattern"><edit name="hinting" mode="assign"><bool>false</bool></edit>
  <edit name="hintstyle" mode="assign"><const>hintnone</const></edit></match>
</fontconfig>
"""


def _program() -> str:
    """The browser that is there."""
    for name in _PROGRAMS:
        found = shutil.which(name)
        if found:
            return found
    raise MissingProgram(_PROGRAMS[0], f"apt install {_PROGRAMS[0]}")


def _address(path: str) -> str:
    return f"file://{pathname2url(os.path.abspath(path))}"


def _page(path: str, before: str, after: str) -> str:
    """A page with this before it and after it, whose addresses are those of the page in a file."""
    text = decoded(read(path))
    base = f'<meta charset="utf-8"><base href="{html.escape(_address(path))}">'
    head = re.search(r"<head\b[^>]*>|<html\b[^>]*>|<!doctype[^>]*>", text, re.I)
    start = head.end() if head else 0
    return f"{text[:start]}{base}{before}{text[start:]}{after}"


def _limited(ranges: str) -> str:
    """What a rule says of a font that has the characters of these ranges alone; nothing, if none are named."""
    return f"unicode-range: {ranges};" if ranges else ""


class Drawn(NamedTuple):
    """A page in a file, a whole font, and its cut, by which all of the page is to be drawn as by the font; whether
    nothing runs in the page that could keep something for the next picture; and the characters that style sheets say
    the cut has, if they do."""

    page: str
    whole: bytes
    cut: bytes
    is_still: bool = False
    ranges: str = ""

    def shown(self, folder: str, is_cut: bool, boxed: str) -> str:
        """The page with one of the fonts, which is put into a folder, and boxes of the font in a file."""
        font = _put(folder, self.cut if is_cut else self.whole)
        more = _limited(self.ranges) if is_cut else ""
        style = _STYLE.format(name=secrets.token_hex(8), font=font, boxes=_address(boxed), more=more)
        # The last style counts, and a script may take away the element in which it stands.
        return _page(self.page, style, style)

    def names(self, _: str) -> str:
        """What the families of an element are called here: there is one font alone."""
        return ""


class Family(NamedTuple):
    """A font of a page: its family, what style sheets declare of it, the whole font, its cut, and the characters that
    style sheets say the cut has."""

    family: str
    declared: List[str]
    whole: bytes
    cut: bytes
    ranges: str


class DrawnBy(NamedTuple):
    """A page in a file whose elements have several fonts, by the cuts of which it is to be drawn as by the fonts; and
    whether nothing runs in it."""

    page: str
    fonts: Sequence[Family]
    is_still: bool = False

    def shown(self, folder: str, is_cut: bool, boxed: str) -> str:
        """The page with the fonts or their cuts, which are put into a folder, and boxes of the font in a file."""
        name = secrets.token_hex(8)
        other = {font.family: f"font-{name}-{number}" for number, font in enumerate(self.fonts)}
        rules = ""
        for font in self.fonts:
            address = _put(folder, font.cut if is_cut else font.whole)
            more = _limited(font.ranges) if is_cut else ""
            own = [one for one in font.declared if not one.startswith("font-family:")]
            for family in (string(font.family), other[font.family]):
                rules += _RULE.format(declared=" ".join([f"font-family: {family};", *own]), font=address, more=more)
        known = json.dumps([[family.lower(), renamed] for family, renamed in other.items()]).replace("<", "\\u003c")
        after = _RENAMED.format(rules=rules, name=name, boxes=_address(boxed), known=known)
        return _page(self.page, "", after)

    def names(self, families: str) -> str:
        """What the families of an element are called here."""
        numbers = map(int, re.findall(r"font-[0-9a-f]{16}-(\d+)", families))
        return ", ".join(self.fonts[number].family for number in numbers) or "none of the fonts"


Compared = Union[Drawn, DrawnBy]


@functools.lru_cache(maxsize=None)
def _put(folder: str, font: bytes) -> str:
    """The address of a font that is put into a folder, once for all pages."""
    return _address(file_in(folder, f"font-{sha256(font)}", font))


@contextlib.contextmanager
def _browsing(program: str) -> Iterator[Tuple[Browser, str]]:
    """A browser, with a folder for the files that it shows, which has boxes."""
    folder = tempfile.mkdtemp()
    file_in(folder, _BOXES, boxes())
    known = {**os.environ, "FONTCONFIG_FILE": file_in(folder, "fonts.conf", _UNHINTED.encode())}
    words = [program, *_WORDS, f"--window-size={_WIDTH},{_HEIGHT}", f"--user-data-dir={folder}/profile"]
    try:
        browser = Browser([*words, *(["--no-sandbox"] if os.geteuid() == 0 else [])], known, _SECONDS)
        try:
            yield browser, folder
        finally:
            browser.close()
    finally:
        # The browser may still write to it.
        shutil.rmtree(folder, ignore_errors=True)


def is_still(page: Page) -> bool:
    """Whether nothing runs in a page, and none in it, that could keep something for another one."""
    return "scripts" not in page.writers and not any(element.tag in _OTHERS for _, element in page.elements)


class _Tab:
    """A tab of a browser, in which nothing is kept of pages that were in others."""

    def __init__(self, browser: Browser) -> None:
        self.browser = browser
        self.context = browser.ask("Target.createBrowserContext")["browserContextId"]
        target = browser.ask("Target.createTarget", url="about:blank", browserContextId=self.context, width=_WIDTH,
                             height=_HEIGHT)["targetId"]
        self.session = browser.ask("Target.attachToTarget", targetId=target, flatten=True)["sessionId"]
        self.ask("Page.enable")

    def ask(self, method: str, **given: object) -> Dict[str, Any]:
        return self.browser.ask(method, self.session, **given)

    def picture(self, address: str, is_still: bool) -> str:
        """The picture of a page, when its scripts have had their time, and the fonts of one without scripts are there.
        The window is low, for a high one takes longer to be drawn, and what lies below it is drawn too."""
        self.ask("Emulation.setVirtualTimePolicy", policy="advance")
        self.ask("Page.navigate", url=address)
        self.browser.forget(_EXPIRED, self.session)
        self.ask("Emulation.setVirtualTimePolicy", policy="pauseIfNetworkFetchesPending", budget=_MILLISECONDS,
                  maxVirtualTimeTaskStarvationCount=9999)
        self.browser.wait_for(_EXPIRED, self.session)
        if is_still:
            self.ask("Emulation.setVirtualTimePolicy", policy="advance")
            self.ask("Runtime.evaluate", expression=_FONTS, awaitPromise=True)
        height = min(_MOST, self.ask("Page.getLayoutMetrics")["cssContentSize"]["height"])
        clip = {"x": 0, "y": 0, "width": _WIDTH, "height": height, "scale": 1}
        below = {"clip": clip, "captureBeyondViewport": True} if height > _HEIGHT else {}
        picture: str = self.ask("Page.captureScreenshot", format="png", optimizeForSpeed=True, **below)["data"]
        return picture

    def close(self) -> None:
        self.browser.ask("Target.disposeBrowserContext", browserContextId=self.context)


class _Tabs:
    """The tabs of a browser: one for all pages in which nothing runs, for a new one takes as long as a picture, and a
    new one for each picture of another page."""

    def __init__(self, browser: Browser) -> None:
        self.browser = browser
        self.shared: Optional[_Tab] = None

    def picture(self, address: str, is_shared: bool) -> str:
        tab = (is_shared and self.shared) or _Tab(self.browser)
        picture = tab.picture(address, is_shared)
        if is_shared:
            self.shared = tab
        else:
            tab.close()
        return picture


def _shown_at(one: Compared, is_cut: bool, folder: str, name: str) -> str:
    """The address of a page with whole fonts or their cuts; the files for that begin with this name in a folder."""
    shown = one.shown(folder, is_cut, os.path.join(folder, _BOXES))
    return _address(file_in(folder, f"{name}-{is_cut}.html", shown.encode("utf-8", "replace")))


def _difference(one: Compared, tabs: _Tabs, folder: str, name: str) -> Optional[Difference]:
    """How a page is drawn otherwise by a cut than by the whole font, if it is."""
    whole, cut = (tabs.picture(_shown_at(one, is_cut, folder, name), one.is_still) for is_cut in (False, True))
    return None if whole == cut else Difference(_DIFFERS, [whole, cut])


def _differences(program: str, every: Sequence[Compared]) -> List[Optional[Difference]]:
    """How each page is drawn otherwise by a cut than by the whole font, if it is."""
    found: List[Optional[Difference]] = []
    with _browsing(program) as (browser, folder):
        tabs = _Tabs(browser)
        for one in every:
            try:
                found.append(_difference(one, tabs, folder, str(len(found))))
            except Failed as failed:
                found.append(Difference(f"{os.path.basename(program)} draws no picture of it: {failed}"))
                tabs = _Tabs(browser)
    return found


def _placed(program: str, one: Compared, difference: Difference) -> Difference:
    """How a page differs, with the place where it does, which a browser of its own finds by the pictures: the one in
    which they were drawn has ended. Without it, if that fails."""
    if not difference.pictures:
        return difference
    try:
        with _browsing(program) as (browser, folder):
            place, tab = place_of(_Tab(browser).ask, difference.pictures), _Tab(browser)
            tab.picture(_shown_at(one, False, folder, "place"), one.is_still)
            tab.ask("Emulation.setVirtualTimePolicy", policy="advance")
            return difference._replace(said=f"{difference.said}{words_of(tab.ask, place, one.names)}")
    except Failed:
        return difference


class Differs(Refused):
    """Pages are drawn otherwise by cuts than by whole fonts: a line for each."""

    def __init__(self, lines: Sequence[str]):
        super().__init__(lines)

    def __str__(self) -> str:
        return "\n".join(self.args[0])


def check(every: Sequence[Compared]) -> None:
    """Raises `Differs` for the pages that are not drawn by a cut as by the whole font."""
    lines = [f"{one.page}: {line}" for one, line in zip(every, differences(every)) if line]
    if lines:
        raise Differs(lines)


def differences(every: Sequence[Compared], place: Optional[str] = None) -> List[str]:
    """What is said of each page that is not drawn by a cut as by the whole font, whose pictures are kept in a place, or
    where files are temporary; nothing of others."""
    if not every:
        return []
    program, count = _program(), min(processors(), -(-len(every) // _LEAST))
    parts = [every[first::count] for first in range(count)]
    said = side_by_side([functools.partial(_differences, program, part) for part in parts])
    found = [(one, said[number % count][number // count]) for number, one in enumerate(every)]
    told = iter(side_by_side([functools.partial(_told, program, one, how, place) for one, how in found if how]))
    return [next(told) if how else "" for _, how in found]


def _told(program: str, one: Compared, difference: Difference, place: Optional[str]) -> str:
    """What is said of a page that differs."""
    return kept(_placed(program, one, difference), place)
