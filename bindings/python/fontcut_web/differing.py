"""Where two pictures of a page differ, which the browser tells that has drawn them."""
from __future__ import annotations

import base64
import json
import os
import tempfile
from typing import Any, Callable, Dict, List, NamedTuple, Optional, Sequence

from fontcut_output import write

# The leftmost pixel of the first line by which two pictures differ, and the rectangle of all that do; nothing, where
# one is but higher than the other.
_COMPARE = """(async () => {
    const every = [];
    for (const picture of %s) {
        const image = new Image();
        image.src = "data:image/png;base64," + picture;
        await image.decode();
        const drawn = new OffscreenCanvas(image.width, image.height).getContext("2d");
        drawn.drawImage(image, 0, 0);
        every.push(drawn.getImageData(0, 0, image.width, image.height));
    }
    const [one, other] = every.map(each => new Uint32Array(each.data.buffer));
    const width = every[0].width, count = Math.min(one.length, other.length), xs = [], ys = [];
    for (let at = 0; at < count; at++) {
        if (one[at] !== other[at]) {
            xs.push(at %% width);
            ys.push(Math.floor(at / width));
        }
    }
    const least = all => all.reduce((some, each) => Math.min(some, each));
    const most = all => all.reduce((some, each) => Math.max(some, each));
    let first = 0;
    for (let at = 0; at < xs.length && ys[at] < ys[0] + 16; at++) {
        if (xs[at] < xs[first]) first = at;
    }
    return xs.length ? [xs[first], ys[first], least(xs), least(ys), most(xs), most(ys)] : [];
})()"""
# The element at a place of a page, what it says, its fonts, and the part of it that style sheets add there, with what
# they add.
_ELEMENT = """((x, y) => {
    scrollTo(0, Math.max(0, y - 100));
    const one = document.elementFromPoint(x - scrollX, y - scrollY);
    if (!one) return ["", "", "", "", ""];
    const texts = document.createTreeWalker(one, NodeFilter.SHOW_TEXT), range = document.createRange();
    let isText = false;
    while (texts.nextNode()) {
        range.selectNodeContents(texts.currentNode);
        isText ||= [...range.getClientRects()].some(each => each.left <= x - scrollX && x - scrollX <= each.right
                                                    && each.top <= y - scrollY && y - scrollY <= each.bottom);
    }
    const added = ["::before", "::after"].map(part => [part, getComputedStyle(one, part).content])
        .filter(each => !isText && each[1] !== "none" && each[1] !== "normal");
    const name = [one.localName, ...one.classList].join("."), text = (one.innerText || "").trim();
    return [name, text.split(/\\s+/).join(" ").slice(0, 40), getComputedStyle(one).fontFamily,
            added.map(each => each[0]).join(" or "), added.map(each => each[1]).join(" or ")];
})(%d, %d)"""

# How much is said of what style sheets add.
_LONGEST = 80
# How a page of the browser is told something.
Ask = Callable[..., Dict[str, Any]]


class Difference(NamedTuple):
    """What is said of a page that is not drawn by a cut as by the whole font, and both pictures, if it was drawn."""

    said: str
    pictures: Sequence[str] = ()


def _asked(ask: Ask, expression: str) -> Optional[List[Any]]:
    """The list that an expression of JavaScript stands for in a page, or None where that throws, or has another."""
    answer = ask("Runtime.evaluate", expression=expression, awaitPromise=True, returnByValue=True)
    found = answer["result"].get("value")
    return found if isinstance(found, list) and "exceptionDetails" not in answer else None


def place_of(ask: Ask, pictures: Sequence[str]) -> Optional[List[int]]:
    """The first pixel by which two pictures differ, and the rectangle of those that do, which an empty page finds:
    nothing, where one is but higher than the other, and None, if the page does not tell it."""
    return _asked(ask, _COMPARE % json.dumps(pictures))


def words_of(ask: Ask, place: Optional[Sequence[int]], names: Callable[[str], str]) -> str:
    """What is said of the place where a page differs, which is open in the browser: its element, and the fonts that are
    named for it, as they are called here. Nothing, if a page does not tell that: its scripts may have other functions
    by the names that are called here."""
    if place is None:
        return ""
    if not place:
        return ", whose picture is higher or lower"
    x, y, left, top, right, bottom = place
    element = _asked(ask, _ELEMENT % (x, y)) or []
    if len(element) != 5 or not all(isinstance(one, str) for one in element):
        return ""
    name, text, families, part, content = element
    fonts = names(families)
    drawn_in = f", drawn in {fonts}" if fonts else ""
    added = f", where style sheets add {content[:_LONGEST]}" if part else ""
    return (f", first at {x}, {y} in {name or 'the page'}{part} {text!r}{added}{drawn_in}; what differs is from {left}, "
            f"{top} to {right}, {bottom}")


def kept(difference: Difference, place: Optional[str]) -> str:
    """What is said of a page, when its pictures are kept in a new folder, which is named: in that of a place, or of
    what is temporary."""
    if not difference.pictures:
        return difference.said
    folder = tempfile.mkdtemp(prefix="fontcut-web-check-", dir=place)
    for name, picture in zip(("whole.png", "cut.png"), difference.pictures):
        write(os.path.join(folder, name), base64.b64decode(picture))
    return f"{difference.said}: {folder} has both pictures"
