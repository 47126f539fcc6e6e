"""The text of a page that each font of a site may draw, by the fonts that its elements may have (CSS Fonts 4, Font
Matching Algorithm)."""
from __future__ import annotations

import functools
import itertools
import os
from typing import Any, Callable, Dict, FrozenSet, Iterable, Iterator, List, NamedTuple, Sequence, Set, Tuple

from .cascade import Cascade, tag_of
from .font_values import ANY, ANY_STYLE, ANY_WEIGHT, Families, Fonts
from .generated import AFTER, BEFORE, Contents, Line, lines_with
from .pages import INLINE, SILENT, ended, is_drawn, is_field
from .selected import Selected
from .shown import Additions
from .styles import Added, cased

# Elements that no text is drawn of.
_HEAD = frozenset("head meta link base title style script".split())
# The styles of fonts that a style is drawn by, the best first.
_NEAR = {"italic": ("italic", "oblique", "normal"), "oblique": ("oblique", "italic", "normal"),
         "normal": ("normal", "oblique", "italic")}


class Choice(NamedTuple):
    """A font that elements may have: its family in small letters, its style, the least and the greatest of its weights,
    its width, the characters that it has, and whether these are typed by the names of icons."""

    family: str
    style: str
    weights: Tuple[float, float]
    stretch: str
    codes: FrozenSet[int]
    has_icons: bool = False


def _by_style(faces: Sequence[int], every: Sequence[Choice], style: str) -> List[int]:
    """The fonts of a family by which a style is drawn."""
    if style == ANY_STYLE or any(every[face].style not in _NEAR for face in faces):
        return list(faces)
    near = next((each for each in _NEAR[style] if any(every[face].style == each for face in faces)), style)
    return [face for face in faces if every[face].style == near]


def _distance(weights: Tuple[float, float], wanted: float) -> Tuple[int, float]:
    """How far the weights of a font are from a wanted one, as browsers choose."""
    least, most = weights
    if least <= wanted <= most:
        return 0, 0.0
    is_above = least > wanted
    far = least - wanted if is_above else wanted - most
    if 400 <= wanted <= 500:
        return (1 if is_above and least <= 500 else 3 if is_above else 2), far
    return (1 if is_above == (wanted > 500) else 2), far


def _by_weight(faces: Sequence[int], every: Sequence[Choice], weight: float) -> List[int]:
    """The fonts by which a weight is drawn."""
    if weight == ANY_WEIGHT:
        return list(faces)
    nearest = min(_distance(every[face].weights, weight) for face in faces)
    return [face for face in faces if _distance(every[face].weights, weight) == nearest]


class Chooser:
    """Chooses among fonts for words of elements, which may be changed to some cases in some languages."""

    def __init__(self, every: Sequence[Choice], cases: Sequence[str], languages: Sequence[str]) -> None:
        self.every, self.cases, self.languages = every, cases, languages
        self.families: Dict[str, List[int]] = {}
        for face, choice in enumerate(every):
            self.families.setdefault(choice.family, []).append(face)
        self.faces = functools.lru_cache(maxsize=None)(self._faces)
        self.chosen = functools.lru_cache(maxsize=None)(self._chosen)

    def _faces(self, name: str, weights: FrozenSet[float], styles: FrozenSet[str]) -> FrozenSet[int]:
        """The fonts of a family that elements of these weights and styles may have."""
        family = self.families.get(name, [])
        if len({self.every[face].stretch for face in family}) > 1:
            return frozenset(family)
        return frozenset(face for weight, style in itertools.product(weights, styles) if family
                         for face in _by_weight(_by_style(family, self.every, style), self.every, weight))

    def all_of(self, fonts: Fonts) -> FrozenSet[int]:
        """The fonts that an element may have for some character."""
        every = frozenset(range(len(self.every))) if ANY in fonts.families else frozenset()
        return every.union(*(self.faces(name, fonts.weights, fonts.styles) for names in fonts.families
                             for name in names))

    def is_known(self, fonts: Fonts) -> bool:
        """Whether an element has some of these fonts, whatever list of families it has."""
        return ANY not in fonts.families and all(any(self.faces(name, fonts.weights, fonts.styles) for name in names)
                                                 for names in fonts.families)

    def _chosen(self, fonts: Fonts, word: str) -> FrozenSet[int]:
        """The fonts that may draw a word of an element."""
        if ANY in fonts.families:
            return self.all_of(fonts)
        return frozenset().union(*(self._listed(names, fonts, word) for names in fonts.families))

    def _listed(self, names: Families, fonts: Fonts, word: str) -> Iterator[int]:
        """The fonts of a list that may draw a word: up to those that have all of it."""
        other = (one for case in self.cases for one in cased(word, case, self.languages))
        codes = set(map(ord, "".join([word, *other])))
        for name in names:
            faces = self.faces(name, fonts.weights, fonts.styles)
            yield from (face for face in faces if codes & self.every[face].codes)
            if faces and all(codes <= self.every[face].codes for face in faces):
                return


# A piece of text with the fonts of its element; None parts blocks.
_Piece = Tuple[str, Fonts]


def _pieces(document: Any, fonts: Dict[Any, Fonts]) -> Iterator[List[_Piece]]:
    """The blocks of text of a page, each in pieces."""
    open_block: List[_Piece] = []

    def walk(node: Any) -> Iterator[List[_Piece]]:
        tag = tag_of(node)
        its = fonts.get(node)
        if its is None or tag in SILENT:
            return
        if tag not in INLINE:
            yield from ended(open_block)
        for text in _attributes(node, tag):
            yield [(text, its)]
        if node.text:
            open_block.append((node.text, its))
        for child in node:
            yield from walk(child)
            if child.tail:
                open_block.append((child.tail, its))
        if tag not in INLINE:
            yield from ended(open_block)

    yield from walk(document)
    yield from ended(open_block)


def _attributes(node: Any, tag: str) -> List[str]:
    """The attributes of an element that are drawn. Options that are listed for a field count as others do."""
    kind = str(node.get("type", "")).lower()
    return [value for name, value in node.items() if value and is_drawn(name, tag, kind, True)]


def _words(block: Sequence[_Piece]) -> Iterator[Tuple[str, Set[Fonts]]]:
    """The words of a block, with the fonts of the elements of which they have letters. A letter joins with those beside
    it in other elements too."""
    word, its = "", set()  # type: str, Set[Fonts]
    for text, fonts in block:
        for number, part in enumerate(split_blanks(text)):
            if number and word:
                yield word, its
                word, its = "", set()
            if part:
                word += part
                its.add(fonts)
    if word:
        yield word, its


def split_blanks(text: str) -> List[str]:
    """A text between its blanks, as pages draw them."""
    return text.translate(_BLANKS).split(" ")


_BLANKS = {code: " " for code in (*range(0x21), *range(0x7F, 0xA0))}


class Asked(NamedTuple):
    """What is asked of a page in a file: what each font may draw of it, with what browsers add, and the characters of
    numbers in lines; whether its own style sheets are at an address; the languages that it names; and whether readers
    write other text to it."""

    path: str
    added: Additions
    numbers: str
    is_own: Callable[[str], bool]
    languages: Sequence[str]
    is_written: bool


def _running(lines: List[List[str]], blocks: Iterable[Iterable[Tuple[str, FrozenSet[int]]]]) -> None:
    """Adds lines for each font: words of a block that it may draw and that follow each other."""
    for block in blocks:
        running: Dict[int, List[str]] = {}
        for word, faces in block:
            for face in [face for face in running if face not in faces]:
                lines[face].append(" ".join(running.pop(face)))
            for face in faces:
                running.setdefault(face, []).append(word)
        for face, words in running.items():
            lines[face].append(" ".join(words))


def _with_added(cascade: Cascade, fonts: Dict[Any, Fonts], added: Sequence[Added]) -> Iterator[Tuple[str, Set[Fonts]]]:
    """Each text that browsers add, with the fonts of the elements that may have it."""
    nodes = Selected(cascade.document, cascade.is_exact).elements_of({one.source.selectors for one in added})
    for one in added:
        its = nodes[one.source.selectors]
        every = {each for node in its for each in node.iter()} if one.source.is_inherited else its
        yield one.text, {fonts[node] for node in every if node in fonts and tag_of(node) not in _HEAD}


class Lacked(NamedTuple):
    """Letters of elements of a name that none of their fonts has."""

    tag: str
    faces: FrozenSet[int]
    codes: Set[int]


def _icons(fonts: Dict[Any, Fonts], chooser: Chooser, contents: Contents) -> Dict[int, Set[str]]:
    """The words of elements that a font of icons draws alone."""
    found: Dict[int, Set[str]] = {face: set() for face, one in enumerate(chooser.every) if one.has_icons}
    for node, its in fonts.items() if found else ():
        for word in () if tag_of(node) in SILENT or tag_of(node) in _HEAD else _own_text(node, contents).split():
            faces = chooser.chosen(its, word)
            if len(faces) == 1 and chooser.is_known(its) and not faces.isdisjoint(found):
                found[min(faces)].add(word)
    return found


class Drawn(NamedTuple):
    """The lines that each font may draw of a page, if it may draw any, or a blank: that of the font of an element makes
    the height of its lines; the characters of those of which not all is known; all letters of the page that were read;
    those that no font of their own element has; the words of elements that a font of icons draws alone; and the
    families that elements have."""

    lines: Dict[int, List[str]]
    open: Dict[int, List[str]]
    letters: Set[str]
    lacked: List[Lacked]
    icons: Dict[int, Set[str]]
    families: Set[str]


def _own_text(node: Any, contents: Contents) -> str:
    """The text that an element draws in its own font."""
    tag = tag_of(node)
    added = [text for place in (BEFORE, AFTER) for text in contents.of(node, place).texts]
    return "".join([node.text or "", *(child.tail or "" for child in node), *_attributes(node, tag), *added])


def _lacked(fonts: Dict[Any, Fonts], chooser: Chooser, contents: Contents) -> Iterator[Lacked]:
    """The letters of elements that no font has which they may have. Those that may have none of the fonts are left to
    the system."""
    found: Dict[Tuple[str, FrozenSet[int]], Set[int]] = {}
    for node, its in fonts.items():
        tag = tag_of(node)
        if tag in SILENT or tag in _HEAD or not chooser.is_known(its):
            continue
        faces = chooser.all_of(its)
        codes = {ord(letter) for letter in _own_text(node, contents) if letter.isprintable() and letter != " "}
        found.setdefault((tag, faces), set()).update(codes.difference(*(chooser.every[face].codes for face in faces)))
    yield from (Lacked(tag, faces, codes) for (tag, faces), codes in found.items() if codes)


def _chosen(chooser: Chooser, block: Sequence[_Piece]) -> List[Tuple[str, FrozenSet[int]]]:
    """The words of a block, with the fonts that may draw them."""
    return [(word, frozenset().union(*(chooser.chosen(one, word) for one in its))) for word, its in _words(block)]


def _within(chooser: Chooser, every: Iterable[Line], fonts: Dict[Any, Fonts], lines: List[List[str]]
            ) -> Dict[int, List[str]]:
    """Adds the lines of each font with what style sheets add to them; returns those of which not all is known."""
    unknown: Dict[int, Dict[str, None]] = {}
    for line in every:
        pieces = [(text, fonts[node]) for text, node in line.pieces if node in fonts]
        if not line.open:
            _running(lines, [_chosen(chooser, pieces)])
            continue
        words = [*_chosen(chooser, pieces), *(row for its in dict.fromkeys(its for _, its in pieces)
                                              for row in _chosen(chooser, [(line.open, its)]))]
        for face in frozenset().union(*(faces for _, faces in words)):
            unknown.setdefault(face, {})[" ".join(word for word, faces in words if face in faces)] = None
    return {face: list(some) for face, some in unknown.items()}


def drawn_texts(data: bytes, asked: Asked, every: Sequence[Choice]) -> Drawn:
    """What each of the fonts may draw of a page."""
    cascade = Cascade(data, os.path.dirname(asked.path), asked.is_own)
    fonts, chooser = dict(cascade.fonts()), Chooser(every, list(asked.added.cases), asked.languages)
    lines: List[List[str]] = [[] for _ in every]
    pieces = list(_pieces(cascade.document, fonts))
    blocks = [list(_words(block)) for block in pieces]
    _running(lines, (_chosen(chooser, block) for block in pieces))
    contents = Contents(cascade, asked.languages, asked.numbers)
    unknown = _within(chooser, lines_with(contents), fonts, lines)
    # Where readers write, other words of the page are likely.
    written = (node for node in fonts if is_field(tag_of(node), node.attrib))
    fields = {fonts[each] for node in written for each in node.iter() if each in fonts}
    _running(lines, ([(word, chooser.chosen(one, word)) for word, _ in block] for block in blocks for one in fields))
    several = {its for node, its in fonts.items() if tag_of(node) not in _HEAD}
    for text, its in _with_added(cascade, fonts, asked.added.texts):
        _running(lines, ([(word, chooser.chosen(one, word)) for word in filter(None, split_blanks(line))]
                         for line in text.split("\n") for one in its))
    used: Set[int] = set().union(*(chooser.all_of(one) if asked.is_written else chooser.chosen(one, " ")
                                   for one in several))
    found = {face: list(dict.fromkeys(some)) for face, some in enumerate(lines) if some or face in used}
    return Drawn(found, unknown, {letter for block in blocks for word, _ in block for letter in word},
                 list(_lacked(fonts, chooser, contents)), _icons(fonts, chooser, contents),
                 {name for one in fonts.values() for names in one.families for name in names})
