"""The fonts of a PDF file, where they stand, and what is shown in them."""
from __future__ import annotations

from contextlib import contextmanager
from typing import Callable, Dict, Iterator, List, Set, Tuple

from pikepdf import Dictionary, Name, Object, Pdf, Stream, String

from .common import MALFORMED, Id, Outcome, Refused, Unclear, line, names_in, place, values
from .content import Shown, shown, streams_of
from .drawing import Drawing, Node, pages_of, reached
from .font import Font, Programs, Reading

NO_FONT = "it has no embedded font"
# How many letters of the name of a program are told.
_MOST_OF_NAME = 60


class Survey:
    """The fonts of a PDF file, where they stand, and what is shown in those that are asked for: by its pages, and by
    what no page shows, as hidden pages (ISO 32000-1, 7.7.4, Templates) and the icons of buttons, since all of these may
    share resources. Content is read only where it may show something in such a font."""

    def __init__(self, pdf: Pdf, is_asked: Callable[[Font], bool]):
        self.pdf = pdf
        self.drawing = Drawing(pdf)
        self.reading = Reading()
        self.shown: Dict[Tuple[Id, ...], Shown] = {}
        self.read: Set[Id] = set()
        self.roots: List[Node] = []
        for number, page in enumerate(pages_of(pdf), 1):
            self._add(self.drawing.page(page), number)
        for root in self._hidden():
            self._add(root, 0)
        self.embedded = self._with_programs()
        self.users = self._users()
        for node in self._needed({font for font in self.embedded if is_asked(font)}):
            self._add_content(node)
        self._spread_unclear()
        self._leave_fonts_of_fields()

    def _hidden(self) -> Iterator[Node]:
        """What draws and is named otherwise than by pages."""
        names = self.pdf.Root.get("/Names", Dictionary())
        templates = names_in(names.get("/Templates")) if isinstance(names, Dictionary) else {}
        for thing in [*self.pdf.objects, *templates.values()]:
            if isinstance(thing, Stream):
                if thing.get("/Subtype") == Name.Form or thing.get("/PatternType") == 1:
                    yield self.drawing.stream(thing)
            elif isinstance(thing, Dictionary):
                if "/CharProcs" in thing:
                    yield self.drawing.glyphs(thing)
                elif "/Resources" in thing or thing.get("/Type") in (Name.Page, Name.Template):
                    yield self.drawing.page(thing)

    def _add(self, root: Node, number: int) -> None:
        """Adds what a page draws that none before it does."""
        try:
            self.roots.append(root)
            self.drawing.walk(root, number)
        except MALFORMED as error:
            raise Refused(f"is malformed: {line(error)}", number) from error

    def _with_programs(self) -> List[Font]:
        """The fonts that have a program, which is read."""
        found = [font for font in self.drawing.fonts.values() if font.key]
        programs = Programs()
        for font in found:
            try:
                font.reading, font.program = self.reading, programs.of(font.descriptor[font.key])
            except MALFORMED as error:
                raise Refused(f"has a font that is damaged: {line(error)}", font.page) from error
        return found

    def _users(self) -> Dict[Node, List[Node]]:
        """The nodes that name each."""
        users: Dict[Node, List[Node]] = {}
        for node in self.drawing.nodes.values():
            for drawn in node.drawn:
                users.setdefault(drawn, []).append(node)
        return users

    def _needed(self, asked: Set[Font]) -> List[Node]:
        """The content of pages that have some of these fonts, in the order in which it was found."""
        users = reached((node for node in self.drawing.nodes.values() if not asked.isdisjoint(node.fonts.values())),
                        lambda node: self.users.get(node, ()))
        below = reached((root for root in self.roots if root in users), lambda node: node.drawn)
        return [node for node in below if node.is_content]

    def _add_content(self, node: Node) -> None:
        """Adds what content shows, or why that is not sure."""
        number = node.page or 0
        try:
            fonts, chooses_font = self.drawing.resolve(node)
            if chooses_font:
                raise Unclear("a graphics state chooses a font")
            for name, strings in self._shown(node.thing).items():
                if name not in fonts:
                    raise Unclear(f"the font {name.decode()} is not in the resources")
                fonts[name].shown.setdefault(id(strings), (number, strings))
        except Unclear as error:
            node.unclear = str(error)

    def _shown(self, content: Object) -> Shown:
        """What content shows. What several pages have, or is drawn with several resources, is read once."""
        streams = streams_of(content)
        key = tuple(stream.objgen for stream in streams)
        if key in self.shown:
            self.reading.spend(sum(len(string) for strings in self.shown[key].values() for string in strings))
        elif streams:
            found, count = shown(self.pdf, content)
            # A stream may be a part of the contents of many pages.
            self.reading.spend(count if self.read.intersection(key) else 0)
            self.read.update(key)
            self.shown[key] = found
        return self.shown.get(key, {})

    def _spread_unclear(self) -> None:
        """Where it is not sure what something shows, it is not for all that a page draws with it."""
        why = {node: node.unclear for node in self.drawing.nodes.values() if node.unclear}
        waiting = list(why)
        while waiting:
            node = waiting.pop()
            for user in self.users.get(node, ()):
                if user not in why:
                    why[user] = why[node]
                    waiting.append(user)
        marked: Set[Node] = set()
        for root in self.roots:
            if root in why:
                self._mark(root, f"{place(root.page or 0)}: {why[root]}", marked)

    def _mark(self, root: Node, why: str, marked: Set[Node]) -> None:
        """Marks the fonts of all that something draws."""
        for node in reached([root], lambda node: [drawn for drawn in node.drawn if drawn not in marked]):
            marked.add(node)
            for font in node.fonts.values():
                font.unclear = font.unclear or why

    def _leave_fonts_of_fields(self) -> None:
        """A field of a form is drawn anew for whatever is typed into it, in a font of the form's resources."""
        form = self.pdf.Root.get("/AcroForm", Dictionary())
        for font in values(form.get("/DR", Dictionary()), "/Font"):
            if font.objgen in self.drawing.fonts:
                self.drawing.fonts[font.objgen].unclear = "fields of a form can show other characters in it"


@contextmanager
def refusing() -> Iterator[None]:
    """Within it, what readings of a malformed file raise refuses the file."""
    try:
        yield
    except MALFORMED as error:
        raise Refused(f"it is malformed: {line(error)}") from error


def surveyed(pdf: Pdf, is_asked: Callable[[Font], bool]) -> List[Font]:
    """The embedded fonts of a file, which has one at least. Their programs are read, and what is shown in those that
    are asked for."""
    with refusing():
        found = Survey(pdf, is_asked).embedded
    if not found:
        raise Refused(NO_FONT)
    return found


def fonts(pdf: Pdf) -> List[Outcome]:
    """The embedded fonts of a file, and what the program of each is: `lean cut`, `lean cut for PDF` where it has only
    the tables that a PDF file needs, `cut`, `no cut` for a whole font and for what another program made of one,
    `refused` and why, or `no TrueType font`. Raises `Refused` where there is no embedded font."""
    return [Outcome(font.page, font.name, font.program.size, None, font.kind)
            for font in surveyed(pdf, lambda font: False)]


def producer(pdf: Pdf) -> str:
    """Which program wrote a file (ISO 32000-1, 14.3.3), as words that follow a font; nothing where the file does not
    say it."""
    info = pdf.trailer.get("/Info")
    told = info.get("/Producer") if isinstance(info, Dictionary) else None
    name = " ".join(str(told).split()) if isinstance(told, String) else ""
    shown = "".join(letter if letter.isprintable() else "?" for letter in name[:_MOST_OF_NAME])
    return f" by {shown}" if shown else ""


def stays(font: Font, why: str, expected: bool = False) -> Outcome:
    """What becomes of a font to which nothing more is done."""
    if font.shrunk is not None:
        return font.shrunk._replace(said=f"shrunk: {why}")
    return Outcome(font.page, font.name, font.program.size, None, f"stays as it is: {why}", expected)
