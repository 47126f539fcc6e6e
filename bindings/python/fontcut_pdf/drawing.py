"""What draws the pages of a file, as a graph: pages, streams of content, and the dictionaries of resources by whose
names they go (ISO 32000-1, 7.8). Each is one node, however many others name it, so that a walk takes time that grows
with the file. What a stream shows depends on the resources that it is drawn with: with others it is another node."""
from __future__ import annotations

from typing import Callable, Dict, Hashable, Iterable, Iterator, List, Optional, Set, Tuple

from pikepdf import Dictionary, Name, Object, Pdf, Stream

from .common import Id, Refused, entries, values
from .font import Font
from .limits import DEEPEST

# How often streams may be drawn with other resources again: this often, and ten times for each object of a file.
MOST_AGAIN = 1000


class Node:
    """A page, a stream of content, or a dictionary of resources.

    thing          the object
    key            what names it among all nodes
    page           the first page that draws it, from 1, or 0 where none does; None before a walk comes to it
    drawn          the nodes that it names
    resources      of content, the node of the resources by whose names it goes
    fonts          of resources, their fonts by the names that these have there
    chooses_font   of resources, whether a graphics state of theirs chooses a font
    unclear        of content, why it is not sure what it shows
    """

    def __init__(self, kind: str, thing: Object, key: Hashable):
        self.kind = kind
        self.thing = thing
        self.key = key
        self.page: Optional[int] = None
        self.drawn: List[Node] = []
        self.resources: Optional[Node] = None
        self.fonts: Dict[bytes, Font] = {}
        self.chooses_font = False
        self.unclear: Optional[str] = None

    @property
    def is_content(self) -> bool:
        return self.kind in ("page", "stream")


def reached(starts: Iterable[Node], following: Callable[[Node], Iterable[Node]]) -> Dict[Node, None]:
    """The nodes to which a walk comes, each once."""
    found: Dict[Node, None] = {}
    waiting = list(starts)[::-1]
    while waiting:
        node = waiting.pop()
        if node not in found:
            found[node] = None
            waiting += following(node)
    return found


def pages_of(pdf: Pdf) -> List[Object]:
    """The pages of a file in their order (ISO 32000-1, 7.7.3), as qpdf finds them. It looks through all pages for each
    of its own list."""
    len(pdf.pages)
    found: List[Object] = []
    waiting = [pdf.Root.Pages]
    while waiting:
        node = waiting.pop()
        kids = node.get("/Kids")
        if kids is None:
            found.append(node)
        else:
            waiting += reversed(list(kids))
    return found


def annotations_of(page: Object) -> List[Object]:
    """The annotations of a page. One that is not in the file is null."""
    return [annotation for annotation in page.get("/Annots", ()) if annotation is not None]


def _looks(page: Object) -> Iterator[Stream]:
    """The streams that draw the annotations of a page (ISO 32000-1, 12.5.5)."""
    for annotation in annotations_of(page):
        for look in values(annotation, "/AP"):
            states = [look] if isinstance(look, Stream) else [state for _, state in entries(look)]
            yield from (state for state in states if isinstance(state, Stream))


def _holder_of_resources(page: Object) -> Object:
    """The page, or the node of the page tree that has its resources (ISO 32000-1, 7.7.3.4)."""
    node = page
    for _ in range(DEEPEST):
        if "/Resources" in node or "/Parent" not in node:
            break
        node = node.Parent
    return node


class Drawing:
    """The graph of a file, and the fonts that its resources name."""

    def __init__(self, pdf: Pdf):
        self.pdf = pdf
        self.fonts: Dict[Id, Font] = {}
        self.nodes: Dict[Hashable, Node] = {}
        self._streams: Set[Id] = set()
        self._again = MOST_AGAIN + 10 * len(pdf.objects)

    def walk(self, root: Node, number: int) -> None:
        """Opens the nodes to which a walk from one comes and none came before: they are of this page."""
        waiting = [root]
        while waiting:
            node = waiting.pop()
            if node.page is None:
                node.page = number
                getattr(self, f"_open_{node.kind}")(node)
                waiting += reversed(node.drawn)

    def page(self, page: Object) -> Node:
        """The node of a page, which may be a hidden one."""
        return self._node("page", page, page.objgen if page.is_indirect else object())

    def stream(self, stream: Stream) -> Node:
        """The node of a form, or of a pattern. One without resources has those of what calls it, which are not looked
        for: where it shows text, its page is unclear."""
        return self._node("stream", stream, stream.objgen)

    def glyphs(self, font: Object) -> Node:
        """The node of the glyphs of a Type 3 font."""
        return self._node("glyphs", font, font.objgen if font.is_indirect else object())

    def _node(self, kind: str, thing: Object, key: Hashable) -> Node:
        node = self.nodes.get((kind, key))
        if node is None:
            node = self.nodes[kind, key] = Node(kind, thing, key)
        return node

    def _inner(self, kind: str, holder: Node, key: str) -> Optional[Node]:
        """The node of the dictionary at a key of another one. One without a number is named by where it stands."""
        inner = holder.thing.get(key)
        if not isinstance(inner, Dictionary):
            return None
        return self._node(kind, inner, inner.objgen if inner.is_indirect else (holder.key, key))

    def _open_page(self, node: Node) -> None:
        holder = self.page(_holder_of_resources(node.thing))
        node.resources = self._inner("resources", holder, "/Resources")
        node.drawn = [node.resources] if node.resources else []
        node.drawn += map(self.stream, _looks(node.thing))

    def _open_stream(self, node: Node) -> None:
        if node.resources is None:
            node.resources = self._inner("resources", node, "/Resources")
        node.drawn = [node.resources] if node.resources else []

    def _open_resources(self, node: Node) -> None:
        inner = [self._inner(kind, node, key) for kind, key in (
            ("forms", "/XObject"), ("forms", "/Pattern"), ("states", "/ExtGState"), ("fonts", "/Font"))]
        node.drawn = [one for one in inner if one]

    def _open_forms(self, node: Node) -> None:
        node.drawn = [self.stream(stream) for _, stream in entries(node.thing) if isinstance(stream, Stream)
                      and (stream.get("/Subtype") == Name.Form or stream.get("/PatternType") == 1)]

    def _open_states(self, node: Node) -> None:
        for _, state in entries(node.thing):
            mask = state.get("/SMask")
            if isinstance(mask, Dictionary):
                node.drawn.append(self.stream(mask.G))
            node.chooses_font = node.chooses_font or "/Font" in state

    def _open_fonts(self, node: Node) -> None:
        """The fonts of resources. One that stands there itself becomes an object of its own."""
        holder = node.thing
        for key, font in entries(holder):
            if not font.is_indirect:
                holder[key] = font = self.pdf.make_indirect(font)
            known = self.fonts.setdefault(font.objgen, Font(self.pdf, font, node.page or 0))
            known.places.append((holder, key))
            node.fonts[key.unparse()] = known
            if "/CharProcs" in font:
                node.drawn.append(self.glyphs(font))

    def _open_glyphs(self, node: Node) -> None:
        resources = self._inner("resources", node, "/Resources")
        for stream in values(node.thing, "/CharProcs"):
            self._count(stream)
            glyph = self._node("stream", stream, (stream.objgen, resources.key) if resources else stream.objgen)
            glyph.resources = resources
            node.drawn.append(glyph)

    def _count(self, stream: Stream) -> None:
        """A short file can name all its streams from each of its fonts."""
        if stream.objgen in self._streams:
            self._again -= 1
        self._streams.add(stream.objgen)
        if self._again < 0:
            raise Refused("its glyphs are drawn with too many resources")

    def resolve(self, content: Node) -> Tuple[Dict[bytes, Font], bool]:
        """The fonts by whose names content goes, and whether a graphics state chooses one for it."""
        inner = content.resources.drawn if content.resources else []
        fonts: Dict[bytes, Font] = next((node.fonts for node in inner if node.kind == "fonts"), {})
        return fonts, any(node.chooses_font for node in inner)
