"""docs/shaping.svg: a line of Arabic and one of Latin, each with a font, its lean cut and its layout cut. HarfBuzz
shapes them, and the outlines are those of the cuts."""
import json
import os
import shutil
from typing import Any, Iterable, Iterator, NamedTuple, Optional
from xml.sax.saxutils import escape

from checks import NOTO, PROGRAM, run, skip
from measure import need


class Line(NamedTuple):
    """What is drawn: the font, its name, and the text."""

    path: str
    font: str
    text: str


# The first text begins the Universal Declaration of Human Rights.
LINES = [Line(f"{NOTO}/NotoNaskhArabic-Regular.ttf", "Noto Naskh Arabic", "يُولَدُ جَمِيعُ النَّاسِ أَحْرَارًا"),
         Line(f"{NOTO}/NotoSerif-Regular.ttf", "Noto Serif", "Official fjords, AVATAR")]

EM, ROW, TITLE, LEFT, MARGIN = 34, 56, 26, 100, 12  # in pixels
BASELINE = 38  # below the top of a row
STYLE = """
svg { fill: #000000 }
.label { fill: #555555 }
.page { fill: #ffffff }
@media (prefers-color-scheme: dark) {
svg { fill: #f0f0f0 }
.label { fill: #b0b0b0 }
.page { fill: #0d1117 }
}
"""
ABOUT = ("A line of Arabic and a line of Latin, each drawn with the whole font, with its lean cut and with its layout "
         "cut. The layout cut draws both as the font does; the lean cut has no joined letters in the first, and no "
         "ligature and no kerning in the second.")


class Placed(NamedTuple):
    """A glyph where it stands, in font units: the path of its outline, and its place."""

    path: str
    x: int
    y: int


def shaped(path: str, text: str) -> Any:
    """What HarfBuzz shapes a text to: a dictionary for each glyph, with its number, its offset and its advance."""
    status, out, err = run("hb-shape", "--no-glyph-names", "--no-clusters", "--output-format=json", path, text)
    need(f"{path} is shaped", status == 0, err)
    return json.loads(out)


def placed(path: str, glyphs: Iterable[dict[str, int]]) -> tuple[list[Placed], int, int]:
    """The outlines of glyphs in a row, where they stand, and how wide the row is."""
    from fontTools.pens.svgPathPen import SVGPathPen
    from fontTools.ttLib import TTFont
    font = TTFont(path)
    outlines, x, row = font.getGlyphSet(), 0, []
    for glyph in glyphs:
        pen = SVGPathPen(outlines)
        outlines[font.getGlyphName(glyph["g"])].draw(pen)
        if pen.getCommands():
            row.append(Placed(pen.getCommands(), x + glyph.get("dx", 0), glyph.get("dy", 0)))
        x += glyph["ax"]
    return row, x, font["head"].unitsPerEm


def rows_of(line: Line, folder: str) -> Iterator[tuple[str, str]]:
    """The rows of a line: a label, and the path of the font or the cut."""
    yield "whole font", line.path
    for kind in "lean", "layout":
        out = os.path.join(folder, f"shaped-{kind}.ttf")
        ran = run(PROGRAM, "subset", f"--{kind}", "--quiet", "--text", line.text, line.path, out)
        need(f"{line.font}: the {kind} cut is made", ran[0] == 0, ran)
        yield f"{kind} cut", out


class Picture:
    """The parts of the picture, and where the next one goes."""

    def __init__(self) -> None:
        self.names: dict[str, str] = {}
        self.drawn: list[str] = []
        self.y, self.width = MARGIN, 0.0

    def text(self, x: int, y: int, words: str, style: str) -> None:
        """Puts words at a place."""
        self.drawn.append(f'<text x="{x}" y="{y}" {style}>{escape(words)}</text>')

    def title(self, words: str) -> None:
        """Puts words above the rows of a line."""
        self.text(MARGIN, self.y + TITLE - 8, words, 'font-weight="bold"')
        self.y += TITLE

    def name_of(self, outline: str) -> str:
        """The name of an outline, which stands in the file once."""
        return self.names.setdefault(outline, f"o{len(self.names)}")

    def row(self, label: str, path: str, glyphs: Iterable[dict[str, int]]) -> None:
        """Draws a row of glyphs."""
        outlines, width, units = placed(path, glyphs)
        scale, baseline = EM / units, self.y + BASELINE
        uses = "".join(f'<use href="#{self.name_of(one.path)}" x="{one.x}" y="{one.y}"/>' for one in outlines)
        self.text(MARGIN, baseline, label, 'class="label"')
        self.drawn.append(f'<g transform="translate({LEFT} {baseline}) scale({scale:g} {-scale:g})">{uses}</g>')
        self.width = max(self.width, LEFT + width * scale + MARGIN)
        self.y += ROW

    def svg(self) -> str:
        """The file."""
        width, height = round(self.width), self.y + MARGIN
        outlines = "".join(f'<path id="{name}" d="{path}"/>' for path, name in self.names.items())
        return (f'<svg xmlns="http://www.w3.org/2000/svg" width="{width}" height="{height}" '
                f'viewBox="0 0 {width} {height}" role="img" aria-label="{escape(ABOUT)}" font-family="sans-serif" '
                f'font-size="13">\n<style>{STYLE}</style>\n<rect class="page" width="{width}" height="{height}"/>\n'
                f"<defs>{outlines}</defs>\n"
                + "\n".join(self.drawn) + "\n</svg>\n")


def draw_line(picture: Picture, line: Line, folder: str) -> None:
    """Draws a line with the font and with its cuts. The layout cut has to shape it as the font does."""
    picture.title(line.font)
    found = {}
    for label, path in rows_of(line, folder):
        found[label] = shaped(path, line.text)
        picture.row(label, path, found[label])
    need(f"{line.font}: the layout cut shapes the line as the font does", found["whole font"] == found["layout cut"])
    need(f"{line.font}: the lean cut does not", found["whole font"] != found["lean cut"])


def lacking() -> Optional[str]:
    """What is not there of that which the picture needs, or None."""
    if not all(os.path.exists(line.path) for line in LINES):
        return "Debian's package fonts-noto-core is not installed"
    if not shutil.which("hb-shape"):
        return "Debian's package libharfbuzz-bin is not installed"
    try:
        import fontTools  # noqa: F401
    except ImportError:
        return "Debian's package python3-fonttools is not installed"
    return None


def draw(path: str, folder: str) -> None:
    """Writes the picture, by cuts in a folder."""
    why = lacking()
    if why:
        skip("the picture of shaping", why)
        return
    picture = Picture()
    for line in LINES:
        draw_line(picture, line, folder)
    with open(path, "w", encoding="utf-8") as out:
        out.write(picture.svg())
