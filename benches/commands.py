"""How long the commands of the module for Python take: slices of a Chinese font as WOFF2 beside a loop of pyftsubset,
and a merge of letters beside qpdf."""
import importlib
import os
import re
import resource
import subprocess
import sys
from typing import Iterator, NamedTuple

from checks import DEJAVU, FONTCUT_WEB, TOP, read, skip
from document_texts import document_lines
from join_timing import SOURCE
from measure import DEBIAN_PYTHON, need

BINDINGS = os.path.join(TOP, "bindings", "python")
LETTER_FONT = f"{DEJAVU}/DejaVuSans.ttf"
SLICES, LETTERS, RUNS = 100, 40, 5


class Way(NamedTuple):
    """One way to do something: the seconds of the processor, and the bytes of what it made."""

    name: str
    seconds: float
    size: int


def seconds_of(*lines: list[str]) -> float:
    """The processor's seconds that command lines take one after the other, each of which has to end well."""
    before = resource.getrusage(resource.RUSAGE_CHILDREN)
    for words in lines:
        ran = subprocess.run(words, stdin=subprocess.DEVNULL, capture_output=True, check=False)
        need(f"{words[0]} ends well", ran.returncode == 0, words, ran.stderr)
    after = resource.getrusage(resource.RUSAGE_CHILDREN)
    return after.ru_utime + after.ru_stime - before.ru_utime - before.ru_stime


def sizes_below(folder: str, ending: str) -> int:
    """The bytes of all files of a folder with an ending."""
    return sum(os.path.getsize(os.path.join(folder, name)) for name in os.listdir(folder) if name.endswith(ending))


def sliced(folder: str, count: int) -> Iterator[Way]:
    """Slices of the font as WOFF2, in each way."""
    site, other = f"{folder}/site", f"{folder}/other"
    os.mkdir(other)
    words = [DEBIAN_PYTHON, FONTCUT_WEB, "slice", SOURCE, "--out", site, "--slices", f"equal:{count}", "--lean",
             "--css"]
    yield Way("`fontcut-web slice`", seconds_of([*words, "--woff2"]), sizes_below(site, ".woff2"))
    ranges = re.findall(r"unicode-range: (.*);", read(f"{site}/fonts.css").decode())
    lines = [[DEBIAN_PYTHON, "-m", "fontTools.subset", SOURCE, f"--unicodes={one.replace(' ', '')}", "--flavor=woff2",
              f"--output-file={other}/{number}.woff2"] for number, one in enumerate(ranges)]
    yield Way("`pyftsubset`, a call a slice", seconds_of(*lines), sizes_below(other, ".woff2"))
    yield Way("`fontcut-web slice` without `--woff2`", seconds_of(words), sizes_below(site, ".ttf"))


def letters(folder: str, count: int) -> Iterator[str]:
    """Writes letters of a page each, whose fonts are lean cuts."""
    sys.path.insert(0, BINDINGS)
    pikepdf, fontcut, fontcut_pdf = map(importlib.import_module, ("pikepdf", "fontcut", "fontcut_pdf"))
    font = read(LETTER_FONT)
    codes = {code for first, last in fontcut.codes(font) for code in range(first, last + 1)}
    for number, lines in enumerate(document_lines("letters", codes, count)):
        pdf = pikepdf.Pdf.new()
        used = fontcut_pdf.embed(pdf, font, "".join(lines))
        body = b"BT /F 12 Tf 16 TL 20 380 Td " + b" ".join(used.show(line) + b" Tj T*" for line in lines) + b" ET"
        fonts = pikepdf.Dictionary(F=used.font)
        pdf.pages.append(pikepdf.Page(pdf.make_indirect(pikepdf.Dictionary(
            Type=pikepdf.Name.Page, MediaBox=pikepdf.Array([0, 0, 300, 400]), Contents=pikepdf.Stream(pdf, body),
            Resources=pikepdf.Dictionary(Font=fonts)))))
        path = f"{folder}/letter-{number}.pdf"
        pdf.save(path, object_stream_mode=pikepdf.ObjectStreamMode.generate)
        yield path


def merged(folder: str, count: int) -> Iterator[Way]:
    """A merge of letters, in each way: the least of some runs."""
    paths, out = list(letters(folder, count)), f"{folder}/merged.pdf"
    ways = {"`fontcut-pdf merge`": [DEBIAN_PYTHON, f"{BINDINGS}/fontcut-pdf", "merge", "-o", out, *paths],
            "`qpdf --empty --pages`": ["qpdf", "--empty", "--object-streams=generate", "--pages", *paths, "--", out]}
    for name, words in ways.items():
        yield Way(name, min(seconds_of(words) for _ in range(RUNS)), os.path.getsize(out))


def measured(folder: str, library: str, is_quick: bool) -> dict[str, list[Way]]:
    """What was measured, by the name of its table. Where a package is not there, or in a quick run, that is left
    out."""
    os.environ["FONTCUT_LIBRARY"] = library
    found: dict[str, list[Way]] = {"slices": [], "letters": []}
    if is_quick or not os.path.exists(SOURCE) or not is_there("import brotli, fontTools"):
        skip("slices of LXGW WenKai", "a quick run, or a package is not installed")
    else:
        print("LXGWWenKai-Regular: slices", file=sys.stderr, flush=True)
        found["slices"] = list(sliced(folder, SLICES))
    if os.path.exists(LETTER_FONT) and is_there("import pikepdf", "qpdf"):
        print("DejaVuSans: letters", file=sys.stderr, flush=True)
        found["letters"] = list(merged(folder, LETTERS))
    else:
        skip("letters", "python3-pikepdf or qpdf is not installed")
    return found


def is_there(line: str, program: str = "true") -> bool:
    """Whether Debian's Python runs a line, and a program is there."""
    lines = [DEBIAN_PYTHON, "-c", line], [program, "--version"]
    try:
        return all(subprocess.run(words, capture_output=True, check=False).returncode == 0 for words in lines)
    except FileNotFoundError:
        return False
