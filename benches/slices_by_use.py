"""How many slices and bytes a page of Chinese, Japanese or Korean loads, by the order of characters and by the sizes of
slices. The pages are manuals and games of Debian's packages, from which no order was made."""
import functools
import glob
import gzip
import os
import shutil
import statistics
import subprocess
import sys
from typing import Iterable, Iterator, NamedTuple, Optional, Sequence

import fontcut
from checks import read, skip
from fontcut_web import presets, sets, sheet, woff
from fontcut_web.faces import Face
from fontcut_web.pages import page_of
from measure import need

FONTS = "/usr/share/fonts"
LXGW = f"{FONTS}/truetype/lxgw-wenkai/LXGWWenKai-Regular.ttf"
# A language, its font, and where manuals and games have its texts.
HELP, GUIDE, CRAWL = "/usr/share/help", "/usr/share/doc/installation-guide-amd64", "/usr/share/crawl/dat/descript"
REFERENCE, FAQ, MAN = "/usr/share/debian-reference", "/usr/share/doc/debian/FAQ", "/usr/share/man"


class Language(NamedTuple):
    """A language, the name of its preset, a font, and patterns of the files of its manuals and games. `has_bytes` says
    whether its slices are packed, which takes minutes."""

    name: str
    preset: str
    font: str
    manuals: Sequence[str]
    games: Sequence[str]
    has_bytes: bool = True


LANGUAGES = [
    Language("Chinese, simplified", "chinese-simplified", LXGW, [
        f"{REFERENCE}/*.zh-cn.html", f"{FAQ}/zh-cn/*.html", f"{GUIDE}/zh_CN/*.html", f"{HELP}/zh_CN/*/*.page",
        f"{MAN}/zh_CN/man*/*.gz"], [f"{CRAWL}/zh/*.txt"]),
    Language("Chinese, traditional", "chinese-traditional", LXGW, [
        f"{REFERENCE}/*.zh-tw.html", f"{HELP}/zh_TW/*/*.page", f"{MAN}/zh_TW/man*/*.gz"], [], has_bytes=False),
    Language("Japanese", "japanese", f"{FONTS}/opentype/ipafont-gothic/ipag.ttf", [
        f"{REFERENCE}/*.ja.html", f"{FAQ}/ja/*.html", f"{GUIDE}/ja/*.html", f"{HELP}/ja/*/*.page",
        f"{MAN}/ja/man*/*.gz"], [f"{CRAWL}/ja/*.txt"]),
    Language("Korean", "korean", f"{FONTS}/truetype/nanum/NanumGothic.ttf", [
        f"{GUIDE}/ko/*.html", f"{HELP}/ko/*/*.page"], [f"{CRAWL}/ko/*.txt"])]
# How many different characters a page has, at how many a longer text is cut, and how many pages of a source count.
LEAST, MOST, CUT_AT, OF_SOURCE = 150, 250, 200, 120
# How many pages of each kind count for the bytes.
FOR_BYTES = 20
GOAL = 8
BY_CODE = "by code, 100 equal"


class Row(NamedTuple):
    """What a way of slicing comes to for the pages of a kind: slices and bytes that a page loads, and how many times
    the bytes of its own cut; and the bytes of the style sheet, as it is and after Brotli."""

    language: str
    way: str
    kind: str
    pages: int
    touched: list[int]
    loaded: Optional[int]
    own: Optional[int]
    css: tuple[int, int]


def text_of(path: str) -> str:
    """The text of a page of a manual or a game."""
    data = gzip.decompress(read(path)) if path.endswith(".gz") else read(path)
    text = data.decode("utf-8", "replace")
    return page_of(data).text if path.endswith((".html", ".page")) and "\ufffd" not in text else text


def parts(text: str, known: set[int]) -> Iterator[set[int]]:
    """The sets of ranked characters of a text: the whole of a short page, and each 200th different character of a
    longer one begins the next part."""
    found: set[int] = set()
    whole = set(map(ord, text)) & known
    if len(whole) <= MOST:
        yield whole
        return
    for code in map(ord, text):
        if code in known:
            found.add(code)
        if len(found) == CUT_AT:
            yield found
            found = set()


def pages_of(patterns: Iterable[str], known: set[int]) -> list[set[int]]:
    """The pages of these sources."""
    found: list[set[int]] = []
    for pattern in patterns:
        each = (part for path in sorted(glob.glob(pattern)) for part in parts(text_of(path), known))
        of_source = [part for part in each if LEAST <= len(part) <= MOST]
        step = max(1, len(of_source) // OF_SOURCE)
        found += of_source[::step][:OF_SOURCE]
    return found


def ways(language: Language, codes: Sequence[int]) -> dict[str, list[sets.Slice]]:
    """The slices of a font, by the name of each way, without those of signs, which each page loads."""
    found = {}
    for size in presets.SIZES:
        one = sets.divided(codes, sets.asked([f"{language.preset}:{size}"]))
        found[f"by use, `{size}`"] = [slice for slice in one if slice.name != language.preset]
    ranked = sorted(code for slice in found["by use, `few-bytes`"] for code in slice.codes)
    return {BY_CODE: sets.divided(ranked, sets.asked(["equal:100"])), **found}


def woff2_size(folder: str, font: fontcut.Font, codes: Iterable[int]) -> int:
    """The bytes of the lean cut for some characters, as WOFF2."""
    path = f"{folder}/slice.ttf"
    with open(path, "wb") as out:
        out.write(fontcut.cut(font, list(codes), kind="lean"))
    subprocess.run(["woff2_compress", path], check=True, capture_output=True)
    return os.path.getsize(f"{folder}/slice.woff2")


def css_sizes(slices: Sequence[sets.Slice]) -> tuple[int, int]:
    """The bytes of the style sheet of slices, as it is and after Brotli."""
    face = Face("Font", "normal", "400", "100%")
    placed = [sheet.Placed(one, f"Font-{one.name}.woff2") for one in slices]
    text = sheet.style_sheet([sheet.Styled(face, face, placed)], "swap", "slice").encode()
    packed = woff.compressed_size(text)
    return len(text), packed or 0


def measured_way(folder: str, opened: fontcut.Font, language: Language, way: str, slices: list[sets.Slice],
                 pages: dict[str, list[set[int]]], own: dict[str, list[int]]) -> Iterator[Row]:
    """What a way of slicing comes to, for the pages of each kind. Slices that none of them has are not packed."""
    size = functools.lru_cache(maxsize=None)(lambda number: woff2_size(folder, opened, slices[number].codes))
    css = css_sizes(slices)
    for kind, found in pages.items():
        hits = [[number for number, one in enumerate(slices) if not page.isdisjoint(one.codes)] for page in found]
        loaded = [sum(map(size, hit)) for hit in hits[:FOR_BYTES]] if language.has_bytes else []
        yield Row(language.name, way, kind, len(found), sorted(map(len, hits)),
                  round(statistics.median(loaded)) if loaded else None,
                  round(statistics.median(own[kind])) if loaded else None, css)


def measured_language(folder: str, language: Language) -> Iterator[Row]:
    """What the pages of a language load."""
    opened = fontcut.Font(read(language.font))
    slices = ways(language, sets.codes_of(opened))
    known = {code for one in slices[BY_CODE] for code in one.codes}
    kinds = {"manuals": pages_of(language.manuals, known), "games": pages_of(language.games, known)}
    pages = {kind: found for kind, found in kinds.items() if len(found) >= FOR_BYTES}
    need(f"{language.name}: there are pages", pages)
    own = {kind: [woff2_size(folder, opened, page) for page in found[:FOR_BYTES]] if language.has_bytes else []
           for kind, found in pages.items()}
    for way, one in slices.items():
        yield from measured_way(folder, opened, language, way, one, pages, own)


def measured(folder: str, library: str) -> list[Row]:
    """What was measured, of the languages whose fonts and texts are installed."""
    os.environ["FONTCUT_LIBRARY"] = library
    found: list[Row] = []
    for language in LANGUAGES:
        if (not os.path.exists(language.font) or not shutil.which("woff2_compress")
                or not glob.glob(language.manuals[0])):
            skip(f"slices by use, {language.name}", "the package of its font, of its pages or woff2 is not installed")
            continue
        print(f"slices by use: {language.name}", file=sys.stderr, flush=True)
        found += measured_language(folder, language)
    return found


def table(rows: Sequence[Row]) -> str:
    """The table, with tabs between its cells."""
    lines = [("language", "slices", "pages", "slices of a page: median (90 %)", "of 8 at most", "KB of a page",
              "times its own cut", "style sheet, KB (Brotli)")]
    for row in rows:
        touched, few = row.touched, sum(count <= GOAL for count in row.touched)
        size = f"{row.loaded / 1000:,.0f}" if row.loaded else "–"
        times = f"{row.loaded / row.own:.1f}" if row.loaded and row.own else "–"
        lines.append((row.language, row.way, f"{row.pages} {row.kind}",
                      f"{round(statistics.median(touched))} ({touched[len(touched) * 9 // 10]})",
                      f"{100 * few // len(touched)} %", size, times,
                      f"{row.css[0] / 1000:.0f} ({row.css[1] / 1000:.0f})"))
    return "\n".join(map("\t".join, lines)) if rows else "Not measured, for a package was not there."
