"""What a page of text weighs as WOFF2 by each way of cutting its font: closed and exact cuts, of the font as it is and
of the font that `fontcut-web prepare` makes for languages or for the page, beside hb-subset and pyftsubset."""
import html
import os
import shutil
import sys
from typing import Iterator, NamedTuple, Optional, Sequence

from checks import DEJAVU, FONTCUT_WEB, INTER, LIBERATION, NOTO, PYTHON, VLGOTHIC, put, run, skip
from fontcut import needed
from measure import DEBIAN_PYTHON, HB_SUBSET, need
from pages import length_of
from shaping import shaped
from shaping_texts import TEXTS

TRUETYPE = "/usr/share/fonts/truetype"
CHARIS, LATO, ROBOTO = f"{TRUETYPE}/charis", f"{TRUETYPE}/lato", f"{TRUETYPE}/roboto/unhinted/RobotoTTF"
OPEN_SANS, CARLITO = f"{TRUETYPE}/open-sans", f"{TRUETYPE}/crosextra"
FIRA_CODE, JETBRAINS = f"{TRUETYPE}/firacode", f"{TRUETYPE}/jetbrains-mono"
LXGW, ICONS = f"{TRUETYPE}/lxgw-wenkai", f"{TRUETYPE}/material-design-icons-iconfont"
PACKAGES = {NOTO: "fonts-noto-core", DEJAVU: "fonts-dejavu-core", LIBERATION: "fonts-liberation2",
            CHARIS: "fonts-sil-charis", LATO: "fonts-lato", ROBOTO: "fonts-roboto-unhinted",
            OPEN_SANS: "fonts-open-sans", CARLITO: "fonts-crosextra-carlito", FIRA_CODE: "fonts-firacode",
            JETBRAINS: "fonts-jetbrains-mono", VLGOTHIC: "fonts-vlgothic", LXGW: "fonts-lxgw-wenkai",
            ICONS: "fonts-material-design-icons-iconfont", INTER: "fonts-inter-variable"}

LATIN, PROGRAMS, SHAPED, HAN, ICON, VARYING = GROUPS = (
    "Latin", "program text", "shaped scripts", "Chinese, Japanese", "icons", "Inter, variable")

# The lines of pages: languages, and how a text begins.
LATIN_LINES = [("en", "All human"), ("en", "Official"), ("fr", "Tous les"), ("de", "Alle Menschen")]
PROGRAM_LINES = ["if (a != b && c >= 10) { return x->y <= z || !w; } // ok",
                 "let f = |n: u32| -> u32 { n * 0xFF }; /* => */",
                 "www <!-- --> === !== ++ -- :: .. ... ## <=> |> ~> [0..9]"]
NAMES = """home search settings menu close check_circle add delete favorite share star person info help warning
    shopping_cart email phone lock visibility expand_more arrow_back arrow_forward account_circle print cloud_queue
    folder alarm map place""".split()
SHAPED_LINES = [
    (f"{NOTO}/NotoNaskhArabic-Regular.ttf", [("ar", "يولد"), ("ar", "وقد"), ("ar", "بِسْمِ")]),
    (f"{NOTO}/NotoNastaliqUrdu-Regular.ttf", [("ur", "تمام انسان")]),
    (f"{NOTO}/NotoSansDevanagari-Regular.ttf", [("hi", "सभी"), ("hi", "क्षत्रिय"), ("mr", "सर्व मानवी")]),
    (f"{NOTO}/NotoSansBengali-Regular.ttf", [("bn", "সমস্ত")]),
    (f"{NOTO}/NotoSansTamil-Regular.ttf", [("ta", "மனிதப்"), ("ta", "ஸ்ரீ")]),
    (f"{NOTO}/NotoSansTelugu-Regular.ttf", [("te", "ప్రతిపత్తి")]),
    (f"{NOTO}/NotoSansMalayalam-Regular.ttf", [("ml", "മനുഷ്യ")]),
    (f"{NOTO}/NotoSansSinhala-Regular.ttf", [("si", "සියලු")]),
    (f"{NOTO}/NotoSansThai-Regular.ttf", [("th", "มนุษย์")]),
    (f"{NOTO}/NotoSerifTibetan-Regular.ttf", [("bo", "འགྲོ")]),
    (f"{NOTO}/NotoSansMyanmar-Regular.ttf", [("my", "လူတိုင်း"), ("my", "လည်းကောင်း မွေး"), ("my", "အင်္ဂလိပ်")]),
    (f"{NOTO}/NotoSansKhmer-Regular.ttf", [("km", "មនុស្ស"), ("km", "ស្ត្រី")])]
LATIN_FONTS = [f"{NOTO}/NotoSans-Regular.ttf", f"{NOTO}/NotoSerif-Regular.ttf", f"{DEJAVU}/DejaVuSans.ttf",
               f"{DEJAVU}/DejaVuSerif.ttf", f"{CHARIS}/CharisSIL-Regular.ttf", f"{LATO}/Lato-Regular.ttf",
               f"{ROBOTO}/Roboto-Regular.ttf", f"{OPEN_SANS}/OpenSans-Regular.ttf", f"{CARLITO}/Carlito-Regular.ttf",
               f"{LIBERATION}/LiberationSerif-Regular.ttf"]

# What fonts for Latin pages are prepared for by ranges: ASCII, Latin-1, two letters of French, nine combining marks,
# and punctuation.
RANGES = ("--unicodes=U+20-7E,U+A0-FF,U+152-153,U+300-304,U+308,U+30A,U+30C,U+327,U+2010-2015,U+2018-201E,U+2020-2022,"
          "U+2026,U+2039-203A,U+20AC,U+2122")

# What the ways are called: ours by what the font is prepared for, with names that are kept or are the least.
LEAN, CLOSED, EXACT = "lean", "closed", "exact"
FOR_LANGUAGES, FOR_PAGES, FOR_RANGES = "by languages", "by pages", "by ranges"
KEPT, NO_HINTING = ", names kept", ", no hinting"
HB, HB_BARE, HB_ALL, HB_RENUMBERED, PYFTSUBSET = (
    "hb-subset --retain-gids", "hb-subset --retain-gids --no-hinting", "hb-subset --retain-gids, all features",
    "hb-subset, renumbered", "pyftsubset")
TYPED = ", as typed"


class Page(NamedTuple):
    """A page: its group, its font, its lines, each with its language, the options that prepare the font for its
    languages, and the kind of its cuts."""

    group: str
    path: str
    lines: list[tuple[str, str]]
    prepared: list[str]
    kind: str = "--layout"

    @property
    def font(self) -> str:
        """What the font is called."""
        return os.path.basename(self.path)[:-len(".ttf")]


class Sized(NamedTuple):
    """A page, how many characters it has with those that a shaper takes, and the bytes as WOFF2 of each way."""

    page: Page
    characters: int
    made: dict[str, int]


def lines_of(rows: Sequence[tuple[str, str]]) -> list[tuple[str, str]]:
    """The texts that begin so, each with its language."""
    found = [(language, text) for language, start in rows for text in TEXTS if text.startswith(start)]
    need("the lines of the pages are there", len(found) == len(rows), rows, found)
    return found


def all_pages() -> Iterator[Page]:
    """The pages."""
    latin, by_latin = lines_of(LATIN_LINES), ["--languages=en,fr,de"]
    programs = [("en", line) for line in PROGRAM_LINES]
    yield from (Page(LATIN, path, latin, by_latin) for path in LATIN_FONTS)
    yield Page(PROGRAMS, f"{FIRA_CODE}/FiraCode-Regular.ttf", programs, ["--languages=en"])
    yield Page(PROGRAMS, f"{JETBRAINS}/JetBrainsMono-Regular.ttf", programs, ["--languages=en"])
    for path, rows in SHAPED_LINES:
        languages = ",".join(dict.fromkeys(language for language, _ in rows))
        yield Page(SHAPED, path, lines_of(rows), [f"--languages={languages}"])
    yield Page(HAN, f"{VLGOTHIC}/VL-Gothic-Regular.ttf", lines_of([("ja", "すべて")]), ["--languages=ja"])
    yield Page(HAN, f"{LXGW}/LXGWWenKai-Regular.ttf", lines_of([("zh", "人人")]), ["--languages=zh"])
    yield Page(ICON, f"{ICONS}/MaterialIcons-Regular.ttf", [("en", name) for name in NAMES], ["--unicodes=U+20-7E"])
    for name in "Inter.var", "Inter-italic.var":
        yield Page(VARYING, f"{INTER}/{name}.ttf", latin, by_latin, "--variable")


def pages() -> Iterator[Page]:
    """The pages whose fonts are installed."""
    for page in all_pages():
        if os.path.exists(page.path):
            yield page
        else:
            skip(page.path, f"Debian's package {PACKAGES[os.path.dirname(page.path)]} is not installed")


class Sizes:
    """Makes the files of pages in a folder, by the shared library."""

    def __init__(self, folder: str, library: str) -> None:
        self.known = {**os.environ, "FONTCUT_LIBRARY": library}
        self.page, self.texts = os.path.join(folder, "page.html"), os.path.join(folder, "page.txt")
        self.prepared, self.out = os.path.join(folder, "prepared.ttf"), os.path.join(folder, "sized.ttf")

    def web(self, *words: str) -> bool:
        """Runs `fontcut-web`, and returns whether it is done."""
        status, _, err = run(PYTHON, "-B", FONTCUT_WEB, *words, timeout=1800, env=self.known)
        need(f"fontcut-web {words[0]} {words[1]}", status == 0, words, err.decode())
        return status == 0

    def cuts(self, page: Page, font: str, name: str) -> Iterator[tuple[str, int]]:
        """The closed and the exact cut of a font, which is the page's or was made of it. Both shape its lines so."""
        for way, words in ((CLOSED, [page.kind]), (EXACT, [page.kind, "--shaped"])):
            self.web("text", self.page, font, self.out, "--as-is", *words)
            need(f"{page.font}, {way}{name}: it shapes the page as the font",
                 shaped(page.path, self.texts, "--shapers=ot") == shaped(self.out, self.texts, "--shapers=ot"))
            yield f"{way}{name}", length_of(self.out).woff2 or 0

    def ours(self, page: Page) -> Iterator[tuple[str, int]]:
        """What fontcut makes."""
        if page.group != ICON:  # which are ligatures, and a lean cut has none
            self.web("text", self.page, page.path, self.out, "--lean")
            yield LEAN, length_of(self.out).woff2 or 0
        yield from self.cuts(page, page.path, "")
        rows = [(FOR_LANGUAGES, KEPT, ["--names=keep"]),
                (FOR_LANGUAGES, KEPT + NO_HINTING, ["--names=keep", "--no-hinting"]),
                (FOR_LANGUAGES, "", ["--names=least"]), (FOR_PAGES, "", ["--names=least"]),
                (FOR_PAGES, NO_HINTING, ["--names=least", "--no-hinting"])]
        if page.group in (LATIN, VARYING):
            rows += [(FOR_RANGES, KEPT, ["--names=keep"]),
                     (FOR_RANGES, KEPT + NO_HINTING, ["--names=keep", "--no-hinting"])]
        options = {FOR_LANGUAGES: [*page.prepared, "--pages", self.page], FOR_PAGES: ["--pages", self.page],
                   FOR_RANGES: [RANGES]}
        for target, name, words in rows:
            self.web("prepare", page.path, self.prepared, *words, *options[target])
            yield from self.cuts(page, self.prepared, f" {target}{name}")

    def others(self, page: Page, characters: set[str], text: set[str]) -> Iterator[tuple[str, int]]:
        """What other programs make: with all names and the characters that a shaper takes, and as they are typed."""
        names = ["--name-IDs=*", "--name-languages=*", "--notdef-outline"]
        words: dict[str, list[str]] = {HB: ["--retain-gids"], HB_BARE: ["--retain-gids", "--no-hinting"],
                                       HB_ALL: ["--retain-gids", "--layout-features=*"], HB_RENUMBERED: []}
        ways = {name: [HB_SUBSET, *some] for name, some in words.items()}
        ways[PYFTSUBSET] = [DEBIAN_PYTHON, "-m", "fontTools.subset"]
        for letters, ending in ((characters, ""), (text, TYPED)):
            codes = ",".join(f"{ord(letter):X}" for letter in sorted(letters))
            for name, some in ways.items():
                more = names if not ending and name != PYFTSUBSET else []
                status = run(*some, page.path, f"--unicodes={codes}", f"--output-file={self.out}", *more)[0]
                need(f"{page.font}: {name}{ending}", status == 0)
                yield f"{name}{ending}", length_of(self.out).woff2 or 0

    def sized(self, page: Page) -> Sized:
        """All of a page."""
        print(f"{page.font}: bytes of a page", file=sys.stderr, flush=True)
        texts = [text for _, text in page.lines]
        put(self.page,
            "".join(f"<p lang={language}>{html.escape(text)}</p>\n" for language, text in page.lines).encode())
        put(self.texts, "".join(f"{text}\n" for text in texts).encode())
        text = set("".join(texts))
        characters = text.union(*map(needed, texts))
        return Sized(page, len(characters), {**dict(self.ours(page)), **dict(self.others(page, characters, text))})


def measured(folder: str, library: str) -> Optional[list[Sized]]:
    """The bytes of each page, or None where a program is not there."""
    lacking = [name for name in ("woff2_compress", "hb-subset", "hb-shape") if not shutil.which(name)]
    if lacking:
        skip("bytes of pages", f"not installed: {', '.join(lacking)}")
        return None
    sizes = Sizes(folder, library)
    return [sizes.sized(page) for page in pages()]
