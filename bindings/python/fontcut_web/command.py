"""The command `fontcut-web`."""
from __future__ import annotations

import argparse
import json
import os
import sys
import warnings
from importlib.util import find_spec
from typing import List, Optional, Sequence

import fontcut
from fontcut_output import CommandParser, Progress, print_line, read, reason, tell_of_others, write

from . import texts, use
from .common import DISPLAYS, SHAPED, Missing, MissingProgram, Refused, UsageError, need, part
from .inputs import dropped_tables
from .presets import PARTS, SIZES, languages, web
from .replaced import check_name, check_read, check_unpacked, check_whole, check_written
from .sets import AUTO, MOST_EQUAL, WEB

INSTALL = "pip install 'fontcut[web]'"
_RAW = argparse.RawDescriptionHelpFormatter
_CUT_KINDS = """\
Cuts are layout cuts: they have the layout tables, for kerning, ligatures and scripts that are shaped.
{variable}, they are variable cuts, which keep its variations. With --lean
they have neither, for text that is drawn glyph by glyph, and with --full the metrics and names of all glyphs too.

Layout and variable cuts are made of the font prepared for {them}: they are small, and do not join. With
--as-is they are cuts of the font as it is, which join, as do those of a font that fontcut-web prepare wrote. What is
prepared has {features}."""
_OF_SLICES = _CUT_KINDS.format(variable="Of a variable font", them="each slice",
                               features="the features that shapers and browsers use without being asked")
_OF_TEXT = _CUT_KINDS.format(
    variable="Where pages use axes of a variable font", them="the pages",
    features="the features that shapers and browsers use without being asked, and those that style sheets turn on")

_WHAT = """\
Fonts for the web, cut by fontcut: prepared fonts, slices with a style sheet, cuts for the text of pages, the fonts of a
site, small fonts for devices, and unpacked WOFF files.

  fontcut-web prepare Sans.ttf small.ttf --languages de,fr
  fontcut-web slice Sans.ttf Sans-Bold.ttf --out site --slices web --woff2 --css
  fontcut-web slices japanese >japanese.txt
  fontcut-web text index.html about.html Sans.ttf sans.woff2
  fontcut-web icons Icons.ttf home settings search --out site
  fontcut-web site .
  fontcut-web device hello.ttf world.ttf small.ttf --no-hinting
  fontcut-web decode sans.woff2 sans.ttf --lean
"""

_STATUS = """\
Exit status: 0 done; 1 a file is refused, or out of memory; 2 usage error; 3 a file cannot be read or written, or a
package or a program that is needed is not installed.
"""

_PRESETS = f"""\
  {', '.join(web())}
                     the subsets of Google Fonts of these names
  {WEB}                all of them
  arabic, devanagari, thai ..
                     a script, by its name in Unicode, with what shapers take for it, digits, punctuation
                     and signs of its currencies
  {', '.join(languages())}
                     a slice of signs, and {PARTS} slices of characters by their use
  {AUTO}               the presets of all scripts of FONT, and a slice of what is left"""

_DEVICE = """\
Joins cuts of one font, and renumbers the glyphs without gaps, by fontTools. The font is much smaller, because most
bytes of a small cut stand for glyphs that it does not have, and it does not join: it is for devices that only draw
text. Its cmap has a format that all programs read. Nothing is written if FreeType draws a character differently from
the cuts, or advances by another width.

Without --no-hinting the instructions of glyphs stay. Of a font that has none, FreeType's own hinter draws every subset
a little otherwise than the whole font, because it measures letters that a subset lacks: FT_LOAD_NO_AUTOHINT draws both
the same.
"""

_SLICE = f"""\
Writes a cut of each FONT for each slice to DIR, as FONT-SLICE.ttf. A browser loads a slice when a page has one
of its characters. A character is only in the first slice that names it; a slice of which the font maps no
character is not written.

SLICES is a preset, or a file with a name and ranges in each line, as fontcut slice reads it, and with variation
sequences, as U+845B+E0100, for layout and variable cuts. Several of these options add up. The presets are
{_PRESETS}
  equal:COUNT        COUNT slices of equal size of what is left; at most {MOST_EQUAL}
  pages:COUNT        the same, of the characters by how often they stand in pages, and with the variation sequences of
                     these: the FONTs that end in .html, .htm, .xhtml or .txt
The characters of a language are in the order of their use by Unicode's Unihan. With :{SIZES[0]}, the default, a page
loads 2 to 12 slices, most of them small; with :{SIZES[1]}, as in {languages()[0]}:{SIZES[1]}, 4 to 7 larger ones.
--order FILE puts the characters of a text first, in their order there. In any order a page loads ten times the bytes
of a cut for its text, or more: for text that is known, fontcut-web text is better.

The scripts of FONT of which no character is in a slice are named, and with --strict nothing is written then. It is said
how many other characters are in no slice, and --rest writes them as the slice rest. Equal slices of layout and variable
cuts do not divide a script whose letters join or change places, which is said; with --force they do. If a whole font
would be replaced, or a style sheet or a page that fontcut-web did not write, nothing is written without --force.

To a browser, slices are separate fonts: there is no kerning and no shaping across them. If that matters, put the
characters of a script into one slice.
"""

_SLICES = f"""\
Prints the slices of presets and files, for fontcut slice --slices: a name and ranges in each line. A character is only
in the first slice that names it. SLICES are, as for fontcut-web slice, files or presets:
{_PRESETS}
  equal:COUNT        COUNT slices of equal size of what is left

auto and equal are for a font. Without --font, the sizes of slices by use count characters that a font may lack.
"""

_TEXT = """\
Writes the cut of FONT for the characters that HTML pages draw to OUT: their text without scripts, styles and titles,
and the attributes alt and placeholder, label in lists, and value in fields and on buttons. If OUT ends in .woff2, it is
WOFF2. What browsers write for style sheets is wanted too: numbers of lists, content, quotation marks, capitals. What a
script adds is not known: add it with --text. Layout and variable cuts also have the variation sequences of the text,
and the characters that a shaper takes for it, as with fontcut subset --layout.

With --shaped, hb-shape of HarfBuzz shapes the text, and the cut has just the glyphs that come: it is exact, and much
smaller. Lines, words and all pieces of words are shaped, with and without ligatures, in each language that a page
names, in the directions that they may have, and with the features that its style sheets turn on.
Text that is not in the pages may vanish, and no other font steps in: text that scripts or readers write, and what
style sheets on other hosts add. It is said which pages have such. --check draws each page in Chromium, with FONT and
with the cut; if a pixel differs, it is said where, both pictures are kept, and nothing else is written.
"""

_ICONS = """\
Writes the cut of FONT for the icons of these names to DIR, as it is and as WOFF2, with icons.css, in which each has a
class, as icon-home, and icons.html, which shows them.

Names are those of the ligatures of FONT, of its table post, or of a file of code points: that of --codepoints, or the
one beside FONT that has its name and the ending .codepoints, as MaterialIcons-Regular.codepoints. Its lines have a name
and a code, as home e88a. A name that is not there is refused, with the nearest ones.

If a whole font would be replaced, or a style sheet or a page that fontcut-web did not write, nothing is written without
--force.
"""

_PREPARE = """\
Writes a font to OUT that has only what a site needs of FONT, and OUT.json, which says how it was made. Cuts of OUT are
much smaller than cuts of FONT, and they join with each other. They do not join with cuts of FONT, or of a font that
was prepared otherwise. Glyphs keep their numbers. The same options make the same file. If OUT is another whole font,
nothing is written without --force.

What it is prepared for adds up:
  --languages LIST     the characters of languages by Unicode's CLDR, as de,fr,sr-Latn, with punctuation, currencies
                       and what a shaper takes for them
  --scripts LIST       the characters of FONT that are of scripts, as Latn,Deva, with the same
  --unicodes LIST      ranges of characters, and nothing else
  --pages PAGE..       the characters that HTML pages show, with what a shaper takes for them: the smallest font, which
                       has no room for other text. These words come last, or before another option.

If hb-shape is installed, texts of these characters, and the lines of the pages, have to be shaped as FONT shapes them;
otherwise nothing is written.
"""

_SITE = """\
Makes the fonts of the pages in DIR as DIR/fontcut.toml says, of which it prints an example for DIR if there is none,
and writes them to DIR/fonts: each font is prepared for the pages in each language, cut for each page, joined for the
pages of a section, and written as WOFF2, with a style sheet for each section, and site.json, which has the lines for
the head of each page. It prints the bytes that each page loads, with --whole beside those of the whole fonts as WOFF2.

Run again, it makes anew only what has changed. A page that brings new characters has them joined into the font of its
section. If the prepared font lacks them, it is prepared anew, and its files for this language get new names. What was
made is kept in DIR/.fontcut. A run that is killed leaves the old files as they are, and the next one goes on. A font
that would shape text otherwise if it was prepared is cut as it is, which is said.

These are all settings of fontcut.toml; each but file may be left out:

  pages = ["**/*.html"]            # patterns of the pages, where ** is any folders: by default all HTML files
  closed = ["guestbook.html"]      # pages whose cuts draw other text in letters that these show
  exact = ["index.html"]           # pages whose cuts draw the text that is there alone, although scripts run
  unchecked = ["clock.html"]       # pages that --check does not draw
  out = "fonts"                    # the folder that the fonts go to
  address = "/assets/fonts"        # how pages address it, if not by a relative path
  display = "swap"                 # the value of font-display
  prepare_by = "site"              # fonts are prepared for all pages, and not for those in each language
  text_by = "page"                 # fonts have all text of pages, and not that in their family, weight and style

  [sections]
  blog = ["blog/*.html"]           # pages that share a font; each other page has its own

  [[font]]
  file = "NotoSans-Regular.ttf"    # from the folder of the settings
  pages = ["*.html", "blog/*"]     # the pages that show it; all, if none are named
  languages = ["de", "fr"]         # readers write in these: its cuts are closed, and have their letters
  text = "Ω"                       # more text, and ranges of characters, for all its cuts
  unicodes = "U+2600-26FF"
  family = "Sans"                  # what style sheets call it, if not as the font does
  style = "italic"                 # normal, italic or oblique
  weight = 700                     # or "100 900", of a variable font
  kind = "lean"                    # lean, layout, or variable, the default where pages use axes
  features = "default,smcp"        # as options of fontcut-web prepare: features, hinting, axes, names, table kern
  hinting = false
  instance = "opsz=drop"
  names = "keep"
  kern = "drop"

  [[page]]
  files = ["guestbook.html"]       # what is written to some pages, as for a font
  languages = ["es"]
  text = "Ω"
  unicodes = "U+2600-26FF"
"""

_DECODE = """\
Writes the font in a WOFF or WOFF2 file to OUT. fontcut itself does not read such files.

A cut that went through WOFF is the same file again. A cut that went through WOFF2 is no longer a cut, because WOFF2
encodes outlines anew. --lean, --layout, --variable and --full cut it anew for all its characters, layout and variable
cuts for all its glyphs too: such cuts of one kind join with each other, and not with cuts that were never packed.

If OUT is another whole font, nothing is written without --force.
"""


def _run_slice(given: argparse.Namespace) -> None:
    need("fontTools", *["brotli"] if given.woff2 else [])
    slicing = part("slicing")
    drop = dropped_tables(given.drop or [], given.kind)
    if given.features and (given.as_is or given.kind not in (None, *SHAPED)):
        raise UsageError("--features is for layout and variable cuts of a prepared font: others have all features or "
                         "none")
    features = part("preparing").features_of(",".join(given.features)) if given.features else ()
    how = slicing.SliceOptions(given.kind, given.woff2, given.css, given.display, given.strict, drop, given.rest,
                               given.force, given.as_is, features)
    paths, wanted = use.fonts_and_slices(given)
    with Progress("fontcut-web", given.quiet) as progress:
        progress.say(f"reading {len(paths)} fonts")
        fonts = slicing.opened(paths, wanted, how)
        written = slicing.paths_of(fonts, given.out, how)
        check_read(given.fonts, written)
        if not given.force:
            check_whole(written)
            check_written(path for path in written if path.endswith((".css", ".html")))
        told = slicing.write_slices(fonts, given.out, how, progress)
    if given.json:
        print_line(json.dumps(told, indent=2))
    for line in [] if given.json or given.quiet else [line for font in fonts for line in font.notices]:
        print(f"fontcut-web: {line}", file=sys.stderr)


def _run_decode(given: argparse.Namespace) -> None:
    check_name(given.out, is_packed=False)
    data = read(given.file)
    try:
        whole = part("woff").unpacked(data)
        font = _cut_anew(whole, given.kind) if given.kind else whole
        name = _name_of(font)
    except (fontcut.Refused, Refused) as refusal:
        raise Refused(f"{given.file}: {refusal}") from refusal
    if not given.force:
        check_unpacked(given.out, [whole, font])
    write(given.out, font)
    print_line(f"{given.out}: {_joins(name, data[:4] == b'wOF2')}")


def _cut_anew(font: bytes, kind: str) -> bytes:
    """The cut of a font of a kind for all its characters, and for all its glyphs where it keeps variation sequences."""
    return fontcut.cut(font, fontcut.codes(font), kind=kind, gids="all" if kind in SHAPED else None)


def _name_of(font: bytes) -> Optional[str]:
    """What a font is called that is a cut, or None. A lean cut is one of each kind."""
    form = fontcut.form(font)
    names = {fontcut.Form.NO_CUT: None, fontcut.Form.CURRENT: "a cut", fontcut.Form.OLD: "an old cut"}
    return names[form] if form in names else f"a {form.name.lower()} cut"


def _joins(name: Optional[str], is_woff2: bool) -> str:
    """What is said of a file that was unpacked, and is called so."""
    if name is None:
        kinds = "--lean, --layout, --variable or --full"
        return f"no cut; with {kinds} it is cut anew, and joins with what was unpacked so too"
    return f"{name}, which joins with what was unpacked so too" if is_woff2 else name


def _kinds(command: argparse.ArgumentParser, default: Optional[str], **helps: str) -> None:
    """Adds an option for each kind of cut, with its help."""
    group = command.add_mutually_exclusive_group()
    for kind, said in helps.items():
        group.add_argument(f"--{kind}", dest="kind", action="store_const", const=kind, help=said)
    command.set_defaults(kind=default)


def _as_is(command: argparse.ArgumentParser) -> None:
    command.add_argument("--as-is", action="store_true",
                         help="cut FONT as it is, without preparing it: such cuts join with its other cuts")


def _drop(command: argparse.ArgumentParser) -> None:
    command.add_argument("--drop", metavar="TABLES", action="append",
                         help="in layout and variable cuts, cut as if FONT lacked these layout tables, as GSUB,kern")


def _display(command: argparse.ArgumentParser) -> None:
    command.add_argument("--display", metavar="VALUE", choices=DISPLAYS, default="swap",
                         help=f"font-display in the style sheet: {', '.join(DISPLAYS)} (swap)")


def _add_slice(commands: argparse._SubParsersAction[CommandParser]) -> None:
    command = commands.add_parser(
        "slice", help="cut fonts in slices, with a style sheet", description=f"{_SLICE}\n{_OF_SLICES}\n",
        formatter_class=_RAW, epilog=_STATUS,
        usage="fontcut-web slice FONT.. --out DIR --slices SLICES [--lean | --layout | --variable | --full]\n"
              "                         [--as-is] [--drop TABLES] [--features LIST] [--order FILE] [--rest]\n"
              "                         [--woff2] [--css] [--display VALUE] [--strict] [--force] [--quiet] [--json]")
    command.add_argument("fonts", metavar="FONT", nargs="+")
    command.add_argument("--out", metavar="DIR", required=True, help="the folder that the files go to")
    command.add_argument("--slices", metavar="SLICES", action="append", required=True, help="a preset or a file")
    _add_order(command)
    _kinds(command, None, lean="write lean cuts", layout="write layout cuts (the default)",
           variable="write variable cuts, whose rules have ranges (the default of variable fonts)",
           full="write full cuts")
    _as_is(command)
    _drop(command)
    command.add_argument("--features", metavar="LIST", action="append",
                         help="keep these features too, as smcp,onum, or all; may be repeated")
    command.add_argument("--rest", action="store_true",
                         help="write the characters that are left of the scripts of the slices, and of no script, as a "
                              "last slice")
    command.add_argument("--woff2", action="store_true", help="write FONT-SLICE.woff2 too, which browsers load")
    command.add_argument("--css", action="store_true", help="write fonts.css, and index.html, a page that shows the "
                                                            "fonts and preloads the first slice")
    _display(command)
    command.add_argument("--strict", action="store_true", help="write nothing if a script of a FONT is in no slice")
    command.add_argument("--force", action="store_true",
                         help="write over whole fonts, style sheets and pages of others, and divide scripts that are "
                              "shaped")
    command.add_argument("--quiet", action="store_true", help="do not say what the files lack of a FONT")
    command.add_argument("--json", action="store_true", help="print what was written")
    command.set_defaults(run=_run_slice)


def _add_order(command: argparse.ArgumentParser) -> None:
    command.add_argument("--order", metavar="FILE", help="a text whose characters come first, in their order there")


def _add_slices(commands: argparse._SubParsersAction[CommandParser]) -> None:
    command = commands.add_parser(
        "slices", help="print slices as fontcut slice reads them", description=_SLICES, formatter_class=_RAW,
        epilog=_STATUS, usage="fontcut-web slices SLICES.. [--font FONT] [--order FILE]")
    command.add_argument("slices", metavar="SLICES", nargs="+")
    command.add_argument("--font", metavar="FONT", help="print the characters of FONT alone")
    _add_order(command)
    command.set_defaults(run=use.run)


def _add_text(commands: argparse._SubParsersAction[CommandParser]) -> None:
    command = commands.add_parser(
        "text", help="cut a font for the characters that pages show", description=f"{_TEXT}\n{_OF_TEXT}\n",
        formatter_class=_RAW, epilog=_STATUS,
        usage="fontcut-web text PAGE.. FONT OUT [--lean | --layout | --variable | --full] [--as-is]\n"
              "                        [--drop TABLES] [--text TEXT] [--shaped] [--features LIST] [--check] [--css]\n"
              "                        [--display VALUE] [--strict] [--force] [--quiet] [--json]")
    command.add_argument("files", metavar="PAGE.. FONT OUT", nargs="+", help=argparse.SUPPRESS)
    _kinds(command, None, lean="write a lean cut", layout="write a layout cut (the default)",
           variable="write a variable cut (the default where pages use axes)", full="write a full cut")
    _as_is(command)
    _drop(command)
    command.add_argument("--text", metavar="TEXT", help="more characters to keep")
    command.add_argument("--shaped", action="store_true", help="write an exact cut: of just the glyphs of the text")
    command.add_argument("--features", metavar="LIST", action="append",
                         help="keep these features too, and with --shaped shape with them, as smcp,onum or salt=2; may "
                              "be repeated")
    command.add_argument("--check", action="store_true",
                         help="write nothing if Chromium draws a page otherwise, but keep both pictures")
    command.add_argument("--css", action="store_true", help="write OUT's style sheet, whose name ends in .css")
    _display(command)
    command.add_argument("--strict", action="store_true", help="write nothing if the font lacks a character")
    command.add_argument("--force", action="store_true",
                         help="write over FONT, the font that FONT is a cut of, or a style sheet of others")
    command.add_argument("--quiet", action="store_true", help="do not say what the font or its cut lacks")
    command.add_argument("--json", action="store_true", help="print what was written")
    command.set_defaults(run=texts.run)


def _run_icons(given: argparse.Namespace) -> None:
    need("fontTools", "brotli")
    part("icons").run(given)


def _add_icons(commands: argparse._SubParsersAction[CommandParser]) -> None:
    command = commands.add_parser(
        "icons", help="cut an icon font for some icons, with classes for them", description=_ICONS,
        formatter_class=_RAW, epilog=_STATUS,
        usage="fontcut-web icons FONT NAME.. --out DIR [--codepoints FILE] [--lean | --variable] [--force] [--json]")
    command.add_argument("font", metavar="FONT")
    command.add_argument("names", metavar="NAME", nargs="+")
    command.add_argument("--out", metavar="DIR", required=True, help="the folder that the files go to")
    command.add_argument("--codepoints", metavar="FILE", help="names and codes of icons")
    _kinds(command, "lean", lean="write a lean cut (the default)",
           variable="write a variable cut, which keeps the axes")
    command.add_argument("--force", action="store_true",
                         help="write over whole fonts, style sheets and pages of others")
    command.add_argument("--json", action="store_true", help="print what was written")
    command.set_defaults(run=_run_icons)


def _run_prepare(given: argparse.Namespace) -> None:
    part("prepare").run(given)


def _add_prepare(commands: argparse._SubParsersAction[CommandParser]) -> None:
    command = commands.add_parser(
        "prepare", help="make a font smaller for a site, before it is cut", description=_PREPARE, formatter_class=_RAW,
        epilog=_STATUS,
        usage="fontcut-web prepare FONT OUT [--languages LIST] [--scripts LIST] [--unicodes LIST] [--features LIST]\n"
              "                           [--no-hinting] [--instance LIST] [--names WHICH] [--kern WHEN] [--force]\n"
              "                           [--json] [--pages PAGE..]")
    command.add_argument("font", metavar="FONT")
    command.add_argument("out", metavar="OUT")
    for name in "languages", "scripts", "unicodes":
        command.add_argument(f"--{name}", metavar="LIST", help=argparse.SUPPRESS)
    command.add_argument("--pages", metavar="PAGE", nargs="+", action="extend", help=argparse.SUPPRESS)
    command.add_argument("--features", metavar="LIST", default="default",
                         help="the features of OpenType that stay: default, all, or tags as in default,smcp (default)")
    command.add_argument("--no-hinting", action="store_true", help="drop the instructions of glyphs")
    command.add_argument("--instance", metavar="LIST", help="limit axes of a variable font, as in wght=400:700,"
                                                            "wdth=100,opsz=drop, where drop is the default value")
    command.add_argument("--names", choices=("keep", "least"), default="keep",
                         help="keep all names of the font, or in English alone those that systems need (keep)")
    command.add_argument("--kern", choices=("auto", "keep", "drop"), default="auto",
                         help="keep the table kern: auto keeps it where browsers take it and GPOS does not kern a "
                              "script (auto)")
    command.add_argument("--force", action="store_true", help="write over another whole font")
    command.add_argument("--json", action="store_true", help="print OUT.json, and not what was dropped")
    command.set_defaults(run=_run_prepare)


def _run_site(given: argparse.Namespace) -> None:
    part("site").run(given)


def _add_site(commands: argparse._SubParsersAction[CommandParser]) -> None:
    command = commands.add_parser("site", help="make the fonts of all pages of a site", description=_SITE,
                                  formatter_class=_RAW, epilog=_STATUS,
                                  usage="fontcut-web site DIR [--anew] [--check] [--whole] [--strict] [--quiet] "
                                        "[--json]")
    command.add_argument("folder", metavar="DIR", help="the folder of the site, with its settings and its pages")
    command.add_argument("--anew", action="store_true", help="make all fonts anew, without characters that no page has "
                                                             "any more")
    command.add_argument("--check", action="store_true", help="replace nothing if Chromium draws a page otherwise by "
                                                              "cuts, but keep both pictures; pages that have not "
                                                              "changed are not drawn again")
    command.add_argument("--whole", action="store_true", help="tell the bytes of the whole fonts as WOFF2 too, which "
                                                              "takes minutes for a large font the first time")
    command.add_argument("--strict", action="store_true", help="write nothing if fonts lack characters of a page")
    command.add_argument("--quiet", action="store_true", help="say nothing of pages, fonts and bytes")
    command.add_argument("--json", action="store_true", help="print site.json, and no table")
    command.set_defaults(run=_run_site)


def _run_device(given: argparse.Namespace) -> None:
    if find_spec("freetype") is None:
        raise MissingProgram("freetype-py", "apt install python3-freetype, or pip install freetype-py")
    part("device").run(given)


def _add_device(commands: argparse._SubParsersAction[CommandParser]) -> None:
    command = commands.add_parser(
        "device", help="make a small font of cuts, which does not join", description=_DEVICE, formatter_class=_RAW,
        epilog=_STATUS,
        usage="fontcut-web device CUT.. OUT [--no-hinting] [--notdef-outline] [--map FILE] [--force]")
    command.add_argument("files", metavar="CUT.. OUT", nargs="+", help=argparse.SUPPRESS)
    command.add_argument("--no-hinting", action="store_true", help="drop the instructions of glyphs")
    command.add_argument("--notdef-outline", action="store_true", help="keep what is drawn for a missing character")
    command.add_argument("--map", metavar="FILE", help="write the old and the new number of each glyph, in lines")
    command.add_argument("--force", action="store_true", help="write over another whole font")
    command.set_defaults(run=_run_device)


def _add_decode(commands: argparse._SubParsersAction[CommandParser]) -> None:
    command = commands.add_parser("decode", help="unpack a WOFF or WOFF2 file", description=_DECODE,
                                  formatter_class=_RAW, epilog=_STATUS,
                                  usage="fontcut-web decode FILE OUT [--lean | --layout | --variable | --full] "
                                        "[--force]")
    command.add_argument("file", metavar="FILE")
    command.add_argument("out", metavar="OUT")
    _kinds(command, None, lean="write the lean cut for all its characters",
           layout="write the layout cut for all its characters",
           variable="write the variable cut for all its characters", full="write the full cut for all its characters")
    command.add_argument("--force", action="store_true", help="write over another whole font")
    command.set_defaults(run=_run_decode)


def _parser() -> argparse.ArgumentParser:
    parser = argparse.ArgumentParser(prog="fontcut-web", description=_WHAT, formatter_class=_RAW, epilog=_STATUS)
    parser.add_argument("--version", action="version", version=f"fontcut-web {fontcut.__version__}")
    commands = parser.add_subparsers(dest="command", required=True, metavar="COMMAND", parser_class=CommandParser)
    for add in _add_prepare, _add_slice, _add_slices, _add_text, _add_icons, _add_site, _add_device, _add_decode:
        add(commands)
    tell_of_others(commands.choices)
    return parser


def _status(error: BaseException, install: str) -> int:
    """Says what went wrong, and returns the exit status."""
    ways = ", or ".join(dict.fromkeys([install, INSTALL]))
    said = {Missing: f"{error}: {ways}", MemoryError: "no memory"}.get(type(error), str(error))
    if isinstance(error, OSError):
        said = reason(error)
    for line in said.split("\n"):
        print(f"fontcut-web: {line}", file=sys.stderr)
    refusals = Refused, fontcut.Refused, MemoryError
    return 2 if isinstance(error, UsageError) else 1 if isinstance(error, refusals) else 3


def main(words: Optional[Sequence[str]] = None, install: str = INSTALL) -> int:
    """Runs the command, and returns its exit status. `install` is what to do where a package is not there."""
    given = _parser().parse_args(words)
    try:
        with warnings.catch_warnings():
            # The command says itself what a cut drops.
            warnings.simplefilter("ignore", fontcut.FontcutWarning)
            given.run(given)
    except (Missing, MissingProgram, Refused, UsageError, fontcut.Refused, MemoryError, OSError) as error:
        return _status(error, install)
    except KeyboardInterrupt:
        # The line of progress is gone, and no file is half written.
        os.write(2, b"\n")
        return 130
    return 0
