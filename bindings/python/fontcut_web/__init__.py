"""Fonts for the web: prepared fonts, slices with a style sheet, cuts for the text of pages, the fonts of a site, and
unpacked WOFF files.

    fontcut-web prepare FONT OUT --languages LIST              a font for the languages of a site, which is cut then
    fontcut-web slice FONT.. --out DIR --slices FILE|PRESET    a cut for each slice; --woff2 and --css for a site
    fontcut-web text PAGE.html.. FONT OUT                      a cut for the characters that pages show
    fontcut-web site DIR                                       the fonts of all pages, made anew where these change
    fontcut-web decode FILE OUT                                the font of a WOFF or WOFF2 file

`python3 -m fontcut_web` runs the same command. `fontcut` makes the cuts; fontTools prepares fonts, reads their
names, and writes and reads WOFF2.

Exit status: 0 done; 1 a file is refused, or out of memory; 2 usage error; 3 a file cannot be read or written, or a
package or a program that is needed is not installed."""
from .command import main

__all__ = ["main"]
