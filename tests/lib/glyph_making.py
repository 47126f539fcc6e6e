"""Small fonts for tests of cuts by glyph numbers: glyph by glyph, and at random, with blank glyphs among the others."""
import random
from typing import Mapping, NamedTuple, Optional, Sequence

from font_changing import with_codes, with_tables
from font_cutting import ALL, assembled, cmap_table, glyf_and_loca, groups_of, outlines, ranges_of, whole_map
from font_reading import tables_of
from glyph_cutting import ALL_CODES, EVERYTHING, LAYOUT_CUTS, LEAN, VARIABLE, CutKind, Wanted
from layout_making import numbers, random_layout, spoiled, with_layout
from lean_cutting import METRICS, entry, pairs_in
from random_fonts import CODES, random_font
from random_joins import damaged, random_change
from sequence_making import with_other_pairs, with_random_sequences
from variable_making import accepted_font, fvar, gvar, other_variations, some_axes
from variable_reading import variable_refusal
from worked_cuts import base6_tables
from worked_fonts import composite

# Outlines of twelve bytes, which have no contours.
INK, OTHER_INK, ZEROS = (b"\0\0" + bytes([byte]) * 10 for byte in (1, 2, 0))
STRANGE_NUMBERS = (500, 65535)  # no glyphs


class Part(NamedTuple):
    """What is made of a glyph. An advance of a glyph without a pair of its own is not looked at."""

    outline: bytes = b""
    advance: int = 0
    bearing: int = 0
    data: bytes = b""


BLANK = Part()


def made_of(glyph: int) -> Part:
    """A glyph that is composed of another one."""
    return Part(composite([(0x0002, glyph)]))


def font_of(parts: Sequence[Part], codes: Mapping[int, int], pairs: Optional[int] = None,
            is_variable: bool = False) -> bytes:
    """A font of these glyphs in the form of a cut. It has a pair of metrics for each glyph or so many, and a `gvar` if
    it is variable."""
    pairs = len(parts) if pairs is None else pairs
    tables = base6_tables()
    head, hhea, maxp = tables[b"head"], tables[b"hhea"], tables[b"maxp"]
    glyf, loca = glyf_and_loca([part.outline for part in parts], range(len(parts)))
    metrics = [numbers(*(part.advance, part.bearing)[number >= pairs:]) for number, part in enumerate(parts)]
    tables.update({
        b"cmap": cmap_table(groups_of(codes)), b"glyf": glyf, b"loca": loca, b"hmtx": b"".join(metrics),
        b"head": head[:50] + b"\0\1" + head[52:], b"hhea": hhea[:34] + numbers(pairs),
        b"maxp": maxp[:4] + numbers(len(parts)) + maxp[6:],
    })
    if is_variable:
        tables.update({b"fvar": fvar(*some_axes(1)), b"gvar": gvar([part.data for part in parts])})
    made: bytes = assembled(tables)
    return made


# At random.

def with_blanks(chance: random.Random, kind: CutKind, font: bytes, most: int) -> bytes:
    """A font in which some glyphs are blank, this many at most, whatever is mapped to them or composed of them."""
    count = len(outlines(font))
    blank = chance.sample(range(count), min(count, chance.randint(0, most)))
    made: bytes = assembled(kind.tables(font, ALL, set(range(count)) - set(blank)))
    return made


def with_space(chance: random.Random, font: bytes) -> bytes:
    """A font in which a glyph has other metrics, which may be zero in part."""
    tables, glyph, count = tables_of(font), chance.randrange(len(outlines(font))), len(outlines(font))
    for header, name in METRICS:
        pairs = pairs_in(tables, header, name, count)
        if pairs:
            place, size = entry(pairs, glyph)
            metric = chance.choice((bytes(4), b"\0\7\0\0", b"\0\0\0\7", b"\7\0\7\0"))[4 - size:]
            tables[name] = tables[name][:place] + metric + tables[name][place + size:]
    return bytes(with_tables(font, tables))


def font_with_layout(chance: random.Random) -> bytes:
    """A small font with tables of layout, whose GSUB may be refused."""
    font = random_font(chance)
    layout = random_layout(chance, len(outlines(font)))
    if chance.random() < 0.2 and b"GSUB" in layout:
        layout[b"GSUB"] = spoiled(chance, layout[b"GSUB"])
    return bytes(with_layout(font, layout))


def font_with_variations(chance: random.Random) -> bytes:
    """A small font with tables of layout and of variations, whose GSUB may be refused."""
    font: bytes = accepted_font(chance)
    if chance.random() < 0.2:
        font = with_tables(font, {b"GSUB": spoiled(chance, tables_of(font).get(b"GSUB", b""))})
    return font


def font_for(chance: random.Random, kind: CutKind) -> bytes:
    """A small font that is accepted for cuts of a kind, in which glyphs are blank, or have metrics or variation
    sequences alone."""
    font = {LAYOUT_CUTS.name: font_with_layout, VARIABLE.name: font_with_variations}.get(kind.name, random_font)(chance)
    font = with_blanks(chance, kind, font, len(outlines(font)))
    for _ in range(chance.randint(0, 3)):
        font = with_space(chance, font)
    return with_random_sequences(chance, font)


def another_version(chance: random.Random, kind: CutKind, font: bytes) -> bytes:
    """A font in which something may be otherwise: a mapping, an outline, metrics, a table, variation sequences, or what
    is blank."""
    codes, count = sorted(whole_map(font)), len(outlines(font))
    if codes and count > 1 and chance.random() < 0.1:
        return bytes(with_codes(font, {chance.choice(codes): chance.randrange(1, count)}))
    if kind.name != LEAN.name and chance.random() < 0.3:
        return with_other_pairs(chance, font)
    if chance.random() < 0.3:
        return with_blanks(chance, kind, font, 1)
    if chance.random() < 0.2:
        return with_space(chance, font)
    if kind.name == VARIABLE.name and chance.random() < 0.4 and not variable_refusal(font):
        return bytes(other_variations(chance, font))
    return bytes(random_change(font, chance))


def random_wanted(chance: random.Random, count: int) -> Wanted:
    """Some characters and some numbers, most of them of a font of so many glyphs."""
    if chance.random() < 0.1:
        return chance.choice((EVERYTHING, ALL_CODES))
    codes = ranges_of(chance.sample(CODES, chance.choice((0, 0, 1, 2, 5))))
    glyphs = {chance.randrange(count) for _ in range(chance.choice((0, 1, 2, 4)))}
    return Wanted(codes, frozenset(glyphs | {number for number in STRANGE_NUMBERS if chance.random() < 0.1}))


def family(chance: random.Random, kind: CutKind, fonts: int, files: int) -> tuple[list[bytes], list[bytes]]:
    """Some versions of a font, and files that are cuts of them, or cuts that were changed, or these fonts."""
    versions = [font_for(chance, kind)]
    while len(versions) < fonts:
        versions.append(another_version(chance, kind, versions[0]))
    made = []
    for _ in range(files):
        font, sort = chance.choice(versions), chance.random()
        file = kind.cut(font, random_wanted(chance, len(outlines(font))))
        if sort < 0.1:
            file = damaged(file, chance)
        elif sort < 0.4:
            file = another_version(chance, kind, file)
        made.append(font if sort > 0.95 else file)
    return versions, made
