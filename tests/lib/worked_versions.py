"""Cuts of a font and of versions of it, of which it is known by the making what tells them apart.

The font maps A, B, C and U+00C1, which is composed of A and another glyph; it has `cvt ` and `prep` and no `vhea`.
"""
from font_changing import cut_for, with_bytes, with_codes, with_outlines, with_tables, without_code
from font_cutting import whole_map
from font_reading import table


def tables_differ(file: bytes) -> list[tuple[str, bytes, str]]:
    """What a version has, and the version and the table that is told apart."""
    new_b, other_b = with_outlines(file, whole_map(file)[0x42]), with_codes(file, {0x42: whole_map(file)[0x43]})
    return [
        ("another width", with_bytes(file, {b"hmtx": 1}), "hmtx"),
        ("another bearing of the last glyph", with_bytes(file, {b"hmtx": -1}), "hmtx"),
        ("another fontRevision", with_bytes(file, {b"head": 7}), "head"),
        ("another modified", with_bytes(file, {b"head": 35}), "head"),
        ("another ascender", with_bytes(file, {b"hhea": 5}), "hhea"),
        ("another maxPoints", with_bytes(file, {b"maxp": 7}), "maxp"),
        ("another usWeightClass", with_bytes(file, {b"OS/2": 5}), "OS/2"),
        ("two more bytes in name", with_tables(file, {b"name": table(file, b"name") + bytes(2)}), "name"),
        ("no prep", with_tables(file, {b"prep": None}), "prep"),
        ("a vhea of no byte", with_tables(file, {b"vhea": b""}), "vhea"),
        ("others cvt, head and post", with_bytes(file, {b"cvt ": 0, b"head": 7, b"post": 5}), "cvt "),
        ("others head and post", with_bytes(file, {b"head": 7, b"post": 5}), "head"),
        ("another B, and another prep", with_bytes(new_b, {b"prep": 0}), "prep"),
        ("B on another glyph, and another width", with_bytes(other_b, {b"hmtx": 1}), "hmtx"),
    ]


def differing(file: bytes) -> list[tuple[str, bytes, bytes, int, str]]:
    """What each version has, a cut of the font and one of the version, and the number and text of the refusal."""
    a, b, c = (whole_map(file)[ord(letter)] for letter in "ABC")
    other_b = with_codes(file, {0x42: c})
    rows = [
        ("B on another glyph", other_b, 22, "different mapping U+0042"),
        ("A and B on another glyph", with_codes(file, {0x42: c, 0x41: c}), 22, "different mapping U+0041"),
        ("another B, and B on another glyph", with_outlines(other_b, b), 22, "different mapping U+0042"),
        ("another .notdef, and B on another glyph", with_outlines(other_b, 0), 22, "different mapping U+0042"),
        ("another B", with_outlines(file, b), 23, f"different glyph {b}"),
        ("others A, B and C", with_outlines(file, c, b, a), 23, f"different glyph {min(a, b, c)}"),
        ("another .notdef", with_outlines(file, 0), 23, "different glyph 0"),
    ]
    rows += [(name, version, 21, f"different table {tag}") for name, version, tag in tables_differ(file)]
    return [(name, cut_for(file, "U+20-7E"), cut_for(version, "U+20-7E"), number, text)
            for name, version, number, text in rows] + [
        ("another A, which only a component of U+00C1 keeps", cut_for(file, "U+C1"),
         cut_for(with_outlines(file, a), "U+41"), 23, f"different glyph {a}"),
        ("another .notdef, no code", cut_for(file, ""), cut_for(with_outlines(file, 0), ""), 23, "different glyph 0"),
    ]


def agreeing(file: bytes) -> list[tuple[str, bytes, bytes, bytes]]:
    """What each pair of cuts shows, the pair, and its join: what they do not both keep does not tell them apart."""
    b, c = (whole_map(file)[ord(letter)] for letter in "BC")
    new_b, other_b, no_b = with_outlines(file, b), with_codes(file, {0x42: c}), without_code(file, 0x42)
    less = with_tables(file, {b"GSUB": b"", b"kern": None})
    return [
        ("another B, neither for B", cut_for(file, "U+41"), cut_for(new_b, "U+43"), cut_for(file, "U+41 U+43")),
        ("another B, the font for A alone", cut_for(file, "U+41"), cut_for(new_b, "U+42"), cut_for(new_b, "U+41-42")),
        ("B on another glyph, the font for A alone", cut_for(file, "U+41"), cut_for(other_b, "U+42"),
         cut_for(other_b, "U+41-42")),
        ("no B", cut_for(file, "U+42"), cut_for(no_b, "U+20-7E"), cut_for(file, "U+20-7E")),
        ("others of the tables that are dropped", cut_for(file, "U+41"), cut_for(less, "U+42"),
         cut_for(file, "U+41-42")),
    ]
