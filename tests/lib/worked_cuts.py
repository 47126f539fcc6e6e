"""Worked cuts and joins of a font of six glyphs, typed in by hand: sizes, offsets, sums and bytes."""
import os
import struct

from font_changing import cut_for, with_codes, with_tables
from font_cutting import Group, assembled, padded
from font_reading import KEPT, adjustment_place, records_of, search_fields, table, tables_of, u32

# The font: a directory and seven tables. Its glyphs have 12, 14, 10, 22, 0 and 12 bytes; glyph 3 is
# composed of 1 and 2. U+0020 is mapped to glyph 4, U+0041 to 1, U+0042 to 5 and U+00C1 to 3.
BASE6 = bytes.fromhex("""
    00010000 00070040 00020030
    636D6170 01C10016 0000007C 00000044
    676C7966 1B6F056C 000000C0 00000046
    68656164 610742D9 00000108 00000036
    68686561 05160197 00000140 00000024
    686D7478 09F60000 00000164 00000018
    6C6F6361 004D0035 0000017C 0000000E
    6D617870 00090004 0000018C 00000020
    00000001 00030001 0000000C
    00040038 0000000A 00080002
    00020020 00410042 00C1FFFF
    00000020 00410042 00C1FFFF
    FFE4FFC0 FFC3FF42 00010000 00000000 00000000
    00000000 00000064 00640000
    00000000 000000C8 00C80002 11220000
    00000000 012C012C
    FFFF0000 000001F4 01F40022 00010000 00020002 05050000
    00000000 00FA00FA 00000000
    00010000 00010000 B88E1FF6 5F0F3CF5 000003E8
    00000000 00000000 00000000 00000000 00000000
    01F401F4 00000008 00020000 00000000
    00010000 0320FF38 00000258 00000000 01F40001
    00000000 00000000 00000000 00000006
    02580000 01F40000 01900000 01F40000 00FA0000 012C0000
    00000006 000D0012 001D001D 00230000
    00010000 00060000 00000000 00000001
    00000000 00000000 00000002 00020001
""")

# The cut for no code, whole.
CUT_OF_NOTHING = bytes.fromhex("""
    00010000 00070040 00020030
    636D6170 000F0048 0000007C 00000024
    676C7966 00640064 000000A0 0000000C
    68656164 610742DA 000000AC 00000036
    68686561 05160197 000000E4 00000024
    686D7478 09F60000 00000108 00000018
    6C6F6361 00000048 00000120 0000001C
    6D617870 00090004 0000013C 00000020
    00000002 00000004 00000014 0003000A 00000014
    000C0000 00000010 00000000 00000000
    00000000 00000064 00640000
    00010000 00010000 F2A22BA6 5F0F3CF5 000003E8
    00000000 00000000 00000000 00000000 00000000
    01F401F4 00000008 00020001 00000000
    00010000 0320FF38 00000258 00000000 01F40001
    00000000 00000000 00000000 00000006
    02580000 01F40000 01900000 01F40000 00FA0000 012C0000
    00000000 0000000C 0000000C 0000000C 0000000C 0000000C 0000000C
    00010000 00060000 00000000 00000001
    00000000 00000000 00000002 00020001
""")

# The tables `cmap` and `glyf` of the cut for U+00C1.
CMAP_OF_AACUTE = bytes.fromhex("""
    00000002 00000004 00000014 0003000A 00000014
    000C0000 0000001C 00000000 00000001
    000000C1 000000C1 00000003
""")
GLYF_OF_AACUTE = bytes.fromhex("""
    00000000 00000064 00640000
    00000000 000000C8 00C80002 11220000
    00000000 0000012C 012C0000
    FFFF0000 000001F4 01F40022 00010000 00020002 05050000
""")

# The offsets of loca in the cuts for U+00C1, and for U+0041 and U+0042.
LOCA_OF_AACUTE = [0, 12, 28, 40, 64, 64, 64]
LOCA_OF_A_AND_B = [0, 12, 28, 28, 28, 28, 40]

# Of each cut: the words, the size, the sums of cmap, glyf and loca, checksumAdjustment, the offsets of the
# seven tables. The sums of head, hhea, hmtx and maxp are the same in all.
SUMS = {b"head": 0x610742DA, b"hhea": 0x05160197, b"hmtx": 0x09F60000, b"maxp": 0x00090004}
CUTS = [
    ("", 348, 0x000F0048, 0x00640064, 0x00000048, 0xF2A22BA6, (124, 160, 172, 228, 264, 288, 316)),
    ("U+20", 360, 0x000F0099, 0x00640064, 0x00000048, 0xF2A22AB0, (124, 172, 184, 240, 276, 300, 328)),
    ("U+41 U+42", 400, 0x000F016E, 0x13480228, 0x000000A4, 0xCCDA23CA, (124, 184, 224, 280, 316, 340, 368)),
    ("U+C1", 412, 0x000F01DA, 0x1A750472, 0x00000110, 0xBE801D4A, (124, 172, 236, 292, 328, 352, 380)),
    ("U+41-42 U+C1", 448, 0x000F0300, 0x1B6F056C, 0x0000011C, 0xBC8C1802, (124, 196, 272, 328, 364, 388, 416)),
]

# The same in the first profile.
OLD_CUTS = [
    ("", 340, 0x000F0027, 0x00640064, 0x00000048, 0xF2A22C20, (124, 152, 164, 220, 256, 280, 308)),
    ("U+20", 352, 0x000F0078, 0x00640064, 0x00000048, 0xF2A22B2A, (124, 164, 176, 232, 268, 292, 320)),
    ("U+41 U+42", 392, 0x000F014D, 0x13480228, 0x000000A4, 0xCCDA2444, (124, 176, 216, 272, 308, 332, 360)),
    ("U+C1", 404, 0x000F01B9, 0x1A750472, 0x00000110, 0xBE801DC4, (124, 164, 228, 284, 320, 344, 372)),
    ("U+41-42 U+C1", 440, 0x000F02DF, 0x1B6F056C, 0x0000011C, 0xBC8C187C, (124, 188, 264, 320, 356, 380, 408)),
]
OLD_CMAP_OF_NOTHING = bytes.fromhex("00000001 0003000A 0000000C 000C0000 00000010 00000000 00000000")
OLD_CMAP_OF_AACUTE = bytes.fromhex("""
    00000001 0003000A 0000000C 000C0000 0000001C 00000000 00000001
    000000C1 000000C1 00000003
""")

# The lean cuts for no code and for U+00C1, whole: those above, but for `hmtx`, its sum and checksumAdjustment. Kept
# are glyph 0, and glyphs 0 to 3; the last pair's advance, 012C, stays in both. The words of the table sum to 0672 0000
# and to 00FA 0000 less, as its record says, so checksumAdjustment is greater by twice that.
LEAN_CUT_OF_NOTHING = bytes.fromhex("""
    00010000 00070040 00020030
    636D6170 000F0048 0000007C 00000024
    676C7966 00640064 000000A0 0000000C
    68656164 610742DA 000000AC 00000036
    68686561 05160197 000000E4 00000024
    686D7478 03840000 00000108 00000018
    6C6F6361 00000048 00000120 0000001C
    6D617870 00090004 0000013C 00000020
    00000002 00000004 00000014 0003000A 00000014
    000C0000 00000010 00000000 00000000
    00000000 00000064 00640000
    00010000 00010000 FF862BA6 5F0F3CF5 000003E8
    00000000 00000000 00000000 00000000 00000000
    01F401F4 00000008 00020001 00000000
    00010000 0320FF38 00000258 00000000 01F40001
    00000000 00000000 00000000 00000006
    02580000 00000000 00000000 00000000 00000000 012C0000
    00000000 0000000C 0000000C 0000000C 0000000C 0000000C 0000000C
    00010000 00060000 00000000 00000001
    00000000 00000000 00000002 00020001
""")
LEAN_CUT_OF_AACUTE = bytes.fromhex("""
    00010000 00070040 00020030
    636D6170 000F01DA 0000007C 00000030
    676C7966 1A750472 000000AC 00000040
    68656164 610742DA 000000EC 00000036
    68686561 05160197 00000124 00000024
    686D7478 08FC0000 00000148 00000018
    6C6F6361 00000110 00000160 0000001C
    6D617870 00090004 0000017C 00000020
    00000002 00000004 00000014 0003000A 00000014
    000C0000 0000001C 00000000 00000001
    000000C1 000000C1 00000003
    00000000 00000064 00640000
    00000000 000000C8 00C80002 11220000
    00000000 0000012C 012C0000
    FFFF0000 000001F4 01F40022 00010000 00020002 05050000
    00010000 00010000 C0741D4A 5F0F3CF5 000003E8
    00000000 00000000 00000000 00000000 00000000
    01F401F4 00000008 00020001 00000000
    00010000 0320FF38 00000258 00000000 01F40001
    00000000 00000000 00000000 00000006
    02580000 01F40000 01900000 01F40000 00000000 012C0000
    00000000 0000000C 0000001C 00000028 00000040 00000040 00000040
    00010000 00060000 00000000 00000001
    00000000 00000000 00000002 00020001
""")


# The length of a cut, its sums of cmap, glyf and loca, its checksumAdjustment, and the offsets of its tables.
Numbers = tuple[int, int, int, int, int, tuple[int, ...]]


def numbers(file: bytes) -> Numbers:
    """Size, sums and offsets of a cut, as they are typed in."""
    records = {record.tag: record for record in records_of(file)}
    cmap, glyf, loca = (records[tag].checksum for tag in (b"cmap", b"glyf", b"loca"))
    place = adjustment_place(file)
    assert place, "there is no head"
    return len(file), cmap, glyf, loca, u32(file, place), tuple(record.offset for record in records.values())


def loca_of(file: bytes) -> list[int]:
    """The long offsets of a cut."""
    loca = table(file, b"loca")
    return list(struct.unpack(f">{len(loca) // 4}I", loca))


def groups_of(file: bytes) -> list[Group]:
    """The groups of the one subtable of a cut."""
    cmap = table(file, b"cmap")
    return [Group(*struct.unpack_from(">III", cmap, 36 + 12 * index)) for index in range((len(cmap) - 36) // 12)]


def base6_tables() -> dict[bytes, bytes]:
    return tables_of(BASE6)


def composite_of_composite() -> dict[bytes, bytes]:
    """The tables of the font with glyph 5 composed of glyph 3 alone, in 16 bytes."""
    tables = base6_tables()
    tables[b"glyf"] = tables[b"glyf"][:58] + struct.pack(">hhhhhHHbb", -1, 0, 0, 250, 250, 0x0002, 3, 0, 0)
    tables[b"loca"] = struct.pack(">7H", 0, 6, 13, 18, 29, 29, 37)
    return tables


def three_in_a_row() -> dict[bytes, bytes]:
    """The tables of the font with U+0061 to U+0063 on the glyphs 1 to 3 as its only codes."""
    segments = struct.pack(">2HH2H2h2H", 0x63, 0xFFFF, 0, 0x61, 0xFFFF, 1 - 0x61, 1, 0, 0)
    subtable = struct.pack(">7H", 4, 14 + len(segments), 0, 4, 4, 1, 0) + segments
    return {**base6_tables(), b"cmap": struct.pack(">HHHHI", 0, 1, 3, 1, 12) + subtable}


def reversed_directory() -> bytes:
    """The font with its records in reversed order, all checksums 0."""
    records = [BASE6[at:at + 4] + bytes(4) + BASE6[at + 8:at + 16] for at in range(108, 11, -16)]
    return BASE6[:12] + b"".join(records) + BASE6[124:]


# With nine tables of so many bytes, the cut for one of two codes has as many bytes as a file may have.
REGION = 14_913_024


def optional_tables() -> dict[bytes, bytes]:
    """These tables, of zeros, `vhea` and `vmtx` without their last four bytes."""
    return {tag: bytes(REGION - 4 if tag in (b"vhea", b"vmtx") else REGION)
            for tag in KEPT if tag not in base6_tables()}


def wide_font(path: str) -> None:
    """Makes the font with all nine optional tables over one region of zeros, `vhea` and `vmtx` without its last four
    bytes, its sums left at 0."""
    count, place, tables, bodies = 16, 12 + 16 * 16, base6_tables(), b""
    records = {}
    for tag, data in tables.items():
        records[tag] = (place + len(bodies), len(data))
        bodies += padded(data)
    directory = struct.pack(">IHHHH", 0x00010000, count, *(search_fields(count) or (0, 0, 0)))
    for tag in KEPT:
        length = REGION - 4 if tag in (b"vhea", b"vmtx") else REGION
        directory += struct.pack(">4sIII", tag, 0, *records.get(tag, (place + len(bodies), length)))
    with open(path, "wb") as out:
        out.write(directory + bodies)
    os.truncate(path, place + len(bodies) + REGION)


def with_glyph_2_empty() -> bytes:
    glyf = base6_tables()[b"glyf"]
    loca = struct.pack(">7H", 0, 6, 13, 13, 24, 24, 30)
    return with_tables(BASE6, {b"glyf": glyf[:26] + glyf[36:], b"loca": loca})


def with_byte(file: bytes, place: int, byte: int) -> bytes:
    return file[:place] + bytes([byte]) + file[place + 1:]


def worked_joins() -> list[tuple[str, list[bytes], int, bytes]]:
    """Of each join: what it shows, the files, its size, and its bytes."""
    aacute, both, nothing, three = (cut_for(BASE6, words) for words in ("U+C1", "U+41 U+42", "", "U+41-42 U+C1"))
    row = assembled(three_in_a_row())
    ends, middle, filled = (cut_for(row, words) for words in ("U+61 U+63", "U+62", "U+61-63"))
    first, last = cut_for(row, "U+61"), cut_for(row, "U+63")
    # The padding of glyph 1, which has 14 bytes from place 184 on.
    stray = assembled(tables_of(with_byte(aacute, 198, 1)))
    return [
        ("two cuts", [aacute, both], 448, three),
        ("two cuts, turned", [both, aacute], 448, three),
        ("two cuts, one of them again", [aacute, both, aacute], 448, three),
        ("two cuts, one of them again, and that for no code", [aacute, both, aacute, nothing], 448, three),
        ("a cut alone", [aacute], 412, aacute),
        ("the cut for no code, twice", [nothing, nothing], 348, CUT_OF_NOTHING),
        ("a gap that closes", [ends, middle], 412, filled),
        ("a gap that closes, turned", [middle, ends], 412, filled),
        ("a gap that closes at last", [first, last, middle], 412, filled),
        ("three in a row", [first, middle, last], 412, filled),
        ("padding of an outline that is no zero", [stray], 412, stray),
    ]


def worked_refusals() -> list[tuple[str, list[bytes], str]]:
    """Of each refusal: what it shows, the files, and the line from the number of the file on."""
    aacute, letter = cut_for(BASE6, "U+C1"), cut_for(BASE6, "U+41")
    empty, full = cut_for(with_glyph_2_empty(), "U+C1"), cut_for(with_codes(BASE6, {0x43: 2}), "U+43")
    glyf, hmtx = base6_tables()[b"glyf"], base6_tables()[b"hmtx"]
    outline = cut_for(with_tables(BASE6, {b"glyf": with_byte(glyf, 25, 0x23)}), "U+41")
    metric = cut_for(with_tables(BASE6, {b"hmtx": with_byte(hmtx, 23, 1)}), "U+41")
    # U+0041, U+00C1 and U+1ABCD on glyph 2, and before that on 1, 3 and 5.
    far, others = {0x1ABCD: 5}, {0x41: 2, 0xC1: 2, 0x1ABCD: 2}
    codes = [[cut_for(with_codes(BASE6, glyphs), word) for glyphs in (far, others)]
             for word in ("U+41", "U+C1", "U+1ABCD")]
    # The padding of head, and that of glyph 1.
    behind_head, stray = with_byte(aacute, 290, 1), assembled(tables_of(with_byte(aacute, 198, 1)))
    return [
        ("an empty outline, and one with bytes", [empty, full], "2: refused 23 different glyph 2"),
        ("an outline with bytes, and an empty one", [full, empty], "2: refused 23 different glyph 2"),
        ("another outline", [letter, outline], "2: refused 23 different glyph 1"),
        ("another metric", [letter, metric], "2: refused 21 different table hmtx"),
        ("U+0041 on another glyph", codes[0], "2: refused 22 different mapping U+0041"),
        ("U+00C1 on another glyph", codes[1], "2: refused 22 different mapping U+00C1"),
        ("U+1ABCD on another glyph", codes[2], "2: refused 22 different mapping U+1ABCD"),
        ("a font and a cut", [BASE6, letter], "1: refused 20 not a cut: first"),
        ("a cut and a font", [aacute, BASE6], "2: refused 20 not a cut: second"),
        ("padding of head that is no zero, first", [behind_head, aacute], "1: refused 20 not a cut: first"),
        ("padding of head that is no zero, second", [aacute, behind_head], "2: refused 20 not a cut: second"),
        ("padding of an outline that is no zero", [aacute, stray], "2: refused 23 different glyph 1"),
        ("a font without its last byte", [aacute, BASE6[:-1]], "2: refused 6 table out of file maxp"),
    ]
