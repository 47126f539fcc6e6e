"""Which scripts of some characters a font shapes, by a second reading of its GSUB and GPOS and of Unicode's files.
OpenType 1.9, Script Tags; OpenType Layout Common Table Formats, ScriptList. Unicode, UAX 24."""
import os
from collections.abc import Iterable, Iterator
from functools import lru_cache

from font_reading import tables_of, u16

UNICODE = "/usr/share/unicode"  # Debian's package unicode-data
NAMES = {"Nko": "N'Ko", "Phags_Pa": "Phags-pa"}
# The tags of scripts that have others than the four letters of ISO 15924, or more.
TAGS = {"Nko": "nko ", "Lao": "lao ", "Vai": "vai ", "Yi": "yi  ", "Hiragana": "kana", "Hangul": "hang jamo",
        "Bengali": "beng bng2 bng3", "Devanagari": "deva dev2 dev3", "Gujarati": "gujr gjr2 gjr3",
        "Gurmukhi": "guru gur2 gur3", "Kannada": "knda knd2 knd3", "Malayalam": "mlym mlm2 mlm3",
        "Myanmar": "mymr mym2", "Oriya": "orya ory2 ory3", "Tamil": "taml tml2 tml3", "Telugu": "telu tel2 tel3"}
NO_SCRIPTS = {"Common", "Inherited"}


def rows(name: str) -> Iterator[list[str]]:
    """The fields of each line of one of Unicode's files."""
    with open(os.path.join(UNICODE, name), encoding="utf-8") as opened:
        for line in opened:
            fields = [field.strip() for field in line.partition("#")[0].split(";")]
            if len(fields) > 1:
                yield fields


def values(name: str, field: int) -> Iterator[tuple[int, str]]:
    """The value of a property, which stands in this field, of each character that a file names."""
    for fields in rows(name):
        first, _, last = fields[0].partition("..")
        for code in range(int(first, 16), int(last or first, 16) + 1):
            yield code, fields[field]


@lru_cache(None)
def scripts() -> dict[int, str]:
    """The script of each character that is of one script."""
    return {code: script for code, script in values("Scripts.txt", 1) if script not in NO_SCRIPTS}


@lru_cache(None)
def tags() -> dict[str, list[bytes]]:
    """The tags of each script."""
    letters = {fields[2]: fields[1].lower() for fields in rows("PropertyValueAliases.txt") if fields[0] == "sc"}
    four = {script: TAGS.get(script, tag) for script, tag in letters.items()}
    return {script: [text[at:at + 4].encode() for at in range(0, len(text), 5)] for script, text in four.items()}


@lru_cache(None)
def complex_scripts() -> frozenset[str]:
    """The scripts that have letters which join on both sides, or vowels and marks that stand at stated sides of one."""
    joined = {code for code, joining in values("ArabicShaping.txt", 2) if joining == "D"}
    placed = {code for code, _ in values("IndicPositionalCategory.txt", 1)}
    return frozenset(scripts()[code] for code in joined | placed if code in scripts())


def listed(table: bytes) -> set[bytes]:
    """The tags of the scripts that a GSUB or GPOS lists, or those of them that are in the table."""
    place = u16(table, 4) if len(table) >= 6 else len(table)
    count = u16(table, place) if place + 2 <= len(table) else 0
    records = table[place + 2:place + 2 + 6 * count]
    return {records[at:at + 4] for at in range(0, len(records) - 5, 6)}


def shaped_scripts(font: bytes, codes: Iterable[int]) -> list[str]:
    """The names of the scripts of these characters that a font shapes: first those that are joined or put in another
    order, for which the tag for all scripts counts too."""
    tables = tables_of(font)
    found = listed(tables.get(b"GSUB", b"")) | listed(tables.get(b"GPOS", b""))
    if not found:
        return []
    names: tuple[list[str], list[str]] = [], []
    for script in {scripts()[code] for code in codes if code in scripts()}:
        is_complex = script in complex_scripts()
        if not found.isdisjoint(tags()[script]) or is_complex and b"DFLT" in found:
            names[not is_complex].append(NAMES.get(script, script.replace("_", " ")))
    return [name for some in names for name in sorted(some, key=lambda name: name.replace("'", "").lower())]
