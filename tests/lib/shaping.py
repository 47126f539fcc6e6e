"""What is shaped in tests of layout cuts: words of texts, strings that are made by chance of the letters of a script,
and the characters that a shaper takes for them besides their own."""
import itertools
import os
import random
import re
import shutil
import unicodedata
from functools import lru_cache
from typing import Iterable, Iterator, Mapping, NamedTuple

from checks import NOTO, built, run, skip_all
from font_cutting import whole_map
from font_joining import file_refusal
from font_reading import tables_of, u16
from layout_reading import layout_refusal
from shaping_texts import TEXTS

APPLE = (b"mort", b"morx", b"kerx")

BATCHES = 6  # of each font; one at least of each script
MOST_BATCHES = 40  # of a font of very many scripts
STRINGS = 40  # of a batch

# The first words of names of scripts that have two or more words.
FIRST_OF_TWO = frozenset("""OLD NEW TAI OL LINEAR MEETEI SYLOTI KAYAH IMPERIAL INSCRIPTIONAL PSALTER CAUCASIAN BASSA
    PAHAWH PAU SORA WARANG MENDE MASARAM GUNJALA HANIFI NYIAKENG ZANABAZAR CANADIAN""".split())
# First words of names of letters that are of no script, or of another one.
NO_SCRIPTS = frozenset("""MATHEMATICAL MODIFIER HALFWIDTH FULLWIDTH DOUBLE-STRUCK BLACK-LETTER SCRIPT FEMININE
    SUPERSCRIPT SUBSCRIPT SMALL COMBINING VEDIC HENTAIGANA""".split())
JOINS_LETTERS = re.compile("VIRAMA|HALANT|COENG|SAKOT|AL-LAKUNA|PANGKON|ADEG|PANGOLAT|MAAYYAA|ASAT")

DOTTED_CIRCLE, SPACE, HYPHENS = 0x25CC, 0x20, {0x2010, 0x2D}
ZERO_WIDTH_JOINERS = "\u200c\u200d"
# What shapers split a vowel into, or put before it.
PARTS_OF_VOWELS = {0x17BE: [0x17C1], 0x17BF: [0x17C1], 0x17C0: [0x17C1], 0x17C4: [0x17C1], 0x17C5: [0x17C1],
                   0x0E33: [0x0E4D, 0x0E32], 0x0EB3: [0x0ECD, 0x0EB2]}
MIRRORED = {**dict(zip(map(ord, "()[]{}<>«»‹›"), map(ord, ")(][}{><»«›‹")))}


def shaper_there() -> None:
    """If a package is missing, the script ends here."""
    if not shutil.which("hb-shape"):
        skip_all("shaping", "Debian's package libharfbuzz-bin is not installed")
    if not os.path.isdir(NOTO):
        skip_all("shaping", "Debian's package fonts-noto-core is not installed")


def shaping_built() -> None:
    """Builds the program. If a package is missing, the script ends here."""
    built()
    shaper_there()


class Script(NamedTuple):
    """The characters of a script that a font maps."""
    letters: list[str]
    marks: list[str]
    joining: list[str]  # of the marks those that join the letters around them


@lru_cache(None)
def script_of(character: str) -> str:
    """The first words of a character's name, which are its script's, or an empty word for what is of no script."""
    words = unicodedata.name(character, "").split()
    if not words or words[0] in NO_SCRIPTS or unicodedata.category(character)[0] not in "LM":
        return ""
    return " ".join(words[:2] if words[0] in FIRST_OF_TWO else words[:1])


def scripts_of(codes: Iterable[int]) -> dict[str, Script]:
    """The scripts of which a font maps letters enough, by their names."""
    found: dict[str, Script] = {}
    for character in map(chr, sorted(codes)):
        if script_of(character):
            script = found.setdefault(script_of(character), Script([], [], []))
            is_mark = unicodedata.category(character)[0] == "M"
            (script.marks if is_mark else script.letters).append(character)
            if is_mark and JOINS_LETTERS.search(unicodedata.name(character)):
                script.joining.append(character)
    return {name: script for name, script in found.items() if len(script.letters) >= 8}


def words_of(codes: frozenset[int]) -> dict[str, list[str]]:
    """The words and pairs of words of the texts of which a font maps all characters but joiners, by the script of their
    first letter."""
    found: dict[str, list[str]] = {}
    for text in TEXTS:
        words = [word for word in text.split() if codes.issuperset(map(ord, set(word) - set(ZERO_WIDTH_JOINERS)))]
        for word in words + [" ".join(pair) for pair in zip(words, words[1:])]:
            script = next(filter(None, map(script_of, word)), "")
            found.setdefault(script, []).append(word)
    return found


def syllable(chance: random.Random, script: Script) -> str:
    """A letter, others that are joined to it, and marks, in an order that is right or not."""
    made = chance.choice(script.letters)
    while script.joining and chance.random() < 0.4:
        made += chance.choice(script.joining)
        if chance.random() < 0.1:
            made += chance.choice(ZERO_WIDTH_JOINERS)
        made += chance.choice(script.letters)
    for _ in range(chance.choice((0, 0, 1, 1, 2, 3)) if script.marks else 0):
        made += chance.choice(script.marks)
    return made


def made_strings(chance: random.Random, script: Script) -> Iterator[str]:
    """Strings of a few letters and marks of a script, without end."""
    few = Script(*(chance.sample(listed, min(most, len(listed))) for listed, most in zip(script, (12, 8, 4))))
    while True:
        syllables = [syllable(chance, few) for _ in range(chance.randint(1, 5))]
        if chance.random() < 0.3:
            syllables.insert(chance.randrange(len(syllables)), " ")
        yield "".join(syllables)


def batches(chance: random.Random, file: bytes) -> Iterator[tuple[str, list[str]]]:
    """Some strings of a script that the font maps at a time, with the script's name: words of texts, if there are any,
    and strings that are made by chance."""
    codes = frozenset(whole_map(file))
    scripts, words = scripts_of(codes), words_of(codes)
    names = sorted(scripts.keys() | words.keys() - {""})
    chance.shuffle(names)
    for name in itertools.islice(itertools.cycle(names), min(max(BATCHES, len(names)), MOST_BATCHES) if names else 0):
        strings = chance.sample(words.get(name, []), min(STRINGS // 2, len(words.get(name, []))))
        if name in scripts:
            strings += itertools.islice(made_strings(chance, scripts[name]), STRINGS - len(strings))
        yield name, strings


@lru_cache(None)
def parts_of(code: int) -> frozenset[int]:
    """The characters of the canonical decomposition of a character."""
    return frozenset(map(ord, unicodedata.normalize("NFD", chr(code))))


@lru_cache(None)
def letters_of_form(code: int) -> frozenset[int]:
    """The letters of an Arabic presentation form, and none for other characters."""
    is_form = 0xFB50 <= code <= 0xFDFF or 0xFE70 <= code <= 0xFEFC
    return frozenset(map(ord, unicodedata.normalize("NFKD", chr(code)))) if is_form else frozenset()


def needed(text: str, codes: Iterable[int], features: Iterable[str]) -> set[int]:
    """The characters that a shaper takes for a text with a font that maps these codes and has these features: those of
    the text, and what is put in for characters that are missing, invisible, broken, mirrored or composed."""
    wanted = set(map(ord, text)) | {DOTTED_CIRCLE, SPACE, *map(ord, ZERO_WIDTH_JOINERS)}
    wanted |= {MIRRORED[code] for code in wanted if code in MIRRORED} | (HYPHENS if 0x2011 in wanted else set())
    for code in list(wanted):
        wanted |= {*parts_of(code), *PARTS_OF_VOWELS.get(code, ())}
    wanted |= {code for code in codes if parts_of(code) <= wanted}
    if {"init", "medi", "fina"}.isdisjoint(features):
        wanted |= {code for code in codes if letters_of_form(code) and letters_of_form(code) <= wanted | {SPACE}}
    return wanted


def features_of(file: bytes) -> list[str]:
    """The tags of the features of a font's GSUB and GPOS."""
    found = set()
    for tag in b"GSUB", b"GPOS":
        table = tables_of(file).get(tag, b"")
        place = u16(table, 6) if len(table) >= 10 else 0
        for index in range(u16(table, place) if place else 0):
            found.add(table[place + 2 + 6 * index:place + 6 + 6 * index])
    return sorted(tag.decode() for tag in found if re.fullmatch(rb"[A-Za-z0-9]{4}", tag))


def has_cuts(file: bytes) -> bool:
    """Whether a file is accepted for layout cuts and has GSUB or GPOS."""
    return not (file_refusal(file) or layout_refusal(file) or {b"GSUB", b"GPOS"}.isdisjoint(tables_of(file)))


def shaped(path: str, lines: str, *words: str) -> list[str]:
    """What HarfBuzz gives for each line of a file: glyphs by their numbers, clusters, advances and offsets."""
    status, out, err = run("hb-shape", "--no-glyph-names", *words, f"--text-file={lines}", path)
    return out.decode().splitlines() if status == 0 else [err.decode()]


def features_word(features: Iterable[str]) -> list[str]:
    """The word by which HarfBuzz is told which features a text has besides those by default."""
    listed = ",".join(features)
    return [f"--features={listed}"] if listed else []


def glyphs_in(line: str) -> set[int]:
    """The numbers of the glyphs in a line of HarfBuzz's."""
    return {int(glyph) for glyph in re.findall(r"[\[|](\d+)=", line)}


def variations_word(setting: Mapping[str, float]) -> list[str]:
    """The word by which HarfBuzz's programs are told a setting of axes."""
    listed = ",".join(f"{tag}={value}" for tag, value in setting.items())
    return [f"--variations={listed}"] if setting else []
