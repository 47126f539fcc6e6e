"""A second reading of what a GSUB may make of glyphs, apart from the program and from the links of layout_reading: the
steps that crates/substitutions defines.

It follows OpenType 1.9, `GSUB` (lookup types 1 to 4, 7 and 8) and "OpenType Layout Common Table Formats" (LookupList,
Lookup and Coverage tables), of a table that layout_reading accepts. An offset of 0 leads nowhere.
"""
from functools import lru_cache
from typing import Iterator, NamedTuple, Sequence

from font_reading import u16, u32

Glyphs = tuple[int, ...]


class Ligature(NamedTuple):
    """The components after the first, and the glyph that all of them form."""
    others: Glyphs
    formed: int


class Rules(NamedTuple):
    """By glyph: what may come in its place, by lookup types 1 to 3 and 8, and the ligatures that it may begin."""
    outputs: dict[int, set[Glyphs]]
    ligatures: dict[int, set[Ligature]]


def array(gsub: bytes, place: int) -> list[int]:
    """The items after their count."""
    return [u16(gsub, place + 2 + 2 * index) for index in range(u16(gsub, place))]


def array_end(gsub: bytes, place: int) -> int:
    """Where an array after its count ends."""
    end: int = place + 2 + 2 * u16(gsub, place)
    return end


def subtables(gsub: bytes) -> Iterator[tuple[int, int]]:
    """The type and the place of each subtable of each lookup in the list; of type 7, of the one that it leads to."""
    lookup_list = u16(gsub, 8) if gsub else 0
    for lookup in [lookup_list + offset for offset in (array(gsub, lookup_list) if lookup_list else []) if offset]:
        for place in [lookup + offset for offset in array(gsub, lookup + 4) if offset]:
            if u16(gsub, lookup) != 7:
                yield u16(gsub, lookup), place
            elif u32(gsub, place + 4):
                yield u16(gsub, place + 2), place + u32(gsub, place + 4)


def covered(gsub: bytes, subtable: int) -> Iterator[tuple[int, int]]:
    """The glyphs of the Coverage of a subtable with their Coverage indices."""
    offset = u16(gsub, subtable + 2)
    place = subtable + offset
    if offset and u16(gsub, place) == 1:
        for index, glyph in enumerate(array(gsub, place + 2)):
            yield glyph, index
    elif offset and u16(gsub, place) == 2:
        for item in range(place + 4, place + 4 + 6 * u16(gsub, place + 2), 6):
            start, end, first = (u16(gsub, item + field) for field in (0, 2, 4))
            for glyph in range(start, end + 1):
                yield glyph, first + glyph - start


def outputs(gsub: bytes, kind: int, place: int, glyph: int, index: int) -> Iterator[Glyphs]:
    """What a subtable of lookup type 1, 2, 3 or 8 has for a glyph with an index."""
    if kind == 1 and u16(gsub, place) == 1:
        yield ((glyph + u16(gsub, place + 4)) % 65536,)
        return
    count = array_end(gsub, array_end(gsub, place + 4)) if kind == 8 else place + 4
    if index >= u16(gsub, count):
        return
    item = u16(gsub, count + 2 + 2 * index)
    if kind in (1, 8):
        yield (item,)
    elif item and kind == 2:
        yield tuple(array(gsub, place + item))
    elif item:
        yield from ((other,) for other in array(gsub, place + item))


def ligatures(gsub: bytes, place: int, index: int) -> Iterator[Ligature]:
    """The ligatures that a subtable of lookup type 4 has for a first glyph with an index."""
    offset = u16(gsub, place + 6 + 2 * index) if index < u16(gsub, place + 4) else 0
    for ligature in [place + offset + item for item in (array(gsub, place + offset) if offset else []) if item]:
        more = range(u16(gsub, ligature + 2) - 1)
        yield Ligature(tuple(u16(gsub, ligature + 4 + 2 * each) for each in more), u16(gsub, ligature))


@lru_cache(8)
def rules_of(gsub: bytes) -> Rules:
    """All that a GSUB has, whatever lookups and features name it. Types 5 and 6 only call lookups of the list."""
    rules = Rules({}, {})
    for kind, place in subtables(gsub):
        for glyph, index in covered(gsub, place) if kind in (1, 2, 3, 4, 8) else ():
            if kind == 4:
                rules.ligatures.setdefault(glyph, set()).update(ligatures(gsub, place, index))
            else:
                rules.outputs.setdefault(glyph, set()).update(outputs(gsub, kind, place, glyph, index))
    return rules


def is_without(gone: Sequence[int], glyphs: Sequence[int], left: Sequence[int]) -> bool:
    """Whether glyphs without some of them, which stand in this order, are those that are left."""
    if len(glyphs) != len(gone) + len(left):
        return False
    if not gone:
        return glyphs == left
    return (glyphs[0] == gone[0] and is_without(gone[1:], glyphs[1:], left)
            or glyphs[:1] == left[:1] and is_without(gone, glyphs[1:], left[1:]))


def is_step(rules: Rules, before: Glyphs, after: Glyphs) -> bool:
    """Whether glyphs become others by one step, at any place."""
    for at in range(len(before)):
        glyph, rest = before[at], before[at + 1:]
        if any(after[at:] == output + rest for output in rules.outputs.get(glyph, ())):
            return True
        if any(after[at:at + 1] == (formed,) and is_without(others, rest, after[at + 1:])
               for others, formed in rules.ligatures.get(glyph, ())):
            return True
        if after[at:at + 1] != (glyph,):
            return False
    return False


def linked(rules: Rules) -> dict[int, set[int]]:
    """Which glyphs a step may bring for each glyph."""
    found: dict[int, set[int]] = {}
    for glyph, some in rules.outputs.items():
        found.setdefault(glyph, set()).update(*some)
    for glyph, listed in rules.ligatures.items():
        found.setdefault(glyph, set()).update(ligature.formed for ligature in listed)
    return {glyph: others for glyph, others in found.items() if others}
