"""Tables of layout that are made to be read slowly: each GSUB has as many steps as may be, of one kind of steps."""
from typing import Sequence

from layout_making import (coverage, coverage_of_ranges, extension, ligature, ligatures, lookup, numbers, reverse,
                           sequence, single, with_sets)
from layout_reading import STEP_LIMIT

GLYPHS = 65536
FAR = 25_717  # odd, so that its multiples modulo GLYPHS are all numbers


def at_the_limit(times: int, part: bytes, steps: int, places: Sequence[int] = (0,)) -> bytes:
    """A GSUB whose list names lookups many times, and then offsets of 0 until no step is left. The lookups stand at
    these places of the part after the list and take so many steps each, and each offset of 0 is one."""
    nothing = STEP_LIMIT - times * steps
    listed = times + nothing
    assert nothing >= 0, "there are too many steps"
    offsets = [2 + 2 * listed + places[index % len(places)] for index in range(times)]
    return numbers(1, 0, 0, 0, 10, listed, *offsets, *[0] * nothing) + part


def scattered(count: int) -> list[int]:
    """So many numbers of glyphs, none twice, each far from the one before."""
    return [FAR * index % GLYPHS for index in range(count)]


def many_ranges(kind: int, a_set: bytes, steps: int) -> bytes:
    """A lookup of a type of which a thousand ranges cover one glyph, whose set they share. The set takes so many steps
    after its offset."""
    part = lookup(kind, with_sets(coverage_of_ranges(*[(1, 1, 0)] * 1000), a_set))
    return at_the_limit(1, part, 3 + 1000 * (3 + steps))


def far_apart(count: int) -> bytes:
    """Two lookups of as many bytes as one of type 1 can have, each over so many glyphs that are far apart."""
    far = scattered(count)
    first, second = single(coverage(*far), *reversed(far)), single(coverage(*reversed(far)), *far)
    lookups = lookup(7, extension(1, b"", offset=24)) + lookup(7, extension(1, b"", offset=8 + len(first)))
    return at_the_limit(11, lookups + first + second, 4 + 3 * count, (0, len(lookups) // 2))


def slow_layouts() -> dict[str, bytes]:
    """Tables of as many steps as may be, each with another kind of steps, by what they are."""
    by_extensions = lookup(7)[:-2] + numbers(1023, *[6 + 2 * 1023] * 1023) + extension(8, reverse(coverage()))
    of_context = lookup(7)[:-2] + numbers(1023, *[6 + 2 * 1023] * 1023) + extension(5, b"")
    in_a_row = lookup(1, numbers(1, 6, 1) + coverage_of_ranges((0, 65_533, 0)))
    of_one = scattered(1045)
    return {
        "offsets to nothing": at_the_limit(1024, numbers(1, 0, 1023, *[0] * 1023), 1024),
        "subtables by extensions": at_the_limit(341, by_extensions, 1 + 3 * 1023),
        "subtables of type 5 by extensions": at_the_limit(512, of_context, 1 + 2 * 1023),
        "a thousand times 1,045 alternates": many_ranges(3, sequence(*of_one), 1045),
        "a thousand times 522 ligatures": many_ranges(4, ligatures(*map(ligature, of_one[:522])), 2 * 522),
        "eight times 65,534 glyphs in a row": at_the_limit(8, in_a_row, 4 + 2 * 65_534),
        "eleven times 31,773 glyphs far apart": far_apart(31_773),
    }
