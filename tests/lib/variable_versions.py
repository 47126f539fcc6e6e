"""What tests of joins of variable cuts choose at random: versions of a font, and cuts of them."""
import random
from typing import Sequence

from font_changing import with_codes
import font_cutting
from font_cutting import Ranges, outlines, ranges_of, whole_map
from layout_cutting import layout_cut
from layout_reading import layout_refusal
from lean_cutting import lean_cut
from random_fonts import CODES
from random_joins import damaged, random_version
from variable_cutting import variable_cut
from variable_making import accepted_font, other_variations


def random_codes(chance: random.Random) -> Ranges:
    """None of the codes of random fonts, some, or all."""
    codes: Ranges = ranges_of(chance.sample(CODES, chance.choice((0, 1, 2, 5, 9, len(CODES)))))
    return codes


def random_file(chance: random.Random, versions: Sequence[bytes]) -> bytes:
    """A cut of one of the versions of a font, which may be damaged, or of another kind."""
    font, kind, codes = chance.choice(versions), chance.random(), random_codes(chance)
    if kind < 0.03:
        others = [font_cutting.cut, lean_cut] + ([] if layout_refusal(font) else [layout_cut])
        return bytes(chance.choice(others)(font, codes))
    made: bytes = variable_cut(font, codes)
    return damaged(made, chance) if kind < 0.1 else made


def random_versions(chance: random.Random) -> list[bytes]:
    """Versions of a random font, in some of which a code, a table of layout or variations, or another one differs."""
    versions: list[bytes] = [accepted_font(chance)]
    for _ in range(chance.choice((0, 1, 1, 2))):
        kind, version, codes = chance.random(), versions[0], sorted(whole_map(versions[0]))
        if kind < 0.15 and codes:
            versions.append(with_codes(version, {chance.choice(codes): chance.randrange(1, len(outlines(version)))}))
        elif kind < 0.3:
            versions.append(random_version(version, chance))
        else:
            versions.append(other_variations(chance, version))
    return versions
