"""Which features slices keep of a font, and what is said of the features and variation sequences that they drop."""
from __future__ import annotations

from typing import Iterable, Iterator, List, Optional, Sequence, Set, Tuple

import fontcut

from . import preparing, sequences
from .feature_tags import check_spelling

# What browsers turn on by themselves in numbers: of lists, and upright ones in vertical lines.
_NUMBERS = "hwid", "qwid", "tnum", "twid"
# Features by which programs offer a choice of glyphs, or of fonts by size: no style sheet needs them.
_OF_PROGRAMS = "aalt", "size"
# How many features are named, and with how many that are asked for texts are tried.
_NAMED, _TRIED = 5, 16


def kept(path: str, data: bytes, asked: Optional[Sequence[str]]) -> Set[str]:
    """The features that slices of the font in a file keep beside those that shapers use: those of numbers, and those
    that are asked for, where `None` is all. Raises `UsageError` for a misspelt one."""
    if asked is None:
        return preparing.features_in(data) or set()
    check_spelling(path, preparing.lacking_features(data, asked))
    return {*_NUMBERS, *asked}


def tried(some: Set[str]) -> List[Tuple[str, ...]]:
    """The sets of features with which a slice has to shape texts as its font, if it keeps some features."""
    return [(), *((f"{tag}=1",) for tag in sorted(some.difference(_NUMBERS))[:_TRIED])]


def unknown(path: str, data: bytes, asked: Optional[Sequence[str]]) -> Iterator[str]:
    """What is said of features that are asked for and the font in a file does not have."""
    lacking = preparing.lacking_features(data, set(asked or ()) - set(preparing.default_features()))
    if lacking:
        yield f"{path} has no feature {', '.join(lacking)}"


def others(data: bytes, some: Set[str]) -> Set[str]:
    """The features of a font that style sheets may turn on, and that are neither those that shapers use nor among some.
    """
    known = {tag for tag in preparing.features_in(data) or () if " " not in tag}
    return known - {*preparing.default_features(), *_OF_PROGRAMS, *some}


def sequences_in(font: fontcut.Font, codes: Iterable[int]) -> Set[Tuple[int, int]]:
    """The variation sequences of a font for some characters, with glyphs of their own."""
    some = set(codes)
    return {one for one in sequences.distinct(font.data) if one[0] in some}


def dropped(path: str, features: Set[str], lost: Set[Tuple[int, int]]) -> Iterator[str]:
    """What is said of features and of variation sequences of the font in a file that its slices do not have."""
    named, more = sorted(features)[:_NAMED], len(features) - _NAMED
    gone = []
    if features:
        gone.append(f"the feature{'s' if len(features) > 1 else ''} {', '.join(named)}"
                    f"{f' and {more} more' if more > 0 else ''} (--features keeps what it names)")
    if lost:
        gone.append(f"{len(lost):,} variation sequence{'s' if len(lost) > 1 else ''} (lists and pages:COUNT keep what "
                    "they name)")
    if gone:
        yield f"{path}: slices drop {', and '.join(gone)}"
