"""A font is prepared by fontTools: its characters, features, names and axes become fewer, and its glyphs keep their
numbers."""
from __future__ import annotations

import contextlib
import io
import re
import struct
from typing import Any, Dict, Iterable, Iterator, List, Mapping, NamedTuple, Optional, Sequence, Set, Tuple, Union

import fontTools
from fontTools import unicodedata as properties
from fontTools.subset import Options, Subsetter
from fontTools.ttLib import TTFont
from fontTools.varLib.instancer import instantiateVariableFont

from .common import Refused, UsageError
from .malformed import MALFORMED
from .woff import with_tables

VERSION: str = fontTools.version
_KERN, _ALL = "kern", "*"
# The features by which browsers set brackets and stops of Chinese, Japanese and Korean closer (CSS Text 4,
# text-spacing-trim), which fontTools keeps where it is asked alone.
_SPACING = "chws", "halt", "vchw", "vhal"
_TAG = re.compile(r"[\x20-\x7e]{4}")
_NUMBER = r"-?\d+(?:\.\d+)?"
_LIMIT = re.compile(rf"([\x21-\x7e]{{4}})=(?:(drop)|({_NUMBER})(?::({_NUMBER}))?)")

# The most pairs of a subtable of `kern` that browsers take: its length has 16 bits, and a pair has 6 bytes. Of a table
# with a longer one, which some fonts have, they take nothing.
_MOST_PAIRS = 65_536 // 6

# Tables that are made for some characters where outlines stay as they are, and others that fontTools reads for them.
_FITTED = frozenset("BASE GDEF GPOS GSUB HVAR VVAR kern name".split())
_SMALL = frozenset("OS/2 STAT cmap fvar head hhea maxp post".split())

# The values of an axis that stay: one, a range, or the default one.
Limit = Union[None, float, Tuple[float, float]]


class PrepareOptions(NamedTuple):
    """What stays of a font: characters, features (all where it is `None`), hinting, axes, all names or the least, and
    table `kern`, always, never, or where browsers take it and GPOS has no kerning."""

    codes: Sequence[int]
    features: Optional[Sequence[str]]
    hinting: bool = True
    limits: Mapping[str, Limit] = {}
    names: str = "keep"
    kern: str = "auto"


class Counts(NamedTuple):
    """What a font has."""

    characters: int
    glyphs: int
    tables: List[str]
    features: List[str]
    names: int
    axes: Dict[str, Tuple[float, float, float]]


class Prepared(NamedTuple):
    """A font that is prepared, with what it had before and has now."""

    data: bytes
    before: Counts
    after: Counts


def default_features() -> List[str]:
    """The features that shapers and browsers use without being asked, and those of fractions and of vertical lines."""
    return sorted({*Options().layout_features, *_SPACING})


def features_of(words: str) -> Optional[List[str]]:
    """The features that a list names, in which `default` is all of the default ones; all features are `None`. Raises
    `UsageError` for what is no feature."""
    found: Set[str] = set()
    for word in (word.strip() for word in words.split(",")):
        if word == "all":
            return None
        if word != "default" and not _TAG.fullmatch(word):
            raise UsageError(f"{word!r} is no feature: write default, all, or tags as in kern,liga,smcp")
        found.update(default_features() if word == "default" else [word])
    return sorted(found)


def limits_of(words: str) -> Dict[str, Limit]:
    """The limits of axes that a list names. Raises `UsageError` for what is none."""
    found: Dict[str, Limit] = {}
    for word in (word.strip() for word in words.split(",")):
        limit = _LIMIT.fullmatch(word)
        if not limit or limit[1] in found:
            raise UsageError(f"{word!r} is no limit of an axis, or its second: write wght=400:700 or opsz=drop")
        if limit[4]:
            found[limit[1]] = (float(limit[3]), float(limit[4]))
        else:
            found[limit[1]] = None if limit[2] else float(limit[3])
    return found


def _layout_features(font: TTFont) -> Set[str]:
    """The tags of the features of a font."""
    tables = [font[tag].table for tag in ("GSUB", "GPOS") if tag in font]
    return {record.FeatureTag for table in tables if table.FeatureList for record in table.FeatureList.FeatureRecord}


def features_in(data: bytes) -> Optional[Set[str]]:
    """The tags of the features of a font, of which a table `kern` counts as one. Of one that cannot be read nothing is
    known."""
    with contextlib.suppress(*MALFORMED):
        font = TTFont(io.BytesIO(data), lazy=True)
        return _layout_features(font) | ({_KERN} if _KERN in font else set())
    return None


def lacking_features(data: bytes, tags: Iterable[str]) -> List[str]:
    """Those of some tags that are of no feature of a font, as far as that is known."""
    found = features_in(data)
    return [] if found is None else sorted(set(tags) - found)


def _axes(font: TTFont) -> Dict[str, Tuple[float, float, float]]:
    """The least, the default and the greatest value of each axis."""
    axes = font["fvar"].axes if "fvar" in font else []
    return {str(axis.axisTag): (axis.minValue, axis.defaultValue, axis.maxValue) for axis in axes}


def _counts(font: TTFont, glyphs: int) -> Counts:
    names = len(font["name"].names) if "name" in font else 0
    return Counts(len(font.getBestCmap() or {}), glyphs, sorted(set(font.keys()) - {"GlyphOrder"}),
                  sorted(_layout_features(font)), names, _axes(font))


def _kerned(table: Any, script: str) -> bool:
    """Whether a GPOS has kerning for a script, in each of its languages, as HarfBuzz looks for it."""
    records = {record.ScriptTag: record.Script for record in table.ScriptList.ScriptRecord}
    tags = [*properties.ot_tags_from_script(script), "DFLT", "dflt", "latn"]
    found = next((records[tag] for tag in tags if tag in records), None)
    if found is None or not table.FeatureList:
        return False
    languages = [found.DefaultLangSys, *(record.LangSys for record in found.LangSysRecord)]
    features = table.FeatureList.FeatureRecord
    return all(one and any(features[index].FeatureTag == _KERN for index in one.FeatureIndex) for one in languages)


def _is_taken(kern: bytes) -> bool:
    """Whether browsers take a table `kern` of version 0 (OpenType 1.9, kern, Format 0)."""
    at = 4
    for _ in range(struct.unpack_from(">H", kern, 2)[0] if len(kern) >= 4 else 0):
        if len(kern) < at + 8:
            break
        length, coverage, pairs = struct.unpack_from(">2xHHH", kern, at)
        if coverage >> 8 == 0 and pairs > _MOST_PAIRS:
            return False
        at += length
    return True


def as_taken(data: bytes, how: PrepareOptions) -> bytes:
    """A font that is accepted, as browsers take it: where `kern` is left to them, without one that they drop."""
    reader = TTFont(io.BytesIO(data), lazy=True).reader
    if how.kern != "auto" or _KERN not in reader or _is_taken(reader[_KERN]):
        return data
    return with_tables(data, {_KERN: None})


def _keeps_kern(font: TTFont, how: PrepareOptions, scripts: Iterable[str]) -> bool:
    """Whether table `kern` stays."""
    if how.kern != "auto":
        return how.kern == "keep"
    if how.features is not None and _KERN not in how.features:
        return False
    if _KERN in font and not _is_taken(font.reader[_KERN]):
        return False
    table = font["GPOS"].table if "GPOS" in font else None
    return not table or not table.ScriptList or not all(_kerned(table, script) for script in scripts)


def _options(how: PrepareOptions, keeps_kern: bool) -> Options:
    """What fontTools is asked for."""
    options = Options(retain_gids=True, notdef_outline=True, hinting=how.hinting, legacy_kern=keeps_kern,
                      harfbuzz_repacker=False, layout_features=[_ALL] if how.features is None else list(how.features))
    if how.names == "keep":
        options.set(name_IDs=[_ALL], name_languages=[_ALL], name_legacy=True)
    if not keeps_kern:
        options.drop_tables += [_KERN]
    return options


def _saved(font: TTFont) -> bytes:
    made = io.BytesIO()
    font.save(made, reorderTables=None)
    return made.getvalue()


def _check_limits(axes: Mapping[str, Tuple[float, float, float]], limits: Mapping[str, Limit]) -> None:
    """Raises `Refused` for limits that a font with these axes does not have."""
    if not axes:
        raise Refused("it is no variable font, so --instance limits nothing")
    for tag, limit in limits.items():
        if tag not in axes:
            raise Refused(f"it has no axis {tag}: its axes are {', '.join(sorted(axes))}")
        least, default, most = axes[tag]
        at = default if limit is None else limit
        first, last = at if isinstance(at, tuple) else (at, at)
        if not least <= first <= last <= most:
            raise Refused(f"its axis {tag} goes from {least:g} to {most:g}")
        if isinstance(limit, tuple) and not first <= default <= last:
            raise Refused(f"{tag}={first:g}:{last:g} leaves out the default of the axis, {default:g}")


def _instance(data: bytes, limits: Mapping[str, Limit]) -> bytes:
    """A font with the limits of its axes."""
    font = TTFont(io.BytesIO(data), recalcTimestamp=False)
    instantiateVariableFont(font, dict(limits), inplace=True)
    return _saved(font)


def _subset(font: TTFont, how: PrepareOptions, scripts: Iterable[str]) -> Tuple[bytes, int]:
    """A font with the characters, features and names that are to stay, and how many glyphs it keeps."""
    subsetter = Subsetter(_options(how, _keeps_kern(font, how, scripts)))
    subsetter.populate(unicodes=how.codes)
    subsetter.subset(font)
    return _saved(font), len(subsetter.glyphs_retained)


def _prepared(data: bytes, how: PrepareOptions, scripts: Iterable[str]) -> Prepared:
    """A font that has what is to stay, with axes as they are to be."""
    font = TTFont(io.BytesIO(data), recalcBBoxes=False, recalcTimestamp=False, lazy=True)
    before = _counts(font, font["maxp"].numGlyphs)
    if how.limits:
        _check_limits(before.axes, how.limits)
    made, count = _subset(font, how, scripts)
    made = _instance(made, how.limits) if how.limits else made
    return Prepared(made, before, _counts(TTFont(io.BytesIO(made), lazy=True), count))


def prepared(data: bytes, how: PrepareOptions, scripts: Iterable[str]) -> Prepared:
    """A font that has what is to stay; its characters are of these scripts. Raises `Refused` where fontTools cannot
    read it, or an axis has other values."""
    try:
        return _prepared(data, how, scripts)
    except MALFORMED as error:
        raise Refused(f"fontTools cannot prepare it: {' '.join(str(error).split()) or type(error).__name__}") from error


def with_layout_for(data: bytes, how: PrepareOptions, scripts: Iterable[str]) -> bytes:
    """A font that is accepted, and whose layout tables, names and variations of metrics have what is to stay. Its
    outlines are all there: cuts drop them, much faster than fontTools. Raises `Refused` where fontTools cannot read
    it."""
    try:
        font = TTFont(io.BytesIO(data), recalcBBoxes=False, recalcTimestamp=False, lazy=True)
        for tag in set(font.keys()) - _SMALL - _FITTED - {"GlyphOrder"}:
            del font[tag]
        part = TTFont(io.BytesIO(_saved(font)), recalcBBoxes=False, recalcTimestamp=False, lazy=True)
        small = TTFont(io.BytesIO(_subset(part, how, scripts)[0]), lazy=True)
        tables = {tag: small.reader[tag] if tag in small.reader else None for tag in _FITTED}
        return with_tables(data, tables)
    except MALFORMED as error:
        raise Refused(f"fontTools cannot prepare it: {' '.join(str(error).split()) or type(error).__name__}") from error


def dropped(one: Prepared) -> Iterator[str]:
    """What was dropped, in lines."""
    before, after = one.before, one.after
    yield (f"kept {after.characters:,} of {before.characters:,} characters, {after.glyphs:,} of {before.glyphs:,} "
           f"glyphs, {after.names:,} of {before.names:,} names")
    for what in "tables", "features", "axes":
        gone = sorted(set(getattr(before, what)) - set(getattr(after, what)))
        if gone:
            yield f"dropped {what}: {', '.join(tag.strip() for tag in gone)}"
