"""Fonts of a PDF file whose programs are cuts of one font become one font, of their join."""
from __future__ import annotations

from dataclasses import dataclass, field, replace
from functools import cached_property
from typing import Callable, Dict, FrozenSet, Iterator, List, Mapping, Optional, Sequence, Set, Tuple, TypeVar

import fontcut
from pikepdf import Array, Name, Pdf, Stream

from .common import Number, Outcome, Unclear, place
from .content import strictly
from .embedding import composite_font, descendant_font, program_stream, tagged, to_unicode, without_tag
from .font import Font
from .limits import MOST_CLASSES
from .shrinking import described, is_asked, put, replace_program, shrink_fonts
from .survey import stays, surveyed
from .tables import prepared
from .versions import different_item, different_table, drawn, kept, shared

_Key = TypeVar("_Key")
_Value = TypeVar("_Value")


@dataclass
class _Member:
    """A font that can be joined.

    cut       the lean cut that its program is, or comes to
    shown     the first page that shows each glyph
    box       that of its descriptor, if it is plain, and so are these:
    widths    of the glyphs that W has or that are shown
    texts     of the glyphs that ToUnicode has or that are shown; None where ToUnicode was not understood
    """

    font: Font
    cut: bytes
    shown: Dict[int, int]
    box: List[Number] = field(default_factory=list)
    widths: Dict[int, Number] = field(default_factory=dict)
    texts: Optional[Dict[int, Optional[bytes]]] = None

    @cached_property
    def kept(self) -> FrozenSet[int]:
        """The glyphs that its cut keeps."""
        return frozenset(fontcut.kept_glyphs(self.cut, kind="lean"))

    @cached_property
    def tables(self) -> Dict[str, bytes]:
        """A digest of what a join wants to be the same in each table."""
        return shared(self.cut)


def _member(font: Font, by: str) -> _Member:
    """What is joined of a font of a file that some program wrote. Raises `Unclear` where it has to stay as it is."""
    kind = font.kind
    if not font.is_by_glyph:
        raise Unclear(f"{kind}, and not by glyph numbers")
    if not font.is_cut:
        raise Unclear(f"{kind}, written{by}" if kind == "no cut" and by else kind)
    if font.unclear:
        raise Unclear(font.unclear)
    lean, shown = font.program.lean, font.glyphs()
    if not font.is_plain:
        return _Member(font, lean, shown)
    if not font.is_of_no_collection:
        raise Unclear("its CIDSystemInfo is not Adobe-Identity")
    return _Member(font, lean, shown, font.box(), font.widths(shown), font.texts(shown))


def _agree(one: Mapping[_Key, _Value], other: Mapping[_Key, _Value]) -> bool:
    """Whether two dictionaries have the same at all keys that both have."""
    return all(one.get(key, value) == value for key, value in other.items())


def _classes(members: Sequence[_Member], of: Callable[[_Member], Optional[Dict[_Key, _Value]]]
             ) -> List[Tuple[Optional[Dict[_Key, _Value]], List[_Member]]]:
    """Fonts in classes, in each of which all agree, with what they have together. A font is compared with the first
    classes alone: one that agrees with none of them has a class of its own."""
    found: List[Tuple[Optional[Dict[_Key, _Value]], List[_Member]]] = []
    for member in members:
        mine = of(member)
        for known, alike in found[:MOST_CLASSES]:
            if known is not None and mine is not None and _agree(known, mine):
                known.update(mine)
                alike.append(member)
                break
        else:
            found.append((None if mine is None else dict(mine), [member]))
    return found


def _box(members: Sequence[_Member]) -> Array:
    """A box around the boxes of all descriptors."""
    left, bottom, right, top = zip(*(member.box for member in members))
    return Array([min(left), min(bottom), max(right), max(top)])


def _unite(members: Sequence[_Member], joined: bytes) -> Tuple[Name, int]:
    """Puts the join in the place of the programs of some fonts. Those that are plain become one font. Returns its name,
    and the bytes that its program takes in a file."""
    first, plain = members[0].font, [member for member in members if member.font.is_plain]
    name, (program, size) = tagged(first.name, joined), program_stream(first.pdf, joined)
    if plain:
        _unite_plain(plain, name, program)
    for member in members:
        if not member.font.is_plain:
            replace_program(member.font, name, program)
    return name, size


def _unite_plain(members: Sequence[_Member], name: Name, program: Stream) -> None:
    """Puts one font over a program in the place of some. Where fonts have other widths for one glyph, each has its own
    CIDFont, and where they have other texts, each its own Type 0 font."""
    first = members[0].font
    pdf, descriptor = first.pdf, described(first, name, program, _box(members))
    for widths, alike in _classes(members, lambda member: member.widths):
        descendant = descendant_font(pdf, name, descriptor, widths or {})
        for texts, same in _classes(alike, lambda member: member.texts):
            stated = same[0].font.object.ToUnicode if texts is None else to_unicode(pdf, texts)
            made = composite_font(pdf, name, descendant, stated)
            for member in same:
                put(member.font, made)


def _joined(members: Sequence[_Member]) -> Tuple[bytes, List[_Member], List[Tuple[_Member, str]]]:
    """The join of the first of some fonts and of those that join with it, these, and the others with the reason.
    After some refusals the first one is left alone."""
    joining = list(members)
    others: List[Tuple[_Member, str]] = []
    while True:
        try:
            return fontcut.join([member.cut for member in joining], kind="lean"), joining, others
        except fontcut.Refused as refusal:
            last = min(refusal.file or 0, len(joining) - 1)
            others.append((joining.pop(last), refusal.text))
            if len(others) == MOST_CLASSES:
                others += [(member, refusal.text) for member in joining[1:]]
                joining = joining[:1]


def _united(members: Sequence[_Member], why: Optional[str]) -> Iterator[Outcome]:
    """Unites fonts that should join. Where one is left alone, this is why it does not join with the first of its
    name."""
    joined, joining, others = _joined(members)
    if len(joining) > 1:
        name, size = _unite(joining, joined)
        for member in joining:
            font = member.font
            before = font.shrunk or Outcome(font.page, font.name, font.program.size, None, "")
            yield before._replace(after=size, said=f"joined into {str(name)[1:]}")
    else:
        others = [(joining[0], why or ""), *others]
    for member, reason in others:
        yield stays(member.font, f"it does not join: {reason}" if reason else "no other cut of this font")


def _unite_alike(members: Sequence[_Member], why: Optional[str]) -> Iterator[Outcome]:
    """Unites fonts whose tables are alike, so that they join but where a character or a glyph differs."""
    try:
        fontcut.join([member.cut for member in members], kind="lean")
    except fontcut.Refused:
        classes = _classes(members, lambda member: kept(member.cut))
    else:
        classes = [(None, list(members))]
    first = classes[0][0] or {}
    for number, (items, alike) in enumerate(classes):
        yield from _united(alike, why or (different_item(first, items or {}) if number else None))


def _prepared(member: _Member) -> _Member:
    """A font over the cut of its prepared font, for the same glyphs."""
    return replace(member, cut=fontcut.cut(prepared(member.cut), [], kind="lean", gids="all"))


def _apart(members: Sequence[_Member]) -> Tuple[List[_Member], List[Outcome]]:
    """The fonts of some that may join, and the others. Where a page shows a glyph that is blank in the cut, and another
    cut has it, a join would draw it."""
    joining, others = [], []
    every: Set[int] = set().union(*(member.kept for member in members))
    for member in members:
        glyph = min((glyph for glyph in member.shown if glyph in every and glyph not in member.kept), default=None)
        if glyph is None:
            joining.append(member)
        else:
            said = f"{place(member.shown[glyph])} shows glyph {glyph}, which its cut lacks and another one has"
            others.append(stays(member.font, said))
    return joining, others


def _unite_all(members: Sequence[_Member]) -> Iterator[Outcome]:
    """Unites what joins among fonts. Those that are drawn by other tables are told apart by digests of these. Where
    only tables differ that a PDF file does not need, as between cuts with names and without them, cuts of the prepared
    font join."""
    alike: Dict[Tuple[Tuple[str, bytes], ...], List[_Member]] = {}
    first: Dict[str, Dict[str, bytes]] = {}
    for member in members:
        alike.setdefault(drawn(member.tables), []).append(member)
    for tables, some in alike.items():
        if any(member.tables != some[0].tables for member in some):
            some = list(map(_prepared, some))
        joining, others = _apart(some)
        yield from others
        if joining:
            of_name = first.setdefault(without_tag(joining[0].font.name), dict(tables))
            yield from _unite_alike(joining, different_table(of_name, dict(tables)))


def _share_programs(fonts: Sequence[Font]) -> None:
    """Where the same program stands in a file again, byte for byte, all fonts name the first one. Nothing names the
    others then, and they are not written."""
    for font in fonts:
        if font.descriptor[font.key].objgen != font.program.stream.objgen:
            font.descriptor[font.key] = font.program.stream


def join_fonts(pdf: Pdf, producer_of: Callable[[int], str] = lambda page: "", hinting: bool = True) -> List[Outcome]:
    """Fonts by glyph numbers whose programs are cuts of one font become one font, of their join, and whole fonts are
    shrunk before, without `hinting` cuts too; of other programs those that are the same bytes stand in the file once.
    `producer_of` has the words that say who wrote a page. Raises `Refused` where there is no embedded font."""
    outcomes: List[Outcome] = []
    members: List[_Member] = []
    fonts = surveyed(pdf, is_asked)
    shrink_fonts(pdf, [font for font in fonts if is_asked(font) and not (hinting and font.is_cut)], hinting)
    _share_programs(fonts)
    for font in fonts:
        try:
            with strictly(pdf):
                members.append(_member(font, producer_of(font.page)))
        except Unclear as error:
            outcomes.append(stays(font, str(error)))
    outcomes += _unite_all(members)
    return sorted(outcomes, key=lambda outcome: (outcome.page, outcome.name))
