"""Fonts of a PDF file become their lean cuts for what is shown."""
from __future__ import annotations

import importlib
from typing import Callable, Dict, List, NamedTuple, Optional, Sequence, Set, Union

import fontcut
from pikepdf import Array, Name, Object, Pdf, Stream

from .common import Id, Outcome, Refused, Unclear, copied, dictionaries, parts
from .content import strictly
from .embedding import program_stream, tagged
from .font import Font, Program
from .survey import producer, refusing, stays, surveyed
from .tables import assembled, prepared, tables_of


class _Same(Unclear):
    """A program has no more than what is shown."""


def described(font: Font, name: Name, program: Stream, box: Optional[Array] = None) -> Object:
    """The descriptor of a font, for another program. CIDSet would list other glyphs than the program has."""
    made = copied(font.descriptor, "/CIDSet")
    made.FontName, made.FontFile2 = name, program
    if box is not None:
        made.FontBBox = box
    return font.pdf.make_indirect(made)


def put(font: Font, made: Object) -> None:
    """Names another font wherever this one is named."""
    for holder, key in font.places:
        holder[key] = made


def replace_program(font: Font, name: Name, program: Stream) -> Object:
    """Puts a font over another program in the place of one that is the same otherwise, and returns it."""
    descriptor, made = described(font, name, program), copied(font.object)
    made.BaseFont = name
    if font.is_simple:
        made.FontDescriptor = descriptor
    else:
        descendant = copied(font.descendant)
        descendant.BaseFont, descendant.FontDescriptor = name, descriptor
        made.DescendantFonts = Array([font.pdf.make_indirect(descendant)])
    replaced = font.pdf.make_indirect(made)
    put(font, replaced)
    return replaced


def _cut(group: Sequence[Font]) -> bytes:
    """The lean cut for the glyphs that are shown in fonts of one program."""
    unclear = next((font.unclear for font in group if font.unclear), None)
    if unclear:
        raise Unclear(unclear)
    shown = {glyph for font in group for glyph in font.glyphs()}
    try:
        program = fontcut.Font(prepared(group[0].program.read()))
        count = fontcut.info(program).glyph_count
        # A number that is no glyph draws nothing, with any program.
        return fontcut.cut(program, [], kind="lean", gids=[glyph for glyph in sorted(shown) if glyph < count])
    except fontcut.Refused as refusal:
        raise Unclear(refusal.text) from refusal


def _with_names(cut: bytes, program: bytes) -> bytes:
    """A cut with the tables of its font in which viewers look for the glyphs of a simple font."""
    names = {tag: data for tag, data in tables_of(program).items() if tag in (b"cmap", b"post")}
    return assembled({**tables_of(cut), **names})


def _is_renumbered(font: Font, cut: bytes) -> bool:
    """Whether a program is what another program made of a font, with glyph numbers of its own: it is named as a subset,
    and its cut keeps all of its glyphs. Where glyphs kept their numbers, some that nothing shows are among them."""
    count = fontcut.info(cut).glyph_count
    return font.program.kind == "no cut" and font.is_subset and len(fontcut.kept_glyphs(cut, kind="lean")) == count


def _unhinted(cut: bytes) -> bytes:
    """A cut without hints. fontTools need not be there otherwise."""
    without_hints: Callable[[bytes], bytes] = importlib.import_module(".hinting", __package__).without_hints
    return without_hints(cut)


def _made(group: Sequence[Font], hinting: bool) -> bytes:
    """The program that takes the place of that of some fonts. Raises `Unclear` where there is none."""
    cut = _cut(group)
    if _is_renumbered(group[0], cut):
        raise _Same(f"a renumbered subset{producer(group[0].pdf)}, whose glyphs are all shown")
    program = group[0].program.read()
    cut = cut if hinting else _unhinted(cut)
    made = _with_names(cut, program) if any(font.is_simple for font in group) else cut
    if made == program:
        raise _Same(f"{group[0].kind}, whose glyphs are all shown")
    return made


class _Shrunk(NamedTuple):
    """Fonts of one program, those that took their places, the new program, and what became of each font."""

    fonts: List[Font]
    made: List[Object]
    program: Stream
    outcomes: List[Outcome]


def _shrink(group: List[Font], hinting: bool) -> Union[_Shrunk, List[Outcome]]:
    """Fonts of one program become fonts of its lean cut, with hints or without them, if that is smaller."""
    try:
        with strictly(group[0].pdf):
            made = _made(group, hinting)
        stream, size = program_stream(group[0].pdf, made)
        if size >= group[0].program.size:
            raise _Same(f"its lean cut would have {size} bytes")
    except Unclear as error:
        return [stays(font, str(error), not isinstance(error, _Same)) for font in group]
    fonts = [replace_program(font, tagged(font.name, made), stream) for font in group]
    return _Shrunk(group, fonts, stream, [
        Outcome(font.page, font.name, font.program.size, size, "shrunk") for font in group])


def _reached(pdf: Pdf) -> Set[Id]:
    """The objects that a file needs."""
    waiting, seen = [pdf.trailer], set()
    while waiting:
        for part in parts(waiting.pop()):
            if not part.is_indirect:
                waiting.append(part)
            elif part.objgen not in seen:
                seen.add(part.objgen)
                waiting.append(part)
    return seen


def _still_needed(pdf: Pdf, shrunk: List[_Shrunk]) -> List[Outcome]:
    """What became of fonts at last. Where a program is needed by something else too, such as a graphics state, the cut
    would stand beside it, and the file would grow: then the fonts stay as they were."""
    outcomes: List[Outcome] = []
    reached = _reached(pdf) if shrunk else set()
    for group in shrunk:
        if any(font.descriptor.FontFile2.objgen in reached for font in group.fonts):
            for font in group.fonts:
                put(font, font.object)
                outcomes.append(stays(font, "its program is needed by something else too", True))
            continue
        program = Program(group.program)
        for font, made, outcome in zip(group.fonts, group.made, group.outcomes):
            font.object, font.program, font.shrunk = made, program, outcome
        outcomes += group.outcomes
    return outcomes


def is_asked(font: Font) -> bool:
    """Whether a font may be shrunk."""
    return (font.is_by_glyph or font.is_simple) and (font.is_cut or font.kind == "no cut")


def shrink_fonts(pdf: Pdf, fonts: Sequence[Font], hinting: bool = True) -> List[Outcome]:
    """Shrinks those of the fonts of a file that may be, of which what is shown has been read."""
    outcomes: List[Outcome] = []
    groups: Dict[Program, List[Font]] = {}
    for font in fonts:
        if is_asked(font):
            groups.setdefault(font.program, []).append(font)
        else:
            how = "" if font.is_by_glyph or font.is_simple else ", and not by glyph numbers"
            outcomes.append(stays(font, f"{font.kind}{how}"))
    shrunk: List[_Shrunk] = []
    for group in groups.values():
        made = _shrink(group, hinting)
        if isinstance(made, _Shrunk):
            shrunk.append(made)
        else:
            outcomes += made
    return outcomes + _still_needed(pdf, shrunk)


def shrink(pdf: Pdf, hinting: bool = True) -> List[Outcome]:
    """Each font by glyph numbers becomes its lean cut for the glyphs that the pages show, with only the tables that a
    PDF file needs: whole fonts, cuts, and subsets in which glyphs kept their numbers. A simple font becomes that with
    the tables in which viewers look for its glyphs. A font stays as it is where it has no other glyphs, where that
    would not be smaller, where it is not certain which are shown, and where something else needs its program too.
    Without `hinting` the cuts have no hints, which needs fontTools, and they join with such cuts alone. Raises
    `Refused` where there is no embedded font, or a signature."""
    _refuse_signed(pdf)
    return shrink_fonts(pdf, surveyed(pdf, is_asked), hinting)


def _refuse_signed(pdf: Pdf) -> None:
    """A signature is one of the bytes of its file (ISO 32000-1, 12.8.1), and holds for no others."""
    with refusing():
        if any("/ByteRange" in thing for thing in dictionaries(pdf)):
            raise Refused("it is signed, and a changed file would not be")
