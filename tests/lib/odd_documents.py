"""PDF files for `tests/documents_pdf` that few programs write: streams with several resources, hidden pages, names of
any bytes, numbers that a stream maps to glyphs, simple fonts, and small files that ask for much."""
from __future__ import annotations

import re
import zlib
from typing import TYPE_CHECKING, Callable, Iterable, Optional, Sequence

import pikepdf
from pikepdf import Array, Dictionary, Name, Object, Pdf, Stream, String

if TYPE_CHECKING:
    from fontcut_pdf import Embedded

Embed = Callable[[Pdf, bytes, str], "Embedded"]
BOX = [0, 0, 300, 400]


def page_with(pdf: Pdf, body: bytes, resources: Dictionary, **more: Object) -> Object:
    """A page, which is not in the page tree yet."""
    return pdf.make_indirect(Dictionary(Type=Name.Page, MediaBox=Array(BOX), Resources=resources,
                                        Contents=Stream(pdf, body), **more))


def whole(pdf: Pdf, used: Embedded, font: bytes) -> None:
    """Puts a font as it is into the place of its cut."""
    used.font.DescendantFonts[0].FontDescriptor.FontFile2 = Stream(pdf, font, Length1=len(font))


def form(pdf: Pdf, body: bytes, resources: Dictionary) -> Stream:
    return Stream(pdf, body, Type=Name.XObject, Subtype=Name.Form, BBox=Array([0, 0, 300, 40]), Resources=resources)


def shared_glyphs(path: str, fonts: Sequence[bytes], embed: Embed) -> None:
    """Two Type 3 fonts have one stream for their glyph, which shows text in another font by the resources of each. By
    the same resources two forms show other letters."""
    pdf, drawn, forms, body = Pdf.new(), Dictionary(), Dictionary(), b""
    used = [embed(pdf, font, "Aa Bb") for font in fonts]
    glyph = Stream(pdf, b"300 0 d0 BT /G 12 Tf 5 10 Td " + used[0].show("Aa") + b" Tj ET")
    for number, (one, font) in enumerate(zip(used, fonts)):
        whole(pdf, one, font)
        resources = pdf.make_indirect(Dictionary(Font=Dictionary(G=one.font)))
        drawn[f"/T{number}"] = pdf.make_indirect(Dictionary(
            Type=Name.Font, Subtype=Name.Type3, FontBBox=Array([0, 0, 300, 40]),
            FontMatrix=Array([.01, 0, 0, .01, 0, 0]), CharProcs=Dictionary(a=glyph), FirstChar=97, LastChar=97,
            Widths=Array([300]), Resources=resources,
            Encoding=Dictionary(Type=Name.Encoding, Differences=Array([97, Name.a]))))
        forms[f"/X{number}"] = form(pdf, b"BT /G 30 Tf 5 10 Td " + one.show("Bb") + b" Tj ET", resources)
        body += b"BT /T%d 100 Tf 0 %d Td (a) Tj ET q 1 0 0 1 0 %d cm /X%d Do Q " % (
            number, 50 + 50 * number, 200 + 50 * number, number)
    pdf.pages.append(pikepdf.Page(page_with(pdf, body, Dictionary(Font=drawn, XObject=forms))))
    pdf.save(path)


def hidden_page(path: str, font: bytes, embed: Embed) -> None:
    """A page and a template have a dictionary of resources together, and show other letters."""
    pdf = Pdf.new()
    used = embed(pdf, font, "page hidden")
    whole(pdf, used, font)
    resources = pdf.make_indirect(Dictionary(Font=Dictionary(F=used.font)))
    shown = [b"BT /F 30 Tf 20 300 Td " + used.show(text) + b" Tj ET" for text in ("page", "hidden")]
    pdf.pages.append(pikepdf.Page(page_with(pdf, shown[0], resources)))
    template = page_with(pdf, shown[1], resources)
    template.Type = Name.Template
    pdf.Root.Names = Dictionary(Templates=Dictionary(Kids=Array([pdf.make_indirect(Dictionary(
        Limits=Array([String("t"), String("t")]), Names=Array([String("t"), template])))])))
    pdf.save(path)


def with_icon(path: str, font: bytes, embed: Embed) -> None:
    """A page and the icon of a button have a dictionary of resources together, and show other letters."""
    pdf = Pdf.new()
    used = embed(pdf, font, "page icon")
    whole(pdf, used, font)
    resources = pdf.make_indirect(Dictionary(Font=Dictionary(F=used.font)))
    shown = [b"BT /F 30 Tf 5 10 Td " + used.show(text) + b" Tj ET" for text in ("page", "icon")]
    page = page_with(pdf, shown[0], resources)
    page.Annots = Array([pdf.make_indirect(Dictionary(
        Type=Name.Annot, Subtype=Name.Widget, FT=Name.Btn, Rect=Array([0, 0, 90, 30]), T=String("b"),
        MK=Dictionary(I=form(pdf, shown[1], resources))))])
    pdf.pages.append(pikepdf.Page(page))
    pdf.save(path)


def shown_hidden(path: str, out: str) -> None:
    """Shows a hidden page, or the icon of a button, on a page of its own."""
    with pikepdf.open(path) as pdf:
        if "/Names" in pdf.Root:
            template = pdf.Root.Names.Templates.Kids[0].Names[1]
            template.Type = Name.Page
            pdf.pages.append(pikepdf.Page(template))
        else:
            icon = pdf.pages[0].Annots[0].MK.I
            pdf.pages.append(pikepdf.Page(page_with(pdf, b"/I Do", Dictionary(XObject=Dictionary(I=icon)))))
        pdf.save(out)


def named_by_state(path: str, font: bytes, embed: Embed) -> None:
    """A font that a graphics state names too, which nothing uses: of a page without text."""
    pdf = Pdf.new()
    used = embed(pdf, font, "page")
    whole(pdf, used, font)
    body = b"BT /F 30 Tf 20 300 Td " + used.show("page") + b" Tj ET"
    pdf.pages.append(pikepdf.Page(page_with(pdf, body, Dictionary(Font=Dictionary(F=used.font)))))
    state = Dictionary(ExtGState=Dictionary(S=Dictionary(Font=Array([used.font, 12]))))
    pdf.pages.append(pikepdf.Page(page_with(pdf, b"0 0 50 50 re f", state)))
    pdf.save(path)


def odd_bytes(path: str, font: bytes, embed: Embed, text: str) -> None:
    """The font of a page has a name that is no UTF-8, and its descriptor a key that is none."""
    pdf = Pdf.new()
    used = embed(pdf, font, text)
    used.font.DescendantFonts[0].FontDescriptor[Object.parse(b"/X#F1")] = 1
    fonts = Dictionary()
    fonts[Object.parse(b"/F#E9")] = used.font
    body = b"BT /F#E9 30 Tf 20 300 Td " + used.show(text) + b" Tj ET"
    pdf.pages.append(pikepdf.Page(page_with(pdf, body, Dictionary(Font=fonts))))
    pdf.save(path)


def mapped_numbers(path: str, font: bytes, embed: Embed, text: str, add: int) -> None:
    """A whole font whose numbers are by so much above the glyphs to which a stream maps them, and run downwards on the
    second page."""
    pdf = Pdf.new()
    used = embed(pdf, font, text)
    whole(pdf, used, font)
    inner = used.font.DescendantFonts[0]
    inner.CIDToGIDMap = Stream(pdf, b"".join(max(0, number - add).to_bytes(2, "big") for number in range(0x1000)))
    inner.W = Array([part if at % 2 else int(part) + add for at, part in enumerate(inner.W)])
    rows = re.sub(rb"<(....)> <", lambda row: b"<%04X> <" % (int(row[1], 16) + add), used.font.ToUnicode.read_bytes())
    used.font.ToUnicode = Stream(pdf, rows)
    shown = b"<" + b"".join(b"%04X" % (used.glyphs[letter] + add) for letter in text) + b">"
    downwards = Dictionary(dict(used.font.items()))
    downwards.Encoding = Name("/Identity-V")
    for made in used.font, pdf.make_indirect(downwards):
        body = b"BT /F 12 Tf 150 390 Td " + shown + b" Tj ET"
        pdf.pages.append(pikepdf.Page(page_with(pdf, body, Dictionary(Font=Dictionary(F=made)))))
    pdf.save(path)


def simple(path: str, font: bytes, embed: Embed, text: bytes, encoding: Optional[Object], flags: int) -> None:
    """A whole font of which each byte of a text is a character."""
    pdf = Pdf.new()
    descriptor = embed(pdf, font, "A").font.DescendantFonts[0].FontDescriptor
    descriptor.FontFile2, descriptor.Flags = Stream(pdf, font, Length1=len(font)), flags
    made = Dictionary(Type=Name.Font, Subtype=Name.TrueType, BaseFont=descriptor.FontName, FontDescriptor=descriptor,
                      FirstChar=0, LastChar=255, Widths=Array([600] * 256))
    if encoding is not None:
        made.Encoding = encoding
    body = b"BT /F 12 Tf 14 TL 20 380 Td " + b" ".join(
        b"<" + text[at:at + 20].hex().encode() + b"> Tj T*" for at in range(0, len(text), 20)) + b" ET"
    pdf.pages.append(pikepdf.Page(page_with(pdf, body, Dictionary(Font=Dictionary(F=pdf.make_indirect(made))))))
    pdf.save(path)


def packed(pdf: Pdf, data: Iterable[bytes], **more: Object) -> Stream:
    """A stream of bytes that come piece by piece, of which all are never held together."""
    packing = zlib.compressobj(9)
    stream = Stream(pdf, b"", **more)
    stream.write(b"".join([packing.compress(piece) for piece in data] + [packing.flush()]), filter=Name.FlateDecode)
    return stream


def restated_texts(path: str, font: bytes, embed: Embed) -> None:
    """ToUnicode that states the texts of all glyphs again and again."""
    pdf = Pdf.new()
    used = embed(pdf, font, "page")
    row = b"".join(b"<%02X00> <%02XFF> <0000>\n" % (high, high) for high in range(256))
    used.font.ToUnicode = packed(pdf, (b"256 beginbfrange\n" + row + b"endbfrange\n" for _ in range(20000)))
    body = b"BT /F 30 Tf 20 300 Td " + used.show("page") + b" Tj ET"
    pdf.pages.append(pikepdf.Page(page_with(pdf, body, Dictionary(Font=Dictionary(F=used.font)))))
    pdf.save(path)


def many_forms(path: str, font: bytes, embed: Embed, count: int) -> None:
    """So many pages that have as many forms together."""
    pdf = Pdf.new()
    used = embed(pdf, font, "page")
    body = b"BT /F 30 Tf 5 10 Td " + used.show("page") + b" Tj ET"
    forms = Dictionary({f"/X{number}": form(pdf, body, Dictionary(Font=Dictionary(F=used.font)))
                        for number in range(count)})
    forms = pdf.make_indirect(forms)
    for number in range(count):
        resources = Dictionary(XObject=forms)
        pdf.pages.append(pikepdf.Page(page_with(pdf, b"/X%d Do" % number, resources)))
    pdf.save(path, object_stream_mode=pikepdf.ObjectStreamMode.generate)


def many_resources(path: str, font: bytes, embed: Embed, count: int) -> None:
    """So many Type 3 fonts that have as many glyphs together, which each draws with other resources."""
    pdf = Pdf.new()
    used = embed(pdf, font, "page")
    body = b"300 0 d0 BT /G 12 Tf 5 10 Td " + used.show("page") + b" Tj ET"
    glyphs = pdf.make_indirect(Dictionary({f"/g{number}": Stream(pdf, body) for number in range(count)}))
    fonts = Dictionary({f"/T{number}": pdf.make_indirect(Dictionary(
        Type=Name.Font, Subtype=Name.Type3, FontBBox=Array([0, 0, 300, 40]), FontMatrix=Array([.01, 0, 0, .01, 0, 0]),
        CharProcs=glyphs, FirstChar=97, LastChar=97, Widths=Array([300]), Encoding=Dictionary(Type=Name.Encoding),
        Resources=Dictionary(Font=Dictionary(G=used.font), Properties=Dictionary(N=Dictionary(N=number)))))
        for number in range(count)})
    pdf.pages.append(pikepdf.Page(page_with(pdf, b"", Dictionary(Font=fonts))))
    pdf.save(path, object_stream_mode=pikepdf.ObjectStreamMode.generate)


def many_widths(path: str, font: bytes, embed: Embed, count: int) -> None:
    """So many fonts, each with the widths of all glyphs."""
    pdf = Pdf.new()
    used = embed(pdf, font, "page")
    fonts, body = Dictionary(), b"BT 20 300 Td "
    for number in range(count):
        inner = Dictionary(dict(used.font.DescendantFonts[0].items()))
        inner.W = Array([0, 0xFFFF, 500])
        one = Dictionary(dict(used.font.items()))
        one.DescendantFonts = Array([pdf.make_indirect(inner)])
        fonts[f"/F{number}"] = pdf.make_indirect(one)
        body += b"/F%d 12 Tf " % number + used.show("page") + b" Tj "
    pdf.pages.append(pikepdf.Page(page_with(pdf, body + b"ET", Dictionary(Font=fonts))))
    pdf.save(path, object_stream_mode=pikepdf.ObjectStreamMode.generate)


def many_comments(path: str, font: bytes, embed: Embed) -> None:
    """A page whose content has comments by the million."""
    pdf = Pdf.new()
    used = embed(pdf, font, "page")
    page = page_with(pdf, b"", Dictionary(Font=Dictionary(F=used.font)))
    shown = b"BT /F 30 Tf 20 300 Td " + used.show("page") + b" Tj ET "
    page.Contents = packed(pdf, [shown, b"0 g %\n" * (15 << 20 >> 3)])
    pdf.pages.append(pikepdf.Page(page))
    pdf.save(path)


def many_zeros(path: str, font: bytes, embed: Embed, where: str) -> None:
    """A stream of a gigabyte: as one that nothing uses, as content, as a program or as ToUnicode."""
    pdf = Pdf.new()
    used = embed(pdf, font, "page")
    stream = packed(pdf, (bytes(1 << 20) for _ in range(1 << 10)))
    body = b"BT /F 30 Tf 20 300 Td " + used.show("page") + b" Tj ET"
    page = page_with(pdf, body, Dictionary(Font=Dictionary(F=used.font)))
    if where == "unused":
        page.PieceInfo = Dictionary(Data=stream)
    elif where == "content":
        page.Contents = Array([page.Contents, stream])
    elif where == "program":
        other = embed(pdf, font, "other")
        other.font.DescendantFonts[0].FontDescriptor.FontFile2 = stream
        page.Resources.Font.G = other.font
    else:
        used.font.ToUnicode = stream
    pdf.pages.append(pikepdf.Page(page))
    pdf.save(path)


def bookmarks(path: str, font: bytes, embed: Embed, letters: str) -> None:
    """A file of two pages with bookmarks: to a page, by a name, by a string, to an address, closed, and one below."""
    pdf = Pdf.new()
    used = embed(pdf, font, letters)
    pages = [page_with(pdf, b"BT /F 30 Tf 20 300 Td " + used.show(letters) + b" Tj ET",
                       Dictionary(Font=Dictionary(F=used.font))) for _ in range(2)]
    for page in pages:
        pdf.pages.append(pikepdf.Page(page))
    second = Array([pages[1], Name.XYZ, 10, 390, None])
    pdf.Root.Dests = Dictionary(old=Array([pages[0], Name.Fit]))
    pdf.Root.Names = Dictionary(Dests=Dictionary(Names=Array([String("new"), Dictionary(D=second)])))
    rows = [("to a page", {"Dest": second}), ("by a name", {"Dest": Name.old, "C": Array([1, 0, 0]), "F": 2}),
            ("by a string", {"A": Dictionary(S=Name.GoTo, D=String("new"))}),
            ("to an address", {"A": Dictionary(S=Name.URI, URI=String("https://example.org/"))}),
            ("to nothing \u0416", {"Dest": String("none")})]
    made = [pdf.make_indirect(Dictionary(Title=String(title), **more)) for title, more in rows]
    below = pdf.make_indirect(Dictionary(Title=String("below"), Dest=second, Parent=made[1]))
    made[1].First = made[1].Last = below
    made[1].Count = -1
    root = pdf.make_indirect(Dictionary(Type=Name.Outlines, First=made[0], Last=made[-1], Count=len(made)))
    for one, other in zip(made, made[1:]):
        one.Next, other.Prev = other, one
    for one in made:
        one.Parent = root
    pdf.Root.Outlines = root
    pdf.save(path)
