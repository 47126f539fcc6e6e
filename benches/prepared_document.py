"""The tables of docs/PERFORMANCE.md on what a page of text weighs by prepared fonts, and by closed and exact cuts."""
from typing import Iterator, Optional, Sequence

from document import Cells, held_row, mean, ratio, table
from prepared_sizes import (CLOSED, EXACT, FOR_LANGUAGES, FOR_PAGES, FOR_RANGES, GROUPS, HB, HB_ALL, HB_BARE,
                            HB_RENUMBERED, ICON, KEPT, LATIN, LEAN, NO_HINTING, PYFTSUBSET, SHAPED, TYPED, VARYING,
                            Sized)

BY_LANGUAGES, BY_RANGES = f"{FOR_LANGUAGES}{KEPT}", f"{FOR_RANGES}{KEPT}"
# What is compared with names kept and the characters that a shaper takes on both sides, and what as it is typed.
WAYS = [LEAN, CLOSED, EXACT,
        *(f"{way} {target}{more}" for target in (BY_LANGUAGES, BY_RANGES) for more in ("", NO_HINTING)
          for way in (CLOSED, EXACT)),
        HB, HB_BARE, HB_ALL, HB_RENUMBERED, PYFTSUBSET]
TYPED_WAYS = [LEAN, CLOSED, EXACT,
              *(f"{way} {FOR_PAGES}{more}" for more in ("", NO_HINTING) for way in (CLOSED, EXACT)),
              *(f"{way} {FOR_LANGUAGES}" for way in (CLOSED, EXACT)),
              *(f"{way}{TYPED}" for way in (HB, HB_BARE, HB_ALL, HB_RENUMBERED, PYFTSUBSET))]
# What was set: a way, a group, what it stands beside, and the ratio at most, as a geometric mean or of each font.
MEANS = [(f"{CLOSED} {BY_RANGES}", LATIN, HB, 1.2), (f"{EXACT} {BY_RANGES}", LATIN, HB, 1.1),
         (f"{EXACT} {BY_LANGUAGES}", SHAPED, HB, 0.85), (f"{EXACT} {BY_LANGUAGES}", ICON, HB, 0.2),
         (f"{EXACT} {BY_RANGES}", VARYING, HB, 1.5)]
EACH = [(f"{EXACT} {FOR_PAGES}", LATIN, 1.17), (f"{EXACT} {FOR_PAGES}", SHAPED, 0.95),
        (f"{EXACT} {FOR_LANGUAGES}", LATIN, 1.47), (f"{EXACT} {FOR_LANGUAGES}", SHAPED, 1.45)]
# The table of what a page weighs: which fonts it has, what they are called there, and what the ways are called and are
# for.
TAKEN_FONTS = {"NotoSans-Regular": "Latin", "NotoNaskhArabic-Regular": "Arabic",
               "NotoSansDevanagari-Regular": "Devanagari", "NotoSansKhmer-Regular": "Khmer",
               "MaterialIcons-Regular": "icons", "Inter.var": "Inter, variable"}
TAKEN = {f"{CLOSED} {FOR_LANGUAGES}": "text that users type: closed cut, font prepared for languages",
         f"{EXACT} {FOR_PAGES}": "fixed text: exact cut, font prepared for the page",
         f"{EXACT} {FOR_PAGES}{NO_HINTING}": "the same, without hinting", LEAN: "letters alone: lean cut",
         CLOSED: "closed cut of the font as it is", f"{HB}{TYPED}": "`hb-subset --retain-gids`",
         f"{PYFTSUBSET}{TYPED}": "`pyftsubset`, which renumbers glyphs"}
NOTHING = "–"


def digits(value: float) -> str:
    """Three digits, for figures that are close to what was set."""
    return f"{value:.3f}"


def of_group(rows: Sequence[Sized], group: str) -> list[Sized]:
    return [row for row in rows if row.page.group == group]


def ratios(rows: Sequence[Sized], way: str, other: str) -> list[tuple[float, str]]:
    """How many times as long a way's file is as another's, by font."""
    return [(row.made[way] / row.made[other], row.page.font) for row in rows if way in row.made]


def mean_cell(rows: Sequence[Sized], way: str, other: str) -> str:
    """The geometric mean of these, where each page was made so."""
    found = [value for value, _ in ratios(rows, way, other)]
    return ratio(mean(found)) if found and len(found) == len(rows) else NOTHING


def means_table(rows: Sequence[Sized], ways: Sequence[str], other: str) -> str:
    """The means of each way, by group."""
    groups = [group for group in GROUPS if of_group(rows, group)]
    titles = [f"to {other}", *(f"{group} ({len(of_group(rows, group))})" for group in groups), f"all ({len(rows)})"]
    return table(titles, [[way, *(mean_cell(of_group(rows, group), way, other) for group in groups),
                           mean_cell(rows, way, other)] for way in ways])


def bytes_table(rows: Sequence[Sized], ways: Sequence[str]) -> str:
    """The bytes of each page."""
    return table(["font", "characters", *ways],
                 [[row.page.font, row.characters,
                   *(f"{row.made[way]:,}" if way in row.made else NOTHING for way in ways)]
                  for row in rows])


def taken_table(rows: Sequence[Sized]) -> str:
    """The bytes of some pages, and the means of all beside hb-subset."""
    taken = [row for font in TAKEN_FONTS for row in rows if row.page.font == font]
    titles = ["a page, bytes as WOFF2", *(TAKEN_FONTS[row.page.font] for row in taken),
              f"{len(rows)} pages : `hb-subset --retain-gids`"]
    return table(titles, [[name, *(f"{row.made[way]:,}" if way in row.made else NOTHING for row in taken),
                           mean_cell(rows, way, HB + TYPED)]
                          for way, name in TAKEN.items()])


def held_rows(rows: Sequence[Sized]) -> Iterator[Cells]:
    """What was set, and what was measured."""
    for way, group, other, most in MEANS:
        found = ratios(of_group(rows, group), way, other)
        if found:
            value, name = max(found)
            yield held_row(f"{group}: {way} : {other}", most, mean([one for one, _ in found]),
                           f"{digits(value)} ({name})", digits)
    for way, group, most in EACH:
        found = ratios(of_group(rows, group), way, HB + TYPED)
        if found:
            value, name = max(found)
            yield held_row(f"{group}, each font: {way} : {HB}{TYPED}", most, value, name, digits)


def tables(rows: Optional[Sequence[Sized]]) -> dict[str, str]:
    """All tables, by their names in docs/performance/data."""
    if not rows:
        return dict.fromkeys(("prepared_taken", "prepared_held", "prepared_means", "prepared_typed", "prepared_bytes",
                              "prepared_typed_bytes"),
                             "Not measured, for a program was not there.")
    return {"prepared_taken": taken_table(rows),
            "prepared_held": table(["what", "at most", "measured", "the farthest", "held"], held_rows(rows)),
            "prepared_means": means_table(rows, WAYS, HB),
            "prepared_typed": means_table(rows, TYPED_WAYS, HB + TYPED),
            "prepared_bytes": bytes_table(rows, WAYS),
            "prepared_typed_bytes": bytes_table(rows, TYPED_WAYS)}
