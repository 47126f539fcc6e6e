"""The figures of README.md and the first table of docs/PERFORMANCE.md, which are read off the tables of
docs/performance/data, so that ./bench and tests/documents write the same."""
import re
from typing import Callable, Iterator

Row = dict[str, str]
# A table by its name: lines of cells with tabs between them.
Tables = Callable[[str], str]

FONT, NOTHING = "LXGWWenKai-Regular", "–"
# The ways of the table of pages, as that calls them.
CLOSED = "text that users type: closed cut, font prepared for languages"
EXACT = "fixed text: exact cut, font prepared for the page"
OTHERS = "`hb-subset --retain-gids`", "`pyftsubset`, which renumbers glyphs"
# The ways whose lengths the first table of PERFORMANCE.md has.
SIZED = "lean cut", "hb-subset", "pyftsubset"
MODULE_SIZE = r"(?<![\d.])\d+ KB as Brotli"
# The title of the README's table whose last column has figures.
JOBS = "| you have |"


def in_markdown(table: str) -> str:
    """A table of cells with tabs between them in Markdown, with columns of numbers to the right. A line alone is as it
    is."""
    titles, *rows = [line.split("\t") for line in table.strip("\n").split("\n")]
    if not rows:
        return titles[0]
    aligned = ["---", *("--:" if re.match(r"[+\d–]", cell) else "---" for cell in rows[0][1:])]
    return "\n".join("| " + " | ".join(line) + " |" for line in [titles, aligned, *rows])


def rows_of(table: str) -> list[Row]:
    """The rows of a table, each by its titles."""
    titles, *rows = [line.split("\t") for line in table.strip("\n").split("\n")]
    return [dict(zip(titles, row)) for row in rows]


def row_of(rows: list[Row], **wanted: str) -> Row:
    """The one row that has these cells."""
    return next(row for row in rows if all(row[title] == cell for title, cell in wanted.items()))


def first(cell: str) -> str:
    """The first number of a cell."""
    return cell.split(", ")[0]


def last(cell: str) -> str:
    """The last number of a cell: of times the median, of bytes those as WOFF2."""
    return cell.split(", ")[-1]


def value(cell: str) -> float:
    """A number that is written with commas."""
    return float(cell.replace(",", ""))


def two_digits(number: float) -> str:
    """A number with two digits that count."""
    return f"{float(f'{number:.1e}'):,.0f}"


def time_rows(table: Tables) -> Iterator[list[str]]:
    """What the programs take for three sets of characters. Of pyftsubset there is the ratio alone."""
    times = rows_of(table("all_programs"))
    slow = row_of(rows_of(table("programs_slow")), font=FONT)
    names = {"3,000 ideographs": f"LXGW WenKai ({value(slow['MB']):.1f} MB), 3,000 ideographs, ms",
             "all": "the same, all characters, ms", "ASCII": "the same, ASCII, ms"}
    for wanted, name in names.items():
        row = row_of(times, font=FONT, wanted=wanted)
        mine = last(row["fontcut"])
        yield [name, mine, last(row["hb-subset"]), two_digits(value(slow[wanted]) * value(mine))]


def pages_of(table: Tables, title: str) -> dict[str, str]:
    """A column of the table of pages, by the ways."""
    return {row["a page, bytes as WOFF2"]: row[title] for row in rows_of(table("prepared_taken"))}


def ascii_sizes(table: Tables) -> Row:
    """The lengths of cuts for ASCII, by the ways."""
    return row_of(rows_of(table("lengths")), font=FONT, wanted="ASCII")


def beside(table: Tables) -> str:
    """The first table of PERFORMANCE.md: times and sizes beside the other subsetters."""
    sizes, pages = ascii_sizes(table), pages_of(table, "Arabic")
    slices = {row["way"]: row["seconds"] for row in rows_of(table("commands_slices"))}
    rows = [["beside other subsetters", "fontcut", "hb-subset", "pyftsubset"], *time_rows(table),
            ["the same, ASCII as they are, bytes", *(first(sizes[way]) for way in SIZED)],
            ["the same, ASCII as WOFF2, bytes", *(last(sizes[way]) for way in SIZED)],
            ["the same, 100 slices as WOFF2, seconds", slices["`fontcut-web slice`"], NOTHING,
             slices["`pyftsubset`, a call a slice"]],
            ["a page of Arabic with layout, as WOFF2, bytes", *(pages[way] for way in (EXACT, *OTHERS))]]
    return in_markdown("\n".join(map("\t".join, rows)))


def costs(table: Tables) -> list[str]:
    """What each job of the README's table costs in bytes, and beside it what it does with hb-subset."""
    latin, arabic = pages_of(table, "Latin"), pages_of(table, "Arabic")
    means = next(title for title in rows_of(table("prepared_taken"))[0] if " pages : " in title)
    ratios, pages = pages_of(table, means), means.split(" : ")[0]
    merged = row_of(rows_of(table("merged")), font="DejaVuSans", documents="10")
    sizes = ascii_sizes(table)
    page = "Latin {}, Arabic {} (hb-subset {}, {}); {}: {} times hb-subset"
    return [*(page.format(latin[way], arabic[way], latin[OTHERS[0]], arabic[OTHERS[0]], pages, ratios[way])
              for way in (EXACT, CLOSED)),
            f"10 documents: {merged['joined lean cuts']} in one font "
            f"(hb-subset {first(merged['hb-subset each'])} in ten)",
            f"ASCII of LXGW WenKai: {last(sizes['lean cut'])} (hb-subset {last(sizes['hb-subset'])}), uncompressed "
            f"{first(sizes['lean cut'])} ({first(sizes['hb-subset'])})"]


def with_module_size(document: str, size: str) -> str:
    """A document with the length of the module for browsers, where it has one."""
    return re.sub(MODULE_SIZE, size, document) if re.fullmatch(MODULE_SIZE, size) else document


def replaced(readme: str, table: Tables, size: str) -> str:
    """README.md with the last column of its table of jobs as the tables give it, and the module's length."""
    before, found, rest = readme.partition(f"\n{JOBS}")
    if not found:
        raise ValueError(f"README.md has no table that begins with {JOBS}")
    inside, end, after = rest.partition("\n\n")
    titles, line, *rows = (found + inside).strip("\n").split("\n")
    made = [f"{row.rpartition(' | ')[0]} | {cost} |" for row, cost in zip(rows, costs(table), strict=True)]
    return with_module_size(before + "\n" + "\n".join([titles, line, *made]) + end + after, size)
