"""What ./bench writes: figures as tables of docs/performance/data, and the tables of documents, drawn from these."""
import os
import re
from typing import Callable, Mapping

import readme
from checks import TOP
from readme import in_markdown

DOCS, README = os.path.join(TOP, "docs"), os.path.join(TOP, "README.md")
PACKAGE = os.path.join(TOP, "bindings", "web", "README.md")
# The pages of results, below docs/, and the folder of the figures: a file for each table, whose cells have tabs between
# them, and one for the numbers and sentences of a line each.
NAMES = ["PERFORMANCE.md", *(f"performance/{name}.md" for name in ("cuts", "pages", "web"))]
DATA, VALUES = os.path.join("performance", "data"), "values"
OF_A_LINE = ["machine", "smallest", "largest", "nothing", "nothing_memory", "longest", "web_module", "web_added"]
# Where a document has a table, up to the next empty line, and where it has a value.
TABLE, VALUE = r"(^<!-- (\w+) -->\n)(?:.+\n)*", r"(<!-- (\w+) -->)[^\n]*?(?=<!-- / -->)"


def read(path: str) -> str:
    """The text of a file."""
    with open(path, encoding="utf-8") as opened:
        return opened.read()


def put_text(path: str, text: str) -> None:
    """Writes a file, and its folder if it is not there."""
    os.makedirs(os.path.dirname(path), exist_ok=True)
    with open(path, "w", encoding="utf-8") as out:
        out.write(text)


def table_of(folder: str, name: str) -> str:
    """The table of a name in a folder, or that of docs/ where the folder has none."""
    path = os.path.join(DATA, f"{name}.tsv")
    return read(os.path.join(folder if os.path.exists(os.path.join(folder, path)) else DOCS, path))


def values_of(folder: str) -> dict[str, str]:
    """The values of a line each, by their names."""
    name, _, rest = table_of(folder, VALUES).partition("\n")
    return dict(line.split("\t", 1) for line in rest.splitlines()) if name else {}


def figure(name: str, folder: str = DOCS) -> str:
    """What a document shows of a name: a value, or a table in Markdown."""
    if name in OF_A_LINE:
        return values_of(folder)[name]
    if name == "beside":
        return readme.beside(lambda other: table_of(folder, other))
    return in_markdown(table_of(folder, name))


def drawn(text: str, shown: Callable[[str], str] = figure) -> str:
    """A document with its tables and its values as they are now."""
    text = re.sub(TABLE, lambda found: f"{found[1]}{shown(found[2])}\n", text, flags=re.M)
    return re.sub(VALUE, lambda found: f"{found[1]}{shown(found[2])}", text)


def all_figures() -> str:
    """All tables and values of docs/, one after the other."""
    folder = os.path.join(DOCS, DATA)
    return "\n".join(read(os.path.join(folder, name)) for name in sorted(os.listdir(folder)))


def put(folder: str, figures: Mapping[str, str]) -> None:
    """Writes tables and values to a folder, and draws the documents there with them."""
    values = values_of(folder) | {name: text for name, text in figures.items() if name in OF_A_LINE}
    tables = {name: text for name, text in figures.items() if name not in OF_A_LINE}
    tables[VALUES] = "\n".join(["value\tis", *("\t".join(pair) for pair in sorted(values.items()))])
    for name, text in tables.items():
        put_text(os.path.join(folder, DATA, f"{name}.tsv"), text.rstrip("\n") + "\n")
    for name in NAMES:
        put_text(os.path.join(folder, name), drawn(read(os.path.join(DOCS, name)), lambda one: figure(one, folder)))


def write_readme() -> None:
    """Writes the figures of the README anew, by what the data say now, and those of the package for browsers."""
    put_text(README, readme.replaced(read(README), lambda name: table_of(DOCS, name), figure("web_module")))
    put_text(PACKAGE, readme.with_module_size(read(PACKAGE), figure("web_module")))
