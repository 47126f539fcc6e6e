"""The program over small files whose answers were typed in, for scripts that run examples by their names."""
import os
from typing import Callable, Iterable, NoReturn, Optional, Sequence, cast

from checks import Case, Ran, check, put, quiet, run_cases, same, same_bytes
from font_changing import cut_for
import font_reading
from font_reading import table
import worked_cuts
from worked_cuts import BASE6, groups_of, loca_of, numbers

ALL = "U+0-10FFFF"
WELL_MADE = (0, b"findings 0\naccepted\n", b"")


class Tried:
    """The program over files that stand in a folder while it runs, for the checks of one example."""

    def __init__(self, folder: str, name: str) -> None:
        self.folder, self.name = folder, name

    def run(self, command: str, *files: bytes, words: Sequence[str] = ()) -> Ran:
        """What a command answers of these files; a cut or a join goes to standard output."""
        paths = [os.path.join(self.folder, f"{number}.ttf") for number in range(len(files))]
        for path, file in zip(paths, files):
            put(path, file)
        line: Sequence[str] = {"subset": [*paths, "-"], "join": ["-", *paths]}.get(command, paths)
        if command == "subset" and not words:
            words = ["--text", ""]
        return quiet(command, *line, *words)

    def made(self, command: str, *files: bytes, words: Sequence[str] = ()) -> bytes:
        """The cut or the join that the program makes, or what it says in its place, which is a text: no check takes
        that for a file."""
        status, out, err = self.run(command, *files, words=words)
        said = err.decode().removeprefix("fontcut: ").removesuffix("\n")
        return out if (status, err) == (0, b"") else cast(bytes, said)

    def cut(self, file: bytes, words: str) -> bytes:
        return self.made("subset", file, words=words.split())

    def join(self, *files: bytes) -> bytes:
        return self.made("join", *files)

    def same(self, what: str, wanted: object, found: object) -> None:
        same(f"{self.name}: {what}", wanted, found)

    def is_cut(self, file: bytes, words: str, size: int, groups: Sequence[tuple[int, int, int]],
               loca: Sequence[int]) -> None:
        """The cut has this size, these groups and offsets, has no finding, and is that of the second reading."""
        made = self.cut(file, words)
        same_bytes(f"{self.name}: the cut for '{words}'", cut_for(file, words), made)
        if isinstance(made, bytes):
            self.same(f"the cut for '{words}', its size, groups and offsets", (size, groups, loca),
                      (len(made), groups_of(made), loca_of(made)))
            self.same(f"the cut for '{words}' is well made", WELL_MADE, self.run("check", made))

    def is_known(self, words: str, cmap: Optional[bytes] = None, glyf: Optional[bytes] = None) -> None:
        """The cut of the font of six glyphs has the numbers and tables that are typed in."""
        made = self.cut(BASE6, words)
        known = {row[0]: row[1:] for row in worked_cuts.CUTS}[words]
        self.same(f"the cut for '{words}', its size, sums and offsets", known, numbers(made))
        sums = {record.tag: record.checksum for record in font_reading.records_of(made)}
        self.same("its other sums", worked_cuts.SUMS, {tag: sums[tag] for tag in worked_cuts.SUMS})
        for tag, wanted in (b"cmap", cmap), (b"glyf", glyf):
            if wanted:
                self.same(f"its {tag.decode()}", wanted, table(made, tag))
        self.same("it is well made", WELL_MADE, self.run("check", made))

    def ends(self, what: str, file: bytes, line: str) -> None:
        """`check` ends with this line, and prints what the second reading says."""
        status, out, err = self.run("check", file)
        self.same(what, ([line], b""), (out.decode().splitlines()[-1:], err))
        text, wanted = font_reading.report(file)
        check(f"{self.name}: {what}, by the second reading", (wanted, text) == (status, out.decode()), text, out)

    def last(self, file: bytes) -> str:
        """The last line of `check`."""
        return self.run("check", file)[1].decode().splitlines()[-1]

    def all_same(self, what: str, rows: Iterable[tuple[object, object, object]]) -> None:
        """Rows of a name, what is wanted and what is found."""
        rows = list(rows)
        odd = [row for row in rows if row[1] != row[2]]
        check(f"{self.name}: {what}, {len(rows)} rows", rows and not odd, *odd[:5])

    def form(self, file: bytes) -> list[str]:
        """The last line of `show`."""
        return self.run("show", file)[1].decode().splitlines()[-1:]


Example = Callable[[Tried], None]


def in_folder(example: Example) -> Case:
    """An example as a case, which tries the program in a folder."""
    def case(folder: str) -> None:
        example(Tried(folder, example.__name__))

    case.__name__, case.__doc__ = example.__name__, example.__doc__
    return case


def run_all(examples: Sequence[Example]) -> NoReturn:
    """Runs the examples that the command line names, or all: functions of the program over files, each in a folder of
    its own."""
    run_cases(list(map(in_folder, examples)))
