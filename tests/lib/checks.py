"""What the test scripts share: running cases and the program, counting checks, files, Debian's fonts."""
import atexit
import inspect
import json
import os
import re
import shutil
import subprocess
import sys
import tempfile
from concurrent.futures import ProcessPoolExecutor
from functools import cache, partial
from typing import Any, Callable, Iterable, Mapping, NoReturn, Optional, Sequence, TypeVar, Union

# What a program that was run answers: its status, standard output and standard error.
Ran = tuple[int, bytes, bytes]
# A function that makes checks. It may take a folder that is its own.
Case = Union[Callable[[], None], Callable[[str], None]]
Item = TypeVar("Item")
Answer = TypeVar("Answer")
TOP = os.path.dirname(os.path.dirname(os.path.dirname(os.path.abspath(__file__))))
FONTCUT = os.path.join(TOP, "fontcut")
# Where the program is that was proved here, and where the one that was compiled from gen/.
PROVED = os.path.join(TOP, "crates", "fontcut", "out")
COMPILED = os.path.join(TOP, "gen", "out", re.sub(r"[^A-Za-z0-9._+-]", "_", os.environ.get("CC") or "cc"))
# FONTCUT_BUILD says which of both is tested: `proved` or `generated`; otherwise the proved one, if there is one.
IS_GENERATED = os.environ.get("FONTCUT_BUILD") == "generated" or (
    not os.environ.get("FONTCUT_BUILD") and not os.path.exists(os.path.join(PROVED, "bin", "fontcut")))
PROGRAM = os.path.join(COMPILED if IS_GENERATED else PROVED, "bin", "fontcut")
# The same code, linked with the C library of the machine: a library can stand before that.
DYNAMIC = os.path.join(COMPILED if IS_GENERATED else PROVED, "fontcut")

# Debian's own Python sees what Debian's packages bring; another one may come first on PATH.
PYTHON = "/usr/bin/python3"
FONTCUT_WEB = os.path.join(TOP, "bindings", "python", "fontcut-web")

DEJAVU = "/usr/share/fonts/truetype/dejavu"  # Debian's package fonts-dejavu-core
LIBERATION = "/usr/share/fonts/truetype/liberation2"  # Debian's package fonts-liberation2
BABELSTONE = "/usr/share/fonts/truetype/babelstone"  # Debian's package fonts-babelstone-han
HANAZONO = "/usr/share/fonts/truetype/hanazono"  # Debian's package fonts-hanazono
BIZUD = "/usr/share/fonts/truetype/bizud-gothic"  # Debian's package fonts-morisawa-bizud-gothic
IPAEX = "/usr/share/fonts/opentype/ipaexfont-gothic"  # Debian's package fonts-ipaexfont-gothic
VLGOTHIC = "/usr/share/fonts/truetype/vlgothic"  # Debian's package fonts-vlgothic
FREEFONT = "/usr/share/fonts/truetype/freefont"  # Debian's package fonts-freefont-ttf
NOTO = "/usr/share/fonts/truetype/noto"  # Debian's package fonts-noto-core
KARLA = "/usr/share/fonts/truetype/karla-variable"  # Debian's package fonts-karla
INTER = "/usr/share/fonts/truetype/inter-vf"  # Debian's package fonts-inter-variable

MANUAL = os.path.join(TOP, "docs", "fontcut.1")
COMPLETION = os.path.join(TOP, "completion", "fontcut.bash")
COMPLETIONS = {"bash": COMPLETION, "zsh": os.path.join(TOP, "completion", "_fontcut"),
               "fish": os.path.join(TOP, "completion", "fontcut.fish")}

PDF_MANUAL = os.path.join(TOP, "docs", "fontcut-pdf.1")
PDF_COMPLETION = os.path.join(TOP, "completion", "fontcut-pdf.bash")
WEB_MANUAL = os.path.join(TOP, "docs", "fontcut-web.1")
WEB_COMPLETION = os.path.join(TOP, "completion", "fontcut-web.bash")

with open(os.path.join(TOP, "VERSION"), encoding="ascii") as opened:
    VERSION = opened.read().strip()

# No words of a line, beside lists of words.
NO_WORDS: list[str] = []

# What the program answers where it is done, and has nothing to print.
DONE = (0, b"", b"")

FONTS = {
    DEJAVU: ("fonts-dejavu-core", """
        DejaVuSans DejaVuSans-Bold DejaVuSansMono DejaVuSansMono-Bold DejaVuSerif DejaVuSerif-Bold"""),
    LIBERATION: ("fonts-liberation2", """
        LiberationMono-Bold LiberationMono-BoldItalic LiberationMono-Italic LiberationMono-Regular
        LiberationSans-Bold LiberationSans-BoldItalic LiberationSans-Italic LiberationSans-Regular
        LiberationSerif-Bold LiberationSerif-BoldItalic LiberationSerif-Italic LiberationSerif-Regular"""),
}

# Prints by fontTools what `show` prints of each font: its numbers, the subtable that its mapping is read
# from, how many codes that maps, and the tags and lengths of its tables in order of tag, which is that of the
# records in these fonts; fontTools has them by their offsets. At last whether it can be a cut, which has two
# records.
SHOWN = """
import json, sys
from fontTools.ttLib import TTFont
def subtable_of(font):
    for pair in (3, 10), (0, 4), (3, 1), (0, 3):
        for table in font["cmap"].tables:
            if (table.platformID, table.platEncID) == pair and table.format in (4, 12):
                return table
def shown(path):
    font = TTFont(path, lazy=True)
    form = ("short", "long")[font["head"].indexToLocFormat]
    table = subtable_of(font)
    codes = sum(font.getGlyphID(name) != 0 for name in table.cmap.values())
    tables = [[tag, entry.length] for tag, entry in sorted(font.reader.tables.items())]
    is_cut = [(it.platformID, it.platEncID) for it in font["cmap"].tables] == [(0, 4), (3, 10)]
    return [font["maxp"].numGlyphs, font["head"].unitsPerEm, form, font["hhea"].numberOfHMetrics,
            [table.platformID, table.platEncID, table.format], codes, tables, "yes" if is_cut else "no"]
print(json.dumps([shown(path) for path in sys.argv[1:]]))
"""

# Chinese characters: 22 to 51 MB, 52,008 to 64,833 glyphs.
LARGE_FONTS = {
    BABELSTONE: ("fonts-babelstone-han", "BabelStoneHan"),
    HANAZONO: ("fonts-hanazono", "HanaMinA HanaMinB"),
}

counts = {"passed": 0, "failed": 0, "skipped": 0}


def check(name: str, holds: object, *details: object) -> None:
    """Counts a check, and says more only where it fails."""
    counts["passed" if holds else "failed"] += 1
    print("ok" if holds else "FAILED", name, flush=True)
    if not holds:
        for detail in details:
            print("   ", detail, flush=True)


def skip(name: str, why: str) -> None:
    counts["skipped"] += 1
    print(f"skipped {name}: {why}", flush=True)


def counted(task: Callable[[Item], Answer], item: Item) -> tuple[Answer, dict[str, int]]:
    """Runs a task for an item, and returns its answer, and how many checks of each kind it made."""
    before = dict(counts)
    answer = task(item)
    return answer, {kind: count - before[kind] for kind, count in counts.items()}


def spread(task: Callable[[Item], Answer], items: Iterable[Item]) -> list[Answer]:
    """Runs a task for each item in as many processes as this one has processors, and counts their checks here. Returns
    the answers, in order of the items."""
    answers = []
    with ProcessPoolExecutor(len(os.sched_getaffinity(0))) as workers:
        for answer, made in workers.map(partial(counted, task), items):
            answers.append(answer)
            for kind, count in made.items():
                counts[kind] += count
    return answers


def end() -> NoReturn:
    """Prints the line that ./test adds up, and ends the script."""
    line = f"{counts['passed']} passed, {counts['failed']} failed"
    if counts["skipped"]:
        line += f", {counts['skipped']} skipped"
    print(line)
    sys.exit(1 if counts["failed"] else 0)


def skip_all(name: str, why: str) -> NoReturn:
    """Skips all that the script checks, and ends it."""
    skip(name, why)
    end()


def described(case: Case) -> str:
    """The first sentence of a case's docstring, in one line."""
    return " ".join((inspect.getdoc(case) or "").partition("\n\n")[0].split()).partition(". ")[0].rstrip(".")


def chosen(cases: Sequence[Case], words: Sequence[str]) -> list[Case]:
    """The cases that words name, in their own order, and all of them where there is no word. With the word `--list` the
    script prints their names and ends here, and with a name of no case it says so and ends with the status 2."""
    names = [case.__name__ for case in cases]
    if "--list" in words:
        for case in cases:
            print(f"{case.__name__:{max(map(len, names))}}  {described(case)}".rstrip())
        sys.exit(0)
    for word in words:
        if word not in names:
            print(f"{os.path.basename(sys.argv[0])}: there is no case {word}: --list names them", file=sys.stderr)
            sys.exit(2)
    return [case for case in cases if not words or case.__name__ in words]


def run_cases(cases: Sequence[Case], before: Optional[Callable[[], object]] = None,
              fill: Optional[Callable[[str], object]] = None, words: Optional[Sequence[str]] = None,
              ignore_cleanup_errors: bool = False) -> NoReturn:
    """Runs the cases that the words of the command line name, or all of them, and ends the script. `before` runs first:
    it builds the program, where nothing else is said. A case is named as its function is, and can run alone. Where it
    takes a folder, that is a new one, which `fill` has put files into."""
    to_run = chosen(cases, sys.argv[1:] if words is None else words)
    (before or built)()
    for case in to_run:
        if inspect.signature(case).parameters:
            with tempfile.TemporaryDirectory(ignore_cleanup_errors=ignore_cleanup_errors) as folder:
                if fill:
                    fill(folder)
                case(folder)  # type: ignore[call-arg] # it takes one, by its signature
        else:
            case()  # type: ignore[call-arg] # it takes none
    end()


@cache
def room() -> str:
    """A folder for what several cases use, which is removed when the script ends."""
    folder = tempfile.TemporaryDirectory(ignore_cleanup_errors=True)
    atexit.register(folder.cleanup)
    return folder.name


def nothing() -> None:
    """What runs before cases that need no program."""


def built() -> None:
    """Builds the program where it is not built yet; where that fails, or where another program than PROGRAM is the
    current one, the script ends here."""
    ran = subprocess.run([os.path.join(TOP, "tools", "program")], stdin=subprocess.DEVNULL, stdout=subprocess.PIPE,
                         text=True, check=False)
    if ran.returncode or ran.stdout.strip() != PROGRAM:
        check("the program is built", False, f"tools/program has the status {ran.returncode} and prints {ran.stdout}",
              f"{PROGRAM} is to be tested: FONTCUT_BUILD is `proved` or `generated` to choose")
        end()


def built_library(*words: str) -> list[str]:
    """Builds the library for C where it is not built yet, which takes minutes, and returns the paths of the static one,
    the shared one, and with the word `both`, if it was proved here, the static one by the other compiler. Where it
    cannot be built, the script ends here."""
    ran = subprocess.run([os.path.join(TOP, "bindings", "c", "build"), *words], stdin=subprocess.DEVNULL,
                         capture_output=True, text=True)
    if ran.returncode:
        check("the library is built", False, ran.stderr)
        end()
    return ran.stdout.splitlines()


def built_package() -> str:
    """Builds the package for browsers and node where it is not built yet, and returns its folder. Where it cannot be
    built, the script ends here."""
    status, told, err = run(os.path.join(TOP, "bindings", "web", "build"), timeout=1500)
    check("the package for browsers is built", status == 0, err.decode())
    if status:
        end()
    return os.path.dirname(told.decode().strip())


def run(*words: Union[str, bytes], **how: Any) -> Ran:
    """Runs a program, as `subprocess.run` is told. After minutes it is taken for stuck, on a busy machine too."""
    how = {"stdin": subprocess.DEVNULL, "timeout": 300, **how}
    ran: subprocess.CompletedProcess[bytes] = subprocess.run(words, capture_output=True, check=False, **how)
    return ran.returncode, ran.stdout, ran.stderr


def without_progress(ran: Ran) -> Ran:
    """What a program did, without the lines in which a long command says on standard error what it works at."""
    return ran[0], ran[1], b"".join(line for line in ran[2].splitlines(True) if not line.endswith(b" ..\n"))


def fontcut(*words: str, **how: Any) -> Ran:
    return run(FONTCUT, *words, **how)


def quiet(*words: str, program: str = PROGRAM, **how: Any) -> Ran:
    """Runs the program so that it says the first lines of its messages alone."""
    return run(program, *words[:1], "--quiet", *words[1:], **how)


def same(name: str, wanted: object, found: object) -> None:
    check(name, wanted == found, f"wanted {wanted}", f"found  {found}")


def found_in(text: str, pattern: str, flags: int = 0) -> re.Match[str]:
    """Where a pattern fits a text that has such a place."""
    found = re.search(pattern, text, flags)
    assert found, f"{pattern} fits nothing in {text[:200]}"
    return found


def put(path: str, data: bytes) -> None:
    """Makes a file of these bytes; where there is one it is emptied first."""
    with open(path, "wb") as out:
        out.write(data)


def read(path: str) -> bytes:
    """What a file holds that is there."""
    with open(path, "rb") as opened:
        return opened.read()


def held(path: str) -> Optional[bytes]:
    """What a file holds, or None where there is none."""
    return read(path) if os.path.exists(path) else None


def files_below(folder: str) -> list[str]:
    """The paths below a folder of all that is no folder."""
    paths = [os.path.join(at, name) for at, _, names in os.walk(folder) for name in names]
    return sorted(os.path.relpath(path, folder) for path in paths)


def difference(wanted: Optional[Sequence[object]], found: Optional[Sequence[object]]) -> str:
    """Where two files differ first, for they are too long to be shown. None is no file."""
    if wanted is None or found is None:
        return f"{'no file' if wanted is None else 'a file'} is wanted, {'none' if found is None else 'one'} is there"
    at = next((at for at, pair in enumerate(zip(wanted, found)) if pair[0] != pair[1]), min(len(wanted), len(found)))
    return f"{len(wanted)} bytes are wanted, {len(found)} were written; the first {at} agree"


def same_bytes(name: str, wanted: Optional[Sequence[object]], found: Optional[Sequence[object]]) -> None:
    """Checks that two files are one, byte for byte."""
    check(name, wanted == found, difference(wanted, found))


def real_fonts(fonts: Optional[Mapping[str, tuple[str, str]]] = None) -> list[str]:
    """The paths of Debian's fonts; a font that is not installed is skipped."""
    paths = []
    for folder, (package, names) in (fonts or FONTS).items():
        for name in names.split():
            path = f"{folder}/{name}.ttf"
            if os.path.exists(path):
                paths.append(path)
            else:
                skip(f"{name}.ttf", f"Debian's package {package} is not installed")
    return paths


def sanitized(name: str, path: str) -> None:
    """Checks that ots-sanitize accepts a font."""
    if shutil.which("ots-sanitize"):
        status, _, said = run("ots-sanitize", path, os.devnull)
        check(f"{name}: ots-sanitize", status == 0, said.decode())
    else:
        skip(f"{name}: ots-sanitize", "Debian's package opentype-sanitizer is not installed")


def installed_wheel(folder: str, known: Mapping[str, str]) -> bool:
    """Builds the wheel of the module for Python, and installs it into two environments in a folder: `bare`, and `full`,
    which has the modules of the system. Returns whether Python can make such environments."""
    made = os.path.join(folder, "wheel")
    os.mkdir(made)
    status, _, err = run(PYTHON, "-c", "import build_wheel, sys; build_wheel.build_wheel(sys.argv[1])", made,
                         cwd=os.path.join(TOP, "bindings", "python"), env=known)
    check("the wheel is built", status == 0, err)
    for name, words in (("bare", NO_WORDS), ("full", ["--system-site-packages"])):
        place = os.path.join(folder, name)
        if run(PYTHON, "-m", "venv", *words, place)[0]:
            skip("the wheel by pip", "Debian's package python3-venv is not installed")
            return False
        status, _, err = run(f"{place}/bin/python", "-m", "pip", "install", "-q", "--no-index", "--no-deps",
                             f"{made}/{os.listdir(made)[0]}", env=known)
        check(f"the wheel is installed, {name}", status == 0, err)
    return True


def by_fonttools(code: str, paths: Sequence[str]) -> Optional[list[Any]]:
    """The list that the code, which uses fontTools, prints of the paths as JSON, or None where no Python has that."""
    for python in (sys.executable, "/usr/bin/python3"):
        ran = subprocess.run([python, "-c", code, *paths], capture_output=True, check=False)
        if ran.returncode == 0:
            told: list[Any] = json.loads(ran.stdout)
            return told
        if b"No module named" not in ran.stderr:
            check("fontTools reads the fonts", False, ran.stderr.decode())
    return None
