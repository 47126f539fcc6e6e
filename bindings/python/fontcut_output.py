"""What the commands `fontcut-pdf` and `fontcut-web` share: command lines whose options stand anywhere, files that are
replaced when they are complete, or not at all, lines on standard output, and a line on a terminal that says how far a
command is."""
from __future__ import annotations

import argparse
import contextlib
import difflib
import errno
import os
import shutil
import sys
import tempfile
import time
from typing import Any, Dict, List, Mapping, Sequence, Set

import fontcut

# What files of fonts begin with (OpenType 1.9, Organization of an OpenType Font).
_FONTS = b"\0\1\0\0", b"OTTO", b"true", b"ttcf"


class CommandParser(argparse.ArgumentParser):
    """Reads the words of a command. Options may stand between files, which Python reads so where it is asked to."""

    _is_mixed = False

    def __init__(self, *words: Any, **named: Any):
        # An abbreviation of one option may be meant for another one.
        named["allow_abbrev"] = False
        super().__init__(*words, **named)
        self.others: Dict[str, List[str]] = {}

    def parse_known_args(self, args: Any = None, namespace: Any = None) -> Any:
        """Reads the words, as `argparse` does with options and files in any order."""
        if self._is_mixed:
            return super().parse_known_args(args, namespace)
        self._is_mixed = True
        try:
            found, others = self.parse_known_intermixed_args(args, namespace)
        finally:
            self._is_mixed = False
        self._check_options(others)
        return found, others

    def _check_options(self, words: Sequence[str]) -> None:
        """Ends with an error for a word that is near to an option, and names that."""
        for word in (word.partition("=")[0] for word in words if word.startswith("--")):
            if word in self.others:
                self.error(f"{word} is an option of {', '.join(self.others[word])}, not of {self.prog}")
            for near in difflib.get_close_matches(word, self._option_string_actions, 1, 0.75):
                self.error(f"there is no option {word}: did you mean {near}?")
            self.error(f"there is no option {word}")


def tell_of_others(commands: Mapping[str, CommandParser]) -> None:
    """Lets each command say which others have an option that it lacks."""
    for one in commands.values():
        for other in commands.values():
            for option in other._option_string_actions:
                if option not in one._option_string_actions:
                    one.others.setdefault(option, []).append(other.prog)


def write(path: str, data: bytes) -> None:
    """Replaces a file by bytes, when all of them are written. An error names the file."""
    try:
        if os.path.exists(path) and not os.path.isfile(path):
            # A device and a pipe stay what they are, and a folder raises an error.
            with open(path, "wb") as out:
                out.write(data)
        else:
            _replace(os.path.realpath(path), data)
    except OSError as error:
        raise OSError(error.errno, error.strerror, path) from error


def _replace(path: str, data: bytes) -> None:
    handle, new = tempfile.mkstemp(prefix=".fontcut-", dir=os.path.dirname(path))
    try:
        with os.fdopen(handle, "wb") as out:
            out.write(data)
        if os.path.exists(path):
            shutil.copymode(path, new)
        else:
            mask = os.umask(0)
            os.umask(mask)
            os.chmod(new, 0o666 & ~mask)
        os.replace(new, path)
    except BaseException:
        # An interrupt may come when the new file has just taken its place.
        with contextlib.suppress(FileNotFoundError):
            os.unlink(new)
        raise


def read(path: str) -> bytes:
    """The bytes of a file."""
    with open(path, "rb") as file:
        return file.read()


def is_whole_font(path: str) -> bool:
    """Whether a file has a font that is no cut, which nothing else makes again. One that fontcut refuses is one, too.
    Raises `OSError` for a file that cannot be read, for then it may be one."""
    data = read(path) if os.path.isfile(path) else b""
    try:
        return data[:4] in _FONTS and fontcut.form(data) is fontcut.Form.NO_CUT
    except fontcut.Refused:
        return True


def print_line(line: str) -> None:
    """Prints a line at once, the bytes of a path that are no text as `\\udcff`. Raises `OSError` where that fails."""
    if sys.stdout is None:  # it was closed when Python began
        raise OSError(errno.EBADF, os.strerror(errno.EBADF), "standard output")
    encoding = sys.stdout.encoding or "utf-8"
    try:
        print(line.encode(encoding, "backslashreplace").decode(encoding), flush=True)
    except OSError as error:
        # Python would try it again when it ends, and say so.
        with open(os.devnull, "wb") as nowhere:
            os.dup2(nowhere.fileno(), sys.stdout.fileno())
        raise OSError(error.errno, error.strerror, "standard output") from error


def reason(error: OSError) -> str:
    """What an error of the system says, with the file that it is about."""
    return str(error) if error.filename is None else f"{error.filename or repr('')}: {error.strerror}"


class Progress:
    """Says on a terminal how far a long command is, in one line that it takes away at the end. Elsewhere it says of
    each thing that it works on when it comes to it, in a line, if the command has taken `LONG` seconds by then and is
    not asked to be quiet."""

    LONG = 60

    def __init__(self, command: str, is_quiet: bool = False) -> None:
        self.command, self.is_quiet = command, is_quiet
        self.is_shown = sys.stderr is not None and sys.stderr.isatty()
        self.began = time.monotonic()
        self.told: Set[str] = set()

    def say(self, text: str, thing: str = "") -> None:
        """Says how far the command is, with the thing that it works on, if that is told where no terminal is."""
        if self.is_shown:
            before = f"{thing}: " if thing else ""
            print(f"\r\x1b[K{self.command}: {before}{text}", end="", file=sys.stderr, flush=True)
        elif thing and not self.is_quiet and thing not in self.told and time.monotonic() - self.began >= self.LONG:
            self.told.add(thing)
            print(f"{self.command}: {thing}: {text} ..", file=sys.stderr, flush=True)

    def __enter__(self) -> Progress:
        return self

    def __exit__(self, *_: object) -> None:
        if self.is_shown:
            print("\r\x1b[K", end="", file=sys.stderr, flush=True)
