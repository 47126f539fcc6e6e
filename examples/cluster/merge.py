#!/usr/bin/env python3
"""Joins cuts of one font on the workers of a Dask cluster:

    merge.py [--lean | --layout | --variable] [--group N] SCHEDULER OUT CUTS..

A task reads and joins at most N files, or joins the results of at most N tasks, until one join is left. Workers
find each file at the same path as this machine. OUT is replaced atomically, and keeps its mode; a link is followed,
and a device or a pipe is written to directly. Exit status, as of `fontcut join`: 0 done; 1 refused, or out of memory;
2 usage error; 3 a file cannot be read or written, or the cluster does not answer.
"""
import argparse
import functools
import logging
import os
import shutil
import sys
import tempfile
from concurrent.futures import CancelledError
from typing import Callable, List, NamedTuple, Sequence, Tuple, TypeVar, Union

import fontcut
from distributed import Client, Future

# What a task gives back: a cut, or the status and the text of why there is none. Where several tasks have
# none, the first in the order of CUTS is passed on; of exceptions it would be whichever came first.
Part = Union[bytes, Tuple[int, str]]
Item = TypeVar("Item")


class Node(NamedTuple):
    """A task of the tree: the first and the last of its files, and what it will give back."""

    first: str
    last: str
    part: Future

    def name(self) -> str:
        return self.first if self.first == self.last else f"{self.first} to {self.last}"


def join_parts(names: Sequence[str], parts: Sequence[Part], kind: str) -> Part:
    """The join of parts of a kind, or the first of them that is no cut. The names say of which files each is made."""
    for part in parts:
        if not isinstance(part, bytes):
            return part
    try:
        return fontcut.join([part for part in parts if isinstance(part, bytes)], kind=kind)
    except fontcut.Refused as refused:
        return 1, f"{names[refused.file or 0]}: refused {refused.number} {refused.text}"
    except MemoryError:
        return 1, "no memory"


def read(path: str) -> Part:
    try:
        with open(path, "rb") as file:
            return file.read()
    except OSError as error:
        return 3, f"cannot read {path}: {error.strerror}"
    except MemoryError:
        return 1, "no memory"


def join_files(paths: Sequence[str], kind: str) -> Part:
    """The join of files, which the worker reads."""
    return join_parts(paths, [read(path) for path in paths], kind)


def grouped(items: Sequence[Item], size: int) -> List[Sequence[Item]]:
    return [items[at:at + size] for at in range(0, len(items), size)]


def merged(submit: Callable[..., Future], paths: Sequence[str], kind: str, size: int) -> Future:
    """What the last task of a tree gives back, the part of all files. Each task is handed to `submit`."""
    nodes = [Node(some[0], some[-1], submit(join_files, some, kind)) for some in grouped(paths, size)]
    while len(nodes) > 1:
        nodes = [Node(some[0].first, some[-1].last,
                      submit(join_parts, [node.name() for node in some], [node.part for node in some], kind))
                 for some in grouped(nodes, size)]
    return nodes[0].part


def write(path: str, data: bytes) -> None:
    with open(path, "wb") as file:
        file.write(data)


def replace(out: str, data: bytes) -> None:
    """Gives OUT these bytes: a file beside it takes its name when all of them are written. In the place of a device no
    file may stand, so it is written to."""
    if os.path.exists(out) and not os.path.isfile(out):
        write(out, data)
        return
    path = os.path.realpath(out)
    with tempfile.TemporaryDirectory(prefix=".merge-", dir=os.path.dirname(path)) as beside:
        made = os.path.join(beside, "made")
        write(made, data)
        if os.path.exists(path):
            shutil.copymode(path, made)
        os.replace(made, path)


def connected(scheduler: str) -> Client:
    """A client of the scheduler."""
    # Or Dask and asyncio write to standard error what they try when the scheduler is gone, and what was not waited for
    # when a client was closed. What matters is said by `main`.
    logging.disable()
    return Client(scheduler, set_as_default=False)


def parsed() -> argparse.Namespace:
    parser = argparse.ArgumentParser(prog="merge.py", fromfile_prefix_chars="@")
    kinds = parser.add_mutually_exclusive_group()
    for kind in "lean", "layout", "variable":
        kinds.add_argument(f"--{kind}", dest="kind", action="store_const", const=kind, help=f"CUTS are {kind} cuts")
    parser.set_defaults(kind="full")
    parser.add_argument("--group", type=int, default=50, help="how many cuts a task joins at most: 2 or more")
    parser.add_argument("scheduler", metavar="SCHEDULER", help="its address, such as tcp://10.0.0.1:8786")
    parser.add_argument("out", metavar="OUT")
    parser.add_argument("cuts", metavar="CUTS", nargs="+", help="@LIST stands for the lines of the file LIST")
    words = parser.parse_args()
    if words.group < 2:
        parser.error("a task joins 2 cuts or more")
    return words


def main() -> int:
    words = parsed()
    paths = [os.path.abspath(path) for path in words.cuts]
    try:
        with connected(words.scheduler) as client:
            # A file may have changed since the last run, so no task is taken for one of an earlier run.
            submit = functools.partial(client.submit, pure=False)
            part: Part = merged(submit, paths, words.kind, words.group).result()
        if isinstance(part, bytes):
            replace(words.out, part)
            return 0
        status, text = part
    except CancelledError:
        status, text = 3, f"the scheduler {words.scheduler} has ended, or lost the connection"
    except Exception as error:  # of this system, or one of the cluster's own
        status, text = 3, f"{type(error).__name__}: {error}"
    print("merge.py:", text.replace("\n", " "), file=sys.stderr)
    return status


if __name__ == "__main__":
    sys.exit(main())
