"""Work that is done side by side on the processors of the machine, each piece by a process of its own.

A pool of `concurrent.futures` would copy the fonts of each task to its process.
"""
from __future__ import annotations

import contextlib
import functools
import multiprocessing
import os
import signal
import sys
from multiprocessing.connection import Connection, wait
from typing import Any, Callable, Dict, Iterator, List, Sequence, TypeVar

Answer = TypeVar("Answer")


def processors() -> int:
    """How many processes are at work at a time: one where a process cannot begin with what this one has in memory, as
    on Windows, or not safely, as on macOS."""
    if "fork" not in multiprocessing.get_all_start_methods() or sys.platform == "darwin":
        return 1
    return len(os.sched_getaffinity(0)) if hasattr(os, "sched_getaffinity") else os.cpu_count() or 1


def _answer(task: Callable[[], object], to: Connection) -> None:
    """Sends what a task answers, or the error that it raises."""
    # The process that waits for the answer is interrupted, and ends this one.
    signal.signal(signal.SIGINT, signal.SIG_IGN)
    sent: Dict[str, object] = {}
    try:
        sent["answer"] = task()
    except Exception as error:
        sent["error"] = error
    # Where nobody waits for it any more, there is nothing to do.
    with contextlib.suppress(BrokenPipeError):
        to.send(sent)


def _received(received: Connection) -> Any:
    """What a process sent. One that was killed sends nothing, as where memory is short."""
    try:
        sent = received.recv()
    except EOFError as error:
        raise MemoryError from error
    if "error" in sent:
        raise sent["error"]
    return sent["answer"]


def in_groups(tasks: Sequence[Callable[[], Answer]]) -> List[Answer]:
    """What each of the tasks answers, which are many and short: a process has a group of them."""
    count = min(processors(), len(tasks))
    parts = [tasks[first::count] for first in range(count)]
    found = side_by_side([functools.partial(_answers, part) for part in parts])
    return [found[number % count][number // count] for number in range(len(tasks))]


def _answers(tasks: Sequence[Callable[[], Answer]]) -> List[Answer]:
    return [task() for task in tasks]


def side_by_side(tasks: Sequence[Callable[[], Answer]]) -> List[Answer]:
    """What each of the tasks answers. The first error that comes ends all of them."""
    return list(one_by_one(tasks, len(tasks)))


def one_by_one(tasks: Sequence[Callable[[], Answer]], most: int) -> Iterator[Answer]:
    """What each of the tasks answers, in their order, with at most so many answers in memory, while others are at work.
    The first error that comes ends all of them."""
    count = processors()
    if min(count, len(tasks)) < 2:
        yield from (task() for task in tasks)
        return
    found: Dict[int, Answer] = {}
    running: Dict[Any, int] = {}
    begun = 0
    try:
        for number in range(len(tasks)):
            while number not in found:
                while len(running) < count and begun < min(len(tasks), number + most):
                    running[_begun(tasks[begun])] = begun
                    begun += 1
                for one in wait(list(running)):
                    found[running.pop(one)] = _received(one)  # type: ignore[arg-type]
            yield found.pop(number)
    finally:
        for process in multiprocessing.active_children():
            process.terminate()
            process.join()


def _begun(task: Callable[[], object]) -> Connection:
    """Begins a process for a task, and returns where its answer comes from."""
    context = multiprocessing.get_context("fork")
    received, to = context.Pipe(duplex=False)
    context.Process(target=_answer, args=(task, to), daemon=True).start()
    to.close()
    return received
