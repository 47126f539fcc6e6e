"""What scripts share that list what the sources have: texts, the crates, and printing a list."""
from __future__ import annotations

import os
import re
import sys
from typing import Callable, List, Optional

TOP = os.path.dirname(os.path.dirname(os.path.abspath(__file__)))


def text_of(*names: str) -> str:
    """The text of a file of the checkout."""
    with open(os.path.join(TOP, *names), encoding="utf-8") as opened:
        return opened.read()


def crates() -> List[str]:
    """The names of the crates, the lowest first."""
    return re.findall(r"^(\w+)[^:#\n]*:", text_of("crates.txt"), re.M)


def give(written: Callable[[], str], usage: Optional[str]) -> None:
    """Prints the list that the function returns, with the word --print, or writes it to the file that is named. Any
    other line is refused with the usage."""
    if len(sys.argv) != 2 or sys.argv[1].startswith("-") and sys.argv[1] != "--print":
        sys.exit(usage)
    if sys.argv[1] == "--print":
        sys.stdout.write(written())
    else:
        with open(sys.argv[1], "w", encoding="utf-8") as out:
            out.write(written())
