"""The rows of the table of refusals, include/refusals.txt."""
import os
import re
from typing import NamedTuple

from checks import TOP


class Refusal(NamedTuple):
    """A row. `names` is what an answer names, and `is_status` whether the library answers the refusal at all."""

    number: int
    name: str
    names: str
    text: str
    is_status: bool


def refusals() -> list[Refusal]:
    """Each refusal, in the order of the table."""
    with open(os.path.join(TOP, "include", "refusals.txt"), encoding="utf-8") as opened:
        rows = re.findall(r"^(\d+) +(\w+) +(\w+) +(.+)\n((?: .*\n)*)", opened.read(), re.M)
    return [Refusal(int(number), name, names, text, " header: " in fields)
            for number, name, names, text, fields in rows]
