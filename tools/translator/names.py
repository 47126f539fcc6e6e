"""Names in C for the functions of a module."""
import hashlib
import re
from typing import Mapping

LONGEST = 64


def plain(name: str) -> str:
    """The words of a name, without those of its types, and the last ones of a long name."""
    made = re.sub(r"\W+", "_", name.split("::<")[0]).strip("_")
    return made if len(made) <= LONGEST else made[-LONGEST:].split("_", 1)[1]


def c_names(names: Mapping[str, bool]) -> dict[str, str]:
    """For each name its words, and where several have the same words as much of a hash as tells them apart. What is not
    internal keeps its name behind `own_`."""
    alike: dict[str, list[str]] = {}
    for name, internal in names.items():
        alike.setdefault(plain(name) if internal else f"own_{name}", []).append(name)
    made, taken = {}, set(alike)
    for words, those in sorted(alike.items()):
        for name in sorted(those):
            made[name] = words
            length = 4
            while len(those) > 1 and made[name] in taken:
                made[name] = f"{words}_{hashlib.sha256(name.encode()).hexdigest()[:length]}"
                length += 1
            taken.add(made[name])
    return made
