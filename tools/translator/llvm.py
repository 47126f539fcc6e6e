"""The types, values, instructions and functions of LLVM, as they are read."""
import re
from dataclasses import dataclass, field
from typing import Iterator, NamedTuple

from .errors import Refused

# How many bytes a type takes in memory, which is also its alignment.
SIZES = {"i8": 1, "i16": 2, "i32": 4, "i64": 8, "double": 8, "ptr": 8, "i128": 16}
VECTOR = re.compile(r"<(2|4|8|16|64) x i(1|8|16|32|64)>")


class Value(NamedTuple):
    """An operand. Its code says what it is:

    local   what has the name in this function
    global  the address of the constant or the function of the name, and a number of bytes after it
    number  a number; null, and what has any value, is 0; in a vector each number is 0
    double  a number with a fraction, as LLVM writes it
    difference  of two such operands
    parts   a struct or a vector of such parts
    """
    type: str
    code: str
    name: str = ""
    number: int = 0
    parts: tuple["Value", ...] = ()


@dataclass
class Op:
    """An instruction: its code, the name and the type of its result, and its operands. What a call calls is its last
    operand. Labels are where a branch leads, or where a phi is reached from. `how` says which comparison it is, or
    which type an alloca has. The number is an alignment, or which field of a struct is meant."""
    code: str
    name: str = ""
    type: str = "void"
    args: list[Value] = field(default_factory=list)
    labels: tuple[str, ...] = ()
    how: str = ""
    number: int = 0


@dataclass
class Function:
    """A function that is defined: its arguments, what it is told of how it is called, and for each label a block."""
    name: str
    exported: bool
    result: str
    args: list[Value]
    told: list[str]
    blocks: dict[str, list[Op]]

    def ops(self) -> Iterator[Op]:
        """All its instructions."""
        return (op for ops in self.blocks.values() for op in ops)

    def globals(self) -> list[str]:
        """The constants and functions that it names, each once."""
        return list(dict.fromkeys(name for op in self.ops() for value in op.args for name in globals_of(value)))


def globals_of(value: Value) -> Iterator[str]:
    """The constants and functions that a value names."""
    if value.code == "global":
        yield value.name
    for part in value.parts:
        yield from globals_of(part)


def fields(kind: str) -> list[str]:
    """The types of a struct's fields, or of what is no struct the type itself."""
    return kind[2:-2].split(", ") if kind[0] == "{" else [kind]


def bits_of(kind: str) -> int:
    """How many bits a number or a pointer has."""
    return 64 if kind == "ptr" else int(kind[1:])


def align_of(kind: str) -> int:
    """The alignment of a type."""
    return max(sized(part) for part in fields(kind))


def size_of(kind: str) -> int:
    """How many bytes a place takes that an alloca makes."""
    if kind[0] == "[":
        count, part = kind[1:-1].split(" x ")
        return int(count) * sized(part)
    at = 0
    for part in fields(kind):
        at = rounded(at, sized(part)) + sized(part)
    return rounded(at, align_of(kind))


def rounded(size: int, to: int) -> int:
    """The next multiple."""
    return -(-size // to) * to


def sized(kind: str) -> int:
    """The size of a type that is no struct."""
    if kind[0] == "<" and " i1>" not in kind:
        return lanes(kind)[0] * lanes(kind)[1] // 8
    if kind not in SIZES:
        raise Refused(f"keep {kind} in memory")
    return SIZES[kind]


def lanes(kind: str) -> tuple[int, int]:
    """How many numbers a vector has, and of how many bits."""
    found = VECTOR.fullmatch(kind)
    if not found:
        raise Refused(f"take {kind} for a vector")
    return int(found[1]), int(found[2])
