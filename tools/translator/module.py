"""Reads a module of LLVM as text."""
import re
from typing import Iterator, Mapping, NamedTuple, Union

from .errors import Refused
from .instructions import arguments, read_op, skip_facts
from .llvm import Function, Op, Value, sized
from .names import c_names
from .words import Words

LAYOUT = 'target datalayout = "e-m:e-p270:32:32-p271:32:32-p272:64:64-i64:64-i128:128-f80:128-n8:16:32:64-S128"'
# What a function is told of how it is called, in LLVM's words.
TOLD = "noinline", "cold", "alwaysinline"
# Calls that say something to LLVM alone.
SAYING = re.compile(r" +(?:tail )?call void @llvm\.(?:lifetime\.\w+\.p0|assume|experimental\.noalias\.scope\.decl)\(")
# What a block ends with.
ENDS = "br", "goto", "ret", "switch", "unreachable"
# Lines that say nothing of what a program does.
UNSAID = re.compile(r";.*|!.*|target .*|source_filename .*|")


class Constant(NamedTuple):
    """A constant: its bytes, and places whose addresses stand among them; and its alignment."""
    parts: list[Union[bytes, Value]]
    align: int


class Module:
    """What a module has: the functions that it defines, the names of those that it declares, and its constants."""

    def __init__(self, text: str) -> None:
        if LAYOUT not in text.split("\n"):
            raise Refused("translate a module of another layout")
        heads = re.findall(r'^define (internal )?.*?@(?:"([^"]*)"|([\w.$]+))\(', text, re.M)
        self.names = c_names({quoted or bare: internal != "" for internal, quoted, bare in heads})
        self.origins = {c_name: name for name, c_name in self.names.items()}
        told = re.findall(r"^attributes (#\d+) = \{(.*)\}$", text, re.M)
        self.told = {number: re.sub(r'"[^"]*"(="[^"]*")?', "", words).split() for number, words in told}
        self.functions: dict[str, Function] = {}
        self.declared: set[str] = set()
        self.constants: dict[str, Constant] = {}
        lines = iter(text.split("\n"))
        for line in lines:
            self.read(line, lines)

    def read(self, line: str, lines: Iterator[str]) -> None:
        """Reads what begins in a line."""
        if line.startswith("define "):
            function = self.read_function(line, lines)
            self.functions[function.name] = function
        elif line.startswith("declare "):
            self.declared.add(self.read_declared(Words(line, self.names, {})))
        elif line.startswith("@"):
            self.read_constant(Words(line, self.names, {}))
        elif not UNSAID.fullmatch(line) and not line.startswith("attributes #"):
            raise Refused(f"translate: {line[:200]}")

    def read_declared(self, words: Words) -> str:
        """The name of a function that is declared."""
        words.expect("declare")
        words.skip(frozenset({"dso_local"}))
        skip_facts(words)
        words.type()
        return words.global_name(words.next())

    def read_function(self, head: str, lines: Iterator[str]) -> Function:
        """Reads a function, whose first line is given."""
        words = Words(head, self.names, {})
        words.expect("define")
        internal = words.has("internal")
        words.skip(frozenset({"dso_local", "fastcc"}))
        skip_facts(words)
        result = words.type()
        name = words.global_name(words.next())
        args = arguments(words, exported=not internal)
        words.skip(frozenset({"local_unnamed_addr", "unnamed_addr"}))
        told = self.told.get(words.next(), []) if words.ahead().startswith("#") else []
        words.expect("{")
        words.end()
        blocks = self.read_blocks(lines, words.numbers)
        return Function(name, not internal, result, args, [word for word in told if word in TOLD], in_order(blocks))

    def read_blocks(self, lines: Iterator[str], numbers: dict[str, str]) -> dict[str, list[Op]]:
        """Reads the blocks of a function to its end."""
        ops: list[Op] = []
        blocks: dict[str, list[Op]] = {}
        for line in lines:
            if line == "}" and are_whole(blocks):
                return blocks
            found = re.match(r'(?:"([^"]*)"|([-\w.$]+)):', line)
            if found or not blocks:
                label = found[1] or found[2] if found else str(len(numbers))
                ops = blocks[numbers.setdefault(label, f"v{len(numbers)}")] = []
            if line and not found and not SAYING.match(line):
                ops.append(read_op(whole(line, lines), self.names, numbers))
        raise Refused("find the end of a function")

    def read_constant(self, words: Words) -> None:
        """Reads a constant."""
        name = words.global_name(words.next())
        words.expect("=", "private")
        words.skip(frozenset({"unnamed_addr"}))
        words.expect("constant")
        parts = read_parts(words)
        words.expect(",", "align")
        self.constants[name] = Constant(parts, words.number())
        words.end()


def are_whole(blocks: Mapping[str, list[Op]]) -> bool:
    """Whether there are blocks, each ends with what leads elsewhere, and all that they name are there."""
    named = {label for ops in blocks.values() for op in ops for label in op.labels}
    return blocks != {} and named <= set(blocks) and all(ops and ops[-1].code in ENDS for ops in blocks.values())


def whole(line: str, lines: Iterator[str]) -> str:
    """An instruction, of its first line and the next ones."""
    while line.endswith("[") or "[" in line and line[-1] != "]" and line.lstrip().startswith("switch "):
        line += " " + next(lines).strip()
    return line


def read_parts(words: Words) -> list[Union[bytes, Value]]:
    """Takes the type and the value of a constant: an array of numbers, or a struct of such and of pointers."""
    if not words.has("<", "{"):
        return [read_array(words, words.type())]
    kinds = [words.type()]
    while words.has(","):
        kinds.append(words.type())
    words.expect("}", ">", "<", "{")
    parts: list[Union[bytes, Value]] = []
    for at, kind in enumerate(kinds):
        if at:
            words.expect(",")
        if words.type() != kind:
            raise words.refuse()
        parts.append(words.value(kind) if kind == "ptr" else read_array(words, kind))
    words.expect("}", ">")
    return parts


def read_array(words: Words, kind: str) -> bytes:
    """Takes the value of an array of numbers, as bytes."""
    if kind[0] != "[":
        raise words.refuse()
    count, part = kind[1:-1].split(" x ")
    size = int(count) * sized(part)
    if words.has("zeroinitializer"):
        return bytes(size)
    if words.ahead().startswith('c"'):
        data = shown_bytes(words.next())
    else:
        words.expect("[")
        values = [words.typed()]
        while words.has(","):
            values.append(words.typed())
        words.expect("]")
        if any(value.code != "number" or value.type != part for value in values):
            raise words.refuse()
        data = b"".join(value.number.to_bytes(sized(part), "little") for value in values)
    if len(data) != size:
        raise words.refuse()
    return data


def shown_bytes(word: str) -> bytes:
    """The bytes of a string as LLVM shows it."""
    return re.sub(rb"\\(\\|[0-9A-F]{2})", lambda one: b"\\" if one[1] == b"\\" else bytes([int(one[1], 16)]),
                  word[2:-1].encode("latin-1"))


def in_order(blocks: Mapping[str, list[Op]]) -> dict[str, list[Op]]:
    """The blocks that are reached, each after all that every way to it goes through."""
    def following(label: str) -> Iterator[str]:
        last = blocks[label][-1]
        return reversed(last.labels if last.code in ("goto", "br", "switch") else ())

    first = next(iter(blocks))
    done, seen, path = [], {first}, [(first, following(first))]
    while path:
        label, left = path[-1]
        after = next((one for one in left if one not in seen), None)
        if after is None:
            done.append(label)
            path.pop()
        else:
            seen.add(after)
            path.append((after, following(after)))
    return {label: blocks[label] for label in reversed(done)}
