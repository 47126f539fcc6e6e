"""Writes the body of a function in C."""
import re
from typing import Iterable, NamedTuple, Protocol

from .c_types import BYTES, Types, declared
from .calls import copying, intrinsic
from .errors import Refused
from .expressions import Expression, Expressions, joined, literal, named
from .llvm import Function, Op, Value, fields, lanes, size_of
from .vectors import REPEATED, is_of_vectors, of_vectors

# As in what the kit compiles, what is never reached is a trap.
UNREACHABLE = "__builtin_trap();"
# The name of a local value.
NAME = re.compile(r"\bv\d+\b")
# What ends so does not go on at the next line.
LEAVING = re.compile(rf"(?:\bgoto \w+;|\breturn\b[^;]*;|{re.escape(UNREACHABLE)})$")


class Names(Protocol):
    """What a body has to know of its module."""
    types: Types

    def address(self, name: str) -> str:
        """The address of a constant or a function, as a pointer to bytes."""

    def called(self, name: str) -> str:
        """A function by its name in C."""


class Assignment(NamedTuple):
    """A phi, its type in C, the value that it gets, and the names in that."""
    name: str
    c_type: str
    text: str
    names: frozenset[str]

    def renamed(self, name: str) -> "Assignment":
        """The same, with a copy in the place of what has this name."""
        return self._replace(text=re.sub(rf"\b{name}\b", f"t{name}", self.text), names=self.names - {name})


def assigned(left: list[Assignment]) -> list[str]:
    """Statements that make the assignments all at once, with copies where that needs any."""
    left, lines, copied = [one for one in left if one.name != one.text], [], False
    while left:
        free = [one for one in left if not any(one.name in other.names for other in left if other is not one)]
        if not free:
            one = left[0]
            lines.append(f"{declared(one.c_type, f't{one.name}')} = {one.name};")
            left = [other.renamed(one.name) for other in left]
            free, copied = left[:1], True
        lines.append(f"{free[0].name} = {free[0].text};")
        left.remove(free[0])
    return ["{", *lines, "}"] if copied else lines


def braced(text: str) -> str:
    """Statements as one."""
    return text if text.count(";") == 1 else f"{{ {text} }}"


class Body:
    """Writes the body of a function. An instruction whose result is used once, in its block, becomes a part of the
    expression that uses it; before a statement that could change it, it is evaluated."""

    def __init__(self, names: Names, function: Function) -> None:
        self.names, self.function, self.blocks = names, function, function.blocks
        self.expressions = Expressions(names.types)
        self.lines: list[str] = []
        self.pending: dict[str, Expression] = {}
        self.known = {arg.name: named(arg.name) for arg in function.args}
        self.jumps: set[str] = set()
        self.label = ""
        self.kinds = {op.name: op.type for op in function.ops()}
        self.uses: dict[str, list[str]] = {}  # for each name the blocks that use it
        for label, ops in self.blocks.items():
            for op in ops:
                for index, value in enumerate(op.args):
                    self.uses.setdefault(value.name, []).append(op.labels[index] if op.code == "phi" else label)

    def text(self) -> list[str]:
        """The lines of the body."""
        places = self.places()
        written = []
        labels = list(self.blocks)
        for label, after in zip(labels, [*labels[1:], ""]):
            self.label, self.lines = label, []
            for op in self.blocks[label]:
                self.write(op, after)
            written.append((label, self.lines))
        lines: list[str] = []
        reached = True
        for label, those in written:
            if label in self.jumps:
                lines.append(f"{label}:;")
            if label in self.jumps or reached:
                lines += those
                reached = self.blocks[label][-1].code != "switch" and (
                    not those or those[-1].startswith("    if ") or not LEAVING.search(those[-1]))
        return self.declarations(places, lines) + lines

    def places(self) -> list[Op]:
        """What is declared at the start: phis and places in memory."""
        made = [op for op in self.function.ops() if op.code in ("alloca", "phi")]
        self.known.update((op.name, named(op.name)) for op in made)
        return made

    def declarations(self, places: list[Op], lines: list[str]) -> list[str]:
        """The declarations of those that the lines use, by their types."""
        used = set(NAME.findall("\n".join(lines)))
        grouped: dict[str, list[str]] = {}
        for op in places:
            if op.code == "alloca":
                start = "u8" if op.number == 1 else f"_Alignas({op.number}) u8"
                name = f"{op.name}[{size_of(op.how) or 1}]"
            else:
                start, name = self.names.types.declared(op.type, op.name).split(" ", 1)
            if op.name in used:
                grouped.setdefault(start, []).append(name)
        return [f"    {start} {', '.join(names)};" for start, names in grouped.items()]

    def say(self, line: str) -> None:
        """Writes a statement."""
        if line:
            self.lines.append(f"    {line}")

    def value(self, value: Value) -> Expression:
        """An operand. What is pending is taken: no other instruction uses it."""
        if value.code == "local":
            if value.name in self.pending:
                return self.pending.pop(value.name)
            if value.name in self.known:
                return self.known[value.name]
            raise Refused(f"find {value.name} in {self.function.name}")
        if value.code == "global":
            return self.place(value)
        if value.code == "difference":
            return Expression(f"{self.value(value.parts[0])} - {self.value(value.parts[1])}", False)
        if value.code == "double":
            return Expression(f"double_of({value.name}u)" if value.name[1] == "x" else value.name, value.name[1] == "x")
        if value.type[0] == "<":
            return self.vector(value)
        if value.type[0] == "{":
            parts = [self.value(part).text for part in
                     value.parts or [Value(kind, "number") for kind in fields(value.type)]]
            return Expression(f"({self.names.types.of(value.type)}){{{', '.join(parts)}}}", parts=parts)
        return Expression(literal(value), value.type != "ptr")

    def vector(self, value: Value) -> Expression:
        """A vector of numbers. Of truths each has all its bits."""
        count, width = lanes(value.type)
        parts = [literal(part) if width > 1 or not part.number else "-1" for part in value.parts] or ["0"] * count
        shown = ", ".join(parts if value.parts else ["0"])
        return Expression(f"({self.names.types.of(value.type)}){{{shown}}}", parts=parts)

    def place(self, value: Value) -> Expression:
        """A place in a constant, or a function, as a pointer or as a number."""
        root = self.names.address(value.name)
        made = Expression(f"{root} + {value.number}" if value.number else root, not value.number,
                          spot=(root, value.number))
        if value.type == "ptr":
            return made
        return self.expressions.cast(Op("trunc", type=value.type, args=[value._replace(type="ptr")]), made)

    def flush(self, memory: bool = False) -> None:
        """Evaluates what has to be evaluated before the next statement: calls, and what it may change."""
        self.evaluate([name for name, made in self.pending.items() if made.call or memory and made.memory])

    def evaluate(self, names: Iterable[str]) -> None:
        """Evaluates those of the names that are pending."""
        for name in names:
            if name in self.pending:
                self.name(name, self.pending.pop(name))

    def name(self, name: str, made: Expression) -> None:
        """Gives a result its name."""
        self.say(f"{self.names.types.declared(self.kinds[name], name)} = {made.text};")
        self.known[name] = named(name)

    def keep(self, op: Op, made: Expression) -> None:
        """Keeps a result: as an expression where it is used once, in this block, or where it is a place, which does not
        change as long as it is used."""
        uses = self.uses.get(op.name, [])
        still = not made.memory and not made.call
        if uses == [self.label] and not (op.code == "getelementptr" and still):
            self.pending[op.name] = made
        elif op.code in ("getelementptr", "freeze") and made.spot and still:
            self.known[op.name] = made
        elif uses or made.call:
            self.name(op.name, made)

    def write(self, op: Op, after: str) -> None:
        """Writes an instruction. `after` is the label of the next block."""
        if op.code in ("alloca", "phi"):
            return
        if op.code == "call":
            self.call(op)
        elif op.code == "store":
            self.store(op)
        elif op.code in ("goto", "br", "switch", "ret", "unreachable"):
            self.end(op, after)
        else:
            self.compute(op)

    def store(self, op: Op) -> None:
        """Writes a store to memory."""
        value, place = (self.value(arg) for arg in op.args)
        kind = op.args[0].type
        self.flush(memory=True)
        if kind in BYTES:
            self.say(f"store{kind[1:]}({place.text}, {value.text});")
        else:
            self.say(f"at({self.names.types.access(kind, op.number)}, {place.text}) = {value.text};")

    def compute(self, op: Op) -> None:
        """Keeps what an instruction computes."""
        if op.code == "getelementptr" and self.uses.get(op.name, []) != [self.label]:
            self.evaluate(value.name for value in op.args)
        if op.code == "insertvalue" and op.args[0].name in self.pending and not self.pending[op.args[0].name].parts:
            self.evaluate([op.args[0].name])
        if op.code == "select":  # C computes one of the two alone
            self.flush()
        vectors = is_of_vectors(op)
        if vectors and op.code in REPEATED:
            self.evaluate(value.name for value in op.args if not self.has_parts(value))
        parts = [self.value(arg) for arg in (op.args[:2] if op.code == "shufflevector" else op.args)]
        if op.code == "load":
            self.flush()
        self.keep(op, of_vectors(op, parts) if vectors else self.expressions.of(op, parts))

    def has_parts(self, value: Value) -> bool:
        """Whether a value is pending, and is made of its parts."""
        return value.name in self.pending and self.pending[value.name].parts is not None

    def call(self, op: Op) -> None:
        """Writes a call of a function, or what an intrinsic computes."""
        called = op.args[-1]
        parts = [self.value(arg) for arg in op.args[:-1]]
        known = intrinsic(called.name)
        if known:
            name, count = known
            listed = ", ".join(part.text for part in parts[:count])
            self.keep(op, joined(f"{name}({listed})", *parts, atom=True))
            if op.type[0] == "{":
                self.names.types.of(op.type)
            return
        if called.name == "llvm.arithmetic.fence.f64":
            self.keep(op, parts[0])
            return
        self.flush(memory=True)
        if copying(called.name):
            self.copy(op, parts)
            return
        made = joined(f"{self.called(op)}({', '.join(part.text for part in parts)})", *parts, atom=True)
        made.call = True
        if op.name and op.name in self.uses:
            self.keep(op, made)
        else:
            self.say(f"{made.text};")

    def called(self, op: Op) -> str:
        """What a call calls."""
        called = op.args[-1]
        if called.name == "llvm.trap":
            return "__builtin_trap"
        if called.code == "global":
            return self.names.called(called.name)
        kinds = ", ".join(self.names.types.of(arg.type) for arg in op.args[:-1]) or "void"
        return f"(({self.names.types.of(op.type)} (*)({kinds})){self.value(called)})"

    def copy(self, op: Op, parts: list[Expression]) -> None:
        """Writes what copies or fills memory. C wants places even where it has nothing to copy."""
        count, volatile = op.args[2:4]
        if volatile.code != "number" or volatile.number:
            raise Refused("translate a volatile copy")
        name = copying(op.args[-1].name)
        if count.code != "number" or count.number:
            listed = ", ".join(part.text for part in parts[:3])
            self.say(f"{name}{'_any' if count.code != 'number' else ''}({listed});")

    def edge(self, label: str, after: str = "") -> str:
        """How C goes on at a block, whose phis get their values."""
        ops = self.blocks[label]
        phis = []
        for op in ops:
            if op.code == "phi":
                text = self.value(op.args[op.labels.index(self.label)]).text
                phis.append(Assignment(op.name, self.names.types.of(op.type), text, frozenset(NAME.findall(text))))
        last = ops[-1]
        if last.code == "ret" and len(ops) == len(phis) + 1 and (
                not last.args or phis and last.args[0].name == phis[0].name):
            return f"return {phis[0].text};" if last.args else "return;"
        if ops[0].code == "unreachable":
            return UNREACHABLE
        lines = assigned(phis)
        if label != after:
            self.jumps.add(label)
            lines.append(f"goto {label};")
        return " ".join(lines)

    def end(self, op: Op, after: str) -> None:
        """Writes the last instruction of a block."""
        given = self.value(op.args[0]) if op.args else Expression("")
        self.flush()
        if op.code == "goto":
            self.say(self.edge(op.labels[0], after))
        elif op.code == "br":
            self.branch(op, given, after)
        elif op.code == "switch":
            self.switch(op, given)
        elif op.code == "ret":
            self.say(f"return {given.text};" if op.args else "return;")
        else:
            self.say(UNREACHABLE)
        if self.pending:
            raise Refused(f"place {list(self.pending)} in {self.function.name}")

    def branch(self, op: Op, given: Expression, after: str) -> None:
        """Writes a branch of two ways, so that C goes on at the next block where one of them leads there."""
        yes, no = (self.edge(label, after) for label in op.labels)
        if not yes:
            self.say(f"if (!{given}) {braced(no)}")
        elif op.labels[0] == after and not LEAVING.search(yes):
            self.say(f"if ({given.text}) {braced(yes)} else {braced(no)}")
        else:
            self.say(f"if ({given.text}) {braced(yes)}")
            self.say(no)

    def switch(self, op: Op, given: Expression) -> None:
        """Writes a switch, with a line for each way that it may go."""
        cases: dict[str, list[str]] = {label: [] for label in op.labels[1:]}
        for value, label in zip(op.args[1:], op.labels[1:]):
            cases[label].append(f"case {literal(value)}:")
        self.say(f"switch ({given.text}) {{")
        for label, those in cases.items():
            if label != op.labels[0]:
                self.say(f"{' '.join(those)} {self.edge(label)}")
        self.say(f"default: {self.edge(op.labels[0])}")
        self.say("}")
