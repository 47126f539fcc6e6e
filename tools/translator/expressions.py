"""Expressions of C for what instructions of LLVM compute."""
from dataclasses import dataclass
from typing import Optional

from .c_types import BYTES, C_TYPES, SIGNED, Types
from .errors import Refused
from .llvm import Op, Value, bits_of, fields

BINARY = {"add": "+", "sub": "-", "mul": "*", "and": "&", "or": "|", "xor": "^", "shl": "<<", "lshr": ">>",
          "ashr": ">>", "udiv": "/", "urem": "%", "sdiv": "/", "srem": "%"}
SHIFTS = frozenset({"shl", "lshr", "ashr"})
COMPARED = {"eq": "==", "ne": "!=", "lt": "<", "le": "<=", "gt": ">", "ge": ">="}
FLOAT = {"fadd": "+", "fsub": "-", "fmul": "*", "fdiv": "/"}
# A comparison that holds of what is no number too is one that does not hold the other way round.
FLOAT_COMPARED = {"oeq": "{} == {}", "olt": "{} < {}", "ole": "{} <= {}", "ogt": "{} > {}", "oge": "{} >= {}",
                  "une": "{} != {}", "ult": "!({} >= {})", "ule": "!({} > {})", "ugt": "!({} <= {})",
                  "uge": "!({} < {})"}


@dataclass
class Expression:
    """An expression, and whether it reads memory or has the answer of a call. An atom needs no parentheses. A pointer
    has a spot: what it starts from, and the offset. A struct may have its fields as parts."""
    text: str
    atom: bool = True
    memory: bool = False
    call: bool = False
    spot: Optional[tuple[str, int]] = None
    parts: Optional[list[str]] = None

    def __str__(self) -> str:
        return self.text if self.atom else f"({self.text})"


def joined(text: str, *parts: Expression, atom: bool = False) -> Expression:
    """An expression that is made of others."""
    return Expression(text, atom, any(part.memory for part in parts), any(part.call for part in parts))


def named(name: str) -> Expression:
    """What has a name."""
    return Expression(name, spot=(name, 0))


def literal(value: Value) -> str:
    """A number in C."""
    if value.type == "double":
        return "0.0"
    if value.type == "ptr":
        return f"(u8 *){value.number}"
    number = value.number % 2 ** bits_of(value.type)
    if number >> 64:
        return f"((u128){number >> 64:#x}u << 64 | {number % 2 ** 64:#x}u)"
    return str(number) if number < 10 else f"{number}u" if number >> 31 == 0 else f"{number:#x}u"


def signed(text: object, kind: str) -> str:
    """A number as the signed one that it stands for."""
    if kind in SIGNED:
        return f"({SIGNED[kind]}){text}"
    if kind == "i128":
        raise Refused("take the sign of 128 bits")
    bits = bits_of(kind)
    whole = 64 if bits > 32 else 32
    return f"((i{whole})((u{whole}){text} << {whole - bits}) >> {whole - bits})"


def narrowed(made: Expression, kind: str) -> Expression:
    """A result without the bits that its type does not have."""
    return made if kind in C_TYPES else joined(f"{made} & {(1 << bits_of(kind)) - 1:#x}u", made)


class Expressions:
    """Makes expressions, with the types that it is given."""

    def __init__(self, types: Types) -> None:
        self.types = types

    def of(self, op: Op, parts: list[Expression]) -> Expression:
        """What an instruction computes of its operands."""
        if op.code in BINARY:
            return self.binary(op, *parts)
        if op.code in FLOAT:
            return self.floating(op, *parts)
        made: Expression = getattr(self, op.code)(op, *parts)
        return made

    def load(self, op: Op, place: Expression) -> Expression:
        if op.type == "<64 x i8>":
            text = f"load_u8x64({place.text})"
        elif op.type in BYTES:
            text = f"load{op.type[1:]}({place.text})"
        else:
            text = f"at({self.types.access(op.type, op.number)}, {place.text})"
        made = joined(text, place, atom=True)
        made.memory = True
        return made

    def freeze(self, _: Op, given: Expression) -> Expression:
        return given

    def getelementptr(self, op: Op, place: Expression, offset: Expression) -> Expression:
        """A place so many bytes after another, or before it: only `nuw` says that the number has no sign."""
        if op.args[1].code != "number":
            made = joined(f"{place} + {'' if 'nuw' in op.how else '(i64)'}{offset}", place, offset)
            made.spot = made.text, 0
            return made
        root, at = place.spot or (str(place), 0)
        at += op.args[1].number - (op.args[1].number >> 63 << 64)
        made = joined(f"{root} + {at}" if at > 0 else f"{root} - {-at}" if at else root, place,
                      atom=at == 0 and place.atom)
        made.spot = root, at
        return made

    def extractvalue(self, op: Op, struct: Expression) -> Expression:
        return joined(f"{struct}._{op.number}", struct, atom=True)

    def insertvalue(self, op: Op, struct: Expression, value: Expression) -> Expression:
        filled = list(struct.parts or [f"{struct}._{at}" for at in range(len(fields(op.type)))])
        filled[op.number] = value.text
        made = joined(f"({self.types.of(op.type)}){{{', '.join(filled)}}}", struct, value, atom=True)
        made.parts = filled
        return made

    def select(self, _: Op, given: Expression, yes: Expression, no: Expression) -> Expression:
        return joined(f"{given} ? {yes} : {no}", given, yes, no)

    def fcmp(self, op: Op, first: Expression, second: Expression) -> Expression:
        if op.how not in FLOAT_COMPARED or op.args[0].type != "double":
            raise Refused(f"compare {op.args[0].type} by {op.how}")
        return joined(FLOAT_COMPARED[op.how].format(first, second), first, second)

    def floating(self, op: Op, first: Expression, second: Expression) -> Expression:
        if op.type != "double":
            raise Refused(f"translate {op.code} of {op.type}")
        return joined(f"fenced({first} {FLOAT[op.code]} {second})", first, second, atom=True)

    def icmp(self, op: Op, first: Expression, second: Expression) -> Expression:
        kind, how = op.args[0].type, op.how
        texts = [str(first), str(second)]
        if how[0] == "s":
            texts = [signed(text, kind) for text in texts]
        elif how[0] == "u" and kind == "ptr":
            texts = [f"(u64){text}" for text in texts]
        sign = COMPARED.get(how if how in ("eq", "ne") else how[1:])
        if sign is None:
            raise Refused(f"compare by {how}")
        return joined(f"{texts[0]} {sign} {texts[1]}", first, second)

    def cast(self, op: Op, given: Expression) -> Expression:
        """A number or a pointer as another type, without its upper bits or with more that are 0."""
        if "double" in (op.args[0].type, op.type):
            raise Refused(f"turn {op.args[0].type} into {op.type}")
        if op.type == "i1":
            return joined(f"{given} & 1", given)
        through = "(u64)" if op.args[0].type == "ptr" != op.type and op.type != "i64" else ""
        made = joined(f"({self.types.of(op.type)}){through}{given}", given)
        return narrowed(made, op.type) if op.code == "trunc" else made

    zext = trunc = ptrtoint = ptrtoaddr = inttoptr = cast

    def sext(self, op: Op, given: Expression) -> Expression:
        kind, c_type = op.args[0].type, self.types.of(op.type)
        text = f"-({c_type}){given}" if kind == "i1" else f"({c_type}){signed(given, kind)}"
        return narrowed(joined(text if kind != "i1" else f"({c_type}){text}", given), op.type)

    def uitofp(self, op: Op, given: Expression) -> Expression:
        return joined(f"(double){given}", given)

    def bitcast(self, op: Op, _: Expression) -> Expression:
        raise Refused(f"turn {op.args[0].type} into {op.type}")

    def binary(self, op: Op, first: Expression, second: Expression) -> Expression:
        """Arithmetic of numbers. LLVM computes early what it may not use, so the counts of shifts are masked."""
        kind, sign, c_type = op.type, BINARY[op.code], self.types.of(op.type)
        constant = op.args[1].code == "number"
        if kind == "i1":
            if sign not in "&|^":
                raise Refused(f"translate {op.code} of i1")
            text = f"!{first}" if sign == "^" and constant and op.args[1].number == 1 else f"{first} {sign} {second}"
            return joined(text, first, second)
        if op.code == "add" and constant and op.args[1].number >> bits_of(kind) - 1 and kind in ("i32", "i64"):
            less = op.args[1]._replace(number=-op.args[1].number % 2 ** bits_of(kind))
            return joined(f"{first} - {literal(less)}", first)
        right = str(second)
        if op.code in SHIFTS and not constant:
            right = f"({second} & {max(32, 1 << (bits_of(kind) - 1).bit_length()) - 1})"
        if op.code == "ashr":
            text = f"({c_type})({signed(first, kind)} >> {right})"
        elif op.code in ("sdiv", "srem"):
            text = f"({c_type})({signed(first, kind)} {sign} {signed(second, kind)})"
        elif kind in ("i8", "i16"):
            text = f"({c_type})({'(u32)' if sign in ('*', '<<') else ''}{first} {sign} {right})"
        else:
            start = str(first) if op.args[0].code == "local" and kind in C_TYPES else f"({c_type}){first}"
            text = f"{start} {sign} {right}"
        return narrowed(joined(text, first, second), kind)
