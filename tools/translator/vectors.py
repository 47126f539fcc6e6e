"""Expressions of C for what instructions of LLVM compute of vectors."""
from .c_types import vector_type
from .errors import Refused
from .expressions import COMPARED, Expression, joined
from .llvm import Op, lanes

PLAIN = {"add": "+", "sub": "-", "mul": "*", "and": "&", "or": "|", "xor": "^"}
SHIFTED = {"shl": "<<", "lshr": ">>"}
# Instructions whose operands need names, because the expression has them several times.
REPEATED = frozenset({"select", "shufflevector", "insertelement"})


def refused(op: Op) -> Refused:
    """That an instruction is not known for such vectors."""
    return Refused(f"translate {' '.join(filter(None, (op.code, op.how)))} of {op.args[0].type}, as {op.type}")


def converted(text: str, given: str, wanted: str, with_sign: bool = False) -> str:
    """A vector with numbers of another width. Truths have their sign."""
    if given == wanted:
        return text
    if not with_sign:
        return f"__builtin_convertvector({text}, {wanted})"
    return f"({wanted})__builtin_convertvector((i{given[1:]}){text}, i{wanted[1:]})"


def is_of_vectors(op: Op) -> bool:
    """Whether an instruction computes something of vectors."""
    return op.code not in ("load", "freeze") and "<" in (op.type[0], op.args[0].type[0])


def of_vectors(op: Op, parts: list[Expression]) -> Expression:
    """What an instruction computes of vectors."""
    if op.code in PLAIN:
        text = f"{parts[0]} {PLAIN[op.code]} {parts[1]}"
        return joined(text, *parts)
    if op.code in SHIFTED and op.args[1].code == "parts":
        return joined(f"{parts[0]} {SHIFTED[op.code]} {parts[1]}", *parts)
    if op.args[0].type == "<64 x i8>" or op.type == "<64 x i8>":
        return of_64(op, parts)
    made = {"icmp": compared, "zext": cast, "sext": cast, "trunc": cast, "bitcast": bits, "select": chosen,
            "extractelement": extracted, "insertelement": inserted, "shufflevector": shuffled}.get(op.code)
    if not made:
        raise refused(op)
    return made(op, parts)


def of_64(op: Op, parts: list[Expression]) -> Expression:
    """Of vectors of 64 bytes, four of 16 bytes: whether they differ, and the quarters."""
    if op.code == "icmp" and op.how == "ne":
        return joined(f"ne_u8x64({parts[0].text}, {parts[1].text})", *parts, atom=True)
    if op.code == "sext":
        return parts[0]
    first = op.args[2].parts[0].number if op.code == "shufflevector" and op.args[2].parts else 1
    if op.code == "shufflevector" and first % 16 == 0 and first < 64 and [
            part.number for part in op.args[2].parts] == list(range(first, first + 16)):
        return joined(f"{parts[0]}._{first // 16}", parts[0], atom=True)
    raise refused(op)


def compared(op: Op, parts: list[Expression]) -> Expression:
    """Which numbers compare so."""
    kind = vector_type(op.args[0].type)
    sign = COMPARED.get(op.how if op.how in ("eq", "ne") else op.how[1:])
    if sign is None:
        raise refused(op)
    first, second = ((f"(i{kind[1:]}){part}" if op.how[0] == "s" else str(part)) for part in parts)
    text = f"({kind})({first} {sign} {second})"
    return joined(converted(text, kind, vector_type(op.type), True), *parts)


def cast(op: Op, parts: list[Expression]) -> Expression:
    """Numbers of another width, or truths as numbers and the other way round."""
    given, wanted = vector_type(op.args[0].type), vector_type(op.type)
    before, after = lanes(op.args[0].type)[1], lanes(op.type)[1]
    text = str(parts[0])
    if after == 1:
        return joined(converted(f"(-({text} & 1))", given, wanted, True), *parts)
    if before == 1 and op.code == "zext":
        text = f"({text} & 1)"
    return joined(converted(text, given, wanted, op.code == "sext"), *parts)


def bits(op: Op, parts: list[Expression]) -> Expression:
    """Truths as the bits of a number."""
    if lanes(op.args[0].type)[1] != 1 or op.type != f"i{lanes(op.args[0].type)[0]}":
        raise refused(op)
    return joined(f"bits_{vector_type(op.args[0].type)}({parts[0].text})", *parts, atom=True)


def chosen(op: Op, parts: list[Expression]) -> Expression:
    """Numbers of one vector where truths hold, and else of another."""
    if op.args[0].type == "i1":
        return joined(f"{parts[0]} ? {parts[1]} : {parts[2]}", *parts)
    if vector_type(op.args[0].type) != vector_type(op.type):
        raise refused(op)
    return joined(f"({parts[0]} & {parts[1]}) | (~{parts[0]} & {parts[2]})", *parts)


def extracted(op: Op, parts: list[Expression]) -> Expression:
    """One of the numbers."""
    text = f"{parts[0]}[{parts[1].text}]"
    return joined(f"{text} & 1" if op.type == "i1" else text, *parts, atom=op.type != "i1")


def inserted(op: Op, parts: list[Expression]) -> Expression:
    """A vector with another number at a place."""
    count, width = lanes(op.type)
    kind = vector_type(op.type)
    if op.args[2].code != "number":
        raise refused(op)
    filled = list(parts[0].parts or [f"{parts[0]}[{at}]" for at in range(count)])
    filled[op.args[2].number] = f"-({kind.split('x')[0]}){parts[1]}" if width == 1 else parts[1].text
    made = joined(f"({kind}){{{', '.join(filled)}}}", *parts, atom=True)
    made.parts = filled
    return made


def shuffled(op: Op, parts: list[Expression]) -> Expression:
    """Numbers of two vectors in another order."""
    count = lanes(op.args[0].type)[0]
    places = [part.number for part in op.args[2].parts] or [0] * lanes(op.type)[0]
    texts = [f"{parts[place // count]}[{place % count}]" for place in places]
    return joined(f"({vector_type(op.type)}){{{', '.join(texts)}}}", *parts, atom=True)
