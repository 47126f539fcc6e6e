"""Reads an instruction of LLVM."""
import re
from typing import Callable, Mapping

from .llvm import Op, Value, fields, lanes
from .words import PLACED, Words

# How the simple instructions are written. Of the words, `value` is an operand with its type, `same` one of the type of
# the last, `type` the type of the result, `kind` that of a place, `how` the name of a comparison, `flags` and `placed`
# what is said of the result, and `number` an alignment or the number of a field. All others stand there as they are.
FORMS = {
    "alloca": "kind , align number",
    "load": "type , value , align number",
    "store": "value , value , align number",
    "getelementptr": "placed i8 , value , value",
    "icmp": "flags how value , same",
    "fcmp": "how value , same",
    "select": "value , value , value",
    "freeze": "value",
    "extractvalue": "value , number",
    "insertvalue": "value , value , number",
    "extractelement": "value , value",
    "insertelement": "value , value , value",
    "shufflevector": "value , value , value",
    "unreachable": "",
    **dict.fromkeys(("add", "sub", "mul", "and", "or", "xor", "shl", "lshr", "ashr", "udiv", "urem", "sdiv", "srem"),
                    "flags value , same"),
    **dict.fromkeys(("fadd", "fsub", "fmul", "fdiv"), "value , same"),
    **dict.fromkeys(("zext", "sext", "trunc", "ptrtoint", "ptrtoaddr", "inttoptr", "uitofp", "bitcast"),
                    "flags value to type"),
}
FLAGS = frozenset({"nuw", "nsw", "exact", "disjoint", "nneg", "samesign"})
# What is said of arguments and results, with and without parentheses. C is not told.
FACTS = frozenset({"noundef", "zeroext", "signext", "nonnull", "nocapture", "writeonly", "readonly", "readnone",
                   "returned", "immarg", "nofree", "noalias", "writable", "dead_on_unwind"})
FACTS_OF = "captures", "dereferenceable", "range", "initializes"
# What is said of an instruction behind it.
NOTES = re.compile(r"(?:, !(?:noundef|range|llvm\.loop|prof|tbaa|alias\.scope|noalias) !\d+)+$")


def read_op(line: str, names: Mapping[str, str], numbers: dict[str, str]) -> Op:
    """Reads a line with an instruction."""
    words = Words(NOTES.sub("", line), names, numbers)
    name = ""
    if words.ahead().startswith("%"):
        name = words.local()
        words.expect("=")
    words.skip(frozenset({"tail"}))
    code = words.next()
    op = OTHERS[code](words) if code in OTHERS else simple(code, words)
    op.name = name
    words.end()
    return op


def simple(code: str, words: Words) -> Op:
    """Takes what stands behind the code of an instruction that has one form."""
    if code not in FORMS:
        raise words.refuse()
    op = Op(code)
    for item in FORMS[code].split():
        take(item, op, words)
    kinds = [arg.type for arg in op.args]
    if code == "getelementptr" and kinds[1] != "i64":
        raise words.refuse()
    if op.type == "void" and code not in ("store", "unreachable"):
        op.type = result(op, kinds)
    return op


def take(item: str, op: Op, words: Words) -> None:
    """Takes one item of a form."""
    if item == "value":
        op.args.append(words.typed())
    elif item == "same":
        op.args.append(words.value(op.args[-1].type))
    elif item == "type":
        op.type = words.type()
    elif item == "kind":
        op.how = words.type()
    elif item == "how":
        op.how = words.next()
    elif item == "number":
        op.number = words.number()
    elif item == "flags":
        words.skip(FLAGS)
    elif item == "placed":
        op.how = " ".join(words.skip(PLACED))
    else:
        words.expect(item)


def result(op: Op, kinds: list[str]) -> str:
    """The type of what an instruction makes of such operands."""
    if op.code in ("alloca", "getelementptr"):
        return "ptr"
    if op.code in ("icmp", "fcmp"):
        return re.sub(r"i\d+>", "i1>", kinds[0]) if kinds[0][0] == "<" else "i1"
    if op.code in ("extractelement", "shufflevector"):
        bits = lanes(kinds[0])[1]
        return f"i{bits}" if op.code == "extractelement" else f"<{lanes(kinds[2])[0]} x i{bits}>"
    return fields(kinds[0])[op.number] if op.code == "extractvalue" else kinds[1 if op.code == "select" else 0]


def skip_facts(words: Words, exported: bool = False) -> None:
    """Takes what is said of an argument or a result. What C calls may get structs as copies of its own."""
    while True:
        words.skip(FACTS)
        if words.has("align"):
            words.number()
        elif words.ahead() in FACTS_OF or exported and words.ahead() == "byval":
            words.next()
            words.skip_pairs()
        else:
            return


def arguments(words: Words, exported: bool = False) -> list[Value]:
    """Takes arguments in parentheses, with what is said of each."""
    args: list[Value] = []
    words.expect("(")
    while not words.has(")"):
        if args:
            words.expect(",")
        kind = words.type()
        skip_facts(words, exported)
        args.append(words.value(kind))
    return args


def read_call(words: Words) -> Op:
    words.skip(frozenset({"fastcc"}))
    skip_facts(words)
    kind = words.type()
    if words.ahead() == "(":  # the types of arguments, of a function that takes any number of them
        words.skip_pairs()
    called = words.value("ptr")
    args = arguments(words)
    if words.ahead().startswith("#"):
        words.next()
    return Op("call", type=kind, args=[*args, called])


def read_phi(words: Words) -> Op:
    op = Op("phi", type=words.type())
    while not op.args or words.has(","):
        words.expect("[")
        op.args.append(words.value(op.type))
        words.expect(",")
        op.labels += words.local(),
        words.expect("]")
    return op


def read_ret(words: Words) -> Op:
    return Op("ret", args=[] if words.has("void") else [words.typed()])


def read_br(words: Words) -> Op:
    if words.ahead() == "label":
        return Op("goto", labels=(words.label(),))
    given = words.typed()
    words.expect(",")
    yes = words.label()
    words.expect(",")
    return Op("br", args=[given], labels=(yes, words.label()))


def read_switch(words: Words) -> Op:
    op = Op("switch", args=[words.typed()])
    words.expect(",")
    op.labels = words.label(),
    words.expect("[")
    while not words.has("]"):
        op.args.append(words.typed())
        words.expect(",")
        op.labels += words.label(),
    return op


OTHERS: Mapping[str, Callable[[Words], Op]] = {
    "call": read_call, "phi": read_phi, "ret": read_ret, "br": read_br, "switch": read_switch,
}
