"""The types of C that stand for those of LLVM."""
import re

from .errors import Refused
from .llvm import SIZES, align_of, fields, lanes

# Numbers of one bit are bytes that hold 0 or 1.
C_TYPES = {"void": "void", "i1": "flag", "i8": "u8", "i16": "u16", "i32": "u32", "i64": "u64", "i128": "u128",
           "ptr": "u8 *", "double": "double", "<64 x i8>": "u8x64", "<64 x i1>": "u8x64"}
SIGNED = {"i8": "i8", "i16": "i16", "i32": "i32", "i64": "i64"}
ODD = re.compile(r"i([2-9]|[1-5]\d|6[0-3])")
# Odd widths that are loaded and stored as bytes.
BYTES = frozenset({"i24", "i40", "i48", "i56"})
# The vectors that the runtime has.
VECTORS = frozenset({"u8x2", "u8x4", "u8x8", "u8x16", "u16x8", "u32x2", "u32x4", "u64x2", "u64x4"})
# What the runtime defines itself.
DEFINED = frozenset({"u8_flag", "u16_flag", "u32_flag", "u64_flag", "u64_u64"})


def declared(c_type: str, name: str) -> str:
    """A declaration."""
    return f"{c_type} {name}".replace("* ", "*").rstrip()


def vector_type(kind: str) -> str:
    """The type of a vector. Truths are 0 or have each bit, in numbers that together have 128 bits: so most comparisons
    give them as they are."""
    count, bits = lanes(kind)
    made = f"u{bits if bits > 1 else 128 // count}x{count}"
    if made not in VECTORS:
        raise Refused(f"translate the type {kind}")
    return made


class Types:
    """The types of a module in C. It keeps which structs and which unaligned accesses have to be defined."""

    def __init__(self) -> None:
        self.structs: dict[str, list[str]] = {}
        self.accesses: set[tuple[str, int]] = set()

    def of(self, kind: str) -> str:
        """The type of C for one of LLVM. Odd widths have the next larger type, and their upper bits are 0."""
        if kind in C_TYPES:
            return C_TYPES[kind]
        if kind[0] == "<":
            return vector_type(kind)
        if ODD.fullmatch(kind):
            return "u32" if int(kind[1:]) <= 32 else "u64"
        if kind[0] != "{" or any(part not in C_TYPES for part in fields(kind)):
            raise Refused(f"translate the type {kind}")
        parts = [self.of(part) for part in fields(kind)]
        name = "_".join("p" if part == "u8 *" else part for part in parts)
        self.structs[name] = parts
        return name

    def declared(self, kind: str, name: str) -> str:
        """A declaration of a name."""
        return declared(self.of(kind), name)

    def access(self, kind: str, aligned: int) -> str:
        """The name of a type as `at` takes it, for a load or a store at a place that is so aligned."""
        if kind not in SIZES and kind[0] not in "{<":
            raise Refused(f"load or store {kind}")
        name = "ptr" if kind == "ptr" else self.of(kind)
        if aligned >= align_of(kind):
            return name
        self.accesses.add((name, aligned))
        return f"{name}_{aligned}"

    def definitions(self) -> list[str]:
        """What defines the types that were asked for."""
        lines = []
        for name, parts in sorted(self.structs.items()):
            if name not in DEFINED:
                listed = " ".join(declared(part, f"_{at};") for at, part in enumerate(parts))
                lines.append(f"typedef struct MAY_ALIAS {name} {{ {listed} }} {name}, {name}_at;")
        return lines + [f"typedef {name}_at UNALIGNED({aligned}) {name}_{aligned}_at;"
                        for name, aligned in sorted(self.accesses) if (name, aligned) != ("u8x16", 1)]
