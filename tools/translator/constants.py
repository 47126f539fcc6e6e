"""Names and C for the constants of a module."""
import hashlib
import re
from typing import Mapping, Union

from .errors import Refused
from .llvm import Value
from .module import Constant


def constant_names(constants: Mapping[str, Constant]) -> dict[str, str]:
    """A name for each constant: the first words of what it holds, and part of a hash where others begin so too. Those
    that hold the same have one name."""
    hashes: dict[str, str] = {}

    def hashed(name: str, above: tuple[str, ...]) -> str:
        """The hash of a constant that those above name. One that names itself is told by that."""
        if name in above:
            if name != above[-1]:
                raise Refused("translate constants that name each other")
            return "itself"
        if name not in hashes and name in constants:
            constant = constants[name]
            parts = [part if isinstance(part, bytes) else (hashed(part.name, (*above, name)), part.number)
                     for part in constant.parts]
            hashes[name] = hashlib.sha256(repr((parts, constant.align)).encode()).hexdigest()
        return hashes.get(name, name)

    alike: dict[str, set[str]] = {}
    for name, constant in constants.items():
        alike.setdefault(words_of(constant.parts[0]), set()).add(hashed(name, ()))
    made = {}
    for name, constant in constants.items():
        words = words_of(constant.parts[0])
        made[name] = words if len(alike[words]) == 1 else f"{words}_{hashes[name][:8]}"
    if len(set(made.values())) < len(set(hashes.values())):
        raise Refused("name the constants")
    return made


def words_of(part: Union[bytes, Value]) -> str:
    """The first words of a text, or that it is none."""
    text = re.sub(r"\W+", "_", part.decode("latin-1"), flags=re.A).strip("_")[:24] if isinstance(part, bytes) else ""
    return f"text_{text}".rstrip("_") if text and is_text(part) else "table"


def is_text(part: Union[bytes, Value]) -> bool:
    """Whether most of the bytes are letters and the like."""
    return isinstance(part, bytes) and sum(32 <= byte < 127 for byte in part) * 4 > len(part) * 3


def shown(data: bytes) -> str:
    """Bytes as a string, where they are text, or as numbers."""
    if is_text(data):
        return '"' + "".join(f"\\{byte:03o}" if byte < 32 or byte > 126 else re.sub(r'(["\\?])', r"\\\1", chr(byte))
                             for byte in data) + '"'
    return "{" + re.sub(r"(.{100,116}?,)", r"\1\n", ",".join(map(str, data.rstrip(b"\0") or b"\0"))) + "}"


def defined(name: str, constant: Constant, addresses: Mapping[str, str], linkage: str = "static ") -> str:
    """A constant as an array, or, with pointers in it, as a struct."""
    start = f"{linkage}const " + ("" if constant.align == 1 else f"_Alignas({constant.align}) ")
    first = constant.parts[0]
    if len(constant.parts) == 1 and isinstance(first, bytes):
        return f"{start}u8 {name}[{len(first) or 1}] = {shown(first)};"
    kinds, values = [], []
    for at, part in enumerate(constant.parts):
        if isinstance(part, bytes):
            kinds.append(f"u8 _{at}[{len(part)}];")
            values.append(shown(part))
        elif part.code == "global" and part.name in addresses:
            kinds.append(f"const u8 *_{at};")
            values.append(addresses[part.name] + (f" + {part.number}" if part.number else ""))
        else:
            raise Refused(f"place {part} in a constant")
    lines = ",\n".join(values)
    return f"{start}struct PACKED {{ {' '.join(kinds)} }} {name} = {{\n{lines}}};"
