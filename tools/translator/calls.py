"""What LLVM calls intrinsics, as the runtime has them."""
import re
from typing import Optional

from .c_types import vector_type

INTRINSIC = re.compile(r"llvm\.([a-z.]+?)\.i(8|16|32|64|128)")
# Of vectors: the bytes of each number turned round, the sum of all, and which truth is the first.
OF_VECTOR = re.compile(r"llvm\.([a-z.]+(?:\.i64)?)\.v(\d+)i(\d+)")
NAMED = {"bswap": "bswap", "vector.reduce.add": "sum", "experimental.cttz.elts.i64": "first"}
HAD = {"bswap": ["8 x i16", "2 x i32", "4 x i32"], "vector.reduce.add": ["8 x i16", "2 x i32", "4 x i32", "2 x i64"],
       "experimental.cttz.elts.i64": ["4 x i1", "16 x i1"]}
COPY = re.compile(r"llvm\.(memset|memmove|memcpy)\.[p0-9.]*i64")
# How many of its arguments C takes: the last one of some says only whether a result is ever wanted for 0.
TAKEN = {"umin": 2, "umax": 2, "smin": 2, "smax": 2, "abs": 1, "ctpop": 1, "ctlz": 1, "cttz": 1, "bswap": 1, "fshl": 3,
         "fshr": 3, "usub.sat": 2, "uadd.sat": 2, "uadd.with.overflow": 2, "usub.with.overflow": 2,
         "umul.with.overflow": 2}
OF_128 = frozenset({"umin", "umax", "usub.sat"})


def intrinsic(name: str) -> Optional[tuple[str, int]]:
    """The function of the runtime that computes an intrinsic, and how many arguments it takes."""
    vector = OF_VECTOR.fullmatch(name)
    if vector:
        kind = f"{vector[2]} x i{vector[3]}"
        return (f"{NAMED[vector[1]]}_{vector_type(f'<{kind}>')}", 1) if kind in HAD.get(vector[1], ()) else None
    found = INTRINSIC.fullmatch(name)
    if not found or found[1] not in (OF_128 if found[2] == "128" else TAKEN) or found[1] == "bswap" and found[2] == "8":
        return None
    return f"{found[1].replace('.', '_')}{found[2]}", TAKEN[found[1]]


def copying(name: str) -> Optional[str]:
    """The function of C that copies or fills as an intrinsic does."""
    found = COPY.fullmatch(name)
    return found[1] if found else None
