"""Runs the passes of LLVM that a module has to go through before it is translated."""
import subprocess

from .errors import Refused

# Unrolled loops and tables are left to the compiler of the C, and so are vectors for a few numbers beside each other,
# which would make the C longer. The vectors of loops are LLVM's: compilers find fewer of them in C.
PASSES = ("--target=x86_64-unknown-linux-gnu", "--no-default-config", "-O2", "-fno-pic", "-fno-pie",
          "-fno-slp-vectorize", "-fno-unroll-loops", "-mllvm", "-disable-vector-combine",
          "-mllvm", "-switch-to-lookup=false")


def plain_text(clang: str, bitcode: str) -> str:
    """The text of a module after the passes of a clang that reads it."""
    words = [clang, *PASSES, "-x", "ir", bitcode, "-S", "-emit-llvm", "-o", "-"]
    ran = subprocess.run(words, stdin=subprocess.DEVNULL, capture_output=True, encoding="latin-1", check=False)
    if ran.returncode:
        raise Refused(f"run the passes over {bitcode}: {' '.join(ran.stderr.split())[-200:]}")
    return ran.stdout
