"""Translates modules of LLVM, which rattle hands to clang after a proof, to C.

The C needs GCC or Clang and a 64-bit little-endian processor, and nothing of the kit. Whatever a module has that the
translator does not know is refused."""
from .errors import Refused
from .library import translate_library
from .passes import PASSES, plain_text
from .program import translate_program

__all__ = ["PASSES", "Refused", "plain_text", "translate_library", "translate_program"]
