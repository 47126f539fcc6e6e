"""The builds of the program and of the library that tests compare: those that were proved here, and those that
compilers make of the C in gen/."""
from __future__ import annotations

import os
import shutil
from functools import cache
from typing import NamedTuple, Optional

from checks import IS_GENERATED, PROGRAM, TOP, built_library, check, end, room, run, skip


class Compiler(NamedTuple):
    """A compiler for the C in gen/: its name in checks, its command and flags, the words that its programs are started
    with, and the Debian packages that it needs, each with a command or a file of it."""

    name: str
    command: str
    packages: tuple[tuple[str, str], ...]
    flags: str = ""
    starts: tuple[str, ...] = ()

    def is_there(self) -> bool:
        """Whether all packages are installed; where one is not, what needs it is skipped."""
        lost = [package for package, seen in self.packages if not shutil.which(seen) and not os.path.exists(seen)]
        for package in lost:
            skip(self.name, f"Debian's package {package} is not installed")
        return not lost

    def known(self) -> dict[str, str]:
        """The environment in which scripts take this compiler and compile gen/."""
        return {**os.environ, "FONTCUT_BUILD": "generated", "CC": self.command, "CFLAGS": self.flags}


def for_processor(name: str, processor: str, package: str, triple: str) -> Compiler:
    """Debian's cross compiler for a processor, whose programs run under qemu."""
    compiler, emulator = f"{triple}-gcc", f"qemu-{processor}-static"
    packages = ((f"gcc-{triple}", compiler), (f"libc6-dev-{package}-cross", f"/usr/{triple}/lib/libc.a"),
                ("qemu-user-static", emulator))
    return Compiler(name, compiler, packages, starts=(emulator, "-L", f"/usr/{triple}"))


GCC = Compiler("gcc", "gcc", (("gcc", "gcc"),))
CLANG = Compiler("clang", "clang", (("clang", "clang"),))
MUSL = Compiler("musl", "musl-gcc", (("musl-tools", "musl-gcc"),))
MINGW = Compiler("mingw-w64", "x86_64-w64-mingw32-gcc", (("gcc-mingw-w64-x86-64", "x86_64-w64-mingw32-gcc"),))
ARM64 = for_processor("arm64", "aarch64", "arm64", "aarch64-linux-gnu")
RISCV64 = for_processor("riscv64", "riscv64", "riscv64", "riscv64-linux-gnu")
PPC64LE = for_processor("ppc64le", "ppc64le", "ppc64el", "powerpc64le-linux-gnu")


def proved_program() -> Optional[str]:
    """The program that was proved here, if it is what is tested, or that FONTCUT_PROVED names."""
    return os.environ.get("FONTCUT_PROVED") or (None if IS_GENERATED else PROGRAM)


def proved_library() -> Optional[str]:
    """The shared library that was proved here, if it is what is tested, or that FONTCUT_PROVED_LIBRARY names."""
    return os.environ.get("FONTCUT_PROVED_LIBRARY") or (None if IS_GENERATED else built_library()[1])


def made_by(compiler: Compiler, script: str) -> list[str]:
    """The paths that a script prints of what it makes of gen/ by a compiler. It is kept for the next time. Where it
    cannot be made, the test ends here."""
    status, told, err = run(os.path.join(TOP, script), env=compiler.known(), timeout=1500)
    if status:
        check(f"{compiler.name}: {script}", False, told.decode(), err.decode())
        end()
    return told.decode().splitlines()


@cache
def program_by(compiler: Compiler) -> str:
    """The program that a compiler makes."""
    return made_by(compiler, "tools/program")[0]


@cache
def library_by(compiler: Compiler) -> list[str]:
    """The paths of the static and of the shared library that a compiler makes."""
    return made_by(compiler, "bindings/c/build")


@cache
def generated_program() -> str:
    """The program that this machine's compiler makes."""
    return program_by(own_compiler())


@cache
def generated_library() -> list[str]:
    """The static and the shared library that this machine's compiler makes."""
    return library_by(own_compiler())


def own_compiler() -> Compiler:
    """The compiler that is taken where nothing is said."""
    return Compiler("cc", os.environ.get("CC") or "cc", (), os.environ.get("CFLAGS", ""))


def compiled(compiler: Compiler, what: str) -> str:
    """Compiles the program or the library for a test alone, and returns the path of the program or of the folder with
    the libraries."""
    place = os.path.join(room(), f"{compiler.name} {what}".replace(" ", "_"))
    if what == "library":
        os.mkdir(place)
    status, told, err = run(os.path.join(TOP, "tools", "compile_generated"), what, place, env=compiler.known(),
                            timeout=1500)
    check(f"{compiler.name}: the {what} is compiled", status == 0, told.decode(), err.decode())
    return place
