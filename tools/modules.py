"""The modules of LLVM that rattle makes of crates when it has proved them, and how the kit's clang is reached."""
from __future__ import annotations

import glob
import os
import subprocess
import sys
from typing import Sequence

TOP = os.path.dirname(os.path.dirname(os.path.realpath(__file__)))
NATIVE = "x86_64-unknown-linux-gnu"
# What the file KIT-ID says of the kits that this was tried with.
TRIED = "rattle-kit-13b logic dac8208d650f15bf", "rattle-kit-13f logic dac8208d650f15bf"


class Failed(Exception):
    """What cannot be done."""


def run(words: Sequence[str]) -> str:
    """Runs a program, and returns what it prints, on standard error too."""
    try:
        ran = subprocess.run(words, stdin=subprocess.DEVNULL, stdout=subprocess.PIPE, stderr=subprocess.STDOUT,
                             text=True, check=False)
    except FileNotFoundError as error:
        raise Failed(f"find {words[0]}") from error
    if ran.returncode:
        sys.stderr.write("".join(ran.stdout.splitlines(keepends=True)[-20:]))
        raise Failed(f"run {os.path.basename(words[0])}")
    return ran.stdout


def put(path: str, text: str) -> None:
    """Makes a file of a text."""
    with open(path, "w", encoding="utf-8") as out:
        out.write(text)


def kit_folder() -> str:
    """The folder of the Rattle kit. A kit that this was not tried with is named, and taken."""
    folder = os.path.dirname(run(["rt", "doc"]).strip())
    found = kit_name(folder)
    if found not in TRIED:
        print(f"tried with {' and '.join(TRIED)}, and this is {found}", file=sys.stderr)
    return folder


def kit_name(kit: str) -> str:
    """The name and version of a kit."""
    with open(os.path.join(kit, "KIT-ID"), encoding="utf-8") as opened:
        return opened.read().strip()


def keeping_toolchain(kit: str, room: str, kept: str) -> str:
    """A toolchain like the kit's, whose clang first keeps the module that rattle hands to it."""
    place = os.path.join(room, "toolchain")
    os.makedirs(os.path.join(place, "bin"))
    os.symlink(os.path.join(kit, "toolchain", "lib"), os.path.join(place, "lib"))
    for tool in glob.glob(os.path.join(kit, "toolchain", "bin", "*")):
        if os.path.basename(tool) != "clang":
            os.symlink(tool, os.path.join(place, "bin", os.path.basename(tool)))
    clang = os.path.join(place, "bin", "clang")
    # It runs with no environment.
    put(clang, f"#!/bin/sh\n[ ! -e module.bc ] || /bin/cp module.bc '{kept}'\n"
               f"exec '{kit}/toolchain/bin/clang' \"$@\"\n")
    os.chmod(clang, 0o755)
    return place


def proved_module(kit: str, room: str, crate: str) -> str:
    """The path of the module of LLVM that rattle makes of a crate, which it proves."""
    own = os.path.join(room, crate)
    os.mkdir(own)
    module = os.path.join(own, "module.bc")
    run([os.path.join(TOP, "tools", "compile"), crate, NATIVE, keeping_toolchain(kit, own, module),
         os.path.join(own, "native")])
    return module
