"""The modules for browsers, made of the library's module of LLVM, with the memory of bindings/web/heap.c."""
from __future__ import annotations

import os
import re

from modules import NATIVE, TOP, Failed, put, run

TARGET = "wasm64-unknown-unknown"
NATIVE_LAYOUT = "e-m:e-p270:32:32-p271:32:32-p272:64:64-i64:64-i128:128-f80:128-n8:16:32:64-S128"
LAYOUT = "e-m:e-p:64:64-p10:8:8-p20:8:8-i64:64-i128:128-n32:64-S128-ni:1:10:20"
# Intrinsics, types and calling conventions of x86, and inline assembly.
OWN = re.compile(r'\bllvm\.x86\.|\bx86_(?!64-unknown-linux-gnu")\w+|^module asm |\basm (?:[a-z]+ )*"', re.M)
ATTRIBUTES = re.compile(' "(?:probe-stack|stack-probe-size|target-cpu|target-features|tune-cpu|frame-pointer)"="[^"]*"')

CLANG = [f"--target={TARGET}", "--no-default-config", "-mcpu=lime1", "-O3", "-ffunction-sections", "-fdata-sections"]
# No function calls itself, and Rattle's own compiler reports less than ten thousand bytes of stack for any call. The
# stack lies below all else, so that one which is too deep traps and overwrites nothing.
LINK = ["-flavor", "wasm", "-mwasm64", "--no-entry", "--stack-first", "-z", "stack-size=131072", "--export-dynamic",
        "--gc-sections", "--strip-all"]
# The features of -mcpu=lime1 that the module may use, by the names of Binaryen 108.
LOWER = ["--enable-memory64", "--enable-bulk-memory", "--enable-sign-ext", "--enable-nontrapping-float-to-int",
         "--enable-mutable-globals", "--memory64-lowering"]
TABLE, ELEMENTS = 4, 9  # sections of a WebAssembly module
# The calls of fontcut_text.wasm; fontcut.wasm has all others of include/fontcut.h. Their tables of Unicode would make
# that almost twice as long, and many pages need neither.
OF_TEXTS = "fontcut_needed", "fontcut_ranges"


def for_wasm(text: str) -> str:
    """A module of LLVM as text, with the layout of wasm64 in the place of that of x86-64.

    Pointers, numbers and their alignments are alike in both. It passes pointers, lengths and numbers of at most 64
    bits, and structs of at most two of them or by pointer, as C does for wasm64."""
    found = OWN.search(text)
    if found:
        raise Failed(f"take a module that has something of the processor's own: {found[0].strip()}")
    for old, new in ((f'target datalayout = "{NATIVE_LAYOUT}"', f'target datalayout = "{LAYOUT}"'),
                     (f'target triple = "{NATIVE}"', f'target triple = "{TARGET}"')):
        if text.count(old) != 1:
            raise Failed(f"find in the module: {old}")
        text = text.replace(old, new)
    return ATTRIBUTES.sub("", text)


def with_calls(text: str, of_texts: bool) -> str:
    """A module of LLVM as text, in which the calls of the other module for browsers are internal, and so left out."""
    calls = set(re.findall(r"^define (?!internal )[^\n]*?@(fontcut_\w+)\(", text, re.M))
    if not calls.issuperset(OF_TEXTS):
        raise Failed(f"find in the module: {' and '.join(OF_TEXTS)}")
    others = "|".join(call for call in sorted(calls) if (call in OF_TEXTS) != of_texts)
    return re.sub(rf"^define (?=[^\n]*@(?:{others})\()", "define internal ", text, flags=re.M)


def number_at(data: bytes, at: int) -> tuple[int, int]:
    """The number in LEB128 at a place, and the place after it."""
    value = shift = 0
    while True:
        byte = data[at]
        at += 1
        value |= (byte & 0x7F) << shift
        shift += 7
        if byte < 0x80:
            return value, at


def without_table(data: bytes) -> bytes:
    """A WebAssembly module without its table, through which it calls nothing.

    The linker gives each 64-bit module a table with 64-bit indices, which Binaryen 108 does not read."""
    kept, at = data[:8], 8
    while at < len(data):
        begin, kind = at, data[at]
        length, body = number_at(data, at + 1)
        at = body + length
        if kind == ELEMENTS:
            raise Failed("drop the table of a module that calls functions through it")
        if kind != TABLE:
            kept += data[begin:at]
    return kept


def web_modules(kit: str, room: str, native: str) -> dict[str, bytes]:
    """The WebAssembly that is made of a module of LLVM and heap.c: the modules by their names."""
    tools, paths = f"{kit}/toolchain/bin", {name: os.path.join(room, name) for name in ("native.ll", "heap.o")}
    run([f"{tools}/clang", f"--target={NATIVE}", "-x", "ir", native, "-S", "-emit-llvm", "-O0", "-Xclang",
         "-disable-llvm-passes", "-o", paths["native.ll"]])
    run([f"{tools}/clang", *CLANG, "-ffreestanding", "-nostdinc", "-Wall", "-Wextra", "-Werror", "-c",
         os.path.join(TOP, "bindings", "web", "heap.c"), "-o", paths["heap.o"]])
    with open(paths["native.ll"], encoding="utf-8") as opened:
        text = for_wasm(opened.read())
    return {"fontcut.wasm": linked(tools, room, with_calls(text, False)),
            "fontcut_text.wasm": linked(tools, room, with_calls(text, True))}


def linked(tools: str, room: str, text: str) -> bytes:
    """The WebAssembly that is made of a module of LLVM as text, and of the heap that was compiled into the room."""
    paths = {name: os.path.join(room, name) for name in ("wasm.ll", "module.o", "heap.o", "linked.wasm", "wide.wasm",
                                                         "made.wasm")}
    put(paths["wasm.ll"], text)
    run([f"{tools}/clang", *CLANG, "-c", "-x", "ir", paths["wasm.ll"], "-o", paths["module.o"]])
    run([f"{tools}/ld.lld", *LINK, "-o", paths["linked.wasm"], paths["module.o"], paths["heap.o"]])
    with open(paths["linked.wasm"], "rb") as whole, open(paths["wide.wasm"], "wb") as out:
        out.write(without_table(whole.read()))
    run(["wasm-opt", *LOWER, paths["wide.wasm"], "-o", paths["made.wasm"]])
    with open(paths["made.wasm"], "rb") as made:
        return made.read()
