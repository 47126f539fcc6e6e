"""Builds the wheel, with the library and the program inside: the build backend that pyproject.toml names (PEP 517).

The library is the file that the variable FONTCUT_LIBRARY names, and the program the one that FONTCUT_PROGRAM names;
where these are not set, they are what `bindings/c/build` and `tools/program` of the checkout build: what was proved
there, or what a C compiler makes of gen/. The platform in the wheel's name is the oldest one that has what both need
(PEP 600), or this machine's where no such one is known. With SOURCE_DATE_EPOCH as the time of all files, the same files
give the same bytes. It needs no other package, and `objdump`, which comes with a compiler."""
import ast
import base64
import hashlib
import os
import re
import subprocess
import sysconfig
import time
import zipfile
from typing import Any, Dict, List, Mapping, NoReturn, Optional, Tuple, TypedDict, cast

from fontcut_web.preset_files import preset_files

HERE = os.path.dirname(os.path.abspath(__file__))
# A module of one file cannot say that it has types (PEP 561), so it becomes a package in the wheel. The commands of the
# wheel are a module of it, which finds what these need, or says what to install.
MODULE, COMMANDS = "fontcut", "wheel_commands"
SHARED = ("fontcut_output",)
PACKAGES = "fontcut_pdf", "fontcut_web"
# Data of a package: presets of slices.
LISTS = "fontcut_web/lists"
# The licences of what is compiled into the library and the program.
COMPILED_IN = "../../gen/NOTICE"
# Where the program looks for presets by their names.
SHARED_DATA = "fontcut/share/fontcut"
LIBRARY, PROGRAM = "fontcut/libfontcut.so.0", "fontcut/bin/fontcut"
# No installer knows a platform of an older C library by its number.
OLDEST = 17
# 1980, where the time of files in a zip begins.
FIRST_TIME = 315532800
# The processors' names in platforms, by their numbers in ELF files.
PROCESSORS = {62: "x86_64", 183: "aarch64"}
# What every such platform has: the GNU C Library and its loader.
LIBRARIES = r"libc\.so\.6|ld-linux-(?:x86-64\.so\.2|aarch64\.so\.1)"


class UnsupportedOperation(Exception):
    """What a backend raises that makes no archive of sources (PEP 517)."""


# What pyproject.toml says of the project, as far as it is asked here, and its version.
Project = TypedDict("Project", {
    "name": str, "version": str, "description": str, "readme": str, "requires-python": str, "classifiers": List[str],
    "optional-dependencies": Dict[str, List[str]], "scripts": Dict[str, str]})


def text_of(name: str) -> str:
    with open(os.path.join(HERE, name), encoding="utf-8") as opened:
        return opened.read()


def built(name: str, variable: str, script: str) -> str:
    """The path of the library or of the program: the one that a variable names, or the last that a script of the
    checkout prints, which says on standard error what it cannot build."""
    named = os.environ.get(variable)
    if named:
        return named
    path = os.path.normpath(os.path.join(HERE, script))
    if not os.path.exists(path):
        raise SystemExit(f"fontcut: {HERE} is in no checkout, whose {name} it takes: {variable} may name another one")
    ran = subprocess.run([path], check=False, stdin=subprocess.DEVNULL, stdout=subprocess.PIPE, text=True)
    if ran.returncode:
        raise SystemExit(f"fontcut: {path} could not build the {name}")
    return ran.stdout.splitlines()[-1]


def library() -> str:
    """The path of the shared library."""
    return built("library", "FONTCUT_LIBRARY", "../c/build")


def program() -> str:
    """The path of the program."""
    return built("program", "FONTCUT_PROGRAM", "../../tools/program")


def oldest(path: str) -> Optional[int]:
    """The version of the GNU C Library that a library or a program asks for: the greatest one among those that it
    needs. None where it needs another library too."""
    told = subprocess.run(["objdump", "-p", path], check=True, stdout=subprocess.PIPE, text=True,
                          env={**os.environ, "LC_ALL": "C"}).stdout
    needed = set(re.findall(r"^ +NEEDED +(\S+)$", told, re.M))
    versions = re.findall(r"^ +0x[0-9a-f]+ 0x[0-9a-f]+ \d+ (\S+)$", told, re.M)
    known = [match for version in versions if (match := re.fullmatch(r"GLIBC_2\.(\d+)(?:\.\d+)?", version))]
    if len(known) != len(versions) or not all(re.fullmatch(LIBRARIES, name) for name in needed):
        return None
    return max([OLDEST, *(int(match[1]) for match in known)])


def machine(path: str) -> int:
    """The number of the processor that a library or a program is for, by its header: ELF, 64 bits, little-endian."""
    with open(path, "rb") as opened:
        header = opened.read(20)
    if header[:6] != b"\x7fELF\x02\x01":
        raise SystemExit(f"fontcut: {path} is no file of ELF for 64 bits, little-endian, as the wheel needs it")
    return int.from_bytes(header[18:], "little")


def platform_of(*paths: str) -> str:
    """The platform that a library and a program ask for: their processor, and a version of the GNU C Library. Where
    that is not known, it is that of this machine, whose compiler made them."""
    machines = set(map(machine, paths))
    if len(machines) > 1:
        raise SystemExit(f"fontcut: {' and '.join(paths)} are for different processors")
    processor, versions = PROCESSORS.get(machines.pop()), [oldest(path) for path in paths]
    if not processor or None in versions:
        return re.sub("[^0-9A-Za-z]", "_", sysconfig.get_platform())
    return f"manylinux_2_{max(filter(None, versions))}_{processor}"


def tables(text: str) -> Dict[str, Dict[str, Any]]:
    """The tables of a file of TOML whose values are strings and lists of strings, which Python writes as TOML does:
    older versions of Python have no `tomllib`."""
    found: Dict[str, Dict[str, Any]] = {}
    for name, key, value in re.findall(r'^(?:\[(.+)\]|([\w-]+) = (".*"|\[(?:[^]"]|"[^"]*")*\]))$', text, re.M):
        if name:
            found[name] = {}
        else:
            found[[*found][-1]][key] = ast.literal_eval(value)
    return found


def project() -> Project:
    """What pyproject.toml says of the project, and its version."""
    found = tables(text_of("pyproject.toml"))
    version = re.search(r'^__version__ = "(.*)"$', text_of("fontcut.py"), re.M)
    if not version:
        raise ValueError("fontcut.py says no version")
    parts = {name: found[f"project.{name}"] for name in ("optional-dependencies", "scripts")}
    return cast(Project, {**found["project"], **parts, "version": version[1]})


def required(package: str, extra: str) -> str:
    """The line of a package that an extra brings, which may be for some versions of Python alone (PEP 508)."""
    name, _, condition = package.partition("; ")
    return f"Requires-Dist: {name}; {f'{condition} and ' if condition else ''}extra == '{extra}'"


def metadata(said: Project) -> str:
    """The file METADATA of the wheel."""
    lines = ["Metadata-Version: 2.1", f"Name: {said['name']}", f"Version: {said['version']}",
             f"Summary: {said['description']}", f"Requires-Python: {said['requires-python']}"]
    lines += [f"Classifier: {name}" for name in said["classifiers"]]
    for extra, packages in said["optional-dependencies"].items():
        lines += [f"Provides-Extra: {extra}", *(required(package, extra) for package in packages)]
    return "\n".join([*lines, "Description-Content-Type: text/markdown", "", text_of(said["readme"])])


def packages() -> Dict[str, bytes]:
    """The packages of the wheel: a path and bytes for each file."""
    held = {f"{name}/py.typed": b"" for name in (MODULE, *PACKAGES)}
    held[f"{MODULE}/__init__.py"] = text_of(f"{MODULE}.py").encode()
    held[f"{MODULE}/{COMMANDS}.py"] = text_of(f"{COMMANDS}.py").encode()
    held.update({f"{name}.py": text_of(f"{name}.py").encode() for name in SHARED})
    for folder in (*PACKAGES, LISTS):
        for name in os.listdir(os.path.join(HERE, folder)):
            if name.endswith((".py", ".txt", ".json")):
                held[f"{folder}/{name}"] = text_of(os.path.join(folder, name)).encode()
    held[f"{SHARED_DATA}/NOTICE.txt"] = held[f"{LISTS}/NOTICE.txt"]
    held[f"{MODULE}/NOTICE"] = text_of(COMPILED_IN).encode()
    held.update({f"{SHARED_DATA}/slices/{name}.txt": text.encode() for name, text in preset_files().items()})
    return held


def files(said: Project, tag: str, binaries: Mapping[str, str]) -> Tuple[Dict[str, bytes], str]:
    """What the wheel holds but for its list of files, in the order in which it stands, and the path of that list."""
    held, info = packages(), f"{said['name']}-{said['version']}.dist-info"
    scripts = [f"{name} = {call}\n" for name, call in said["scripts"].items()]
    for name, path in binaries.items():
        with open(path, "rb") as opened:
            held[name] = opened.read()
    held = dict(sorted(held.items()))
    held[f"{info}/METADATA"] = metadata(said).encode()
    held[f"{info}/WHEEL"] = f"Wheel-Version: 1.0\nGenerator: fontcut\nRoot-Is-Purelib: false\nTag: {tag}\n".encode()
    held[f"{info}/entry_points.txt"] = "".join(["[console_scripts]\n", *scripts]).encode()
    return held, f"{info}/RECORD"


def record(held: Mapping[str, bytes], path: str) -> bytes:
    """The list of files, with the sum and the length of each."""
    rows = []
    for name, data in held.items():
        digest = base64.urlsafe_b64encode(hashlib.sha256(data).digest()).rstrip(b"=").decode()
        rows.append(f"{name},sha256={digest},{len(data)}\n")
    return "".join([*rows, f"{path},,\n"]).encode()


def put(archive: zipfile.ZipFile, name: str, data: bytes) -> None:
    """Adds a file, whose time and mode are not those of a file on the disk."""
    epoch = max(FIRST_TIME, int(os.environ.get("SOURCE_DATE_EPOCH", time.time())))
    entry = zipfile.ZipInfo(name, time.gmtime(epoch)[:6])
    entry.create_system = 3
    entry.external_attr = (0o100755 if name in (LIBRARY, PROGRAM) else 0o100644) << 16
    entry.compress_type = zipfile.ZIP_DEFLATED
    archive.writestr(entry, data)


def build_wheel(wheel_directory: str, config_settings: Optional[Dict[str, object]] = None,
                metadata_directory: Optional[str] = None) -> str:
    """Makes the wheel in a folder, and returns its name (PEP 517)."""
    binaries, said = {LIBRARY: library(), PROGRAM: program()}, project()
    tag = f"py3-none-{platform_of(*binaries.values())}"
    held, listed = files(said, tag, binaries)
    name = f"{said['name']}-{said['version']}-{tag}.whl"
    with zipfile.ZipFile(os.path.join(wheel_directory, name), "w") as archive:
        for path, data in {**held, listed: record(held, listed)}.items():
            put(archive, path, data)
    return name


def build_sdist(sdist_directory: str, config_settings: Optional[Dict[str, object]] = None) -> NoReturn:
    """Refuses: the library is built from the whole checkout."""
    raise UnsupportedOperation("the library is built from the checkout of fontcut, not from an archive of this folder")
