"""Systems of Debian's without a toolchain, each in a folder, and what the files of a release do there. `tests/release`,
`tests/release_arm64` and `tests/from_clone` share it."""
from __future__ import annotations

import glob
import os
import re
import shutil
import signal
import subprocess
import time
from typing import Callable, Mapping, NamedTuple, Optional

from checks import (DEJAVU, DONE, PROGRAM, TOP, VERSION, Ran, check, files_below, found_in, held, put, read, run, same,
                    same_bytes, skip)
from released import C_PROGRAM, DOCUMENTS, FROM_PYTHON


class Architecture(NamedTuple):
    """Debian's name of an architecture, its processor's name, and the name of the folder of its libraries."""

    debian: str
    processor: str
    triple: str


FONT = f"{DEJAVU}/DejaVuSans.ttf"
MIRROR = "http://deb.debian.org/debian"
# What Debian's package qemu-user-static tells the kernel, so that it starts programs for arm64.
STARTS_ARM64 = "/usr/lib/binfmt.d/qemu-aarch64.conf"


def tool(name: str, package: str) -> bool:
    """Whether a program is there; where it is not, what needs it is skipped."""
    if shutil.which(name):
        return True
    skip(name, f"Debian's package {package} is not installed")
    return False


def text_of(*path: str) -> str:
    with open(os.path.join(TOP, *path), encoding="utf-8") as opened:
        return opened.read()


def architectures() -> list[Architecture]:
    """The architectures that releases are made for, the first of which is this machine's."""
    lines = text_of("tools", "architectures.txt").splitlines()
    return [Architecture(*line.split()) for line in lines if not line.startswith("#")]


def made_here() -> list[Architecture]:
    """The architectures that ./release makes files for on this machine: its own, and those that there are a compiler
    and a C library for."""
    own, *others = architectures()
    return [own, *(arch for arch in others if shutil.which(f"{arch.triple}-gcc")
                   and os.path.exists(f"/usr/{arch.triple}/lib/libc.a"))]


def files_for(arch: Architecture) -> list[str]:
    """The names of the files of a release that are for one architecture: the archive, the packages, the wheel."""
    packages = [f"{name}_{VERSION}_{arch.debian}.deb" for name in ("fontcut", "libfontcut-dev", "libfontcut0")]
    return [f"fontcut-{VERSION}-linux-{arch.processor}.tar.xz", *packages,
            f"fontcut-{VERSION}-py3-none-manylinux_2_17_{arch.processor}.whl"]


def made_within(making: subprocess.Popen[bytes], seconds: float) -> int:
    """The status of debootstrap, which is ended after so long."""
    try:
        return making.wait(timeout=seconds)
    except subprocess.TimeoutExpired:
        os.killpg(making.pid, signal.SIGKILL)
        return making.wait()


class System:
    """A system of this machine's architecture. `debootstrap` works in a namespace of its own, so that no mount is left
    when it has ended."""

    # What is told of it, what it has beside the least of Debian, and how many seconds a command may take there.
    name = "a system without a toolchain"
    packages = "xz-utils,python3-venv"
    patience = 300.0

    def __init__(self, folder: str, arch: Architecture) -> None:
        self.root, self.log, self.arch = os.path.join(folder, "system"), os.path.join(folder, "system.log"), arch
        self.making: Optional[subprocess.Popen[bytes]] = None
        self.began = time.monotonic()
        if os.geteuid() != 0:
            skip(self.name, "only root can make it")
        elif tool("debootstrap", "debootstrap"):
            with open(self.log, "wb") as log:
                words = ["unshare", "--mount", "debootstrap", *self.options(), "--variant=minbase",
                         f"--include={self.packages}", "bookworm", self.root, MIRROR]
                self.making = subprocess.Popen(words, stdin=subprocess.DEVNULL, stdout=log, stderr=log,
                                               start_new_session=True)

    def options(self) -> list[str]:
        """The words for debootstrap that the architecture needs."""
        return []

    def is_made(self) -> bool:
        """Waits for it. Where no package can be had, what needs it is skipped."""
        if not self.making:
            return False
        if made_within(self.making, 600):
            why = read(self.log).decode(errors="replace").splitlines()
            skip(self.name, f"debootstrap: {why[-1] if why else 'no word'}")
            return False
        os.makedirs(os.path.dirname(self.path(FONT)))
        shutil.copy(FONT, self.path(FONT))
        print(f"the system was made within {time.monotonic() - self.began:.0f} seconds", flush=True)
        return True

    def entering(self) -> list[str]:
        """The words that a command begins with so that the system's programs can run."""
        return []

    def run(self, *words: str, path: str = "/usr/sbin:/usr/bin:/sbin:/bin", user: str = "root", cwd: str = "/") -> Ran:
        """Runs words there, as a user, in a folder."""
        line = ["chroot", f"--userspec={user}", self.root, "/usr/bin/env", "-i", f"--chdir={cwd}", f"PATH={path}",
                "HOME=/tmp", "LC_ALL=C.UTF-8", "PYTHONDONTWRITEBYTECODE=1", *words]
        return run(*self.entering(), *line, timeout=self.patience)

    def run_with_proc(self, *words: str) -> Ran:
        """Runs words there that look into /proc, which is mounted for them alone."""
        return run("unshare", "--mount", "sh", "-euc", 'mount --rbind /proc "$1/proc"; exec chroot "$@"', "sh",
                   self.root, *words)

    def sh(self, name: str, line: str, **how: str) -> bytes:
        """Runs a line of the shell there, which has to end well."""
        status, told, err = self.run("sh", "-euc", line, **how)
        check(f"{name}: {line}", status == 0, told.decode(), err.decode())
        return told

    def path(self, name: str) -> str:
        return os.path.join(self.root, name.lstrip("/"))

    def close(self) -> None:
        """Ends what runs for it."""
        if self.making and self.making.poll() is None:
            os.killpg(self.making.pid, signal.SIGKILL)
            self.making.wait()


class ForeignSystem(System):
    """A system of another architecture, whose programs run under qemu.

    Its packages are unpacked, and dpkg is told that they are installed: qemu would take ten minutes to configure them.
    The kernel starts its programs in a user namespace alone, so that nothing is registered on this machine; Linux has
    that since 6.7."""

    holder = None

    def options(self) -> list[str]:
        return ["--foreign", f"--arch={self.arch.debian}"]

    def is_made(self) -> bool:
        if not super().is_made():
            return False
        for package in glob.glob(self.path("/var/cache/apt/archives/*.deb")):
            self.unpack(package)
        self.add_folders()
        why = self.hold()
        if why:
            skip(self.name, f"programs for {self.arch.debian} cannot be started: {why}")
        return not why

    def unpack(self, package: str) -> None:
        """Unpacks a package, and adds it to those that dpkg takes for installed."""
        unpacks = 'dpkg-deb --fsys-tarfile "$1" | tar -C "$2" --keep-directory-symlink -xf -'
        run("sh", "-c", unpacks, "sh", package, self.root)
        fields = run("dpkg-deb", "--field", package)[1]
        with open(self.path("/var/lib/dpkg/status"), "ab") as status:
            status.write(fields.rstrip(b"\n") + b"\nStatus: install ok installed\n\n")

    def add_folders(self) -> None:
        """Makes the folders that only the configuration of packages would make."""
        os.makedirs(self.path("/usr/local"))
        if os.path.islink(self.path("/proc")):
            os.remove(self.path("/proc"))
        os.makedirs(self.path("/proc"), exist_ok=True)

    def hold(self) -> str:
        """Makes the namespaces, which last as long as the process that holds them. Returns why that fails, or ''."""
        self.holder = subprocess.Popen(["unshare", "--user", "--mount", "cat"], stdin=subprocess.PIPE)
        own = os.readlink("/proc/self/ns/user")
        try:
            while self.holder.poll() is None and os.readlink(f"/proc/{self.holder.pid}/ns/user") == own:
                time.sleep(0.01)
            for kind in "uid", "gid":
                put(f"/proc/{self.holder.pid}/{kind}_map", b"0 0 4294967295\n")
        except OSError as error:
            return str(error)
        place = "/proc/sys/fs/binfmt_misc"
        lines = [f"mount -t binfmt_misc binfmt_misc {place}", f"cat {STARTS_ARM64} >{place}/register",
                 'mount --rbind /proc "$1"']
        status, _, err = run(*self.entering(), "sh", "-ec", "\n".join(lines), "sh", self.path("/proc"))
        return err.decode().strip() if status else ""

    def run_with_proc(self, *words: str) -> Ran:
        return self.run(*words)

    def entering(self) -> list[str]:
        assert self.holder, "the namespaces are not there"
        return ["nsenter", "--user", "--mount", "--preserve-credentials", "-t", str(self.holder.pid), "--"]

    def close(self) -> None:
        super().close()
        if self.holder and self.holder.stdin:
            self.holder.stdin.close()
            self.holder.wait()


def recipes() -> list[tuple[str, str]]:
    """The lines of docs/OPTIONS.md that a shell runs, each with what it prints, but for those of C."""
    rows = []
    for line in text_of("docs/OPTIONS.md").partition("## Recipes")[2].partition("\n## ")[0].splitlines():
        if line.startswith("    $ ") and not line.startswith("    $ cc "):
            rows.append((line[6:], ""))
        elif rows and line.startswith("    ") and not re.match(r" +(\$|font|if |import |await |const |console)", line):
            rows[-1] = rows[-1][0], rows[-1][1] + line.strip() + "\n"
    return rows


def run_recipes(name: str, folder: str, runner: Callable[[str], Ran]) -> dict[str, Optional[bytes]]:
    """Runs them in a folder with what they read, and returns all that is there then."""
    shutil.copy(FONT, folder)
    for file, data in DOCUMENTS.items():
        put(os.path.join(folder, file), data.encode())
    for line, told in recipes():
        status, out, _ = runner(line)
        same(f"{name}: {line}", (0, told), (status, out.decode()))
    return {path: held(os.path.join(folder, path)) for path in files_below(folder)}


def wanted_of_recipes(folder: str) -> dict[str, Optional[bytes]]:
    """What the recipes give with ./fontcut."""
    place, programs = os.path.join(folder, "recipes"), os.path.join(folder, "programs")
    for made in place, programs:
        os.mkdir(made)
    os.symlink(PROGRAM, os.path.join(programs, "fontcut"))
    known = {**os.environ, "PATH": f"{programs}:{os.environ['PATH']}"}
    wanted = run_recipes("./fontcut", place, lambda line: run("sh", "-euc", line, cwd=place, env=known))
    check("there are recipes", len(recipes()) > 6 and len(wanted) > 8, recipes(), sorted(wanted))
    return wanted


def recipes_there(name: str, system: System, wanted: Mapping[str, Optional[bytes]], path: str) -> None:
    """The same on the system, by a program that is installed there."""
    place = f"/{name}"
    os.mkdir(system.path(place))
    found = run_recipes(name, system.path(place), lambda line: system.run("sh", "-euc", line, cwd=place, path=path))
    same(f"{name}: the files of the recipes", sorted(wanted), sorted(found))
    odd = [file for file in wanted if found.get(file) != wanted[file]]
    same(f"{name}: they are those of ./fontcut", [], odd)


def named_preset(name: str, system: System, program: str) -> None:
    """A program that is installed there finds a preset of slices by its name."""
    made = f"/slices of {name}"
    ran = system.run_with_proc(program, "--quiet", "slice", FONT, made, "--slices", "greek")
    same(f"{name}: a preset by its name", (DONE, ["greek.ttf"]), (ran, files_below(system.path(made))))


def wanted_files(folder: str) -> dict[str, Optional[bytes]]:
    """What ./fontcut makes of the font for the programs in C, Python and Rust: cuts, and the join of two of them."""
    made = {}
    rows = {"latin": ["U+20-7E", "U+A0-FF"], "lean": ["--lean", "U+41-5A"], "other": ["--lean", "U+61-7A"]}
    for name, words in rows.items():
        out = os.path.join(folder, f"{name}.ttf")
        same(f"./fontcut: {name}", DONE, run(PROGRAM, "subset", FONT, out, *words))
        made[name] = held(out)
    out = os.path.join(folder, "join.ttf")
    same("./fontcut: join", DONE, run(PROGRAM, "join", "--lean", out, f"{folder}/lean.ttf", f"{folder}/other.ttf"))
    return {**made, "join": held(out)}


def by_package(system: System) -> dict[str, str]:
    """What lets pkg-config find the packages of the system from outside."""
    return {"PKG_CONFIG_LIBDIR": system.path(f"/usr/lib/{system.arch.triple}/pkgconfig"),
            "PKG_CONFIG_SYSROOT_DIR": system.root, "PKG_CONFIG_ALLOW_SYSTEM_CFLAGS": "1",
            "PKG_CONFIG_ALLOW_SYSTEM_LIBS": "1"}


def c_source(folder: str) -> str:
    """The path of the program in C of docs/OPTIONS.md, which is written to a folder."""
    calls = found_in(text_of("docs/OPTIONS.md"), r"(?:^    (?:fontcut_|if ).*\n){4}", re.M)[0]
    source = os.path.join(folder, "prog.c")
    put(source, C_PROGRAM.replace("CALLS", calls).encode())
    return source


def from_c(system: System, folder: str, wanted: Mapping[str, Optional[bytes]], compiler: str = "gcc") -> None:
    """The program in C of docs/OPTIONS.md, compiled over the packages' files and run on the system."""
    if not tool("pkg-config", "pkg-config") or not tool("gcc", "gcc"):
        return
    source, libraries = c_source(folder), system.path(f"/usr/lib/{system.arch.triple}")
    status, told, err = run("pkg-config", "--cflags", "--libs", "fontcut", env={**os.environ, **by_package(system)})
    check("pkg-config knows the packages", status == 0 and not err, told, err)
    flags = told.decode().split()
    static = [f"{libraries}/libfontcut.a" if flag == "-lfontcut" else flag for flag in flags]
    for name, words in (("shared", flags), ("static", static)):
        program = os.path.join(system.root, f"prog_{name}")
        same(f"C, {name}: compiled", DONE, run(compiler, "-Wall", "-Wextra", "-Werror", "-o", program, source, *words))
        status, cut, err = system.run(f"/prog_{name}", FONT)
        same(f"C, {name}: it ends well", (0, b""), (status, err))
        same_bytes(f"C, {name}: the cut", wanted["latin"], cut)


def install_lines(arch: Architecture) -> dict[str, str]:
    """The lines of README.md that install a release, by the program that each begins with."""
    lines = re.findall(r"^    ((?:dpkg|pip|tar) .*?)(?:  .*)?$", named_for(arch), re.M)
    return {line.split()[0]: line for line in lines}


def named_for(arch: Architecture) -> str:
    """README.md, with the names of an architecture in the place of those of this machine, as it says."""
    own = architectures()[0]
    return text_of("README.md").replace(own.debian, arch.debian).replace(own.processor, arch.processor)


def from_python(system: System, wanted: Mapping[str, Optional[bytes]]) -> None:
    """The wheel in a folder of its own, and a program over it."""
    system.sh("Python", "/usr/bin/python3 -m venv /venv")
    pip = install_lines(system.arch)["pip"].replace("pip install", "pip install --no-index --no-cache-dir -q")
    system.sh("Python", pip, cwd="/dist", path="/venv/bin:/usr/bin:/bin")
    by_wheel("Python", system, wanted)
    named_preset("wheel", system, "/venv/bin/fontcut")


def by_wheel(name: str, system: System, wanted: Mapping[str, Optional[bytes]]) -> None:
    """A program over what is installed in that folder, and the program that the wheel brings."""
    os.makedirs(system.path("/made"), exist_ok=True)
    status, told, err = system.run("/venv/bin/python", "-c", FROM_PYTHON, FONT, "/made")
    same(f"{name}: it ends well", (0, f"{VERSION} True\n", b""), (status, told.decode(), err))
    for file in wanted:
        same_bytes(f"{name}: {file}", wanted[file], held(system.path(f"/made/{file}.ttf")))
    same(f"{name}: the program", run(PROGRAM, "demo"), system.run("/venv/bin/fontcut", "demo"))


def by_debians_python(system: System) -> None:
    """The package for Python: the module, and the programs for PDF files and for the web, which say what they lack."""
    os.mkdir(system.path("/by_package"))
    status, told, err = system.run("/usr/bin/python3", "-c", FROM_PYTHON, FONT, "/by_package")
    same("the package for Python: the module", (0, f"{VERSION} True\n", b""), (status, told.decode(), err))
    same("the package for Python: fontcut-pdf without pikepdf", (
        3, b"", b"fontcut-pdf: needs pikepdf: apt install python3-pikepdf\n"), system.run("fontcut-pdf", "fonts", FONT))
    same("the package for Python: fontcut-pdf", (0, f"fontcut-pdf {VERSION}\n".encode(), b""),
         system.run("fontcut-pdf", "--version"))
    same("the package for Python: fontcut-web", (0, f"fontcut-web {VERSION}\n".encode(), b""),
         system.run("fontcut-web", "--version"))
    same("the package for Python: fontcut-web without fontTools", (
        3, b"", b"fontcut-web: /usr/bin/python3 has no fontTools: apt install python3-fonttools python3-brotli, "
                b"or pip install 'fontcut[web]'\n"),
        system.run("fontcut-web", "slice", FONT, "--out", "/site", "--slices", "web", "--quiet"))


def by_packages(system: System, dist: str, wanted: Mapping[str, Optional[bytes]]) -> None:
    """The packages are installed by the lines of README.md: the program alone, then all."""
    shutil.copytree(dist, system.path("/dist"))
    lines, packages = install_lines(system.arch), [name for name in files_for(system.arch) if name.endswith(".deb")]
    same("README.md: the lines that install", ["dpkg", "pip", "tar"], list(lines))
    system.sh("README.md", lines["dpkg"], cwd="/dist")
    recipes_there("package", system, wanted, "/usr/bin:/bin")
    named_preset("package", system, "/usr/bin/fontcut")
    named = found_in(named_for(system.arch), r"`dpkg -i (.*?)`")[1].split()
    same("README.md: the packages", sorted([*packages, f"python3-fontcut_{VERSION}_all.deb"]), sorted(
        os.path.basename(path) for name in named for path in glob.glob(os.path.join(dist, name))))
    system.sh("README.md, all packages", f"dpkg -i {' '.join(named)}", cwd="/dist")
    by_debians_python(system)


def by_archive(system: System, wanted: Mapping[str, Optional[bytes]]) -> None:
    """The archive is unpacked by the line of README.md."""
    system.sh("README.md", install_lines(system.arch)["tar"], cwd="/dist")
    recipes_there("archive", system, wanted, "/usr/local/bin:/usr/bin:/bin")
    named_preset("archive", system, "/usr/local/bin/fontcut")
    same_bytes("the archive: its program", held(system.path("/usr/bin/fontcut")),
               held(system.path("/usr/local/bin/fontcut")))
    same("the archive: its module for Python", (0, f"{VERSION} True\n"), tuple(
        part.decode() if isinstance(part, bytes) else part for part in system.run(
            "env", "PYTHONPATH=/usr/local/lib/python3/dist-packages", "/usr/bin/python3", "-c", FROM_PYTHON, FONT,
            "/made")[:2]))


def removed(system: System) -> None:
    """The packages leave nothing when they are removed."""
    left = system.sh("removed", "dpkg --purge fontcut python3-fontcut libfontcut-dev libfontcut0 >&2; "
                     "find /usr -path /usr/local -prune -o -name '*fontcut*' -print")
    same("removed: what is left", b"", left)
