"""Collects the files of the wheel and of the package for Debian, and their origin.

Both have the programs, the library, and a tree of files in which each tool finds them as in the archive of tools/pack.py: what that has,
without its shell scripts and its site. A version is that of the library, as include/lw.h has it and the library says of itself, then the time of
the commit, which sorts, and the commit.
"""
from __future__ import annotations

import os
import re
import subprocess
import sys
import time
from collections.abc import Callable
from typing import NamedTuple

import pack
from page import web_files
from program import build
from shared import command
from shared.home import HOME
from shared.matches import require_match

SUMMARY = "An x86-TSO litmus workbench that is proved correct"
LICENCE = "No licence has been chosen yet: that is for the owner to do, and until then nobody else has the right to change lw or to hand it on"
LW, BEYOND, LIBRARY = "crates/lw/out/lw", "crates/beyond/out/beyond", "python/liblw.so"
# The files of tools/pack.py that the tree leaves out: the scripts of installed commands, and the library for C.
LEFT_OUT = ("lw", "beyond", "page", "crates/lw_library/out/*.a")
# The tools that are commands: `lw-from-c` is tools/from_c.py, `lw-page` is ./page. Each is a module of tools/. The others make documents, or help these.
TOOLS = """assume cycles fences from_c from_herd graph make_lab make_quiz make_site make_slides on_machine page picture plain read_codes run_all
    to_herd""".split()


class Origin(NamedTuple):
    """The origin of a package: the commit, its time, the toolchain, and how the gate ended that proved it."""

    commit: str
    seconds: int
    toolchain: str
    gate: str

    @property
    def version(self) -> str:
        """Returns the version: that of the library, the day, and hour and minute of the commit (UTC), and its first eight digits."""
        time_of_commit = time.gmtime(self.seconds)
        day, minute = time.strftime("%Y%m%d", time_of_commit), 100 * time_of_commit.tm_hour + time_of_commit.tm_min
        return f"{read_library_version()}.{day}.{minute}+g{self.commit[:8]}"

    @property
    def is_proved_here(self) -> bool:
        """Returns whether the gate has passed for these sources."""
        return self.gate != pack.NO_GATE


def read_library_version() -> str:
    """Returns the version of the library, by include/lw.h."""
    with open(os.path.join(HOME, "include", "lw.h"), encoding="utf-8") as file:
        number = int(require_match(re.search(r"^#define LW_VERSION (\d+)$", file.read(), re.M))[1])
    return "{}.{}".format(*divmod(number, 100))


def read_origin() -> Origin:
    """Returns the origin of the sources. Raises NoPack if they are not those of the commit."""
    commit = pack.find_commit()
    seconds = int(pack.capture_lines("git", "show", "-s", "--format=%ct", commit)[0])
    return Origin(commit, seconds, " ".join(pack.capture_lines("rt", "version")), pack.describe_gate())


def name_command(tool: str) -> str:
    """Returns the name under which a tool is a command."""
    return f"lw-{tool.replace('_', '-')}"


def find_tool(tool: str) -> str:
    """Returns the file of a tool in the tree."""
    return "tools/page/__main__.py" if tool == "page" else f"tools/{tool}.py"


def read_files() -> dict[str, bytes]:
    """Returns the tree: for each name its bytes. The program beyond is in it if it is built. Raises NoPack if another part is not built."""
    if not pack.is_built(build.LW):
        raise pack.NoPack("there is no program lw of these sources: run ./lw")
    if not web_files.read_modules():
        raise pack.NoPack("the WebAssembly module of these sources is missing: run tools/build_wasm.py")
    has_beyond = pack.is_built(build.BEYOND)
    parts = [it for it in pack.FILES if it not in LEFT_OUT and (has_beyond or it != BEYOND)]
    return {**pack.read_taken_files(parts), **pack.read_licences(), LIBRARY: pack.make_shared_library()}


def is_program(content: bytes) -> bool:
    """Returns whether a file is made to be run. (A file of Rust may begin with `#![`.)"""
    return content.startswith((b"#!/", b"\x7fELF"))


def find_least_glibc(contents: list[bytes]) -> tuple[int, int]:
    """Returns the least version of glibc that has all versions of symbols that programs or libraries for Linux name."""
    names = {it for content in contents for it in re.findall(rb"\0GLIBC_(\d+)\.(\d+)(?:\.\d+)?(?=\0)", content)}
    return max((int(major), int(minor)) for major, minor in names)


def describe_provenance(origin: Origin, has_beyond: bool) -> str:
    """Returns the sentences that say where something comes from, and on what its reader relies."""
    beyond = "" if has_beyond else "The program beyond is not in it, since it was not built.\n"
    gate = ", and that the gate\nended as it says above" if origin.is_proved_here else ""
    library = "" if origin.is_proved_here else f"\n{pack.NO_LIBRARY.capitalize()}: the gate builds it anew."
    return (
        f"Commit: {origin.commit}\nToolchain: {origin.toolchain}\nThe gate (./test.sh): {origin.gate}\n\n{beyond}"
        f"Whoever takes it trusts that its maker built the programs and the library of this commit{gate}; or proves the commit.{library}\n\n"
        f"{LICENCE}.\n"
    )


def make_warning(origin: Origin, has_beyond: bool) -> list[str]:
    """Returns the lines on standard error that say what a package lacks: a gate that has passed, or the program beyond."""
    return pack.make_warning(origin.gate) + ([] if has_beyond else ["note: the program beyond is not built, and left out"])


def write_file(folder: str, name: str, content: bytes) -> str:
    """Writes a file, under another name first, so that no half of one is left. Returns its path."""
    os.makedirs(folder, exist_ok=True)
    path = os.path.join(folder, name)
    with open(f"{path}.new", "wb") as file:
        file.write(content)
    os.replace(f"{path}.new", path)
    return path


def make_and_report(name: str, usage: str | None, write: Callable[[str, Origin, dict[str, bytes]], str]) -> int:
    """Runs a command with one word, the folder into which `write` puts what it makes. Returns the exit status."""
    reader = command.Reader(usage)
    reader.add_argument("folder", metavar="FOLDER")
    folder = reader.read().folder
    try:
        commit_and_tools, tree = read_origin(), read_files()
        path = write(folder, commit_and_tools, tree)
    except (pack.NoPack, OSError, subprocess.CalledProcessError) as why:
        print(f"no {name}: {why}", file=sys.stderr)
        return 1
    for line in make_warning(commit_and_tools, BEYOND in tree):
        print(line, file=sys.stderr)
    print(path)
    return 0
