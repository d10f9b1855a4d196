#!/usr/bin/env python3
"""Packs the proved workbench for users without the toolchain: FOLDER/lw-COMMIT-linux-x86_64.tar.gz.

    python3 tools/pack.py FOLDER

Unpacked anywhere on a Linux with glibc and Python, ./lw, ./beyond, ./page and the tools for users run as they do here. It holds the proved
programs; the library with its header and its Python module; the WebAssembly module; the site, as files and as one file; web page, tools,
examples and documents; the licence texts of the crates of others that are linked in; checksums; and PACK.txt, which says of which commit
it was made, by which toolchain, and how the gate ended that proved it.

It is made only from a built tree: the sources are those of the commit, and the programs of these sources, the library and its modules
(tools/build_wasm.py) are built. Otherwise it says what is missing, with status 1, and writes nothing. If the gate (./test.sh) has not passed
for these sources in this checkout, PACK.txt and a line on standard error say so; the gate may have passed elsewhere.
"""
from __future__ import annotations

import glob
import gzip
import hashlib
import io
import os
import re
import subprocess
import sys
import tarfile
import tempfile
from collections.abc import Sequence
from typing import IO, cast

sys.dont_write_bytecode = True
import make_site
from page import web_files
from program import build
from shared import command, start
from shared.home import HOME, read_crates, read_lines

OUT = f"{HOME}/crates/lw/out"
LIBRARY = "crates/lw_library/out/liblw_library.a"
# The files that are copied. Of the tools, those that need neither the toolchain nor the sources.
FILES = """lw beyond page README.md docs/*.md docs/pictures/* examples/* examples/*/* include/* python/* web/* tools/program/*
    tools/__main__.py tools/assume.py tools/beyond.py tools/build_wasm.py tools/cycles.py tools/effects.py tools/executions.py tools/fences.py
    tools/films.py tools/from_c.py tools/from_herd.py tools/given.py tools/graph.py tools/on_machine.py tools/picture.py tools/plain.py
    tools/random_tests.py tools/read_codes.py tools/replay_state.py tools/run_all.py tools/to_herd.py
    tools/c/* tools/fencing/*.py tools/herd/*.py tools/herd/tests/* tools/interpreter/*.py tools/lab/*.html tools/lab/*.py
    tools/machine/*.py tools/machine/harness/* tools/many/*.py tools/search/*.py tools/search/tests/* tools/shapes/*.py tools/shared/*.py
    tools/editor/vscode/* tools/editor/README.md tools/build_wasm.py tools/make_lab.py tools/make_quiz.py tools/make_site.py tools/make_slides.py tools/page/*.py
    crates/lw/out/lw crates/beyond/out/beyond crates/lw_library/out/*.a crates/lw_library/out/*.wasm""".split()
# How the gate ended, if nothing here says that it has passed.
NO_GATE = "has not passed for these sources in this checkout; whether it has elsewhere, nothing here says"
# The warning in place of a comparison by the gate.
NO_LIBRARY = "that the library is that of these sources was not checked"
SHARED = ["cc", "-shared", "-Wl,--whole-archive", f"{HOME}/{LIBRARY}", "-Wl,--no-whole-archive", "-o"]
DESCRIPTION = """lw, packed

Commit:    {commit}
Toolchain: {toolchain}
The gate:  {gate}

./lw states < examples/SB-x86.litmus    the program
./beyond states FILE                    the program for tests that ./lw refuses for their size
./page                                  the page, on this machine
site.html                               the page in a browser, without a server
README.md                               what it is, what is proved, and what users of this pack have to believe

The checksums are those of each file here: sha256sum -c SHA256SUMS
"""


class NoPack(Exception):
    """The pack can't be made, and why."""


def capture_lines(*arguments: str) -> list[str]:
    """Returns the lines that a command prints; none if it fails."""
    ran = subprocess.run(arguments, cwd=HOME, stdout=subprocess.PIPE, stderr=subprocess.DEVNULL, text=True, check=False)
    return ran.stdout.splitlines() if ran.returncode == 0 else []


# The sources of a pack.


def find_commit() -> str:
    """Returns the commit of the sources. Raises NoPack if this is no checkout, or files differ from the commit."""
    commit = capture_lines("git", "rev-parse", "HEAD")
    if not commit:
        raise NoPack("this is no checkout of the repository")
    if capture_lines("git", "status", "--porcelain"):
        raise NoPack("files differ from the commit's: commit them, or put them away")
    return commit[0]


def describe_gate() -> str:
    """Returns how the gate ended that proved the program, by the last line of ./test.sh for these sources, or that it has not passed here."""
    made_of, lines_of_gate = read_lines(f"{OUT}/made-of"), read_lines(f"{OUT}/gate")
    if len(made_of) < 4 or len(lines_of_gate) != 2 or lines_of_gate[0] != made_of[3]:
        return NO_GATE
    return lines_of_gate[1]


def read_licences() -> dict[str, bytes]:
    """Returns the licence texts of the crates of others that the program is linked with: for each name its bytes. Raises NoPack if one is missing."""
    ours = {os.path.basename(it) for it in glob.glob(f"{HOME}/crates/*")}
    tests = re.compile(r"\w+_tests|lw_test_reader")
    crates = {it for name, (_, below) in read_crates().items() if not tests.fullmatch(name) for it in below}
    doc = capture_lines("rt", "doc")
    if not doc:
        raise NoPack("the toolchain's command rt does not run")
    kit = os.path.dirname(doc[0])
    licences = {}
    for crate in sorted(crates - ours):
        texts = glob.glob(f"{kit}/rattle/{crate}/LICEN[CS]E*")
        if not texts:
            raise NoPack(f"the crate {crate} comes without a licence text")
        for path in texts:
            with open(path, "rb") as file:
                licences[f"licences/{crate}/{os.path.basename(path)}"] = file.read()
    return licences


def is_built(program: build.Program) -> bool:
    """Returns whether a program is there, and that of the sources."""
    return build.ask_program_sh("is_current", program) is not None


def read_taken_files(parts: Sequence[str] = tuple(FILES)) -> dict[str, bytes]:
    """Returns the files that are taken as they are: for each name its bytes. Raises NoPack if one is missing."""
    taken_files = {}
    for part in parts:
        paths = [it for it in glob.glob(f"{HOME}/{part}") if os.path.isfile(it)]
        if not paths:
            raise NoPack(f"{part} is missing")
        for path in paths:
            with open(path, "rb") as file:
                taken_files[os.path.relpath(path, HOME)] = file.read()
    return taken_files


def make_shared_library() -> bytes:
    """Returns the library as a shared object."""
    with tempfile.TemporaryDirectory(prefix="lw-pack-") as folder:
        subprocess.run([*SHARED, f"{folder}/liblw.so"], check=True)
        with open(f"{folder}/liblw.so", "rb") as file:
            return file.read()


def make_files() -> dict[str, bytes]:
    """Returns the files that are made for it: the site, and the library as a shared object. Raises NoPack if the module is missing."""
    modules = web_files.read_modules()
    if not modules:
        raise NoPack("the WebAssembly module of these sources is missing: run tools/build_wasm.py")
    with tempfile.TemporaryDirectory(prefix="lw-pack-") as folder:
        make_site.make_site(f"{folder}/site", modules)
        make_site.make_site(f"{folder}/site.html", modules, True)
        files = {"python/liblw.so": make_shared_library()}
        for path in glob.glob(f"{folder}/**", recursive=True):
            if os.path.isfile(path):
                with open(path, "rb") as file:
                    files[os.path.relpath(path, folder)] = file.read()
        return files


# The pack.


def make_contents(made_by: str, gate: str) -> dict[str, bytes]:
    """Returns the bytes of each file of a pack, by its name; `made_by` is the commit, and `gate` says how the gate ended. Raises NoPack if a program
    is not built.
    """
    for program in (build.LW, build.BEYOND):
        if not is_built(program):
            raise NoPack(f"there is no program {program.name} of these sources: run ./{program.name}")
    ended = f"{gate}\n           ({NO_LIBRARY})" if gate == NO_GATE else gate
    description = DESCRIPTION.format(commit=made_by, toolchain=" ".join(capture_lines("rt", "version")), gate=ended)
    files = {**read_taken_files(), **make_files(), **read_licences(), "PACK.txt": description.encode()}
    sums = "".join(f"{hashlib.sha256(files[name]).hexdigest()}  {name}\n" for name in sorted(files))
    return {**files, "SHA256SUMS": sums.encode()}


def write_pack(path: str, top: str, files: dict[str, bytes]) -> None:
    """Writes the pack under another name first, so that none is there by half. The same contents give the same bytes."""
    with open(f"{path}.new", "wb") as file, gzip.GzipFile("", "wb", mtime=0, fileobj=file) as packed:
        with tarfile.open(fileobj=cast(IO[bytes], packed), mode="w") as tar:
            for name in sorted(files):
                info = tarfile.TarInfo(f"{top}/{name}")
                info.size = len(files[name])
                info.mode = 0o755 if files[name].startswith((b"#!", b"\x7fELF")) else 0o644
                tar.addfile(info, io.BytesIO(files[name]))
    os.replace(f"{path}.new", path)


def make_warning(gate: str) -> list[str]:
    """Returns the lines on standard error that say that the gate has not passed here."""
    return [f"note: the gate (./test.sh) {gate}; {NO_LIBRARY}; what is made says so"] if gate == NO_GATE else []


def main() -> int:
    """Runs the command that the arguments describe. Returns the exit status."""
    reader = command.Reader(__doc__)
    reader.add_argument("folder", metavar="FOLDER")
    folder = reader.read().folder
    try:
        made_by = find_commit()
        gate = describe_gate()
        files = make_contents(made_by, gate)
        top = f"lw-{made_by[:8]}-linux-x86_64"
        os.makedirs(folder, exist_ok=True)
        write_pack(f"{folder}/{top}.tar.gz", top, files)
    except (NoPack, make_site.NoSite, OSError, subprocess.CalledProcessError) as why:
        print(f"no pack: {why}", file=sys.stderr)
        return 1
    for line in make_warning(gate):
        print(line, file=sys.stderr)
    print(f"{folder}/{top}.tar.gz")
    return 0


if __name__ == "__main__":
    sys.exit(start.run(main))
