#!/usr/bin/env python3
"""Makes the WebAssembly modules of the library from what is proved.

    python3 tools/build_wasm.py [FOLDER]
    python3 tools/build_wasm.py --after-rt-ci

FOLDER/lw.wasm has a 64-bit memory: it is lw_library, built by `rt lib` in a copy of the repository whose crates.txt says wasm64
where this one says staticlib. If wasm-opt is installed (Debian's package binaryen), it makes FOLDER/lw32.wasm from it, for browsers
without 64-bit memories. Without FOLDER they go to crates/lw_library/out, where the page and the tools look for them. The compiler
for WebAssembly and wasm-opt are not proved; tools/gate/check_site.py compares what the modules answer with the program's bytes. The file
FOLDER/modules-of has a checksum of the sources of which the modules are made: tools/page/web_files.py uses modules only of the present sources.

The copy is in the folder for temporary files, and begins with what is built here, so only what is not proved yet is proved there.

With --after-rt-ci, as the gate has it, the libraries are those that `rt ci` has just proved here, and liblw_library.a is built too.
(`rt ci` cuts the proofs out of its libraries and gives them no stamp, so that other commands do not use them: libraries of two runs would
not fit together. Here all are of one run: the gate removes those of earlier runs first, and a library with a stamp is refused.)
"""
from __future__ import annotations

import hashlib
import importlib.machinery
import importlib.util
import os
import shutil
import subprocess
import sys
import tempfile

from shared import command, start
from shared.home import HOME, read_crates

LIBRARY = "lw_library"
STACK = 1048576
LOWER = """--enable-memory64 --enable-bulk-memory --enable-mutable-globals --enable-sign-ext --enable-multivalue
    --enable-nontrapping-float-to-int -O3 --memory64-lowering""".split()


def list_needed_crates(lines: dict[str, tuple[str, list[str]]], crate: str) -> list[str]:
    """Returns a crate of the repository and those on which it depends."""
    needed_crates = [crate]
    for needed_crate in needed_crates:
        needed_crates += [name for name in lines[needed_crate][1] if name in lines and name not in needed_crates]
    return needed_crates


def hash_sources() -> str:
    """Returns a checksum, in hexadecimal digits, of the library's code and contracts and of the graph of crates. The file `modules-of` has that of
    the sources of which the modules are.
    """
    lines, checksum = read_crates(), hashlib.sha256()
    for name in list_needed_crates(lines, LIBRARY):
        checksum.update(repr((name, lines[name])).encode())
        for part in ("src", "specs"):
            for folder, folders, files in os.walk(f"{HOME}/crates/{name}/{part}"):
                folders.sort()
                for file in sorted(files):
                    with open(f"{folder}/{file}", "rb") as stream:
                        checksum.update(repr((f"{folder[len(HOME):]}/{file}", stream.read())).encode())
    return checksum.hexdigest()


# The copy.


def write_crate_list(folder: str, kind: str) -> None:
    """Writes the copy's list of crates, with the library as one of a kind."""
    lines = read_crates()
    with open(f"{folder}/crates.txt", "w", encoding="utf-8") as file:
        for name in list_needed_crates(lines, LIBRARY):
            file.write(f"{name}{kind if name == LIBRARY else ''}: {' '.join(lines[name][1])}\n")


def copy_sources(folder: str) -> None:
    """Copies the library's sources, with what is already built of them."""
    shutil.copy(f"{HOME}/HANDLES", folder)
    for name in list_needed_crates(read_crates(), LIBRARY):
        source, target = f"{HOME}/crates/{name}", f"{folder}/crates/{name}"
        os.makedirs(target)
        for part in ("src", "specs", "proofs", "out/rlib"):
            if os.path.isdir(f"{source}/{part}"):
                shutil.copytree(f"{source}/{part}", f"{target}/{part}", symlinks=True)


def has_stamps(folder: str) -> bool:
    """Returns whether libraries of the copy were built by commands other than `rt ci`."""
    return any(os.path.exists(f"{folder}/crates/{it}/out/rlib/stamp") for it in os.listdir(f"{folder}/crates"))


def stamp_libraries(folder: str) -> None:
    """Gives the copy's libraries the stamps with which `rt lib` accepts them."""
    kit = os.path.dirname(subprocess.run(["rt", "doc"], capture_output=True, text=True, check=True).stdout)
    loader = importlib.machinery.SourceFileLoader("rtlib", f"{kit}/bin/rtlib.py")
    spec = importlib.util.spec_from_loader("rtlib", loader)
    assert spec is not None
    rtlib = importlib.util.module_from_spec(spec)
    loader.exec_module(rtlib)
    for below in rtlib.Crate(f"{folder}/crates/{LIBRARY}", folder, {}).below():
        with open(f"{below.folder}/out/rlib/stamp", "w", encoding="utf-8") as stamp:
            stamp.write(below.stamp())


def build(folder: str, kind: str, built: str, target: str) -> int:
    """Builds the library as one of a kind, and copies the built file to its place. Returns the exit status."""
    write_crate_list(folder, kind)
    status = subprocess.run(["rt", "lib"], cwd=f"{folder}/crates/{LIBRARY}", check=False).returncode
    if not status:
        shutil.copy(f"{folder}/crates/{LIBRARY}/out/{built}", target)
    return status


def main() -> int:
    """Builds the modules. Returns the exit status."""
    reader = command.Reader(__doc__)
    reader.add_argument("folder", nargs="?", metavar="FOLDER")
    reader.add_argument("--after-rt-ci", action="store_true")
    arguments = reader.read()
    if arguments.folder is not None and arguments.after_rt_ci:
        reader.error("either a FOLDER or --after-rt-ci")
    out = f"{HOME}/crates/{LIBRARY}/out" if arguments.folder is None else os.path.abspath(arguments.folder)
    os.makedirs(out, exist_ok=True)
    with tempfile.TemporaryDirectory(prefix="lw-wasm-") as folder:
        made_of = hash_sources()
        copy_sources(folder)
        status = 0
        # The static library, by what rt ci has proved.
        if arguments.after_rt_ci:
            write_crate_list(folder, " staticlib")
            if has_stamps(folder):
                print("build_wasm: these libraries are not those of rt ci", file=sys.stderr)
                return 1
            stamp_libraries(folder)
            status = build(folder, " staticlib", f"lib{LIBRARY}.a", out)
        # The module with a memory of 64 bits, from which wasm-opt makes the one with 32 bits.
        status = status or build(folder, f" wasm64 stack={STACK}", f"{LIBRARY}.wasm", f"{out}/lw.wasm")
        if status:
            return status
    with open(f"{out}/modules-of", "w", encoding="utf-8") as file:
        file.write(made_of + "\n")
    if not shutil.which("wasm-opt"):
        print("no wasm-opt: lw32.wasm is not made", file=sys.stderr)
        return 0
    return subprocess.run(["wasm-opt", *LOWER, f"{out}/lw.wasm", "-o", f"{out}/lw32.wasm"], check=False).returncode


if __name__ == "__main__":
    sys.exit(start.run(main))
