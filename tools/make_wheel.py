#!/usr/bin/env python3
"""Makes the wheel: FOLDER/lw-VERSION-py3-none-manylinux_X_Y_x86_64.whl, for `pip install`.

    python3 tools/make_wheel.py FOLDER

In a Linux on x86-64 with glibc and Python 3.8 or later, `pip install lw-*.whl` gives `import lw`, the library's Python interface
(docs/LIBRARY.md), with the library; the commands `lw` and `beyond`, which are the proved programs; the tools as commands, `lw-fences` for
tools/fences.py and so on; and `python -m lw`, whose `--help` lists them all. Nothing else is needed, and no network. X.Y is the version of
glibc that the programs need.

`pip install .` in the repository makes and installs it too (pyproject.toml).

It is made from a built tree, as the archive of tools/pack.py is: the sources are those of a commit, and the programs, the library and its
module are built. Otherwise it says what is missing, with status 1, and writes nothing. If the gate (./test.sh) has not passed for these
sources, the wheel is made too, and its description and a line on standard error say so, and that nothing has compared the library with the
sources. The same tree gives the same bytes.
"""
from __future__ import annotations

import base64
import hashlib
import io
import os
import sys
import zipfile
from collections.abc import Mapping
from typing import NoReturn

sys.dont_write_bytecode = True
from packing import tree
from packing.tree import Origin
from shared import start
from shared.home import HOME

PACKAGE = os.path.join(HOME, "tools", "packing", "package")
METADATA = f"""Metadata-Version: 2.1
Name: lw
Version: {{version}}
Summary: {tree.SUMMARY}
License: {tree.LICENCE}
Classifier: Private :: Do Not Upload
Classifier: Operating System :: POSIX :: Linux
Classifier: Programming Language :: Python :: 3
Requires-Python: >=3.8
Description-Content-Type: text/plain

lw takes a litmus test, a few short threads with a question about their final state, and lists every state that the test can end in, with a
schedule that leads to each. No state is missing from a list, and some run ends in each state of it; that is proved.

    lw states < FILE            the program
    beyond states < FILE        the program for tests that lw refuses for their size
    python -m lw states FILE    the same, on a file
    python -m lw --help         the tools
    import lw                   the library

{{provenance}}"""
WHEEL = "Wheel-Version: 1.0\nGenerator: tools/make_wheel.py\nRoot-Is-Purelib: false\nTag: {tag}\n"
# The time of each file in it: the earliest that a zip file can have.
TIME = (1980, 1, 1, 0, 0, 0)


def make_tag(files: Mapping[str, bytes]) -> str:
    """Returns the systems on which it runs, as a wheel's name says."""
    programs = [it for it in files.values() if it.startswith(b"\x7fELF")]
    return "py3-none-manylinux_{}_{}_x86_64".format(*tree.find_least_glibc(programs))


def list_package_files() -> dict[str, bytes]:
    """Returns the package's own files: what makes the tree a package of Python."""
    package = {}
    for name in ("__init__.py", "__main__.py"):
        with open(os.path.join(PACKAGE, name), "rb") as file:
            package[f"lw/{name}"] = file.read()
    listed = [f"{tree.name_command(it)[len('lw-'):]} {it}\n" for it in tree.TOOLS]
    return {**package, "lw/tools.txt": "".join(listed).encode()}


def list_contents(origin: Origin, files: Mapping[str, bytes]) -> tuple[dict[str, bytes], str]:
    """Returns the bytes of each name in the wheel, and its tag."""
    tag, top = make_tag(files), f"lw-{origin.version}"
    wheel = {f"lw/{name}": it for name, it in files.items()}
    wheel.update(list_package_files())
    # Commands that are the programs themselves. (A wheel has no links, so they are in it twice: the tools look for theirs in the tree.)
    for path in (tree.LW, tree.BEYOND):
        if path in files:
            wheel[f"{top}.data/scripts/{os.path.basename(path)}"] = files[path]
    scripts = "".join(f"{tree.name_command(it)} = lw.__main__:commands.{it}\n" for it in tree.TOOLS)
    metadata = METADATA.format(version=origin.version, provenance=tree.describe_provenance(origin, tree.BEYOND in files))
    described = {"METADATA": metadata, "WHEEL": WHEEL.format(tag=tag), "entry_points.txt": f"[console_scripts]\n{scripts}"}
    wheel.update({f"{top}.dist-info/{name}": text.encode() for name, text in described.items()})
    record = f"{top}.dist-info/RECORD"
    rows = [f"{name},sha256={hash_content(wheel[name])},{len(wheel[name])}\n" for name in sorted(wheel)]
    return {**wheel, record: "".join([*rows, f"{record},,\n"]).encode()}, tag


def hash_content(content: bytes) -> str:
    """Returns the checksum of some bytes, as RECORD has it."""
    return base64.urlsafe_b64encode(hashlib.sha256(content).digest()).rstrip(b"=").decode()


def make_zip(files: Mapping[str, bytes]) -> bytes:
    """Returns the bytes of a zip file: the package's files first, its description last."""
    stream = io.BytesIO()
    with zipfile.ZipFile(stream, "w", zipfile.ZIP_DEFLATED) as archive:
        for name in sorted(files, key=lambda name: (".dist-info/" in name, name)):
            info = zipfile.ZipInfo(name, TIME)
            info.compress_type, info.create_system = zipfile.ZIP_DEFLATED, 3
            info.external_attr = (0o100755 if tree.is_program(files[name]) else 0o100644) << 16
            archive.writestr(info, files[name])
    return stream.getvalue()


def write_wheel(folder: str, origin: Origin, files: Mapping[str, bytes]) -> str:
    """Writes the wheel. Returns its path."""
    wheel, tag = list_contents(origin, files)
    return tree.write_file(folder, f"lw-{origin.version}-{tag}.whl", make_zip(wheel))


def build_wheel(wheel_directory: str, config_settings: object = None, metadata_directory: object = None) -> str:
    """Makes the wheel for `pip install .`, which calls this by pyproject.toml (PEP 517). Returns the wheel's name."""
    origin, files = tree.read_origin(), tree.read_files()
    for line in tree.make_warning(origin, tree.BEYOND in files):
        print(line, file=sys.stderr)
    return os.path.basename(write_wheel(wheel_directory, origin, files))


def build_sdist(sdist_directory: str, config_settings: object = None) -> NoReturn:
    """Raises NotImplementedError: PEP 517 has this call, but the sources can't be built without their toolchain."""
    raise NotImplementedError("there is no sdist: the sources are the repository's")


def main() -> int:
    """Runs the command that the arguments describe. Returns the exit status."""
    return tree.make_and_report("wheel", __doc__, write_wheel)


if __name__ == "__main__":
    sys.exit(start.run(main))
