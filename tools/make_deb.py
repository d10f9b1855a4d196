#!/usr/bin/env python3
"""Makes a package for Debian: FOLDER/lw_VERSION_amd64.deb.

    python3 tools/make_deb.py FOLDER

`apt install ./lw_*.deb` gives the commands `lw` and `beyond`, which are the proved programs; the tools as commands, `lw-fences` for
tools/fences.py and so on; a manual page for each, and completions for bash, zsh and fish; the library for C, with include/lw.h and a file for pkg-config
(`cc use.c $(pkg-config --cflags --libs lw)`), and for Python (`import lw`); and the documents, examples and tools in /usr/share/lw. It needs
glibc, of the version that the programs need, and Python.

It is made from a built tree, as the wheel is (tools/make_wheel.py), by the same rules: if something is missing, it says what, with status 1, and
writes nothing; if the gate has not passed for this checkout, the description and a line on standard error say so. The same tree gives the same
bytes.
"""
from __future__ import annotations

import gzip
import hashlib
import io
import os
import posixpath
import sys
import tarfile
from collections.abc import Iterable, Mapping
from typing import Dict, Union

sys.dont_write_bytecode = True
import pack
from packing import completion, manual, tree
from packing.tree import Origin
from shared import start
from shared.home import HOME

DEBIAN = os.path.join(HOME, "tools", "packing", "debian")
SHARE, LIB, PYTHON = "usr/share/lw", "usr/lib/x86_64-linux-gnu", "usr/lib/python3/dist-packages"
CONTROL = f"""Package: lw
Version: {{version}}
Architecture: amd64
Maintainer: made by tools/make_deb.py <nobody@example.invalid>
Installed-Size: {{size}}
Depends: libc6 (>= {{libc}}), python3 (>= 3.8)
Suggests: gcc, clang, binutils, pkgconf, bash-completion
Section: science
Priority: optional
Description: {tree.SUMMARY}
 lw takes a litmus test, a few short threads with a question about their final
 state, and lists every state that the test can end in, with a schedule that
 leads to each. No state is missing from a list, and some run ends in each
 state of it; that is proved.
 .
{{description}}"""
PKG_CONFIG = f"""prefix=/usr
includedir=${{{{prefix}}}}/include
libdir=${{{{prefix}}}}/{LIB[len("usr/") :]}

Name: lw
Description: {tree.SUMMARY}
Version: {{version}}
Cflags: -I${{{{includedir}}}}
Libs: -L${{{{libdir}}}} -llw
"""
COMMAND = f'#!/bin/sh\nexec /usr/bin/python3 -B /{SHARE}/tools {{tool}} "$@"\n'


class Link(str):
    """The target of a symbolic link, from the top of the system."""


# The files of a package: for each name the bytes, or the target of a link.
Installed = Dict[str, Union[bytes, Link]]


def compress(content: bytes) -> bytes:
    """Returns bytes in gzip's form. No time is in it, so the result depends only on these bytes."""
    stream = io.BytesIO()
    with gzip.GzipFile("", "wb", mtime=0, fileobj=stream) as zipper:
        zipper.write(content)
    return stream.getvalue()


def read_packing_file(name: str) -> bytes:
    """Returns the bytes of a file of tools/packing/debian."""
    with open(os.path.join(DEBIAN, name), "rb") as file:
        return file.read()


def list_tree_files(files: Mapping[str, bytes]) -> Installed:
    """Returns the tree in /usr/share/lw, with its programs and the library where Debian has such files."""
    places = {tree.LIBRARY: f"{LIB}/liblw.so", tree.LW: "usr/bin/lw", tree.BEYOND: "usr/bin/beyond"}
    package: Installed = {}
    for name, content in files.items():
        if name in places:
            package[places[name]] = content
        package[f"{SHARE}/{name}"] = Link(places[name]) if name in places else content
    return package


def list_library_files(version: str) -> Installed:
    """Returns the library for C and for Python, without the shared object."""
    with open(os.path.join(HOME, pack.LIBRARY), "rb") as file:
        installed: dict[str, bytes | Link] = {f"{LIB}/liblw.a": file.read()}
    installed[f"{LIB}/pkgconfig/lw.pc"] = PKG_CONFIG.format(version=version).encode()
    installed.update({f"usr/include/{name}": Link(f"{SHARE}/include/{name}") for name in ("lw.h", "lw_see.h")})
    return {**installed, f"{PYTHON}/lw.py": Link(f"{SHARE}/python/lw.py")}


def list_command_files(files: Mapping[str, bytes]) -> Installed:
    """Returns the tools as commands, and the manual pages and completions of all commands."""
    names = [os.path.basename(it) for it in (tree.LW, tree.BEYOND) if it in files]
    installed: dict[str, bytes | Link] = {}
    pages, options = {name: read_packing_file(f"{name}.1") for name in names}, {}
    for tool in tree.TOOLS:
        command, path = tree.name_command(tool), tree.find_tool(tool)
        installed[f"usr/bin/{command}"] = COMMAND.format(tool=tool).encode()
        pages[command] = manual.make_page(tool, files[path].decode()).encode()
        options[command] = completion.list_options(files[path].decode())
    installed.update({f"usr/share/man/man1/{name}.1.gz": compress(page) for name, page in pages.items()})
    installed.update({name: text.encode() for name, text in completion.make_files(options).items()})
    return {**installed, **{name: Link(target) for name, target in completion.list_links(pages).items()}}


def list_document_files(files: Mapping[str, bytes], origin: Origin) -> Installed:
    """Returns the files that each package of Debian has in /usr/share/doc."""
    licences = "".join(f"\n{name}\n\n{files[name].decode()}" for name in sorted(files) if name.startswith("licences/"))
    copyright_text = f"{tree.describe_provenance(origin, tree.BEYOND in files)}\nThe crates of others that are linked in:\n{licences}"
    links = {f"usr/share/doc/lw/{name}": Link(f"{SHARE}/{name}") for name in ("README.md", "docs", "examples")}
    return {"usr/share/doc/lw/copyright": copyright_text.encode(), **links}


def list_installed_files(origin: Origin, files: Mapping[str, bytes]) -> Installed:
    """Returns the installed files: by name, the bytes or the target of a link."""
    return {**list_tree_files(files), **list_library_files(origin.version), **list_command_files(files), **list_document_files(files, origin)}


def format_description(text: str) -> str:
    """Returns a description as control files have it. The lines of its first paragraph stay lines."""
    first, rest = text.rstrip("\n").split("\n\n", 1)
    lines = [f"  {line}" for line in first.split("\n")] + [f" {line or '.'}" for line in ["", *rest.split("\n")]]
    return "".join(f"{it}\n" for it in lines)


def make_control_files(origin: Origin, files: Mapping[str, bytes], package: Installed) -> dict[str, bytes]:
    """Returns the files of the package's own description."""
    regular_files = {name: it for name, it in package.items() if not isinstance(it, Link)}
    least = "{}.{}".format(*tree.find_least_glibc([it for it in files.values() if it.startswith(b"\x7fELF")]))
    size = sum(-(-len(it) // 1024) for it in regular_files.values())
    description = format_description(tree.describe_provenance(origin, tree.BEYOND in files))
    sums = "".join(f"{hashlib.md5(regular_files[name]).hexdigest()}  {name}\n" for name in sorted(regular_files))
    return {"control": CONTROL.format(version=origin.version, size=size, libc=least, description=description).encode(), "md5sums": sums.encode()}


def list_folders(names: Iterable[str]) -> set[str]:
    """Returns all folders above some names."""
    folders = set()
    for name in names:
        while "/" in name:
            name = posixpath.dirname(name)
            folders.add(name)
    return folders


def make_tar(files: Mapping[str, bytes | Link], seconds: int) -> bytes:
    """Returns the bytes of a tar file: all its files are root's, and have the same time."""
    stream = io.BytesIO()
    folders = list_folders(files)
    with tarfile.open(fileobj=stream, mode="w", format=tarfile.GNU_FORMAT) as tar:
        for name in ["", *sorted({*files, *folders})]:
            content = files.get(name)
            info = tarfile.TarInfo(f"./{name}")
            info.mtime, info.uname, info.gname, info.mode = seconds, "root", "root", 0o755
            if content is None:
                info.type = tarfile.DIRTYPE
            elif isinstance(content, Link):
                info.type, info.mode = tarfile.SYMTYPE, 0o777
                info.linkname = posixpath.relpath(content, posixpath.dirname(name))
            else:
                info.size, info.mode = len(content), 0o755 if is_executable(name, content) else 0o644
            tar.addfile(info, io.BytesIO(content) if isinstance(content, bytes) else None)
    return compress(stream.getvalue())


def is_executable(name: str, content: bytes) -> bool:
    """Returns whether a file is executable: a library is not."""
    return tree.is_program(content) and not name.startswith(LIB)


def make_ar(members: Iterable[tuple[str, bytes]], seconds: int) -> bytes:
    """Returns the bytes of an archive of ar's."""
    archive = b"!<arch>\n"
    for name, content in members:
        archive += f"{name:<16}{seconds:<12}{0:<6}{0:<6}{'100644':<8}{len(content):<10}`\n".encode() + content + b"\n" * (len(content) % 2)
    return archive


def write_package(folder: str, origin: Origin, files: Mapping[str, bytes]) -> str:
    """Writes the package. Returns its path."""
    package = list_installed_files(origin, files)
    parts: list[tuple[str, Mapping[str, bytes | Link]]] = [("control.tar.gz", make_control_files(origin, files, package)), ("data.tar.gz", package)]
    members = [("debian-binary", b"2.0\n"), *((name, make_tar(part, origin.seconds)) for name, part in parts)]
    return tree.write_file(folder, f"lw_{origin.version}_amd64.deb", make_ar(members, origin.seconds))


def main() -> int:
    """Runs the command that the arguments describe. Returns the exit status."""
    return tree.make_and_report("package", __doc__, write_package)


if __name__ == "__main__":
    sys.exit(start.run(main))
