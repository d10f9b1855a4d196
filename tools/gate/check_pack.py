"""Checks that a pack runs without a toolchain and without a checkout. The last line is 'N passed, M failed'.

    python3 tools gate.check_pack

It makes a pack of the built tree, unpacks it in a folder that may only be read, and runs it without rt: the programs, the tools, the
page's server, and the library from Python. As root it does the same in a container of files with only glibc, a shell and Python.
tools/check_documents.py calls this.
"""
from __future__ import annotations

import os
import re
import shutil
import subprocess
import sys
import tarfile
import tempfile
import urllib.request
from collections.abc import Iterator
from typing import Any, Union
from unittest import mock

import pack
from gate import check_library, check_page, container
from gate.cases import Comparison
from page import web_files
from shared import command
from shared.home import HOME, close_check
from shared.matches import require_match

GATE = "1 passed, 0 failed"
TEST = "examples/SB-x86.litmus"
# The path on which a pack runs: no rt, and only the system's Python.
PATH = "/usr/bin:/bin"
CALLS = (
    (["./lw", "states"], TEST),
    (["./lw", "schedules"], TEST),
    (["./lw", "compile"], "examples/SB.litmus"),
    (["./beyond", "states"], "examples/beyond/3.TryLock.litmus"),
    (["./beyond", "--search", "schedules"], TEST),
    (["python3", "tools/plain.py", "states"], TEST),
    (["python3", "tools/fences.py"], "examples/SB+mfences-x86.litmus"),
    (["python3", "tools/to_herd.py"], TEST),
    (["python3", "tools/assume.py"], TEST),
    (["python3", "tools/beyond.py"], TEST),
    (["python3", "tools/cycles.py", "PodWR", "Fre", "PodWR", "Fre"], TEST),
)
BY_LIBRARY = """
import sys
import lw
bench = lw.Workbench("python/liblw.so")
sys.stdout.buffer.write(bench.run("states", open(sys.argv[1], "rb").read())[1])
"""
# The files of tools/make_lab.py, each by a sum of its bytes, without its origin, which an archive has in its PACK.txt.
BY_LAB = """
import hashlib, sys
sys.dont_write_bytecode = True
from page import origin
origin.read_origin = lambda address: origin.Origin(None, False, None)
import make_lab
import make_slides
from page import web_files
for name, it in sorted(make_lab.make_files(web_files.read_modules(), make_slides.make_page_if_built()).items()):
    print(hashlib.sha256(it).hexdigest(), name)
"""


class HostSystem:
    """The system on which a pack runs: this one, without rt."""

    def start_command(self, words: list[str], folder: str, **streams: Any) -> subprocess.Popen:
        """Starts a command in a folder of this system."""
        return subprocess.Popen(words, cwd=folder, env={"PATH": PATH}, **streams)


# What a pack is run in.
System = Union[HostSystem, container.Container]


def make_script_command(folder: str, text: str, *arguments: str) -> list[str]:
    """Returns the command that runs a script of Python, which imports the modules of a folder."""
    return ["sh", "-c", f'PYTHONPATH={folder} exec python3 -c "$@"', "sh", text, *arguments]


def run_on_system(arguments: list[str], path: str, home: str, system: System) -> tuple[int, bytes]:
    """Runs a command on a system, in a folder, with a file of the repository as its input. Returns its exit status, and what it prints on both streams
    together.
    """
    with open(f"{HOME}/{path}", "rb") as file:
        with system.start_command(arguments, home, stdin=file, stdout=subprocess.PIPE, stderr=subprocess.STDOUT) as ran:
            out = ran.communicate(timeout=300)[0]
    return ran.returncode, out


def make_and_unpack(folder: str) -> tuple[str, dict[str, bytes]]:
    """Makes a pack, and unpacks it in a folder that may only be read. Returns the folder, and the names in it."""
    files = pack.make_contents("0" * 40, GATE)
    pack.write_pack(f"{folder}/pack.tar.gz", "lw-packed", files)
    pack.write_pack(f"{folder}/again.tar.gz", "lw-packed", files)
    with tarfile.open(f"{folder}/pack.tar.gz") as tar:
        tar.extractall(folder)
    subprocess.run(["chmod", "-R", "a-w", f"{folder}/lw-packed"], check=True)
    return f"{folder}/lw-packed", files


def check_contents(home: str, files: dict[str, bytes], folder: str) -> Iterator[Comparison]:
    """Compares what a pack holds with what it should."""
    description = files["PACK.txt"].decode()
    yield "its commit, its toolchain and its gate", True, all(it in description for it in ("0" * 40, "rattle-kit", GATE))
    yield "no sources", [], [it for it in files if it.endswith((".rt", ".antt")) or it == "crates.txt"]
    with mock.patch.multiple(pack, read_taken_files=lambda: {}, make_files=lambda: {}):
        description = pack.make_contents("0" * 40, pack.NO_GATE)["PACK.txt"].decode()
    yield "without a gate it says so, and of the library", True, pack.NO_GATE in description and pack.NO_LIBRARY in description
    licences = {it.split("/")[1] for it in files if it.startswith("licences/")}
    yield "licences of the crates that are linked in", {"circular_buffer", "indexmap"}, licences
    summed = subprocess.run(["sha256sum", "--quiet", "-c", "SHA256SUMS"], cwd=home, capture_output=True, text=True, check=False)
    yield "its checksums", (0, ""), (summed.returncode, summed.stdout)
    with open(f"{folder}/pack.tar.gz", "rb") as first, open(f"{folder}/again.tar.gz", "rb") as second:
        yield "the same bytes when it is made again", True, first.read() == second.read()


BY_ORIGIN = """
import sys
sys.dont_write_bytecode = True
from page.origin import read_origin
print(*read_origin())
"""


def check_calls(home: str, system: System) -> Iterator[Comparison]:
    """Compares what commands of a pack print with what they print here."""
    for words, text in CALLS:
        yield " ".join(words), run_on_system(words, text, HOME, HostSystem()), run_on_system(words, text, home, system)
    words = make_script_command("tools", BY_LAB)
    yield "what a class needs", run_on_system(words, TEST, HOME, HostSystem()), run_on_system(words, TEST, home, system)
    printed = run_on_system(make_script_command("tools", BY_ORIGIN), TEST, home, system)
    yield "where it comes from", (0, f"{'0' * 40} False {GATE} None\n".encode()), printed
    words = make_script_command("python", BY_LIBRARY, TEST)
    yield "the library from Python", run_on_system(["./lw", "states"], TEST, HOME, HostSystem()), run_on_system(words, TEST, home, system)


def check_server(home: str, system: System) -> Iterator[Comparison]:
    """Compares what the page of a pack answers."""
    with system.start_command(["./page"], home, stdout=subprocess.PIPE, text=True) as server:
        try:
            line = server.stdout.readline() if server.stdout else ""
            address = require_match(re.search(r"http://\S+", line))[0]
            with urllib.request.urlopen(f"{address}lw.wasm") as answer:
                yield "its page has the module", True, answer.read() == web_files.read_module()
        finally:
            server.terminate()


def check_in_container(home: str) -> Iterator[Comparison]:
    """Compares what a pack prints, and what its page answers, in a container with only glibc, a shell and Python."""
    if not container.can_be_made():
        return
    with container.Container() as system:
        system.copy_in(home, "/lw-packed")
        for check in (check_calls("/lw-packed", system), check_server("/lw-packed", system)):
            yield from ((f"in a container, {subject}", expected, actual) for subject, expected, actual in check)


def check_refusals() -> Iterator[Comparison]:
    """Compares the messages if no pack can be made."""
    tool = [sys.executable, f"{HOME}/tools/pack.py"]
    yield "no folder", 2, subprocess.run(tool, capture_output=True, check=False).returncode
    with mock.patch.object(pack, "OUT", "/nowhere"):
        gate = pack.describe_gate()
    yield "no gate", pack.NO_GATE, gate
    yield "a missing gate is reported", True, "in this checkout" in "".join(pack.make_warning(gate))
    yield "a gate that has passed is not reported", [], pack.make_warning(GATE)


def describe_skipped() -> str | None:
    """Returns the line that says what was left out, or None if nothing was."""
    lacking = None if check_library.is_built() and web_files.read_module() else "the library, its module or cc is missing"
    return lacking and f"the pack: checks were skipped, since {lacking}"


def make_comparisons() -> Iterator[Comparison]:
    """Yields all comparisons: what is compared, what is expected, and what was found. With CI=true nothing may be missing."""
    if not describe_skipped():
        yield from make_all_comparisons()
    elif os.environ.get("CI") == "true":
        yield "the pack: where CI=true, all is there", None, describe_skipped()


def make_all_comparisons() -> Iterator[Comparison]:
    """Yields all comparisons of a pack that is made here."""
    yield from ((f"the pack: {subject}", expected, actual) for subject, expected, actual in check_refusals())
    folder = tempfile.mkdtemp(prefix="lw-packed-")
    try:
        home, files = make_and_unpack(folder)
        checks = check_contents(home, files, folder), check_calls(home, HostSystem()), check_server(home, HostSystem()), check_in_container(home)
        for check in checks:
            yield from ((f"the pack: {subject}", expected, actual) for subject, expected, actual in check)
    finally:
        subprocess.run(["chmod", "-R", "u+w", folder], check=False)
        shutil.rmtree(folder)


def main() -> int:
    """Runs the command that the arguments describe. Returns the exit status."""
    return close_check(make_comparisons(), check_page.format_fault)


if __name__ == "__main__":
    sys.exit(command.run_command(main, __doc__))
