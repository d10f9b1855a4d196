"""Counts the instructions of `lw states` on the tests of bench/, by valgrind, and prints them as a table.

    python3 tools documents.measure_lists [NAME..]

The names are those of bench/INDEX.md, without which all are taken (the longest take minutes). A whole process is counted, its start
too. Instructions can be compared between two programs on one machine, whatever else it does meanwhile; with LW set to the path of
another program, that one is counted.
"""
from __future__ import annotations

import os
import re
import subprocess
import sys
import tempfile

from shared import command, start
from shared.home import HOME
from shared.matches import require_match

PROGRAM = os.environ.get("LW", f"{HOME}/crates/lw/out/lw")


def list_tests() -> list[tuple[str, str]]:
    """Returns the tests of bench/INDEX.md, with the number of their states, or `-` if the list is refused."""
    with open(f"{HOME}/bench/INDEX.md", encoding="utf-8") as file:
        rows = re.findall(r"^\| (\S+\.(?:src|raw)) \|(.*) \|$", file.read(), re.M)
    return [(name, rest.split(" | ")[5].replace(",", "")) for name, rest in rows]


def measure_report(name: str) -> tuple[float, str]:
    """Returns the millions of instructions of a test's report, and the number of its states."""
    with open(f"{HOME}/bench/{name}.litmus", "rb") as stream, tempfile.TemporaryDirectory() as folder:
        words = ["valgrind", "--tool=callgrind", f"--callgrind-out-file={folder}/out", f"--log-file={folder}/log", PROGRAM, "states"]
        printed = subprocess.run(words, stdin=stream, capture_output=True, check=False).stdout
        with open(f"{folder}/out", encoding="utf-8") as out:
            counted = int(require_match(re.search(r"^summary: (\d+)", out.read(), re.M))[1])
    states = re.search(rb"^States (\d+)$", printed, re.M)
    return counted / 1e6, states[1].decode() if states else "-"


def main() -> None:
    """Runs the command that the arguments describe."""
    reader = command.Reader(__doc__)
    reader.add_argument("names", nargs="*", metavar="NAME")
    names, paths = reader.read().names, dict(list_tests())
    print("| Test | States | `lw states`, millions of instructions |\n|---|---|---|")
    for name in names or paths:
        millions, states = measure_report(name)
        print(f"| {name} | {states} | {millions:,.3f} |", flush=True)
        if states != paths.get(name):
            sys.exit(f"{name}: {paths.get(name)} states are wanted")


if __name__ == "__main__":
    sys.exit(start.run(main))
