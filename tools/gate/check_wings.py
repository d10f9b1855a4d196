"""Checks that the crates that say what tests mean know nothing of how texts are read. tools/check_documents.py calls it.

    python3 tools gate.check_wings

The library crates form two wings, MEANING and READING below. The workbench depends on both; so do lw_axiomatic, whose laws say what the
workbench prints, and lw_beyond and beyond, which list tests of any size. lw_arena, for the workbench's library, depends on neither.
No crate of the meaning wing may name one of the reading wing, directly or by way of others: not in its line of crates.txt, and not in its
code, its definitions or its proofs. A crate's line has all that the crate names. The program `lw` depends on no crate of
SEARCHING, so a first use of `./lw` proves no search. The last line is 'N passed, M failed'.
"""
from __future__ import annotations

import os
import re
import sys
from collections.abc import Iterator

from shared import command
from shared.home import HOME

BOTH = ("lw_base",)
MEANING = (
    "lw_litmus",
    "lw_interleaving",
    "lw_memory",
    "lw_mesi",
    "lw_tso",
    "lw_fence",
    "lw_orders",
    "lw_outcome_map",
    "lw_paths",
    "lw_tso_caches",
    "lw_finals",
    "lw_report",
    "lw_search",
)
READING = ("lw_text", "lw_statements", "lw_source", "lw_x86")
ABOVE = ("lw_bench", "lw", "lw_arena", "lw_library", "lw_axiomatic", "lw_beyond", "beyond")
# The crates of lists of any size, on which the program does not depend.
SEARCHING = ("lw_search", "lw_beyond", "beyond")
WITHOUT_SEARCH = ("lw",)


def read_dependencies() -> dict[str, list[str]]:
    """Returns the dependencies of each crate in crates.txt."""
    with open(f"{HOME}/crates.txt", encoding="utf-8") as file:
        return {name: below.split() for name, below in re.findall(r"^(\w+)[^:#\n]*:(.*)$", file.read(), re.M)}


def list_files(crate: str) -> Iterator[tuple[str, str]]:
    """Yields the source files, definitions and proofs of a crate, with their text."""
    for folder in ("src", "specs", "proofs"):
        for path_of_folder, _, names in sorted(os.walk(f"{HOME}/crates/{crate}/{folder}")):
            for name in sorted(names):
                if name.endswith((".rt", ".antt")):
                    with open(f"{path_of_folder}/{name}", encoding="utf-8") as file:
                        yield os.path.relpath(f"{path_of_folder}/{name}", HOME), file.read()


def find_named_crates(text: str) -> set[str]:
    """Returns the crates of the workbench that a file names outside of its comments."""
    code = re.sub(r"^\s*(//|--).*$", "", text, flags=re.M)
    return set(re.findall(r"\b(lw_\w+)(?:::|\.(?:specs|proofs)\b)", code))


def find_dependency_paths(crate: str, below: dict[str, list[str]]) -> dict[str, list[str]]:
    """Returns the crates on which a crate depends, each with the crates on the way to it."""
    paths = {}
    queue = [(it, [crate, it]) for it in below.get(crate, [])]
    while queue:
        name, path = queue.pop(0)
        if name not in paths:
            paths[name] = path
            queue += [(it, [*path, it]) for it in below.get(name, [])]
    return paths


def find_crate_faults(crate: str, below: dict[str, list[str]]) -> list[str]:
    """Returns the faults of a crate: the names that its line lacks; and for the meaning wing, its names of the reading wing."""
    faults = []
    ways = find_dependency_paths(crate, below)
    if crate in MEANING:
        faults += [f"{' -> '.join(ways[it])}: meaning depends on reading" for it in READING if it in ways]
    for path, text in list_files(crate):
        for name in sorted(find_named_crates(text) - {crate, *below[crate]}):
            faults.append(f"{path} names {name}, which its line of crates.txt has not")
        if crate in MEANING:
            faults += [f"{path} names {it}, which reads" for it in READING if it in find_named_crates(text)]
    return faults


def find_faults(below: dict[str, list[str]] | None = None) -> list[str]:
    """Returns the faults of the crates' dependencies, a line each; by crates.txt if they are not passed."""
    below = read_dependencies() if below is None else below
    placed = {*BOTH, *MEANING, *READING, *ABOVE}
    wing_faults = [f"{it} is in no wing of tools/gate/check_wings.py" for it in below if it not in placed and "_test" not in it]
    wing_faults += [f"{it} of tools/gate/check_wings.py is not in crates.txt" for it in sorted(placed - {*below})]
    for crate in below:
        wing_faults += find_crate_faults(crate, below)
    for crate in WITHOUT_SEARCH:
        ways = find_dependency_paths(crate, below)
        wing_faults += [f"{' -> '.join(ways[it])}: the program does without the search" for it in SEARCHING if it in ways]
    return wing_faults


def main() -> int:
    """Runs the command that the arguments describe. Returns the exit status."""
    faults = find_faults()
    for fault in faults:
        print(fault)
    print(f"{0 if faults else 1} passed, {len(faults)} failed")
    return 1 if faults else 0


if __name__ == "__main__":
    sys.exit(command.run_command(main, __doc__))
