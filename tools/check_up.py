#!/usr/bin/env python3
"""Checks crates and all that depend on them, lowest first, and prints a line with the verdict of each.

    python3 tools/check_up.py CRATE.. [--jobs N] [--tests]

Each crate is formatted first (`rt fmt`), since the gate refuses a file that is not, and a line names the files that this changed. A
library is built for those above it (`rt lib`), any other crate is checked (`rt check`); only what changed is proved anew. For each proved
crate a line has its functions and the seconds that it took. At the first crate that is not proved the command prints what rt printed, except its
notes, and stops. With --tests it also runs the tests of the crates of tests (`rt test`). The exit status is 1 if a crate is not proved, and 2 if
the words are not understood.
"""
from __future__ import annotations

import os
import re
import subprocess
import sys
import time

sys.dont_write_bytecode = True
from shared import command, start
from shared.home import HOME, read_crates

PROVED = re.compile(r"^logic=proved (?:tests=\d+ )?functions=(\d+) ", re.M)


def read_dependencies() -> dict[str, list[str]]:
    """Returns the crates, each with those of the repository on which it depends directly."""
    known = read_crates()
    return {name: [it for it in used if it in known] for name, (_, used) in known.items()}


def list_dependencies(name: str, below: dict[str, list[str]]) -> set[str]:
    """Returns the crates on which one depends, directly or not."""
    dependencies = set(below[name])
    for used in below[name]:
        dependencies |= list_dependencies(used, below)
    return dependencies


def list_dependents(names: list[str], below: dict[str, list[str]]) -> list[str]:
    """Returns the crates of these names and all that depend on them, each after those on which it depends."""
    dependents = [it for it in below if it in names or list_dependencies(it, below) & set(names)]
    return sorted(dependents, key=lambda it: len(list_dependencies(it, below)))


def make_command(name: str, below: dict[str, list[str]], runs_tests: bool) -> list[str]:
    """Returns the command that checks a crate."""
    if any(name in it for it in below.values()):
        return ["rt", "lib"]
    return ["rt", "test"] if runs_tests and name.endswith("_tests") else ["rt", "check"]


def remove_notes(text: str) -> str:
    """Returns the lines of rt, without notes and without those on proved functions."""
    lines = [it for it in text.splitlines() if not re.match(r"(rt: )?note: |fn \S+: proved$|statements |logic ", it)]
    return "\n".join(lines[-60:])


def read_code(name: str) -> dict[str, bytes]:
    """Returns the files of a crate's code: for each path its bytes."""
    code = {}
    for folder, _, files in os.walk(f"{HOME}/crates/{name}/src"):
        for file_name in files:
            with open(f"{folder}/{file_name}", "rb") as file:
                code[f"{folder}/{file_name}"] = file.read()
    return code


def format_crate(name: str) -> None:
    """Formats the code of a crate, and names the files that this changed."""
    before = read_code(name)
    subprocess.run(["rt", "fmt"], cwd=f"{HOME}/crates/{name}", stdout=subprocess.DEVNULL, stderr=subprocess.DEVNULL, check=True)
    changed = [os.path.relpath(path, HOME) for path, text in read_code(name).items() if text != before[path]]
    if changed:
        print(f"{name}: formatted {', '.join(changed)}", flush=True)


def check_crate(name: str, command: list[str], jobs: str) -> bool:
    """Checks a crate, and prints its verdict. Returns whether it is proved."""
    format_crate(name)
    start = time.monotonic()
    words = command if command[1] == "test" else [*command, "--jobs", jobs]
    ran = subprocess.run(words, cwd=f"{HOME}/crates/{name}", stdout=subprocess.PIPE, stderr=subprocess.STDOUT, text=True, check=False)
    proved = PROVED.search(ran.stdout)
    # (Nothing is printed for a library that is built already.)
    verdict_lines = [it for it in ran.stdout.splitlines() if not it.startswith("rt: ")]
    if ran.returncode or verdict_lines and not proved:
        print(f"{name}: not proved\n{remove_notes(ran.stdout)}")
        return False
    functions = f"proved, {proved[1]} functions" if proved else "as it was proved"
    print(f"{name}: {functions}, {time.monotonic() - start:.0f} s", flush=True)
    return True


def main() -> int:
    """Runs the command that the arguments describe. Returns the exit status."""
    reader, below = command.Reader(__doc__), read_dependencies()
    reader.add_argument("crates", nargs="+", metavar="CRATE")
    reader.add_argument("--jobs", type=command.make_number_parser(1), default=1, metavar="N")
    reader.add_argument("--tests", action="store_true")
    arguments = reader.read()
    unknown = [it for it in arguments.crates if it not in below]
    if unknown:
        reader.error(f"crates.txt has no crate {' '.join(unknown)}")
    checks = ((it, make_command(it, below, arguments.tests)) for it in list_dependents(arguments.crates, below))
    return 0 if all(check_crate(name, checked, str(arguments.jobs)) for name, checked in checks) else 1


if __name__ == "__main__":
    sys.exit(start.run(main))
