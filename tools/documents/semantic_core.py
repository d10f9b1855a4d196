"""Lists the definitions on which the meaning of a test depends, and counts them. tools/check_documents.py calls it.

    python3 tools documents.semantic_core

They are the files of definitions on which `OutcomeOf` and `IsProgramOf` of lw_bench depend, by what each file imports: what a
reader must believe of the outcomes that `lw states` lists. Texts, reports and laws are not among them. Types that the code
declares are in src/, and are not counted. Lines of comments are counted apart. It fails if there are more files or lines of definitions
than MAX_FILES and MAX_LINES, or if docs/MAP.md says other numbers. The last line is 'N passed, M failed'.
"""
from __future__ import annotations

import os
import re
import sys

from shared import command
from shared.home import HOME

START = "lw_bench/specs/Outcomes.antt"
MAX_FILES, MAX_LINES = 35, 1200


def find_file(crate: str, names: list[str]) -> str | None:
    """Returns the file of definitions of a path of names, or `None` if the code declares what is named."""
    for many in range(len(names), 0, -1):
        path = f"{crate}/specs/{'/'.join(names[:many])}.antt"
        if os.path.exists(f"{HOME}/crates/{path}"):
            return path
    return None


def list_imports(path: str) -> list[str]:
    """Returns the files of definitions that a file imports."""
    with open(f"{HOME}/crates/{path}", encoding="utf-8") as file:
        named = re.findall(r"^(?:pub )?use Rattle\.(lw_\w+)\.specs\.([\w.]+)", file.read(), re.M)
    paths = [find_file(crate, names.rstrip(".").split(".")) for crate, names in named]
    return [it for it in paths if it]


def list_dependencies(start: str) -> list[str]:
    """Returns a file with all on which it depends, without duplicates, dependencies first."""
    dependencies = []

    def add_file(path: str) -> None:
        """Adds a file after those that it imports."""
        if path not in dependencies:
            for below in list_imports(path):
                add_file(below)
            dependencies.append(path)

    add_file(start)
    return dependencies


def count_lines(path: str) -> tuple[int, int]:
    """Returns the numbers of a file's lines of definitions and of its lines of comments."""
    with open(f"{HOME}/crates/{path}", encoding="utf-8") as file:
        lines = file.read().splitlines()
    comments = sum(line.lstrip().startswith("--") for line in lines)
    return len(lines) - comments, comments


def format_size(files: list[str]) -> str:
    """Returns the numbers of files, of their lines of definitions and of their lines of comments, in words."""
    lines, comments = map(sum, zip(*map(count_lines, files)))
    return f"{len(files)} files with {lines:,} lines of definitions and {comments:,} of comments"


def find_faults() -> list[str]:
    """Returns the faults, a line each."""
    core = list_dependencies(START)
    faults = []
    if len(core) > MAX_FILES or sum(count_lines(it)[0] for it in core) > MAX_LINES:
        faults.append(f"more than {MAX_FILES} files or {MAX_LINES:,} lines of definitions")
    with open(f"{HOME}/docs/MAP.md", encoding="utf-8") as file:
        if format_size(core) not in " ".join(file.read().split()):
            faults.append(f"docs/MAP.md does not say that these are {format_size(core)}")
    return faults


def main() -> int:
    """Prints the files, and what is wrong. Returns the exit status."""
    core = list_dependencies(START)
    for path in core:
        lines, comments = count_lines(path)
        print(f"{lines:5} {comments:5} crates/{path}")
    print(format_size(core))
    faults = find_faults()
    for fault in faults:
        print(fault)
    print(f"{0 if faults else 1} passed, {len(faults)} failed")
    return 1 if faults else 0


if __name__ == "__main__":
    sys.exit(command.run_command(main, __doc__))
