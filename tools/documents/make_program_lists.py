"""Writes the tables of lists in the README.md of examples/from_c and of examples/from_rust, by the compilers of this machine at their level 2.

    python3 tools documents.make_program_lists

A table has the final states of each program, and those that weaker memory orders add. Its head names the compilers and their versions. gcc and
clang have to make the same lists, or nothing is written; lw and beyond have to be built. tools/gate/test_from_c.py compares the tables with what compilers make.
"""
from __future__ import annotations

import glob
import os
import re
import sys
from typing import List, Tuple

import from_c
from c.compiler import find_version
from c.report import Answer
from c.source import read_source
from c.weaker import WEAKER
from shared import answers, command, spawn
from shared.home import HOME
from shared.matches import require_match

# For each folder the ending of its programs, and the compilers of its table.
FOLDERS = {"from_c": (".c", ("gcc -O2", "clang -O2")), "from_rust": (".rs", ("rustc -C opt-level=2",))}
TABLE = re.compile(r"^\| Program \| The list by.*\n(?:\|.*\n)+", re.M)
BOUNDED, NOT_PROVED, NONE = "(each loop at most once)", "(not proved)", "none"
# The states of a program as it is, and those that each kind of weaker orders adds.
Lists = Tuple[List[str], ...]


def list_programs(folder: str) -> list[str]:
    """Returns the programs of a folder of examples."""
    return sorted(glob.glob(os.path.join(HOME, "examples", folder, f"*{FOLDERS[folder][0]}")))


def format_name(path: str) -> str:
    """Returns the name of a program."""
    return os.path.splitext(os.path.basename(path))[0]


def find_readme(folder: str) -> str:
    """Returns the path of a folder's README.md."""
    return os.path.join(HOME, "examples", folder, "README.md")


def make_answer(path: str, compiler: str, weaker: int = 0) -> Answer:
    """Returns the answer on a program by a compiler."""
    with open(path, encoding="utf-8") as file:
        source = read_source(path, file.read())
    return from_c.convert_source(source, compiler, 1, weaker, os.path.dirname(path))[0]


def make_lists(program_answers: list[Answer]) -> Lists:
    """Returns the lists of a program, by the answers with the orders of the source and with weaker ones."""
    first, *others = (answers.filter_state_lines(it.report) for it in program_answers)
    return (first, *([it for it in states if it not in first] for states in others))


def format_cell(states: list[str]) -> str:
    """Returns the cell of some states."""
    return "<br>".join(f"`{it}`" for it in states) or NONE


def format_row(path: str, program_answers: list[Answer]) -> str:
    """Returns the row of a program."""
    first, *others = map(format_cell, make_lists(program_answers))
    name, mark = os.path.basename(path), f" {BOUNDED}" if program_answers[0].bounded else ""
    mark += "" if answers.are_proved(program_answers[0].makers) else f" {NOT_PROVED}"
    return f"| [{name}]({name}) | {first}{mark} | {' | '.join(others)} |"


def format_head(compilers: tuple[str, ...]) -> str:
    """Returns the head of a table: who made the lists."""
    names = [it.split()[0] for it in compilers]
    by, level = " and ".join(f"{name} {find_version(name)}" for name in names), compilers[0].split()[-1]
    return f"| Program | The list by {by}, {level} | More without seq_cst | More with relaxed |"


def make_table(folder: str) -> str:
    """Returns the table of a folder. Raises SystemExit if its compilers make different lists."""
    compilers = FOLDERS[folder][1]
    lines = [format_head(compilers), "|---|---|---|---|"]
    for path in list_programs(folder):
        rows = {format_row(path, [make_answer(path, it, weaker) for weaker in (0, *WEAKER)]) for it in compilers}
        if len(rows) > 1:
            raise SystemExit(f"{path}: {', '.join(compilers)} make different lists")
        lines += rows
    return "".join(f"{it}\n" for it in lines)


def read_table(folder: str) -> str:
    """Returns the table that a folder's README.md has."""
    with open(find_readme(folder), encoding="utf-8") as file:
        return require_match(TABLE.search(file.read()))[0]


def read_versions(folder: str) -> set[str]:
    """Returns the compilers that made a folder's table, each with its version."""
    return set(re.findall(r"\w+ \d+\.\d+\.\d+", read_table(folder).splitlines()[0]))


def read_lists(folder: str) -> dict[str, Lists]:
    """Returns the lists of a folder's table, by the names of programs."""
    rows = (line.strip("| ").split(" | ") for line in read_table(folder).splitlines()[2:])
    return {require_match(re.match(r"\[(\w+)", name))[1]: tuple(re.findall("`(.*?)`", cell) for cell in cells) for name, *cells in rows}


def main() -> None:
    """Writes both tables. Raises SystemExit unless the programs are those of the sources, since a table says which lists are not proved."""
    if not (spawn.is_current() and spawn.is_current("beyond")):
        raise SystemExit("the programs are not those of the sources: run ./lw and ./beyond")
    sys.setrecursionlimit(from_c.RECURSION)
    for folder in FOLDERS:
        with open(find_readme(folder), encoding="utf-8") as file:
            text = file.read()
        begin, end = require_match(TABLE.search(text)).span()
        new_text = text[:begin] + make_table(folder) + text[end:]
        with open(find_readme(folder), "w", encoding="utf-8") as file:
            file.write(new_text)


if __name__ == "__main__":
    sys.exit(command.run_command(main, __doc__))
