"""A column of tools/run_all.py: how many of a test's listed states are seen on this machine."""
from __future__ import annotations

import tempfile
from collections.abc import Callable
from typing import NamedTuple

import given
from c.refused import Refused
from machine.faults import NotRun
from machine.laboratory import Laboratory, Settings
from machine.programs import run_file
from machine.plans import Limits
from machine.summary import Result

NOT_RUN = "-"


class Column(NamedTuple):
    """The cell of each file, what is said of those that are not run, and whether a state was seen and not listed."""

    cells: dict[str, str]
    faults: list[str]
    is_contradicted: bool


def format_cell(result: Result) -> str:
    """Returns the column's text for a run: how many of the listed states were seen, and how many that are not listed."""
    beyond = len(result.list_not_listed()) + len(result.others)
    return f"{len(result.list_seen_and_listed())} of {len(result.listed.states)}" + (f", and {beyond} not listed" if beyond else "")


def read_text(file: str) -> str:
    """Returns the text of a file."""
    with open(file, "rb") as stream:
        return given.decode(stream.read())


def run_column(
    texts: dict[str, str | None], seconds: float, report: Callable[[str], None], compiler: str | None = None, tries: int = 1
) -> Column:
    """Runs the test of each file, by its text or its conversion, or a program's tests, for that number of seconds. The files are run one after
    another, since runs disturb each other, and `report` is called with each that is done. `compiler` is that of programs in C and C++. Raises NotRun
    without a compiler for the harness, or without objdump.
    """
    column = Column({}, [], False)
    with tempfile.TemporaryDirectory(prefix="lw-machine-") as folder:
        laboratory = Laboratory(["cc"], folder)
        for file, text in texts.items():
            column.cells[file] = NOT_RUN
            try:
                compiler_of_file = None if file.endswith(".rs") else compiler
                text = read_text(file) if text is None else text
                result = run_file(laboratory, file, text, Settings(Limits(seconds)), compiler_of_file, tries)
            except (NotRun, Refused, given.Fault) as why:
                column.faults.append(f"{file}: {why.args[0]}")
                continue
            finally:
                report(file)
            # What was seen of a test that is run.
            column.cells[file] = format_cell(result)
            column = column._replace(is_contradicted=column.is_contradicted or result.is_contradicted())
    return column
