"""Checks that the program reads and refuses what docs/CARD.md says. The last line is 'N passed, M failed'.

    python3 tools gate.check_card

- The program reads the two tests of the card, and each statement in its tables, in place of the first row.
- The program reports each fault of the card in the wrong text, and reads the right text in its place.
- There are ten faults, and the limits are those of docs/FORMAT.md.

tools/check_documents.py calls this; the program has to be built.
"""
from __future__ import annotations

import re
import subprocess
import sys
from collections.abc import Iterator

from gate.cases import Comparison
from lab import markdown
from lab.tests import read_file
from shared import command
from shared.home import PROGRAM, close_check

FIRST_ROW, QUESTION = 3, -1
FAULTS = 10
LIMITS = (("four threads", "one to four of them"), ("eight locations", "There are at most 8."), ("64 rows", "at most 64: one cell for each thread"),
          ("16 statements or 32 instructions", "at most 16 statements in a source test and at most 32 instructions"))


def ask_program(lines: list[str]) -> tuple[str, int]:
    """Returns the program's output when it compiles a test, which reads all of it, and the exit status."""
    ran = subprocess.run([PROGRAM, "compile"], input="".join(f"{it}\n" for it in lines).encode(), capture_output=True, check=False)
    return ran.stderr.decode(), ran.returncode


def parse_tests(card: str) -> dict[str, list[str]]:
    """Returns the lines of the two tests, which are next to each other."""
    block = next(lines for kind, lines in markdown.split_blocks(card) if kind == "fence")
    column = block[0].index("X86")
    return {"SRC": [it[:column].rstrip() for it in block], "X86": [it[column:].rstrip() for it in block]}


def replace_rows(test: list[str], written: str) -> list[str]:
    """Returns a test with the lines `written` in place of its first row; in place of its question if they do not begin with a blank."""
    if written.startswith(" "):
        return [*test[:FIRST_ROW], *written.split("\n"), *test[FIRST_ROW + 1 :]]
    return [*test[:QUESTION], written]


def parse_tables(card: str) -> list[list[list[str]]]:
    """Returns the rows of the tables, each with its cells, without their headers."""
    return [[markdown.split_cells(it) for it in lines[2:]] for kind, lines in markdown.split_blocks(card) if kind == "table"]


def list_code_spans(cell: str) -> list[str]:
    """Returns the texts in backticks of a cell."""
    return re.findall(r"`([^`]*)`", cell)


def make_comparisons() -> Iterator[Comparison]:
    """Yields all comparisons: what is compared, what is expected, and what was found."""
    card, form = read_file("docs/CARD.md"), " ".join(read_file("docs/FORMAT.md").split())
    tests = parse_tests(card)
    statements, faults = parse_tables(card)
    for language, test in tests.items():
        yield f"docs/CARD.md, the test in {language}", ("", 0), ask_program(test)
    for source, x86, meaning in statements:
        for language, cell in (("SRC", source), ("X86", x86)):
            rows = [] if cell.startswith("none") else [f" {it} | ;" for it in list_code_spans(cell)]
            yield f"docs/CARD.md, {meaning} in {language}", ("", 0), ask_program(replace_rows(tests[language], "\n".join(rows) or " | ;"))
    yield "docs/CARD.md has ten faults", FAULTS, len(faults)
    for language, *cells in faults:
        (written,), (meant,), (fault_name,) = map(list_code_spans, cells)
        line, status = ask_program(replace_rows(tests[language], written))
        yield f"docs/CARD.md, the fault of {written}", (f"lw: {fault_name} at", 1), (line.rpartition(" ")[0], status)
        yield f"docs/CARD.md, what is meant: {meant}", ("", 0), ask_program(replace_rows(tests[language], meant))
    for limit, source in LIMITS:
        yield f"docs/CARD.md, the limit of {limit}", (True, True), (limit in card, source in form)


def main() -> int:
    """Runs the command that the arguments describe. Returns the exit status."""
    return close_check(make_comparisons())


if __name__ == "__main__":
    sys.exit(command.run_command(main, __doc__))
