"""Writes the table of docs/TIMES.md, of where the gate's processor time went, from tools/program/minutes.txt.

    python3 tools documents.make_times

tools/check_documents.py checks that the table is up to date.
"""
from __future__ import annotations

import re
import sys

from program.minutes import OTHERS, read_lines
from shared import command
from shared.home import HOME

TIMES = f"{HOME}/docs/TIMES.md"
HEAD = ["| Crate | proof | wrong bodies (number) | tests |", "|---|---|---|---|"]
TABLE = re.compile(r"^\| Crate \| proof \|.*\n(?:\|.*\n)+", re.M)


def format_sum_row(rows: list[list[str]]) -> str:
    """Returns the row of the sums."""
    sums = [sum(float(row[index]) for row in rows if row[index] != "-") for index in range(4)]
    return f"| together | {sums[0]:.1f} | {sums[1]:.1f} ({sums[2]:.0f}) | {sums[3]:.1f} |"


def format_row(name: str, proof: str, wrong: str, number: str, tests: str) -> str:
    """Returns the row of a crate."""
    cells = [proof, f"{wrong} ({number})", tests]
    return f"| {name} | {' | '.join(it.replace('- (-)', '').replace('-', '') for it in cells)} |"


def make_table() -> str:
    """Returns the text of the table of docs/TIMES.md, by the times of tools/program/minutes.txt."""
    of_crates = [it for it in read_lines() if it[0] not in OTHERS]
    rows = [format_row(*it) for it in of_crates] + [format_sum_row([cells for _, *cells in of_crates])]
    rows += [f"| {OTHERS[name]} | {cells[0]} | | |" for name, *cells in read_lines() if name in OTHERS]
    return "".join(f"{it}\n" for it in HEAD + rows)


def replace_table(text: str) -> str:
    """Returns the text of the page with its table written anew."""
    return TABLE.sub(lambda _: make_table(), text, count=1)


def is_current() -> bool:
    """Returns whether the page's table is the one that would be written."""
    with open(TIMES, encoding="utf-8") as file:
        text = file.read()
    return TABLE.search(text) is not None and replace_table(text) == text


def main() -> None:
    """Runs the command that the arguments describe."""
    with open(TIMES, encoding="utf-8") as file:
        text = file.read()
    with open(TIMES, "w", encoding="utf-8") as file:
        file.write(replace_table(text))


if __name__ == "__main__":
    sys.exit(command.run_command(main, __doc__))
