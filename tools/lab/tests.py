"""The tests of the lab: those of docs/LAB.md's table, with its neutral names, without comments, and all with the same question."""
from __future__ import annotations

import os
import re

from lab.markdown import find_section
from shared.home import HOME

ROW = re.compile(r"^\| ([A-Z]\d+) \| (\S+) \| ", re.M)
TEST = re.compile(r"(SRC|X86) (\S+)\n\(\*.*?\*\)\n(.*\n)(~?exists|forall)( .*\n)", re.S)


class NoLab(Exception):
    """The lab can't be made, and why."""


def read_file(name: str) -> str:
    """Returns the text of a file of the repository."""
    with open(os.path.join(HOME, name), encoding="utf-8") as file:
        return file.read()


def list_examples(lab: str) -> dict[str, str]:
    """Returns the example of each neutral name in the table of docs/LAB.md."""
    return dict(ROW.findall(find_section(lab, "For the teacher")))


def neutralize(name: str, example: str) -> str:
    """Returns the text of an example under a neutral name. It asks whether a run can end this way, whatever the example says of the answer. Raises
    NoLab if the example has another form.
    """
    match = TEST.fullmatch(read_file(f"examples/{example}.litmus"))
    if match is None or match[4] == "forall" or "(*" in match[3]:
        raise NoLab(f"examples/{example}.litmus has another form than the tests of a lab")
    return f"{match[1]} {name}\n{align_columns(match[3])}exists{match[5]}"


def align_columns(text: str) -> str:
    """Returns a test's header and rows with aligned columns."""
    lines = text.splitlines()
    rows = [[cell.strip() for cell in line.rstrip(" ;").split("|")] for line in lines if line.startswith(" ")]
    widths = [max(map(len, column)) for column in zip(*rows)]
    spelled = iter(" " + " | ".join(map(str.ljust, row, widths)) + " ;" for row in rows)
    return "".join(f"{next(spelled) if line.startswith(' ') else line}\n" for line in lines)


def make_tests(lab: str) -> dict[str, str]:
    """Returns the text of the test of each neutral name."""
    return {name: neutralize(name, example) for name, example in list_examples(lab).items()}
