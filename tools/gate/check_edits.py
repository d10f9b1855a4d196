"""Checks that each wrong body was refused at the place that it names, by what the gate printed.

    python3 tools gate.check_edits LOG

Each crates/CRATE/must-fail/NAME.edit begins with `refused at: FUNCTION CLAUSE (GOAL)`: the function that the edit breaks, its clause
that is then not proved, and the open goal that the prover reports first. LOG has the lines of `rt ci`, or of `rt must-fail`, which
have the prover's first report on each wrong body: it has to be this goal, in the function's source file or in its own proof
files. A wrong body that is refused for how it is written, or because a proof names what it removed, says nothing of the
contract. The last line is 'N passed, M failed'.
"""
from __future__ import annotations

import os
import re
import sys

from shared import command, start
from shared.home import HOME

# The most wrong bodies of all crates: the gate tries each one, which takes from six seconds to more than a minute.
MAX_BODIES = 200


def list_edits() -> list[str]:
    """Returns the wrong bodies of all crates, as CRATE/NAME.edit."""
    edits = []
    for crate in sorted(os.listdir(f"{HOME}/crates")):
        folder = f"{HOME}/crates/{crate}/must-fail"
        if os.path.isdir(folder):
            edits += [f"{crate}/{it}" for it in sorted(os.listdir(folder)) if it.endswith(".edit")]
    return edits


def read_reports(log: str) -> dict[str, str]:
    """Returns the log's report on each wrong body."""
    with open(log, encoding="utf-8", errors="replace") as file:
        return dict(re.findall(r"^rt: must-fail (\S+\.edit): (.*)$", file.read(), re.M))


def find_function(path: str, line: int) -> str | None:
    """Returns the name of the function of a source file that contains a line, or to which the line belongs as an attribute. `None` if none does."""
    with open(path, encoding="utf-8") as file:
        lines = file.read().split("\n")
    while lines[line - 1].lstrip().startswith("#["):
        line += 1
    names = re.findall(r"\bfn (\w+)", "\n".join(lines[:line]))
    return names[-1] if names else None


def find_fault(edit: str, report: str | None) -> str | None:
    """Returns the fault in the refusal of a wrong body. `None` if it is refused where its first line says."""
    crate, name = edit.split("/")
    with open(f"{HOME}/crates/{crate}/must-fail/{name}", encoding="utf-8") as file:
        text = file.read()
    head = re.match(r"refused at: (\w+)::([\w:]+) \S+ \((\S+)\)\n", text)
    if not head or head[1] != crate:
        return "its first line is not 'refused at: FUNCTION CLAUSE (GOAL)'"
    if report is None:
        return "the log does not tell of it"
    match = re.fullmatch(r"refused, as it must be: (?:note: )?(?:\./)?(\S+?):(\d+):\d+: (.*)", report)
    if not match or f"`{head[3]}`" not in match[3] and f".{head[3]}`" not in match[3]:
        return report
    *modules, function = head[2].split("::")
    if match[1].startswith("proofs/"):
        # (For functions that call each other, the folder of the first, or that of their cycle's name, is marked, and the names of goals in
        # it start with their function's name.)
        folder, home = os.path.dirname(match[1]), "/".join(["proofs", *modules])
        is_of_cycle = folder.startswith(f"{home}/+") and head[3].startswith(f"{function}-")
        is_there = folder.replace("+", "") == f"{home}/{function}" or is_of_cycle
    else:
        is_there = f"file: {match[1]}" in text.split("\n") and find_function(f"{HOME}/crates/{crate}/{match[1]}", int(match[2])) == function
    return None if is_there else f"the prover reported something else before {head[2]}: {report}"


def main() -> int:
    """Runs the command that the arguments describe. Returns the exit status."""
    reader = command.Reader(__doc__)
    reader.add_argument("log", metavar="LOG")
    reports, failed = read_reports(reader.read().log), 0
    for edit in list_edits():
        fault = find_fault(edit, reports.get(edit))
        if fault:
            failed += 1
            print(f"{edit}: {fault}")
    if len(list_edits()) > MAX_BODIES:
        failed += 1
        print(f"there are {len(list_edits())} wrong bodies, of which {MAX_BODIES} are to be enough")
    print(f"{len(list_edits()) - failed} passed, {failed} failed")
    return 1 if failed else 0


if __name__ == "__main__":
    sys.exit(start.run(main))
