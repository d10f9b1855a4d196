"""Makes the rows of the table: a file, the answer on it, and the method; or why it is refused."""
from __future__ import annotations

import os
from collections import namedtuple

from shared import spawn

# How a list was made.
ENUMERATED, SEARCHED = "enumerated", "searched"
NOT_PROVED = ", not proved"
ENUMERATED_UNPROVED, SEARCHED_UNPROVED, PLAIN_UNPROVED = ENUMERATED + NOT_PROVED, SEARCHED + NOT_PROVED, "plain" + NOT_PROVED
# The verdict of a file that has no answer, and of one of which no run is left.
REFUSED, NO_VERDICT, AS_ASKED = "Refused", "None", "Ok"
# The columns of each row, and those of only some tables: the listed states seen on this machine, how a file was converted, why it is refused.
Row = namedtuple("Row", "file name asked verdict observation states milliseconds method seen converted cause notes listed")
ALWAYS, MORE = Row._fields[:8], Row._fields[8:11]
# A file's answer: its row, its report, the texts of its tests of lw with their reports, if it was converted from herd's form, and how often a run
# passes each loop at most, 0 if that has no limit. The report of a file that is refused is empty.
FileAnswer = namedtuple("FileAnswer", "row report tests tries")


def format_name(file: str) -> str:
    """Returns the name of a refused file, whose test may have no name."""
    return os.path.splitext(os.path.basename(file))[0]


def make_refused_row(file: str, cause: str, converted: str | None = None, notes: tuple = ()) -> Row:
    """Returns the row of a file that has no answer."""
    return Row(file, format_name(file), None, REFUSED, None, None, None, None, None, converted, cause, list(notes), None)


def make_row(file: str, report: str, seconds: float, method: str | None) -> Row:
    """Returns the row of a file whose report was made by a method. If no run is left, the report says so in place of a verdict."""
    lines = report.splitlines()
    _, name, question = lines[0].split(" ")
    states, milliseconds = int(lines[1].split()[1]), round(1000 * seconds, 1)
    if lines[2].startswith(f"{NO_VERDICT}: "):
        cause = lines[2].partition(": ")[2]
        return Row(file, name, question, NO_VERDICT, "no run", 0, milliseconds, method, None, None, cause, [], [])
    verdict, observation = lines[-4], lines[-1].split(" ", 2)[2]
    return Row(file, name, question, verdict, observation, states, milliseconds, method, None, None, None, [], lines[2 : 2 + states])


def make_answer(run: spawn.Run, method: str) -> FileAnswer | None:
    """Returns the answer of a run that has a report. `None` if the run has none."""
    if run.status != 0 or len(run.out.splitlines()) < 6:
        return None
    return FileAnswer(make_row(run.file, run.out, run.seconds, method), run.out, [], 0)


def make_refusal(file: str, line: str, converted: str | None = None, notes: tuple = ()) -> FileAnswer:
    """Returns the answer of a file that is refused, of which a line `FILE:LINE:COLUMN: cause` says why."""
    cause = line[len(file) + 1 :].strip() if line.startswith(f"{file}:") else line
    return FileAnswer(make_refused_row(file, cause, converted, notes), "", [], 0)


def format_refusal(row: Row) -> str:
    """Returns the line on standard error that says why a file is refused."""
    return f"{row.file}:{'' if row.cause[:1].isdigit() else ' '}{row.cause}"
