"""Compares the answers with a log of an earlier run or of herd's tools, and with what machines showed."""
from __future__ import annotations

import sys

from many.statuses import NOT_RUN, SEEN_AND_NOT_LISTED

TYPE_CHECKING = False
if TYPE_CHECKING:
    from collections.abc import Callable

    from many.rows import FileAnswer, Row
    from shared.logs import ListedTests, State


def read_lists_and_log(answers: list[FileAnswer], name: str) -> tuple[ListedTests, dict[str, set[State]]]:
    """Returns the states of each test that is listed here, and the states of each test in the log at a path."""
    from shared import logs

    texts, converted = [], [it for it in answers if it.row.converted is not None]
    as_they_are = [it for it in answers if it.row.converted is None]
    for answer in as_they_are:
        with open(answer.row.file, encoding="utf-8", errors="replace") as file:
            texts.append(file.read())
    lists = logs.collect_lists(zip(texts, (it.report for it in as_they_are)))
    for answer in converted:
        logs.add_converted(lists, answer.report, answer.tests, answer.tries)
    with open(name, encoding="utf-8", errors="replace") as file:
        return lists, logs.parse_states(file)


def report_differences(answers: list[FileAnswer], name: str) -> int:
    """Reports on standard error what differs from the log of a name. Returns the exit status."""
    from shared import logs

    listed, logged = read_lists_and_log(answers, name)
    differences = list(logs.find_differences(listed, logged))
    for difference in differences:
        sys.stderr.write(logs.format_difference(difference))
    print(f"{len(listed.match_log_names(logged))} tests against {len(logged)} of {name}: {len(differences)} differ", file=sys.stderr)
    return 1 if differences else 0


def report_machine_log(answers: list[FileAnswer], name: str) -> int:
    """Reports the tests of which a machine showed a state that is not listed. Returns the exit status."""
    from shared import logs

    listed, logged = read_lists_and_log(answers, name)
    differences = list(logs.find_differences(listed, logged))
    not_compared = [it for it in differences if it.why and it.why not in (logs.NOT_IN_LOG, logs.IN_LOG_ONLY)]
    contradicting = [it for it in differences if it.missing]
    not_all_seen = [it for it in differences if it.too_much]
    for difference in [*not_compared, *contradicting]:
        sys.stderr.write(logs.format_machine_difference(difference))
    tests = listed.match_log_names(logged)
    common = len({*tests} & {*logged})
    counts = f"{len(contradicting)} showed states that are not listed, {len(not_all_seen)} did not show all"
    print(f"{common} of {len(tests)} tests are in the machine's log {name}: {counts}, {len(not_compared)} are not compared", file=sys.stderr)
    return SEEN_AND_NOT_LISTED if contradicting else 1 if not_compared or not common else 0


def can_be_run(answer: FileAnswer) -> bool:
    """Returns whether an answer can be run: that of a program, or of one test of lw, as it is or converted, whose runs are all runs."""
    converted = answer.row.converted
    is_one_test = converted is None or converted.startswith("from_c.py") or len(answer.tests) == 1 and not answer.tries
    return bool(answer.row.listed) and is_one_test


def add_seen_column(
    answers: list[FileAnswer], seconds: float, report: Callable[[str], None], compiler: str | None, tries: int
) -> tuple[list[Row], int]:
    """Runs each answer's test on this machine, if anything can be run. Returns the rows with what was seen, and the exit status. Files that are
    refused are not run, nor such as are converted from herd's form to several tests."""
    rows = [it.row for it in answers]
    from machine import column
    from machine.faults import NotRun

    try:
        texts = {it.row.file: it.tests[0][0] if it.tests else None for it in answers if can_be_run(it)}
        table = column.run_column(texts, seconds, report, compiler, tries)
    except NotRun as why:
        print(f"run_all: {why}", file=sys.stderr)
        return rows, NOT_RUN
    others = [it.row.file for it in answers if it.row.listed is not None and not can_be_run(it)]
    left_out = [f"{it}: a test in herd's form that is converted to several, or has loops, is not run on this machine" for it in others]
    for line in [*table.faults, *left_out]:
        print(line, file=sys.stderr)
    seen = [it._replace(seen=table.cells.get(it.file, column.NOT_RUN)) for it in rows]
    return seen, SEEN_AND_NOT_LISTED if table.is_contradicted else 0
