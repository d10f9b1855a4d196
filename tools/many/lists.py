"""Chooses the maker of each file's list: lw, beyond, or a part of tools/ that is not proved; and converts files before."""
from __future__ import annotations

import os
import sys
from collections import namedtuple

from many import rows
from many.files import is_program
from shared import spawn
from shared.home import BEYOND

TYPE_CHECKING = False
if TYPE_CHECKING:
    from collections.abc import Callable

# The status of a test that lw refuses for its size.
LIMIT = 3
# The options of a conversion: the number of tries of loops, the order of operands, or None to conclude it, and the compiler, or None.
Choices = namedtuple("Choices", "tries order compiler")


def run_past_limits(files: list[str]) -> tuple[list[spawn.Run], str]:
    """Returns the runs of files that lw refuses for their size, and by which method they are made."""
    if spawn.is_current("beyond"):
        return spawn.run_all([(file, ("states",)) for file in files], program=BEYOND), rows.SEARCHED
    from shared import answers, batch

    why = "there is no program beyond of these sources (./beyond builds it): tests that lw refuses are listed by tools/beyond.py"
    print(f"run_all: {why}{rows.NOT_PROVED}", file=sys.stderr)
    return batch.run_function_on_all(answers.search_states, files, lambda _file: None), rows.SEARCHED_UNPROVED


def run_tests(files: list[str], report: Callable[[str], None]) -> list[tuple[spawn.Run, str]]:
    """Returns the runs of tests, each with the method by which its list is made: by the programs if they are those of the sources."""
    if not files:
        return []
    if spawn.is_current():
        done = [(run, rows.ENUMERATED) for run in spawn.run_all([(file, ("states",)) for file in files], report)]
    else:
        import plain
        from shared import batch

        print(f"run_all: there is no program of these sources (./lw builds it): answered by tools/plain.py{rows.NOT_PROVED}", file=sys.stderr)
        done = [(run, rows.PLAIN_UNPROVED) for run in batch.run_function_on_all(plain.make_report, files, report)]
    refused = [index for index, (run, _) in enumerate(done) if run.status == LIMIT]
    if refused:
        runs, method = run_past_limits([files[index] for index in refused])
        for index, run in zip(refused, runs):
            done[index] = run, method
    return done


def convert_and_answer(
    jobs: list[tuple[str, spawn.Run | None]], choices: Choices, report: Callable[[str], None]
) -> list[rows.FileAnswer]:
    """Returns the answers of files that are converted first, in parallel. A job is a file, and lw's run of it, which says why lw refuses it; `None`
    if lw was not asked.
    """
    if not jobs:
        return []
    from concurrent.futures import ProcessPoolExecutor

    from many import conversions

    done = []
    with ProcessPoolExecutor(min(len(jobs), os.cpu_count() or 1)) as pool:
        for job, answer in zip(jobs, [pool.submit(conversions.answer_file, choices, job) for job in jobs]):
            try:
                done.append(answer.result())
            except Exception as why:  # A fault of a tool, or a process that ended: the other files have their rows.
                done.append(rows.make_refusal(job[0], f"{job[0]}: the conversion failed, which is a fault of it: {type(why).__name__}: {why}"))
            report(job[0])
    return done


def answer_all(files: list[str], choices: Choices, report: Callable[[str], None]) -> list[rows.FileAnswer]:
    """Returns the answers of all files, in their sequence. Tests that lw does not read are converted, if they are in herd's form."""
    tests = [index for index, file in enumerate(files) if not is_program(file)]
    runs = dict(zip(tests, run_tests([files[index] for index in tests], report)))
    reports = {index: rows.make_answer(*run) for index, run in runs.items()}
    answered = {index: answer for index, answer in reports.items() if answer is not None}
    unanswered = [index for index in range(len(files)) if index not in answered]
    jobs = [(files[index], runs[index][0] if index in runs else None) for index in unanswered]
    answered.update(zip(unanswered, convert_and_answer(jobs, choices, report)))
    return [answered[index] for index in range(len(files))]
