"""Runs many tests by tools/plain.py or by the search of tools/beyond.py in parallel, says why a file has no report, and replays one test
many times.
"""
from __future__ import annotations

import functools
import os
import tempfile
import time
from collections.abc import Callable, Sequence
from concurrent.futures import ProcessPoolExecutor

import given
import plain
from shared import answers, spawn


def run_function(report_of: Callable[[plain.Test], str], file: str) -> spawn.Run:
    """Returns the run of a file whose report a function computes."""
    begin = time.process_time()
    printed, status = "", 1
    try:
        with open(file, "rb") as stream:
            read = stream.read()
        printed, status = report_of(plain.read_test(given.decode(read))), 0
    except answers.NoList as why:
        printed = why.cause
    except (given.Fault, RecursionError, OSError):
        pass  # `format_fault` says why.
    return spawn.Run(file, printed, status, time.process_time() - begin)


def run_function_on_all(report_of: Callable[[plain.Test], str], files: Sequence[str], report: Callable[[str], None]) -> list[spawn.Run]:
    """Returns the runs of all files by a function, such as `plain.make_report` or `answers.search_states`. Calls `report` with each file that
    is done.
    """
    done = []
    with ProcessPoolExecutor(os.cpu_count() or 1) as pool:
        for run in pool.map(functools.partial(run_function, report_of), files):
            report(run.file)
            done.append(run)
    return done


def format_fault(run: spawn.Run) -> str:
    """Returns why a file has no report: `FILE:LINE:COLUMN: cause` for a text that is no test, otherwise what the program says."""
    try:
        with open(run.file, "rb") as file:
            read = file.read()
    except OSError as why:
        return f"{run.file}: {why.strerror}"
    try:
        plain.read_test(given.decode(read))
    except given.Fault as fault:
        return given.format_fault(run.file, read, fault)
    except RecursionError:
        return f"{run.file}: the condition is nested too deeply for this tool"
    return f"{run.file}: {run.out.strip() or f'no report, status {run.status}'}"


def find_fault(text: str) -> int | None:
    """Returns the offset at which a text is faulty as a test of lw, or `None` if tools/plain.py finds no fault."""
    try:
        plain.read_test(text)
    except given.Fault as fault:
        return fault.offset
    except RecursionError:
        pass  # Nested too deeply for this tool: that is no fault of the text.
    return None


def replay_all(text: str, schedules: Sequence[str]) -> list[str] | None:
    """Returns the pages of many replays of one test by the program, or `None` if it is missing, or does not start on this system."""
    if not spawn.can_spawn():
        return None
    with tempfile.TemporaryDirectory(prefix="lw-") as folder:
        file = os.path.join(folder, "test.litmus")
        with open(file, "wb") as stream:
            stream.write(text.encode())
        runs = spawn.run_all([(file, ("replay", schedule)) for schedule in schedules])
    return [run.out for run in runs] if all(run.status in (0, 1) for run in runs) else None
