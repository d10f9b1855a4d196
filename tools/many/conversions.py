"""Files that are converted before lw lists their states: tests in herd's form, and programs in C, C++ and Rust.

A test is converted by the functions of tools/from_herd.py, and put together as by tools/assume.py; a program by those of tools/from_c.py. Each
answer says how it was converted, in the names of the original.
"""
from __future__ import annotations

import os
import sys
import time
from typing import Iterable

import from_herd
import given
from c.source import is_herd_form
from herd.convert import convert
from herd.order import ORDERS
from herd.text import parse_heading
from herd.together import collect_answers, merge_reports, translate_report
from many import rows
from many.files import is_program
from many.lists import Choices
from shared import answers, batch, command, spawn

# A maker's method, the strongest first.
METHODS = {
    answers.Maker.PROGRAM: rows.ENUMERATED,
    answers.Maker.BEYOND: rows.SEARCHED,
    answers.Maker.STALE_PROGRAM: rows.ENUMERATED_UNPROVED,
    answers.Maker.STALE_BEYOND: rows.SEARCHED_UNPROVED,
    answers.Maker.SEARCH: rows.SEARCHED_UNPROVED,
    answers.Maker.PLAIN: rows.PLAIN_UNPROVED,
}


def choose_method(makers: Iterable[answers.Maker]) -> str:
    """Returns the method of a report that is put together from lists of several makers: the weakest of theirs."""
    made_by = {*makers}
    return [method for maker, method in METHODS.items() if maker in made_by][-1]


class Clock:
    """Measures the processor time of this process, and of those that it started and that have ended."""

    def __init__(self) -> None:
        """Starts the clock."""
        self.begin = self.measure_time()

    @staticmethod
    def measure_time() -> float:
        """Returns the processor time of this process so far, and of those that it started and that have ended."""
        used = os.times()
        return time.process_time() + used.children_user + used.children_system

    def measure_seconds(self) -> float:
        """Returns the processor time since the start."""
        return self.measure_time() - self.begin


def format_times(count: int) -> str:
    """Returns a number of times in words."""
    return "once" if count == 1 else f"{count} times"


def describe_tests(count: int, tries: int) -> str:
    """Returns the number of tests from which a report is put together, and its number of tries of loops, if it has a limit."""
    tests = f"{count} tests" if count != 1 else "1 test"
    return tests + (f", loops gone through at most {format_times(tries)}" if tries else "")


def describe_no_run(tries: int) -> str:
    """Returns the words on why no run is left."""
    return f"no run goes through every loop within {tries} tr{'ies' if tries != 1 else 'y'}"


def answer_file(choices: Choices, job: tuple[str, spawn.Run | None]) -> rows.FileAnswer:
    """Returns the answer of a file that lw does not read, by its conversion. The job is the file, and lw's run of it; of a program, which lw is not
    asked about, `None`.
    """
    file, run = job
    try:
        with open(file, "rb") as source_file:
            read = source_file.read()
    except OSError as why:
        return rows.make_refusal(file, f"{file}: {why.strerror or why}")
    try:
        text = given.decode(read)
        if is_program(file) or is_herd_form(text):
            return answer_program(file, text, choices)
        assert run is not None  # lw was asked about each test.
        return answer_test(file, text, choices, run)
    except given.Fault as fault:
        return rows.make_refusal(file, given.format_fault(file, read, fault))
    except RecursionError:
        return rows.make_refusal(file, f"{file}: the condition is nested too deeply for this tool")


# Tests in herd's form.


def answer_test(file: str, text: str, choices: Choices, run: spawn.Run) -> rows.FileAnswer:
    """Returns the answer of a test that lw refuses: converted from herd's form, or refused."""
    clock, fault_offset = Clock(), batch.find_fault(text)
    if fault_offset is None:
        return rows.make_refusal(file, batch.format_fault(run))
    try:
        language = parse_heading(text)[0]
        result = convert(text, choices.tries, ORDERS[choices.order])
    except given.Fault as fault:
        return rows.make_refusal(file, choose_fault(file, text, run, fault_offset, fault))
    notes = tuple(command.format_note(file, text, at, says) for at, says in result.notes)
    count = len(result.conversions)
    by = "from_herd.py" if count == 1 and not result.tries else "assume.py"
    description = f"{by}, {language}: {describe_tests(count, result.tries)}"
    # The tests of all guesses are listed, and their reports merged.
    try:
        test_answers = collect_answers(result.conversions)
    except given.Fault as fault:
        return rows.make_refusal(file, f"{file}: {fault.cause}", description, notes)
    report = merge_reports(result.conversions, test_answers)
    if answers.filter_state_lines(report):
        report = translate_report(report, result)
    else:
        report = answers.format_no_verdict(result.conversions[0].unmarked, describe_no_run(choices.tries))
    row = rows.make_row(file, report, clock.measure_seconds(), choose_method(it.by for it in test_answers))
    tests = [(from_herd.format_converted_text(result, it), answer.text) for it, answer in zip(result.conversions, test_answers)]
    return rows.FileAnswer(row._replace(converted=description, notes=list(notes)), report, tests, result.tries)


def choose_fault(file: str, text: str, run: spawn.Run, lw_offset: int, fault: given.Fault) -> str:
    """Returns the line on a text that lw does not read, at `lw_offset`, and that is not converted from herd's form, because of `fault`: that of the
    reader that comes to a later line. Of one line both are in it, if they differ.
    """
    try:
        is_x86 = parse_heading(text)[0] == "X86"
    except given.Fault:
        return batch.format_fault(run)
    line_of_lw, line_of_herd = text.count("\n", 0, lw_offset), text.count("\n", 0, fault.offset)
    if not is_x86 or line_of_lw < line_of_herd:
        return given.format_fault(file, text.encode(), fault)
    line = batch.format_fault(run)
    return line if line_of_lw > line_of_herd or line.endswith(fault.cause) else f"{line}; in herd's form: {fault.cause}"


# Programs.


def answer_program(file: str, text: str, choices: Choices) -> rows.FileAnswer:
    """Returns the answer of a program, by the compiler that is chosen, or by that of tools/from_c.py."""
    import from_c
    from c.compiler import choose_compiler
    from c.refused import NoRun, Refused
    from c.source import read_source

    clock = Clock()
    sys.setrecursionlimit(from_c.RECURSION)
    source = read_source(file, text)
    compiler = choices.compiler if choices.compiler and not source.is_rust else choose_compiler(source.ending)
    description = f"from_c.py, {compiler}"
    try:
        answer, _ = from_c.convert_source(source, compiler, choices.tries, include=os.path.dirname(os.path.abspath(file)))
    except NoRun as why:
        report = from_c.format_no_run(source, why.cause)
        row = rows.make_row(file, report, clock.measure_seconds(), None)
        return rows.FileAnswer(row._replace(converted=description), report, [], choices.tries)
    except Refused as why:
        return rows.make_refusal(file, why.format_line(file), description)
    # The row of a program with a report.
    tries = choices.tries if answer.bounded else 0
    report = answer.report if answer.has_run else from_c.format_no_run(source, describe_no_run(choices.tries))
    row = rows.make_row(file, report, clock.measure_seconds(), choose_method(answer.makers))
    description = f"{description}: {describe_tests(len(answer.tests), tries)}"
    notes = [f"{file}: note: {note}" for note in answer.notes]
    return rows.FileAnswer(row._replace(converted=description, notes=notes), report, [], tries)
