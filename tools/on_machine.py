#!/usr/bin/env python3
"""Runs litmus tests on this processor, and compares what is seen with the list that is proved complete.

    python3 tools/on_machine.py [--runs N] [--seconds S] [--until complete] [--everything] [--against FILE] [--json]
                                [--cc CC] [--knob NAME=VALUE] [--program-cc COMMAND] [--tries N] FILE...

A FILE has an x86 test, or a source test, which is run as the program that `lw compile` makes of it. Each thread's instructions are assembled
as they are, and objdump shows before each run that the program has them and no others. Then the threads run, pinned to processors, for S
seconds (10 if no number is named) or until N runs are done (then without a limit of time, unless S is named). With `--until complete` a run
ends as soon as all listed states were seen.

A FILE may be a program in C, C++ or Rust, or a test of herd's language C. tools/from_c.py compiles it, by the compiler of `--program-cc` (as its
`--cc`), and converts it to tests of lw; `--tries N` goes through loops N times at most. These tests are run one after another, and not the
program's machine code; the seconds and runs are divided among them. What they show of the program is put together and compared with the program's
list; all that each shows is compared with its own list.

The output is a histogram in the form of litmus7's logs, and after it: what kept the run from showing much, runs per second, which program made
the list, how many of its states were seen, the rarest, and those that were not seen. A state that was SEEN AND NOT LISTED contradicts the
list, and the status is 3. The output says nothing of other processors, and a state that was not seen may still be possible
(docs/ON-MACHINE.md). `--json` prints all of it as a line of JSON for each test.

`--everything` looks at all registers that the test uses and at all locations. `--against FILE` compares what is seen with the list of another
test of the same names: a control, as is `--knob stores=nontemporal`. Other knobs say what a run may do; the refusal of a wrong one names all.

The list is made by lw, by beyond if lw refuses the test for its size, and otherwise by the search of tools/beyond.py, which is not proved;
the output says which. That a program is converted correctly is not proved. A C compiler and objdump are needed: without one of them, if what is
compiled is not the test, or if no run of a program is left, a line says so and the status is 5. A file that has no test ends with status 1, and
one line `FILE:LINE:COLUMN: cause`. Linux on x86-64, Python 3.8.
"""
from __future__ import annotations

import argparse
import json
import shlex
import sys
import tempfile
from typing import Any

sys.dont_write_bytecode = True
import given
from c.refused import Refused
from machine import knobs, programs, summary
from machine.faults import NotRun
from machine.laboratory import Laboratory, Settings
from machine.plans import Limits
from machine.subjects import Subject, make_subject
from shared import command, start

SEEN_AND_NOT_LISTED, NOT_RUN, INTERRUPTED = 3, 5, 130
SECONDS = 10.0


def parse_knob(word: str) -> tuple[str, Any]:
    """Returns the knob that a word `NAME=VALUE` sets, and the number that the harness is passed for its value. Raises ArgumentTypeError if the word
    sets none.
    """
    try:
        return knobs.parse_knob(word)
    except knobs.NoKnob as why:
        raise argparse.ArgumentTypeError(str(why)) from None


def parse_seconds(text: str) -> float:
    """Returns the number of seconds that a text says. Raises ArgumentTypeError if it says none."""
    seconds = command.parse_seconds(text)
    if seconds is None:
        raise argparse.ArgumentTypeError(f"'{text}' is no number of seconds from 0.001 to 10000000")
    return seconds


def parse_compiler(text: str) -> list[str]:
    """Returns the words of a compiler's command. Raises ArgumentTypeError if the text is none."""
    try:
        words = shlex.split(text)
    except ValueError as why:
        raise argparse.ArgumentTypeError(f"'{text}' is no command: {why}") from None
    if not words:
        raise argparse.ArgumentTypeError("it names no compiler")
    return words


def make_settings(arguments: argparse.Namespace, against: Subject | None) -> Settings:
    """Returns the options of runs, by the arguments of the command."""
    seconds = SECONDS if arguments.seconds is None and not arguments.runs else arguments.seconds
    return Settings(Limits(seconds, arguments.runs, arguments.until == "complete"), knobs.make_knobs(arguments.knob), arguments.everything, against)


def run_and_print(laboratory: Laboratory, arguments: argparse.Namespace, settings: Settings, file: str, text: str) -> int:
    """Runs the test of a file, or the tests of its program, and prints what was seen. Returns the exit status."""
    try:
        result = programs.run_file(laboratory, file, text, settings, arguments.program_cc, arguments.tries)
    except NotRun as why:
        print(f"on_machine: {file}: {why}", file=sys.stderr)
        return NOT_RUN
    except Refused as why:
        return given.refuse(why.format_line(file))
    print(json.dumps(summary.make_json(result)) if arguments.json else summary.format_result(result), end="\n" if arguments.json else "", flush=True)
    return SEEN_AND_NOT_LISTED if result.is_contradicted() else 0


def run_all(arguments: argparse.Namespace, settings: Settings) -> int:
    """Runs all tests. Returns the exit status: SEEN_AND_NOT_LISTED if some state was, otherwise the greatest status of a test."""
    try:
        with tempfile.TemporaryDirectory(prefix="lw-machine-") as folder:
            laboratory = Laboratory(arguments.cc, folder)
            work = lambda file, text: run_and_print(laboratory, arguments, settings, file, text)
            statuses = {command.for_one("on_machine", file, work) for file in arguments.files}
    except NotRun as why:
        print(f"on_machine: {why}", file=sys.stderr)
        return NOT_RUN
    except KeyboardInterrupt:
        return INTERRUPTED
    return SEEN_AND_NOT_LISTED if SEEN_AND_NOT_LISTED in statuses else max(statuses)


def run_against(arguments: argparse.Namespace) -> int:
    """Runs all tests; with `--against`, compares them with the list of that test or program. Returns the exit status."""
    if arguments.against is None:
        return run_all(arguments, make_settings(arguments, None))
    return command.for_one("on_machine", arguments.against, lambda file, text: run_held_against(arguments, file, text))


def run_held_against(arguments: argparse.Namespace, file: str, text: str) -> int:
    """Runs all tests, and compares them with the list of the test or program in `text`. Returns the exit status."""
    try:
        is_converted = programs.is_converted(file, text)
        subject = programs.compile_program(
            file, text, arguments.program_cc, arguments.tries
        ).subject if is_converted else make_subject(text, arguments.everything)
    except NotRun as why:
        print(f"on_machine: {file}: {why}", file=sys.stderr)
        return NOT_RUN
    except Refused as why:
        return given.refuse(why.format_line(file))
    return run_all(arguments, make_settings(arguments, subject))


def main() -> int:
    """Runs the command that the arguments describe. Returns the exit status."""
    given.set_output_encoding()
    reader = command.Reader(__doc__)
    reader.add_argument("files", nargs="+", metavar="FILE")
    reader.add_argument("--runs", type=command.make_number_parser(1), default=0, metavar="N")
    reader.add_argument("--seconds", type=parse_seconds, metavar="S")
    reader.add_argument("--until", choices=["complete"])
    reader.add_argument("--everything", action="store_true")
    reader.add_argument("--against", metavar="FILE")
    reader.add_argument("--json", action="store_true")
    reader.add_argument("--cc", type=parse_compiler, default="cc")
    reader.add_argument("--program-cc", metavar="COMMAND")
    reader.add_argument("--tries", type=command.make_number_parser(0), default=1, metavar="N")
    reader.add_argument("--knob", type=parse_knob, action="append", default=[], metavar="NAME=VALUE")
    return run_against(reader.read())


if __name__ == "__main__":
    sys.exit(start.run(main))
