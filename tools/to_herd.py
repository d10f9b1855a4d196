#!/usr/bin/env python3
"""Writes a test of lw in herd's form.

    python3 tools/to_herd.py [--form X86_64|X86] FILE
    python3 tools/to_herd.py --report [--form X86_64|X86] REPORT

A source test is written as its compiled program, by `lw compile` if the program is built, otherwise by tools/plain.py. If no form is named, it
is X86_64: AT&T's order of operands, 32 bits in each access, registers by their names of 64 bits in the block and the condition.
X86 has Intel's order. tools/from_herd.py reads both back, to a test with the same states.

With `--report` a report of `lw states` is read, and written in the lines of a log of herd's: a line `Witnesses` is added, and a line of
time. There is no line `Hash`, which herd's tools compute from the text of a test in a way of their own.

Standard input is read if there is no file. Faults are reported as by tools/plain.py; Python 3.8 is enough, on any system.
docs/FROM-HERD.md lists the spellings of which it is not known whether herd takes them.
"""
from __future__ import annotations

import sys
from argparse import Namespace

sys.dont_write_bytecode = True
import given
import plain
from herd.write import FORMS, format_herd_report, format_herd_text
from shared import answers, command, start


def make_x86_test(text: str) -> plain.Test:
    """Returns the x86 test that a test is, or is compiled to."""
    test = plain.read_test(text)
    if test.language == "X86":
        return test
    return plain.read_test(answers.make_answer(["compile"], test, text).text)


def print_herd_form(arguments: Namespace, text: str) -> int:
    """Prints one test, or one report. Returns the exit status. Raises Fault if the input of --report is no report."""
    if not arguments.report:
        print(format_herd_text(make_x86_test(text), arguments.form), end="")
        return 0
    try:
        print(format_herd_report(text, arguments.form), end="")
    except ValueError as why:
        raise given.Fault(str(why), 0) from None
    return 0


def main() -> int:
    """Runs the command that the arguments describe. Returns the exit status."""
    given.set_output_encoding()
    reader = command.Reader(__doc__)
    reader.add_file()
    reader.add_argument("--form", choices=FORMS)
    reader.add_argument("--report", action="store_true")
    arguments = reader.read()
    arguments.form = arguments.form or ("X86" if arguments.report else "X86_64")
    return command.for_one("to_herd", arguments.file, lambda _name, text: print_herd_form(arguments, text))


if __name__ == "__main__":
    sys.exit(start.run(main))
