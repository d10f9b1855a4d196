#!/usr/bin/env python3
"""Reports the states of a test with LOCK CMPXCHG, or with loops, by assumption.

    python3 tools/assume.py [--tries N] [--schedules] [--order intel|att] FILE

FILE has a test in herd's form, of X86 or of X86_64 (an x86 test of lw with LOCK CMPXCHG has this form). The command converts it, as
tools/from_herd.py does, to one test for each guess of which LOCK CMPXCHG succeed, and lists the states of each. It leaves out the runs that
contradict their guess or go through a loop more than N times, and prints one report. docs/ALGORITHMS.md argues why the report is exact.

Its last line says of how many tests it is composed, and which program made the lists: lw if it is built and does not refuse the tests for
their size; otherwise beyond if that is built; otherwise the search of tools/beyond.py. If the search made them, or if the program is not that of
the sources, the line says `not proved`.

With `--schedules` a run follows each state of the report: its events, by the lines and the instructions of FILE. Instructions that no other
thread can see are left out.

If no run is left, since none goes through every loop within N tries, there is no verdict: the line `None` says so, and the status is 6.

Standard input is read if there is no FILE. Faults and notes are those of tools/from_herd.py; Python 3.8 is enough, on any system.
"""
from __future__ import annotations

import sys
from argparse import Namespace

sys.dont_write_bytecode = True
import from_herd
import given
from herd.convert import convert
from herd.lines import Text, format_runs
from herd.order import ORDERS
from herd.together import make_merged_report
from shared import answers, command, start


def print_report(arguments: Namespace, name: str, text: str) -> int:
    """Prints the report of one test. Returns the exit status."""
    conversion = convert(text, arguments.tries, ORDERS[arguments.order])
    from_herd.print_notes(name, text, conversion)
    report, makers = make_merged_report(conversion.conversions)
    has_run = bool(answers.filter_state_lines(report))
    tries = f"{arguments.tries} tr{'ies' if arguments.tries != 1 else 'y'}"
    no_run = f"no run goes through every loop within {tries}"
    print(report if has_run else answers.format_no_verdict(conversion.conversions[0].unmarked, no_run), end="")
    if arguments.schedules and has_run:
        shown = format_runs(Text(text, conversion))
        print("".join(f"{state}\n" + "".join(f"  {event}\n" for event in shown[state]) for state in answers.filter_state_lines(report)), end="")
    count = len(conversion.conversions)
    runs = f", of the runs that go through each loop at most {arguments.tries} times" if conversion.tries else ""
    suffix = "" if answers.are_proved(makers) else ", not proved"
    print(f"Put together from {count} test{'s' * (count != 1)}, listed by {answers.format_makers(makers)}{suffix}{runs}")
    return 0 if has_run else answers.NO_VERDICT


def main() -> int:
    """Runs the command that the arguments describe. Returns the exit status."""
    given.set_output_encoding()
    reader = command.Reader(__doc__)
    reader.add_file()
    reader.add_argument("--tries", type=command.make_number_parser(0), default=0, metavar="N")
    reader.add_argument("--schedules", action="store_true")
    reader.add_argument("--order", choices=("intel", "att"))
    arguments = reader.read()
    return command.for_one("assume", arguments.file, lambda name, text: print_report(arguments, name, text))


if __name__ == "__main__":
    sys.exit(start.run(main))
