#!/usr/bin/env python3
"""Runs many tests in parallel, and prints a table of the answers.

    python3 tools/run_all.py [--as text|csv|json|log] [--shard I/N] [--expect-ok] [--tries N] [--order intel|att] [--cc COMMAND]
                             [--expect TABLE] [--against LOG] [--machine-log LOG] [--on-machine SECONDS] [FOLDER|FILE]...
    python3 tools/run_all.py [--as text|csv|json] [--expect-ok] [--expect TABLE] --merge TABLE...

In a folder it runs all files that end in .litmus, .c, .cc, .cpp, .cxx or .rs. If neither is named, standard input has the name of a file in each
line. For each test the table has its name, the question (Allowed, Forbidden or Required), the verdict, the observation, the number of states,
the milliseconds of processor time, and the method by which the list was made: `enumerated` by lw, `searched` by beyond, or not proved,
`searched, not proved` and `plain, not proved`. `--as log` prints all reports, one after another. A terminal on standard error shows the
progress.

A test that lw does not read is converted if it is in herd's form: of X86 and X86_64 as by tools/from_herd.py, with LOCK CMPXCHG or loops as by
tools/assume.py, of C as by tools/from_c.py; so are programs in C, C++ and Rust. `--tries N` goes through each loop N times at most (1 if it
is not named), `--order` is that of tools/from_herd.py, and `--cc` names the compiler of C and C++ (`gcc -O2`, or `g++ -O2`). States are in the names
of the original. If a file was converted, a column says how: by which tool, to how many tests of lw, and with how many tries of loops. If its
lists have several methods, the weakest is named. Its notes are on standard error.

A file that is refused has the verdict `Refused`, and a column says why; so does a line `FILE:LINE:COLUMN: cause` on standard error. One of which
no run is left, since none goes through every loop within N tries, has the verdict `None`. JSON has `listed`, the states of each test, and `notes`.

`--shard I/N` runs the I-th of N parts of the files: of their sorted names every N-th, from the I-th on. `--merge` puts the tables (`--as json`) of
shards together into one, sorted by files. It refuses tables that are not all of one split, and prints nothing then. Tables that are of no shards
are put together if they have no file in common.

`--expect-ok` expects the verdict `Ok` of each file, and `--expect TABLE` what a table says: each line has the name of a test, or a file's path or its
end, and a word. A verdict is Ok, No, None or Refused. An observation is Never, Sometimes or Always; Allowed is either of the last two, Forbidden is
Never and Required is Always, as in files of kinds for herd's tools. A `#` begins a comment. Files that are not in the table are to be Ok if
`--expect-ok` is there too. What is not as expected is said on standard error.

`--against LOG` compares with the reports of an earlier run (`--as log`), or with a log of herd's tools: standard error says
which tests lack states here, and which have too many. The log may use other names for registers (`rax` for `EAX`). A test
that tools/from_herd.py has converted is compared in the names of the original test: renamed registers have their names again, states that
the original's filter leaves out do not count, and the tests that stand for guesses of LOCK CMPXCHG are put together.

`--machine-log LOG` compares with what a machine showed, as litmus7 logs it. A machine need not show all states, so a state that is listed
and was not seen is no difference. A state that was seen and is not listed contradicts the list: it is reported, and the status is 3.

`--on-machine SECONDS` runs each test for SECONDS on this processor too, one after another, as tools/on_machine.py does; a test in
herd's form as it is converted, if that is one test without loops, and a program as the tests that it is converted to. A further column says
how many of its listed states were seen here, `-` if it could not be run; why, is said on standard error.

The command checks once whether the program is that of the sources, as `./lw` does for each test. If it is not, tools/plain.py answers. Tests that
lw refuses for their size are listed by beyond, or by the search of tools/beyond.py if beyond is not the program of the sources. Standard error
says too what is not proved.

The status is the first of these that applies: 3 if a machine showed a state that is not listed; 7 if something is not as `--expect-ok` or
`--expect` have it; 6 if no run of a file is left, so that it has no verdict; 5 if `--on-machine` can't run anything without a C compiler or
objdump; 2 if the words are no command; 1 if a file is refused, if something differs from LOG of `--against`, or if a test of both has other
names, or no test at all is in LOG of `--machine-log`, or no file in TABLE of `--expect`, or if tables are not put together. Python 3.8 is enough,
on any system.
"""
from __future__ import annotations

import argparse
import sys
import time

sys.dont_write_bytecode = True
import given
from many import files, lists, rows
from many.statuses import NOT_OK, NO_VERDICT, SEEN_AND_NOT_LISTED, NoTable, choose_status
from many.table import print_table
from shared import command, start

TYPE_CHECKING = False
if TYPE_CHECKING:
    from many.expected import Expected

FORMS = ("text", "csv", "json", "log")


class Progress:
    """A line on a terminal that says how far the runs are."""

    def __init__(self, total: int) -> None:
        """Starts with no run of `total` done."""
        self.total, self.done_count, self.shown_at = total, 0, 0.0  # `shown_at` is the time of the monotonic clock
        self.is_terminal = sys.stderr.isatty()

    def count_run(self, name: str) -> None:
        """Counts one more run as done."""
        self.done_count += 1
        if self.is_terminal and time.monotonic() - self.shown_at > 0.1:
            self.shown_at = time.monotonic()
            print(f"\r{min(self.done_count, self.total)} of {self.total}: {name[-50:]:50}", end="", file=sys.stderr, flush=True)

    def remove_line(self) -> None:
        """Removes the line."""
        if self.is_terminal:
            print(f"\r{'':70}\r", end="", file=sys.stderr, flush=True)


def parse_seconds(text: str) -> float:
    """Returns the number of seconds that a text says. Raises ArgumentTypeError if it says none."""
    seconds = command.parse_seconds(text)
    if seconds is None:
        raise argparse.ArgumentTypeError(f"'{text}' is no number of seconds from 0.001 to 10000000")
    return seconds


def parse_shard(text: str) -> files.Shard:
    """Returns the shard that a text says. Raises ArgumentTypeError if it says none."""
    shard = files.parse_shard(text)
    if shard is None:
        raise argparse.ArgumentTypeError(f"'{text}' is no I/N, in which I is from 1 to N")
    return shard


def parse_name(text: str) -> str:
    """Returns the name of a file or of a command. Raises ArgumentTypeError if it is empty."""
    if not text.strip():
        raise argparse.ArgumentTypeError("the name is empty")
    return text


def parse_arguments() -> argparse.Namespace:
    """Returns the arguments of the command. Exits if they are wrong."""
    reader = command.Reader(__doc__)
    reader.add_argument("names", nargs="*", metavar="FOLDER|FILE")
    reader.add_argument("--as", dest="form", choices=FORMS, default="text")
    reader.add_argument("--against", type=parse_name, metavar="LOG")
    reader.add_argument("--machine-log", type=parse_name, metavar="LOG")
    reader.add_argument("--on-machine", type=parse_seconds, metavar="SECONDS", dest="seconds")
    reader.add_argument("--shard", type=parse_shard, metavar="I/N")
    reader.add_argument("--merge", nargs="+", metavar="TABLE")
    reader.add_argument("--expect-ok", action="store_true")
    reader.add_argument("--expect", type=parse_name, metavar="TABLE")
    reader.add_argument("--tries", type=command.make_number_parser(0), default=1, metavar="N")
    reader.add_argument("--order", choices=("intel", "att"))
    reader.add_argument("--cc", type=parse_name, metavar="COMMAND")
    arguments = reader.read()
    if arguments.merge and (
        arguments.names or arguments.against or arguments.machine_log or arguments.seconds or arguments.shard or arguments.form == "log"
    ):
        reader.error("--merge runs nothing: it goes with --as text, csv or json, and with --expect-ok")
    return arguments


def read_expected(arguments: argparse.Namespace) -> Expected | None:
    """Returns the expected verdicts of the rows, or None if there are none."""
    if not (arguments.expect or arguments.expect_ok):
        return None
    from many.expected import Expected

    return Expected(arguments.expect, arguments.expect_ok, arguments.shard is not None)


def report_unexpected(table: list[rows.Row], expected: Expected) -> int:
    """Reports on standard error what is not as expected, and names of the table that mean no file. Returns the exit status."""
    unmet = expected.list_unmet(table)
    for row, word in unmet:
        print(
            f"{row.file}: the verdict is {row.verdict}, and {word} is expected" + (f": {row.observation}" if row.observation else ""), file=sys.stderr
        )
    missing = expected.list_missing()
    if missing:
        print(f"run_all: {expected.name}: no file here is meant by {', '.join(missing)}", file=sys.stderr)
    return NOT_OK if unmet else 1 if missing and len(missing) == len(expected.table) else 0


def report_rows(table: list[rows.Row], expected: Expected | None) -> set[int]:
    """Reports on standard error which files are refused, and what is not as expected. Returns the exit statuses."""
    unexpected = [it for it in table if not (expected and expected.is_expected(it))]
    refused = [it for it in unexpected if it.verdict == rows.REFUSED]
    without = [it for it in unexpected if it.verdict == rows.NO_VERDICT]
    for row in [*refused, *without]:
        print(rows.format_refusal(row), file=sys.stderr)
    return {1 if refused else 0, NO_VERDICT if without else 0, report_unexpected(table, expected) if expected else 0}


def report_notes(answers: list[rows.FileAnswer]) -> None:
    """Reports on standard error what was left out of converted files or read otherwise, and whose lists are not proved."""
    for row in (it.row for it in answers if it.row.converted):
        for note in row.notes:
            print(note, file=sys.stderr)
        if rows.NOT_PROVED in (row.method or ""):
            print(f"run_all: {row.file}: {row.method}", file=sys.stderr)


def merge_and_print(arguments: argparse.Namespace) -> int:
    """Merges tables, and prints the result. Returns the exit status."""
    from many.merge import merge_tables

    table, expected = merge_tables(arguments.merge), read_expected(arguments)
    print_table(table, arguments.form)
    sys.stdout.flush()
    seen = {SEEN_AND_NOT_LISTED for it in table if it.seen and "not listed" in it.seen}
    return choose_status({0} | seen | report_rows(table, expected))


def compare_with_logs(answers: list[rows.FileAnswer], arguments: argparse.Namespace) -> set[int]:
    """Compares the answers with logs, as far as that is requested. Returns the exit statuses."""
    if not (arguments.against or arguments.machine_log):
        return {0}
    from many import compare

    differing = compare.report_differences(answers, arguments.against) if arguments.against else 0
    return {differing, compare.report_machine_log(answers, arguments.machine_log) if arguments.machine_log else 0}


def make_rows(answers: list[rows.FileAnswer], arguments: argparse.Namespace) -> tuple[list[rows.Row], int]:
    """Returns the rows, with a column of what was seen on this machine if that is requested, and the exit status of these runs."""
    if arguments.seconds is None:
        return [it.row for it in answers], 0
    from many import compare

    progress = Progress(len(answers))
    try:
        return compare.add_seen_column(answers, arguments.seconds, progress.count_run, arguments.cc, arguments.tries)
    finally:
        progress.remove_line()


def run_files(arguments: argparse.Namespace) -> int:
    """Runs the files, and prints what is requested. Returns the exit status."""
    expected = read_expected(arguments)
    paths = files.list_files(arguments.names)
    chosen = files.select_shard(paths, arguments.shard) if arguments.shard else paths
    progress = Progress(len(chosen))
    done = lists.answer_all(chosen, lists.Choices(arguments.tries, arguments.order, arguments.cc), progress.count_run)
    progress.remove_line()
    table, here = make_rows(done, arguments)
    reported = [it for it in done if it.report]
    if arguments.form == "log":
        sys.stdout.write("".join(f"{it.report}\n" for it in reported))
    print_table(table, arguments.form, arguments.shard, len(set(paths)))
    sys.stdout.flush()
    report_notes(done)
    return choose_status({here} | report_rows(table, expected) | compare_with_logs(reported, arguments))


def main() -> int:
    """Runs the command. Returns the exit status."""
    given.set_output_encoding()
    arguments = parse_arguments()
    try:
        return merge_and_print(arguments) if arguments.merge else run_files(arguments)
    except NoTable as why:
        return given.refuse(f"run_all: {why}")
    except OSError as why:
        return given.refuse(f"run_all: {why.filename}: {why.strerror}")


if __name__ == "__main__":
    sys.exit(start.run(main))
