#!/usr/bin/env python3
"""Interprets litmus tests by docs/FORMAT.md only. It shares nothing with the crates, and nothing here is proved.

    python3 tools/plain.py states FILE
    python3 tools/plain.py schedules FILE
    python3 tools/plain.py compile FILE
    python3 tools/plain.py replay SCHEDULE [--protocol mesi|moesi] FILE
    python3 tools/plain.py words FILE
    python3 tools/plain.py orders FILE

The first four print what `./lw` prints, by other means: final states are found by walking through all states that a test can be in, a source
test's by interleaving on one memory, an x86 test's with store buffers before one memory. The caches are played in replays only.

- `schedules` gives a shortest schedule to each state; `./lw` may give another.
- Without FILE, or if it is `-`, standard input is read. If a file can't be read, one line says so.
- A text that is no test ends with status 1 and one line that says where and why, as `FILE:LINE:COLUMN: cause`, in which FILE is `-` for
  standard input. Lines and columns are counted from 1, columns in characters. Only `./lw` says which fault of docs/FORMAT.md it is. A
  fault of a schedule is reported as by `./lw`.
- Python 3.8 is enough, on any system.
- No size is refused, except a condition with hundreds of nested parentheses, by a line that says so. A test with very many states takes very
  long.

The last two say whether interleaving and x86-TSO allow what a test's condition asks about, in the words of the examples' comments; and how many
items a choice of flow paths has at most, and how many orders `./lw` counts.
"""
from __future__ import annotations

import sys

sys.dont_write_bytecode = True
import given
from interpreter.compiling import (
    compile_statement, compile_test, compile_thread, find_fenced_loads, format_canonical_text, format_cells, format_instruction, list_successors,
)
from interpreter.conditions import (
    format_condition, format_proposition, format_site, is_true_in, list_parts, list_sites, read_word, replace_atoms, site_sort_key,
)
from interpreter.machines import (
    Caches, OneMemory, Processor, drain_oldest, execute_instruction, execute_locked, execute_next, execute_statement, read_value, replace_item,
)
from interpreter.orders import collect_accesses, count_conflicts, count_orders, list_paths
from interpreter.reading import (
    BLANKS, LANGUAGE, MAX_BYTES, MAX_NODES, MAX_ROWS, MAX_STATEMENTS, NAME_OF_TEST, RESERVED, Reader, parse_heading, read_test,
)
from interpreter.replays import SourceReplay, X86Replay, format_words, read_schedule, replay, start_replay
from interpreter.reports import (
    collect_states, find_verdict, find_verdicts, format_schedules, format_state, list_observed_sites, make_outcome_from_words, make_report,
)
from interpreter.tests import (
    REGISTERS, WORD, And, Constant, Eq, LocationSite, NoSchedule, NoTest, Not, Number, Or, Outcome, Proposition, Refused, Register, RegisterSite,
    Site, Statement, Test, Value, join_lines,
)
from interpreter.tokens import KEY, LETTERS, TOKEN, parse_tokens, quote, quote_at, skip_comment, skip_notes, skip_quoted
from interpreter.walks import (
    explore_states, list_interleaved_moves, list_outcomes, list_source_moves, list_x86_moves, make_outcome, make_schedule, make_source_start,
    make_x86_start,
)
from shared import command, start

COMMANDS = ("states", "schedules", "compile", "replay", "words", "orders")
PROTOCOLS = ("mesi", "moesi")


def answer_command(arguments: list[str], text: str) -> tuple[str, int]:
    """Returns the program's output for a command, and its exit status. The words are those of its command line, without the file."""
    name, *rest = arguments
    test = read_test(text)
    if name == "replay":
        return replay(test, rest[0], *rest[2:])
    texts = {
        "states": lambda: make_report(test),
        "schedules": lambda: format_schedules(test),
        "compile": lambda: format_canonical_text(compile_test(test)),
        "words": lambda: "Interleaving: {}. x86-TSO: {}.\n".format(*find_verdicts(test)),
        "orders": lambda: "Items: {}. Orders: {}.\n".format(*count_orders(test)),
    }
    return texts[name](), 0


def parse_arguments() -> tuple[list[str], str]:
    """Returns the words of the command, as `answer_command` takes them, and the name of its file. Exits if the command line is wrong."""
    parser = command.Reader(__doc__)
    parser.add_argument("command", choices=COMMANDS)
    parser.add_argument("others", nargs="*")
    parser.add_argument("--protocol", choices=PROTOCOLS)
    options = parser.read()
    is_replay = options.command == "replay"
    schedule, files = options.others[: int(is_replay)], options.others[int(is_replay) :]
    if is_replay and not schedule:
        parser.error("replay needs a SCHEDULE")
    if options.protocol and not is_replay:
        parser.error(f"{options.command} takes no --protocol")
    if len(files) > 1:
        parser.error(f"one FILE is enough, and not {' '.join(files)}")
    protocol = ["--protocol", options.protocol] if options.protocol else []
    return [options.command, *schedule, *protocol], (files or [given.STANDARD_INPUT])[0]


def print_answer(arguments: list[str], text: str) -> int:
    """Prints the answer to a command. Returns the exit status."""
    try:
        printed, status = answer_command(arguments, text)
    except NoSchedule as fault:
        return given.refuse("lw: schedule {} {} at {}".format(*fault.args))
    print(printed, end="")
    return status


def main() -> int:
    """Prints the answer to the command line. Returns the exit status."""
    given.set_output_encoding()
    words, file = parse_arguments()
    return command.for_one("plain", file, lambda _name, text: print_answer(words, text))


if __name__ == "__main__":
    sys.exit(start.run(main))
