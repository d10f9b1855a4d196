#!/usr/bin/env python3
"""Lists the states of a test that `lw states` refuses for its limits, if the program `beyond` is not built: a search finds them, and the
program replays each.

    python3 tools/beyond.py [--max-states N] [--schedules] FILE

A search that is not proved looks for all final states: of a source test by interleaving, of an x86 test with store buffers. Each state that
it finds has a schedule, which `lw replay` carries out. So each printed state is one of the test's, by the proof of the replay. That none is
missing is not proved; `./beyond` lists the same states by a proved search. The report is that of `lw states`, with one more line at its end,
which says so and names what replayed the states: the program if it is built, otherwise tools/plain.py. With `--schedules` the command prints
the list of schedules instead.

The search ends after N states of the machine (2,000,000 if no number is named); then the last line says that too, and states may be missing. If
the search has found no final state by then, there is no verdict: the line `None` says so, and the status is 6. A terminal on standard error
shows its progress. A test within the limits is answered as well, with the same states.

Standard input is read if there is no FILE. Faults are reported as by tools/plain.py; Python 3.8 is enough, on any system.
"""
from __future__ import annotations

import re
import sys
from argparse import Namespace
from typing import Tuple

sys.dont_write_bytecode = True
import given
import plain
from search.explore import SearchResult, Search
from search.reports import make_report
from shared import answers, batch, command, start

Words = Tuple[int, ...]


def parse_page_state(page: str, test: plain.Test) -> Words:
    """Returns the words of the observed sites on the page of a replay that is final."""
    lines = page.splitlines()
    if lines[2:3] != ["End Final"]:
        return ()
    words: dict[str, int] = {}
    for line in lines[3:]:
        thread = re.match(r"P(\d) at \d+ ", line)
        if thread or line.startswith(("Memory ", "Content ")):
            prefix = f"{thread[1]}:" if thread else ""
            words.update({prefix + name: int(word) for name, word in re.findall(r"(\w+)=(\d+)", line)})
    return tuple(words[plain.format_site(test, site)] for site in plain.list_observed_sites(test))


def replay_all(test: plain.Test, text: str, exploration: SearchResult) -> str:
    """Replays all schedules, each of which must end in its state. Returns the name of what replays them. Raises SystemExit if one ends otherwise."""
    schedules = list(exploration.schedules.values())
    pages, maker = batch.replay_all(text, schedules), answers.find_maker("lw").value
    if pages is None:
        pages, maker = [plain.replay(test, schedule)[0] for schedule in schedules], answers.Maker.PLAIN.value
    for (words, schedule), page in zip(exploration.schedules.items(), pages):
        if parse_page_state(page, test) != words:
            raise SystemExit(f"beyond: the search is wrong: {maker} replays {schedule!r} to another state than {words}")
    return maker


def format_last_line(exploration: SearchResult, by: str) -> str:
    """Returns the last line of the output: what listed and replayed the states, and where the search ended if it is not whole."""
    end = "" if exploration.is_whole else f"; the search ended at {exploration.state_count} state{'s' * (exploration.state_count != 1)} of the machine"
    return f"Listed by tools/beyond.py and not claimed complete; each state is replayed by {by}{end}"


def list_schedules(test: plain.Test, exploration: SearchResult) -> str:
    """Returns the list of schedules."""
    lines = [f"Test {test.name}", f"States {len(exploration.schedules)}"]
    for words in sorted(exploration.schedules):
        lines += [plain.format_state(test, words), f" {exploration.schedules[words]}"]
    return plain.join_lines(lines)


def show_progress(explored: int, state_count: int) -> None:
    """Says on a terminal how many of the states that were found are explored."""
    if sys.stderr.isatty():
        print(f"\r{explored} of {state_count} states looked at", end="", file=sys.stderr, flush=True)


def print_report(words: Namespace, text: str) -> int:
    """Prints the report of one test, or its schedules. Returns the exit status."""
    test = plain.read_test(text)
    exploration = Search(test).explore(words.max_states, show_progress)
    if sys.stderr.isatty():
        print(f"\r{'':60}\r", end="", file=sys.stderr, flush=True)
    maker = replay_all(test, text, exploration)
    if exploration.schedules:
        print(list_schedules(test, exploration) if words.schedules else make_report(test, exploration), end="")
    else:
        print(answers.format_no_verdict(test, "the search came to no final state"), end="")
    print(format_last_line(exploration, maker))
    return 0 if exploration.schedules else answers.NO_VERDICT


def main() -> int:
    """Runs the command that the arguments describe. Returns the exit status."""
    given.set_output_encoding()
    reader = command.Reader(__doc__)
    reader.add_file()
    reader.add_argument("--max-states", type=command.make_number_parser(1), default=answers.MAX_STATES, metavar="N")
    reader.add_argument("--schedules", action="store_true")
    arguments = reader.read()
    return command.for_one("beyond", arguments.file, lambda _name, text: print_report(arguments, text))


if __name__ == "__main__":
    sys.exit(start.run(main))
