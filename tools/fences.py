#!/usr/bin/env python3
"""Says which fences of a test matter: leaves out each MFENCE by itself, and lists the smallest sets of them that are enough.

    python3 tools/fences.py [--everything] [--exchanges] [--tries N] [--order intel|att] FILE

An x86 test has its own fences, a source test those of its compiled program. For each fence the command prints the states that appear without
it and not with all fences; then it prints all smallest sets of fences that add no state. The states are those that the test
shows: of the names in its question and in its list of names. With `--everything` they are those of all registers that the test uses and of
all locations, whatever the question is. Each line that says what can be left out names what was asked. A fence is called spare if a proved
law says that no outcome of any kind is new without it (tools/fencing/spare.py); then it is not tried.

If a state that the question is against is present with all fences, no set of them is enough. Then the smallest sets that add no state are
called as good as all fences; there is no such line if the test has no fence. The command also prints all smallest sets of places at which
further MFENCEs would forbid these states. With `--everything` the fences of an x86 test are never called enough, since no question is asked. With
`--exchanges` it prints for each XCHG and LOCK XADD which states are added if it is not locked: for XCHG a plain store, or a load and a store if
the old word is used; for LOCK XADD a load, a sum and a store; both by the question and by all registers and locations. Then it prints all smallest
sets of the test's fences and locks that add no state together, if the test has several; it tries no fence in place of a lock.

A test in herd's form that lw does not read, as with LOCK CMPXCHG or loops, is converted and put together as by tools/assume.py. The answers name
its own instructions, each with its line: a fence is left out in all tests and copies in which it occurs. Each run goes through a loop at most N
times (1 if no number is named); `--order` is that of tools/from_herd.py. With `--everything` the question is about all registers of the text.
If no run goes through every loop within N tries, nothing is said of fences: the line `None` says so, and the status is 6.

A fence only removes states, so not all sets need to be tried.

The states come from the program if it is built, in a pack from the library; those of a test that these refuse for its size come from the
program beyond if that is built. These are proved if they are those of the sources. Other lists are made by the search of tools/beyond.py,
which is not proved. If a list is not proved, the first line says `(not proved)`, and the last line says of how many lists. Files and faults are
reported as by tools/plain.py; Python 3.8 is enough, on any system.
"""
from __future__ import annotations

import re
import sys
from dataclasses import replace
from typing import NamedTuple, TypedDict

sys.dont_write_bytecode = True
import given
import plain
from fencing.exchanges import format_instructions, leave_out, list_exchanges, list_removable, make_unlocked_instructions, replace_instruction
from fencing.places import Place, insert_fences, list_fence_places, remove_fences
from fencing.sets import find_smallest_sets
from fencing.spare import is_spare
from fencing.together import CombinedTest, Original, Part, format_added_states, format_answer, format_sets, format_tests_and_makers
from herd.convert import ConversionResult, convert
from herd.lines import Text, find_origins
from herd.order import ORDERS
from herd.together import make_renamer
from shared import answers, command, start
from shared.matches import require_match

TRIES = 1


class Row(TypedDict):
    """A row of the table: a fence's place in words, and the lines of the states that are added without the fence."""

    place: str
    added: list[str]


class Table(TypedDict):
    """The result of `make_fence_table`: a row for each fence; the places of fences that are enough together; the number of states, and of those in
    which the proposition is true; and the names of who made the lists of states, sorted.
    """

    rows: list[Row]
    enough: list[str]
    states: int
    positive: int
    answered_by: list[str]


class Choices(NamedTuple):
    """The options of a question about fences: whether it is by all registers and locations, and about exchanges too; how often a run goes through
    each loop at most; and the word of `--order`, if there is one.
    """

    everything: bool = False
    exchanges: bool = False
    tries: int = TRIES
    order: str | None = None


# The reports that were made since `make_fence_table` last cleared these, by the texts of their tests.
lists: dict[str, answers.Answer] = {}


def list_fences(test: plain.Test) -> list[Place]:
    """Returns the places of all fences: a thread, and the index of the instruction."""
    return [(thread, index) for thread, code in enumerate(test.threads) for index, it in enumerate(code) if it.kind == "mfence"]


def show_everything(test: plain.Test) -> plain.Test:
    """Returns a test that shows all registers that it uses, and all locations."""
    used = set()
    for thread, code in enumerate(test.threads):
        for statement in code:
            registers = {statement.register} | ({statement.value.register} if isinstance(statement.value, plain.Register) else set())
            used |= {plain.RegisterSite(thread, register) for register in registers - {None}}
    return replace(test, listed=test.listed | used | {plain.LocationSite(it) for it in range(len(test.locations))})


def make_report(test: plain.Test) -> str:
    """Returns the report of a test, which is made once for each text and kept in `lists`."""
    text = plain.format_canonical_text(test)
    if text not in lists:
        lists[text] = answers.make_answer(["states"], test, text)
    return lists[text].text


def list_makers() -> set[answers.Maker]:
    """Returns the makers of all lists so far."""
    return {it.by for it in lists.values()}


def list_states(test: plain.Test) -> list[str]:
    """Returns the lines of the states of a test."""
    return answers.filter_state_lines(make_report(test))


def count_unwanted_states(test: plain.Test) -> int:
    """Returns the number of states of what a question is against: those in which its proposition is true, or of `forall` those in which it is false.
    """
    numbers = require_match(re.search(r"^Positive: (\d+) Negative: (\d+)$", make_report(test), re.M))
    return int(numbers[2 if test.quantifier == "forall" else 1])


def format_fence_place(test: plain.Test, fence: Place) -> str:
    """Returns the words for the place of a fence that the test has, and for the instruction after it."""
    thread, position = fence
    after = [plain.format_instruction(test, it) for it in test.threads[thread][position + 1 : position + 2]]
    return f"P{thread} at {position}" + (f", before {after[0]}" if after else "")


def format_fence(row: Row, is_spare: bool, question: str) -> list[str]:
    """Returns the lines on a fence that is left out by itself: that it is spare, that it can be left out alone, or the states added without it.
    `is_spare` says whether a law lets it be left out; `question` is what was asked, which the advice names, since it is read by itself.
    """
    if is_spare:
        return [f"{row['place']}: spare: can be left out by a proved law, whatever is asked"]
    if not row["added"]:
        return [f"{row['place']}: can be left out alone, by {question}"]
    return [f"{row['place']}: needed, {len(row['added'])} more without it", *format_added_states(row["added"], "  ")]


def find_removable_fences(test: plain.Test, fences: list[Place], states: list[str]) -> list[Place]:
    """Returns fences that can be left out together. Each fence in turn is left out, with those before it that were, if the states are still `states`."""
    left_out: list[Place] = []
    for fence in fences:
        if list_states(remove_fences(test, [*left_out, fence])) == states:
            left_out.append(fence)
    return left_out


def make_fence_table(test: plain.Test) -> Table:
    """Returns the table of a test's fences. A spare fence is not tried: its row has no states. The fences that are enough are those that remain
    after all that can be left out together, one after another.
    """
    lists.clear()
    fences, report = list_fences(test), make_report(test)
    states, positive = answers.filter_state_lines(report), int(require_match(re.search(r"^Positive: (\d+) ", report, re.M))[1])
    before = set(states)
    rows: list[Row] = []
    for fence in fences:
        added = [] if is_spare(test, fence) else [line for line in list_states(remove_fences(test, [fence])) if line not in before]
        rows.append({"place": format_fence_place(test, fence), "added": added})
    removable = find_removable_fences(test, fences, states)
    enough = [f"P{thread} at {position}" for thread, position in fences if (thread, position) not in removable]
    answered_by = sorted(it.name.lower() for it in list_makers())
    return {"rows": rows, "enough": enough, "states": len(states), "positive": positive, "answered_by": answered_by}


def find_enough_sets(test: plain.Test, fences: list[Place], states: list[str]) -> list[list[Place]]:
    """Returns all smallest sets of fences that add no state."""
    return find_smallest_sets(fences, lambda chosen: list_states(remove_fences(test, [it for it in fences if it not in chosen])) == states)


def find_helping_sets(test: plain.Test) -> list[list[Place]]:
    """Returns all smallest sets of places at which fences leave no unwanted state (`count_unwanted_states`); none if no fence does."""
    return find_smallest_sets(list_fence_places(test), lambda chosen: not count_unwanted_states(insert_fences(test, sorted(chosen))))


def format_new_place(test: plain.Test, place: Place) -> str:
    """Returns the words for a place where a fence may be inserted: before the instruction at its position."""
    thread, position = place
    return f"P{thread} at {position}, before {plain.format_instruction(test, test.threads[thread][position])}"


def format_enough_sets(test: plain.Test, states: list[str], question: str, are_enough: bool) -> list[str]:
    """Returns the line on the smallest sets of fences that add no state, in a list that is empty if there is none. `question` says what was asked;
    `are_enough` is set if the fences forbid what the question is against.
    """
    fences = list_fences(test)
    sets = find_enough_sets(test, fences, states) if fences or are_enough else []
    return format_sets([[f"P{thread} at {position}" for thread, position in it] for it in sets], question, are_enough)


def format_helping_places(test: plain.Test, number: int, states: int) -> list[str]:
    """Returns the lines on where further fences would leave no unwanted state (`count_unwanted_states`), of which there are `number`."""
    presence = "What has to be always is not there" if test.quantifier == "forall" else "What is asked about is there"
    sets = find_helping_sets(test)
    end = "an MFENCE more at these places changes that" if sets else "no MFENCE changes that"
    head = f"{presence}, in {number} of {states} states: {end}"
    return [head, *(f"  {'; '.join(format_new_place(test, place) for place in places)}" for places in sets)]


def format_without_lock(test: plain.Test, place: Place, question: str) -> list[str]:
    """Returns the lines on an exchange without its lock: the states that are added, as the test shows them. `question` says by what it is asked."""
    instructions = make_unlocked_instructions(test, place)
    if not instructions:
        return [f"  {question}: not tried, since no register is free"]
    before = set(list_states(test))
    added = [line for line in list_states(replace_instruction(test, place, instructions)) if line not in before]
    number = f"{len(added) or 'no'} state{'s' * (len(added) > 1)}"
    return [f"  {question}: {number} more as {format_instructions(instructions)}", *format_added_states(added, "    ")]


def find_sets_together(test: plain.Test) -> list[list[Place]]:
    """Returns all smallest sets of a test's fences and locks that add no state."""
    removable, states = list_removable(test), list_states(test)
    left_out = lambda chosen: {place: it for place, it in removable.items() if place not in chosen}
    return find_smallest_sets(list(removable), lambda chosen: list_states(leave_out(test, left_out(chosen))) == states)


def format_together(test: plain.Test, question: str) -> list[str]:
    """Returns the line on the smallest sets of fences and locks that add no state; none unless the test has several that can be left out, a lock among
    them. `question` says by what it is asked.
    """
    removable = list_removable(test)
    if len(removable) < 2 or not any(removable.values()):
        return []
    format_item = lambda place: f"P{place[0]} at {place[1]}, {plain.format_instruction(test, test.threads[place[0]][place[1]])}"
    sets = "; or ".join("; ".join(map(format_item, it)) or "none" for it in find_sets_together(test))
    return [f"Fences and locks that add no state together, with none to spare, {question}: {sets}"]


def format_exchanges(test: plain.Test, by_everything: bool) -> list[str]:
    """Returns the lines on each exchange, and on fences and locks together: by the question, unless everything is asked about, and by everything."""
    lines = []
    for thread, position in list_exchanges(test):
        lines.append(f"P{thread} at {position}, {plain.format_instruction(test, test.threads[thread][position])}, without its lock:")
        lines += [] if by_everything else format_without_lock(test, (thread, position), f"by its question, {plain.format_condition(test)}")
        lines += format_without_lock(show_everything(test), (thread, position), "by all registers and locations")
    lines += [] if by_everything else format_together(test, f"by its question, {plain.format_condition(test)}")
    return [*lines, *format_together(show_everything(test), "by all registers and locations")]


def format_makers() -> list[str]:
    """Returns the line that says that some lists are not proved, in a list that is empty if all are."""
    number = sum(not it.by.is_proved for it in lists.values())
    names = answers.format_makers(it for it in list_makers() if not it.is_proved)
    is_searched = answers.Maker.SEARCH in list_makers()
    why = ", since lw and beyond are not built here, or refuse these tests" if is_searched else ""
    return [f"Not proved: of {len(lists)} lists {number} are made by {names}{why}"] if number else []


# Tests in herd's form.


def convert_unread_text(text: str, fault: plain.NoTest, choices: Choices) -> ConversionResult:
    """Returns the conversion from herd's form of a text that lw does not read. If it is not converted either, raises the fault of the reader that
    read further; `fault` is that of lw's.
    """
    try:
        return convert(text, choices.tries, ORDERS[choices.order])
    except given.Fault as other:
        raise (fault if fault.offset >= other.offset else other) from None


def print_converted(choices: Choices, text: str, name: str, result: ConversionResult) -> int:
    """Prints which fences of a test in herd's form matter. Returns the exit status."""
    for offset, says in result.notes:
        print(command.format_note(name, text, offset, says), file=sys.stderr)
    parts = [Part(it, find_origins(it), it.begins) for it in result.conversions]
    rename_line = make_renamer(result)
    condition = rename_line(plain.format_condition(result.conversions[0].unmarked))
    tests, names = CombinedTest(parts, rename_line), Text(text, result)
    if not tests.list_states():
        tries = f"{result.tries} tr{'ies' if result.tries != 1 else 'y'}"
        print(answers.format_no_verdict(tests.unmarked, f"no run goes through every loop within {tries}"), end="")
        print(format_tests_and_makers(tests, tests.makers, result.tries))
        return answers.NO_VERDICT
    original = Original(result.frame.name, condition, names.describe_place, names.describe_place_briefly, {*result.sites}, result.tries)
    print("\n".join(format_answer(tests, original, choices.everything, choices.exchanges)))
    return 0


# The command.


def print_fences(choices: Choices, text: str, name: str = given.STANDARD_INPUT) -> int:
    """Prints which fences of a test matter. Returns the exit status."""
    try:
        read = plain.read_test(text)
    except plain.NoTest as fault:
        return print_converted(choices, text, name, convert_unread_text(text, fault, choices))
    test = plain.compile_test(read)
    by_everything = choices.everything
    question = "all registers and locations" if by_everything else f"its question, {plain.format_condition(test)}"
    shown = show_everything(test) if by_everything else test
    # What the fences that the test has are for.
    table = make_fence_table(shown)
    spare = [is_spare(shown, fence) for fence in list_fences(shown)]
    lines = [line for row in zip(table["rows"], spare) for line in format_fence(*row, question)]
    number = 0 if by_everything else count_unwanted_states(test)
    are_enough = not number and (read.language == "SRC" or not by_everything)
    lines += format_enough_sets(shown, list_states(shown), question, are_enough)
    # What more fences would do, and exchanges without their lock.
    if number:
        lines += format_helping_places(test, number, table["states"])
    if choices.exchanges:
        lines += format_exchanges(test, by_everything)
    suffix = "" if answers.are_proved(list_makers()) else " (not proved)"
    head = f"{test.name}, by {question}: fences {len(table['rows'])}, states {table['states']}{suffix}"
    print("\n".join([head, *lines, *format_makers()]))
    return 0


def main() -> int:
    """Runs the command that the arguments describe. Returns the exit status."""
    given.set_output_encoding()
    reader = command.Reader(__doc__)
    reader.add_file()
    reader.add_argument("--everything", action="store_true")
    reader.add_argument("--exchanges", action="store_true")
    reader.add_argument("--tries", type=command.make_number_parser(0), default=TRIES, metavar="N")
    reader.add_argument("--order", choices=("intel", "att"))
    arguments = reader.read()
    choices = Choices(arguments.everything, arguments.exchanges, arguments.tries, arguments.order)
    return command.for_one("fences", arguments.file, lambda name, text: print_fences(choices, text, name))


if __name__ == "__main__":
    sys.exit(start.run(main))
