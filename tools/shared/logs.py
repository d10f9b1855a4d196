"""Logs of reports, of lw and of herd's tools: the final states of each test, and what differs between two of them."""
from __future__ import annotations

import re
from collections.abc import Iterable, Iterator
from typing import FrozenSet, NamedTuple

import given
from herd.origin import TranslatedStates, add_states, parse_origin
from herd.registers import parse_register
from shared import answers

HEADING = re.compile(r"Test (\S+)(?: (\S+))?")
COUNT = re.compile(r"(?:States|Histogram \()\s*(\d+)")
# A name and its word. Programs in C have x+8 for what is 8 bytes after the start of x, and words that are addresses, such as &x.
ATOM = re.compile(r"(?:(P?\d+):)?\[?%?([\w.+]+)\]?=(-?(?:0x[0-9a-fA-F]+|\d+)|&[^;]+)")
State = FrozenSet[str]
NOT_IN_LOG, IN_LOG_ONLY = "it is not in the log", "it is only in the log"


class Difference(NamedTuple):
    """A test whose states are not those of the log: what is missing here, and what is too much; or why they are not compared."""

    name: str
    missing: list[str]
    too_much: list[str]
    why: str = ""


def format_atom(match: tuple[str, str, str]) -> str:
    """Returns a name and its word, in one spelling for all tools, by the groups of a match of ATOM."""
    thread, name, word = match
    register = parse_register(name) if thread else None
    site = f"{thread.lstrip('P') + ':' if thread else ''}{register[0] if register else name}"
    if word[0] == "&":
        return f"{site}={word}"
    number = int(word, 16) if "0x" in word else int(word)
    number += 2**32 if -(2**31) <= number < 0 else 0  # a word of 32 bits; others are left as they are, and no word of lw is one
    return f"{site}={number}"


def parse_state(line: str) -> State:
    """Returns the state that a line says, with or without the number of times that it was seen."""
    return frozenset(format_atom(match) for match in ATOM.findall(line.rpartition(">")[2]))


def format_state(state: State) -> str:
    """Returns a state as a line."""
    return " ".join(f"{atom};" for atom in sorted(state))


def parse_states(lines: Iterable[str]) -> dict[str, set[State]]:
    """Returns the states of each test in a log, by its lines. A test that appears twice has the states of both. A list that is cut off has those
    before the cut.
    """
    logs: dict[str, set[State]] = {}
    name, total, remaining_states = "", 0, 0
    for line in lines:
        heading, count = HEADING.match(line), COUNT.match(line)
        if heading:
            name, remaining_states = heading[1], 0
            logs.setdefault(name, set())
        elif count and name:
            total = remaining_states = int(count[1])
        elif remaining_states:
            state = parse_state(line)
            remaining_states = remaining_states - 1 if state or total == 1 else 0
            logs[name] |= {state} if state or total == 1 else set()
    return logs


def list_names(states: Iterable[State]) -> set[str]:
    """Returns the names that states mention."""
    return {atom.rpartition("=")[0] for state in states for atom in state}


class ListedTest(NamedTuple):
    """The states that are listed here for a test, those names that a log may lack, why they are not compared, if they are not, and how
    often a run passes each loop at most, or 0 if that has no limit.
    """

    states: set[State]
    extra: set[str] = set()
    why: str = ""
    tries: int = 0


TWO_FILES = "two files have a test of this name, with different states, and it is not compared"


class ListedTests(NamedTuple):
    """The tests that are listed here: by their own names, those that were converted also by the names of their originals, and the original
    of each of these.
    """

    own: dict[str, ListedTest]
    originals: dict[str, ListedTest]
    original_of: dict[str, str]

    def match_log_names(self, log: dict[str, set[State]]) -> dict[str, ListedTest]:
        """Returns the tests by the names that a log has for them: an earlier run's log names converted tests, other logs their originals."""
        chosen = {}
        for name, listed in self.own.items():
            original, seen = self.original_of.get(name), log.get(name)
            if original is None or seen is not None and is_log_of_converted(listed, self.originals[original], seen):
                chosen[name] = listed
            else:
                chosen[original] = self.originals[original]
        return chosen


def is_log_of_converted(own: ListedTest, original: ListedTest, seen: set[State]) -> bool:
    """Returns whether the states of a log are those of a converted test by its own names, and not those of its original."""
    names = list_names(seen)
    return seen == own.states or names == list_names(own.states) and names != list_names(original.states)


def collect_lists(reports: Iterable[tuple[str, str]]) -> ListedTests:
    """Returns the states of reports of lw, each with the text of its test."""
    tests = ListedTests({}, {}, {})
    translations: dict[str, TranslatedStates] = {}
    for text, report in reports:
        for name, states in parse_states(report.splitlines()).items():
            is_other = name in tests.own and tests.own[name].states != states
            tests.own[name] = ListedTest(states, why=TWO_FILES if is_other else "")
        origin = parse_origin(text)
        if origin:
            try:
                add_states(translations, origin, text, answers.filter_state_lines(report))
            except given.Fault:
                continue  # Somebody has changed the comment, so the test is compared as it is.
            tests.original_of[name] = origin.name
    for name, translation in translations.items():
        missing = translation.count_missing_guesses()
        why = f"{missing} of the tests that stand for guesses of its LOCK CMPXCHG are missing, and it is not compared" if missing else ""
        extra = {format_atom((*split_site(site), "0"))[:-2] for site in translation.extra}
        tests.originals[name] = ListedTest(
            {parse_state(line) for line in translation.lines}, extra, TWO_FILES if translation.is_twice else why, translation.tries
        )
    return tests


def add_converted(tests: ListedTests, report: str, converted: Iterable[tuple[str, str]], tries: int) -> None:
    """Adds the report of a file that was converted for this run: by its own report, and by its tests of lw with theirs, if it has any. A
    limit of tries is 0 if there is none.
    """
    for name, states in parse_states(report.splitlines()).items():
        is_other = name in tests.own and tests.own[name].states != states
        tests.own[name] = ListedTest(states, why=TWO_FILES if is_other else "", tries=tries)
        originals = collect_lists(converted).originals
        if name in originals:
            tests.original_of[name] = name
            tests.originals[name] = originals[name]


def split_site(site: str) -> tuple[str, str]:
    """Returns the thread and the name of a site; the thread is empty if it is a location."""
    thread, _, name = site.rpartition(":")
    return thread, name


def restrict_states(states: Iterable[State], names: set[str]) -> set[State]:
    """Returns what some states say of some names: a state for each, without the other names."""
    return {frozenset(atom for atom in state if atom.rpartition("=")[0] in names) for state in states}


def find_differences(listed: ListedTests, log: dict[str, set[State]]) -> Iterator[Difference]:
    """Yields the tests that both have and whose states differ, and those that only one has. `log` has the states of each test in a log."""
    tests = listed.match_log_names(log)
    for name in sorted({*tests, *log}):
        if name not in log:
            yield Difference(name, [], [], NOT_IN_LOG)
        elif name not in tests:
            yield Difference(name, [], [], IN_LOG_ONLY)
        elif tests[name].why:
            yield Difference(name, [], [], tests[name].why)
        else:
            yield from compare_states(name, tests[name], log[name])


def compare_states(name: str, listed: ListedTest, seen: set[State]) -> Iterator[Difference]:
    """Yields the differences between the states of a test that both have."""
    names = list_names(seen)
    states = restrict_states(listed.states, names) if seen else listed.states
    if seen and listed.states and (names - list_names(listed.states) or list_names(listed.states) - names - listed.extra):
        yield Difference(name, [], [], "the states speak of other names, and are not compared")
    elif listed.tries and seen - states:
        why = f"only runs that go through each loop at most {listed.tries} times are listed"
        yield Difference(name, [], [], f"{why}, and {len(seen - states)} states of the log are not: it is not compared")
    elif states != seen:
        yield Difference(name, sorted(map(format_state, seen - states)), sorted(map(format_state, states - seen)))


def format_difference(difference: Difference) -> str:
    """Returns the lines that report a difference."""
    lines = [f"{difference.name}: {difference.why or f'missing {len(difference.missing)}, too much {len(difference.too_much)}'}"]
    lines += [f"  missing: {line}" for line in difference.missing] + [f"  too much: {line}" for line in difference.too_much]
    return "".join(f"{line}\n" for line in lines)


def format_machine_difference(difference: Difference) -> str:
    """Returns the lines that report a test that a machine ran."""
    counts = f"{len(difference.missing)} states were seen that are not listed, {len(difference.too_much)} are listed and were not seen"
    lines = [f"{difference.name}: {difference.why or counts}"] + [f"  seen and not listed: {line}" for line in difference.missing]
    return "".join(f"{line}\n" for line in lines)
