"""Writes the summary of a run after its log: how many of the listed states were seen, which not, and which are not listed; or all as JSON."""
from __future__ import annotations

from collections.abc import Sequence
from typing import NamedTuple

from machine import logs
from machine.runs import Sightings
from machine.subjects import StateList, Subject, Words

MAX_RARE_STATES = 3
NOT_LISTED = "SEEN AND NOT LISTED"


class Result(NamedTuple):
    """A run, and the test with which it is compared. `against` is the name of another test, or empty; `notes` has what must be known of the
    run, and `others` the lines on states of a program's tests that are seen and not listed there.
    """

    file: str
    subject: Subject
    listed: StateList
    seen: Sightings
    processors: int
    against: str = ""
    notes: Sequence[str] = ()
    others: Sequence[str] = ()

    def is_contradicted(self) -> bool:
        """Returns whether a state was seen that is not listed."""
        return bool(self.list_not_listed() or self.others)

    def list_seen_and_listed(self) -> list[Words]:
        """Returns the listed states that were seen, the rarest first."""
        return sorted((it for it in self.listed.states if it in self.seen.states), key=lambda it: (self.seen.states[it].times, it))

    def list_not_seen(self) -> list[Words]:
        """Returns the listed states that were not seen."""
        return [it for it in self.listed.states if it not in self.seen.states]

    def list_not_listed(self) -> list[Words]:
        """Returns the states that were seen and are not listed."""
        return sorted(set(self.seen.states) - set(self.listed.states))

    def describe_list(self) -> str:
        """Returns the maker of the list, and the test of which it is."""
        whose = f" of {self.against}" if self.against else ""
        return f"The list{whose} by {self.listed.describe_maker()}"


def format_count(number: int, noun: str) -> str:
    """Returns a number of things in words."""
    return f"{number} {noun}{'s' * (number != 1)}"


def format_summary(result: Result) -> list[str]:
    """Returns the lines that compare a run with the list: the notes, the numbers of runs and of listed states, the listed states that were seen most
    rarely or not at all, and the states that are not listed.
    """
    seen, seen_and_listed = result.seen, result.list_seen_and_listed()
    on = format_count(result.processors, "processor")
    lines = [
        *result.notes,
        f"Runs {seen.runs}, {seen.rate:.0f} a second, on {on}",
        f"{result.describe_list()}, has {format_count(len(result.listed.states), 'state')}; seen here: {len(seen_and_listed)}",
    ]
    for words in seen_and_listed[:MAX_RARE_STATES]:
        sighting = seen.states[words]
        lines.append(f"  rarest: {sighting.times} of {seen.runs}, first after {sighting.first:.3f} s {sighting.kind}: {result.subject.format_state(words)}")
    lines += [f"  not seen: {result.subject.format_state(words)}" for words in result.list_not_seen()]
    return [*lines, *(format_contradiction(seen, words, result.subject.format_state(words)) for words in result.list_not_listed()), *result.others]


def format_contradiction(seen: Sightings, words: Words, line: str) -> str:
    """Returns the line on a state that is not listed."""
    sighting = seen.states[words]
    return f"  {NOT_LISTED}: {sighting.times} of {seen.runs}, first after {sighting.first:.3f} s {sighting.kind}: {line}"


def format_result(result: Result) -> str:
    """Returns the text that is printed of a run: its log in litmus7's form, its summary, and an empty line."""
    return "".join(f"{line}\n" for line in [*logs.format_log(result.subject, result.seen), *format_summary(result), ""])


def make_json(result: Result) -> dict[str, object]:
    """Returns the log and the summary of a run as an object of JSON. Each seen state has its count, and says whether it is listed."""
    seen, subject, line_of = result.seen, result.subject, result.subject.format_state
    listed = set(result.listed.states)
    states: list[dict[str, object]] = []
    for words, sighting in sorted(seen.states.items()):
        facts = {"count": sighting.times, "first": sighting.first, "how": sighting.kind, "holds": subject.is_true(words), "listed": words in listed}
        states.append({"state": line_of(words), **facts})
    return {
        "file": result.file,
        "name": result.subject.shown.name,
        "list": result.listed.describe_maker(),
        "against": result.against or None,
        "runs": seen.runs,
        "seconds": seen.seconds,
        "processors": result.processors,
        "listed": len(listed),
        "seen": states,
        "not_seen": [line_of(words) for words in result.list_not_seen()],
        "not_listed": [line_of(words) for words in result.list_not_listed()],
        "not_listed_in_tests": [it.strip() for it in result.others],
        "notes": list(result.notes),
    }
