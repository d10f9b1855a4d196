"""The log of a run in the form of litmus7's, which tools/shared/logs.py reads.

Its counts are those of runs, and its verdict is on what was seen: `Ok` says of an `exists` that it was seen, and of the others that nothing
that was seen contradicts them.
"""
from __future__ import annotations


from machine.runs import Sightings
from machine.subjects import Subject

ASKED = {"exists": "Allowed", "~exists": "Forbidden", "forall": "Required"}


def count_runs(subject: Subject, seen: Sightings) -> list[int]:
    """Returns the numbers of runs in which the proposition was true, and in which it was not."""
    positive = sum(sighting.times for words, sighting in seen.states.items() if subject.is_true(words))
    return [positive, sum(sighting.times for sighting in seen.states.values()) - positive]


def format_log(subject: Subject, seen: Sightings) -> list[str]:
    """Returns the lines of a run's log, in litmus7's form."""
    test = subject.shown
    positive, negative = count_runs(subject, seen)
    is_ok = {"exists": positive > 0, "~exists": positive == 0, "forall": negative == 0}[test.quantifier]
    often = "Never" if not positive else "Sometimes" if negative else "Always"
    lines = [f"Test {test.name} {ASKED[test.quantifier]}", f"Histogram ({len(seen.states)} states)"]
    for words in sorted(seen.states):
        lines.append(f"{seen.states[words].times:<8d}{'*' if subject.is_true(words) else ':'}>{subject.format_state(words)}")
    return lines + [
        "Ok" if is_ok else "No",
        "",
        "Witnesses",
        f"Positive: {positive}, Negative: {negative}",
        f"Condition {subject.condition} is {'' if is_ok else 'NOT '}validated",
        f"Observation {test.name} {often} {positive} {negative}",
        f"Time {test.name} {seen.seconds:.2f}",
    ]
