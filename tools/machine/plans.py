"""Writes the plan of a run, which the harness reads: names and numbers in a fixed order."""
from __future__ import annotations

from collections.abc import Sequence
from typing import NamedTuple

import plain
from machine.assembly import Code
from machine.knobs import DEFAULTS, Knobs
from machine.processors import Placement
from machine.scripts import Script
from machine.subjects import Subject, Words

OF_HARNESS = ("sync", "prepare", "ballast", "delay", "stride", "learn", "move", "halts", "schedules", "light", "pin")


class Limits(NamedTuple):
    """When a run ends: after this number of seconds, if it is limited in time; after this number of runs, if it is limited so; when all
    listed states were seen.
    """

    seconds: float | None = 10.0
    runs: int = 0
    until_complete: bool = False


# The milliseconds of a run that has no limit of time: some decades.
UNLIMITED = 10**12


class Plan(NamedTuple):
    """A plan: the test that runs, for how long, on which processors, and by which knobs."""

    subject: Subject
    threads: Sequence[Code]
    states: Sequence[Words]
    scripts: Sequence[Script]
    placements: Sequence[Placement]
    has_clock: bool
    is_scarce: bool
    limits: Limits = Limits()
    knobs: Knobs = DEFAULTS


def format_numbers(words: Sequence[int]) -> str:
    """Returns the text of numbers, each after a space."""
    return "".join(f" {it}" for it in words)


def format_test(plan: Plan) -> list[str]:
    """Returns the harness's lines on the test."""
    test, sites = plan.subject.x86, plan.subject.sites
    pairs = [(it.thread, it.register) if isinstance(it, plain.RegisterSite) else (-1, it.location) for it in sites]
    return [
        f"threads {len(plan.threads)}",
        f"locations {len(test.locations)}",
        "words" + format_numbers(test.words),
        "registers" + "".join(map(format_numbers, test.registers)),
        "lengths" + format_numbers([len(code) for code in plan.threads]),
        f"sites {len(sites)}" + "".join(map(format_numbers, pairs)),
    ]


def format_plan(plan: Plan) -> str:
    """Returns the plan as a text."""
    limits = plan.limits
    milliseconds = UNLIMITED if limits.seconds is None else round(1000 * limits.seconds)
    lines = [
        *format_test(plan),
        f"listed {len(plan.states)}" + "".join(map(format_numbers, plan.states)),
        f"scripts {len(plan.scripts)}",
        *(f"script {len(it)}" + "".join(map(format_numbers, it)) for it in plan.scripts),
        f"placements {len(plan.placements)}" + "".join(map(format_numbers, plan.placements)),
        *(f"{name} {plan.knobs[name]}" for name in OF_HARNESS),
        f"clock {int(plan.has_clock)}",
        f"scarce {int(plan.is_scarce)}",
        f"complete {int(limits.until_complete)}",
        f"instances {plan.knobs['instances']}",
        f"runs {limits.runs}",
        f"milliseconds {milliseconds}",
        "end",
    ]
    return "".join(f"{line}\n" for line in lines)
