"""Runs a compiled test by its plan, and reads what the harness prints."""
from __future__ import annotations

import signal
import subprocess
from typing import NamedTuple

from machine import plans
from machine.disassembly import find_last_line
from machine.faults import NotRun
from machine.plans import Plan
from machine.subjects import Words

# How a state was first seen, as the harness numbers it.
KINDS = ("by a race", "by a halt", "by a schedule")
# The result of setting the trap flag, as the harness numbers it.
TRAPS_UNUSED, TRAPS_WORK, TRAPS_TRACED, TRAPS_CAUGHT = range(4)
# The maximal number of times a second that threads lose their processor on a machine that is not busy.
MAX_SWITCHES = 100
# When a run is given up. The harness looks at the clock only between batches, which are slow on a busy machine: so a run may take this many times
# the plan's seconds, and these seconds more, in which it starts, tries the trap flag and prints.
SLOWNESS, SECONDS_AROUND = 10, 60


class Sighting(NamedTuple):
    """How often a state was seen, after how many seconds first, and by which kind of recipe."""

    times: int
    first: float
    kind: str


class Sightings(NamedTuple):
    """The sightings of a run: how each state was seen; the number of runs, the seconds, and the facts that the harness reports."""

    states: dict[Words, Sighting]
    runs: int
    seconds: float
    facts: dict[str, int]

    @property
    def rate(self) -> float:
        """Returns the number of runs a second."""
        return self.runs / self.seconds if self.seconds else 0.0


def merge_sightings(first: Sighting, second: Sighting) -> Sighting:
    """Returns the sighting of a state that was counted twice, by two threads or in two runs."""
    earlier = min(first, second, key=lambda it: it.first)
    return Sighting(first.times + second.times, earlier.first, earlier.kind)


def parse_sightings(lines: list[str]) -> Sightings:
    """Returns the sightings that the harness prints. Raises NotRun if its line of facts, the last one, is missing."""
    states: dict[Words, Sighting] = {}
    facts: dict[str, int] = {}
    for line in lines:
        name, *rest = line.split()
        if name == "facts":
            facts = {key: int(value) for key, value in zip(rest[::2], rest[1::2])}
        else:
            words, sighting = tuple(map(int, rest[3:])), Sighting(int(rest[0]), float(rest[1]), KINDS[int(rest[2])])
            states[words] = merge_sightings(states[words], sighting) if words in states else sighting
    if "runs" not in facts:
        raise NotRun("the harness ends without its line of facts")
    return Sightings(states, facts.pop("runs"), facts.pop("microseconds") / 1e6, facts)


def choose_patience(plan: Plan) -> float | None:
    """Returns the seconds after which a run that should have ended is killed, or `None` if it has no limit of time."""
    return None if plan.limits.seconds is None else SECONDS_AROUND + SLOWNESS * plan.limits.seconds


def explain_status(status: int, printed: bytes) -> str:
    """Returns why the harness ended with a status that is not 0."""
    if status < 0:
        return f"the harness is ended by {signal.Signals(-status).name}"
    return find_last_line(printed)


def run_plan(program: str, plan: Plan) -> Sightings:
    """Runs the program of a test by a plan. Raises NotRun if it does not start, fails, or does not end in time."""
    patience = choose_patience(plan)
    try:
        ran = subprocess.run(
            [program], input=plans.format_plan(plan).encode(), stdout=subprocess.PIPE, stderr=subprocess.PIPE, timeout=patience, check=False
        )
    except OSError as why:
        raise NotRun(f"{program} does not start: {why.strerror}; TMPDIR names another folder for it") from None
    except subprocess.TimeoutExpired:
        raise NotRun(f"the run does not end within {patience:.0f} seconds, and is given up") from None
    if ran.returncode:
        raise NotRun(explain_status(ran.returncode, ran.stderr))
    return parse_sightings(ran.stdout.decode().splitlines())


def list_missing(seen: Sightings, plan: Plan) -> list[str]:
    """Returns what a run lacked that would have shown more, each in a sentence."""
    facts, sentences = seen.facts, []
    lost = facts["switches"] / seen.seconds if seen.seconds else 0.0
    if lost > MAX_SWITCHES and not plan.is_scarce:
        sentences.append(f"Others took processors away {lost:.0f} times a second: the machine is busy, and fewer runs are made.")
    if plan.knobs["pin"] and not plan.is_scarce and not facts["is_pinned"]:
        sentences.append("Threads could not be pinned to processors.")
    if facts["traps"] == TRAPS_TRACED:
        sentences.append("Another process traces this one, as a debugger does: there were no halts, and no schedules led the threads.")
    if facts["traps"] == TRAPS_CAUGHT:
        sentences.append("The trap flag does not work here, as in some sandboxes: there were no halts, and no schedules led the threads.")
    if facts["clocks_differ"]:
        sentences.append("The time-stamp counters of two processors differ: threads met by flags in place of times.")
    if facts["is_full"]:
        sentences.append("There were more different states than the harness counts, and some were not counted.")
    return sentences
