"""Estimates how long a build takes by the clock: a plan, by the minutes of each crate in minutes.txt, and bounds that follow this machine.

The plan simulates the build: which crates run in parallel, each with how many jobs. minutes.txt was measured on another
machine, or on this one in another hour, so it is unknown at first how much longer this build takes than planned. The proved crates show
it, and the bounds become narrower.
"""
from __future__ import annotations

from collections.abc import Sequence
from typing import Any, NamedTuple

# A crate, or its name: what is hashable.
Crate = Any
# The gain of a check by each further job: less than on a crate by itself, since a build checks several in parallel.
GAIN = 0.1
MAX_JOBS = 4
# The guessed ratio of a build's minutes to the planned ones, before anything is proved; and the planned minutes that weigh as much as that guess.
USUAL_PACE = 1.1
GUESSED_MINUTES = 4.0
# The planned minutes that show the machine's present pace: others may start and end work on it while a build runs.
RECENT_MINUTES = 5.0
# The bounds are the expected minutes, divided and multiplied by a number: by the first before anything is proved, later by less.
FIRST_WIDTH = 1.6
LAST_WIDTH = 1.35


class Bounds(NamedTuple):
    """The least and the most minutes that are expected."""

    minimum: float
    maximum: float

    def __str__(self) -> str:
        """Returns the bounds in words."""
        minimum, maximum = max(1, round(self.minimum)), max(1, round(self.maximum))
        return f"about {maximum} minute{'s' * (maximum > 1)}" if minimum == maximum else f"{minimum} to {maximum} minutes"


class Running(NamedTuple):
    """A crate that is being proved: the share of it that is left, and its jobs."""

    share_left: float
    jobs: int


def find_speed(jobs: int) -> float:
    """Returns how many times as fast as one job this number of jobs is."""
    return 1 + GAIN * (min(jobs, MAX_JOBS) - 1)


class Plan:
    """The order in which crates are proved, each after those below it, on this number of processors; `minutes` has those of each crate."""

    def __init__(self, below: dict[Crate, Sequence[Crate]], minutes: dict[Crate, float], processors: int) -> None:
        """Makes a plan."""
        self.below, self.minutes, self.processors = below, minutes, processors
        self.chains: dict[Crate, float] = {}

    def find_chain_minutes(self, crate: Crate) -> float:
        """Returns the minutes of the longest chain of crates that starts with this one."""
        if crate not in self.chains:
            above = [self.find_chain_minutes(it) for it, below in self.below.items() if crate in below]
            self.chains[crate] = self.minutes[crate] + max(above, default=0)
        return self.chains[crate]

    def choose_next_jobs(self, waiting_crates: Sequence[Crate], running: Sequence[Crate]) -> dict[Crate, int]:
        """Returns the crates that can start now, and the jobs of each. The one with the longest chain gets the processors that are left."""
        unfinished = {*waiting_crates, *running}
        ready = [it for it in waiting_crates if not unfinished & {*self.below[it]}]
        ready.sort(key=self.find_chain_minutes, reverse=True)
        others = len(ready) - 1 + len(running)
        max_jobs = min(MAX_JOBS, self.processors)
        return {it: 1 if index else min(max_jobs, max(self.processors - others, 2)) for index, it in enumerate(ready)}

    def estimate_minutes(self, waiting_crates: Sequence[Crate], running: dict[Crate, Running]) -> float:
        """Returns the minutes by the clock until all are proved: those that are left, and those that run."""
        waiting_crates, running, passed = list(waiting_crates), dict(running), 0.0
        while waiting_crates or running:
            for crate, jobs in self.choose_next_jobs(waiting_crates, list(running)).items():
                waiting_crates.remove(crate)
                running[crate] = Running(1.0, jobs)
            share = min(1.0, self.processors / sum(find_speed(it.jobs) for it in running.values()))
            ends = {it: self.minutes[it] * running[it].share_left / find_speed(running[it].jobs) / share for it in running}
            step = min(ends.values())
            passed += step
            running = {
                it: Running(was.share_left * (1 - step / ends[it]), was.jobs) for it, was in running.items() if ends[it] > step
            }
        return passed


class Estimate:
    """The bounds of a build: by its plan, and by what the build has taken so far."""

    def __init__(self, plan: Plan, crates: list[Crate]) -> None:
        """Starts an estimate at the start of a build."""
        self.plan = plan
        self.whole = plan.estimate_minutes(crates, {})
        self.passed = [(0.0, 0.0)]  # the planned minutes that were done, and the minutes by the clock

    def find_bounds(self, waiting_crates: Sequence[Crate], running: dict[Crate, Running], spent: float) -> Bounds:
        """Returns the bounds of the minutes to go after this number of minutes by the clock."""
        to_go = self.plan.estimate_minutes(waiting_crates, running)
        done = self.whole - to_go
        if done > self.passed[-1][0] + 0.1:
            self.passed.append((done, spent))
        first_done, first_spent = [it for it in self.passed if it[0] <= max(0.0, done - RECENT_MINUTES)][-1]
        pace = (GUESSED_MINUTES * USUAL_PACE + spent - first_spent) / (GUESSED_MINUTES + done - first_done)
        guess = GUESSED_MINUTES / (GUESSED_MINUTES + done)
        width = LAST_WIDTH + (FIRST_WIDTH - LAST_WIDTH) * guess
        return Bounds(to_go * pace / width, to_go * pace * width)
