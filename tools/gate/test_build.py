"""Tests that the minutes that ./lw says a build takes follow the machine.

    python3 tools gate.test_build, or in tools/ python3 -m unittest gate.test_build

A build is simulated with the times of a recorded one, on four processors that got other work during the build, and with the same times on
slower and faster machines. Nothing is built. tools/check_documents.py calls all this (tools/gate/cases.py).
"""
from __future__ import annotations

import sys
from collections.abc import Iterator
from typing import Any

from gate import cases
from program.estimate import MAX_JOBS, Bounds, Estimate, Plan, Running, find_speed

PROCESSORS = 4
# A build of all crates: those below each, its minutes by tools/program/minutes.txt, and the seconds at which it started and ended.
RECORD = {
    "lw_base": ([], 2.7, 0, 68),
    "lw_orders": ([], 1.5, 0, 72),
    "lw_litmus": (["lw_base"], 0.7, 71, 96),
    "lw_memory": (["lw_base"], 0.4, 71, 89),
    "lw_outcome_map": (["lw_base"], 0.9, 71, 97),
    "lw_text": (["lw_base"], 5.1, 71, 362),
    "lw_mesi": (["lw_base", "lw_memory"], 1.2, 91, 168),
    "lw_interleaving": (["lw_base", "lw_litmus"], 1.3, 99, 186),
    "lw_paths": (["lw_base", "lw_litmus", "lw_orders"], 1.8, 99, 223),
    "lw_tso": (["lw_base", "lw_litmus", "lw_memory"], 2.4, 99, 254),
    "lw_report": (["lw_base", "lw_outcome_map"], 2.2, 100, 253),
    "lw_tso_caches": (["lw_base", "lw_litmus", "lw_memory", "lw_mesi", "lw_tso"], 0.2, 257, 266),
    "lw_fence": (["lw_base", "lw_litmus", "lw_interleaving", "lw_memory", "lw_tso"], 1.5, 257, 312),
    "lw_finals": (["lw_fence", "lw_orders", "lw_outcome_map", "lw_paths", "lw_tso_caches"], 2.4, 316, 452),
    "lw_statements": (["lw_base", "lw_litmus", "lw_text"], 2.1, 371, 468),
    "lw_source": (["lw_interleaving", "lw_statements"], 0.5, 472, 497),
    "lw_x86": (["lw_statements"], 1.7, 472, 542),
    "lw_bench": (["lw_finals", "lw_report", "lw_source", "lw_x86"], 3.4, 545, 724),
    "lw": (["lw_bench"], 2.0, 730, 881),
}
PACES = (0.6, 0.8, 1, 1.3)
# The number of proved crates from which on the bounds must hold on a machine of any pace.
FIRST_CRATES = 6


def make_plan(record: dict[str, Any], processors: int = PROCESSORS) -> Plan:
    """Returns the plan of a build, by rows like those of RECORD."""
    return Plan({name: row[0] for name, row in record.items()}, {name: row[1] for name, row in record.items()}, processors)


def list_moments(pace: float) -> Iterator[tuple[Bounds, float]]:
    """Yields, at the start of the recorded build and at the end of each crate but the last, the estimated bounds of the minutes to go and the actual
    minutes; all times are multiplied by `pace`.
    """
    plan, jobs = make_plan(RECORD), dict.fromkeys(RECORD, 0)
    estimate, end = Estimate(plan, list(RECORD)), max(row[3] for row in RECORD.values())
    for now in sorted({0, *(row[3] for row in RECORD.values())} - {end}):
        proved = [name for name, row in RECORD.items() if row[3] <= now]
        waiting_crates = [name for name, row in RECORD.items() if row[2] >= now]
        running = [it for it in RECORD if it not in proved and it not in waiting_crates]
        shares = {it: Running((RECORD[it][3] - now) / (RECORD[it][3] - RECORD[it][2]), jobs[it]) for it in running}
        yield estimate.find_bounds(waiting_crates, shares, now * pace / 60), (end - now) * pace / 60
        jobs.update(plan.choose_next_jobs(waiting_crates, running))


def are_within(bounds: Bounds, minutes: float) -> bool:
    """Returns whether minutes are within the bounds, rounded to whole minutes."""
    return bounds.minimum - 1 <= minutes <= bounds.maximum + 1


class Minutes(cases.Case):
    """The minutes of a build."""

    def test_record(self) -> None:
        """In the build that was recorded they are within the bounds, from its start on."""
        for bounds, minutes in list_moments(1):
            with self.subTest(minutes=minutes):
                self.assertTrue(are_within(bounds, minutes))

    def test_other_machines(self) -> None:
        """On machines of other paces they are, when the first crates are proved."""
        for pace in PACES:
            for bounds, minutes in list(list_moments(pace))[FIRST_CRATES:]:
                with self.subTest(pace=pace, minutes=minutes):
                    self.assertTrue(are_within(bounds, minutes))

    def test_narrower(self) -> None:
        """The bounds become narrower, down to twice as many minutes at most."""
        for pace in PACES:
            widths = [bounds.maximum / bounds.minimum for bounds, _ in list_moments(pace)]
            with self.subTest(pace=pace):
                self.assertEqual(sorted(widths, reverse=True), widths)
                self.assertTrue(widths[0] > 2.5 and widths[-1] <= 2)

    def test_one_processor(self) -> None:
        """One processor takes the minutes of all crates, in any order."""
        self.assertEqual(round(sum(row[1] for row in RECORD.values()), 6), round(make_plan(RECORD, 1).estimate_minutes(list(RECORD), {}), 6))

    def test_processors(self) -> None:
        """More processors take less, and never less than the longest chain of crates with as many jobs as help."""
        minutes = [make_plan(RECORD, processors).estimate_minutes(list(RECORD), {}) for processors in (1, 2, 4, 8, 64)]
        self.assertEqual(sorted(minutes, reverse=True), minutes)
        self.assertTrue(round(minutes[-1], 6) >= round(make_plan(RECORD).find_chain_minutes("lw_base") / find_speed(MAX_JOBS), 6))

    def test_spelling(self) -> None:
        """Bounds in words: whole minutes, at least one, and one number if both are the same."""
        for least, most, message in ((5.6, 14.7, "6 to 15 minutes"), (0, 0, "about 1 minute"), (2.9, 3.2, "about 3 minutes")):
            self.assertEqual(message, str(Bounds(least, most)))


if __name__ == "__main__":
    sys.exit(cases.main())
