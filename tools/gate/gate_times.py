"""Runs the parts of the gate, and writes where its processor time went.

    python3 tools gate.gate_times --into FILE rt ci
    python3 tools gate.gate_times --into FILE --row PART COMMAND..

It runs the command, hands its lines on, and ends with its status. The first form writes into the file FILE, in minutes of processor time,
what each crate took for its proof, for its wrong bodies and for its tests, in the form of tools/program/minutes.txt; the second adds a
line for another part. `rt ci` prints no times, so they are read from the processes that it starts, four times a second: a process is recognized
by its words, which name the crate and say `--test` for tests, and by its folder, a copy of the crate for a wrong body. What a process
takes after it was last seen counts as the rest.
"""
from __future__ import annotations

import argparse
import os
import subprocess
import sys
import threading
import time
from collections.abc import Iterator
from typing import Any, Tuple

from shared import command, start
from shared.home import HOME, read_crates

PARTS = ("proof", "wrong bodies", "tests")
TICKS = os.sysconf("SC_CLK_TCK")
PAUSE = 0.25


def read_stat(process: int | str) -> tuple[int, int, str]:
    """Returns a process's parent, its ticks of processor time, and when it was started."""
    with open(f"/proc/{process}/stat", encoding="utf-8", errors="replace") as file:
        fields = file.read().rpartition(") ")[2].split()
    return int(fields[1]), int(fields[11]) + int(fields[12]), fields[19]


def find_work(process: int) -> tuple[str, str] | None:
    """Returns the crate for which a process of the prover works, and the part of the gate; `None` for any other process."""
    with open(f"/proc/{process}/cmdline", "rb") as file:
        words = file.read().decode(errors="replace").split("\0")
    if "--crate-name" not in words or not words[0].endswith("/rattle"):
        return None
    is_copy = os.path.basename(os.readlink(f"/proc/{process}/cwd")).startswith("rt-edit-")
    part = "wrong bodies" if is_copy else "tests" if "--test" in words else "proof"
    return words[words.index("--crate-name") + 1], part


def list_descendants(top: int, parents: dict[int, int]) -> list[int]:
    """Returns the processes that `top` has started and their descendants, each after its parent. `parents` has the parent of each process."""
    children: dict[int, list[int]] = {}
    for process, parent in parents.items():
        children.setdefault(parent, []).append(process)
    processes = [top]
    for process in processes:
        processes += children.get(process, [])
    return processes[1:]


# A crate, and the part of the gate for which a process works.
Work = Tuple[str, str]


class Watch:
    """The processor times of the processes below one, as last seen. A process without a command line of its own works for its parent's crate."""

    def __init__(self, top: int) -> None:
        """Starts to watch the processes below one."""
        self.top = top
        # By the number of each process, and when it was started.
        self.works: dict[tuple[int, str], Work | None] = {}
        self.ticks: dict[tuple[int, str], int] = {}
        self.is_over = threading.Event()
        self.thread = threading.Thread(target=self.watch_processes, daemon=True)
        self.thread.start()

    def watch_processes(self) -> None:
        """Records the processes from time to time, until `is_over` is set."""
        while not self.is_over.wait(PAUSE):
            self.record_processes()

    def record_processes(self) -> None:
        """Records the processor time that each process below `top` has taken so far, and for which crate and part it works."""
        stats = {}
        for name in os.listdir("/proc") if os.path.isdir("/proc") else []:
            try:
                if name.isdigit():
                    stats[int(name)] = read_stat(name)
            except (OSError, ValueError, IndexError):
                pass
        for process in list_descendants(self.top, {it: stat[0] for it, stat in stats.items()}):
            parent, ticks, start = stats[process]
            try:
                work = find_work(process)
            except OSError:
                work = None
            if work is None and parent in stats:
                work = self.works.get((parent, stats[parent][2]))
            # (One that has ended and is not yet waited for has no command line any more.)
            self.works[process, start] = work or self.works.get((process, start))
            self.ticks[process, start] = ticks

    def measure_minutes(self) -> dict[Work, float]:
        """Ends the watch. Returns the minutes of processor time by crate and part."""
        self.is_over.set()
        self.thread.join()
        minutes: dict[tuple[str, str], float] = {}
        for process, ticks in self.ticks.items():
            work = self.works[process]
            if work:
                minutes[work] = minutes.get(work, 0) + ticks / TICKS / 60
        return minutes


def count_edits(crate: str) -> int:
    """Returns the number of wrong bodies of a crate."""
    folder = f"{HOME}/crates/{crate}/must-fail"
    return sum(it.endswith(".edit") for it in os.listdir(folder)) if os.path.isdir(folder) else 0


def format_minutes(minutes: dict[Work, float], total: float) -> Iterator[str]:
    """Yields a line for each crate: its minutes by part, if there are any, and the number of its wrong bodies; and one for the rest."""
    format_seconds = lambda taken: "-" if taken is None else f"{taken:.1f}"
    for crate in read_crates():
        proof, wrong, tests = (format_seconds(minutes.get((crate, part))) for part in PARTS)
        yield f"{crate} {proof} {wrong} {count_edits(crate) or '-'} {tests}"
    yield f"other {total - sum(minutes.values()):.1f}"


def describe_commit() -> str:
    """Returns the commit that is checked, and whether files differ from it."""
    options: dict[str, Any] = {"cwd": HOME, "capture_output": True, "text": True, "check": False}
    name = subprocess.run(["git", "rev-parse", "--short", "HEAD"], **options).stdout.strip() or "no commit"
    changed = subprocess.run(["git", "status", "--porcelain", "--untracked-files=no"], **options).stdout
    return f"{name} with changes" if changed else name


def run_and_measure(arguments: list[str]) -> tuple[int, dict[Work, float], float, float]:
    """Runs a command and prints its lines. Returns its status, its minutes of processor time by crate and part and in all, and its minutes
    by the clock.
    """
    before, began = os.times(), time.monotonic()
    with subprocess.Popen(arguments, stdout=subprocess.PIPE, errors="replace", text=True) as ran:
        watch = Watch(ran.pid)
        for line in ran.stdout or ():
            print(line, end="", flush=True)
    after = os.times()
    total = after.children_user + after.children_system - before.children_user - before.children_system
    return ran.returncode, watch.measure_minutes(), total / 60, (time.monotonic() - began) / 60


def main() -> int:
    """Runs the command that the arguments describe. Returns the exit status."""
    reader = command.Reader(__doc__)
    reader.add_argument("--into", required=True, metavar="FILE")
    reader.add_argument("--row", metavar="PART")
    reader.add_argument("command", nargs=argparse.REMAINDER, metavar="COMMAND")
    arguments = reader.parse_args()
    if not arguments.command:
        reader.error("a COMMAND is missing")
    status, minutes, total, passed = run_and_measure(arguments.command)
    with open(arguments.into, "w" if arguments.row is None else "a", encoding="utf-8") as file:
        if arguments.row is None:
            processors = len(os.sched_getaffinity(0))
            file.write(f"# The gate of {describe_commit()} on {processors} processors, of which rt ci took {passed:.0f} minutes by the clock.\n")
            file.writelines(f"{line}\n" for line in format_minutes(minutes, total))
        else:
            file.write(f"{arguments.row} {total:.1f}\n")
    return status


if __name__ == "__main__":
    sys.exit(start.run(main))
