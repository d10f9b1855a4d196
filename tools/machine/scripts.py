"""Scripts that direct a run: a schedule of each listed state, cut into pieces of instructions of one thread.

A script ends where a store waits in a store buffer while another thread continues: no order of instructions shows that, so from there
threads race. Scripts need no proof: they say what is tried, and what is seen is counted as it is.
"""
from __future__ import annotations

from typing import Tuple

import plain
from search.explore import Search
from shared import answers
from shared.home import BEYOND

Script = Tuple[Tuple[int, int], ...]
MAX_SCRIPTS, MAX_PIECES = 256, 64
# The number of states of the machine at which a search for schedules ends, if neither program lists them.
MAX_STATES = 100_000


def list_schedules(test: plain.Test, text: str) -> list[str]:
    """Returns a schedule for each listed state. Without one of the programs a search makes them, and some may be missing."""
    listed = answers.ask_program(["schedules"], text) or answers.capture_output([BEYOND, "schedules"], text)
    if listed is None:
        return list(Search(test).explore(MAX_STATES, lambda *_: None).schedules.values())
    return [line for line in listed.splitlines()[2:] if line.startswith(" ")]


def make_script(test: plain.Test, schedule: str) -> Script:
    """Cuts a schedule into its pieces."""
    run = plain.X86Replay(test, "mesi")
    pieces: list[list[int]] = []
    for kind, thread, location in plain.read_schedule(schedule, test.locations):
        if kind == "P":
            if any(it.buffer for other, it in enumerate(run.processors) if other != thread):
                break
            if pieces and pieces[-1][0] == thread:
                pieces[-1][1] += 1
            else:
                pieces.append([thread, 1])
        run.execute_event(kind, thread, location)
    return tuple((thread, count) for thread, count in pieces)


def make_scripts(test: plain.Test, text: str) -> list[Script]:
    """Returns the scripts of an x86 test, without those of one piece, which direct nothing."""
    scripts = {make_script(test, schedule) for schedule in list_schedules(test, text)}
    return sorted(it for it in scripts if 1 < len(it) <= MAX_PIECES)[:MAX_SCRIPTS]
