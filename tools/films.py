"""Makes films: the code of a test, the state after each number of events of a schedule, each of them a replay by the program, and what each
event does. If an event is refused, the film ends before it, and `refused` says which and why.

For tools/picture.py, which draws them. tools/plain.py, which is not proved, gives the rows of source statements.
"""
from __future__ import annotations

import subprocess
import sys
from typing import Callable, List, TypedDict

sys.dont_write_bytecode = True
from shared.home import PROGRAM
import plain
from effects import Cells, Effect, describe_event
from replay_state import State, parse_replay_state

MAX_STEPS = 1000


class RefusedEvent(TypedDict):
    """An event that is refused, its index in the schedule, and the number and the name of the cause."""

    event: str
    at: int
    number: int
    cause: str


class Film(TypedDict):
    """The code of each thread, the states, one more than the events, the effect of each event, and the event that ends the film by its refusal."""

    language: str
    text: str
    cells: list[Cells]
    events: list[str]
    effects: list[Effect]
    states: list[State]
    refused: RefusedEvent | None
    protocol: str


class NoFilm(Exception):
    """There is no film: the program is not there or fails, or the schedule is too long; and why."""


class Refused(Exception):
    """The program refuses a text or a schedule: its line, its status, the text and the schedule."""


# A function that returns the output of the program, or of another, for arguments and the bytes of a text.
Asker = Callable[[List[str], bytes], str]

# The program.


def check_program() -> None:
    """Raises NoFilm unless the program is that of the present sources."""
    from program import build  # which, as the program does, needs Linux

    if build.ask_program_sh("is_current") is None:
        raise NoFilm("there is no program of the sources as they are: ./lw builds it")


def ask_program(arguments: list[str], text: bytes) -> str:
    """Returns the program's output on the bytes of a text. Raises NoFilm if the program does not start or is ended, and Refused if it refuses the
    text.
    """
    try:
        ran = subprocess.run([PROGRAM, *arguments], input=text, capture_output=True, check=False)
    except OSError:
        raise NoFilm("the program does not start") from None
    if ran.returncode < 0:
        raise NoFilm("the program was ended by the system")
    if line := ran.stderr.decode(errors="replace").strip():
        raise Refused(line, ran.returncode, text, arguments[1] if arguments[0] == "replay" else "")
    return ran.stdout.decode()


def replay_schedule(text: bytes, schedule: str, protocol: str, ask: Asker | None = None) -> State:
    """Returns the state that a schedule reaches over a protocol, by the program, or by `ask` in its place. Raises what `ask_program` does."""
    return parse_replay_state((ask or ask_program)(["replay", schedule, "--protocol", protocol], text))


def parse_language(text: bytes) -> str:
    """Returns the language of a test that the program has accepted."""
    return plain.parse_heading(text.decode())[0]


# Code and films.


def list_x86_cells(canonical: str) -> list[Cells]:
    """Returns, for each thread, its cells in a canonical text, each with the index of its instruction, which is that of its row."""
    rows = [line[1:-2].split(" | ") for line in canonical.partition("\n}\n")[2].splitlines() if line.startswith(" ")]
    columns = list(zip(*rows[1:])) or [() for _ in rows[0]]
    return [[{"text": cell, "at": index} for index, cell in enumerate(column) if cell] for column in columns]


def list_source_cells(test: plain.Test) -> list[Cells]:
    """Returns, for each thread, its cells that are not empty, and the index of the statement of each; a label by itself has the next one's.
    """
    columns = []
    for cells in test.columns:
        position = 0
        column: Cells = []
        for cell in (it for it in cells if it):
            column.append({"text": format_cell(cell), "at": position})
            position += has_statement(cell)
        columns.append(column)
    return columns


def has_statement(cell: list[tuple[str, str]]) -> bool:
    """Returns whether a statement follows a cell's labels."""
    position = 0
    while cell[position + 1 : position + 2] == [("symbol", ":")]:
        position += 2
    return position < len(cell)


def format_cell(tokens: list[tuple[str, str]]) -> str:
    """Returns a cell of a source test, spelled anew."""
    spelled = " ".join(text for _, text in tokens).replace(" : ", ": ")
    return spelled[: -len(" :")] + ":" if tokens[-1][1] == ":" else spelled


def list_cells(text: bytes, ask: Asker | None = None) -> list[Cells]:
    """Returns, for each thread, the cells that a film shows: those of the canonical text for an x86 test, which `ask` or the program prints."""
    if parse_language(text) == "X86":
        return list_x86_cells((ask or ask_program)(["compile"], text))
    return list_source_cells(plain.read_test(text.decode()))


def make_film(text: bytes, schedule: str, protocol: str, ask: Asker | None = None) -> Film:
    """Returns the film of a schedule, by the program, or by `ask` in its place. Raises NoFilm if the schedule has too many events, and Refused if the
    program refuses text or schedule.
    """
    events = schedule.split()
    refused: RefusedEvent | None = None
    if len(events) > MAX_STEPS:
        raise NoFilm(f"the schedule has {len(events)} events; a film has at most {MAX_STEPS}")
    end = replay_schedule(text, " ".join(events), protocol, ask)["end"]
    if end["kind"] == "Stopped":
        refused = {"event": events[end["at"]], "at": end["at"], "number": end["number"], "cause": end["cause"]}
        events = events[: end["at"]]
    states = [replay_schedule(text, " ".join(events[:number]), protocol, ask) for number in range(len(events) + 1)]
    cells = list_cells(text, ask)
    effects = [describe_event(event, cells, *states[index : index + 2]) for index, event in enumerate(events)]
    return {
        "language": parse_language(text), "text": text.decode(), "cells": cells,
        "events": events, "effects": effects, "states": states, "refused": refused, "protocol": protocol,
    }
