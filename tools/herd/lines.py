"""The instructions of a test in herd's form by their lines: how each is named, and a run to each state of its report."""
from __future__ import annotations

import re
from collections.abc import Iterator
from typing import Any

import plain
from herd.convert import ConvertedTest, ConversionResult
from herd.together import list_marked_states, parse_state
from shared import answers

# The instructions that others can see, or that wait for the store buffer, and what each is if one instruction of the text is several.
VISIBLE = {"load": "the load", "store": "the store", "xchg": None, "xadd": None, "mfence": None}


class Text:
    """The text of a test, and what it is converted to."""

    def __init__(self, text: str, result: ConversionResult) -> None:
        """Makes the text of a test in herd's form, with what it is converted to."""
        self.text, self.result = text, result

    def find_line(self, offset: int) -> int:
        """Returns the number of the line in which an offset is."""
        return self.text.count("\n", 0, offset) + 1

    def find_instruction(self, offset: int) -> str:
        """Returns the instruction in whose cell an offset is, as the text has it."""
        cells = [cell for thread in self.result.frame.threads for cell in thread]
        end = next(cell[-1].offset for cell in cells if cell[0].offset <= offset < cell[-1].offset)
        return " ".join(self.text[offset:end].split())

    def describe_place(self, place: tuple[int, int]) -> str:
        """Returns the name of a place: its thread, its line, and the instruction."""
        return f"P{place[0]}, line {self.find_line(place[1])}, {self.find_instruction(place[1])}"

    def describe_place_briefly(self, place: tuple[int, int]) -> str:
        """Returns a shorter name of a place: its thread and its line, without the instruction."""
        return f"P{place[0]} line {self.find_line(place[1])}"


def find_origins(conversion: ConvertedTest) -> list[list[int | None]]:
    """Returns, for each thread of a test, the place in the text from which each instruction comes: an offset, and `None` for the last one if it sets
    the thread's mark.
    """
    return [places + [None] * (len(code) - len(places)) for code, places in zip(conversion.test.threads, conversion.places)]


def format_runs(text: Text) -> dict[str, list[str]]:
    """Returns, for each state of the report, a run to it: its events, by the lines of the text."""
    runs: dict[str, list[str]] = {}
    for conversion in text.result.conversions:
        listed = answers.make_answer(["schedules"], conversion.test).text.splitlines()[2:]
        observed = {plain.format_site(conversion.test, site) for site in plain.list_observed_sites(conversion.unmarked)}
        for state, schedule in zip(listed[::2], listed[1::2]):
            if list_marked_states(conversion, [state]):
                shown = " ".join(f"{site}={word};" for site, word in parse_state(state).items() if site in observed)
                runs.setdefault(shown, list(list_visible_events(text, conversion, schedule.split())))
    return runs


def list_visible_events(text: Text, conversion: ConvertedTest, schedule: list[str]) -> Iterator[str]:
    """Yields the events of a schedule, without instructions that no other thread can see, and without those that set marks."""
    state, origins = plain.make_x86_start(conversion.test), find_origins(conversion)
    is_visible: list[list[bool]] = [[] for _ in conversion.test.threads]
    for event in schedule:
        thread = int(event[1])
        if event[0] == "D":
            if is_visible[thread].pop(0):
                yield f"D{thread}: the oldest store of P{thread} reaches memory"
        else:
            position = state[0][thread].position
            code = conversion.test.threads[thread]
            if code[position].kind == "store":
                is_visible[thread].append(origins[thread][position] is not None)
            origin = origins[thread][position]
            if code[position].kind in VISIBLE and origin is not None:
                yield f"P{thread}, line {text.find_line(origin)}: {describe_step(text, conversion, origins[thread], (thread, position))}"
        state = dict(plain.list_x86_moves(conversion.test, state))[event]


def describe_step(text: Text, conversion: ConvertedTest, origins: list[Any], place: tuple[int, int]) -> str:
    """Returns in words the instruction of the text from which one of lw comes, which part of it this is, and whether a guessed exchange succeeds.
    `place` is a thread and a position, `origins` those of `find_origins`.
    """
    thread, position = place
    code = conversion.test.threads[thread]
    instruction = text.find_instruction(origins[position])
    if re.match(r"(?i)lock\s+cmpxchg", instruction):
        return f"{instruction}, which {'succeeds' if code[position].kind == 'xchg' else 'fails'}"
    parts = {other.kind for other, origin in zip(code, origins) if origin == origins[position] and other.kind in VISIBLE}
    return f"{instruction}, {VISIBLE[code[position].kind]}" if len(parts) > 1 else instruction
