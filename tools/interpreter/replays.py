"""Replays a schedule, over caches if the test is an x86 test."""
from __future__ import annotations

import re
from collections.abc import Iterable, Sequence
from typing import Optional, Tuple

from interpreter.machines import Caches, drain_oldest, execute_next, execute_statement, replace_item
from interpreter.tests import REGISTERS, NoSchedule, Outcome, Refused, Test, join_lines
from interpreter.walks import make_outcome, make_source_start, make_x86_start


# A kind (`P`, `D` or `E`), a thread or processor, and for an eviction a location.
Event = Tuple[str, int, Optional[int]]


def read_schedule(text: str, locations: Sequence[str]) -> list[Event]:
    """Returns the events of a schedule: a kind, a processor, and for an eviction a location. Raises NoSchedule at a word that is no event."""
    events = []
    for word in re.finditer(r"[^ \t\r\n]+", text):
        offset = len(text[: word.start()].encode())
        match = re.fullmatch(r"([PD])([0-9]+)|(E)([0-9]+):([A-Za-z_][A-Za-z0-9_]*)", word[0])
        if not match:
            raise NoSchedule(1, "Word", offset)
        kind, digits = match[1] or match[3], match[2] or match[4]
        if digits not in ("0", "1", "2", "3"):
            raise NoSchedule(2, "Cpu", offset)
        if kind == "E" and match[5] not in locations:
            raise NoSchedule(3, "Location", offset)
        events.append((kind, int(digits), locations.index(match[5]) if kind == "E" else None))
    return events


class SourceReplay:
    """A replay of a source test, by interleaving on one memory."""

    def __init__(self, test: Test) -> None:
        """Starts a replay."""
        self.test = test
        self.places, self.words = make_source_start(test)

    def execute_event(self, kind: str, thread: int, _location: int | None) -> None:
        """Executes an event. Raises Refused if it is not enabled."""
        if kind != "P":
            raise Refused(*((6, "BufferEmpty") if kind == "D" else (7, "NotHeld")))
        position, registers = self.places[thread]
        if position == len(self.test.threads[thread]):
            raise Refused(3, "Ended")
        *next_state, self.words = execute_statement(self.test.threads[thread][position], position, registers, self.words)
        self.places = replace_item(self.places, thread, tuple(next_state))

    def is_final(self) -> bool:
        """Returns whether all threads have ended."""
        return all(position == len(code) for (position, _), code in zip(self.places, self.test.threads))

    def make_outcome(self) -> Outcome:
        """Returns the outcome of the present state."""
        return make_outcome((self.places, self.words))

    def format_thread(self, thread: int) -> list[str]:
        """Returns the line of a page for a thread."""
        position, registers = self.places[thread]
        return [f"P{thread} at {position}" + format_words(REGISTERS["SRC"], registers)]

    def format_memory(self) -> list[str]:
        """Returns the line of a page for the memory."""
        return ["Memory" + format_words(self.test.locations, self.words)]


class X86Replay:
    """A replay of an x86 test, over caches."""

    def __init__(self, test: Test, protocol: str) -> None:
        """Starts a replay over empty caches, by a protocol."""
        self.test = test
        self.processors = list(make_x86_start(test)[0])
        self.caches = Caches(len(test.threads), test.words, protocol)

    def execute_event(self, kind: str, cpu: int, location: int | None) -> None:
        """Executes an event. Raises Refused if it is not enabled."""
        if kind == "E":
            assert location is not None  # read_schedule gives each E its location
            self.caches.evict(cpu, location)
        elif kind == "D":
            self.processors[cpu] = drain_oldest(cpu, self.processors[cpu], self.caches)
        else:
            self.processors[cpu] = execute_next(self.test, cpu, self.processors[cpu], self.caches)

    def is_final(self) -> bool:
        """Returns whether all processors have ended and their buffers are empty."""
        return all(processor.position == len(code) and not processor.buffer for processor, code in zip(self.processors, self.test.threads))

    def make_outcome(self) -> Outcome:
        """Returns the outcome of the present state."""
        return make_outcome((tuple(self.processors), self.read_current_words()))

    def read_current_words(self) -> tuple[int, ...]:
        """Returns the words that loads find."""
        return tuple(self.caches.read_current_word(location) for location in range(len(self.test.locations)))

    def format_thread(self, cpu: int) -> list[str]:
        """Returns the lines of a page for a processor, its store buffer, and its cache."""
        processor, names = self.processors[cpu], self.test.locations
        return [
            f"P{cpu} at {processor.position}" + format_words(REGISTERS["X86"], processor.registers),
            f"P{cpu} buffer" + "".join(f" {names[location]}={word}" for location, word in processor.buffer),
            f"P{cpu} lines" + format_words(names, self.caches.states[cpu]),
        ]

    def format_memory(self) -> list[str]:
        """Returns the lines of a page for the memory, and for the words that loads find."""
        names = self.test.locations
        return ["Memory" + format_words(names, self.caches.memory), "Content" + format_words(names, self.read_current_words())]


def format_words(names: Sequence[str], words: Iterable[object]) -> str:
    """Returns names, each with its word, as a page has them."""
    return "".join(f" {name}={word}" for name, word in zip(names, words))


def start_replay(test: Test, protocol: str) -> SourceReplay | X86Replay:
    """Returns a replay of a test at its start; an x86 test has caches of the protocol."""
    return SourceReplay(test) if test.language == "SRC" else X86Replay(test, protocol)


def replay(test: Test, schedule: str, protocol: str = "mesi") -> tuple[str, int]:
    """Returns the page of a replay, and its exit status. A refused event ends it, and is named on the page. Raises NoSchedule at a word of the
    schedule that is no event.
    """
    run = start_replay(test, protocol)
    done, stopped = 0, None
    for event in read_schedule(schedule, test.locations):
        try:
            if event[1] >= len(test.threads):
                raise Refused(1, "NoCpu")
            run.execute_event(*event)
        except Refused as cause:
            stopped = f"Stopped at {done} by {cause.args[0]} {cause.args[1]}"
            break
        done += 1
    end = stopped or ("Final" if run.is_final() else "NotFinal")
    lines = [f"Test {test.name}", f"Steps {done}", f"End {end}"]
    for thread in range(len(test.threads)):
        lines += run.format_thread(thread)
    return join_lines(lines + run.format_memory()), 0 if end == "Final" else 1
