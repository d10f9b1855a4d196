#!/usr/bin/env python3
"""Reads the state that `lw replay` prints of a run. The web page and tools/picture.py show this state.

    ./lw replay SCHEDULE < TEST | python3 tools/replay_state.py
    python3 tools/replay_state.py FILE

It prints the state as JSON; the second form reads what a replay printed into a file. A state has

- `name`, `steps`, and `end`: `kind` is Final, NotFinal or Stopped, and of a run that stopped `at`, `number` and `cause`;
- `threads`: of each `at`, the position of its next statement, and `registers`, pairs of a name and a word; of an x86 test also
  `buffer`, pairs of a location and a word, the oldest first, and `lines`, pairs of a location and its line's letter;
- `memory` and `content`, pairs of a location and a word; a source test's content is its memory.

A text of another form is refused, as `FILE:LINE:COLUMN: cause`. Each line that a replay prints has to be present,
in its place and with its end; an end may be that of Windows. web/replays.js takes the same texts. Python 3.8 is enough, on any system.
"""
from __future__ import annotations

import json
import re
import sys
from typing import List, Tuple, TypedDict

sys.dont_write_bytecode = True
import given
from shared import command, start
from shared.matches import require_match

X86 = ("EAX", "EBX", "ECX", "EDX", "ESI", "EDI")
SOURCE = ("r0", "r1", "r2", "r3", "r4", "r5")
MAX_THREADS = 4
NUMBER = "(0|[1-9][0-9]{0,14})"
NAME = "[A-Za-z_][A-Za-z0-9_]*"
WORDS = f"((?: {NAME}=(?:0|[1-9][0-9]{{0,9}}))*)"
LETTERS = f"((?: {NAME}=[MOESI])*)"
END = f"End (?:(Final|NotFinal)|Stopped at {NUMBER} by {NUMBER} ([A-Za-z]+))"


class NoReplay(given.Fault):
    """The text is not what a replay prints: the cause in words, and the position of the line that is refused."""


# Pairs of a name and its word, and of a location and the letter of its cache line.
Words = List[Tuple[str, int]]
Letters = List[Tuple[str, str]]


class Ending(TypedDict):
    """How each run ends: Final, NotFinal or Stopped."""

    kind: str


class End(Ending, total=False):
    """How a run ends; of one that stopped also the index of the event that is refused, and the number and the name of the cause."""

    at: int
    number: int
    cause: str


class Registers(TypedDict):
    """The state of a thread: the position of its next statement, and its registers."""

    at: int
    registers: Words


class ThreadState(Registers, total=False):
    """The state of a thread; in an x86 test also its store buffer and its cache lines."""

    buffer: Words
    lines: Letters


class State(TypedDict):
    """The state that a schedule reaches."""

    name: str
    steps: int
    end: End
    threads: list[ThreadState]
    memory: Words
    content: Words


class Page:
    """The lines of a replay's page, which are read one after another."""

    def __init__(self, text: str) -> None:
        """Starts at the first line of a text."""
        *self.lines, self.rest = text.split("\n")
        self.offset = self.last_offset = 0  # of the next line, and of the line that was read last

    def take_line(self, pattern: str) -> tuple[str, ...]:
        """Reads the next line. Returns the groups that a pattern matches in it. Raises NoReplay if there is no line, or the pattern does not match
        all of it.
        """
        if not self.lines:
            raise NoReplay("the last line has no end" if self.rest else "the text ends, and a replay prints more", self.offset)
        line = self.lines.pop(0)
        self.last_offset, self.offset = self.offset, self.offset + len(line) + 1
        match = re.fullmatch(pattern, line[:-1] if line.endswith("\r") else line)
        self.require(match)
        return require_match(match).groups()

    def parse_words(self, text: str) -> Words:
        """Returns the pairs of a name and a word in a text of the line that was read last. Raises NoReplay if a number is no word."""
        words = [(name, int(word)) for name, word in parse_pairs(text)]
        self.require(all(word < 2**32 for _, word in words))
        return words

    def require(self, condition: object) -> None:
        """Raises NoReplay, at the line that was read last, unless a condition holds."""
        if not condition:
            raise NoReplay("a replay prints no such line here", self.last_offset)

    def close(self) -> None:
        """Raises NoReplay if something follows the last line of a replay."""
        if self.lines or self.rest:
            raise NoReplay("a replay prints no line here", self.offset)


def parse_pairs(text: str) -> Letters:
    """Returns the pairs of a name and what follows its `=`, in a text of such, between blanks."""
    return [(name, value) for name, value in (it.split("=") for it in text.split())]


def list_names(words: Words | Letters) -> tuple[str, ...]:
    """Returns the names of pairs."""
    return tuple(it[0] for it in words)


def make_end(kind: str | None, stopped_at: str, number: str, cause: str) -> End:
    """Returns how a run ended, by the groups of a match of END: `kind` is None if the run was stopped."""
    return {"kind": kind} if kind else {"kind": "Stopped", "at": int(stopped_at), "number": int(number), "cause": cause}


def read_thread(page: Page, number: int, languages: tuple[tuple[str, ...], ...]) -> ThreadState:
    """Reads the state of the thread `number`. `languages` has the names of the registers that it may have. Raises NoReplay if the lines are no such
    state.
    """
    position, text = page.take_line(f"P{number} at {NUMBER}{WORDS}")
    thread: ThreadState = {"at": int(position), "registers": page.parse_words(text)}
    page.require(list_names(thread["registers"]) in languages)
    if list_names(thread["registers"]) == X86:
        thread["buffer"] = page.parse_words(*page.take_line(f"P{number} buffer{WORDS}"))
        thread["lines"] = parse_pairs(*page.take_line(f"P{number} lines{LETTERS}"))
    return thread


def read_threads(page: Page) -> list[ThreadState]:
    """Reads the states of all threads, which have the registers of one language. Raises NoReplay if the lines are no such states."""
    threads = [read_thread(page, 0, (X86, SOURCE))]
    language = list_names(threads[0]["registers"])
    while len(threads) < MAX_THREADS and page.lines[:1] and page.lines[0].startswith("P"):
        threads.append(read_thread(page, len(threads), (language,)))
    return threads


def parse_replay_state(text: str) -> State:
    """Returns the state that a replay's text describes. Raises NoReplay if the text is not what a replay prints."""
    page = Page(text)
    name, steps = page.take_line("Test ([!-~]{1,128})")[0], int(page.take_line(f"Steps {NUMBER}")[0])
    end, threads = make_end(*page.take_line(END)), read_threads(page)
    memory = content = page.parse_words(*page.take_line(f"Memory{WORDS}"))
    names, of_x86 = list_names(memory), [it for it in threads if "lines" in it]
    page.require(all(list_names(it["lines"]) == names and {*list_names(it["buffer"])} <= {*names} for it in of_x86))
    if of_x86:
        content = page.parse_words(*page.take_line(f"Content{WORDS}"))
        page.require(list_names(content) == names)
    page.close()
    return {"name": name, "steps": steps, "end": end, "threads": threads, "memory": memory, "content": content}


def parse_register(name: str) -> int:
    """Returns the index of a register of either language, by its name."""
    return int(name[1:]) if name.startswith("r") else X86.index(name)


def parse_report_line(line: str) -> list[tuple[str, int]]:
    """Returns the pairs of an observed name and a word in a line of a report."""
    return [(name, int(word)) for name, word in re.findall(r"(\S+)=(\d+);", line)]


def is_final_in(state: State, line: str) -> bool:
    """Returns whether a run is final, and its state is that of a line of a report. A register may have its name in either language."""
    content = dict(state["content"])
    for name, word in parse_report_line(line):
        thread, is_register, register = name.rpartition(":")
        found_word = state["threads"][int(thread)]["registers"][parse_register(register)][1] if is_register else content[name]
        if found_word != word:
            return False
    return state["end"]["kind"] == "Final"


def print_state(text: str) -> int:
    """Prints the state that a replay's text describes. Returns the exit status."""
    print(json.dumps(parse_replay_state(text), indent=1))
    return 0


def main() -> int:
    """Runs the command that the arguments describe. Returns the exit status."""
    given.set_output_encoding()
    reader = command.Reader(__doc__)
    reader.add_file()
    arguments = reader.read()
    return command.for_one("replay_state", arguments.file, lambda _name, text: print_state(text))


if __name__ == "__main__":
    sys.exit(start.run(main))
