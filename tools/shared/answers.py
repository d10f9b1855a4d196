"""Makes lists of states and other answers, and chooses the program that makes each.

The program lw makes it if it is built, or the library in a pack, which has no sources, unless the test is refused for its size. Otherwise the
program beyond makes a list of states if it is built, and if that is not whole either, the search of tools/beyond.py; every other answer is
made by tools/plain.py. The two programs are proved if they are those of the sources, which is asked once; the search and the interpreter are
not. So each answer carries its maker, and each command says which of its answers are not proved. A further maker is added to `Maker` and to
`make_answer`.
"""
from __future__ import annotations

import functools
import os
import subprocess
from collections.abc import Iterable
from enum import Enum
from typing import Any, NamedTuple

import given
import plain
from search.explore import Search
from search.reports import make_report
from shared import python_lw, spawn
from shared.home import BEYOND, HOME, PROGRAM

# The states of the machine at which a search for a list ends.
MAX_STATES = 2_000_000
# The status of a tool that has no verdict.
NO_VERDICT = 6


class Maker(Enum):
    """By whom an answer is made, as it is named in print."""

    PROGRAM = "lw"
    BEYOND = "beyond"
    STALE_PROGRAM = "an lw of other sources (./lw builds that of these)"
    STALE_BEYOND = "a beyond of other sources (./beyond builds that of these)"
    SEARCH = "tools/beyond.py"
    PLAIN = "tools/plain.py"

    @property
    def is_proved(self) -> bool:
        """Returns whether the answers of this maker are proved."""
        return self in (Maker.PROGRAM, Maker.BEYOND)


# For each program its maker if it is that of the sources, and if it is not.
PROGRAMS = {"lw": (Maker.PROGRAM, Maker.STALE_PROGRAM), "beyond": (Maker.BEYOND, Maker.STALE_BEYOND)}


class NoList(given.Fault):
    """No maker lists the states of a test: the cause, and an offset in its text."""


class Answer(NamedTuple):
    """An answer and its maker."""

    text: str
    by: Maker


def has_sources() -> bool:
    """Returns whether the sources of the programs are here. A pack has none: its programs and its library are what was handed on."""
    return os.path.exists(os.path.join(HOME, "crates.txt"))


@functools.lru_cache(maxsize=None)
def is_current(program: str) -> bool:
    """Returns whether a program is that of the sources as they are. It is asked once."""
    return spawn.is_current(program)


def find_maker(program: str) -> Maker:
    """Returns the maker of what the program of this name answers, or the library in its place."""
    current, stale = PROGRAMS[program]
    return current if not has_sources() or is_current(program) else stale


@functools.lru_cache(maxsize=None)
def load_library() -> Any:
    """Returns the proved library if it is a shared object beside python/lw.py, as in a pack. Beside sources nothing says of which it is made, so it
    is not asked.
    """
    shared_object = os.path.join(python_lw.FOLDER, "liblw.so")
    if has_sources() or not os.path.exists(shared_object):
        return None
    try:
        return python_lw.load_lw().Workbench(shared_object)
    except OSError:
        return None


def ask_library(bench: Any, words: list[str], text: str) -> str | None:
    """Returns the library's answer, or None if it refuses the test. `bench` is a workbench of python/lw.py."""
    command, *options = words
    try:
        return bench.run(command, text.encode(), *options[:1], *options[2:])[1].decode()
    except python_lw.load_lw().Fault:
        return None


def ask_program(arguments: list[str], text: str) -> str | None:
    """Returns the program's output, or None if it is not built, does not start on this system, or refuses the test. If the library is present it
    is asked instead, in this process.
    """
    bench = load_library()
    if bench:
        return ask_library(bench, arguments, text)
    return capture_output([PROGRAM, *arguments], text, arguments[0] == "replay")


def capture_output(command: list[str], text: str, may_stop: bool = False) -> str | None:
    """Returns what a command prints on standard output. None if it does not start, prints nothing, or ends with another status than 0; with `may_stop`,
    as of a replay, the status may be any.
    """
    try:
        ran = subprocess.run(command, input=text.encode(), stdout=subprocess.PIPE, stderr=subprocess.DEVNULL, check=False)
    except OSError:
        return None
    return ran.stdout.decode() if ran.stdout and (ran.returncode == 0 or may_stop) else None


def ask_beyond(text: str) -> str | None:
    """Returns the report of a test of any size by the library, if it is present and its memory is enough, and otherwise by the program beyond. None
    if neither makes it.
    """
    bench = load_library()
    if bench:
        try:
            return bench.reach("states", text.encode()).decode()
        except python_lw.load_lw().Fault:
            pass
    return capture_output([BEYOND, "states"], text)


def search_states(test: plain.Test) -> str:
    """Returns the report of a test by the search of tools/beyond.py. Raises NoList if there are too many states."""
    result = Search(test).explore(MAX_STATES, lambda *_: None)
    if not result.is_whole:
        why = f"a search for the states of {test.name} ends at {MAX_STATES} states of the machine"
        raise NoList(f"there is no whole list: lw makes none here, and {why}", 0)
    return make_report(test, result)


def make_answer(arguments: list[str], test: plain.Test, text: str | None = None) -> Answer:
    """Returns the answer to a command of `lw`. The text is the canonical one of an x86 test if none is passed."""
    text = plain.format_canonical_text(test) if text is None else text
    printed = ask_program(arguments, text)
    if printed is not None:
        return Answer(printed, find_maker("lw"))
    if arguments == ["states"]:
        printed = ask_beyond(text)
        return Answer(search_states(test), Maker.SEARCH) if printed is None else Answer(printed, find_maker("beyond"))
    return Answer(plain.answer_command(arguments, text)[0], Maker.PLAIN)


def format_no_verdict(test: plain.Test, why: str) -> str:
    """Returns the lines in place of a report if no state was found, which says nothing of the question. A report would say Ok or No.
    """
    heading = plain.make_report(test, set()).splitlines()[0]
    return plain.join_lines([heading, "States 0", f"None: {why}, so nothing is said of the condition", f"Condition {plain.format_condition(test)}"])


def format_makers(makers: Iterable[Maker]) -> str:
    """Returns the names of makers, in words."""
    chosen = {*makers}
    return " and ".join(it.value for it in Maker if it in chosen)


def are_proved(makers: Iterable[Maker]) -> bool:
    """Returns whether the answers of all makers are proved."""
    return all(it.is_proved for it in makers)


def filter_state_lines(report: str) -> list[str]:
    """Returns the lines of the states of a report."""
    lines = report.splitlines()
    return lines[2 : 2 + int(lines[1].split()[1])]
