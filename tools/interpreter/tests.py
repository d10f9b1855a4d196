"""Tests, as values; and why a text or a schedule is rejected, or an event is not enabled."""
from __future__ import annotations

from collections.abc import Iterable
from dataclasses import dataclass, field
from typing import Any, NamedTuple, Sequence, Tuple, Union

import given

# The words of some registers or locations, by their indices.
Words = Tuple[int, ...]
# A state of a test: its threads (for a source test the position and the registers of each) or processors, and the words of memory.
State = Tuple[Tuple[Any, ...], Words]
WORD = 2**32
REGISTERS = {
    "SRC": ("r0", "r1", "r2", "r3", "r4", "r5"),
    "X86": ("EAX", "EBX", "ECX", "EDX", "ESI", "EDI"),
}


class Outcome(NamedTuple):
    """The registers of all threads, and the words of all locations."""

    registers: Sequence[Sequence[int]]
    words: Sequence[int]


# While herd's form is read, registers and locations have their names in it, and no index yet.


@dataclass(frozen=True)
class RegisterSite:
    """A register of a thread, as a condition names it."""

    thread: int
    register: Any


@dataclass(frozen=True)
class LocationSite:
    """A location, as a condition names it."""

    location: Any


Site = Union[RegisterSite, LocationSite]


@dataclass(frozen=True)
class Number:
    """A word that is written in a statement."""

    word: int


@dataclass(frozen=True)
class Register:
    """A register that a statement reads."""

    register: Any


Value = Union[Number, Register]


@dataclass(frozen=True)
class Constant:
    """A proposition that is true of every outcome, or of none."""

    is_true: bool


@dataclass(frozen=True)
class Eq:
    """A site has a word. (In a program's condition the word may be an address.)"""

    site: Any
    word: Any


@dataclass(frozen=True)
class Not:
    """A negation."""

    part: Proposition


@dataclass(frozen=True)
class And:
    """A conjunction."""

    left: Proposition
    right: Proposition


@dataclass(frozen=True)
class Or:
    """A disjunction."""

    left: Proposition
    right: Proposition


Proposition = Union[Constant, Eq, Not, And, Or]


class NoTest(given.Fault):
    """The text is no test: the cause in words, and the position of what is refused, which is the end if the text ends too early."""


class NoSchedule(Exception):
    """A word of a schedule is faulty: the fault's code and name, and the byte at which the word starts."""


class Refused(Exception):
    """An event is not enabled: the code and the name of the cause."""


@dataclass(frozen=True)
class Statement:
    """A statement of a source test, or an instruction of an x86 test."""

    kind: str
    register: Any = None  # a register's index
    location: Any = None  # a location's index
    value: Value | None = None
    left: Any = None  # the index of the first register of a sum
    target: Any = None  # the position that a jump targets, in its thread; while the thread is read, the label


@dataclass
class Test:
    """A test."""

    language: str
    name: str
    locations: list[str] = field(default_factory=list)  # names
    registers: list[tuple[int, ...]] = field(default_factory=list)  # for each thread, the words that its registers begin with
    words: tuple[int, ...] = ()  # the words that the locations begin with
    threads: list[Sequence[Statement]] = field(default_factory=list)  # for each thread, its statements
    listed: set[Site] = field(default_factory=set)
    quantifier: str = "exists"
    proposition: Proposition = Constant(True)
    columns: list[list[list[tuple[str, str]]]] = field(default_factory=list)  # for each thread, its cells, each a list of tokens


def join_lines(lines: Iterable[str]) -> str:
    """Returns lines as a text."""
    return "".join(f"{line}\n" for line in lines)
