"""Values on a path through a thread: numbers, and symbols for what loads of shared locations find."""
from __future__ import annotations

from collections.abc import Sequence
from dataclasses import dataclass
from typing import Any, NamedTuple, Tuple, Union

MASK = {size: (1 << 8 * size) - 1 for size in (1, 2, 4, 8, 16)}
UNSET = "a value is used that nothing has set"
# The number of stores of each thread that came before, at least.
Clock = Tuple[int, ...]


class Symbol(NamedTuple):
    """The word that a load of `width` bytes found, plus the number `added`, modulo 2 to the bits of `size` bytes. `id` distinguishes the loads."""

    id: int
    width: int
    added: int = 0
    size: int = 8


# A number, a Symbol, or None, which is a value that nothing has set.
Value = Any


@dataclass(frozen=True)
class IsOneOf:
    """The question whether a symbol's word is one of some words. The others that it can be are recorded too."""

    symbol: int
    words: tuple[int, ...]
    others: tuple[int, ...]


@dataclass(frozen=True)
class IsSame:
    """The question whether a symbol's word is that of another symbol, of the same width, plus a number."""

    symbol: int
    other: int
    added: int
    width: int


Question = Union[IsOneOf, IsSame]


class Ask(Exception):
    """The path forks here: `execute` ends, and both answers to a question are followed."""

    def __init__(self, question: Question) -> None:
        """Makes the exception of a question."""
        super().__init__(question)
        self.question = question


def to_signed(word: int, size: int) -> int:
    """Returns a word as a signed number."""
    return word - (1 << 8 * size) if word >> (8 * size - 1) else word


def compute_later_clock(first: Clock, second: Clock) -> Clock:
    """Returns the clock of what comes after two events, by their clocks."""
    return tuple(map(max, first, second))


def compute_earliest_clock(clocks: Sequence[Clock]) -> Clock:
    """Returns the clock of what comes after one of some events, of which it is not known which."""
    return tuple(map(min, *clocks)) if len(clocks) > 1 else clocks[0]


def record_earlier(clocks: dict[int, Clock], word: int, clock: Clock) -> None:
    """Records that a word can come as early as a clock says."""
    clocks[word] = compute_earliest_clock((clock, clocks.get(word, clock)))


def list_symbols(value: Value) -> frozenset[int]:
    """Returns the ids of the symbols that a value has: one or none."""
    return frozenset((value.id,)) if isinstance(value, Symbol) else frozenset()


def to_word(value: int) -> int:
    """Returns a number as a word of lw."""
    return value % 2**32
