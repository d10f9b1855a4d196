"""A thread on one of its paths: registers, flags, its own memory, and what is known of what its loads have found."""
from __future__ import annotations

from collections.abc import Callable, Iterable
from dataclasses import dataclass, field, fields
from typing import Any

from c.flags import Flags
from c.refused import Refused
from c.values import MASK, UNSET, Ask, Clock, IsOneOf, IsSame, Question, Symbol, Value, compute_earliest_clock, compute_later_clock

MAX_WORDS = 40
TOO_MANY_WORDS = f"an operation depends on a word that can be one of more than {MAX_WORDS}"


@dataclass(frozen=True)
class Pass:
    """How often a call has passed a loop since it was entered, how many questions were asked before that, and the state at the last pass."""

    count: int = 0
    questions_before: int = 0
    question_count: int = 0
    stores: int = 0
    state: tuple | None = None


@dataclass
class ExecutionPath:
    """The position of a thread in the code, and what it knows there. A register has a value and the number of its lowest bytes that are known."""

    position: int
    past: Clock
    registers: dict[str, tuple[Value, int]] = field(default_factory=dict)
    memory: dict[int, tuple[int, Value]] = field(default_factory=dict)
    # The flags, if an instruction has set them.
    flags: Flags | None = None
    words: dict[int, frozenset[int]] = field(default_factory=dict)
    clocks: dict[int, dict[int, Clock]] = field(default_factory=dict)
    facts: dict[Question, bool] = field(default_factory=dict)
    shown_values: dict[str, Value] = field(default_factory=dict)
    last_stored: dict[int, Value] = field(default_factory=dict)
    stores: int = 0
    question_count: int = 0
    guess_count: int = 0
    steps: int = 0
    blocks: int = 0
    call: int = 0
    calls: int = 0
    callers: dict[int, int] = field(default_factory=dict)
    passes: dict[tuple[int, int], Pass] = field(default_factory=dict)
    has_jumped_back: bool = False
    pending_value: tuple[Value] | None = None

    def copy(self) -> "ExecutionPath":
        """Returns a copy of the path, which continues on its own."""
        copied = ExecutionPath.__new__(ExecutionPath)
        for name in NAMES:
            value = getattr(self, name)
            setattr(copied, name, value.copy() if isinstance(value, dict) else value)
        return copied

    # What is known.

    def resolve(self, value: Value) -> Any:
        """Returns a value as a number, or `None` if it can be several numbers on this path. Raises Refused if the value is unset."""
        if value is None:
            raise Refused(UNSET)
        if isinstance(value, Symbol):
            words = self.words[value.id]
            return min(words) + value.added & MASK[value.size] if len(words) == 1 else None
        return value

    def list_words(self, value: Value) -> frozenset[int]:
        """Returns the words that a value can be."""
        if isinstance(value, Symbol):
            return frozenset(word + value.added & MASK[value.size] for word in self.words[value.id])
        return frozenset((self.resolve(value),))

    def list_clocked_words(self, value: Value) -> dict[int, Clock]:
        """Returns the words that a value can be, with their clocks."""
        if isinstance(value, Symbol):
            return {word + value.added & MASK[value.size]: self.clocks[value.id][word] for word in self.words[value.id]}
        return {self.resolve(value): (0,) * len(self.past)}

    def require_number(self, value: Value) -> int:
        """Returns a value as a number. If it can be several, the path forks. Raises Ask then."""
        number = self.resolve(value)
        if number is not None:
            return number
        first, *others = sorted(self.require_few_words(value))
        raise Ask(IsOneOf(value.id, (first,), tuple(others)))

    def require_few_words(self, value: Symbol) -> frozenset[int]:
        """Returns the words of a symbol, which are to be distinguished. Raises Refused if they are too many."""
        words = self.words[value.id]
        if len(words) > MAX_WORDS:
            raise Refused(TOO_MANY_WORDS)
        return words

    def apply(self, value: Value, work: Callable[[int], object]) -> Any:
        """Returns the result of an operation on a value. Only words with different results are distinguished: Ask is raised if there are
        several results.
        """
        number = self.resolve(value)
        if number is not None:
            return work(number)
        words_by_result: dict[object, list] = {}
        for word in sorted(self.require_few_words(value)):
            words_by_result.setdefault(work(word + value.added & MASK[value.size]), []).append(word)
        if len(words_by_result) == 1:
            return next(iter(words_by_result))
        first, *others = words_by_result.values()
        raise Ask(IsOneOf(value.id, tuple(first), tuple(word for words in others for word in words)))

    def apply_both(self, left: Value, right: Value, work: Callable[[int, int], object]) -> Any:
        """Returns the result of an operation on two values."""
        left_word = self.resolve(left)
        if left_word is not None:
            return self.apply(right, lambda it: work(left_word, it))
        right_word = self.require_number(right)
        return self.apply(left, lambda it: work(it, right_word))

    def extract_bytes(self, value: Value, size: int, offset: int = 0) -> Value:
        """Returns some bytes of a value. A symbol stays one if it has no others."""
        if isinstance(value, Symbol) and not offset and (value.size if value.added else value.width) <= size:
            return value
        return None if value is None else self.apply(value, lambda it: it >> 8 * offset & MASK[size])

    def are_equal(self, left: Value, right: Value, size: int) -> bool:
        """Returns whether two values have the same bytes."""
        left, right = self.extract_bytes(left, size), self.extract_bytes(right, size)
        numbers = self.resolve(left), self.resolve(right)
        if None not in numbers:
            return numbers[0] == numbers[1]
        if left == right:
            return True
        if not self.list_words(left) & self.list_words(right):
            return False
        if numbers[0] is None and numbers[1] is None:
            return self.are_symbols_equal(left, right)
        return self.apply(*((left, lambda it: it == numbers[1]) if numbers[0] is None else (right, lambda it: it == numbers[0])))

    def are_symbols_equal(self, left: Symbol, right: Symbol) -> bool:
        """Returns whether two symbols, of which neither is known, have the same word. lw compares 32 bits: that must give the same result. Raises Ask
        if that is not known.
        """
        words = self.list_words(left) | self.list_words(right)
        if left.added or left.width != right.width or left.width < 4 or len({it % 2**32 for it in words}) != len(words):
            return self.require_number(left) == self.require_number(right)
        question = IsSame(left.id, right.id, right.added, left.width)
        if question not in self.facts:
            raise Ask(question)
        return self.facts[question]

    # What is found out.

    def narrow(self, symbol_id: int, possible: Iterable[int]) -> None:
        """Records that a symbol's word is one of these."""
        self.words[symbol_id] = frozenset(possible)
        self.past = compute_later_clock(self.past, compute_earliest_clock([self.clocks[symbol_id][possible_word] for possible_word in self.words[symbol_id]]))

    def learn(self, question: Question, holds: bool) -> None:
        """Records the answer to a question."""
        if isinstance(question, IsSame):
            self.facts[question] = holds
        else:
            self.narrow(question.symbol, question.words if holds else question.others)

    def begin_symbol_id(self, symbol_id: int) -> None:
        """Starts to use an id for a new symbol: nothing is known any more of the one that had it."""
        self.words.pop(symbol_id, None)
        for fact in [it for it in self.facts if symbol_id in (it.symbol, getattr(it, "other", None))]:
            del self.facts[fact]

    def snapshot(self) -> tuple[Any, ...]:
        """Returns all that determines how the path continues, if nothing is asked and no other thread stores anything: two equal snapshots of a loop say
        that it never ends.
        """

        def simplify(value: Value) -> Value:
            """Returns a value as a number, if it can be only one."""
            number = None if value is None else self.resolve(value)
            return value if number is None else number

        registers = tuple((name, simplify(value), size) for name, (value, size) in sorted(self.registers.items()))
        memory = tuple((address, size, simplify(value)) for address, (size, value) in sorted(self.memory.items()))
        last = tuple((address, simplify(value)) for address, value in sorted(self.last_stored.items()))
        flags = self.flags and (self.flags.source, simplify(self.flags.left), simplify(self.flags.right), self.flags.size, self.flags.has_carry)
        return registers, memory, last, flags, tuple(sorted(self.shown_values.items(), key=lambda it: it[0]))


NAMES = tuple(it.name for it in fields(ExecutionPath))
