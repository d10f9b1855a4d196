"""Locked instructions: on shared locations XCHG and LOCK XADD are kept, and others are done with a guess of what they find."""
from __future__ import annotations

from collections.abc import Callable


from c.arithmetic import add_values, compute_result
from c.flags import Flags, Source
from c.operands import Memory, Operand, Register
from c.own_memory import load_own, store_own
from c.refused import Refused
from c.values import MASK, Ask, Clock, IsOneOf, IsSame, Question, Symbol, Value, compute_later_clock, record_earlier
from c.vectors import Vectors
from c.path_graph import Exchange, ExchangeAdd, Fence

SUMS = ("xadd", "add", "sub", "inc", "dec")
BITS = {"bts": lambda old, bit: old | bit, "btr": lambda old, bit: old & ~bit, "btc": lambda old, bit: old ^ bit}
RAX = Register("rax", 8)


class NextGuess(Exception):
    """A guess is missing. It has `cases` cases."""

    def __init__(self, cases: int) -> None:
        """Makes the exception of the number of cases."""
        super().__init__(cases)
        self.cases = cases


class Locked(Vectors):
    """Locked instructions. `guesses` are those under which the thread is followed: for each question in turn, the index of a case."""

    guesses: tuple[int, ...] = ()

    def wait_for_empty_buffer(self) -> None:
        """Adds the effect that the thread waits until its store buffer is empty."""
        self.effects.append(Fence())

    def take_guess(self, cases: int) -> int:
        """Returns the guess of one of several cases. Raises NextGuess if the thread is followed without a guess for it."""
        index = self.path.guess_count
        if index >= len(self.guesses):
            raise NextGuess(cases)
        self.path.guess_count += 1
        return min(self.guesses[index], cases - 1)

    def execute_locked(self, base: str, size: int) -> None:
        """Does a locked instruction, of which one operand is in memory."""
        operands = self.instruction.operands
        operand, memory = (None, operands[0]) if len(operands) == 1 else operands
        operand, memory = (memory, operand) if isinstance(operand, Memory) else (operand, memory)
        address, value = self.compute_address(memory), None if operand is None else self.read_register_or_number(operand, size)
        if not self.is_shared(address, size):
            self.execute_locked_on_own(base, address, size, value, operand)
            return
        self.program.locations.record_store(self.thread, address, size)
        self.check_whole_location(address, size)
        if base == "xchg":
            self.execute_exchange(address, size, value, operand)
        elif base == "cmpxchg":
            self.execute_compare_exchange(address, size, value)
        elif base in SUMS and size >= 4:
            self.execute_locked_add(base, address, size, value, operand)
        else:
            self.execute_by_guess(base, address, size, value, operand)

    def execute_locked_on_own(self, base: str, address: int, size: int, value: Value, register: Operand | None) -> None:
        """Does a locked instruction on memory that no other thread accesses: it waits until the store buffer is empty."""
        path = self.path
        if not self.program.layout.is_stack(address):
            self.program.locations.record_store(self.thread, address, size)
        # The old word, the result in its place, and the flags.
        old = load_own(path, self.program.layout, address, size)
        if base == "xchg":
            store_own(path, address, size, value)
            self.write_register(register, size, old)
        elif base == "cmpxchg":
            is_same = path.are_equal(old, self.read_register("rax", size), size)
            path.flags = Flags(Source.EXCHANGE, int(is_same), None, size)
            if is_same:
                store_own(path, address, size, value)
            else:
                self.write_register(RAX, size, old)
        elif base == "xadd":
            path.flags = Flags(Source.SUM, old, value, size)
            store_own(path, address, size, add_values(path, old, value, size))
            self.write_register(register, size, old)
        elif self.is_fence(base, address, value):
            path.flags = None
        else:
            result, flags = self.compute_locked_result(base, old, value, size)
            path.flags = flags or path.flags
            store_own(path, address, size, result)
        self.wait_for_empty_buffer()

    def is_fence(self, base: str, address: int, value: Value) -> bool:
        """Returns whether an instruction preserves the stack: compilers use it as a fence."""
        return self.program.layout.is_stack(address) and base in ("or", "add", "sub", "xor") and value == 0

    def compute_locked_result(self, base: str, old: Value, value: Value, size: int) -> tuple[Value, Flags | None]:
        """Returns the result of an operation on an old word, and the flags."""
        if base in BITS:
            bit = 1 << self.path.require_number(value) % (8 * size)
            was_set = self.path.apply(old, lambda it: int(it & bit != 0))
            return self.path.apply(old, lambda it: BITS[base](it, bit) & MASK[size]), Flags(Source.BIT, was_set, None, size)
        return compute_result(self.path, "add" if base == "xadd" else base, old, value, size)

    def take_pending(self, register: Operand | None, size: int) -> bool:
        """Puts what a locked instruction has found into its register, if the path forked after it. Returns whether it did, so that the instruction is
        done.
        """
        if not self.path.pending_value:
            return False
        value, = self.path.pending_value
        self.path.pending_value = None
        if register is not None:
            self.write_register(register, size, value)
        return True

    def finish_locked(self, register: Operand | None, size: int, effect: Exchange | ExchangeAdd) -> None:
        """Adds a locked instruction's effect, and puts what it finds into a register."""
        value = Symbol(effect.symbol, size, 0, size)
        self.finish_load(effect, value)
        if register is not None:
            self.write_register(register, size, value)

    def execute_exchange(self, address: int, size: int, value: Value, register: Register) -> None:
        """Does XCHG of a register with a location."""
        if self.take_pending(register, size):
            return
        words = self.path.list_clocked_words(value)
        symbol_id = self.make_symbol_id(address, size)
        self.record_store(address, words)
        self.path.last_stored[address] = value
        self.finish_locked(register, size, Exchange(symbol_id, address, value))

    def execute_locked_add(self, base: str, address: int, size: int, value: Value, register: Operand | None) -> None:
        """Does LOCK XADD, ADD, SUB, INC and DEC. Raises Refused if a thread needs the sum of two words that are not known."""
        result_register = register if base == "xadd" else None
        if self.take_pending(result_register, size):
            return
        path = self.path
        added = {"inc": 1, "dec": MASK[size]}.get(base, value)
        added = -path.require_number(value) & MASK[size] if base == "sub" else added
        # What is stored: each sum of a word that can be found and one that can be added.
        addends = path.list_clocked_words(added)
        symbol_id = self.make_symbol_id(address, size)
        old = Symbol(symbol_id, size, 0, size)
        words: dict[int, Clock] = {}
        for word, clock in path.list_clocked_words(old).items():
            for addend, other_clock in addends.items():
                record_earlier(words, word + addend & MASK[size], compute_later_clock(clock, other_clock))
        self.record_store(address, words)
        # The thread's own later loads find the sum, if no other thread stores.
        if self.is_only_writer(address, size):
            try:
                path.last_stored[address] = add_values(path, old, added, size)
            except Ask:
                raise Refused("two words that are not known are added in a location to which only one thread stores") from None
        self.set_flags_of_sum(base, old, added, value, size)
        self.finish_locked(result_register, size, ExchangeAdd(symbol_id, address, added))

    def set_flags_of_sum(self, base: str, old: Symbol, added: Value, value: Value, size: int) -> None:
        """Sets the flags of a locked sum."""
        if base in ("sub", "dec"):
            self.path.flags = Flags(Source.DIFFERENCE, old, value if base == "sub" else 1, size, base == "sub")
        else:
            self.path.flags = Flags(Source.SUM, old, added, size, base != "inc")

    def execute_by_guess(self, base: str, address: int, size: int, value: Value, register: Operand | None) -> None:
        """Does a locked instruction that lw lacks, with a guess of the word that it finds: it is an XCHG, and another word abandons the
        run.
        """
        path = self.path
        words = sorted(self.list_words_now(address, size))
        number = None if value is None else path.require_number(value)
        old = words[self.take_guess(len(words))] if len(words) > 1 else words[0]
        result, flags = self.compute_locked_result(base, old, number, size)
        if base == "xadd":
            self.write_register(register, size, old)
        before = path.flags
        symbol_id = self.make_symbol_id(address, size)
        self.record_store(address, {path.resolve(result): path.clocks[symbol_id][old]})
        path.last_stored[address] = result
        path.flags = flags or before
        self.effects.append(Exchange(symbol_id, address, result))
        if len(words) > 1:
            self.guess = IsOneOf(symbol_id, (old,), tuple(it for it in words if it != old)), True

    def list_words_now(self, address: int, size: int) -> frozenset[int]:
        """Returns the words that an access of a location can find now."""
        if self.is_only_writer(address, size):
            return self.path.list_words(self.read_own_last_store(address, size))
        return self.program.locations.list_readable_words(address, self.thread, self.path.stores)

    def execute_compare_exchange(self, address: int, size: int, new: Value) -> None:
        """Does LOCK CMPXCHG with a guess of whether it succeeds: then it is an XCHG, and otherwise an addition of 0."""
        path = self.path
        expected = self.read_register("rax", size)
        words, expected_words = self.list_words_now(address, size), path.list_words(expected)
        can_succeed, can_fail = bool(words & expected_words), not (len(words) == 1 and words == expected_words)
        succeeds = can_succeed and (not can_fail or self.take_guess(2) == 0)
        question = self.make_question(expected, words, size)
        stored = path.list_clocked_words(new)
        symbol_id = self.make_symbol_id(address, size)
        path.flags = Flags(Source.EXCHANGE, int(succeeds), None, size)
        if succeeds:
            self.record_store(address, stored)
            path.last_stored[address] = new
            self.effects.append(Exchange(symbol_id, address, new))
        else:
            self.put_found(symbol_id, size)
            self.effects.append(ExchangeAdd(symbol_id, address, 0))
        if can_succeed and can_fail:
            self.guess = question(symbol_id), succeeds

    def put_found(self, symbol_id: int, size: int) -> None:
        """Puts what a failed CMPXCHG has found into RAX. Bytes above it that are not 0 are forgotten, so that no question is needed."""
        value = Symbol(symbol_id, size, 0, size)
        try:
            self.write_register(RAX, size, value)
        except Ask:
            self.path.registers["rax"] = (value, size)

    def make_question(self, expected: Value, words: frozenset[int], size: int) -> Callable[[int], Question]:
        """Returns the question that a CMPXCHG asks of the symbol of what it finds."""
        expected_word = self.path.resolve(expected)
        if expected_word is not None:
            others = tuple(sorted(words - {expected_word}))
            return lambda symbol_id: IsOneOf(symbol_id, (expected_word,), others)
        union = {it % 2**32 for it in words | self.path.list_words(expected)}
        if size < 4 or expected.width != size or len(union) != len(words | self.path.list_words(expected)):
            self.path.require_number(expected)
        return lambda symbol_id: IsSame(symbol_id, expected.id, expected.added, size)
