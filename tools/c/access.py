"""The accesses of an instruction: registers, the thread's own memory, and shared locations."""
from __future__ import annotations

from typing import Any

from c.assembly import Instruction
from c.layout import STACKS, STACK_OF_THREAD
from c.liveness import FLAGS, list_reads_and_writes
from c.operands import Memory, Number, Operand, WHOLE_REGISTERS
from c.own_memory import load_own, store_own
from c.program import Program
from c.refused import Refused
from c.values import MASK, Clock, Question, Symbol, Value, compute_later_clock, record_earlier, list_symbols
from c.execution_path import ExecutionPath
from c.path_graph import Effect, Load, Store

RED_ZONE = 128


class Access:
    """The base of the classes up to `Step`: an instruction on a path, which it changes; what other threads can see of it is in `effects`.

    `finished_load` is set when the instruction's load is done: the path on which the instruction continues from there, if it forks later, and the effect of
    the load. `guess` is what an effect must find: a question, and the answer that does not abandon the run.
    """

    def __init__(self, program: Program, thread: int, stored_words: dict[int, dict[int, Clock]], path: ExecutionPath, instruction: Instruction) -> None:
        """Prepares an instruction on a path of a thread; `Step.execute` executes it. `stored_words` has the words that the thread has stored at each
        address so far, with their clocks; stores are added to it.
        """
        self.program, self.thread, self.stored_words, self.path, self.instruction = program, thread, stored_words, path, instruction
        self.effects: list[Effect] = []
        self.finished_load: tuple[ExecutionPath, Effect] | None = None
        self.guess: tuple[Question, bool] | None = None

    # Registers.

    def read_register(self, name: str, size: int, offset: int = 0) -> Value:
        """Returns the value of `size` bytes of a register, from the one at `offset` on; `None` if not all of them are known."""
        value, known_bytes = self.path.registers[name]
        return self.path.extract_bytes(value, size, offset) if known_bytes >= size + offset else None

    def read_register_or_number(self, operand: Any, size: int) -> Value:
        """Returns the value of a Register, or of a Number, which may be the address of a name of the assembly. Raises Refused if that is defined
        elsewhere. (`Step.execute` and c/forms.py have refused other operands.)
        """
        if isinstance(operand, Number):
            return self.program.layout.find_address(operand.symbol, operand.number) & MASK[size]
        return self.read_register(operand.name, size, operand.offset)

    def read_operand(self, operand: Operand, size: int) -> Value:
        """Returns the value of an operand, which may be in memory."""
        return self.load(self.compute_address(operand), size) if isinstance(operand, Memory) else self.read_register_or_number(operand, size)

    def write_register(self, operand: Any, size: int, value: Value) -> None:
        """Writes `size` bytes of a Register. A write of 4 bytes clears those above, and a shorter one preserves them."""
        path, name, offset = self.path, operand.name, operand.offset
        old, known_bytes = path.registers[name]
        if size >= 4:
            path.registers[name] = (value, 8 if value is not None else 0)
        elif known_bytes <= size and not offset:
            path.registers[name] = (value, size if value is not None else 0)
        elif value is None or old is None or known_bytes < size + offset:
            path.registers[name] = (None, 0)
        elif isinstance(value, Symbol) and not offset and path.apply(old, lambda it: it & MASK[known_bytes] & ~MASK[size]) == 0:
            path.registers[name] = (value, known_bytes)
        else:
            number = path.require_number(value) & MASK[size]
            path.registers[name] = (path.require_number(old) & ~(MASK[size] << 8 * offset) | number << 8 * offset, known_bytes)

    def compute_address(self, memory: Memory) -> int:
        """Returns the address of a place in memory."""
        address = self.program.layout.find_address(memory.symbol, memory.number)
        for name, scale in ((memory.base, 1), (memory.index, memory.scale)):
            if name:
                address += self.path.require_number(self.read_register(name, 8)) * scale
        return address & MASK[8]

    # Memory.

    def is_shared(self, address: int, size: int) -> bool:
        """Records an access of some bytes. Returns whether other threads access them too. Raises Refused if they are on another thread's stack."""
        if self.program.layout.is_stack(address):
            top = STACKS - STACK_OF_THREAD * self.thread
            if not top - STACK_OF_THREAD < address <= top:
                raise Refused("another thread's stack is accessed")
            return False
        return self.program.locations.record_access(self.thread, address, size)

    def is_only_writer(self, address: int, size: int) -> bool:
        """Returns whether no other thread stores to a location."""
        return self.program.locations.find_writers(address, size) <= {self.thread}

    def read_own_last_store(self, address: int, size: int) -> Value:
        """Returns the value that this thread, the only one that stores to the location, stored last."""
        return self.path.last_stored.get(address, self.program.layout.find_initial_word(address, size))

    def load(self, address: int, size: int) -> Value:
        """Returns the value that a load finds. If another thread may have stored it, the load is an effect, and what it finds is a symbol."""
        locations = self.program.locations
        if not self.is_shared(address, size):
            return load_own(self.path, self.program.layout, address, size)
        if not locations.find_writers(address, size):
            return self.program.layout.find_initial_word(address, size)
        begin, length = locations.find_location(address, size)
        if self.path.pending_value:
            value, = self.path.pending_value
            self.path.pending_value = None
        elif self.is_only_writer(begin, length):
            value = self.read_own_last_store(begin, length)
        else:
            symbol_id = self.make_symbol_id(begin, length)
            value = Symbol(symbol_id, length, 0, length)
            self.finish_load(Load(symbol_id, begin), value)
        return value if (begin, length) == (address, size) else self.path.apply(value, lambda it: it >> 8 * (address - begin) & MASK[size])

    def finish_load(self, effect: Effect, value: Value) -> None:
        """Adds the effect of a load. If the path forks later in this instruction, the load stays done, and the rest is followed again."""
        before = self.path.copy()
        before.position -= 1
        before.pending_value = (value,)
        self.finished_load = (before, effect)
        self.effects.append(effect)

    def store(self, address: int, size: int, value: Value) -> None:
        """Stores a value. It is an effect if others access the location."""
        locations = self.program.locations
        is_shared = self.is_shared(address, size)
        if not self.program.layout.is_stack(address):
            locations.record_store(self.thread, address, size)
        if not is_shared:
            store_own(self.path, address, size, value)
            return
        self.check_whole_location(address, size)
        value = self.path.extract_bytes(value, size)
        self.record_store(address, self.path.list_clocked_words(value))
        self.path.last_stored[address] = value
        self.effects.append(Store(address, value))

    def check_whole_location(self, address: int, size: int) -> None:
        """Raises Refused if a store is to a part of a location."""
        begin, length = self.program.locations.find_location(address, size)
        if (begin, length) != (address, size):
            name = self.program.layout.name_address(begin)
            raise Refused(f"a part of '{name}', of {size} bytes, is stored or locked, and all {length} bytes are accessed at once elsewhere")

    def record_store(self, address: int, words: dict[int, Clock]) -> None:
        """Records a store: its words come after all that this path has observed, and after this thread's earlier stores."""
        self.path.stores += 1
        clocks = self.stored_words.setdefault(address, {})
        for word, clock in words.items():
            clock = compute_later_clock(clock, self.path.past)
            record_earlier(clocks, word, (*clock[: self.thread], self.path.stores, *clock[self.thread + 1 :]))

    # Symbols.

    def make_symbol_id(self, address: int, size: int) -> int:
        """Returns the id of a new symbol, for what a load of a location finds."""
        path, locations = self.path, self.program.locations
        symbol_id = self.find_free_symbol_id()
        path.begin_symbol_id(symbol_id)
        if self.is_only_writer(address, size):
            clocks = path.list_clocked_words(self.read_own_last_store(address, size))
            words = frozenset(clocks)
        else:
            clocks = dict(locations.words[address])
            words = locations.list_readable_words(address, self.thread, path.stores)
        path.clocks[symbol_id] = clocks
        path.narrow(symbol_id, words)
        return symbol_id

    def find_free_symbol_id(self) -> int:
        """Returns the least id that no value refers to any more, so that paths that continue in the same way are equal."""
        self.forget_dead()
        path = self.path
        values = [*(value for value, _ in path.registers.values()), *(value for _, value in path.memory.values())]
        values += [*path.shown_values.values(), *path.last_stored.values()]
        values += [path.flags.left, path.flags.right] if path.flags else []
        taken_ids = frozenset().union(*map(list_symbols, values))
        return next(it for it in range(len(taken_ids) + 1) if it not in taken_ids)

    def forget_dead(self) -> None:
        """Forgets registers, flags and places of the stack that the thread cannot read any more."""
        path, (used, writes) = self.path, list_reads_and_writes(self.instruction)
        if self.instruction.mnemonic.startswith("jmp"):  # what comes next is not known yet
            return
        live = used | self.program.live[path.position] - writes
        for name in WHOLE_REGISTERS:
            if name not in live:
                path.registers[name] = (None, 0)
        if FLAGS not in live:
            path.flags = None
        bottom = path.resolve(path.registers["rsp"][0]) - RED_ZONE
        for area in [it for it in path.memory if self.program.layout.is_stack(it) and it < bottom]:
            del path.memory[area]
