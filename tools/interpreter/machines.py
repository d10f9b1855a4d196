"""The effects of statements and instructions on their thread and on memory; and memory, without caches and with them. Loads and stores
behave the same on both.
"""
from __future__ import annotations

from collections.abc import Callable, Sequence
from typing import Any, NamedTuple, Union

from interpreter.tests import Number, Refused, Statement, Test, Value, WORD, Words


def replace_item(items: Sequence[Any], index: int, item: object) -> tuple[Any, ...]:
    """Returns a tuple with one item replaced."""
    return (*items[:index], item, *items[index + 1 :])


def read_value(value: Value | None, registers: Words) -> int:
    """Returns the word of a statement's value, by its thread's registers. The statement must have one."""
    assert value is not None
    return value.word if isinstance(value, Number) else registers[value.register]


def execute_statement(statement: Statement, position: int, registers: Words, words: Words) -> tuple[int, Words, Words]:
    """Executes a source statement, which is at a position of its thread. Returns the thread's next position, its registers, and the words
    of memory.
    """
    operand_word = lambda value: read_value(value, registers)
    # Jumps.
    if statement.kind == "goto":
        return statement.target, registers, words
    if statement.kind in ("if equal", "if unequal"):
        jumps = (registers[statement.register] == operand_word(statement.value)) == (statement.kind == "if equal")
        return statement.target if jumps else position + 1, registers, words
    # All others continue at the next position.
    if statement.kind == "store":
        words = replace_item(words, statement.location, operand_word(statement.value))
    elif statement.kind == "set":
        registers = replace_item(registers, statement.register, operand_word(statement.value))
    elif statement.kind == "sum":
        registers = replace_item(registers, statement.register, (registers[statement.left] + operand_word(statement.value)) % WORD)
    else:
        old, operand = words[statement.location], operand_word(statement.value) if statement.value else None
        registers = replace_item(registers, statement.register, old)
        if statement.kind == "swap":
            words = replace_item(words, statement.location, operand)
        if statement.kind == "fetchadd":
            words = replace_item(words, statement.location, (old + operand) % WORD)
    return position + 1, registers, words


class OneMemory:
    """A memory with one word for each location."""

    def __init__(self, words: Sequence[int]) -> None:
        """Creates a memory with these words."""
        self.words = list(words)

    def load(self, _cpu: int, location: int) -> int:
        """Returns the word of a location."""
        return self.words[location]

    def store(self, _cpu: int, location: int, word: int) -> None:
        """Stores a word to a location."""
        self.words[location] = word

    def exchange(self, _cpu: int, location: int, new_of_old: Callable[[int], int]) -> int:
        """Replaces the word of a location by a function of it. Returns the old word."""
        old = self.words[location]
        self.words[location] = new_of_old(old)
        return old


class Caches:
    """Caches on a bus, by MESI or by MOESI, over memory. A line is one location's word."""

    def __init__(self, processors: int, words: Words, protocol: str) -> None:
        """Creates empty caches of some processors over the words of memory. The protocol is `mesi` or `moesi`."""
        self.memory = list(words)
        # For each processor, the letter of each location's line, and the line's word, which counts unless the letter is `I`.
        self.states = [["I"] * len(words) for _ in range(processors)]
        self.copies = [[0] * len(words) for _ in range(processors)]
        self.keeps_owner = protocol == "moesi"

    def list_other_holders(self, cpu: int, location: int) -> list[int]:
        """Returns the other caches that hold a line."""
        return [other for other in range(len(self.states)) if other != cpu and self.states[other][location] != "I"]

    def read_current_word(self, location: int) -> int:
        """Returns the word that a load finds."""
        for states, copies in zip(self.states, self.copies):
            if states[location] in "MO":
                return copies[location]
        return self.memory[location]

    def load(self, cpu: int, location: int) -> int:
        """Returns the word of a location, after its line is brought into the processor's cache."""
        if self.states[cpu][location] == "I":
            word, others = self.read_current_word(location), self.list_other_holders(cpu, location)
            for other in others:
                self.share_line(other, location)
            self.states[cpu][location] = "S" if others else "E"
            self.copies[cpu][location] = word
        return self.copies[cpu][location]

    def share_line(self, cpu: int, location: int) -> None:
        """Downgrades the line of a processor's cache, since another cache loads it: a modified line is written back, or stays owned by MOESI."""
        state = self.states[cpu][location]
        if state == "M" and self.keeps_owner:
            self.states[cpu][location] = "O"
        elif state in "ME":
            if state == "M":
                self.memory[location] = self.copies[cpu][location]
            self.states[cpu][location] = "S"

    def store(self, cpu: int, location: int, word: int) -> None:
        """Stores a word to a line, which the processor's cache then holds exclusively."""
        self.exchange(cpu, location, lambda _old: word)

    def exchange(self, cpu: int, location: int, new_of_old: Callable[[int], int]) -> int:
        """Brings a line into the processor's cache exclusively, and replaces its word by a function of it. Returns the old word."""
        old = self.copies[cpu][location] if self.states[cpu][location] == "E" else self.read_current_word(location)
        for other in self.list_other_holders(cpu, location):
            self.states[other][location] = "I"
        self.states[cpu][location] = "M"
        self.copies[cpu][location] = new_of_old(old)
        return old

    def evict(self, cpu: int, location: int) -> None:
        """Writes a line back if it is modified, and removes it from the processor's cache. Raises Refused if the cache does not hold the line."""
        if self.states[cpu][location] == "I":
            raise Refused(7, "NotHeld")
        if self.states[cpu][location] in "MO":
            self.memory[location] = self.copies[cpu][location]
        self.states[cpu][location] = "I"


Memory = Union[OneMemory, Caches]


class Processor(NamedTuple):
    """A position, registers, the zero flag, and the store buffer: pairs of a location and a word, the oldest first."""

    position: int
    registers: Words
    zero: bool = False
    buffer: tuple[tuple[int, int], ...] = ()

    def set_register(self, register: int, word: int) -> Processor:
        """Returns the processor with another word in a register, at the next position."""
        return self._replace(position=self.position + 1, registers=replace_item(self.registers, register, word))


def execute_instruction(instruction: Statement, cpu: int, processor: Processor, memory: Memory) -> Processor:
    """Executes an instruction of a processor. Returns the processor after it. Its loads and exchanges go to the memory. Raises Refused if MFENCE has
    to wait.
    """
    if instruction.kind == "mfence":
        if processor.buffer:
            raise Refused(4, "FenceWaits")
        return processor._replace(position=processor.position + 1)
    if instruction.kind in ("xchg", "xadd"):
        return execute_locked(instruction, cpu, processor, memory)
    if instruction.kind in ("je", "jne", "jmp"):
        jumps = instruction.kind == "jmp" or processor.zero == (instruction.kind == "je")
        return processor._replace(position=instruction.target if jumps else processor.position + 1)
    if instruction.kind == "load":
        own_words = [word for location, word in processor.buffer if location == instruction.location]
        return processor.set_register(instruction.register, own_words[-1] if own_words else memory.load(cpu, instruction.location))
    word = read_value(instruction.value, processor.registers)
    if instruction.kind == "store":
        return processor._replace(position=processor.position + 1, buffer=processor.buffer + ((instruction.location, word),))
    if instruction.kind == "set":
        return processor.set_register(instruction.register, word)
    if instruction.kind == "add":
        total = (processor.registers[instruction.register] + word) % WORD
        return processor.set_register(instruction.register, total)._replace(zero=total == 0)
    return processor._replace(position=processor.position + 1, zero=processor.registers[instruction.register] == word)


def execute_locked(instruction: Statement, cpu: int, processor: Processor, memory: Memory) -> Processor:
    """Executes XCHG or LOCK XADD with a location. Returns the processor after it. Raises Refused if the store buffer is not empty."""
    if processor.buffer:
        raise Refused(5, "SwapWaits")
    operand = processor.registers[instruction.register]
    if instruction.kind == "xchg":
        return processor.set_register(instruction.register, memory.exchange(cpu, instruction.location, lambda _old: operand))
    old = memory.exchange(cpu, instruction.location, lambda old: (old + operand) % WORD)
    return processor.set_register(instruction.register, old)._replace(zero=(old + operand) % WORD == 0)


def execute_next(test: Test, cpu: int, processor: Processor, memory: Memory) -> Processor:
    """Executes the next instruction of a processor. Returns the processor after it. Raises Refused if there is none."""
    if processor.position == len(test.threads[cpu]):
        raise Refused(3, "Ended")
    return execute_instruction(test.threads[cpu][processor.position], cpu, processor, memory)


def drain_oldest(cpu: int, processor: Processor, memory: Memory) -> Processor:
    """Drains the oldest entry of a processor's store buffer to memory. Returns the processor after it. Raises Refused if the buffer is empty."""
    if not processor.buffer:
        raise Refused(6, "BufferEmpty")
    memory.store(cpu, *processor.buffer[0])
    return processor._replace(buffer=processor.buffer[1:])
