"""Decides whether the words of 64 bits of a test fit into the 32 bits of a word of lw.

An instruction of 64 bits does in 32 bits what it does in 64 if the words that it reads and the word that it writes are numbers below 2 to
the 32. So each register and each location gets a range of the words that it may have, and an instruction of 64 bits is refused if a word
may lie outside. An instruction of 32 bits wraps round as on a processor, and its register's upper half becomes 0.

A register's range is None if its upper half may differ from 0: if it begins with a negative number, or holds an address. No instruction of
64 bits may read it as a word. A location that some instruction accesses by 64 bits, or whose type says so, is wide: its words fit at all
times. An instruction without a size has both sizes there.

The ranges of locations are found in rounds. In a round each thread reads the initial words, those that it has stored before, and those that
the other threads stored in the round before. Each store is done once at most, since loops are written down. So as many rounds as there are
stores have all words of all runs; and an instruction that loads and stores reads no word that results from its own, so for it one round
less has all.
"""
from __future__ import annotations

from collections.abc import Callable, Iterable
from dataclasses import dataclass, field
from typing import Any, Dict, Optional, Tuple

from herd.cells import AddressOf, InMemory, Instruction, Operand
from herd.flow import GIVE_UP, compute_held_addresses, find_address, find_location, list_successors
from herd.frame import Frame, Negative
from herd.text import Refused
from plain import LocationSite, Number, Register, RegisterSite, Site

Range = Tuple[int, int]  # the least and the greatest word
Registers = Dict[str, Optional[Range]]
Words = Dict[str, Range]
LARGEST = 2**32 - 1
LARGEST_SIGNED = 2**31 - 1
ANY: Range = (0, LARGEST)


def merge_optional_ranges(first: Range | None, second: Range | None) -> Range | None:
    """Returns the range of what is in one of two ranges. `None` if one of them is not known."""
    return merge_ranges(first, second) if first and second else None


def merge_ranges(first: Range, second: Range) -> Range:
    """Returns the range of what is in one of two ranges."""
    return min(first[0], second[0]), max(first[1], second[1])


def merge_registers(first: Registers | None, second: Registers) -> Registers:
    """Returns the ranges of registers where two paths meet. `first` is `None` if only the second path is known so far."""
    if first is None:
        return dict(second)
    return {name: merge_optional_ranges(first.get(name, (0, 0)), second.get(name, (0, 0))) for name in {*first, *second}}


class Thread:
    """The code of a thread, and what is known of its registers: which hold addresses at first, and the ranges of the others."""

    def __init__(self, code: list[Instruction], addresses: dict[str, str], registers: Registers) -> None:
        """Finds where the registers of a thread hold addresses."""
        self.code = code
        self.held = compute_held_addresses(code, addresses)
        self.registers = registers

    def list_accesses(self) -> Iterable[tuple[Instruction, str]]:
        """Yields the instructions that access a location, each with its location. LEA accesses none."""
        for instruction, addresses in zip(self.code, self.held):
            for operand in instruction.operands:
                location = find_location(operand, addresses) if isinstance(operand, InMemory) and instruction.mnemonic != "LEA" else None
                if location:
                    yield instruction, location


@dataclass
class Memory:
    """The words that a thread may find in memory: those of others (`words`; for an instruction that loads and stores `words_for_updates`), and its
    own; and the number of its stores.
    """

    words: Words
    words_for_updates: Words
    own: Words = field(default_factory=dict)
    stores: int = 0

    def read_location(self, location: str, is_update: bool) -> Range:
        """Returns the range of the words that a load of a location finds; `is_update` says whether the instruction also stores."""
        words = (self.words_for_updates if is_update else self.words).get(location, (0, 0))
        return merge_ranges(words, self.own.get(location, words))

    def add_stores(self, stored: list[tuple[str, Range]]) -> None:
        """Records that the thread may have stored some words."""
        self.stores += len(stored)
        for location, words in stored:
            self.own[location] = merge_ranges(self.own.get(location, words), words)


class Step:
    """The effect of one instruction on ranges."""

    def __init__(self, instruction: Instruction, addresses: dict[str, str], registers: Registers, memory: Memory, wide: set[str]) -> None:
        """Prepares an instruction on these registers and this memory. `wide` are the locations of 64 bits."""
        self.instruction = instruction
        self.held = addresses
        self.registers = dict(registers)
        self.memory = memory
        self.stored: list[tuple[str, Range]] = []
        self.bits = instruction.bits or (64 if any(self.find_location(operand) in wide for operand in instruction.operands) else 32)

    def make_refusal(self, cause: str) -> Refused:
        """Returns the refusal of the instruction, with its cause."""
        return Refused(f"{cause}, and a word of lw has 32 bits", self.instruction.offset)

    def find_location(self, operand: Operand) -> str | None:
        """Returns the location of an operand, if it is one. `None` if it is none."""
        return find_location(operand, self.held) if isinstance(operand, InMemory) else None

    def read_register(self, name: str, bits: int) -> Range:
        """Returns the words that the lowest bits of a register may have. Raises Refused if 64 bits are read that may not fit into 32."""
        register = self.registers.get(name, (0, 0))
        if register is None and bits == 64:
            raise self.make_refusal(f"it reads 64 bits of {name}, which may not fit into 32")
        return register or ANY

    def read_operand(self, operand: Operand) -> Range:
        """Returns the words that an operand may have. Raises Refused for a number that no instruction of 64 bits has."""
        if isinstance(operand, InMemory):
            mnemonic = self.instruction.mnemonic
            is_update = mnemonic in ("XCHG", "XADD", "CMPXCHG") or operand is self.instruction.operands[0] and mnemonic != "CMP"
            return self.memory.read_location(self.find_location(operand) or "", is_update)
        if isinstance(operand, Register):
            return self.read_register(operand.register, self.bits)
        assert isinstance(operand, Number)  # an address is moved, and no instruction reads it as a word
        if self.bits == 64 and self.instruction.number == -1 and self.instruction.mnemonic in ("AND", "TEST"):
            return operand.word, operand.word  # which leaves all 64 bits as they are
        if self.bits == 64 and self.instruction.number < 0:
            raise self.make_refusal(f"it extends the sign of {self.instruction.number} to 64 bits")
        is_any_number = self.instruction.mnemonic == "MOV" and isinstance(self.instruction.operands[0], Register)
        if self.bits == 64 and self.instruction.number > LARGEST_SIGNED and not is_any_number:
            raise self.make_refusal(f"no instruction of 64 bits has the number {self.instruction.number}: it would extend a sign")
        return operand.word, operand.word

    def write_operand(self, operand: Operand, words: Any) -> None:
        """Records that an operand gets some word of a range."""
        if isinstance(operand, Register):
            self.registers[operand.register] = words
        elif location := self.find_location(operand):
            self.stored.append((location, words))

    def wrap_range(self, words: Range, bits: int) -> Range:
        """Returns the words of a sum, which wraps in 32 bits, and must fit in 64. Raises Refused if one does not."""
        if 0 <= words[0] and words[1] <= LARGEST:
            return words
        if bits == 64:
            raise self.make_refusal(f"it works on 64 bits, and its result may be {'negative' if words[0] < 0 else 'as large as %d' % words[1]}")
        return ANY

    def execute(self) -> None:
        """Executes the instruction."""
        ACTIONS[self.instruction.mnemonic](self)

    def execute_no_effect(self) -> None:
        """Executes an instruction that reads and writes no word."""

    def execute_comparison(self) -> None:
        """Executes a comparison, which only reads words."""
        for operand in self.instruction.operands:
            self.read_operand(operand)

    def execute_mov(self) -> None:
        """Executes a move. An address may be moved by 64 bits."""
        target, source = self.instruction.operands
        if isinstance(target, Register) and find_address(source, self.held):
            self.registers[target.register] = None
        else:
            self.write_operand(target, self.read_operand(source))

    def execute_lea(self) -> None:
        """Executes LEA: an address, or a sum of as many bits as both the address and the result have."""
        target, address = self.instruction.operands
        assert isinstance(target, Register) and isinstance(address, InMemory)  # the reader takes no others
        if find_location(address, self.held):
            self.registers[target.register] = None
            return
        bits = min(self.bits, self.instruction.address_bits or 64)
        parts = [self.read_register(name, bits) for name in address.registers]
        least, greatest = sum(it[0] for it in parts) + address.number, sum(it[1] for it in parts) + address.number
        self.registers[target.register] = self.wrap_range((least, greatest), bits)

    def execute_sum(self) -> None:
        """Executes a sum, or the difference with a number."""
        target, name = self.instruction.operands[0], self.instruction.mnemonic
        if name == "SUB" and self.instruction.operands[1] == target:
            return self.write_operand(target, (0, 0))
        added = self.compute_addend(name)
        old = self.read_operand(target)
        self.write_operand(target, self.wrap_range((old[0] + added[0], old[1] + added[1]), self.bits))

    def compute_addend(self, name: str) -> Range:
        """Returns the number that ADD, SUB, INC or DEC adds."""
        if name in ("INC", "DEC"):
            return (1, 1) if name == "INC" else (-1, -1)
        if not isinstance(self.instruction.operands[1], Number) or self.instruction.number >= 0:
            read = self.read_operand(self.instruction.operands[1])
            return read if name == "ADD" else (-read[1], -read[0])
        number = self.instruction.number if name == "ADD" else -self.instruction.number
        return number, number  # of a negative number

    def execute_bits(self) -> None:
        """Executes XOR, AND or OR, which preserve the word or give 0."""
        (target, source), name = self.instruction.operands, self.instruction.mnemonic
        if target == source and name == "XOR" or source == Number(0) and name == "AND":
            return self.write_operand(target, (0, 0))
        self.read_operand(source)
        self.write_operand(target, self.read_operand(target))

    def execute_xchg(self) -> None:
        """Executes an exchange."""
        first, second = self.instruction.operands
        first_words, second_words = self.read_operand(first), self.read_operand(second)
        self.write_operand(first, second_words)
        self.write_operand(second, first_words)

    def execute_xadd(self) -> None:
        """Executes XADD: a sum, and the old word in the register."""
        target, register = self.instruction.operands
        old, added = self.read_operand(target), self.read_operand(register)
        self.write_operand(register, old)
        self.write_operand(target, self.wrap_range((old[0] + added[0], old[1] + added[1]), self.bits))

    def execute_cmpxchg(self) -> None:
        """Executes CMPXCHG: the location may get the new word, and EAX the old one."""
        target, new = self.instruction.operands
        old_word, expected = self.read_operand(target), Register("EAX")
        self.read_operand(expected)
        self.write_operand(target, merge_optional_ranges(self.read_operand(new), old_word))
        self.write_operand(expected, merge_optional_ranges(self.registers.get("EAX", (0, 0)), old_word))

    def execute_cmov(self) -> None:
        """Executes a move that may be skipped; in 32 bits the upper half becomes 0 then too."""
        target, source = self.instruction.operands
        assert isinstance(target, Register)  # the rewriting refuses others
        old = self.registers.get(target.register, (0, 0))
        self.write_operand(target, merge_optional_ranges(old or (ANY if self.bits == 32 else None), self.read_operand(source)))


ACTIONS: dict[str, Callable[[Step], None]] = {
    "MOV": Step.execute_mov,
    "LEA": Step.execute_lea,
    "XCHG": Step.execute_xchg,
    "XADD": Step.execute_xadd,
    "CMPXCHG": Step.execute_cmpxchg,
    **dict.fromkeys(("CMOVE", "CMOVNE"), Step.execute_cmov),
    **dict.fromkeys(("ADD", "SUB", "INC", "DEC"), Step.execute_sum),
    **dict.fromkeys(("AND", "OR", "XOR"), Step.execute_bits),
    **dict.fromkeys(("CMP", "TEST"), Step.execute_comparison),
    **dict.fromkeys(("MFENCE", "LFENCE", "SFENCE", "NOP", "PAUSE", "JMP", "JE", "JNE"), Step.execute_no_effect),
}


def follow_thread(thread: Thread, memory: Memory, wide: set[str]) -> Registers:
    """Follows a thread, which stores into the memory. Returns the ranges of its registers at its end."""
    before: list[Registers | None] = [None] * (len(thread.code) + 1)
    before[0], end = dict(thread.registers), None
    for index, instruction in enumerate(thread.code):
        registers = before[index]
        if registers is None:
            continue
        step = Step(instruction, thread.held[index], registers, memory, wide)
        step.execute()
        memory.add_stores(step.stored)
        for follower in list_successors(instruction, index):
            if follower == GIVE_UP:
                end = merge_registers(end, step.registers)
            else:
                before[follower] = merge_registers(before[follower], step.registers)
    if before[-1] is not None:
        end = merge_registers(end, before[-1])
    return end or {}


class Widths:
    """The ranges of all registers and locations of a test, each the least and the greatest word."""

    def __init__(self, frame: Frame, codes: list[list[Instruction]]) -> None:
        """Finds the ranges of a test's words. Raises Refused if one may not fit."""
        self.frame = frame
        self.threads = [self.make_thread(number, code) for number, code in enumerate(codes)]
        self.check_sizes()
        self.wide = {name for thread in self.threads for it, name in thread.list_accesses() if it.bits == 64}
        self.wide |= {it.site.location for it in frame.entries if isinstance(it.site, LocationSite) and it.bits == 64}
        self.words, self.ends = self.compute_ranges()
        self.check_negatives()
        self.check_observed()

    def make_thread(self, number: int, code: list[Instruction]) -> Thread:
        """Returns a thread, with the ranges of its registers at the start."""
        of_thread = lambda site: isinstance(site, RegisterSite) and site.thread == number
        values = {it.site.register: it.value for it in self.frame.entries if isinstance(it.site, RegisterSite) and of_thread(it.site)}
        addresses = {name: it.location for name, it in values.items() if isinstance(it, AddressOf)}
        registers: Registers = {name: (it.word, it.word) if isinstance(it, Number) else None for name, it in values.items()}
        for negative in self.frame.negatives:
            if negative.is_initial and isinstance(negative.site, RegisterSite) and of_thread(negative.site) and negative.bits == 64:
                registers[negative.site.register] = None
        return Thread(code, addresses, registers)

    def check_sizes(self) -> None:
        """Raises Refused if an instruction accesses a location of 32 bits by 64."""
        narrow = {it.site.location for it in self.frame.entries if isinstance(it.site, LocationSite) and it.bits == 32}
        for thread in self.threads:
            for instruction, name in thread.list_accesses():
                if instruction.bits == 64 and name in narrow:
                    raise Refused(f"it accesses 64 bits of '{name}', whose type has 32", instruction.offset)

    def compute_ranges(self) -> tuple[Words, list[Registers]]:
        """Returns the ranges of all locations, and of each thread's registers at its end: in each round the threads find what the others stored in
        the round before, until nothing changes. Raises Refused if a word may not fit.
        """
        values = {it.site.location: it.value for it in self.frame.entries if isinstance(it.site, LocationSite)}
        initial = {name: (it.word, it.word) for name, it in values.items() if isinstance(it, Number)}
        seen = [initial] * len(self.threads)
        memories, ends = self.run_round(seen, seen)
        for remaining_rounds in reversed(range(sum(it.stores for it in memories))):
            before, seen = seen, [self.merge_words(initial, [*memories[:index], *memories[index + 1 :]]) for index in range(len(memories))]
            if seen == before:
                break
            memories, ends = self.run_round(seen, seen if remaining_rounds else before)
        return self.merge_words(initial, memories), ends

    def run_round(self, seen: list[Words], seen_by_updates: list[Words]) -> tuple[list[Memory], list[Registers]]:
        """Returns the stores of each thread, and its registers at its end, if it finds some words of the others: `seen`, or by an instruction that
        loads and stores `seen_by_updates`.
        """
        memories = [Memory(*words) for words in zip(seen, seen_by_updates)]
        return memories, [follow_thread(thread, memory, self.wide) for thread, memory in zip(self.threads, memories)]

    @staticmethod
    def merge_words(initial: Words, memories: list[Memory]) -> Words:
        """Returns the initial words, and those that some threads may have stored."""
        words = dict(initial)
        for name, stored in (it for memory in memories for it in memory.own.items()):
            words[name] = merge_ranges(words.get(name, (0, 0)), stored)
        return words

    def find_range(self, site: Site) -> Range | None:
        """Returns the words that a site may have at the end. `None` if a register may hold any word."""
        if isinstance(site, LocationSite):
            return self.words.get(site.location, (0, 0))
        return self.ends[site.thread].get(site.register, (0, 0))

    def check_negatives(self) -> None:
        """Raises Refused if a negative number does not mean the same in 32 and in 64 bits."""
        for negative in self.frame.negatives:
            is_wide = negative.site.location in self.wide if isinstance(negative.site, LocationSite) else negative.bits == 64
            if not is_wide or negative.is_initial and isinstance(negative.site, RegisterSite):
                continue
            if negative.is_initial and isinstance(negative.site, LocationSite):
                cause = f"'{negative.site.location}' has 64 bits, and begins with a negative number, and a word of lw has 32 bits"
                raise Refused(cause, negative.offset)
            site_range = self.find_range(negative.site)
            if site_range is None or site_range[1] > LARGEST_SIGNED:
                raise Refused(f"a negative number is compared with 64 bits: {self.spell_in_32_bits(negative)}", negative.offset)

    @staticmethod
    def spell_in_32_bits(negative: Negative) -> str:
        """Returns how a comparison with a negative number of 32 bits is written."""
        is_register = isinstance(negative.site, RegisterSite)
        return "write it modulo 2 to the 32" + (", or the register by its name of 32 bits" if is_register else "")

    def check_observed(self) -> None:
        """Raises Refused if an observed register may have a word at the end that does not fit into 32 bits."""
        for site, offset in [*self.frame.listed, *self.frame.condition_sites]:
            if self.find_range(site) is None:
                assert isinstance(site, RegisterSite)  # a location always has a range
                raise Refused(f"{site.thread}:{site.register} may end with a word of 64 bits that does not fit into 32", offset)
