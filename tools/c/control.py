"""Conditions, jumps and calls: where a path continues, and the stack that calls use."""
from __future__ import annotations

from typing import Any

from c.flags import Source, evaluate_condition, parse_condition, require_readable
from c.layout import CODE, HEAP, HEAP_OF_THREAD, LARGEST_BLOCK
from c.locked import Locked
from c.operands import Label, Operand, Through
from c.own_memory import load_own, store_own
from c.refused import Refused
from c.values import MASK, Value

ALLOCATORS = ("malloc", "calloc", "_Znwm", "_Znam")
FREERS = ("free", "_ZdlPv", "_ZdlPvm", "_ZdaPv", "_ZdaPvm")
# Registers that a function may leave with any content.
LEFT_OPEN = ("rax", "rcx", "rdx", "rsi", "rdi", "r8", "r9", "r10", "r11")


class Control(Locked):
    """Conditions, jumps and calls."""

    # Flags.

    def evaluate_condition(self, letters: str) -> bool:
        """Returns whether the condition that the letters of a mnemonic name holds. Raises Ask if that is not known, at which the path forks, and
        Refused if the flags are not known.
        """
        name, expected = parse_condition(letters)
        path = self.path
        flags = require_readable(path.flags, name)
        # Conditions that need only one comparison, so that few words have to be distinguished.
        if flags.source in (Source.EXCHANGE, Source.BIT):
            return path.require_number(flags.left) == expected
        if name == "e" and flags.source is Source.DIFFERENCE:
            return path.are_equal(flags.left, flags.right, flags.size) == expected
        if name == "e" and flags.source is Source.SUM and (right_number := path.resolve(flags.right)) is not None:
            return path.are_equal(flags.left, -right_number & MASK[flags.size], flags.size) == expected
        mask, right = MASK[flags.size], 0 if flags.right is None else flags.right

        def work(left: int, right: int) -> bool:
            """Returns the condition on two words."""
            if flags.source is Source.DIFFERENCE and flags.size == 8:
                self.program.layout.check_comparable(left, right)
            return evaluate_condition(name, flags.source, left & mask, right & mask, flags.size)

        if flags.source in (Source.LOGIC, Source.SHIFT) and name == "e":
            return path.are_equal(flags.left, 0, flags.size) == expected
        return path.apply_both(flags.left, right, work) == expected

    # Jumps and calls.

    def jump_if(self, name: str) -> None:
        """Jumps, if the condition holds. Raises Refused for another jump."""
        if not name.startswith("jmp"):
            if "cx" in name:
                raise Refused(f"'{name}' is not followed")
            if not self.evaluate_condition(name[1:]):
                return
        self.go_to(self.find_target(self.instruction.operands[0]))

    def find_target(self, destination: Any) -> int:
        """Returns the index of the instruction that a jump or a call targets. Its operand is a label, or what `*` is written before. Raises Refused
        if it is in another file, or no code.
        """
        if isinstance(destination, Through):
            index = self.path.require_number(self.read_operand(destination.operand, 8)) - CODE
            if not 0 <= index < len(self.program.assembly.code):
                raise Refused("a jump leads to no code")
            return index
        label = self.program.assembly.resolve_alias(destination.name)
        if label not in self.program.assembly.labels:
            raise Refused(f"'{label}' is called or jumped to, and is elsewhere")
        return self.program.assembly.labels[label]

    def go_to(self, index: int) -> None:
        """Continues elsewhere. A backward jump within a call is one more pass through a loop."""
        if index < self.path.position and (self.path.call, index) in self.path.passes:
            self.path.has_jumped_back = True
        self.path.position = index

    def call(self, destination: Operand) -> None:
        """Calls: the return address is pushed onto the stack."""
        if isinstance(destination, Label) and destination.name in ALLOCATORS:
            return self.call_allocator(destination.name)
        if isinstance(destination, Label) and destination.name in FREERS:
            self.program.notes.add(f"{destination.name} does nothing: memory is not given out again")
            return None
        index, path = self.find_target(destination), self.path
        address = self.push(CODE + path.position)
        path.callers[address] = path.call
        path.calls += 1
        path.call = path.calls
        path.position = index
        return None

    def return_(self) -> None:
        """Returns from a call. Raises Refused if it takes arguments from the stack."""
        if self.instruction.operands:
            raise Refused("a return that takes arguments from the stack is not followed")
        path = self.path
        address = path.require_number(self.read_register("rsp", 8))
        path.position = path.require_number(self.pop()) - CODE
        path.call = path.callers.get(address, 0)

    def call_allocator(self, name: str) -> None:
        """Does a call of malloc or the like. Raises Refused if the block is too large."""
        path = self.path
        sizes = [path.require_number(self.read_register(it, 8)) for it in (("rdi", "rsi") if name == "calloc" else ("rdi",))]
        size = sizes[0] * sizes[-1] if name == "calloc" else sizes[0]
        path.blocks += 1
        if size > LARGEST_BLOCK // 2 or path.blocks >= HEAP_OF_THREAD // LARGEST_BLOCK:
            raise Refused(f"{name} of {size} bytes is too much here")
        for register in LEFT_OPEN:
            path.registers[register] = (None, 0)
        path.flags = None
        path.registers["rax"] = (HEAP + HEAP_OF_THREAD * self.thread + LARGEST_BLOCK * path.blocks, 8)
        self.program.notes.add(f"{name} succeeds, and gives memory that nobody else has and that begins with 0")

    def push(self, value: Value) -> int:
        """Pushes 8 bytes onto the stack. Returns their address."""
        address = self.path.require_number(self.read_register("rsp", 8)) - 8
        self.path.registers["rsp"] = (address, 8)
        self.is_shared(address, 8)
        store_own(self.path, address, 8, value)
        return address

    def pop(self) -> Value:
        """Pops 8 bytes from the stack."""
        address = self.path.require_number(self.read_register("rsp", 8))
        self.is_shared(address, 8)
        self.path.registers["rsp"] = (address + 8, 8)
        return load_own(self.path, self.program.layout, address, 8)

    def execute_leave(self) -> None:
        """Does LEAVE."""
        self.path.registers["rsp"] = (self.path.require_number(self.read_register("rbp", 8)), 8)
        value = self.pop()
        self.path.registers["rbp"] = (value, 8 if value is not None else 0)
