"""Vectors of 16 bytes, which compilers use to copy a thread's own memory: moves, and a vector of zeros."""
from __future__ import annotations

from typing import Any

from c.access import Access
from c.operands import Memory, Number, Register, VECTOR
from c.refused import Refused
from c.values import Value

NOT_FOLLOWED = "vectors are only moved here: --cc 'gcc -O2 -mgeneral-regs-only' or the like makes code without them, which is other code"
# The number of bytes of each move. A move of one element preserves the others of a register, unless it is from memory.
MOVES = {"movd": 4, "movq": 8, "movss": 4, "movsd": 8, **dict.fromkeys(("movdqa", "movdqu", "movaps", "movups", "movapd", "movupd", "lddqu"), VECTOR)}
ELEMENTS = ("movss", "movsd")
ZEROS = ("pxor", "xorps", "xorpd")


class Vectors(Access):
    """Instructions on vectors."""

    def is_vector(self) -> bool:
        """Returns whether some operand of the instruction is a vector."""
        return any(isinstance(it, Register) and it.size == VECTOR for it in self.instruction.operands)

    def execute_vector_move(self) -> None:
        """Moves a vector, or a part of one. Raises Refused for a vector that is not followed."""
        name, operands = self.instruction.mnemonic, self.instruction.operands
        if name in ZEROS and operands[0] == operands[1]:
            self.path.registers[operands[1].name] = (0, VECTOR)
            return
        in_registers = len(operands) == 2 and not any(isinstance(it, Memory) for it in operands)
        if name not in MOVES or len(operands) != 2 or any(isinstance(it, Number) for it in operands) or name in ELEMENTS and in_registers:
            raise Refused(NOT_FOLLOWED)
        size, (source, target) = MOVES[name], operands
        if name == "movd" and any(isinstance(it, Register) and it.size == 8 for it in operands):  # another name of MOVQ
            size = 8
        value = self.read_moved_value(source, size)
        if isinstance(target, Memory):
            self.check_own(target, size)
            self.store(self.compute_address(target), size, value)
        elif target.size == VECTOR:
            self.path.registers[target.name] = (value, VECTOR if value is not None else 0)
        else:
            self.write_register(target, size, value)

    def read_moved_value(self, source: Any, size: int) -> Value:
        """Returns the value that is moved."""
        if isinstance(source, Memory):
            self.check_own(source, size)
            return self.load(self.compute_address(source), size)
        return self.read_register(source.name, size)

    def check_own(self, memory: Memory, size: int) -> None:
        """Raises Refused for a whole vector in memory to which other threads store: a processor need not access it at once."""
        address = self.compute_address(memory)
        if size == VECTOR and self.is_shared(address, size) and self.program.locations.find_writers(address, size):
            raise Refused(f"16 bytes at '{self.program.layout.name_address(address)}' are accessed at once, and other threads access them too")
