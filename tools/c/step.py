"""The effect of each instruction on a path."""
from __future__ import annotations

import itertools
import re
from collections.abc import Callable
from typing import Any

from c.arithmetic import LOGIC, SHIFTS, add_values, compute_result, divide, rotate_value
from c.control import Control
from c.flags import Flags, Source
from c.forms import check_form
from c.operands import Memory, Operand, Other, Register, Through
from c.own_memory import store_own
from c.refused import Refused
from c.values import MASK, Value, to_signed
from c.vectors import NOT_FOLLOWED

LETTERS = {"b": 1, "w": 2, "l": 4, "q": 8}
WITHOUT_EFFECT = re.compile(r"nop[wl]?|endbr(32|64)|pause|lfence|sfence|prefetch\w*")
CONVERSIONS = {"cbtw": 1, "cbw": 1, "cltq": 4, "cdqe": 4, "cwtl": 2, "cwde": 2, "cltd": 4, "cdq": 4, "cqto": 8, "cqo": 8}
BASES = (
    "add", "sub", "cmp", "inc", "dec", "neg", "not", "mov", "lea", "xchg", "xadd", "cmpxchg", "push", "pop", "movabs", "adc", "sbb", "bt", "bts",
    "btr", "btc", "rol", "ror", "imul", "mul", "div", "idiv", "bswap", *LOGIC, *SHIFTS,
)
# Operations whose lowest bytes depend only on the lowest bytes of their operands.
LOW_BYTES = ("add", "sub", "and", "or", "xor", "inc", "dec", "neg", "not", "shl", "sal")


class Step(Control):
    """One instruction on a path."""

    def execute(self) -> None:
        """Executes the instruction. The path's place is already the next one. Raises Refused if the instruction is not followed."""
        instruction, name = self.instruction, self.instruction.mnemonic
        if WITHOUT_EFFECT.fullmatch(name):
            return
        # Operands that are not followed.
        for operand in instruction.operands:
            inner = operand.operand if isinstance(operand, Through) else operand
            if isinstance(inner, Other):
                raise Refused(NOT_FOLLOWED if re.match(r"%[yz]mm", inner.text) else f"the operand '{inner.text}' is not followed")
        check_form(instruction)
        # By the mnemonic.
        special = SPECIAL.get(name)
        if self.is_vector():
            self.execute_vector_move()
        elif special:
            special(self)
        elif name[0] == "j":
            self.jump_if(name)
        elif name.startswith("call"):
            self.call(instruction.operands[0])
        elif name.startswith("cmov"):
            self.execute_cmovcc(name[4:])
        elif name.startswith("set"):
            self.execute_setcc(name[3:])
        elif re.fullmatch(r"mov[sz][bwl][wlq]?", name) and len(instruction.operands) == 2:
            self.execute_extension(name)
        else:
            self.execute_sized()

    # Conditions.

    def execute_setcc(self, letters: str) -> None:
        """Does SETcc."""
        value, target = int(self.evaluate_condition(letters)), self.instruction.operands[0]
        if isinstance(target, Memory):
            self.store(self.compute_address(target), 1, value)
        else:
            self.write_register(target, 1, value)

    def execute_cmovcc(self, letters: str) -> None:
        """Does CMOVcc: it loads whether or not the condition holds."""
        moved, target = self.instruction.operands
        letters = letters[:-1] if letters[-1] in "wlq" and letters not in ("l", "nl") else letters
        value = self.read_operand(moved, target.size)
        source = moved if self.evaluate_condition(letters) else target
        if isinstance(source, Memory):
            self.write_register(target, target.size, value)
        else:
            self.copy_register(source, target, target.size)

    # Moves.

    def execute_see(self) -> None:
        """Does what `lw_see` writes: the condition can mention the value by the name from here on."""
        value = self.read_register_or_number(self.instruction.operands[0], 4)
        self.path.list_words(value)
        self.path.shown_values[self.instruction.name] = value

    def execute_extension(self, name: str) -> None:
        """Does MOVZX and MOVSX."""
        source, target = self.instruction.operands
        size = LETTERS[name[4]]
        value = self.read_operand(source, size)
        self.write_register(target, target.size, self.sign_extend(value, size, target.size) if name[3] == "s" else value)

    def sign_extend(self, value: Value, size: int, target: int) -> Value:
        """Returns a value sign-extended to more bytes. A symbol whose words have no sign stays as it is."""
        if value is None or not any(word >> (8 * size - 1) for word in self.path.list_words(value)):
            return value
        return to_signed(self.path.require_number(value), size) & MASK[target]

    def execute_conversion(self) -> None:
        """Does CLTQ and similar instructions: they extend RAX."""
        name, rax = self.instruction.mnemonic, Register("rax", 8)
        size = CONVERSIONS[name]
        value = self.read_register("rax", size)
        if name in ("cbtw", "cbw", "cltq", "cdqe", "cwtl", "cwde"):
            self.write_register(rax, 2 * size, self.sign_extend(value, size, 2 * size))
        else:
            self.path.registers["rdx"] = (self.path.apply(value, lambda it: MASK[size] if to_signed(it, size) < 0 else 0), 8)

    def execute_lea(self, source: Memory, target: Register, size: int) -> None:
        """Does LEA: a symbol and a number stay a symbol."""
        if source.base and not source.index and source.symbol is None:
            self.write_register(target, size, add_values(self.path, self.read_register(source.base, size), source.number & MASK[size], size))
        else:
            self.write_register(target, size, self.compute_address(source) & MASK[size])

    # The others, whose mnemonic may end in the letter of a size.

    def execute_sized(self) -> None:
        """Executes an instruction with a size. Raises Refused for code of 32 bits."""
        base, size = self.split_mnemonic()
        operands = self.instruction.operands
        if base in ("push", "pop") and size != 8:
            raise Refused("code of 32 bits is not followed")
        # By the mnemonic without its size.
        if base == "push":
            self.push(self.read_operand(operands[0], 8))
        elif base == "pop" and isinstance(operands[0], Register):
            value = self.pop()
            self.write_register(operands[0], 8, value)
        elif base == "lea":
            self.execute_lea(operands[0], operands[1], size)
        elif base in ("div", "idiv", "mul") or base == "imul" and len(operands) == 1:
            self.execute_wide(base, size)
        elif base == "imul":
            self.execute_imul(size)
        elif base == "bswap":
            self.write_register(
                operands[0], size,
                self.path.apply(self.read_register_or_number(operands[0], size), lambda it: int.from_bytes(it.to_bytes(size, "little"), "big")),
            )
        elif base in ("mov", "movabs"):
            self.execute_mov(size)
        elif self.instruction.is_locked or base == "xchg" and any(isinstance(it, Memory) for it in operands):
            self.execute_locked(base, size)
        else:
            self.execute_operation(base, size)

    def split_mnemonic(self) -> tuple[str, int]:
        """Returns the mnemonic without the letter of its size, and the size. Raises Refused if the instruction is not followed, or its size is not
        known.
        """
        name = self.instruction.mnemonic
        sizes = [it.size for it in self.instruction.operands if isinstance(it, Register)]
        if name in BASES:
            if not sizes and name not in ("push", "pop"):
                raise Refused("the size of an instruction is not known")
            return name, sizes[-1] if sizes else 8
        if name[:-1] in BASES and name[-1] in LETTERS:
            return name[:-1], LETTERS[name[-1]]
        raise Refused(f"'{name}' is not followed")

    def execute_mov(self, size: int) -> None:
        """Does MOV."""
        source, target = self.instruction.operands
        if isinstance(source, Register):
            self.copy_register(source, target, size)
        elif isinstance(target, Memory):
            self.store(self.compute_address(target), size, self.read_operand(source, size))
        else:
            self.write_register(target, size, self.read_operand(source, size))

    def copy_register(self, source: Register, target: Any, size: int) -> None:
        """Copies a register. If only its lowest bytes are known these are copied, and not to where other threads look."""
        value, known_bytes = self.path.registers[source.name]
        if known_bytes >= size + source.offset or not known_bytes or source.offset:
            value = self.read_register_or_number(source, size)
            if isinstance(target, Memory):
                self.store(self.compute_address(target), size, value)
            else:
                self.write_register(target, size, value)
        elif isinstance(target, Register):
            self.path.registers[target.name] = (value, known_bytes) if size >= 4 else (None, 0)
        else:
            address = self.compute_address(target)
            self.store(address, size, None)
            store_own(self.path, address, known_bytes, value)

    def execute_imul(self, size: int) -> None:
        """Does IMUL with two or three operands."""
        source, target = self.instruction.operands[0], self.instruction.operands[-1]
        other = self.read_operand(
            self.instruction.operands[1], size
        ) if len(self.instruction.operands) == 3 else self.read_register_or_number(target, size)
        first = self.read_operand(source, size)
        self.write_register(target, size, self.path.apply_both(other, first, lambda x, y: x * y & MASK[size]))
        self.path.flags = None

    def execute_wide(self, base: str, size: int) -> None:
        """Does a division, or a product of twice the size: RDX and RAX together. Raises Refused for another operation."""
        if size < 4:
            raise Refused(f"'{self.instruction.mnemonic}' is not followed")
        path, operand = self.path, self.read_operand(self.instruction.operands[0], size)
        rax, rdx = Register("rax", size), Register("rdx", size)
        if base in ("div", "idiv"):
            quotient, rest = divide(
                path, self.read_register_or_number(rdx, size), self.read_register_or_number(rax, size), operand, size, base == "idiv"
            )
            self.write_register(rax, size, quotient)
            self.write_register(rdx, size, rest)
        else:
            sign = (lambda it: to_signed(it, size)) if base == "imul" else (lambda it: it)
            product = path.apply_both(self.read_register_or_number(rax, size), operand, lambda x, y: sign(x) * sign(y) & MASK[2 * size])
            self.write_register(rax, size, product & MASK[size])
            self.write_register(rdx, size, product >> 8 * size & MASK[size])
        path.flags = None

    def execute_operation(self, base: str, size: int) -> None:
        """Does an operation on a register, or on memory without a lock. Raises Refused for one that is not followed without a lock."""
        operands = self.instruction.operands
        source, target = (None, operands[0]) if len(operands) == 1 else operands
        if base in ("xadd", "cmpxchg", "bts", "btr", "btc"):
            raise Refused(f"'{base}' without a lock is not followed")
        # Without an operation.
        if base == "xchg":
            values = self.read_register_or_number(source, size), self.read_register_or_number(target, size)
            self.write_register(target, size, values[0])
            self.write_register(source, size, values[1])
            return
        if base in ("xor", "sub") and source == target:
            self.path.flags = Flags(Source.LOGIC, 0, None, size)
            self.write_register(target, size, 0)
            return
        # The operands, the result, and where it goes.
        in_memory = self.compute_address(target) if isinstance(target, Memory) else None
        right = self.read_operand(source, size if base not in SHIFTS else 1) if source is not None else 1
        left = self.read_register_or_number(target, size) if in_memory is None else self.load(in_memory, size)
        if in_memory is None and None in (left, right):
            if base == "and" and left is None and self.mask_part(target, right, size) or self.operate_on_part(base, source, target):
                return
        result, flags = self.compute_operation(base, left, right, size)
        if base not in ("cmp", "test", "bt"):
            if in_memory is None:
                self.write_register(target, size, result)
            else:
                self.store(in_memory, size, result)
        if flags is not None:
            self.path.flags = flags

    def mask_part(self, target: Register, mask: Value, size: int) -> bool:
        """Does an AND of a register whose lowest bytes are known with a number that has no others: then all bytes of the result are known. Returns whether
        the instruction was one, and is done.
        """
        value, known_bytes = self.path.registers[target.name]
        number = self.path.resolve(mask)
        if target.offset or known_bytes not in MASK or number is None or number > MASK[known_bytes]:
            return False
        result, self.path.flags = compute_result(self.path, "and", value, number, size)
        self.write_register(target, size, result)
        return True

    def operate_on_part(self, base: str, source: Operand | None, target: Register) -> bool:
        """Does an operation on registers of which only the lowest bytes are known, if those of the result depend only on these; its flags are unknown then.
        Returns whether the instruction was one, and is done.
        """
        known_bytes = [self.path.registers[it.name][1] for it in (source, target) if isinstance(it, Register)]
        has_offset = any(it.offset for it in (source, target) if isinstance(it, Register))
        if base not in LOW_BYTES or isinstance(source, Memory) or not min(known_bytes) or has_offset:
            return False
        size = 1 << min(known_bytes).bit_length() - 1
        right = 1 if source is None else self.read_register_or_number(source, 1 if base in SHIFTS else size)
        count = self.path.require_number(right) & 31 if base in SHIFTS else 0
        value = self.read_register_or_number(target, size)
        result = self.path.apply(value, lambda it: it << count & MASK[size]) if base in SHIFTS else self.compute_operation(base, value, right, size)[0]
        self.path.registers[target.name] = (result, size)
        self.path.flags = None
        return True

    def compute_operation(self, base: str, left: Value, right: Value, size: int) -> tuple[Value, Flags | None]:
        """Returns the result of an operation, and the flags that it sets. Does what `compute_result` can't: operations that read the carry flag
        or operands in memory, rotations, and the check of pointers that are subtracted. Raises Refused for BT of memory.
        """
        path = self.path
        if base in ("adc", "sbb"):
            carry, sign = int(self.evaluate_condition("b")), 1 if base == "adc" else -1
            path.flags = None
            if base == "sbb" and self.instruction.operands[0] == self.instruction.operands[1]:
                return -carry & MASK[size], Flags(Source.BIT, carry, None, size)
            return path.apply_both(left, right, lambda x, y: x + sign * (y + carry) & MASK[size]), None
        if base == "bt":
            if isinstance(self.instruction.operands[1], Memory):
                raise Refused("'bt' of memory is not followed")
            return None, Flags(Source.BIT, path.apply_both(left, right, lambda x, y: x >> y % (8 * size) & 1), None, size)
        if base in ("rol", "ror"):
            path.flags = None
            return rotate_value(path, base, left, right, size), None
        if base == "sub" and size == 8 and None not in (left, right):
            for pair in itertools.product(path.list_words(left), path.list_words(right)):
                self.program.layout.check_comparable(*pair)
        return compute_result(path, base, left, right, size)


def refuse_abort(_: Step) -> None:
    """Raises Refused for an instruction that ends a program."""
    raise Refused("a run may come to an abort")


def execute_mfence(step: Step) -> None:
    """Does MFENCE."""
    step.wait_for_empty_buffer()


SPECIAL: dict[str, Callable[[Step], None]] = {
    "see": Step.execute_see, "mfence": execute_mfence, "ret": Step.return_, "retq": Step.return_, "leave": Step.execute_leave, "leaveq": Step.execute_leave,
    "ud2": refuse_abort, "hlt": refuse_abort, "int3": refuse_abort, **{it: Step.execute_conversion for it in CONVERSIONS},
}
