"""The instructions of a test in herd's form, each as instructions of lw. Registers and locations still have their names.

A rewriting that sets the zero flag although the instruction does not, or does not set it although the instruction does, is used only if no
later branch reads the flag.
"""
from __future__ import annotations

from collections.abc import Callable


from herd.cells import AddressOf, InMemory, Instruction, Operand
from herd.flow import EITHER, GIVE_UP, NUMBER, find_address, find_location
from herd.text import Refused
from plain import Number, Register, Statement, Value

# The register that a rewriting may use, and the one that CMPXCHG compares.
SCRATCH, COMPARED = "(scratch)", "EAX"
MINUS_ONE = 2**32 - 1
FENCE_ALONE = "is left out: on write-back memory it orders nothing that x86-TSO does not order already"
SUCCEEDS, FAILS = True, False


def as_in_memory(operand: Operand) -> InMemory:
    """Returns an operand of which it is known that it is in memory."""
    assert isinstance(operand, InMemory)
    return operand


class Rewriter:
    """A rewriter of one instruction of a thread."""

    def __init__(self, instruction: Instruction, index: int, addresses: dict[str, str], is_flag_read: bool, guess: bool | None) -> None:
        """Prepares the instruction at an index. `addresses` says which registers hold the address of which location, `is_flag_read` whether a later branch
        may read its zero flag, and `guess` whether a CMPXCHG succeeds.
        """
        self.instruction = instruction
        self.index = index
        self.held = addresses
        self.is_flag_read = is_flag_read
        self.guess = guess
        self.notes: list[tuple[int, str]] = []

    def make_refusal(self, cause: str) -> Refused:
        """Returns the refusal of the instruction, with its cause."""
        return Refused(cause, self.instruction.offset)

    def rewrite_statements(self) -> list[Statement]:
        """Returns the instructions of lw that do what the instruction does. Raises Refused if it is not converted."""
        if self.instruction.is_locked:
            return self.rewrite_locked()
        return REWRITINGS[self.instruction.mnemonic](self)

    # Operands.

    def rewrite_value(self, operand: Operand) -> Value:
        """Returns a register or a number as a value. Raises Refused if it is in memory, or is or may hold an address."""
        if isinstance(operand, InMemory):
            raise self.make_refusal("an instruction has one location at most")
        if isinstance(operand, AddressOf):
            raise self.make_refusal(f"the address of '{operand.location}' is used as a word, and words of lw are numbers")
        if isinstance(operand, Register):
            held_address = self.held.get(operand.register, NUMBER)
            if held_address not in (NUMBER, EITHER):
                raise self.make_refusal(
                    f"{operand.register} holds the address of '{held_address}', which is used as a word, and words of lw are numbers"
                )
            if held_address == EITHER:
                raise self.make_refusal(f"{operand.register} may hold an address or a number")
        return operand

    def rewrite_register(self, operand: Operand) -> str:
        """Returns a register that is read as a word. Raises Refused if it is none."""
        if not isinstance(operand, Register):
            raise self.make_refusal("expected a register")
        self.rewrite_value(operand)
        return operand.register

    def rewrite_location(self, operand: InMemory) -> str:
        """Returns the location of an operand in memory. Raises Refused if it is not known."""
        location = find_location(operand, self.held)
        if not location or location in (NUMBER, EITHER):
            raise self.make_refusal("the address is computed, or not known: use one location for each")
        return location

    def make_load(self, operand: InMemory) -> Statement:
        """Returns the load of a location into the scratch register."""
        return Statement("load", SCRATCH, self.rewrite_location(operand))

    def clear_register(self, register: str) -> list[Statement]:
        """Returns instructions that set a register to 0, and the zero flag if it is read."""
        return [Statement("set", register, value=Number(0)), *self.set_flag(register)]

    def set_flag(self, register: str) -> list[Statement]:
        """Returns instructions that set the zero flag by whether a register is 0; none unless the flag is read."""
        return [Statement("cmp", register, value=Number(0))] if self.is_flag_read else []

    def check_flag_unread(self) -> None:
        """Raises Refused if a later branch reads the zero flag, which an addition of lw would set and the instruction does not."""
        if self.is_flag_read:
            raise self.make_refusal(f"{self.instruction.mnemonic} leaves the flags alone, a sum of lw sets them, and a later branch reads them")

    # Instructions that are not locked.

    def rewrite_mov(self) -> list[Statement]:
        """Rewrites MOV: a store, a load, or a register that is set. Raises Refused for other operands."""
        target, source = self.instruction.operands
        if isinstance(target, InMemory):
            return [Statement("store", location=self.rewrite_location(target), value=self.rewrite_value(source))]
        if not isinstance(target, Register):
            raise self.make_refusal("expected a register or a location")
        if isinstance(source, InMemory):
            return [Statement("load", target.register, self.rewrite_location(source))]
        return [] if find_address(source, self.held) else [Statement("set", target.register, value=self.rewrite_value(source))]

    def rewrite_lea(self) -> list[Statement]:
        """Rewrites LEA: the address of a location, which is known from here on, or a sum. Raises Refused if an address is computed."""
        destination, address = self.instruction.operands
        assert isinstance(destination, Register) and isinstance(address, InMemory)  # the reader takes no others
        if find_location(address, self.held):
            return []
        if address.location or not address.registers:
            raise self.make_refusal("the address is computed: use one location for each")
        sum_register, first, *others = destination.register, *(self.rewrite_register(Register(it)) for it in address.registers)
        if sum_register in others:
            first, others = sum_register, [first]
        values: list[Value] = [*map(Register, others), *[Number(address.number % 2**32)] * bool(address.number)]
        if values:
            self.check_flag_unread()
        copies = [Statement("set", sum_register, value=Register(first))] * (sum_register != first)
        return copies + [Statement("add", sum_register, value=value) for value in values]

    def rewrite_sum(self, value: Operand) -> list[Statement]:
        """Rewrites a sum into the first operand. If that is a location, it takes a load and a store, between which others may act."""
        target = self.instruction.operands[0]
        if isinstance(target, InMemory):
            added = [self.make_load(target), Statement("add", SCRATCH, value=self.rewrite_value(value))]
            return [*added, Statement("store", location=self.rewrite_location(target), value=Register(SCRATCH))]
        if isinstance(value, InMemory):
            return [self.make_load(value), Statement("add", self.rewrite_register(target), value=Register(SCRATCH))]
        return [Statement("add", self.rewrite_register(target), value=self.rewrite_value(value))]

    def rewrite_sub(self) -> list[Statement]:
        """Rewrites a difference: a sum if a number is subtracted, and 0 if a register is subtracted from itself. Raises Refused for any other
        difference.
        """
        target, source = self.instruction.operands
        if isinstance(source, Number):
            return self.rewrite_sum(Number(-source.word % 2**32))
        if target == source and isinstance(target, Register):
            return self.clear_register(target.register)
        raise self.make_refusal("a difference of two words is no sum of lw's")

    def rewrite_bits(self) -> list[Statement]:
        """Rewrites XOR, AND and OR, if they preserve a register or give 0. Raises Refused if they do neither."""
        (target, source), name = self.instruction.operands, self.instruction.mnemonic
        if isinstance(target, Register) and (target == source and name == "XOR" or source == Number(0) and name == "AND"):
            return self.clear_register(target.register)
        if isinstance(target, Register) and (target == source or source == Number(0) or source == Number(MINUS_ONE) and name == "AND"):
            return self.set_flag(self.rewrite_register(target))
        raise self.make_refusal(f"{name} of two words is no sum of lw's: only that of a register with itself, or with 0, is converted")

    def rewrite_test(self) -> list[Statement]:
        """Rewrites a comparison with 0. Raises Refused unless a register is tested with itself or with -1."""
        first, second = self.instruction.operands
        if not isinstance(first, Register) or second not in (first, Number(MINUS_ONE)):
            raise self.make_refusal("TEST is converted only for a register and itself")
        return self.set_flag(self.rewrite_register(first))

    def rewrite_cmp(self) -> list[Statement]:
        """Rewrites a comparison, of which one side may be a location."""
        first, second = self.instruction.operands
        if isinstance(first, InMemory):
            return [self.make_load(first), Statement("cmp", SCRATCH, value=self.rewrite_value(second))]
        if isinstance(second, InMemory):
            return [self.make_load(second), Statement("cmp", self.rewrite_register(first), value=Register(SCRATCH))]
        return [Statement("cmp", self.rewrite_register(first), value=self.rewrite_value(second))]

    def rewrite_xchg(self) -> list[Statement]:
        """Rewrites an exchange. One with a location is always locked; that of two registers goes through a third."""
        first, second = self.instruction.operands
        if isinstance(first, InMemory):
            return [Statement("xchg", self.rewrite_register(second), self.rewrite_location(first))]
        if isinstance(second, InMemory):
            return [Statement("xchg", self.rewrite_register(first), self.rewrite_location(second))]
        first_register, second_register = self.rewrite_register(first), self.rewrite_register(second)
        moves = ((SCRATCH, first_register), (first_register, second_register), (second_register, SCRATCH))
        return [Statement("set", target, value=Register(source)) for target, source in moves if first_register != second_register]

    def rewrite_xadd(self) -> list[Statement]:
        """Rewrites XADD without LOCK: a load, a sum and a store, between which others may act."""
        target, register = self.instruction.operands[0], self.rewrite_register(self.instruction.operands[1])
        restoring = Statement("set", register, value=Register(SCRATCH))
        if isinstance(target, InMemory):
            added = Statement("add", register, value=Register(SCRATCH))
            return [self.make_load(target), added, Statement("store", location=self.rewrite_location(target), value=Register(register)), restoring]
        sum_ = self.rewrite_register(target)
        if sum_ == register:
            return [Statement("add", register, value=Register(register))]
        return [Statement("set", SCRATCH, value=Register(sum_)), Statement("add", sum_, value=Register(register)), restoring]

    def rewrite_cmov(self) -> list[Statement]:
        """Rewrites a move that a branch may skip. A load is done whether or not it is skipped."""
        target, source = self.instruction.operands
        branch = Statement("jne" if self.instruction.mnemonic == "CMOVE" else "je", target=self.index + 1)
        if isinstance(source, InMemory):
            return [self.make_load(source), branch, Statement("set", self.rewrite_register(target), value=Register(SCRATCH))]
        return [branch, Statement("set", self.rewrite_register(target), value=self.rewrite_value(source))]

    def rewrite_no_effect(self) -> list[Statement]:
        """Rewrites an instruction that has no effect on write-back memory."""
        if self.instruction.mnemonic in ("LFENCE", "SFENCE"):
            self.notes.append((self.instruction.offset, f"{self.instruction.mnemonic} {FENCE_ALONE}"))
        return []

    def rewrite_jump(self) -> list[Statement]:
        """Rewrites a jump."""
        return [Statement(self.instruction.mnemonic.lower(), target=self.instruction.target)]

    def refuse_unlocked(self) -> list[Statement]:
        """Raises Refused for CMPXCHG without LOCK."""
        raise self.make_refusal("CMPXCHG without LOCK is a load and a store that others may part: write them, and a branch")

    # Locked instructions.

    def rewrite_locked(self) -> list[Statement]:
        """Rewrites an instruction after LOCK. Raises Refused if no location is written."""
        name, operands = self.instruction.mnemonic, self.instruction.operands
        memory = [operand for operand in operands if isinstance(operand, InMemory)]
        if not memory or name in ("MOV", "LEA", "CMP", "TEST") or operands[0] is not memory[0] and name != "XCHG":
            raise self.make_refusal(f"LOCK is before {name}, which writes no location")
        if memory[0].registers == ("ESP",) and not memory[0].location:
            return self.rewrite_locked_stack()
        if name in ("XCHG", "XADD", "CMPXCHG"):
            return {"XCHG": self.rewrite_xchg, "XADD": self.rewrite_locked_xadd, "CMPXCHG": self.rewrite_cmpxchg}[name]()
        added = {"INC": Number(1), "DEC": Number(MINUS_ONE)}.get(name) or self.rewrite_value(operands[1])
        if name in ("SUB", "OR", "XOR", "AND"):
            added = self.make_addend(added)
        return [Statement("set", SCRATCH, value=added), Statement("xadd", SCRATCH, self.rewrite_location(memory[0]))]

    def make_addend(self, value: Value) -> Number:
        """Returns the number whose addition has the effect of a locked SUB, OR, XOR or AND. Raises Refused if there is none."""
        name = self.instruction.mnemonic
        if isinstance(value, Number) and name == "SUB":
            return Number(-value.word % 2**32)
        if value == Number(MINUS_ONE if name == "AND" else 0) and name != "SUB":
            return Number(0)
        raise self.make_refusal(f"LOCK {name} of these words is no LOCK XADD of lw's")

    def rewrite_locked_stack(self) -> list[Statement]:
        """Rewrites a locked instruction that changes nothing on the stack, which is used as a fence. Raises Refused if it changes something, or if
        its flags are read.
        """
        changes_nothing = self.instruction.mnemonic in ("ADD", "OR", "XOR", "SUB") and self.instruction.operands[1] == Number(0)
        if not changes_nothing:
            raise self.make_refusal("lw has no stack: only a locked addition of 0 to it is converted, to MFENCE")
        if self.is_flag_read:
            raise self.make_refusal("a later branch reads the flags of this locked instruction on the stack, and MFENCE sets none")
        self.notes.append((self.instruction.offset, "the locked instruction on the stack is MFENCE"))
        return [Statement("mfence")]

    def rewrite_locked_xadd(self) -> list[Statement]:
        """Rewrites LOCK XADD."""
        target, register = self.instruction.operands
        return [Statement("xadd", self.rewrite_register(register), self.rewrite_location(as_in_memory(target)))]

    def rewrite_cmpxchg(self) -> list[Statement]:
        """Rewrites LOCK CMPXCHG with a guess: what it finds must confirm the guess, or the run is abandoned."""
        target, new = self.rewrite_location(as_in_memory(self.instruction.operands[0])), self.rewrite_register(self.instruction.operands[1])
        self.rewrite_value(Register(COMPARED))
        compare = Statement("cmp", SCRATCH, value=Register(COMPARED))
        if self.guess == SUCCEEDS:
            first = Statement("set", SCRATCH, value=Register(new))
            return [first, Statement("xchg", SCRATCH, target), compare, Statement("jne", target=GIVE_UP)]
        first = Statement("set", SCRATCH, value=Number(0))
        set_compared = Statement("set", COMPARED, value=Register(SCRATCH))
        return [first, Statement("xadd", SCRATCH, target), compare, Statement("je", target=GIVE_UP), set_compared]


REWRITINGS: dict[str, Callable[[Rewriter], list[Statement]]] = {
    "MOV": Rewriter.rewrite_mov,
    "LEA": Rewriter.rewrite_lea,
    "ADD": lambda rewriter: rewriter.rewrite_sum(rewriter.instruction.operands[1]),
    "INC": lambda rewriter: rewriter.rewrite_sum(Number(1)),
    "DEC": lambda rewriter: rewriter.rewrite_sum(Number(MINUS_ONE)),
    "SUB": Rewriter.rewrite_sub,
    "XOR": Rewriter.rewrite_bits,
    "AND": Rewriter.rewrite_bits,
    "OR": Rewriter.rewrite_bits,
    "TEST": Rewriter.rewrite_test,
    "CMP": Rewriter.rewrite_cmp,
    "XCHG": Rewriter.rewrite_xchg,
    "XADD": Rewriter.rewrite_xadd,
    "CMPXCHG": Rewriter.refuse_unlocked,
    "CMOVE": Rewriter.rewrite_cmov,
    "CMOVNE": Rewriter.rewrite_cmov,
    "MFENCE": lambda _it: [Statement("mfence")],
    **dict.fromkeys(("LFENCE", "SFENCE", "NOP", "PAUSE"), Rewriter.rewrite_no_effect),
    **dict.fromkeys(("JMP", "JE", "JNE"), Rewriter.rewrite_jump),
}
