"""Reads the instructions of a test in herd's form: a cell's labels, mnemonic and operands, in the order of Intel or of AT&T.

An operand is a register, by its name, a number, the address of a location, or a place in memory, in brackets or parentheses. The destination
comes first, whatever the order in the text.
"""
from __future__ import annotations

import re
from dataclasses import dataclass, replace
from typing import Any, Union

from herd.registers import INSTRUCTION_POINTERS, parse_register
from herd.text import Reader, Refused, Token
from plain import Number, Register

# The number of operands of an instruction.
OPERANDS = {
    **dict.fromkeys(("MFENCE", "LFENCE", "SFENCE", "NOP", "PAUSE"), 0),
    **dict.fromkeys(("INC", "DEC", "NEG", "NOT", "JMP", "JE", "JZ", "JNE", "JNZ"), 1),
    **dict.fromkeys(("MOV", "ADD", "SUB", "XOR", "AND", "OR", "CMP", "TEST", "LEA", "XCHG", "XADD", "CMPXCHG"), 2),
    **dict.fromkeys(("CMOVE", "CMOVZ", "CMOVNE", "CMOVNZ"), 2),
}
SAME = {"JZ": "JE", "JNZ": "JNE", "CMOVZ": "CMOVE", "CMOVNZ": "CMOVNE", "MOVABS": "MOV"}
SIZES = {"B": 8, "W": 16, "L": 32, "Q": 64}
PREFIXES = ("BYTE", "WORD", "DWORD", "QWORD")
STRINGS = "instructions on strings are no single accesses"
REASONS = (
    (r"SET\w+", "it writes a byte, and a word of lw has 32 bits"),
    (r"J[ER]?CXZ|LOOP\w*", "it tests a register without the flags: write a comparison and a branch"),
    (r"J\w+|CMOV\w+", "it reads another flag than the zero flag, which is the only one that lw has"),
    (r"ADC.?|SBB.?|ADCX|ADOX", "it reads the carry flag, and lw has the zero flag only"),
    (r"MOVNT\w+|CLFLUSH\w*|CLWB|MASKMOV\w*", "it goes past write-back memory, and the model of x86-TSO covers only that"),
    (r"I?MUL.?|I?DIV.?|(SH|SA|RO|RC)[LR]\w*|NEG.?|NOT.?|BT\w*|ANDN.?", "lw has sums and no other arithmetic"),
    (r"PUSH\w*|POP\w*|CALL\w*|RET\w*|ENTER\w*|LEAVE\w*", "lw has no stack"),
    (r"CPUID|RDTSC\w*|X(BEGIN|END|ABORT|TEST)|XACQUIRE|XRELEASE|RD\w+|WR\w+", "it is outside the model of x86-TSO"),
    (r"PREFETCH\w*", "it is a hint to the caches, which changes no word: leave it out"),
    (r"(MOVS|STOS|LODS|CMPS|SCAS)[BWLDQ]?|REP\w*", STRINGS),
    (r"MOVS(LQ|XD)|MOVSX\w*|CLTQ|CDQE|CQTO|CLTD|CDQ|CQO", "it extends a sign to a larger word, and all words of lw have 32 bits"),
    (r"MOVS[BW][WLQ]|MOVZ\w+", "it reads a byte or a word of 16 bits, and a word of lw has 32"),
    (r"CMPXCHG(8|16)B", "it works on 64 or 128 bits, and a word of lw has 32"),
    (r"MOV[DQ]\w*|MOV[AU]P\w|P\w+|V\w+", "it works on vectors, and lw has words of 32 bits only"),
)


@dataclass(frozen=True)
class AddressOf:
    """The address of a location, as a number."""

    location: str


@dataclass(frozen=True)
class InMemory:
    """An operand in memory, whose address is a sum: of a location's address, if one is named, of registers, and of a number."""

    location: str | None
    registers: tuple[str, ...]
    number: int


Operand = Union[Register, Number, AddressOf, InMemory]


@dataclass(frozen=True)
class Instruction:
    """An instruction: its operands, and the target of its jump, the index of an instruction; while cells are read, a label.

    `bits` says how many bits it works on, and `address_bits` how many the registers of its address have; None if nothing says that.
    `number` is the number among its operands as the text has it, with its sign.
    """

    mnemonic: str
    operands: tuple[Operand, ...]
    offset: int
    is_locked: bool = False
    target: Any = None  # the token of a label; of a thread that is read the index that the jump leads to
    bits: int | None = None
    address_bits: int | None = None
    number: Any = None


def find_reason_against(mnemonic: str) -> str:
    """Returns why a mnemonic is not converted."""
    reasons = [reason for pattern, reason in REASONS if re.fullmatch(pattern, mnemonic)]
    return reasons[0] if reasons else "it is not among the instructions that docs/FROM-HERD.md lists"


def split_mnemonic(text: str) -> tuple[str, int | None]:
    """Returns a mnemonic without the letter of its size, and the bits that the letter means."""
    name = SAME.get(text.upper(), text.upper())
    if name in OPERANDS:
        return name, None
    short = SAME.get(name[:-1], name[:-1])
    if name[-1:] in SIZES and OPERANDS.get(short, 0) and short[0] != "J":
        return short, SIZES[name[-1]]
    return name, None


class CellReader(Reader):
    """A reader of one cell."""

    def __init__(self, tokens: list[Token], is_att: bool) -> None:
        """Makes a reader of the tokens of a thread's cells."""
        super().__init__(tokens)
        self.is_att = is_att
        self.mnemonic = ""
        self.bits: int | None = None  # of the words that the instruction works on, as far as that is said
        self.address_bits: int | None = None  # of the registers of its address
        self.sized_by = ""  # what has said the bits
        self.number_given: int | None = None

    def read_labels(self) -> list[Token]:
        """Reads the labels at the start of the cell."""
        labels = []
        while self.token.kind == "name" and self.peek(1) == ":":
            labels.append(self.take_token())
            self.take_token(":")
        return labels

    def read_instruction(self) -> Instruction:
        """Reads the instruction of the cell. Raises Refused if it is not converted."""
        offset, is_locked = self.token.offset, False
        if self.token.text.upper() == "REP" and self.peek(1).upper() != "NOP":
            raise Refused(f"'{self.token.text}' is not converted: {STRINGS}", offset)
        # The prefixes, and the mnemonic.
        while self.token.text.upper() in ("LOCK", "REP"):
            is_locked = self.take_token().text.upper() == "LOCK" or is_locked
        if self.token.kind != "name":
            raise self.make_misplaced_refusal("an instruction")
        token = self.take_token()
        mnemonic, bits = split_mnemonic(token.text)
        if mnemonic not in OPERANDS or mnemonic in ("NEG", "NOT"):
            raise Refused(f"'{token.text}' is not converted: {find_reason_against(token.text.upper())}", token.offset)
        self.mnemonic = mnemonic
        if bits:
            self.record_size(bits, token)
        # The operands.
        if mnemonic[0] == "J":
            return self.read_jump(mnemonic, offset)
        operands = self.read_operands(OPERANDS[mnemonic])
        if self.token.kind != "end":
            raise self.make_misplaced_refusal("the end of the instruction")
        if mnemonic == "LEA" and not (isinstance(operands[0], Register) and isinstance(operands[1], InMemory)):
            raise Refused("LEA takes a register and an address", offset)
        if self.bits is not None and self.bits < 32:
            raise Refused(f"it works on {self.bits} bits, and a word of lw has 32", token.offset)
        return Instruction(mnemonic, operands, offset, is_locked, None, self.bits, self.address_bits, self.number_given)

    def read_jump(self, mnemonic: str, offset: int) -> Instruction:
        """Reads a jump to a label. Raises Refused if no label follows, or something follows that."""
        if self.token.kind != "name":
            raise self.make_misplaced_refusal("a label")
        label = self.take_token()
        if self.token.kind != "end":
            raise self.make_misplaced_refusal("the end of the instruction")
        return Instruction(mnemonic, (), offset, target=label)

    def read_operands(self, count: int) -> tuple[Operand, ...]:
        """Reads this number of operands, the destination first."""
        operands: list[Operand] = []
        for number in range(count):
            if number:
                self.take_token(",")
            operands.append(self.read_operand())
        return tuple(reversed(operands) if self.is_att else operands)

    def record_size(self, bits: int, token: Token) -> None:
        """Records how many bits a token says that the words have. All tokens of an instruction must agree, or say fewer than 32. Raises Refused if
        they do not.
        """
        if self.bits is not None and self.bits != bits and min(self.bits, bits) >= 32:
            cause = f"'{token.text}' works on {bits} bits, and '{self.sized_by}' on {self.bits}: no instruction does both"
            raise Refused(cause, token.offset)
        if self.bits is None or bits < self.bits:
            self.bits, self.sized_by = bits, token.text

    def read_operand(self) -> Operand:
        """Reads a register, a number, an address, or an operand in memory. Raises Refused if it is none."""
        is_sized = self.read_optional_size()
        if self.token.text.upper() == "OFFSET" and self.tokens[self.number + 1].kind == "name":
            return self.read_offset()
        if self.take_token_if("$"):
            return AddressOf(self.take_token().text) if self.token.kind == "name" else Number(self.check_word(self.read_signed("an operand")))
        if self.take_token_if("%"):
            return self.read_register()
        if self.take_token_if("["):
            return self.read_address_sum("]")
        if self.is_next("("):
            return self.read_parenthesis(None, 0)
        if self.token.kind == "name":
            return self.read_named_operand(is_sized)
        offset, number = self.token.offset, self.read_signed("an operand")
        if self.is_next("("):
            return self.read_parenthesis(None, number)
        if self.is_att:
            raise Refused(f"in AT&T's order a number without '$' is the address of a word: write ${number} for the number", offset)
        return Number(self.check_word(number))

    def read_optional_size(self) -> bool:
        """Accepts a size such as `DWORD PTR`. Returns whether it was next."""
        if self.token.text.upper() not in PREFIXES or self.token.kind != "name":
            return False
        token = self.take_token()
        if self.mnemonic != "LEA":  # which reads no memory
            self.record_size(8 * 2 ** PREFIXES.index(token.text.upper()), token)
        if self.token.text.upper() == "PTR":
            self.take_token()
        return True

    def read_offset(self) -> AddressOf:
        """Reads the address of a location as Intel's assemblers write it: `OFFSET x` or `OFFSET FLAT:x`. Raises Refused if no location follows."""
        self.take_token()
        if self.token.text.upper() == "FLAT" and self.peek(1) == ":":
            self.take_token()
            self.take_token(":")
        if self.token.kind != "name":
            raise self.make_misplaced_refusal("a location")
        return AddressOf(self.take_token().text)

    def check_word(self, number: int) -> int:
        """Returns the number that was read last, as a word of 32 bits. Raises Refused if it does not fit."""
        if not -(2**31) <= number < 2**32:
            raise Refused(f"{number} does not fit into a word of 32 bits", self.tokens[self.number - 1].offset)
        self.number_given = number
        return number % 2**32

    def read_register(self) -> Register:
        """Reads a register as an operand. Raises Refused if it is none."""
        token = self.take_token()
        register = parse_register(token.text)
        if not register:
            raise Refused(f"'{token.text}' is no register that is converted", token.offset)
        self.record_size(register[1], token)
        return Register(register[0])

    def read_named_operand(self, is_sized: bool) -> Operand:
        """Reads an operand that starts with a name: a register, or a location. A size before a name says that it is a location. Raises Refused if a
        name could be a word or its address.
        """
        if parse_register(self.token.text):
            return self.read_register()
        token, number = self.take_token(), 0
        if self.is_next("+", "-"):
            self.take_token_if("+")
            number = self.read_signed()
        if self.is_next("("):
            return self.read_parenthesis(token.text, number)
        if self.is_next("["):
            return self.read_relative_location(token, number)
        if is_sized or self.is_att:
            return InMemory(token.text, (), number)
        raise Refused(f"'{token.text}' without brackets may be a word or its address: write [{token.text}]", token.offset)

    def read_relative_location(self, token: Token, number: int) -> InMemory:
        """Reads a location with an address relative to the instruction pointer, as Intel's assemblers write it: `x[rip]`. Raises Refused if there is
        more than one location in it.
        """
        offset = self.token.offset
        if self.peek(1).upper() not in INSTRUCTION_POINTERS:
            raise Refused("an array is not converted: use one location for each element", offset)
        self.take_token("[")
        address = self.read_address_sum("]")
        if address.location or address.registers:
            raise Refused("this address is not converted: name one location", offset)
        return InMemory(token.text, (), number + address.number)

    def read_address_sum(self, end: str) -> InMemory:
        """Reads the address in brackets: a sum of names, registers and numbers. Raises Refused for any other address."""
        location: str | None = None
        registers: list[str] = []
        number = 0
        while True:
            sign = -1 if self.take_token_if("-") else 1
            self.take_token_if("%")
            if self.token.kind == "number":
                number += sign * self.read_signed()
            else:
                token = self.take_token()
                if sign < 0:
                    raise Refused("this address is not converted: an address is a sum, and takes off numbers only", token.offset)
                location, registers = self.add_term(token, location, registers)
            if self.is_next(end):
                self.take_token()
                return InMemory(location, tuple(registers), number)
            if not self.is_next("-"):
                self.take_token("+")

    def add_term(self, token: Token, location: str | None, registers: list[str]) -> tuple[str | None, list[str]]:
        """Returns the location and the registers of an address with one more name. Raises Refused if there is a second location."""
        if token.kind != "name" or self.is_next("*"):
            raise Refused("this address is not converted: name one location", token.offset)
        if token.text.upper() in INSTRUCTION_POINTERS:
            return location, registers
        register = parse_register(token.text)
        if register:
            self.record_address_size(register[1], token)
            return location, [*registers, register[0]]
        if location:
            raise Refused("this address is not converted: name one location", token.offset)
        return token.text, registers

    def record_address_size(self, bits: int, token: Token) -> None:
        """Records how many bits a register says that the address has. Raises Refused unless it is 32 or 64, and the same for all registers."""
        if bits < 32:
            raise Refused(f"'{token.text}' has {bits} bits, and addresses have 32 or 64", token.offset)
        if self.address_bits not in (None, bits):
            raise Refused(f"'{token.text}' has {bits} bits, and another register of the address {self.address_bits}", token.offset)
        self.address_bits = bits

    def read_parenthesis(self, location: str | None, number: int) -> InMemory:
        """Reads the parentheses after a location or a number. Raises Refused for an address that is not converted."""
        registers: list[str] = []
        self.take_token("(")
        while not self.take_token_if(")"):
            self.take_token_if("%")
            offset = self.token.offset
            if self.token.kind == "number" and self.read_signed() != 1:
                raise Refused("this address is not converted: name one location", offset)
            if self.token.kind == "name":
                location, registers = self.add_term(self.take_token(), location, registers)
            if not self.is_next(")"):
                self.take_token(",")
        return InMemory(location, tuple(registers), number)


def read_code(cells: list[list[Token]], is_att: bool) -> tuple[list[Instruction], bool]:
    """Returns the instructions of a thread, its jumps resolved, and whether it works on words of 64 bits. Raises Refused if an instruction is not
    converted, or a label is there twice.
    """
    code: list[Instruction] = []
    labels: dict[str, int] = {}
    is_wide = False
    for tokens in cells:
        reader = CellReader(tokens, is_att)
        for label in reader.read_labels():
            if label.text in labels:
                raise Refused(f"the label '{label.text}' is defined twice in its thread", label.offset)
            labels[label.text] = len(code)
        if reader.token.kind != "end":
            code.append(reader.read_instruction())
            is_wide |= reader.bits == 64
    return [resolve_jump(it, labels) for it in code], is_wide


def resolve_jump(instruction: Instruction, labels: dict[str, int]) -> Instruction:
    """Returns an instruction with the index of its jump's target. Raises Refused if there is no such label."""
    if instruction.target is None:
        return instruction
    if instruction.target.text not in labels:
        raise Refused(f"the thread has no label '{instruction.target.text}'", instruction.target.offset)
    return replace(instruction, target=labels[instruction.target.text])
