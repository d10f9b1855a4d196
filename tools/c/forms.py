"""The operands that an instruction may have. What an assembler would refuse, and what is not known here, is refused."""
from __future__ import annotations

import re

from c.assembly import Instruction
from c.operands import Memory, Number, Register
from c.refused import Refused

# Mnemonics, as patterns, with their numbers of operands.
COUNTS = (
    (r"(neg|not|inc|dec|push|pop|div|idiv|mul|bswap)[bwlq]?", (1,)),
    (r"set\w+", (1,)),
    (r"(sh|sa|ro)[lr][bwlq]?", (1, 2)),
    (r"imul[bwlq]?", (1, 2, 3)),
    (r"(add|sub|cmp|and|or|xor|test|adc|sbb|mov|movabs|lea|xchg|xadd|cmpxchg|bts?|btr|btc)[bwlq]?", (2,)),
    (r"mov[sz][bwl][wlq]?|cmov\w+", (2,)),
)
# Instructions whose last operand is a register, and those with one as their first or last.
INTO_REGISTER = r"lea[wlq]?|cmov\w+|mov[sz][bwl][wlq]?|bswap[lq]?"
WITH_REGISTER = r"(xadd|cmpxchg)[bwlq]?"


def check_form(instruction: Instruction) -> None:
    """Raises Refused if an instruction has operands that it cannot have."""
    counts = next((counts for pattern, counts in COUNTS if re.fullmatch(pattern, instruction.mnemonic)), None)
    if counts is None:
        return
    operands = instruction.operands
    registers = [isinstance(operand, Register) for operand in operands]
    # Of any instruction: at most one operand in memory, and a number only as a source.
    is_right = len(operands) in counts and sum(isinstance(operand, Memory) for operand in operands) <= 1
    if is_right and isinstance(operands[-1], Number):
        is_right = instruction.mnemonic.startswith("push")
    # Of some instructions: a register where one is needed.
    if is_right and re.fullmatch(INTO_REGISTER, instruction.mnemonic):
        is_right = registers[-1] and not isinstance(operands[0], Number)
        is_right = is_right and (not instruction.mnemonic.startswith("lea") or isinstance(operands[0], Memory))
    if is_right and re.fullmatch(WITH_REGISTER, instruction.mnemonic):
        is_right = registers[0]
    if is_right and instruction.mnemonic.startswith("xchg"):
        is_right = all(isinstance(operand, (Register, Memory)) for operand in operands)
    if is_right and instruction.mnemonic.startswith("imul") and len(operands) > 1:
        is_right = registers[-1] and (len(operands) == 2 or isinstance(operands[0], Number))
    if is_right and re.fullmatch(r"(sh|sa|ro)[lr][bwlq]?", instruction.mnemonic) and len(operands) == 2:
        is_right = registers[0] and operands[0].name == "rcx" or isinstance(operands[0], Number)
    if is_right and instruction.is_locked:
        is_right = any(isinstance(operand, Memory) for operand in operands)
    if not is_right or instruction.mnemonic.startswith("imul") and len(operands) == 1 and isinstance(operands[0], Number):
        raise Refused("an instruction has operands that are not known for it")
