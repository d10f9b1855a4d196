"""Reads what is around a test's instructions in the disassembly of a thread's function: before them, what is saved, the addresses of the
locations, the first words of the registers, a clear zero flag, and the trap flag; after them, the results, and what is restored.
"""
from __future__ import annotations

import re
from collections.abc import Sequence

from plain import Register, Statement

REGISTERS = ("eax", "ebx", "ecx", "edx", "esi", "edi")
RESTORED_REGISTERS = ("rbx", "rbp", "r12", "r13", "r14", "r15")
ADDRESS = re.compile(r"mov\s+r(\d+),QWORD PTR \[rdi(?:\+0x([0-9a-f]+))?\]")
WORD = re.compile(r"mov\s+(e\w\w),0x([0-9a-f]+)")
RESULT = re.compile(r"mov\s+DWORD PTR \[rbp\+0x([0-9a-f]+)\],(e\w\w)")
SAVED, RESTORED = re.compile(r"push\s+(\w+)"), re.compile(r"pop\s+(\w+)")
CLEAR_FLAG = ("test rsp,rsp",)
SET_TRAP_FLAG = ("pushf", "or QWORD PTR [rsp],0x100", "popf", "nop")


def take_leading_matches(pattern: re.Pattern[str], texts: list[str]) -> list[re.Match[str]]:
    """Removes the instructions that a pattern matches from the front of a list. Returns their matches."""
    matches = []
    while texts and (match := pattern.fullmatch(texts[0])):
        matches.append(match)
        texts.pop(0)
    return matches


def list_used_registers(code: Sequence[Statement]) -> list[int]:
    """Returns the registers that a thread uses."""
    values = [it.value.register for it in code if isinstance(it.value, Register)]
    return sorted({it.register for it in code if it.register is not None} | {*values})


def list_unsaved_changes(code: Sequence[Statement], saved: list[str]) -> list[str]:
    """Returns the registers that a thread's function changes, must restore, and does not save."""
    numbers = {8 + it.location for it in code if it.location is not None} | ({15} if any(it.kind == "scratch" for it in code) else set())
    changed = {"rbp", *(f"r{it}" for it in numbers)} | ({"rbx"} if 1 in list_used_registers(code) else set())
    return sorted(changed & {*RESTORED_REGISTERS} - {*saved})


def find_fault_before(texts: list[str], code: Sequence[Statement], first: Sequence[int], is_trapped: bool) -> str | None:
    """Returns the fault between the saved registers and the test's instructions, or None. Addresses are loaded before EDI changes."""
    if texts[:1] != ["mov rbp,rsi"]:
        return "the place of the results is not taken"
    texts = texts[1:]
    addresses = {int(it[1]) - 8: int(it[2] or "0", 16) for it in take_leading_matches(ADDRESS, texts)}
    expected = {it.location: 8 * it.location for it in code if it.location is not None}
    if addresses != expected:
        return f"the addresses of locations are taken from {addresses}, and not from {expected}"
    words = {it[1]: int(it[2], 16) for it in take_leading_matches(WORD, texts)}
    first_values = {REGISTERS[it]: first[it] for it in list_used_registers(code)}
    if words != first_values:
        return f"registers begin with {words}, and not with {first_values}"
    rest = CLEAR_FLAG + (SET_TRAP_FLAG if is_trapped else ())
    return None if tuple(texts) == rest else f"before the test there is {'; '.join(texts)}, and not {'; '.join(rest)}"


def find_fault_after(texts: list[str], code: Sequence[Statement], saved: list[str]) -> str | None:
    """Returns the fault of the instructions after the test's, or None."""
    results: dict[str, int] = {it[2]: int(it[1], 16) for it in take_leading_matches(RESULT, texts)}
    expected = {REGISTERS[it]: 4 * it for it in list_used_registers(code)}
    if results != expected:
        return f"results are {results}, and not {expected}"
    restored = [it[1] for it in take_leading_matches(RESTORED, texts)]
    if restored != saved[::-1] or texts[:1] != ["ret"]:
        return f"{', '.join(saved)} are saved, and {', '.join(restored)} are restored"
    return None


def find_fault(before: list[str], after: list[str], code: Sequence[Statement], first: Sequence[int], is_trapped: bool) -> str | None:
    """Returns the fault of the instructions around a test's, or None. `before` and `after` are their texts, `first` the words with which the registers
    begin.
    """
    before, after = ([re.sub(r"\s+", " ", it) for it in texts] for texts in (before, after))
    saved = [it[1] for it in take_leading_matches(SAVED, before)]
    lacking = list_unsaved_changes(code, saved)
    if lacking:
        return f"{', '.join(lacking)} is changed and not saved"
    return find_fault_before(before, code, first, is_trapped) or find_fault_after(after, code, saved)
