"""Writes the threads of a test as assembly, in AT&T's syntax, which the harness is linked with.

Each thread has two functions, one of which sets the trap flag before the test's first instruction. Both are called with the addresses of all
locations and with the place of six words, to which they write the registers that the thread uses. The labels around the test's instructions
are those that machine/disassembly.py looks for.
"""
from __future__ import annotations

from collections.abc import Sequence
from dataclasses import replace
from typing import NamedTuple, Tuple

import plain
from plain import Number, Register, Statement, Value

SECTION = "lw_test"
NAMES = ("eax", "ebx", "ecx", "edx", "esi", "edi")
# Location k has its address in register number 8 + k.
FIRST_ADDRESS = 8
# A thread has its results' place in %rbp. Of the registers that a function must restore, these may hold others' addresses.
SAVED_ADDRESSES = range(12, 16)
# The register of a number that MOVNTI stores. It has the address of the last location in a test of eight.
SCRATCH = 15
Code = Tuple[Statement, ...]


class Variant(NamedTuple):
    """One of a thread's two functions: its name's beginning, and those of its labels."""

    function: str
    begin: str
    end: str


PLAIN = Variant("lw_run_", "lw_begin_", "lw_end_")
WITH_TRAPS = Variant("lw_trapped_", "lw_trapped_begin_", "lw_trapped_end_")
VARIANTS = (PLAIN, WITH_TRAPS)


def to_signed(word: int) -> int:
    """Returns a word as the number that instructions of 32 bits take: with a sign."""
    return word - 2**32 if word >= 2**31 else word


def format_operand(value: Value) -> str:
    """Returns the text of a value as an operand."""
    return f"${to_signed(value.word)}" if isinstance(value, Number) else f"%{NAMES[value.register]}"


def format_instruction(statement: Statement, label: str) -> str:
    """Returns the text of an instruction. `label` is the beginning of the names of labels."""
    memory_operand = None if statement.location is None else f"(%r{FIRST_ADDRESS + statement.location})"
    register = None if statement.register is None else f"%{NAMES[statement.register]}"
    value = None if statement.value is None else format_operand(statement.value)
    texts = {
        "store": f"movl {value},{memory_operand}",
        "load": f"movl {memory_operand},{register}",
        "set": f"movl {value},{register}",
        "add": f"addl {value},{register}",
        "cmp": f"cmpl {value},{register}",
        "xchg": f"xchgl {register},{memory_operand}",
        "xadd": f"lock xaddl {register},{memory_operand}",
        "mfence": "mfence",
        "scratch": f"movl {value},%r{SCRATCH}d",
        "movnti": f"movnti {value or f'%r{SCRATCH}d'},{memory_operand}",
    }
    return texts[statement.kind] if statement.target is None else f"{statement.kind} {label}{statement.target}"


def make_stores_nontemporal(code: Code) -> Code:
    """Returns a thread whose stores go past the caches, for a control: each MOV to a location becomes MOVNTI. That takes no number: without a value
    it stores the scratch register.
    """
    changed: list[Statement] = []
    starts = []
    for statement in code:
        starts.append(len(changed))
        if statement.kind == "store":
            is_number = isinstance(statement.value, Number)
            changed += [Statement("scratch", value=statement.value)] if is_number else []
            changed.append(Statement("movnti", location=statement.location, value=None if is_number else statement.value))
        else:
            changed.append(statement)
    starts.append(len(changed))
    return tuple(it if it.target is None else replace(it, target=starts[it.target]) for it in changed)


def list_registers(code: Code) -> set[int]:
    """Returns the registers that a thread uses."""
    registers = {it.register for it in code if it.register is not None}
    return registers | {it.value.register for it in code if isinstance(it.value, Register)}


def list_saved_registers(code: Code, places: Sequence[int], registers: set[int]) -> list[str]:
    """Returns the registers that a thread's function must restore: %rbp, in which it has its results' place, and those of its code."""
    saved = ["rbp"] + ["rbx"] * (NAMES.index("ebx") in registers)
    addresses = {FIRST_ADDRESS + it for it in places} | ({SCRATCH} if any(it.kind == "scratch" for it in code) else set())
    return saved + [f"r{it}" for it in SAVED_ADDRESSES if it in addresses]


def format_function(code: Code, first: Sequence[int], thread: int, variant: Variant) -> list[str]:
    """Returns the lines of a thread's function. `first` has the words with which its registers begin. The zero flag is clear when the test's code
    begins.
    """
    places = sorted({it.location for it in code if it.location is not None})
    registers = list_registers(code)
    saved = list_saved_registers(code, places, registers)
    targets, label = {it.target for it in code}, f".L{variant.function}{thread}_"
    lines = [f"    pushq %{it}" for it in saved] + ["    movq %rsi,%rbp"]
    lines += [f"    movq {8 * it}(%rdi),%r{FIRST_ADDRESS + it}" for it in places]
    lines += [f"    movl ${to_signed(first[it])},%{NAMES[it]}" for it in sorted(registers)]
    lines.append("    testq %rsp,%rsp")
    if variant is WITH_TRAPS:
        lines += ["    pushfq", "    orq $0x100,(%rsp)", "    popfq", "    nop"]
    lines.append(f"{variant.begin}{thread}:")
    for index, statement in enumerate(code):
        lines += [f"{label}{index}:"] * (index in targets) + [f"    {format_instruction(statement, label)}"]
    lines += [f"{label}{len(code)}:"] * (len(code) in targets) + [f"{variant.end}{thread}:"]
    lines += [f"    movl %{NAMES[it]},{4 * it}(%rbp)" for it in sorted(registers)]
    lines += [f"    popq %{it}" for it in reversed(saved)] + ["    ret"]
    return ["    .p2align 6", f"{variant.function}{thread}:", *lines]


def format_assembly(threads: Sequence[Code], first: Sequence[Sequence[int]]) -> str:
    """Returns the assembly of all threads, whose registers begin with some words, and the table by which the harness finds them."""
    lines = [f'    .section {SECTION},"ax",@progbits']
    names = [it for variant in VARIANTS for it in variant]
    lines += [f"    .globl {name}{thread}" for thread in range(len(threads)) for name in names]
    for thread, code in enumerate(threads):
        for variant in VARIANTS:
            lines += format_function(code, first[thread], thread, variant)
    lines += ["    .data", "    .p2align 3", "    .globl lw_threads", "lw_threads:"]
    for thread in range(len(threads)):
        row = (PLAIN.function, WITH_TRAPS.function, WITH_TRAPS.begin, WITH_TRAPS.end)
        lines.append(f"    .quad {', '.join(f'{name}{thread}' for name in row)}")
    lines.append('    .section .note.GNU-stack,"",@progbits')
    return plain.join_lines(lines)
