"""Reads what objdump prints of the compiled test, in Intel's syntax, and compares it with the test, instruction by instruction.

This shares nothing with machine/assembly.py, which writes the other syntax, except the names of the labels: both have their own tables.
machine/frames.py looks at what is around the test's instructions.
"""
from __future__ import annotations

import re
import subprocess
from collections.abc import Sequence
from typing import NamedTuple, Union

from machine import frames
from machine.faults import NotRun
from plain import Number, Register, Statement

COMMAND = ("objdump", "--syms", "--disassemble", "--no-show-raw-insn", "-M", "intel", "-j", "lw_test")
# The labels of a thread's function and around the test's instructions: of the function that runs, and of that which runs under the trap
# flag.
LABELS = (("lw_run_{}", "lw_begin_{}", "lw_end_{}"), ("lw_trapped_{}", "lw_trapped_begin_{}", "lw_trapped_end_{}"))
SYMBOL = re.compile(r"([0-9a-f]{8,16})\s.*\slw_test\s+[0-9a-f]+\s+(?:\.hidden\s+)?(lw_\w+)")
LINE = re.compile(r"\s*([0-9a-f]+):\s+(\S.*)")
JUMPS = ("je", "jne", "jmp")
REGISTERS = {name: at for at, name in enumerate("eax ebx ecx edx esi edi".split())}
CELL = re.compile(r"DWORD PTR \[(r\d+)(?:\+0x0)?\]")
CELLS = {name: at for at, name in enumerate("r8 r9 r10 r11 r12 r13 r14 r15".split())}
NUMBER = re.compile(r"0x[0-9a-f]+")


class Listing(NamedTuple):
    """A disassembly that was read: the address of each label, and the text of the instruction at each address."""

    labels: dict[str, int]
    instructions: dict[int, str]


def parse_listing(text: str) -> Listing:
    """Returns what objdump prints, as a listing."""
    labels: dict[str, int] = {}
    instructions: dict[int, str] = {}
    for line in text.splitlines():
        symbol, line_match = SYMBOL.fullmatch(line), LINE.fullmatch(line)
        if symbol:
            labels[symbol[2]] = int(symbol[1], 16)
        elif line_match:
            instructions[int(line_match[1], 16)] = line_match[2].partition("#")[0].strip()
    return Listing(labels, instructions)


class Cell(NamedTuple):
    """An operand that is a location."""

    location: int


class Scratch(NamedTuple):
    """The operand that is the scratch register."""


# `None` is an operand that no test has.
Operand = Union[Number, Register, Cell, Scratch, None]


def parse_operand(text: str) -> Operand:
    """Returns the operand of 32 bits that a text names. `None` if no test has it."""
    cell = CELL.fullmatch(text)
    if cell and cell[1] in CELLS:
        return Cell(CELLS[cell[1]])
    if text in REGISTERS:
        return Register(REGISTERS[text])
    if text == "r15d":
        return Scratch()
    return Number(int(text, 16) % 2**32) if NUMBER.fullmatch(text) else None


def parse_statement(text: str, numbers: dict[int, int]) -> Statement | None:
    """Returns the instruction that a text of the disassembly is. `None` if no test has it. `numbers` has the indices of instructions by their
    addresses.
    """
    words = re.match(r"(lock )?(\w+)(?:\s+(.*))?$", text)
    if not words:
        return None
    is_locked, mnemonic, operands = bool(words[1]), words[2], (words[3] or "").split(",")
    if mnemonic in JUMPS and not is_locked:
        target = re.match(r"([0-9a-f]+)(?:\s|$)", operands[0])
        number = numbers.get(int(target[1], 16)) if target else None
        return None if number is None else Statement(mnemonic, target=number)
    if text == "mfence":
        return Statement("mfence")
    if len(operands) != 2 or is_locked != (mnemonic == "xadd"):
        return None
    return make_statement_of_two(mnemonic, *map(parse_operand, operands))


def make_statement_of_two(mnemonic: str, target: Operand, source: Operand) -> Statement | None:
    """Returns the instruction with two operands. `None` if no test has it."""
    if isinstance(target, Cell):
        if mnemonic == "mov" and isinstance(source, (Number, Register)):
            return Statement("store", location=target.location, value=source)
        if mnemonic in ("xchg", "xadd") and isinstance(source, Register):
            return Statement(mnemonic, source.register, target.location)
        if mnemonic == "movnti" and isinstance(source, (Register, Scratch)):
            return Statement("movnti", location=target.location, value=source if isinstance(source, Register) else None)
    elif isinstance(target, Register):
        if mnemonic == "mov" and isinstance(source, Cell):
            return Statement("load", target.register, source.location)
        if mnemonic in ("mov", "add", "cmp") and isinstance(source, (Number, Register)):
            return Statement("set" if mnemonic == "mov" else mnemonic, target.register, value=source)
    elif isinstance(target, Scratch) and mnemonic == "mov" and isinstance(source, Number):
        return Statement("scratch", value=source)
    return None


def find_address(listing: Listing, label: str) -> int:
    """Returns the address of a label. Raises NotRun if there is none."""
    if label not in listing.labels:
        raise NotRun(f"the disassembly has no label '{label}'")
    return listing.labels[label]


def list_instructions(listing: Listing, begin: int, end: float) -> dict[int, str]:
    """Returns the instructions from an address up to another, by their addresses."""
    return {it: text for it, text in sorted(listing.instructions.items()) if begin <= it < end}


def compare_code(thread: int, code: Sequence[Statement], listing: Listing, begin: int, end: int) -> None:
    """Raises NotRun if the instructions from an address up to another are not those of a thread."""
    texts = list_instructions(listing, begin, end)
    numbers = {address: number for number, address in enumerate([*texts, end])}
    for index, (expected, text) in enumerate(zip(code, texts.values())):
        if parse_statement(text, numbers) != expected:
            raise NotRun(f"the compiled code is not the test's: P{thread} at {index} has '{text}', and the test has {format_statement(expected)}")
    if len(texts) != len(code):
        raise NotRun(f"the compiled code is not the test's: P{thread} has {len(texts)} instructions, and the test has {len(code)}")


def format_statement(statement: Statement) -> str:
    """Returns an instruction of a test in words, for a message."""
    of_statement = statement.value
    value = ("number", of_statement.word) if isinstance(of_statement, Number) else of_statement and ("register", of_statement.register)
    parts = (("register", statement.register), ("location", statement.location), ("value", value), ("target", statement.target))
    return f"'{statement.kind}'" + "".join(f" {name} {value}" for name, value in parts if value is not None)


def compare_threads(threads: Sequence[Sequence[Statement]], first: Sequence[Sequence[int]], listing: Listing) -> None:
    """Raises NotRun if a disassembly is not that of the threads, whose registers begin with the words `first`."""
    for thread, code in enumerate(threads):
        for is_trapped, labels in enumerate(LABELS):
            function, begin, end = (find_address(listing, it.format(thread)) for it in labels)
            compare_code(thread, code, listing, begin, end)
            before, after = list_instructions(listing, function, begin), list_instructions(listing, end, float("inf"))
            fault = frames.find_fault(list(before.values()), list(after.values()), code, first[thread], bool(is_trapped))
            if fault:
                raise NotRun(f"the compiled code of P{thread} does not begin or end as it should: {fault}")


def check_program(threads: Sequence[Sequence[Statement]], first: Sequence[Sequence[int]], file: str) -> None:
    """Raises NotRun if objdump fails, or the code of a compiled program is not that of the threads."""
    try:
        ran = subprocess.run([*COMMAND, file], stdout=subprocess.PIPE, stderr=subprocess.PIPE, check=False)
    except OSError as why:
        raise NotRun(f"objdump does not start: {why.strerror}") from None
    if ran.returncode:
        raise NotRun(f"objdump fails: {find_last_line(ran.stderr)}")
    compare_threads(threads, first, parse_listing(ran.stdout.decode("utf-8", "replace")))


def find_last_line(printed: bytes) -> str:
    """Returns the last line of what a command has printed on standard error; empty if there is none."""
    lines = printed.decode("utf-8", "replace").strip().splitlines()
    return lines[-1] if lines else "it says nothing"
