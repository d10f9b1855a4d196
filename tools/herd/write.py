"""Tests of lw in herd's form: of X86_64, with the operands in the order of AT&T, and of X86, in that of Intel."""
from __future__ import annotations

import re
from collections.abc import Sequence

import given
import plain
from herd.frame import TYPES
from herd.registers import INSTRUCTION_POINTERS, widen_register_name
from herd.registers import parse_register as register_named
from plain import Statement, Test

FORMS = ("X86_64", "X86")
SIX = plain.REGISTERS["X86"]
AS_SIGNED = 2**31


def format_signed(word: int) -> int:
    """Returns a word of 32 bits as an operand: from 2 to the 31 on it is written as a negative number."""
    return word - 2 * AS_SIGNED if word >= AS_SIGNED else word


def format_value(statement: Statement, form: str) -> str:
    """Returns a number or a register as an operand."""
    assert statement.value is not None
    return f"${format_signed(statement.value.word)}" if isinstance(statement.value, plain.Number) else format_register(statement.value.register, form)


def format_register(number: int, form: str) -> str:
    """Returns a register as an operand."""
    return f"%{SIX[number].lower()}" if form == "X86_64" else SIX[number]


def format_instruction(test: Test, statement: Statement, form: str) -> str:
    """Returns an instruction, without its labels."""
    if statement.target is not None:
        return f"{statement.kind.lower() if form == 'X86_64' else statement.kind.upper()} L{statement.target}"
    if statement.kind == "mfence":
        return "mfence" if form == "X86_64" else "MFENCE"
    location = None if statement.location is None else test.locations[statement.location]
    memory_operand = f"({location})" if form == "X86_64" else f"[{location}]"
    register = "" if statement.register is None else format_register(statement.register, form)
    words = {"store": "MOV", "load": "MOV", "set": "MOV", "xadd": "LOCK XADD"}.get(statement.kind, statement.kind.upper())
    if statement.kind in ("store", "xchg", "xadd"):
        operands = [memory_operand, register if statement.kind != "store" else format_value(statement, form)]
    else:
        operands = [register, memory_operand if statement.kind == "load" else format_value(statement, form)]
    if form == "X86":
        return f"{words} {','.join(operands)}"
    return f"{words.lower()}l {','.join(reversed(operands))}"


def format_cells(test: Test, code: Sequence[Statement], form: str) -> list[str]:
    """Returns the cells of a thread."""
    targets = {it.target for it in code}
    texts = [format_instruction(test, it, form) for it in code] + [""] * (len(code) in targets)
    return [(f"L{index}: " if index in targets else "") + text for index, text in enumerate(texts)]


def rename_registers(text: str, form: str) -> str:
    """Returns a text of lw with registers by the names of a form: in X86_64 they are those of 64 bits."""
    if form == "X86":
        return text
    return re.sub(rf"\b([0-3]):({'|'.join(SIX)})\b", lambda it: f"{it[1]}:{widen_register_name(it[2])}", text)


def check_names(test: Test) -> None:
    """Raises Fault if a location has a name that herd's form gives to something else."""
    for name in test.locations:
        if register_named(name) or name.upper() in INSTRUCTION_POINTERS or name in TYPES:
            raise given.Fault(f"the location '{name}' has a name that is a register's or a type's in herd's form: name it otherwise", 0)


def format_herd_text(test: Test, form: str) -> str:
    """Returns a test in herd's form, which says the same as the test's canonical text. Raises Fault if a location has a name that herd's form gives
    to something else.
    """
    check_names(test)
    columns = [[f"P{number}", *format_cells(test, code, form)] for number, code in enumerate(test.threads)]
    widths = [max(len(cell) for cell in column) for column in columns]
    lines = [f"{form} {test.name}", '"Written by lw"', "{"]
    lines += [f" {test.locations[index]}={word};" for index, word in enumerate(test.words)]
    for thread, words in enumerate(test.registers):
        lines += [f" {thread}:{name}={word};" for name, word in zip(SIX, words) if word]
    lines.append("}")
    for index in range(max(len(column) for column in columns)):
        cells = [column[index] if index < len(column) else "" for column in columns]
        lines.append(" " + " | ".join(cell.ljust(width) for cell, width in zip(cells, widths)) + " ;")
    if test.listed:
        names = [f"{plain.format_site(test, site)};" for site in sorted(test.listed, key=plain.site_sort_key)]
        lines.append(f"locations [{' '.join(names)}]")
    lines.append(plain.format_condition(test))
    return rename_registers(plain.join_lines(lines), form)


def format_herd_report(report: str, form: str) -> str:
    """Returns a report of lw in the lines of a log of herd's: with a line `Witnesses`, and a line of time, which is 0. Raises ValueError if the text
    is no report.
    """
    lines = rename_registers(report, form).splitlines()
    if not re.match(r"Test \S+ (Allowed|Forbidden|Required)$", lines[0] if lines else ""):
        raise ValueError("no report of lw begins so")
    verdict = 2 + int(lines[1].split()[1]) if len(lines) > 1 and re.match(r"States \d+$", lines[1]) else len(lines)
    if lines[verdict : verdict + 1] not in (["Ok"], ["No"]):
        raise ValueError("no report of lw has these lines: Ok or No comes after the states")
    name = lines[0].split()[1]
    after_states = lines[verdict + 1 :]
    shown_lines = [line for line in after_states if re.match(r"(Positive|Condition|Observation)\b", line)]
    return plain.join_lines([*lines[: verdict + 1], "Witnesses", *shown_lines, f"Time {name} 0.00", ""])
