"""Compiles a source test, and writes the canonical text of an x86 test."""
from __future__ import annotations

from collections.abc import Sequence
from dataclasses import replace

from interpreter.conditions import format_condition, format_site, site_sort_key
from interpreter.tests import REGISTERS, Number, Register, Statement, Test, Value, join_lines


def list_successors(statement: Statement, position: int) -> list[int]:
    """Returns the positions that may follow a statement, which is at a position of its thread."""
    if statement.target is None:
        return [position + 1]
    return [statement.target] if statement.kind in ("goto", "jmp") else [position + 1, statement.target]


def find_fenced_loads(statements: Sequence[Statement]) -> set[int]:
    """Returns the positions of the loads that need a fence: those that some path through a thread reaches from a store, with nothing between
    that waits for the store.
    """
    fenced, reached = set(), set()
    waiting = [
        follower for position, statement in enumerate(statements) if statement.kind == "store" for follower in list_successors(statement, position)
    ]
    while waiting:
        position = waiting.pop()
        if position == len(statements) or position in reached:
            continue
        reached.add(position)
        if statements[position].kind == "load":
            fenced.add(position)
        elif statements[position].kind not in ("swap", "fetchadd"):
            waiting += list_successors(statements[position], position)
    return fenced


def compile_statement(statement: Statement) -> list[Statement]:
    """Returns the instructions of a source statement, without a fence. Jumps still target statements."""
    if statement.kind in ("store", "load", "set"):
        return [statement]
    if statement.kind in ("swap", "fetchadd"):
        before = [] if statement.value == Register(statement.register) else [Statement("set", statement.register, value=statement.value)]
        return before + [Statement("xchg" if statement.kind == "swap" else "xadd", statement.register, statement.location)]
    if statement.kind == "sum":
        if statement.left == statement.register:
            return [Statement("add", statement.register, value=statement.value)]
        if statement.value == Register(statement.register):
            return [Statement("add", statement.register, value=Register(statement.left))]
        copy = Statement("set", statement.register, value=Register(statement.left))
        return [copy, Statement("add", statement.register, value=statement.value)]
    if statement.kind == "goto":
        return [Statement("jmp", target=statement.target)]
    jump = "je" if statement.kind == "if equal" else "jne"
    return [Statement("cmp", statement.register, value=statement.value), Statement(jump, target=statement.target)]


def compile_thread(statements: Sequence[Statement], has_fences: bool) -> tuple[Statement, ...]:
    """Returns the instructions of a source thread, with the fences that it needs or with none. Jumps target instructions."""
    fenced = find_fenced_loads(statements) if has_fences else set()
    program: list[Statement] = []
    starts: list[int] = []
    for index, statement in enumerate(statements):
        starts.append(len(program))
        program += [Statement("mfence")] * (index in fenced) + compile_statement(statement)
    starts.append(len(program))
    return tuple(instruction if instruction.target is None else replace(instruction, target=starts[instruction.target]) for instruction in program)


def compile_test(test: Test, has_fences: bool = True) -> Test:
    """Returns the x86 program of a source test, with the fences that it needs or with none; an x86 test is its own program."""
    if test.language == "X86":
        return test
    return replace(test, language="X86", threads=[compile_thread(it, has_fences) for it in test.threads])


def format_value(value: Value) -> str:
    """Returns a number or a register in the canonical text."""
    return f"${value.word}" if isinstance(value, Number) else REGISTERS["X86"][value.register]


def format_instruction(test: Test, statement: Statement) -> str:
    """Returns an instruction in the canonical text."""
    names = REGISTERS["X86"]
    register = "" if statement.register is None else names[statement.register]
    location = "" if statement.location is None else f"[{test.locations[statement.location]}]"
    value = "" if statement.value is None else format_value(statement.value)
    if statement.kind == "store":
        return f"MOV {location},{value}"
    if statement.kind in ("load", "set"):
        return f"MOV {register},{location or value}"
    if statement.kind in ("add", "cmp"):
        return f"{statement.kind.upper()} {register},{value}"
    if statement.kind in ("xchg", "xadd"):
        return f"{'XCHG' if statement.kind == 'xchg' else 'LOCK XADD'} {location},{register}"
    return "MFENCE" if statement.kind == "mfence" else f"{statement.kind.upper()} L{statement.target}"


def format_cells(test: Test, program: Sequence[Statement]) -> list[str]:
    """Returns the cells of a thread in the canonical text."""
    targets = {it.target for it in program}
    cells = [(f"L{index}: " if index in targets else "") + format_instruction(test, it) for index, it in enumerate(program)]
    return cells + [f"L{len(program)}:"] * (len(program) in targets)


def format_canonical_text(test: Test) -> str:
    """Returns the canonical text of an x86 test."""
    row = lambda cells: f" {' | '.join(cells)} ;"
    columns = [format_cells(test, program) for program in test.threads]
    lines = [f"X86 {test.name}", "{"]
    for thread, words in enumerate(test.registers):
        lines += [f" {thread}:{name}={word};" for name, word in zip(REGISTERS["X86"], words) if word]
    lines += [f" {name}={word};" for name, word in zip(test.locations, test.words)]
    lines += ["}", row(f"P{thread}" for thread in range(len(columns)))]
    for index in range(max(len(column) for column in columns)):
        lines.append(row(column[index] if index < len(column) else "" for column in columns))
    if test.listed:
        names = (f"{format_site(test, site)};" for site in sorted(test.listed, key=site_sort_key))
        lines.append(f"locations [{' '.join(names)}]")
    return join_lines(lines + [format_condition(test)])
