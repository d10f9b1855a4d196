"""The order of the operands of a test in herd's form: Intel's, with the destination first, or AT&T's, with the destination last.

These marks say an order:

- AT&T's: a `%` before a register, an address in parentheses.
- Intel's: an address in brackets, a size as in `DWORD PTR`.
- Either: a number among two operands is no destination, so its place says the order. So does an address in memory of LEA and CMOV, which
  is no destination, and of XADD and CMPXCHG, which is one.

Others say none: `$` (herd's tests of X86 have it in Intel's order), the letter of a size (`movl`, `incl`, `movq` are written in both
orders), and names of locations or registers by themselves. But AT&T's order wants a `%` before each register, so a register without
one contradicts a mark of AT&T's.

Marks that contradict one another refuse the test, unless the order changes nothing. Without a mark the language decides: X86 has Intel's
order, X86_64 has AT&T's.
"""
from __future__ import annotations

from collections.abc import Iterator
from dataclasses import dataclass

import given
from herd.cells import OPERANDS, PREFIXES, split_mnemonic
from herd.registers import parse_register
from herd.text import Refused, Token

# The words of `--order`, and whether each is AT&T's. Without one the order is concluded from marks.
ORDERS = {None: None, "intel": False, "att": True}
NAMES = {True: "AT&T's", False: "Intel's"}
ENDS = {True: "last", False: "first"}
TAKES_NUMBER = ("MOV", "ADD", "SUB", "XOR", "AND", "OR", "CMP", "TEST")
# Of instructions that take memory on one side only: whether that side is the destination.
MEMORY_IS_DESTINATION = {"LEA": False, "CMOVE": False, "CMOVNE": False, "XADD": True, "CMPXCHG": True}
IN_ANY_ORDER = ("XCHG", "TEST")


@dataclass(frozen=True)
class Mark:
    """A mark of an order, in words, and its place."""

    is_att: bool
    offset: int
    words: str


@dataclass(frozen=True)
class Order:
    """The order of a test: whether it is AT&T's, and the note on it with its place, if there is one."""

    is_att: bool
    note: tuple[int, str] | None = None


def split_instruction(cell: list[Token]) -> tuple[str, list[list[Token]]]:
    """Returns the mnemonic of a cell, without the letter of a size, and the tokens of each operand. A jump has a label and no operand."""
    rest = list(cell[:-1])
    while len(rest) > 1 and rest[0].kind == "name" and rest[1].text == ":":
        rest = rest[2:]
    while rest and rest[0].text.upper() in ("LOCK", "REP"):
        rest = rest[1:]
    if not rest:
        return "", []
    operands: list[list[Token]] = [[]]
    depth = 0
    for token in rest[1:]:
        depth += (token.text in ("(", "[")) - (token.text in (")", "]"))
        if token.text == "," and depth <= 0:
            operands.append([])
        else:
            operands[-1].append(token)
    mnemonic = split_mnemonic(rest[0].text)[0]
    return mnemonic, [it for it in operands if it] if mnemonic[0] != "J" else []


def find_spelling_marks(operand: list[Token]) -> Iterator[Mark]:
    """Yields the marks in the spelling of an operand."""
    first, second = operand[0], operand[1] if len(operand) > 1 else operand[0]
    if first.kind == "name" and first.text.upper() in PREFIXES and (second.text == "[" or second.text.upper() == "PTR"):
        yield Mark(False, first.offset, f"'{first.text}'")
    for index, token in enumerate(operand):
        if token.text == "%":
            yield Mark(True, token.offset, f"'%{operand[index + 1].text if index + 1 < len(operand) else ''}'")
        elif token.text in ("(", "["):
            yield Mark(token.text == "(", token.offset, f"'{token.text}'")


def is_number(operand: list[Token]) -> bool:
    """Returns whether an operand is a number, or the address of a location as one."""
    return (operand[0].text in ("$", "-") or operand[0].kind == "number") and not is_memory(operand)


def is_memory(operand: list[Token]) -> bool:
    """Returns whether an operand is in parentheses or brackets."""
    return any(token.text in ("(", "[") for token in operand)


def find_marks(cell: list[Token]) -> Iterator[Mark]:
    """Yields the marks of a cell."""
    mnemonic, operands = split_instruction(cell)
    for operand in operands:
        yield from find_spelling_marks(operand)
    if len(operands) != 2 or OPERANDS.get(mnemonic) != 2:
        return
    for number, operand in enumerate(operands):
        if mnemonic in TAKES_NUMBER and is_number(operand):
            yield Mark(number == 0, operand[0].offset, f"the number in the {'second' if number else 'first'} place")
        if mnemonic in MEMORY_IS_DESTINATION and is_memory(operand):
            words = f"the address in the {'second' if number else 'first'} place of {mnemonic}"
            yield Mark(MEMORY_IS_DESTINATION[mnemonic] == (number == 1), operand[0].offset, words)


def find_bare_registers(cell: list[Token]) -> Iterator[Mark]:
    """Yields the registers of a cell that have no `%`."""
    for operand in split_instruction(cell)[1]:
        for before, token in zip([None, *operand], operand):
            if token.kind == "name" and parse_register(token.text) and not (before and before.text == "%"):
                yield Mark(False, token.offset, f"the register '{token.text}' without a '%'")


def depends_on_order(cell: list[Token]) -> bool:
    """Returns whether the order changes what a cell says."""
    mnemonic, operands = split_instruction(cell)
    if len(operands) != 2 or OPERANDS.get(mnemonic) != 2 or mnemonic in IN_ANY_ORDER:
        return False
    return [it.text for it in operands[0]] != [it.text for it in operands[1]]


def has_bare_name(cell: list[Token]) -> bool:
    """Returns whether some operand begins with a name that is no register's: it may be a word or an address."""
    return any(it[0].kind == "name" and not parse_register(it[0].text) for it in split_instruction(cell)[1])


def make_contradiction_refusal(text: str, att: Mark, intel: Mark) -> Refused:
    """Returns the refusal of a test with two marks that say different orders, at the later one."""
    first, second = sorted((att, intel), key=lambda it: it.offset)
    other = f"{first.words} at {given.format_line_and_column(text, first.offset)} says {NAMES[first.is_att]}"
    says = f"{second.words} says {NAMES[second.is_att]} order of operands, and {other}"
    return Refused(f"{says}: name the order by --order intel or --order att", second.offset)


def find_order(text: str, language: str, threads: list[list[list[Token]]]) -> Order:
    """Returns the order of a test's operands. Raises Refused if its marks contradict one another, and the order changes something."""
    cells = [cell for thread in threads for cell in thread]
    marks = sorted((mark for cell in cells for mark in find_marks(cell)), key=lambda it: it.offset)
    att, intel = [it for it in marks if it.is_att], [it for it in marks if not it.is_att]
    against = intel or (att and sorted((it for cell in cells for it in find_bare_registers(cell)), key=lambda it: it.offset))
    where = [cell[0].offset for cell in cells if depends_on_order(cell)]
    if att and against and where:
        raise make_contradiction_refusal(text, att[0], against[0])
    if marks:
        is_att = marks[0].is_att
        order = f"operands are taken in {NAMES[is_att]} order, the destination {ENDS[is_att]}, as {marks[0].words} says"
        return Order(is_att, (marks[0].offset, order) if where and (is_att or language != "X86") else None)
    is_att = language == "X86_64" and not any(map(has_bare_name, cells))
    order = f"{NAMES[is_att]} is taken, the destination {ENDS[is_att]}, as in herd's tests of {language}"
    return Order(is_att, (where[0], f"no mark says the order of operands: {order}") if where else None)
