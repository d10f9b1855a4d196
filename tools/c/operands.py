"""The operands of instructions, as assemblers write them in AT&T's order."""
from __future__ import annotations

import re
from dataclasses import dataclass
from typing import Union

from c.refused import Refused


@dataclass(frozen=True)
class Register:
    """A register or a part of one: the name of the whole, the bytes of the part, and the first of them."""

    name: str
    size: int
    offset: int = 0


@dataclass(frozen=True)
class Number:
    """An immediate: the address of a symbol, if there is one, plus a number."""

    symbol: str | None
    number: int


@dataclass(frozen=True)
class Memory:
    """A place in memory: symbol + number + base + index * scale."""

    symbol: str | None
    number: int
    base: str | None = None
    index: str | None = None
    scale: int = 1


@dataclass(frozen=True)
class Label:
    """The target of a jump or a call."""

    name: str


@dataclass(frozen=True)
class Through:
    """The target of a jump or a call whose address is in a register or in memory."""

    operand: Register | Memory


@dataclass(frozen=True)
class Other:
    """An operand that is not followed: a vector, a segment."""

    text: str


Operand = Union[Register, Number, Memory, Label, Through, Other]


# The bytes of a vector.
VECTOR = 16


def list_registers() -> dict[str, Register]:
    """Returns the registers by their names in texts."""
    registers: dict[str, Register] = {}
    for letter in "abcd":
        whole = f"r{letter}x"
        registers.update({whole: Register(whole, 8), f"e{letter}x": Register(whole, 4), f"{letter}x": Register(whole, 2)})
        registers.update({f"{letter}l": Register(whole, 1), f"{letter}h": Register(whole, 1, 1)})
    for name in ("si", "di", "bp", "sp"):
        for full, size in ((f"r{name}", 8), (f"e{name}", 4), (name, 2), (f"{name}l", 1)):
            registers[full] = Register(f"r{name}", size)
    for number in range(8, 16):
        for end, size in (("", 8), ("d", 4), ("w", 2), ("b", 1)):
            registers[f"r{number}{end}"] = Register(f"r{number}", size)
    registers.update({f"xmm{number}": Register(f"xmm{number}", VECTOR) for number in range(16)})
    return registers


REGISTERS = list_registers()
WHOLE_REGISTERS = tuple(name for name, it in REGISTERS.items() if name == it.name and it.size == 8)
VECTOR_REGISTERS = tuple(name for name, it in REGISTERS.items() if it.size == VECTOR)
TERM = re.compile(r"([+-]?)(?:([A-Za-z_.$][\w.$]*(?:@\w+)?)|(0x[0-9a-fA-F]+|\d+))")


def parse_number(text: str) -> int:
    """Returns the number that digits represent: hexadecimal after 0x, octal after 0."""
    return int(text, 8) if re.fullmatch(r"-?0[0-7]+", text) else int(text, 0)


def parse_sum(text: str) -> tuple[str | None, int]:
    """Returns a symbol and a number, as in x+4, -4 and x-8. Raises Refused if the text is no such sum."""
    text = re.sub(r"\s", "", text)
    symbol, number, offset = None, 0, 0
    while offset < len(text):
        match = TERM.match(text, offset)
        if not match or offset and not match[1]:
            raise Refused(f"'{text}' is no sum of a symbol and a number")
        sign, name, digits = match.groups()
        if name and (symbol or sign == "-"):
            raise Refused(f"'{text}' is a difference of addresses: compile with -fno-pic")
        symbol = strip_plt_suffix(name, text) if name else symbol
        number += 0 if name else -parse_number(digits) if sign == "-" else parse_number(digits)
        offset = match.end()
    return symbol, number


def strip_plt_suffix(name: str, text: str) -> str:
    """Returns a symbol without `@PLT`. Raises Refused for another suffix after `@`. `text` is the whole operand."""
    symbol, _, suffix = name.partition("@")
    if suffix not in ("", "PLT"):
        raise Refused(f"'{text}' is found by a table of addresses, or is a thread's own: compile with -fno-pic, and use no thread-local variable")
    return symbol


def split_operands(text: str) -> list[str]:
    """Returns the parts of a text between commas outside of parentheses."""
    parts, depth, part = [], 0, ""
    for letter in text:
        depth += (letter == "(") - (letter == ")")
        if letter == "," and not depth:
            parts.append(part.strip())
            part = ""
        else:
            part += letter
    return [*parts, part.strip()] if part.strip() else parts


def parse_memory(before: str, inside: str) -> Operand:
    """Returns a place in memory, from the text before the parentheses and that in them."""
    parts = [it.strip() for it in inside.split(",")] + ["", ""]
    names = [it[1:] for it in parts[:2]]
    symbol, number = parse_sum(before)
    if names[0] == "rip":
        return Memory(symbol, number) if symbol and not names[1] else Other(f"{before}({inside})")
    if any(it and (it not in REGISTERS or REGISTERS[it].size != 8) for it in names):
        return Other(f"{before}({inside})")
    return Memory(symbol, number, names[0] or None, names[1] or None, parse_number(parts[2] or "1"))


def parse_operand(text: str) -> Operand:
    """Returns the operand that a text represents."""
    if "%fs:" in text or "%gs:" in text:
        return Other(text)
    if text.startswith("*"):
        inner = parse_operand(text[1:].strip())
        return Through(inner) if isinstance(inner, (Register, Memory)) else Other(text)
    if text.startswith("$"):
        return Number(*parse_sum(text[1:]))
    if text.startswith("%"):
        return REGISTERS.get(text[1:], Other(text))
    match = re.fullmatch(r"([^()]*)\(([^()]*)\)", text)
    return parse_memory(match[1], match[2]) if match else Memory(*parse_sum(text))
