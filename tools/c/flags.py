"""The flags: which instruction set them, from which values, and which conditions can be read from them."""
from __future__ import annotations

from dataclasses import dataclass
from enum import Enum

from c.refused import Refused
from c.values import MASK, Value, to_signed


class Source(Enum):
    """The kind of instruction that set the flags."""

    SUM = "a sum"
    DIFFERENCE = "a difference"
    LOGIC = "a logical operation"
    SHIFT = "a shift"
    EXCHANGE = "CMPXCHG"
    BIT = "a test of a bit"


@dataclass(frozen=True)
class Flags:
    """Flags from two values of `size` bytes. INC and DEC preserve the carry. The value of EXCHANGE is whether it succeeded, that of BIT the
    bit, and that of LOGIC and SHIFT the result.
    """

    source: Source
    left: Value
    right: Value
    size: int
    has_carry: bool = True


SAME_NAMES = {
    "z": "e", "nz": "ne", "c": "b", "nae": "b", "nc": "ae", "nb": "ae", "na": "be", "nbe": "a", "nge": "l", "nl": "ge", "ng": "le", "nle": "g",
}
OPPOSITE = {"ne": "e", "ae": "b", "a": "be", "ge": "l", "g": "le", "ns": "s", "no": "o"}
# The conditions that can be read from flags, without their opposites.
READABLE = {
    Source.SUM: ("e", "b", "be", "l", "le", "s", "o"),
    Source.DIFFERENCE: ("e", "b", "be", "l", "le", "s", "o"),
    Source.LOGIC: ("e", "b", "be", "l", "le", "s", "o"),
    Source.SHIFT: ("e", "s"),
    Source.EXCHANGE: ("e",),
    Source.BIT: ("b",),
}


def parse_condition(letters: str) -> tuple[str, bool]:
    """Returns the condition that the letters of a mnemonic name, and whether it must hold. Raises Refused if the letters name none."""
    name = SAME_NAMES.get(letters, letters)
    name, expected = (OPPOSITE[name], False) if name in OPPOSITE else (name, True)
    if name not in READABLE[Source.SUM]:
        raise Refused(f"the condition '{letters}' is not followed")
    return name, expected


def require_readable(flags: Flags | None, name: str) -> Flags:
    """Returns the flags. Raises Refused if they do not determine a condition."""
    if flags is None:
        raise Refused("flags are read that nothing here has set")
    if name not in READABLE[flags.source] or name in ("b", "be") and not flags.has_carry:
        raise Refused(f"a flag is read that {flags.source.value} before leaves alone or undefined")
    return flags


def evaluate_condition(name: str, source: Source, left: int, right: int, size: int) -> bool:
    """Returns whether a condition holds after an operation on two words."""
    if source is Source.DIFFERENCE:
        result, carry = left - right & MASK[size], left < right
        overflow = to_signed(left, size) - to_signed(right, size) != to_signed(result, size)
    elif source is Source.SUM:
        result, carry = left + right & MASK[size], left + right > MASK[size]
        overflow = to_signed(left, size) + to_signed(right, size) != to_signed(result, size)
    else:
        result, carry, overflow = left, False, False
    sign, is_less = bool(result >> (8 * size - 1)), bool(result >> (8 * size - 1)) != overflow
    table = {"e": result == 0, "b": carry, "be": carry or result == 0, "l": is_less, "le": is_less or result == 0, "s": sign, "o": overflow}
    return table[name]
