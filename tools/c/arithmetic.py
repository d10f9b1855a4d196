"""The results of operations on values, and the flags that they set."""
from __future__ import annotations

from typing import Optional, Tuple

from c.flags import Flags, Source
from c.refused import Refused
from c.values import MASK, Symbol, Value, to_signed
from c.execution_path import ExecutionPath

Result = Tuple[Value, Optional[Flags]]
LOGIC = {"and": lambda x, y: x & y, "test": lambda x, y: x & y, "or": lambda x, y: x | y, "xor": lambda x, y: x ^ y}
SHIFTS = {
    "shl": lambda x, count, size: x << count,
    "sal": lambda x, count, size: x << count,
    "shr": lambda x, count, size: x >> count,
    "sar": lambda x, count, size: to_signed(x, size) >> count,
}


def add_values(path: ExecutionPath, left: Value, right: Value, size: int) -> Value:
    """Returns a sum. A symbol and a number stay a symbol, even if its word is known, so that it is equal on paths on which it is not."""
    numbers = path.resolve(left), path.resolve(right)
    if numbers[1] is None or isinstance(right, Symbol) and not isinstance(left, Symbol):
        left, right, numbers = right, left, (numbers[1], numbers[0])
    if numbers[1] is None:
        return path.apply_both(left, right, lambda x, y: x + y & MASK[size])
    if not isinstance(left, Symbol):
        return numbers[0] + numbers[1] & MASK[size]
    if not numbers[1] & MASK[size] and (left.size if left.added else left.width) <= size:
        return left
    if left.width == left.size == size >= 4:
        return Symbol(left.id, left.width, left.added + numbers[1] & MASK[size], size)
    return path.apply(left, lambda it: it + numbers[1] & MASK[size])


def subtract_values(path: ExecutionPath, left: Value, right: Value, size: int) -> Value:
    """Returns a difference."""
    subtrahend = path.resolve(right)
    if subtrahend is not None:
        return add_values(path, left, -subtrahend & MASK[size], size)
    return path.apply_both(left, right, lambda x, y: x - y & MASK[size])


def compute_logical(path: ExecutionPath, base: str, left: Value, right: Value, size: int) -> Result:
    """Returns the result of AND, OR, XOR or TEST. An operation that preserves all words of a symbol preserves the symbol."""
    if left is None or right is None:
        numbers = [path.resolve(it) for it in (left, right) if it is not None]
        if base == "and" and numbers == [0] or base == "or" and numbers == [MASK[size]]:
            return numbers[0], Flags(Source.LOGIC, numbers[0], None, size)
    if left == right and isinstance(left, Symbol) and base != "xor":
        return left, Flags(Source.LOGIC, left, None, size)
    for operand, other in ((left, right), (right, left)):
        if isinstance(operand, Symbol) and path.resolve(operand) is None and (number := path.resolve(other)) is not None:
            if all(LOGIC[base](word, number) & MASK[size] == word for word in path.list_words(operand)):
                return operand, Flags(Source.LOGIC, operand, None, size)
    word = path.apply_both(left, right, lambda x, y: LOGIC[base](x, y) & MASK[size])
    return word, Flags(Source.LOGIC, word, None, size)


def shift_value(path: ExecutionPath, base: str, value: Value, count: Value, size: int) -> Result:
    """Returns the result of a shift. A shift by 0 preserves the flags."""
    number = path.require_number(count) & (63 if size == 8 else 31)
    word = path.apply(value, lambda it: SHIFTS[base](it, number, size) & MASK[size])
    return word, Flags(Source.SHIFT, word, None, size) if number else None


def rotate_value(path: ExecutionPath, base: str, value: Value, count: Value, size: int) -> Value:
    """Returns the result of a rotation."""
    number = (path.require_number(count) & (63 if size == 8 else 31)) % (8 * size)
    left_shift = number if base == "rol" else -number % (8 * size)
    return path.apply(value, lambda it: (it << left_shift | it >> (8 * size - left_shift)) & MASK[size])


def compute_result(path: ExecutionPath, base: str, left: Value, right: Value, size: int) -> Result:
    """Returns the result of `left = left op right`, and the flags; `None` for flags that are preserved, and for the result of CMP. Raises Refused for
    any other operation.
    """
    if base == "add":
        return add_values(path, left, right, size), Flags(Source.SUM, left, right, size)
    if base in ("sub", "cmp"):
        return None if base == "cmp" else subtract_values(path, left, right, size), Flags(Source.DIFFERENCE, left, right, size)
    if base == "inc":
        return add_values(path, left, 1, size), Flags(Source.SUM, left, 1, size, has_carry=False)
    if base == "dec":
        return subtract_values(path, left, 1, size), Flags(Source.DIFFERENCE, left, 1, size, has_carry=False)
    if base in LOGIC:
        return compute_logical(path, base, left, right, size)
    if base == "neg":
        return path.apply(left, lambda it: -it & MASK[size]), Flags(Source.DIFFERENCE, 0, left, size)
    if base == "not":
        return path.apply(left, lambda it: ~it & MASK[size]), None
    if base in SHIFTS:
        return shift_value(path, base, left, right, size)
    raise Refused(f"'{base}' is not followed")


def divide(path: ExecutionPath, high: Value, low: Value, divisor: Value, size: int, is_signed: bool) -> tuple[int, int]:
    """Returns the quotient and the remainder of a division. Raises Refused if the divisor may be 0, or a quotient too large."""
    dividend, number = path.require_number(high) << 8 * size | path.require_number(low), path.require_number(divisor)
    if is_signed:
        dividend, number = to_signed(dividend, 2 * size), to_signed(number, size)
    if number == 0:
        raise Refused("a division by 0 may be")
    quotient = abs(dividend) // abs(number) * (1 if (dividend < 0) == (number < 0) else -1)
    minimum, maximum = (-(1 << 8 * size - 1), (1 << 8 * size - 1) - 1) if is_signed else (0, MASK[size])
    if not minimum <= quotient <= maximum:
        raise Refused("a quotient may be too large")
    return quotient & MASK[size], dividend - quotient * number & MASK[size]
