"""Writes and reads the codes that students hand in: which quiz, who, and what was answered, in letters and digits with a check sum.

A code is a number to the base 32, and after it, in four symbols, the remainder of the number's division by a prime: no code with
one wrong symbol, or with two neighbours exchanged, is a code. The number holds digits of several bases: the mark of the tests, how many they
are, the seed, the student, and an answer for each test. A student's name in other letters than those of seeds is an empty name, and after it
the bytes of its UTF-8. tools/lab/quiz.html writes the same codes.
"""
from __future__ import annotations

from typing import NamedTuple

SYMBOLS = "0123456789ABCDEFGHJKMNPQRSTVWXYZ"
# The characters that are often read for another symbol.
MISREAD = {"O": "0", "I": "1", "L": "1"}
PRIME = 1048573
LENGTH_OF_SUM = 4
# The letters of a seed and of a student: each by its place from 1, and 0 ends.
LETTERS = "0123456789abcdefghijklmnopqrstuvwxyz "
MARKS, MAX_TESTS, MAX_LETTERS = 1024, 40, 16
# The base of a byte of UTF-8, counted from 1: 0 ends; and how many a name has at most.
BYTES, MAX_BYTES = 257, 4 * MAX_LETTERS
# The characters that may be between the symbols of a code.
BETWEEN = " \t\r-\ufeff"


class BadCode(Exception):
    """A fault of a code: the cause, and its place in the text, from 0."""


class CodeContents(NamedTuple):
    """The contents of a code: the mark of the tests, the seed, the student, and a number for each test: 1 if the answer is that the end is possible by
    interleaving, plus 2 if it is that the end is possible on x86.
    """

    mark: int
    seed: str
    student: str
    answers: list[int]


def encode_letters(text: str) -> list[tuple[int, int]]:
    """Returns the digits of letters, each with its base."""
    return [(len(LETTERS) + 1, LETTERS.index(letter) + 1 if letter else 0) for letter in [*text, ""]]


def encode_student(student: str) -> list[tuple[int, int]]:
    """Returns the digits of a student's name."""
    if all(it in LETTERS for it in student):
        return encode_letters(student)
    return [*encode_letters(""), *((BYTES, it + 1) for it in student.encode()), (BYTES, 0)]


def encode_digits(contents: CodeContents) -> list[tuple[int, int]]:
    """Returns the digits of a code, each with its base."""
    header = [(MARKS, contents.mark), (MAX_TESTS + 1, len(contents.answers))]
    return [*header, *encode_letters(contents.seed), *encode_student(contents.student), *((4, answer) for answer in contents.answers)]


def format_number(number: int, least: int = 0) -> str:
    """Returns a number in the symbols of codes, of at least `least` symbols."""
    text = ""
    while number or len(text) < least:
        number, digit = divmod(number, len(SYMBOLS))
        text = SYMBOLS[digit] + text
    return text


def make_code(contents: CodeContents) -> str:
    """Returns the code of what is handed in."""
    number = 1
    for base, digit in reversed(encode_digits(contents)):
        number = number * base + digit
    return format_number(number) + format_number(number % PRIME, LENGTH_OF_SUM)


def parse_symbols(line: str) -> list[int]:
    """Returns the symbols of a line, each by its value. Raises BadCode at another letter."""
    values = []
    for index, letter in enumerate(line):
        symbol = MISREAD.get(letter.upper(), letter.upper())
        if letter in BETWEEN:
            continue
        if symbol not in SYMBOLS:
            raise BadCode(f"no code has {letter!r}", index)
        values.append(SYMBOLS.index(symbol))
    return values


class Digits:
    """The digits of a number, one after another."""

    def __init__(self, number: int) -> None:
        """Starts at the least digit of a number."""
        self.rest = number

    def take_digit(self, base: int) -> int:
        """Returns the next digit, of a base."""
        self.rest, digit = divmod(self.rest, base)
        return digit

    def take_letters(self, max_letters: int) -> str:
        """Returns the letters up to the digit 0, which ends them; of more than `max_letters` only the first ones."""
        text = ""
        while (digit := self.take_digit(len(LETTERS) + 1)) and len(text) < max_letters:
            text += LETTERS[digit - 1]
        return text


def take_student(digits: Digits) -> str:
    """Returns the name of a student; empty if there is none."""
    if name := digits.take_letters(MAX_LETTERS):
        return name
    student = bytearray()
    while (digit := digits.take_digit(BYTES)) and len(student) < MAX_BYTES:
        student.append(digit - 1)
    try:
        return student.decode()
    except UnicodeDecodeError:
        return ""


def parse_code(line: str) -> CodeContents:
    """Returns the contents of a line's code. Raises BadCode if it is too long, mistyped, or of no quiz."""
    begin = next((index for index, letter in enumerate(line) if letter not in BETWEEN), 0)
    values = parse_symbols(line)
    if len(values) <= LENGTH_OF_SUM:
        raise BadCode("a code is longer", begin)
    number = 0
    for symbol in values[:-LENGTH_OF_SUM]:
        number = number * len(SYMBOLS) + symbol
    sum_in_code = 0
    for symbol in values[-LENGTH_OF_SUM:]:
        sum_in_code = sum_in_code * len(SYMBOLS) + symbol
    if number % PRIME != sum_in_code:
        raise BadCode("the check sum is wrong: the code is mistyped, or a part of it is missing", begin)
    digits = Digits(number)
    mark, count = digits.take_digit(MARKS), digits.take_digit(MAX_TESTS + 1)
    contents = CodeContents(mark, digits.take_letters(MAX_LETTERS), take_student(digits), [digits.take_digit(4) for _ in range(count)])
    if digits.rest != 1 or not (count and contents.seed and contents.student) or values[0] == 0:
        raise BadCode("the check sum is right, and yet this is no code of a quiz", begin)
    return contents
