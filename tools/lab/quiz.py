"""Makes the quiz of tools/make_quiz.py: its tests, and the verdicts of interleaving and x86-TSO on each.

The tests are a teacher's own, or those of tools/shapes/quiz.py, all of which interleaving forbids: a third of them get a question about another word, so that
the end is possible by interleaving. The verdicts come from two reports: that of the x86 test, and that of its source form, which is interleaved: the
same loads and stores, without fences.
"""
from __future__ import annotations

import base64
import hashlib
import json
import re
from collections.abc import Mapping
from random import Random
from typing import Callable, NamedTuple, TypedDict

import films
import plain
from lab import reasons
from lab.codes import MARKS, MAX_TESTS, SYMBOLS
from lab.tests import align_columns
from shapes.quiz import make_quiz
from shared.matches import require_match

MAX_SEED_LETTERS = 8
POSITIVE = re.compile(r"^Positive: (\d+) ", re.M)
WORD = re.compile(r"(?<==)\d+")
FORMS = [(re.compile(r"MOV \[(\w+)\],\$(\d+)"), r"\1 := \2"), (re.compile(r"MOV (\w+),\[(\w+)\]"), r"\1 := \2")]
Report = Callable[[str], str]


class Data(TypedDict):
    """The contents of a quiz's page: its seed and its mark, the hidden answers, the tests' texts, and the hidden reasons."""

    seed: str
    mark: int
    hidden: str
    tests: list[str]
    reasons: list[str]


class OtherData(TypedDict):
    """What a page has of another quiz: its seed and its mark, and the hidden answers."""

    seed: str
    mark: int
    hidden: str


class NoQuiz(Exception):
    """There is no quiz, and why."""


class QuizTest(NamedTuple):
    """A test of the quiz: its text, and whether it can end as its condition says by interleaving and on x86."""

    text: str
    interleaved: bool
    on_x86: bool

    def encode_answers(self) -> int:
        """Returns the right answers, as a code has them."""
        return self.interleaved + 2 * self.on_x86


def make_report_by_program(text: str) -> str:
    """Returns the program's report of a test."""
    return films.ask_program(["states"], text.encode())


def make_report_by_plain(text: str) -> str:
    """Returns the report of a test by tools/plain.py, which is not proved."""
    return plain.make_report(plain.read_test(text))


def choose_reporter() -> Report:
    """Returns the maker of reports: the program if it is that of the sources, and otherwise tools/plain.py."""
    try:
        films.check_program()
    except (films.NoFilm, ImportError, OSError):
        return make_report_by_plain
    return make_report_by_program


# The source form.


def make_source_cell(cell: str) -> str:
    """Returns the statement of an instruction, or nothing for a fence. Raises NoQuiz if the instruction has none."""
    for form, statement in FORMS:
        if form.fullmatch(cell):
            return form.sub(statement, cell)
    if cell not in ("MFENCE", ""):
        raise NoQuiz(f"the instruction {cell} has no source form here")
    return ""


def make_source_form(text: str) -> str:
    """Returns the source test with the loads and stores of an x86 test."""
    heading, braces, threads, *rows, question = text.splitlines()
    columns = zip(*([cell.strip() for cell in row.rstrip("; ").split("|")] for row in rows))
    statements = [[statement for statement in map(make_source_cell, column) if statement] for column in columns]
    lines = [heading.replace("X86", "SRC", 1), braces, threads]
    for index in range(max(map(len, statements))):
        lines.append(" " + " | ".join(column[index] if index < len(column) else "" for column in statements) + " ;")
    registers = dict(zip(plain.REGISTERS["X86"], plain.REGISTERS["SRC"]))
    return re.sub("|".join(registers), lambda it: registers[it[0]], plain.join_lines([*lines, question]))


# The tests.


def is_possible(text: str, report: Report) -> bool:
    """Returns whether a test can end as its condition says, by the report that a function makes."""
    return require_match(POSITIVE.search(report(text)))[1] != "0"


def list_other_ends(text: str) -> list[str]:
    """Returns the texts of a test that have one word of its condition changed."""
    front, asks, question = text.rpartition("exists")
    other_ends = []
    for digit in WORD.finditer(question):
        other_ends += [f"{front}{asks}{question[: digit.start()]}{word}{question[digit.end() :]}" for word in "012" if word != digit[0]]
    return other_ends


def ask_test(text: str, report: Report) -> QuizTest:
    """Returns a test with its verdicts."""
    return QuizTest(text, is_possible(make_source_form(text), report), is_possible(text, report))


def make_possible_by_interleaving(text: str, random: Random, report: Report) -> QuizTest:
    """Returns a test with a random other end that is possible by interleaving, and its verdicts; with its own end if there is no such end."""
    others = list_other_ends(text)
    random.shuffle(others)
    for other_test in (ask_test(other, report) for other in others):
        if other_test.interleaved:
            return other_test
    return ask_test(text, report)


def make_tests(count: int, seed: str, report: Report) -> list[QuizTest]:
    """Returns the tests of a quiz. The same seed makes the same tests, with any program. Raises NoQuiz if the seed or the count is not allowed."""
    check_seed(seed)
    if not 0 < count <= MAX_TESTS:
        raise NoQuiz(f"a quiz has 1 to {MAX_TESTS} tests")
    random = Random(f"turns {seed}")
    changed = set(random.sample(range(count), count // 3))
    tests = []
    for index, question in enumerate(make_quiz(count, seed)):
        tests.append(make_possible_by_interleaving(question.text, random, report) if index in changed else ask_test(question.text, report))
    return tests


def format_own_test(text: str, number: int) -> str:
    """Returns an x86 test in the form that tests of a quiz have, without comments and with a neutral name. Raises Fault as `plain.read_test` does, and NoQuiz if the test asks of all
    ends.
    """
    test = plain.read_test(text)
    if test.language != "X86":
        raise NoQuiz("a quiz asks about X86 tests, of which it makes the source form itself")
    _, canonical = plain.format_canonical_text(test).split("{\n", 1)
    initial, rows = canonical.split("}\n", 1)
    words = " ".join(it.strip() for it in initial.splitlines() if not it.endswith("=0;"))
    braces = f"{{ {words} }}" if words else "{}"
    front, asks, question = re.sub(r"^locations .*\n", "", rows, flags=re.M).rpartition("exists")
    if not asks or front.endswith("~"):
        raise NoQuiz("a quiz asks whether a test can end in a way, so write exists in place of ~exists or forall")
    return f"X86 quiz{number}\n{braces}\n{align_columns(front)}{asks}{question}"


def make_own_tests(texts: Mapping[str, str], report: Report) -> list[QuizTest]:
    """Returns the tests of a quiz of own tests, by the names of their files. Raises NoQuiz, with a file's name, if one has another form."""
    if len(texts) > MAX_TESTS:
        raise NoQuiz(f"a quiz has 1 to {MAX_TESTS} tests")
    tests = []
    for number, (name, text) in enumerate(texts.items(), 1):
        try:
            tests.append(ask_test(format_own_test(text, number), report))
        except NoQuiz as why:
            raise NoQuiz(f"{name}: {why}") from None
    return tests


def check_seed(seed: str) -> None:
    """Raises NoQuiz if a seed is not allowed."""
    if not re.fullmatch(f"[0-9a-z]{{1,{MAX_SEED_LETTERS}}}", seed):
        raise NoQuiz(f"a seed has up to {MAX_SEED_LETTERS} letters, all small, and digits")


# The contents of the page.


def hash_text(text: str) -> int:
    """Returns a number of five bits that depends on a text. With it the answer to the text's test is hidden."""
    state = 2166136261
    for byte in text.encode():
        state = (state ^ byte) * 16777619 % 2**32
    return state >> 16 & 31


def scramble(content: bytes, text: str) -> bytes:
    """Returns bytes, each combined with one that depends on `text`. Twice gives the original bytes."""
    state = 2166136261
    for byte in text.encode():
        state = (state ^ byte) * 16777619 % 2**32
    scrambled = bytearray()
    for byte in content:
        state = (state * 1664525 + 1013904223) % 2**32
        scrambled.append(byte ^ state >> 24)
    return bytes(scrambled)


def hide_reason(seed: str, text: str) -> str:
    """Returns why a test can end this way by interleaving and on x86, or can't, hidden."""
    reasons_text = json.dumps([reasons.explain_by_interleaving(text, make_source_form(text)), reasons.explain_on_x86(text)], separators=(",", ":"))
    return base64.urlsafe_b64encode(scramble(reasons_text.encode(), f"why {seed}{text}")).decode()


def parse_reasons(data: Data) -> list[list[reasons.Reason]]:
    """Returns the reasons that a page's data hide: for each test that by interleaving and that on x86."""
    texts = (scramble(base64.urlsafe_b64decode(it), f"why {data['seed']}{text}") for text, it in zip(data["tests"], data["reasons"]))
    return [json.loads(it) for it in texts]


def hash_tests(texts: list[str], seed: str) -> int:
    """Returns a number that distinguishes the code of another quiz with the same seed."""
    return int(hashlib.sha256(json.dumps([seed, texts]).encode()).hexdigest(), 16) % MARKS


def make_data(seed: str, tests: list[QuizTest]) -> Data:
    """Returns the contents of a quiz's page. No answer is in plain sight; readers of the page's code can read all."""
    texts = [it.text for it in tests]
    hidden = "".join(SYMBOLS[hash_text(seed + it.text) ^ it.encode_answers()] for it in tests)
    return {"seed": seed, "mark": hash_tests(texts, seed), "hidden": hidden, "tests": texts, "reasons": [hide_reason(seed, it) for it in texts]}


def make_other_data(seed: str, tests: list[QuizTest]) -> OtherData:
    """Returns what the page of another quiz needs to read codes of a quiz: its answers are hidden by their places."""
    hidden = "".join(SYMBOLS[hash_text(f"{seed} {index}") ^ it.encode_answers()] for index, it in enumerate(tests))
    return {"seed": seed, "mark": hash_tests([it.text for it in tests], seed), "hidden": hidden}


def parse_answers(data: Data) -> list[int]:
    """Returns the right answers that a page's data hide, for each test as a code has it."""
    return [(hash_text(data["seed"] + text) ^ SYMBOLS.index(symbol)) & 3 for text, symbol in zip(data["tests"], data["hidden"])]
