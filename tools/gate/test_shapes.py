"""Tests that tools/cycles.py makes the shapes of docs/FAMILIES.md, and others as it says.

    python3 tools gate.test_shapes, or in tools/ python3 -m unittest gate.test_shapes

- Each row of docs/FAMILIES.md is made from its cycle: its threads are those of the row, and the verdicts of interleaving and x86-TSO and the
  number of states are those of the example.
- All critical cycles up to a size are made without duplicates, interleaving forbids each, and x86-TSO allows those in which a load goes ahead.
- The same holds of all cycles up to six edges of the letters of docs/FAMILIES.md, loads of own stores among them, if no thread has two of the
  letters that lead to another location: docs/AXIOMS.md says so.
- A quiz has the tests that its answers name, and is the same for the same seed.

All answers are those of tools/plain.py; the program is not needed. tools/check_documents.py calls all this (tools/gate/cases.py).
"""
from __future__ import annotations

import os
import re
import sys

import plain
import random_tests
from gate import cases
from gate.examples import HOME, read, run
from shapes.edges import Edge, NoCycle, choose_rotation, list_critical_cycles, make_cycle, parse_edge
from shapes.families import FAMILIES, make_name
from shapes.quiz import list_unpreserved_edges, make_quiz
from shapes.tests import SRC, X86, Shape, format_test, format_threads, make_shape

TIMES = {"three times": 3, "four times": 4}
NO_CYCLES = (
    ("Fre PodWR Fre", "'Fre' leads to a store, and 'Fre' from a load"),
    ("PodWR Free", "'Free' is no edge that is known here"),
    ("PodWR Fri PodWR Fri", "a cycle has at least two edges that lead to another thread"),
    ("PosWR Fre PosWR Fre", "a cycle has at least two edges that lead to another location"),
    ("PodWR Fre PodWR Fre PodWR Fre PodWR Fre PodWR Fre", "the cycle has more than four threads, and lw has four at most"),
    ("PodWR Fre PodWW Coe Coe Coe", "the location x has more than two stores, and its last word does not tell their order"),
)


def read_rows() -> list[tuple[str, ...]]:
    """Returns the rows of docs/FAMILIES.md: a name, threads, a cycle, and the words of interleaving and of x86-TSO."""
    rows = re.findall(r"^\| (\S+) \| ([WR][^|]*) \| ([^|]+) \| (\w+) \| (\w+) \| \d+ \|", read("docs/FAMILIES.md"), re.M)
    return [(name, threads, expand_cycle(cycle), *words) for name, threads, cycle, *words in rows]


def expand_cycle(cycle: str) -> str:
    """Returns a cycle without `three times` and the like."""
    edges, _, times = cycle.partition(", ")
    return " ".join([edges] * TIMES.get(times, 1))


def parse_shape(cycle: str) -> Shape:
    """Returns the shape of a cycle, whose edges are separated by blanks."""
    return make_shape(make_cycle(cycle.split()))


def find_observation(text: str) -> str:
    """Returns the last line of a test's report after its name."""
    return plain.make_report(plain.read_test(text)).splitlines()[-1].split(" ", 2)[2]


class Families(cases.Case):
    """The rows of docs/FAMILIES.md, each of which is made from its cycle."""

    def test_rows(self) -> None:
        """tools/cycles.py has the rows of the page."""
        self.assertEqual({name: cycle for name, _, cycle, *_ in read_rows()}, FAMILIES)

    def test_names(self) -> None:
        """The shape of a cycle has the row's name."""
        for name, _, cycle, *_ in read_rows():
            with self.subTest(cycle):
                self.assertEqual(name, make_name(parse_shape(cycle).edges))

    def test_threads(self) -> None:
        """The shape of a cycle has the row's threads."""
        for name, threads, cycle, *_ in read_rows():
            with self.subTest(name):
                self.assertEqual(sorted(threads.split(", ")), sorted(format_threads(parse_shape(cycle)).split(", ")))

    def test_words(self) -> None:
        """The verdicts of interleaving and x86-TSO are those of the row."""
        for name, _, cycle, *words in read_rows():
            with self.subTest(name):
                self.assertEqual(tuple(words), plain.find_verdicts(plain.read_test(format_test(parse_shape(cycle), name, SRC))))

    def test_reports(self) -> None:
        """The test of a cycle has as many states as the example, in both languages, and as many with its outcome."""
        for name, _, cycle, *_ in read_rows():
            for language, form in ((SRC, name), (X86, f"{name}-x86")):
                if os.path.exists(os.path.join(HOME, "examples", f"{form}.litmus")):
                    with self.subTest(form):
                        expected = find_observation(read(f"examples/{form}.litmus"))
                        self.assertEqual(expected, find_observation(format_test(parse_shape(cycle), form, language)))


class CriticalCycles(cases.Case):
    """All critical cycles up to a size."""

    # The most edges, the orders that are taken, and how many cycles there are.
    SIZES = ((4, ("Pod",), 6), (5, ("Pod",), 12), (6, ("Pod",), 26), (4, ("Pod", "MFenced"), 21))

    def test_count(self) -> None:
        """Each is made once."""
        for max_edges, orders, count in self.SIZES:
            with self.subTest(most=max_edges, orders=orders):
                cycles = list(list_critical_cycles(max_edges, 4, orders))
                self.assertEqual((count, count), (len(cycles), len({choose_rotation(it) for it in cycles})))

    def test_names(self) -> None:
        """Each has a name of its own."""
        for max_edges, orders, count in self.SIZES:
            with self.subTest(most=max_edges, orders=orders):
                self.assertEqual(count, len({make_name(make_cycle(list(it))) for it in list_critical_cycles(max_edges, 4, orders)}))

    def test_words(self) -> None:
        """Interleaving forbids each, and x86-TSO allows those in which a load goes ahead."""
        for max_edges, orders, _ in self.SIZES:
            for cycle in list_critical_cycles(max_edges, 4, orders):
                with self.subTest(" ".join(cycle)):
                    expected = "allowed" if list_unpreserved_edges(list(cycle)) else "forbidden"
                    text = format_test(parse_shape(" ".join(cycle)), make_name(make_cycle(list(cycle))), X86)
                    self.assertEqual(("forbidden", expected), plain.find_verdicts(plain.read_test(text)))


LETTERS = ("PodWW", "PodWR", "PodRW", "PodRR", "Rfe", "Rfi", "Fre", "Coe")


def list_letter_rows(count: int) -> list[tuple[str, ...]]:
    """Returns the rows of this number of letters of docs/FAMILIES.md in which the target of each is the source of the next."""
    rows: list[tuple[str, ...]] = [(it,) for it in LETTERS]
    for _ in range(count - 1):
        rows = [(*row, it) for row in rows for it in LETTERS if parse_edge(row[-1]).target == parse_edge(it).source]
    return rows


def count_thread_orders(edges: list[Edge]) -> list[int]:
    """Returns how many edges to another location each thread of a cycle has."""
    orders = [0]
    for edge in edges:
        orders[-1] += edge.is_order
        orders += [0] if edge.is_external else []
    return orders


def list_letter_cycles(max_letters: int) -> dict[tuple[str, ...], Shape]:
    """Returns the cycles of at most this number of letters that can be made a test, without duplicates, if no thread has two edges to
    another location.
    """
    cycles = {}
    for row in (row for count in range(2, max_letters + 1) for row in list_letter_rows(count)):
        try:
            made_shape = make_shape(make_cycle(list(row)))
        except NoCycle:
            continue
        if max(count_thread_orders(made_shape.edges)) < 2:
            cycles[choose_rotation(row)] = made_shape
    return cycles


class Letters(cases.Case):
    """The cycles of the letters of docs/FAMILIES.md, loads of own stores among them."""

    cycles: dict[tuple[str, ...], Shape]

    @classmethod
    def setUpClass(cls) -> None:
        """Computes all cycles of letters once."""
        cls.cycles = list_letter_cycles(6)

    def test_count(self) -> None:
        """There are 90, and of those that x86-TSO forbids some have a load of an own store."""
        forbidden = [it for it in self.cycles if "Rfi" in it and not list_unpreserved_edges(list(it))]
        self.assertEqual((90, 22), (len(self.cycles), len(forbidden)))

    def test_words(self) -> None:
        """Interleaving forbids each, and x86-TSO allows those with PodWR, or with Rfi and then PodRR, and no others."""
        for names, made_shape in self.cycles.items():
            with self.subTest(" ".join(names)):
                expected = "allowed" if list_unpreserved_edges(list(names)) else "forbidden"
                text = format_test(made_shape, make_name(made_shape.edges), X86)
                self.assertEqual(("forbidden", expected), plain.find_verdicts(plain.read_test(text)))

    def test_own_load_before_store(self) -> None:
        """A load of the own store and then a store relax nothing: they hold as two stores do."""
        self.assertEqual("Never 0 3", find_observation(format_test(parse_shape("Rfi PodRW Rfe PodRR Fre"), "A", X86)))


class Between(cases.Case):
    """Fences between accesses, and locked accesses."""

    def test_both_sides(self) -> None:
        """A fence or a locked instruction on both sides forbids store buffering, and names it."""
        for edge, name in (("MFencedWR", "SB+mfences"), ("LockXchgdWR", "SB+xchgs"), ("LockXadddWR", "SB+xadds")):
            with self.subTest(name):
                made_shape = parse_shape(f"{edge} Fre {edge} Fre")
                self.assertEqual(name, make_name(made_shape.edges))
                self.assertEqual("Never 0 3", find_observation(format_test(made_shape, name, X86)))

    def test_name_of_one_side(self) -> None:
        """A fence on one side is in the name with the order of the other."""
        self.assertEqual("SB+mfence+po", make_name(parse_shape("PodWR Fre MFencedWR Fre").edges))

    def test_locked_accesses(self) -> None:
        """Locked stores, and locked loads, forbid store buffering if they are on both sides, and not on one."""
        for cycle, expected in (
            ("PodWRAP FrePA PodWRAP FrePA", "Never 0 3"),
            ("PodWRPA FreAP PodWRPA FreAP", "Never 0 3"),
            ("PodWRAP Fre PodWR FrePA", "Sometimes 1 3"),
        ):
            with self.subTest(cycle):
                self.assertEqual(expected, find_observation(format_test(parse_shape(cycle), "A", X86)))


class Quizzes(cases.Case):
    """Quizzes of cycles."""

    def setUp(self) -> None:
        """Makes two quizzes."""
        self.quizzes = [(seed, make_quiz(count, seed)) for seed, count in (("1", 8), ("2", 24))]

    def test_seed(self) -> None:
        """A seed gives the same quiz again."""
        for seed, quiz in self.quizzes:
            with self.subTest(seed=seed):
                self.assertEqual([it.text for it in quiz], [it.text for it in make_quiz(len(quiz), seed)])

    def test_questions_differ(self) -> None:
        """No question appears twice."""
        for seed, quiz in self.quizzes:
            with self.subTest(seed=seed):
                self.assertEqual(len(quiz), len({choose_rotation(tuple(it.cycle.split())) for it in quiz}))

    def test_levels(self) -> None:
        """A quiz goes from easy to hard."""
        for seed, quiz in self.quizzes:
            with self.subTest(seed=seed):
                self.assertEqual(sorted(it.level for it in quiz), [it.level for it in quiz])

    def test_families(self) -> None:
        """No question is of a known family."""
        for seed, quiz in self.quizzes:
            for question in quiz:
                with self.subTest(question.name, seed=seed):
                    self.assertFalse(question.name in FAMILIES)

    def test_verdicts(self) -> None:
        """The outcome is allowed if a load goes ahead."""
        for seed, quiz in self.quizzes:
            for question in quiz:
                with self.subTest(question.name, seed=seed):
                    self.assertEqual(question.is_allowed, bool(list_unpreserved_edges(question.cycle.split())))


class Answers(cases.Case):
    """The answer sheet of a quiz."""

    def setUp(self) -> None:
        """Makes a quiz and its sheet."""
        sheet = run(["cycles.py", "--quiz", "6", "--seed", "3", "--answers"])[0]
        self.quiz = make_quiz(6, "3")
        self.schedules = re.findall(r"^(\d+)\. Yes\.[^\n]*\n[^\n]*\n   A schedule: (.*)$", sheet, re.M)

    def test_schedules(self) -> None:
        """Each outcome that is allowed has a schedule, and no other."""
        self.assertEqual([str(number) for number, it in enumerate(self.quiz, 1) if it.is_allowed], [number for number, _ in self.schedules])

    def test_ends(self) -> None:
        """Each schedule leads to the outcome."""
        for number, schedule in self.schedules:
            with self.subTest(number):
                test = self.quiz[int(number) - 1].test
                is_final, outcome = random_tests.find_end(test, schedule)
                self.assertEqual((True, True), (is_final, plain.is_true_in(test.proposition, outcome)))


class Command(cases.Case):
    """The output and the statuses of tools/cycles.py."""

    def test_no_cycles(self) -> None:
        """Words that are no cycle are refused with their cause."""
        for cycle, message in NO_CYCLES:
            with self.subTest(cycle):
                self.assertEqual(("", f"cycles: {message}\n", 1), run(["cycles.py", *cycle.split()]))

    def test_statuses(self) -> None:
        """A fence in a source test is refused; no words are no command; `--help` is answered."""
        for words, status in ("--source MFencedWR Fre PodWR Fre", 1), ("", 2), ("--help", 0):
            with self.subTest(words):
                self.assertEqual(status, run(["cycles.py", *words.split()])[2])

    def test_wse(self) -> None:
        """Wse, the name in other tools, is Coe."""
        expected = format_test(parse_shape("PodWW Coe PodWW Coe"), "2+2W", X86)
        self.assertEqual(expected, run(["cycles.py", *"PodWW Wse PodWW Wse".split()])[0])


if __name__ == "__main__":
    sys.exit(cases.main())
