"""Has the common parts of the unit tests of tools: cases that count what they compare, and how they are run.

A file `test_X.py` here has a class for each subject, and a method for each of its rules, which the method's comment states. It is run by
`python3 -m unittest`, by its own `main`, whose last line is 'N passed, M failed', and by tools/check_documents.py. The last two count each
assertion that holds, and each rule, or case of a rule (`subTest`), that doesn't. A method that compares nothing fails, so a loop
over no cases does not pass.
"""
from __future__ import annotations

import sys
import unittest
from collections.abc import Callable, Iterator
from types import ModuleType
from typing import Tuple

import given
from shared import command
from shared.home import close_check


# The name of a comparison, the expected value, and the value that was found.
Comparison = Tuple[str, object, object]


def make_counted_assertion(name: str) -> Callable[..., None]:
    """Returns the assertion of `unittest` with a name, as a method that also counts: each call in `comparison_count`, and each that holds in
    `held_count`.
    """

    def compare(self: Case, *values: object, **options: object) -> None:
        """Compares by the assertion of `unittest`, and counts it."""
        self.comparison_count += 1
        getattr(unittest.TestCase, name)(self, *values, **options)
        self.held_count += 1

    return compare


class Case(unittest.TestCase):
    """The tests of a subject. They use only the four assertions below, which are counted."""

    maxDiff = None
    comparison_count = held_count = 0
    assertEqual, assertTrue, assertFalse, assertIn = map(make_counted_assertion, ("assertEqual", "assertTrue", "assertFalse", "assertIn"))

    def tearDown(self) -> None:
        """Fails a method that has compared nothing."""
        if not self.comparison_count:
            self.fail("nothing was compared")


class Count(unittest.TestResult):
    """The failures of tests, and the number of assertions that held (`held_count`)."""

    held_count = 0

    def stopTest(self, test: unittest.TestCase) -> None:
        """Adds the assertions of a test that has ended."""
        super().stopTest(test)
        if isinstance(test, Case):
            self.held_count += test.held_count


def make_comparisons(module: ModuleType) -> Iterator[Comparison]:
    """Yields all comparisons of a module's tests, for tools/check_documents.py: what is compared, what is expected, and what was found."""
    yield from run_suite(unittest.defaultTestLoader.loadTestsFromModule(module))


def run_suite(suite: unittest.TestSuite) -> Iterator[Comparison]:
    """Yields the comparisons of some tests: one for each assertion that holds, and one for each test that fails."""
    count = Count()
    suite.run(count)
    yield from [("an assertion", "holds", "holds")] * count.held_count
    for test, why in count.failures + count.errors:
        yield f"{test.id()}\n{why}", "holds", "fails"


def main(describe_skipped: Callable[[], str | None] = lambda: None) -> int:
    """Runs the tests of the file that is run, a command without words. `describe_skipped` returns the line that says what is left out, or None."""
    module = sys.modules["__main__"]

    def run() -> int:
        """Runs all tests. Returns the exit status."""
        given.set_output_encoding()
        return close_check(make_comparisons(module), describe_skipped=describe_skipped)

    return command.run_command(run, module.__doc__)
