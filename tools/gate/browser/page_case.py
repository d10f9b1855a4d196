"""Subjects of the page in a browser: unit tests with a user, each of which opens the page anew.

A subject is a class of one of the files here, with a method for each of its rules. They are run on a page that is open at an address, by
tools/gate/check_page.py and tools/gate/check_site.py. A test that fails is run again, in case other work on the machine has held it up.
"""
from __future__ import annotations

import tempfile
import unittest
from collections.abc import Callable, Iterable, Iterator

from gate import cases
from gate.browser.user import Start, User, WINDOW
from gate.cases import Comparison


# How often a test is run at most.
ATTEMPTS = 3


class PageCase(cases.Case):
    """A subject. `user` uses the page; its browser may be one that reports nothing about printing and about what is loaded (Firefox)."""

    user: User

    def setUp(self) -> None:
        """Gives the window its size, and prepares a picture of the end."""
        self.user.driver.set_window_size(*WINDOW)
        self.addCleanup(self.keep_picture)

    def keep_picture(self) -> None:
        """Saves a picture at the end of a test, if that is requested."""
        self.user.stage(self._testMethodName)

    def assertSays(self, words: str, css: str) -> None:
        """Waits until a text contains some words."""
        self.assertIn(words, self.user.text_with(css, words))

    def assertStep(self, words: str) -> None:
        """Waits until the text about the step contains some words."""
        self.assertIn(words, self.user.says(words))

    def assertSoon(self, expected: object, current: Callable[[], object]) -> None:
        """Waits until a function returns the expected value."""
        last: list[object] = [None]

        def is_wanted() -> bool:
            """Returns whether the value is the expected one now."""
            last[0] = current()
            return last[0] == expected

        self.user.is_soon(is_wanted)
        self.assertEqual(expected, last[0])

    def has_devtools(self) -> bool:
        """Returns whether the browser reports more than what a user sees."""
        return hasattr(self.user.driver, "execute_cdp_cmd")


def make_suite(subjects: Iterable[type[PageCase]], user: User | None) -> unittest.TestSuite:
    """Returns the tests of some subjects, run by a user. (Each class is derived anew, since two pages may be tested in parallel.)"""
    suite = unittest.TestSuite()
    for subject in subjects:
        subject_with_user = type(subject.__name__, (subject,), {"user": user, "__module__": subject.__module__, "__doc__": subject.__doc__})
        suite.addTests(unittest.defaultTestLoader.loadTestsFromTestCase(subject_with_user))
    return suite


def count_tests(subjects: Iterable[type[PageCase]]) -> int:
    """Returns the number of tests of some subjects."""
    return make_suite(subjects, None).countTestCases()


def make_comparisons(
    address: str, subjects: Iterable[type[PageCase]], where: str = "in a browser", start: Start | None = None
) -> Iterator[Comparison]:
    """Yields all comparisons on the page at an address, for tools/check_documents.py: what is compared, what is expected, and what was
    found.
    """
    with tempfile.TemporaryDirectory(prefix="lw-browser-") as room:
        user = start_user(address, room, start)
        try:
            for subject, expected, actual in try_tests(make_suite(subjects, user), where):
                yield f"{where}, {subject}", expected, actual
            yield f"{where}, the browser complains of nothing", [], user.complaints()
        finally:
            user.driver.quit()


def start_user(address: str, room: str, start: Start | None) -> User:
    """Returns a user whose browser has started. One that does not start is started again, at most ATTEMPTS times in all."""
    for attempt in range(1, ATTEMPTS):
        try:
            return User(address, tempfile.mkdtemp(dir=room), start)
        except Exception as why:
            print(f"a browser is started again, since at first: {why}", flush=True)
    return User(address, room, start)


def try_tests(suite: unittest.TestSuite, where: str) -> Iterator[Comparison]:
    """Yields the comparisons of tests. A test that fails is printed and run again, at most ATTEMPTS times in all."""
    for test in list(suite):
        assert isinstance(test, PageCase)
        yield from try_test(test, where)


def try_test(test: PageCase, where: str) -> list[Comparison]:
    """Returns the comparisons of a test. If it fails, it is printed and run again, at most ATTEMPTS times in all."""
    for attempt in range(1, ATTEMPTS + 1):
        compared = list(cases.run_suite(unittest.TestSuite([type(test)(test._testMethodName)])))
        failed = [subject for subject, expected, actual in compared if expected != actual]
        if not failed or attempt == ATTEMPTS:
            break
        print(f"{where}, a test is run again, since at first:", *failed, sep="\n", flush=True)
    return compared
