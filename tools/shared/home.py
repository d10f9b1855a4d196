"""Has the paths of the repository and its programs, reads crates.txt and other files, and ends checks."""
from __future__ import annotations

import os
import re

TYPE_CHECKING = False
if TYPE_CHECKING:
    from collections.abc import Callable, Iterable

HOME = os.path.dirname(os.path.dirname(os.path.dirname(os.path.abspath(__file__))))
PROGRAM = os.path.join(HOME, "crates", "lw", "out", "lw")
# The program for tests of any size.
BEYOND = os.path.join(HOME, "crates", "beyond", "out", "beyond")


def read_crates() -> dict[str, tuple[str, list[str]]]:
    """Returns the lines of crates.txt, in their order: for each crate its options, which precede the colon, and the crates that it uses."""
    with open(os.path.join(HOME, "crates.txt"), encoding="utf-8") as file:
        lines = re.findall(r"^(\w+)([^:#\n]*):(.*)$", file.read(), re.M)
    return {name: (options.strip(), used.split()) for name, options, used in lines}


def read_lines(path: str) -> list[str]:
    """Returns the lines of a file; none if it is missing."""
    try:
        with open(path, encoding="utf-8") as file:
            return file.read().splitlines()
    except OSError:
        return []


def format_difference(comparison: tuple[str, object, object]) -> str | None:
    """Returns the lines on a difference: the name of the comparison, the expected value, and the value that was found, cut to 2000 characters. `None` if
    they agree.
    """
    subject, expected, actual = comparison
    return None if expected == actual else f"{subject}\n  wanted: {expected!r}\n  found:  {actual!r}"[:2000]


def close_check(
    comparisons: Iterable[tuple[str, object, object]], fault_of: Callable[
        [tuple[str, object, object]], str | None
    ] = format_difference, describe_skipped: Callable[[], str | None] = lambda: None
) -> int:
    """Ends a check: prints what differs, what was left out, and the numbers of comparisons. Returns the exit status.

    A comparison is what is compared, what is expected, and what was found. `fault_of` returns a text if they differ, and otherwise `None`.
    """
    passed = failed = 0
    for fault in map(fault_of, comparisons):
        passed, failed = passed + (fault is None), failed + (fault is not None)
        if fault:
            print(fault, flush=True)
    if line := describe_skipped():
        print(line)
    print(f"{passed} passed, {failed} failed")
    return 1 if failed else 0
