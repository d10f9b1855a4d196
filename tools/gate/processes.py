"""Runs checks of tools/check_documents.py in processes of their own."""
from __future__ import annotations

import multiprocessing
import os
from collections.abc import Callable, Iterable, Iterator, Sequence
from concurrent.futures import ProcessPoolExecutor

from gate.cases import Comparison

# A check, without arguments.
Check = Callable[[], Iterable[Comparison]]
# The checks of the process: those of the process from which it was forked.
kept_checks: list[Check] = []


def keep_checks(checks: Sequence[Check]) -> None:
    """Keeps the checks, of which `run_kept_check` runs one."""
    kept_checks[:] = checks


def run_kept_check(index: int) -> list[Comparison]:
    """Returns the comparisons of a check."""
    return list(kept_checks[index]())


def run_checks(checks: Sequence[Check]) -> Iterator[Comparison]:
    """Runs checks in processes of their own, as many at once as there are processors, and yields their comparisons in the order of the checks."""
    count = len(os.sched_getaffinity(0))
    with ProcessPoolExecutor(count, multiprocessing.get_context("fork"), keep_checks, (checks,)) as pool:
        for compared in pool.map(run_kept_check, range(len(checks))):
            yield from compared
