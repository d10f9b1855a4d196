"""The items of a path assignment, and the number of their orders."""
from __future__ import annotations

from collections.abc import Sequence
from itertools import combinations, product
from typing import NamedTuple

from interpreter.compiling import list_successors
from interpreter.tests import Statement, Test


class Accesses(NamedTuple):
    """What a thread's path contributes to the orders: its accesses, the number of its items, and the number of its unordered conflicts with itself:
    of a load with the drain of an earlier store.

    An access is a location, and whether it is written.
    """

    accesses: list[tuple[int, bool]]
    items: int
    own_conflicts: int


def list_paths(statements: Sequence[Statement], position: int = 0) -> list[tuple[int, ...]]:
    """Returns the flow paths from a position to the thread's end, each as the positions on it."""
    if position == len(statements):
        return [()]
    successors = sorted(set(list_successors(statements[position], position)))
    return [(position, *path) for successor in successors for path in list_paths(statements, successor)]


def collect_accesses(statements: Sequence[Statement], path: Sequence[int], is_x86: bool) -> Accesses:
    """Returns what a thread's path, the positions on it, contributes to the orders."""
    accesses: list[tuple[int, bool]] = []
    waiting: list[int] = []  # the locations of stores that may still be in the buffer
    own_conflicts = 0
    for statement in (statements[position] for position in path):
        if statement.kind in ("mfence", "xchg", "xadd"):
            waiting = []
        if statement.kind == "load":
            own_conflicts += waiting.count(statement.location)
        if statement.kind == "store" and is_x86:
            waiting.append(statement.location)
        if statement.location is not None:
            accesses.append((statement.location, statement.kind != "load"))
    drains = sum(statements[position].kind == "store" for position in path) if is_x86 else 0
    return Accesses(accesses, len(path) + drains, own_conflicts)


def count_conflicts(first: list[tuple[int, bool]], second: list[tuple[int, bool]]) -> int:
    """Counts the pairs of accesses of two threads to the same location, at least one of them a write."""
    return sum(location == other_location and (is_write or is_other_write) for location, is_write in first for other_location, is_other_write in second)


def count_orders(test: Test) -> tuple[int, int]:
    """Returns the maximal number of items of a path assignment, and the number of orders of all path assignments, as `./lw` counts them: each
    unordered conflict doubles their number.
    """
    is_x86, max_items, orders = test.language == "X86", 0, 0
    for choice in product(*([collect_accesses(code, path, is_x86) for path in list_paths(code)] for code in test.threads)):
        open_conflicts = sum(thread.own_conflicts for thread in choice)
        open_conflicts += sum(count_conflicts(one.accesses, other.accesses) for one, other in combinations(choice, 2))
        max_items, orders = max(max_items, sum(thread.items for thread in choice)), orders + 2**open_conflicts
    return max_items, orders
