"""The smallest sufficient sets of fences. A fence only removes outcomes: so each superset of a sufficient set is sufficient, and each
subset of an insufficient one is not. That cuts the search.
"""
from __future__ import annotations

from collections.abc import Callable, Sequence
from itertools import combinations
from typing import Hashable, TypeVar

Fence = TypeVar("Fence", bound=Hashable)


def find_smallest_sets(fences: Sequence[Fence], is_enough: Callable[[frozenset[Fence]], bool]) -> list[list[Fence]]:
    """Returns all sufficient sets with the fewest fences, each in the order of the fences; none if all fences together are not sufficient.
    `is_enough` says whether a set is sufficient.
    """
    whole = frozenset(fences)
    if not is_enough(whole):
        return []
    # Each sufficient set has the fences without which not even the others suffice.
    needed_fences = frozenset(it for it in fences if not is_enough(whole - {it}))
    if is_enough(needed_fences):
        return [sort_set(needed_fences, fences)]
    # The others, in sets of one, of two and so on. A subset of a set that is known to be insufficient is not asked about.
    others = [it for it in fences if it not in needed_fences]
    too_few: list[frozenset[Fence]] = []
    for size in range(1, len(others) + 1):
        smallest_sets = []
        for chosen in combinations(others, size):
            tried = needed_fences.union(chosen)
            if any(tried <= known for known in too_few):
                continue
            if is_enough(tried):
                smallest_sets.append(sort_set(tried, fences))
            else:
                too_few.append(grow_insufficient_set(tried, others, is_enough))
        if smallest_sets:
            return smallest_sets
    return []


def grow_insufficient_set(tried: frozenset[Fence], others: Sequence[Fence], is_enough: Callable[[frozenset[Fence]], bool]) -> frozenset[Fence]:
    """Returns an insufficient set, enlarged as long as it stays insufficient."""
    for fence in others:
        if fence not in tried and not is_enough(tried | {fence}):
            tried |= {fence}
    return tried


def sort_set(chosen: frozenset[Fence], fences: Sequence[Fence]) -> list[Fence]:
    """Returns a set in the order of the fences."""
    return [it for it in fences if it in chosen]
