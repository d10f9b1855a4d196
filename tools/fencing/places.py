"""Finds the places where a fence may help: before a load that some path reaches from a store with no fence and no locked instruction between, and
before a branch that two such loads follow.

A fence elsewhere does no more: it may be moved on, over stores and what is the thread's own, to the next load or branch, where it orders
what it ordered before, and perhaps more. So some smallest set of places is among these.
"""
from __future__ import annotations

from collections.abc import Sequence
from dataclasses import replace
from typing import Tuple

import plain
from plain import Statement, Test

Place = Tuple[int, int]
WAITS = ("mfence", "xchg", "xadd")


def find_positions_after_stores(code: Sequence[Statement]) -> set[int]:
    """Returns the positions that some path reaches from a store, with nothing between that waits for it."""
    seen: set[int] = set()
    queue = [after for position, it in enumerate(code) if it.kind == "store" for after in plain.list_successors(it, position)]
    while queue:
        position = queue.pop()
        if position < len(code) and position not in seen:
            seen.add(position)
            queue += plain.list_successors(code[position], position) if code[position].kind not in WAITS else []
    return seen


def find_next_loads(code: Sequence[Statement], position: int) -> set[int]:
    """Returns the positions of the loads that some path reaches from a position, this one included, as its first load, with nothing before it that
    waits.
    """
    if position == len(code) or code[position].kind in WAITS:
        return set()
    if code[position].kind == "load":
        return {position}
    return set().union(*(find_next_loads(code, after) for after in plain.list_successors(code[position], position)))


def is_fence_place(code: Sequence[Statement], position: int) -> bool:
    """Returns whether a fence may help before an instruction, which a waiting store precedes: it is a load, or a branch to several next loads."""
    is_branch = code[position].kind in ("je", "jne")
    return code[position].kind == "load" or is_branch and len(find_next_loads(code, position)) > 1


def list_fence_places(test: Test) -> list[Place]:
    """Returns all places where a fence may help: a thread, and the index of the instruction after the fence."""
    places = []
    for thread, code in enumerate(test.threads):
        places += [(thread, position) for position in sorted(find_positions_after_stores(code)) if is_fence_place(code, position)]
    return places


def remove_fences(test: Test, left_out: list[Place]) -> Test:
    """Returns a test without the fences at some places. A jump to one of them targets what follows it."""
    threads = []
    for thread, code in enumerate(test.threads):
        removed = [position for other_thread, position in left_out if other_thread == thread]
        instructions = []
        for it in (it for position, it in enumerate(code) if position not in removed):
            target = None if it.target is None else it.target - sum(position < it.target for position in removed)
            instructions.append(it if target is None else replace(it, target=target))
        threads.append(tuple(instructions))
    return replace(test, threads=threads)


def insert_fences(test: Test, places: list[Place]) -> Test:
    """Returns a test with a fence before each of the instructions at some places. A jump to one of them targets its fence."""
    threads = []
    for thread, code in enumerate(test.threads):
        added = [position for other_thread, position in places if other_thread == thread]
        new: list[Statement] = []
        for position, statement in enumerate(code):
            target = None if statement.target is None else statement.target + sum(fence_position < statement.target for fence_position in added)
            new += [Statement("mfence")] * (position in added) + [statement if target is None else replace(statement, target=target)]
        threads.append(tuple(new))
    return replace(test, threads=threads)
