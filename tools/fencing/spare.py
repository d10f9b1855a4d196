"""Finds spare fences: they can be left out, one by one, and no outcome is new. No list is needed for that.

The law `lw_axiomatic::spare_fences_change_no_outcome` (specs/SpareFences.antt) says so of a fence for which this holds on every path: each store
before it and each later load that it separates are separated by another fence or locked instruction too, or no other thread has an
instruction that writes what the load reads. So only stores count from which some path reaches the fence with nothing between that waits, and
only loads that some such path reaches from the fence. That the code here is as the law has it is tested and not proved.
"""
from __future__ import annotations

from collections.abc import Sequence


import plain
from fencing.places import WAITS, Place, find_positions_after_stores
from plain import Statement, Test

WRITES = ("store", "xchg", "xadd")


def find_loads_after(code: Sequence[Statement], position: int) -> set[int]:
    """Returns the positions of the loads that some path reaches from after a position, with nothing between that waits."""
    loads_after, seen, queue = set(), set(), list(plain.list_successors(code[position], position))
    while queue:
        reached = queue.pop()
        if reached < len(code) and reached not in seen and code[reached].kind not in WAITS:
            seen.add(reached)
            loads_after |= {reached} if code[reached].kind == "load" else set()
            queue += plain.list_successors(code[reached], reached)
    return loads_after


def is_only_written_by(test: Test, thread: int, location: int) -> bool:
    """Returns whether no other thread has an instruction that writes a location."""
    others = (code for other, code in enumerate(test.threads) if other != thread)
    return not any(it.kind in WRITES and it.location == location for code in others for it in code)


def is_spare(test: Test, place: Place) -> bool:
    """Returns whether the law says that an x86 test has the same outcomes without the fence at a place."""
    thread, position = place
    code = test.threads[thread]
    if position not in find_positions_after_stores(code):
        return True
    return all(is_only_written_by(test, thread, code[load].location) for load in find_loads_after(code, position))
