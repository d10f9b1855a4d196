"""Exchanges without their lock: XCHG as a plain store, or as a load and a store if its old word is used; LOCK XADD as a load, a sum and a
store. Without the lock no outcome is lost: a run with it is one in which nothing comes between, and the store is drained at once."""
from __future__ import annotations

from collections.abc import Sequence
from dataclasses import replace
from typing import Tuple

from plain import Register, Statement, Test
from search.code import Code

Place = Tuple[int, int]


def list_exchanges(test: Test) -> list[Place]:
    """Returns the places of all exchanges: a thread, and the index of the instruction."""
    return [(thread, index) for thread, code in enumerate(test.threads) for index, it in enumerate(code) if it.kind in ("xchg", "xadd")]


def is_old_word_used(test: Test, place: Place) -> bool:
    """Returns whether the word that an exchange finds may still be read, or is observed."""
    thread, position = place
    return test.threads[thread][position].register in Code(test, thread).needed[position + 1]


def find_free_register(code: Sequence[Statement], test: Test, thread: int) -> int | None:
    """Returns the last of the registers that a thread neither uses nor shows. `None` if there is none."""
    used = {it.register for it in code} | {it.value.register for it in code if isinstance(it.value, Register)}
    used |= Code(test, thread).needed[0] | Code(test, thread).needed[len(code)]
    free = [number for number in range(6) if number not in used]
    return free[-1] if free else None


def make_unlocked_instructions(test: Test, place: Place) -> list[Statement]:
    """Returns the instructions that replace an exchange, without its lock; an empty list if they need a register and none is free."""
    thread, position = place
    exchange, is_used = test.threads[thread][position], is_old_word_used(test, place)
    store = Statement("store", location=exchange.location, value=Register(exchange.register))
    if exchange.kind == "xchg" and not is_used:
        return [store]
    spare = find_free_register(test.threads[thread], test, thread)
    if spare is None:
        return []
    added = [Statement("add", exchange.register, value=Register(spare))] if exchange.kind == "xadd" else []
    restoring = [Statement("set", exchange.register, value=Register(spare))] if is_used else []
    return [Statement("load", spare, exchange.location), *added, store, *restoring]


def format_instructions(instructions: list[Statement]) -> str:
    """Returns the replacement of an exchange, in words."""
    if len(instructions) == 1:
        return "a plain store"
    return "a load, a sum and a plain store" if any(it.kind == "add" for it in instructions) else "a load and a plain store"


def replace_instruction(test: Test, place: Place, instructions: list[Statement]) -> Test:
    """Returns a test with other instructions in place of one."""
    thread, position = place
    growth = len(instructions) - 1
    # Jumps over the place lead further.
    code = [it if it.target is None or it.target <= position else replace(it, target=it.target + growth) for it in test.threads[thread]]
    threads = list(test.threads)
    threads[thread] = tuple(code[:position] + instructions + code[position + 1 :])
    return replace(test, threads=threads)


def list_removable(test: Test) -> dict[Place, list[Statement]]:
    """Returns the places of the fences and the locks that can be left out, in their order, each with the instructions that replace it: none for a fence.
    An exchange for which no register is free is not among them.
    """
    removable: dict[Place, list[Statement]] = {}
    for place in ((thread, index) for thread, code in enumerate(test.threads) for index in range(len(code))):
        kind = test.threads[place[0]][place[1]].kind
        instructions = make_unlocked_instructions(test, place) if kind in ("xchg", "xadd") else []
        if kind == "mfence" or instructions:
            removable[place] = instructions
    return removable


def leave_out(test: Test, removed: dict[Place, list[Statement]]) -> Test:
    """Returns a test in which instructions replace some fences and exchanges: the last one first, so that the others stay in their places."""
    for place, instructions in sorted(removed.items(), reverse=True):
        test = replace_instruction(test, place, instructions)
    return test
