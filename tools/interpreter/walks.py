"""All final states, by a walk through all reachable states of a test."""
from __future__ import annotations

from collections import deque
from collections.abc import Callable, Iterator
from typing import Dict, Optional, Tuple

from interpreter.machines import OneMemory, Processor, drain_oldest, execute_next, execute_statement, replace_item
from interpreter.tests import Outcome, Refused, State, Test

# An event, and the state after it.
Move = Tuple[str, State]
# For each state that a walk has reached, the event and the state before it; `None` for the start.
Origins = Dict[State, Optional[Tuple[str, State]]]


def list_source_moves(test: Test, state: State) -> Iterator[Move]:
    """Yields the successors of a source test's state, each with its event: a step of one thread on one memory."""
    places, words = state
    for thread, (position, registers) in enumerate(places):
        if position < len(test.threads[thread]):
            position, registers, new_words = execute_statement(test.threads[thread][position], position, registers, words)
            yield f"P{thread}", (replace_item(places, thread, (position, registers)), new_words)


def make_source_start(test: Test) -> State:
    """Returns the state in which a source test starts."""
    return tuple((0, registers) for registers in test.registers), test.words


def list_x86_moves(test: Test, state: State) -> Iterator[Move]:
    """Yields the successors of an x86 test's state, each with its event: a step or a drain of one processor."""
    processors, words = state
    for cpu, processor in enumerate(processors):
        for event in "PD":
            memory = OneMemory(words)
            try:
                after = execute_next(test, cpu, processor, memory) if event == "P" else drain_oldest(cpu, processor, memory)
            except Refused:
                continue
            yield f"{event}{cpu}", (replace_item(processors, cpu, after), tuple(memory.words))


def make_x86_start(test: Test) -> State:
    """Returns the state in which an x86 test starts."""
    return tuple(Processor(0, registers) for registers in test.registers), test.words


def list_interleaved_moves(test: Test, state: State) -> Iterator[Move]:
    """Yields the successors of an x86 test's state by interleaving on one memory, each with its event: a store is drained at once."""
    for event, (processors, words) in list_x86_moves(test, state):
        cpu = int(event[1])
        memory = OneMemory(words)
        if processors[cpu].buffer:
            processors = replace_item(processors, cpu, drain_oldest(cpu, processors[cpu], memory))
        yield event, (processors, tuple(memory.words))


def make_outcome(state: State) -> Outcome:
    """Returns the outcome of a final state."""
    places, words = state
    return Outcome(tuple(thread.registers if isinstance(thread, Processor) else thread[1] for thread in places), words)


def explore_states(test: Test, start: State, moves: Callable[[Test, State], Iterator[Move]]) -> tuple[dict[Outcome, State], Origins]:
    """Walks through all states that a test reaches from a start; `moves` yields the successors of a state. Returns all outcomes, each with a final
    state that has it, and the origin of each state: the state and the event before it on a shortest path.
    """
    origins: Origins = {start: None}
    finals: dict[Outcome, State] = {}
    queue = deque([start])
    while queue:
        state = queue.popleft()
        is_final = True
        for event, after in moves(test, state):
            is_final = False
            if after not in origins:
                origins[after] = (event, state)
                queue.append(after)
        if is_final:
            finals.setdefault(make_outcome(state), state)
    return finals, origins


def make_schedule(state: State, origins: Origins) -> str:
    """Returns the events that reach a state, separated by blanks."""
    events = []
    while origin := origins[state]:
        event, state = origin
        events.append(event)
    return " ".join(reversed(events))


def list_outcomes(test: Test) -> set[Outcome]:
    """Returns all outcomes of a test: of a source test by interleaving, of an x86 test with store buffers."""
    if test.language == "SRC":
        return set(explore_states(test, make_source_start(test), list_source_moves)[0])
    return set(explore_states(test, make_x86_start(test), list_x86_moves)[0])
