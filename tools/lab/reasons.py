"""Says why a test of a quiz can end as it asks, or can't: a run, step by step in words, or the accesses of a cycle, and why each precedes the next.

Runs are those of tools/plain.py, and cycles those of tools/executions.py, so a quiz has the same bytes with the program and without.
"""
from __future__ import annotations

from collections.abc import Sequence
from typing import Callable, Dict, Iterator, List, Optional, Union

import executions
import films
import plain
from effects import describe_event
from interpreter.tests import State
from interpreter.walks import Move
from replay_state import parse_replay_state

MAX_CANDIDATES = 400_000
Moves = Callable[[plain.Test, State], Iterator[Move]]
# A run has `steps`, and the `schedule` of the x86 test; a cycle has `events`, of which each comes before the next, and the last before the first,
# and of each in `whys` why it does.
Reason = Dict[str, Union[str, List[str]]]
FindCycle = Callable[[executions.Execution], Optional[Sequence[executions.Edge]]]
ExplainPair = Callable[[executions.Execution, executions.Edge], str]
# Why x86 keeps the order of two accesses of a thread, by their kinds.
KEPT_ON_X86 = {
    ("load", "load"): "x86 keeps a load before a later load",
    ("load", "store"): "x86 keeps a load before a later store",
    ("store", "store"): "x86 keeps a store before a later store: the store buffer is a queue",
}


def list_asked_schedules(test: plain.Test, start: Callable[[plain.Test], State], moves: Moves) -> list[str]:
    """Returns a schedule to each outcome in which a test's condition holds, the shortest first. `moves` yields the successors of a state."""
    finals, origins = plain.explore_states(test, start(test), moves)
    holding = [state for outcome, state in finals.items() if plain.is_true_in(test.proposition, outcome)]
    return sorted((plain.make_schedule(it, origins) for it in holding), key=lambda it: (len(it), it))


def describe_steps(test: plain.Test, schedule: str) -> list[str]:
    """Returns the effect of each event of a run, in words."""
    events = schedule.split()
    states = [parse_replay_state(plain.replay(test, " ".join(events[:number]))[0]) for number in range(len(events) + 1)]
    cells = films.list_x86_cells(plain.format_canonical_text(test)) if test.language == "X86" else films.list_source_cells(test)
    return [describe_event(event, cells, *states[index : index + 2])["words"] for index, event in enumerate(events)]


def join_at_fences(cycle: Sequence[executions.Edge], execution: executions.Execution) -> list[executions.Edge]:
    """Returns the edges of a cycle without its fences: the edges to and from a fence become one, from the access before to the access after."""
    is_fence = lambda event: execution.find_instruction(event).kind == "mfence"
    start = next(index for index, edge in enumerate(cycle) if not is_fence(edge.source))
    edges: list[executions.Edge] = []
    for edge in [*cycle[start:], *cycle[:start]]:
        if is_fence(edge.source):
            edges[-1] = edges[-1]._replace(target=edge.target)
        else:
            edges.append(edge)
    return edges


def rotate_cycle(cycle: list[executions.Edge]) -> list[executions.Edge]:
    """Returns a cycle so that it begins with its first event: two cycles of the same events and edges are then equal."""
    first = min(range(len(cycle)), key=lambda index: cycle[index].source)
    return [*cycle[first:], *cycle[:first]]


def find_cycles(test: plain.Test, find: FindCycle) -> list[tuple[executions.Execution, list[executions.Edge]]]:
    """Returns each execution in which the condition holds, with the cycle of accesses that `find` returns of it. It has to return one of each: no
    run ends this way.
    """
    cycles = []
    for execution in executions.list_candidates(test, MAX_CANDIDATES):
        if plain.is_true_in(test.proposition, execution.make_outcome()):
            cycle = find(execution)
            assert cycle, f"no run of {test.name} ends this way, and an execution does"
            cycles.append((execution, rotate_cycle(join_at_fences(cycle, execution))))
    return cycles


def explain_cycle(test: plain.Test, find: FindCycle, explain: ExplainPair) -> Reason:
    """Returns the accesses, in words, of the shortest cycle of an execution in which the condition holds, and why each comes before the next.
    `explain` says why a thread keeps the order of two of its accesses.
    """
    cycles = find_cycles(test, find)
    if not cycles:
        return {"kind": "cycle", "events": [], "whys": []}
    execution, cycle = min(cycles, key=lambda it: len(it[1]))
    return {
        "kind": "cycle", "events": [describe_access(execution, edge.source) for edge in cycle],
        "whys": [explain_edge(execution, edge, explain) for edge in cycle],
    }


def describe_access(execution: executions.Execution, event: executions.Event) -> str:
    """Returns what an event does, with its thread: what it stores, or what it reads."""
    statement = execution.find_instruction(event)
    location = execution.test.locations[statement.location]
    read, written = execution.read.get(event), execution.written.get(event)
    if statement.kind == "load":
        return f"P{event.thread} reads `{location}={read}`"
    return f"P{event.thread} stores `{location}={written}`" + ("" if statement.kind == "store" else f", having read `{location}={read}`")


def explain_edge(execution: executions.Execution, edge: executions.Edge, explain: ExplainPair) -> str:
    """Returns why the source of an edge comes before its target."""
    if edge.kind == "po":
        return explain(execution, edge)
    location = execution.test.locations[execution.find_instruction(edge.source).location]
    target = f"P{edge.target.thread}"
    if edge.kind == "rf":
        return f"{target} reads the word that this store wrote"
    if edge.kind == "fr":
        return f"it reads `{location}` before {target}'s store overwrites it"
    last = execution.co[execution.find_instruction(edge.source).location][-1]
    if edge.target == last:
        return f"`{location}` ends with {execution.written[last]}, so this store comes first"
    return f"of the two stores to `{location}` this one comes first here"


def explain_in_turns(_: executions.Execution, edge: executions.Edge) -> str:
    """Returns why an access comes before a later one of its thread if threads take turns."""
    return f"P{edge.source.thread} carries out its instructions in order"


def explain_order_on_x86(execution: executions.Execution, edge: executions.Edge) -> str:
    """Returns why x86 keeps the order of two accesses of a thread."""
    first, second = execution.find_instruction(edge.source), execution.find_instruction(edge.target)
    kinds = first.kind, second.kind
    if kinds == ("store", "load") and execution.has_fence_between(edge):
        between = [it.kind for it in execution.test.threads[edge.source.thread][edge.source.position + 1 : edge.target.position]]
        return f"the {'`MFENCE`' if 'mfence' in between else 'locked instruction'} between them waits until this store is in memory"
    if kinds in KEPT_ON_X86:
        return KEPT_ON_X86[kinds]
    if first.location == second.location:
        return "both are to the same location, whose order a thread keeps"
    return "a locked instruction keeps its order with all others"


def find_broken_cycle(execution: executions.Execution) -> Sequence[executions.Edge] | None:
    """Returns the cycle by which an execution breaks an axiom of x86-TSO, or `None` if it breaks none."""
    broken = execution.find_broken_axiom()
    return broken[1] if broken else None


def explain_on_x86(text: str) -> Reason:
    """Returns why a test can end this way on x86-TSO, or can't."""
    test = plain.read_test(text)
    schedules = list_asked_schedules(test, plain.make_x86_start, plain.list_x86_moves)
    if schedules:
        return {"kind": "run", "steps": describe_steps(test, schedules[0]), "schedule": schedules[0]}
    return explain_cycle(test, find_broken_cycle, explain_order_on_x86)


def explain_by_interleaving(text: str, source: str) -> Reason:
    """Returns why a test can end this way by interleaving, or can't; `source` is its source form."""
    test = plain.read_test(source)
    schedules = list_asked_schedules(test, plain.make_source_start, plain.list_source_moves)
    if schedules:
        steps = [rename_to_x86(it) for it in describe_steps(test, schedules[0])]
        return {"kind": "run", "steps": steps, "schedule": make_x86_schedule(plain.read_test(text), schedules[0])}
    return explain_cycle(plain.read_test(source), executions.Execution.find_cycle, explain_in_turns)


def make_x86_schedule(test: plain.Test, schedule: str) -> str:
    """Returns the schedule of an x86 test that does what one of its source form does: each store is drained at once, and fences are carried out."""
    codes = [list(code) for code in test.threads]
    events = []
    for thread in (int(event[1]) for event in schedule.split()):
        while codes[thread]:
            events.append(f"P{thread}")
            kind = codes[thread].pop(0).kind
            if kind == "store":
                events.append(f"D{thread}")
            if kind != "mfence":
                break
    return " ".join([*events, *(f"P{thread}" for thread, code in enumerate(codes) for _ in code)])


def rename_to_x86(words: str) -> str:
    """Returns words in which registers have their names of x86."""
    for name, of_source in zip(plain.REGISTERS["X86"], plain.REGISTERS["SRC"]):
        words = words.replace(f"`{of_source}`", f"`{name}`")
    return words
