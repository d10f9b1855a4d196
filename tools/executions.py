"""Lists the executions of an x86 test by the axiomatic model of x86-TSO, and says which axioms they satisfy.

The model is that of Owens, Sarkar and Sewell ('A better x86 memory model', TPHOLs 2009) in the words of 'Herding Cats' (Alglave,
Maranget and Tautschnig, TOPLAS 2014): a candidate execution says which instructions each thread executes, which write each read reads from
(rf), and in which order the writes of each location come (co). From-reads (fr) leads from a read to the writes after the one that it reads
from. x86-TSO allows the execution if two relations have no cycle:

- coherence: program order of one location, rf, co and fr;
- global happens-before: program order except for a plain store and a later load without a fence or a locked instruction between them, rf of two
  threads, co and fr.

A locked instruction is one event, which reads and writes. The crate that proves this model equal to the machine states the same
axioms; this file is their plain form, for pictures and answers, and is not proved. tools/gate/check_graph.py compares it with the machine.
"""
from __future__ import annotations

from collections import deque
from collections.abc import Iterable, Iterator, Sequence
from itertools import permutations, product
from typing import Any, NamedTuple, Optional, Tuple

import plain

WORD = 1 << 32
READS = ("load", "xchg", "xadd")
WRITES = ("store", "xchg", "xadd")
AXIOMS = ("coherence", "global happens-before")


# The position, the registers and the zero flag of a thread; words that are not known are None.
Registers = Tuple[Optional[int], ...]
ThreadState = Tuple[Optional[int], Registers, Optional[bool]]


class TooMany(Exception):
    """There are more candidate executions than the caller allows."""


class Event(NamedTuple):
    """An instruction that a thread executes. Jumps go forward, so a thread executes each at most once."""

    thread: int
    position: int


class Edge(NamedTuple):
    """A pair of a relation: po, rf, co or fr."""

    kind: str
    source: Event
    target: Event


class Execution:
    """A candidate execution: the positions on each thread's path (`paths`), for each read the write that it reads from, or None for the initial word
    (`rf`), and for each location its writes in coherence order (`co`).

    The words of events follow from these: `read` and `written` have them, None for a word that would only follow from itself. `ends` has each
    thread's registers at its end; it is None if the words lead some thread along another path.
    """

    def __init__(
        self, test: plain.Test, paths: Sequence[Sequence[int]], rf: dict[Event, Event | None], co: dict[int, Sequence[Event]]
    ) -> None:
        """Makes an execution of the paths, reads-from (`rf`) and coherence (`co`), and computes the words of its events."""
        self.test, self.paths, self.rf, self.co = test, paths, rf, co
        self.read: dict[Event, int | None] = {}
        self.written: dict[Event, int | None] = {}
        self.ends = self.compute_words()

    def with_orders(self, co: dict[int, Sequence[Event]]) -> Execution:
        """Returns the same execution with other coherence orders, on which no word depends."""
        other = Execution.__new__(Execution)
        other.__dict__ = {**self.__dict__, "co": co}
        return other

    def find_instruction(self, event: Event) -> plain.Statement:
        """Returns the instruction of an event."""
        return self.test.threads[event.thread][event.position]

    def list_events(self) -> list[Event]:
        """Returns the accesses to memory and the fences, thread by thread."""
        return [it for it in list_events_on_paths(self.test, self.paths) if is_access_or_fence(self.find_instruction(it))]

    # Words.

    def compute_words(self) -> list[Registers] | None:
        """Computes `read` and `written`: follows all paths until no word changes. Returns each thread's registers at its end, or `None` if the words
        lead some thread elsewhere.
        """
        while True:
            before = dict(self.written)
            ends = [self.follow_path(thread, path) for thread, path in enumerate(self.paths)]
            if None in ends:
                return None
            if self.written == before:
                return [it for it in ends if it is not None]

    def follow_path(self, thread: int, path: Sequence[int]) -> Registers | None:
        """Records the words that a thread's events read and write, as far as they are known. Returns the registers at the end of the path, or `None`
        if the words lead elsewhere.
        """
        state: ThreadState = (0, self.test.registers[thread], False)
        for position in path:
            if state[0] not in (position, None):
                return None
            event, statement = Event(thread, position), self.test.threads[thread][position]
            word = self.find_read_word(event) if statement.kind in READS else None
            self.read[event] = word
            if statement.kind in WRITES:
                self.written[event] = compute_written_word(statement, state[1], word)
            state = compute_next_state(statement, position, state, word)
        return state[1] if state[0] in (len(self.test.threads[thread]), None) else None

    def find_read_word(self, event: Event) -> int | None:
        """Returns the word that an event reads. `None` if it is not known so far."""
        source = self.rf[event]
        return self.test.words[self.find_instruction(event).location] if source is None else self.written.get(source)

    def make_outcome(self) -> plain.Outcome:
        """Returns all threads' registers and the locations' words; `None` for a word that would follow only from itself."""
        lasts = [self.co.get(location, ())[-1:] for location in range(len(self.test.locations))]
        words: Any = tuple(self.written[it[0]] if it else self.test.words[location] for location, it in enumerate(lasts))
        assert self.ends is not None
        registers: Any = tuple(self.ends)
        return plain.Outcome(registers, words)

    # Relations.

    def list_po_edges(self) -> list[Edge]:
        """Returns program order, all pairs."""
        return [
            Edge("po", first, second)
            for first in self.list_events()
            for second in self.list_events() if first.thread == second.thread and first.position < second.position
        ]

    def list_rf_edges(self) -> list[Edge]:
        """Returns the pairs of reads-from whose write is no initial word."""
        return [Edge("rf", source, read) for read, source in self.rf.items() if source is not None]

    def list_co_edges(self) -> list[Edge]:
        """Returns coherence order, all pairs."""
        return [Edge("co", first, second) for row in self.co.values() for index, first in enumerate(row) for second in row[index + 1 :]]

    def list_fr_edges(self) -> list[Edge]:
        """Returns from-reads: from each read to the other writes after the one that it reads from."""
        fr_edges = []
        for read, source in self.rf.items():
            row = self.co.get(self.find_instruction(read).location, ())
            later = row if source is None else row[row.index(source) + 1 :]
            fr_edges += [Edge("fr", read, it) for it in later if it != read]
        return fr_edges

    def is_preserved(self, edge: Edge) -> bool:
        """Returns whether a pair of program order is preserved: all pairs are, except a store followed by a load."""
        first, second = self.find_instruction(edge.source), self.find_instruction(edge.target)
        return not (first.kind == "store" and second.kind == "load")

    def has_fence_between(self, edge: Edge) -> bool:
        """Returns whether a fence or a locked instruction is between the events of a pair of program order."""
        between = [it for it in self.list_events() if it.thread == edge.source.thread and edge.source.position < it.position < edge.target.position]
        return any(self.find_instruction(it).kind not in ("store", "load") for it in between)

    def list_coherence_edges(self) -> list[Edge]:
        """Returns the edges of the axiom of coherence."""
        is_of_one_location = lambda it: self.find_instruction(it.source).location == self.find_instruction(it.target).location is not None
        return [*filter(is_of_one_location, self.list_po_edges()), *self.list_rf_edges(), *self.list_co_edges(), *self.list_fr_edges()]

    def list_happens_before_edges(self) -> list[Edge]:
        """Returns the edges of the axiom of global happens-before."""
        external = [it for it in self.list_rf_edges() if it.source.thread != it.target.thread]
        return [*filter(self.is_preserved, self.list_po_edges()), *external, *self.list_co_edges(), *self.list_fr_edges()]

    def find_broken_axiom(self) -> tuple[str, list[Edge]] | None:
        """Returns the first axiom that the execution violates, with a shortest cycle; `None` if it satisfies both."""
        for axiom, edges in zip(AXIOMS, (self.list_coherence_edges, self.list_happens_before_edges)):
            if cycle := find_shortest_cycle(edges()):
                return axiom, cycle
        return None

    def find_cycle(self) -> list[Edge] | None:
        """Returns a shortest cycle of program order, rf, co and fr together: there is one if the execution is not sequentially consistent. `None` if
        it is.
        """
        return find_shortest_cycle([*self.list_po_edges(), *self.list_rf_edges(), *self.list_co_edges(), *self.list_fr_edges()])


def is_access_or_fence(statement: plain.Statement) -> bool:
    """Returns whether an instruction accesses memory or is a fence: only such events are in an execution's relations."""
    return statement.location is not None or statement.kind == "mfence"


def list_events_on_paths(test: plain.Test, paths: Sequence[Sequence[int]]) -> list[Event]:
    """Returns the events of all instructions on the threads' paths, jumps among them, thread by thread."""
    return [Event(thread, position) for thread, path in enumerate(paths) for position in path]


# One thread's instructions, with words that may be unknown (None).


def resolve_value(value: plain.Value | None, registers: Registers) -> int | None:
    """Returns the word of a value, if it is known. `None` if it is not."""
    assert value is not None
    return value.word if isinstance(value, plain.Number) else registers[value.register]


def add_words(first: int | None, second: int | None) -> int | None:
    """Returns the sum of two words, if both are known. `None` if one is not."""
    return None if first is None or second is None else (first + second) % WORD


def are_equal(first: int | None, second: int | None) -> bool | None:
    """Returns whether two words are the same, if both are known. `None` if one is not."""
    return None if None in (first, second) else first == second


def compute_written_word(statement: plain.Statement, registers: Registers, read: int | None) -> int | None:
    """Returns the word that a store or a locked instruction writes to memory, if it reads the word `read`. `None` if the word is not known."""
    if statement.kind == "store":
        return resolve_value(statement.value, registers)
    return registers[statement.register] if statement.kind == "xchg" else add_words(read, registers[statement.register])


def compute_next_state(statement: plain.Statement, position: int, state: ThreadState, read: int | None) -> ThreadState:
    """Returns the position, the registers and the zero flag of a thread after an instruction. `read` is the word that the instruction reads; `None` if
    it reads none, or the word is not known.
    """
    _, registers, zero = state
    if statement.kind in ("je", "jne", "jmp"):
        jumps = True if statement.kind == "jmp" else are_equal(zero, statement.kind == "je")
        return None if jumps is None else statement.target if jumps else position + 1, registers, zero
    if statement.kind in ("load", "xchg"):
        return position + 1, plain.replace_item(registers, statement.register, read), zero
    if statement.kind == "xadd":
        return position + 1, plain.replace_item(registers, statement.register, read), are_equal(add_words(read, registers[statement.register]), 0)
    if statement.kind == "set":
        return position + 1, plain.replace_item(registers, statement.register, resolve_value(statement.value, registers)), zero
    if statement.kind == "add":
        sum_ = add_words(registers[statement.register], resolve_value(statement.value, registers))
        return position + 1, plain.replace_item(registers, statement.register, sum_), are_equal(sum_, 0)
    if statement.kind == "cmp":
        return position + 1, registers, are_equal(registers[statement.register], resolve_value(statement.value, registers))
    return position + 1, registers, zero


# Cycles.


def find_shortest_cycle(edges: Iterable[Edge]) -> list[Edge] | None:
    """Returns the edges of a shortest cycle, or `None`."""
    leaving: dict[Event, dict[Event, Edge]] = {}
    for edge in edges:
        leaving.setdefault(edge.source, {}).setdefault(edge.target, edge)
    if is_acyclic({source: set(targets) for source, targets in leaving.items()}):
        return None
    cycles = [it for it in (find_cycle_through(start, leaving) for start in sorted(leaving)) if it]
    return min(cycles, key=len)


def is_acyclic(targets: dict[Event, set[Event]]) -> bool:
    """Returns whether there is no cycle: events without successors are removed until none is left. `targets` has the successors of each event that has
    some.
    """
    while targets:
        remaining = {source: successors for source, all_of in targets.items() if (successors := all_of & targets.keys())}
        if len(remaining) == len(targets):
            return False
        targets = remaining
    return True


def find_cycle_through(start: Event, leaving: dict[Event, dict[Event, Edge]]) -> list[Edge] | None:
    """Returns a shortest cycle through an event, or `None`."""
    came_by: dict[Event, Edge] = {}
    queue = deque([start])
    while queue:
        event = queue.popleft()
        for target, edge in leaving.get(event, {}).items():
            if target == start:
                return trace_cycle(start, edge, came_by)
            if target not in came_by:
                came_by[target] = edge
                queue.append(target)
    return None


def trace_cycle(start: Event, last: Edge, came_by: dict[Event, Edge]) -> list[Edge]:
    """Returns the edges of a cycle from an event, given the `last` one, which leads back to it. `came_by` has the edge by which each other event was
    reached.
    """
    cycle = [last]
    while cycle[-1].source != start:
        cycle.append(came_by[cycle[-1].source])
    return cycle[::-1]


# All candidate executions.


def list_candidates(test: plain.Test, max_candidates: int) -> Iterator[Execution]:
    """Yields all candidate executions of a test. Raises TooMany once more than `max_candidates` are tried."""
    number = 0
    for paths in product(*map(plain.list_paths, test.threads)):
        events = list_events_on_paths(test, paths)
        statement_of = lambda it: test.threads[it.thread][it.position]
        writes: dict[int, list[Event]] = {}
        for event in events:
            if statement_of(event).kind in WRITES:
                writes.setdefault(statement_of(event).location, []).append(event)
        # For each read the writes that it may read from, of which `None` is the initial word.
        reads = [it for it in events if statement_of(it).kind in READS]
        sources = [[None, *(it for it in writes.get(statement_of(read).location, []) if it != read)] for read in reads]
        for chosen in product(*sources):
            number += 1
            if number > max_candidates:
                raise TooMany
            execution = Execution(test, paths, dict(zip(reads, chosen)), {it: tuple(row) for it, row in writes.items()})
            if execution.ends is None:
                continue
            for rows in product(*(permutations(row) for row in writes.values())):
                number += 1
                yield execution.with_orders(dict(zip(writes, rows)))


def list_allowed_outcomes(test: plain.Test, max_candidates: int) -> set[plain.Outcome]:
    """Returns the outcomes that the axioms allow."""
    return {it.make_outcome() for it in list_candidates(test, max_candidates) if it.find_broken_axiom() is None}


# The execution of a run.


def make_execution(test: plain.Test, schedule: str) -> Execution:
    """Returns the execution of a run of an x86 test to a final state, by its schedule. (Evictions move no word.) Raises Refused if the run is not
    final, or an event is not enabled.
    """
    processors, memory = list(plain.make_x86_start(test)[0]), plain.OneMemory(test.words)
    # The stores that wait in each buffer, the last write to each location so far, and what the execution consists of.
    buffers: list[list[Event]] = [[] for _ in processors]
    last: dict[int, Event | None] = dict.fromkeys(range(len(test.locations)))
    paths: list[list[int]] = [[] for _ in processors]
    rf: dict[Event, Event | None] = {}
    co: dict[int, list[Event]] = {}

    def record_write(event: Event, location: int) -> None:
        """Records that a write reaches memory."""
        last[location] = event
        co.setdefault(location, []).append(event)

    for kind, cpu, _ in plain.read_schedule(schedule, test.locations):
        if kind == "D":
            processors[cpu] = plain.drain_oldest(cpu, processors[cpu], memory)
            event = buffers[cpu].pop(0)
            record_write(event, test.threads[event.thread][event.position].location)
        elif kind == "P":
            event = Event(cpu, processors[cpu].position)
            processors[cpu] = plain.execute_next(test, cpu, processors[cpu], memory)
            statement = test.threads[cpu][event.position]
            paths[cpu].append(event.position)
            # A read finds the newest own store in the buffer, or the last write to memory.
            if statement.kind in READS:
                own_stores = [each for each in buffers[cpu] if test.threads[cpu][each.position].location == statement.location]
                rf[event] = own_stores[-1] if own_stores else last[statement.location]
            if statement.kind == "store":
                buffers[cpu].append(event)
            elif statement.kind in WRITES:
                record_write(event, statement.location)
    if any(buffers) or any(it.position != len(code) for it, code in zip(processors, test.threads)):
        raise plain.Refused(0, "NotFinal")
    return Execution(test, [tuple(it) for it in paths], rf, {location: tuple(row) for location, row in co.items()})
