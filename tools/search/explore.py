"""The search for the final states of a test: through its states, without duplicates, the nearest first, with the way to each.

A thread whose next event no other thread can notice or disturb any more executes it at once, and nothing else is explored from there: a
step or a drain of a location that no other thread may still read or write, or a load of one that no other may still write. Every final
state is still reached, since the events of the others may follow it.
"""
from __future__ import annotations

from collections.abc import Callable, Iterator
from typing import NamedTuple, Tuple

import plain
from plain import Test
from search.threads import EXCHANGE, FORWARD, LOAD, NONE, STORE, ThreadNode, Thread

STEP, DRAIN = 0, 1
# A state of the search: the index of the memory, and of each thread the index of its node.
State = Tuple[int, ...]
# A move: its kind, the location that is written or -1, the word, the node after it, and the number of statements executed.
Move = Tuple[int, int, int, int, int]


class SearchResult(NamedTuple):
    """The result of a search: a schedule to each final state, by the words of the observed sites; whether all states were explored; and the number of
    states that were found, explored or not.
    """

    schedules: dict[tuple[int, ...], str]
    is_whole: bool
    state_count: int


def make_drain(node: ThreadNode) -> Move:
    """Returns the drain of a node's oldest entry, which it has."""
    location, word, end, count = node.drain
    return DRAIN, location, word, end, count


class Search:
    """A search for the final states of a test."""

    def __init__(self, test: Test) -> None:
        """Starts a search with the start of a test as its only state."""
        self.test = test
        self.threads = [Thread(test, number) for number in range(len(test.threads))]
        # All contents of memory that were found, by their indices, and the index of each.
        self.words: list[tuple[int, ...]] = [test.words]
        self.memories: dict[tuple[int, ...], int] = {test.words: 0}
        self.stored: dict[tuple[int, int, int], int] = {}  # the memory after another one, a location, and a word that is stored there
        start = (0, *(thread.start for thread in self.threads))
        self.indices: dict[State, int] = {start: 0}
        self.states: list[State] = [start]
        # For each state, except the start, the index of the state before it, and of the move between them the thread, the kind, and the number of
        # statements executed.
        self.origins: list[tuple[int, int, int, int]] = [(0, 0, STEP, 0)]

    def replace_word(self, memory: int, location: int, word: int) -> int:
        """Returns the index of the memory that differs from another by the word of a location. Adds this memory if it is new."""
        key = (memory, location, word)
        after = self.stored.get(key)
        if after is None:
            words = self.words[memory]
            words = words[:location] + (word,) + words[location + 1 :]
            after = self.memories.setdefault(words, len(self.words))
            if after == len(self.words):
                self.words.append(words)
            self.stored[key] = after
        return after

    def make_step(self, thread: Thread, node: ThreadNode, words: tuple[int, ...]) -> Move:
        """Returns the step of a thread, which has one, in a memory with these words."""
        kind, location = node.kind, node.location
        if kind == FORWARD:
            return (STEP, -1, 0) + node.end
        if kind == STORE:
            return (STEP, location, node.word) + node.end
        word = words[location]
        new, node_after, steps = node.ends.get(word) or thread.finish_read(node, word)
        return STEP, location if kind == EXCHANGE else -1, new, node_after, steps

    def list_moves(self, state: State) -> Iterator[tuple[int, Move]]:
        """Yields the moves from a state, each with its thread; only one if it is sufficient to explore that."""
        words = self.words[state[0]]
        nodes = [thread.nodes[number] for thread, number in zip(self.threads, state[1:])]
        for index, node in enumerate(nodes):
            reads = writes = 0
            for number, other in enumerate(nodes):
                if number != index:
                    reads |= other.reads
                    writes |= other.writes
            move = self.find_independent_move(index, node, words, reads, writes)
            if move:
                yield index, move
                return
        for index, node in enumerate(nodes):
            if node.drain:
                yield index, make_drain(node)
            if node.kind != NONE:
                yield index, self.make_step(self.threads[index], node, words)

    def find_independent_move(self, index: int, node: ThreadNode, words: tuple[int, ...], reads: int, writes: int) -> Move | None:
        """Returns a move of the thread at `index` that no other thread can notice or disturb. `reads` and `writes` are the locations that the others
        may still access, a bit each. `None` if it has no such move.
        """
        if node.drain and not (reads | writes) >> node.drain[0] & 1:
            return make_drain(node)
        if node.kind == NONE:
            return None
        watched = writes if node.kind in (FORWARD, LOAD) else reads | writes
        return None if watched >> node.location & 1 else self.make_step(self.threads[index], node, words)

    def explore(self, max_states: int, report: Callable[[int, int], None]) -> SearchResult:
        """Explores at most `max_states` states. Calls `report` from time to time with the numbers of explored and of found states. Returns a schedule
        to each final state, whether all states were explored, and how many were found.
        """
        explored = 0
        finals: dict[tuple[int, ...], int] = {}
        observed = plain.list_observed_sites(self.test)
        while explored < len(self.states) and explored < max_states:
            state, is_end = self.states[explored], True
            for thread, (kind, location, word, node, steps) in self.list_moves(state):
                is_end = False
                memory = state[0] if location < 0 else self.replace_word(state[0], location, word)
                after = (memory, *state[1 : thread + 1], node, *state[thread + 2 :])
                if after not in self.indices:
                    self.indices[after] = len(self.states)
                    self.states.append(after)
                    self.origins.append((explored, thread, kind, steps))
            if is_end:
                finals.setdefault(tuple(self.read_word(state, site) for site in observed), explored)
            explored += 1
            if not explored & 0x3FFF:
                report(explored, len(self.states))
        is_whole = explored == len(self.states)
        return SearchResult({words: self.make_schedule(number) for words, number in finals.items()}, is_whole, len(self.states))

    def read_word(self, state: State, site: plain.Site) -> int:
        """Returns the word of a site in a final state."""
        if isinstance(site, plain.LocationSite):
            return self.words[state[0]][site.location]
        return self.threads[site.thread].nodes[state[1 + site.thread]].state.registers[site.register]

    def make_schedule(self, number: int) -> str:
        """Returns the schedule that reaches the state of an index."""
        parts: list[str] = []
        while number:
            number, thread, kind, steps = self.origins[number]
            parts.append(f"D{thread} " * (kind == DRAIN) + f"P{thread} " * steps)
        parts += [f"P{index} " * code.first_steps for index, code in reversed(list(enumerate(self.threads)))]
        return "".join(reversed(parts)).strip()
