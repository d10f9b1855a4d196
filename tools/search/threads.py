"""The nodes of the graph of a thread's states, each with an index and with its moves: the search uses only the indices."""
from __future__ import annotations

from typing import Any, Tuple

from plain import WORD, Test, read_value
from search.code import Code, ThreadState

# Kinds of steps: none, a load that is forwarded from the own newest store, a load, a store to memory, and an exchange.
NONE, FORWARD, LOAD, STORE, EXCHANGE = range(5)
# The end of a move: the index of the node after it, and the number of statements executed, local ones included.
End = Tuple[int, int]


class ThreadNode:
    """A node of the graph of a thread's states: its next step, its next drain, and the locations that it may still read and write, a bit each."""

    __slots__ = ("state", "kind", "location", "word", "end", "ends", "drain", "reads", "writes")

    def __init__(self, state: ThreadState, code: Code) -> None:
        """Makes a node whose moves are not known yet: Thread.compute_moves computes them."""
        self.state = state
        self.kind = NONE
        self.location = 0
        self.word = 0
        self.end: Any = None  # an End, of a step that no word decides
        self.ends: dict[int, tuple[int, int, int]] = {}  # for each word that may be found: the word after it, and the end
        self.drain: Any = None  # location, word, and the end, if an entry can drain
        self.reads = code.reads[state.position]
        self.writes = code.writes[state.position]
        for location, _ in state.buffer:
            self.writes |= 1 << location


class Thread:
    """All nodes of a thread that the search reaches."""

    def __init__(self, test: Test, number: int) -> None:
        """Finds all nodes that a thread reaches from its start."""
        self.code = Code(test, number)
        self.indices: dict[ThreadState, int] = {}
        self.nodes: list[ThreadNode] = []
        self.start, self.first_steps = self.add_end(ThreadState(0, test.registers[number], False, ()))

    def add_end(self, state: ThreadState, steps: int = 0) -> End:
        """Runs a thread from a state as far as it involves nothing outside it. Returns the index of the node of the state then, and `steps` increased by
        the number of statements executed. A new node is added with its moves, and so, recursively, are all nodes that these reach.
        """
        state, local_steps = self.code.run_locally(state)
        if state not in self.indices:
            self.indices[state] = len(self.nodes)
            self.nodes.append(ThreadNode(state, self.code))
            self.compute_moves(self.nodes[-1])
        return self.indices[state], steps + local_steps

    def compute_moves(self, node: ThreadNode) -> None:
        """Computes the moves of a node, and the nodes that they reach. The end of a load or an exchange depends on the word that it finds: `finish_read`
        computes it."""
        state = node.state
        if state.buffer:
            location, word = state.buffer[0]
            node.drain = (location, word, *self.add_end(state._replace(buffer=state.buffer[1:])))
        if state.position == self.code.end or self.code.waits(state):
            return
        statement = self.code.statements[state.position]
        node.location = statement.location
        if statement.kind == "load":
            own_words = [word for location, word in state.buffer if location == statement.location]
            node.kind = FORWARD if own_words else LOAD
            if own_words:
                node.end = self.add_end(self.make_end(state, statement.register, own_words[-1]), 1)
        elif statement.kind == "store":
            node.kind, node.word = STORE, read_value(statement.value, state.registers)
            node.end = self.add_end(state._replace(position=state.position + 1), 1)
        else:
            node.kind = EXCHANGE

    def make_end(self, state: ThreadState, register: int, word: int, zero: bool | None = None) -> ThreadState:
        """Returns the state after a statement that puts a word into a register, and sets the zero flag to `zero` unless that is `None`."""
        registers = state.registers[:register] + (word,) + state.registers[register + 1 :]
        return ThreadState(state.position + 1, registers, state.zero if zero is None else zero, state.buffer)

    def finish_read(self, node: ThreadNode, word: int) -> tuple[int, int, int]:
        """Returns what a load or an exchange does that finds a word: the word after it in memory, and its end. Records it in the node's `ends`."""
        statement, state, new = self.code.statements[node.state.position], node.state, word
        zero = None
        if node.kind == EXCHANGE:
            operand = read_value(statement.value, state.registers) if statement.value else state.registers[statement.register]
            new = operand if statement.kind in ("xchg", "swap") else (word + operand) % WORD
            zero = new == 0 if statement.kind == "xadd" else None
        end = (new, *self.add_end(self.make_end(state, statement.register, word, zero), 1))
        node.ends[word] = end
        return end
