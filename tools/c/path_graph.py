"""All paths through a thread as an acyclic graph: what other threads can see, and questions about what loads have found."""
from __future__ import annotations

from dataclasses import dataclass
from typing import Union

from c.refused import Refused
from c.values import IsSame, Question, Value, list_symbols

MAX_NODES = 4000


@dataclass(frozen=True)
class Load:
    """A load of a location into a symbol."""

    symbol: int
    address: int


@dataclass(frozen=True)
class Store:
    """A store of a value."""

    address: int
    value: Value


@dataclass(frozen=True)
class Exchange:
    """A locked instruction that stores a value, and finds the word before it."""

    symbol: int
    address: int
    value: Value


@dataclass(frozen=True)
class ExchangeAdd:
    """A locked instruction that adds a value, and finds the word before it."""

    symbol: int
    address: int
    value: Value


@dataclass(frozen=True)
class Fence:
    """An instruction that waits for the store buffer: MFENCE, or a locked instruction on memory of the thread's own."""


Effect = Union[Load, Store, Exchange, ExchangeAdd, Fence]


@dataclass(frozen=True)
class Do:
    """An effect, and the node after it."""

    effect: Effect
    after: int


@dataclass(frozen=True)
class Branch:
    """A question, and the nodes after both answers."""

    question: Question
    yes: int
    no: int


@dataclass(frozen=True)
class End:
    """The thread's end: the values that the condition can mention, each with its name."""

    values: tuple[tuple[str, Value], ...]


@dataclass(frozen=True)
class GiveUp:
    """A run that contradicts its guess, passes a loop too often, or never ends."""


Node = Union[Do, Branch, End, GiveUp]


class PathGraph:
    """The nodes of a thread, without duplicates, so that paths that continue in the same way meet. `lines` has the source's lines of each.
    """

    def __init__(self) -> None:
        """Starts with no nodes."""
        self.nodes: list[Node] = []
        self.lines: list[set[int]] = []
        self.numbers: dict[Node, int] = {}
        self.first = 0

    def intern_node(self, node: Node, line: int | None = None) -> int:
        """Returns the index of a node, which it adds if it is new. Raises Refused if there are too many."""
        if node not in self.numbers:
            if len(self.nodes) >= MAX_NODES:
                raise Refused("the thread has too many paths")
            self.numbers[node] = len(self.nodes)
            self.nodes.append(node)
            self.lines.append(set())
        number = self.numbers[node]
        self.lines[number] |= {line} if line else set()
        return number

    def intern_branch(self, question: Question, yes: int, no: int, line: int | None = None) -> int:
        """Returns the index of a question's node, or of what follows if that does not depend on it."""
        return yes if yes == no else self.intern_node(Branch(question, yes, no), line)

    def list_successors(self, number: int) -> list[int]:
        """Returns the successors of a node: their indices."""
        node = self.nodes[number]
        return [node.after] if isinstance(node, Do) else [node.yes, node.no] if isinstance(node, Branch) else []

    def list_reachable(self) -> list[int]:
        """Returns the nodes that the thread can reach, each after its successors."""
        seen, ordered, stack = {self.first}, [], [(self.first, iter(self.list_successors(self.first)))]
        while stack:
            index, rest = stack[-1]
            successor = next((it for it in rest if it not in seen), None)
            if successor is None:
                ordered.append(index)
                stack.pop()
            else:
                seen.add(successor)
                stack.append((successor, iter(self.list_successors(successor))))
        return ordered

    def can_reach(self, kind: type) -> bool:
        """Returns whether the thread can reach a node of a kind."""
        return any(isinstance(self.nodes[it], kind) for it in self.list_reachable())

    def count_max_stores(self) -> int:
        """Returns the maximal number of stores and locked instructions on a path."""
        max_stores: dict[int, int] = {}
        for index in self.list_reachable():
            node = self.nodes[index]
            writes = isinstance(node, Do) and isinstance(node.effect, (Store, Exchange, ExchangeAdd))
            max_stores[index] = max((max_stores[successor] for successor in self.list_successors(index)), default=0) + writes
        return max_stores[self.first]


def list_used_symbols(node: Node) -> frozenset[int]:
    """Returns the symbols that a node reads."""
    if isinstance(node, Do):
        return frozenset() if isinstance(node.effect, (Load, Fence)) else list_symbols(node.effect.value)
    if isinstance(node, Branch):
        return frozenset((node.question.symbol, node.question.other) if isinstance(node.question, IsSame) else (node.question.symbol,))
    return frozenset().union(*(list_symbols(value) for _, value in node.values)) if isinstance(node, End) else frozenset()


def find_defined_symbol(node: Node) -> int | None:
    """Returns the symbol that a node finds, if it finds one. `None` if it finds none."""
    return node.effect.symbol if isinstance(node, Do) and not isinstance(node.effect, (Store, Fence)) else None
