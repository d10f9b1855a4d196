"""Cycles of edges by the names of diy: the source and the target of each edge, and which cycles are critical."""
from __future__ import annotations

import re
from collections.abc import Iterator, Sequence
from dataclasses import dataclass
from itertools import product

# Edges between threads or within one, to the same location: their source and target.
COMMUNICATIONS = {"Rf": ("W", "R"), "Fr": ("R", "W"), "Co": ("W", "W"), "Ws": ("W", "W")}
COMMUNICATION = re.compile(r"(Rf|Fr|Co|Ws)([ei])([AP]{2})?")
ORDER = re.compile(r"(Po|MFence|LockXchg|LockXadd)([sd])([RW])([RW])([AP]{2})?")
BETWEEN = {"Po": None, "MFence": "mfence", "LockXchg": "xchg", "LockXadd": "xadd"}


class NoCycle(Exception):
    """Why names are no cycle of which a test can be made."""


@dataclass(frozen=True)
class Edge:
    """An edge: its name, the accesses that are its source and target, and what it says of their threads and locations."""

    name: str
    source: str
    target: str
    is_external: bool
    is_same_location: bool
    between: str | None = None  # the fence or locked instruction between the two in one thread
    marks: str = "PP"  # for each access: plain, or by a locked instruction

    @property
    def is_order(self) -> bool:
        """Returns whether the edge is the order of one thread."""
        return not self.is_external and ORDER.fullmatch(self.name) is not None


def parse_edge(name: str) -> Edge:
    """Returns the edge of a name. Raises NoCycle if there is none."""
    match = COMMUNICATION.fullmatch(name)
    if match:
        source, target = COMMUNICATIONS[match[1]]
        return Edge(name.replace("Ws", "Co"), source, target, match[2] == "e", True, None, match[3] or "")
    match = ORDER.fullmatch(name)
    if match:
        return Edge(name, match[3], match[4], False, match[2] == "s", BETWEEN[match[1]], match[5] or "")
    raise NoCycle(f"'{name}' is no edge that is known here")


def make_cycle(names: list[str]) -> list[Edge]:
    """Returns the cycle of some names, rotated so that its last edge goes to another thread. Raises NoCycle if the edges do not fit, or stay on one
    thread or location.
    """
    edges = [parse_edge(name) for name in names]
    if not edges:
        raise NoCycle("a cycle has edges")
    for first, second in zip(edges, [*edges[1:], edges[0]]):
        if first.target != second.source:
            arrival, departure = ("a store" if it == "W" else "a load" for it in (first.target, second.source))
            raise NoCycle(f"'{first.name}' leads to {arrival}, and '{second.name}' from {departure}")
    if sum(it.is_external for it in edges) < 2:
        raise NoCycle("a cycle has at least two edges that lead to another thread")
    if sum(not it.is_same_location for it in edges) < 2:
        raise NoCycle("a cycle has at least two edges that lead to another location")
    while not edges[-1].is_external:
        edges = [*edges[1:], edges[0]]
    return edges


def list_rotations(names: tuple[str, ...]) -> Iterator[tuple[str, ...]]:
    """Yields the rotations of a cycle."""
    for index in range(len(names)):
        yield names[index:] + names[:index]


def choose_rotation(names: tuple[str, ...]) -> tuple[str, ...]:
    """Returns one rotation of a cycle, the same for all of them."""
    return min(list_rotations(names))


# Critical cycles: each thread has one or two accesses, to two locations; one of these goes from thread to thread.
LINKS = {"WR": (("Rfe",), ("Coe", "Rfe")), "WW": (("Coe",),), "RW": (("Fre",),), "RR": (("Fre", "Rfe"),)}


def list_critical_cycles(max_edges: int, max_threads: int, orders: tuple[str, ...] = ("Pod",)) -> Iterator[tuple[str, ...]]:
    """Yields all critical cycles of at most `max_edges` edges and `max_threads` threads, without duplicates. `orders` are the names of the edges
    within a thread, without their letters.
    """
    seen = set()
    for pairs in range(2, max_threads + 1):
        if 2 * pairs <= max_edges:
            for blocks in product(product(orders, ("WW", "WR", "RW", "RR")), repeat=pairs):
                for names in link_blocks(blocks):
                    threads = sum(name[-1] == "e" for name in names)
                    if len(names) <= max_edges and threads <= max_threads and choose_rotation(names) not in seen:
                        seen.add(choose_rotation(names))
                        yield names


def link_blocks(blocks: Sequence[tuple[str, str]]) -> Iterator[tuple[str, ...]]:
    """Yields the cycles that have these edges within threads, in sequence."""
    ways = [LINKS[this[1] + after[0]] for (_, this), (_, after) in zip(blocks, [*blocks[1:], blocks[0]])]
    for links in product(*ways):
        yield tuple(name for (order, letters), link in zip(blocks, links) for name in (order + letters, *link))
