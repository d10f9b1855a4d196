"""Instructions in an order in which all jumps lead forward: loops are unrolled, and other blocks are moved.

A loop is a cycle of the flow graph, and no jump backward by itself: compilers put blocks after a function's end that jump back to its
middle, and no run goes through these twice. So the instructions become the nodes of a graph; each cycle is cut where it is entered, and
written down in copies; and the nodes, of which no cycle is left, are put into an order in which each follows all that lead to it.
"""
from __future__ import annotations

from collections.abc import Iterator
from dataclasses import replace
from typing import NamedTuple

from herd.cells import Instruction
from herd.flow import GIVE_UP
from herd.text import Refused

# The node of a thread's end. GIVE_UP is that of a run that is given up.
END = -2
OPPOSITE = {"JE": "JNE", "JNE": "JE"}
MAX_INSTRUCTIONS = 1000


class Node(NamedTuple):
    """An instruction of the graph: its index in the text, and the nodes of what follows and of its jump's target, if it jumps."""

    origin: int
    after: int | None
    target: int | None

    def list_successors(self) -> list[int]:
        """Returns the nodes that may be next. Neither the end nor an abandoned run is one."""
        return [it for it in (self.after, self.target) if it is not None and it >= 0]


def make_graph(code: list[Instruction]) -> list[Node]:
    """Returns the flow graph of instructions."""
    node_at = lambda index: END if index == len(code) else index
    nodes = []
    for index, instruction in enumerate(code):
        after = None if instruction.mnemonic == "JMP" else node_at(index + 1)
        nodes.append(Node(index, after, None if instruction.target is None else node_at(instruction.target)))
    return nodes


def list_reachable(nodes: list[Node], first: int) -> Iterator[int]:
    """Yields the nodes that some path reaches from a node, each after its successors, unless they are on a cycle with it."""
    seen, stack = {first}, [(first, iter(nodes[first].list_successors()))]
    while stack:
        node, rest = stack[-1]
        successor = next((it for it in rest if it not in seen), None)
        if successor is None:
            yield node
            stack.pop()
        else:
            seen.add(successor)
            stack.append((successor, iter(nodes[successor].list_successors())))


def find_predecessors(nodes: list[Node], reached: list[int]) -> dict[int, list[int]]:
    """Returns the predecessors of each node, once for each edge."""
    before: dict[int, list[int]] = {node: [] for node in reached}
    for node in reached:
        for successor in nodes[node].list_successors():
            before[successor].append(node)
    return before


def find_loops(nodes: list[Node]) -> Iterator[tuple[set[int], int]]:
    """Yields the largest loops that the thread can reach: the nodes of each, and the node by which it is entered (the first in the text if there are
    several).
    """
    reached = list(list_reachable(nodes, 0))
    before, seen = find_predecessors(nodes, reached), set()
    for first in reversed(reached):
        if first in seen:
            continue
        loop, stack = {first}, [first]
        seen.add(first)
        while stack:
            for predecessor in before[stack.pop()]:
                if predecessor not in seen:
                    seen.add(predecessor)
                    loop.add(predecessor)
                    stack.append(predecessor)
        if len(loop) > 1 or first in nodes[first].list_successors():
            entries = [it for it in loop if it == 0 or any(other not in loop for other in before[it])]
            yield loop, min(entries, key=lambda entry: (nodes[entry].origin, entry))


def add_copies(nodes: list[Node], loop: set[int], entry: int, tries: int) -> None:
    """Changes `nodes` so that they have a loop `tries` times, one copy after another. A jump back to the entry goes to the next copy; in the last
    copy it abandons the run.
    """
    ordered = sorted(loop)
    originals, numbers = [nodes[it] for it in ordered], [{it: it for it in ordered}]
    for _ in range(tries - 1):
        numbers.append({it: len(nodes) + index for index, it in enumerate(ordered)})
        nodes += originals
    for copy, number in enumerate(numbers):
        next_entry = numbers[copy + 1][entry] if copy + 1 < tries else GIVE_UP

        def redirect(target: int | None) -> int | None:
            """Returns the node to which this copy goes in place of a node of the loop; others stay."""
            if target is None or target == entry:
                return None if target is None else next_entry
            return number.get(target, target)

        for node_index, node in zip(ordered, originals):
            nodes[number[node_index]] = Node(node.origin, redirect(node.after), redirect(node.target))


def unroll_loops(nodes: list[Node], code: list[Instruction], tries: int) -> None:
    """Changes `nodes` until they have no loop: the outer ones are unrolled first. Raises Refused if there is a loop and no limit of tries, or if the
    copies are too long.
    """
    loops = list(find_loops(nodes))
    while loops:
        for loop, entry in loops:
            if tries < 1:
                last_jump = max(index for index in loop if code[index].target is not None and code[index].target <= index)
                raise Refused("a jump leads backward: --tries N goes through each loop N times at most", code[last_jump].offset)
            add_copies(nodes, loop, entry, tries)
            if len(nodes) > MAX_INSTRUCTIONS:
                raise Refused("the loops make too many instructions", code[nodes[entry].origin].offset)
        loops = list(find_loops(nodes))


def sort_nodes(nodes: list[Node]) -> list[int]:
    """Returns the nodes that can be reached, each after its predecessors, and if possible after one that falls through to it."""
    before = find_predecessors(nodes, list(list_reachable(nodes, 0)))
    missing = {node_index: len(them) for node_index, them in before.items()}
    ready = {0}
    order: list[int] = []
    while ready:
        near = [it for it in nodes[order[-1]].list_successors() if it in ready] if order else []
        node_index = near[0] if near else min(ready, key=lambda it: (nodes[it].origin, it))
        ready.remove(node_index)
        order.append(node_index)
        for successor in nodes[node_index].list_successors():
            missing[successor] -= 1
            if not missing[successor]:
                ready.add(successor)
    return order


def write_node(instruction: Instruction, node: Node, following: int) -> list[tuple[Instruction, int | None]]:
    """Returns the instructions of a node, each with the node to which it jumps, if it does; `following` is the node that is written next.
    """

    def jump_to(target: int | None) -> list[tuple[Instruction, int | None]]:
        """Returns a jump to a node; none if it comes next."""
        return [] if target == following else [(Instruction("JMP", (), instruction.offset), target)]

    if instruction.target is None:
        return [(instruction, None), *jump_to(node.after)]
    if instruction.mnemonic == "JMP" or node.after == node.target:
        return jump_to(node.target)
    if node.target == following:
        return [(replace(instruction, mnemonic=OPPOSITE[instruction.mnemonic]), node.after)]
    return [(instruction, node.target), *jump_to(node.after)]


def unroll_code(code: list[Instruction], tries: int) -> list[Instruction]:
    """Returns the instructions in an order in which all jumps go forward. Each loop is passed at most `tries` times, and a run that would
    continue is abandoned.
    """
    if all(it.target is None or it.target > node for node, it in enumerate(code)):
        return code
    nodes = make_graph(code)
    unroll_loops(nodes, code, tries)
    order = sort_nodes(nodes)
    jumping: list[tuple[Instruction, int | None]] = []
    starts: dict[int, int] = {}
    for node, following in zip(order, [*order[1:], END]):
        starts[node] = len(jumping)
        jumping += write_node(code[nodes[node].origin], nodes[node], following)
    starts.update({END: len(jumping), GIVE_UP: GIVE_UP})
    return [it if to is None else replace(it, target=starts[to]) for it, to in jumping]
