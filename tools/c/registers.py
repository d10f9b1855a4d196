"""The assignment of lw's six registers to the symbols of a thread."""
from __future__ import annotations


from c.refused import Refused
from c.values import Symbol
from c.path_graph import End, PathGraph, find_defined_symbol, list_used_symbols

SIX = 6


class Registers:
    """The registers of a thread's symbols. What the condition mentions has registers of its own at the end; the mark's is used last."""

    def __init__(self, graph: PathGraph, seen_registers: dict[str, int], mark: int | None, thread: int) -> None:
        """Chooses registers for the symbols of a thread's paths. `seen_registers` are those of what the condition mentions, by its name."""
        self.graph, self.seen_registers, self.mark, self.thread = graph, seen_registers, mark, thread
        self.live: dict[int, frozenset[int]] = {}  # for each node the symbols that are read in it or after it
        self.register_of: dict[int, int] = {}
        for node_index in graph.list_reachable():
            node = graph.nodes[node_index]
            defined_symbol = find_defined_symbol(node)
            after = self.find_live_after(node_index)
            self.live[node_index] = (after if defined_symbol is None else after - {defined_symbol}) | list_used_symbols(node)
        self.choose_registers()

    def find_live_after(self, node_index: int) -> frozenset[int]:
        """Returns the symbols that are read after a node."""
        return frozenset().union(*(self.live[it] for it in self.graph.list_successors(node_index)))

    def find_conflicts(self) -> dict[int, set[int]]:
        """Returns, for each symbol, those that need another register."""
        conflicts: dict[int, set[int]] = {}
        for node_index in self.graph.list_reachable():
            new = find_defined_symbol(self.graph.nodes[node_index])
            together = self.live[node_index] if new is None else self.find_live_after(node_index) | {new}
            for group in (together, self.live[node_index]):
                for symbol in group:
                    conflicts.setdefault(symbol, set()).update(group - {symbol})
        return conflicts

    def find_wishes(self) -> dict[int, list[int]]:
        """Returns, for each symbol, the registers that hold it at the end."""
        wishes: dict[int, list[int]] = {}
        for node_index in self.graph.list_reachable():
            node = self.graph.nodes[node_index]
            for name, value in node.values if isinstance(node, End) else ():
                if isinstance(value, Symbol) and not value.added:
                    wishes.setdefault(value.id, []).append(self.seen_registers[name])
        return wishes

    def make_too_many_refusal(self) -> Refused:
        """Returns the refusal of a thread for which six registers are not enough."""
        return Refused(f"P{self.thread} needs more than the six registers that lw has")

    def choose_registers(self) -> None:
        """Chooses a register for each symbol. Raises Refused if six are not enough."""
        wishes = self.find_wishes()
        for symbol, others in sorted(self.find_conflicts().items()):
            taken_registers = {self.register_of[it] for it in others if it in self.register_of}
            free = [it for it in range(SIX) if it not in taken_registers]
            if not free:
                raise self.make_too_many_refusal()
            wish = [it for it in wishes.get(symbol, []) if it in free]
            others_free = [it for it in free if it not in (*self.seen_registers.values(), self.mark)]
            self.register_of[symbol] = (wish or others_free or [it for it in free if it != self.mark] or free)[0]

    def find_spare_register(self, node_index: int) -> int:
        """Returns a register that is free at a node. Raises Refused if there is none."""
        taken_registers = {self.register_of[it] for it in self.live[node_index] | self.find_live_after(node_index)}
        free = [it for it in range(SIX) if it not in taken_registers and it != self.mark]
        if not free:
            raise self.make_too_many_refusal()
        return ([it for it in free if it not in self.seen_registers.values()] or free)[0]
