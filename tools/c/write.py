"""A thread's paths as instructions of lw, in an order in which all jumps go forward."""
from __future__ import annotations

from dataclasses import replace

from c.registers import Registers, SIX
from c.values import IsOneOf, IsSame, Symbol, Value, to_word
from c.path_graph import Branch, Do, Effect, End, Exchange, Fence, Load, PathGraph, Store
from plain import Number, Register, Statement

# The target of a jump to the thread's end.
END = -1


def sort_nodes(graph: PathGraph) -> list[int]:
    """Returns the nodes that are reached, each before its successors."""
    return graph.list_reachable()[::-1]


class Writer:
    """A writer of one thread. `locations` has the indices of locations by their addresses, `seen_registers` the registers of what the condition mentions, by its
    name, and `origins` the node from which each statement comes.
    """

    def __init__(self, graph: PathGraph, seen_registers: dict[str, int], mark: int | None, locations: dict[int, int], thread: int) -> None:
        """Chooses the registers of a thread's symbols, and an order of its nodes."""
        self.graph, self.seen_registers, self.mark, self.locations = graph, seen_registers, mark, locations
        self.registers = Registers(graph, seen_registers, mark, thread)
        self.order = sort_nodes(graph)
        self.statements: list[Statement] = []
        self.origins: list[int] = []
        self.written = self.list_written_registers()

    def list_written_registers(self) -> set[int]:
        """Returns the registers that some instruction may write before the end: all others are 0 there."""
        spares = set()
        for node_index in self.order:
            if self.needs_spare(node_index):
                spares.add(self.registers.find_spare_register(node_index))
        return set(self.registers.register_of.values()) | spares

    def needs_spare(self, node_index: int) -> bool:
        """Returns whether a node computes a sum that it does not hold afterwards."""
        node = self.graph.nodes[node_index]
        if isinstance(node, Branch):
            return isinstance(node.question, IsSame) and node.question.added != 0
        return isinstance(node, Do) and isinstance(node.effect, Store) and isinstance(node.effect.value, Symbol) and node.effect.value.added != 0

    # Values.

    def write_value(self, register: int, value: Value, registers: dict[int, int]) -> list[Statement]:
        """Returns instructions that put a value into a register. `registers` are those of the symbols."""
        if not isinstance(value, Symbol):
            return [Statement("set", register, value=Number(to_word(value)))]
        move = [] if registers[value.id] == register else [Statement("set", register, value=Register(registers[value.id]))]
        return move + ([Statement("add", register, value=Number(to_word(value.added)))] if value.added else [])

    def make_operand(self, value: Value, node_index: int) -> Number | Register:
        """Returns a value as an operand of a node's instruction. A sum is computed in a register that is free."""
        if not isinstance(value, Symbol):
            return Number(to_word(value))
        if not value.added:
            return Register(self.registers.register_of[value.id])
        spare = self.registers.find_spare_register(node_index)
        self.statements += self.write_value(spare, value, self.registers.register_of)
        return Register(spare)

    # Nodes.

    def write_statements(self) -> tuple[Statement, ...]:
        """Returns the instructions. While they are written, jumps target nodes."""
        starts: dict[int, int] = {}
        for node_index, following in zip(self.order, [*self.order[1:], END]):
            starts[node_index] = len(self.statements)
            self.write_node(node_index, following)
            self.origins += [node_index] * (len(self.statements) - len(self.origins))
        starts[END] = len(self.statements)
        resolved = [it if it.target is None else replace(it, target=starts[it.target]) for it in self.statements]
        return self.simplify_jumps(resolved)

    def write_node(self, node_index: int, following: int) -> None:
        """Writes a node, after which another one is written."""
        node = self.graph.nodes[node_index]
        if isinstance(node, Do):
            self.write_effect(node.effect, node_index)
            self.write_continuation(node.after, following)
        elif isinstance(node, Branch):
            self.write_branch(node, node_index, following)
        else:
            if isinstance(node, End):
                self.write_end(node)
            elif self.mark in self.registers.register_of.values():
                self.statements.append(Statement("set", self.mark, value=Number(0)))
            self.write_continuation(END, following)

    def write_continuation(self, target: int, following: int) -> None:
        """Continues at a node, by a jump unless it is written next."""
        if target != following:
            self.statements.append(Statement("jmp", target=target))

    def write_effect(self, effect: Effect, node_index: int) -> None:
        """Writes the effect of a node."""
        registers = self.registers.register_of
        if isinstance(effect, Fence):
            self.statements.append(Statement("mfence"))
        elif isinstance(effect, Load):
            self.statements.append(Statement("load", registers[effect.symbol], self.locations[effect.address]))
        elif isinstance(effect, Store):
            value = self.make_operand(effect.value, node_index)
            self.statements.append(Statement("store", location=self.locations[effect.address], value=value))
        else:
            self.statements += self.write_value(registers[effect.symbol], effect.value, registers)
            kind = "xchg" if isinstance(effect, Exchange) else "xadd"
            self.statements.append(Statement(kind, registers[effect.symbol], self.locations[effect.address]))

    def write_branch(self, node: Branch, node_index: int, following: int) -> None:
        """Writes a question: comparisons with the fewer words, or with another register."""
        question, yes, no = node.question, node.yes, node.no
        register = self.registers.register_of[question.symbol]
        if isinstance(question, IsOneOf):
            if len(question.words) > len(question.others):
                question, yes, no = IsOneOf(question.symbol, question.others, question.words), no, yes
            values: list[Number | Register] = [Number(to_word(it)) for it in question.words]
        else:
            values = [self.make_operand(Symbol(question.other, question.width, question.added, question.width), node_index)]
        for value in values[:-1]:
            self.statements += [Statement("cmp", register, value=value), Statement("je", target=yes)]
        self.statements.append(Statement("cmp", register, value=values[-1]))
        if yes == following:
            self.statements.append(Statement("jne", target=no))
        else:
            self.statements.append(Statement("je", target=yes))
            self.write_continuation(no, following)

    def write_end(self, node: End) -> None:
        """Puts what the condition mentions into its registers, and sets the mark. Raises Refused if there is no free register for a ring of moves."""
        values, registers = dict(node.values), dict(self.registers.register_of)
        moves = [(register, values.get(name, 0)) for name, register in self.seen_registers.items()]
        moves += [] if self.mark is None else [(self.mark, 1)]
        moves = [it for it in moves if it[1] != 0 or it[0] in self.written]
        while moves:
            # The first move into a register that no other move reads.
            read_by = [(move, registers[move[1].id]) for move in moves if isinstance(move[1], Symbol)]
            ready = next((it for it in moves if all(move == it or register != it[0] for move, register in read_by)), None)
            if ready is None:  # a ring: one of its registers is copied
                busy = {register for register, _ in moves} | {registers[value.id] for _, value in moves if isinstance(value, Symbol)}
                free = next((it for it in range(SIX) if it not in busy), None)
                if free is None:
                    raise self.registers.make_too_many_refusal()
                symbol = moves[0][1].id
                self.statements.append(Statement("set", free, value=Register(registers[symbol])))
                registers[symbol] = free
                continue
            self.statements += self.write_value(*ready, registers)
            moves.remove(ready)

    # Jumps.

    def simplify_jumps(self, code: list[Statement]) -> tuple[Statement, ...]:
        """Retargets jumps to jumps, and removes jumps to what comes next and jumps that no path reaches."""
        origins = self.origins
        while True:
            code = [it if it.target is None else replace(it, target=follow_jumps(code, it.target)) for it in code]
            gone = next((index for index in range(len(code)) if is_removable_jump(code, index)), None)
            if gone is None:
                self.origins = origins
                return tuple(code)
            shift = lambda target: target - (target > gone)
            code = [it if it.target is None else replace(it, target=shift(it.target)) for index, it in enumerate(code) if index != gone]
            origins = [it for index, it in enumerate(origins) if index != gone]


def follow_jumps(code: list[Statement], target: int) -> int:
    """Returns the instruction that a jump to an instruction reaches."""
    while target < len(code) and code[target].kind == "jmp":
        target = code[target].target
    return target


def is_removable_jump(code: list[Statement], index: int) -> bool:
    """Returns whether a jump can be removed: it targets what comes next, or follows another jump and nothing targets it."""
    statement = code[index]
    if statement.target == index + 1:
        return True
    return statement.kind == "jmp" and index > 0 and code[index - 1].kind == "jmp" and all(other.target != index for other in code)
