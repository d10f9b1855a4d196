"""The instructions of a thread as the search sees them: which registers still matter, and which locations may still be read or written."""
from __future__ import annotations

from typing import NamedTuple

import plain
from plain import Statement, Test, read_value

# Kinds of statements that involve nothing outside their thread.
LOCAL = frozenset(("set", "add", "cmp", "je", "jne", "jmp", "sum", "if equal", "if unequal", "goto"))
READS_REGISTER = frozenset(("add", "cmp", "if equal", "if unequal", "xchg", "xadd"))
WRITES_REGISTER = frozenset(("load", "set", "add", "sum", "xchg", "xadd", "swap", "fetchadd"))
READS_MEMORY = frozenset(("load", "xchg", "xadd", "swap", "fetchadd"))
WRITES_MEMORY = frozenset(("store", "xchg", "xadd", "swap", "fetchadd"))


class ThreadState(NamedTuple):
    """The state of a thread: its position, its registers, the zero flag, and its store buffer."""

    position: int
    registers: tuple[int, ...]
    zero: bool
    buffer: tuple[tuple[int, int], ...]


class Code:
    """A thread's statements, with what each position still needs: what of the thread's state may matter for the rest of the run."""

    def __init__(self, test: Test, thread: int) -> None:
        """Computes, from the end of a thread back, what each of its positions needs."""
        self.statements = test.threads[thread]
        self.is_x86 = test.language == "X86"
        self.end = len(self.statements)
        observed = frozenset(
            site.register for site in plain.list_observed_sites(test) if isinstance(site, plain.RegisterSite) and site.thread == thread
        )
        self.needed: list[frozenset[int]] = [observed] * (self.end + 1)  # registers whose words matter at a position
        self.flag_needed = [False] * (self.end + 1)
        self.reads = [0] * (self.end + 1)  # locations that may be read from a position on, a bit each
        self.writes = [0] * (self.end + 1)
        for index in range(self.end - 1, -1, -1):
            self.record_needs(index, self.statements[index])

    def record_needs(self, position: int, statement: Statement) -> None:
        """Computes what a position needs, from its statement and those that may follow."""
        followers = plain.list_successors(statement, position)
        registers = frozenset().union(*(self.needed[follower] for follower in followers))
        if statement.kind in WRITES_REGISTER:
            registers -= {statement.register}
        read = {statement.register} if statement.kind in READS_REGISTER else set()
        read |= {statement.left} if statement.kind == "sum" else set()
        read |= {statement.value.register} if isinstance(statement.value, plain.Register) else set()
        self.needed[position] = registers | read
        sets_flag = statement.kind in ("add", "cmp", "xadd")
        self.flag_needed[position] = statement.kind in ("je", "jne") or not sets_flag and any(self.flag_needed[follower] for follower in followers)
        for masks, kinds in ((self.reads, READS_MEMORY), (self.writes, WRITES_MEMORY)):
            for follower in followers:
                masks[position] |= masks[follower]
            if statement.kind in kinds:
                masks[position] |= 1 << statement.location

    def waits(self, state: ThreadState) -> bool:
        """Returns whether the next statement, which the thread must have, has to wait, since it needs an empty store buffer."""
        return bool(state.buffer) and self.statements[state.position].kind in ("mfence", "xchg", "xadd")

    def run_locally(self, state: ThreadState) -> tuple[ThreadState, int]:
        """Runs the thread as long as nothing outside it is involved. Returns its state then, with 0 in place of what no longer matters, and the number of
        statements executed.
        """
        steps = 0
        while state.position < self.end:
            statement = self.statements[state.position]
            if statement.kind in LOCAL:
                state = self.execute_local(statement, state)
            elif statement.kind == "store" and self.is_x86:
                word = read_value(statement.value, state.registers)
                state = ThreadState(state.position + 1, state.registers, state.zero, state.buffer + ((statement.location, word),))
            elif statement.kind == "mfence" and not state.buffer:
                state = state._replace(position=state.position + 1)
            else:
                break
            steps += 1
        return self.clear_unneeded(state), steps

    def execute_local(self, statement: Statement, state: ThreadState) -> ThreadState:
        """Executes a statement that involves nothing outside the thread. Returns the state after it."""
        position, registers, zero, buffer = state
        if not self.is_x86:
            position, registers, _ = plain.execute_statement(statement, position, registers, ())
            return ThreadState(position, registers, zero, buffer)
        after = plain.execute_instruction(statement, 0, plain.Processor(position, registers, zero), plain.OneMemory(()))
        return ThreadState(after.position, after.registers, after.zero, buffer)

    def clear_unneeded(self, state: ThreadState) -> ThreadState:
        """Returns the same state with 0 in place of what no longer matters."""
        needed_registers = self.needed[state.position]
        registers = tuple(word if number in needed_registers else 0 for number, word in enumerate(state.registers))
        return ThreadState(state.position, registers, state.zero and self.flag_needed[state.position], state.buffer)
