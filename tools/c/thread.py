"""Follows a thread along all its paths under a guess, and records what other threads can see.

What is known (addresses, constants, the stack) is computed; what a load of a shared location finds is a symbol. If a result depends on a
symbol's word, the path forks. A loop that ends before more than MAX_ASKED questions are asked in it, whatever its loads find, is followed
to its end; any other is passed as often as the reader says, and a run that would continue is abandoned.
"""
from __future__ import annotations


from c.assembly import Instruction
from c.layout import CODE, LEAVE, STACKS, STACK_OF_THREAD
from c.locked import NextGuess
from c.own_memory import load_own
from c.operands import VECTOR_REGISTERS, WHOLE_REGISTERS
from c.program import Program
from c.refused import Refused
from c.step import Step
from c.values import Ask, Clock, Question, Value
from c.execution_path import ExecutionPath, Pass
from c.path_graph import Do, Effect, End, GiveUp, PathGraph

MAX_STEPS, MAX_WORK = 6000, 200000
# The questions that are asked in a loop, and the passes with stores, after which the loop need not end; a guess counts as several
# questions.
MAX_ASKED, MAX_PASSES, GUESS = 12, 64, 4
# The bytes above the first return address, where nothing is stored.
HEADROOM = 0x100


class Unbounded(Exception):
    """A loop need not end: all threads are followed again, and a run passes the loop as often as `--tries` says."""


class Thread:
    """A thread under a guess: its paths, and the words that it stores. `missing_cases` says how many cases the next guess has, if one is missing."""

    def __init__(self, program: Program, number: int, guesses: tuple[int, ...]) -> None:
        """Follows a thread under a guess of what its locked instructions find."""
        self.program, self.number, self.guesses = program, number, guesses
        self.graph = PathGraph()
        self.stored_words: dict[int, dict[int, Clock]] = {}
        self.missing_cases: int | None = None
        self.graph.first = self.follow(self.make_path())

    def make_path(self) -> ExecutionPath:
        """Returns the thread's path at its start."""
        path = ExecutionPath(self.program.assembly.labels[self.program.threads[self.number]], self.program.locations.never)
        path.registers = {it: (None, 0) for it in (*WHOLE_REGISTERS, *VECTOR_REGISTERS)}
        address = STACKS - STACK_OF_THREAD * self.number - HEADROOM - 8
        path.registers["rsp"] = (address, 8)
        path.memory[address] = (8, LEAVE)
        self.enter_loop(path)
        return path

    def enter_loop(self, path: ExecutionPath) -> None:
        """Starts to count passes, if a loop starts at a path's position."""
        if path.position in self.program.back_targets:
            path.passes[(path.call, path.position)] = Pass(questions_before=path.question_count, question_count=path.question_count, stores=path.stores)

    def follow(self, path: ExecutionPath) -> int:
        """Follows a path to its end, and adds nodes for what it does. Returns the index of the first one. Raises Refused, with the instruction, if one is
        not followed.
        """
        effects: list[tuple[Effect, int | None]] = []
        last = None
        while last is None:
            if path.position == LEAVE - CODE:
                last = self.add_end(path)
                break
            instruction = self.fetch_instruction(path)
            if instruction is None:
                last = self.graph.intern_node(GiveUp())
                break
            step = Step(self.program, self.number, self.stored_words, path.copy(), instruction)
            step.guesses = self.guesses
            step.path.position += 1
            try:
                step.execute()
            except Ask as ask:
                if step.finished_load is None:
                    last = self.fork(path, ask.question, instruction.line)
                    break
                path, effect = step.finished_load
                effects.append((effect, instruction.line))
                continue
            except NextGuess as missing:  # the other guesses are followed later
                self.missing_cases = max(self.missing_cases or 0, missing.cases)
                last = self.graph.intern_node(GiveUp())
                break
            except Refused as why:
                raise why.with_place(instruction.line, instruction.text) from None
            effects += [(effect, instruction.line) for effect in step.effects]
            path = step.path
            last = self.find_successor(path, step)
        for effect, line in reversed(effects):
            last = self.graph.intern_node(Do(effect, last), line)
        return last

    def fetch_instruction(self, path: ExecutionPath) -> Instruction | None:
        """Returns the instruction at a path's position; `None` if the path is too long: no fault before it is known which locations are shared.
        Raises Refused if a jump leads out of the code, or there are too many paths.
        """
        code = self.program.assembly.code
        path.steps += 1
        self.program.work += 1
        if not 0 <= path.position < len(code):
            raise Refused("a jump leads out of the code")
        instruction = code[path.position]
        if self.program.work > MAX_WORK:
            raise Refused("the threads have too many paths", instruction.line, instruction.text)
        if path.steps > MAX_STEPS:
            self.program.too_long = Refused("a path through the thread is too long", instruction.line, instruction.text)
            return None
        return instruction

    def find_successor(self, path: ExecutionPath, step: Step) -> int | None:
        """Returns the index of the node after an instruction that is done, if this path ends there: at a guess, or since the run is given up. `None` if
        the path continues. Raises Refused if the code runs over the end of its function.
        """
        if step.guess:
            self.enter_loop(path)
            return self.follow_guess(path, *step.guess, step.instruction.line)
        if path.position == LEAVE - CODE:
            return None
        runs_over = path.position in self.program.entries and self.program.assembly.code[path.position - 1] is step.instruction
        if runs_over and step.instruction.mnemonic[0] != "j" and not step.instruction.mnemonic.startswith("call"):
            raise Refused("the code runs over the end of its function", step.instruction.line, step.instruction.text)
        key = (path.call, path.position)
        if path.has_jumped_back:
            path.has_jumped_back = False
            return self.graph.intern_node(GiveUp()) if self.is_given_up(path, key) else None
        self.enter_loop(path)
        return None

    def is_given_up(self, path: ExecutionPath, key: tuple[int, int]) -> bool:
        """Returns whether a run that is back at the start of a loop is abandoned, because it never ends or was here too often. Raises Unbounded when
        it finds that a loop need not end, and Refused if --tries does not limit it.
        """
        before, state = path.passes[key], path.snapshot()
        if path.question_count == before.question_count and path.stores == before.stores and state == before.state:
            return True
        present = Pass(before.count + 1, before.questions_before, path.question_count, path.stores, state)
        path.passes[key] = present
        if key[1] in self.program.bounded:
            if not self.program.tries:
                instruction = self.program.assembly.code[key[1]]
                raise Refused("a loop need not end: --tries N goes through it N times at most", instruction.line)
            return present.count >= self.program.tries
        if present.question_count - present.questions_before > MAX_ASKED or present.count > MAX_PASSES and present.stores:
            self.program.bounded.add(key[1])
            raise Unbounded
        return False

    # Where paths fork.

    def fork(self, path: ExecutionPath, question: Question, line: int | None) -> int:
        """Follows both answers to a question. Returns the index of its node."""

        def follow_answer(holds: bool) -> int:
            """Follows one answer. Returns the index of the node after it."""
            branch = path.copy()
            branch.question_count += 1
            branch.learn(question, holds)
            return self.follow(branch)

        yes = follow_answer(True)
        return self.graph.intern_branch(question, yes, follow_answer(False), line)

    def follow_guess(self, path: ExecutionPath, question: Question, answer: bool, line: int | None) -> int:
        """Follows the answer that confirms a guess; the other one abandons the run. Returns the index of the question's node."""
        branch = path.copy()
        branch.question_count += GUESS
        branch.learn(question, answer)
        rest, given_up = self.follow(branch), self.graph.intern_node(GiveUp())
        return self.graph.intern_branch(question, *((rest, given_up) if answer else (given_up, rest)), line)

    def add_end(self, path: ExecutionPath) -> int:
        """Returns the node of the thread's end. The path forks if what the condition mentions is composed of what loads have found."""
        try:
            return self.graph.intern_node(End(self.list_seen(path)))
        except Ask as ask:
            return self.fork(path, ask.question, None)

    def list_seen(self, path: ExecutionPath) -> tuple[tuple[str, Value], ...]:
        """Returns what the condition can mention at the thread's end: values that were shown, the thread's result, and globals of its own. Raises
        Refused if a result is asked for that a run does not return.
        """
        program, asked_names = self.program, self.program.names.get(self.number, set())
        values = {name: value for name, value in path.shown_values.items() if name in asked_names}
        if "return" in asked_names:
            value, known_bytes = path.registers["rax"]
            if known_bytes < 4:
                raise Refused(f"the condition asks what P{self.number} returns, and a run of it returns nothing")
            values["return"] = path.extract_bytes(value, 4)
        for name, address in program.list_own_asked(self.number):
            value = load_own(path, program.layout, address, program.find_asked_size(address))
            program.own_words.setdefault(name, set()).update(path.list_words(value))
            values[f"&{name}"] = value
        return tuple(sorted(values.items()))


def follow_guesses(program: Program, number: int, max_guesses: int) -> list[Thread]:
    """Returns a thread under all its guesses. Raises Refused if they are more than `max_guesses`."""
    queue: list[tuple[int, ...]] = [()]
    done: list[Thread] = []
    while queue:
        guesses = queue.pop(0)
        thread = Thread(program, number, guesses)
        for address, words in thread.stored_words.items():
            program.locations.add_words(address, words)
        if thread.missing_cases is None:
            done.append(thread)
        else:
            queue += [(*guesses, case) for case in range(thread.missing_cases)]
        if len(done) + len(queue) > max_guesses:
            raise Refused(f"the locked instructions of P{number} make more than {max_guesses} guesses")
    return done
