"""Tests that the reports that tools/assume.py puts together are exact.

    python3 tools gate.test_assume, or in tools/ python3 -m unittest gate.test_assume

- Random tests with LOCK CMPXCHG: the report is that of a machine with this instruction.
- Tests with loops that wait: each number of tries has the states of the loops themselves.
- Random jumps backward: blocks that close no loop, and loops, compared with a machine whose threads jump backward, and with copies of them.
- What the command prints if no run is left, or a list is not proved.

Lists come from the program if it is built, otherwise from the search of tools/beyond.py. tools/check_documents.py calls all this
(tools/gate/cases.py).
"""
from __future__ import annotations

import argparse
import io
import sys
from collections.abc import Iterator
from dataclasses import replace
from itertools import islice
from random import Random
from typing import Any, Callable, Optional, Tuple
from unittest import mock

import assume
import plain
from gate import cases
from gate.examples import read, run
from herd.convert import convert
from herd.text import Refused
from herd.together import make_merged_report
from interpreter import machines
from shared import answers

RANDOM_TESTS = 30
RANDOM_JUMPS = 25
MAX_SEEDS = 4000
BLOCK_BEHIND = """X86 Behind
{}
 P0 | P1 ;
 MOV [x],$1 | MOV EAX,[x] ;
  | CMP EAX,$1 ;
  | JE OUT ;
  | BACK: JMP END ;
  | OUT: MOV ECX,$7 ;
  | JMP BACK ;
  | END: ;
locations [1:ECX;]
exists (1:EAX=1)
"""
WAITS_FOR_EVER = "X86 Waits\n{{}}\n P0 ;\n L: MOV EAX,[x] ;\n CMP EAX,2 ;\n JNE L ;\n{} (0:EAX=2)\n"

# A machine that has LOCK CMPXCHG.


# The step of one instruction, as tools/interpreter/machines.py has it.
Step = Callable[[plain.Statement, int, plain.Processor, plain.OneMemory], plain.Processor]


def extend_with_cmpxchg(instruction_step: Step) -> Step:
    """Returns a function that executes what `instruction_step` executes, and LOCK CMPXCHG."""

    def step(instruction: plain.Statement, cpu: int, processor: plain.Processor, memory: plain.OneMemory) -> plain.Processor:
        """Executes an instruction, which may be CMPXCHG. Raises Refused if CMPXCHG has to wait for the store buffer."""
        if instruction.kind != "cmpxchg":
            return instruction_step(instruction, cpu, processor, memory)
        if processor.buffer:
            raise plain.Refused(5, "SwapWaits")
        expected_word, new = processor.registers[0], processor.registers[instruction.register]
        old = memory.exchange(cpu, instruction.location, lambda old: new if old == expected_word else old)
        return processor.set_register(0, old)._replace(zero=old == expected_word)

    return step


def make_random_cmpxchg(seed: int) -> str:
    """Returns a random test with two or three LOCK CMPXCHG, in the form of X86; LOCK XADD counts as none."""
    random = Random(f"cmpxchg {seed}")
    columns: list[list[str]] = [[], []]
    for column in columns:
        for _ in range(random.randint(2, 4)):
            location, register = random.choice("xy"), random.choice(("EAX", "EBX", "ECX"))
            jump = f"{random.choice(('JE', 'JNE'))} END"
            others = (f"MOV [{location}],${random.randint(0, 2)}", f"MOV {register},[{location}]", f"MOV [{location}],{register}", jump)
            column.append(random.choice(others))
        for _ in range(random.choice((1, 1, 2) if column is columns[0] else (1,))):
            column.insert(random.randint(0, len(column)), f"LOCK CMPXCHG [{random.choice('xy')}],{random.choice(('EBX', 'ECX'))}")
        column.append("END:")
    size = max(len(column) for column in columns)
    rows = [[column[index] if index < len(column) else "" for column in columns] for index in range(size)]
    body = "".join(f" {' | '.join(row)} ;\n" for row in rows)
    initial = f"{{ 0:EBX=1; 1:EBX=2; 0:ECX={random.randint(0, 1)}; x={random.randint(0, 1)}; y=0; }}"
    return f"X86 Cas{seed}\n{initial}\n P0 | P1 ;\n{body}locations [0:EAX; 1:EAX; 0:ECX; x; y;]\nexists (x=1)\n"


def make_machine(text: str) -> plain.Test:
    """Returns the test of a text in the form of X86, with the kind `cmpxchg` for its LOCK CMPXCHG, which `extend_with_cmpxchg` executes."""
    test = plain.read_test(text.replace("LOCK CMPXCHG", "LOCK XADD"))
    as_cmpxchg = lambda it: replace(it, kind="cmpxchg") if it.kind == "xadd" else it
    test.threads = [tuple(as_cmpxchg(it) for it in code) for code in test.threads]
    return test


def make_report_by_machine(text: str) -> str:
    """Returns the report of a test by a machine that has the instruction."""
    test = make_machine(text)
    with mock.patch.object(machines, "execute_instruction", extend_with_cmpxchg(machines.execute_instruction)):
        return plain.make_report(test)


class Assumption(cases.Case):
    """LOCK CMPXCHG by assumption: one test for each guess of what it finds."""

    def test_random_tests(self) -> None:
        """The report of all of them together is that of a machine that has the instruction."""
        for seed in range(1, RANDOM_TESTS + 1):
            text = make_random_cmpxchg(seed)
            with self.subTest(text):
                self.assertEqual(make_report_by_machine(text), make_merged_report(convert(text).conversions)[0])


# Loops.

# Tests with loops that only wait, so that more tries add no state. {0} is the label where a loop begins, {1} its name.
LOOPS = (
    "X86 A\n{}\n P0 | P1 ;\n MOV [x],1 | {0}MOV EAX,[y] ;\n MOV [y],1 | CMP EAX,1 ;\n | JNE {1} ;\n | MOV EBX,[x] ;\nexists (1:EBX=0)\n",
    "X86 B\n{}\n P0 | P1 ;\n {0}MOV EAX,1 | {0}MOV EAX,1 ;\n XCHG [l],EAX | XCHG [l],EAX ;\n CMP EAX,0 | CMP EAX,0 ;\n"
    " JNE {1} | JNE {1} ;\n MOV ECX,[n] | MOV ECX,[n] ;\n ADD ECX,1 | ADD ECX,1 ;\n MOV [n],ECX | MOV [n],ECX ;\n"
    " MOV [l],0 | MOV [l],0 ;\nforall (n=2)\n",
    "X86 C\n{}\n P0 | P1 ;\n MOV [x],1 | MOV [y],1 ;\n {0}MOV EAX,[y] | {0}MOV EBX,[x] ;\n CMP EAX,2 | JMP OVER ;\n JE END | OVER: CMP EBX,1 ;\n"
    " MOV EAX,[y] | JE END ;\n CMP EAX,1 | JMP {1} ;\n JNE {1} | END: MOV [y],2 ;\n END: MOV ECX,[x] | ;\nlocations [0:EAX; 0:ECX; y;]\nexists (x=1)\n",
)


def restore_loops(text: str) -> plain.Test:
    """Returns the test of one of LOOPS with its loops, which lw's reader refuses: the jumps to the label of a last row are made to lead back to where
    the loop begins.
    """
    heads = [[index for index, cell in enumerate(column) if "{0}" in cell] for column in split_columns(text)]
    lines = text.replace("{0}", "").replace("{1}", "BACK").splitlines()
    index = next(index for index, line in enumerate(lines) if line.startswith(("exists", "forall", "locations")))
    count = lines[2].count("|") + 1
    lines.insert(index, " " + " | ".join(["BACK: MFENCE"] * count) + " ;")
    test = plain.read_test("\n".join(lines))
    for thread, head in enumerate(heads):
        code = test.threads[thread][:-1]
        is_jump_back = lambda it: it.target == len(code) and head
        test.threads[thread] = tuple(replace(it, target=head[0]) if is_jump_back(it) else it for it in code)
    return test


def split_columns(text: str) -> list[tuple[str, ...]]:
    """Returns, for each thread of a test's text, its cells."""
    rows = [line.rstrip(" ;").split("|") for line in text.splitlines()[3:] if line.startswith(" ")]
    return list(zip(*rows))


class Loops(cases.Case):
    """Loops that wait, by a number of tries."""

    def test_tries(self) -> None:
        """Each number of tries has the states of the loop itself."""
        for text in LOOPS:
            expected = plain.make_report(restore_loops(text))
            spelled = text.replace("{0}", "LOOP: ").replace("{1}", "LOOP")
            for tries in (1, 2, 3):
                with self.subTest(spelled, tries=tries):
                    self.assertEqual(expected, make_merged_report(convert(spelled, tries).conversions)[0])


# Jumps backward, by copies of a whole thread, one for each time that the thread may jump backward.


# A cell of a thread with jumps: its instruction, and the index of the cell to which it jumps, if it does.
JumpCell = Tuple[str, Optional[int]]


def make_random_cells(random: Random, is_loop: bool) -> list[JumpCell]:
    """Returns the cells of a random thread with jumps. With `is_loop` they jump to any place; otherwise they jump forward, and then a block is put
    after the end.
    """
    size = random.randint(5, 8)
    jumps = random.sample(range(1, size), random.randint(1, 3))
    names = ("JE", "JNE", "JMP") if is_loop else ("JE", "JNE")

    def make_jump(index: int) -> JumpCell:
        """Returns a random jump of the cell at an index."""
        return random.choice(names), random.randint(0 if is_loop else index + 1, size)

    cells = [make_jump(index) if index in jumps else ("", None) for index in range(size)]
    filled = [(text or make_random_access(random, is_on_cycle(cells, index)), target) for index, (text, target) in enumerate(cells)]
    return filled if is_loop else move_block_to_end(filled, *sorted(random.sample(range(size), 2)))


def move_block_to_end(cells: list[JumpCell], begin: int, end: int) -> list[JumpCell]:
    """Returns cells in another order that do the same: those from `begin` to `end` come last, a jump leads to them, and one leads back."""
    size = len(cells)

    def find_new_index(index: int) -> int:
        """Returns the index in the new order of the cell that had an index before."""
        if index == size:
            return size + 3
        return index if index < begin else index + size - end + 2 if index < end else index - (end - begin) + 1

    rows = [(text, None if target is None else find_new_index(target)) for text, target in cells]
    return [*rows[:begin], ("JMP", find_new_index(begin)), *rows[end:], ("JMP", find_new_index(size)), *rows[begin:end], ("JMP", find_new_index(end))]


def make_random_access(random: Random, is_in_loop: bool) -> str:
    """Returns a random instruction that is no jump. In a loop it is no store: the store buffer could grow without end."""
    location, register, word = random.choice("xy"), random.choice(("EAX", "EBX")), random.randint(0, 2)
    others = (f"MOV {register},[{location}]", f"CMP {register},${word}", f"MOV {register},${word}", f"XCHG [{location}],{register}")
    return random.choice(others if is_in_loop else (f"MOV [{location}],${word}", f"MOV [{location}],${word}", *others))


def list_successors(cells: list[JumpCell], index: int) -> set[int]:
    """Returns the indices of the cells that may be executed after one."""
    text, target = cells[index]
    if target is None:
        return {index + 1}
    return {target} if text == "JMP" else {index + 1, target}


def is_on_cycle(cells: list[JumpCell], index: int) -> bool:
    """Returns whether some path leads from a cell back to it; paths follow branches in both directions."""
    seen, queue = set(), [index]
    while queue:
        for follower in list_successors(cells, queue.pop()):
            if follower < len(cells) and follower not in seen:
                seen.add(follower)
                queue.append(follower)
    return index in seen


def list_reachable(cells: list[JumpCell]) -> set[int]:
    """Returns the indices of the cells that some path reaches from the first."""
    seen, queue = {0}, [0]
    while queue:
        new = {it for it in list_successors(cells, queue.pop()) if it < len(cells)} - seen
        seen |= new
        queue += new
    return seen


def is_looping(cells: list[JumpCell]) -> bool:
    """Returns whether some path from the first cell goes through a cell twice."""
    return any(is_on_cycle(cells, index) for index in list_reachable(cells))


def count_backward_jumps(cells: list[JumpCell]) -> int:
    """Returns the number of the jumps backward that can be reached."""
    targets = ((index, cells[index][1]) for index in list_reachable(cells))
    return sum(target is not None and target <= index for index, target in targets)


def format_column(cells: list[JumpCell]) -> list[str]:
    """Returns the text of a thread, with jumps backward."""
    labels = {target for _, target in cells if target is not None}
    lines = [f"{f'L{index}: ' if index in labels else ''}{text}{'' if to is None else f' L{to}'}" for index, (text, to) in enumerate(cells)]
    return lines + [f"L{len(cells)}:"] * (len(cells) in labels)


def format_copies(cells: list[JumpCell], copies: int, thread: int) -> list[str]:
    """Returns the text of a thread in some copies: a jump backward leads to the next copy, and out of the last one to the end, without the mark
    that all other ways set.
    """
    lines = []
    for copy in range(copies):
        for index, (text, to) in enumerate(cells):
            target = "" if to is None else f" L{to}c{copy + (to <= index)}"
            lines.append(f"L{index}c{copy}: {text}{target if copy + 1 < copies or to is None or to > index else ' GONE'}")
        lines.append(f"L{len(cells)}c{copy}: JMP DONE")
    return [*lines[:-1], f"{lines[-1].partition(':')[0]}:", f"DONE: MOV [done{thread}],$1", "GONE:"]


def format_test(name: str, columns: list[list[str]], question: str, listed: str) -> str:
    """Returns a test of columns of cells."""
    size = max(map(len, columns))
    rows = "".join(" " + " | ".join(column[index] if index < len(column) else "" for column in columns) + " ;\n" for index in range(size))
    return f"X86 {name}\n{{ x=0; y=0; }}\n P0 | P1 ;\n{rows}locations [{listed}]\nexists ({question})\n"


SITES = "0:EAX; 0:EBX; 1:EAX; 1:EBX; x; y;"


def list_states_by_copies(threads: list[list[JumpCell]], copies: int) -> set[str]:
    """Returns the states of threads that jump backward less often than there are copies, by tools/plain.py."""
    columns = [format_copies(cells, copies, number) for number, cells in enumerate(threads)]
    test = plain.read_test(format_test("Copies", columns, "done0=1 /\\ done1=1", SITES + " done0; done1;"))
    marked = [it for it in answers.filter_state_lines(plain.make_report(test)) if "done0=1;" in it and "done1=1;" in it]
    return {it.replace(" done0=1;", "").replace(" done1=1;", "") for it in marked}


def list_states_by_loops(threads: list[list[JumpCell]]) -> set[str]:
    """Returns the states of threads whose jumps lead backward, by the machine of tools/plain.py."""
    empty = format_test("Loops", [["MFENCE"] * len(cells) for cells in threads], "x=1", SITES)
    test = plain.read_test(empty)
    test.threads = [tuple(make_statement(text, target) for text, target in cells) for cells in threads]
    return set(answers.filter_state_lines(plain.make_report(test)))


def make_statement(text: str, target: int | None) -> plain.Statement:
    """Returns the statement of a cell."""
    if target is not None:
        return plain.Statement(text.lower(), target=target)
    test = plain.read_test(f"X86 A\n{{ x=0; y=0; }}\n P0 ;\n {text} ;\nlocations [x; y;]\nexists (x=1)\n")
    return test.threads[0][0]


def list_states_by_assumption(threads: list[list[JumpCell]], tries: int) -> set[str]:
    """Returns the states that tools/assume.py lists."""
    text = format_test("Jumps", [format_column(cells) for cells in threads], "x=1", SITES)
    return set(answers.filter_state_lines(make_merged_report(convert(text, tries).conversions)[0]))


def list_random_threads(
    is_loop: bool, is_taken: Callable[..., Any] = lambda _cells: True
) -> Iterator[tuple[int, list[list[JumpCell]], set[str]]]:
    """Yields random tests of two threads: the seed, the cells of each thread, and the states by `list_states_by_loops`. Some thread jumps backward;
    some has a loop if `is_loop`, and none otherwise; `is_taken` holds of each thread; and there are at least three states.
    """
    for seed in range(1, MAX_SEEDS):
        random = Random(f"jumps {is_loop} {seed}")
        threads = [make_random_cells(random, is_loop), make_random_cells(random, is_loop)]
        is_wanted = any(map(is_looping, threads)) == is_loop and any(map(count_backward_jumps, threads)) and all(map(is_taken, threads))
        states = list_states_by_loops(threads) if is_wanted else set()
        if len(states) > 2:
            yield seed, threads, states


class Jumps(cases.Case):
    """Jumps backward."""

    def test_no_loops(self) -> None:
        """Jumps backward that close no loop need no number of tries, and no state is missing."""
        for seed, threads, expected in islice(list_random_threads(False), RANDOM_JUMPS):
            for tries in (0, 1):
                with self.subTest(seed=seed, tries=tries):
                    self.assertEqual(expected, list_states_by_assumption(threads, tries))

    def test_loops(self) -> None:
        """Loops, in one another too: no state of a run that jumps backward less often than there are tries is missing, and each state is
        one of the loops themselves."""
        for seed, threads, whole in islice(list_random_threads(True), RANDOM_JUMPS):
            for tries in (1, 2):
                with self.subTest(seed=seed, tries=tries):
                    states = list_states_by_assumption(threads, tries)
                    self.assertEqual(set(), list_states_by_copies(threads, tries) - states)
                    self.assertEqual(set(), states - whole)

    def test_one_loop(self) -> None:
        """Runs go through a loop that is entered at its start, and has one jump backward, exactly as often as there are tries."""
        for seed, threads, _ in islice(list_random_threads(True, is_simple), RANDOM_JUMPS):
            for tries in (1, 2, 3):
                with self.subTest(seed=seed, tries=tries):
                    self.assertEqual(list_states_by_copies(threads, tries), list_states_by_assumption(threads, tries))

    def test_refused(self) -> None:
        """A loop is refused without a number of tries, and with one that is none, at its last jump backward."""
        text = "X86 A\n{}\n P0 ;\n L: MOV EAX,[x] ;\n CMP EAX,1 ;\n JNE L ;\nexists (x=1)\n"
        for tries in (0, -1):
            try:
                result: object = convert(text, tries)
            except Refused as why:
                result = why.args
            with self.subTest(tries=tries):
                self.assertEqual(("a jump leads backward: --tries N goes through each loop N times at most", text.index("JNE")), result)


def is_simple(cells: list[tuple[str, None] | tuple[str, int]]) -> bool:
    """Returns whether a thread has at most one jump backward, and enters the loop of that one only at its start."""
    backward_jumps = [(target, index) for index, (_, target) in enumerate(cells) if target is not None and target <= index]

    def enters_loop(index: int, target: int) -> bool:
        """Returns whether a jump from outside a loop leads into it, and not to its start."""
        return any(begin < target <= end and not begin <= index <= end for begin, end in backward_jumps)

    return len(backward_jumps) <= 1 and not any(target is not None and enters_loop(index, target) for index, (_, target) in enumerate(cells))


class Command(cases.Case):
    """The output of the command."""

    def test_block_behind_the_end(self) -> None:
        """A compiler's block after the end, which jumps back to the middle, is no loop: all states are there, without a number of tries."""
        printed, err, status = run(["assume.py"], BLOCK_BEHIND)
        self.assertEqual(("", 0), (err, status))
        self.assertEqual(["1:EAX=0; 1:ECX=0;", "1:EAX=1; 1:ECX=7;"], answers.filter_state_lines(printed))
        self.assertIn("\nObservation Behind Sometimes 1 1\n", printed)

    def test_no_run(self) -> None:
        """If no run goes through every loop, that is the verdict, and neither Ok nor No, for each kind of question."""
        for question, word in (("forall", "Required"), ("exists", "Allowed"), ("~exists", "Forbidden")):
            printed, err, status = run(["assume.py", "--tries", "2"], WAITS_FOR_EVER.format(question))
            with self.subTest(question):
                self.assertEqual(("", answers.NO_VERDICT), (err, status))
                lines = printed.splitlines()
                why = "None: no run goes through every loop within 2 tries, so nothing is said of the condition"
                self.assertEqual([f"Test Waits {word}", "States 0", why, f"Condition {question} (0:EAX=2)"], lines[:4])
                self.assertEqual(5, len(lines))

    def test_not_proved(self) -> None:
        """Lists that the program does not make are said to be not proved."""
        out = io.StringIO()
        words = argparse.Namespace(tries=0, order=None, schedules=False)
        with mock.patch.multiple(answers, PROGRAM="/no/program", BEYOND="/no/program", load_library=lambda: None):
            with mock.patch.object(sys, "stdout", out):
                self.assertEqual(0, assume.print_report(words, "-", read("tools/herd/tests/Mcs.litmus")))
        self.assertEqual("Put together from 4 tests, listed by tools/beyond.py, not proved", out.getvalue().splitlines()[-1])


if __name__ == "__main__":
    sys.exit(cases.main())
