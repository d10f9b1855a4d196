"""Tests that fences and runs of converted tests are those of the original's own instructions.

    python3 tools gate.test_original, or in tools/ python3 -m unittest gate.test_original

- For each x86 example, as a test in herd's form: the states, the sets of fences that are enough, and the places that help are those that
  tools/fences.py finds in the test as lw reads it.
- For random tests with LOCK CMPXCHG and fences: the states without a fence are those of a machine with this instruction, for the text without
  the fence.
- Each run of `tools/assume.py --schedules` takes that machine to its state, line by line.
- What the commands print.

Lists come from the program if it is built, otherwise from the search of tools/beyond.py. tools/check_documents.py calls all this
(tools/gate/cases.py).
"""
from __future__ import annotations

import re
import sys
from collections.abc import Sequence
from unittest import mock

import fences
import plain
from fencing.sets import find_smallest_sets
from fencing.together import CombinedTest, Part
from gate import cases
from gate.examples import examples, run
from gate.test_assume import extend_with_cmpxchg, make_machine, make_random_cmpxchg, make_report_by_machine
from herd.convert import ConversionResult, convert
from herd.lines import Text, find_origins, format_runs
from interpreter import machines
from shared import answers
from shared.matches import require_match

RANDOM_TESTS = 12
# Store buffering, in which P0 takes a lock by compare-and-swap at its end, and P1 looks again while somebody has it; its fence is in the loop.
GUARDED = """X86_64 Guarded
{ 0:rbx=1; }
 P0                        | P1               ;
 movl $1,(x)               | movl $1,(y)      ;
 mfence                    | L: mfence        ;
 movl (y),%ecx             | movl (x),%ecx    ;
 lock cmpxchgl %ebx,(lock) | movl (lock),%edx ;
                           | cmpl $1,%edx     ;
                           | je L             ;
exists (0:rcx=0 /\\ 1:rcx=0)
"""
UNFENCED = """X86 Unfenced
{}
 P0 | P1 ;
 MOV [x],1 | MOV [y],1 ;
 LOCK CMPXCHG [z],EBX | MOV EDX,[z] ;
 MOV ECX,[y] | MOV ECX,[x] ;
exists (0:ECX=0 /\\ 1:ECX=0)
"""
NO_TESTS = (
    ("X86 A\n{}\n P0 ;\n MOVNTI [x],EAX ;\nexists (x=1)\n", "-:4:2: 'MOVNTI' is no instruction"),
    ("SRC A\n{}\n P0 ;\n x = 1 ;\nexists (x=1)\n", "-:4:4: "),
)


def make_together(conversion: ConversionResult) -> CombinedTest:
    """Returns a converted test as one answer."""
    return CombinedTest([Part(it, find_origins(it), it.begins) for it in conversion.conversions], lambda line: line)


class Examples(cases.Case):
    """Tests that lw reads."""

    def test_same(self) -> None:
        """Converted examples have the same states, and the same fences that are enough or help, as lw reads them."""
        for name, text in examples():
            test = plain.read_test(text) if name.endswith("-x86") else None
            if test is None:
                continue
            conversion = convert(text)
            tests, number = make_together(conversion), {
                (t, i): k for t, its in enumerate(conversion.conversions[0].places) for k, i in enumerate(its)
            }
            numbered = lambda sets: sorted(sorted((t, number[t, index]) for t, index in it) for it in sets)
            states, places = fences.list_states(test), fences.list_fences(test)
            is_enough = lambda kept: fences.list_states(fences.remove_fences(test, [it for it in places if it not in kept])) == states
            with self.subTest(name):
                self.assertEqual(states, tests.list_states())
                self.assertEqual(sorted(sorted(it) for it in find_smallest_sets(places, is_enough)), numbered(tests.find_enough_sets()))
                if fences.count_unwanted_states(test):
                    self.assertEqual(sorted(sorted(it) for it in fences.find_helping_sets(test)), numbered(tests.find_helping_sets()))


class Swaps(cases.Case):
    """Tests with LOCK CMPXCHG."""

    def make_fenced_test(self, seed: int, has_fence: Sequence[bool] = (True, True)) -> str:
        """Returns a random test with a fence after the second row of each thread, or without some of these fences."""
        lines = make_random_cmpxchg(seed).splitlines(keepends=True)
        return "".join([*lines[:5], f" {' | '.join('MFENCE' if it else '' for it in has_fence)} ;\n", *lines[5:]])

    def test_without_a_fence(self) -> None:
        """The states without a fence are those of the text without it."""
        for seed in range(1, RANDOM_TESTS + 1):
            tests = make_together(convert(self.make_fenced_test(seed)))
            for thread, position in tests.list_fences():
                text = self.make_fenced_test(seed, tuple(it != thread for it in range(2)))
                with self.subTest(text):
                    self.assertEqual(answers.filter_state_lines(make_report_by_machine(text)), tests.list_states_without({(thread, position)}))

    def test_runs(self) -> None:
        """Each state has a run, by the lines of the text, that leads a machine with the instruction to it."""
        for seed in range(1, RANDOM_TESTS + 1):
            text = make_random_cmpxchg(seed)
            conversion = convert(text)
            runs = format_runs(Text(text, conversion))
            with self.subTest(text):
                self.assertEqual(
                    answers.filter_state_lines(make_report_by_machine(text)),
                    sorted(runs, key=answers.filter_state_lines(make_report_by_machine(text)).index),
                )
                self.assertEqual([*runs], [self.replay_events(text, events) for events in runs.values()])

    def replay_events(self, text: str, events: list[str]) -> str:
        """Returns the state in which a run ends, of a machine that has LOCK CMPXCHG."""
        test = make_machine(text)
        rows = [line.rstrip(" ;\n").split("|") for line in text.splitlines()[3:] if line.startswith(" ")]
        lines = [[4 + row for row, cells in enumerate(rows) if cells[t].strip() not in ("", "END:")] for t in range(2)]
        with mock.patch.object(machines, "execute_instruction", extend_with_cmpxchg(machines.execute_instruction)):
            state = plain.make_x86_start(test)
            step = lambda event: dict(plain.list_x86_moves(test, state))[event]
            index = lambda thread: state[0][thread].position
            for event in events:
                thread = int(event[1])
                if event[0] == "D":
                    state = step(f"D{thread}")
                    continue
                line = int(require_match(re.search(r"line (\d+)", event))[1])
                while lines[thread][index(thread)] != line:
                    state = step(f"P{thread}")
                state = step(f"P{thread}")
            for thread in range(2):
                while index(thread) < len(test.threads[thread]):
                    state = step(f"P{thread}")
        return plain.format_state(test, tuple(plain.read_word(site, plain.make_outcome(state)) for site in plain.list_observed_sites(test)))


class Printed(cases.Case):
    """The output of the commands."""

    def run_and_filter(self, words: list[str], text: str) -> tuple[list[str], int]:
        """Returns the lines of standard output without what is said of proofs, and the status."""
        out, _, status = run(words, text)
        return re.sub(r" \(not proved\)|, not proved", "", out).splitlines(), status

    def test_fences(self) -> None:
        """A fence of the original is named by its line, whatever it is converted to, and so are those that are enough."""
        lines, status = self.run_and_filter(["fences.py"], GUARDED)
        self.assertEqual("Guarded, by its question, exists (0:ECX=0 /\\ 1:ECX=0): fences 2, states 3", lines[0])
        expected = [f"P{thread}, line 5, mfence: needed, 1 more without it" for thread in range(2)]
        self.assertEqual([expected[0], "  0:ECX=0; 1:ECX=0;", expected[1], "  0:ECX=0; 1:ECX=0;"], lines[1:5])
        self.assertEqual("Enough, with none to spare, by its question, exists (0:ECX=0 /\\ 1:ECX=0): P0 line 5, P1 line 5", lines[5])
        last = r"Put together from 2 tests, listed by .*, of the runs that go through each loop at most once"
        self.assertTrue(re.fullmatch(last, lines[-1]))
        self.assertEqual(0, status)

    def test_places(self) -> None:
        """Places where a fence would help are named by the original's instructions."""
        lines, _ = self.run_and_filter(["fences.py"], UNFENCED)
        self.assertEqual("What is asked about is there, in 1 of 4 states: an MFENCE more before these instructions changes that", lines[1])
        self.assertEqual(["  P1, line 5, MOV EDX,[z]", "  P1, line 6, MOV ECX,[x]"], lines[2:4])

    def test_exchanges(self) -> None:
        """A compare-and-swap without its lock."""
        lines, _ = self.run_and_filter(["fences.py", "--exchanges", "tools/herd/tests/CasLoop.litmus"], "")
        index = lines.index("P0, line 7, lock cmpxchgl %ebx,(%rdx), without its lock:")
        self.assertEqual(["  by its question, forall (x=2): 1 state more", "    x=1;"], lines[index + 1 : index + 3])

    def test_no_run(self) -> None:
        """If no run is left, nothing is said of fences."""
        lines, status = self.run_and_filter(["fences.py", "--tries", "2", "tools/herd/tests/Loop.litmus"], "")
        why = "None: no run goes through every loop within 2 tries, so nothing is said of the condition"
        self.assertEqual((answers.NO_VERDICT, why), (status, lines[2]))

    def test_schedules(self) -> None:
        """An instruction that is two accesses is named with its part, and one that is guessed with what it comes to."""
        lines, _ = self.run_and_filter(["assume.py", "--schedules", "tools/herd/tests/Mcs.litmus"], "")
        self.assertIn("  P0, line 15: INC [n], the load", lines)
        self.assertIn("  P1, line 20: LOCK CMPXCHG [tail],EDX, which succeeds", lines)
        states = answers.filter_state_lines("\n".join(lines))
        self.assertEqual(states, [it for it in lines[2 + len(states) :] if it in states])

    def test_refused(self) -> None:
        """A text that neither lw nor a conversion takes is refused at the place that is read further."""
        for text, prefix in NO_TESTS:
            _, err, status = run(["fences.py"], text)
            with self.subTest(text):
                self.assertEqual((True, 1), (err.startswith(prefix), status))


if __name__ == "__main__":
    sys.exit(cases.main())
