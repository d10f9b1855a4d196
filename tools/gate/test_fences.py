"""Tests that tools/fences.py finds the smallest sets of fences, and exchanges that need no lock.

    python3 tools gate.test_fences, or in tools/ python3 -m unittest gate.test_fences

- For each compiled example, the sets of fences that are enough are those of a search through all sets.
- For random x86 tests: no smaller set of places leaves no unwanted state, wherever fences are put, and each set that is printed does so.
- Exchanges without their lock have all states of those with it.
- A fence that is called spare adds no state if it is left out, of examples and of random tests with fences anywhere.
- An answer says that it is not proved, if the programs did not make all of its lists.

The programs are not needed. tools/check_documents.py calls all this (tools/gate/cases.py).
"""
from __future__ import annotations

import glob
import io
import os
import re
import sys
import time
import unittest
from collections.abc import Callable, Iterator, Sequence
from contextlib import contextmanager
from functools import lru_cache
from itertools import combinations
from random import Random
from typing import Any
from unittest import mock

import fences
import plain
import random_tests
from gate import cases
from gate.examples import TOOLS, examples, read, run
from fencing.exchanges import leave_out, list_exchanges, list_removable, make_unlocked_instructions, replace_instruction
from fencing.places import find_positions_after_stores, insert_fences
from fencing.sets import find_smallest_sets
from fencing.spare import find_loads_after, is_spare
from search.explore import Search
from search.reports import make_report
from shared import answers, python_lw

lw = python_lw.load_lw()
RANDOM_TESTS = 150
# Tests with fences at random places, and how many of their spare fences at least have a store before them and a load after them.
FENCED_TESTS = 300
MIN_SPARE = 30
MAX_PLACES = 2
# The most fences and locks of an example whose sets are all tried.
MAX_TOGETHER = 4
# Four threads, each of which takes a ticket, and adds to `n` if it is served first; the next one is served then.
TICKETS = """X86 Tickets
{ 0:EAX=1; 1:EAX=1; 2:EAX=1; 3:EAX=1; }
 P0 | P1 | P2 | P3 ;
 LOCK XADD [next],EAX | LOCK XADD [next],EAX | LOCK XADD [next],EAX | LOCK XADD [next],EAX ;
 MOV EBX,[owner] | MOV EBX,[owner] | MOV EBX,[owner] | MOV EBX,[owner] ;
 CMP EAX,EBX | CMP EAX,EBX | CMP EAX,EBX | CMP EAX,EBX ;
 JNE END | JNE END | JNE END | JNE END ;
 MOV ECX,[n] | MOV ECX,[n] | MOV ECX,[n] | MOV ECX,[n] ;
 ADD ECX,$1 | ADD ECX,$1 | ADD ECX,$1 | ADD ECX,$1 ;
 MOV [n],ECX | MOV [n],ECX | MOV [n],ECX | MOV [n],ECX ;
 ADD EBX,$1 | ADD EBX,$1 | ADD EBX,$1 | ADD EBX,$1 ;
 MOV [owner],EBX | MOV [owner],EBX | MOV [owner],EBX | MOV [owner],EBX ;
 END: | END: | END: | END: ;
locations [0:EAX; 1:EAX; 2:EAX; 3:EAX;]
exists (n=1)
"""
TOLD_OF_SB = """SB-x86, by its question, exists (0:EAX=0 /\\ 1:EAX=0): fences 0, states 4
What is asked about is there, in 1 of 4 states: an MFENCE more at these places changes that
  P0 at 1, before MOV EAX,[y]; P1 at 1, before MOV EAX,[x]
"""


@contextmanager
def hide_programs() -> Iterator[None]:
    """Hides the programs and the library."""
    names: dict[str, Any] = {"PROGRAM": "/no/program", "BEYOND": "/no/program", "load_library": lambda: None}
    with mock.patch.multiple(answers, **names):
        yield


def make_report_by_search(test: plain.Test) -> str:
    """Returns a report by the search of tools/beyond.py, which is quicker than that of tools/plain.py."""
    return make_report(test, Search(test).explore(10**6, lambda *_: None))


def find_all_smallest(items: Sequence[Any], is_enough: Callable[[Any], bool]) -> list[Any]:
    """Returns all smallest sets of items that are enough: it tries each set."""
    for size in range(len(items) + 1):
        sets = [list(it) for it in combinations(items, size) if is_enough(frozenset(it))]
        if sets:
            return sets
    return []


def list_states_with(test: plain.Test, places: list[tuple[int, int]], kept_places: frozenset[tuple[int, int]]) -> list[str]:
    """Returns the lines of the states of a test that keeps only the fences at `kept_places`, of those at `places`."""
    return answers.filter_state_lines(make_report_by_search(fences.remove_fences(test, [it for it in places if it not in kept_places])))


class BySearch(cases.Case):
    """Tests with reports by the search."""

    def setUp(self) -> None:
        """Makes the tool take reports from the search."""
        patch = mock.patch.object(fences, "make_report", make_report_by_search)
        self.addCleanup(patch.stop)
        patch.start()


class Sets(BySearch):
    """The fences of compiled examples."""

    def test_smallest(self) -> None:
        """The smallest sets that are enough are those of a look at each set."""
        for name, text in examples():
            test = plain.compile_test(plain.read_test(text))
            places = fences.list_fences(test)
            for variant in (test, fences.show_everything(test)) if 1 < len(places) <= 6 else ():
                fewest = list_states_with(variant, places, frozenset(places))
                is_enough = lru_cache(None)(lambda kept: list_states_with(variant, places, kept) == fewest)
                with self.subTest(name):
                    self.assertEqual(find_all_smallest(places, is_enough), find_smallest_sets(places, is_enough))


class Places(BySearch):
    """Places for fences in random tests and in examples."""

    def list_unwanted_tests(self) -> Iterator[tuple[str, plain.Test, list[list[tuple[int, int]]]]]:
        """Yields each test in which something is unwanted: its name, the test, and the sets of places that are reported for it."""
        texts = [(name, text) for name, text in examples() if name.endswith("-x86")]
        texts += [(f"random x86 test {seed}", random_tests.Writer("X86", seed).draw_test()) for seed in range(1, RANDOM_TESTS)]
        for name, text in texts:
            test = plain.read_test(text)
            if fences.count_unwanted_states(test):
                yield name, test, fences.find_helping_sets(test)

    def test_sets_help(self) -> None:
        """With a fence at each place of a printed set, nothing is unwanted."""
        for name, test, sets in self.list_unwanted_tests():
            for chosen in sets:
                with self.subTest(name, chosen=chosen):
                    self.assertEqual(0, fences.count_unwanted_states(insert_fences(test, chosen)))

    def test_smaller_sets(self) -> None:
        """No smaller set of places helps."""
        for name, test, sets in self.list_unwanted_tests():
            everywhere = [(thread, index) for thread, code in enumerate(test.threads) for index in range(len(code))]
            max_size = min(MAX_PLACES, len(sets[0]) - 1 if sets else MAX_PLACES)
            smaller = [it for size in range(1, max_size + 1) for it in combinations(everywhere, size)] if len(everywhere) < 16 else []
            with self.subTest(name):
                self.assertEqual([], [it for it in smaller if not fences.count_unwanted_states(insert_fences(test, list(it)))])


class Exchanges(BySearch):
    """Exchanges without their lock."""

    def test_states(self) -> None:
        """An exchange without its lock has all states of the one with it."""
        texts = [text for _, text in examples()] + [random_tests.Writer("X86", seed).draw_test() for seed in range(1, RANDOM_TESTS // 2)]
        for text in texts:
            test = plain.compile_test(plain.read_test(text))
            before = set(answers.filter_state_lines(make_report_by_search(test)))
            for place in list_exchanges(test):
                instructions = make_unlocked_instructions(test, place)
                if instructions:
                    with self.subTest(test.name, place=place):
                        lines = answers.filter_state_lines(make_report_by_search(replace_instruction(test, place, instructions)))
                        self.assertEqual([], sorted(before - set(lines)))


    def test_together(self) -> None:
        """The sets of fences and locks that add no state are those of a search through all sets, and each set with more of them adds none either."""
        for name, text in examples():
            test = plain.compile_test(plain.read_test(text))
            removable = list_removable(test)
            if not (any(removable.values()) and 1 < len(removable) <= MAX_TOGETHER):
                continue
            states = answers.filter_state_lines(make_report_by_search(test))
            enough: dict[frozenset[tuple[int, int]], bool] = {}
            for chosen in (frozenset(it) for size in range(len(removable) + 1) for it in combinations(removable, size)):
                left_out = {place: it for place, it in removable.items() if place not in chosen}
                enough[chosen] = answers.filter_state_lines(make_report_by_search(leave_out(test, left_out))) == states
            with self.subTest(name):
                self.assertEqual(find_all_smallest(list(removable), enough.__getitem__), fences.find_sets_together(test))
                self.assertEqual([], [(few, many) for few in enough for many in enough if enough[few] and few < many and not enough[many]])


class Command(cases.Case):
    """The output of the command."""

    def test_sb(self) -> None:
        """For store buffering it says that there is no fence, and where one more would change the answer."""
        printed, err, status = run(["fences.py"], read("examples/SB-x86.litmus"))
        lines = [line for line in printed.splitlines(keepends=True) if not line.startswith("Not proved: ")]
        self.assertEqual((TOLD_OF_SB, "", 0), ("".join(lines).replace(" (not proved)\n", "\n"), err, status))

    def test_asked(self) -> None:
        """Each line that says what can be left out names what was asked, since such a line is read without the first one."""
        question, everything = "its question, ~exists (0:ECX=1 /\\ 1:ECX=1)", "all registers and locations"
        for name, words, by_what, count in (("Bakery", "", question, 2), ("Bakery", "--everything", everything, 0), ("FastLock", "", question, 2)):
            lines = run(["fences.py", *words.split(), f"examples/{name}.litmus"])[0].splitlines()
            advice = [it for it in lines if "left out" in it or it.startswith("Enough")]
            with self.subTest(name, asked=by_what):
                self.assertEqual(count + 1, len(advice))
                self.assertTrue(all(f", by {by_what}" in it for it in advice))

    def test_enough(self) -> None:
        """Fences are called enough only if the question is answered, or if a source test behaves as by interleaving. In particular no line says
        that no fence is enough if the outcome of the question is present."""
        half = read("examples/SB+mfences-x86.litmus").replace(" MFENCE | MFENCE ;", " MFENCE | ;").replace("~exists", "exists")
        question = "by its question, exists (0:EAX=0 /\\ 1:EAX=0)"
        everything = "by all registers and locations"
        rows = (
            ("", read("examples/SB-x86.litmus"), None),
            ("", half, f"As good as all its fences, with none to spare, {question}: no fence"),
            ("", re.sub("^exists.*", "forall (~(0:EAX=0 /\\\\ 1:EAX=0))", half, flags=re.M), "As good as all its fences, .*: no fence"),
            ("", read("examples/SB+mfences-x86.litmus"), "Enough, with none to spare, .*: P0 at 1, P1 at 1"),
            ("", read("examples/MP-x86.litmus"), "Enough, with none to spare, .*: no fence"),
            ("--everything", read("examples/SB-x86.litmus"), None),
            ("--everything", half, f"As good as all its fences, with none to spare, {everything}: no fence"),
            ("--everything", read("examples/SB.litmus"), f"Enough, with none to spare, {everything}: P0 at 1, P1 at 1"),
            ("--everything", read("examples/MP.litmus"), f"Enough, with none to spare, {everything}: no fence"),
        )
        for words, text, expected in rows:
            lines = [it for it in run(["fences.py", *words.split()], text)[0].splitlines() if "with none to spare" in it]
            with self.subTest(words=words, text=text):
                self.assertEqual(expected is not None, len(lines) == 1)
                self.assertTrue(expected is None or expected == lines[0] or re.fullmatch(expected, lines[0]), lines)

    def test_help(self) -> None:
        """`--help` is answered."""
        self.assertEqual(0, run(["fences.py", "--help"])[2])

    def test_exchanges(self) -> None:
        """With `--exchanges`: of each, how many states more there are with a plain store in its place, by the question and by everything."""
        printed = run(["fences.py", "--exchanges", "examples/Peterson+xchg-x86.litmus"])[0].splitlines()
        expected = [
            "P0 at 1, XCHG [turn],EDX, without its lock:",
            "  by its question, ~exists (0:ECX=1 /\\ 1:ECX=1): 1 state more as a plain store",
            "    0:ECX=1; 1:ECX=1;",
            "  by all registers and locations: 3 states more as a load and a plain store",
        ]
        self.assertEqual(expected, printed[2:6])

    def test_together(self) -> None:
        """With `--exchanges`: all smallest sets of fences and locks that add no state together, by the question and by everything; none of one lock."""
        rows = " MOV EAX,$1 | MOV [y],$1 ;\n XCHG [x],EAX | MFENCE ;\n MFENCE | MOV EBX,[x] ;\n MOV EBX,[y] | ;"
        text = f"X86 Mixed\n{{}}\n P0 | P1 ;\n{rows}\n~exists (0:EBX=0 /\\ 1:EBX=0)\n"
        begin = "Fences and locks that add no state together, with none to spare, by "
        sets = "P0 at 1, XCHG [x],EAX; P1 at 1, MFENCE; or P0 at 2, MFENCE; P1 at 1, MFENCE"
        question = "its question, ~exists (0:EBX=0 /\\ 1:EBX=0)"
        expected = [f"{begin}{question}: {sets}", f"{begin}all registers and locations: {sets}"]
        list_lines = lambda words, given_text="": [it for it in run(["fences.py", "--exchanges", *words], given_text)[0].splitlines() if it.startswith(begin)]
        self.assertEqual(expected, list_lines([], text))
        self.assertEqual([], list_lines(["examples/MP+xchg-x86.litmus"]))
        self.assertEqual([f"{begin}all registers and locations: none"], list_lines(["--everything", "examples/IRIW+xchgs-x86.litmus"]))

    def test_both_questions(self) -> None:
        """A lock that a question does not need, and the algorithm does: no line says that it can go without saying by what, and what
        everything says is beside it."""
        printed = run(["fences.py", "--exchanges", "examples/DoubleChecked.litmus"])[0]
        both = r"\n  by its question, .*: no state more as .*\n  by all registers and locations: 1 state more as "
        self.assertEqual(2, len(re.findall(both, printed)))
        self.assertFalse(re.search(r"can be .*store", printed))

    def test_exchanges_by_everything(self) -> None:
        """With `--everything` the question is left out."""
        printed = run(["fences.py", "--exchanges", "--everything", "examples/DoubleChecked.litmus"])[0]
        self.assertEqual(2, printed.count("\n  by all registers and locations: 1 state more as a load and a plain store\n"))
        self.assertFalse("by its question" in printed)


class Spare(BySearch):
    """Fences that are spare by the local law."""

    def list_fenced_tests(self) -> Iterator[tuple[str, plain.Test]]:
        """Yields names and tests, which show all registers and locations: random ones with fences at random places, and examples."""
        for seed in range(1, FENCED_TESTS + 1):
            test, random = plain.read_test(random_tests.Writer("X86", seed).draw_test()), Random(seed)
            everywhere = [(thread, index) for thread, code in enumerate(test.threads) for index in range(len(code))]
            chosen = sorted(random.sample(everywhere, min(3, len(everywhere))))
            yield f"random x86 test {seed}", insert_fences(fences.show_everything(test), chosen)
        for name, text in examples():
            yield name, fences.show_everything(plain.compile_test(plain.read_test(text)))

    def test_no_state_is_new(self) -> None:
        """A test without a spare fence has the same states, of all registers and locations."""
        met = 0
        for name, test in self.list_fenced_tests():
            for thread, position in filter(lambda place: is_spare(test, place), fences.list_fences(test)):
                code = test.threads[thread]
                met += position in find_positions_after_stores(code) and bool(find_loads_after(code, position))
                with self.subTest(name, fence=(thread, position)):
                    self.assertEqual(fences.list_states(test), fences.list_states(fences.remove_fences(test, [(thread, position)])))
        self.assertTrue(met >= MIN_SPARE, met)

    def test_by_hand(self) -> None:
        """Each part of the law decides a fence: what is spare, and what is not for want of one thing."""
        rows = (
            ("MOV [x],$1 ; MFENCE ; MOV EAX,[z]", "MOV [y],$1", True),
            ("MOV [x],$1 ; MFENCE ; MOV EAX,[y]", "MOV [y],$1", False),
            ("MOV [x],$1 ; MFENCE ; MOV EAX,[y]", "XCHG [y],EAX", False),
            ("MOV [x],$1 ; MFENCE ; MOV EAX,[z] ; MOV EBX,[y]", "MOV [y],$1", False),
            ("MOV [x],$1 ; MFENCE ; MOV EAX,[z] ; XCHG [z],EBX ; MOV EBX,[y]", "MOV [y],$1", True),
            ("MFENCE ; MOV EAX,[y]", "MOV [y],$1", True),
            ("MOV [x],$1 ; XCHG [z],EBX ; MFENCE ; MOV EAX,[y]", "MOV [y],$1", True),
            ("MOV [x],$1 ; MFENCE ; MFENCE ; MOV EAX,[y]", "MOV [y],$1", True),
            ("CMP EAX,$1 ; JE L ; XCHG [z],EBX ; MOV [x],$1 ; L: MFENCE ; MOV EAX,[y]", "MOV [y],$1", False),
        )
        for first, second, spare in rows:
            cells = [first.split(" ; "), [second]]
            lines = [f" {cell} | {cells[1][0] if not index else ''} ;" for index, cell in enumerate(cells[0])]
            test = plain.read_test("X86 T\n{}\n P0 | P1 ;\n" + "\n".join(lines) + "\nexists (x=0 /\\ y=0)")
            with self.subTest(first):
                self.assertEqual(spare, is_spare(test, fences.list_fences(test)[0]))

    def test_reported(self) -> None:
        """A spare fence is reported as one, by the words of the law."""
        text = re.sub(r"^ r0 := y.*\n", "", read("examples/SB+unwritten.litmus"), flags=re.M)
        out = io.StringIO()
        with mock.patch.object(sys, "stdout", out):
            fences.print_fences(fences.Choices(everything=True), text)
        self.assertEqual("P0 at 1, before MOV EBX,[z]: spare: can be left out by a proved law, whatever is asked", out.getvalue().splitlines()[1])


class Makers(cases.Case):
    """By whom lists are made."""

    def list_printed_lines(
        self, path: str, choices: fences.Choices = fences.Choices(), program: str | None = None, beyond: str | None = None
    ) -> list[str]:
        """Returns the output of the command on a file, with other programs if they are named."""
        out = io.StringIO()
        with mock.patch.object(answers, "PROGRAM", program or answers.PROGRAM), mock.patch.object(answers, "load_library", lambda: None):
            with mock.patch.object(answers, "BEYOND", beyond or answers.BEYOND), mock.patch.object(sys, "stdout", out):
                fences.print_fences(choices, read(path))
        return out.getvalue().splitlines()

    def test_not_proved(self) -> None:
        """Without the programs each list is one of the search, and the first line and the last say that it is not proved."""
        for path, number in (("examples/SB-x86.litmus", 4), ("examples/SB.litmus", 3), ("tools/search/tests/Peterson3.litmus", 3)):
            head, *_, last = self.list_printed_lines(path, program="/no/program", beyond="/no/program")
            with self.subTest(path):
                self.assertTrue(head.endswith(" (not proved)"))
                why = "since lw and beyond are not built here, or refuse these tests"
                self.assertEqual(f"Not proved: of {number} lists {number} are made by tools/beyond.py, {why}", last)

    def test_beyond_limits(self) -> None:
        """A test that lw refuses for its size is said to be not proved if beyond is not built, with lw and without."""
        for path in glob.glob(os.path.join(TOOLS, "search", "tests", "*.litmus")):
            head, *_, last = self.list_printed_lines(path, beyond="/no/program")
            with self.subTest(path):
                self.assertTrue(head.endswith(" (not proved)"))
                self.assertIn("Not proved: ", last)

    @unittest.skipUnless(os.path.exists(answers.BEYOND), "the program beyond is not built")
    def test_by_beyond(self) -> None:
        """An answer is proved if beyond is built, with lw and without, and the states are the same as those of the search."""
        for path in glob.glob(os.path.join(TOOLS, "search", "tests", "*.litmus")):
            searched = self.list_printed_lines(path, program="/no/program", beyond="/no/program")
            for program in (None, "/no/program"):
                output = self.list_printed_lines(path, program=program)
                with self.subTest(path, program=program):
                    self.assertEqual([searched[0].replace(" (not proved)", ""), *searched[1:-1]], output)
                    self.assertEqual({answers.Maker.BEYOND}, fences.list_makers())

    @unittest.skipUnless(os.path.exists(answers.PROGRAM), "the program is not built")
    def test_proved(self) -> None:
        """A test within the limits is not, if the program is built."""
        for path in ("examples/SB-x86.litmus", "examples/Dekker.litmus"):
            output = self.list_printed_lines(path, fences.Choices(exchanges=True))
            with self.subTest(path):
                self.assertFalse("ot proved" in "".join(output))

    def test_by_library(self) -> None:
        """A library that is beside python/lw.py makes lists of any size too; the search does if its memory is not enough."""
        refused, memory = lw.Fault("lw: limit 2 TooManyOrders", 3), lw.Fault("lw: memory", 4)
        for reach, maker in (({"return_value": b"a report"}, answers.Maker.BEYOND), ({"side_effect": memory}, answers.Maker.SEARCH)):
            bench = mock.Mock(run=mock.Mock(side_effect=refused), reach=mock.Mock(**reach))
            names: dict[str, Any] = {"BEYOND": "/no/program", "load_library": lambda bench=bench: bench, "has_sources": lambda: False}
            with self.subTest(maker), mock.patch.multiple(answers, **names):
                printed = answers.make_answer(["states"], plain.read_test(TICKETS))
                self.assertEqual(maker, printed.by)
                self.assertTrue(maker is answers.Maker.SEARCH or printed.text == "a report")

    def test_quick(self) -> None:
        """Lists that the program does not make are those of the search: four threads that take a ticket each, in seconds."""
        begin = time.monotonic()
        with hide_programs():
            printed = answers.make_answer(["states"], plain.read_test(TICKETS))
        self.assertEqual((answers.Maker.SEARCH, 96), (printed.by, len(answers.filter_state_lines(printed.text))))
        self.assertTrue(time.monotonic() - begin < 10)

    def test_too_large(self) -> None:
        """A search that comes to no end makes no list, and says so."""
        test = plain.read_test(TICKETS)
        with hide_programs():
            with mock.patch.object(answers, "MAX_STATES", 10):
                try:
                    answers.make_answer(["states"], test)
                    why = ""
                except answers.NoList as fault:
                    why = fault.cause
        message = "there is no whole list: lw makes none here, and a search for the states of Tickets ends at 10 states of the machine"
        self.assertEqual(message, why)

    def test_makers(self) -> None:
        """Only the programs are proved, and makers are named in a fixed order."""
        self.assertEqual([answers.Maker.PROGRAM, answers.Maker.BEYOND], [it for it in answers.Maker if it.is_proved])
        self.assertEqual("lw and tools/beyond.py", answers.format_makers(iter([answers.Maker.SEARCH, answers.Maker.PROGRAM])))
        proved = [answers.Maker.PROGRAM, answers.Maker.BEYOND]
        self.assertTrue(answers.are_proved(proved) and not answers.are_proved(answers.Maker))


if __name__ == "__main__":
    sys.exit(cases.main())
