"""Tests that tools/on_machine.py runs what a test says, and notices what is not listed.

    python3 tools gate.test_on_machine, or in tools/ python3 -m unittest gate.test_on_machine

- Three controls, which run tests. One that needs a race is tried again, longer, up to a limit.
  1. SB is compared with the list of SB with fences: a state is seen that is not listed.
  2. Stores past the caches break 2+2W and MP: a forbidden state is seen.
  3. A program with two instructions swapped, or anything else changed, is refused.
- Programs in C and Rust, by the tests that they are converted to, with the controls 1 and 2. Here control 3 is a test whose list lacks a state.
- Runs with fewer processors than threads, under a tracer, and on a machine that catches the trap flag.
- The messages and statuses of the command, and the column of tools/run_all.py.

If this machine lacks what a control needs, the control is left out, and `describe_skipped` says so. The programs are not needed.
tools/gate/test_machine_parts.py tries what needs no processor. tools/check_documents.py calls all this (tools/gate/cases.py).
"""
from __future__ import annotations

import ctypes
import json
import os
import re
import shutil
import subprocess
import sys
import tempfile
import unittest
from collections.abc import Callable
from functools import partial
from typing import Any
from unittest import mock

import plain
from gate import cases
from gate.examples import TOOLS, examples, read, run
from gate.test_machine_parts import ALL, MP, find_refusal, list_codes, read_subject
from machine import assembly, build, knobs, plans, processors, programs, runs, subjects, summary
from machine.faults import NotRun
from machine.laboratory import Laboratory, Settings
from machine.plans import Limits, Plan
from machine.summary import Result
from shared import answers
from shared.home import HOME

# The seconds that the tries of a control last: it fails after the last one.
TRIES = (1, 2, 4, 8)
SHORT_TRIES = (0.2, 1, 4, 8)
# A library to be loaded before the C library: signals of traps are not passed to their handlers, as in some sandboxes.
CATCHES_TRAPS = r"""
#define _GNU_SOURCE
#include <dlfcn.h>
#include <signal.h>
#include <stddef.h>

int sigaction(int number, const struct sigaction *new, struct sigaction *old)
{
    int (*next)(int, const struct sigaction *, struct sigaction *) = dlsym(RTLD_NEXT, "sigaction");
    return number == SIGTRAP ? 0 : next(number, new, old);
}
"""


def list_missing() -> list[str]:
    """Returns the needs of the controls that this machine lacks."""
    lacking = [f"{it} is missing" for it in ("cc", "objdump") if not shutil.which(it)]
    try:
        build.check_system()
    except NotRun as why:
        lacking += [] if lacking else [str(why)]
    return lacking


def has_fewer_processors(count: int = 2) -> bool:
    """Returns whether this process may use fewer processors than this number."""
    return len(os.sched_getaffinity(0)) < count


def describe_skipped() -> str | None:
    """Returns the line that says which controls are left out, if any are. None if none is."""
    lacking = list_missing() or (["there are fewer than two processors"] if has_fewer_processors() else [])
    return f"the controls of on_machine.py were left out: {', '.join(lacking)}" if lacking else None


def replace_once(text: str, old: str, new: str) -> str:
    """Returns a text with one part replaced, which it must contain."""
    assert old in text
    return text.replace(old, new)


# The stores of MP, and the same swapped.
STORES = ("    movl $1,(%r8)\n    movl $1,(%r9)\n", "    movl $1,(%r9)\n    movl $1,(%r8)\n")
# Changes of the assembly of MP, each with what is said of it.
CHANGES = (
    (*STORES, "P0 at 0 has 'mov    DWORD PTR [r9],0x1', and the test has 'store' location 0 value ('number', 1)"),
    ("    movl (%r9),%eax\n    movl (%r8),%ebx\n", "    movl (%r8),%ebx\n    movl (%r9),%eax\n", "P1 at 0 has 'mov    ebx,DWORD PTR [r8]'"),
    ("    movl $1,(%r9)\n", "    movl $2,(%r9)\n", "P0 at 1 has 'mov    DWORD PTR [r9],0x2'"),
    ("    movl $1,(%r9)\n", "    movl $1,(%r9)\n    mfence\n", "P0 has 3 instructions, and the test has 2"),
    ("    movl $1,(%r9)\n", "", "P0 has 1 instructions, and the test has 2"),
    ("    movl $1,(%r9)\n", "    movw $1,(%r9)\n", "P0 at 1 has 'mov    WORD PTR [r9],0x1'"),
    ("    movl $1,(%r9)\n", "    lock addl $1,(%r9)\n", "P0 at 1 has 'lock add DWORD PTR [r9],0x1'"),
    ("lw_end_0:\n", "", "the disassembly has no label 'lw_end_0'"),
    ("    movl $3,%eax\n", "    movl $4,%eax\n", "registers begin with {'eax': 4, 'ebx': 4294967295}"),
    ("    movq 8(%rdi),%r9\n", "    movq 0(%rdi),%r9\n", "the addresses of locations are taken from {0: 0, 1: 0}"),
    ("    testq %rsp,%rsp\n", "", "before the test there is "),
    ("    popfq\n    nop\n", "    popfq\n", "before the test there is test rsp,rsp; pushf; or QWORD PTR [rsp],0x100; popf, and not "),
    ("    movl %ebx,4(%rbp)\n", "    movl %ebx,8(%rbp)\n", "results are {'eax': 0, 'ebx': 8}"),
    ("    popq %rbx\n    popq %rbp\n", "    popq %rbp\n    popq %rbx\n", "rbp, rbx are saved, and rbp, rbx are restored"),
    ("    pushq %rbx\n", "", "rbx is changed and not saved"),
)


@unittest.skipIf(list_missing(), "something is missing")
class Compiled(cases.Case):
    """The check of compiled code, by cc and objdump."""

    room: tempfile.TemporaryDirectory
    builder: build.Builder

    @classmethod
    def setUpClass(cls) -> None:
        """Makes a folder for programs."""
        cls.room = tempfile.TemporaryDirectory(prefix="lw-machine-")
        cls.addClassCleanup(cls.room.cleanup)
        cls.builder = build.Builder(["cc"], cls.room.name)

    def find_fault(self, test: plain.Test, change: Callable[[str], str] = lambda text: text) -> str:
        """Returns the message on the compiled code of a test whose assembly is changed."""
        text_of = assembly.format_assembly
        with mock.patch.object(assembly, "format_assembly", lambda *words: change(text_of(*words))):
            return find_refusal(self.builder.build_program, list_codes(test), test.registers)

    def test_taken(self) -> None:
        """The code of each example is taken, of a test with each instruction, and of one with none."""
        texts = [ALL, MP, "X86 None\n{ x=3; }\n P0 | P1 ;\nexists (x=3)\n", *(text for _, text in examples()[::12])]
        for text in texts:
            test = plain.compile_test(plain.read_test(text))
            with self.subTest(test.name):
                self.assertEqual("", self.find_fault(test))

    def test_refused(self) -> None:
        """Code in which anything is changed is refused. Control 3."""
        for old, new, message in CHANGES:
            with self.subTest(old, new=new):
                self.assertIn(message, self.find_fault(plain.read_test(MP), partial(replace_once, old=old, new=new)))

    def test_both_copies(self) -> None:
        """Each thread is there twice, and both are checked."""
        for function in ("lw_run_0:", "lw_trapped_0:"):

            def swap(text: str, function: str = function) -> str:
                """Returns the assembly with another store in one function."""
                begin = text.index(f"\n{function}\n")
                end = text.index("    ret\n", begin)
                return text[:begin] + replace_once(text[begin:end], "    movl $1,(%r9)\n", "    movl $1,(%r8)\n") + text[end:]

            with self.subTest(function):
                self.assertIn("P0 at 1 has 'mov    DWORD PTR [r8],0x1'", self.find_fault(plain.read_test(MP), swap) or "")

    def test_warnings(self) -> None:
        """The harness is compiled without a warning."""
        for compiler in filter(shutil.which, ("cc", "clang")):
            words = [compiler, *build.FLAGS, "-Wall", "-Wextra", "-Werror", "-c", *build.SOURCES]
            ran = subprocess.run(words, cwd=self.room.name, stderr=subprocess.PIPE, check=False)
            with self.subTest(compiler):
                self.assertEqual(("", 0), (ran.stderr.decode(), ran.returncode))


class Commands(cases.Case):
    """The command's messages and statuses."""

    def test_usage(self) -> None:
        """Wrong words end with status 2, and say why."""
        cases: tuple[tuple[list[str], str], ...] = (
            (["--knob", "sync=fast", "F"], "argument --knob: sync is one of none, flag, time, mixed, and not 'fast'"),
            (["--seconds", "0", "F"], "argument --seconds: '0' is no number of seconds from 0.001 to 10000000"),
            (["--seconds", "nan", "F"], "argument --seconds: 'nan' is no number of seconds from 0.001 to 10000000"),
            (["--runs", "0", "F"], "argument --runs: 0 is below 1"),
            (["--cc", "", "F"], "argument --cc: it names no compiler"),
            (["--cc", "'", "F"], "argument --cc: ''' is no command: No closing quotation"),
            (["--until", "tired", "F"], "argument --until: invalid choice: 'tired'"),
            ([], "the following arguments are required: FILE"),
        )
        for words, message in cases:
            out, err, status = run(["on_machine.py", *words])
            with self.subTest(words):
                self.assertIn(message, err.splitlines()[-1])
                self.assertEqual(("", 2), (out, status))

    def test_lacking(self) -> None:
        """Without a compiler, without objdump or on another system, one line says so, with status 5, and nothing is run."""
        words = [sys.executable, os.path.join(TOOLS, "on_machine.py"), "examples/SB-x86.litmus"]
        no_objdump = "on_machine: there is no objdump, by which all that is run is checked before (Debian: binutils)\n"
        no_compiler = "on_machine: the compiler 'no-cc' does not start: No such file or directory; --cc names another (Debian: gcc)\n"
        with mock.patch.dict(os.environ, PATH="/nowhere"):
            _, err, status = run(["run_all.py", "--on-machine", "1", "examples/SB.litmus"])
        self.assertEqual((no_objdump.replace("on_machine", "run_all"), 5), (err.splitlines(True)[-1], status))
        for options, path, message in (("", "/nowhere", no_objdump), ("--cc no-cc", os.environ["PATH"], no_compiler)):
            if message is no_compiler and list_missing():
                continue
            ran = subprocess.run([*words, *options.split()], capture_output=True, cwd=HOME, env={**os.environ, "PATH": path}, check=False)
            with self.subTest(message):
                self.assertEqual((b"", message, 5), (ran.stdout, ran.stderr.decode(), ran.returncode))
        with mock.patch.object(build.platform, "machine", lambda: "aarch64"):
            self.assertEqual("a test is run on Linux on x86-64 only, and this is Linux on aarch64", find_refusal(build.check_system))

    @unittest.skipIf(list_missing(), "something is missing")
    def test_faults(self) -> None:
        """A file that has no test, a compiler that fails, and a test of other names."""
        out, err, status = run(["on_machine.py", "--seconds", "0.1", "tools/herd/tests/Less.litmus", "nowhere"])
        message = "tools/herd/tests/Less.litmus:6:2: 'JL' is no instruction that is read\non_machine: nowhere: No such file or directory\n"
        self.assertEqual(("", message, 1), (out, err, status))
        self.assertEqual(("", "on_machine: the compiler 'false' fails: it says nothing\n", 5), run(["on_machine.py", "--cc", "false", "F"]))
        out, err, status = run(["on_machine.py", "--seconds", "0.1", "--against", "examples/MP-x86.litmus", "examples/SB-x86.litmus"])
        message = "it is held against a test that speaks of other names: 1:EAX 1:EBX, and not 0:EAX 1:EAX"
        self.assertEqual(("", f"examples/SB-x86.litmus:1:1: {message}\n", 1), (out, err, status))
        out, err, status = run(["on_machine.py", "--against", "nowhere", "F"])
        self.assertEqual(("", "on_machine: nowhere: No such file or directory\n", 1), (out, err, status))


@unittest.skipIf(describe_skipped(), "something is missing")
class Controls(cases.Case):
    """Runs that have to notice something. What races show is no fixed number, so each is tried again, longer, up to a limit."""

    room: tempfile.TemporaryDirectory
    laboratory: Laboratory

    @classmethod
    def setUpClass(cls) -> None:
        """Makes a laboratory."""
        cls.room = tempfile.TemporaryDirectory(prefix="lw-machine-")
        cls.addClassCleanup(cls.room.cleanup)
        cls.laboratory = Laboratory(["cc"], cls.room.name)

    def run_test(self, text: str, **settings: Any) -> Result:
        """Returns the result of a run."""
        return self.laboratory.run_and_compare("F", text, Settings(**settings))

    def shows_in_some_run(self, is_shown: Callable[..., bool], text: str, **settings: Any) -> bool:
        """Returns whether one of several runs, each longer than the one before, shows what it should."""
        return any(is_shown(self.run_test(text, limits=Limits(seconds), **settings)) for seconds in TRIES)

    def test_against(self) -> None:
        """SB compared with the list of SB with fences: its fourth state is seen and not listed, with status 3. Control 1."""
        for seconds in TRIES:
            words = ["--seconds", str(seconds), "--against", "examples/SB+mfences-x86.litmus", "examples/SB-x86.litmus"]
            out, err, status = run(["on_machine.py", *words])
            if status == 3:
                break
        self.assertEqual(("", 3), (err, status))
        last = out.splitlines()[-2]
        self.assertTrue(last.startswith(f"  {summary.NOT_LISTED}: ") and last.endswith(": 0:EAX=0; 1:EAX=0;"))

    def test_nontemporal(self) -> None:
        """Stores past the caches break the order of stores: the forbidden states of 2+2W and of MP are seen. Control 2."""
        past = knobs.make_knobs([knobs.parse_knob("stores=nontemporal")])
        for name, state in (("2+2W-x86", (1, 1)), ("MP-x86", (1, 0))):
            with self.subTest(name):
                self.assertTrue(self.shows_in_some_run(lambda result, state=state: result.list_not_listed() == [state], read(f"examples/{name}.litmus"), knobs=past))

    def test_plain(self) -> None:
        """With plain stores the forbidden states of 2+2W and of MP are not seen."""
        for name in ("2+2W-x86", "MP-x86"):
            result = self.run_test(read(f"examples/{name}.litmus"), limits=Limits(1.0))
            with self.subTest(name):
                self.assertEqual([], result.list_not_listed())
                self.assertTrue(result.seen.runs > 0 and result.list_seen_and_listed())

    def test_swapped(self) -> None:
        """A program with two instructions swapped is not run. Control 3."""
        text_of = assembly.format_assembly
        swapped = lambda *words: replace_once(text_of(*words), *STORES)
        with mock.patch.object(assembly, "format_assembly", swapped), mock.patch.object(runs, "run_plan", side_effect=AssertionError):
            refusal = find_refusal(self.run_test, read("examples/MP-x86.litmus"))
        expected = "P0 at 0 has 'mov    DWORD PTR [r9],0x1', and the test has 'store' location 0 value ('number', 1)"
        self.assertEqual(f"the compiled code is not the test's: {expected}", refusal)

    def test_words(self) -> None:
        """Words and registers that no other thread changes are those of the test, in every run and by every kind of recipe."""
        text = ALL.replace("exists", "locations [a; b; c; d; e; f; g; h; 0:EBX; 0:ECX; 0:EDX; 0:ESI; 0:EDI;]\nexists")
        result = self.run_test(text, limits=Limits(0.5))
        self.assertEqual([[], []], [result.list_not_listed(), result.list_not_seen()])
        self.assertEqual(1, len(result.seen.states))

    def test_complete(self) -> None:
        """A run ends when all listed states were seen, or after N runs."""
        result = self.run_test(read("examples/CoRR-x86.litmus"), limits=Limits(60.0, until_complete=True))
        self.assertEqual([], result.list_not_seen())
        self.assertTrue(result.seen.seconds < 59)
        result = self.run_test(read("examples/CoRR-x86.litmus"), limits=Limits(None, 5000))
        self.assertTrue(5000 <= result.seen.runs <= 5000 + 1024)
        self.assertEqual(result.seen.runs, sum(it.times for it in result.seen.states.values()))

    def test_source(self) -> None:
        """A source test is run compiled, and its states have its names."""
        result = self.run_test(read("examples/SB.litmus"), limits=Limits(0.5), everything=True)
        self.assertEqual([], result.list_not_listed())
        self.assertIn("0:r0=0; 1:r0=1; x=1; y=1;", [result.subject.format_state(it) for it in result.listed.states])

    def test_table(self) -> None:
        """tools/run_all.py has a column of what is seen here, if it is asked for."""
        out, _, status = run(["run_all.py", "--as", "csv", "--on-machine", "0.5", "examples/CoRR-x86.litmus", "examples/SB.litmus"])
        head, *cells = [line.split(",")[-1] for line in out.splitlines()]
        self.assertEqual(("seen", 0), (head, status))
        self.assertEqual([True, True], [bool(re.fullmatch("[123] of 3", it)) for it in cells])
        self.assertEqual(["method"], run(["run_all.py", "--as", "csv", "examples/CoRR-x86.litmus"])[0].splitlines()[0].split(",")[-1:])
        converted = ["tools/herd/tests/SB-att.litmus", "tools/herd/tests/Cas.litmus", *["examples/from_c/TreiberStack.c"] * bool(shutil.which("gcc"))]
        out, err, status = run(["run_all.py", "--as", "json", "--on-machine", "0.3", *converted])
        states = [it["seen"] for it in json.loads(out)]
        self.assertEqual((True, "-", 0), (bool(re.fullmatch("[1-4] of 4", states[0])), states[1], status))
        self.assertEqual([True] * len(converted[2:]), [bool(re.fullmatch("[12] of 2", it)) for it in states[2:]])
        self.assertIn("Cas.litmus: a test in herd's form that is converted to several, or has loops, is not run on this machine", err)
        for seconds in ("0", "x", "nan", ""):
            with self.subTest(seconds):
                self.assertEqual(2, run(["run_all.py", "--on-machine", seconds, "examples/SB.litmus"])[2])

    def test_sync(self) -> None:
        """Each way to come together, and each kind of recipe by itself, shows states of the list and no others."""
        for words in ("sync=none", "sync=flag", "sync=time", "halts=0 schedules=0", "light=0 learn=0", "prepare=0 ballast=0 delay=0 move=0 pin=0"):
            chosen = knobs.make_knobs(map(knobs.parse_knob, words.split()))
            result = self.run_test(read("examples/SB-x86.litmus"), limits=Limits(0.2), knobs=chosen)
            with self.subTest(words):
                self.assertEqual([], result.list_not_listed())
                self.assertTrue(result.list_seen_and_listed())


# The code of store buffering by plain stores, which a compiler that is none writes.
PLAIN_STORES = """	.text
	.type P0, @function
P0:
	movl $1, x(%rip)
	movl y(%rip), %eax
#lw see r0 %eax
	ret
	.type P1, @function
P1:
	movl $1, y(%rip)
	movl x(%rip), %eax
#lw see r0 %eax
	ret
	.bss
	.align 4
x:
	.zero 4
	.align 4
y:
	.zero 4
"""
HERD_C = """C SB+release
{ x=0; y=0; }
P0 (atomic_int* x, atomic_int* y) {
  atomic_store_explicit(x, 1, memory_order_release);
  int r0 = atomic_load_explicit(y, memory_order_acquire);
}
P1 (atomic_int* x, atomic_int* y) {
  atomic_store_explicit(y, 1, memory_order_release);
  int r0 = atomic_load_explicit(x, memory_order_acquire);
}
exists (0:r0=0 /\\ 1:r0=0)
"""


@unittest.skipIf(describe_skipped() or not shutil.which("gcc"), "something is missing")
class Programs(cases.Case):
    """Programs in C and Rust, as the tests that they are converted to."""

    room: tempfile.TemporaryDirectory
    laboratory: Laboratory

    @classmethod
    def setUpClass(cls) -> None:
        """Makes a laboratory."""
        cls.room = tempfile.TemporaryDirectory(prefix="lw-machine-")
        cls.addClassCleanup(cls.room.cleanup)
        cls.laboratory = Laboratory(["cc"], cls.room.name)

    def make_program(self, path: str, compiler: str | None = None, tries: int = 1) -> Any:
        """Returns the program of a file."""
        return programs.compile_program(path, read(path), compiler, tries)

    def run_program(self, program: programs.Program, seconds: float = 0.2, **settings: Any) -> Result:
        """Returns the result of a program's runs."""
        return programs.run_program(self.laboratory, "F", program, Settings(Limits(seconds), **settings))

    def write_file(self, name: str, text: str) -> str:
        """Writes a file into a folder. Returns its path."""
        path = os.path.join(self.room.name, name)
        with open(path, "w", encoding="utf-8") as file:
            file.write(text)
        return path

    def test_lists(self) -> None:
        """A program has the list of tools/from_c.py, in the names of the source, however many tests it is."""
        for name, compiler, count in (("StoreBuffering", "gcc -O0", 1), ("ChaseLev", "gcc -O2", 4), ("McsLock", "gcc -O2", 4)):
            path = f"examples/from_c/{name}.c"
            program = self.make_program(path, compiler)
            states = answers.filter_state_lines(run(["from_c.py", "--cc", compiler, path])[0])
            with self.subTest(name):
                self.assertEqual(count, len(program.parts))
                self.assertEqual(sorted(states), sorted(map(program.subject.format_state, program.subject.listed.states)))

    def test_seen(self) -> None:
        """All seen states are listed. A run that is given up is no run of the program, and is counted apart."""
        paths = [f"examples/from_c/{it}.c" for it in ("TreiberStack", "ChaseLev")]
        for path in paths + ["examples/from_rust/EventCount.rs"] * bool(shutil.which("rustc")):
            result = self.run_program(self.make_program(path))
            counted = sum(it.times for it in result.seen.states.values())
            with self.subTest(path):
                self.assertEqual(([], []), (result.list_not_listed(), list(result.others)))
                self.assertTrue(0 < counted <= result.seen.runs)
                given_up = [it for it in result.notes if it.startswith("Given up")]
                self.assertEqual([str(result.seen.runs - counted)] * (counted < result.seen.runs), [it.split()[5] for it in given_up])

    def test_complete(self) -> None:
        """Until all states are seen, tests that list none that is missing are not run."""
        program = self.make_program("examples/from_c/ChaseLev.c")
        settings = Settings(Limits(30.0, until_complete=True))
        done = list(programs.run_parts(self.laboratory, program, settings))
        self.assertEqual(set(program.subject.listed.states), set(programs.merge_seen(done).states))
        self.assertTrue(len(done) < len(program.parts))

    def test_herd_form(self) -> None:
        """A test of herd's language C is a program, and its states have its names."""
        result = programs.run_file(self.laboratory, "sb.litmus", HERD_C, Settings(Limits(0.2)), None, 1)
        summary_read: dict[str, Any] = summary.make_json(result)
        fields = [summary_read[it] for it in ("name", "listed", "not_listed", "not_listed_in_tests")]
        self.assertEqual(["SB+release", 4, [], []], fields)
        self.assertTrue({it["state"] for it in summary_read["seen"]} <= {f"0:r0={a}; 1:r0={b};" for a in (0, 1) for b in (0, 1)})
        self.assertIn("Condition exists (0:r0=0 /\\ 1:r0=0) is ", summary.format_result(result))

    def test_against(self) -> None:
        """Store buffering by plain stores, as release makes them or a fake compiler, is compared with the list of the program with seq_cst: its
        fourth state is seen and not listed, with status 3. Control 1."""
        code = self.write_file("plain.s", PLAIN_STORES)
        fake = self.write_file("fake-cc", f'#!/bin/sh\nwhile [ "$1" != -o ]; do shift; done\ncp {code} "$2"\n')
        os.chmod(fake, 0o755)
        strong = self.make_program("examples/from_c/StoreBuffering.c", "gcc -O2").subject
        for path, compiler in (("examples/from_c/StoreBuffering.c", fake), (self.write_file("sb.litmus", HERD_C), None)):
            with open(os.path.join(HOME, path), encoding="utf-8") as file:
                program = programs.compile_program(path, file.read(), compiler, 1)
            with self.subTest(path):
                self.assertTrue(any(self.run_program(program, it, against=strong).list_not_listed() == [(0, 0)] for it in SHORT_TRIES))
        for seconds in SHORT_TRIES:
            out, err, status = run(["on_machine.py", "--seconds", str(seconds), "--against", "examples/from_c/StoreBuffering.c", path])
            if status == 3:
                break
        self.assertEqual(("", 3), (err, status))
        last = out.splitlines()[-2]
        self.assertTrue(last.startswith(f"  {summary.NOT_LISTED}: ") and last.endswith(": 0:r0=0; 1:r0=0;"))

    def test_nontemporal(self) -> None:
        """Stores past the caches show the forbidden state of a program. Control 2."""
        past = knobs.make_knobs([knobs.parse_knob("stores=nontemporal")])
        program = self.make_program("examples/from_c/MessagePassing.c")
        forbidden = "1:sees_data=0; 1:sees_flag=1;"
        list_unlisted = lambda seconds: [program.subject.format_state(it) for it in self.run_program(program, seconds, knobs=past).list_not_listed()]
        self.assertTrue(any(list_unlisted(it) == [forbidden] for it in SHORT_TRIES))

    def test_given_up(self) -> None:
        """A state of a test that its own list lacks is a contradiction, also if its run is given up. Control 3."""
        program = self.make_program("examples/from_c/TreiberStack.c")
        short = [
            it._replace(listed=it.listed._replace(states=[w for w in it.listed.states if it.find_program_state(w) is not None]))
            for it in program.parts
        ]
        for seconds in SHORT_TRIES:
            result = self.run_program(program._replace(parts=short), seconds)
            if result.others:
                break
        self.assertEqual([], result.list_not_listed())
        self.assertTrue(result.is_contradicted())
        self.assertIn(": in the test TreiberStack+", result.others[0])
        self.assertTrue(summary.format_summary(result)[-1].startswith(f"  {summary.NOT_LISTED}: "))

    def test_refused(self) -> None:
        """A program that is not converted, one of which no run is left, and one with `--everything`."""
        waits = "#include <stdatomic.h>\natomic_int x;\nvoid P0(void) { while (!atomic_load(&x)); }\n// lw: exists (x=0)\n"
        path, sb = self.write_file("waits.c", waits), "examples/from_c/StoreBuffering.c"
        why = "no run comes to an end: each waits for what no other thread stores, or goes through a loop more often than --tries says"
        self.assertEqual(why, find_refusal(self.make_program, path))
        self.assertEqual(programs.EVERYTHING, find_refusal(lambda: self.run_program(self.make_program(sb), everything=True)))
        self.assertEqual(("", f"on_machine: {path}: {why}\n", 5), run(["on_machine.py", "--against", path, sb]))
        message = f"{sb}: the compiler 'no-cc' does not start: No such file or directory\n"
        self.assertEqual(("", message, 1), run(["on_machine.py", "--program-cc", "no-cc", sb]))


@unittest.skipIf(list_missing(), "something is missing")
class Surroundings(cases.Case):
    """Runs without something: they continue, and say so."""

    room: tempfile.TemporaryDirectory
    laboratory: Laboratory

    @classmethod
    def setUpClass(cls) -> None:
        """Makes a laboratory."""
        cls.room = tempfile.TemporaryDirectory(prefix="lw-machine-")
        cls.addClassCleanup(cls.room.cleanup)
        cls.laboratory = Laboratory(["cc"], cls.room.name)

    def make_program(self, name: str) -> tuple[str, Plan]:
        """Returns the program and the plan of an example, for a fifth of a second."""
        subject = read_subject(f"examples/{name}.litmus")
        settings = Settings(Limits(0.2))
        plan = self.laboratory.make_plan(subject, settings, subjects.make_list(subject).states, processors.read_processors())
        return self.laboratory.builder.build_program(plan.threads, subject.x86.registers), plan

    def test_one_processor(self) -> None:
        """On one processor threads take turns; halts and schedules show what a switch between threads can show."""
        allowed = os.sched_getaffinity(0)
        os.sched_setaffinity(0, {min(allowed)})
        try:
            limits = [Limits(seconds, until_complete=True) for seconds in TRIES[:2]]
            results = [self.laboratory.run_and_compare("F", read("examples/MP-x86.litmus"), Settings(it)) for it in limits]
        finally:
            os.sched_setaffinity(0, allowed)
        for result in results:
            self.assertEqual([], result.list_not_listed())
            self.assertIn("may use 1 processor and the test has 2 threads", result.notes[0])
        self.assertTrue(any(result.list_seen_and_listed() for result in results))

    def test_caught(self) -> None:
        """If the trap flag is caught there are no halts and no directed schedules; the run is not ended."""
        library, source = (os.path.join(self.room.name, it) for it in ("catches.so", "catches.c"))
        with open(source, "w", encoding="ascii") as file:
            file.write(CATCHES_TRAPS)
        subprocess.run(["cc", "-shared", "-fPIC", source, "-o", library, "-ldl"], check=True)
        program, plan = self.make_program("MP-x86")
        with mock.patch.dict(os.environ, LD_PRELOAD=library):
            seen = runs.run_plan(program, plan)
        self.assertEqual(runs.TRAPS_CAUGHT, seen.facts["traps"])
        self.assertEqual({runs.KINDS[0]}, {it.kind for it in seen.states.values()})
        self.assertTrue(runs.list_missing(seen, plan))

    def test_traced(self) -> None:
        """Under a tracer there are no halts and no directed schedules; the run is not ended."""
        program, plan = self.make_program("MP-x86")
        libc = ctypes.CDLL(None, use_errno=True)
        traced = subprocess.Popen(
            [program], stdin=subprocess.PIPE, stdout=subprocess.PIPE, preexec_fn=lambda: os._exit(9) if libc.ptrace(0, 0, None, None) else None
        )
        with traced:
            _, status = os.waitpid(traced.pid, 0)
            if not os.WIFSTOPPED(status):  # Nothing can be traced here.
                self.assertEqual(9, os.WEXITSTATUS(status))
                return
            libc.ptrace(7, traced.pid, None, None)
            out, _ = traced.communicate(plans.format_plan(plan).encode(), timeout=60)
        seen = runs.parse_sightings(out.decode().splitlines())
        self.assertEqual(runs.TRAPS_TRACED, seen.facts["traps"])
        self.assertEqual({runs.KINDS[0]}, {it.kind for it in seen.states.values()})

    def test_no_clock(self) -> None:
        """Without a clock that all processors share, threads meet by flags."""
        program, plan = self.make_program("SB-x86")
        seen = runs.run_plan(program, plan._replace(has_clock=False))
        self.assertTrue(seen.states)
        self.assertTrue(set(seen.states) <= set(plan.states))

    def test_no_plan(self) -> None:
        """A plan that is cut off is refused."""
        program, plan = self.make_program("SB-x86")
        lines = plans.format_plan(plan).splitlines(keepends=True)
        for index, name in ((0, "threads"), (5, "sites"), (-1, "end")):
            ran = subprocess.run([program], input="".join(lines[:index]).encode(), capture_output=True, check=False)
            with self.subTest(name):
                self.assertEqual((f"harness: the plan has no '{name}' where one is due\n", 2), (ran.stderr.decode(), ran.returncode))


if __name__ == "__main__":
    sys.exit(cases.main(describe_skipped))
