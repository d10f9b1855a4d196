"""Tests the parts of tools/on_machine.py that need no processor, on fixed texts and values.

    python3 tools gate.test_machine_parts, or in tools/ python3 -m unittest gate.test_machine_parts

Knobs, the assembly that is written, the disassembly that is read, schedules as scripts, plans and what the harness prints, the processors and
placements on them, logs in litmus7's form, which tools/shared/logs.py and tools/run_all.py read, summaries, and the column of run_all.py.
Neither a compiler nor the programs are needed. tools/check_documents.py calls all this (tools/gate/cases.py).
"""
from __future__ import annotations

import json
import os
import sys
import tempfile
from collections.abc import Callable
from random import Random
from typing import Tuple, TypeVar
from unittest import mock

import given
import plain
from gate import cases
from gate.examples import examples, read, run
from machine import assembly, column, disassembly, knobs, logs, plans, processors, runs, scripts, subjects, summary
from machine.assembly import Code
from machine.faults import NotRun
from machine.laboratory import list_threads
from machine.plans import Limits
from machine.runs import Sightings, Sighting
from machine.subjects import Subject
from machine.summary import Result
from search.explore import Search
from shared import answers
from shared import logs as readers

# A test with each instruction.
ALL = """X86 All
{ 0:EDX=7; h=4294967295; }
 P0 | P1 ;
 MOV [a],$4294967295 | MFENCE ;
 MOV [b],EAX | ;
 MOV EBX,[e] | ;
 MOV ECX,$5 | ;
 MOV ESI,EDI | ;
 ADD EAX,$4294967295 | ;
 ADD EAX,EBX | ;
 CMP EDX,$0 | ;
 JE L | ;
 CMP EDX,ECX | ;
 JNE L | ;
 JMP M | ;
 L: XCHG [c],EDI | ;
 M: LOCK XADD [d],EAX | ;
 MOV [f],$1 | ;
 XCHG [g],EAX | ;
 MOV EAX,[h] | ;
 JMP END | ;
 END: | ;
exists (0:EAX=0)
"""
# The output of objdump on MP-x86 with another initial value in each register.
MP = """X86 MP
{ 1:EAX=3; 1:EBX=4294967295; }
 P0 | P1 ;
 MOV [x],$1 | MOV EAX,[y] ;
 MOV [y],$1 | MOV EBX,[x] ;
~exists (1:EAX=1 /\\ 1:EBX=0)
"""
OBJDUMP = """
test:     file format elf64-x86-64

SYMBOL TABLE:
0000000000004d00 g       lw_test\t0000000000000000              lw_run_0
0000000000004d0f g       lw_test\t0000000000000000 .hidden lw_begin_0
0000000000004d1d g       lw_test\t0000000000000000              lw_end_0


Disassembly of section lw_test:

0000000000004d00 <lw_run_0>:
    4d00:\tpush   rbp
    4d01:\tmov    rbp,rsi

0000000000004d0f <lw_begin_0>:
    4d0f:\tmov    DWORD PTR [r8],0x1
    4d16:\tlock xadd DWORD PTR [r13+0x0],eax        # a comment
    4d1b:\tje     4d1d <lw_end_0>

0000000000004d1d <lw_end_0>:
    4d1d:\tpop    rbp
    4d1e:\tret
"""
NUMBERS = {0x4D0F: 0, 0x4D16: 1, 0x4D1D: 2}
# Instructions as objdump prints them, and what they are. None is no instruction of a test.
LINES = (
    ("mov    DWORD PTR [r8],0x1", plain.Statement("store", location=0, value=plain.Number(1))),
    ("mov    DWORD PTR [r15],edi", plain.Statement("store", location=7, value=plain.Register(5))),
    ("mov    esi,DWORD PTR [r13+0x0]", plain.Statement("load", 4, 5)),
    ("mov    ecx,0xffffffff", plain.Statement("set", 2, value=plain.Number(4294967295))),
    ("mov    ecx,edx", plain.Statement("set", 2, value=plain.Register(3))),
    ("add    eax,0xffffffff", plain.Statement("add", 0, value=plain.Number(4294967295))),
    ("cmp    ebx,eax", plain.Statement("cmp", 1, value=plain.Register(0))),
    ("xchg   DWORD PTR [r12],eax", plain.Statement("xchg", 0, 4)),
    ("lock xadd DWORD PTR [r8],ebx", plain.Statement("xadd", 1, 0)),
    ("mfence", plain.Statement("mfence")),
    ("jne    4d16 <lw_begin_0+0x7>", plain.Statement("jne", target=1)),
    ("jmp    4d1d <lw_end_0>", plain.Statement("jmp", target=2)),
    ("mov    r15d,0x2", plain.Statement("scratch", value=plain.Number(2))),
    ("movnti DWORD PTR [r9],r15d", plain.Statement("movnti", location=1)),
    ("xadd   DWORD PTR [r8],ebx", None),
    ("lock add DWORD PTR [r8],ebx", None),
    ("lock mfence", None),
    ("jne    4d17 <lw_begin_0+0x8>", None),
    ("jl     4d16 <lw_begin_0+0x7>", None),
    ("mov    QWORD PTR [r8],rax", None),
    ("mov    DWORD PTR [r8+0x4],0x1", None),
    ("mov    DWORD PTR [rax],0x1", None),
    ("mov    DWORD PTR fs:[r8],0x1", None),
    ("mov    WORD PTR [r8],0x1", None),
    ("mov    ebp,0x1", None),
    ("mov    rax,0x1", None),
    ("xchg   ebx,eax", None),
    ("add    DWORD PTR [r8],0x1", None),
    ("lfence", None),
    ("(bad)", None),
    ("nop", None),
)
FACTS = {"batches": 2, "traps": runs.TRAPS_WORK, "clocks_differ": 0, "is_full": 0, "is_pinned": 1, "switches": 0}
LOG = """Test SB-x86 Allowed
Histogram (3 states)
7       *>0:EAX=0; 1:EAX=0;
12345678:>0:EAX=0; 1:EAX=1;
123456789:>0:EAX=1; 1:EAX=0;
Ok

Witnesses
Positive: 7, Negative: 135802467
Condition exists (0:EAX=0 /\\ 1:EAX=0) is validated
Observation SB-x86 Sometimes 7 135802467
Time SB-x86 2.00
A note.
Runs 135802474, 67901237 a second, on 4 processors
The list by tools/beyond.py, not proved, has 4 states; seen here: 3
  rarest: 7 of 135802474, first after 0.250 s by a halt: 0:EAX=0; 1:EAX=0;
  rarest: 12345678 of 135802474, first after 0.001 s by a race: 0:EAX=0; 1:EAX=1;
  rarest: 123456789 of 135802474, first after 0.001 s by a race: 0:EAX=1; 1:EAX=0;
  not seen: 0:EAX=1; 1:EAX=1;

"""


# The words of the sites that are shown.
Shown = TypeVar("Shown", bound=Tuple[int, ...])


def find_refusal(call: Callable[..., object], *arguments: object) -> str:
    """Returns why a call refuses something; an empty text if it does not."""
    try:
        call(*arguments)
    except (NotRun, given.Fault) as why:
        return why.args[0]
    return ""


def list_codes(test: plain.Test) -> list[Code]:
    """Returns the code of each thread."""
    return [tuple(it) for it in test.threads]


class Knobs(cases.Case):
    """The words of --knob."""

    def test_taken(self) -> None:
        """A knob has the number that the harness is passed."""
        settings = (("sync=time", 2), ("sync=mixed", 3), ("stores=nontemporal", 1), ("halts=0", 0), ("stride=31", 31), ("instances=64", 64))
        for word, number in settings:
            with self.subTest(word):
                self.assertEqual((word.partition("=")[0], number), knobs.parse_knob(word))
        self.assertEqual({**knobs.DEFAULTS, "halts": 0}, knobs.make_knobs([("halts", 1), ("halts", 0)]))

    def test_refused(self) -> None:
        """Another word is refused, and what is taken is said."""
        names = ", ".join(sorted(knobs.DEFAULTS))
        refused = (
            ("sync", f"'sync' sets no knob; NAME=VALUE does, and a NAME is one of {names}"),
            ("turbo=1", f"'turbo=1' sets no knob; NAME=VALUE does, and a NAME is one of {names}"),
            ("sync=fast", "sync is one of none, flag, time, mixed, and not 'fast'"),
            ("halts=2", "halts is one of 0, 1, and not '2'"),
            ("stride=-1", "stride is a number from 0 to 65536, and not '-1'"),
            ("stride=\u0663x", "stride is a number from 0 to 65536, and not '\u0663x'"),
            ("instances=100", "instances is a power of 2, and not 100"),
        )
        for word, message in refused:
            with self.subTest(word):
                self.assertEqual(message, find_refusal(knobs.parse_knob, word))


class Assembly(cases.Case):
    """The writer of assembly."""

    def test_instructions(self) -> None:
        """Each instruction is written in AT&T's order; a jump has its label, and a thread that begins anywhere a clear zero flag."""
        test = plain.read_test(ALL)
        text = assembly.format_assembly(list_codes(test), test.registers)
        begin, end = text.index("lw_begin_0:\n"), text.index("lw_end_0:\n")
        lines = [it.strip() for it in text[begin:end].splitlines()[1:]]
        expected = ["movl $-1,(%r9)", "movl %eax,(%r10)", "movl (%r11),%ebx", "movl $5,%ecx", "movl %edi,%esi", "addl $-1,%eax", "addl %ebx,%eax"]
        expected += ["cmpl $0,%edx", "je .Llw_run_0_12", "cmpl %ecx,%edx", "jne .Llw_run_0_12", "jmp .Llw_run_0_13", ".Llw_run_0_12:"]
        expected += ["xchgl %edi,(%r12)", ".Llw_run_0_13:", "lock xaddl %eax,(%r13)", "movl $1,(%r14)", "xchgl %eax,(%r15)", "movl (%r8),%eax"]
        self.assertEqual([*expected, "jmp .Llw_run_0_18", ".Llw_run_0_18:"], lines)
        before = text[:begin].splitlines()
        self.assertEqual("    testq %rsp,%rsp", before[-1])
        self.assertIn("    movl $7,%edx", before)

    def test_names(self) -> None:
        """A test's name and those of its locations are nowhere in the assembly: they may be anything."""
        for name, text in (("*/#", MP.replace("X86 MP", "X86 */#")), ("rsp", MP.replace("[x]", "[rsp]"))):
            test = plain.read_test(text)
            with self.subTest(name):
                self.assertEqual(
                    assembly.format_assembly(list_codes(plain.read_test(MP)), test.registers),
                    assembly.format_assembly(list_codes(test), test.registers),
                )

    def test_nontemporal(self) -> None:
        """Stores past the caches take a register, and jumps keep their targets."""
        code = (
            plain.Statement("jmp", target=3),
            plain.Statement("store", location=0, value=plain.Number(1)),
            plain.Statement("store", location=1, value=plain.Register(2)),
            plain.Statement("mfence"),
        )
        expected = (
            plain.Statement("jmp", target=4),
            plain.Statement("scratch", value=plain.Number(1)),
            plain.Statement("movnti", location=0),
            plain.Statement("movnti", location=1, value=plain.Register(2)),
            plain.Statement("mfence"),
        )
        self.assertEqual(expected, assembly.make_stores_nontemporal(code))
        eight = plain.read_test(ALL)
        subject = subjects.Subject(eight, eight, [])
        message = "stores=nontemporal needs a free register, and a test of 8 locations has none"
        self.assertEqual(message, find_refusal(list_threads, subject, knobs.make_knobs([knobs.parse_knob("stores=nontemporal")])))


class Disassembly(cases.Case):
    """The reader of the disassembly, on fixed texts."""

    def test_listing(self) -> None:
        """Labels have their addresses, also if two are at one; instructions are without comments."""
        listing = disassembly.parse_listing(OBJDUMP)
        self.assertEqual({"lw_run_0": 0x4D00, "lw_begin_0": 0x4D0F, "lw_end_0": 0x4D1D}, listing.labels)
        texts = disassembly.list_instructions(listing, 0x4D0F, 0x4D1D)
        self.assertEqual(["mov    DWORD PTR [r8],0x1", "lock xadd DWORD PTR [r13+0x0],eax", "je     4d1d <lw_end_0>"], list(texts.values()))
        self.assertEqual("the disassembly has no label 'lw_end_1'", find_refusal(disassembly.find_address, listing, "lw_end_1"))

    def test_instructions(self) -> None:
        """Each instruction of a test is read, and no other."""
        for text, expected in LINES:
            with self.subTest(text):
                self.assertEqual(expected, disassembly.parse_statement(text, NUMBERS))

    def test_kinds(self) -> None:
        """Those that are read are all that a test has."""
        kinds = {it.kind for code in plain.read_test(ALL).threads for it in code}
        self.assertEqual(kinds - {"je"}, {it.kind for _, it in LINES if it} - {"scratch", "movnti"})


class Scripts(cases.Case):
    """Schedules as scripts."""

    def test_pieces(self) -> None:
        """A script has the instructions of each thread in turn, up to the place at which a store waits while another thread continues."""
        test = plain.read_test(read("examples/SB-x86.litmus"))
        cut = (
            ("P0 D0 P0 P1 P1 D1", ((0, 2), (1, 2))),
            ("P0 P0 D0 P1 D1 P1", ((0, 2), (1, 2))),
            ("P0 P0 P1 P1 D0 D1", ((0, 2),)),
            ("P0 D0 P1 D1 P0 P1", ((0, 1), (1, 1), (0, 1), (1, 1))),
            ("P0 D0 P1 P0 D1 P1", ((0, 1), (1, 1))),
        )
        for schedule, expected in cut:
            with self.subTest(schedule):
                self.assertEqual(expected, scripts.make_script(test, schedule))

    def test_all(self) -> None:
        """All scripts of examples do only what their threads can do, and direct at least one instruction."""
        for name, text in examples()[::9]:
            test = plain.compile_test(plain.read_test(text))
            scripts_made = scripts.make_scripts(test, plain.format_canonical_text(test))
            counts = [[sum(n for t, n in it if t == thread) <= len(code) for thread, code in enumerate(test.threads)] for it in scripts_made]
            with self.subTest(name):
                self.assertTrue(all(map(all, counts)) and all(len(it) > 1 for it in scripts_made))

    def test_found(self) -> None:
        """If neither program lists schedules, a search finds as many."""
        test = plain.read_test(read("examples/MP-x86.litmus"))
        with mock.patch.multiple(answers, ask_program=lambda *_: None, capture_output=lambda *_: None):
            schedules_made = scripts.list_schedules(test, plain.format_canonical_text(test))
        self.assertEqual(sorted(Search(test).explore(1000, lambda *_: None).schedules.values()), sorted(schedules_made))


def make_system_folder(folder: str, siblings: dict[int, str], nodes: dict[int, str]) -> str:
    """Returns a folder like /sys, with the siblings of each processor and the processors of each node."""
    files = {f"devices/system/cpu/cpu{cpu}/topology/thread_siblings_list": text for cpu, text in siblings.items()}
    files.update({f"devices/system/node/node{node}/cpulist": text for node, text in nodes.items()})
    files["fs/cgroup/cpu.max"] = "150000 100000\n"
    for name, text in files.items():
        path = os.path.join(folder, name)
        os.makedirs(os.path.dirname(path), exist_ok=True)
        with open(path, "w", encoding="ascii") as file:
            file.write(text)
    return folder


class Processors(cases.Case):
    """The processors, and the placements of threads."""

    def test_read(self) -> None:
        """Siblings, nodes, quota and flags are read; a system that says nothing has none of them."""
        with tempfile.TemporaryDirectory(prefix="lw-") as folder:
            info = os.path.join(folder, "cpuinfo")
            with open(info, "w", encoding="ascii") as file:
                file.write("processor\t: 0\nflags\t\t: fpu constant_tsc nonstop_tsc hypervisor\n\nprocessor\t: 1\nflags\t\t: fpu\n")
            system = make_system_folder(folder, {0: "0,2\n", 1: "1,3\n", 2: "0,2\n", 3: "1,3\n"}, {0: "0-1\n", 1: "2,3\n"})
            with mock.patch.object(os, "sched_getaffinity", lambda _: {3, 0, 1, 2}):
                machine = processors.read_processors(system, info)
                bare = processors.read_processors(os.path.join(folder, "nowhere"), info + ".none")
        self.assertEqual(((0, 1, 2, 3), {0: "0,2", 1: "1,3", 2: "0,2", 3: "1,3"}, {0: 0, 1: 0, 2: 1, 3: 1}, 1.5), machine[:3] + machine[4:])
        self.assertTrue(machine.has_clock and not bare.has_clock)
        self.assertEqual(((0, 1, 2, 3), {it: str(it) for it in range(4)}, {it: 0 for it in range(4)}, frozenset(), 0.0), tuple(bare))

    def test_placements(self) -> None:
        """Threads are placed on siblings and apart, on one node and on two, each on a processor of its own; a machine without siblings and nodes has one
        arrangement; with too few processors nothing is pinned.
        """
        machine = processors.Processors(tuple(range(8)), {it: f"{it % 4},{it % 4 + 4}" for it in range(8)}, {it: it % 4 // 2 for it in range(8)})
        placements = processors.make_placements(machine, 2, Random(1))
        self.assertEqual([(processors.PLACEMENTS, 2)], sorted({(len(placements), len(set(it))) for it in placements}))
        cores = {len({machine.cores[cpu] for cpu in it}) for it in placements}
        nodes = {len({machine.nodes[cpu] for cpu in it}) for it in placements}
        self.assertEqual(({1, 2}, {1, 2}), (cores, nodes))
        four = processors.make_placements(machine, 4, Random(1))
        cores = {len({machine.cores[cpu] for cpu in it}) for it in four}
        # Three cores occur only by chance.
        self.assertLessEqual({2, 4}, cores)
        self.assertLessEqual(cores, {2, 3, 4})
        flat = processors.Processors((0, 1, 5), {0: "0", 1: "1", 5: "5"}, {0: 0, 1: 0, 5: 0})
        self.assertEqual(1, len(processors.list_arrangements(flat)))
        self.assertEqual({(0, 1, 5)}, {tuple(sorted(it)) for it in processors.make_placements(flat, 3, Random(1))})
        self.assertEqual([(0, 0, 0, 0)], processors.make_placements(flat, 4, Random(1)))

    def test_sentences(self) -> None:
        """The output says what keeps a run from showing much, and says nothing of a machine that has it all."""
        clock = frozenset(processors.INVARIANT_CLOCK)
        good = processors.Processors((0, 1), {0: "0", 1: "1"}, {0: 0, 1: 0}, clock)
        self.assertEqual([], processors.list_obstacles(good, 2))
        for machine, part in (
            (good._replace(allowed=(0,)), "may use 1 processor and the test has 2 threads"),
            (good._replace(quota=1.5), "A quota leaves this process 1.5 processors"),
            (good._replace(flags=clock | {"hypervisor"}), "A hypervisor is below"),
            (good._replace(flags=frozenset()), "The time-stamp counter is not said to be invariant"),
        ):
            obstacles = processors.list_obstacles(machine, 2)
            with self.subTest(part):
                self.assertEqual(1, len(obstacles))
                self.assertIn(part, obstacles[0])


def read_subject(path: str) -> Subject:
    """Returns an example as a subject."""
    return subjects.make_subject(read(path), everything=False)


def make_seen(counts: dict[Shown, int], **facts: int) -> Sightings:
    """Returns the sightings of SB-x86 in two seconds."""
    states: dict[tuple[int, ...], Sighting] = {words: Sighting(count, 0.001, runs.KINDS[0]) for words, count in counts.items()}
    return Sightings(states, sum(counts.values()), 2.0, {**FACTS, **facts})


def make_result(counts: dict[tuple[int, int], int], against: str = "") -> Result:
    """Returns a result of SB-x86, compared with its list or that of another test."""
    subject = read_subject("examples/SB-x86.litmus")
    states = [(0, 0), (0, 1), (1, 0), (1, 1)]
    listed = subjects.StateList([it for it in states if not against or it != (0, 0)], answers.Maker.SEARCH)
    return summary.Result("F", subject, listed, make_seen(counts), 4, against, ("A note.",))


def make_log_result() -> Result:
    """Returns the result that LOG says."""
    result = make_result({(0, 0): 7, (0, 1): 12345678, (1, 0): 123456789})
    result.seen.states[0, 0] = Sighting(7, 0.25, runs.KINDS[1])
    return result


class Logs(cases.Case):
    """Logs in litmus7's form, and the summaries after them."""

    def test_text(self) -> None:
        """A log and its summary, word for word."""
        self.assertEqual(LOG, summary.format_result(make_log_result()))

    def test_read(self) -> None:
        """tools/shared/logs.py reads the states of a log, and of several in sequence, and nothing else."""
        expected = {"SB-x86": {frozenset({f"0:EAX={a}", f"1:EAX={b}"}) for a, b in ((0, 0), (0, 1), (1, 0))}}
        self.assertEqual(expected, readers.parse_states(LOG.splitlines()))
        self.assertEqual({**expected, "B": expected["SB-x86"]}, readers.parse_states((LOG + LOG.replace("SB-x86", "B")).splitlines()))
        result = make_result({(1, 1): 1})
        nothing = subjects.make_subject("X86 N\n{}\n P0 ;\n MOV [x],$1 ;\nexists (true)\n", everything=False)
        log = summary.format_result(result._replace(subject=nothing, listed=result.listed._replace(states=[()]), seen=make_seen({(): 3})))
        self.assertEqual({"N": {frozenset()}}, readers.parse_states(log.splitlines()))

    def test_verdicts(self) -> None:
        """The verdict is on what was seen, by the quantifier."""
        sentences = {}
        for quantifier in ("exists", "~exists", "forall"):
            for counts in ({(0, 0): 2}, {(1, 1): 2}, {(0, 0): 1, (1, 1): 1}):
                text = read("examples/SB-x86.litmus").replace("exists (", f"{quantifier} (")
                lines = logs.format_log(subjects.make_subject(text, everything=False), make_seen(counts))
                sentences[quantifier, len(counts), (0, 0) in counts] = (lines[-7], lines[-3].endswith(" is NOT validated"), lines[-2].split()[2])
        expected = {
            ("exists", 1, True): ("Ok", False, "Always"),
            ("exists", 1, False): ("No", True, "Never"),
            ("exists", 2, True): ("Ok", False, "Sometimes"),
            ("~exists", 1, True): ("No", True, "Always"),
            ("~exists", 1, False): ("Ok", False, "Never"),
            ("~exists", 2, True): ("No", True, "Sometimes"),
            ("forall", 1, True): ("Ok", False, "Always"),
            ("forall", 1, False): ("No", True, "Never"),
            ("forall", 2, True): ("No", True, "Sometimes"),
        }
        self.assertEqual(expected, sentences)

    def test_compared(self) -> None:
        """tools/run_all.py compares a log with the lists, by --machine-log and by --against."""
        not_listed = LOG.replace("0:EAX=1; 1:EAX=0;", "0:EAX=2; 1:EAX=0;")
        for option, log, seen, expected in (
            ("--machine-log", LOG, "0 showed states that are not listed, 1 did not show all", 0),
            ("--machine-log", not_listed, "  seen and not listed: 0:EAX=2; 1:EAX=0;", 3),
            ("--against", LOG, "  too much: 0:EAX=1; 1:EAX=1;", 1),
        ):
            with tempfile.NamedTemporaryFile("w", suffix=".log", encoding="utf-8") as file:
                file.write(log)
                file.flush()
                _, err, status = run(["run_all.py", "examples/SB-x86.litmus", option, file.name])
            with self.subTest(option, wanted=expected):
                self.assertIn(seen, err)
                self.assertEqual(expected, status)

    def test_not_listed(self) -> None:
        """A state that is not listed is reported, and whose list that is."""
        result = make_result({(0, 0): 5, (1, 1): 1}, against="SB+mfences-x86")
        lines = summary.format_summary(result)
        self.assertIn("The list of SB+mfences-x86 by tools/beyond.py, not proved, has 3 states; seen here: 1", lines)
        self.assertEqual("  SEEN AND NOT LISTED: 5 of 6, first after 0.001 s by a race: 0:EAX=0; 1:EAX=0;", lines[-1])
        self.assertEqual([(0, 0)], result.list_not_listed())

    def test_makers(self) -> None:
        """An answer says proved only of the programs, and of a source test only if its compiler is one."""
        makers = [subjects.StateList([], it).describe_maker() for it in answers.Maker]
        not_proved = [f"{it.value}, not proved" for it in answers.Maker if it not in (answers.Maker.PROGRAM, answers.Maker.BEYOND)]
        self.assertEqual(["lw, proved complete", "beyond, proved complete", *not_proved], makers)
        makers = [subjects.StateList([], answers.Maker.PROGRAM, it).describe_maker() for it in (answers.Maker.PROGRAM, answers.Maker.PLAIN)]
        self.assertEqual(["lw, of the test that lw compiled, proved complete", "lw, of the test that tools/plain.py compiled, not proved"], makers)
        of_tests = subjects.StateList([], answers.Maker.PROGRAM, of_tests="of the 2 tests that tools/from_c.py makes").describe_maker()
        self.assertEqual("lw, of the 2 tests that tools/from_c.py makes (each list: proved complete)", of_tests)

    def test_json(self) -> None:
        """The JSON of a run has its states with their counts, the states that were not seen, and the notes."""
        summary_read = json.loads(json.dumps(summary.make_json(make_log_result())))
        rows = [(it["state"], it["count"], it["how"], it["holds"], it["listed"]) for it in summary_read["seen"]]
        expected = [("0:EAX=0; 1:EAX=0;", 7, "by a halt", True, True), ("0:EAX=0; 1:EAX=1;", 12345678, "by a race", False, True)]
        self.assertEqual([*expected, ("0:EAX=1; 1:EAX=0;", 123456789, "by a race", False, True)], rows)
        rest = {name: summary_read[name] for name in ("name", "listed", "not_seen", "not_listed", "runs", "notes", "against")}
        others: dict[str, object] = {"against": None, "name": "SB-x86", "listed": 4, "not_seen": ["0:EAX=1; 1:EAX=1;"], "not_listed": [], "runs": 135802474, "notes": ["A note."]}
        self.assertEqual(others, rest)

    def test_column(self) -> None:
        """The column of tools/run_all.py."""
        self.assertEqual("3 of 4", column.format_cell(make_log_result()))
        self.assertEqual("1 of 3, and 1 not listed", column.format_cell(make_result({(0, 0): 5, (1, 1): 1}, against="A")))


class Runs(cases.Case):
    """The output of the harness."""

    def test_read(self) -> None:
        """Counts of several threads are added, and the first sight is the earliest."""
        facts = "facts runs 9 batches 1 microseconds 2500000 traps 1 clocks_differ 0 is_full 0 is_pinned 1 switches 4"
        seen = runs.parse_sightings(["state 3 0.500000 1 0 4294967295", "state 2 0.250000 2 0 4294967295", "state 4 0.1 0 1 1", facts])
        expected = {(0, 4294967295): Sighting(5, 0.25, "by a schedule"), (1, 1): Sighting(4, 0.1, "by a race")}
        self.assertEqual((expected, 9, 2.5, 3.6), (seen.states, seen.runs, seen.seconds, seen.rate))
        self.assertEqual({"batches": 1, "traps": 1, "clocks_differ": 0, "is_full": 0, "is_pinned": 1, "switches": 4}, seen.facts)
        self.assertEqual("the harness ends without its line of facts", find_refusal(runs.parse_sightings, ["state 1 0.1 0 1"]))

    def test_ends(self) -> None:
        """A harness that ends otherwise is reported with its cause."""
        self.assertEqual("the harness is ended by SIGSEGV", runs.explain_status(-11, b""))
        self.assertEqual("harness: Cannot allocate memory", runs.explain_status(4, b"harness: Cannot allocate memory\n"))
        self.assertEqual("it says nothing", runs.explain_status(4, b""))

    def test_sentences(self) -> None:
        """The output says what was missing in a run."""
        subject = read_subject("examples/SB-x86.litmus")
        plan = plans.Plan(subject, list_codes(subject.x86), [], [], [(0, 1)], True, False)
        self.assertEqual([], runs.list_missing(make_seen({}), plan))
        for facts, part in (
            ({"traps": runs.TRAPS_TRACED}, "Another process traces this one"),
            ({"traps": runs.TRAPS_CAUGHT}, "The trap flag does not work here"),
            ({"clocks_differ": 1}, "The time-stamp counters of two processors differ"),
            ({"is_full": 1}, "There were more different states"),
            ({"is_pinned": 0}, "Threads could not be pinned"),
            ({"switches": 5000}, "Others took processors away 2500 times a second"),
        ):
            sentences = runs.list_missing(make_seen({}, **facts), plan)
            with self.subTest(part):
                self.assertEqual(1, len(sentences))
                self.assertIn(part, sentences[0])

    def test_plan(self) -> None:
        """A plan is its names and numbers, in their order."""
        subject = subjects.make_subject(MP, everything=True)
        plan = plans.Plan(subject, list_codes(subject.x86), [(0, 1, 1, 1)], [((0, 1), (1, 2))], [(0, 1), (1, 0)], True, False, Limits(1.5, 7, True))
        lines = plans.format_plan(plan).splitlines()
        expected = ["threads 2", "locations 2", "words 0 0", "registers 0 0 0 0 0 0 3 4294967295 0 0 0 0", "lengths 2 2", "sites 4 1 0 1 1 -1 0 -1 1"]
        expected += ["listed 1 0 1 1 1", "scripts 1", "script 2 0 1 1 2", "placements 2 0 1 1 0", "sync 3", "prepare 1"]
        self.assertEqual(expected, lines[: len(expected)])
        self.assertEqual(["clock 1", "scarce 0", "complete 1", "instances 1024", "runs 7", "milliseconds 1500", "end"], lines[-7:])


if __name__ == "__main__":
    sys.exit(cases.main())
