"""Tests that tools/from_c.py converts programs correctly, and refuses what it can't know.

    python3 tools gate.test_from_c, or in tools/ python3 -m unittest gate.test_from_c

- Fixed texts of assembly: how data, labels, operands, flags, parts of registers, memory, loops and locked instructions are read. Each of these
  rules is a trap in which a list was wrong once, or could be. They need no compiler.
- Sources: threads, conditions, where values are seen, herd's form.
- With the installed compilers: the programs of examples/from_c and examples/from_rust, random programs compared with an interpreter of their
  source (tools/gate/random_programs.py), and some programs run on this processor (tools/gate/native_runs.py).
- With node, too: simple programs that the page rewrites by itself (web/c_program.js) have the states that compilers give.

Lists come from the program if it is built, otherwise from the search of tools/beyond.py. tools/check_documents.py calls all this
(tools/gate/cases.py).
"""
from __future__ import annotations

import json
import os
import re
import shutil
import subprocess
import sys
import tempfile
import unittest
from collections.abc import Callable, Iterable
from unittest import mock

import from_c
import given
import plain
from c.assembly import Assembly
from c.compiler import demangle_assembly, list_compilers, find_version
from c.condition import read_condition
from c.convert import ProgramConverter
from c.layout import Layout
from c.operands import Memory, Number, Other, Register, parse_operand, parse_sum
from c.refused import Refused
from c.report import Answer, make_answer
from c.shown import format_fences, format_schedules, format_tests, render_film
from c.source import read_source
from c.weaker import weaken_rust
from documents import make_program_lists as program_lists
from films import NoFilm
from gate import cases, native_runs, random_programs
from gate.examples import read, run
from shared import answers, spawn
from shared.home import HOME
from shared.matches import require_match

RANDOM_PROGRAMS, COMPILERS_OF_RANDOM = 20, 2
DATA = ".bss\n.align 8\nx:\n.zero 8\n.align 8\ny:\n.zero 8\n.align 8\nz:\n.zero 8\n"
STORES_X = "movl $1, x(%rip)"
# Store buffering in C++, in which a thread stores and loads as it is said.
OF_CC = """#include <atomic>
std::atomic<int> x{{0}}, y{{0}};
void P0() {{ {0}; int r0 = {1}; lw_see(r0, r0); }}
void P1() {{ y.store(1); int r0 = x.load(); lw_see(r0, r0); }}
// lw: exists (0:r0=0 /\\ 1:r0=0)
"""
# Store buffering in which each thread swaps at its end, and a branch of the first one is over before.
SWAPPING = """#include <stdatomic.h>
atomic_int x, y, z, lock;
void P0(void) {
    atomic_store_explicit(&x, 1, memory_order_relaxed);
    int r0 = atomic_load_explicit(&z, memory_order_relaxed) ? 2 : atomic_load_explicit(&y, memory_order_relaxed);
    int want = 0;
    atomic_compare_exchange_strong(&lock, &want, 1);
    lw_see(r0, r0);
}
void P1(void) {
    atomic_store_explicit(&y, 1, memory_order_relaxed);
    atomic_thread_fence(memory_order_seq_cst);
    int r0 = atomic_load_explicit(&x, memory_order_relaxed);
    int want = 0;
    atomic_compare_exchange_strong(&lock, &want, 2);
    lw_see(r0, r0);
}
// lw: exists (0:r0=0 /\\ 1:r0=0)
"""
# A program whose states are the same with any orders: one thread does what <atomic> has.
ALL_OF_CC = """#include <atomic>
std::atomic<unsigned> n{0};
std::atomic_uint m{7};
std::atomic<unsigned *> p{nullptr};
std::atomic<bool> b;
std::atomic_flag busy = ATOMIC_FLAG_INIT;
unsigned word;
void P0() {
    unsigned expected = 2;
    n += 2; ++n; n--; n |= 4; n &= 6; n ^= 2; n++; --n; n -= 2;
    bool swapped = n.compare_exchange_strong(expected, 9, std::memory_order_acq_rel);
    std::atomic_fetch_add(&n, 1u);
    std::atomic_fetch_sub_explicit(&n, 2u, std::memory_order_release);
    std::atomic_exchange(&m, n + m.exchange(1));
    p.store(&word, std::memory_order_release);
    b = !busy.test_and_set() && p.load() == &word;
    busy.clear(std::memory_order_release);
    std::atomic_thread_fence(std::memory_order_seq_cst);
    lw_see(swapped, swapped); lw_see(r0, n.load()); lw_see(r1, std::atomic_load(&m)); lw_see(r2, b.load(std::memory_order_acquire));
}
// lw: exists (0:swapped=1 /\\ 0:r0=8 /\\ 0:r1=15 /\\ 0:r2=1)
"""

# Litmus tests as programs that the page rewrites: of each thread its stores (W), loads (R), fences (F), exchanges (X) and additions (A).
SHAPES = {
    "SB": ("W x 1, R y r0", "W y 1, R x r0"), "MP": ("W x 1, W y 1", "R y r0, R x r1"), "LB": ("R x r0, W y 1", "R y r0, W x 1"),
    "2+2W": ("W x 1, W y 2", "W y 1, W x 2"), "R": ("W x 1, W y 1", "W y 2, R x r0"), "S": ("W x 2, W y 1", "R y r0, W x 1"),
    "IRIW": ("W x 1", "R x r0, R y r1", "W y 1", "R y r0, R x r1"), "SB+fences": ("W x 1, F, R y r0", "W y 1, F, R x r0"),
    "R+fence": ("W x 1, F, W y 1", "W y 2, R x r0"), "SB+exchange": ("X x 1 r1, R y r0", "W y 1, R x r0"),
    "SB+additions": ("A x 1 r1, R y r0", "A y 2, A x 3 r1, R x r0"), "MP+copy": ("W x 1, W y 1", "R y r0, W z r0 + 2, R x r1", "R z r0, R x r1"),
}
# Programs that the page rewrites with branches, results that threads return, sums, and values of steps. Each has two threads and its question.
BRANCHING = (
    ("if (atomic_load_explicit(&x, memory_order_acquire)) y = 1;", "int r0 = y; if (r0 == 1) x = 1; else x = 2;", "1:r0=0"),
    ("int r0 = 7; if (x == 1) r0 = y; else { y = 2; r0 = 3; }", "y = 1; if (!atomic_load_explicit(&x, memory_order_relaxed)) x = 1;", "0:r0=0"),
    ("if (!(y == 0) && x != 2) { x++; if (y == 1) return; } x = 5;", "atomic_store_explicit(&y, 1, memory_order_release); int r0 = ++x;", "1:r0=0"),
    ("x = 1; return y;", "if (atomic_exchange(&y, 1) == 0) return 4; return x + 1;", "0:return=0 /\\ 1:return=0"),
    ("int r0 = x; int r1 = y; int r2 = r0 + r1; r2 += r2; if (r0 == r1) y = r2;", "y = 1; int r0 = x--; x = r0 + 3;", "0:r2=0 /\\ 1:r0=0"),
    ("int r0 = atomic_fetch_add_explicit(&x, 2, memory_order_relaxed) - 1; int r1 = r0++; y = r0 + r1 + 1;", "int r0 = 1 + y; x = --r0;",
     "0:r1=0 /\\ 1:r0=0"),
    ("if (x) { int t = y; if (t == 1) y = 2; else if (t == 2) y = 3; }", "y = 1; atomic_thread_fence(memory_order_seq_cst); x = 1; int r0 = y;",
     "1:r0=0"),
)
# Programs that the page rewrites with loops that wait, and with plain variables on which threads may race. Each has two threads and its question.
AWAITED = (
    ("data = 1; atomic_store_explicit(&x, 1, memory_order_release);",
     "while (!atomic_load_explicit(&x, memory_order_acquire)) ; int r0 = data; lw_see(r0, r0);", "1:r0=0"),
    ("data = 1; more = 2; x = 2;", "int r1 = 0; do r1 = x; while (r1 != 2); int r0 = data + 1; int r2 = more; lw_see(r0, r0); lw_see(r2, r2);",
     "1:r0=0 /\\ 1:r2=0 /\\ 1:r1=2"),
    ("x = 1; while (atomic_load_explicit(&y, memory_order_acquire) == 0) { } int r0 = data; lw_see(r0, r0);",
     "while (atomic_load_explicit(&x, memory_order_acquire) == 0) { } data = 3; y = 1; data = 4;", "0:r0=0"),
    ("atomic_store_explicit(&x, 1, memory_order_relaxed); while (!atomic_load_explicit(&z, memory_order_relaxed)) ; int r0 = y; lw_see(r0, r0);",
     "atomic_store_explicit(&y, 1, memory_order_relaxed); atomic_store_explicit(&z, 1, memory_order_relaxed); int r1 = x; lw_see(r1, r1);",
     "0:r0=0 /\\ 1:r1=0"),
    # A lock that exchanges, in a branch and beside races; one that looks first; and Peterson's, with fences and without.
    ("if (x) { while (atomic_exchange(&y, 1)) ; data = data + 1; y = 0; } else x = 3;",
     "while (atomic_exchange(&y, 1)) ; data += 1; x = 1; y = 0; int r0 = x; lw_see(r0, r0);", "1:r0=0"),
    ("data = 5; while (atomic_exchange(&x, 1)) while (x) ; data = data + 1; atomic_store_explicit(&x, 0, memory_order_release);",
     "while (1) { if (!atomic_exchange(&x, 1)) break; while (x) ; } data = data + 1; atomic_store_explicit(&x, 0, memory_order_release);", "x=0"),
    ("x = 1; z = 1; while (y && z == 1) ; data = data + 1; x = 0;", "y = 1; z = 0; while (x && z == 0) ; data = data + 1; y = 0;", "x=0"),
    ("atomic_store_explicit(&x, 1, memory_order_release); z = 1; while (y && z == 1) ; data = data + 1; x = 0;",
     "y = 1; atomic_store_explicit(&z, 0, memory_order_release); while (x && z == 0) ; data = data + 1; y = 0;", "x=0"),
)
# The orders of stores, loads and all others, for each variant of a shape.
ORDERS = (("relaxed", "relaxed", "relaxed"), ("release", "acquire", "acq_rel"), ("seq_cst", "seq_cst", "seq_cst"))


def make_shape(threads: Iterable[str], orders: tuple[str, str, str]) -> str:
    """Returns a shape as a program in C, whose question names all registers and locations. The orders are those of stores, loads and all others."""
    store, load, other = (f"memory_order_{it}" for it in orders)
    lines: list[str] = []
    registers: list[str] = []
    for number, code in enumerate(threads):
        statements = []
        for kind, *words in map(str.split, code.split(", ")):
            if kind == "W":
                statements.append(f"atomic_store_explicit(&{words[0]}, {' '.join(words[1:])}, {store});")
            elif kind == "R":
                statements.append(f"int {words[1]} = atomic_load_explicit(&{words[0]}, {load});")
            elif kind == "F":
                statements.append("atomic_thread_fence(memory_order_seq_cst);")
            else:
                # Compilers make different code of relaxed exchanges.
                name, order = ("exchange", "memory_order_acq_rel") if kind == "X" else ("fetch_add", other)
                result = f"int {words[2]} = " if len(words) > 2 else ""
                statements.append(f"{result}atomic_{name}_explicit(&{words[0]}, {words[1]}, {order});")
        lines.append(f"void P{number}(void) {{ {' '.join(statements)} }}")
        registers += [f"{number}:{it}=0" for it in re.findall(r"\bint (\w+)", lines[-1])]
    names = sorted({it for code in threads for it in re.findall(r"\b[xyz]\b", code)})
    question = " /\\ ".join([*registers, *(f"{it}=0" for it in names)])
    return "\n".join(["#include <stdatomic.h>", f"atomic_int {', '.join(names)};", *lines, f"// lw: exists ({question})", ""])


def make_branching(first: str, second: str, question: str) -> str:
    """Returns a program of two threads in C, by their code and its question, which names `x` and `y` besides."""
    codes = enumerate((first, second))
    threads = [f"{'int' if re.search('return [^;]', code) else 'void'} P{number}(void) {{ {code} }}" for number, code in codes]
    return "\n".join(["#include <stdatomic.h>", "atomic_int x, y;", *threads, f"// lw: exists ({question} /\\ x=0 /\\ y=0)", ""])


def make_awaited(first: str, second: str, question: str) -> str:
    """Returns a program of two threads in C with loops that wait, by their code and its question, which names all locations besides."""
    threads = f"void P0(void) {{ {first} }}\nvoid P1(void) {{ {second} }}\n"
    names = "".join(f" /\\ {it}=0" for it in ("x", "y", "z", "data", "more") if re.search(rf"\b{it}\b", threads))
    return f"#include <stdatomic.h>\natomic_int x, y, z;\nint data, more;\n{threads}// lw: exists ({question}{names})\n"


def convert_to_herd_form(text: str) -> str:
    """Returns a program that `make_shape` made as a test in herd's form."""
    locations = require_match(re.search(r"atomic_int (.*);", text))[1].split(", ")
    parameters = ", ".join(f"atomic_int* {it}" for it in locations)
    code = re.sub(r"void (P\d)\(void\)", rf"\1 ({parameters})", text[text.index("void") :]).replace("&", "").replace("// lw: ", "")
    return f"C Shape\n{{ {' '.join(f'{it}=0;' for it in locations)} }}\n{code}"


def rewrite_by_page(texts: list[str]) -> list[str]:
    """Returns the tests that the page makes of programs in C, or why it does not."""
    words = ["node", os.path.join(HOME, "tools", "gate", "c_programs.mjs"), "--rewrite"]
    ran = subprocess.run(words, input=json.dumps(texts), capture_output=True, text=True, check=True)
    return [it.get("made") or it["why"] for it in json.loads(ran.stdout)]


def parse_states(report: str, names: dict[str, str]) -> set[frozenset[tuple[str, str]]]:
    """Returns the states of a report, with some names in place of others."""
    read = lambda line: (entry.split("=") for entry in line.rstrip(";").split("; "))
    return {frozenset((names.get(site, site), word) for site, word in read(line)) for line in answers.filter_state_lines(report)}


def list_rewritten_states(made: str) -> set[frozenset[tuple[str, str]]]:
    """Returns the states of a test that the page made, by tools/plain.py, with the names of its source's variables."""
    pairs = re.findall(r"(\d):(E\w\w) is (\w+)", made)
    return parse_states(plain.make_report(plain.read_test(made)), {f"{thread}:{register}": f"{thread}:{name}" for thread, register, name in pairs})


def list_ended_states(text: str, made: str) -> set[frozenset[tuple[str, str]]]:
    """Returns the states of a test that the page made in which the loops of its program have ended, without the loads of loops that have no name."""
    count = text[text.index("exists") :].count("=")
    clauses = require_match(re.search(r"exists \((.*)\)$", made, re.M))[1].split(" /\\ ")[:-count]
    holds = lambda atom, state: (tuple(atom.lstrip("~").split("=")) in state) != atom.startswith("~")
    states = parse_states(plain.make_report(plain.read_test(made)), {})
    ended = [state for state in states if all(any(holds(atom, state) for atom in it.strip("()").split(" \\/ ")) for it in clauses)]
    names = {site: name for site, name in re.findall(r"(\d:E\w\w) is ([\w ]*\w)", made)}
    rename = lambda state: {(site[:2] + names[site] if site in names else site, word) for site, word in state}
    return {frozenset(it for it in rename(state) if not re.search(" after | at ", it[0])) for state in ended}


def make_program(*threads: str, data: str = DATA, after: str = "") -> str:
    """Returns assembly with these threads, whose instructions have `;` between them."""
    code = "".join(f"\t.type P{number}, @function\nP{number}:\n{text}\n\tret\n" for number, text in enumerate(threads))
    return f".text\n{code}{after}\n{data}"


def answer_assembly(text: str, condition: str, tries: int = 1) -> Answer:
    """Returns the answer on assembly."""
    count = len(set(re.findall(r"^P\d(?=:|\s*=)", text, re.M))) + len(re.findall(r"^\.set P\d", text, re.M))
    return make_answer(ProgramConverter(text, read_condition(condition, 0, len(condition)), "T", count, tries))


def list_states(text: str, condition: str, tries: int = 1) -> list[str]:
    """Returns the states of assembly, without the `;` at their ends."""
    return [it.rstrip(";").replace(";", "") for it in answers.filter_state_lines(answer_assembly(text, condition, tries).report)]


def find_cause(text: str, condition: str = "exists (x=0)", tries: int = 1) -> str:
    """Returns why assembly is refused; an empty text if it is not."""
    try:
        answer_assembly(text, condition, tries)
    except (Refused, given.Fault) as why:
        return why.cause
    return ""


def make_thread(*instructions: str, value: str = "%eax", before: str = "") -> str:
    """Returns a thread that shows a register as r0."""
    return "; ".join(instructions) + f"\n#lw see r0 {value}\n{before}"


class Reading(cases.Case):
    """The texts of assemblers."""

    def test_operands(self) -> None:
        """Operands are read as they are spelled."""
        self.assertEqual(Memory("x", 4, "rax", "rcx", 8), parse_operand("x+4(%rax,%rcx,8)"))
        self.assertEqual(Memory("x", -4), parse_operand("x-4(%rip)"))
        self.assertEqual(Memory(None, 0, None, "rax", 4), parse_operand("(,%rax,4)"))
        self.assertEqual(Number("x", 8), parse_operand("$x+8"))
        self.assertEqual(Register("rbx", 1, 1), parse_operand("%bh"))
        self.assertTrue(isinstance(parse_operand("%fs:40"), Other))
        self.assertTrue(isinstance(parse_operand("(%eax)"), Other))

    def test_sums(self) -> None:
        """Differences of addresses, and tables of addresses, are refused."""
        self.assertEqual(("x", 12), parse_sum("x+4+8"))
        for text in (".L4-.L3", "x@GOTPCREL", "x@tpoff", "x*2"):
            with self.subTest(text):
                self.assertTrue("refused" in find_refusal(lambda text=text: parse_sum(text)))

    def test_aliases(self) -> None:
        """A thread that is another name of a function is found, however the name is declared."""
        for alias in ("P1 = P0", ".set P1, P0"):
            text = make_program(make_thread("movl x(%rip), %eax"), data=f"{alias}\n{DATA}").replace(".zero 8", ".long 7\n.long 0", 1)
            with self.subTest(alias):
                self.assertEqual(["0:r0=7 1:r0=7"], list_states(text, "exists (0:r0=0 /\\ 1:r0=0)"))

    def test_weaker_rust(self) -> None:
        """In Rust an order is weaker where an operation's call names it, by what the operation does; elsewhere, as in comments, it stays."""
        for text, released, relaxed in (
            ("X.load(SeqCst)", "X.load({}Acquire)", "X.load({}Relaxed)"),
            ("X.store(f(1), Ordering::SeqCst)", "X.store(f(1), {}Release)", "X.store(f(1), {}Relaxed)"),
            ("X.swap(1, atomic::Ordering :: SeqCst)", "X.swap(1, {}AcqRel)", "X.swap(1, {}Relaxed)"),
            ("X.compare_exchange(0, 1, SeqCst, SeqCst)", "X.compare_exchange(0, 1, {}AcqRel, {}Acquire)",
             "X.compare_exchange(0, 1, {}Relaxed, {}Relaxed)"),
            ("X.store(Y.load(SeqCst), Release)", "X.store(Y.load({}Acquire), Release)", "X.store(Y.load({}Relaxed), {}Relaxed)"),
            ("core::sync::atomic::fence(SeqCst);", "core::sync::atomic::fence({}AcqRel);", "();"),
            ("use a::Ordering::{SeqCst, Relaxed}; f(SeqCst)", None, None),
            ("// X.load(SeqCst)", None, None),
        ):
            for weaker, expected in ((1, released), (2, relaxed)):
                with self.subTest(text, weaker=weaker):
                    self.assertEqual((expected or text).replace("{}", "::core::sync::atomic::Ordering::"), weaken_rust(text, weaker))

    def test_lost_thread(self) -> None:
        """A thread that the assembly lacks is reported."""
        condition = read_condition("exists (x=0)", 0, 12)
        self.assertIn("the source has 2 threads", find_refusal(lambda: ProgramConverter(make_program(STORES_X), condition, "T", 2, 1)))

    def test_first_words(self) -> None:
        """Bytes of data are put together, whatever they are written as."""
        data = '.data\n.align 8\nx:\n.asciz "\\002\\000a"\n.byte 1\n.short 2\ny:\n.long 5\n.quad x+4\n.zero 4\nz:\n'
        layout = Layout(Assembly(data))
        index = layout.addresses
        self.assertEqual(0x61000200 >> 8 | 0, layout.find_initial_word(index["x"], 4))
        self.assertEqual(0x00020100, layout.find_initial_word(index["x"] + 3, 4))
        self.assertEqual(5 | (index["x"] + 4 & 0xFFFFFFFF) << 32, layout.find_initial_word(index["y"], 8))
        self.assertEqual(0, layout.find_initial_word(index["y"] + 12, 4))
        self.assertIn("which no variable has", find_refusal(lambda: layout.find_initial_word(index["y"] + 12, 8)))

    def test_unknown_data(self) -> None:
        """Data in a form that is not read is refused, in code too; debug data is skipped."""
        for text, why in (
            (".data\nx:\n.float 1\n", "data by '.float'"), (".data\nx:\n.zero 4, 255\n", "a filler"), (".text\nP0:\n.byte 0xf0\n", "is in code"),
            ('.section .init_array,"aw"\n.quad f\n', "before main"), (".intel_syntax noprefix\n", "is in code"),
            (".data\nx:\n.quad a-b\n", "a difference"),
        ):
            with self.subTest(text):
                self.assertIn(why, find_refusal(lambda text=text: Assembly(text)))
        self.assertEqual({}, Assembly('.section .debug_info,"",@progbits\nd:\n.uleb128 3\n').objects)

    def test_two_names(self) -> None:
        """Two labels of one place are one object."""
        text = make_program("movl $1, x(%rip)", make_thread("movl w(%rip), %eax"), data=DATA.replace("x:\n", "x:\nw:\n"))
        self.assertEqual(["1:r0=0", "1:r0=1"], list_states(text, "exists (1:r0=0)"))

    def test_statements(self) -> None:
        """A line may have several statements, and a prefix a line of its own."""
        for text in ("lock; orl $0, (%rsp)", "lock\n\torl $0, (%rsp)", "lock orl $0, (%rsp) # a comment; mfence"):
            other = make_thread("movl $1, y(%rip)", "mfence", "movl x(%rip), %eax")
            program = make_program(f"{STORES_X}; {text}\n{make_thread('movl y(%rip), %eax')}", other)
            with self.subTest(text):
                self.assertEqual(3, len(list_states(program, "exists (0:r0=0 /\\ 1:r0=0)")))

    def test_repeats(self) -> None:
        """REP before RET and NOP means nothing, and other repeated instructions are refused."""
        self.assertEqual("", find_cause(make_program(f"{STORES_X}; rep; nop; rep ret")))
        for text in ("rep stosq", "rep\n\tstosq", "repz cmpsb"):
            with self.subTest(text):
                self.assertIn("is not followed", find_cause(make_program(text)))

    def test_lines(self) -> None:
        """An instruction has the line of the source that `.loc` says, if that is of the source itself."""
        assembly = Assembly('.file 1 "/tmp/test.c"\n.file 2 "a.h"\n.text\nP0:\n.loc 1 3 5\nnop\n.loc 2 9 1\nnop\n.loc 1 4 1\nret\n')
        self.assertEqual([3, 3, 4], [it.line for it in assembly.code])

    def test_names_of_rust(self) -> None:
        """Decorated names are read, unless two of them are one."""
        names = "_ZN1a5STATE17h0123456789abcdefE _ZN1a2P017h0123456789abcdefE _Z2P1v"
        self.assertEqual("STATE P0 P1", demangle_assembly(names))
        both = "_ZN1a1x17h0123456789abcdefE _ZN1b1x17h0123456789abcde0E"
        self.assertEqual(both, demangle_assembly(both))


def find_refusal(work: Callable[..., object]) -> str:
    """Returns the cause for which `work` refuses something, after the word `refused`; an empty text if it refuses nothing."""
    try:
        work()
    except (Refused, given.Fault) as why:
        return f"refused: {why.cause}"
    return ""


class Values(cases.Case):
    """Flags, parts of registers, and arithmetic, on what another thread stores."""

    WRITER = "movl $1, x(%rip); movl $5, x(%rip)"

    def list_values(self, *instructions: str, value: str = "%eax") -> list[int]:
        """Returns the values of r0 after instructions on what is loaded from x: 0, 1 or 5."""
        states = list_states(make_program(self.WRITER, make_thread(*instructions, value=value)), "exists (1:r0=0)")
        return sorted(int(it.split("=")[1]) for it in states)

    def test_computed(self) -> None:
        """Values that are computed from a load, word by word."""
        load = "movl x(%rip), %eax"
        for instructions, expected in (
            (("addl $3, %eax",), [3, 4, 8]), (("subl $1, %eax",), [0, 4, 2**32 - 1]), (("negl %eax",), [0, 2**32 - 5, 2**32 - 1]),
            (("notl %eax",), [2**32 - 6, 2**32 - 2, 2**32 - 1]), (("andl $4, %eax",), [0, 4]), (("orl $2, %eax",), [2, 3, 7]),
            (("xorl $1, %eax",), [0, 1, 4]), (("shll $2, %eax",), [0, 4, 20]), (("sarl %eax",), [0, 2]), (("imull $3, %eax",), [0, 3, 15]),
            (("leal 2(%rax,%rax,4), %eax",), [2, 7, 27]), (("movl $7, %ecx", "cltd", "idivl %ecx", "movl %edx, %eax"), [0, 1, 5]),
            (("bswap %eax",), [0, 0x01000000, 0x05000000]), (("roll $31, %eax",), [0, 0x80000000, 0x80000002]),
            (("incl %eax",), [1, 2, 6]), (("movl $3, %ecx", "mull %ecx"), [0, 3, 15]), (("movsbl %al, %eax",), [0, 1, 5]),
            (("cmpl $1, %eax", "sbbl %eax, %eax"), [0, 2**32 - 1]), (("cmpl $2, %eax", "adcl $0, %eax"), [1, 2, 5]),
            (("btl $2, %eax", "setc %al", "movzbl %al, %eax"), [0, 1]),
        ):
            with self.subTest(instructions):
                self.assertEqual(expected, self.list_values(load, *instructions))

    def test_conditions(self) -> None:
        """Each condition, after a comparison with 1."""
        for letters, expected in (
            ("e", [0, 1]), ("ne", [0, 1]), ("b", [0, 1]), ("a", [0, 1]), ("l", [0, 1]), ("ge", [0, 1]), ("s", [0, 1]), ("o", [0]), ("no", [1]),
        ):
            with self.subTest(letters):
                self.assertEqual(expected, self.list_values("movl x(%rip), %eax", "cmpl $1, %eax", f"set{letters} %al", "movzbl %al, %eax"))

    def test_signs(self) -> None:
        """An order with signs is another one than an order without."""
        start = ("movl x(%rip), %eax", "subl $1, %eax", "cmpl $3, %eax")
        self.assertEqual([0, 1], self.list_values(*start, "setl %al", "movzbl %al, %eax"))
        writer = "movl $-1, x(%rip)"
        for letters, expected in (("l", ["1:r0=1"]), ("b", ["1:r0=0", "1:r0=1"])):
            text = make_program(writer, make_thread("movl x(%rip), %eax", "cmpl $1, %eax", f"set{letters} %al", "movzbl %al, %eax"))
            with self.subTest(letters):
                self.assertEqual(expected, list_states(text, "exists (1:r0=0)"))

    def test_flags_unknown(self) -> None:
        """Flags that an instruction leaves alone or undefined are refused where they are read."""
        for text in (
            "incl %eax; jb .L1", "decl %eax; ja .L1", "shll $2, %eax; jl .L1", "shll $2, %eax; jb .L1", "imull $3, %eax; je .L1", "jne .L1",
            "btl $1, %eax; je .L1", "roll $1, %eax; je .L1",
        ):
            with self.subTest(text):
                self.assertIn("flag", find_cause(make_program(f"movl $1, %eax; {text}; .L1: {STORES_X}")))
        self.assertIn("the condition 'p' is not followed", find_cause(make_program(f"movl $1, %eax; cmpl $1, %eax; jp .L1; .L1: {STORES_X}")))

    def test_flags_of_locked(self) -> None:
        """LOCK OR sets ZF by its result, CMPXCHG only ZF, and LOCK XADD those of the sum."""
        text = make_program("lock orl $1, x(%rip); sete %al; movzbl %al, %eax\n#lw see r0 %eax", STORES_X)
        self.assertEqual(["0:r0=0"], list_states(text, "exists (0:r0=1)"))
        text = "movl $0, %eax; movl $2, %ecx; lock cmpxchgl %ecx, x(%rip); {} .L1; .L1: nop"
        self.assertEqual("", find_cause(make_program(text.format("je"), STORES_X)))
        self.assertIn("CMPXCHG before leaves alone", find_cause(make_program(text.format("jl"), STORES_X)))
        text = make_program("movl $-1, %eax; lock xaddl %eax, x(%rip); sete %al; movzbl %al, %eax\n#lw see r0 %eax", STORES_X)
        self.assertEqual(["0:r0=0", "0:r0=1"], list_states(text, "exists (0:r0=1)"))

    def test_shift_by_nothing(self) -> None:
        """A shift by 0 leaves the flags."""
        text = make_thread("movl x(%rip), %eax", "movl $0, %ecx", "cmpl $1, %eax", "shll %cl, %eax", "sete %al", "movzbl %al, %eax")
        self.assertEqual(["1:r0=0", "1:r0=1"], list_states(make_program(self.WRITER, text), "exists (1:r0=0)"))

    def test_parts(self) -> None:
        """A byte that is moved into a register leaves the others, and four bytes set those above to 0."""
        self.assertEqual([0x100, 0x101, 0x105], self.list_values("movl $0x1ff, %eax", "movb x(%rip), %al"))
        self.assertEqual([0x00FF, 0x01FF, 0x05FF], self.list_values("movl $0xff, %eax", "movb x(%rip), %ah"))
        self.assertEqual([0, 1, 5], self.list_values("movq $-1, %rax", "movl x(%rip), %eax", "shrq $32, %rax", "orl x(%rip), %eax"))
        self.assertEqual([0, 1], self.list_values("movl x(%rip), %ecx", "xorl %eax, %eax", "testl %ecx, %ecx", "sete %al"))
        self.assertEqual([2**32 - 1], self.list_values("movq $-1, %rax", "testl %eax, %eax", "cmove x(%rip), %eax"))

    def test_unset(self) -> None:
        """A value that nothing has set is refused where it is used, and may be copied: also the bytes above a part that is set."""
        from_stack = "movl -8(%rsp), %eax; movl %eax, x(%rip)"
        for text in ("addl $1, %ebx", "movl %ebx, x(%rip)", "cmpl $1, %ebx; je .L1; .L1: nop", "movl (%rbx), %eax", from_stack):
            with self.subTest(text):
                self.assertIn("nothing has set", find_cause(make_program(text, STORES_X)))
        self.assertIn("nothing has set", find_cause(make_program("cmpl $1, x(%rip); sete %bl\n#lw see r0 %ebx", STORES_X), "exists (0:r0=0)"))
        text = make_program(
            self.WRITER, make_thread("cmpl $1, x(%rip)", "sete %bl", "movl %ebx, %ecx", "movl %ecx, -8(%rsp)", "movzbl -8(%rsp), %eax")
        )
        self.assertEqual(["1:r0=0", "1:r0=1"], list_states(text, "exists (1:r0=0)"))
        text = make_program(self.WRITER, make_thread("cmpl $1, x(%rip)", "sete %bl", "shll $2, %ebx", "negl %ebx", "movzbl %bl, %eax"))
        self.assertEqual(["1:r0=0", "1:r0=252"], list_states(text, "exists (1:r0=0)"))
        text = make_program(
            self.WRITER, make_thread("cmpl $1, x(%rip)", "sete %bl", "andl $3, %ebx", "sete %al", "movzbl %al, %eax", "leal (%rax,%rbx,4), %eax")
        )
        self.assertEqual(["1:r0=1", "1:r0=4"], list_states(text, "exists (1:r0=0)"))
        reader = f"{STORES_X}; movl y(%rip), %eax"
        self.assertIn("nothing has set", find_cause(make_program("cmpl $1, x(%rip); sete %bl; andl $256, %ebx; movl %ebx, y(%rip)", reader)))
        self.assertIn(
            "nothing has set", find_cause(make_program("cmpl $1, x(%rip); sete %bl; movl %ebx, y(%rip)", f"{STORES_X}; movl y(%rip), %eax"))
        )


class Places(cases.Case):
    """Memory of a thread's own, shared locations, and addresses."""

    def test_own(self) -> None:
        """Bytes that only one thread uses are put together, and cut."""
        text = make_thread("movl $1, y(%rip)", "movl $2, y+4(%rip)", "movq y(%rip), %rax", "shrq $28, %rax")
        self.assertEqual(["0:r0=32"], list_states(make_program(text), "exists (0:r0=1)"))
        text = make_thread("movq $-1, y(%rip)", "movw $0, y+1(%rip)", "movl y(%rip), %eax")
        self.assertEqual([f"0:r0={0xFF0000FF}"], list_states(make_program(text), "exists (0:r0=1)"))
        text = make_thread("movl x(%rip), %eax", "movl %eax, -16(%rsp)", "movl $7, -12(%rsp)", "movq -16(%rsp), %rax", "shrq $31, %rax")
        self.assertEqual(["0:r0=14"], list_states(make_program(text, STORES_X), "exists (0:r0=1)"))

    def test_vectors(self) -> None:
        """Vectors are moved between what is a thread's own, and refused where others look."""
        data = DATA + ".section .rodata\n.align 16\nc:\n.long 1\n.long 2\n.long 3\n.long 4\n"
        text = make_thread("movdqa c(%rip), %xmm0", "movups %xmm0, -24(%rsp)", "movl x(%rip), %ecx", "andl $3, %ecx", "movl -24(%rsp,%rcx,4), %eax")
        self.assertEqual(["1:r0=1", "1:r0=3"], list_states(make_program("movl $2, x(%rip)", text, data=data), "exists (1:r0=0)"))
        text = make_thread(
            "pxor %xmm0, %xmm0", "movl $7, %ecx", "movd %ecx, %xmm1", "movaps %xmm0, -40(%rsp)", "movss %xmm1, -36(%rsp)", "movq -40(%rsp), %xmm2",
            "movd %xmm2, %rax", "shrq $31, %rax",
        )
        self.assertEqual(["0:r0=14"], list_states(make_program(text), "exists (0:r0=1)"))
        shared = make_program("pxor %xmm0, %xmm0; movups %xmm0, x(%rip)", "movl x(%rip), %eax", data=".bss\n.align 16\nx:\n.zero 16\n")
        self.assertIn("16 bytes at 'x' are accessed at once", find_cause(shared))
        self.assertEqual("", find_cause(make_program("movl $1, %ecx; movd %ecx, %xmm0; movss %xmm0, x(%rip)", "movl x(%rip), %eax")))

    def test_upper_half(self) -> None:
        """A word is shared if another thread loads only its upper half."""
        text = make_program("movabsq $0x200000001, %rax; movq %rax, x(%rip)", make_thread("movl x+4(%rip), %eax"))
        self.assertEqual(["1:r0=0", "1:r0=2"], list_states(text, "exists (1:r0=0)"))

    def test_parts_of_locations(self) -> None:
        """A load of a part is one of the whole; a store to a part, and accesses across one another, are refused."""
        text = make_program("movq $-1, x(%rip)", make_thread("movzwl x+2(%rip), %eax"))
        self.assertEqual(["1:r0=0", "1:r0=65535"], list_states(text, "exists (1:r0=0)"))
        self.assertIn("a part of 'x', of 1 bytes", find_cause(make_program("movb $1, x+1(%rip)", "movl x(%rip), %eax")))
        across = make_program("movl $1, x(%rip)", "movl x(%rip), %eax; movl x+2(%rip), %eax")
        self.assertIn("'x', of 4 bytes, and 4 bytes at 'x+2' overlap", find_cause(across))

    def test_alignment(self) -> None:
        """An access that may not be aligned is no access at once."""
        data = ".bss\n.align 4\nx:\n.zero 8\n"
        self.assertIn("aligned to 4 only", find_cause(make_program("movq $1, x(%rip)", "movq x(%rip), %rax", data=data)))
        self.assertIn("aligned to 2 only", find_cause(make_program("movl $1, x+2(%rip)", "movl x+2(%rip), %eax", data=data)))
        self.assertEqual("", find_cause(make_program("movl $1, x+4(%rip)", "movl x+4(%rip), %eax", data=data)))

    def test_own_word(self) -> None:
        """A global that only one thread uses is shown with all its bytes, and compared with them."""
        text = make_program("movq $-1, x(%rip)", "movl $1, y(%rip)")
        self.assertEqual([f"x={2**64 - 1}"], list_states(text, "exists (x=4294967295)"))
        self.assertIn("Never", answer_assembly(text, "exists (x=4294967295)").report)
        self.assertIn("Always", answer_assembly(text, "exists (x=-1)").report)

    def test_own_word_of_parts(self) -> None:
        """A global that is put together from what was loaded and what was stored is shown with all its bytes."""
        text = make_program("movl x(%rip), %eax; movl %eax, y(%rip); movl $1, y+4(%rip); movq y(%rip), %rcx", STORES_X)
        self.assertEqual([f"y={2**32}", f"y={2**32 + 1}"], list_states(text, "exists (y=1)"))

    def test_wide_words(self) -> None:
        """Words of 64 bits keep their upper half, unless two words have the same lower one."""
        text = make_program("movabsq $0x100000001, %rax; movq %rax, x(%rip)", "movq x(%rip), %rcx")
        self.assertEqual(["x=4294967297"], list_states(text, "exists (x=1)"))
        self.assertIn("Never", answer_assembly(text, "exists (x=1)").report)
        text = make_program("movq $1, x(%rip); movabsq $0x100000001, %rax; movq %rax, x(%rip)", "movq x(%rip), %rcx\n#lw see r0 %ecx")
        self.assertIn("the same 32 lowest bits", find_cause(text, "exists (1:r0=1)"))

    def test_narrow_words(self) -> None:
        """A negative number is compared in the bytes of its global."""
        text = make_program("movw $-2, x(%rip)", "movzwl x(%rip), %eax")
        self.assertIn("Always", answer_assembly(text, "exists (x=-2)").report)
        self.assertIn("of 2 bytes, with 65536", find_cause(text, "exists (x=65536)"))

    def test_addresses(self) -> None:
        """Addresses are words; the order and the difference of two objects' addresses are refused."""
        reader = make_thread("movq x(%rip), %rax", "testq %rax, %rax", "je .L1", "movl (%rax), %eax", ".L1: nop")
        text = make_program("movl $y, %eax; movq %rax, x(%rip)", reader, data=DATA.replace("y:\n.zero 8", "y:\n.long 6\n.long 0"))
        self.assertEqual(["1:r0=0 x=&y", "1:r0=6 x=&y"], list_states(text, "exists (1:r0=6 /\\ x=&y)"))
        for instruction in ("cmpq $y, %rax; jb .L1; .L1: nop", "subq $y, %rax"):
            with self.subTest(instruction):
                self.assertIn("a linker chooses it", find_cause(make_program(f"movl $x, %eax; {instruction}; {STORES_X}", "movl x(%rip), %eax")))

    def test_stacks(self) -> None:
        """Another thread's stack is refused."""
        text = make_program("leaq -8(%rsp), %rax; movq %rax, x(%rip)", "movq x(%rip), %rax; testq %rax, %rax; je .L1; movl (%rax), %eax; .L1: nop")
        self.assertIn("another thread's stack", find_cause(text))

    def test_allocation(self) -> None:
        """Allocated memory is new and is shared by its address; that it is is said."""
        text = make_program(
            "subq $8, %rsp; movl $8, %edi; call malloc; movl $3, (%rax); movq %rax, x(%rip); addq $8, %rsp",
            make_thread("movl $9, %eax", "movq x(%rip), %rcx", "testq %rcx, %rcx", "je .L1", "movl (%rcx), %eax", ".L1: nop"),
        )
        self.assertEqual(["1:r0=3", "1:r0=9"], list_states(text, "exists (1:r0=0)"))
        self.assertIn("malloc succeeds", answer_assembly(text, "exists (1:r0=0)").notes[0])

    def test_conditions_on_places(self) -> None:
        """The objects that the condition names have to exist, and to be accessed as a whole."""
        text = make_program("movq $1, x(%rip)", "movq x(%rip), %rax")
        for condition, why in (
            ("exists (w=0)", "no variable"), ("exists (x+8=0)", "has 8 bytes"), ("exists (x+4=0)", "is a part of"),
            ("exists (0:r9=0)", "comes to lw_see"), ("exists (x=&w)", "no variable"), ("exists (x=99999999999999999999)", "does not fit"),
            ("exists (4:r0=1)", "from 0 to 3"), ("exists (x=)", "a number"),
        ):
            with self.subTest(condition):
                self.assertIn(why, find_cause(text, condition))


class Ways(cases.Case):
    """Jumps, calls, loops and locked instructions."""

    def test_calls(self) -> None:
        """A register that a function leaves alone keeps its value, as compilers count on; also what it was loaded from."""
        helper = "\nhelper:\nmovl y(%rip), %eax\nret\n"
        reader = make_thread("movl x(%rip), %ecx", "call helper", "call helper", "leal (%rcx,%rax,2), %eax")
        text = make_program("movl $1, x(%rip); movl $1, y(%rip)", reader, after=helper)
        self.assertEqual(["1:r0=0", "1:r0=1", "1:r0=2", "1:r0=3"], list_states(text, "exists (1:r0=0)"))

    def test_refused(self) -> None:
        """Code that is elsewhere, ends the program, or runs over the end of a function is refused, with its line."""
        for text, why in (
            ("call memcpy", "elsewhere"), ("pushl $1", "32 bits"), ("negl", "operands that are not known"),
            ("jmp *x(%rip)", "a jump leads to no code"), ("ud2", "an abort"), ("paddd %xmm1, %xmm0", "vectors"),
            ("movl %fs:40, %eax", "is not followed"), ("movq w(%rip), %rax", "defined elsewhere"), ("cmpxchg16b x(%rip)", "is not followed"),
        ):
            with self.subTest(text):
                self.assertIn(why, find_cause(make_program(text)))
        over = make_program(STORES_X, STORES_X).replace("\tret\n", "", 1)
        self.assertIn("over the end of its function", find_cause(over))

    def test_jump_back(self) -> None:
        """A block that is out of line, and jumps back to the middle, is no loop."""
        reader = make_thread("movl x(%rip), %eax", "testl %eax, %eax", "jne .Lc", ".Lb: addl $1, %eax")
        text = make_program("movl $1, x(%rip)", reader, after="\n.Lc: movl $4, %eax\njmp .Lb\n")
        self.assertEqual(["1:r0=1", "1:r0=5"], list_states(text, "exists (1:r0=0)"))
        self.assertEqual([], answer_assembly(text, "exists (1:r0=0)").bounded)

    def test_known_loop(self) -> None:
        """A loop over constants is followed to its end, also one in which something is asked."""
        text = make_program("movl $0, %ecx; .L1: lock addl $1, x(%rip); addl $1, %ecx; cmpl $5, %ecx; jne .L1", "movl x(%rip), %eax")
        self.assertEqual(["x=5"], list_states(text, "exists (x=5)"))
        asks = "movl $0, %ecx; movl $0, %eax; .L1: cmpl $1, x(%rip); jne .L2; addl $1, %eax; .L2: addl $1, %ecx; cmpl $3, %ecx; jne .L1"
        asks += "\n#lw see r0 %eax"
        self.assertEqual(["1:r0=0", "1:r0=1", "1:r0=2", "1:r0=3"], list_states(make_program(STORES_X, asks), "exists (1:r0=0)"))

    def test_tries(self) -> None:
        """Runs go through any other loop as often as `--tries` says; without a try it is refused, and without a run there is no verdict."""
        waits = ".L1: lock addl $1, y(%rip); movl x(%rip), %eax; testl %eax, %eax; je .L1\nmovl y(%rip), %ecx\n#lw see r0 %ecx"
        text = make_program(STORES_X, waits, "movl y(%rip), %eax")
        self.assertEqual(["1:r0=1"], list_states(text, "exists (1:r0=1)", 1))
        self.assertEqual(["1:r0=1", "1:r0=2", "1:r0=3"], list_states(text, "exists (1:r0=1)", 3))
        self.assertIn("a loop need not end", find_cause(text, "exists (1:r0=1)", 0))
        endless = make_program(STORES_X, ".L1: cmpl $2, x(%rip); jne .L1")
        self.assertIn("no run comes to an end", find_cause(endless))

    def test_counted_stores(self) -> None:
        """A loop in which a thread stores until another has seen enough is given up by its tries, and not too early."""
        counts = ".L1: movl y(%rip), %eax; testl %eax, %eax; jne .L2; lock addl $1, x(%rip); jmp .L1; .L2: movl x(%rip), %eax\n#lw see r0 %eax"
        other = "movl x(%rip), %eax; cmpl $3, %eax; jne .L9; movl $1, y(%rip); .L9: nop"
        self.assertEqual(["0:r0=3", "0:r0=4", "0:r0=5"], list_states(make_program(counts, other), "exists (0:r0=3)", 6))

    def test_fences(self) -> None:
        """MFENCE, and a locked instruction on memory of the thread's own, wait for the buffer; LFENCE and SFENCE don't."""
        for text, count in (("mfence", 3), ("lock orq $0, (%rsp)", 3), ("xchgl %ecx, z(%rip)", 3), ("lfence", 4), ("sfence", 4), ("pause", 4)):
            thread = lambda mine, its: f"{mine}; movl $3, %ecx; {text}; movl {its}(%rip), %eax\n#lw see r0 %eax"
            program = make_program(thread("movl $1, x(%rip)", "y"), thread("movl $1, y(%rip)", "x").replace("z(", "z+4("))
            with self.subTest(text):
                self.assertEqual(count, len(list_states(program, "exists (0:r0=0 /\\ 1:r0=0)")))

    def test_compare_and_swap(self) -> None:
        """CMPXCHG succeeds or fails, and what it finds is in RAX."""
        cas = lambda new: f"movl $0, %eax; movl ${new}, %ecx; lock cmpxchgl %ecx, x(%rip)\n#lw see r0 %eax"
        self.assertEqual(["0:r0=0 1:r0=1 x=1", "0:r0=2 1:r0=0 x=2"], list_states(make_program(cas(1), cas(2)), "exists (0:r0=0 /\\ 1:r0=0 /\\ x=1)"))

    def test_locked(self) -> None:
        """Locked instructions that lw lacks, by guesses of what they find."""
        text = make_program("lock orl $1, x(%rip); setne %al", "lock xorl $3, x(%rip)")
        self.assertEqual(["x=2", "x=3"], list_states(text, "exists (x=2)"))
        text = make_program("movl $1, %eax; lock xaddb %al, x(%rip); movzbl %al, %eax\n#lw see r0 %eax", "lock btsl $3, x(%rip)", data=DATA)
        self.assertTrue("part" in find_cause(text, "exists (0:r0=0)"))
        text = make_program("lock btsl $3, x(%rip); setc %al; movzbl %al, %eax\n#lw see r0 %eax", "lock btrl $3, x(%rip)")
        self.assertEqual(["0:r0=0 x=0", "0:r0=0 x=8"], list_states(text, "exists (0:r0=0 /\\ x=0)"))

    def test_writing(self) -> None:
        """Values that change places at a thread's end keep their names, and six registers are a limit."""
        loads = "movl x(%rip), %eax; movl y(%rip), %ecx; movl x(%rip), %edx\n#lw see a %ecx\n#lw see b %eax\n#lw see c %edx"
        states = list_states(make_program("movl $1, x(%rip); movl $2, y(%rip)", loads), "exists (1:a=0 /\\ 1:b=0 /\\ 1:c=0)")
        self.assertEqual(["1:a=0 1:b=0 1:c=0", "1:a=0 1:b=0 1:c=1", "1:a=0 1:b=1 1:c=1", "1:a=2 1:b=0 1:c=1", "1:a=2 1:b=1 1:c=1"], states)
        many = "".join(f"\n#lw see v{number} %eax" for number in range(7))
        question = "exists (" + " /\\ ".join(f"0:v{number}=0" for number in range(7)) + ")"
        self.assertIn("more than 6 values", find_cause(make_program(f"movl x(%rip), %eax{many}", STORES_X), question))

    def test_sums_of_symbols(self) -> None:
        """A sum with what was loaded is stored as it is, and compared as it is."""
        text = make_program("movl $4, x(%rip)", "movl x(%rip), %eax; addl $3, %eax; movl %eax, y(%rip)", make_thread("movl y(%rip), %eax"))
        self.assertEqual(["2:r0=0", "2:r0=3", "2:r0=7"], list_states(text, "exists (2:r0=0)"))
        compares = make_thread("movl x(%rip), %ecx", "movl y(%rip), %edx", "addl $1, %ecx", "cmpl %ecx, %edx", "sete %al", "movzbl %al, %eax")
        text = make_program("movl $4, x(%rip)", "movl $5, y(%rip)", compares)
        self.assertEqual(["2:r0=0", "2:r0=1"], list_states(text, "exists (2:r0=0)"))


class Sources(cases.Case):
    """The parts of the source that are read."""

    PROGRAM = (
        "#include <stdatomic.h>\natomic_int x; // P7() {\nvoid P0(void) { int r0 = x; if (r0) { r0 = 2; } }\n"
        "int P1(void) { x = 1; return x; }\n// lw: exists (0:r0=0)\n"
    )

    def test_sees(self) -> None:
        """A local variable that the condition names is seen at the function's end, on the same line."""
        source = read_source("a.c", self.PROGRAM)
        self.assertEqual((2, ".c", "a"), (source.threads, source.ending, source.name))
        self.assertIn("r0 = 2; }  lw_see(r0, r0); }\n", source.text)

    def test_faults(self) -> None:
        """A fault of a source is reported with its place."""
        for old, new, why in (
            ("0:r0", "1:r0", "P1 has a return"), ("// lw: exists (0:r0=0)\n", "", "no comment says"), ("P1(", "P2(", "in a row"),
            ("0:r0=0", "0:r0", "expected"),
            ("int P1(void) { x = 1; return x; }\n// lw: exists (0:r0", "short P1(void) { return x; }\n// lw: exists (1:return",
             "fewer than 32 bits"), ("0:r0", "2:r0", "P2, which is not there"),
            ("// lw", "// lw: exists (x=1)\n// lw", "a second comment"), ("return x; }", "return x;", "is not closed"),
        ):
            with self.subTest(new):
                self.assertIn(why, find_refusal(lambda old=old, new=new: read_source("a.c", self.PROGRAM.replace(old, new))))

    def test_rust(self) -> None:
        """A lifetime of Rust is no quoted letter."""
        text = "fn f<'a>(x: &'a u32) -> &'a u32 { x }\n#[no_mangle] pub fn P0() { let r0 = 1; }\n// lw: exists (0:r0=1)\n"
        self.assertIn("lw_see!(r0, r0); }\n//", read_source("a.rs", text).text)

    def test_herd(self) -> None:
        """A test in herd's form: what is passed becomes globals, and lines stay."""
        source = read_source("a.litmus", "C SB\n{ x=0; [y]=2; }\nP0 (atomic_int* x, volatile int* y) {\n  int r0 = *y;\n}\nexists (0:r0=0 /\\ x=0)\n")
        self.assertEqual(("SB", "exists (0:r0=0 /\\ x=0)", ["lw_x"]), (source.name, source.condition.text, source.condition.list_globals()))
        self.assertIn("int lw_y = 2;", source.text)
        self.assertIn("#line 3\n", source.text)
        self.assertIn("not read", find_refusal(lambda: read_source("a", "C SB\n{}\nP0 (int* x) { *x = 1; }\nlocations [x;]\nexists (x=0)\n")))


def is_known(compiler: str, folder: str) -> bool:
    """Returns whether the compiler is one that made the lists of a folder's README.md, of the same version."""
    name = compiler.split()[0]
    return f"{name} {find_version(name)}" in program_lists.read_versions(folder)


def read_verdicts(folder: str) -> dict[str, list[str]]:
    """Returns the verdicts of the table of a folder's README.md: as it is, and with weaker orders."""
    rows = re.findall(r"^\| \[(\w+)\.\w+\]\S* \| .* \| (\w+) \| (\w+) \| (\w+) \|$", read(f"examples/{folder}/README.md"), re.M)
    return {name: verdicts for name, *verdicts in rows}


# The lists by other versions of compilers than those of the tables, if they differ.
OTHER_VERSIONS = []
# The refusals: a level at which a program has too many paths.
REFUSED = {("McsLock", "rustc -C opt-level=0")}


class Compiled(cases.Case):
    """Programs, by the installed compilers."""

    def setUp(self) -> None:
        """Leaves these out if no compiler is there."""
        if not list_compilers(".c"):
            self.skipTest(describe_skipped())

    def compare(self, folder: str, compiler: str, name: str, expected: object, actual: object) -> None:
        """Compares what a compiler makes of an example. If its version is not that of the lists, a difference is reported and no fault."""
        if expected != actual and not is_known(compiler, folder):
            version = find_version(compiler.split()[0])
            OTHER_VERSIONS.append(f"examples/{folder}/{name} by {compiler}, version {version}: {actual}, and not {expected}")
        else:
            self.assertEqual(expected, actual)

    def compare_example(self, folder: str, path: str, compilers: Iterable[str]) -> None:
        """Compares an example's verdicts and lists by some compilers, those of level 2 with weaker orders too, with its rows in README.md."""
        name, (_, of_lists), lists = program_lists.format_name(path), program_lists.FOLDERS[folder], program_lists.read_lists(folder)
        for compiler in compilers:
            if (name, compiler) in REFUSED:
                continue
            with self.subTest(name, compiler=compiler):
                answers = [program_lists.make_answer(path, compiler, number) for number in ((0, 1, 2) if compiler in of_lists else (0,))]
                verdicts = [it.observation.split()[0] for it in answers]
                self.compare(folder, compiler, name, read_verdicts(folder)[name][: len(answers)], verdicts)
                if compiler in of_lists or not answers[0].bounded:
                    self.compare(folder, compiler, name, lists[name][: len(answers)], program_lists.make_lists(answers))

    def test_examples(self) -> None:
        """Each example has the verdicts and the lists that its README.md has, by every compiler at every level, as far as runs are not left out
        since a loop need not end; at level 2 with weaker orders too."""
        for folder, (ending, _) in program_lists.FOLDERS.items():
            names = [program_lists.format_name(it) for it in program_lists.list_programs(folder)]
            self.assertEqual([names, names], [sorted(read_verdicts(folder)), sorted(program_lists.read_lists(folder))])
            for path in program_lists.list_programs(folder):
                self.compare_example(folder, path, list_compilers(ending))

    def test_other_version(self) -> None:
        """A list that differs is a fault if its compiler made the lists of README.md, and is reported if it is of another version."""
        path = os.path.join(HOME, "examples", "from_c", "EventCount.c")
        answer_on, names = program_lists.make_answer, OTHER_VERSIONS[:]
        other = lambda it, compiler, weaker=0: answer_on(it.replace("EventCount", "StoreBuffering"), compiler, weaker)
        compiler = list_compilers(".c")[0].split()[0] + " -O2"
        with mock.patch.object(program_lists, "make_answer", other), mock.patch.object(
            program_lists, "read_versions", lambda _folder: {"none 1.2.3"}
        ):
            self.compare_example("from_c", path, [compiler])
        self.assertEqual(1, len(OTHER_VERSIONS) - len(names))
        self.assertIn(f"examples/from_c/EventCount by {compiler}, version ", OTHER_VERSIONS[-1])
        OTHER_VERSIONS[:] = names

    def test_pairs(self) -> None:
        """docs/FENCES.md names the algorithms that need a fence: the stores and loads between which it is, and what weaker orders add. The others
        have the same list with weaker orders."""
        lists, text = program_lists.read_lists("from_c"), read("docs/FENCES.md")
        of_three = re.findall(r"^\| \[(\w+)\]\S+ \| (.*?) \| .*? \| `(.*?)` .*\|$", text.partition("| Program | A store, then a load")[2].partition("\n\n")[0], re.M)
        others = re.findall(r"\[(\w+)\]", text.partition("| Program | Why |")[2].partition("\n\n")[0])
        without_change = sorted(name for name, (_, *more) in lists.items() if not any(more))
        self.assertEqual(without_change, sorted([*others, "MessagePassing"]))
        self.assertEqual(sorted({*lists} - {*without_change}), sorted([*(it[0] for it in of_three), "StoreBuffering"]))
        for name, pairs, added in of_three:
            source = read_source(f"{name}.c", read(f"examples/from_c/{name}.c"))
            answer = from_c.convert_source(source, list_compilers(".c")[0].split()[0] + " -O2", 1)
            needed_lines = parse_needed_lines(format_fences(*answer))
            with self.subTest(name):
                self.assertEqual([[added]] * 2, [*lists[name][1:]])
                for thread, places in re.findall(r"P(\d)[^()]*\((?:lines )?([\d, ]+)\)", pairs):
                    first, last = map(int, places.split(", "))
                    self.assertTrue(any(number == int(thread) and first <= line < last for number, line in needed_lines))

    def test_orders(self) -> None:
        """C's operations compile to an instruction that waits, a locked one or a fence, or to none, as docs/FENCES.md says: by each compiler at -O1 to
        -O3. Of each operation: whether it waits, or None if gcc's code waits and clang's does not. `return` means that the result is used.
        """
        bodies = {
            "atomic_store(&x, 1)": True, "atomic_thread_fence(memory_order_seq_cst)": True,
            "return atomic_exchange_explicit(&x, 1, memory_order_relaxed)": True, "atomic_exchange_explicit(&x, 1, memory_order_acq_rel)": True,
            "atomic_exchange_explicit(&x, 1, memory_order_relaxed)": None, "atomic_exchange_explicit(&x, 1, memory_order_release)": None,
            "int e = 0; atomic_compare_exchange_strong_explicit(&x, &e, 1, memory_order_relaxed, memory_order_relaxed)": True,
            "atomic_fetch_add_explicit(&x, 1, memory_order_relaxed)": True, "atomic_store_explicit(&x, 1, memory_order_release)": False,
            "atomic_store_explicit(&x, 1, memory_order_relaxed)": False, "return atomic_load(&x)": False,
            "atomic_thread_fence(memory_order_acq_rel)": False, "atomic_thread_fence(memory_order_release)": False,
            "atomic_fetch_add_explicit(&x, 0, memory_order_relaxed)": None, "return atomic_fetch_add_explicit(&x, 0, memory_order_acquire)": None,
            "atomic_fetch_add_explicit(&x, 0, memory_order_acq_rel)": None, "return atomic_fetch_add_explicit(&x, 0, memory_order_acq_rel)": True,
            "return atomic_fetch_or_explicit(&x, 0, memory_order_release)": True, "return atomic_fetch_and_explicit(&x, -1, memory_order_relaxed)": None,
            "atomic_fetch_sub_explicit(&x, 0, memory_order_seq_cst)": True, "return atomic_fetch_xor_explicit(&x, 0, memory_order_seq_cst)": True,
            "atomic_fetch_and_explicit(&x, 0, memory_order_release)": None, "return atomic_fetch_and_explicit(&x, 0, memory_order_relaxed)": True,
        }
        functions = "".join(f"int f{number}(void) {{ {body}; return 0; }}\n" for number, body in enumerate(bodies))
        text = f"#include <stdatomic.h>\natomic_int x;\n{functions}"
        for compiler in [it for it in list_compilers(".c") if not it.endswith("-O0")]:
            words = [*compiler.split(), "-fcf-protection=none", "-S", "-x", "c", "-o", "-", "-"]
            assembly = subprocess.run(words, input=text.encode(), stdout=subprocess.PIPE, check=True).stdout.decode()
            for number, (body, waits) in enumerate(bodies.items()):
                code = require_match(re.search(rf"^f{number}:[^\n]*\n(.*?)^\s*ret", assembly, re.M | re.S))[1]
                with self.subTest(body, compiler=compiler):
                    waits_only_by_gcc = waits is None
                    expected = compiler.startswith("gcc") if waits_only_by_gcc else waits
                    self.compare("from_c", compiler, body, expected, bool(re.search(r"\b(?:lock|xchg\w*|mfence)\b", code)))

    def test_documents(self) -> None:
        """docs/FROM-C.md and docs/FENCES.md show what their commands print, if gcc is there and of the version that the lists have."""
        for page, count in (("FROM-C", 6), ("FENCES", 4)):
            blocks = re.findall(r"^```\n(% .*?)^```$", read(f"docs/{page}.md"), re.M | re.S)
            commands = [it for block in blocks for it in re.findall(r"^% (.*)\n((?:(?!% ).*\n)*)", block, re.M)]
            self.assertEqual(count, len(commands))
            for line, printed in commands if shutil.which("gcc") else ():
                ran = subprocess.run(["sh", "-c", line], stdout=subprocess.PIPE, cwd=HOME, check=False)
                with self.subTest(line):
                    self.compare("from_c", "gcc", f"docs/{page}.md: {line}", printed, ran.stdout.decode())

    def test_show(self) -> None:
        """The tests that `--show` prints have the verdict of the program, and the other tools take them."""
        for name in ("HazardPointer", "ClhLock", "StoreBuffering"):
            source = read_source(f"{name}.c", read(f"examples/from_c/{name}.c"))
            answer = from_c.convert_source(source, list_compilers(".c")[0], 1)
            text = format_tests(*answer)
            with self.subTest(name):
                self.assertEqual(answer[0].observation.split()[0], answers.make_answer(["states"], plain.read_test(text), text).text.split()[-3])
                self.assertIn(": line ", text)

    def test_schedules(self) -> None:
        """Each state of the report has a run, by lines of the source."""
        answer = from_c.convert_source(read_source("a.c", read("examples/from_c/TreiberStack.c")), list_compilers(".c")[0], 1)
        printed = format_schedules(*answer).splitlines()
        self.assertEqual(answers.filter_state_lines(answer[0].report), [it for it in printed if not it.startswith(" ")])
        self.assertTrue(all(re.match(r"  (P\d, (line \d+|no line): |D\d: )", it) for it in printed if it.startswith(" ")))

    def test_fences(self) -> None:
        """The exchanges that an answer needs are reported with their lines, also of a program of several tests."""
        compiler = list_compilers(".c")[0].split()[0] + " -O2"
        printed = format_fences(*from_c.convert_source(read_source("a.c", read("examples/from_c/EventCount.c")), compiler, 1))
        needed_lines = re.findall(r"^P(\d) at \d+ \(line (\d+)\), (.*), without its lock:\n  by its question, .*: (\w+) state", printed, re.M)
        self.assertEqual([("0", "10", "LOCK XADD [sleepers],EAX", "1"), ("1", "16", "XCHG [work],EAX", "1")], needed_lines)
        added_state = "  by its question, ~exists (0:sleeps=1 /\\ 1:wakes=0): 1 state more as a plain store\n    0:sleeps=1; 1:wakes=0;\n"
        self.assertIn(added_state, printed)
        lines = format_fences(*from_c.convert_source(read_source("a.c", read("examples/from_c/Once.c")), compiler, 1)).splitlines()
        index = lines.index("P0 line 12, without its lock:")
        question = "~exists (0:got=0 \\/ 1:got=0 \\/ writers=2)"
        self.assertEqual([f"  by its question, {question}: 1 state more", "    0:got=5; 1:got=5; writers=2;"], lines[index + 1 : index + 3])
        self.assertEqual("a, by its question, " + question + ": fences 0, states 1", lines[0].replace(" (not proved)", ""))
        lines = format_fences(*from_c.convert_source(read_source("a.c", SWAPPING), compiler, 1)).splitlines()
        question = "its question, exists (0:r0=0 /\\ 1:r0=0)"
        self.assertIn(f"P1 line 12: can be left out alone, by {question}", lines)
        self.assertEqual(["  P0 line 5"], lines[lines.index(f"As good as all its fences, with none to spare, by {question}: no fence") + 2 :][:1])

    @unittest.skipUnless(spawn.is_current(), "the program is not built")
    def test_film(self) -> None:
        """The film of a run has a picture for each event, with the lines of the source; a state that is not there is refused."""
        text = read("examples/from_c/EventCount.c")
        answer = from_c.convert_source(read_source("a.c", text), list_compilers(".c")[0].split()[0] + " -O2", 1)
        drawn = render_film(*answer, 1, text.splitlines())
        expected = [it.strip() for it in format_schedules(*answer).splitlines()[1:5]]
        for line in {int(require_match(re.search(r"line (\d+)", it))[1]) for it in expected}:
            self.assertIn(f"line {line}: ", drawn)
        self.assertIn("XCHG [work],EAX  (line 16)", drawn)
        try:
            why = render_film(*answer, 4, text.splitlines())
        except NoFilm as fault:
            why = fault.args[0]
        self.assertEqual("the report has 3 states, and no state 4", why)

    def test_weaker_in_cc(self) -> None:
        """In C++ orders are weaker in all operations of <atomic>, by each compiler."""
        for compiler in sorted({it.split()[0] + " -O1" for it in list_compilers(".cc")}):
            for store, load in (("x.store(1)", "y.load()"), ("x = 1", "y"), ("std::atomic_store(&x, 1)", "y")):
                source = read_source("a.cc", OF_CC.format(store, load))
                counts = [len(answers.filter_state_lines(from_c.convert_source(source, compiler, 1, weaker)[0].report)) for weaker in (0, 1, 2)]
                with self.subTest(compiler, store=store):
                    self.assertEqual([3, 4, 4], counts)
            source = read_source("a.cc", ALL_OF_CC)
            reports = [from_c.convert_source(source, compiler, 1, weaker)[0].report for weaker in (0, 1, 2)]
            with self.subTest(compiler):
                self.assertEqual([reports[0]] * 3, reports)
                self.assertIn("\nObservation a Always 1 0\n", reports[0])

    @unittest.skipUnless(shutil.which("node"), "node is not here")
    def test_rewritten(self) -> None:
        """Programs have the same states as the page rewrites them, and as a compiler makes them, in C and in herd's form, and with branches."""
        compiler = list_compilers(".c")[0].split()[0] + " -O2"
        programs = [make_shape(threads, orders) for threads in SHAPES.values() for orders in ORDERS]
        programs += [convert_to_herd_form(it) for it in programs[:: len(ORDERS)]]
        programs += [make_branching(*it) for it in BRANCHING]
        for text, made in zip(programs, rewrite_by_page(programs)):
            answer = from_c.convert_source(read_source("a.c", text), compiler, 1)[0]
            with self.subTest(text, made=made):
                self.compare("from_c", compiler, text, parse_states(answer.report, {}), list_rewritten_states(made))

    @unittest.skipUnless(shutil.which("node"), "node is not here")
    def test_awaited(self) -> None:
        """Programs with loops that wait, as the page rewrites them, have the states in which these have ended, as a compiler makes them."""
        programs = [make_awaited(*it) for it in AWAITED]
        rewritten = rewrite_by_page([re.sub(r" lw_see\(\w+, \w+\);", "", it) for it in programs])
        for compiler in sorted({it.split()[0] + " -O2" for it in list_compilers(".c")}):
            for text, made in zip(programs, rewritten):
                answer = from_c.convert_source(read_source("a.c", text), compiler, 3)[0]
                with self.subTest(text, compiler=compiler, made=made):
                    self.assertEqual(parse_states(answer.report, {}), list_ended_states(text, made))

    def test_native(self) -> None:
        """No state is seen on this processor that is not listed, in some thousand runs of the same assembly."""
        compiler = list_compilers(".c")[0].split()[0] + " -O2"
        for name in ("StoreBuffering", "HazardPointer", "SpscRing", "ReferenceCount"):
            beyond, _, _, runs, _ = native_runs.compare_with_list(os.path.join(HOME, "examples", "from_c", f"{name}.c"), compiler, 0.3, 1)
            with self.subTest(name):
                self.assertEqual(([], True), (beyond, runs > 0))

    def test_random(self) -> None:
        """Random programs have the outcomes of their source."""
        for seed in range(RANDOM_PROGRAMS):
            for compiler, result, text in random_programs.compare_random_program(seed, list_compilers(".c"), COMPILERS_OF_RANDOM):
                with self.subTest(seed=seed, compiler=compiler, text=text):
                    self.assertEqual("same", result)

    def test_command(self) -> None:
        """The output of the command, and its status."""
        with tempfile.TemporaryDirectory() as folder:
            path = os.path.join(folder, "a.c")
            compiler = list_compilers(".c")[0]
            cases: tuple[tuple[str, list[str], int, str], ...] = (
                (Sources.PROGRAM, [], 0, "listed by"), (Sources.PROGRAM, ["--show"], 0, ": line 3"),
                (Sources.PROGRAM, ["--schedules"], 0, ", line 4: "),
                (Sources.PROGRAM.replace("x;", "x", 1), [], 1, ": the compiler refuses it: "),
                (Sources.PROGRAM.replace("x = 1;", "x = 1; abort();"), [], 1, "a.c:4: "), (Sources.PROGRAM, ["--matrix"], 0, "With relaxed in place"),
                (Sources.PROGRAM, ["--tries", "x"], 2, "--tries"), ("", [], 1, "a.c:1:1: no comment says"),
                (Sources.PROGRAM, ["--cc", "no-such-compiler"], 1, "does not start"), (Sources.PROGRAM, ["--cc", "true"], 1, "writes no assembly"),
                (Sources.PROGRAM, ["--cc", "gcc -m32"], 1, "32 bits"),
            )
            for text, words, status, part in cases:
                with open(path, "w", encoding="utf-8") as file:
                    file.write(text)
                out, err, ended = run(["from_c.py", *(["--cc", compiler] if "--cc" not in words else []), *words, path])
                with self.subTest(words, text=text):
                    self.assertEqual(status, ended)
                    self.assertIn(part, out + err)


def parse_needed_lines(printed: str) -> list[tuple[int, ...]]:
    """Returns the threads and the lines of the fences and exchanges that an answer needs, by what --fences prints."""
    rows = re.findall(r"^P(\d)(?: at \d+)? \(?line (\d+)\)?.*(?:: needed, |, without its lock:\n  by its question, .*: \d)", printed, re.M)
    return [tuple(map(int, it)) for it in rows]


def describe_skipped() -> str | None:
    """Returns the lines that say what is left out, if compilers are missing, and what other versions of compilers make. None if nothing is."""
    lines = list(OTHER_VERSIONS)
    if not list_compilers(".c"):
        lines.append("no program in C was compiled, since neither gcc nor clang is here")
    elif not list_compilers(".rs"):
        lines.append("no program in Rust was compiled, since rustc is not here")
    return "\n".join(lines) or None


if __name__ == "__main__":
    sys.exit(cases.main(describe_skipped))
