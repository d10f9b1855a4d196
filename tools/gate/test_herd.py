"""Tests that tests are converted from herd's form and to it as docs/FROM-HERD.md says.

    python3 tools gate.test_herd, or in tools/ python3 -m unittest gate.test_herd

- Each test of tools/herd/tests is taken, and has the observation that INDEX.txt there gives, or is refused at the place and with the
  cause that it gives.
- All examples, and random x86 tests, are written in both forms, and read back: each has its own canonical text.
- Random rows of instructions that lw lacks: they leave the words that x86 leaves. So do rows of 32 and 64 bits, and rows in all spellings,
  if they are taken (tools/gate/herd_rows.py).
- The order of operands is concluded from marks, which a note names; marks that contradict one another are refused with both places.
- The reports of examples in the lines of a log of herd's, which tools/run_all.py reads.
- Files: two tests of one name, byte order marks, and comparisons of converted tests with logs of the original ones.

Lists come from the program if it is built, otherwise from tools/plain.py. tools/check_documents.py calls all this (tools/gate/cases.py).
"""
from __future__ import annotations

import glob
import os
import re
import sys
import tempfile
from collections.abc import Iterable, Iterator, Sequence
from dataclasses import replace
from random import Random
from unittest import mock

import given
import plain
import random_tests
from gate import cases
from gate.examples import TOOLS, examples, read, run
from gate.herd_rows import SpelledRow, WideRow, make_wide_threads
from herd.convert import ConversionResult, convert
from herd.rewrite import REWRITINGS
from herd.together import make_merged_report
from herd.widths import ACTIONS
from herd.write import FORMS, format_herd_report, format_herd_text
from interpreter import machines
from shared import logs
from shared.matches import require_match

RANDOM_TESTS = 60
ROWS_OF_INSTRUCTIONS = 120
WIDE_ROWS = 300
WIDE_THREADS = 150
SPELLED_ROWS = 300


def read_written_tests() -> list[tuple[str, str, str]]:
    """Returns the rows of the index: a name, options, and what is expected of the test."""
    rows = [re.split(r" *\| *", line, maxsplit=2) for line in read("tools/herd/tests/INDEX.txt").splitlines()]
    return [(name, options, message) for name, options, message in rows]


def describe_test(name: str, options: str) -> str:
    """Returns the observation of a test in herd's form; if it is refused, the position and the cause."""
    text = read(f"tools/herd/tests/{name}.litmus")
    tries = int(options.split()[1]) if options else 0
    try:
        report, _ = make_merged_report(convert(text, tries).conversions)
    except given.Fault as fault:
        return given.format_fault("", text.encode(), fault)[1:]
    return require_match(re.search(rf"^Observation {re.escape(name)} (.*)$", report, re.M))[1]


class WrittenTests(cases.Case):
    """The tests of tools/herd/tests, and its index."""

    def test_index(self) -> None:
        """The index has each test once, and there are at least 40."""
        paths = sorted(os.path.basename(it)[: -len(".litmus")] for it in glob.glob(f"{TOOLS}/herd/tests/*.litmus"))
        self.assertEqual(paths, sorted(name for name, _, _ in read_written_tests()))
        self.assertTrue(len(paths) >= 40)

    def test_observations(self) -> None:
        """Each has the observation, or the place and the cause, that its row says."""
        for name, options, message in read_written_tests():
            with self.subTest(name):
                self.assertEqual(message, describe_test(name, options))


def list_random_x86_tests() -> Iterator[tuple[str, str]]:
    """Yields names and texts of random x86 tests."""
    for seed in range(1, RANDOM_TESTS + 1):
        yield f"random x86 test {seed}", random_tests.Writer("X86", seed).draw_test()


class BothForms(cases.Case):
    """Examples and random tests in herd's forms."""

    def test_there_and_back(self) -> None:
        """A test that is written in a form, and read back, has its own canonical text."""
        for name, text in [*examples(), *list_random_x86_tests()]:
            program = plain.compile_test(plain.read_test(text))
            expected = plain.format_canonical_text(program)
            for form in FORMS:
                with self.subTest(name, form=form):
                    back = convert(format_herd_text(program, form)).conversions
                    self.assertEqual([expected], [plain.format_canonical_text(it.test) for it in back])

    def test_own(self) -> None:
        """An x86 test of lw is a test in herd's form."""
        for name, text in [*examples(), *list_random_x86_tests()]:
            if text.startswith("X86"):
                with self.subTest(name):
                    texts = [plain.format_canonical_text(it.test) for it in convert(text).conversions]
                    self.assertEqual([plain.format_canonical_text(plain.read_test(text))], texts)


# Rows of instructions.


class Row:
    """A random sequence of instructions of one thread, with the final words of two registers, a location and the zero flag on x86."""

    def __init__(self, seed: int) -> None:
        """Makes a row. The same seed makes the same one."""
        self.random = Random(f"row {seed}")
        self.a, self.b, self.x = (self.random.randint(0, 3) for _ in range(3))
        self.initial = f"0:EAX={self.a}; 0:EBX={self.b}; x={self.x};"
        self.zero = False
        self.cells = [self.execute_instruction() for _ in range(self.random.randint(1, 6))]

    def set_flag(self, word: int) -> int:
        """Sets the flag by whether a word is 0."""
        self.zero = word % 2**32 == 0
        return word % 2**32

    def execute_instruction(self) -> str:
        """Chooses a random instruction and executes it on the words of this object. Returns its text."""
        number = self.random.randint(0, 3)
        choices = (
            (f"ADD EAX,${number}", lambda: self.set_words(a=self.set_flag(self.a + number))),
            (f"SUB EAX,${number}", lambda: self.set_words(a=self.set_flag(self.a - number))),
            ("SUB EBX,EBX", lambda: self.set_words(b=self.set_flag(0))),
            ("INC EAX", lambda: self.set_words(a=self.set_flag(self.a + 1))),
            ("DEC EBX", lambda: self.set_words(b=self.set_flag(self.b - 1))),
            ("XOR EAX,EAX", lambda: self.set_words(a=self.set_flag(0))),
            ("OR EAX,$0", lambda: self.set_flag(self.a)),
            ("AND EBX,$-1", lambda: self.set_flag(self.b)),
            ("TEST EBX,EBX", lambda: self.set_flag(self.b)),
            ("CMP [x],EBX", lambda: self.set_flag(self.x - self.b)),
            ("CMP EAX,[x]", lambda: self.set_flag(self.a - self.x)),
            ("ADD [x],EAX", lambda: self.set_words(x=self.set_flag(self.x + self.a))),
            (f"SUB [x],${number}", lambda: self.set_words(x=self.set_flag(self.x - number))),
            ("ADD EBX,[x]", lambda: self.set_words(b=self.set_flag(self.b + self.x))),
            ("INC [x]", lambda: self.set_words(x=self.set_flag(self.x + 1))),
            ("LOCK DEC [x]", lambda: self.set_words(x=self.set_flag(self.x - 1))),
            ("LOCK ADD [x],EBX", lambda: self.set_words(x=self.set_flag(self.x + self.b))),
            (f"LOCK SUB [x],${number}", lambda: self.set_words(x=self.set_flag(self.x - number))),
            ("LOCK OR [x],$0", lambda: self.set_flag(self.x)),
            ("XADD [x],EAX", lambda: self.set_words(x=self.set_flag(self.x + self.a), a=self.x)),
            ("LOCK XADD [x],EBX", lambda: self.set_words(x=self.set_flag(self.x + self.b), b=self.x)),
            ("XADD EAX,EBX", lambda: self.set_words(a=self.set_flag(self.a + self.b), b=self.a)),
            ("XCHG EAX,EBX", lambda: self.set_words(a=self.b, b=self.a)),
            ("XCHG EAX,[x]", lambda: self.set_words(a=self.x, x=self.a)),
            ("CMOVE EAX,EBX", lambda: self.set_words(a=self.b if self.zero else self.a)),
            ("CMOVNZ EBX,[x]", lambda: self.set_words(b=self.b if self.zero else self.x)),
            ("MOV [x],EBX", lambda: self.set_words(x=self.b)),
            ("NOP", lambda: None),
            (f"LEA EAX,[EBX+EAX+{number}]", lambda: self.set_words(a=self.a + self.b + number)),
            (f"LEA EBX,[EAX-{number}]", lambda: self.set_words(b=self.a - number)),
        )
        text, act = self.random.choice(choices)
        act()
        return text

    def set_words(self, **words: int) -> None:
        """Sets words by the names of their fields, all at once, since one may be computed from another."""
        for name, word in words.items():
            setattr(self, name, word % 2**32)

    def make_text(self) -> str:
        """Returns the test: a branch at its end shows the flag."""
        body = "".join(f" {cell} ;\n" for cell in [*self.cells, "JE END", "MOV [zero],$1", "END:"])
        return f"X86 Row\n{{ {self.initial} }}\n P0 ;\n{body}locations [0:EAX; 0:EBX; x; zero;]\nforall (true)\n"

    def format_state(self) -> str:
        """Returns the line of the final state on x86."""
        return f"0:EAX={self.a}; 0:EBX={self.b}; x={self.x}; zero={1 - self.zero};"


class Rows(cases.Case):
    """Random rows of instructions that lw lacks."""

    def test_states(self) -> None:
        """A row leaves the words that x86 leaves; one whose flags can't be kept is refused, only for LEA."""
        for seed in range(ROWS_OF_INSTRUCTIONS):
            row = Row(seed)
            try:
                lines = plain.make_report(convert(row.make_text()).conversions[0].test).splitlines()[1:3]
            except given.Fault as fault:
                lines = ["LEA" if fault.cause.startswith("LEA leaves the flags alone") else fault.cause]
            expected = ["LEA"] if lines == ["LEA"] and any("LEA" in cell for cell in row.cells) else ["States 1", row.format_state()]
            with self.subTest(row.make_text()):
                self.assertEqual(expected, lines)


def list_only_state(conversion: ConversionResult) -> list[str]:
    """Returns the only state of a converted test of one thread without loads of others."""
    return plain.make_report(conversion.conversions[0].test).splitlines()[1:3]


class OtherRows(cases.Case):
    """Random rows that may be refused: none is taken for something else."""

    def check_rows(self, rows: Iterable[SpelledRow | WideRow], least: int) -> None:
        """Checks that each sequence that is accepted has the final words of x86, and that at least this number are accepted."""
        count = 0
        for row in rows:
            try:
                conversion = convert(row.make_text())
            except given.Fault:
                continue
            if any(says.startswith("no mark says the order of operands") for _, says in conversion.notes):
                continue
            count += 1
            with self.subTest(row.make_text()):
                self.assertEqual(["States 1", row.format_state()], list_only_state(conversion))
        self.assertTrue(count >= least)

    def test_wide(self) -> None:
        """Instructions of 64 bits are refused if a word may not fit into 32 bits."""
        self.check_rows((WideRow(seed) for seed in range(WIDE_ROWS)), WIDE_ROWS // 3)

    def test_spelled(self) -> None:
        """Operands are taken in the order in which the row has them."""
        self.check_rows((SpelledRow(seed) for seed in range(SPELLED_ROWS)), SPELLED_ROWS // 3)


# Single tests.


def make_test(*cells: str, language: str = "X86_64", initial: str = "", condition: str = "exists (x=1)") -> str:
    """Returns the text of a test of one thread, with a cell in each row."""
    body = "".join(f" {cell} ;\n" for cell in cells)
    return f"{language} Cells\n{{ {initial} }}\n P0 ;\n{body}{condition}\n"


def find_refusal(text: str, tries: int = 0, is_att: bool | None = None) -> str:
    """Returns the position and the cause for which a text is refused; an empty text if it is not refused."""
    try:
        convert(text, tries, is_att)
    except given.Fault as fault:
        return given.format_fault("", text.encode(), fault)[1:]
    return ""


def list_cells(text: str, is_att: bool | None = None) -> list[str]:
    """Returns the instructions of the first thread of a converted text."""
    conversion = convert(text, is_att=is_att).conversions[0].test
    return [plain.format_instruction(conversion, it) for it in conversion.threads[0]]


def list_order_notes(text: str) -> list[str]:
    """Returns the positions and the first words of the notes on the order of operands."""
    notes = [(given.format_line_and_column(text, offset), says) for offset, says in convert(text).notes if "operands" in says]
    return [f"{place} {says.partition(' order')[0]}" if says.startswith("operands") else f"{place} {says}" for place, says in notes]


class Orders(cases.Case):
    """The order of operands, as marks say it."""

    INTEL = "operands are taken in Intel's"
    ATT = "operands are taken in AT&T's"

    def test_marks(self) -> None:
        """A store is a store in the order that the marks say, and a note names the first mark."""
        for cells, note in (
            (("mov [x],eax", "lock incl [z]"), f"4:6 {self.INTEL}"),
            (("movq [x],rax", "mov ebx,ecx"), f"4:7 {self.INTEL}"),
            (("mov DWORD PTR [x],eax",), f"4:6 {self.INTEL}"),
            (("mov DWORD PTR x[rip],eax",), f"4:6 {self.INTEL}"),
            (("mov eax,ebx", "mov ebx,1", "mov [x],eax"), f"5:10 {self.INTEL}"),
            (("movl %eax,(x)", "movl $1,%ebx"), f"4:7 {self.ATT}"),
            (("mov %eax,x", "mov %ebx,%ecx"), f"4:6 {self.ATT}"),
            (("movl $2,x", "lock addl $0,(%rsp)"), f"4:7 {self.ATT}"),
        ):
            text = make_test(*cells)
            with self.subTest(cells):
                self.assertEqual([note], list_order_notes(text))
                self.assertTrue(any(it.startswith("MOV [x],") for it in list_cells(text)))

    def test_language(self) -> None:
        """Without a mark the language decides, and a note says so if the order matters; X86 with Intel's marks has no note."""
        no_mark = "no mark says the order of operands: {} is taken, the destination {}, as in herd's tests of {}"
        of_registers = lambda language: make_test("mov eax,ebx", language=language, condition="exists (0:eax=1)")
        notes = [list_order_notes(of_registers(language)) for language in ("X86", "X86_64")]
        expected = [["4:2 " + no_mark.format("Intel's", "first", "X86")], ["4:2 " + no_mark.format("AT&T's", "last", "X86_64")]]
        self.assertEqual(expected, notes)
        self.assertEqual([["MOV EAX,EBX"], ["MOV EBX,EAX"]], [list_cells(of_registers(language)) for language in ("X86", "X86_64")])
        of_one = make_test("lock incl [z]", "incl (x)", "xchg (x),eax")
        for text in (make_test("MOV [x],$1", language="X86"), make_test("xchg eax,ebx"), make_test("je L", "L:"), of_one):
            self.assertEqual([], list_order_notes(text))
        self.assertEqual([f"4:7 {self.ATT}"], list_order_notes(make_test("movl %eax,(x)", language="X86")))

    def test_contradictions(self) -> None:
        """Marks that contradict one another are refused, with both places; an order that is named is taken."""
        for cells, first, second in (
            (("mov [x],eax", "mov rax,(x)"), "'[' at 4:6", "5:10: '('"),
            (("mov [x],1", "movl (x),%eax"), "'[' at 4:6", "5:7: '('"),
            (("mov eax,1", "mov $1,ebx"), "the number in the second place at 4:10", "5:6: the number in the first place"),
            (("movl $1,(x)", "mov [y],eax"), "the number in the first place at 4:7", "5:6: '['"),
            (("mov %eax,%ebx", "mov ebx,1"), "'%eax' at 4:6", "5:10: the number in the second place"),
            (("mov rax,(x)",), "the register 'rax' without a '%' at 4:6", "4:10: '('"),
            (("lea rax,(x)",), None, "4:10: "),
        ):
            for language in ("X86", "X86_64"):
                with self.subTest(cells, language=language):
                    refusal = find_refusal(make_test(*cells, language=language))
                    self.assertTrue(refusal.startswith(second))
                    self.assertIn(first or "order of operands", refusal)
                    self.assertIn("--order intel or --order att", refusal)
        mixed = make_test("mov [x],eax", "mov eax,(x)")
        self.assertEqual(["MOV [x],EAX", "MOV EAX,[x]"], list_cells(mixed, False))
        self.assertEqual(["MOV EAX,[x]", "MOV [x],EAX"], list_cells(mixed, True))

    def test_threads(self) -> None:
        """Two threads with different orders contradict one another."""
        text = "X86_64 Two\n{ }\n P0 | P1 ;\n movl $1,(x) | mov [y],eax ;\nexists (x=1)\n"
        self.assertTrue(find_refusal(text).startswith("4:20: '[' says Intel's"))

    def test_numbers_of_att(self) -> None:
        """In AT&T's order a number without a `$` is an address."""
        message = "4:7: in AT&T's order a number without '$' is the address of a word: write $1 for the number"
        self.assertEqual(message, find_refusal(make_test("movl 1,%eax")))


def widen_number(statement: plain.Statement) -> plain.Statement:
    """Returns an instruction whose small negative number has 64 bits."""
    value = statement.value
    if not isinstance(value, plain.Number) or value.word < 2**32 - 16:
        return statement
    return replace(statement, value=plain.Number(value.word + 2**64 - 2**32))


class Words64(cases.Case):
    """Words of 64 bits."""

    def test_refused(self) -> None:
        """A word that may not fit into 32 bits is refused."""
        fits = "and a word of lw has 32 bits"
        negative = f"it works on 64 bits, and its result may be negative, {fits}"
        for cells, initial, message in (
            (("leaq -1(%rbx),%rax",), "", f"4:2: {negative}"),
            (("movl $-1,%eax", "cmpq $-1,%rax"), "", f"5:2: it extends the sign of -1 to 64 bits, {fits}"),
            (("movq (x),%rax", "decq %rax"), "", f"5:2: {negative}"),
            (("subq $1,(x)",), "", f"4:2: {negative}"),
            (("addq $-3,%rax",), "0:rax=2;", f"4:2: {negative}"),
            (("incq (x)",), "x=0xffffffff;", f"4:2: it works on 64 bits, and its result may be as large as 4294967296, {fits}"),
            (("movl $-1,%eax", "addq %rax,%rax"), "", f"5:2: it works on 64 bits, and its result may be as large as 8589934590, {fits}"),
            (("movq %rax,(x)",), "0:rax=-1;", f"4:2: it reads 64 bits of EAX, which may not fit into 32, {fits}"),
            (("movq (x),%rax",), "uint32_t x;", "4:2: it accesses 64 bits of 'x', whose type has 32"),
            (("movl (x),%eax",), "int64_t x=-1;", f"2:13: 'x' has 64 bits, and begins with a negative number, {fits}"),
            (("movl (x),%rax",), "", "4:12: 'rax' works on 64 bits, and 'movl' on 32: no instruction does both"),
            (("leal 1(%ebx,%rcx),%eax",), "", "4:15: 'rcx' has 64 bits, and another register of the address 32"),
            (("cmpq $0xffffffff,%rax",), "", f"4:2: no instruction of 64 bits has the number 4294967295: it would extend a sign, {fits}"),
        ):
            with self.subTest(cells):
                self.assertEqual(message, find_refusal(make_test(*cells, initial=initial)))

    def test_between_threads(self) -> None:
        """A word that grows from thread to thread is refused if it may grow too large, and taken if it may not."""
        text = "X86_64 Grow\n{{ x={0}; y=0; }}\n P0 | P1 ;\n movq (x),%rax | movq (y),%rbx ;\n addq %rax,%rax | addq %rbx,%rbx ;\n"
        text += " movq %rax,(y) | movq %rbx,(x) ;\nexists (x=4)\n"
        # P1 may store four times the first word; the ranges have P0 read that, which no run does.
        self.assertEqual("", find_refusal(text.format(2**28)))
        self.assertTrue("as large as" in find_refusal(text.format(2**31)))

    def test_differences_of_threads(self) -> None:
        """Subtractions by several threads are refused only if the word may be too small."""
        for cell in ("lock decq (x)", "decq (x)", "lock addq $-1,(x)"):
            text = f"X86_64 Dec\n{{{{ x={{}}; }}}}\n P0 | P1 ;\n {cell} | {cell} ;\nexists (x=0)\n"
            self.assertEqual([True, False], ["may be negative" in (find_refusal(text.format(word)) or "") for word in (1, 2)])
        self.assertEqual("", find_refusal(make_test("movq (x),%rax", "decq %rax", "movq %rax,(x)", initial="x=1;")))
        self.assertEqual("", find_refusal(make_test("L: decq %rcx", "jne L", initial="0:rcx=2;"), tries=2))

    def test_random_threads(self) -> None:
        """A test of two threads that is taken has the same states if the words of the machine have 64 bits."""
        count = 0
        for seed in range(WIDE_THREADS):
            text = make_wide_threads(seed)
            if not find_refusal(text):
                test = convert(text).conversions[0].test
                with mock.patch.object(machines, "WORD", 2**64):
                    wide = plain.make_report(replace(test, threads=[tuple(map(widen_number, code)) for code in test.threads]))
                count += 1
                with self.subTest(text):
                    self.assertEqual(wide, plain.make_report(test))
        self.assertTrue(WIDE_THREADS // 3 <= count < WIDE_THREADS)

    def test_taken(self) -> None:
        """Small numbers, sums and comparisons of 64 bits are taken, and so is what 32 bits make of larger ones."""
        for cells, initial, condition in (
            (("movq $2,(x)", "movq (x),%rax", "addq $3,%rax"), "uint64_t x;", "forall (0:rax=5)"),
            (("subq $2,%rax", "decq %rax"), "0:rax=3;", "forall (0:rax=0)"),
            (("leaq -1(%rbx),%rax",), "0:rbx=3;", "forall (0:rax=2)"),
            (("decl %eax", "movq %rax,(x)"), "", "forall (x=4294967295 /\\ 0:rax=0xffffffff)"),
            (("movl %eax,(x)",), "0:rax=-1;", "forall (x=-1)"),
            (("movl $-1,(x)", "movl (x),%eax"), "", "forall (x=-1 /\\ 0:eax=-1)"),
            (("lock xaddq %rax,(x)",), "0:rax=1; x=4;", "forall (0:rax=4 /\\ x=5)"),
        ):
            with self.subTest(cells):
                report = plain.make_report(convert(make_test(*cells, initial=initial, condition=condition)).conversions[0].test)
                self.assertIn("\nOk\n", report)

    def test_actions(self) -> None:
        """Each instruction that is rewritten has a rule for the words of 64 bits."""
        self.assertEqual(sorted(REWRITINGS), sorted(ACTIONS))

    def test_negative_atoms(self) -> None:
        """A negative number is not compared with 64 bits that may have the same lower half."""
        question = "exists (0:rax=-1)"
        message = "a negative number is compared with 64 bits: write it modulo 2 to the 32, or the register by its name of 32 bits"
        self.assertEqual(f"5:15: {message}", find_refusal(make_test("movl $-1,%eax", condition=question)))
        self.assertEqual("", find_refusal(make_test("movl $1,%eax", condition=question)))
        self.assertEqual("4:2: it extends the sign of -1 to 64 bits, and a word of lw has 32 bits", find_refusal(make_test("movq $-1,(x)")))


class Causes(cases.Case):
    """A refusal has its true cause, and a text that is taken is not taken for something else."""

    def test_mnemonics(self) -> None:
        """The cause of each mnemonic that is refused."""
        for cell, cause in (
            ("movslq (x),%rax", "it extends a sign to a larger word"),
            ("movsbl (x),%eax", "it reads a byte or a word of 16 bits"),
            ("movzbl (x),%eax", "it reads a byte or a word of 16 bits"),
            ("movsl", "instructions on strings"),
            ("rep movsb", "instructions on strings"),
            ("prefetcht0 (x)", "it is a hint to the caches"),
            ("adcl $1,%eax", "it reads the carry flag"),
            ("cmovll %ebx,%eax", "it reads another flag than the zero flag"),
            ("js L", "it reads another flag than the zero flag"),
            ("ja L", "it reads another flag than the zero flag"),
            ("jecxz L", "it tests a register without the flags"),
            ("sete (x)", "it writes a byte"),
            ("negl %eax", "lw has sums and no other arithmetic"),
            ("shll $1,%eax", "lw has sums and no other arithmetic"),
            ("movdqa (x),%xmm0", "it works on vectors"),
            ("movb $1,(x)", "it works on 8 bits"),
            ("movw %ax,(x)", "it works on 16 bits"),
            ("movl %al,(x)", "it works on 8 bits"),
            ("xchg %ah,(x)", "it works on 8 bits"),
            ("movl 4(x),%eax", "the address is computed"),
            ("movl x+4(%rip),%eax", "the address is computed"),
            ("movl x-4(%rip),%eax", "the address is computed"),
            ("movl (%bx),%eax", "'bx' has 16 bits, and addresses have 32 or 64"),
            ("subl %ebx,%eax", "a difference of two words"),
        ):
            with self.subTest(cell):
                self.assertIn(cause, find_refusal(make_test(cell, "L:")))

    def test_relative(self) -> None:
        """`x[rip]` is the location x, and `x[rip+4]` is none."""
        self.assertEqual(["MOV EAX,[x]", "MOV [y],$1"], list_cells(make_test("mov eax,DWORD PTR x[rip]", "mov y[rip],1")))
        self.assertIn("the address is computed", find_refusal(make_test("mov eax,x[rip+4]")))
        self.assertIn("an array is not converted", find_refusal(make_test("mov eax,x[rbx]")))
        self.assertIn("takes off numbers only", find_refusal(make_test("lea eax,[ebx-ecx]")))
        self.assertEqual(["MOV [x],$1"], list_cells(make_test("lea rbx,x[rip]", "mov rcx,OFFSET FLAT:x", "mov DWORD PTR [rcx],1")))

    def test_registers_without_thread(self) -> None:
        """A register without a thread is no location."""
        message = "'EAX' is a register: write of which thread, as 0:EAX"
        self.assertEqual(f"5:9: {message}", find_refusal(make_test("mov [x],1", condition="exists (EAX=1)")))
        self.assertEqual(f"2:3: {message}", find_refusal(make_test("mov [x],1", initial="EAX=1;")))

    def test_two_initial_values(self) -> None:
        """If a site has two values the last one is taken, with a note; an entry that only has a type has none."""
        note = "'x' has two values in the initial block: the last one is taken"
        for initial, word, notes in (("x=1; x=2;", 2, [note]), ("x=-1; x=2;", 2, [note]), ("x=5; int x;", 5, []), ("int x; x=5;", 5, [])):
            conversion = convert(make_test("mov [x],eax", initial=initial))
            self.assertEqual(((word,), notes), (conversion.conversions[0].test.words, [it for _, it in conversion.notes if "two values" in it]))
        self.assertEqual(["MOV [x],$2"], list_cells(make_test("mov DWORD PTR [rbx],2", initial="0:rbx=1; 0:rbx=x;")))

    def test_byte_order_marks(self) -> None:
        """A byte order mark is reported as one."""
        self.assertEqual("1:1: the text is a byte order mark (U+FEFF) and nothing else", find_refusal("\ufeff"))
        message = "1:1: the text begins with a byte order mark (U+FEFF): save it without one"
        self.assertEqual(message, find_refusal("\ufeff" + make_test("mov [x],1")))

    def test_unset_flag(self) -> None:
        """A note says where the flag is read before an instruction sets it."""
        says = "the zero flag is read here before an instruction has set it: it is taken as not set at first"
        for cells, notes in ((("je L", "movl $1,(x)", "L:"), [says]), (("cmpl $0,%eax", "je L", "movl $1,(x)", "L:"), [])):
            self.assertEqual(notes, [it for _, it in convert(make_test(*cells)).notes if "zero flag" in it])

    def test_name_of_mark(self) -> None:
        """A location with the name that a mark would have is still itself."""
        registers = [f"movl %eax,%{name}" for name in ("ebx", "ecx", "edx", "esi", "edi")]
        text = make_test("L: movl (done0),%eax", *registers, "cmpl $5,%eax", "jne L", initial="done0=5;", condition="forall (done0=5)")
        test = convert(text, tries=1).conversions[0].test
        self.assertEqual((["done0", "done0_"], (5, 0)), (test.locations, test.words))
        self.assertIn("Observation Cells Always 1 0", plain.make_report(test))


# Reports, and the command line.


class Reports(cases.Case):
    """A report in the lines of a log of herd's."""

    def test_lines(self) -> None:
        """Its lines are the test, the states, whether the question holds, and the observation."""
        report = plain.make_report(plain.read_test(read("examples/SB-x86.litmus")))
        lines = format_herd_report(report, "X86_64").splitlines()
        self.assertEqual(["Test SB-x86 Allowed", "States 4", "0:rax=0; 1:rax=0;"], lines[:3])
        self.assertEqual(["Ok", "Witnesses", "Positive: 1 Negative: 3"], lines[6:9])
        self.assertEqual(["Observation SB-x86 Sometimes 1 3", "Time SB-x86 0.00", ""], lines[10:])


class Commands(cases.Case):
    """The commands, and their messages on files that are faulty or missing."""

    TOOLS = ("from_herd", "to_herd", "assume")

    def test_help(self) -> None:
        """`--help` prints the module docstring."""
        for tool in self.TOOLS:
            with self.subTest(tool):
                out, err, status = run([f"{tool}.py", "--help"])
                self.assertEqual(("", 0), (err, status))
                self.assertIn(f"tools/{tool}.py", out)

    def test_missing_file(self) -> None:
        """A missing file is reported in the system's words."""
        for tool in self.TOOLS:
            with self.subTest(tool):
                printed = run([f"{tool}.py", "nowhere.litmus"])
                self.assertEqual(("", f"{tool}: nowhere.litmus: No such file or directory\n", 1), printed)

    def test_faults_of_from_herd(self) -> None:
        """A text that is not converted is reported with its place, and nothing is printed."""
        out, err, status = run(["from_herd.py"], read("tools/herd/tests/Less.litmus"))
        self.assertEqual(("-:6:2: 'JL' is not converted", "", 1), (err.split(":  ")[0][:28], out, status))
        _, err, status = run(["from_herd.py"], read("tools/herd/tests/Cas.litmus"))
        self.assertEqual(("-:1:1: LOCK CMPXCHG makes 4 tests", 1), (err[:33], status))

    def test_faults_of_to_herd(self) -> None:
        """A text that is no test, and a name that herd takes for a register, are reported with their place."""
        printed = run(["to_herd.py"], "SRC A\n{}\n P1 ;\n")
        self.assertEqual(("", "-:3:2: found 'P1', expected 'P0'\n", 1), printed)
        _, err, status = run(["to_herd.py"], "X86 A\n{}\n P0 ;\n MOV [rax],1 ;\nexists (rax=1)\n")
        self.assertEqual(("-:1:1: the location 'rax' has a name", 1), (err[:36], status))


class Files(cases.Case):
    """Files that tests are written into, and what tools/run_all.py says of tests in herd's form."""

    def write_file(self, folder: str, name: str, text: str) -> str:
        """Writes a file into a folder, and returns its path."""
        path = os.path.join(folder, name)
        with open(path, "w", encoding="utf-8") as file:
            file.write(text)
        return path

    def test_one_name(self) -> None:
        """If two tests have one name the second is refused, both inputs are named, and the first is not overwritten. The same text again is allowed."""
        with tempfile.TemporaryDirectory(prefix="lw-herd-") as folder:
            into = os.path.join(folder, "into")
            os.mkdir(into)
            first = self.write_file(folder, "first", make_test("mov [x],1", language="X86"))
            second = self.write_file(folder, "second", make_test("mov [x],2", language="X86"))
            out, err, status = run(["from_herd.py", "--into", into, first, second])
            path = os.path.join(into, "Cells.litmus")
            expected = f"{second}:1:5: 'Cells' of {second} and a test of {first} have one file name, {path}: "
            self.assertEqual((expected, "", 1), (err[: len(expected)], out, status))
            self.assertIn("MOV [x],$1", read(path))
            self.assertEqual(("", "", 0), run(["from_herd.py", "--into", into, first]))
            _, err, status = run(["from_herd.py", "--into", into, second])
            self.assertEqual((f"{second}:1:5: {path} has another text already", 1), (err.partition(", and is not overwritten")[0], status))
            self.assertIn("MOV [x],$1", read(path))

    def test_run_all(self) -> None:
        """run_all.py converts tests in herd's form, and says by which tool; one that is refused says why as a test of both forms."""
        for name, expected in (("SB-att", "from_herd.py, X86_64: 1 test"), ("MP+xor", "from_herd.py, X86: 1 test")):
            out, _, status = run(["run_all.py", "--as", "csv", f"tools/herd/tests/{name}.litmus"])
            self.assertEqual((True, 0), (out.rstrip("\n").endswith(expected + '"'), status))
        _, err, status = run(["run_all.py", "tools/herd/tests/Less.litmus"])
        self.assertEqual((True, 1), ("; in herd's form: 'JL' is not converted: it reads another flag" in err, status))


LOG = """Test SB-addresses Allowed
Histogram (4 states)
499   *>0:r8=0; 1:r9=0;
12    :>0:r8=0; 1:r9=1;
489   :>0:r8=0x1; 1:r9=0;
1     :>0:r8=1; 1:r9=1;
Ok
Test MP+filter Required
States 1
1:EAX=1; 1:EBX=1; x=1; y=1;
Ok
Test Cas Allowed
States 2
x=1;
x=2;
Ok
Test Reserved Required
States 1
if=1; 0:EAX=1; 0:EBX=2;
Ok
Test Spin Forbidden
States 1
1:rbx=1;
Ok
"""


class Logs(cases.Case):
    """Comparisons of converted tests with logs of the original ones."""

    NAMES = ("SB-addresses", "MP+filter", "Cas", "Spin")

    def compare_with_log(self, option: str, log: str, names: Sequence[str] = NAMES, left_out: Sequence[str] = ()) -> tuple[list[str], int]:
        """Returns the lines of run_all.py on converted tests, and its status; some of the files are left out."""
        with tempfile.TemporaryDirectory(prefix="lw-herd-") as folder:
            files = [f"tools/herd/tests/{name}.litmus" for name in names]
            self.assertEqual(0, run(["from_herd.py", "--tries", "2", "--into", folder, *files])[2])
            for name in left_out:
                os.remove(os.path.join(folder, f"{name}.litmus"))
            path = os.path.join(folder, "log")
            with open(path, "w", encoding="utf-8") as file:
                file.write(log)
            _, err, status = run(["run_all.py", folder, option, path])
            return [line.replace(path, "LOG") for line in err.splitlines() if not line.startswith("run_all:")], status

    def make_log(self, *names: str) -> str:
        """Returns the log of these tests."""
        parts = re.split(r"(?m)^(?=Test )", LOG)
        return "".join(part for part in parts if part.split(" ")[1:2] and part.split(" ")[1] in names)

    def test_original_names(self) -> None:
        """Renamed registers, filters, marks and guesses are those of the original: nothing differs."""
        self.assertEqual((["4 tests against 4 of LOG: 0 differ"], 0), self.compare_with_log("--against", self.make_log(*self.NAMES)))

    def test_renamed_location(self) -> None:
        """A location with another name in lw is compared by its own."""
        log = "Test Names Allowed\nStates 1\n0:r15=1; if=1;\nOk\n"
        with tempfile.TemporaryDirectory(prefix="lw-herd-") as folder:
            path, text = os.path.join(folder, "log"), make_test("movl $1,(if)", "movl (if),%r15d", condition="exists (0:r15=1 /\\ if=1)")
            with open(path, "w", encoding="utf-8") as file:
                file.write(log)
            with open(os.path.join(folder, "Names.litmus"), "w", encoding="utf-8") as file:
                file.write(run(["from_herd.py"], text.replace("Cells", "Names"))[0])
            self.assertEqual(0, run(["run_all.py", folder, "--against", path])[2])

    def test_filter_of_hidden_names(self) -> None:
        """A log may lack the names that only the filter has, and no others."""
        text = read("tools/herd/tests/MP+filter.litmus").replace("locations [x; y;]\n", "")
        with tempfile.TemporaryDirectory(prefix="lw-herd-") as folder:
            path = os.path.join(folder, "log")
            with open(os.path.join(folder, "A.litmus"), "w", encoding="utf-8") as file:
                file.write(run(["from_herd.py"], text)[0])
            for state, status in (("1:EAX=1; 1:EBX=1;", 0), ("1:EBX=1;", 0), ("1:EAX=1;", 1), ("1:EBX=0;", 1)):
                with open(path, "w", encoding="utf-8") as file:
                    file.write(f"Test MP+filter Required\nStates 1\n{state}\nOk\n")
                self.assertEqual(status, run(["run_all.py", folder, "--against", path])[2])

    def test_differences(self) -> None:
        """A difference is reported in the original's names."""
        lines, status = self.compare_with_log("--against", self.make_log("SB-addresses").replace("1:r9=0", "1:r9=7", 1), ("SB-addresses",))
        expected = ["SB-addresses: missing 1, too much 1", "  missing: 0:R8=0; 1:R9=7;", "  too much: 0:R8=0; 1:R9=0;"]
        self.assertEqual(([*expected, "1 tests against 1 of LOG: 1 differ"], 1), (lines, status))

    def test_missing_guesses(self) -> None:
        """A test some of whose guesses have no file is not compared."""
        lines, status = self.compare_with_log("--against", self.make_log("Cas"), ("Cas",), ("Cas+FS",))
        self.assertTrue(lines[0].startswith("Cas: 1 of the tests that stand for guesses of its LOCK CMPXCHG are missing"))
        self.assertEqual(1, status)

    def test_bounded_loops(self) -> None:
        """A state that needs more tries than are written down is no contradiction; the test is not compared."""
        log = self.make_log("Spin").replace("1:rbx=1", "1:rbx=0")
        for option in ("--against", "--machine-log"):
            lines, status = self.compare_with_log(option, log, ("Spin",))
            self.assertTrue(lines[0].startswith("Spin: only runs that go through each loop at most 2 times are listed"))
            self.assertEqual(1, status)

    def test_machine_log(self) -> None:
        """A machine that does not show all states is no difference; one that shows a further state has a status of its own."""
        some = self.make_log("SB-addresses").replace("(4 states)", "(1 states)")
        lines, status = self.compare_with_log("--machine-log", some, ("SB-addresses", "MP+filter"))
        summary = "1 of 2 tests are in the machine's log LOG: {} showed states that are not listed, {} did not show all, 0 are not compared"
        self.assertEqual(([summary.format(0, 1)], 0), (lines, status))
        lines, status = self.compare_with_log("--machine-log", some.replace("1:r9=0", "1:r9=2"), ("SB-addresses", "MP+filter"))
        expected = ["SB-addresses: 1 states were seen that are not listed, 4 are listed and were not seen"]
        expected.append("  seen and not listed: 0:R8=0; 1:R9=2;")
        self.assertEqual(([*expected, summary.format(1, 1)], 3), (lines, status))

    def test_large_words(self) -> None:
        """A word of more than 32 bits is not the word of its lower half."""
        log = self.make_log("SB-addresses").replace("1:r9=0", "1:r9=0x100000000", 1)
        self.assertEqual(3, self.compare_with_log("--machine-log", log, ("SB-addresses",))[1])

    def test_earlier_run(self) -> None:
        """The log of an earlier run has converted tests by their own names, and nothing differs from it; a change of it does."""
        with tempfile.TemporaryDirectory(prefix="lw-herd-") as folder:
            files = [f"tools/herd/tests/{name}.litmus" for name in (*self.NAMES, "Reserved")]
            self.assertEqual(0, run(["from_herd.py", "--tries", "2", "--into", folder, *files])[2])
            path, log = os.path.join(folder, "log"), run(["run_all.py", "--as", "log", folder])[0]
            for text, status in ((log, 0), (log.replace("0:EDI=1; 1:EDI=1;", "0:EDI=1; 1:EDI=2;"), 1)):
                with open(path, "w", encoding="utf-8") as file:
                    file.write(text)
                self.assertEqual(status, run(["run_all.py", folder, "--against", path])[2])

    def test_changed_comment(self) -> None:
        """A converted test whose comment names what the test does not have is compared as it is."""
        with tempfile.TemporaryDirectory(prefix="lw-herd-") as folder:
            text = run(["from_herd.py", "tools/herd/tests/MP+filter.litmus"])[0].replace("filter is 1:EAX=1", "filter is 3:EAX=1")
            path = os.path.join(folder, "log")
            with open(os.path.join(folder, "A.litmus"), "w", encoding="utf-8") as file:
                file.write(text)
            with open(path, "w", encoding="utf-8") as file:
                file.write(self.make_log("MP+filter"))
            _, err, status = run(["run_all.py", folder, "--against", path])
            self.assertEqual((True, 1), ("MP+filter: missing 0, too much 2" in err, status))

    def test_two_files(self) -> None:
        """Two files with tests of one name and different states are not compared."""
        with tempfile.TemporaryDirectory(prefix="lw-herd-") as folder:
            for number in (1, 2):
                with open(os.path.join(folder, f"{number}.litmus"), "w", encoding="utf-8") as file:
                    file.write(make_test(f"MOV [x],${number}", language="X86"))
            path = os.path.join(folder, "log")
            with open(path, "w", encoding="utf-8") as file:
                file.write("Test Cells Allowed\nStates 1\nx=1;\nOk\n")
            for option in ("--against", "--machine-log"):
                _, err, status = run(["run_all.py", folder, option, path])
                self.assertEqual((True, 1), ("Cells: two files have a test of this name, with different states" in err, status))

    def test_cut_off(self) -> None:
        """A log that is cut off has the states that it has, and the next test its own."""
        states = logs.parse_states(["Test A Allowed", "Histogram (3 states)", "1 :>x=1;", "Test B Allowed", "States 1", "y=2;", "Ok"])
        self.assertEqual({"A": {frozenset({"x=1"})}, "B": {frozenset({"y=2"})}}, states)
        self.assertEqual({"A": {frozenset()}}, logs.parse_states(["Test A Allowed", "States 1", "", "Ok"]))

    def test_nothing_compared(self) -> None:
        """A log without any of the tests is no agreement."""
        self.assertEqual(1, self.compare_with_log("--machine-log", "Test Other Allowed\nStates 0\nNo\n", ("SB-addresses",))[1])
        self.assertEqual(2, run(["run_all.py", "--machine-log"])[2])


if __name__ == "__main__":
    sys.exit(cases.main())
