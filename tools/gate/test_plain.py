"""Tests how tools/plain.py and similar tools read files, and how they report faults.

    python3 tools gate.test_plain, or in tools/ python3 -m unittest gate.test_plain

- Each cause for which tools/plain.py takes a text for no test, with its line FILE:LINE:COLUMN.
- plain.py, by each of its commands, fences.py, replay_state.py and picture.py: for a file by its name, by its name with line ends of
  Windows, and as standard input, they print the same; and how they report a missing file, a fault and other words.
- What they print is UTF-8 with line ends of one byte, whatever the console has. If standard input is a terminal, they say that they read it.

Nothing here needs the program, or more than Python 3.8, on any system; of picture.py, which needs the program, only refusals before
that are tested. tools/check_documents.py calls all this (tools/gate/cases.py).
"""
from __future__ import annotations

import errno
import io
import os
import re
import subprocess
import sys
import tempfile
from collections.abc import Callable, Iterator
from unittest import mock

import fences
import given
import plain
import replay_state
from gate import cases
from gate.examples import TOOLS
from shared import answers

TEST = "SRC SB\n(* é *)\n{}\n P0 | P1 ;\n x := 1 | y := 1 ;\n r0 := y | r0 := x ;\nexists (0:r0=0 /\\ 1:r0=0)\n"
FENCED = """X86 F
{}
 P0         | P1         ;
 MOV [x],$1 | MOV [y],$1 ;
 MFENCE     | MFENCE     ;
 MOV EAX,[y] | MOV EAX,[x] ;
exists (0:EAX=0 /\\ 1:EAX=0)
"""
REPLAY = "Test A\nSteps 1\nEnd NotFinal\nP0 at 1 r0=7 r1=0 r2=0 r3=0 r4=0 r5=0\nMemory x=1\n"
# The commands that are tested: the arguments, and a text that they accept.
COMMANDS = (
    (["plain.py", "states"], TEST),
    (["plain.py", "schedules"], TEST),
    (["plain.py", "compile"], TEST),
    (["plain.py", "replay", "P0 P0 P1 P1"], TEST),
    (["plain.py", "replay", "P0 P0 P1 D0 E0:x", "--protocol", "moesi"], FENCED),
    (["plain.py", "words"], TEST),
    (["plain.py", "orders"], TEST),
    (["fences.py"], FENCED),
    (["fences.py", "--everything"], FENCED),
    (["replay_state.py"], REPLAY),
)
# Texts that they refuse, whatever the program says: the arguments, a text, and the message.
REFUSING = (
    (["plain.py", "orders"], "SRC A\n{}\n P1 ;\n", "3:2: found 'P1', expected 'P0'"),
    (["plain.py", "replay", "Q"], "SRC A\n{}\n P1 ;\n", "3:2: found 'P1', expected 'P0'"),
    (["fences.py"], "SRC é\n", "1:5: expected the name of the test, 1 to 128 printing characters of ASCII"),
    (["replay_state.py"], "Test A\nStops 1\n", "2:1: a replay prints no such line here"),
    (["picture.py", "P0", "--strip"], b"SRC A\n\xff", "2:1: the text is not UTF-8"),
)
# Arguments that are no command. A name of a file does not start with `-`.
NO_COMMANDS = (
    ["plain.py"],
    ["plain.py", "state", "FILE"],
    ["plain.py", "states", "FILE", "FILE"],
    ["plain.py", "states", "--protocol"],
    ["plain.py", "replay"],
    ["plain.py", "replay", "P0", "--protocol", "msi"],
    ["plain.py", "replay", "P0", "--protocol", "mesi", "FILE", "FILE"],
    ["fences.py", "--all"],
    ["fences.py", "--every"],
    ["fences.py", "FILE", "FILE"],
    ["fences.py", "--tries", "-1"],
    ["fences.py", "--order", "herd"],
    ["graph.py"],
    ["graph.py", "--text"],
    ["graph.py", "P0", "FILE", "FILE"],
    ["graph.py", "--why-not"],
    ["graph.py", "--why-not", "all", "FILE", "FILE"],
    ["graph.py", "--text", "--why-not", "all"],
    ["graph.py", "--documents", "P0"],
    ["picture.py"],
    ["picture.py", "P0", "FILE", "FILE"],
    ["picture.py", "P0", "--protocol", "msi"],
    ["picture.py", "--documents", "P0"],
    ["replay_state.py", "FILE", "FILE"],
    ["beyond.py", "--max-states", "0"],
    ["beyond.py", "--max", "10"],
    ["check_up.py"],
    ["check_up.py", "no_crate"],
    ["check_up.py", "lw_base", "--jobs", "none"],
    ["build_wasm.py", "FOLDER", "--after-rt-ci"],
    ["make_site.py"],
    ["make_site.py", "FOLDER", "FOLDER"],
    ["make_site.py", "FOLDER", "--module"],
    ["make_lab.py"],
    ["make_slides.py", "--x"],
    ["make_quiz.py"],
    ["make_wheel.py"],
    ["make_deb.py", "FOLDER", "FOLDER"],
    ["pack.py", "--help-me"],
    ["random_tests.py", "many"],
    ["check_documents.py", "--slow"],
)
# Texts that are no tests, and the message.
TEXTS = (
    ("", "1:1: found the end of the text, expected 'SRC' or 'X86'"),
    ("(* a comment\nSRC A\n", "3:1: the comment that begins at 1:1 is left open"),
    ("(* one (* two *)\n\nSRC A", "3:6: the comment that begins at 1:1 is left open"),
    ("X86_64 A\n", "1:1: found 'X86_64', expected 'SRC' or 'X86'"),
    ("SRC", "1:4: found the end of the text, expected a blank"),
    ("SRC{} A", "1:4: found '{', expected a blank"),
    ("SRC ", "1:5: expected the name of the test, 1 to 128 printing characters of ASCII"),
    ("SRC Aé\n{}\n", "1:5: expected the name of the test, 1 to 128 printing characters of ASCII"),
    ("SRC A\n", "2:1: found the end of the text, expected the initial block"),
    ('SRC A\n"a text\n{}\n', "4:1: the quoted text that begins at 2:1 is left open"),
    ("SRC A\n// a test\n{}\n", "2:1: found '/', expected the initial block"),
    ("SRC A\n P0 ;\n x := 1 ;\nexists (true)\n", "2:2: found 'P0', expected the initial block"),
    ('SRC A\nKey=(* "é {\n(* é *) é{}\n', "3:9: found 'é', expected the initial block"),
    ("SRC A\n{ x=-1; }\n", "2:5: '-' is no token"),
    ("SRC A\n{}\n P0 ;\n x := 1 ; # a store\nexists (true)\n", "4:11: '#' is no token"),
    ("SRC A\n{}\n P0 ;\n x := 1 ;\nexists (x=1 && x=2)\n", "5:13: '&' is no token"),
    ("SRC A\n{}\n P0 ;\n x := 1 ; \a\nexists (true)\n", "4:11: '\\x07' is no token"),
    ("SRC A\n{ x=0", "2:6: found the end of the text, expected ';'"),
    ("SRC A\n{ x=0;", "2:7: found the end of the text, expected a location"),
    ("SRC A\n{ x=0 y=0 }\n", "2:7: found 'y', expected ';'"),
    ("SRC A\n{ x=y }\n", "2:5: found 'y', expected a number"),
    ("SRC A\n{ x=4294967296 }\n", "2:5: the number is larger than 4294967295"),
    ("SRC A\n{ 7=0 }\n", "2:4: found '=', expected ':'"),
    ("SRC A\n{ 0:EAX=1 }\n", "2:5: 'EAX' is no register of a source test"),
    ("X86 A\n{ 0:r0=1 }\n", "2:5: 'r0' is no register of an x86 test"),
    ("SRC A\n{ exists=1 }\n", "2:3: 'exists' is a reserved name, and no location"),
    ("SRC A\n{ [x=1 }\n", "2:5: found '=', expected ']'"),
    ("SRC A\n{ =1 }\n", "2:3: found '=', expected a location"),
    ("SRC A\n{ a_name_that_is_longer_than_32_bytes=1 }\n", "2:3: the name has more than 32 letters"),
    ("SRC A\n{ a=0;b=0;c=0;d=0;e=0;f=0;g=0;h=0;\n i=0 }\n", "3:2: there are more than 8 locations"),
    ("SRC A\n{ 1:r0=1 }\n P0 ;\nexists (true)\n", "2:3: there is no thread 1"),
    ("SRC A\n{}\n P1 ;\n", "3:2: found 'P1', expected 'P0'"),
    ("SRC A\n{}\n P0 | P2 ;\n", "3:7: found 'P2', expected 'P1'"),
    ("SRC A\n{}\n P0 P1 ;\n", "3:5: found 'P1', expected ';'"),
    ("SRC A\n{}\n P0|P1|P2|P3|P4;\n", "3:14: there are more than 4 threads"),
    ("SRC A\n{}\n P0 ;\n x := 1\nexists (true)\n", "6:1: found the end of the text, expected '|' or ';'"),
    ("SRC A\n{}\n P0 | P1 ;\n x := 1 ;\nexists (true)\n", "4:9: the row has fewer cells than there are threads"),
    ("SRC A\n{}\n P0 ;\n x := 1 | ;\nexists (true)\n", "4:9: the row has more cells than there are threads"),
    ("SRC A\n{}\n P0 ;\nlocations [x, y]\nexists (true)\n", "4:13: found ',', expected ';'"),
    ("SRC A\n{}\n P0 ;\nlocations x\nexists (true)\n", "4:11: found 'x', expected '['"),
    ("SRC A\n{}\n P0 ;\nlocations [2:r0]\nexists (true)\n", "4:12: there is no thread 2"),
    ("SRC A\n{}\n P0 ;\nfilter (x=1)\nexists (true)\n", "4:1: found 'filter', expected the condition"),
    ("SRC A\n{}\n P0 ;\n~forall (true)\n", "4:2: found 'forall', expected 'exists'"),
    ("SRC A\n{}\n P0 ;\nexists\n", "5:1: found the end of the text, expected a location"),
    ("SRC A\n{}\n P0 ;\nexists (x==1)\n", "4:11: found '=', expected a number"),
    ("SRC A\n{}\n P0 ;\nexists (x=1\n", "5:1: found the end of the text, expected ')'"),
    ("SRC A\n{}\n P0 ;\nexists (0:x=1)\n", "4:11: 'x' is no register of a source test"),
    ("SRC A\n{}\n P0 ;\nexists (r0=1)\n", "4:9: 'r0' is a reserved name, and no location"),
    ("SRC A\n{}\n P0 ;\nexists (3:r0=1)\n", "4:9: there is no thread 3"),
    ("SRC A\n{}\n P0 ;\nexists (true) x\n", "4:15: 'x' comes after the condition"),
    ("SRC A\n{}\n P0 ;\nexists (x=1 /\\ /\\ x=1)\n", "4:16: found '/\\', expected a location"),
    ("SRC A\n{a=0;b=0;c=0;d=0;e=0;f=0;g=0}\n P0 ;\n h := 1 ;\n r0 := i ;\nexists (true)\n", "5:8: there are more than 8 locations"),
    ("SRC A\n{}\n P0 | P1 ;\n x := 1 | goto L ;\n L: | ;\nexists (true)\n", "4:16: the thread has no label 'L'"),
)
# The first cell of a text that is no test, and the message.
CELLS = (
    ("X86", "MOV [x],10h", "4:10: '10h' is no token"),
    ("SRC", "r0 := 0x", "4:8: '0x' is no token"),
    ("SRC", "x := é", "4:7: 'é' is no token"),
    ("SRC", "x = 1", "4:4: found '=', expected ':='"),
    ("SRC", "x :=", "4:7: found the end of the cell, expected a number or a register"),
    ("SRC", "x := y", "4:7: 'y' is no register of a source test"),
    ("SRC", "r9 := 1", "4:2: 'r9' is a reserved name, and no location"),
    ("SRC", "r0 := x 1", "4:10: '1' comes after a statement"),
    ("SRC", "1 := x", "4:2: found '1', expected a location"),
    ("SRC", "r0 := swap x 1", "4:15: found '1', expected a register"),
    ("SRC", "r0 := r0 + x", "4:13: 'x' is no register of a source test"),
    ("SRC", "if r0 < 1 goto L", "4:8: '<' is no token"),
    ("SRC", "if r0 := 1 goto L", "4:8: found ':=', expected '=' or '!='"),
    ("SRC", "if r0", "4:8: found the end of the cell, expected '=' or '!='"),
    ("SRC", "if r0 = 1 L", "4:12: found 'L', expected 'goto'"),
    ("SRC", "goto", "4:7: found the end of the cell, expected a label"),
    ("SRC", "r0 := exists", "4:8: 'exists' is a reserved name, and no location"),
    ("X86", "INC EAX", "4:2: 'INC' is no instruction that is read"),
    ("X86", "XADD [x],EAX", "4:2: 'XADD' is no instruction that is read without LOCK"),
    ("X86", "LOCK INC [x]", "4:7: 'INC' is no instruction that is read after LOCK"),
    ("X86", "LOCK", "4:7: found the end of the cell, expected 'XCHG' or 'XADD'"),
    ("X86", "MOV y,1", "4:6: 'y' is no register of an x86 test"),
    ("X86", "MOV EAX,y", "4:10: 'y' is no register of an x86 test"),
    ("X86", "MOV [x],[y]", "4:10: found '[', expected a number or a register"),
    ("X86", "MOV EAX", "4:10: found the end of the cell, expected ','"),
    ("X86", "1", "4:2: found '1', expected an instruction"),
    ("X86", "MOV EAX,$x", "4:11: found 'x', expected a number"),
    ("X86", "JE 1", "4:5: found '1', expected a label"),
    ("SRC", "L: x := 1 ;\n L: x := 2", "5:2: the label 'L' is defined twice in its thread"),
    ("SRC", "exists: x := 1", "4:8: found ':', expected a location"),
    ("SRC", "r1: x := 1", "4:2: 'r1' is a reserved name, and no label"),
    ("SRC", "1: x := 1", "4:2: found '1', expected a label"),
    ("SRC", "goto L", "4:7: the thread has no label 'L'"),
    ("SRC", "L: x := 1 ;\n if r0 = 1 goto L", "5:17: the jump to 'L' does not go forward"),
    ("X86", "L: JMP L", "4:9: the jump to 'L' does not go forward"),
)
# Cells of which a test has more than it may have, their number, and the message.
MANY = (
    ("SRC", "", 65, "68:3: there are more than 64 rows"),
    ("SRC", "x := 1", 17, "20:2: the thread has more than 16 statements"),
    ("X86", "MFENCE", 33, "36:2: the thread has more than 32 instructions"),
)
# Bytes that are no test.
BYTES = (
    (b"SRC A\n(* \xc3\xa9 \xff *)\n", "2:6: the text is not UTF-8"),
    (b"SRC A\n{}\xc3", "2:3: the text is not UTF-8"),
    (b"SRC A\n{}\n(* " + b"\xc3\xa9" * 32770, "3:32766: the text has more than 65536 bytes"),
    (b"SRC " + b"a" * 129, "1:5: expected the name of the test, 1 to 128 printing characters of ASCII"),
    (b"SRC A\n{}\n P0 ;\nexists (" + b"~" * 256 + b"\ntrue)", "5:1: the condition has more than 256 nodes"),
    (b"SRC A\n{}\n P0 ;\n r0 := " + b"9" * 9999 + b" ;\n exists (true)", "4:8: the number is larger than 4294967295"),
)
# Texts that no replay prints.
REPLAYS = (
    ("Test A\nStops 1\n", "2:1: a replay prints no such line here"),
    ("Test A\nSteps one\n", "2:1: a replay prints no such line here"),
    ("Test A\r\nP0 buffer x=1\r\n", "2:1: a replay prints no such line here"),
    ("Test A\nSteps 1\nEnd Never\n", "3:1: a replay prints no such line here"),
    ("Test A\nSteps 1\n", "3:1: the text ends, and a replay prints more"),
    ("Test A\nSteps 1", "2:1: the last line has no end"),
)


# Texts.


def make_fault_line(text: bytes, read: Callable[[str], object]) -> str:
    """Returns the line that says what is wrong in a text."""
    try:
        read(given.decode(text))
    except given.Fault as fault:
        return given.format_fault("T", text, fault)
    return "it is read"


def make_test(language: str, cells: list[str]) -> bytes:
    """Returns the text of a test of one thread, with a cell in each row."""
    rows = "".join(f" {cell} ;\n" for cell in cells)
    return f"{language} A\n{{}}\n P0 ;\n{rows}exists (true)\n".encode()


def list_no_tests() -> Iterator[tuple[bytes, str]]:
    """Yields all texts that are no tests: bytes, and the message."""
    yield from ((text.encode(), message) for text, message in TEXTS)
    yield from ((make_test(language, [cell]), message) for language, cell, message in CELLS)
    yield from ((make_test(language, [cell] * number), message) for language, cell, number, message in MANY)
    yield from BYTES


class Faults(cases.Case):
    """The faults of texts that are no test, or no replay."""

    def test_causes(self) -> None:
        """Each cause for which a text is no test is reported with its place."""
        for text, message in list_no_tests():
            with self.subTest(text=text[:200]):
                self.assertEqual(f"T:{message}", make_fault_line(text, plain.read_test))

    def test_line_ends(self) -> None:
        """The place is the same with line ends of Windows."""
        for text, message in list_no_tests():
            lines = text.replace(b"\n", b"\r\n")
            if len(text) < 1000 and b'"' not in text:
                with self.subTest(text=lines):
                    self.assertEqual(f"T:{message}", make_fault_line(lines, plain.read_test))

    def test_replays(self) -> None:
        """A text that no replay prints is reported with its place."""
        for text, message in REPLAYS:
            with self.subTest(text=text):
                self.assertEqual(f"T:{message}", make_fault_line(text.encode(), replay_state.parse_replay_state))


class Numbers(cases.Case):
    """Numbers of many digits."""

    def test_zeros(self) -> None:
        """A number is what its last digits say, however many zeros are before them."""
        for number in ("0" * 9999 + "7", "0x" + "0" * 9999 + "7", "0", "00"):
            with self.subTest(number=number[:9]):
                test = plain.read_test(make_test("SRC", [f"r0 := {number}"]).decode())
                self.assertEqual(plain.Number(7 if "7" in number else 0), test.threads[0][0].value)


# Files.


def run_tool(arguments: list[str], text: bytes = b"") -> tuple[bytes, bytes, int]:
    """Returns the output of a tool on both streams, and its exit status, if the console has another encoding."""
    ran = subprocess.run(
        [sys.executable, os.path.join(TOOLS, arguments[0]), *arguments[1:]],
        input=text,
        stdout=subprocess.PIPE,
        stderr=subprocess.PIPE,
        env=dict(os.environ, PYTHONIOENCODING="ascii"),
        check=False,
    )
    return ran.stdout, ran.stderr, ran.returncode


def write_file(folder: str, name: str, text: bytes) -> str:
    """Writes a new file, and returns its path."""
    path = os.path.join(folder, name)
    with open(path, "wb") as file:
        file.write(text)
    return path


def format_arguments(words: list[str]) -> str:
    """Returns arguments in print."""
    return " ".join(f'"{word}"' if " " in word else word for word in words)


def make_refused_output(text: str) -> tuple[bytes, bytes, int]:
    """Returns the output of a tool that reports one line, and has no answer."""
    return b"", f"{text}\n".encode(), 1


class Terminals(cases.Case):
    """Standard input that is a terminal."""

    def test_notice(self) -> None:
        """A line on standard error says that a terminal is read, and what ends that; of a pipe none does."""
        for is_terminal, notice in ((True, f"reading from the terminal, up to {given.END_KEY}; a file is given by its name or after <\n"), (False, "")):
            stream = mock.Mock(buffer=io.BytesIO(b"SRC A"), isatty=lambda is_terminal=is_terminal: is_terminal)
            with self.subTest(is_terminal=is_terminal), mock.patch.object(sys, "stdin", stream), mock.patch.object(sys, "stderr", io.StringIO()) as shown:
                self.assertEqual((b"SRC A", notice), (given.read_bytes("-"), shown.getvalue()))


class InRoom(cases.Case):
    """Tests that write files, in a folder of their own."""

    def setUp(self) -> None:
        """Makes the folder."""
        room = tempfile.TemporaryDirectory(prefix="lw-plain-")
        self.addCleanup(room.cleanup)
        self.room = room.name


class Files(InRoom):
    """A tool answers the same, however it is given its text."""

    def test_answers(self) -> None:
        """Each command answers, with line ends of one byte, and with nothing on standard error."""
        for words, text in COMMANDS:
            with self.subTest(format_arguments(words)):
                out, err, _ = run_tool(words, text.encode())
                self.assertEqual((True, b"", False), (len(out) > 20, err, b"\r" in out))

    def test_file_by_its_name(self) -> None:
        """A file by its name is read as standard input is, whatever its line ends are."""
        for words, text in COMMANDS:
            printed = run_tool(words, text.encode())
            for name, lines in (("é a.litmus", text.encode()), ("b", text.replace("\n", "\r\n").encode())):
                with self.subTest(format_arguments(words), lines=lines):
                    self.assertEqual(printed, run_tool([*words, write_file(self.room, name, lines)]))

    def test_hyphen(self) -> None:
        """A hyphen is standard input."""
        self.assertEqual(run_tool(["plain.py", "states"], TEST.encode()), run_tool(["plain.py", "states", "-"], TEST.encode()))


    def test_options(self) -> None:
        """Options may be before or after the other words."""
        for words, others in ((["plain.py", "replay", "P0"], ["--protocol", "moesi"]), (["fences.py"], ["--everything"]), (["graph.py", "P0"], ["--text"])):
            path = write_file(self.room, "c", TEST.encode())
            with self.subTest(format_arguments(words)):
                printed = run_tool([*words, *others, path])
                self.assertEqual([printed] * 2, [run_tool([*words, path, *others]), run_tool([words[0], *others, *words[1:], path])])


class Refusals(InRoom):
    """The line of a tool that has no answer, and the status 1."""

    def test_faults(self) -> None:
        """A fault is reported by the file's name, or a hyphen for standard input, its place and its cause."""
        for words, text, message in REFUSING:
            text = text if isinstance(text, bytes) else str(text).encode()
            path = write_file(self.room, "c.litmus", text)
            with self.subTest(format_arguments(words), of="a file"):
                self.assertEqual(make_refused_output(f"{path}:{message}"), run_tool([*words, path]))
            with self.subTest(format_arguments(words), of="standard input"):
                self.assertEqual(make_refused_output(f"-:{message}"), run_tool(words, text))

    def test_missing_file(self) -> None:
        """A missing file is reported in the system's words."""
        missing = os.path.join(self.room, "é")
        for words, _, _ in REFUSING:
            with self.subTest(format_arguments(words)):
                self.assertEqual(make_refused_output(f"{words[0][:-3]}: {missing}: {os.strerror(errno.ENOENT)}"), run_tool([*words, missing]))

    def test_nesting(self) -> None:
        """A condition that is nested too deeply for Python is refused in words."""
        deep = "SRC A\n{}\n P0 ;\nexists " + "(" * 20000 + "true" + ")" * 20000
        output = make_refused_output("plain: -: the condition is nested too deeply for this tool")
        self.assertEqual(output, run_tool(["plain.py", "orders"], deep.encode()))

    def test_schedules(self) -> None:
        """A faulty schedule is reported as by lw."""
        for schedule, message in (("P0 Q", "1 Word at 3"), ("P9", "2 Cpu at 0"), ("P0 E0:z", "3 Location at 3")):
            with self.subTest(schedule):
                path = write_file(self.room, "d", TEST.encode())
                self.assertEqual(make_refused_output(f"lw: schedule {message}"), run_tool(["plain.py", "replay", schedule, path]))

    def test_no_command(self) -> None:
        """Words that are no command have the lines of use and a cause shown, and the status 2."""
        for words in NO_COMMANDS:
            with self.subTest(format_arguments(words)):
                out, err, status = run_tool(words)
                self.assertEqual((b"", 2), (out, status))
                pattern = rf"usage: .*python3 tools/{words[0]}.*\n{words[0][: -len('.py')]}: .+\n"
                self.assertTrue(re.fullmatch(pattern, err.decode(), re.S))


class WithoutProgram(InRoom):
    """A system on which the program does not start, as a program of Linux on Windows."""

    def test_fences(self) -> None:
        """tools/fences.py does without it."""
        broken = write_file(self.room, "lw", b"\x7fELF")
        os.chmod(broken, 0o755)
        for path in (broken, os.path.join(self.room, "nothing"), self.room):
            with self.subTest(path), mock.patch.multiple(answers, PROGRAM=path, BEYOND=path):
                fences.lists.clear()
                states = fences.list_states(plain.read_test(FENCED))
                self.assertEqual((3, {answers.Maker.SEARCH}), (len(states), fences.list_makers()))


if __name__ == "__main__":
    sys.exit(cases.main())
