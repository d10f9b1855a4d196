"""Tests that python/lw.py checks its arguments, refuses what is no answer, and lets threads share a workbench; and what it says of stacks.

    python3 tools gate.test_python, or in tools/ python3 -m unittest gate.test_python

The calls are those of a stand-in for the library, in C, which copies its text through the memory that it is lent, slowly: two calls that
use it at the same time spoil each other's answers. So cc is needed, and the library is not. tools/gate/check_library.py compares what the
library itself answers. tools/check_documents.py calls all this (tools/gate/cases.py).
"""
from __future__ import annotations

import os
import re
import shutil
import subprocess
import sys
import tempfile
import unittest
from collections.abc import Callable
from concurrent.futures import ThreadPoolExecutor

import plain
from gate import cases
from gate.examples import examples, read
from shared import python_lw
from shared.home import HOME
from shared.matches import require_match

lw = python_lw.load_lw()
STAND_IN = r"""
#include "lw.h"
#include <string.h>
#include <unistd.h>

static void copy(struct lw_memory memory, const uint8_t *text, size_t length, uint8_t *room, size_t size, struct lw_told *told)
{
    uint8_t *kept = memory.at;
    for (size_t at = 0; at < length; at++)
        kept[at] = text[at];
    usleep(1000);
    told->status = 0;
    told->kind = length <= size ? LW_ANSWER : LW_ROOM_TOO_SMALL;
    told->length = length;
    if (length <= size)
        memcpy(room, kept, length);
}

uint32_t lw_version(void)
{
    return 307;
}

void lw_states(struct lw_memory memory, const uint8_t *text, size_t length, uint8_t *room, size_t size, struct lw_told *told)
{
    copy(memory, text, length, room, size, told);
}

void lw_schedules(struct lw_memory memory, const uint8_t *text, size_t length, uint8_t *room, size_t size, struct lw_told *told)
{
    copy(memory, text, length, room, size, told);
}

void lw_compile(struct lw_memory memory, const uint8_t *text, size_t length, uint8_t *room, size_t size, struct lw_told *told)
{
    copy(memory, text, length, room, size, told);
}

void lw_reach_states(struct lw_memory memory, const uint8_t *text, size_t length, size_t budget, uint8_t *room, size_t size,
                     struct lw_told *told)
{
    copy(memory, text, length, room, size, told);
    told->kind = budget ? told->kind : LW_FAULT;
}

void lw_reach_schedules(struct lw_memory memory, const uint8_t *text, size_t length, size_t budget, uint8_t *room, size_t size,
                        struct lw_told *told)
{
    lw_reach_states(memory, text, length, budget, room, size, told);
}

void lw_reach_marks(struct lw_memory memory, const uint8_t *text, size_t length, size_t budget, uint8_t *room, size_t size,
                    struct lw_told *told)
{
    lw_reach_states(memory, text, length, budget, room, size, told);
}

void lw_replay(struct lw_memory memory, const uint8_t *text, size_t length, const uint8_t *schedule, size_t words, uint32_t protocol,
               uint8_t *room, size_t size, struct lw_told *told)
{
    (void)text, (void)length;
    copy(memory, schedule, words, room, size, told);
    told->status = protocol;
}

void lw_film(struct lw_memory memory, const uint8_t *text, size_t length, const uint8_t *schedule, size_t words, uint32_t protocol,
             uint8_t *room, size_t size, struct lw_told *told)
{
    lw_replay(memory, text, length, schedule, words, protocol, room, size, told);
}
"""
TEXT = b"a test\0 and more"
# Arguments that are none: the exception, a part of its message, and the arguments of `run`.
REFUSED = (
    (TypeError, "a test has to be bytes, and not str", ("states", "a text")),
    (TypeError, "a test has to be bytes, and not NoneType", ("states", None)),
    (TypeError, "a test has to be bytes, and not int", ("states", 7)),
    (TypeError, "replay takes a schedule", ("replay", TEXT)),
    (TypeError, "states takes neither a schedule nor a protocol", ("states", TEXT, b"P0")),
    (TypeError, "compile takes neither a schedule nor a protocol", ("compile", TEXT, None, "moesi")),
    (TypeError, "a schedule has to be bytes or str, and not list", ("replay", TEXT, ["P0"])),
    (ValueError, "no protocol: 'msi'", ("replay", TEXT, b"P0", "msi")),
    (ValueError, "no command: 'state'", ("state", TEXT)),
    (ValueError, "surrogates not allowed", ("replay", TEXT, "P0 \udcff")),
)


# Changes of a report and of a list of schedules, each of which makes it none.
OF_REPORTS = (
    (r"^Test ", "Tests "),
    (r" (Allowed|Forbidden|Required)\n", " Perhaps\n"),
    (r"^States (\d+)", r"States 1\1"),
    (r"^States (\d+)", r"States"),
    (r"^(Ok|No)$", "Perhaps"),
    (r"^(Ok|No)\n", ""),
    (r"^Positive: ", "Positive: 1"),
    (r"^Condition ", "Conditions "),
    (r"^(Observation) \S+", r"\1 another"),
    (r"^(Observation \S+ )\w+", r"\1Mostly"),
    (r"(\d)\n\Z", r"1\1\n"),
    (r"\n\Z", ""),
    (r"\n\Z", "\nand more\n"),
)
OF_SCHEDULES = ((r"^Test ", "Tests "), (r"^States (\d+)", r"States 1\1"), (r"\n\Z", ""), (r"\n\Z", "\nand more\n"), (r"^ .*\n", ""))


class Answers(cases.Case):
    """The values that are read from answers, here those of tools/plain.py."""

    def is_refused(self, read_answer: Callable[[bytes], object], text: str) -> bool:
        """Returns whether `read_answer` refuses a text as an answer."""
        try:
            read_answer(text.encode())
        except ValueError:
            return True
        return False

    def test_reports(self) -> None:
        """A report is read as it is, and none that is changed in a place."""
        for name, text in examples():
            test = plain.read_test(text)
            report = plain.make_report(test)
            parsed = lw.report_of(report.encode())
            lines = report.splitlines()
            with self.subTest(name):
                self.assertEqual(lines[2:-4], list(map(str, parsed.states)))
                self.assertEqual(lines[-1], f"Observation {parsed.name} {parsed.observation} {parsed.positive} {parsed.negative}")
                self.assertEqual([lines[0], lines[-4]], [f"Test {parsed.name} {parsed.question}", parsed.verdict])
            for old, new in OF_REPORTS:
                changed = re.sub(old, new, report, count=1, flags=re.M)
                with self.subTest(name, old=old, new=new):
                    self.assertTrue(changed != report and self.is_refused(lw.report_of, changed))

    def test_schedules(self) -> None:
        """A list of schedules is read as it is, and none that is changed in a place."""
        for name in ("SB", "SB-x86", "MP", "IRIW-x86"):
            listed = plain.format_schedules(plain.read_test(read(f"examples/{name}.litmus")))
            lines = [line for it in lw.schedules_of(listed.encode()) for line in (str(it.state), f" {it.words}")]
            with self.subTest(name):
                self.assertEqual(listed.splitlines()[2:], lines)
            for old, new in OF_SCHEDULES:
                changed = re.sub(old, new, listed, count=1, flags=re.M)
                with self.subTest(name, old=old, new=new):
                    self.assertTrue(changed != listed and self.is_refused(lw.schedules_of, changed))


class Calls(cases.Case):
    """Calls of a stand-in for the library."""

    room: tempfile.TemporaryDirectory
    library: str

    @classmethod
    def setUpClass(cls) -> None:
        """Compiles the stand-in. Raises SkipTest without cc."""
        if not shutil.which("cc"):
            raise unittest.SkipTest("cc is missing")
        cls.room = tempfile.TemporaryDirectory(prefix="lw-")
        cls.addClassCleanup(cls.room.cleanup)
        source, cls.library = (os.path.join(cls.room.name, name) for name in ("stand_in.c", "stand_in.so"))
        with open(source, "w", encoding="utf-8") as file:
            file.write(STAND_IN)
        subprocess.run(["cc", "-shared", "-fPIC", "-I", f"{HOME}/include", source, "-o", cls.library], check=True)

    def test_version(self) -> None:
        """The version is that of the library that is loaded."""
        self.assertEqual(("3.7", "3.7"), (lw.version(self.library), lw.Workbench(self.library, memory=1 << 16).version))

    def find_refusal(self, call: Callable[..., object], *arguments: object) -> tuple[type, str]:
        """Returns the exception of a call: its type and message."""
        try:
            return type(None), repr(call(*arguments))
        except (TypeError, ValueError) as why:
            return type(why), str(why)

    def test_arguments(self) -> None:
        """Arguments that are none raise, and say what is wanted."""
        bench = lw.Workbench(self.library, memory=1 << 16)
        for kind, message, words in REFUSED:
            with self.subTest(words):
                raised, says = self.find_refusal(bench.run, *words)
                self.assertTrue(issubclass(raised, kind))
                self.assertIn(message, says)

    def test_memory(self) -> None:
        """Memory that is no number of bytes raises ValueError, and the message says what is wanted."""
        for memory in (-1, -20, 1.5, "1"):
            with self.subTest(memory):
                error = ValueError, f"memory has to be a number of bytes, and not {memory!r}"
                self.assertEqual(error, self.find_refusal(lw.Workbench, self.library, memory))

    def test_answers(self) -> None:
        """Each command gets its text, a replay its schedule and protocol, and all as much room as they need."""
        bench, long = lw.Workbench(self.library, memory=1 << 20), b"a" * (lw.LEAST_ROOM + 1)
        for command in ("states", "schedules", "compile"):
            for text in (TEXT, b"", long, bytearray(TEXT)):
                with self.subTest(command, length=len(text)):
                    self.assertEqual((0, bytes(text)), bench.run(command, text))
        for schedule, protocol, expected in ((b"P0", None, (0, b"P0")), ("P0 é", "moesi", (1, "P0 é".encode())), (b"", "mesi", (0, b""))):
            with self.subTest(schedule):
                self.assertEqual(expected, bench.run("replay", TEXT, schedule, protocol))

    def test_films(self) -> None:
        """A film gets its schedule and protocol, and is taken apart at its empty lines."""
        bench = lw.Workbench(self.library, memory=1 << 20)
        self.assertEqual([b"a\nb\n", b"c\n"], bench.film(TEXT, "a\nb\n\nc\n\n"))
        for words in ((TEXT, None), (TEXT, ["P0"]), ("a text", "P0")):
            with self.subTest(words):
                self.assertIs(TypeError, self.find_refusal(bench.film, *words)[0])
        self.assertEqual((ValueError, "no film"), self.find_refusal(bench.film, TEXT, "a\n\nb\n"))

    def test_marks(self) -> None:
        """States with marks are values, and bytes of another form are none."""
        bench = lw.Workbench(self.library, memory=1 << 20)
        pairs = [(str(it.state), it.holds) for it in bench.marks(b"+ x=1; 0:EAX=2;\n- x=2; 0:EAX=0;\n")]
        self.assertEqual([("x=1; 0:EAX=2;", True), ("x=2; 0:EAX=0;", False)], pairs)
        for faulty in (b"x=1;\n", b"+ x=1;", b"+x=1;\n", b"* x=1;\n", b"+ x\n"):
            with self.subTest(faulty):
                self.assertIs(ValueError, self.find_refusal(bench.marks, faulty)[0])

    def test_threads(self) -> None:
        """Threads that share a workbench get their own answers."""
        bench = lw.Workbench(self.library, memory=1 << 20)
        texts = [bytes([letter]) * (1000 + 997 * letter) for letter in range(64, 128)]
        with ThreadPoolExecutor(8) as pool:
            answers = list(pool.map(lambda text: bench.run("states", text)[1], texts))
        self.assertEqual([(it[:1], len(it)) for it in texts], [(it[:1], len(it)) for it in answers])
        self.assertTrue(answers == texts)


class Documents(cases.Case):
    """The words on the stack that a call takes."""

    def test_stack(self) -> None:
        """docs/LIBRARY.md, docs/TRUSTED.md and include/lw.h name the same bytes: less than what is called ample, more than what is too small."""
        texts = [read(it) for it in ("docs/LIBRARY.md", "docs/TRUSTED.md", "include/lw.h")]
        numbers = [re.findall(r"(\d+,\d+) bytes(?:,| were)\s+measured", text) for text in texts]
        self.assertEqual([numbers[0][:1]] * 3, numbers)
        bytes_of_stack = int(numbers[0][0].replace(",", ""))
        ample, too_small = map(int, require_match(re.search(r"(\d+) KiB of stack are ample for a\s+thread, and (\d+) KiB", texts[0])).groups())
        self.assertTrue(too_small << 10 < bytes_of_stack < ample << 10)


if __name__ == "__main__":
    sys.exit(cases.main())
