"""Tests that an answer of a program of other sources is marked as not proved.

    python3 tools gate.test_answers, or in tools/ python3 -m unittest gate.test_answers

A stand-in for the programs is put into a copy of these tools: first it is made from that copy's sources, and then from others. The tools run
there. The programs are not needed. tools/check_documents.py calls all this (tools/gate/cases.py).
"""
from __future__ import annotations

import os
import shutil
import subprocess
import sys
import tempfile
from collections.abc import Callable, Iterator
from unittest import mock

import beyond
import plain
from gate import cases
from gate.examples import read
from machine.subjects import make_list, make_subject
from many import conversions, rows
from search.explore import Search
from shared import answers, batch, python_lw, spawn
from shared.home import HOME

SB = "examples/SB-x86.litmus"
# A report of SB-x86 that is wrong.
WRONG = """Test SB-x86 Allowed
States 1
0:EAX=1; 1:EAX=1;
No
Positive: 0 Negative: 1
Condition exists (0:EAX=0 /\\ 1:EAX=0)
Observation SB-x86 Never 0 1
"""
LIMIT = "echo 'lw: limit 2 TooManyOrders' >&2; exit 3"
# Writes what a program is made of.
MADE_OF = """home=$1; . "$home/tools/program/program.sh"; use_program "$2"
paths=crates.txt kit=/no/kit version=none sum=$(sum_files); list_sources >"$made_of\""""
STALE, STALE_BEYOND = answers.Maker.STALE_PROGRAM.value, answers.Maker.STALE_BEYOND.value


class Tree:
    """A folder with these tools, sources, and stand-ins for the programs, which are made of these sources."""

    def __init__(self, folder: str, **programs: str) -> None:
        """Makes a repository with these programs, each a script."""
        self.room = folder
        shutil.copytree(os.path.join(HOME, "tools"), f"{folder}/tools", ignore=shutil.ignore_patterns("gate", "__pycache__"))
        self.write_file("crates.txt", "lw:\n")
        for name, script in programs.items():
            os.makedirs(f"{folder}/crates/{name}/out")
            self.write_file(f"crates/{name}/out/{name}", f"#!/bin/sh\n{script}\n", 0o755)
            subprocess.run(["sh", "-c", MADE_OF, "sh", folder, name], check=True, env={"PATH": "/usr/bin:/bin"})

    def write_file(self, name: str, text: str, mode: int = 0o644) -> None:
        """Writes a file."""
        with open(f"{self.room}/{name}", "w", encoding="utf-8") as file:
            file.write(text)
        os.chmod(f"{self.room}/{name}", mode)

    def run_tool(self, tool: str) -> list[str]:
        """Returns the lines that a tool prints on SB-x86, in this tree and without a toolchain."""
        words = [sys.executable, f"{self.room}/tools/{tool}", os.path.join(HOME, SB)]
        ran = subprocess.run(words, stdout=subprocess.PIPE, stderr=subprocess.STDOUT, env={"PATH": "/usr/bin:/bin"}, check=False)
        return ran.stdout.decode().splitlines()


class Stale(cases.Case):
    """Programs of other sources."""

    def setUp(self) -> None:
        """Makes a folder for programs."""
        room = tempfile.TemporaryDirectory(prefix="lw-stale-")
        self.addCleanup(room.cleanup)
        self.room = room.name

    def test_program(self) -> None:
        """The lists of lw are proved until the sources change."""
        tree = Tree(self.room, lw=f"cat <<'END'\n{WRONG}END")
        self.assertEqual("Put together from 1 test, listed by lw", tree.run_tool("assume.py")[-1])
        self.assertEqual("SB-x86, by its question, exists (0:EAX=0 /\\ 1:EAX=0): fences 0, states 1", tree.run_tool("fences.py")[0])
        tree.write_file("crates.txt", "lw: other\n")
        self.assertEqual(f"Put together from 1 test, listed by {STALE}, not proved", tree.run_tool("assume.py")[-1])
        head, *_, last = tree.run_tool("fences.py")
        self.assertTrue(head.endswith("fences 0, states 1 (not proved)"))
        self.assertEqual(f"Not proved: of 1 lists 1 are made by {STALE}", last)

    def test_beyond(self) -> None:
        """The lists of beyond are proved, if lw refuses the test, until the sources change."""
        tree = Tree(self.room, lw=LIMIT, beyond=f"cat <<'END'\n{WRONG}END")
        self.assertEqual("Put together from 1 test, listed by beyond", tree.run_tool("assume.py")[-1])
        tree.write_file("crates.txt", "lw: other\n")
        self.assertEqual(f"Put together from 1 test, listed by {STALE_BEYOND}, not proved", tree.run_tool("assume.py")[-1])

    def test_pack(self) -> None:
        """Without sources, the program counts as current."""
        tree = Tree(self.room, lw=f"cat <<'END'\n{WRONG}END")
        os.remove(f"{self.room}/crates.txt")
        self.assertEqual("Put together from 1 test, listed by lw", tree.run_tool("assume.py")[-1])

    def test_library(self) -> None:
        """A library beside sources is not asked, since nothing says of which it is made; in a pack it is."""
        os.makedirs(f"{self.room}/python")
        stand_in = mock.Mock(Workbench=str)
        folder = mock.patch.object(python_lw, "FOLDER", f"{self.room}/python")
        with open(f"{self.room}/python/liblw.so", "wb"), folder, mock.patch.dict(sys.modules, lw=stand_in):
            for has_sources in (True, False):
                with mock.patch.object(answers, "has_sources", lambda it=has_sources: it):
                    library = answers.load_library.__wrapped__()
                self.assertEqual(None if has_sources else f"{self.room}/python/liblw.so", library)


class Sentences(cases.Case):
    """The words of the other tools on answers of a program of other sources."""

    def setUp(self) -> None:
        """Replaces the program by one that prints a wrong report."""
        printed_by = lambda command, *_: WRONG if "states" in command else None
        program = mock.patch.multiple(answers, capture_output=printed_by, load_library=lambda: None)
        for patch in (program, mock.patch.object(spawn, "is_current", lambda *_: self.is_current)):
            self.addCleanup(patch.stop)
            patch.start()
        self.addCleanup(answers.is_current.cache_clear)

    def list_sentences(self, make_report: Callable[[], str]) -> Iterator[str]:
        """Yields what is made with a program of these sources, and with one of others."""
        for self.is_current in (True, False):
            answers.is_current.cache_clear()
            yield make_report()

    def test_on_machine(self) -> None:
        """tools/on_machine.py: whether its list is proved."""
        expected = ["lw, proved complete", f"{STALE}, not proved"]
        self.assertEqual(expected, list(self.list_sentences(lambda: make_list(make_subject(read(SB), False)).describe_maker())))

    def test_methods(self) -> None:
        """tools/run_all.py: each maker has a method, which says `not proved` if that is so."""
        for maker in answers.Maker:
            self.assertEqual(maker.is_proved, rows.NOT_PROVED not in conversions.choose_method([maker]))
        self.assertEqual([*conversions.METHODS], [*answers.Maker])

    def test_replayed(self) -> None:
        """tools/beyond.py: by which its states are replayed."""
        test = plain.read_test(read(SB))
        exploration = Search(test).explore(10**6, lambda *_: None)
        pages = lambda text, schedules: [plain.replay(test, it)[0] for it in schedules]
        with mock.patch.object(batch, "replay_all", pages):
            self.assertEqual(["lw", STALE], list(self.list_sentences(lambda: beyond.replay_all(test, read(SB), exploration))))

    def test_asked_once(self) -> None:
        """A process asks once for each program."""
        with mock.patch.object(spawn, "is_current", mock.Mock(return_value=True)) as mocked:
            answers.is_current.cache_clear()
            for _ in range(3):
                self.assertEqual(answers.Maker.PROGRAM, answers.make_answer(["states"], plain.read_test(read(SB))).by)
            self.assertEqual(1, mocked.call_count)


if __name__ == "__main__":
    sys.exit(cases.main())
