"""Tests that each command of tools/ answers `--help`, and ends quietly when nobody reads what it prints.

    python3 tools gate.test_commands, or in tools/ python3 -m unittest gate.test_commands

The commands are all files of tools/ that can be run, and `python3 tools MODULE`, which runs them and those of its packages. The program is
not needed. tools/check_documents.py calls all this (tools/gate/cases.py).
"""
from __future__ import annotations

import glob
import os
import re
import subprocess
import sys

from gate import cases
from gate.examples import TOOLS, read, run
from shared import start
from shared.home import HOME

HELP = ("--help", "-h")
# The first sentence of this file.
SAYS = "Tests that each command of tools/ answers `--help`, and ends quietly when nobody reads what it prints."
# Arguments for those commands that print quickly, so that something is written to each pipe.
QUICK = (
    ["assume.py", "tools/herd/tests/Mcs.litmus"],
    ["beyond.py", "examples/SB.litmus"],
    ["cycles.py", "--all", "6"],
    ["fences.py", "examples/SB.litmus"],
    ["from_herd.py", "tools/herd/tests/SB.litmus"],
    ["graph.py", "P0 P0 D0 P1 P1 D1", "examples/SB-x86.litmus"],
    ["plain.py", "states", "examples/SB.litmus"],
    ["replay_state.py", "FILE"],
    ["to_herd.py", "examples/SB-x86.litmus"],
)


def list_commands() -> list[str]:
    """Returns the names of the files that can be run, except the one by which modules are run."""
    paths = sorted(glob.glob(os.path.join(TOOLS, "[!_]*.py")))
    return [os.path.basename(it) for it in paths if '__name__ == "__main__"' in read(it)]


def run_module(*arguments: str) -> subprocess.CompletedProcess:
    """Runs `python3 tools` in another folder than the repository's."""
    return subprocess.run([sys.executable, TOOLS, *arguments], capture_output=True, text=True, cwd=os.path.sep, check=False)


def run_without_reader(arguments: list[str], text: str = "", closes_both: bool = False) -> tuple[str, int]:
    """Returns the output of a command on standard error, and its exit status, when nobody reads its standard output; or neither stream."""
    reading, writing = os.pipe()
    os.close(reading)
    errors = writing if closes_both else subprocess.PIPE
    command = [sys.executable, os.path.join(TOOLS, arguments[0]), *arguments[1:]]
    ran = subprocess.run(command, input=text.encode(), stdout=writing, stderr=errors, cwd=HOME, check=False)
    os.close(writing)
    return (ran.stderr or b"").decode(), ran.returncode


def split_input(arguments: list[str]) -> tuple[list[str], str]:
    """Returns the arguments of a command without `FILE`, and its standard input."""
    if arguments[-1] != "FILE":
        return arguments, ""
    return arguments[:-1], run(["plain.py", "replay", "P0", "examples/SB.litmus"])[0]


class Help(cases.Case):
    """`--help`."""

    def test_status(self) -> None:
        """Each command prints its use on standard output, with status 0."""
        for name in list_commands():
            for word in HELP:
                out, err, status = run([name, word])
                with self.subTest(name, word=word):
                    self.assertEqual(("", 0), (err, status))
                    self.assertIn(f"tools/{name}", out)

    def test_modules(self) -> None:
        """`python3 tools`, in any folder, prints the first sentence of each command and of those in packages."""
        for words in ("", *HELP):
            ran = run_module(*words.split())
            with self.subTest(words):
                self.assertEqual(("", 0), (ran.stderr, ran.returncode))
                listed = dict(re.findall(r"^    ([\w.]+)  +(\w.*\.)$", ran.stdout, re.M))
                self.assertEqual([], [it for it in list_commands() if it[: -len(".py")] not in listed])
                self.assertEqual(SAYS, listed["gate.test_commands"])

    def test_page(self) -> None:
        """`./page --help` prints its use on standard output, with status 0."""
        for word in HELP:
            with self.subTest(word):
                ran = subprocess.run([os.path.join(HOME, "page"), word], capture_output=True, text=True, check=False)
                self.assertEqual(("", 0), (ran.stderr, ran.returncode))
                self.assertIn("./page [PORT]", ran.stdout)

    def test_commands(self) -> None:
        """All commands are checked, and each calls `start.run`."""
        self.assertTrue(len(list_commands()) >= 21)
        for name in list_commands():
            with self.subTest(name):
                self.assertTrue(re.search(r"^    sys\.exit\(start\.run\(", read(os.path.join(TOOLS, name)), re.M))


class Modules(cases.Case):
    """`python3 tools MODULE`."""

    def test_run(self) -> None:
        """A module does what its file does, in any folder."""
        test = os.path.join(HOME, "examples", "SB.litmus")
        for name, *words in (("plain", "states", test), ("fences", test), ("fences", "--no-option"), ("cycles", "--all", "4")):
            ran = run_module(name, *words)
            with self.subTest(name, words=words):
                self.assertEqual(run([f"{name}.py", *words]), (ran.stdout, ran.stderr, ran.returncode))

    def test_no_command(self) -> None:
        """Words that are no command end with status 2: a module that is only imported, a package, and no module at all."""
        for name in ("given", "shared.home", "gate", "gate.none", "none", "../page", "os", "", "a.b.c", "--none"):
            ran = run_module(name)
            with self.subTest(name):
                self.assertEqual(("", 2), (ran.stdout, ran.returncode))
                self.assertTrue(ran.stderr.startswith("usage: python3 tools MODULE [WORD..]\ntools: "))


class Pipes(cases.Case):
    """Output that nobody reads, and output that can't be written."""

    def test_help(self) -> None:
        """`--help` of each command ends quietly when nobody reads it."""
        for name in list_commands():
            with self.subTest(name):
                self.assertEqual(("", start.CLOSED), run_without_reader([name, "--help"]))

    def test_answers(self) -> None:
        """An answer ends quietly when nobody reads it."""
        for words in QUICK:
            words, text = split_input(words)
            with self.subTest(words):
                self.assertEqual(("", start.CLOSED), run_without_reader(words, text))

    def test_faults(self) -> None:
        """The line of a fault ends quietly when nobody reads standard error either."""
        for words in QUICK:
            if words[0] != "cycles.py":
                with self.subTest(words[0]):
                    self.assertEqual(("", start.CLOSED), run_without_reader([*words[:-1], "no-such-file"], closes_both=True))

    def test_full_disk(self) -> None:
        """An output that can't be written is reported, with status 1."""
        message = "fences: standard output: No space left on device\n"
        with open("/dev/full", "wb") as full:
            words = [sys.executable, os.path.join(TOOLS, "fences.py"), "examples/SB.litmus"]
            ran = subprocess.run(words, stdin=subprocess.DEVNULL, stdout=full, stderr=subprocess.PIPE, cwd=HOME, check=False)
        self.assertEqual((message, 1), (ran.stderr.decode(), ran.returncode))

    def test_closed_at_start(self) -> None:
        """An output that was closed when the command started is reported, with status 1, if anything is printed."""
        for name, *words in (("plain", "states"), ("fences",)):
            shell = ["sh", "-c", 'exec "$0" "$@" >&-', sys.executable, os.path.join(TOOLS, f"{name}.py"), *words, "examples/SB.litmus"]
            ran = subprocess.run(shell, stderr=subprocess.PIPE, cwd=HOME, check=False)
            with self.subTest(name):
                self.assertEqual((f"{name}: standard output: Bad file descriptor\n", 1), (ran.stderr.decode(), ran.returncode))


if __name__ == "__main__":
    sys.exit(cases.main())
