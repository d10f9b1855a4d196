"""Tests that bash, zsh and fish complete the words of the programs and the options of the tools, by the files of the package for Debian.

    python3 tools gate.test_completion, or in tools/ python3 -m unittest gate.test_completion

- The table has the options that the --help of each tool names, and the words that the programs take.
- Each installed shell offers what the table says. zsh is tried by its function, and in a terminal.

The programs are not needed. tools/check_documents.py calls all this (tools/gate/cases.py).
"""
from __future__ import annotations

import os
import pty
import re
import select
import shutil
import subprocess
import sys
import tempfile
import time
import unittest
from collections.abc import Callable

from gate import cases
from gate.examples import read
from packing import completion, tree
from shared.home import HOME

# Words on which completion is asked for the last, and what it offers; FILES if it offers files.
FILES = "(files)"
COMPLETED = (
    ("lw s", "states schedules"),
    ("lw replay P0 --", "--protocol"),
    ("lw replay P0 --protocol mo", "moesi"),
    ("lw states F", ""),
    ("beyond --b", "--budget"),
    ("beyond --budget 1", ""),
    ("beyond --search sch", "schedules"),
    ("beyond m", "marks"),
    ("beyond marks m", ""),
    ("lw-fences --e", "--everything --exchanges"),
    ("lw-run-all --expect", "--expect --expect-ok"),
    ("lw-on-machine --program", "--program-cc"),
    ("lw-fences exam", FILES),
)
BASH = 'COMP_WORDS=($2); COMP_CWORD=$((${#COMP_WORDS[@]} - 1)); compopt() { echo "(files)"; }; . "$1" && _lw && echo "${COMPREPLY[*]}"'
# A replacement for zsh's own functions, for one word: compadd offers the words that begin with it.
ZSH = """emulate zsh
compadd() { shift; print -r -- ${(M)@:#$PREFIX*} }
_files() { print -r -- "(files)" }
words=(${(z)2}); CURRENT=$#words; PREFIX=$words[-1]
. $1
"""
SECONDS = 20


def list_tool_options() -> dict[str, list[str]]:
    """Returns the options of each tool, by its command."""
    return {tree.name_command(it): completion.list_options(read(tree.find_tool(it))) for it in tree.TOOLS}


def list_missing_shells() -> list[str]:
    """Returns the shells that are not here."""
    return [it for it in ("bash", "zsh", "fish") if not shutil.which(it)]


def describe_skipped() -> str | None:
    """Returns the line that says which shells were not tried, if any were not. None if all were."""
    return f"completions of {', '.join(list_missing_shells())} were not tried, since they are not here" if list_missing_shells() else None


class Table(cases.Case):
    """The table of words and options, from which the completions are made."""

    def test_options(self) -> None:
        """A tool has the options that its --help names, and --help."""
        for tool in tree.TOOLS:
            ran = subprocess.run([sys.executable, "tools", tool, "--help"], cwd=HOME, capture_output=True, check=False)
            printed = {*completion.OPTION.findall((ran.stdout + ran.stderr).decode()), "--help"}
            with self.subTest(tool):
                self.assertEqual(sorted(printed), list_tool_options()[tree.name_command(tool)])

    def test_words(self) -> None:
        """Each word of a program is on its manual page, and each option of the page is among the words."""
        for program in completion.PROGRAMS:
            page = re.sub(r"\\f.|\\", "", read(f"tools/packing/debian/{program}.1"))
            words = {word for row in completion.ROWS if row.program == program for word in row.words}
            with self.subTest(program):
                self.assertEqual([], sorted(it for it in words if not re.search(rf"(?<![\w-]){it}\b", page)))
                self.assertTrue({*completion.OPTION.findall(page)} <= words)


class Shells(cases.Case):
    """The shells that are here."""

    room: str
    paths: dict[str, str]  # for each shell the file of its completion

    @classmethod
    def setUpClass(cls) -> None:
        """Writes the completions of all shells."""
        room = tempfile.TemporaryDirectory(prefix="lw-completion-")
        cls.addClassCleanup(room.cleanup)
        cls.room, cls.paths = room.name, {}
        for name, text in completion.make_files(list_tool_options()).items():
            path = os.path.join(room.name, os.path.basename(name))
            cls.paths[name.split("/")[2].partition("-")[0]] = path
            with open(path, "w", encoding="utf-8") as file:
                file.write(text)

    def run_shell(self, *arguments: str) -> str:
        """Returns the output of a shell. The shell has a folder of its own for its settings."""
        settings = {"PATH": os.environ["PATH"], "HOME": self.room, "LC_ALL": "C.UTF-8", "TERM": "dumb"}
        ran = subprocess.run(arguments, stdout=subprocess.PIPE, stderr=subprocess.STDOUT, env=settings, cwd=HOME, check=False, timeout=SECONDS)
        return ran.stdout.decode()

    def compare(self, offered: Callable[[str], list[str]]) -> None:
        """Compares what a shell offers with the table. `offered` returns it for some words."""
        for words, expected in COMPLETED:
            with self.subTest(words):
                self.assertEqual(sorted(expected.split()), sorted(offered(words)))

    @unittest.skipIf("bash" in list_missing_shells(), "bash is missing")
    def test_bash(self) -> None:
        """bash completes."""
        self.compare(lambda words: self.run_shell("bash", "--norc", "-c", BASH, "bash", self.paths["bash"], words).split())

    @unittest.skipIf("zsh" in list_missing_shells(), "zsh is missing")
    def test_zsh(self) -> None:
        """zsh completes, by its function."""
        self.compare(lambda words: self.run_shell("zsh", "-f", "-c", ZSH, "zsh", self.paths["zsh"], words).split())

    @unittest.skipIf("zsh" in list_missing_shells(), "zsh is missing")
    def test_zsh_in_terminal(self) -> None:
        """zsh finds the function by its first line, and completes a word in a terminal."""
        for words, completed in (("lw sch", "lw schedules "), ("lw-fences --ev", "lw-fences --everything "), ("beyond --search sta", "beyond --search states ")):
            with self.subTest(words):
                self.assertIn(completed, self.type_in_zsh(words, completed))

    def type_in_zsh(self, words: str, completed: str) -> str:
        """Returns the text of a terminal in which zsh runs, after words and a tab are typed, when the terminal shows the whole."""
        child, terminal = pty.fork()
        if not child:
            os.execvpe("zsh", ["zsh", "-f", "-i"], {"PATH": os.environ["PATH"], "HOME": self.room, "TERM": "dumb", "PS1": "> "})
        try:
            folder = os.path.dirname(self.paths["zsh"])
            os.write(terminal, f"fpath=({folder} $fpath); autoload -U compinit; compinit -u -d {self.room}/dump; print ready $((1+1))\n".encode())
            self.read_terminal_until(terminal, "ready 2")
            os.write(terminal, f"{words}\t".encode())
            return self.read_terminal_until(terminal, completed)
        finally:
            os.kill(child, 9)
            os.waitpid(child, 0)
            os.close(terminal)

    @staticmethod
    def read_terminal_until(terminal: int, text: str) -> str:
        """Returns the text of a terminal, without its controls, when it shows a text or some seconds are over."""
        shown, end = "", time.monotonic() + SECONDS
        while time.monotonic() < end and text not in shown:
            if select.select([terminal], [], [], 0.3)[0]:
                shown = re.sub(r"\x1b\[[0-9;?]*[a-zA-Z]|\r", "", shown + os.read(terminal, 4096).decode("utf-8", "replace"))
        return shown

    @unittest.skipIf("fish" in list_missing_shells(), "fish is missing")
    def test_fish(self) -> None:
        """fish completes."""

        def list_offered(words: str) -> list[str]:
            """Returns the completions of fish."""
            lines = self.run_shell("fish", "--no-config", "-c", "source $argv[1]; complete -C $argv[2]", self.paths["fish"], words).splitlines()
            offered = [it.partition("\t")[0] for it in lines]
            return [FILES] if offered == ["examples/"] else offered

        self.compare(list_offered)


if __name__ == "__main__":
    sys.exit(cases.main(describe_skipped))
