"""How a command reads its words and its files. A fault of a file is reported as FILE:LINE:COLUMN and a cause in words.

A command makes a `Reader` of its module docstring, and adds its words as to any parser of argparse. One that takes none is run by `run`.
"""
from __future__ import annotations

import argparse

import given
from shared import start

TYPE_CHECKING = False
if TYPE_CHECKING:
    from collections.abc import Callable, Sequence
    from typing import NoReturn


def make_formatter(prog: str) -> argparse.HelpFormatter:
    """Returns the formatter of a parser, which is asked whether a word's form can be printed. With a width it looks at no terminal, for which
    it would import much.
    """
    return argparse.HelpFormatter(prog, width=100)


class Reader(argparse.ArgumentParser):
    """A parser of a command's words. `--help` prints the command's module docstring, with status 0. Words that are wrong print its lines of use
    and the cause on standard error, with status 2. An option has no other name than its own.
    """

    def __init__(self, docstring: str | None) -> None:
        """Makes a parser of a command whose module has a docstring."""
        super().__init__(prog=start.find_command_name(), allow_abbrev=False, formatter_class=make_formatter)
        self.docstring = (docstring or "").strip()

    def add_file(self) -> None:
        """Adds the file that a command reads: standard input, if none is named."""
        self.add_argument("file", nargs="?", default=given.STANDARD_INPUT, metavar="FILE")

    def read(self, arguments: Sequence[str] | None = None) -> argparse.Namespace:
        """Reads the words of the command line, or these. Options may be anywhere among the others."""
        return self.parse_intermixed_args(arguments)

    def format_help(self) -> str:
        """Returns the help: the docstring of the command's module, with its lines of use."""
        return f"{self.docstring}\n"

    def format_usage(self) -> str:
        """Returns the lines of use: the first lines of the docstring that are indented."""
        lines = next((it.split("\n") for it in self.docstring.split("\n\n") if it.startswith("    ")), [self.prog])
        return "".join(f"{'usage: ' if at == 0 else '       '}{line[4:]}\n" for at, line in enumerate(lines))

    def error(self, message: str) -> NoReturn:
        """Prints the lines of use and what is wrong. Exits with status 2."""
        self.exit(2, f"{self.format_usage()}{self.prog}: {message}\n")


def run_command(main: Callable[[], int | None], docstring: str | None) -> int:
    """Runs a command that takes no words. Returns its exit status."""

    def read_and_run() -> int | None:
        """Reads the arguments, of which there may be none, and calls `main`. Returns its result."""
        Reader(docstring).read()
        return main()

    return start.run(read_and_run)


def make_number_parser(least: int) -> Callable[[str], int]:
    """Returns the parser of an argument that is a number and at least `least`."""

    def parse(text: str) -> int:
        """Returns the number of a text. Raises ArgumentTypeError if it is smaller than `least`, and ValueError if it is none."""
        number = int(text)
        if number < least:
            raise argparse.ArgumentTypeError(f"{text} is below {least}")
        return number

    parse.__name__ = "number"  # as argparse has it in what it says of a word that is none
    return parse


def parse_seconds(text: str) -> float | None:
    """Returns the number of seconds that a text says, from a thousandth to some months. `None` if it says none."""
    try:
        seconds = float(text)
    except ValueError:
        return None
    return seconds if 0.001 <= seconds <= 10**7 else None


def for_each(tool: str, names: list[str], work: Callable[[str, str], int | None]) -> int:
    """Calls `work` with the name and the text of each file, or of standard input if there is none. Returns the exit status."""
    status = 0
    for name in names or [given.STANDARD_INPUT]:
        status = max(status, for_one(tool, name, work))
    return status


def for_one(tool: str, name: str, work: Callable[[str, str], int | None]) -> int:
    """Calls `work` with the name and the text of one file, and reports a fault of the file. Returns the exit status."""
    try:
        read = given.read_bytes(name)
    except OSError as why:
        return given.refuse(f"{tool}: {name}: {why.strerror or why}")
    try:
        return work(name, given.decode(read)) or 0
    except given.Fault as fault:
        return given.refuse(given.format_fault(name, read, fault))
    except RecursionError:
        return given.refuse(f"{tool}: {name}: the condition is nested too deeply for this tool")


def format_note(name: str, text: str, offset: int, says: str) -> str:
    """Returns a line for standard error that says something about a position in a text, and is no fault."""
    return f"{name}:{given.format_line_and_column(text, offset)}: note: {says}"
