#!/usr/bin/env python3
"""Converts tests in herd's form, of X86 and of X86_64, to x86 tests of lw.

    python3 tools/from_herd.py FILE
    python3 tools/from_herd.py --into FOLDER FILE...

It prints the test, or writes one file NAME.litmus for each test into a folder that exists. Standard input is read if there is no FILE,
or if it is `-`. docs/FROM-HERD.md says what is taken as it is, what is rewritten, and what is refused.

- `--into` overwrites nothing. A test is refused if another FILE has a test of its name, or if the folder has its file with another text.
- `--tries N` goes through each loop N times at most. A run that would continue is given up, and the condition leaves it out.
- A test with k LOCK CMPXCHG makes 2 to the k tests, one for each guess of which of them succeed; `--into` has to say where.
  tools/assume.py makes one report of them.
- `--order intel` (the destination first) or `--order att` (the destination last) says the order of the operands. Otherwise it is concluded
  from marks in the test, which a note says: `%eax` and `(x)` are AT&T's, `[x]` and `DWORD PTR` Intel's, and the place of a number says it
  too. `$1` and the letter of a size (`movl`) say none. Marks that contradict one another are refused. Without a mark the order is that of
  herd's tests of the language: Intel's for X86, AT&T's for X86_64.

Standard error gets a line `FILE:LINE:COLUMN: note: ..` for what is left out or read differently, and a line `FILE:LINE:COLUMN: cause` if
a test is refused, with status 1. Python 3.8 is enough, on any system.
"""
from __future__ import annotations

import os
import sys
from argparse import Namespace

sys.dont_write_bytecode = True
import given
import plain
from herd.convert import ConvertedTest, ConversionResult, convert
from herd.order import ORDERS
from herd.origin import make_comment
from herd.text import parse_heading
from shared import command, start


def format_converted_text(original: ConversionResult, conversion: ConvertedTest) -> str:
    """Returns the text of a converted test, with a comment on its origin."""
    heading, _, rest = plain.format_canonical_text(conversion.test).partition("\n")
    return f"{heading}\n{make_comment(original, conversion)}{rest}"


class Folder:
    """The folder into which tests are written, overwriting nothing. `origins` has the input from which each file of this run comes."""

    def __init__(self, path: str) -> None:
        """Makes an object of the folder at a path, into which nothing is written yet."""
        self.path = path
        self.origins: dict[str, str] = {}

    def check_file(self, path: str, text: str, conversion: ConversionResult, name: str, offset: int) -> None:
        """Raises Fault if a file must not be written: another input of this run has its name, or another text is there. `offset` is that of the
        test's name.
        """
        if path in self.origins:
            fault = f"'{conversion.frame.name}' of {name} and a test of {self.origins[path]} have one file name, {path}"
            raise given.Fault(f"{fault}: nothing is written for the second, name one of them otherwise", offset)
        try:
            with open(path, encoding="utf-8", errors="replace", newline="") as file:
                present = file.read()
        except FileNotFoundError:
            return
        if present != text:
            raise given.Fault(f"{path} has another text already, and is not overwritten: take it away, or name another folder", offset)

    def write_tests(self, conversion: ConversionResult, name: str, text: str) -> None:
        """Writes the tests of one input, all or none. Raises Fault if one must not be written."""
        offset = parse_heading(text)[2] - len(conversion.frame.name)
        files = [(os.path.join(self.path, make_file_name(it.test.name)), format_converted_text(conversion, it)) for it in conversion.conversions]
        for path, test in files:
            self.check_file(path, test, conversion, name, offset)
        for path, test in files:
            self.origins[path] = name
            with open(path, "w", encoding="utf-8", newline="\n") as file:
                file.write(test)


def make_file_name(name: str) -> str:
    """Returns the name of a test's file."""
    return name.replace("/", "_").replace("\\", "_") + ".litmus"


def print_notes(name: str, text: str, conversion: ConversionResult) -> None:
    """Prints on standard error what of a text is left out or read differently."""
    for offset, says in conversion.notes:
        print(command.format_note(name, text, offset, says), file=sys.stderr)


def convert_text(arguments: Namespace, folder: Folder | None, name: str, text: str) -> int:
    """Converts one text. Returns the exit status. Raises Fault if it is not converted, or if it becomes several tests and there is no folder."""
    conversion = convert(text, arguments.tries, ORDERS[arguments.order])
    if folder is None and len(conversion.conversions) > 1:
        count = len(conversion.conversions)
        raise given.Fault(f"LOCK CMPXCHG makes {count} tests: name a folder by --into, or use tools/assume.py", 0)
    print_notes(name, text, conversion)
    if folder is None:
        print(format_converted_text(conversion, conversion.conversions[0]), end="")
    else:
        folder.write_tests(conversion, name, text)
    return 0


def main() -> int:
    """Runs the command that the arguments describe. Returns the exit status."""
    given.set_output_encoding()
    reader = command.Reader(__doc__)
    reader.add_argument("files", nargs="*", metavar="FILE")
    reader.add_argument("--into", metavar="FOLDER")
    reader.add_argument("--tries", type=int, default=0, metavar="N")
    reader.add_argument("--order", choices=("intel", "att"))
    arguments = reader.read()
    if arguments.into is None and len(arguments.files) > 1:
        reader.error("several files need --into FOLDER")
    folder = None if arguments.into is None else Folder(arguments.into)
    try:
        return command.for_each("from_herd", arguments.files, lambda name, text: convert_text(arguments, folder, name, text))
    except OSError as why:
        return given.refuse(f"from_herd: {why.filename}: {why.strerror}")


if __name__ == "__main__":
    sys.exit(start.run(main))
