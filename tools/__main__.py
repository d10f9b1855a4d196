"""Runs a command of tools/ by the name of its module, in any working folder.

    python3 tools MODULE [WORD..]

`python3 tools gate.check_names` runs tools/gate/check_names.py, and `python3 tools fences FILE` does what `python3 tools/fences.py FILE` does.
The modules import each other by their names below this folder, which Python puts first on its path if it runs the folder. With --help, or without
a word, it lists the commands:
"""
from __future__ import annotations

import argparse
import ast
import glob
import os
import re
import runpy
import sys

sys.dont_write_bytecode = True
from shared import command, start

TOOLS = os.path.dirname(os.path.abspath(__file__))
# The line that marks a module as a command.
RUNS = '\nif __name__ == "__main__":\n'


def read_text(path: str) -> str:
    """Returns the text of a file."""
    with open(path, encoding="utf-8") as file:
        return file.read()


def find_command_file(name: str) -> str | None:
    """Returns the file of a command of this folder or of one of its packages, or `None` if there is none. A package is a command by its
    `__main__`.
    """
    if not re.fullmatch(r"\w+(\.\w+)?", name):
        return None
    module = os.path.join(TOOLS, *name.split("."))
    path = os.path.join(module, "__main__.py") if os.path.isdir(module) else f"{module}.py"
    return path if os.path.exists(path) and RUNS in read_text(path) else None


def parse_first_sentence(text: str) -> str:
    """Returns the first sentence of a module's docstring, in one line."""
    paragraph = (ast.get_docstring(ast.parse(text)) or "").split("\n\n")[0]
    return paragraph.replace("\n", " ").split(". ")[0].rstrip(".") + "."


def list_commands() -> dict[str, str]:
    """Returns the names of all commands, each with its first sentence: those of this folder first."""
    commands = {}
    for path in sorted(glob.glob(f"{TOOLS}/*.py")) + sorted(glob.glob(f"{TOOLS}/*/*.py")):
        module = os.path.relpath(path, TOOLS)[: -len(".py")].replace(os.sep, ".")
        name = module[: -len(".__main__")] if module.endswith(".__main__") else module
        if name != "__main__" and find_command_file(name) == path:
            commands[name] = parse_first_sentence(read_text(path))
    return commands


class Reader(command.Reader):
    """A reader of words whose help lists the commands."""

    def format_help(self) -> str:
        """Returns the help of `python3 tools`, with the names of all commands and their first sentences."""
        sentences = list_commands()
        width = max(map(len, sentences))
        return super().format_help() + "\n" + "".join(f"    {name:{width}}  {says}\n" for name, says in sentences.items())


def parse_module_and_arguments(arguments: list[str]) -> list[str]:
    """Returns the module that the words name, followed by its own words. Without a module prints the help, and returns an empty list. Exits if there
    is no such command.
    """
    reader = Reader(__doc__)
    reader.add_argument("module", nargs="?", metavar="MODULE")
    reader.add_argument("words", nargs=argparse.REMAINDER, metavar="WORD")
    named = reader.parse_args(arguments)
    if named.module is None:
        reader.print_help()
        return []
    if not find_command_file(named.module):
        reader.error(f"there is no command {named.module}")
    return [named.module, *named.words]


def main() -> int:
    """Runs the command that the first word names, which ends by itself. Returns the exit status if it names none."""
    named: list[str] = []

    def read() -> int:
        """Fills `named` with the module and its arguments. Returns the exit status 0."""
        named.extend(parse_module_and_arguments(sys.argv[1:]))
        return 0

    status = start.run(read)
    if not named:
        return status
    # (In Python 3.8 the folder is there as it was typed, which leads elsewhere once the command changes the working folder.)
    sys.path[0] = TOOLS
    sys.argv[1:] = named[1:]
    runpy.run_module(named[0], run_name="__main__", alter_sys=True)
    return 0


if __name__ == "__main__":
    sys.exit(main())
