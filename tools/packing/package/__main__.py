"""The proved workbench as a command.

    python -m lw states|schedules|compile [FILE]
    python -m lw replay SCHEDULE [--protocol mesi|moesi] [FILE]
    python -m lw beyond [--search] [--budget N] [--method] states|schedules|marks [FILE]
    python -m lw TOOL [WORD...]

The first three lines run the proved programs lw and beyond on FILE, or on standard input if there is none. A file that can't be opened ends
with status 4. The fourth runs a tool, which is a command `lw-TOOL` too; `python -m lw TOOL --help` describes it. The tools are:
"""
from __future__ import annotations

import functools
import os
import runpy
import sys
from collections.abc import Callable

HOME = os.path.dirname(os.path.abspath(__file__))
TOOLS = os.path.join(HOME, "tools")
PROGRAMS = {name: os.path.join(HOME, "crates", name, "out", name) for name in ("lw", "beyond")}
# The numbers of arguments that a command of lw takes, itself included.
LENGTHS = {"states": (1,), "schedules": (1,), "compile": (1,), "replay": (2, 4)}


def list_tools() -> dict[str, str]:
    """Returns the names of the tools, each with its module of tools/."""
    with open(os.path.join(HOME, "tools.txt"), encoding="utf-8") as file:
        return dict(line.split() for line in file)


def print_usage() -> int:
    """Prints what `--help` does, as the tools print theirs. Returns the exit status."""
    start = runpy.run_path(os.path.join(TOOLS, "shared", "start.py"))
    usage = (__doc__ or "").strip() + "".join(f"\n    {name}" for name in list_tools())
    return start["run"](lambda: print(usage))


def run_tool(module: str) -> None:
    """Runs a tool in this process, as `python3 tools MODULE` does, and exits."""
    sys.argv[:1] = [TOOLS, module]
    sys.dont_write_bytecode = True
    runpy.run_path(TOOLS, run_name="__main__")


class Commands:
    """Each tool as a call without arguments: `Commands().from_c()`, for the scripts that pip makes."""

    def __getattr__(self, name: str) -> Callable[[], None]:
        """Returns the call that runs the tool of a name. Raises AttributeError if there is no such tool."""
        module = list_tools().get(name.replace("_", "-"))
        if module is None:
            raise AttributeError(name)
        return functools.partial(run_tool, module)


commands = Commands()


def split_arguments(name: str, arguments: list[str]) -> tuple[list[str], str | None]:
    """Returns the arguments of a program, and the file after them, if there is one."""
    before, last = arguments[:-1], arguments[-1] if arguments else ""
    if last.startswith("-") and last != "-":
        return arguments, None
    if name == "beyond":
        has_file = before[-1:] in (["states"], ["schedules"], ["marks"])
    else:
        has_file = len(before) in LENGTHS.get(arguments[0] if arguments else "", ())
    return (before, last) if has_file else (arguments, None)


def run_program(name: str, arguments: list[str]) -> int:
    """Replaces this process by a program. Returns an exit status if that is not possible."""
    arguments, file = split_arguments(name, arguments)
    if file is not None and file != "-":
        try:
            os.dup2(os.open(file, os.O_RDONLY), 0)
        except OSError:
            print(f"{name}: {file} can't be opened", file=sys.stderr)
            return 4
    try:
        os.execv(PROGRAMS[name], [name, *arguments])
    except OSError as why:
        print(f"{name}: {PROGRAMS[name]}: {why.strerror}", file=sys.stderr)
        return 5


def main() -> int:
    """Runs the command line. Returns the exit status."""
    words = sys.argv[1:]
    if words and words[0] in ("--help", "-h"):
        return print_usage()
    if words and words[0] in list_tools():
        sys.argv[1:2] = []
        run_tool(list_tools()[words[0]])
        return 0
    return run_program("beyond", words[1:]) if words[:1] == ["beyond"] else run_program("lw", words)


if __name__ == "__main__":
    sys.exit(main())
