#!/usr/bin/env python3
"""Makes tests from cycles of edges, by the names that diy gives to edges.

    python3 tools/cycles.py [--source] [--name NAME] EDGE...
    python3 tools/cycles.py --all N [--between mfence,xchg,xadd] [--threads N] [--source] [--into FOLDER]
    python3 tools/cycles.py --quiz N --seed S [--answers] [--into FOLDER]

The first prints the x86 test of a cycle, or with `--source` the source test: it asks whether all edges can hold at once. docs/FROM-HERD.md
lists the edges. A cycle of docs/FAMILIES.md has its family's name, and `+mfences` and the like if something is between accesses.

The second makes all critical cycles of at most N edges and four threads, without duplicates: it prints a line with the name and the edges of
each, or writes a file NAME.litmus for each into an existing folder. With `--between` the accesses of a thread have these between them, or
nothing.

The third makes N tests that are in no family, the easier ones first: it prints them, or with `--answers` the answers for a teacher. With
`--into` it writes both, quiz1.litmus and so on, and answers.txt. The same seed makes the same quiz.

It needs no program. If the edges make no cycle, one line says so, with status 1; Python 3.8 is enough, on any system.
"""
from __future__ import annotations

import os
import sys
from argparse import Namespace

sys.dont_write_bytecode = True
import given
from shapes.edges import NoCycle, list_critical_cycles, make_cycle
from shapes.families import make_name
from shapes.quiz import format_answer, make_quiz
from shapes.tests import SRC, X86, format_test, make_shape
from shared import command, start

ORDERS = {"mfence": "MFenced", "xchg": "LockXchgd", "xadd": "LockXaddd"}


def write_file(folder: str, name: str, text: str) -> None:
    """Writes a file into a folder."""
    with open(os.path.join(folder, name), "w", encoding="utf-8", newline="\n") as file:
        file.write(text)


def print_test(arguments: Namespace) -> None:
    """Prints the test of one cycle."""
    edges = make_cycle(arguments.edges)
    language = SRC if arguments.source else X86
    print(format_test(make_shape(edges), arguments.name or make_name(edges), language), end="")


def print_cycles(arguments: Namespace) -> None:
    """Lists all critical cycles of a size, or writes their tests."""
    orders = ("Pod", *(ORDERS[it] for it in arguments.between.split(",") if it))
    for names in list_critical_cycles(arguments.all, arguments.threads, orders):
        edges = make_cycle(list(names))
        if arguments.into is None:
            print(f"{make_name(edges)}: {' '.join(names)}")
        else:
            text = format_test(make_shape(edges), make_name(edges), SRC if arguments.source else X86)
            write_file(arguments.into, f"{make_name(edges)}.litmus", text)


def print_quiz(arguments: Namespace) -> None:
    """Prints a quiz or its answers, or writes both."""
    questions = make_quiz(arguments.quiz, arguments.seed)
    answers = "".join(format_answer(it, number) for number, it in enumerate(questions, 1))
    if arguments.into is not None:
        for number, question in enumerate(questions, 1):
            write_file(arguments.into, f"quiz{number}.litmus", question.text)
        write_file(arguments.into, "answers.txt", answers)
    else:
        print(answers if arguments.answers else "\n".join(it.text for it in questions), end="")


def make_parser() -> command.Reader:
    """Returns the parser of the command's arguments."""
    reader = command.Reader(__doc__)
    reader.add_argument("edges", nargs="*", metavar="EDGE")
    reader.add_argument("--all", type=int, metavar="N")
    reader.add_argument("--between", default="", metavar="WHAT")
    reader.add_argument("--threads", type=int, default=4, choices=(2, 3, 4))
    reader.add_argument("--quiz", type=int, metavar="N")
    reader.add_argument("--seed", default="1")
    reader.add_argument("--answers", action="store_true")
    reader.add_argument("--source", action="store_true")
    reader.add_argument("--name")
    reader.add_argument("--into", metavar="FOLDER")
    return reader


def main() -> int:
    """Runs the command that the arguments describe. Returns the exit status."""
    given.set_output_encoding()
    reader = make_parser()
    arguments = reader.read()
    if sum((bool(arguments.edges), arguments.all is not None, arguments.quiz is not None)) != 1:
        reader.error("one of EDGE..., --all N and --quiz N")
    if not set(arguments.between.split(",")) <= {*ORDERS, ""}:
        reader.error(f"--between takes {', '.join(ORDERS)}")
    try:
        (print_test if arguments.edges else print_cycles if arguments.quiz is None else print_quiz)(arguments)
    except NoCycle as why:
        return given.refuse(f"cycles: {why}")
    except OSError as why:
        return given.refuse(f"cycles: {why.filename}: {why.strerror}")
    return 0


if __name__ == "__main__":
    sys.exit(start.run(main))
