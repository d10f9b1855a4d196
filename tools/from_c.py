#!/usr/bin/env python3
"""Lists the states in which a small program in C, C++ or Rust can end, as a compiler makes it for x86.

    python3 tools/from_c.py [--cc 'gcc -O2'] [--tries N] [--show | --schedules | --fences | --film N] FILE
    python3 tools/from_c.py --matrix [--cc 'gcc -O2']... [--tries N] FILE

FILE (.c, .cc, .rs, or C in herd's form) has the functions P0, P1, .. of at most four threads, whose globals are shared, and a comment with a
condition:

    // lw: exists (0:r0=0 /\\ 1:r0=0)

`0:r0` is a local variable of P0, or the VALUE of lw_see(r0, VALUE) (include/lw_see.h), and `0:return` is the result of P0. A global has its
name, x+8 is the value 8 bytes after the start of x, and &x is an address to compare with. The compiler of `--cc` makes assembly. Each thread is
followed through it; what other threads can see of it becomes instructions of lw, which lists the states. docs/FROM-C.md says how, and what is
refused.

- A `Never` is said of this compiler's code on x86-TSO. The language may allow more, and another compiler may make other code.
- Each run goes through a loop that need not end at most N times, as `--tries N` says (1 without it).
- Compare-and-swap, and other locked instructions that lw lacks, are answered by guesses: one report is put together from several tests.
- `--show` prints these tests and nothing else, with a comment that has the lines of FILE from which each instruction comes. The other tools
  take them.
- `--schedules` prints after the report a run to each state: its events, with the lines of FILE.
- `--fences` prints after the report what tools/fences.py says of each fence and exchange, with the lines of FILE: which of them the answer
  needs. What is of one line of a thread is left out together, if there are several tests.
- `--film N` prints only the film of a run to the N-th state of the report as an SVG, as tools/picture.py draws it: the machine at
  each event, with the line of FILE. It needs the program lw.
- `--matrix` compiles by all installed compilers (or by those of `--cc`) at all levels, and prints each list once with the compilers that have
  it; and whether the verdict changes with weaker memory orders.

The last line but one says which program made the lists, and `not proved` if it is neither lw nor beyond. Notes and refusals are lines
`FILE:LINE: ..` on standard error. The status is 1 if FILE is refused, 2 if the words are no command, and 6 if no run is left, so that there is no
verdict.
Python 3.8 is enough; it needs a compiler that writes assembly of x86-64 in AT&T's order.
"""
from __future__ import annotations

import os
import sys
from argparse import Namespace

sys.dont_write_bytecode = True
import given
import plain

from c.compiler import choose_compiler, compile_to_assembly, count_lines_before, demangle_assembly
from c.convert import ProgramConverter
from c.matrix import print_matrix
from c.refused import NoRun, Refused
from c.report import Answer, describe_answer, make_answer
from c.shown import format_fences, format_schedules, format_tests, render_film
from c.source import Source, read_source
from films import NoFilm
from shared import answers, command, start

LIMITS = "That is what this compiler's code does on x86-TSO; the language may allow more."
RECURSION = 10000


def convert_source(source: Source, compiler: str, tries: int, weaker: int = 0, include: str | None = None) -> tuple[Answer, ProgramConverter]:
    """Returns the answer on a source by a compiler, and the converter that made its tests. `weaker` is a number of tools/c/weaker.py, `include` the
    folder of the file. Raises Refused if the source or its code is not followed, and NoRun if no run comes to an end.
    """
    assembly = demangle_assembly(compile_to_assembly(source, compiler, weaker, include))
    try:
        converter = ProgramConverter(assembly, source.condition, source.name, source.threads, tries, source.added)
        return make_answer(converter), converter
    except Refused as why:
        raise type(why)(why.cause, why.line and why.line - count_lines_before(source), why.instruction) from None


def format_no_run(source: Source, why: str) -> str:
    """Returns the lines in place of a report if no run is left."""
    condition = source.condition
    lines = answers.format_no_verdict(plain.Test("X86", source.name, quantifier=condition.quantifier), why).splitlines()
    return plain.join_lines([*lines[:-1], f"Condition {condition.text}"])


def print_answer(arguments: Namespace, name: str, text: str) -> int:
    """Prints the answer on one file. Returns the exit status."""
    source = read_source(name, text)
    include = os.path.dirname(os.path.abspath(name)) if name != given.STANDARD_INPUT else None
    answer_by = lambda compiler, weaker=0: convert_source(source, compiler, arguments.tries, weaker, include)
    if arguments.matrix:
        return print_matrix(name, source, arguments.cc, lambda compiler, weaker=0: answer_by(compiler, weaker)[0])
    # All that may be refused comes before anything is printed.
    compiler = arguments.cc[0] if arguments.cc else choose_compiler(source.ending)
    try:
        answer, converter = answer_by(compiler)
        film = render_film(answer, converter, arguments.film, text.splitlines()) if arguments.film else ""
        details = format_schedules(answer, converter) if arguments.schedules else format_fences(answer, converter) if arguments.fences else ""
    except NoRun as why:
        print(format_no_run(source, why.cause), end="")
        return answers.NO_VERDICT
    except Refused as why:
        return given.refuse(why.format_line(name))
    except NoFilm as why:
        return given.refuse(f"from_c: {why}")
    for note in answer.notes:
        print(f"{name}: note: {note}", file=sys.stderr)
    if arguments.show or film:
        print(film or format_tests(answer, converter), end="")
        return 0
    no_run = f"no run goes through every loop within {arguments.tries} tr{'ies' if arguments.tries != 1 else 'y'}"
    print(answer.report if answer.has_run else format_no_run(source, no_run), end="")
    print(details, end="")
    print(describe_answer(answer, compiler, arguments.tries))
    print(LIMITS)
    return 0 if answer.has_run else answers.NO_VERDICT


def main() -> int:
    """Runs the command that the arguments describe. Returns the exit status."""
    given.set_output_encoding()
    sys.setrecursionlimit(RECURSION)
    reader = command.Reader(__doc__)
    reader.add_file()
    reader.add_argument("--cc", action="append", metavar="COMMAND")
    reader.add_argument("--tries", type=command.make_number_parser(0), default=1, metavar="N")
    choices = reader.add_mutually_exclusive_group()
    choices.add_argument("--show", action="store_true")
    choices.add_argument("--schedules", action="store_true")
    choices.add_argument("--fences", action="store_true")
    choices.add_argument("--film", type=command.make_number_parser(1), metavar="N")
    choices.add_argument("--matrix", action="store_true")
    arguments = reader.read()
    if arguments.cc and len(arguments.cc) > 1 and not arguments.matrix:
        reader.error("several --cc need --matrix")
    return command.for_one("from_c", arguments.file, lambda name, text: print_answer(arguments, name, text))


if __name__ == "__main__":
    sys.exit(start.run(main))
