"""A program by several compilers, at several levels, and with weaker memory orders."""
from __future__ import annotations

import sys
from collections.abc import Callable

import given
from c.compiler import list_compilers
from c.refused import Refused
from c.report import Answer
from c.source import Source
from c.weaker import WEAKER


def collect_answers(name: str, compilers: list[str], by: Callable[[str], Answer]) -> dict[str, Answer | None]:
    """Returns the answer by each compiler. None if it is refused, which standard error says."""
    answers: dict[str, Answer | None] = {}
    for compiler in compilers:
        try:
            answers[compiler] = by(compiler)
        except (Refused, given.Fault) as why:
            answers[compiler] = None
            print(why.format_line(f"{name} by {compiler}") if isinstance(why, Refused) else f"{name} by {compiler}: {why.cause}", file=sys.stderr)
    return answers


def group_compilers(answers: dict[str, Answer | None]) -> dict[str, list[str]]:
    """Returns the compilers of each report."""
    groups: dict[str, list[str]] = {}
    for compiler, answer in answers.items():
        if answer:
            groups.setdefault(answer.report, []).append(compiler)
    return groups


def print_matrix(name: str, source: Source, compilers: list[str] | None, by: Callable[..., Answer]) -> int:
    """Prints each list once, and the compilers for which the verdict changes. Returns the exit status."""
    compilers = compilers or list_compilers(source.ending)
    if not compilers:
        return given.refuse(f"from_c: no compiler for '{source.ending}' is there: name one by --cc")
    as_written = collect_answers(name, compilers, by)
    for report, compiler_names in group_compilers(as_written).items():
        print(f"By {', '.join(compiler_names)}:\n{report}", end="")
    refused = [it for it, answer in as_written.items() if not answer]
    for weaker, says in WEAKER.items():

        def by_weaker(compiler: str, number: int = weaker) -> Answer:
            """Returns the answer of a compiler with weaker orders."""
            return by(compiler, number)

        answers = collect_answers(f"{name} with {says}", compilers, by_weaker)
        refused += [it for it, answer in answers.items() if not answer]
        print_changes(says, as_written, answers)
    print("That is what these compilers' code does on x86-TSO; the language may allow more.")
    return 1 if refused else 0


def print_changes(says: str, before: dict[str, Answer | None], after: dict[str, Answer | None]) -> None:
    """Prints how observations change with weaker orders, each with the compilers."""
    changes: dict[str, list[str]] = {}
    for compiler, answer in after.items():
        old = before[compiler]
        if old and answer:
            is_same = old.observation == answer.observation
            changes.setdefault(f"{old.observation} stays" if is_same else f"{old.observation} becomes {answer.observation}", []).append(compiler)
    for change, compiler_names in changes.items():
        print(f"With {says}: {change}, by {', '.join(compiler_names)}")
