"""Writes and reads the origin of a converted test: the comment that tools/from_herd.py writes into it, and that tools/run_all.py reads.

A comparison with a log of the original test uses the original's names. So the comment has each name that was replaced, what marks the
runs that are given up, the filter, and the guesses; and a converted test's states are translated back.
"""
from __future__ import annotations

import re
from collections.abc import Iterable, Iterator
from dataclasses import dataclass, field

import plain
from herd.convert import MARK, ConvertedTest, ConversionResult
from herd.rewrite import SCRATCH
from herd.together import make_outcome, parse_state

COMMENT = re.compile(r"X86 \S+\n\(\* (From the X86(?:_64)? test .*?) \*\)\n", re.S)
GUESSES = {"succeeds": True, "fails": False}
TRIES = re.compile(r"Runs that go through a loop more often than (\d+) times are given up\.")


def make_comment(original: ConversionResult, conversion: ConvertedTest) -> str:
    """Returns the comment of a converted test, one sentence in each line."""
    lines = [f"From the {original.frame.language} test {original.frame.name}."]
    lines += [f"{old} is {new} here." for old, new in original.renamed if not old.endswith((SCRATCH, MARK))]
    lines += [f"{new} is a register that rewritings use." for old, new in original.renamed if old.endswith(SCRATCH)]
    if conversion.filter:
        lines.append(f"Its filter is {plain.format_proposition(conversion.test, conversion.filter)} here.")
    if conversion.guesses:
        words = ", ".join("succeeds" if guess else "fails" for guess in conversion.guesses)
        lines.append(f"Assumed of its LOCK CMPXCHG, in turn: {words}.")
    if conversion.marks:
        names = " /\\ ".join(f"{plain.format_site(conversion.test, site)}=1" for site in conversion.marks)
        lines.append(f"Runs that are given up end without {names}.")
    if conversion.shown_here_only:
        lines.append(f"Shown here only: {', '.join(plain.format_site(conversion.test, site) for site in conversion.shown_here_only)}.")
    if original.tries:
        lines.append(f"Runs that go through a loop more often than {original.tries} times are given up.")
    return "(* " + "\n   ".join(lines).replace("*)", "* )") + " *)\n"


@dataclass
class Origin:
    """The contents of a converted test's comment: the original's name, its names by those of the test, the filter, the guesses, the marks,
    the sites that only the last two name, and how often each loop is written down."""

    name: str
    names: dict[str, str] = field(default_factory=dict)
    filter: str = "true"
    guesses: tuple = ()
    marks: str = "true"
    shown_here_only: tuple = ()
    tries: int = 0


def parse_origin(text: str) -> Origin | None:
    """Returns the origin of a test's text, or `None` if it has no comment of tools/from_herd.py."""
    match = COMMENT.match(text)
    if not match:
        return None
    first, *lines = [line.strip() for line in match[1].split("\n")]
    origin = Origin(first[:-1].split(" ", 4)[4])
    for line in lines:
        renamed, tries = re.fullmatch(r"(\S+) is (\S+) here\.", line), TRIES.fullmatch(line)
        if renamed:
            origin.names[renamed[2]] = renamed[1]
        elif line.startswith("Its filter is "):
            origin.filter = line[len("Its filter is ") : -len(" here.")]
        elif line.startswith("Assumed of its LOCK CMPXCHG, in turn: "):
            origin.guesses = tuple(GUESSES.get(word) for word in line.partition(": ")[2].rstrip(".").split(", "))
        elif line.startswith("Shown here only: "):
            origin.shown_here_only = tuple(line.partition(": ")[2].rstrip(".").split(", "))
        elif tries:
            origin.tries = int(tries[1])
        elif line.startswith("Runs that are given up end without "):
            origin.marks = line[len("Runs that are given up end without ") : -1]
    return origin


def parse_proposition(test: plain.Test, text: str) -> plain.Proposition:
    """Returns a proposition over the sites of a test."""
    heading = plain.format_canonical_text(test).rsplit("\n", 2)[0]
    return plain.read_test(f"{heading}\nexists ({text})\n").proposition


@dataclass
class TranslatedStates:
    """The states of one original test, from those of its converted tests: lines in its names, the names that only its filter and marks have, the guesses
    for which there is a test, and the number of copies of each loop.
    """

    lines: list[str] = field(default_factory=list)
    extra: set[str] = field(default_factory=set)
    guesses: dict[tuple, set[str]] = field(default_factory=dict)  # each with its lines
    tries: int = 0
    is_twice: bool = False  # whether two tests with different lines represent one guess

    def count_missing_guesses(self) -> int:
        """Returns the number of guesses for which there is no test."""
        return 2 ** len(next(iter(self.guesses), ())) - len(self.guesses)


def translate_states(test: plain.Test, origin: Origin, lines: Iterable[str]) -> Iterator[str]:
    """Yields the states of a test that its marks and its filter admit, in the names of the original."""
    condition = parse_proposition(test, f"({origin.marks}) /\\ ({origin.filter})")
    for line in lines:
        words = parse_state(line)
        if plain.is_true_in(condition, make_outcome(test, words)):
            yield " ".join(f"{origin.names.get(name, name)}={word};" for name, word in words.items())


def add_states(translations: dict[str, TranslatedStates], origin: Origin, text: str, lines: Iterable[str]) -> None:
    """Adds the states of a converted test to those of its original in `translations`. Raises NoTest if the comment names what the test does not have.
    """
    test = plain.read_test(text)
    states = list(translate_states(test, origin, lines))
    original = translations.setdefault(origin.name, TranslatedStates())
    original.lines += states
    original.is_twice |= original.guesses.setdefault(origin.guesses, set(states)) != set(states)
    original.tries = origin.tries
    original.extra |= {origin.names.get(name, name) for name in origin.shown_here_only}
