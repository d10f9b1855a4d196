"""Writes the condition of a test in words, and the verdict on it, as web/condition_words.js and web/verdicts.js do on the page: for the lists that the
documents of a made site show. tools/gate/check_site.py compares both on all examples. Not proved.
"""
from __future__ import annotations

from typing import List, NamedTuple, Optional

from interpreter.conditions import format_site
from interpreter.tests import And, Eq, LocationSite, Not, Or, Proposition, RegisterSite, Site, Statement, Test

MAX_ATOMS = 6
# The kinds of statements that read a word from memory into a register, and those that put another word into one.
READS = ("load", "xchg", "xadd", "swap", "fetchadd")
SETS = ("set", "add", "sum")


class Atom(NamedTuple):
    """A site, a word, and whether the condition denies that the site has the word."""

    site: Site
    word: int
    is_denied: bool


Alternatives = Optional[List[List[Atom]]]


def list_alternatives(proposition: Proposition, is_denied: bool = False) -> Alternatives:
    """Returns the alternatives of a proposition, each as its atoms; None if it has too many, or has true or false in it."""
    if isinstance(proposition, Eq):
        return [[Atom(proposition.site, proposition.word, is_denied)]]
    if isinstance(proposition, Not):
        return list_alternatives(proposition.part, not is_denied)
    if not isinstance(proposition, (And, Or)):
        return None
    first, second = list_alternatives(proposition.left, is_denied), list_alternatives(proposition.right, is_denied)
    if first is None or second is None:
        return None
    is_choice = isinstance(proposition, Or) != is_denied
    alternatives = [*first, *second] if is_choice else [[*it, *other] for it in first for other in second]
    return None if sum(map(len, alternatives)) > MAX_ATOMS else alternatives


def find_read(test: Test, site: RegisterSite) -> tuple[int, Statement] | None:
    """Returns the read whose word a register has at the end of every run, after its position; or None."""
    code = test.threads[site.thread]
    if any(it.target is not None for it in code):
        return None
    writes = [(position, it) for position, it in enumerate(code) if it.register == site.register and it.kind in (*READS, *SETS)]
    return writes[0] if len(writes) == 1 and writes[0][1].kind in READS else None


def format_atom(name: str, atom: Atom) -> str:
    """Returns an atom as code, by the name of its site or of what is read."""
    return f"`{name}{'≠' if atom.is_denied else '='}{atom.word}`"


def describe_thread(test: Test, atoms: list[Atom]) -> str:
    """Returns what one thread does, in words: what it reads, in the order of its code, and the words that it ends with. A register that several atoms
    name is no read, since it has one word only.
    """
    registers = [atom for atom in atoms if isinstance(atom.site, RegisterSite)]
    named_once = [atom for atom in registers if [it.site for it in registers].count(atom.site) == 1]
    reads = [(read, atom) for atom in named_once if isinstance(atom.site, RegisterSite) and (read := find_read(test, atom.site))]
    others = [atom for atom in registers if all(it is not atom for _, it in reads)]
    parts = []
    if reads:
        read_words = (format_atom(test.locations[read[1].location], atom) for read, atom in sorted(reads, key=lambda it: it[0][0]))
        parts.append(f"reads {', then '.join(read_words)}")
    if others:
        parts.append(f"ends with {' and '.join(format_atom(format_site(test, it.site)[2:], it) for it in others)}")
    return " and ".join(parts)


def make_thread_phrases(said: list[tuple[int, str]]) -> list[str]:
    """Returns a phrase for each thread, of which `said` has what it does, and one for all threads that end with the same words."""
    phrases = []
    for thread, words in said:
        same = [f"P{it}" for it, other in said if other == words and words.startswith("ends")]
        if len(same) < 2:
            phrases.append(f"P{thread} {words}")
        elif same[0] == f"P{thread}":
            phrases.append(f"{', '.join(same[:-1])} and {same[-1]} {'all' if len(same) > 2 else 'both'} {words.replace('ends', 'end', 1)}")
    return phrases


def describe_alternative(test: Test, atoms: list[Atom]) -> str:
    """Returns one alternative of a condition in words."""
    said = []
    for thread in range(len(test.threads)):
        atoms_of_thread = [it for it in atoms if isinstance(it.site, RegisterSite) and it.site.thread == thread]
        if atoms_of_thread:
            said.append((thread, describe_thread(test, atoms_of_thread)))
    phrases = make_thread_phrases(said)
    words = [format_atom(format_site(test, it.site), it) for it in atoms if isinstance(it.site, LocationSite)]
    if words:
        phrases.append(f"memory ends with {' and '.join(words)}")
    return ("; " if len(phrases) > 2 else " and ").join(phrases)


def describe_condition(test: Test, is_denied: bool = False) -> str | None:
    """Returns the condition of a test in words, or what is so if it is denied, in which code is between backquotes; or None."""
    alternatives = list_alternatives(test.proposition, is_denied)
    return None if alternatives is None else ", or ".join(describe_alternative(test, it) for it in alternatives)


def describe_verdict(test: Test, positive: int, count: int) -> tuple[str, str, str]:
    """Returns the verdict on a test whose condition holds in `positive` of `count` states: its kind, the word for it, and the sentence on what runs
    do. The kind is `yes` or `wrong` if the test claims something: whether that is so; and `can` or `cannot` if it only asks.
    """
    runs = " by interleaving" if test.language == "SRC" else ""
    words = describe_condition(test) or "the condition holds"
    none = f"There is no run{runs} in which {words}"
    if test.quantifier == "forall":
        if positive == count:
            return "yes", "Always.", f"In every run{runs} {words}."
        if not positive:
            return "wrong", "Never.", f"{none}; the test requires that of every run."
        otherwise = describe_condition(test, True)
        return "wrong", "Not always.", f"There is a run{runs} in which {otherwise}." if otherwise else f"Not in every run{runs} {words}."
    if not positive:
        return "yes" if test.quantifier == "~exists" else "cannot", "Forbidden.", f"{none}."
    some = f"There is a run{runs} in which {words}"
    return ("wrong", "Allowed.", f"{some}; the test forbids that.") if test.quantifier == "~exists" else ("can", "Allowed.", f"{some}.")
