"""Conditions: the sites that a proposition names, whether it is true, and its text."""
from __future__ import annotations

from collections.abc import Callable


from interpreter.tests import And, Constant, Eq, LocationSite, Not, Or, Outcome, Proposition, REGISTERS, RegisterSite, Site, Test


def list_parts(proposition: Not | And | Or) -> tuple[Proposition, ...]:
    """Returns the propositions that a negation, a conjunction or a disjunction is made of."""
    return (proposition.part,) if isinstance(proposition, Not) else (proposition.left, proposition.right)


def replace_atoms(proposition: Proposition, replacement_of: Callable[[Eq], Proposition]) -> Proposition:
    """Returns a proposition with another one in place of each atom."""
    if isinstance(proposition, Eq):
        return replacement_of(proposition)
    if isinstance(proposition, Constant):
        return proposition
    return type(proposition)(*(replace_atoms(part, replacement_of) for part in list_parts(proposition)))


def list_sites(proposition: Proposition) -> set[Site]:
    """Returns the sites that a proposition names."""
    if isinstance(proposition, Eq):
        return {proposition.site}
    return set() if isinstance(proposition, Constant) else set().union(*map(list_sites, list_parts(proposition)))


def is_true_in(proposition: Proposition, outcome: Outcome) -> bool:
    """Returns whether a proposition is true in an outcome."""
    if isinstance(proposition, Eq):
        return read_word(proposition.site, outcome) == proposition.word
    if isinstance(proposition, And):
        return is_true_in(proposition.left, outcome) and is_true_in(proposition.right, outcome)
    if isinstance(proposition, Or):
        return is_true_in(proposition.left, outcome) or is_true_in(proposition.right, outcome)
    return not is_true_in(proposition.part, outcome) if isinstance(proposition, Not) else proposition.is_true


def read_word(site: Site, outcome: Outcome) -> int:
    """Returns the word of a site in an outcome."""
    return outcome.registers[site.thread][site.register] if isinstance(site, RegisterSite) else outcome.words[site.location]


def format_site(test: Test, site: Site) -> str:
    """Returns a site as it is written."""
    if isinstance(site, LocationSite):
        return test.locations[site.location]
    return f"{site.thread}:{REGISTERS[test.language][site.register]}"


def site_sort_key(site: Site) -> tuple[int, ...]:
    """Returns the key of the order of sites: registers by thread and index, then locations."""
    return (0, site.thread, site.register) if isinstance(site, RegisterSite) else (1, site.location)


def format_proposition(test: Test, proposition: Proposition) -> str:
    """Returns a proposition with only the parentheses that reading needs."""

    def format_part(inner: Proposition, *bracketed: type) -> str:
        """Returns the text of a part, in parentheses if it is of these types."""
        text = format_proposition(test, inner)
        return f"({text})" if isinstance(inner, bracketed) else text

    if isinstance(proposition, Eq):
        return f"{format_site(test, proposition.site)}={proposition.word}"
    if isinstance(proposition, Not):
        return "~" + format_part(proposition.part, And, Or)
    if isinstance(proposition, And):
        return format_part(proposition.left, Or) + " /\\ " + format_part(proposition.right, And, Or)
    if isinstance(proposition, Or):
        return format_part(proposition.left) + " \\/ " + format_part(proposition.right, Or)
    return "true" if proposition.is_true else "false"


def format_condition(test: Test) -> str:
    """Returns the condition of a test: its quantifier and its proposition."""
    return f"{test.quantifier} ({format_proposition(test, test.proposition)})"
