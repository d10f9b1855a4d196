"""Conditions in herd's form as propositions of lw: `=>` and `<>` are said by `~`, `/\\` and `\\/`, and so is a filter."""
from __future__ import annotations

from collections.abc import Sequence
from typing import Any

from herd.text import Reader, Refused
from plain import And, Constant, Eq, Not, Or, Proposition

EXPECTED = "a location, a register of a thread, or a proposition"


class PropositionReader(Reader):
    """A reader of a condition. The class derived from it has a frame, and reads sites and words."""

    frame: Any

    def read_site(self) -> Any:
        """Reads a register of a thread or a location. The derived class has it; this one raises NotImplementedError."""
        raise NotImplementedError

    def read_word(self, site: Any) -> Any:
        """Reads the number that a site has. The derived class has it; this one raises NotImplementedError."""
        raise NotImplementedError

    def read_quantifier(self) -> str:
        """Reads `exists`, `~exists` or `forall`. Raises Refused if it is none of them."""
        if self.take_token_if("~", "not"):
            return "~" + self.take_token("exists").text
        if not self.is_next("exists", "forall"):
            raise self.make_misplaced_refusal("the condition")
        return self.take_token().text

    def read_implication(self) -> Proposition:
        """Reads a proposition. An implication binds least, and is grouped from the right."""
        left = self.read_disjunction()
        return Or(Not(left), self.read_implication()) if self.take_token_if("=>") else left

    def read_disjunction(self) -> Proposition:
        """Reads propositions with `\\/` between them."""
        left = self.read_conjunction()
        while self.take_token_if("\\/"):
            left = Or(left, self.read_conjunction())
        return left

    def read_conjunction(self) -> Proposition:
        """Reads propositions with `/\\` between them."""
        left = self.read_unary()
        while self.take_token_if("/\\"):
            left = And(left, self.read_unary())
        return left

    def read_unary(self) -> Proposition:
        """Reads an atom, a negation, or a proposition in parentheses."""
        if self.take_token_if("~", "not"):
            return Not(self.read_unary())
        if self.take_token_if("("):
            inner = self.read_implication()
            self.take_token(")")
            return inner
        if self.is_next("true", "false"):
            return Constant(self.take_token().text == "true")
        return self.read_atom()

    def read_atom(self) -> Proposition:
        """Reads a site and the number that it has, or has not. Raises Refused for a comparison that is not converted."""
        if self.is_next("*"):
            raise Refused("a location that a location leads to is not converted: name it", self.token.offset)
        offset = self.token.offset
        site = self.read_site()
        self.frame.condition_sites.append((site, offset))
        sign = self.take_token("=", "==", "<>", "!=").text
        if self.token.kind == "name" or self.is_next("[", "&") or self.peek(1) == ":":
            raise Refused("a comparison with an address or another name is not converted: use one atom for each number", self.token.offset)
        token = Eq(site, self.read_word(site))
        return token if sign in ("=", "==") else Not(token)


def make_conjunction(parts: Sequence[Proposition]) -> Proposition:
    """Returns the conjunction of some propositions."""
    conjunction = parts[0]
    for part in parts[1:]:
        conjunction = And(conjunction, part)
    return conjunction


def restrict(quantifier: str, conditions: Sequence[Proposition], proposition: Proposition) -> Proposition:
    """Returns the proposition that asks the same of only those states in which some conditions hold: of `forall` they are premises, otherwise they hold
    too.
    """
    if not conditions:
        return proposition
    if quantifier == "forall":
        return Or(Not(make_conjunction(conditions)), proposition)
    return make_conjunction([*conditions, proposition])
