"""The condition of a program, in herd's words: `exists (0:r0=0 /\\ x=&n1)`."""
from __future__ import annotations

from typing import Any, NamedTuple, Union

from herd.propositions import PropositionReader
from herd.text import Refused, TOKEN, Token
from plain import Constant, Eq, Not, Proposition, list_parts


class ThreadValue(NamedTuple):
    """A value of a thread in a condition: a local variable, what `lw_see` says, or `return`."""

    thread: int
    name: str


class Global(NamedTuple):
    """A global, or the place some bytes after its start: x, x+8."""

    name: str


class Address(NamedTuple):
    """The address of a global: &x, &x+8."""

    name: str


Site = Union[ThreadValue, Global]


class Condition(NamedTuple):
    """A quantifier, a proposition, whose sites are of the program and whose words are numbers or addresses, and the text."""

    quantifier: str
    proposition: Proposition
    text: str

    def list_atoms(self) -> list[Eq]:
        """Returns the atoms of the proposition."""
        return list_atoms(self.proposition)

    def collect_names(self) -> dict[int, set[str]]:
        """Returns the names that the condition mentions, by thread."""
        names: dict[int, set[str]] = {}
        for atom in self.list_atoms():
            if isinstance(atom.site, ThreadValue):
                names.setdefault(atom.site.thread, set()).add(atom.site.name)
        return names

    def list_globals(self) -> list[str]:
        """Returns the globals that the condition mentions, without duplicates."""
        return list(dict.fromkeys(it.site.name for it in self.list_atoms() if isinstance(it.site, Global)))


def list_atoms(proposition: Proposition) -> list[Eq]:
    """Returns the atoms of a proposition."""
    if isinstance(proposition, Eq):
        return [proposition]
    return [] if isinstance(proposition, Constant) else [atom for part in list_parts(proposition) for atom in list_atoms(part)]


class ConditionReader(PropositionReader):
    """A reader of a condition whose sites have the names of the source."""

    def read_condition(self, text: str) -> Condition:
        """Reads the whole condition. Raises Refused if something follows it."""
        quantifier = self.read_quantifier()
        proposition = self.read_implication()
        if self.token.kind != "end":
            raise self.make_misplaced_refusal("the end of the condition")
        return Condition(quantifier, proposition, text)

    def read_atom(self) -> Proposition:
        """Reads a site and the word that it has, or has not."""
        site = self.read_site()
        sign = self.take_token("=", "==", "<>", "!=").text
        equation = Eq(site, self.read_word(site))
        return equation if sign in ("=", "==") else Not(equation)

    def read_name_with_offset(self) -> str:
        """Reads a name, and a number that is added. Raises Refused if there is no name."""
        if self.token.kind != "name":
            raise self.make_misplaced_refusal("a name")
        name = self.take_token().text
        if self.take_token_if("+"):
            number = self.read_signed()
            name += f"+{number}" if number else ""
        return name

    def read_site(self) -> Site:
        """Reads a global, or a value of a thread."""
        if self.token.kind == "number" or self.peek(1) == ":":
            return self.read_thread_value()
        if self.take_token_if("["):
            site = Global(self.read_name_with_offset())
            self.take_token("]")
            return site
        return Global(self.read_name_with_offset())

    def read_thread_value(self) -> ThreadValue:
        """Reads a value of a thread, such as 0:r0 or P0:r0. Raises Refused if the thread or the name is none."""
        offset, digits = self.token.offset, self.take_token().text.lstrip("P")
        if not digits.isdigit() or int(digits) > 3:
            raise Refused(f"found '{digits}', expected the number of a thread from 0 to 3", offset)
        self.take_token(":")
        if self.token.kind != "name":
            raise self.make_misplaced_refusal("a name")
        return ThreadValue(int(digits), self.take_token().text)

    def read_word(self, site: Any) -> Any:
        """Reads a number, or the address of a global, as an Address. Raises Refused if a number has more than 64 bits."""
        if self.take_token_if("&") or self.token.kind == "name":
            return Address(self.read_name_with_offset())
        offset, number = self.token.offset, self.read_signed("a number or the address of a global")
        if not -(2**63) <= number < 2**64:
            raise Refused(f"{number} does not fit into a word of 64 bits", offset)
        return number


def read_condition(text: str, begin: int, end: int) -> Condition:
    """Reads the condition in a part of a text. Raises Refused at the first character that is no part of one."""
    offset, tokens = begin, []
    while offset < end:
        match = TOKEN.match(text, offset, end)
        if not match:
            raise Refused(f"'{text[offset]}' is no token of a condition", offset)
        if match.lastgroup != "blank":
            tokens.append(Token(match.lastgroup or "", match[0], offset))
        offset = match.end()
    return ConditionReader([*tokens, Token("end", "", end)]).read_condition(" ".join(text[begin:end].split()))
