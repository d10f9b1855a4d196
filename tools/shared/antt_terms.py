"""Reads the terms of .antt files: what is nested in what, by words, brackets and operators. Names mean nothing here.

Each term has a `flat` text, which is the term on one line. What is not read here (`do`, `unfold`, operators that OPERATORS has not)
raises Unread.
"""
from __future__ import annotations

from collections.abc import Callable, Sequence
from typing import Any, Tuple, Union

from shared.antt import CLOSING, OPENING

# Operators, by increasing precedence. Those of a row have the same.
OPERATORS = (
    ("→",), ("↔",), ("⊎",), ("×",), ("≡", "≢"), ("<", "≤", "==", "⊑"), ("∙",), ("||",), ("&&",), ("∷", "++"), ("+", "-"), ("*", "/", "%"),
    ("^",),
)
LEVELS = {operator: level for level, row in enumerate(OPERATORS) for operator in row}
# Words of signs only that are no infix operators.
ATOMS = {"?", "[]", "⊥", "¬", "←"}
UNREAD = {"do", "unfold", "where", "mutual"}
CLOSED_BY = dict(zip(OPENING, CLOSING))
# A group of a term's tokens: a word, or a group in brackets.
Node = Union[str, "Group"]


class Unread(Exception):
    """Text that is no term as it is read here."""


class Group:
    """The content of a pair of brackets, and a field's name after them."""

    def __init__(self, opening: str, inner: list[Node]) -> None:
        """Makes the group of an opening bracket and its content."""
        self.opening, self.inner, self.suffix = opening, inner, ""


def group_tokens(tokens: list[str]) -> list[Node]:
    """Returns words and groups for the tokens of a term. Raises Unread if brackets do not match."""
    stack: list[tuple[str, list[Node]]] = [("", [])]
    for token in tokens:
        if token in OPENING:
            stack.append((token, []))
        elif token in CLOSING:
            opening, inner = stack.pop()
            if CLOSED_BY.get(opening) != token:
                raise Unread(token)
            stack[-1][1].append(Group(opening, inner))
        elif token.startswith(".") and len(token) > 1:
            last = stack[-1][1][-1] if stack[-1][1] else None
            if not isinstance(last, Group):
                raise Unread(token)
            last.suffix += token
        else:
            stack[-1][1].append(token)
    if len(stack) != 1:
        raise Unread("an open bracket")
    return stack[0][1]


# Terms.


class Term:
    """A term, with its text on one line, and whether two lets follow one another in it: such terms are never on one line."""

    flat: str
    is_chained: bool


# An item of a list: the text before its term, and the term.
Item = Tuple[str, Term]


class Word(Term):
    """A word, which is never broken."""

    is_chained = False

    def __init__(self, flat: str) -> None:
        """Makes a word."""
        self.flat = flat


class Bracket(Term):
    """A term in brackets, with what precedes it in them (`x : `, `x = `)."""

    def __init__(self, opening: str, before: str, inner: Term, suffix: str) -> None:
        """Makes a bracket. `suffix` is a field's name after the closing bracket."""
        self.opening, self.before, self.inner, self.closing = opening, before, inner, CLOSED_BY[opening] + suffix
        self.flat = f"{opening}{before}{inner.flat}{self.closing}"
        self.is_chained = inner.is_chained


class Rows(Term):
    """Items of which each has its own line if they do not fit on one: of a tuple, of a record, or the cases of an `elim`.

    An item is a prefix and a term; `lead` is written before each item if they are on separate lines, and `end` after it.
    """

    def __init__(self, head: Term | None, opening: str, items: list[Item], closing: str) -> None:
        """Makes rows after a head, if they have one. The text of the closing bracket may have a field's name."""
        self.head, self.opening, self.items, self.closing = head, opening, items, closing
        self.lead, self.end, between, inside = {"(": ("", ",", ", ", ""), "{": ("", ";", "; ", " "), "[": ("| ", "", " | ", " ")}[opening]
        inner = between.join(f"{before} {it.flat}".strip() for before, it in items)
        before = head.flat + " " if head else ""
        self.flat = f"{before}{opening}{inside}{inner}{inside if inner else ''}{closing}"
        self.is_chained = any(it.is_chained for _, it in items) or head is not None and head.is_chained


class Application(Term):
    """A function and its arguments, or binders in sequence."""

    def __init__(self, parts: Sequence[Term]) -> None:
        """Makes a term of a function and its arguments."""
        self.parts = parts
        self.flat = " ".join(it.flat for it in parts)
        self.is_chained = any(it.is_chained for it in parts)


class Chain(Term):
    """Terms with operators of one precedence between them, or with words (`then`, `else`). An operator precedes its second term."""

    def __init__(self, first: Term, others: list[Item]) -> None:
        """Makes a chain of a first term, and of others with their operators."""
        self.first, self.others = first, others
        self.flat = " ".join([first.flat, *(f"{operator} {it.flat}" for operator, it in others)])
        self.is_chained = first.is_chained or any(it.is_chained for _, it in others)


class Lambda(Term):
    """A function: its `λ` with what it binds, and its body."""

    def __init__(self, head: str, body: Term) -> None:
        """Makes a function; `head` is its `λ` with what it binds."""
        self.head, self.body = head, body
        self.flat, self.is_chained = f"{head} {body.flat}", body.is_chained


class Let(Term):
    """A `let`: the name or pattern, its type if it is written, the value, and the body."""

    def __init__(self, name: str, kind: Term | None, value: Term, body: Term) -> None:
        """Makes a `let`; `kind` is the type."""
        self.name, self.kind, self.value, self.body = name, kind, value, body
        typed = f" : {kind.flat}" if kind else ""
        self.flat = f"let {name}{typed} = {value.flat} in {body.flat}"
        self.is_chained = isinstance(body, Let) or body.is_chained or value.is_chained


# Reading.


def raise_if(holds: bool, why: str) -> None:
    """Raises Unread for a cause if a condition holds."""
    if holds:
        raise Unread(why)


def split_nodes(nodes: Sequence[Node], mark: str) -> list[list[Node]]:
    """Returns the parts of a list of nodes between the marks, without empty ones at its ends."""
    parts: list[list[Node]] = [[]]
    for node in nodes:
        if node == mark:
            parts.append([])
        else:
            parts[-1].append(node)
    return [it for index, it in enumerate(parts) if it or 0 < index < len(parts) - 1]


def find_index(nodes: Sequence[Node], *marks: str) -> int | None:
    """Returns the index of the first of these words among some nodes, or `None`."""
    return next((index for index, it in enumerate(nodes) if it in marks), None)


def require_index(nodes: Sequence[Node], unread: str, *marks: str) -> int:
    """Returns the index of the first of these words. Raises Unread for a cause if there is none."""
    index = find_index(nodes, *marks)
    if index is None:
        raise Unread(unread)
    return index


def is_sign(word: str) -> bool:
    """Returns whether a word consists of signs only, and so may be an infix operator."""
    return not any(it.isalnum() or it in "◌\"'_" for it in word) and word not in ATOMS


def parse_let(nodes: Sequence[Node]) -> Let:
    """Returns the `let` of some nodes. It ends at its own `in`, after those of the lets inside its value. Raises Unread if it has another form."""
    equals = require_index(nodes, "a let", "=")
    colon = find_index(nodes[:equals], ":")
    kind = None if colon is None else parse_term(nodes[colon + 1 : equals])
    open_lets, index = 1, equals
    while open_lets:
        index += 1
        raise_if(index == len(nodes), "a let with no in")
        open_lets += (nodes[index] == "let") - (nodes[index] == "in")
    name = format_pattern(nodes[1 : equals if colon is None else colon])
    return Let(name, kind, parse_term(nodes[equals + 1 : index]), parse_term(nodes[index + 1 :]))


def format_pattern(nodes: Sequence[Node]) -> str:
    """Returns a pattern or binders on one line."""
    return " ".join(it.flat for it in join_terms(nodes, parse_word))


def parse_lambda(nodes: Sequence[Node]) -> Lambda:
    """Returns the `λ` of some nodes: what it binds, a dot and a body. Raises Unread if it has another form."""
    dot = require_index(nodes, "a λ", ".")
    return Lambda(f"λ {format_pattern(nodes[1:dot])}.", parse_term(nodes[dot + 1 :]))


def parse_items(group: Group, *marks: str) -> list[Item]:
    """Returns the items of a record or of cases: for each the words up to and with a mark, and the term after it. Raises Unread if one lacks the
    mark.
    """
    items = []
    for part in split_nodes(group.inner, "|" if group.opening == "[" else ";"):
        index = require_index(part, "an item", *marks)
        items.append((f"{format_pattern(part[:index])} {part[index]}", parse_term(part[index + 1 :])))
    return items


def parse_group(group: Group) -> Term:
    """Returns the term of a group that is used as a word: a tuple, a bracketed term, a binder, an implicit argument. Raises Unread for another group.
    """
    nodes = group.inner
    raise_if(group.opening == "[" or not nodes or ";" in nodes, "a group")
    if "," in nodes:
        raise_if(group.opening == "{" and any(not isinstance(it, str) for it in nodes), "levels")
        if group.opening == "{":
            return Word("{" + ", ".join(" ".join(map(str, it)) for it in split_nodes(nodes, ",")) + "}" + group.suffix)
        return Rows(None, "(", [("", parse_term(it)) for it in split_nodes(nodes, ",")], ")" + group.suffix)
    before: list[Node] = []
    mark = find_index(nodes, ":", "=")
    if nodes[0] not in ("let", "λ") and mark is not None:
        before, nodes = nodes[: mark + 1], nodes[mark + 1 :]
        raise_if(any(not isinstance(it, str) for it in before), "a binder")
    return Bracket(group.opening, "".join(f"{it} " for it in before), parse_term(nodes), group.suffix)


def parse_word(node: Node) -> Term:
    """Returns the term of a word or a group. Raises Unread for a sign or a word of the language."""
    if isinstance(node, Group):
        return parse_group(node)
    raise_if(node in UNREAD or node in CLOSED_BY or node in ".,;@" or is_sign(node), node)
    return Word(node)


def find_group(nodes: Sequence[Node], begin: int, end: int, opening: str) -> tuple[int, Group]:
    """Returns the first group with an opening bracket from one index to another, and its own index. Raises Unread if there is none."""
    for index, node in enumerate(nodes[begin:end], begin):
        if isinstance(node, Group) and node.opening == opening:
            return index, node
    raise Unread("an elim" if opening == "[" else "a record")


def parse_elim(nodes: Sequence[Node], index: int) -> tuple[Term, int]:
    """Returns the `elim` at an index, and the index after it. Raises Unread if it has no bracket."""
    end, group = find_group(nodes, index, len(nodes), "[")
    head = apply_terms([Word("elim"), *join_terms(nodes[index + 1 : end], parse_word)])
    return Rows(head, "[", parse_items(group, "↦"), "]" + group.suffix), end + 1


def parse_record(nodes: Sequence[Node], index: int) -> tuple[Term, int]:
    """Returns the record at an index, or a record with other fields, and the index after it. Raises Unread if it has no bracket."""
    end, group = find_group(nodes, index + 1, index + 3, "{")
    head = apply_terms([Word("record"), *join_terms(nodes[index + 1 : end], parse_word)])
    if not group.inner:
        return Word(f"{head.flat} {{}}{group.suffix}"), end + 1
    return Rows(head, "{", parse_items(group, "=", ":"), "}" + group.suffix), end + 1


def join_terms(nodes: Sequence[Node], parse: Callable[[Node], Any]) -> list[Any]:
    """Returns what `parse` makes of each word and group, but one term for each `elim` or `record` with its bracket."""
    terms, index = [], 0
    while index < len(nodes):
        if nodes[index] in ("elim", "record"):
            term, index = (parse_elim if nodes[index] == "elim" else parse_record)(nodes, index)
            terms.append(term)
        else:
            terms.append(parse(nodes[index]))
            index += 1
    return terms


def parse_term(nodes: Sequence[Node]) -> Term:
    """Returns the term of some words and groups. Raises Unread if they are none."""
    raise_if(not nodes, "nothing")
    if nodes[0] == "let":
        return parse_let(nodes)
    if nodes[0] == "λ":
        return parse_lambda(nodes)
    if nodes[0] == "if":
        return parse_if(nodes)
    tail = find_index(nodes, "let", "λ", "if")
    last = [] if tail is None else [parse_term(nodes[tail:])]
    return parse_operators(join_terms(nodes[:tail], lambda it: it if it in LEVELS else parse_word(it)) + last)


def parse_if(nodes: Sequence[Node]) -> Chain:
    """Returns the `if` of some nodes, with its `then` and `else`. Raises Unread if it has another form."""
    then, other = require_index(nodes, "an if", "then"), require_index(nodes, "an if", "else")
    raise_if("if" in nodes[1:other], "an if")
    first = Application([Word("if"), parse_term(nodes[1:then])])
    return Chain(first, [("then", parse_term(nodes[then + 1 : other])), ("else", parse_term(nodes[other + 1 :]))])


def apply_terms(terms: Sequence[Term]) -> Term:
    """Returns the first of some terms applied to the others. Raises Unread if there is none."""
    raise_if(not terms, "nothing")
    return terms[0] if len(terms) == 1 else Application(terms)


def parse_operators(terms: Sequence[Any]) -> Term:
    """Returns the term of a list of terms and operators, which are texts: the operators of the lowest level split it first."""
    operators = [part for part in terms if isinstance(part, str)]
    if not operators:
        return apply_terms(terms)
    least = min(LEVELS[part] for part in operators)
    parts: list[list] = [[]]
    marks = []
    for part in terms:
        if isinstance(part, str) and LEVELS[part] == least:
            marks.append(part)
            parts.append([])
        else:
            parts[-1].append(part)
    first, *others = map(parse_operators, parts)
    return Chain(first, list(zip(marks, others)))
