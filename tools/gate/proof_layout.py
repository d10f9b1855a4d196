"""Breaks the lines of proofs. The breaks depend only on a proof's words, and not on how its lines were broken before.

    python3 tools gate.proof_layout [--write] [FILE..]

It says which of crates/*/proofs/**/*.antt, or of the files named, are not in this layout; with --write it lays them out. `rt fmt`
preserves what it writes: `rt fmt` sets how far lines are indented, and breaks none.

- What fits on one line of LIMIT columns is on one line, except a `let` that another follows.
- A signature that does not fit has a line for each premise, and for what they prove.
- A term that does not fit after its `=` or `↦` begins a line. A chain of operators then has a line for each of its terms; those of
  lists and sums are filled. A function's arguments fill lines, each whole.
- A term in brackets is broken only if it is itself longer than a line, and then in the same way. Tuples, records and the cases of an
  `elim` that do not fit have a line for each item.

Lines with comments between them, imports, and words that tools/shared/antt_terms.py does not read stay as they are. A file is
written only if its words are the same before and after. The last line is 'N passed, M failed'.
"""
from __future__ import annotations

import os
import sys
from collections.abc import Callable, Iterator, Sequence

from gate.cases import Comparison
from gate.layout_texts import TEXTS
from shared import antt, command, start
from shared.antt import Sentence
from shared.antt_terms import (
    LEVELS, Application, Bracket, Chain, Item, Lambda, Let, Node, Rows, Term, Unread, find_index, format_pattern, group_tokens, raise_if, parse_term,
    parse_word, require_index,
)
from shared.home import HOME

LIMIT = 130
# Operators whose terms fill lines.
FILLED = {"∷", "++", "+", "-", "*", "/", "%", "^"}
MARKS = {"pattern", "unfoldable", "abbrev", "pub", "axiom"}
# The first words of sentences that are neither signatures nor clauses.
NO_DECLARATION = {"use", "mod", "open", "infix", "infixl", "infixr", "unfolding", "ruleset", "mutual", "deriving", "where"}
BLOCKS = {"module", "record", "data"}


class Page:
    """The lines of a sentence as they are written, indented as rt fmt does: a line continues four columns to the right of what it belongs
    to.
    """

    def __init__(self, base: int) -> None:
        """Starts a page whose first line is indented by `base` blanks."""
        self.base, self.line = base, " " * base
        self.lines: list[str] = []

    @property
    def columns_left(self) -> int:
        """Returns the number of columns that are left of the line."""
        return LIMIT - len(self.line)

    @property
    def new_line_columns(self) -> int:
        """Returns the number of columns that a term has on a new line that continues the sentence."""
        return LIMIT - self.base - 4

    @property
    def is_empty(self) -> bool:
        """Returns whether the line has only blanks."""
        return not self.line.strip()

    def write_text(self, text: str) -> None:
        """Writes a text on the line."""
        self.line += text

    def begin_line(self, indent: int) -> None:
        """Begins a line with a number of blanks."""
        self.lines.append(self.line.rstrip())
        self.line = " " * indent

    def continue_on_new_line(self, term: Term | None) -> None:
        """Continues on a new line, for a term. A tuple that has a line for each item starts on the line before."""
        if is_apart(term, self):
            self.write_text(" ")
        elif not self.is_empty:
            self.begin_line(self.base + 4)

    def put_rows(self, rows: Sequence[Item], put_item: Callable[[Item], None]) -> None:
        """Writes items on lines of their own, between brackets that are open on this line."""
        base, outer = self.base, antt.count_indent(self.line)
        for item in rows:
            self.begin_line(outer + 2)
            self.base = outer + 2
            put_item(item)
        self.begin_line(outer)
        self.base = base


def fits(term: Term, columns: int, tail: int = 0) -> bool:
    """Returns whether a term, and this number of columns after it, fit on a line."""
    return not term.is_chained and len(term.flat) + tail <= columns


def is_apart(term: Term | None, page: Page) -> bool:
    """Returns whether a term is a tuple that has a line for each item, if it starts a line."""
    return isinstance(term, Rows) and not term.head and not fits(term, page.new_line_columns)


# How a term can start after other words, though it does not fit there: up to a bracket whose items have lines of their own.


def find_opening(term: Term) -> str | None:
    """Returns the text before the first line break of a term that ends in items on lines of their own, or `None`."""
    if isinstance(term, Rows):
        return find_rows_opening(term)
    if isinstance(term, Bracket):
        return join_before(f"{term.opening}{term.before}", find_opening(term.inner))
    if isinstance(term, Lambda):
        return join_before(f"{term.head} ", find_opening(term.body)) or term.head
    if isinstance(term, Application) and not any(it.is_chained for it in term.parts[:-1]):
        return join_before("".join(f"{it.flat} " for it in term.parts[:-1]), find_opening(term.parts[-1]))
    if isinstance(term, Chain) and not (term.first.is_chained or any(it.is_chained for _, it in term.others[:-1])):
        first = " ".join([term.first.flat, *(f"{operator} {it.flat}" for operator, it in term.others[:-1]), term.others[-1][0], ""])
        return join_before(first, find_opening(term.others[-1][1]))
    return None


def find_rows_opening(rows: Rows) -> str | None:
    """Returns the text before the first item of some rows, or `None`."""
    if not rows.items or rows.head and rows.head.is_chained:
        return None
    return f"{rows.head.flat} {rows.opening}" if rows.head else rows.opening


def join_before(words: str, opening: str | None) -> str | None:
    """Returns an opening with words before it, or `None` if there is none."""
    return None if opening is None else words + opening


def find_last_part(term: Term) -> Term:
    """Returns the last part of a term: that whose items have lines of their own, with the brackets around it."""
    if isinstance(term, Application):
        return find_last_part(term.parts[-1])
    return find_last_part(term.others[-1][1]) if isinstance(term, Chain) else term


def can_hang(term: Term, columns: int, new_line_columns: int, tail: int) -> bool:
    """Returns whether a term that does not fit on a line of its own can start in the `columns` that are left and end in lines of its own, where no
    bracket that fits on a line is broken. After the term come `tail` further columns.
    """
    opening, last = find_opening(term), find_last_part(term)
    if opening is None or len(opening) > columns or fits(term, new_line_columns, tail):
        return False
    return isinstance(last, Rows) and last.opening == "[" or not fits(last, new_line_columns, tail)


# Writing terms. `tail` columns must fit after a term on its last line.


def put_term(page: Page, term: Term, tail: int) -> None:
    """Writes a term from the page's position."""
    if fits(term, page.columns_left, tail):
        page.write_text(term.flat)
    elif isinstance(term, Bracket):
        page.write_text(f"{term.opening}{term.before}")
        put_term(page, term.inner, tail + len(term.closing))
        page.write_text(term.closing)
    elif type(term) in WRITERS:
        WRITERS[type(term)](page, term, tail)
    else:
        page.write_text(term.flat)


def put_after(page: Page, term: Term, tail: int) -> None:
    """Writes a term after other words: on their line if it fits there or can start there, otherwise on the next."""
    if fits(term, page.columns_left - 1, tail) or can_hang(term, page.columns_left - 1, page.new_line_columns, tail):
        page.write_text(" ")
    else:
        page.continue_on_new_line(term)
    put_term(page, term, tail)


def put_rows(page: Page, rows: Rows, tail: int) -> None:
    """Writes rows: each item on a line of its own."""
    if rows.head:
        put_term(page, rows.head, 2)
        page.write_text(" ")
    page.write_text(rows.opening)
    if rows.items:
        page.put_rows(rows.items, lambda item: put_item(page, rows, *item))
    page.write_text(rows.closing)


def put_item(page: Page, rows: Rows, words: str, term: Term) -> None:
    """Writes an item of some rows: the words before it, and its term."""
    page.write_text(rows.lead + words)
    if words:
        put_after(page, term, len(rows.end))
    else:
        put_term(page, term, len(rows.end))
    page.write_text(rows.end)


def put_application(page: Page, term: Application, tail: int) -> None:
    """Writes a function and its arguments: each argument whole, in as few lines as they fill."""
    *parts, last = term.parts
    if can_hang(term, page.columns_left, page.new_line_columns, tail):
        page.write_text("".join(f"{it.flat} " for it in parts))
        put_term(page, last, tail)
        return
    put_term(page, parts[0], 0)
    for part in parts[1:]:
        put_after(page, part, 0)
    if parts[1:] or fits(last, page.columns_left - 1, tail):
        put_after(page, last, tail)
    else:
        # (A function's only argument stays with it.)
        page.write_text(" ")
        put_term(page, last, tail)


def put_chain(page: Page, term: Chain, tail: int) -> None:
    """Writes terms with operators between them."""
    *others, (operator, last) = term.others
    if operator in LEVELS and operator != "→" and can_hang(term, page.columns_left, page.new_line_columns, tail):
        page.write_text(" ".join([term.first.flat, *(f"{mark} {it.flat}" for mark, it in others), operator, ""]))
        put_term(page, last, tail)
        return
    put_term(page, term.first, 0)
    for mark, part in term.others:
        columns_after = tail if part is last else 0
        if mark in FILLED and fits(part, page.columns_left - len(mark) - 2, columns_after):
            page.write_text(f" {mark} {part.flat}")
        else:
            page.continue_on_new_line(None)
            page.write_text(f"{mark} ")
            put_term(page, part, columns_after)


def put_lambda(page: Page, term: Lambda, tail: int) -> None:
    """Writes a `λ` and its body."""
    page.write_text(term.head)
    put_after(page, term.body, tail)


def put_let(page: Page, term: Let, tail: int) -> None:
    """Writes a `let`: the value, and the body after it."""
    page.write_text(f"let {term.name}")
    if term.kind:
        page.write_text(" : ")
        put_term(page, term.kind, 2)
    page.write_text(" =")
    put_after(page, term.value, 5 if is_apart(term.body, page) else 3)
    page.write_text(" in")
    page.continue_on_new_line(term.body)
    if isinstance(term.body, Let):
        put_let(page, term.body, tail)
    else:
        put_term(page, term.body, tail)


WRITERS: dict[type, Callable[..., None]] = {Rows: put_rows, Application: put_application, Chain: put_chain, Lambda: put_lambda, Let: put_let}


# Sentences.


def put_block(page: Page, nodes: list[Node]) -> None:
    """Writes the head of a module, a record or a type: its words and binders fill lines."""
    raise_if(nodes[-1] != "where", "a head")
    colon = find_index(nodes, ":")
    *parts, last = [parse_word(it) for it in nodes[: len(nodes) - 1 if colon is None else colon]]
    end = " where" if colon is None else f" : {parse_term(nodes[colon + 1 : -1]).flat} where"
    page.write_text(" ".join(it.flat for it in parts[:1]))
    for part in parts[1:]:
        put_after(page, part, 0)
    put_after(page, last, len(end))
    page.write_text(end)


def put_signature(page: Page, nodes: list[Node], colon: int) -> None:
    """Writes a signature, whose colon has an index."""
    term = parse_term(nodes[colon + 1 :])
    first = term.first if isinstance(term, Chain) else term
    has_binders = isinstance(first, Application) and isinstance(first.parts[0], Bracket)
    page.write_text(f"{format_pattern(nodes[:colon])} :")
    if has_binders or fits(first, page.columns_left - 1) or not fits(first, page.new_line_columns):
        page.write_text(" ")
    else:
        page.continue_on_new_line(None)
    put_term(page, term, 0)


def put_clause(page: Page, nodes: list[Node], equals: int) -> None:
    """Writes a clause, whose sign of equality has an index."""
    page.write_text(f"{format_pattern(nodes[:equals])} =")
    put_after(page, parse_term(nodes[equals + 1 :]), 0)


def lay_out(sentence: Sentence) -> list[str]:
    """Returns the lines of a sentence in this layout, or unchanged."""
    raise_if(antt.has_comment(sentence.text) or "" in sentence.lines, "a comment")
    nodes = group_tokens(antt.parse_tokens(sentence.text))
    words = [it for it in nodes if it not in MARKS]
    page = Page(sentence.indent)
    if not isinstance(words[0], str) or words[0] in NO_DECLARATION:
        return sentence.lines
    if words[0] in BLOCKS:
        put_block(page, nodes)
    else:
        index = require_index(nodes, "no sentence", ":", "=")
        (put_signature if nodes[index] == ":" else put_clause)(page, nodes, index)
    return [*page.lines, page.line]


def lay_out_checked(sentence: Sentence) -> list[str]:
    """Returns the lines of a sentence, if they have the same words."""
    try:
        lines = lay_out(sentence)
    except Unread:
        return sentence.lines
    is_same = parse_tokens("\n".join(lines)) == parse_tokens(sentence.text)
    # (A line that is not broken, and fits, shows how words are spaced.)
    is_spaced = len(sentence.lines) > 1 or len(lines) > 1 or lines == sentence.lines
    return lines if is_same and is_spaced else sentence.lines


def parse_tokens(text: str) -> list[str]:
    """Returns the tokens of a text, without those that only items on lines of their own have."""
    tokens, kept_tokens = antt.parse_tokens(text), []
    for index, token in enumerate(tokens):
        is_end = token in (",", ";") and tokens[index + 1 : index + 2] and tokens[index + 1] in antt.CLOSING
        is_lead = token == "|" and index and tokens[index - 1] == "["
        if not is_end and not is_lead:
            kept_tokens.append(token)
    return kept_tokens


def lay_out_text(text: str) -> str:
    """Returns a file's text in this layout."""
    if "{-" in text or " \n" in text:
        return text
    lines = [line for it in antt.parse_sentences(text) for line in (it.lines if it.is_between else lay_out_checked(it))]
    return "\n".join(lines)


def check_texts() -> int:
    """Checks that the texts of layout_texts.py are laid out as they say, and stay so. Prints what differs, and returns how many pass."""
    passed = 0
    for text, expected in TEXTS:
        layouts = lay_out_text(text), lay_out_text(expected)
        passed += layouts == (expected, expected)
        if layouts != (expected, expected):
            print(f"a text is laid out so:\n{layouts[0] if layouts[0] != expected else layouts[1]}\nwanted:\n{expected}")
    return passed


def check_file(path: str, is_writing: bool) -> bool:
    """Checks that a file is in this layout. Reports it if it is not, and lays it out if that is requested."""
    text = read_text(path)
    new = lay_out_text(text)
    if new == text:
        return True
    print(os.path.relpath(path, HOME))
    if parse_tokens(new) != parse_tokens(text):
        print("  its words would change: it is left as it is")
    elif is_writing:
        with open(path, "w", encoding="utf-8") as file:
            file.write(new)
    return False


def make_comparisons() -> Iterator[Comparison]:
    """Yields how each text of layout_texts.py is laid out, and the proofs that are not in this layout: for tools/check_documents.py."""
    for text, expected in TEXTS:
        yield "a proof's layout (tools/gate/proof_layout.py)", (expected, expected), (lay_out_text(text), lay_out_text(expected))
    paths = antt.list_files("proofs/**/*.antt")
    yield "there are proofs to lay out", True, len(paths) > 500
    others = [os.path.relpath(it, HOME) for it in paths if lay_out_text(read_text(it)) != read_text(it)]
    yield "proofs that are not laid out as `python3 tools gate.proof_layout --write` does", [], others


def read_text(path: str) -> str:
    """Returns the text of a file."""
    with open(path, encoding="utf-8") as file:
        return file.read()


def main() -> int:
    """Runs the command that the arguments describe. Returns the exit status."""
    reader = command.Reader(__doc__)
    reader.add_argument("files", nargs="*", metavar="FILE")
    reader.add_argument("--write", action="store_true")
    arguments = reader.read()
    paths = arguments.files or antt.list_files("proofs/**/*.antt")
    passed = check_texts() + sum(check_file(it, arguments.write) for it in paths)
    failed = len(TEXTS) + len(paths) - passed
    print(f"{passed} passed, {failed} failed")
    return 1 if failed else 0


if __name__ == "__main__":
    sys.exit(start.run(main))
