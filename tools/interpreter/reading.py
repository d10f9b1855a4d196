"""Reads a whole test, by docs/FORMAT.md."""
from __future__ import annotations

import re
from collections.abc import Callable, Iterator
from dataclasses import replace
from typing import Tuple, TypeVar

from interpreter.tests import (
    And, Constant, Eq, LocationSite, NoTest, Not, Number, Or, Proposition, REGISTERS, Register, RegisterSite, Site, Statement, Test, Value, WORD,
)
from interpreter.tokens import Token, parse_tokens, quote, quote_at, skip_comment, skip_notes

RESERVED = re.compile(
    r"r\d+|if|goto|swap|fetchadd|exists|forall|locations|filter|true|false|not|(?i:EAX|EBX|ECX|EDX|ESI|EDI|EBP|ESP)"
)
BLANKS = re.compile(r"[ \t\r\n]*")
LANGUAGE = re.compile(r"(SRC|X86)(?!\w)")
NAME_OF_TEST = re.compile(r"[!-~]{1,128}(?![^ \t\r\n])")
MAX_BYTES = 65536
MAX_THREADS = 4
MAX_LOCATIONS = 8
MAX_LETTERS = 32  # of a name
MAX_ROWS = 64
MAX_NODES = 256
MAX_STATEMENTS = {"SRC": 16, "X86": 32}
Entry = TypeVar("Entry")
# The indices of a cell's first token and of the one after it.
Cell = Tuple[int, int]


class Reader:
    """A reader of the tokens of a test after its notes, from left to right, and then of those of each cell."""

    def __init__(self, language: str, name: str, tokens: list[Token], offsets: list[int]) -> None:
        """Makes a reader of the tokens of a test, with the offset of each in the text."""
        self.test = Test(language, name)
        self.names = REGISTERS[language]
        self.tokens = tokens
        self.offsets = offsets
        self.index = 0
        self.end = len(tokens)  # of the cell that is read, or of the tokens
        self.nodes = 0  # of the condition, as far as it is read
        self.threads_named: list[tuple[int, int]] = []  # numbers of threads, each with the number of its token

    def peek_text(self) -> str | None:
        """Returns the text of the next token, or `None` at the end."""
        return self.tokens[self.index][1] if self.index < self.end else None

    def peek_kind(self) -> str | None:
        """Returns the kind of the next token, or `None` at the end."""
        return self.tokens[self.index][0] if self.index < self.end else None

    def quote_last(self) -> str:
        """Returns the token that was read last, in quotes."""
        return quote(self.tokens[self.index - 1][1])

    def make_fault(self, cause: str, index: int | None = None) -> NoTest:
        """Returns the fault at a token, by default the next one."""
        return NoTest(cause, self.offsets[self.index if index is None else index])

    def make_fault_at_last(self, cause: str) -> NoTest:
        """Returns the fault at the token that was read last."""
        return self.make_fault(cause, self.index - 1)

    def make_misplaced_fault(self, expected: str) -> NoTest:
        """Returns the fault of the next token if something else is expected."""
        end, text = "the end of the text" if self.index == len(self.tokens) else "the end of the cell", self.peek_text()
        return self.make_fault(f"found {end if text is None else quote(text)}, expected {expected}")

    def take_token(self, expected: str | None = None) -> str:
        """Reads the next token, which must be `expected` unless that is `None`. Returns its text, which is empty at the end. Raises NoTest if it is
        another token.
        """
        text = self.peek_text()
        if expected is not None and text != expected:
            raise self.make_misplaced_fault(quote(expected))
        self.index += 1
        return text or ""

    def read_number(self) -> int:
        """Reads a number, which is a word. Raises NoTest if it is none, or too large."""
        if self.peek_kind() != "number":
            raise self.make_misplaced_fault("a number")
        text = self.take_token()
        # Eleven digits are too many, and Python reads no number of thousands.
        value = int(text, 16) if text.startswith("0x") else int(text.lstrip("0")[:11] or "0")
        if value >= WORD:
            raise self.make_fault_at_last(f"the number is larger than {WORD - 1}")
        return value

    def read_name(self, expected: str = "a name") -> str:
        """Reads a name. `expected` says in a fault what is missing. Raises NoTest if it is none, or too long."""
        if self.peek_kind() != "name":
            raise self.make_misplaced_fault(expected)
        if len(self.peek_text() or "") > MAX_LETTERS:
            raise self.make_fault(f"the name has more than {MAX_LETTERS} letters")
        return self.take_token()

    def find_register(self, text: str) -> int | None:
        """Returns the index of a register, or `None`."""
        text = text.upper() if self.test.language == "X86" else text
        return self.names.index(text) if text in self.names else None

    def read_register(self, expected: str = "a register") -> int:
        """Reads a register. Returns its index. Raises NoTest if it is none."""
        register = self.find_register(self.read_name(expected))
        if register is None:
            kind = "a source test" if self.test.language == "SRC" else "an x86 test"
            raise self.make_fault_at_last(f"{self.quote_last()} is no register of {kind}")
        return register

    def read_location(self) -> int:
        """Reads a location. Returns its index; a new one is appended to the table. Raises NoTest if it is none, or the table is full."""
        name = self.read_name("a location")
        if RESERVED.fullmatch(name):
            raise self.make_fault_at_last(f"{self.quote_last()} is a reserved name, and no location")
        if name not in self.test.locations:
            self.test.locations.append(name)
        if len(self.test.locations) > MAX_LOCATIONS:
            raise self.make_fault_at_last(f"there are more than {MAX_LOCATIONS} locations")
        return self.test.locations.index(name)

    def read_bracketed_location(self) -> int:
        """Reads a location in brackets. Returns its index."""
        self.take_token("[")
        location = self.read_location()
        self.take_token("]")
        return location

    def read_site(self) -> Site:
        """Reads a location or a thread's register, as the block, the list and the condition name it. Raises NoTest if it is neither."""
        if self.peek_text() == "[":
            return LocationSite(self.read_bracketed_location())
        if self.peek_kind() == "number":
            self.threads_named.append((self.read_number(), self.index - 1))
            thread = self.threads_named[-1][0]
            self.take_token(":")
            return RegisterSite(thread, self.read_register())
        return LocationSite(self.read_location())

    def read_entries(self, read_entry: Callable[[], Entry], end: str) -> Iterator[Entry]:
        """Yields the entries up to the closing bracket `end`, each by `read_entry` and ended by `;`, which may be absent after the last."""
        while self.peek_text() != end:
            yield read_entry()
            if self.peek_text() != end:
                self.take_token(";")
        self.take_token(end)

    def read_equation(self) -> tuple[Site, int]:
        """Reads a site, `=` and a number, as the initial block and atoms have them. Returns the site and the number."""
        site = self.read_site()
        self.take_token("=")
        return site, self.read_number()

    def read_header(self) -> int:
        """Reads the header. Returns the number of threads. Raises NoTest if there are more than four."""
        threads = 0
        while True:
            self.take_token(f"P{threads}")
            threads += 1
            if threads > MAX_THREADS:
                raise self.make_fault_at_last(f"there are more than {MAX_THREADS} threads")
            if self.peek_text() != "|":
                self.take_token(";")
                return threads
            self.take_token("|")

    def read_rows(self, threads: int) -> list[list[Cell]]:
        """Reads the rows of the program. Returns the cells of each thread. Raises NoTest if there are too many rows, or a row has no end."""
        columns: list[list[Cell]] = [[] for _ in range(threads)]
        while self.peek_text() not in ("locations", "exists", "forall", "filter", "~"):
            if len(columns[0]) == MAX_ROWS and self.peek_text() is not None:
                raise self.make_fault(f"there are more than {MAX_ROWS} rows")
            for column in columns:
                begin = self.index
                while self.peek_text() not in ("|", ";"):
                    if self.peek_text() is None:
                        raise self.make_misplaced_fault("'|' or ';'")
                    self.take_token()
                column.append((begin, self.index))
                self.read_cell_end(is_last=column is columns[-1])
        return columns

    def read_cell_end(self, is_last: bool) -> None:
        """Reads what ends a cell: `|`, or `;` after the last of a row. Raises NoTest if the row has too few or too many cells."""
        if self.peek_text() != (";" if is_last else "|"):
            raise self.make_fault(f"the row has {'more' if is_last else 'fewer'} cells than there are threads")
        self.take_token()

    def read_quantifier(self) -> str:
        """Reads `exists`, `~exists` or `forall`. Raises NoTest if it is none of them."""
        if self.peek_text() == "~":
            self.take_token("~")
            return "~" + self.take_token("exists")
        if self.peek_text() not in ("exists", "forall"):
            raise self.make_misplaced_fault("the condition")
        return self.take_token()

    def take_node(self) -> str:
        """Reads the next token, which is a node of the condition, and counts it. Returns its text. Raises NoTest if there are too many nodes."""
        self.count_node()
        return self.take_token()

    def count_node(self) -> None:
        """Counts a node of the condition. Raises NoTest if there are more than MAX_NODES."""
        self.nodes += 1
        if self.nodes > MAX_NODES:
            raise self.make_fault(f"the condition has more than {MAX_NODES} nodes")

    def read_atom(self) -> Proposition:
        """Reads an atom, a proposition in parentheses, or a negation. Raises NoTest if it is none of them."""
        if self.peek_text() in ("~", "not"):
            self.take_node()
            return Not(self.read_atom())
        if self.peek_text() == "(":
            self.take_token("(")
            inner = self.read_disjunction()
            self.take_token(")")
            return inner
        if self.peek_text() in ("true", "false"):
            return Constant(self.take_node() == "true")
        self.count_node()
        return Eq(*self.read_equation())

    def read_conjunction(self) -> Proposition:
        r"""Reads atoms between which there is `/\`. Raises NoTest if there is none."""
        left = self.read_atom()
        while self.peek_text() == "/\\":
            self.take_node()
            left = And(left, self.read_atom())
        return left

    def read_disjunction(self) -> Proposition:
        r"""Reads conjunctions between which there is `\/`. Raises NoTest if there is none."""
        left = self.read_conjunction()
        while self.peek_text() == "\\/":
            self.take_node()
            left = Or(left, self.read_conjunction())
        return left

    # Cells.

    def read_value(self) -> Value:
        """Reads a number, with or without `$` before it in an x86 test, or a register. Raises NoTest if it is neither."""
        if self.test.language == "X86" and self.peek_text() == "$":
            self.take_token("$")
            return Number(self.read_number())
        if self.peek_kind() == "number":
            return Number(self.read_number())
        return Register(self.read_register("a number or a register"))

    def read_statement(self) -> Statement:
        """Reads a statement of a source test. Raises NoTest if it is none."""
        if self.peek_text() == "if":
            self.take_token("if")
            register, sign = self.read_register(), self.peek_text()
            if sign not in ("=", "!="):
                raise self.make_misplaced_fault("'=' or '!='")
            self.take_token()
            number = self.read_number()
            self.take_token("goto")
            kind = "if equal" if sign == "=" else "if unequal"
            return Statement(kind, register=register, value=Number(number), target=self.read_name("a label"))
        if self.peek_text() == "goto":
            self.take_token("goto")
            return Statement("goto", target=self.read_name("a label"))
        assigned = self.find_register(self.peek_text() or "")
        if assigned is None:
            location = self.read_location()
            self.take_token(":=")
            return Statement("store", location=location, value=self.read_value())
        self.take_token()
        self.take_token(":=")
        return self.read_assignment(assigned)

    def read_assignment(self, register: int) -> Statement:
        """Reads what follows `d :=` for a register d."""
        if self.peek_text() in ("swap", "fetchadd"):
            kind, location = self.take_token(), self.read_location()
            return Statement(kind, register, location, Register(self.read_register()))
        if self.peek_kind() == "number":
            return Statement("set", register, value=Number(self.read_number()))
        if self.find_register(self.peek_text() or "") is None:
            return Statement("load", register, self.read_location())
        left = self.read_register()
        if self.peek_text() == "+":
            self.take_token("+")
            return Statement("sum", register, value=self.read_value(), left=left)
        return Statement("set", register, value=Register(left))

    def read_instruction(self) -> Statement:
        """Reads an instruction of an x86 test. Raises NoTest if it is none that lw has."""
        mnemonic = self.read_name("an instruction").upper()
        if mnemonic == "MFENCE":
            return Statement("mfence")
        if mnemonic in ("JE", "JNE", "JMP"):
            return Statement(mnemonic.lower(), target=self.read_name("a label"))
        if mnemonic == "MOV":
            return self.read_move()
        if mnemonic in ("ADD", "CMP"):
            register = self.read_register()
            self.take_token(",")
            return Statement(mnemonic.lower(), register, value=self.read_value())
        locked = mnemonic == "LOCK"
        mnemonic = self.read_name("'XCHG' or 'XADD'").upper() if locked else mnemonic
        if mnemonic == "XCHG" or mnemonic == "XADD" and locked:
            return self.read_exchange(mnemonic.lower())
        prefix_words = " after LOCK" if locked else " without LOCK" if mnemonic == "XADD" else ""
        raise self.make_fault_at_last(f"{self.quote_last()} is no instruction that is read{prefix_words}")

    def read_move(self) -> Statement:
        """Reads the operands of MOV."""
        if self.peek_text() == "[":
            location = self.read_bracketed_location()
            self.take_token(",")
            return Statement("store", location=location, value=self.read_value())
        register = self.read_register()
        self.take_token(",")
        if self.peek_text() == "[":
            return Statement("load", register, self.read_bracketed_location())
        return Statement("set", register, value=self.read_value())

    def read_exchange(self, kind: str) -> Statement:
        """Reads XCHG with its operands in either order, or XADD with the location first."""
        if self.peek_text() == "[" or kind == "xadd":
            location = self.read_bracketed_location()
            self.take_token(",")
            return Statement(kind, self.read_register(), location)
        register = self.read_register()
        self.take_token(",")
        return Statement(kind, register, self.read_bracketed_location())

    def read_labels(self, labels: dict[str, int], position: int) -> None:
        """Reads the labels at the start of a cell, and records their target, which is the position of the cell's statement. Raises NoTest if one is
        reserved, or there twice.
        """
        while self.index + 1 < self.end and self.tokens[self.index + 1][1] == ":":
            label = self.read_name("a label")
            if RESERVED.fullmatch(label):
                raise self.make_fault_at_last(f"{self.quote_last()} is a reserved name, and no label")
            if label in labels:
                raise self.make_fault_at_last(f"the label {self.quote_last()} is defined twice in its thread")
            labels[label] = position
            self.take_token(":")

    def read_thread(self, cells: list[Cell]) -> tuple[Statement, ...]:
        """Returns the statements of a thread, with its jumps resolved. Raises NoTest if a cell has more than its statement."""
        statements: list[Statement] = []
        ends: list[int] = []
        labels: dict[str, int] = {}
        for begin, end in cells:
            self.index, self.end = begin, end
            self.read_labels(labels, len(statements))
            if self.peek_text() is not None:
                self.check_statement_count(statements)
                statements.append(self.read_statement() if self.test.language == "SRC" else self.read_instruction())
                ends.append(self.index)
            further = self.peek_text()
            if further is not None:
                raise self.make_fault(f"{quote(further)} comes after a statement")
        # A statement's last token is its label, if it jumps.
        return tuple(self.resolve_jump(it, index, labels, ends[index] - 1) for index, it in enumerate(statements))

    def check_statement_count(self, statements: list[Statement]) -> None:
        """Raises NoTest if the thread has the maximal number of statements, so that no further one may come."""
        max_statements = MAX_STATEMENTS[self.test.language]
        if len(statements) == max_statements:
            raise self.make_fault(f"the thread has more than {max_statements} {'statements' if self.test.language == 'SRC' else 'instructions'}")

    def resolve_jump(self, statement: Statement, position: int, labels: dict[str, int], token_index: int) -> Statement:
        """Returns the statement at a position, with the position that its jump targets in place of the label, which is the token at `token_index`.
        Raises NoTest if there is no such label, or the target does not follow the statement.
        """
        if statement.target is None:
            return statement
        if statement.target not in labels:
            raise self.make_fault(f"the thread has no label {quote(statement.target)}", token_index)
        if labels[statement.target] <= position:
            raise self.make_fault(f"the jump to {quote(statement.target)} does not go forward", token_index)
        return replace(statement, target=labels[statement.target])

    def read(self) -> Test:
        """Reads the whole test. Raises NoTest if it is none."""
        test = self.test
        self.take_token("{")
        initial = dict(self.read_entries(self.read_equation, "}"))
        threads = self.read_header()
        columns = self.read_rows(threads)
        test.columns = [[self.tokens[begin:end] for begin, end in cells] for cells in columns]
        if self.peek_text() == "locations":
            self.take_token("locations")
            self.take_token("[")
            test.listed = set(self.read_entries(self.read_site, "]"))
        test.quantifier = self.read_quantifier()
        test.proposition = self.read_disjunction()
        further = self.peek_text()
        if further is not None:
            raise self.make_fault(f"{quote(further)} comes after the condition")
        for thread, index in self.threads_named:
            if thread >= threads:
                raise self.make_fault(f"there is no thread {thread}", index)
        test.threads = [self.read_thread(cells) for cells in columns]
        test.registers = [tuple(initial.get(RegisterSite(thread, number), 0) for number in range(len(self.names))) for thread in range(threads)]
        test.words = tuple(initial.get(LocationSite(number), 0) for number in range(len(test.locations)))
        return test


def parse_heading(text: str) -> tuple[str, str, int]:
    """Returns the language and the name of a test, and the offset of the heading's end. Raises NoTest if there is none."""
    offset = 0
    while text[offset : offset + 1] and text[offset] in " \t\r\n" or text.startswith("(*", offset):
        offset = skip_comment(text, offset) if text.startswith("(*", offset) else offset + 1
    language = LANGUAGE.match(text, offset)
    if not language:
        raise NoTest(f"found {quote_at(text, offset)}, expected 'SRC' or 'X86'", offset)
    blanks = BLANKS.match(text, language.end())
    offset = blanks.end() if blanks else language.end()
    if offset == language.end():
        raise NoTest(f"found {quote_at(text, offset)}, expected a blank", offset)
    name = NAME_OF_TEST.match(text, offset)
    if not name:
        raise NoTest("expected the name of the test, 1 to 128 printing characters of ASCII", offset)
    return language[1], name[0], name.end()


def read_test(text: str) -> Test:
    """Reads a test. Raises NoTest if the text is none."""
    given_bytes = text.encode()
    if len(given_bytes) > MAX_BYTES:
        raise NoTest(f"the text has more than {MAX_BYTES} bytes", len(given_bytes[:MAX_BYTES].decode(errors="ignore")))
    language, name, offset = parse_heading(text)
    return Reader(language, name, *parse_tokens(text, skip_notes(text, offset))).read()
