"""Reads the text of .antt files: tokens, and the sentences that they make.

A sentence begins at the column of its block: a signature, a clause, the head of a block, an import. Blank lines and comments between
sentences are kept line by line.
"""
from __future__ import annotations

import glob
import re

from shared.home import HOME

NAME = r"(?:«[^»]*»|[^\s(){}.;,@\"«»]+)"
TOKEN = re.compile(rf"(?P<comment>--[^\n]*)|\"(?:[^\"\\\n]|\\.)*\"|{NAME}(?:\.{NAME})*|\.{NAME}(?:\.{NAME})*|[(){{}}.;,@]")
OPENING, CLOSING = ("(", "{", "["), (")", "}", "]")


def list_files(*patterns: str) -> list[str]:
    """Returns the .antt files of the crates, by patterns below a crate's folder, without what is built."""
    paths = {it for pattern in patterns for it in glob.glob(f"{HOME}/crates/*/{pattern}", recursive=True)}
    return sorted(it for it in paths if it.endswith(".antt") and "/out/" not in it)


def parse_tokens(text: str) -> list[str]:
    """Returns the tokens of a text, without comments."""
    return [it[0] for it in TOKEN.finditer(text) if not it["comment"]]


def has_comment(text: str) -> bool:
    """Returns whether a text has a comment."""
    return any(it["comment"] for it in TOKEN.finditer(text))


class Sentence:
    """Lines that belong together: their text, the number of the first (from 1), and whether they are between sentences."""

    def __init__(self, number: int, line: str, is_between: bool = False) -> None:
        """Makes a sentence of its first line."""
        self.number, self.lines, self.is_between = number, [line], is_between

    @property
    def text(self) -> str:
        """Returns the text of all lines."""
        return "\n".join(self.lines)

    @property
    def indent(self) -> int:
        """Returns the number of blanks at the start of the first line."""
        return count_indent(self.lines[0])


def count_indent(line: str) -> int:
    """Returns the number of blanks at the start of a line."""
    return len(line) - len(line.lstrip(" "))


def count_open_brackets(line: str, depth: int) -> int:
    """Returns the number of brackets that are open after a line, before which `depth` are open."""
    tokens = parse_tokens(line)
    return depth + sum(it in OPENING for it in tokens) - sum(it in CLOSING for it in tokens)


class Reader:
    """A reader that gathers the sentences of a text in the layout of rt fmt."""

    def __init__(self) -> None:
        """Starts a reader at the start of a text."""
        self.sentences: list[Sentence] = []
        self.lines_between: list[Sentence] = []  # lines between sentences, since the last sentence
        self.blocks = [0]  # the indents of the blocks around the next line
        self.depth = 0  # the number of open brackets
        self.opens = False  # whether the next line starts a block

    def starts_sentence(self, line: str) -> bool:
        """Returns whether a line, which has words, starts a sentence."""
        indent = count_indent(line)
        if self.depth:
            return False
        if self.opens or line.strip() == "where":
            return True
        return indent in self.blocks or indent < self.blocks[-1]

    def start_sentence(self, number: int, line: str) -> None:
        """Starts a sentence with a line, whose number is counted from 1."""
        indent = count_indent(line)
        if self.opens:
            self.blocks.append(indent)
        elif line.strip() != "where":
            while len(self.blocks) > 1 and self.blocks[-1] > indent:
                self.blocks.pop()
        self.sentences += self.lines_between
        self.lines_between = []
        self.sentences.append(Sentence(number, line))

    def read_line(self, number: int, line: str) -> None:
        """Reads a line: it is between sentences, or starts one, or continues the last one."""
        if not line.strip() or line.lstrip().startswith("--"):
            self.lines_between.append(Sentence(number, line, True))
            return
        if self.starts_sentence(line) or not any(not it.is_between for it in self.sentences):
            self.start_sentence(number, line)
        else:
            last = next(it for it in reversed(self.sentences) if not it.is_between)
            last.lines += [it.lines[0] for it in self.lines_between] + [line]
            self.lines_between = []
        self.depth = count_open_brackets(line, self.depth)
        tokens = parse_tokens(line)
        self.opens = not self.depth and tokens[-1:] in (["where"], ["mutual"])


def parse_sentences(text: str) -> list[Sentence]:
    """Returns the sentences of a text, and the lines between them, in their order."""
    reader = Reader()
    for number, line in enumerate(text.split("\n"), 1):
        reader.read_line(number, line)
    return reader.sentences + reader.lines_between
