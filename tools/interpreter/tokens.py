"""The tokens of a text, after the notes of its heading."""
from __future__ import annotations

import re
from typing import Tuple

import given
from interpreter.tests import NoTest

TOKEN = re.compile(
    r"(?P<blank>[ \t\r\n]+)|(?P<number>0x[0-9a-fA-F]+|[0-9]+)(?![A-Za-z0-9_])|(?P<name>[A-Za-z_][A-Za-z0-9_]*)"
    r"|(?P<symbol>:=|!=|/\\|\\/|[{}\[\]()|;:,$=+~])"
)
# A line `Key=value` among the notes.
KEY = re.compile(r"[A-Za-z0-9_-]+[ \t]*=[^\n]*")
# A token's kind and its text.
Token = Tuple[str, str]
# What a fault quotes of a text: a word, of which at most 32 letters, or one other character.
LETTERS = re.compile(r"\w{1,32}|.", re.S)


def quote(text: str) -> str:
    """Returns a text in quotes; one with invisible characters has their codes."""
    return f"'{text}'" if text.isprintable() else repr(text)


def quote_at(text: str, offset: int) -> str:
    """Returns, for a fault, what is at an offset: in quotes a word, of which at most 32 letters, or one other character; or that the text ends."""
    match = LETTERS.match(text, offset)
    return quote(match[0]) if match and offset < len(text) else "the end of the text"


def skip_comment(text: str, offset: int) -> int:
    """Returns the offset of the end of the comment that starts at an offset; comments nest. Raises NoTest if it has no end."""
    depth, begin = 0, offset
    while True:
        opens, closes = text.find("(*", offset), text.find("*)", offset)
        if closes < 0:
            raise NoTest(f"the comment that begins at {given.format_line_and_column(text, begin)} is left open", len(text))
        if 0 <= opens < closes:
            depth, offset = depth + 1, opens + 2
        else:
            depth, offset = depth - 1, closes + 2
        if depth == 0:
            return offset


def parse_tokens(text: str, offset: int) -> tuple[list[Token], list[int]]:
    """Returns the tokens from an offset on, and the offset of each, followed by the end's. Raises NoTest at a character that begins none."""
    tokens: list[Token] = []
    offsets: list[int] = []
    while offset < len(text):
        if text.startswith("(*", offset):
            offset = skip_comment(text, offset)
            continue
        match = TOKEN.match(text, offset)
        if not match:
            raise NoTest(f"{quote_at(text, offset)} is no token", offset)
        if match.lastgroup != "blank":
            tokens.append((match.lastgroup or "", match[0]))
            offsets.append(offset)
        offset = match.end()
    return tokens, [*offsets, len(text)]


def skip_notes(text: str, offset: int) -> int:
    """Returns the offset of the initial block, which follows quoted texts, lines `Key=value`, blanks and comments. Raises NoTest if there is none."""
    while offset < len(text):
        key = KEY.match(text, offset)
        if text[offset] in " \t\r\n":
            offset += 1
        elif text.startswith("(*", offset):
            offset = skip_comment(text, offset)
        elif text[offset] == '"':
            offset = skip_quoted(text, offset)
        elif key:
            offset = key.end()
        elif text[offset] == "{":
            return offset
        else:
            break
    raise NoTest(f"found {quote_at(text, offset)}, expected the initial block", offset)


def skip_quoted(text: str, offset: int) -> int:
    """Returns the offset of the end of the quoted text that starts at an offset. Raises NoTest if it has no end."""
    end = text.find('"', offset + 1)
    if end < 0:
        raise NoTest(f"the quoted text that begins at {given.format_line_and_column(text, offset)} is left open", len(text))
    return end + 1
