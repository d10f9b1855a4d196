"""The text of a test in herd's form: its heading and its tokens, each with its position."""
from __future__ import annotations

import re
from typing import NamedTuple

import given
import plain

TOKEN = re.compile(
    r"(?P<blank>[ \t\r\n\f]+)|(?P<number>0x[0-9a-fA-F]+|0b[01]+|[0-9]+)(?![A-Za-z0-9_])|(?P<name>[A-Za-z_.][A-Za-z0-9_.]*)"
    r"|(?P<symbol>/\\|\\/|<>|=>|!=|==|:=|&&|\|\||[{}\[\]()|;:,$=+~%*&<>@!-])"
)
HEADING = re.compile(r"(\w+)[ \t\r\n]+([!-~]+)")
LANGUAGES = ("X86", "X86_64")
BYTE_ORDER_MARK = "\ufeff"


class Refused(given.Fault):
    """Why a test is not converted, and the position of what is refused."""


class Token(NamedTuple):
    """A token: its kind, its text, and its position."""

    kind: str
    text: str
    offset: int


def parse_heading(text: str) -> tuple[str, str, int]:
    """Returns the language and the name of a test, and where its heading ends. Raises Refused if there is none, or for another language."""
    if text.startswith(BYTE_ORDER_MARK):
        if text == BYTE_ORDER_MARK:
            raise Refused("the text is a byte order mark (U+FEFF) and nothing else", 0)
        raise Refused("the text begins with a byte order mark (U+FEFF): save it without one", 0)
    offset = 0
    while text[offset : offset + 1] and text[offset] in " \t\r\n" or text.startswith("(*", offset):
        offset = plain.skip_comment(text, offset) if text.startswith("(*", offset) else offset + 1
    match = HEADING.match(text, offset)
    if not match:
        raise Refused("expected the language and the name of a test", offset)
    if match[1] not in LANGUAGES:
        raise Refused(f"a test of '{match[1]}' is not converted: only tests of X86 and X86_64 are", offset)
    if len(match[2]) > 128:
        raise Refused("the name of the test has more than 128 letters", match.start(2))
    return match[1], match[2], match.end()


def parse_tokens(text: str) -> tuple[str, str, list[Token]]:
    """Returns the language and the name of a test, and its tokens from the initial block on. Raises Refused at a character that begins none."""
    language, name, offset = parse_heading(text)
    offset, tokens = plain.skip_notes(text, offset), []
    while offset < len(text):
        if text.startswith("(*", offset):
            offset = plain.skip_comment(text, offset)
            continue
        match = TOKEN.match(text, offset)
        if not match:
            raise Refused(f"{plain.quote_at(text, offset)} is no token of herd's form that is known here", offset)
        if match.lastgroup != "blank":
            tokens.append(Token(match.lastgroup or "", match[0], offset))
        offset = match.end()
    return language, name, [*tokens, Token("end", "", len(text))]


def parse_number(token: Token) -> int:
    """Returns the number that a token represents."""
    digits = token.text.lower()
    base = {"0x": 16, "0b": 2}.get(digits[:2], 10)
    return int(digits[2:] if base != 10 else digits.lstrip("0")[:40] or "0", base)


class Reader:
    """A reader of tokens, from left to right."""

    def __init__(self, tokens: list[Token]) -> None:
        """Starts at the first token."""
        self.tokens = tokens
        self.number = 0  # the index of the next token

    @property
    def token(self) -> Token:
        """Returns the next token. The last one is the end."""
        return self.tokens[min(self.number, len(self.tokens) - 1)]

    def peek(self, number: int) -> str:
        """Returns the text of the token that is `number` tokens after the next one; empty at the end."""
        offset = self.number + number
        return self.tokens[offset].text if offset < len(self.tokens) else ""

    def is_next(self, *texts: str) -> bool:
        """Returns whether the next token is one of these."""
        return self.token.kind != "end" and self.token.text in texts

    def make_misplaced_refusal(self, expected: str) -> Refused:
        """Returns the fault of the next token if something else is expected."""
        token = self.token
        shown = plain.quote(token.text) if token.kind != "end" else "the end of the text" if not token.text else "the end of the cell"
        return Refused(f"found {shown}, expected {expected}", token.offset)

    def take_token(self, *texts: str) -> Token:
        """Reads the next token, which must be one of the texts, if there are any. Raises Refused if it is not."""
        if texts and not self.is_next(*texts) or self.token.kind == "end":
            raise self.make_misplaced_refusal(" or ".join(plain.quote(it) for it in texts) or "more")
        self.number += 1
        return self.tokens[self.number - 1]

    def take_token_if(self, *texts: str) -> bool:
        """Reads the next token if it is one of these. Returns whether it was."""
        if self.is_next(*texts):
            self.take_token()
            return True
        return False

    def read_signed(self, expected: str = "a number") -> int:
        """Reads a number, which may have a sign. Raises Refused, which says what is `expected`, if there is none."""
        sign = -1 if self.take_token_if("-") else 1
        if self.token.kind != "number":
            raise self.make_misplaced_refusal(expected)
        return sign * parse_number(self.take_token())
