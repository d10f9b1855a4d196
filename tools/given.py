"""What a tool is given: the text of a file, or of standard input, whose name is `-`; tools/shared/command.py reads it.

A line with status 1 says why a file can't be read, or what is wrong in a text: `FILE:LINE:COLUMN: cause`, in which FILE is `-` for standard
input. Lines and columns are counted from 1, columns in characters. What a tool prints is UTF-8, with the line ends of
`lw`, whatever the console has. Python 3.8 is enough, on any system.
"""
from __future__ import annotations

import io
import os
import sys

STANDARD_INPUT = "-"
# What ends standard input on a terminal.
END_KEY = "Ctrl-Z and Enter" if os.name == "nt" else "Ctrl-D"


class Fault(Exception):
    """A fault of a text: the cause in words, and the place, counted in characters from 0."""

    def __init__(self, cause: str, offset: int) -> None:
        """Makes a fault of its cause and its place."""
        super().__init__(cause, offset)
        self.cause, self.offset = cause, offset


def read_bytes(name: str) -> bytes:
    """Returns the bytes of a file, or of standard input. If that is a terminal, prints on standard error that it is read, and what ends it."""
    if name == STANDARD_INPUT:
        if sys.stdin and sys.stdin.isatty():
            print(f"reading from the terminal, up to {END_KEY}; a file is given by its name or after <", file=sys.stderr, flush=True)
        return sys.stdin.buffer.read() if sys.stdin else b""
    with open(name, "rb") as file:
        return file.read()


def decode(data: bytes) -> str:
    """Returns the text that bytes encode. Raises Fault at the first one that is not UTF-8."""
    try:
        return data.decode("utf-8")
    except UnicodeDecodeError as why:
        raise Fault("the text is not UTF-8", len(data[: why.start].decode("utf-8"))) from None


def format_line_and_column(text: str, offset: int) -> str:
    """Returns an offset in a text as LINE:COLUMN, both counted from 1."""
    return f"{text.count(chr(10), 0, offset) + 1}:{offset - text.rfind(chr(10), 0, offset)}"


def format_fault(name: str, data: bytes, fault: Fault) -> str:
    """Returns the line on a fault in the bytes of a file."""
    return f"{name}:{format_line_and_column(data.decode('utf-8', 'replace'), fault.offset)}: {fault.cause}"


def refuse(line: str) -> int:
    """Prints on standard error why there is no answer. Returns the exit status."""
    print(line, file=sys.stderr)
    return 1


def set_output_encoding() -> None:
    """Makes all further output UTF-8, with the line ends of `lw`."""
    for stream in (sys.stdout, sys.stderr):
        assert isinstance(stream, io.TextIOWrapper)
        stream.reconfigure(encoding="utf-8", errors="backslashreplace", newline="\n")
