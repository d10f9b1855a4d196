"""Calls Oniguruma, the library of regular expressions by which VS Code reads grammars, if the system has it.

Patterns are compiled as VS Code's engine compiles them: in Oniguruma's own syntax, with numbered groups, over UTF-8.
"""
from __future__ import annotations

import ctypes
import ctypes.util

NAMES = ("libonig.so.5", ctypes.util.find_library("onig"))
CAPTURE_GROUP = 1 << 8
MAX_MESSAGE_BYTES = 256


class Region(ctypes.Structure):
    """The starts and ends of a match and its groups, in bytes."""

    _fields_ = [
        ("allocated", ctypes.c_int), ("count", ctypes.c_int), ("begins", ctypes.POINTER(ctypes.c_int)), ("ends", ctypes.POINTER(ctypes.c_int)),
        ("root", ctypes.c_void_p),
    ]


class Fault(Exception):
    """A pattern that is not taken, and why."""


class Library:
    """The library Oniguruma, which compiles patterns."""

    def __init__(self, dll: ctypes.CDLL) -> None:
        """Prepares the library for patterns in UTF-8."""
        self.dll = dll
        dll.onig_region_new.restype = ctypes.POINTER(Region)
        dll.onig_version.restype = ctypes.c_char_p
        self.utf8 = ctypes.byref(ctypes.c_char.in_dll(dll, "OnigEncodingUTF8"))
        self.syntax = ctypes.byref(ctypes.c_char.in_dll(dll, "OnigSyntaxOniguruma"))
        dll.onig_initialize((ctypes.c_void_p * 1)(ctypes.cast(self.utf8, ctypes.c_void_p)), 1)

    @property
    def version(self) -> str:
        """Returns the version of the library."""
        return self.dll.onig_version().decode()

    def compile_pattern(self, pattern: str) -> "Pattern":
        """Returns a pattern that is compiled. Raises Fault if the text is no pattern."""
        code, handle = pattern.encode(), ctypes.c_void_p()
        text, information = ctypes.create_string_buffer(code), ctypes.create_string_buffer(64)
        begin = ctypes.addressof(text)
        bounds = ctypes.c_void_p(begin), ctypes.c_void_p(begin + len(code))
        status = self.dll.onig_new(ctypes.byref(handle), *bounds, CAPTURE_GROUP, self.utf8, self.syntax, information)
        if status:
            message = ctypes.create_string_buffer(MAX_MESSAGE_BYTES)
            self.dll.onig_error_code_to_str(message, status, information)
            raise Fault(f"{pattern}: {message.value.decode()}")
        return Pattern(self, handle)


class Match:
    """A match, as in Python: the places of it and of its groups, in letters."""

    def __init__(self, line: bytes, region: Region) -> None:
        """Reads the place of a match, which the library counts in bytes."""
        letters = lambda place: len(line[:place].decode()) if place >= 0 else -1
        self.spans = [(letters(region.begins[it]), letters(region.ends[it])) for it in range(region.count)]
        self.text = line.decode()

    def span(self, group: int = 0) -> tuple[int, int]:
        """Returns the start and the end of a group."""
        return self.spans[group]

    def start(self, group: int = 0) -> int:
        """Returns the start of a group."""
        return self.spans[group][0]

    def end(self, group: int = 0) -> int:
        """Returns the end of a group."""
        return self.spans[group][1]

    def __getitem__(self, group: int) -> str:
        """Returns the text of a group."""
        begin, end = self.spans[group]
        return self.text[begin:end]


class Pattern:
    """A compiled pattern."""

    def __init__(self, library: Library, pointer: ctypes.c_void_p) -> None:
        """Makes a pattern of the library's pointer to it."""
        self.library, self.handle = library, pointer

    def search(self, line: str, index: int) -> Match | None:
        """Returns the first match in a line from a place on, or None."""
        dll, code = self.library.dll, line.encode()
        text, region = ctypes.create_string_buffer(code), dll.onig_region_new()
        begin = ctypes.addressof(text)
        end, start = ctypes.c_void_p(begin + len(code)), ctypes.c_void_p(begin + len(line[:index].encode()))
        try:
            position = dll.onig_search(self.handle, ctypes.c_void_p(begin), end, start, end, region, 0)
            return Match(code, region.contents) if position >= 0 else None
        finally:
            dll.onig_region_free(region, 1)


def load_library() -> Library | None:
    """Returns the library, or None if the system has none."""
    for name in filter(None, NAMES):
        try:
            return Library(ctypes.CDLL(name))
        except (OSError, ValueError):
            continue
    return None
