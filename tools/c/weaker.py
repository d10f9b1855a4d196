"""Weaker memory orders than a source says: of C and C++ by a header that is included, of Rust by the source's text."""
from __future__ import annotations

import re

from c.source import blank_comments

# The meanings of the numbers of tools/c/weaker.h and tools/c/weaker_cc.h.
WEAKER = {1: "release and acquire in place of seq_cst", 2: "relaxed in place of every order"}
PATH = r"(?:\w+\s*::\s*)*"
ORDER = re.compile(rf"\b{PATH}(SeqCst|AcqRel|Acquire|Release|Relaxed)\b")
FENCE = re.compile(rf"\b{PATH}fence\s*\(")
CALLED = re.compile(r"\b(\w+)\s*\(\Z")
# The order of an operation in place of SeqCst. All other operations that have an order load and store at once.
IN_PLACE = {"load": "Acquire", "store": "Release"}
OPERATIONS = re.compile(r"load|store|swap|fetch_\w+|compare_exchange|compare_exchange_weak|compare_and_swap|fence")


def find_open_parenthesis(code: str, offset: int) -> int | None:
    """Returns the offset of the parenthesis that is open at an offset, without another one between. None if there is none."""
    depth = 0
    for index in range(offset - 1, -1, -1):
        if code[index] == ")":
            depth += 1
        elif code[index] == "(":
            if not depth:
                return index
            depth -= 1
        elif code[index] in "{};" and not depth:
            return None
    return None


def find_weaker_order(code: str, match: "re.Match[str]", weaker: int) -> str | None:
    """Returns the order in place of one that is found in the code of a program in Rust. None if it is that of no operation, or stays."""
    begin = find_open_parenthesis(code, match.start())
    called = None if begin is None else CALLED.search(code, 0, begin + 1)
    if begin is None or not called or not OPERATIONS.fullmatch(called[1]):
        return None
    if weaker == 2:
        return "Relaxed"
    if match[1] != "SeqCst":
        return None
    is_failure = called[1].startswith(("compare_exchange", "fetch_update")) and ORDER.search(code, begin, match.start()) is not None
    return "Acquire" if is_failure else IN_PLACE.get(called[1], "AcqRel")


def remove_fences(text: str) -> str:
    """Returns a program in Rust in which nothing is in place of its fences: a relaxed one is none, and would end the program."""
    code, parts, last = blank_comments(text), [], 0
    for fence in FENCE.finditer(code):
        depth, end = 1, fence.end()
        while depth and end < len(code):
            depth += (code[end] == "(") - (code[end] == ")")
            end += 1
        parts += [text[last : fence.start()], "()"]
        last = end
    return "".join([*parts, text[last:]])


def weaken_rust(text: str, weaker: int) -> str:
    """Returns a program in Rust with weaker orders. Orders that are named elsewhere than in an operation's call stay. No line moves."""
    text = remove_fences(text) if weaker == 2 else text
    code, last = blank_comments(text), 0
    parts: list[str] = []
    for match in ORDER.finditer(code):
        order = find_weaker_order(code, match, weaker)
        if order:
            parts += [text[last : match.start()], f"::core::sync::atomic::Ordering::{order}"]
            last = match.end()
    return "".join([*parts, text[last:]])
