"""Gives the code of tests the page's colours in HTML: one for each thread and its registers, and one for each location, as web/tint.js does.

The colours are those of web/style.css, by light and by dark; paper is light. tools/gate/check_slides.py compares the texts with the page's.
"""
from __future__ import annotations

import re
from html import escape
from typing import Dict

import plain
from lab.tests import NoLab, read_file

# The number of colours of locations, and the locations that have the same colour in every test.
COLOURS = 8
FIXED = ("x", "y", "z", "w")
# The tokens that web/tint.js finds in a text.
TOKEN = re.compile(r"\(\*|\*\)|\d+:[A-Za-z]\w*|0x[\da-fA-F]+|\$?\d+|[A-Za-z_]\w*|\s+|:=|[^\sA-Za-z_0-9]", re.A)
SITE = re.compile(r"(\d):[A-Za-z]\w*", re.A)
THREAD = re.compile(r"P(\d)", re.A)
QUESTION = ("exists", "forall", "locations", "filter")
# A colour of a thread or of a location in web/style.css: its kind, its number, and how it is in light and in dark.
COLOUR = re.compile(r"--([tl])(\d): light-dark\((#\w+), (#\w+)\);")
KINDS = {"t": "thr", "l": "loc"}
# The colours of the page, by light and by dark: the first rules of its style sheet.
COLOUR_RULES = re.compile(r":root \{.*?\n\}\n:root\[data-theme=\"light\"\].*?\n:root\[data-theme=\"dark\"\].*?\n", re.S)

# For each name of a location the number of its colour.
Tints = Dict[str, int]


def find_tints(text: str) -> Tints:
    """Returns the colours of the locations of a test: those of the four usual names are the same in all tests."""
    names = sorted(set(plain.read_test(text).locations))
    free = (number for number in range(COLOURS) if number >= len(FIXED) or FIXED[number] not in names)
    return {name: FIXED.index(name) if name in FIXED else next(free, COLOURS - 1) for name in names}


def find_class(token: str, tints: Tints, thread: int | None) -> str:
    """Returns the class of a token of a thread's code: that of a thread or of a location, or "". Without a thread registers have none."""
    if (site := SITE.fullmatch(token)):
        return f"thr-{site[1]}"
    if token in plain.REGISTERS["SRC"] or token.upper() in plain.REGISTERS["X86"]:
        return "" if thread is None else f"thr-{thread}"
    return f"loc-{tints[token]}" if token in tints else ""


def render_token(token: str, tints: Tints, thread: int | None, tag: str = "span") -> str:
    """Returns a token of a thread's code as HTML, in an element of its colour if it has one."""
    html, kind = escape(token, quote=False), find_class(token, tints, thread)
    return f'<{tag} class="{kind}">{html}</{tag}>' if kind else html


def render_code(code: str, tints: Tints, thread: int | None, tag: str = "span") -> str:
    """Returns code of a thread, or of none, as HTML in colours."""
    return "".join(render_token(it, tints, thread, tag) for it in TOKEN.findall(code))


def render_test(text: str) -> str:
    """Returns the text of a test as HTML in colours: the bars between its cells say what each thread has. Comments have none."""
    tints = find_tints(text)
    parts, depth = [], 0
    thread: int | None = None
    is_head = False
    for token in TOKEN.findall(text):
        depth += token == "(*"
        if depth:
            parts.append(escape(token, quote=False))
            depth -= token == "*)"
            continue
        if (head := THREAD.fullmatch(token)):
            thread, is_head = int(head[1]), True
            parts.append(f'<span class="thr-{thread}">{token}</span>')
            continue
        if thread is not None and token == "|":
            thread += 1
        elif thread is not None and token == ";":
            thread, is_head = 0, False
        elif not is_head and token in QUESTION:
            thread = None
        parts.append(render_token(token, tints, thread))
    return "".join(parts)


def render_states(lines: str, text: str) -> str:
    """Returns lines of the report on a test as HTML, in which the sites of states are in colours."""
    tints = find_tints(text)
    return "".join(render_code(it, tints, None) if it.endswith(";\n") else escape(it, quote=False) for it in lines.splitlines(keepends=True))


def read_colour_rules() -> str:
    """Returns the rules of web/style.css that name the page's colours. Raises NoLab if it does not begin with them."""
    match = COLOUR_RULES.search(read_file("web/style.css"))
    if match is None:
        raise NoLab("web/style.css does not begin with the colours by light and by dark")
    return match[0]


def list_colours() -> list[tuple[str, str, str]]:
    """Returns for each class of a thread or a location its colours in light and in dark, as web/style.css has them."""
    return [(f"{KINDS[kind]}-{number}", light, dark) for kind, number, light, dark in COLOUR.findall(read_file("web/style.css"))]


def make_style() -> str:
    """Returns the style of the classes, for words and for pictures: a screen is dark if the system is."""
    colours = list_colours()
    make_rules = lambda pairs: " ".join(f".{name} {{ color: {colour}; fill: {colour} }}" for name, colour in pairs)
    light, dark = make_rules((it[0], it[1]) for it in colours), make_rules((it[0], it[2]) for it in colours)
    return f"\n{light}\npre [class] {{ font-weight: 600 }}\n@media screen and (prefers-color-scheme: dark) {{\n{dark}\n}}\n"
