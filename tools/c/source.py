"""Reads the source: the functions that are threads, the condition, and the values that it mentions."""
from __future__ import annotations

import os
import re
from dataclasses import dataclass, field

import given
from c.condition import Address, Condition, Global, read_condition
from plain import Eq, Proposition, replace_atoms
from shared.matches import require_match

# Parts of a source that are no code: comments and quoted texts. A quote of Rust before a lifetime is not closed.
NO_CODE = re.compile(r'//[^\n]*|/\*.*?\*/|"(?:\\.|[^"\\])*"|\'(?:\\[^\']+|[^\'\\])\'', re.S)
HERD_COMMENT = re.compile(r"\(\*.*?\*\)", re.S)
MARK = re.compile(r"(?://|/\*)\s*lw:\s*")
THREAD = re.compile(r"\bP(\d+)\s*\([^;{}]*?\)[^;{}()]*\{")
HERD = re.compile(r"\s*C\s+(\S+)\s*(?:\"[^\"]*\"\s*)*\{")
MAX_THREADS = 4
NARROW = re.compile(r"\b(bool|_Bool|char|short|u?int(8|16)_t|[iu](8|16))\b")
# The prefix of the globals of a test in herd's form, whose functions use the plain names for pointers to them.
PREFIX = "lw_"


@dataclass
class Source:
    """A source as it is compiled, the suffix of its file, its name, its condition, and the number of its threads."""

    text: str
    ending: str
    name: str
    condition: Condition
    threads: int
    # The names of values that an lw_see added by this tool shows.
    added: set[str] = field(default_factory=set)

    @property
    def is_rust(self) -> bool:
        """Returns whether the source is Rust."""
        return self.ending == ".rs"


def is_herd_form(text: str) -> bool:
    """Returns whether a text is a test in herd's form of C."""
    return bool(HERD.match(blank_comments(text, HERD_COMMENT)))


def blank_comments(text: str, comment: "re.Pattern[str]" = NO_CODE) -> str:
    """Returns a text with blanks for comments and quoted texts, so that positions are the same."""
    return comment.sub(lambda it: re.sub(r"[^\n]", " ", it[0]), text)


def check_returns(code: str, bodies: dict[int, tuple[int, int]], names_by_thread: dict[int, set[str]]) -> None:
    """Raises Fault if a thread of whose result the condition asks returns fewer than 32 bits: a register may have anything above them."""
    for thread in [it for it, names in names_by_thread.items() if "return" in names and it in bodies]:
        begin = bodies[thread][0]
        head = re.split(r"[;{}]", code[:begin])[-1]
        if NARROW.search(head):
            raise given.Fault(f"what P{thread} returns has fewer than 32 bits: lw_see(NAME, ..) says what the condition means", begin)


def find_closing_brace(code: str, begin: int) -> int:
    """Returns the offset of the brace that closes the one at an offset. Raises Fault if there is none."""
    depth = 0
    for offset in range(begin, len(code)):
        depth += (code[offset] == "{") - (code[offset] == "}")
        if not depth:
            return offset
    raise given.Fault("a brace is not closed", begin)


def find_bodies(code: str) -> dict[int, tuple[int, int]]:
    """Returns, for each thread, the places of the braces of its function. Raises Fault unless they are P0, P1 and so on, at most four."""
    bodies: dict[int, tuple[int, int]] = {}
    for function in THREAD.finditer(code):
        number = int(function[1])
        if number in bodies:
            raise given.Fault(f"P{number} is there twice", function.start())
        bodies[number] = function.end() - 1, find_closing_brace(code, function.end() - 1)
    if not bodies or sorted(bodies) != list(range(len(bodies))):
        raise given.Fault("the functions of the threads are to be P0, P1, .. in a row", 0)
    if len(bodies) > MAX_THREADS:
        raise given.Fault(f"there are more than {MAX_THREADS} threads", bodies[MAX_THREADS][0])
    return bodies


def blank_bodies(code: str, bodies: dict[int, tuple[int, int]]) -> str:
    """Returns the functions outside of all threads: helpers, which all of them may call."""
    for begin, end in sorted(bodies.values(), reverse=True):
        code = code[:begin] + code[end:]
    return code


def insert_sees(text: str, names_by_thread: dict[int, set[str]], is_rust: bool) -> tuple[str, set[str]]:
    """Returns the source with an lw_see at the end of each function, for each local variable that the condition names and the function does not show;
    and the names of these. Raises Fault if a thread is missing, or returns before its end.
    """
    code = blank_comments(text)
    bodies, places, added = find_bodies(code), [], set()
    check_returns(code, bodies, names_by_thread)
    for thread, names in names_by_thread.items():
        if thread not in bodies:
            raise given.Fault(f"the condition asks about P{thread}, which is not there", 0)
        begin, end = bodies[thread]
        code_of_thread = code[begin:end] + blank_bodies(code, bodies)
        missing = [it for it in sorted(names) if it != "return" and not re.search(rf"\blw_see!?\s*\(\s*{it}\b", code_of_thread)]
        if missing and (match := re.search(r"\breturn\b", code[begin:end])):
            advice = f"lw_see({missing[0]}, ..) says where {missing[0]} is known"
            raise given.Fault(f"P{thread} has a return, so its end is not the only one: {advice}", begin + match.start())
        added |= set(missing)
        places += [(end, "".join(f" lw_see{'!' if is_rust else ''}({it}, {it}); " for it in missing))]
    for end, sees in sorted(places, reverse=True):
        text = text[:end] + sees + text[end:]
    return text, added


def parse_source_condition(text: str) -> Condition:
    """Returns the condition in the comment that starts with `lw:`. Raises Fault unless there is exactly one."""
    marks = list(MARK.finditer(text))
    if not marks:
        raise given.Fault("no comment says what is asked: // lw: exists (0:r0=0 /\\ 1:r0=0)", 0)
    if len(marks) > 1:
        raise given.Fault("a second comment says what is asked", marks[1].start())
    begin = marks[0].end()
    end = text.find("*/" if marks[0][0].startswith("/*") else "\n", begin)
    return read_condition(text, begin, len(text) if end < 0 else end)


def read_source(path: str, text: str) -> Source:
    """Reads a source: C, C++ or Rust by the file's suffix, or C in herd's form."""
    name, ending = os.path.splitext(os.path.basename(path))
    if is_herd_form(text):
        return convert_herd_form(blank_comments(text, HERD_COMMENT))
    condition = parse_source_condition(text)
    threads = len(find_bodies(blank_comments(text)))
    text_with_sees, added = insert_sees(text, condition.collect_names(), ending == ".rs")
    ending = ending if ending in (".rs", ".cc", ".cpp", ".cxx") else ".c"
    return Source(text_with_sees, ending, re.sub(r"[^!-~]", "_", name.strip("-"))[:64] or "program", condition, threads, added)


# herd's form of C.


def parse_initial_block(text: str, code: str, begin: int, end: int) -> dict[str, str]:
    """Returns the entries of the initial block for each location. Raises Fault at an entry that is not read."""
    words: dict[str, str] = {}
    for entry_match in re.finditer(r"[^;]+", code[begin:end]):
        entry, offset = entry_match[0].strip(), begin + entry_match.start()
        if not entry:
            continue
        match = re.fullmatch(r"(?:[\w\s]*\s)?\*?\[?([A-Za-z_]\w*)\]?\s*(?:=\s*(-?\w+))?", entry)
        if not match:
            raise given.Fault(f"'{entry}' in the initial block is not read: it has locations with numbers", offset)
        words[match[1]] = match[2] or "0"
    return words


def parse_parameters(text: str, offset: int) -> list[tuple[str, str]]:
    """Returns the types and names of a function's parameters. The offset is that of a fault. Raises Fault if one is no pointer to a location."""
    parameters = []
    for parameter in filter(None, (it.strip() for it in text.split(","))):
        match = re.fullmatch(r"(.*?)\*\s*(?:const\s+)?([A-Za-z_]\w*)", parameter, re.S)
        if not match:
            raise given.Fault(f"'{parameter}' is no pointer to a location", offset)
        parameters.append((" ".join(match[1].split()), match[2]))
    return parameters


def convert_herd_form(text: str) -> Source:
    """Returns a test in herd's form as C: the parameters of its functions become globals, which the condition names as they are. Raises Fault if it
    has what is not read.
    """
    code = blank_comments(text)
    name, begin = require_match(HERD.match(code))[1], code.index("{")
    end = find_closing_brace(code, begin)
    words, last = parse_initial_block(text, code, begin + 1, end), end
    # The functions: each parameter is a pointer to the global of its name.
    kinds: dict[str, str] = {}
    lines: list[str] = []
    for match in re.finditer(r"\bP(\d+)\s*\(([^)]*)\)\s*\{", code):
        last = find_closing_brace(code, match.end() - 1)
        pointers = ""
        for kind, location in parse_parameters(match[2], match.start(2)):
            kind = kind.replace("volatile", "").strip() or "int"
            if kinds.setdefault(location, kind) != kind:
                raise given.Fault(f"'{location}' has two types, '{kinds[location]}' and '{kind}'", match.start(2))
            pointers += f" {kind} *{location} = &{PREFIX}{location};"
        lines.append(f"void P{match[1]}(void) {{{pointers}\n#line {text.count(chr(10), 0, match.end()) + 1}\n{text[match.end():last]}}}\n")
    question = re.compile(r"\s*(?:~\s*exists|not\s+exists|exists|forall)").match(code, last + 1)
    if not question:
        raise given.Fault("the condition is to follow the functions: `locations` and `filter` are not read", last + 1)
    condition = read_condition(code, last + 1, len(code.rstrip()))
    # The source in C.
    head = ["#include <stdatomic.h>", "#include <stdbool.h>", "#include <stdint.h>"]
    head += [f"{kind} {PREFIX}{location} = {words.get(location, '0')};" for location, kind in kinds.items()]
    source = "\n".join(head + lines)
    renamed = Condition(condition.quantifier, prefix_globals(condition.proposition), condition.text)
    text_with_sees, added = insert_sees(source, condition.collect_names(), False)
    return Source(text_with_sees, ".c", name[:64], renamed, len(find_bodies(blank_comments(source))), added)


def prefix_globals(proposition: Proposition) -> Proposition:
    """Returns a proposition in which globals have their names in the compiled C."""
    added = lambda it: it._replace(name=PREFIX + it.name) if isinstance(it, (Address, Global)) else it
    return replace_atoms(proposition, lambda it: Eq(added(it.site), added(it.word)))


def strip_prefix(name: str) -> str:
    """Returns the name of a global as the reader knows it."""
    return name[len(PREFIX) :] if name.startswith(PREFIX) else name

