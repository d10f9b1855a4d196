"""Runs the cases of tables/ on the program. tools/check_documents.py calls it.

A file of tables/ is a table of cases, a line each, and comments, which begin with `-- `, and lines `lw ..`, which say what is run on the
cases below them:

    lw states             TEXT => TOLD
    lw compile            TEXT => TOLD
    lw replay             TEXT => SCHEDULE => TOLD, or TEXT => TOLD by the empty schedule
    lw replay TEXT        SCHEDULE => TOLD, for this text

In these lines `$` stands for a line end, and `@` for the dollar sign.

A folder of tables/ has a file for each case, whose TOLD has several lines: comments, the line `lw states`, `lw schedules`, `lw compile`
or `lw replay SCHEDULE`, the lines of TEXT, a line `=>`, and the lines of TOLD. There `<>` at the end of a line stands for no line end.

TOLD is all that the program writes. It is the line of a fault, `lw: ..`, on standard error, with an empty standard output; or the text on
standard output; or `read`, for any page of a replay. The exit status is that of the fault or of the end. What `lw compile` prints is its own
canonical text: `lw compile` prints it again. ` --protocol moesi` may follow a SCHEDULE.

In all of these `<3 ab>` stands for `ababab`, and `<0d>` for the byte of that hexadecimal number.
"""
from __future__ import annotations

import glob
import os
import re
import subprocess
from collections.abc import Iterator
from typing import List, Tuple, Union

from gate.cases import Comparison
from shared.home import HOME

TABLES = ("source_cells", "texts", "x86_cells")
FOLDERS = ("compiled_texts", "reports", "schedules", "source_pages", "x86_pages")
STATUSES = {b"text": 1, b"cell": 1, b"schedule": 1, b"limit": 3}


# The arguments after `lw`, the text, and the expected output of a case.
Words = List[Union[str, bytes]]
Case = Tuple[Words, bytes, str]


def unescape(spelled: str) -> bytes:
    """Returns the bytes that the words of a case represent."""
    repeated = re.sub(r"<(\d+) ([^>]*)>", lambda it: it[2] * int(it[1]), spelled)
    return re.sub(rb"<([0-9a-f]{2})>", lambda it: bytes([int(it[1], 16)]), repeated.encode())


def split_lines(spelled: str) -> str:
    """Returns the lines that a line of a table represents."""
    return spelled.replace("$", "\n").replace("@", "$")


def make_arguments(schedule: str) -> Words:
    """Returns the arguments of a replay by a schedule, which the protocol may follow."""
    events, option, protocol = schedule.partition(" --protocol ")
    return ["replay", unescape(events), *([option.strip(), protocol] if option else [])]


def parse_case(command: str, line: str) -> Case | None:
    """Returns the arguments after `lw`, the text and the expected output of a case, or `None`."""
    name, _, text = command[len("lw ") :].partition(" ")
    parts = split_lines(line).split(" => ")
    if name == "replay":
        if text:
            parts.insert(0, split_lines(text))
        elif len(parts) == 2:
            parts.insert(1, "")
        if len(parts) == 3:
            return make_arguments(parts[1]), unescape(parts[0]), parts[2]
    elif name in ("states", "schedules", "compile") and not text and len(parts) == 2:
        return [name], unescape(parts[0]), parts[1]
    return None


def read_cases(table: str) -> Iterator[tuple[str, Case | None]]:
    """Yields the cases of a table, each with its line."""
    command = ""
    with open(table, encoding="utf-8", newline="\n") as lines:
        for line in lines.read().split("\n"):
            if line.startswith("lw "):
                command = line
            elif line and not line.startswith("-- "):
                yield line, parse_case(command, line)


def parse_case_file(text: str) -> Case | None:
    """Returns the arguments after `lw`, the text and the expected output of a case in a file of its own, or `None`."""
    match = re.fullmatch(r"(?:-- .*\n)*lw (states|schedules|compile|replay)(?: (.*))?\n((?:.*\n)*?)=>\n((?:.*\n)*)", text)
    if not match or match[2] and match[1] != "replay":
        return None
    text, expected = (it.replace("<>\n", "") for it in match.groups()[2:])
    words = make_arguments(match[2] or "") if match[1] == "replay" else [match[1]]
    return words, unescape(text), expected[: -len("\n")] if expected.startswith("lw: ") or expected == "read\n" else expected


def parse_expected(words: Words, expected: str) -> tuple[bytes, bytes, int | None]:
    """Returns the expected standard output, standard error and exit status."""
    output = unescape(expected)
    if output.startswith(b"lw: "):
        return b"", output + b"\n", STATUSES.get(output.split()[1])
    is_stopped = words[0] == "replay" and output.split(b"\n")[2:3] != [b"End Final"]
    return output, b"", 1 if is_stopped else 0


def run_program(program: str, words: Words, text: bytes) -> tuple[bytes, bytes, int]:
    """Returns the output of a program on both streams, and its exit status."""
    ran = subprocess.run([program, *words], input=text, capture_output=True, timeout=300)
    return ran.stdout, ran.stderr, ran.returncode


def is_page(expected: tuple[bytes, bytes, int]) -> bool:
    """Returns whether the expected output is the page of a replay."""
    return expected[0].startswith(b"Test ") and expected[1] == b"" and expected[2] in (0, 1)


def run_case(program: str, case: Case | None) -> tuple[object, object]:
    """Returns the expected output of a case, and the output that was found."""
    if case is None:
        return "a case that is understood", None
    words, text, expected = case
    output = run_program(program, words, text)
    if expected == "read":
        return ("read", "read") if is_page(output) else ("read", output)
    wanted = parse_expected(words, expected)
    if words == ["compile"] and output == wanted and wanted[0]:
        output = run_program(program, words, output[0])
    return wanted, output


def check_table_names() -> Iterator[Comparison]:
    """Yields whether tables/ has its tables and folders, and no others."""
    names = sorted(os.path.basename(it) for it in glob.glob(f"{HOME}/tables/*"))
    yield "what there is in tables/", sorted([*FOLDERS, *(f"{name}.txt" for name in TABLES)]), names


def make_comparisons(program: str, name: str) -> Iterator[Comparison]:
    """Yields, for each case of a table, what is compared, what is expected, and what was found. A table without cases is a fault."""
    cases = list(read_cases(f"{HOME}/tables/{name}.txt"))
    yield f"tables/{name}.txt has cases", True, bool(cases)
    for line, case in cases:
        yield f"tables/{name}.txt: {line}", *run_case(program, case)


def compare_folder(program: str, name: str) -> Iterator[Comparison]:
    """Yields, for each file of a folder, what is compared, what is expected, and what was found. A folder without files is a fault."""
    files = sorted(os.listdir(f"{HOME}/tables/{name}"))
    yield f"tables/{name} has cases", True, bool(files)
    for file_name in files:
        with open(f"{HOME}/tables/{name}/{file_name}", encoding="utf-8", newline="\n") as case:
            yield f"tables/{name}/{file_name}", *run_case(program, parse_case_file(case.read()))
