#!/usr/bin/env python3
"""Runs what the documents say of the program, and compares. The last line is 'N passed, M failed'.

    python3 tools/check_documents.py [--quick]

With --quick it skips the checks that take long: those of single tools, the page, the library and the pack, from `tools/plain.py` in this list
on.

- Transcripts: a block of lines in README.md, docs/*.md and examples/*.page whose first line is '$ COMMAND'. The output follows the command: lines
  of standard output as they are, lines of standard error after '2> ', and the exit status as '[status N]' if it is not 0. Commands run at the
  top of the repository.
- The tables of faults, limits and ends in docs/FORMAT.md, whose rows have examples: a text and the place of its fault, or an example of
  examples/ and a schedule whose last event is refused.
- Each test of examples/ and examples/beyond/ has a NAME.page, word for word as tools/plain.py prints it, and one row in examples/INDEX.md,
  which says the same as the report and the comment. The comment's words on interleaving and x86-TSO are those of tools/plain.py. If x86-TSO
  allows the outcome, the test's schedule or that of its x86 form shows it. The x86 form of a source test is its compiled program without
  fences. Shapes ask `exists` if x86-TSO allows the outcome, and `~exists` if it forbids it.
- Each crate has a README.md that lists its present files (tools/documents/make_readmes.py).
- Each source test of examples/ and its compiled program: random runs of the source, and the same runs of the compiled program, statement by
  statement, end in the same registers and memory. The compiled text is its own canonical text, and its report is that of the source in the
  registers of x86.
- The tests, the statements and the faults of docs/CARD.md (tools/gate/check_card.py).
- The cases of `tables/` (tools/gate/check_tables.py).
- The tables of docs/FENCES.md and docs/FAMILIES.md: how many fences a test needs (tools/fences.py).
- Some random tests of each language: the program and tools/plain.py say the same of them (tools/random_tests.py).
- The program without memory: for each n, a run whose nth call for memory is refused (tools/gate/refuse_memory.c).
- The program with streams that fail or never end: standard output that is closed, or that nobody reads; standard input that is a folder,
  closed or endless; words that are no command, which leave standard input unread; words that are not UTF-8; each protocol by name.
- HANDLES consists of its one line. Folders and documents have at least a fixed number of items, so that no rows are skipped if a heading is
  renamed.
- The line breaks of proofs (tools/gate/proof_layout.py), that no lemma is unused or duplicated (tools/gate/check_lemmas.py), and which
  names tools/documents/common_names.py finds missing in a proof (tools/gate/test_free_names.py).
- No crate that says what tests mean names one that reads texts, and lw does not depend on the search (tools/gate/check_wings.py, test_wings.py).
- The definitions on which the meaning of a test depends are few, and docs/MAP.md says how many (tools/documents/semantic_core.py).
  docs/BELIEVE.md has each definition that the contract of `answer` reaches, with its lines (tools/documents/believe.py).
- The examples that theorems mention are the texts that a test of lw_text_tests reads as their values. The text and the report of the law on
  bytes are those of the files.
- What documents name in the repository exists, docs/MAP.md's table of crates agrees with crates.txt, and README.md names the logic of
  `rt version` (tools/gate/check_names.py, tools/gate/test_names.py).
- What `./lw` builds, and when, with a stand-in for `rt` (tools/gate/check_build.py); docs/TIMES.md has the table of its minutes.
- The numbers of states of the tests in bench/.
- The program `beyond`: the bytes of `lw` within the limits of lists, and past them the reports of tests of bench/beyond and
  examples/beyond (tools/gate/check_beyond.py); words that are no command, and streams that fail.
- How tools/plain.py and similar tools read files and report faults (tools/gate/test_plain.py); `--help` of each command of tools/, and commands
  whose output nobody reads (tools/gate/test_commands.py); pages of replays, which Python and JavaScript read in the same way
  (tools/gate/test_replay_state.py).
- How long `./lw` says that a build takes (tools/gate/test_build.py), the arguments of python/lw.py (tools/gate/test_python.py), and the types of
  tools/ (tools/gate/test_types.py).
- The executions that tools/graph.py draws, and the outcomes that the axioms of tools/executions.py allow (tools/gate/check_graph.py).
- Tests in herd's form, there and back (tools/gate/test_herd.py), compare-and-swap by assumption (tools/gate/test_assume.py), and the shapes that
  tools/cycles.py makes (tools/gate/test_shapes.py).
- Programs in C, C++ and Rust as compilers make them, and random ones compared with an interpreter of their source
  (tools/gate/test_from_c.py, tools/gate/random_programs.py).
- What tools/make_lab.py makes for a class of docs/LAB.md (tools/gate/check_lab.py), the slides of tools/make_slides.py
  (tools/gate/check_slides.py), and the quiz of tools/make_quiz.py with its codes (tools/gate/check_quiz.py).
- The words that editors and the page show in colours (tools/gate/test_editor.py).
- Many tests in parallel, and tests beyond the limits (tools/gate/check_many.py); folders of mixed files by one command
  (tools/gate/test_run_all.py); the smallest sets of fences (tools/gate/test_fences.py); answers of a program of other sources, which are
  reported as not proved (tools/gate/test_answers.py); fences and runs of converted tests (tools/gate/test_original.py).
- Tests on this processor, with controls that have to show what is not listed (tools/gate/test_machine_parts.py, test_on_machine.py),
  and for the page (tools/gate/test_seen_here.py).
- The wheel of tools/make_wheel.py, installed by pip, and the package of tools/make_deb.py, unpacked by dpkg-deb (tools/gate/test_packages.py); its
  completions by the installed shells (tools/gate/test_completion.py).
- The web page, by a plain client, and in a browser if there is one (tools/gate/check_page.py); what its code answers, and the page in a browser
  without a server (tools/gate/check_site.py).

Commands run in parallel, then most checks of single tools, and then, one after another, those that need the processors for themselves.
"""
from __future__ import annotations

import glob
import os
import re
import select
import subprocess
import sys
import tempfile
import time
from collections.abc import Callable, Iterable, Iterator, Sequence
from concurrent.futures import ThreadPoolExecutor
from functools import partial
from random import Random
from typing import Any, Tuple

sys.dont_write_bytecode = True
import fences
import plain
import random_tests
from documents import believe, make_pages, make_readmes, make_times, measure_lists, semantic_core
from gate import (
    cases, check_beyond, check_build, check_card, check_edits, check_graph, check_lab, check_lemmas, check_library, check_many, check_names,
    check_pack, check_page, check_quiz, check_site, check_slides, check_tables, check_wings, processes, proof_layout, test_answers, test_assume,
    test_build, test_commands, test_completion, test_editor, test_fences, test_free_names, test_from_c, test_herd, test_machine_parts, test_names,
    test_on_machine, test_original, test_packages, test_plain, test_python, test_replay_state, test_run_all, test_seen_here, test_shapes, test_types,
    test_wings,
)
from gate.cases import Comparison
from program import build
from shared import command, start
from shared.home import BEYOND, HOME, PROGRAM
from shared.matches import require_match

RANDOM_TESTS = 100
TWO_THREADS = b"SRC SB\n{}\n P0 | P1 ;\n x := 1 | y := 1 ;\n r0 := y | r0 := x ;\nexists (0:r0=0 /\\ 1:r0=0)\n"
# Examples of the tables that are described in words.
IN_WORDS = {
    "a byte 255 behind `SRC `": b"SRC \xff",
    "any 65,537 bytes": b"x" * 65537,
    "65 rows ` ;`": b"SRC G\n{}\n P0 ;\n" + b" ;\n" * 65 + b"exists (true)\n",
    "17 rows ` r0 := 1 ;`": b"SRC G\n{}\n P0 ;\n" + b" r0 := 1 ;\n" * 17 + b"exists (true)\n",
    "33 rows ` MFENCE ;`": b"X86 G\n{}\n P0 ;\n" + b" MFENCE ;\n" * 33 + b"exists (true)\n",
    "16 rows ` MOV [w],$1 \\| MOV [x],$1 \\| MOV [y],$1 \\| MOV [z],$1 ;` and one ` MFENCE \\| \\| \\| ;`": (
        b"X86 G\n{}\n P0 | P1 | P2 | P3 ;\n"
        + b" MOV [w],$1 | MOV [x],$1 | MOV [y],$1 | MOV [z],$1 ;\n" * 16
        + b" MFENCE | | | ;\nexists (true)\n"
    ),
    "5 rows ` x := 1 \\| x := 2 ;`": b"SRC G\n{}\n P0 | P1 ;\n" + b" x := 1 | x := 2 ;\n" * 5 + b"exists (true)\n",
}

# The families of examples/INDEX.md that are shapes, and no algorithms.
SHAPES = ("Store buffering", "Messages", "Stores in order", "Several readers", "One location")
# The runs of which every call for memory is refused in turn.
REFUSED_MEMORY = [
    (PROGRAM, "Peterson", "replay", "P0 P0 P1 P1"),
    (PROGRAM, "Peterson", "replay", "P0 E0:nowhere"),
    (PROGRAM, "Peterson", "compile"),
    (PROGRAM, "SB", "compile"),
    (PROGRAM, "SB", "replay", "P0 P0 P1 P1"),
    (PROGRAM, "SB", "states"),
    (PROGRAM, "SB", "schedules"),
    (PROGRAM, "SB+own-x86", "replay", "P0 P0 P0 P1 P1 P1 D0 D1"),
    (PROGRAM, "SB+own-x86", "compile"),
    (PROGRAM, "SB-x86", "replay", "P0 P0 P1 P1 D0 D1"),
    (PROGRAM, "SB-x86", "states"),
    (PROGRAM, "SB-x86", "schedules"),
    (BEYOND, "SB", "--search", "states"),
    (BEYOND, "SB-x86", "--search", "schedules"),
    (BEYOND, "SB", "schedules"),
]

# The least numbers of compared items, a little below the numbers when they were written.
MIN_COUNTS = {
    "blocks with commands in README.md and docs/": 88,
    "rows of the tables of docs/FORMAT.md": 90,
    "rows of the tables of docs/FENCES.md and docs/FAMILIES.md": 44,
    "examples": 166,
    "examples past the limits": 7,
    "wrong bodies": 130,
    "tests of the crates": 52,
}
COMMANDS = (("states",), ("schedules",), ("compile",), ("replay", "P0 P0 P1 P1"))
BEYOND_COMMANDS = (("states",), ("--search", "schedules"), ("marks",))
# For each program its usage line, a command, and words that are none.
USAGES = [
    (
        PROGRAM,
        "usage: lw states | lw compile | lw schedules | lw replay SCHEDULE\n",
        ["states"],
        ([], ["state"], ["states", "P0"], ["replay"], ["replay", "P0", "P1"], ["replay", "P0", "--protocol=mesi"]),
    ),
    (
        BEYOND,
        "usage: beyond [--search] [--budget N] [--method] states|schedules|marks\n",
        ["--budget", "100", "states"],
        (
            *([], ["state"], ["states", "states"], ["states", "--search"], ["compile"], ["replay", "P0"], ["--search"]),
            *(["--search", "--search", "states"], ["--method", "--method", "states"], ["--budget", "states"], ["--budget", "+1", "states"]),
            *(["--budget", "-1", "states"], ["--budget", "", "states"], ["--budget", "18446744073709551616", "states"]),
            *(["--budget", "1", "--budget", "2", "states"], ["--budget=1", "states"], ["--help"]),
        ),
    ),
]

# A check and its arguments.
Check = Tuple[Any, ...]

# Each check yields its comparisons: what is compared, what is expected, and what is found.


def capture_streams(command: Sequence[str | bytes], stdin: bytes = b"", **options: Any) -> tuple[bytes, bytes, int]:
    """Returns what a command prints on standard output and on standard error, and its exit status."""
    ran = subprocess.run(command, input=stdin, capture_output=True, cwd=HOME, timeout=60, **options)
    return ran.stdout, ran.stderr, ran.returncode


def list_blocks(text: str) -> Iterator[list[str]]:
    """Yields the blocks of a document: fenced lines, or lines after four spaces."""
    fenced, block = False, []
    for line in [*text.splitlines(), ""]:
        if line.startswith("```"):
            fenced = not fenced
        elif fenced or line.startswith("    "):
            block.append(line if fenced else line[4:])
            continue
        if block:
            yield block
        block = []


def split_transcript(block: list[str]) -> list[tuple[str, list[str]]]:
    """Returns the commands of a block, each with the lines that follow it."""
    commands: list[tuple[str, list[str]]] = []
    for line in block:
        if line.startswith("$ "):
            commands.append((line[2:], []))
        elif commands:
            commands[-1][1].append(line)
    return commands


def check_transcript(name: str, block: list[str]) -> Iterator[Comparison]:
    """Compares the output of a block's commands with the block."""
    for shell_command, lines in split_transcript(block):
        status = 0
        if lines and re.fullmatch(r"\[status \d+\]", lines[-1]):
            status = int(lines[-1][8:-1])
            lines = lines[:-1]
        out = "".join(f"{it}\n" for it in lines if not it.startswith("2> ")).encode()
        err = "".join(f"{it[3:]}\n" for it in lines if it.startswith("2> ")).encode()
        yield f"{name}: {shell_command}", (out, err, status), capture_streams(["sh", "-c", shell_command])


def unescape(text: str) -> bytes:
    r"""Returns the text of an example of a table: `\n` is a line end, and `\|` a bar."""
    return text.replace("\\|", "|").replace("\\n", "\n").encode()


def check_fault(kind: str, number: int, name: str, example: str, language: str = "SRC") -> Iterator[Comparison]:
    """Compares the program's answer on an example of a row of a table of faults."""
    if example in IN_WORDS:
        stdin, position = IN_WORDS[example], None
    else:
        words = re.fullmatch(r"(.*): at (\d+)", example)
        text = words and re.fullmatch(r"`(.*)`", words[1])
        if not words or not text and words[1] not in IN_WORDS:
            yield f"docs/FORMAT.md, {kind} {number}: an example that is not understood", "", example
            return
        stdin, position = unescape(text[1]) if text else IN_WORDS[words[1]], words[2]
    schedule = ""
    if kind == "cell" and example not in IN_WORDS:
        stdin = language.encode() + b" G\n{}\n P0 ;\n" + stdin + b"\nexists (true)\n"
    if kind == "schedule":
        stdin, schedule = TWO_THREADS, stdin.decode()
    out, err, status = capture_streams([PROGRAM, "replay", schedule], stdin)
    line = re.sub(rb"\d+\n$", b"", err) if position is None else err
    expected = f"lw: {kind} {number} {name} at {position or ''}" + ("\n" if position else "")
    yield f"docs/FORMAT.md, {kind} fault {number}", (b"", expected.encode(), 1), (out, line, status)


def check_limit(number: int, name: str, example: str) -> Iterator[Comparison]:
    """Compares the program's answer on a row of the table of limits."""
    for lw_command in ("states", "schedules"):
        printed = capture_streams([PROGRAM, lw_command], IN_WORDS[example])
        yield f"docs/FORMAT.md, limit {number}", (b"", f"lw: limit {number} {name}\n".encode(), 3), printed


def check_end(number: str, name: str, schedule: str, test: str) -> Iterator[Comparison]:
    """Compares a row of the table of ends: the schedule's last event is refused."""
    with open(f"{HOME}/examples/{test}.litmus", "rb") as file:
        out, _, status = capture_streams([PROGRAM, "replay", schedule], file.read())
    expected = f"End Stopped at {len(schedule.split()) - 1} by {number} {name}"
    yield f"docs/FORMAT.md, end {number}", ([expected], 1), (out.decode().splitlines()[2:3], status)


def check_mistake(text: str, line: str) -> Iterator[Comparison]:
    """Compares the program's answer on a row of the table of common mistakes."""
    printed = capture_streams([PROGRAM, "replay", ""], unescape(text))
    yield f"docs/FORMAT.md, a mistake: {text}", (b"", f"{line}\n".encode(), 1), printed


def list_fault_checks() -> Iterator[Check]:
    """Yields a check for each row of the tables of docs/FORMAT.md."""
    kind = None
    for line in read_file("docs/FORMAT.md").splitlines():
        mistake = re.fullmatch(r"\| .* \| `(.*)` \| `(lw: .*)` \|", line)
        if mistake:
            yield check_mistake, *mistake.groups()
            continue
        # A heading says of which kind the rows after it are.
        heading = re.match(r"\*\*(Text|Cell|Schedule) faults|\*\*(Limit)s", line)
        kind = (heading[1] or heading[2]).lower() if heading else kind
        end = re.fullmatch(r"\| (\d+) \| (\w+) \| .* \| `(.*)` of `(.*)` \|", line)
        if end:
            yield check_end, *end.groups()
            continue
        row = re.fullmatch(r"\| (\d+) \| (\w+) \| .* \| (.*) \|", line)
        if kind == "cell" and row:
            in_both = require_match(re.fullmatch(r"\| .* \| (.*) \| (.*) \|", line))
            yield check_fault, kind, row[1], row[2], in_both[1]
            yield check_fault, kind, row[1], row[2], in_both[2], "X86"
        elif kind == "limit" and row and row[3] in IN_WORDS:
            yield check_limit, *row.groups()
        elif kind and kind != "limit" and row:
            yield check_fault, kind, row[1], row[2], row[3]


def check_example(name: str) -> Iterator[Comparison]:
    """Compares a test's name, its page, and the fixed words of its comment with those of tools/plain.py."""
    text, page = read_file(f"examples/{name}.litmus"), f"examples/{name}.page"
    test, words = plain.read_test(text), make_pages.match_fixed_words(text)
    yield f"examples/{name}.litmus has its name", os.path.basename(name), test.name
    yield f"{page} is as tools/documents/make_pages.py writes it", make_pages.make_page(name, text), read_file(page)
    yield f"the words of {name}", plain.find_verdicts(test), (words["interleaving"], words["x86"])
    if test.language == "SRC" and plain.find_verdicts(test) == ("forbidden", "allowed"):
        yield f"the x86 form that {name} points to", f"{os.path.basename(name)}-x86", words["shown_by"]
    elif words["x86"] == "allowed":
        is_final, outcome = random_tests.find_end(test, words["telling"])
        yield f"the schedule of {name} shows its outcome", (True, True), (is_final, plain.is_true_in(test.proposition, outcome))


def check_x86_form(name: str) -> Iterator[Comparison]:
    """Compares the x86 form of a source test, if it has one, with what the test is compiled to, without fences."""
    form = f"examples/{name}-x86.litmus"
    if os.path.exists(form):
        program = plain.compile_test(plain.read_test(read_file(f"examples/{name}.litmus")), has_fences=False)
        program.name = f"{os.path.basename(name)}-x86"
        yield f"{form} is the x86 form of {name}", plain.format_canonical_text(program), plain.format_canonical_text(plain.read_test(read_file(form)))


def check_index() -> Iterator[Comparison]:
    """Compares examples/INDEX.md with the tests: a row for each, with what its report and its comment say."""
    lines = re.findall(r"^\| (?!Test )(\S+) \|.*\| (.*?) ?\| ([\w ]+) \|$", read_file("examples/INDEX.md"), re.M)
    yield "examples/INDEX.md has each test once", make_pages.list_test_names(), sorted(name for name, _, _ in lines)
    for name, observed, word in lines:
        test = read_file(f"examples/{name}.litmus")
        yield f"examples/INDEX.md, {name} on x86-TSO", make_pages.match_fixed_words(test)["x86"], word
        program = BEYOND if name.startswith(make_pages.PAST_LIMITS) else PROGRAM
        report = capture_streams([program, "states"], test.encode())[0].decode().splitlines()
        yield f"examples/INDEX.md, the report of {name}", [f"Observation {os.path.basename(name)} {observed}"], report[-1:]


def check_questions() -> Iterator[Comparison]:
    """Checks what the shapes of examples/INDEX.md ask: `exists` if x86-TSO allows the outcome, and otherwise `~exists`."""
    for family in read_file("examples/INDEX.md").split("\n## ")[1:]:
        for name, word in re.findall(r"^\| (?!Test )(\S+) \|.*\| (allowed|forbidden) \|$", family, re.M):
            if family.splitlines()[0] in SHAPES:
                quantifier_read = plain.read_test(read_file(f"examples/{name}.litmus")).quantifier
                yield f"what {name} asks", "exists" if word == "allowed" else "~exists", quantifier_read


# The labels at the start of a cell: of a source test, and of a compiled program.
SOURCE_LABELS = re.compile(r"^(\s*\w+:(?!=))+")
COMPILED_LABEL = re.compile(r"^\s*L\d+:")


def measure_statements(source: str, compiled: str, thread: int) -> list[tuple[int, bool]]:
    """Returns, for each statement of a thread, its number of instructions, and whether it is a store.

    It looks only at words, so it shares no code with the compiler. A statement has one instruction or two. It has two in these cases:

    - the first instruction is a CMP, before a branch, or an MFENCE, before a load;
    - the statement is `d := swap x a` or `d := fetchadd x a`, and d is not a: a MOV of the operand comes first;
    - the statement is `d := a + b`, and d is neither a nor b: a MOV comes first.
    """
    cells = [[row.split("|")[thread] for row in list_rows(text)] for text in (source, compiled)]
    statements = [SOURCE_LABELS.sub("", cell).split() for cell in cells[0]]
    instructions = [COMPILED_LABEL.sub("", cell).split() for cell in cells[1]]
    index, sizes = 0, []
    for words in filter(None, statements):
        target, operator = words[0], words[2] if len(words) > 2 else ""
        has_two = instructions[index][0] in ("CMP", "MFENCE")
        if operator in ("swap", "fetchadd"):
            has_two = target != words[-1]
        if "+" in words:
            has_two = target not in (words[2], words[4])
        is_store = words[1] == ":=" and not re.fullmatch(r"r[0-5]", target)
        sizes.append((1 + has_two, is_store))
        index += 1 + has_two
    return sizes


def list_rows(text: str) -> list[str]:
    """Returns the rows of a test, without its header."""
    body = re.sub(r"\(\*.*?\*\)", "", text, flags=re.S).partition("}")[2]
    rows = re.split(r";", re.split(r"\b(?:exists|forall|locations)\b|~", body)[0])
    return [row for row in rows[1:] if row.strip()]


def parse_state_words(page: str) -> tuple[list[int], list[list[str]], str]:
    """Returns the positions, the registers' words and the words of memory that a page has."""
    threads = re.findall(r"^P\d at (\d+)((?: \w+=\d+)+)$", page, re.M)
    words = re.findall(r"^(?:Memory|Content)(.*)$", page, re.M)[-1]
    return [int(position) for position, _ in threads], [re.findall(r"=(\d+)", regs) for _, regs in threads], words


def check_compiled(name: str) -> Iterator[Comparison]:
    """Compares a source test with its compiled program."""
    source = read_file(name)
    stdin, random = source.encode(), Random(name)
    compiled = capture_streams([PROGRAM, "compile"], stdin)[0]
    yield f"{name}, compiled twice", (compiled, b"", 0), capture_streams([PROGRAM, "compile"], compiled)
    report = capture_streams([PROGRAM, "states"], stdin)[0].decode()
    in_x86 = re.sub(r"\b(\d):r([0-5])\b", lambda it: f"{it[1]}:{plain.REGISTERS['X86'][int(it[2])]}", report)
    yield f"{name}, compiled, its report", (in_x86.encode(), b"", 0), capture_streams([PROGRAM, "states"], compiled)
    threads = len(parse_state_words(capture_streams([PROGRAM, "replay", ""], stdin)[0].decode())[0])
    sizes = [measure_statements(source, compiled.decode(), thread) for thread in range(threads)]
    # Five random runs of the source: the compiled program does the same by the events of each statement's instructions.
    for _ in range(5):
        order: list[str] = []
        events: list[str] = []
        while True:
            page = capture_streams([PROGRAM, "replay", " ".join(order)], stdin)[0].decode()
            index, *end = parse_state_words(page)
            running = [thread for thread in range(threads) if index[thread] < len(sizes[thread])]
            if not running:
                break
            thread = random.choice(running)
            size, is_store = sizes[thread][index[thread]]
            order.append(f"P{thread}")
            events += [f"P{thread}"] * size + [f"D{thread}"] * is_store
        out, _, status = capture_streams([PROGRAM, "replay", " ".join(events)], compiled)
        yield f"{name}, compiled, by {' '.join(events)}", (end, 0), (list(parse_state_words(out.decode())[1:]), status)


def check_refused_memory(program: str, test: str, *arguments: str) -> Iterator[Comparison]:
    """Compares what a program reports if memory runs out: each request of a run is refused in turn, until a run makes fewer requests."""
    stdin = open(f"{HOME}/examples/{test}.litmus", "rb").read()
    name = f"{os.path.basename(program)} on {test}, {' '.join(arguments)}"
    refused, unlimited = (b"", b"lw: memory\n", 4), capture_streams([program, *arguments], stdin)
    with tempfile.TemporaryDirectory() as folder:
        library, mark_file = f"{folder}/refuse_memory.so", f"{folder}/mark"
        subprocess.run(["cc", "-O1", "-shared", "-fPIC", "-o", library, f"{HOME}/tools/gate/refuse_memory.c"], check=True)
        for nth in range(1, 10000):
            refusing = {"LD_PRELOAD": library, "REFUSED_CALL": str(nth), "REFUSED_MARK": mark_file}
            printed = capture_streams([program, *arguments], stdin, env={**os.environ, **refusing})
            if not os.path.exists(mark_file):
                break
            os.remove(mark_file)
            yield f"{name}: call {nth} for memory is refused", refused, printed
        yield f"{name}: after the last call none is refused", unlimited, printed


def run_with_streams(command: Sequence[str | bytes], **streams: Any) -> tuple[bytes, int]:
    """Returns what a command prints on standard error, and its exit status, between these streams."""
    ran = subprocess.run(command, stderr=subprocess.PIPE, cwd=HOME, timeout=60, check=False, **streams)
    return ran.stderr, ran.returncode


def wrap_with_closed_stream(stream: str, program: str, command: Sequence[str]) -> list[str]:
    """Returns the words that run a program with a stream closed, `>&-` or `<&-`."""
    return ["sh", "-c", f'exec "$0" "$@" {stream}', program, *command]


def format_command(program: str, command: Sequence[str]) -> str:
    """Returns a command in print."""
    return " ".join([os.path.basename(program), *command])


def wait_for_no_reader(writing: int) -> None:
    """Waits until no process has the other end of a pipe. One that another thread begins meanwhile has it until it runs its program."""
    poll = select.poll()
    poll.register(writing, select.POLLOUT)
    for _ in range(500):
        if any(event & select.POLLERR for _, event in poll.poll(0)):
            return
        time.sleep(0.01)


def check_output_stream(program: str, command: Sequence[str]) -> Iterator[Comparison]:
    """Runs a command whose standard output is closed or full, and one whose output nobody reads."""
    expected, name = (b"lw: write failed\n", 4), format_command(program, command)
    with open(f"{HOME}/examples/SB.litmus", "rb") as example:
        yield f"{name}, standard output closed", expected, run_with_streams(wrap_with_closed_stream(">&-", program, command), stdin=example)
    with open(f"{HOME}/examples/SB.litmus", "rb") as example, open("/dev/full", "wb") as output:
        yield f"{name}, standard output is full", expected, run_with_streams([program, *command], stdin=example, stdout=output)
    reading, writing = os.pipe()
    os.close(reading)
    wait_for_no_reader(writing)
    with open(f"{HOME}/examples/SB.litmus", "rb") as example, open(writing, "wb") as output:
        yield f"{name}, nobody reads standard output", expected, run_with_streams([program, *command], stdin=example, stdout=output)


def check_input_stream(program: str, command: Sequence[str]) -> Iterator[Comparison]:
    """Runs a command whose standard input is closed, is a folder, and never ends. Nothing is written to standard output."""
    failed, name = (b"lw: read failed\n", 4), format_command(program, command)
    with tempfile.TemporaryFile() as output:
        printed = run_with_streams(wrap_with_closed_stream("<&-", program, command), stdout=output)
        yield f"{name}, standard input closed", failed, printed
        folder = os.open(HOME, os.O_RDONLY)
        yield f"{name}, standard input is a folder", failed, run_with_streams([program, *command], stdin=folder, stdout=output)
        os.close(folder)
        with subprocess.Popen(["cat", "/dev/zero"], stdout=subprocess.PIPE) as endless:
            printed = run_with_streams([program, *command], stdin=endless.stdout, stdout=output)
            endless.kill()
        yield f"{name}, an endless pipe", (b"lw: text 2 TooLong at 65536\n", 1), printed
        yield f"{name}, nothing is written", 0, output.tell()


def run_and_read_rest(command: Sequence[str], content: bytes) -> tuple[bytes, bytes, bytes, int]:
    """Returns the rest that a command leaves in the pipe of its standard input, its output on both streams, and its exit status."""
    reading, writing = os.pipe()
    with open(writing, "wb") as pipe:
        pipe.write(content)
    with open(reading, "rb") as pipe:
        ran = subprocess.run(command, stdin=pipe, capture_output=True, cwd=HOME, timeout=60, check=False)
        return pipe.read(), ran.stdout, ran.stderr, ran.returncode


def check_usage(program: str, usage: str, command: Sequence[str], others: Sequence[Sequence[str]]) -> Iterator[Comparison]:
    """Runs a program with words that are no command, which leave their input unread, and with a command, which reads it."""
    stdin = read_file("examples/SB.litmus").encode()
    for words in others:
        expected = stdin, b"", usage.encode(), 2
        yield f"{format_command(program, words)} leaves its input unread", expected, run_and_read_rest([program, *words], stdin)
    yield f"{format_command(program, command)} reads its input", (b"", 0), run_and_read_rest([program, *command], stdin)[::3]


def check_words() -> Iterator[Comparison]:
    """Runs the programs with words that are no UTF-8, a program's own name among them, whatever the others are; and with the protocols by name."""
    for program in (PROGRAM, BEYOND):
        for name in (None, "states", "state"):
            words = [name] if name else []
            printed = capture_streams([b"lw\xff", *words], executable=program)
            yield f"{format_command(program, words)} by a name that is no UTF-8", (b"", b"lw: read failed\n", 4), printed
        yield f"{format_command(program, words)}, words that are no UTF-8", (b"", b"lw: read failed\n", 4), capture_streams([program, b"states\xff"])
    for others in ([b"replay", b"\xff"], [b"\xff"], [b"states", b"P0\xc3"], [b"replay", b"P0", b"--protocol", b"me\xffsi"]):
        yield f"lw {others}", (b"", b"lw: read failed\n", 4), capture_streams([PROGRAM, *others])
    stdin = read_file("examples/SB-x86.litmus").encode()
    by_default = capture_streams([PROGRAM, "replay", "P0 P0 D0 P1 P1 D1"], stdin)
    yield "a replay by default", (0, b""), (by_default[2], by_default[1])
    yield "lw replay --protocol mesi", by_default, capture_streams([PROGRAM, "replay", "P0 P0 D0 P1 P1 D1", "--protocol", "mesi"], stdin)


def check_measured(name: str, expected: str) -> Iterator[Comparison]:
    """Compares the number of states of a test of bench/ with that of its table."""
    printed = capture_streams([PROGRAM, "states"], read_file(f"bench/{name}.litmus").encode())[0]
    number = re.search(rb"^States (\d+)$", printed, re.M)
    yield f"the states of bench/{name}.litmus", expected, number[1].decode() if number else "-"


def check_bench() -> Iterator[Comparison]:
    """Yields whether bench/INDEX.md has each test of bench/."""
    files = sorted(os.path.basename(it)[: -len(".litmus")] for it in glob.glob("bench/*.litmus"))
    yield "bench/INDEX.md has each test", files, sorted(name for name, _ in measure_lists.list_tests())


def check_handles() -> Iterator[Comparison]:
    """Yields whether HANDLES says that no handle is allowed."""
    yield "HANDLES", "Handles allowed: none.\n", read_file("HANDLES")


def check_counts() -> Iterator[Comparison]:
    """Checks that there is as much to look at as there must be."""
    documents = ["README.md", *sorted(glob.glob("docs/*.md"))]
    sources = glob.glob("crates/*tests/src/*.rt")
    numbers = {
        "blocks with commands in README.md and docs/": sum(bool(split_transcript(it)) for name in documents for it in list_blocks(read_file(name))),
        "rows of the tables of docs/FORMAT.md": len(list(list_fault_checks())),
        "rows of the tables of docs/FENCES.md and docs/FAMILIES.md": len(list(list_table_checks())),
        "examples": len(list_examples()),
        "examples past the limits": len(make_pages.list_test_names()) - len(list_examples()),
        "wrong bodies": len(check_edits.list_edits()),
        "tests of the crates": sum(read_file(it).count("#[test]") for it in sources),
    }
    for counted, number in numbers.items():
        yield f"there are at least {MIN_COUNTS[counted]} {counted}: {number}", True, number >= MIN_COUNTS[counted]


def read_file(name: str) -> str:
    """Returns the text of a file of the repository."""
    with open(f"{HOME}/{name}", encoding="utf-8") as file:
        return file.read()


def count_fences(name: str) -> tuple[int, int]:
    """Returns how many fences a test has, compiled, and how many of them are enough for its question, with none to spare."""
    test = plain.compile_test(plain.read_test(read_file(f"examples/{name}.litmus")))
    places = fences.list_fences(test)
    return len(places), len(places) - len(fences.find_removable_fences(test, places, fences.list_states(test)))


def check_counts_of_fences(names: str, number: str, fence_count: str) -> Iterator[Comparison]:
    """Compares a row of the table of docs/FENCES.md."""
    for name in names.split(", "):
        yield f"docs/FENCES.md, the fences of {name}", (int(number), int(fence_count)), count_fences(name)


def check_family(name: str, interleaving: str, x86: str, fence_count: str) -> Iterator[Comparison]:
    """Compares a row of the table of docs/FAMILIES.md."""
    words = make_pages.match_fixed_words(read_file(f"examples/{name}.litmus"))
    counted = words["interleaving"], words["x86"], count_fences(name)[1]
    yield f"docs/FAMILIES.md, {name}", (interleaving, x86, int(fence_count)), counted


def list_table_checks() -> Iterator[Check]:
    """Yields a check for each row of the tables of docs/FENCES.md and docs/FAMILIES.md."""
    for row in re.findall(r"^\| ([^|]+) \| (\d+) \| (\d+) \| [^|]+ \|$", read_file("docs/FENCES.md"), re.M):
        yield check_counts_of_fences, *row
    for row in re.findall(r"^\| (\S+) \| .* \| (\w+) \| (\w+) \| (\d+) \|.*\|$", read_file("docs/FAMILIES.md"), re.M):
        yield check_family, *row


def list_examples() -> list[str]:
    """Returns the names of all examples."""
    return sorted(os.path.basename(path)[: -len(".litmus")] for path in glob.glob(f"{HOME}/examples/*.litmus"))


def check_readmes() -> Iterator[Comparison]:
    """Yields whether each crate has a README.md with the present list of files, and links to names that the files declare."""
    yield from make_readmes.make_comparisons()


def check_times() -> Iterator[Comparison]:
    """Yields whether docs/TIMES.md and tools/program/minutes.txt have the crates of the program."""
    yield "docs/TIMES.md has the table of tools/program/minutes.txt (tools/documents/make_times.py writes it)", True, make_times.is_current()
    yield "tools/program/minutes.txt has the minutes of each crate of the program", [], [it.name for it in build.list_crates() if not it.minutes]


def check_wings_apart() -> Iterator[Comparison]:
    """Yields whether each crate names only what its line of crates.txt allows."""
    yield "no crate that says what tests mean names one that reads texts", [], check_wings.find_faults()


def check_semantic_core() -> Iterator[Comparison]:
    """Yields whether the definitions that the theorem needs are within their limits."""
    yield "the definitions of a test's meaning, and docs/MAP.md on them (tools/documents/semantic_core.py)", [], semantic_core.find_faults()


def check_believe() -> Iterator[Comparison]:
    """Yields whether docs/BELIEVE.md has the present lines of the definitions."""
    yield "the definitions that the contract of `answer` reaches, and docs/BELIEVE.md on them (tools/documents/believe.py)", [], believe.find_page_faults()


def check_classics() -> Iterator[Comparison]:
    """Compares the texts of the classic tests with those that a test of lw_text_tests reads as the values that theorems mention."""
    source = read_file("crates/lw_text_tests/src/classics.rt")
    constants = re.findall(r'^/// examples/([\w-]+)\.litmus\.\nconst \w+: &str = "((?:[^"\\]|\\.)*)";', source, re.M)
    yield "how many examples lw_text_tests reads as values", 3, len(constants)
    for name, text in constants:
        yield f"examples/{name}.litmus is what lw_text_tests reads", read_file(f"examples/{name}.litmus"), text.replace("\\\\", "\\")


def parse_spec_text(source: str, name: str) -> str:
    """Returns the bytes of a text that a file of definitions writes out, by the names of its parts."""
    block = require_match(re.search(rf"^{name} =\s*((?:.+\n?)*)", source, re.M))[1]
    parts: list[tuple[str, str]] = re.findall(r'codes "((?:[^"\\]|\\.)*)"|\b([a-z]\w*_\w+)\b', block)
    written, escaped = {"\\n": "\n", "\\\\": "\\", '\\"': '"'}, re.compile(r"\\.")
    return "".join(parse_spec_text(source, part) if part else escaped.sub(lambda it: written[it[0]], text) for text, part in parts)


def check_theorem_on_bytes() -> Iterator[Comparison]:
    """Compares the text and the report of the law on bytes with those of the files."""
    source = read_file("crates/lw_bench/specs/Examples.antt")
    text, report = (parse_spec_text(source, f"store_buffering_{it}") for it in ("text", "report"))
    yield "examples/SB-x86.litmus is the text of the law on bytes", read_file("examples/SB-x86.litmus"), text
    yield "its report is that of the law on bytes", (report.encode(), b"", 0), capture_streams([PROGRAM, "states"], text.encode())
    shown = [
        "".join(f"{line}\n" for line in block[1:])
        for block in list_blocks(read_file("README.md")) if block[0] == "$ ./lw states < examples/SB-x86.litmus"
    ]
    yield "README.md shows the report of the law on bytes", [report], shown


def check_named_items() -> Iterator[Comparison]:
    """Yields whether all that documents name exists."""
    yield "what README.md and the pages of docs/ name is there (tools/gate/check_names.py)", [], check_names.find_faults()


def list_checks() -> Iterator[Check]:
    """Yields all checks: functions with their arguments, each of which is one thing to do."""
    yield from list_proof_checks()
    for name in ["README.md", *sorted(glob.glob("docs/*.md"))]:
        for block in list_blocks(read_file(name)):
            yield check_transcript, name, block
    yield from list_fault_checks()
    yield from list_table_checks()
    yield (check_card.make_comparisons,)
    yield from list_example_checks()
    yield from list_program_checks()


def list_proof_checks() -> Iterator[Check]:
    """Yields the checks of builds, proofs and definitions, and of what documents say of them."""
    yield (check_build.make_comparisons,)
    yield (check_times,)
    yield (check_wings_apart,)
    yield (proof_layout.make_comparisons,)
    yield (check_lemmas.make_comparisons,)
    yield (cases.make_comparisons, test_free_names)
    yield (cases.make_comparisons, test_names)
    yield (cases.make_comparisons, test_wings)
    yield (check_semantic_core,)
    yield (check_believe,)
    yield (check_classics,)
    yield (check_theorem_on_bytes,)
    yield (check_named_items,)


def list_example_checks() -> Iterator[Check]:
    """Yields the checks of examples/, tables/ and bench/."""
    for name in make_pages.list_test_names():
        yield check_example, name
        yield check_x86_form, name
        yield check_transcript, f"examples/{name}.page", read_file(f"examples/{name}.page").splitlines()
    yield (check_tables.check_table_names,)
    for name in check_tables.TABLES:
        yield check_tables.make_comparisons, PROGRAM, name
    for name in check_tables.FOLDERS:
        yield check_tables.compare_folder, PROGRAM, name
    yield (check_index,)
    yield (check_questions,)
    yield (check_readmes,)
    yield (check_bench,)
    for name_and_states in measure_lists.list_tests():
        yield check_measured, *name_and_states


def list_program_checks() -> Iterator[Check]:
    """Yields the checks of what the programs print, whatever they are asked and however they are run."""
    yield (check_handles,)
    yield (check_counts,)
    yield from check_beyond.list_checks()
    for usage in USAGES:
        yield check_usage, *usage
    yield (check_words,)
    for program, commands in ((PROGRAM, COMMANDS), (BEYOND, BEYOND_COMMANDS)):
        for lw_command in commands:
            yield check_output_stream, program, lw_command
            yield check_input_stream, program, lw_command
    for name in list_examples():
        if read_file(f"examples/{name}.litmus").startswith("SRC"):
            yield check_compiled, f"examples/{name}.litmus"
    for language, seed in random_tests.list_jobs(RANDOM_TESTS):
        yield random_tests.make_comparisons, language, seed
    for program, test, *words in REFUSED_MEMORY:
        yield check_refused_memory, program, test, *words


def list_tool_checks() -> list[Callable[[], Iterator[Comparison]]]:
    """Returns the checks of single tools for which it matters neither how long things take nor what runs beside them."""
    tested = (test_plain, test_commands, test_editor, test_replay_state, test_python, test_types, test_herd, test_assume, test_original,
              test_from_c, test_shapes, test_answers, test_machine_parts)
    return [*(partial(cases.make_comparisons, it) for it in tested), check_graph.make_comparisons, check_slides.make_comparisons]


def list_last_checks() -> Iterator[Iterator[Comparison]]:
    """Yields the checks for which it matters how long things take: they run one after another, when all others have ended."""
    yield cases.make_comparisons(test_completion)
    yield cases.make_comparisons(test_build)
    yield check_lab.make_comparisons()
    yield check_quiz.make_comparisons()
    yield check_many.make_comparisons()
    yield cases.make_comparisons(test_run_all)
    yield cases.make_comparisons(test_fences)
    yield cases.make_comparisons(test_on_machine)
    yield cases.make_comparisons(test_seen_here)
    yield check_page.check_by_client()
    yield check_page.check_by_browser()
    yield check_site.make_comparisons()
    yield check_library.make_comparisons()
    yield check_pack.make_comparisons()
    yield cases.make_comparisons(test_packages)


def make_comparisons(is_quick: bool) -> Iterator[Comparison]:
    """Yields all comparisons: what is compared, what is expected, and what was found."""
    with ThreadPoolExecutor(len(os.sched_getaffinity(0))) as pool:
        for compared in pool.map(lambda check: list(check[0](*check[1:])), list_checks()):
            yield from compared
    if not is_quick:
        yield from processes.run_checks(list_tool_checks())
        for last in list_last_checks():
            yield from last


def list_skipped() -> Iterable[str]:
    """Returns the lines that say which checks were skipped."""
    parts = (test_types, test_completion, test_editor, test_from_c, test_run_all, test_on_machine, check_lab, check_page, check_site, check_library, check_pack, test_packages)
    return filter(None, (it.describe_skipped() for it in parts))


def main() -> int:
    """Runs the command that the arguments describe. Returns the exit status."""
    reader = command.Reader(__doc__)
    reader.add_argument("--quick", action="store_true")
    is_quick = reader.read().quick
    os.chdir(HOME)
    # If there is no program of the present sources, these build it first.
    for words in (["lw", "replay", ""], ["beyond", "states"]):
        with open(f"{HOME}/examples/SB.litmus", "rb") as file:
            subprocess.run([f"{HOME}/{words[0]}", *words[1:]], stdin=file, stdout=subprocess.DEVNULL)
    passed = failed = 0
    for subject, expected, actual in make_comparisons(is_quick):
        passed, failed = passed + (expected == actual), failed + (expected != actual)
        if expected != actual:
            print(f"{subject}\n  wanted: {expected!r}\n  found:  {actual!r}")
    for skipped in ["the checks of single tools, the page, the library and the pack were left out"] if is_quick else list_skipped():
        print(skipped)
    print(f"{passed} passed, {failed} failed")
    return 1 if failed else 0


if __name__ == "__main__":
    sys.exit(start.run(main))
