"""Compares the program `beyond` with `lw`, with lists of other tools, and with the documents. tools/check_documents.py calls it.

    python3 tools gate.check_beyond [--write]

- Within the limits of lists, over examples/ and tables/: `beyond` prints the bytes of `lw`; `beyond --search` prints the same report, and
  each schedule that it prints replays by `lw` to its state.
- The tests of bench/beyond and examples/beyond, and those of bench/ and tables/ that `lw` refuses for size: `beyond` answers them within its
  budget. The report has the checksum that bench/beyond/INDEX.md keeps, which is that of a report by tools/beyond.py; or it is that of
  tools/plain.py or of the search of tools/beyond.py. The numbers of orders and of states that are visited are those of the index. A
  budget of that number of states is enough, and one less is not. Schedules replay.
- Texts that are no tests: the line and the status of `lw`.

For tests with more than MAX_VISITED states only the orders are compared. With --write the command writes the numbers of visited states in that
index anew, after a change of the search, and compares nothing. The last line is 'N passed, M failed'.
"""
from __future__ import annotations

import contextlib
import glob
import hashlib
import os
import pty
import re
import subprocess
import sys
import time
from collections.abc import Callable, Iterator
from typing import Any

import plain
from gate import check_tables
from gate.cases import Comparison
from gate.examples import examples, read
from interpreter.conditions import is_true_in
from interpreter.reports import collect_states, format_state
from interpreter.walks import list_outcomes
from search.explore import Search
from search.reports import make_report
from shared import command, start
from shared.answers import MAX_STATES
from shared.home import BEYOND, HOME, PROGRAM, close_check
from shared.matches import require_match

# A test of bench/beyond/INDEX.md with more states than this is not listed here, since it takes too long.
MAX_VISITED = 5_000_000
LARGE_BUDGET = 100_000_000
# A search that takes some two seconds, and how many seconds it takes if it shows them for sure.
LONG_SEARCH = "sb4own-x86"
SECONDS_OF_LONG_SEARCH = 2.5
# The maximal number of states that a search of an example within the limits may visit.
EXAMPLE_BUDGET = 200_000
# The maximal number of schedules of a list that are replayed.
MAX_REPLAYS = 40
FAULTS = ("", "SRC", "X86_64 A\n", "SRC A {} P0; x := ; exists (true)", "X86 A {} P0; MOV EAX,$x; exists (true)", "x" * 65537)
ROW = re.compile(r"^\| (\S+) \| ([\d,]+) \| ([\d,]+) \| ([\d,]+) \| (.*) \| ([0-9a-f]{16}) \|$", re.M)


def run_tool(arguments: list[str], text: str) -> tuple[str, str, int]:
    """Returns the output of a command on both streams, and its exit status."""
    ran = subprocess.run(arguments, input=text.encode(), capture_output=True, check=False, timeout=300)
    return ran.stdout.decode(), ran.stderr.decode(), ran.returncode


def split_schedules(listed: str) -> list[tuple[str, str]]:
    """Returns the states of a list of schedules, each with its schedule."""
    lines = listed.splitlines()[2:]
    return list(zip(lines[::2], lines[1::2]))


def find_state(page: str, state: str) -> str:
    """Returns the state that a replay's page ends in, written as the line of a report that shows the same sites as the line `state`."""
    lines = page.splitlines()
    registers = {it[1]: dict(re.findall(r"(\w+)=(\d+)", it)) for it in lines if re.match(r"P\d at ", it)}
    content = dict(re.findall(r"(\w+)=(\d+)", lines[-1]))
    words = []
    for site in re.findall(r"([\w:]+)=\d+;", state):
        thread, _, register = site.partition(":")
        if register:
            name = plain.REGISTERS["X86"][int(register[1])] if re.fullmatch(r"r\d", register) else register
            words.append(f"{site}={registers[thread][name]};")
        else:
            words.append(f"{site}={content[site]};")
    return " ".join(words)


def check_schedules(name: str, text: str) -> Iterator[Comparison]:
    """Checks the schedules of a search by replays: each ends, and in its state."""
    printed, _, status = run_tool([BEYOND, "--search", "schedules"], text)
    yield f"beyond --search schedules, {name}: status", 0, status
    replayed = run_tool([PROGRAM, "compile"], text)[0] if text.startswith("SRC") else text
    for state, schedule in split_schedules(printed)[:MAX_REPLAYS]:
        page, _, status = run_tool([PROGRAM, "replay", schedule.strip()], replayed)
        yield f"{name} by {schedule.strip()}", (0, state), (status, find_state(page, state) if page else page)


def list_scheduled_states(listed: str) -> list[str]:
    """Returns the lines of a list of schedules that say which states it has."""
    return listed.splitlines()[:2] + [state for state, _ in split_schedules(listed)]


def check_within(name: str, text: str) -> Iterator[Comparison]:
    """Checks a test within the limits: the bytes of `lw`; and the same states by a search."""
    for lw_command in ("states", "schedules"):
        yield f"beyond {lw_command}, {name}", run_tool([PROGRAM, lw_command], text), run_tool([BEYOND, lw_command], text)
    printed = run_tool([BEYOND, "--method", "states"], text)[1]
    yield f"beyond --method states, {name}", "beyond: listed by orders\n", printed
    searched = run_tool([BEYOND, "--search", "--budget", str(EXAMPLE_BUDGET), "states"], text)
    yield f"beyond --search states, {name}", run_tool([PROGRAM, "states"], text), searched
    schedules = [run_tool(words, text)[0] for words in ([PROGRAM, "schedules"], [BEYOND, "--search", "schedules"])]
    by_orders, by_search = map(list_scheduled_states, schedules)
    yield f"beyond --search schedules, {name}: the states", by_orders, by_search
    yield from check_schedules(name, text)
    for words in ([BEYOND, "marks"], [BEYOND, "--search", "marks"]):
        yield f"{' '.join(words[1:])}, {name}", (list_marks(plain.read_test(text)), "", 0), run_tool(words, text)


def list_marks(test: plain.Test) -> str:
    """Returns the states of a test with their marks, by tools/plain.py."""
    states = collect_states(test, list_outcomes(test))
    return "".join(f"{'+' if is_true_in(test.proposition, outcome) else '-'} {format_state(test, words)}\n" for words, outcome in states)


def check_marks(name: str, text: str, report: str) -> Iterator[Comparison]:
    """Checks the marks of a search: they have the states of the report, and the proposition is true in as many."""
    lines, positive = run_tool([BEYOND, "marks"], text)[0].splitlines(), re.search(r"^Positive: (\d+)", report, re.M)
    yield f"beyond marks, {name}: the states", report.splitlines()[2:-4], [it[2:] for it in lines]
    yield f"beyond marks, {name}: how many hold", positive and int(positive[1]), sum(it.startswith("+ ") for it in lines)


def check_refused(name: str, text: str) -> Iterator[Comparison]:
    """Checks that `lw` refuses a test for its size."""
    for lw_command in ("states", "schedules"):
        _, line, status = run_tool([PROGRAM, lw_command], text)
        yield f"lw {lw_command}, {name}", (True, 3), (line.startswith("lw: limit "), status)


def check_budget(name: str, text: str, count: int) -> Iterator[Comparison]:
    """Checks the budget of a test that is searched: `count` states are sufficient, and one fewer is not."""
    printed = run_tool([BEYOND, "--budget", str(count), "--method", "states"], text)
    yield f"beyond --budget {count}, {name}", (f"beyond: listed by a search of {count} states\n", 0), printed[1:]
    printed = run_tool([BEYOND, "--budget", str(count - 1), "schedules"], text)
    yield f"beyond --budget {count - 1}, {name}", ("", f"beyond: budget {count - 1}\n", 3), printed


def read_rows() -> list[tuple[Any, ...]]:
    """Returns the rows of bench/beyond/INDEX.md: for each test its name, the number of orders, of states that a search visits and of states in its
    report, the line Observation of its report, and the checksum of its report.
    """
    number = lambda word: int(word.replace(",", ""))
    return [(it[0], *map(number, it[1:4]), *it[4:]) for it in ROW.findall(read("bench/beyond/INDEX.md"))]


def hash_report(report: str) -> str:
    """Returns the first 16 digits of a report's SHA-256."""
    return hashlib.sha256(report.encode()).hexdigest()[:16]


def check_row(name: str, orders: int, visited: int, states: int, observed: str, sum_of_report: str) -> Iterator[Comparison]:
    """Checks a row of bench/beyond/INDEX.md, which has the fields of `read_rows`."""
    text = read(f"bench/beyond/{name}.litmus")
    test = plain.read_test(text)
    yield f"bench/beyond/{name}, its orders", (True, orders), (orders > 2**20, plain.count_orders(test)[1])
    if visited > MAX_VISITED:
        return
    yield from check_refused(name, text)
    report, line, status = run_tool([BEYOND, "--method", "states"], text)
    yield f"beyond states, {name}", (f"beyond: listed by a search of {visited} states\n", 0), (line, status)
    row = (hash_report(report), *report.splitlines()[1:2], *report.splitlines()[-1:])
    yield f"the report of {name}", (sum_of_report, f"States {states}", f"Observation {test.name} {observed}"), row
    if visited < EXAMPLE_BUDGET:
        yield from check_budget(name, text, visited)
        yield from check_marks(name, text, report)
    if states <= MAX_REPLAYS:
        yield from check_schedules(name, text)


def make_report_by_search(test: plain.Test) -> str:
    """Returns the report of a test by the search of tools/beyond.py."""
    return make_report(test, Search(test).explore(MAX_STATES, lambda *_: None))


def check_past(name: str, text: str, report_by: Callable[[plain.Test], str]) -> Iterator[Comparison]:
    """Checks a test that `lw` refuses for size: the report of `beyond` is that of `report_by`; its budget, marks and schedules are right."""
    yield from check_refused(name, text)
    report, line, status = run_tool([BEYOND, "--method", "states"], text)
    yield f"beyond states, {name}", (report_by(plain.read_test(text)), 0), (report, status)
    yield from check_budget(name, text, int(require_match(re.search(r"(\d+) states$", line))[1]))
    yield from check_marks(name, text, report)
    yield from check_schedules(name, text)


def check_fault(text: str) -> Iterator[Comparison]:
    """Checks that `beyond` refuses a text that is no test as `lw` does."""
    for words in (["states"], ["--search", "--method", "schedules"]):
        yield f"beyond {' '.join(words)}, {text[:40]!r}", run_tool([PROGRAM, words[-1]], text), run_tool([BEYOND, *words], text)


def check_index() -> Iterator[Comparison]:
    """Checks that bench/beyond/INDEX.md has each test, without duplicates."""
    files = sorted(os.path.basename(it)[: -len(".litmus")] for it in glob.glob(f"{HOME}/bench/beyond/*.litmus"))
    yield "bench/beyond/INDEX.md has each test", files, sorted(it[0] for it in read_rows())


def list_table_texts() -> Iterator[tuple[str, str, bool]]:
    """Yields the texts of tables/ on lists: the file of each, its text, and whether `lw` refuses it for size."""
    for path in sorted(glob.glob(f"{HOME}/tables/reports/*") + glob.glob(f"{HOME}/tables/schedules/*")):
        with open(path, encoding="utf-8", newline="\n") as file:
            case = check_tables.parse_case_file(file.read())
        assert case is not None, f"{path} has no case"
        _, text, expected = case
        if expected.startswith(("Test ", "lw: limit ")):
            yield os.path.relpath(path, HOME), text.decode(), expected.startswith("lw: limit ")


def write_visited() -> None:
    """Writes the numbers of states that the searches of bench/beyond/INDEX.md visit."""
    page = f"{HOME}/bench/beyond/INDEX.md"
    text = read(page)
    for name, orders, *_ in read_rows():
        line = run_tool([BEYOND, "--budget", str(LARGE_BUDGET), "--method", "states"], read(f"bench/beyond/{name}.litmus"))[1]
        visited = int(require_match(re.search(r"(\d+) states$", line))[1])
        text = re.sub(rf"^(\| {re.escape(name)} \| {orders:,} \|) [\d,]+ \|", rf"\1 {visited:,} |", text, flags=re.M)
    with open(page, "w", encoding="utf-8") as file:
        file.write(text)


def run_on_terminal(path: str) -> tuple[str, str]:
    """Returns the output of `./beyond --method states` on a test: standard output, and standard error on a terminal."""
    terminal, end = pty.openpty()
    with subprocess.Popen([f"{HOME}/beyond", "--method", "states", f"{HOME}/{path}"], stdout=subprocess.PIPE, stderr=end) as ran:
        os.close(end)
        assert ran.stdout is not None
        printed = ran.stdout.read()
    shown = b""
    with contextlib.suppress(OSError):
        while piece := os.read(terminal, 4096):
            shown += piece
    os.close(terminal)
    return printed.decode(), shown.decode()


def check_seconds() -> Iterator[Comparison]:
    """Checks that a search that takes long shows on a terminal how long, and leaves nothing of that; and that a short one shows nothing."""
    printed, shown = run_on_terminal("examples/beyond/3.TryLock.litmus")
    yield "beyond on a terminal, a short search", "\r\x1b[Kbeyond: listed by a search of 65 states\r\n", shown
    yield "its report", run_tool([BEYOND, "states"], read("examples/beyond/3.TryLock.litmus"))[0], printed
    begin = time.monotonic()
    printed, shown = run_on_terminal(f"bench/beyond/{LONG_SEARCH}.litmus")
    # A fast machine may need less than two seconds.
    is_short = time.monotonic() - begin < SECONDS_OF_LONG_SEARCH
    yield "beyond on a terminal, a long search: its first line", True, is_short or shown.startswith("\rbeyond: searching, 2 s")
    yield "and its last", True, re.search(r"\r\x1b\[Kbeyond: listed by a search of \d+ states\r\n$", shown) is not None
    yield "its report", True, printed.startswith("Test ") and printed.count("\n") > 100_000


def list_checks() -> Iterator[tuple[Any, ...]]:
    """Yields all checks, each a function and its arguments. What takes long comes first."""
    yield (check_index,)
    yield (check_seconds,)
    for row in sorted(read_rows(), key=lambda it: it[2], reverse=True):
        yield check_row, *row
    for name, text in examples():
        yield check_within, name, text
    for path in sorted(glob.glob(f"{HOME}/examples/beyond/*.litmus")):
        yield check_past, os.path.relpath(path, HOME), read(path), plain.make_report
    for name in ("over-w7x3.src", "over-w7x3.raw"):
        yield check_past, f"bench/{name}", read(f"bench/{name}.litmus"), plain.make_report
    for name, text, is_refused in list_table_texts():
        yield (check_past, name, text, make_report_by_search) if is_refused else (check_within, name, text)
    for text in FAULTS:
        yield check_fault, text


def make_comparisons() -> Iterator[Comparison]:
    """Yields all comparisons: what is compared, what is expected, and what was found."""
    for check, *words in list_checks():
        yield from check(*words)


def main() -> int:
    """Runs the command that the arguments describe. Returns the exit status."""
    reader = command.Reader(__doc__)
    reader.add_argument("--write", action="store_true")
    if not reader.read().write:
        return close_check(make_comparisons())
    write_visited()
    return 0


if __name__ == "__main__":
    sys.exit(start.run(main))
