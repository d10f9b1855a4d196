"""Compares what the library makes of the examples with the program's bytes, from C by examples/c/use.c and from Python by python/lw.py.

    python3 tools gate.check_library

The library is crates/lw_library/out/liblw_library.a, which the gate builds (`rt lib` in crates/lw_library builds it too). For each example it
compares its states, its schedules, its compiled text, and its replays by a schedule of its list, by one with a further word, and over MOESI. Then
it compares the faults if the lent memory or the room for the answer is small, down to none; words that are no command, a small stack, and
threads that share a workbench; and what examples/python/use.py prints. The last line is 'N passed, M failed'. tools/check_documents.py
calls this; tools/gate/check_site.mjs compares what the modules of WebAssembly answer.
"""
from __future__ import annotations

import glob
import os
import re
import shutil
import subprocess
import sys
import tempfile
from collections.abc import Iterator
from concurrent.futures import ThreadPoolExecutor
from typing import Any, Callable, List, Tuple

from gate import check_page
from gate.cases import Comparison
from packing import tree
from shared import command, python_lw
from shared.home import HOME, PROGRAM, close_check

LIBRARY = f"{HOME}/crates/lw_library/out/liblw_library.a"
BEYOND = f"{HOME}/crates/beyond/out/beyond"
# Prints how much the version of the library that is linked is above that of the header.
VERSION_IN_C = '#include "lw.h"\n#include <stdio.h>\nint main(void) { printf("%d\\n", (int)(lw_version() - LW_VERSION)); }\n'
PAST_LIMITS = f"{HOME}/bench/beyond/TryLock3-x86.litmus"


# The answer to the words of a command and a text: the exit status, standard output and standard error.
Answer = Callable[[List[str], bytes], Tuple[int, bytes, bytes]]


def capture_status_and_streams(command: list[str], text: bytes, **settings: str) -> tuple[int, bytes, bytes]:
    """Returns the exit status of a command, and what it prints on standard output and on standard error. `settings` are added to its environment."""
    ran = subprocess.run(command, input=text, capture_output=True, check=False, env={**os.environ, **settings})
    return ran.returncode, ran.stdout, ran.stderr


def list_cases() -> Iterator[tuple[str, list[str], bytes]]:
    """Yields the words and the text of each call, with what the program answers."""
    for path in sorted(glob.glob(f"{HOME}/examples/*.litmus")):
        with open(path, "rb") as file:
            text = file.read()
        listed = capture_status_and_streams([PROGRAM, "schedules"], text)[1].decode().split("\n")
        schedule = next((it.strip() for it in listed if it.startswith(" ")), "P0")
        for words in (
            ["states"],
            ["schedules"],
            ["compile"],
            ["replay", schedule],
            ["replay", schedule + " P9"],
            ["replay", schedule, "--protocol", "moesi"],
        ):
            yield os.path.basename(path), words, text


def build_c_example(folder: str) -> Answer:
    """Returns the C example over the static library."""
    program = f"{folder}/lw-in-c"
    words = ["-O1", "-Wall", "-Wextra", "-I", f"{HOME}/include", f"{HOME}/examples/c/use.c", LIBRARY, "-o", program]
    subprocess.run(["cc", *words], check=True)
    return lambda words, text: capture_status_and_streams([program, *words], text)


def load_python_module(folder: str) -> Answer:
    """Returns the Python module over the static library as a shared object."""
    shared = f"{folder}/liblw.so"
    subprocess.run(["cc", "-shared", "-o", shared, "-Wl,--whole-archive", LIBRARY, "-Wl,--no-whole-archive"], check=True)
    lw = python_lw.load_lw()

    def answer_command(arguments: list[str], text: bytes) -> tuple[int, bytes, bytes]:
        """Returns the library's answer to a command from Python."""
        bench = lw.Workbench(shared, memory=1 << 20)
        command, *others = arguments
        try:
            values = [others[0].encode(), others[2] if others[1:] else "mesi"] if others else []
            status, page = bench.run(command, text, *values)
        except lw.Fault as fault:
            return fault.status, b"", fault.told.encode() + b"\n"
        if command == "states":
            assert len(lw.report_of(page).states) == lw.report_of(page).positive + lw.report_of(page).negative
        if command == "schedules":
            lw.schedules_of(page)
        return status, page, b""

    return answer_command


def compare_limits(answer_with: Callable[..., tuple[int, bytes, bytes]]) -> Iterator[Comparison]:
    """Compares what is reported if memory or room is short: an answer, that memory ran out, and nothing else."""
    with open(f"{HOME}/examples/SB-x86.litmus", "rb") as file:
        text = file.read()
    unlimited = capture_status_and_streams([PROGRAM, "states"], text)
    short = (4, b"", b"lw: memory\n")
    results = [answer_with(text, LW_MEMORY=str(size)) for size in (0, 1, 15, 16, 100, *range(512, 40000, 1024))]
    first = results.index(unlimited) if unlimited in results else len(results)
    yield "small memory", [short] * first + [unlimited] * (len(results) - first), results
    yield "32 KiB for the states of SB", unlimited, answer_with(text, LW_MEMORY=str(32 << 10))
    for size in (0, 1, len(unlimited[1]) - 1, len(unlimited[1])):
        yield f"room of {size} bytes", unlimited, answer_with(text, LW_ROOM=str(size))


def compare_python_example(folder: str) -> Iterator[Comparison]:
    """Compares what examples/python/use.py prints: for each state its schedule, and a fault's place."""
    with open(f"{HOME}/examples/SB-x86.litmus", "rb") as file:
        text = file.read()
    states = capture_status_and_streams([PROGRAM, "states"], text)[1].decode().splitlines()
    words = [sys.executable, f"{HOME}/examples/python/use.py", f"{folder}/liblw.so", f"{HOME}/examples/SB-x86.litmus"]
    printed = capture_status_and_streams(words, b"", PYTHONPATH=f"{HOME}/python")
    lines = printed[1].decode().splitlines()
    yield "the example in Python ends", (0, b""), (printed[0], printed[2])
    yield "the example in Python has the states", sorted(it for it in states if "=" in it and "(" not in it), sorted(
        it.split("  by ")[0] for it in lines if "  by " in it
    )
    yield "the example in Python prints a fault's place", True, bool(re.search(r"\(line \d+, column \d+\)$", lines[-1] if lines else ""))


def compare_c_ends(folder: str) -> Iterator[Comparison]:
    """Compares how calls from C end with how the program ends: words that are no command, a schedule that is no UTF-8, an input that is a folder,
    and an output that is full.
    """
    with open(f"{HOME}/examples/SB-x86.litmus", "rb") as file:
        text = file.read()
    program = f"{folder}/lw-in-c"
    replays = [["replay", "P0", *options] for options in (["--protocol"], ["--protocol", "msi"], ["--protocol", "MOESI"], ["--protocols", "mesi"])]
    others: list[list] = [[], ["state"], ["states", "P0"], ["replay"], *replays, ["replay", b"P0 \xff"], ["replay", ""]]
    for words in others:
        yield f"the library from C: {words}", capture_status_and_streams([PROGRAM, *words], text), capture_status_and_streams([program, *words], text)
    for redirection in ("<.", ">/dev/full"):
        by_program, by_library = (capture_status_and_streams(["sh", "-c", f'exec "$0" states {redirection}', it], text) for it in (PROGRAM, program))
        yield f"the library from C: states {redirection}", by_program, by_library


def compare_versions(folder: str) -> Iterator[Comparison]:
    """Compares the version of the library, from C and from Python, with that of include/lw.h, which packages have in theirs."""
    import lw

    source, program = f"{folder}/version.c", f"{folder}/version"
    with open(source, "w", encoding="utf-8") as file:
        file.write(VERSION_IN_C)
    subprocess.run(["cc", "-I", f"{HOME}/include", source, LIBRARY, "-o", program], check=True)
    yield "the library from C: its version is that of lw.h", (0, b"0\n", b""), capture_status_and_streams([program], b"")
    yield "the library from Python: its version is that of packages", tree.read_library_version(), lw.version(f"{folder}/liblw.so")


def check_stack(folder: str) -> Iterator[Comparison]:
    """Runs the test that takes the most stack of those that were found, with as much as docs/LIBRARY.md says is ample."""
    cells = " | ".join(f"XCHG [{name}],EAX" for name in "abcd")
    text = f"X86 Deep\n{{}}\n P0 | P1 | P2 | P3 ;\n{f' {cells} ;' * 32}\nexists (a=1)\n".encode()
    for lw_command in ("states", "schedules"):
        limited = capture_status_and_streams(["sh", "-c", f'ulimit -s 256 && exec "$0" {lw_command}', f"{folder}/lw-in-c"], text)
        yield f"the library: {lw_command} with a stack of 256 KiB", capture_status_and_streams([PROGRAM, lw_command], text), limited


def compare_threads(folder: str) -> Iterator[Comparison]:
    """Compares the answers to threads that share a workbench with those to one; and calls that are refused before the library is called."""
    import lw

    bench, texts = lw.Workbench(f"{folder}/liblw.so", memory=1 << 22), [text for _, words, text in list_cases() if words == ["states"]]
    states_of = lambda text: bench.run("states", text)
    alone = [states_of(text) for text in texts]
    with ThreadPoolExecutor(8) as pool:
        yield "the library from Python: eight threads share a workbench", alone, list(pool.map(states_of, texts))
    for words in (("replay", texts[0]), ("states", texts[0], b"P0"), ("states", texts[0].decode())):
        try:
            result = bench.run(*words)
        except TypeError:
            result = TypeError
        yield f"the library from Python: {words[0]} with {len(words) - 1} arguments", TypeError, result
    try:
        result = bench.run("replay", texts[0], b"P0 \xff")
    except lw.Fault as fault:
        result = fault.status, fault.told
    yield "the library from Python: a schedule that is no UTF-8", (4, "lw: read failed"), result


def reach_states(bench: Any, output: str, text: bytes, budget: int) -> tuple[int, bytes, bytes]:
    """Returns the answer of a call for a list of any size, in a program's form: the exit status, standard output and standard error."""
    import lw

    try:
        return 0, bench.reach(output, text, budget), b""
    except lw.Fault as fault:
        return fault.status, b"", f"{fault.told}\n".encode()


def compare_lists(folder: str) -> Iterator[Comparison]:
    """Compares the lists of any size of all examples, by orders, and of a test past the limits of lists, by a search, with those of the programs.
    """
    import lw

    bench = lw.Workbench(f"{folder}/liblw.so")
    for name, words, text in list_cases():
        if words in (["states"], ["schedules"]):
            yield f"the library: reach {words[0]}, {name}", capture_status_and_streams([PROGRAM, *words], text), reach_states(bench, words[0], text, 0)
    if not os.path.exists(BEYOND):
        return
    with open(PAST_LIMITS, "rb") as file:
        text = file.read()
    for output in ("states", "schedules", "marks"):
        for budget in (100_000, 10, 0):
            expected = capture_status_and_streams([BEYOND, "--budget", str(budget), output], text)
            yield f"the library: reach {output} within {budget} states", expected, reach_states(bench, output, text, budget)
    for arguments in (("compile", text), ("states", text, -1), ("states", text, 1 << 64), ("states", text, "10")):
        try:
            result = bench.reach(*arguments)
        except ValueError:
            result = ValueError
        yield f"the library from Python: reach {arguments[0]}, {arguments[2:]}", ValueError, result


def compare_films(folder: str) -> Iterator[Comparison]:
    """Compares films from Python with the pages of the program: those of all prefixes of a schedule of each example, and faults."""
    import lw

    bench = lw.Workbench(f"{folder}/liblw.so")
    for name, words, text in list_cases():
        if words[0] == "replay":
            command, schedule, *option = words
            events = schedule.split()
            prefixes = [" ".join(events[:count]) for count in range(len(events) + 1)]
            printed = [capture_status_and_streams([PROGRAM, command, it, *option], text) for it in prefixes]
            refused = [(status, err) for status, _, err in printed if err]
            try:
                film = bench.film(text, schedule, *option[1:])
            except lw.Fault as fault:
                film = fault.status, f"{fault.told}\n".encode()
            yield f"the library: film, {name}, {' '.join(words)}", refused[-1] if refused else [out for _, out, _ in printed], film


def is_built() -> bool:
    """Returns whether the library is there, and a compiler for C."""
    return os.path.exists(LIBRARY) and shutil.which("cc") is not None


def describe_skipped() -> str | None:
    """Returns the line that says what was left out, or None if nothing was."""
    return None if is_built() else "the library: checks were skipped, since it is not built, or cc is missing"


def make_comparisons() -> Iterator[Comparison]:
    """Yields the comparisons if the library is there; with CI=true it must be."""
    if is_built():
        yield from make_all_comparisons()
    elif os.environ.get("CI") == "true":
        yield "the library: where CI=true, it is there", None, describe_skipped()


def make_all_comparisons() -> Iterator[Comparison]:
    """Yields all comparisons of the library, in C and in Python."""
    with tempfile.TemporaryDirectory(prefix="lw-library-") as folder, ThreadPoolExecutor(2) as pool:
        cases = list(list_cases())
        expected_answers = list(pool.map(lambda it: capture_status_and_streams([PROGRAM, *it[1]], it[2]), cases))
        for language, answer in (("C", build_c_example(folder)), ("Python", load_python_module(folder))):
            for (name, words, _), expected_answer, actual_answer in zip(cases, expected_answers, pool.map(lambda it: answer(it[1], it[2]), cases)):
                yield f"the library from {language}: {name}, {' '.join(words)}", expected_answer, actual_answer
        for subject, expected, actual in compare_limits(lambda text, **settings: capture_status_and_streams([f"{folder}/lw-in-c", "states"], text, **settings)):
            yield f"the library: {subject}", expected, actual
        yield from compare_c_ends(folder)
        yield from compare_versions(folder)
        yield from check_stack(folder)
        yield from compare_threads(folder)
        yield from compare_lists(folder)
        yield from compare_films(folder)
        yield from compare_python_example(folder)


def main() -> int:
    """Runs the command that the arguments describe. Returns the exit status."""
    return close_check(make_comparisons(), check_page.format_fault)


if __name__ == "__main__":
    sys.exit(command.run_command(main, __doc__))
