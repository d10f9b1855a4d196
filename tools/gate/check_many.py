"""Checks tools/run_all.py and tools/beyond.py by their module docstrings. The last line is 'N passed, M failed'.

    python3 tools gate.check_many

- The table of run_all.py over examples/ and examples/beyond/ has what the pages of the examples have, in all forms, and says how each list was
  made; faults have their places; an earlier run and a log in herd's lines are compared.
- If the program is that of the sources, run_all.py takes at most 1.5 times the processor time of the programs that it starts, over
  examples/ and over 1,000 generated cycles.
- beyond.py: the states of all examples and of random tests are those of tools/plain.py, and each schedule leads to its state; the tests of
  tools/search/tests, which are beyond the limits, are answered in time.

tools/check_documents.py calls all this.
"""
from __future__ import annotations

import csv
import glob
import io
import json
import os
import re
import resource
import subprocess
import sys
import tempfile
import time
from collections.abc import Iterator
from unittest import mock

import beyond
import given
import plain
import random_tests
from gate.cases import Comparison
from gate.examples import TOOLS, examples, read, run
from many import lists
from many import rows as methods
from search.explore import Search
from shapes.edges import list_critical_cycles, make_cycle
from shapes.families import make_name
from shapes.tests import X86, format_test, make_shape
from shared import answers, command, logs, spawn
from shared.home import HOME, close_check
from shared.matches import require_match

CYCLES = 1000
MAX_SECONDS = 10
MAX_TIME_RATIO = 1.5
# Other checks run beside this one and lengthen single tries.
TRIES = 9
LOG_OF_HERD = """Test SB-x86 Allowed
Histogram (3 states)
499   *>0:rax=0; 1:rax=0;
12    :>0:rax=0; 1:rax=1;
489   :>0:rax=0x1; 1:rax=-1;
Ok
"""
TOLD_OF_LOG = """SB-x86: missing 1, too much 2
  missing: 0:EAX=1; 1:EAX=4294967295;
  too much: 0:EAX=1; 1:EAX=0;
  too much: 0:EAX=1; 1:EAX=1;
1 tests against 1 of {log}: 1 differ
"""


def read_page_observation(name: str) -> tuple[str, str]:
    """Returns the states and the observation of an example's page."""
    page = read(f"examples/{name}.page")
    observation = rf"^Observation {re.escape(os.path.basename(name))} (.*)$"
    return require_match(re.search(r"^States (\d+)$", page, re.M))[1], require_match(re.search(observation, page, re.M))[1]


def check_tables() -> Iterator[Comparison]:
    """Checks the tables of run_all.py."""
    expected = {name: read_page_observation(name) for name, _ in examples()}
    printed, _, status = run(["run_all.py", "examples", "--as", "csv"])
    rows = list(csv.DictReader(io.StringIO(printed)))
    yield "run_all.py --as csv", (expected, 0), ({it["name"]: (it["states"], it["observation"]) for it in rows}, status)
    rows = json.loads(run(["run_all.py", "--as", "json", "examples"])[0])
    yield "run_all.py --as json", expected, {it["name"]: (str(it["states"]), it["observation"]) for it in rows}
    method = methods.ENUMERATED if spawn.is_current() else methods.PLAIN_UNPROVED
    yield "run_all.py, by which method", {method}, {it["method"] for it in rows}
    text = run(["run_all.py"], "examples/SB.litmus\nexamples/MP-x86.litmus\n")[0].splitlines()
    yield "run_all.py of a list", [["SB", "Allowed", "No", "Never", "0", "3", "3"]], [line.split()[:7] for line in text[1:2]]
    yield "run_all.py of a list, its length", 3, len(text)


def check_past_limits() -> Iterator[Comparison]:
    """Checks tests that lw refuses for their size: by the program beyond, and by the search that is not proved."""
    if not spawn.is_current():
        return
    files = sorted(glob.glob(f"{HOME}/examples/beyond/*.litmus"))
    names = [os.path.basename(it)[: -len(".litmus")] for it in files]
    pages = [read_page_observation(f"beyond/{name}") for name in names]
    for is_built, method in ((True, methods.SEARCHED), (False, methods.SEARCHED_UNPROVED)):
        errors = io.StringIO()
        with mock.patch.object(spawn, "is_current", lambda name="lw": is_built or name == "lw"), mock.patch.object(sys, "stderr", errors):
            rows = [it.row for it in lists.answer_all(files, lists.Choices(1, None, None), lambda _file: None)]
        expected = [(name, *page, method) for name, page in zip(names, pages)]
        yield f"run_all.py past the limits, {method}", expected, [(it.name, str(it.states), it.observation, it.method) for it in rows]
        yield f"run_all.py past the limits, {method}: said", not is_built, "listed by tools/beyond.py, not proved\n" in errors.getvalue()


def check_faults() -> Iterator[Comparison]:
    """Checks files without a report."""
    out, err, status = run(["run_all.py", "tools/herd/tests/Less.litmus", "nowhere", "examples/SB.litmus"])
    expected = "tools/herd/tests/Less.litmus:6:2: 'JL' is no instruction that is read"
    fault_lines = [line.partition(";")[0] for line in err.splitlines() if not line.startswith("run_all:")]
    yield "run_all.py, faults", (4, [expected, "nowhere: No such file or directory"], 1), (len(out.splitlines()), fault_lines, status)
    out, err, status = run(["run_all.py", "--as", "csv", "tools/search/tests/TryLock3.litmus"])
    fault_lines = out.splitlines()[-1].split(",")
    yield "run_all.py, a limit", (["TryLock3", "Never 0 7"], False, 0), ([fault_lines[1], fault_lines[4]], "TooManyOrders" in err, status)
    for words in (["--as", "xml"], ["--all"], ["--against"]):
        yield f"run_all.py {' '.join(words)}", 2, run(["run_all.py", *words])[2]
    yield "run_all.py --help", 0, run(["run_all.py", "--help"])[2]


def check_against() -> Iterator[Comparison]:
    """Checks comparisons with an earlier run, and with a log of herd's."""
    with tempfile.TemporaryDirectory(prefix="lw-many-") as folder:
        log = os.path.join(folder, "log")
        with open(log, "w", encoding="utf-8") as log_file:
            log_file.write(run(["run_all.py", "--as", "log", "examples"])[0])
        _, err, status = run(["run_all.py", "--as", "json", "examples", "--against", log])
        wanted = f"{len(examples())} tests against {len(examples())} of {log}: 0 differ"
        yield "run_all.py against itself", (wanted, 0), (err.splitlines()[-1], status)
        report = run(["to_herd.py", "--report", "--form", "X86_64"], plain.make_report(plain.read_test(read("examples/SB-x86.litmus"))))[0]
        yield "a report in herd's lines", {"SB-x86": 4}, {name: len(states) for name, states in logs.parse_states(report.splitlines()).items()}
        for text, expected in ((report, (f"1 tests against 1 of {log}: 0 differ\n", 0)), (LOG_OF_HERD, (TOLD_OF_LOG.format(log=log), 1))):
            with open(log, "w", encoding="utf-8") as log_file:
                log_file.write(text)
            _, err, status = run(["run_all.py", "examples/SB-x86.litmus", "--against", log])
            errors = "".join(it for it in err.splitlines(True) if not it.startswith("run_all"))
            yield "run_all.py against a log of herd's", expected, (errors, status)


def measure_seconds(arguments: list[str], text: str = "") -> tuple[float, float]:
    """Returns the processor time of a command of tools/ and of what it starts, and the sum of the times in its table."""
    before = resource.getrusage(resource.RUSAGE_CHILDREN)
    ran = subprocess.run([sys.executable, "-S", *arguments], input=text.encode(), capture_output=True, cwd=TOOLS)
    after = resource.getrusage(resource.RUSAGE_CHILDREN)
    seconds = after.ru_utime + after.ru_stime - before.ru_utime - before.ru_stime
    return seconds, sum(float(line.split()[7]) for line in ran.stdout.decode().splitlines()[1:]) / 1000


def measure_time_ratio(arguments: list[str], text: str = "") -> float:
    """Returns how many times the processor time of the programs a command takes, at the best of several tries."""
    start = "import sys; from shared import spawn; spawn.is_current()"
    look = min(measure_seconds(["-c", start])[0] - measure_seconds(["-c", "import sys"])[0] for _ in range(TRIES))
    return min(seconds / (programs + max(0.0, look)) for seconds, programs in (measure_seconds(arguments, text) for _ in range(TRIES)))


def check_times() -> Iterator[Comparison]:
    """Compares the processor time of run_all.py with that of the program."""
    if not spawn.is_current():
        return
    with tempfile.TemporaryDirectory(prefix="lw-many-") as temporary_folder:
        files = []
        for names in list(list_critical_cycles(8, 4, ("Pod", "MFenced", "LockXchgd")))[:CYCLES]:
            name = make_name(make_cycle(list(names)))
            files.append(os.path.join(temporary_folder, f"{name}.litmus"))
            with open(files[-1], "w", encoding="utf-8") as file:
                file.write(format_test(make_shape(make_cycle(list(names))), name, X86))
        for subject, folder, text in (("examples", "../examples", ""), (f"{len(files)} cycles", "", "\n".join(files))):
            times = measure_time_ratio(["run_all.py", *folder.split()], text)
            yield f"run_all.py over {subject}: {times:.2f} times the time of the programs", True, times <= MAX_TIME_RATIO


def check_search() -> Iterator[Comparison]:
    """Checks the states that beyond.py finds within the limits."""
    tests = [(f"random {language} {seed}", random_tests.Writer(language, seed).draw_test()) for language, seed in random_tests.list_jobs(60)]
    for name, text in [*examples(), *tests]:
        test = plain.read_test(text)
        for variant in [test] if test.language == "X86" else [test, plain.compile_test(test), plain.compile_test(test, has_fences=False)]:
            exploration = Search(variant).explore(answers.MAX_STATES, beyond.show_progress)
            yield f"the search on {name}", [
                words for words, _ in plain.collect_states(variant, plain.list_outcomes(variant))
            ], sorted(exploration.schedules)
            ends = [random_tests.find_end(variant, schedule) for schedule in exploration.schedules.values()]
            rows = [tuple(plain.read_word(site, outcome) for site in plain.list_observed_sites(variant)) for is_final, outcome in ends if is_final]
            yield f"the schedules of the search on {name}", list(exploration.schedules), rows


def check_beyond() -> Iterator[Comparison]:
    """Checks tests past the limits."""
    by = "lw" if os.path.exists(spawn.PROGRAM) else "tools/plain.py"
    for path in sorted(glob.glob(f"{TOOLS}/search/tests/*.litmus")):
        name, test = os.path.basename(path), plain.read_test(read(path))
        yield f"{name} is beyond the limits", True, plain.count_orders(test)[1] > 2**20
        begin = time.monotonic()
        Search(test).explore(answers.MAX_STATES, beyond.show_progress)
        yield f"{name} is searched in {MAX_SECONDS} seconds", True, time.monotonic() - begin < MAX_SECONDS
        printed = run(["beyond.py", path])[0]
        last = f"Listed by tools/beyond.py and not claimed complete; each state is replayed by {by}\n"
        yield f"beyond.py {name}", plain.make_report(test) + last, printed
    printed = run(["beyond.py", "--max-states", "50", f"{TOOLS}/search/tests/TryLock3.litmus"])[0]
    yield "beyond.py --max-states", True, "; the search ended at " in printed.splitlines()[-1]
    for question, verdict_word in (("exists", "Allowed"), ("forall", "Required")):
        text = read("examples/SB-x86.litmus").replace("exists", question)
        out, *ending = run(["beyond.py", "--max-states", "1"], text)
        why = "None: the search came to no final state, so nothing is said of the condition"
        yield f"beyond.py without a state, {question}", [f"Test SB-x86 {verdict_word}", "States 0", why], out.splitlines()[:3]
        yield f"beyond.py without a state, {question}: status", ["", answers.NO_VERDICT], ending
    yield "beyond.py --max-states 0", 2, run(["beyond.py", "--max-states", "0", "examples/SB-x86.litmus"])[2]
    printed = run(["beyond.py", "--schedules", "examples/SB-x86.litmus"])[0]
    yield "beyond.py --schedules", ["Test SB-x86", "States 4", "0:EAX=0; 1:EAX=0;"], printed.splitlines()[:3]
    yield "beyond.py, a fault", ("", "-:1:1: found 'X86_64', expected 'SRC' or 'X86'\n", 1), run(["beyond.py"], "X86_64 A\n")


def make_comparisons() -> Iterator[Comparison]:
    """Yields all comparisons: what is compared, what is expected, and what was found."""
    for check in (check_tables, check_past_limits, check_faults, check_against, check_times, check_search, check_beyond):
        yield from check()


def main() -> int:
    """Runs the checks. Returns the exit status."""
    given.set_output_encoding()
    return close_check(make_comparisons())


if __name__ == "__main__":
    sys.exit(command.run_command(main, __doc__))
