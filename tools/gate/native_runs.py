"""Runs programs in C on this processor, and reports states that are seen and that tools/from_c.py does not list.

    python3 tools gate.native_runs [--cc 'gcc -O2']... [--seconds N] [--tries N] FILE...

It runs the assembly that is converted, with a store to memory of the thread's own in place of each comment of `lw_see`. For each program and
compiler a line says how many of the listed states were seen, in how many runs, and which seen states are not listed. Such a state would be a
fault of the conversion, or of a processor that does not follow x86-TSO. If runs go through a loop at most N times, the list lacks states, and
these do not count as faults. The last line is 'N programs, M beyond'.
"""
from __future__ import annotations

import os
import re
import shlex
import subprocess
import sys
import tempfile
from typing import NamedTuple

import given
from c.compiler import compile_to_assembly, demangle_assembly
from c.condition import Global, ThreadValue
from c.convert import ProgramConverter
from c.refused import Refused
from c.report import make_answer
from c.source import read_source, strip_prefix
from from_c import RECURSION
from shared import answers, command, start
from shared.matches import require_match

HARNESS = """
#include <pthread.h>
#include <sched.h>
#include <stdatomic.h>
#include <stdint.h>
#include <stdio.h>
#include <stdlib.h>
#include <string.h>
#include <time.h>
/* So that no name here is one of the program's. */
#define work lw_run_work
#define gather lw_run_gather
#define keep lw_run_keep
#define reset lw_run_reset
#define run lw_run_run
#define look lw_run_look
#define where lw_run_where
#define results lw_run_results
#define states lw_run_states
#define counts lw_run_counts
#define found lw_run_found
#define arrived lw_run_arrived
#define round_number lw_run_round_number
@DECLARATIONS@
enum { WIDTH = @WIDTH@, MAX_STATES = 4096 };
static uint64_t states[MAX_STATES][WIDTH + 1];
static long counts[MAX_STATES];
static int found;
static _Atomic long round_number, arrived;
static void wait_a_moment(void) {
    static _Thread_local unsigned count;
    if (++count % 256) __builtin_ia32_pause();
    else sched_yield();
}
static void *work(void *it) {
    long thread = (long)it, next = 1;
    unsigned long random = thread * 7919 + 1;
    for (;; next++) {
        while (atomic_load(&round_number) < next) wait_a_moment();
        if (atomic_load(&round_number) == INT64_MAX) return 0;
        random = random * 6364136223846793005u + 1442695040888963407u;
        for (volatile unsigned long wait = random >> 58; wait; wait--);
        run(thread, results[thread]);
        atomic_fetch_add(&arrived, 1);
    }
}
static void gather(void) {
    uint64_t state[WIDTH + 1];
    memset(state, 0, sizeof state);
    look(state);
    for (int at = 0; at < found; at++)
        if (!memcmp(states[at], state, sizeof state)) { counts[at]++; return; }
    if (found == MAX_STATES) return;
    memcpy(states[found], state, sizeof state);
    counts[found++] = 1;
}
int main(int count, char **words) {
    double seconds = atof(words[1]);
    struct timespec begin, now;
    pthread_t threads[THREADS];
    for (long thread = 0; thread < THREADS; thread++) pthread_create(&threads[thread], 0, work, (void *)thread);
    keep();
    clock_gettime(CLOCK_MONOTONIC, &begin);
    for (long number = 1;; number++) {
        reset();
        atomic_store(&round_number, number);
        while (atomic_load(&arrived) < number * THREADS) wait_a_moment();
        gather();
        clock_gettime(CLOCK_MONOTONIC, &now);
        if (now.tv_sec - begin.tv_sec + (now.tv_nsec - begin.tv_nsec) / 1e9 > seconds) break;
    }
    where();
    for (int at = 0; at < found; at++) {
        printf("state %ld", counts[at]);
        for (int site = 0; site < WIDTH; site++) printf(" %llu", (unsigned long long)states[at][site]);
        printf("\\n");
    }
    exit(0);
}
"""


class NativeStates(NamedTuple):
    """The seen states of a program: lines, each with its count."""

    counts: dict[str, int]

    @property
    def runs(self) -> int:
        """Returns the number of all runs."""
        return sum(self.counts.values())


def replace_sees(assembly: str) -> str:
    """Returns assembly in which each comment of `lw_see` is a store to a variable of the thread, and no name is the file's own."""
    assembly = re.sub(r"^\s*\.local\s+\S+$", "", assembly, flags=re.M)
    return re.sub(r"^\s*#lw see (\S+) %?(\w+)", r"\tmovl %\2, %fs:lw_seen_\1@tpoff", assembly, flags=re.M)


def list_objects(converter: ProgramConverter) -> list[tuple[str, int, bool]]:
    """Returns the named objects, each with its length, and whether some thread stores to it."""
    layout, writers = converter.program.layout, converter.program.locations.writers
    stored = {containing_object[0] for address in writers if (containing_object := layout.find_object(address))}
    objects = converter.program.assembly.objects.items()
    return [(name, it.length, name in stored) for name, it in objects if not name.startswith(".") and it.length]


def make_declarations(converter: ProgramConverter, sites: list[ThreadValue | Global]) -> str:
    """Returns the harness's tables of a program: its functions, objects and values."""
    objects = list_objects(converter)
    names = sorted({site.name for site in sites if isinstance(site, ThreadValue) and site.name != "return"})
    count = len(converter.program.threads)
    lines = [f"enum {{ THREADS = {count} }};"]
    lines += [f'extern char object_{number}[] __asm__("{name}");' for number, (name, _, _) in enumerate(objects)]
    lines += [f"_Thread_local unsigned lw_seen_{name};" for name in names] + [f"unsigned P{thread}(void);" for thread in range(count)]
    lines += [f"static char kept_{number}[{size}];" for number, (_, size, _) in enumerate(objects)]
    stored = [(number, size) for number, (_, size, is_stored) in enumerate(objects) if is_stored]

    def format_copies(to_name: str, from_name: str) -> str:
        """Returns the statements that copy all objects to which some thread stores."""
        return "".join(f" memcpy({to_name}_{n}, {from_name}_{n}, {size});" for n, size in stored)

    lines += [f"static void keep(void) {{{format_copies('kept', 'object')} }}", f"static void reset(void) {{{format_copies('object', 'kept')} }}"]
    zeros = "".join(f" lw_seen_{name} = 0;" for name in names)
    statements = "".join(f" into[{index}] = lw_seen_{name};" for index, name in enumerate(names))
    switch = "".join(f" case {thread}: returned = P{thread}(); break;" for thread in range(count))
    body = f"unsigned returned = 0;{zeros} switch (thread) {{{switch} }}{statements} into[{len(names)}] = returned;"
    lines.append(f"static void run(long thread, uint64_t *into) {{ {body} }}")
    looks = "".join(f" state[{index}] = {make_expression(converter, site, names, objects)};" for index, site in enumerate(sites))
    lines.append(f"static uint64_t results[THREADS][{max(len(sites), len(names)) + 1}];\nstatic void look(uint64_t *state) {{{looks} }}")
    printed = "".join(f' printf("object {name} %lu\\n", (unsigned long)object_{number});' for number, (name, _, _) in enumerate(objects))
    lines.append(f"static void where(void) {{{printed} }}")
    return "\n".join(lines)


def make_expression(converter: ProgramConverter, site: ThreadValue | Global, names: list[str], objects: list[tuple[str, int, bool]]) -> str:
    """Returns the expression for a site's value after a run."""
    if isinstance(site, ThreadValue):
        return f"results[{site.thread}][{len(names) if site.name == 'return' else names.index(site.name)}]"
    base, _, offset = site.name.partition("+")
    size = converter.program.find_asked_size(converter.program.asked_addresses[site.name])
    number = [name for name, _, _ in objects].index(base)
    return f"*(uint{8 * size}_t *)(object_{number} + {offset or 0})"


def run_native(converter: ProgramConverter, assembly: str, compiler: str, seconds: float) -> NativeStates:
    """Runs a program for some seconds. The compiler assembles and links it. Raises Refused if it does not build."""
    sites = list(dict.fromkeys(it.site for it in converter.condition.list_atoms()))
    text = make_declarations(converter, sites)
    width = int(require_match(re.search(r"results\[THREADS\]\[(\d+)\]", text))[1]) - 1
    harness = HARNESS.replace("@DECLARATIONS@", text).replace("@WIDTH@", str(width))
    globals_of = "".join(f"\t.globl {name}\n" for name, _, _ in list_objects(converter))
    with tempfile.TemporaryDirectory(prefix="native-") as folder:
        for name, content in (("program.s", globals_of + replace_sees(assembly)), ("harness.c", harness)):
            with open(os.path.join(folder, name), "w", encoding="utf-8") as file:
                file.write(content)
        command = [shlex.split(compiler)[0], "-O1", "-w", "-no-pie", "-pthread", "-o", "run", "harness.c", "program.s"]
        built = subprocess.run(command, cwd=folder, stdout=subprocess.PIPE, stderr=subprocess.STDOUT, check=False)
        if built.returncode:
            raise Refused(f"it is not built to run: {built.stdout.decode().splitlines()[0]}")
        ran = subprocess.run([os.path.join(folder, "run"), str(seconds)], stdout=subprocess.PIPE, check=True, timeout=60 + 20 * seconds)
    return parse_native(ran.stdout.decode(), sites)


def parse_native(printed: str, sites: list[ThreadValue | Global]) -> NativeStates:
    """Returns the states that the harness printed, each with its count."""
    objects = {int(address) % 2**32: name for name, address in re.findall(r"^object (\S+) (\d+)$", printed, re.M)}
    counts: dict[str, int] = {}
    for line in re.findall(r"^state (.*)$", printed, re.M):
        count, *words = map(int, line.split())
        values = [f"&{strip_prefix(objects[word % 2**32])}" if word > 65535 and word % 2**32 in objects else str(word) for word in words]
        names = [f"{site.thread}:{site.name}" if isinstance(site, ThreadValue) else strip_prefix(site.name) for site in sites]
        key = " ".join(sorted(f"{name}={word};" for name, word in zip(names, values)))
        counts[key] = counts.get(key, 0) + count
    return NativeStates(counts)


def compare_with_list(path: str, compiler: str, seconds: float, tries: int) -> tuple[list[str], int, int, int, bool]:
    """Runs a program by a compiler. Returns the states that were seen and are not listed; the numbers of listed states that were seen, of all listed
    states, and of runs; and whether runs go through a loop at most `tries` times, so that the list lacks states.
    """
    with open(path, encoding="utf-8") as file:
        source = read_source(path, file.read())
    raw = compile_to_assembly(source, compiler, 0, os.path.dirname(os.path.abspath(path)))
    converter = ProgramConverter(demangle_assembly(raw), source.condition, source.name, source.threads, tries, source.added)
    answer = make_answer(converter)
    native = run_native(converter, demangle_assembly(raw), compiler, seconds)
    lines = answers.filter_state_lines(answer.report)
    names: set[str] = {it.partition("=")[0] for line in lines for it in line.replace(";", "").split()}
    reduced = lambda line: " ".join(it for it in line.split() if it.partition("=")[0] in names)
    seen: set[str] = {reduced(it) for it in native.counts}
    listed = {" ".join(sorted(it.split())) for it in lines}
    return sorted(seen - listed), len(seen & listed), len(listed), native.runs, bool(answer.bounded)


def main() -> int:
    """Runs the command that the arguments describe. Returns the exit status."""
    given.set_output_encoding()
    sys.setrecursionlimit(RECURSION)
    reader = command.Reader(__doc__)
    reader.add_argument("files", nargs="+", metavar="FILE")
    reader.add_argument("--cc", action="append")
    reader.add_argument("--seconds", type=float, default=0.5, metavar="N")
    reader.add_argument("--tries", type=int, default=1, metavar="N")
    arguments = reader.read()
    count = faults = 0
    for path in arguments.files:
        for compiler in arguments.cc or ["gcc -O2"]:
            try:
                beyond, seen, listed, runs, is_bounded = compare_with_list(path, compiler, arguments.seconds, arguments.tries)
            except (Refused, given.Fault, subprocess.SubprocessError) as why:
                print(f"{os.path.basename(path)} by {compiler}: {why.args[0] if why.args else why}", flush=True)
                continue
            count, faults = count + 1, faults + bool(beyond and not is_bounded)
            limit = f" (the list has runs with at most {arguments.tries} passes of a loop)" if is_bounded else ""
            print(f"{os.path.basename(path)} by {compiler}: {seen} of {listed} states seen in {runs} runs, beyond {beyond[:3]}{limit}", flush=True)
    print(f"{count} programs, {faults} beyond")
    return 1 if faults or not count else 0


if __name__ == "__main__":
    sys.exit(start.run(main))
