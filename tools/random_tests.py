#!/usr/bin/env python3
"""Makes random tests of both languages, and compares what the program and tools/plain.py say of them.

    python3 tools/random_tests.py [COUNT [FIRST]]

It makes COUNT tests of each language (2,000 if no number is named), by the seeds from FIRST on (1). It compares reports, compiled
texts and replays, over both protocols. Both replay each schedule that the program lists to its state; a test beyond the
program's limits has to be refused. From each test it makes a text with a random mistake or two, and some schedules have a faulty word:
both take the text and replay it in the same way, or both refuse it. The last line is 'N passed, M failed'.
tools/check_documents.py makes some of these tests each time.
"""
from __future__ import annotations

import os
import re
import subprocess
import sys
from collections.abc import Iterator, Sequence
from concurrent.futures import ProcessPoolExecutor
from random import Random
from typing import NamedTuple, Tuple

sys.dont_write_bytecode = True
from shared import command, start
from shared.home import PROGRAM
import plain

PROTOCOLS = ("mesi", "moesi")
# The insertions of a mistake, into a text and into a schedule.
MISTAKES = (
    "r0 r5 r6 r9 EAX EBX ebp x y z L1 if goto swap fetchadd exists forall locations filter true false not MOV ADD CMP XCHG LOCK "
    "XADD MFENCE JE JMP ; | : := , $ = != + /\\ \\/ ~ ( ) { } [ ] 0 1 4294967295 4294967296 0x 0xff 00012 P0 P1 P4 (* *) \" A=b - # "
    "a_name_that_is_longer_than_32_bytes"
).split()
FAULTY_WORDS = ("Q0", "P", "P4", "P00", "D7", "E0", "E0:", "E0:nowhere", "E7:x", "P0:x")


class Writer:
    """A writer of one random test."""

    def __init__(self, language: str, seed: int) -> None:
        """Prepares a test. The same seed makes the same test."""
        self.random = Random(f"{language} {seed}")
        self.language = language
        self.threads = self.random.choice((1, 2, 2, 2, 3, 3, 4))
        self.locations = ["x", "y", "z", "flag"][: self.random.choice((1, 2, 2, 3, 4))]
        self.name = f"Random{seed}"

    def draw_register(self) -> str:
        """Returns a random register."""
        name = plain.REGISTERS[self.language][self.random.choice((0, 0, 1, 1, 2, 5))]
        return self.random.choice((name, name, name.lower())) if self.language == "X86" else name

    def draw_number(self, numbers: Sequence[int] = (0, 1, 1, 2, 3, plain.WORD - 1)) -> str:
        """Returns one of these numbers, in decimal or in hexadecimal."""
        number = self.random.choice(numbers)
        return hex(number) if self.random.random() < 0.1 else str(number)

    def draw_value(self) -> str:
        """Returns a random number or register."""
        if self.random.random() < 0.5:
            return self.draw_register()
        return self.random.choice(("$", "$", "")) * (self.language == "X86") + self.draw_number()

    def draw_location(self) -> str:
        """Returns a random location."""
        return self.random.choice(self.locations)

    def draw_statement(self) -> str:
        """Returns a statement of a source test that does not jump."""
        make = self.random.choices(
            (
                lambda: f"{self.draw_location()} := {self.draw_value()}",
                lambda: f"{self.draw_register()} := {self.draw_location()}",
                lambda: f"{self.draw_register()} := swap {self.draw_location()} {self.draw_register()}",
                lambda: f"{self.draw_register()} := fetchadd {self.draw_location()} {self.draw_register()}",
                lambda: f"{self.draw_register()} := {self.draw_value()}",
                lambda: f"{self.draw_register()} := {self.draw_register()} + {self.draw_value()}",
            ),
            (28, 28, 8, 8, 5, 7),
        )[0]
        return make()

    def draw_instruction(self) -> str:
        """Returns an instruction of an x86 test that does not jump."""
        make = self.random.choices(
            (
                lambda: f"MOV [{self.draw_location()}],{self.draw_value()}",
                lambda: f"MOV {self.draw_register()},[{self.draw_location()}]",
                lambda: f"XCHG [{self.draw_location()}],{self.draw_register()}",
                lambda: f"lock xchg {self.draw_register()},[{self.draw_location()}]",
                lambda: f"LOCK XADD [{self.draw_location()}],{self.draw_register()}",
                lambda: f"mov {self.draw_register()},{self.draw_value()}",
                lambda: f"ADD {self.draw_register()},{self.draw_value()}",
                lambda: f"CMP {self.draw_register()},{self.draw_value()}",
                lambda: "MFENCE",
            ),
            (28, 26, 5, 3, 8, 5, 5, 6, 6),
        )[0]
        return make()

    def draw_jump(self, label: str) -> str:
        """Returns a random jump to a label."""
        if self.language == "X86":
            return f"{self.random.choice(('JE', 'JNE', 'jmp'))} {label}"
        sign = self.random.choice(("=", "!="))
        branch = f"if {self.draw_register()} {sign} {self.draw_number((0, 1, 2))} goto {label}"
        return self.random.choice((branch, branch, f"goto {label}"))

    def draw_column(self) -> list[str]:
        """Returns the cells of a thread."""
        size = self.random.randint(0, 6 if self.threads < 4 else 3)
        cells, targets = [], set()
        for index in range(size):
            if self.random.random() < 0.16:
                target = self.random.randint(index + 1, size)
                targets.add(target)
                cells.append(self.draw_jump(f"L{target}"))
            else:
                cells.append(self.draw_statement() if self.language == "SRC" else self.draw_instruction())
        cells += [""] * (size in targets)
        return [(f"L{index}: " if index in targets else "") + cell for index, cell in enumerate(cells)]

    def list_sites(self) -> list[str]:
        """Returns all locations, one of them in brackets too, and three registers of each thread."""
        names = plain.REGISTERS[self.language][:3]
        return [*self.locations, f"[{self.locations[0]}]", *(f"{it}:{name}" for it in range(self.threads) for name in names)]

    def draw_proposition(self, depth: int) -> str:
        """Returns a random proposition, nested at most this deep."""
        chance = self.random.random()
        if depth == 0 or chance < 0.4:
            atom = f"{self.random.choice(self.list_sites())}={self.draw_number((0, 1, 1, 2, 3))}"
            return self.random.choice(("true", "false")) if chance < 0.02 else atom
        if chance < 0.55:
            return f"{self.random.choice(('~', 'not '))}({self.draw_proposition(depth - 1)})"
        parts = [self.draw_proposition(depth - 1) for _ in range(2)]
        parts = [f"({part})" if self.random.random() < 0.5 else part for part in parts]
        return self.random.choice((" /\\ ", " \\/ ")).join(parts)

    def draw_sites(self, max_sites: int) -> list[str]:
        """Returns at most `max_sites` random sites, without duplicates."""
        sites = self.list_sites()
        return self.random.sample(sites, self.random.randint(0, min(max_sites, len(sites))))

    def draw_note(self) -> str:
        """Returns a random note for the head of a test: a comment, a quoted text, `Key=value`, or nothing."""
        notes = ("", "", "(* a (* nested *) comment *)\n", '"a text {"\n', "Key = (* { raw\n")
        return self.random.choice(notes)

    def draw_test(self) -> str:
        """Returns the text of a random test."""
        columns = [self.draw_column() for _ in range(self.threads)]
        rows = [[f"P{thread}" for thread in range(self.threads)]]
        for index in range(max(len(column) for column in columns)):
            rows.append([column[index] if index < len(column) else "" for column in columns])
        initial = " ".join(f"{site}={self.draw_number()};" for site in self.draw_sites(3))
        listed = "".join(f"{site};" for site in self.draw_sites(3))
        text = f"{self.language} {self.name}\n{self.draw_note()}{{ {initial} }}\n"
        text += "".join(f" {' | '.join(row)} ;\n" for row in rows)
        text += f"locations [{listed}]\n" if listed or self.random.random() < 0.1 else ""
        return text + f"{self.random.choice(('exists', '~exists', 'forall'))} ({self.draw_proposition(3)})\n"

    def insert_mistakes(self, text: str) -> str:
        """Returns a text with one or two random mistakes: tokens omitted, replaced or inserted, or the end cut off."""
        for _ in range(self.random.choice((1, 1, 2))):
            tokens = re.findall(r"\s+|\w+|:=|/\\|\\/|!=|.", text) or [""]
            index = self.random.randrange(len(tokens))
            other = self.random.choice((self.random.choice(MISTAKES), self.random.choice(tokens)))
            replacement = self.random.choice(([], [other], [tokens[index], other], [f"{other} ", tokens[index]]))
            rest = [] if self.random.random() < 0.1 else tokens[index + 1 :]
            text = "".join([*tokens[:index], *replacement, *rest])
        return text

    def draw_schedule(self, test: plain.Test) -> str:
        """Returns the words of events; sometimes one is faulty."""
        events = self.draw_events(test)
        if self.random.random() < 0.05:
            events.insert(self.random.randint(0, len(events)), self.random.choice(FAULTY_WORDS))
        return self.random.choice((" ", " ", "  ", "\t")).join(events)

    def draw_events(self, test: plain.Test) -> list[str]:
        """Returns events of which most are enabled; the first that is not is sometimes the last."""
        run = plain.start_replay(test, "mesi")
        events: list[str] = []
        for _ in range(self.random.randint(0, 30)):
            kind = self.random.choice("PPPPDDDE" if test.language == "X86" and test.locations else "PPPD")
            thread = self.random.randrange(len(test.threads))
            location = self.random.randrange(len(test.locations)) if kind == "E" else None
            word = f"{kind}{thread}" + ("" if location is None else f":{test.locations[location]}")
            try:
                run.execute_event(kind, thread, location)
            except plain.Refused:
                if self.random.random() < 0.9:
                    continue
                return [*events, word]
            events.append(word)
        return events


class Printed(NamedTuple):
    """The output of a command on standard output and on standard error, and its exit status."""

    out: str
    err: str
    status: int


# The name of a comparison, the answer of tools/plain.py, and the answer of the program.
Comparison = Tuple[str, object, object]


def run_program(arguments: list[str], text: str) -> Printed:
    """Returns what the program prints on a text, and its exit status."""
    ran = subprocess.run([PROGRAM, *arguments], input=text.encode(), capture_output=True, timeout=120)
    return Printed(ran.stdout.decode(), ran.stderr.decode(), ran.returncode)


def compare_replays(subject: str, text: str, test: plain.Test, schedule: str) -> Iterator[Comparison]:
    """Compares the replays of one schedule by plain.py and by the program, over both protocols."""
    for protocol in PROTOCOLS:
        words = ["replay", schedule, "--protocol", protocol]
        yield f"{subject}, {' '.join(words)}\n{text}", replay_by_plain(test, schedule, protocol), run_program(words, text)


def replay_by_plain(test: plain.Test, schedule: str, protocol: str) -> Printed:
    """Returns the expected output of the program on a replay."""
    try:
        page, status = plain.replay(test, schedule, protocol)
    except plain.NoSchedule as fault:
        return Printed("", "lw: schedule {} {} at {}\n".format(*fault.args), 1)
    return Printed(page, "", status)


def compare_mistaken(subject: str, text: str) -> Iterator[Comparison]:
    """Compares plain.py with the program on a text that may be no test: whether they accept it, and if so the page of an empty schedule."""
    out, err, status = run_program(["replay", ""], text)
    try:
        expected = replay_by_plain(plain.read_test(text), "", "mesi")
    except plain.NoTest:
        # plain.py does not say which fault of docs/FORMAT.md it is.
        expected = Printed("", err if re.fullmatch(r"lw: (text|cell) \d+ \w+ at \d+\n", err) else "a fault", 1)
    yield f"{subject}, with mistakes\n{text}", expected, (out, err, status)


def find_end(test: plain.Test, schedule: str) -> tuple[bool, plain.Outcome]:
    """Returns the end of a replay by plain.py, if all events are enabled: whether it is final, and its registers and words."""
    run = plain.start_replay(test, "mesi")
    for event in plain.read_schedule(schedule, test.locations):
        run.execute_event(*event)
    return run.is_final(), run.make_outcome()


def compare_schedules(
    subject: str, text: str, test: plain.Test, states: list[tuple[tuple[int, ...], plain.Outcome]]
) -> Iterator[Comparison]:
    """Compares the program's list of schedules: its states, and the state that each schedule reaches."""
    out, err, status = run_program(["schedules"], text)
    lines = out.splitlines()
    expected = [plain.format_state(test, words) for words, _ in states]
    yield f"{subject}, the states of its schedules\n{text}", (expected, "", 0), (lines[2::2], err, status)
    program = plain.compile_test(test)
    program_text = plain.format_canonical_text(program)
    for (_, outcome), line in zip(states, lines[3::2]):
        yield f"{subject}, where {line} leads\n{text}", (True, outcome), find_end(program, line)
        yield from compare_replays(subject, program_text, program, line)


def compare_lists(subject: str, text: str, test: plain.Test) -> Iterator[Comparison]:
    """Compares the report and the list of schedules, or the limit that the test exceeds."""
    max_items, orders = plain.count_orders(test)
    if max_items > 128 or orders > 2**20:
        limit = "1 TooManyItems" if max_items > 128 else "2 TooManyOrders"
        for lw_command in ("states", "schedules"):
            yield f"{subject}, {lw_command}\n{text}", ("", f"lw: limit {limit}\n", 3), run_program([lw_command], text)
        return
    outcomes = plain.list_outcomes(test)
    yield f"{subject}, states\n{text}", (plain.make_report(test, outcomes), "", 0), run_program(["states"], text)
    yield from compare_schedules(subject, text, test, plain.collect_states(test, outcomes))


def make_comparisons(language: str, seed: int) -> Iterator[Comparison]:
    """Yields all comparisons of one random test: what is compared, what plain.py says, what the program says."""
    writer = Writer(language, seed)
    subject, text = f"random test {seed} of {language}", writer.draw_test()
    test = plain.read_test(text)
    program = plain.compile_test(test)
    program_text = plain.format_canonical_text(program)
    yield f"{subject}, compile\n{text}", (program_text, "", 0), run_program(["compile"], text)
    yield f"{subject}, compiled twice\n{text}", (program_text, "", 0), run_program(["compile"], program_text)
    yield from compare_lists(subject, text, test)
    yield from compare_replays(subject, text, test, writer.draw_schedule(test))
    yield from compare_replays(subject, program_text, program, writer.draw_schedule(program))
    yield from compare_mistaken(subject, writer.insert_mistakes(text))


def list_comparisons(job: tuple[str, int]) -> list[Comparison]:
    """Returns the comparisons of one random test as a list, which a process can pass to another. The job is its language and its seed."""
    return list(make_comparisons(*job))


def list_jobs(count: int, first: int = 1) -> list[tuple[str, int]]:
    """Returns the random tests to compare, each a language and a seed."""
    return [(language, seed) for seed in range(first, first + count) for language in ("SRC", "X86")]


def main() -> int:
    """Runs the command that the arguments describe. Returns the exit status."""
    reader = command.Reader(__doc__)
    reader.add_argument("count", nargs="?", type=command.make_number_parser(0), default=2000, metavar="COUNT")
    reader.add_argument("first", nargs="?", type=command.make_number_parser(0), default=1, metavar="FIRST")
    arguments = reader.read()
    passed = failed = 0
    with ProcessPoolExecutor(len(os.sched_getaffinity(0))) as pool:
        for compared in pool.map(list_comparisons, list_jobs(arguments.count, arguments.first)):
            for subject, expected, actual in compared:
                passed, failed = passed + (expected == actual), failed + (expected != actual)
                if expected != actual:
                    print(f"{subject}\n  wanted: {expected!r}\n  found:  {actual!r}")
    print(f"{passed} passed, {failed} failed")
    return 1 if failed else 0


if __name__ == "__main__":
    sys.exit(start.run(main))
