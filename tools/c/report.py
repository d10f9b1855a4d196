"""The report on a program, in the names of its source; who made the lists from which it is composed, and what is assumed."""
from __future__ import annotations

from dataclasses import dataclass, field

import plain
from c.convert import ProgramConverter, ProgramTest
from c.refused import NoRun
from c.source import strip_prefix
from herd.together import make_merged_report, parse_state
from shared import answers


@dataclass
class Answer:
    """A report, the tests from which it is composed, who listed them, and the number of instructions of the longest thread."""

    report: str
    tests: list[ProgramTest]
    makers: set[answers.Maker]
    instructions: int
    # The lines of the loops that a run passes at most as often as `--tries` says.
    bounded: list[int] = field(default_factory=list)
    notes: list[str] = field(default_factory=list)

    @property
    def has_run(self) -> bool:
        """Returns whether some run is left."""
        return bool(answers.filter_state_lines(self.report))

    @property
    def observation(self) -> str:
        """Returns `Never 0 3` and the like, or `no run`."""
        return self.report.splitlines()[-1].split(" ", 2)[2] if self.has_run else "no run"


class Names:
    """The names and words of a report of lw, as the reader knows them."""

    def __init__(self, converter: ProgramConverter, unmarked: plain.Test) -> None:
        """Finds the names of the values in reports, whose sites are those of the test `unmarked`. An address is the name of what is there."""
        self.sites: dict[str, str] = {}
        self.words: dict[str, dict[int, str]] = {}
        layout, locations = converter.program.layout, converter.program.locations
        addresses = {address: f"&{strip_prefix(name)}" for address, name in layout.list_objects() if not name.startswith(".")}
        on_heap = [address for words in locations.words.values() for address in words if layout.is_heap(address)]
        addresses.update({address: f"&{layout.name_address(address)}" for address in on_heap})
        for address, number in converter.locations.items():
            site = plain.format_site(unmarked, plain.LocationSite(number))
            self.sites[site] = strip_prefix(layout.name_address(address))
            self.words[site] = {it % 2**32: addresses.get(it, str(it)) for it in locations.words[address]}
        for thread in range(len(unmarked.threads)):
            for name, register in converter.assign_seen_registers(thread).items():
                site = plain.format_site(unmarked, plain.RegisterSite(thread, register))
                self.sites[site] = strip_prefix(name[1:]) if name[0] == "&" else f"{thread}:{name}"
                own = converter.program.own_words.get(name[1:], set())
                self.words[site] = {**addresses, **{it % 2**32: addresses.get(it, str(it)) for it in own}} if name[0] == "&" else addresses

    def translate_line(self, line: str) -> str:
        """Returns the line of a state. A register that the condition does not name has its name in lw's test."""
        return " ".join(f"{self.sites.get(site, site)}={self.words.get(site, {}).get(word, word)};" for site, word in parse_state(line).items())


def make_answer(converter: ProgramConverter) -> Answer:
    """Lists the tests of a program, and puts their reports together. Returns the answer. Raises NoRun if no run comes to an end."""
    tests = list(converter.list_tests())
    if not tests:
        raise NoRun("no run comes to an end: each waits for what no other thread stores, or goes through a loop more often than --tries says")
    report, makers = make_merged_report([it.conversion for it in tests])
    unmarked = tests[0].conversion.unmarked
    code = converter.program.assembly.code
    bounded = sorted({code[index].line or 0 for index in converter.program.bounded})
    instructions = max(len(column) for it in tests for column in it.conversion.test.threads)
    return Answer(translate_report(report, converter, unmarked), tests, makers, instructions, bounded, sorted(converter.program.notes))


def translate_report(report: str, converter: ProgramConverter, unmarked: plain.Test) -> str:
    """Returns a report in the names of the source; its sites are those of the test `unmarked`."""
    states = answers.filter_state_lines(report)
    lines, names = report.splitlines(), Names(converter, unmarked)
    lines[2 : 2 + len(states)] = map(names.translate_line, states)
    lines[-2] = f"Condition {converter.condition.text}"
    return plain.join_lines(lines)


def describe_answer(answer: Answer, compiler: str, tries: int) -> str:
    """Returns which compiler made the code, how many tests there are, who listed them, and which runs are left out."""
    count, suffix = len(answer.tests), "" if answers.are_proved(answer.makers) else ", not proved"
    tests = f"{count} tests" if count != 1 else "one test"
    makers = answers.format_makers(answer.makers)
    sentence = f"Compiled by {compiler}: {tests} of lw, of {answer.instructions} instructions at most, listed by {makers}{suffix}"
    if answer.bounded:
        lines = ", ".join(str(it) if it else "elsewhere" for it in answer.bounded)
        often = "once" if tries == 1 else f"{tries} times"
        loops = f"the loops at lines {lines}" if len(answer.bounded) > 1 else f"the loop at line {lines}"
        sentence += f"; of the runs that go through {loops} at most {often}"
    return sentence
