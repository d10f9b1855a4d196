"""Runs a program in C, C++ or Rust on this machine: the tests of lw to which its code is converted run one after another, and are put together.

A test stands for a guess of what the program's locked instructions find. A run that contradicts the guess, or goes through a loop more often than it
is tried, is given up: it ends without the mark of its thread, and is no run of the program. A run in which all marks are set is one. So the states
with all marks are put together and compared with the program's list; all states of each test are compared with its own.
"""
from __future__ import annotations

import os
import sys
from collections.abc import Iterator, Sequence
from typing import NamedTuple

import from_c
import plain
from c.compiler import choose_compiler
from c.refused import NoRun
from c.report import Answer, Names, describe_answer
from c.source import is_herd_form, read_source
from herd.convert import ConvertedTest
from machine.faults import NotRun
from machine.laboratory import Laboratory, MeasuredRun, Settings, list_notes
from machine.plans import Limits
from machine.runs import Sightings, Sighting, merge_sightings
from machine.subjects import StateList, Subject, Words, make_list, make_other_list
from machine.summary import Result, format_contradiction
from many.files import is_program
from shared import answers

EVERYTHING = "a program's registers are its compiler's, so --everything is for tests only: lw_see(NAME, VALUE) shows what is looked at"
INSTEAD = "What is run is the tests of lw that the program is converted to, and not its own machine code."


class Part(NamedTuple):
    """One of a program's tests, with its list."""

    conversion: ConvertedTest
    subject: Subject
    listed: StateList

    def find_program_state(self, words: Words) -> Words | None:
        """Returns the state of the program that a state of the test shows. None if its run is given up."""
        word_of_site = dict(zip(self.subject.sites, words))
        if any(word_of_site[mark] != 1 for mark in self.conversion.marks):
            return None
        return tuple(word_of_site[site] for site in plain.list_observed_sites(self.conversion.unmarked))


class Program(NamedTuple):
    """A program: its question, with its list; its tests; and the words on its conversion."""

    subject: Subject
    parts: Sequence[Part]
    notes: Sequence[str]


def is_converted(file: str, text: str) -> bool:
    """Returns whether a file is a program, or a test in herd's form of C, which is one."""
    return is_program(file) or is_herd_form(text)


def make_part(conversion: ConvertedTest) -> Part:
    """Returns a test with its list."""
    subject = Subject(conversion.test, conversion.test, plain.list_observed_sites(conversion.test))
    return Part(conversion, subject, make_list(subject))


def merge_lists(parts: Sequence[Part], compiler: str) -> StateList:
    """Returns the list of a program: the states of its tests that are not given up. Its maker is the weakest of theirs."""
    program_states = (part.find_program_state(words) for part in parts for words in part.listed.states)
    states = {it for it in program_states if it is not None}
    makers = {part.listed.by for part in parts}
    count = f"{len(parts)} tests" if len(parts) != 1 else "test"
    of_tests = f"of the {count} that tools/from_c.py makes of the code of {compiler}"
    return StateList(sorted(states), [it for it in answers.Maker if it in makers][-1], of_tests=of_tests)


def compile_program(file: str, text: str, compiler: str | None, tries: int) -> Program:
    """Compiles a program, and converts it. Raises NotRun if the program is refused, or no run comes to an end."""
    sys.setrecursionlimit(from_c.RECURSION)
    source = read_source(file, text)
    compiler = compiler or choose_compiler(source.ending)
    try:
        answer, converter = from_c.convert_source(source, compiler, tries, 0, os.path.dirname(os.path.abspath(file)))
    except NoRun as why:
        raise NotRun(why.cause) from None
    if not answer.has_run:
        raise NotRun(f"no run goes through every loop within {tries} tr{'ies' if tries != 1 else 'y'}")
    parts = [make_part(it.conversion) for it in answer.tests]
    question = parts[0].conversion.unmarked
    rename_line, listed = Names(converter, question).translate_line, merge_lists(parts, compiler)
    sites, condition = plain.list_observed_sites(question), converter.condition.text
    subject = Subject(question, question, sites, rename_line=rename_line, condition_text=condition, listed=listed)
    return Program(subject, parts, list_program_notes(answer, compiler, tries))


def list_program_notes(answer: Answer, compiler: str, tries: int) -> list[str]:
    """Returns the words on a program's conversion."""
    return [*(f"note: {it}" for it in answer.notes), describe_answer(answer, compiler, tries), INSTEAD]


def divide_limits(limits: Limits, count: int) -> Limits:
    """Returns the limits of the run of one of `count` tests, among which the seconds and runs of a program are divided."""
    return limits._replace(seconds=limits.seconds and limits.seconds / count, runs=-(-limits.runs // count))


def run_parts(laboratory: Laboratory, program: Program, settings: Settings) -> Iterator[tuple[Part, MeasuredRun]]:
    """Yields the tests of a program, each after its run, with that. If runs end when all states are seen, a test is run only for listed states that
    no test before it has shown, and is left out if there are none.
    """
    part_settings = settings._replace(limits=divide_limits(settings.limits, len(program.parts)))
    seen = set()
    for part in program.parts:
        states = part.listed.states
        if settings.limits.until_complete:
            states = [it for it in states if part.find_program_state(it) is not None and part.find_program_state(it) not in seen]
        if states:
            ran = laboratory.run(part.subject, part_settings, states)
            seen |= {part.find_program_state(it) for it in ran.seen.states}
            yield part, ran


def merge_seen(done: Sequence[tuple[Part, MeasuredRun]]) -> Sightings:
    """Returns the states of the program that were seen in the runs of its tests. Seconds are counted from the start of the first one."""
    states: dict[Words, Sighting] = {}
    seconds = 0.0
    for part, ran in done:
        for words, sighting in ran.seen.states.items():
            state, later = part.find_program_state(words), sighting._replace(first=sighting.first + seconds)
            if state is not None:
                states[state] = merge_sightings(states[state], later) if state in states else later
        seconds += ran.seen.seconds
    all_facts = [ran.seen.facts for _, ran in done]
    facts = {name: max(it[name] for it in all_facts) for name in all_facts[0]}
    facts["switches"] = sum(it["switches"] for it in all_facts)
    facts["is_pinned"] = min(it["is_pinned"] for it in all_facts)
    return Sightings(states, sum(ran.seen.runs for _, ran in done), seconds, facts)


def format_contradictions(done: Sequence[tuple[Part, MeasuredRun]], known: Sequence[Words]) -> Iterator[str]:
    """Yields the lines on states of tests that are seen and not listed there, except those that show states of the program that are known."""
    for part, ran in done:
        for words in sorted(set(ran.seen.states) - set(part.listed.states)):
            if part.find_program_state(words) not in known:
                yield format_contradiction(ran.seen, words, f"in the test {part.subject.shown.name}: {part.subject.format_state(words)}")


def run_file(laboratory: Laboratory, file: str, text: str, settings: Settings, compiler: str | None, tries: int) -> Result:
    """Runs the test of a file, or the tests of its program."""
    if not is_converted(file, text):
        return laboratory.run_and_compare(file, text, settings)
    return run_program(laboratory, file, compile_program(file, text, compiler, tries), settings)


def run_program(laboratory: Laboratory, file: str, program: Program, settings: Settings) -> Result:
    """Runs a program's tests, and compares what is seen with its list or that of another test or program. Raises NotRun if everything is asked about,
    which a program does not show.
    """
    if settings.everything:
        raise NotRun(EVERYTHING)
    other = settings.against
    listed = make_other_list(program.subject, other) if other else make_list(program.subject)
    done = list(run_parts(laboratory, program, settings))
    seen = merge_seen(done)
    given_up = seen.runs - sum(it.times for it in seen.states.values())
    notes = [*program.notes, *([f"Given up, and not counted: {given_up} runs in which a guess or a number of tries was wrong."] if given_up else [])]
    notes += list_notes(seen, done[0][1], settings)
    result = Result(file, program.subject, listed, seen, len(done[0][1].here.allowed), other.shown.name if other else "", notes)
    return result._replace(others=list(format_contradictions(done, result.list_not_listed())))
