"""The reports of tests that stand for guesses, put together into one: the states whose marks are all set."""
from __future__ import annotations

import re
from collections.abc import Callable, Iterable

import plain
from herd.convert import ConvertedTest, ConversionResult
from shared import answers

WORD = re.compile(r"(\S+?)=(\d+);")
NAME = re.compile(r"(?:\d+:)?[A-Za-z_]\w*")


def parse_state(line: str) -> dict[str, int]:
    """Returns the names and the words of a state's line."""
    return {name: int(word) for name, word in WORD.findall(line)}


def make_outcome(test: plain.Test, words: dict[str, int]) -> plain.Outcome:
    """Returns an outcome that shows a state, whose words have names: what is not observed is 0."""
    return plain.make_outcome_from_words(test, [words[plain.format_site(test, site)] for site in plain.list_observed_sites(test)])


def list_marked_states(conversion: ConvertedTest, lines: Iterable[str]) -> list[dict[str, int]]:
    """Returns the states, each a dictionary of words by names, in which all marks are set: those of runs that are not given up."""
    names = [plain.format_site(conversion.test, site) for site in conversion.marks]
    states = [parse_state(line) for line in lines]
    return [words for words in states if all(words[name] == 1 for name in names)]


def collect_answers(conversions: list[ConvertedTest]) -> list[answers.Answer]:
    """Returns the reports of tests, each with its maker."""
    return [answers.make_answer(["states"], it.test) for it in conversions]


def merge_reports(conversions: list[ConvertedTest], reports: list[answers.Answer]) -> str:
    """Returns the report of the test without marks, from the reports of the converted tests, one for each guess."""
    unmarked = conversions[0].unmarked
    outcomes: set[plain.Outcome] = set()
    for conversion, answer in zip(conversions, reports):
        outcomes |= {make_outcome(unmarked, words) for words in list_marked_states(conversion, answers.filter_state_lines(answer.text))}
    return plain.make_report(unmarked, outcomes)


def make_merged_report(conversions: list[ConvertedTest]) -> tuple[str, set[answers.Maker]]:
    """Returns the report of the test without marks, and the makers of the lists from which it results."""
    reports = collect_answers(conversions)
    return merge_reports(conversions, reports), {it.by for it in reports}


def make_renamer(original: ConversionResult) -> Callable[[str], str]:
    """Returns a function that writes the line of a state or a condition in the names of the original test."""
    names = {new: old for old, new in original.renamed}
    return lambda line: NAME.sub(lambda it: names.get(it[0], it[0]), line)


def translate_report(report: str, original: ConversionResult) -> str:
    """Returns a report in the names of the original test."""
    rename, lines = make_renamer(original), report.splitlines()
    end = 2 + len(answers.filter_state_lines(report))
    lines[2:end] = map(rename, lines[2:end])
    lines[-2] = rename(lines[-2])
    return "".join(f"{line}\n" for line in lines)
