"""A test that is run: as it was read, as the x86 test that the processor runs, and with the list of its states; or a program, which is several."""
from __future__ import annotations

from collections.abc import Callable
from dataclasses import replace
from typing import NamedTuple, Tuple

import given
import plain
from fences import show_everything
from shared import answers

Words = Tuple[int, ...]


class Subject(NamedTuple):
    """What is run and compared with a list: a test whose names are printed (`shown`), its x86 test, the sites that are observed at the end, and who
    compiled it if it is a source test. Of a program also how a state's line is written in its names, its condition's text, and its list.
    """

    shown: plain.Test
    x86: plain.Test
    sites: list[plain.Site]
    compiled_by: answers.Maker | None = None
    rename_line: Callable[[str], str] = str
    condition_text: str = ""
    listed: 'StateList' | None = None

    @property
    def condition(self) -> str:
        """Returns the text of the condition."""
        return self.condition_text or plain.format_condition(self.shown)

    def format_state(self, words: Words) -> str:
        """Returns a state as a line."""
        return self.rename_line(plain.format_state(self.shown, words))

    def list_names(self) -> list[str]:
        """Returns the names that states mention."""
        return [self.rename_line(f"{plain.format_site(self.shown, site)}=0;").partition("=")[0] for site in self.sites]

    def is_true(self, words: Words) -> bool:
        """Returns whether the proposition is true in a state, by the words of `sites`, in their order."""
        return plain.is_true_in(self.shown.proposition, plain.make_outcome_from_words(self.shown, words))


class StateList(NamedTuple):
    """The listed states, who made the list, and who compiled its test, if that is a source test; or of which tests it is, if it is a program's."""

    states: list[Words]
    by: answers.Maker
    compiled_by: answers.Maker | None = None
    of_tests: str = ""

    def describe_maker(self) -> str:
        """Returns the maker of the list, and whether the list is proved, or of a program the lists of its tests."""
        is_proved = answers.are_proved(it for it in (self.by, self.compiled_by) if it)
        words = "proved complete" if is_proved else "not proved"
        if self.of_tests:
            return f"{self.by.value}, {self.of_tests} (each list: {words})"
        compiled = f", of the test that {self.compiled_by.value} compiled" if self.compiled_by else ""
        return f"{self.by.value}{compiled}, {words}"


def make_subject(text: str, everything: bool) -> Subject:
    """Returns the subject of a test's text; a source test is compiled. With `everything` it shows all registers and locations. Raises NoTest if the
    text is none.
    """
    shown = x86 = plain.read_test(text)
    compiled_by = None
    if shown.language == "SRC":
        compiled = answers.make_answer(["compile"], shown, text)
        x86, compiled_by = plain.read_test(compiled.text), compiled.by
    if everything:
        x86 = show_everything(x86)
        shown = replace(shown, listed=x86.listed)
    return Subject(shown, x86, plain.list_observed_sites(x86), compiled_by)


def make_list(subject: Subject) -> StateList:
    """Returns the list of the states of a test, or of a program."""
    if subject.listed:
        return subject.listed
    report = answers.make_answer(["states"], subject.x86)
    lines = answers.filter_state_lines(report.text)
    return StateList([tuple(int(it.partition("=")[2]) for it in line.split(";")[:-1]) for line in lines], report.by, subject.compiled_by)


def make_other_list(subject: Subject, other: Subject) -> StateList:
    """Returns the list of another test. Raises Fault if the states of the two do not have the same names."""
    if subject.list_names() != other.list_names():
        names = " ".join(other.list_names())
        raise given.Fault(f"it is held against a test that speaks of other names: {names}, and not {' '.join(subject.list_names())}", 0)
    return make_list(other)
