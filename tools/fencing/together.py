"""Fences of tests that are put together into one answer: of a test with LOCK CMPXCHG or loops, or of a program. Each instruction of lw comes from
one of the original. If an instruction of the original is left out, or gets a fence before it, so do those of lw, in all tests and copies.
"""
from __future__ import annotations

from collections.abc import Callable, Iterator
from dataclasses import replace
from typing import Any, NamedTuple, Tuple

import plain
from fencing.exchanges import list_exchanges, make_unlocked_instructions, replace_instruction
from fencing.places import find_positions_after_stores, insert_fences, list_fence_places, remove_fences
from fencing.sets import find_smallest_sets
from herd.convert import ConvertedTest
from herd.together import make_merged_report
from shared import answers

# The key of an instruction of the original; None if an instruction of lw comes from none. A thread with a key is a place in the original.
Origin = Any  # hashable
Place = Tuple[int, Origin]
# A place in a test of lw: a thread, and the index of an instruction.
LwPlace = Tuple[int, int]


def list_places_after_stores(test: plain.Test) -> list[LwPlace]:
    """Returns the places of all instructions that some path reaches from a store, with nothing between that waits for it."""
    return [(thread, position) for thread, code in enumerate(test.threads) for position in sorted(find_positions_after_stores(code))]


class Part(NamedTuple):
    """One of the tests, with the origin of each instruction by threads, and for each thread the indices at which the code of one original instruction
    begins.
    """

    conversion: ConvertedTest
    origins: list[list[Origin]]
    begins: list[list[int]]

    @property
    def test(self) -> plain.Test:
        """Returns the test of lw."""
        return self.conversion.test

    def find_places(self, lw_places: list[LwPlace]) -> set[Place]:
        """Returns the places in the original of instructions of lw; an instruction that comes from none has no place there."""
        places = {(thread, self.origins[thread][position]) for thread, position in lw_places}
        return {it for it in places if it[1] is not None}

    def find_instructions(self, places: set[Place], kinds: tuple[str, ...]) -> list[LwPlace]:
        """Returns the instructions of lw that come from some places in the original and are of some kinds."""
        threads = enumerate(self.test.threads)
        accesses = [(t, index) for t, code in threads for index, it in enumerate(code) if it.kind in kinds]
        return [(t, index) for t, index in accesses if (t, self.origins[t][index]) in places]

    def find_first_instructions(self, places: set[Place]) -> list[LwPlace]:
        """Returns the first instruction of lw of each copy of the instructions at some places in the original."""
        begins = [(t, position) for t, positions in enumerate(self.begins) for position in positions if position < len(self.origins[t])]
        return [(t, position) for t, position in begins if (t, self.origins[t][position]) in places]


class CombinedTest:
    """The tests to which a test or a program was converted, and the reports that were made of them so far.

    A branch that a guess decides is in no test, so the tests may have different branches. Then one fence before a branch of the original may do what
    two do in a test, and with `is_tried_everywhere` fences are tried at all places after stores.
    """

    def __init__(self, parts: list[Part], rename_line: Callable[[str], str], is_tried_everywhere: bool = False) -> None:
        """Prepares the tests. `rename_line` writes the line of a state in the names of the original; `unmarked` is the first of the tests without
        marks.
        """
        self.parts, self.rename_line, self.is_tried_everywhere = parts, rename_line, is_tried_everywhere
        self.makers: set[answers.Maker] = set()
        self.reports: dict[tuple, str] = {}  # by the canonical texts of the tests
        self.unmarked = parts[0].conversion.unmarked

    def show_sites(self, sites: set[plain.Site]) -> "CombinedTest":
        """Returns a combination of these tests in which each test shows these sites too."""
        shown = lambda test: replace(test, listed=test.listed | sites)
        conversions = [replace(it.conversion, test=shown(it.test), unmarked=shown(it.conversion.unmarked)) for it in self.parts]
        parts = [it._replace(conversion=shown_conversion) for it, shown_conversion in zip(self.parts, conversions)]
        return CombinedTest(parts, self.rename_line, self.is_tried_everywhere)

    def make_report(self, change: Callable[[Part], plain.Test] = lambda part: part.test) -> str:
        """Returns the report that is put together from all tests, each of them changed by a function, and records who made their lists."""
        tests = tuple(change(it) for it in self.parts)
        key = tuple(map(plain.format_canonical_text, tests))
        if key not in self.reports:
            self.reports[key], makers = make_merged_report([replace(part.conversion, test=test) for part, test in zip(self.parts, tests)])
            self.makers |= makers
        return self.reports[key]

    def list_states(self, change: Callable[[Part], plain.Test] = lambda part: part.test) -> list[str]:
        """Returns the lines of the states of all tests, each of them changed, by the names of the original."""
        return list(map(self.rename_line, answers.filter_state_lines(self.make_report(change))))

    def count_unwanted_states(self, change: Callable[[Part], plain.Test] = lambda part: part.test) -> int:
        """Returns in how many states what a question is against is present: its proposition, or of `forall` its contrary."""
        positive, negative = (int(it) for it in self.make_report(change).splitlines()[-3].split()[1::2])
        return negative if self.unmarked.quantifier == "forall" else positive

    def collect_places(self, find_places: Callable[[Part], set[Place]]) -> list[Place]:
        """Returns all places that a function finds in the tests, in the order of the original."""
        return sorted(set().union(*map(find_places, self.parts)))

    # Fences.

    def list_fences(self) -> list[Place]:
        """Returns the places of all fences."""
        is_fence = lambda statement: statement.kind == "mfence"
        fences = lambda part: [(t, i) for t, code in enumerate(part.test.threads) for i, it in enumerate(code) if is_fence(it)]
        return self.collect_places(lambda part: part.find_places(fences(part)))

    def list_states_without(self, left_out: set[Place]) -> list[str]:
        """Returns the lines of the states of the tests without the fences at some places."""
        return self.list_states(lambda part: remove_fences(part.test, part.find_instructions(left_out, ("mfence",))))

    def find_enough_sets(self) -> list[list[Place]]:
        """Returns all smallest sets of fences that add no state."""
        fences, states = self.list_fences(), self.list_states()
        return find_smallest_sets(fences, lambda chosen: self.list_states_without(set(fences) - chosen) == states)

    def find_helping_sets(self) -> list[list[Place]]:
        """Returns all smallest sets of places at which fences leave no unwanted state; none if no fence does."""
        places_in = list_places_after_stores if self.is_tried_everywhere else list_fence_places
        places = self.collect_places(lambda part: part.find_places(places_in(part.test)))
        return find_smallest_sets(
            places,
            lambda chosen: not self.count_unwanted_states(lambda part: insert_fences(part.test, sorted(part.find_first_instructions(set(chosen))))),
        )

    # Exchanges.

    def list_exchanges(self) -> list[Place]:
        """Returns the places of all exchanges, LOCK CMPXCHG among them."""
        return self.collect_places(lambda part: part.find_places(list_exchanges(part.test)))

    def list_states_without_lock(self, place: Place) -> list[str] | None:
        """Returns the lines of the states without the lock of the exchange at a place. `None` if no register is free for that."""
        tests: dict[int, plain.Test] = {}
        for part in self.parts:
            changed = self.remove_lock(part, place)
            if changed is None:
                return None
            tests[id(part)] = changed
        return self.list_states(lambda part: tests[id(part)])

    @staticmethod
    def remove_lock(part: Part, place: Place) -> plain.Test | None:
        """Returns a test without the lock of an exchange in all its copies, the last one first. None if no register is free for that."""
        test = part.test
        for numbered_place in reversed(part.find_instructions({place}, ("xchg", "xadd"))):
            instructions = make_unlocked_instructions(test, numbered_place)
            if not instructions:
                return None
            test = replace_instruction(test, numbered_place, instructions)
        return test


class Original(NamedTuple):
    """The words on the original: its name, its condition, the words for a place, and shorter words for a place in a list."""

    name: str
    condition: str
    format_place: Callable[[Place], str]
    format_place_briefly: Callable[[Place], str]
    # The sites that `--everything` shows besides those of the question.
    further_sites: set[plain.Site]
    # How often a run goes through each loop at most; 0 if there is no loop.
    tries: int = 0
    words_on_everything: str = "all registers and locations"


MAX_SHOWN_STATES = 4


def format_added_states(added: list[str], indent: str) -> Iterator[str]:
    """Yields some of the states that are added, and the number of the others."""
    yield from (indent + line for line in added[:MAX_SHOWN_STATES])
    if len(added) > MAX_SHOWN_STATES:
        yield f"{indent}and {len(added) - MAX_SHOWN_STATES} others"


def format_sets(sets: list[list[str]], question: str, are_enough: bool) -> list[str]:
    """Returns the line that says which sets of a test's fences add no state, by what was asked; none if there is no set. If even all fences do not
    forbid what the question is against, or nothing is asked of an x86 test, such a set is not called enough: it is as good as all fences."""
    texts = "; or ".join(", ".join(it) or "no fence" for it in sets)
    return [f"{'Enough' if are_enough else 'As good as all its fences'}, with none to spare, by {question}: {texts}"] if sets else []


def format_fences(tests: CombinedTest, original: Original, asked_by: str, are_enough: bool) -> Iterator[str]:
    """Yields the lines on each fence, and the smallest sets that add no state. `asked_by` says in words what was asked; `are_enough` is set if all
    fences together forbid it (then, without a fence, the empty set is enough).
    """
    before, fences = {*tests.list_states()}, tests.list_fences()
    for place in fences:
        added = [line for line in tests.list_states_without({place}) if line not in before]
        yield f"{original.format_place(place)}: " + (f"needed, {len(added)} more without it" if added else f"can be left out alone, by {asked_by}")
        yield from format_added_states(added, "  ")
    sets = tests.find_enough_sets() if fences or are_enough else []
    yield from format_sets([list(map(original.format_place_briefly, it)) for it in sets], asked_by, are_enough)


def format_helping_places(tests: CombinedTest, format_place: Callable[[Place], str]) -> Iterator[str]:
    """Yields the lines on where further fences would leave no unwanted state, if there is one."""
    number, states = tests.count_unwanted_states(), len(tests.list_states())
    if not number:
        return
    presence = "What has to be always is not there" if tests.unmarked.quantifier == "forall" else "What is asked about is there"
    sets = tests.find_helping_sets()
    end = "an MFENCE more before these instructions changes that" if sets else "no MFENCE changes that"
    yield f"{presence}, in {number} of {states} states: {end}"
    yield from (f"  {'; '.join(map(format_place, it))}" for it in sets)


def format_exchanges(shown: list[tuple[str, CombinedTest]], format_place: Callable[[Place], str]) -> Iterator[str]:
    """Yields the lines on each exchange without its lock, by each of the pairs in `shown`: what the states are shown by, and the tests."""
    for place in shown[0][1].list_exchanges():
        yield f"{format_place(place)}, without its lock:"
        for shown_by, tests in shown:
            before, states = {*tests.list_states()}, tests.list_states_without_lock(place)
            added = [line for line in states or [] if line not in before]
            number = f"{len(added) or 'no'} state{'s' * (len(added) > 1)} more"
            yield f"  {shown_by}: {number if states is not None else 'not tried, since no register is free'}"
            yield from format_added_states(added, "    ")


def format_tests_and_makers(tests: CombinedTest, makers: set[answers.Maker], tries: int) -> str:
    """Returns the line that says from how many tests a report is put together, and who lists them."""
    count, often = len(tests.parts), "once" if tries == 1 else f"{tries} times"
    suffix = "" if answers.are_proved(makers) else ", not proved"
    runs = f", of the runs that go through each loop at most {often}" if tries else ""
    return f"Put together from {count} test{'s' * (count != 1)}, listed by {answers.format_makers(makers)}{suffix}{runs}"


def format_answer(tests: CombinedTest, original: Original, by_everything: bool, with_exchanges: bool) -> list[str]:
    """Returns the lines on the fences of a test of which some run is left: by the question, or `by_everything`, and on exchanges if they are asked for."""
    everything = tests.show_sites(original.further_sites)
    question = original.words_on_everything if by_everything else f"its question, {original.condition}"
    shown, format_place = everything if by_everything else tests, original.format_place
    lines = list(format_fences(shown, original, question, not by_everything and not tests.count_unwanted_states()))
    if not by_everything:
        lines += format_helping_places(tests, format_place)
    if with_exchanges:
        asks = [] if by_everything else [(f"by its question, {original.condition}", tests)]
        lines += format_exchanges([*asks, (f"by {original.words_on_everything}", everything)], format_place)
    makers = tests.makers | everything.makers
    suffix = "" if answers.are_proved(makers) else " (not proved)"
    head = f"{original.name}, by {question}: fences {len(shown.list_fences())}, states {len(shown.list_states())}{suffix}"
    return [head, *lines, format_tests_and_makers(tests, makers, original.tries)]
