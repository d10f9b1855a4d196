"""Quizzes: unseen shapes of graded difficulty, and the answers to them."""
from __future__ import annotations

from random import Random
from typing import NamedTuple

import plain
from shapes.edges import NoCycle, list_critical_cycles, make_cycle
from shapes.families import FAMILIES, make_name
from shapes.tests import X86, Shape, format_test, make_shape

LEVELS = ("two threads, no fence", "two threads", "three threads, no fence", "three threads", "four threads")
MAX_EDGES = 10


class Question(NamedTuple):
    """A question: its level, the cycle, the test, and what x86-TSO and interleaving say of it."""

    level: int
    cycle: str
    name: str
    test: plain.Test
    text: str
    is_allowed: bool


def find_level(names: tuple[str, ...]) -> int:
    """Returns how difficult a cycle is, by its threads, and by whether something is between accesses or a thread reads its own store."""
    threads = sum(name[-1] == "e" for name in names)
    is_simple = all(name.startswith("Po") or name[-1] == "e" for name in names)
    return min(2 * (threads - 2) + (not is_simple), len(LEVELS) - 1)


def insert_own_loads(names: tuple[str, ...], random: Random) -> tuple[str, ...]:
    """Returns the names of a cycle in which some threads load what they stored before they continue."""
    changed: list[str] = []
    for name in names:
        is_changed = name.startswith("PodW") and random.random() < 0.4
        changed += ["Rfi", f"PodR{name[-1]}"] if is_changed else [name]
    return tuple(changed)


def make_pool(random: Random) -> list[list[tuple[str, ...]]]:
    """Returns, for each level, the cycles of no family of docs/FAMILIES.md, in a random order."""
    known = set(FAMILIES.values())
    pool: list[list[tuple[str, ...]]] = [[] for _ in LEVELS]
    for names in list_critical_cycles(MAX_EDGES, 4, ("Pod", "MFenced")):
        names = insert_own_loads(names, random)
        edges = make_cycle(list(names))
        if make_name(edges) not in FAMILIES and " ".join(names) not in known:
            pool[find_level(names)].append(names)
    for cycles in pool:
        random.shuffle(cycles)
    return pool


def rotate_at_random(names: tuple[str, ...], random: Random) -> Shape:
    """Returns the shape of a cycle of named edges, read from a random edge on, so that its threads come in another order."""
    first = random.randrange(len(names))
    return make_shape(make_cycle(list(names[first:] + names[:first])))


def rename_locations(text: str, random: Random) -> str:
    """Returns a test's text with random names for its locations, and without the note that names its cycle."""
    letters = random.sample("abcdfghjkmpquvw", 8)
    table = {old: new for old, new in zip("stuvwxyz", letters)}
    heading, notes, *rest = text.split("\n")
    lines = ["".join(table.get(it, it) if is_whole_word(line, index) else it for index, it in enumerate(line)) for line in rest]
    return "\n".join([heading, *lines])


def is_whole_word(line: str, index: int) -> bool:
    """Returns whether the letter at an index is a word by itself in a line."""
    return not (line[index - 1 : index].isalnum() or line[index + 1 : index + 2].isalnum())


def make_question(names: tuple[str, ...], number: int, random: Random) -> Question:
    """Returns the question of a cycle, whose test is called `quizNUMBER`."""
    shape = rotate_at_random(names, random)
    text = rename_locations(format_test(shape, f"quiz{number}", X86), random)
    test = plain.read_test(text)
    is_allowed = plain.find_verdicts(test)[1] == "allowed"
    cycle = " ".join(edge.name for edge in shape.edges)
    return Question(find_level(names), cycle, make_name(shape.edges), test, text, is_allowed)


def take_question(cycles: list[tuple[str, ...]], is_allowed: bool, number: int, random: Random) -> Question:
    """Removes a cycle, and returns its question: the first whose answer is likely the wanted one, or else the first."""
    index = next((index for index, names in enumerate(cycles) if bool(list_unpreserved_edges(list(names))) == is_allowed), 0)
    return make_question(cycles.pop(index), number, random)


def make_quiz(count: int, seed: str) -> list[Question]:
    """Returns this number of questions, the easier ones first, each of another cycle. About half of the outcomes are allowed. Raises NoCycle if there
    are not that many.
    """
    random = Random(f"quiz {seed}")
    questions, balance = [], 0
    pool = [cycles for cycles in make_pool(random) if cycles]
    for number in range(1, count + 1):
        wanted_level = (number - 1) * len(pool) // count
        level = next((index for index in range(wanted_level, len(pool)) if pool[index]), None)
        if level is None:
            raise NoCycle(f"there are not so many unseen shapes: {number - 1} were found")
        chance = min(0.75, max(0.25, 0.5 - balance / 10))
        question = take_question(pool[level], random.random() < chance, number, random)
        balance += 1 if question.is_allowed else -1
        questions.append(question)
    return questions


def list_unpreserved_edges(names: list[str]) -> list[str]:
    """Returns the edges of a cycle that x86-TSO does not preserve: a store and a later load, or a load of the own store and a later load.
    """
    pairs = zip(names, [*names[1:], names[0]])
    return [name if name != "Rfi" else f"Rfi {after}" for name, after in pairs if name == "PodWR" or (name, after) == ("Rfi", "PodRR")]


def format_reason(question: Question) -> str:
    """Returns why an outcome is allowed or forbidden, in a few words."""
    early = list_unpreserved_edges(question.cycle.split())
    if early:
        return "a load goes ahead of a store that waits: the cycle has " + " and ".join(sorted(set(early)))
    return "no load goes ahead of a store: all edges of the cycle hold, and they can't all be at once"


def format_answer(question: Question, number: int) -> str:
    """Returns the answer to a question, for a teacher."""
    finals, origins = plain.explore_states(question.test, plain.make_x86_start(question.test), plain.list_x86_moves)
    holding = [outcome for outcome in sorted(finals) if plain.is_true_in(question.test.proposition, outcome)]
    yes_or_no = "Yes" if question.is_allowed else "No"
    lines = [f"{number}. {yes_or_no}. {LEVELS[question.level]}. {question.name}: {question.cycle}", f"   {format_reason(question)}."]
    if holding:
        lines.append(f"   A schedule: {plain.make_schedule(finals[holding[0]], origins)}")
    return plain.join_lines(lines)
