"""Says in words what each event of a run does, and what a picture highlights: the register that it sets, and the location, or the entry of
its thread's store buffer, that it reads. For tools/picture.py; on the page web/effects.js says the same.

An effect is found by the text of the instruction, which is the program's own, or of the statement. It is stated only if the state after the
event agrees with it. An effect is a mapping: `thread`; `words`, in which code is between backquotes; and, if the event has one, a `register` (its
name), a `location` that is read from memory, or an `entry` that is read (its index in the buffer). If a word that is said to be in memory is in
a cache, `cache` is the thread of that cache.
"""
from __future__ import annotations

import re
from collections.abc import Callable
from typing import List, TypedDict

from replay_state import State, ThreadState

WORD = 2**32
# Why an event is refused, by the number of its cause: the sentences of docs/FORMAT.md.
REFUSALS = {
    1: "there is no such thread",
    2: "there is no such location",
    3: "the thread is at its end",
    4: "`MFENCE` waits for the processor's store buffer to be empty",
    5: "`XCHG` or `LOCK XADD` waits for the processor's store buffer to be empty",
    6: "there is no entry to drain",
    7: "the cache does not hold the line",
    8: "there was no memory for a store buffer's entry",
}


def describe_refusal(number: int) -> str:
    """Returns why an event is refused, in words without backquotes; `number` is that of its cause."""
    return REFUSALS[number].replace("`", "")


class Cell(TypedDict):
    """A cell of a thread's code, and the index of its statement."""

    text: str
    at: int


# The cells of a thread.
Cells = List[Cell]


class Effect(TypedDict, total=False):
    """The effect of an event: always the `words`, and the register, location, cache and entry that it involves. That of an event also has the `thread`;
    that of a statement, of which it is made, does not.
    """

    thread: int
    words: str
    register: str
    location: str
    cache: int
    entry: int


class Unknown(Exception):
    """The effect of the statement is unknown, or the state after it does not agree."""


class Step:
    """A step of a thread: the words that it finds and leaves."""

    def __init__(self, thread: int, before: State, after: State) -> None:
        """Makes the step of a thread between two states."""
        self.thread, self.before, self.after = thread, before, after
        self.thread_before, self.thread_after = before["threads"][thread], after["threads"][thread]
        self.name = f"P{thread}"

    def parse_value(self, text: str) -> int:
        """Returns the word of an operand: of a number, with or without a `$` before it, or of a register before the step."""
        registers = dict(self.thread_before["registers"])
        return registers[text] if text in registers else int(text.lstrip("$"), 0 if "x" in text else 10)

    def describe_put(self, register: str, word: int, words: str) -> Effect:
        """Returns an effect that leaves a word in a register. Raises Unknown if the register does not have the word after the step."""
        self.require(dict(self.thread_after["registers"]).get(register) == word)
        return {"words": words, "register": register}

    @staticmethod
    def require(is_so: bool) -> None:
        """Raises Unknown unless a condition holds."""
        if not is_so:
            raise Unknown

    def find_word(self, location: str) -> int:
        """Returns the word that a load of a location from memory finds before the step."""
        return dict(self.before["content"])[location]

    def describe_cache(self, location: str) -> Effect:
        """Returns the field `cache`: whose cache has the word of a location, that of this thread if it holds the line, otherwise the owner's; empty if
        there is none.
        """
        letters = [dict(it.get("lines", [])).get(location, "I") for it in self.before["threads"]]
        holding = [thread for thread, it in enumerate(letters) if it in "MO" or thread == self.thread and it != "I"]
        return {"cache": self.thread if self.thread in holding else holding[0]} if holding else {}

    def describe_waiting(self, location: str) -> str:
        """Returns the words on the entries for a location that wait in the buffers of other threads, to follow a sentence; empty if there are none."""
        others = (it for it in enumerate(self.before["threads"]) if it[0] != self.thread)
        entries = [(thread, word) for thread, it in others for name, word in it.get("buffer", []) if name == location]
        return "".join(f"; P{thread}'s `{location}={word}` still waits in its store buffer" for thread, word in entries)


# The effects of statements.


def describe_store(step: Step, location: str, value: str) -> Effect:
    """Returns the effect of a store of a value to a location."""
    word = step.parse_value(value)
    if "buffer" not in step.thread_before:
        step.require(dict(step.after["content"])[location] == word)
        return {"words": f"{step.name} writes `{location}={word}` to memory"}
    step.require(step.thread_after["buffer"][-1:] == [(location, word)])
    return {"words": f"{step.name} puts `{location}={word}` into its store buffer"}


def describe_load(step: Step, register: str, location: str) -> Effect:
    """Returns the effect of a load of a location into a register."""
    own_entries = [(entry, word) for entry, (name, word) in enumerate(step.thread_before.get("buffer", [])) if name == location]
    if own_entries:
        entry, word = own_entries[-1]
        effect = step.describe_put(register, word, f"{step.name} reads `{location}={word}` from its own store buffer into `{register}`")
        effect["entry"] = entry
        return effect
    word = step.find_word(location)
    effect = step.describe_put(
        register, word, f"{step.name} reads `{location}={word}` from memory into `{register}`{step.describe_waiting(location)}"
    )
    effect["location"] = location
    effect.update(step.describe_cache(location))
    return effect


def describe_assignment(step: Step, register: str, value: str) -> Effect:
    """Returns the effect of an assignment of a value to a register."""
    return describe_word_assignment(step, register, step.parse_value(value))


def describe_word_assignment(step: Step, register: str, word: int) -> Effect:
    """Returns the effect of an assignment of a word to a register."""
    return step.describe_put(register, word, f"{step.name} sets `{register}={word}`")


def describe_sum_assignment(step: Step, register: str, left: str, value: str) -> Effect:
    """Returns the effect of an assignment of a sum to a register."""
    return describe_word_assignment(step, register, (step.parse_value(left) + step.parse_value(value)) % WORD)


def describe_add(step: Step, register: str, value: str) -> Effect:
    """Returns the effect of ADD."""
    word = (step.parse_value(register) + step.parse_value(value)) % WORD
    return step.describe_put(register, word, f"{step.name} adds {step.parse_value(value)}, which makes `{register}={word}`")


def describe_compare(step: Step, register: str, value: str) -> Effect:
    """Returns the effect of CMP."""
    word, other_word = step.parse_value(register), step.parse_value(value)
    return {"words": f"{step.name} compares `{register}={word}` with {other_word}: they {'are equal' if word == other_word else 'differ'}"}


def describe_fence(step: Step) -> Effect:
    """Returns the effect of MFENCE."""
    return {"words": f"{step.name} passes its fence, since its store buffer is empty"}


def describe_jump(step: Step, label: str) -> Effect:
    """Returns the effect of a jump. The number in its label is the position of its target."""
    return {"words": f"{step.name} jumps to `{label}`" if step.thread_after["at"] == int(label[1:]) else f"{step.name} does not jump"}


def describe_goto(step: Step, label: str) -> Effect:
    """Returns the effect of `goto`."""
    return {"words": f"{step.name} goes to `{label}`"}


def describe_conditional_jump(step: Step, register: str, sign: str, number: str, label: str) -> Effect:
    """Returns the effect of `if r = n goto L`, or of one with `!=`."""
    word = step.parse_value(register)
    jumps = (word == step.parse_value(number)) == (sign == "=")
    step.require(jumps or step.thread_after["at"] == step.thread_before["at"] + 1)
    what_follows = f"goes to `{label}`" if jumps else "does not jump"
    return {"words": f"{step.name} {what_follows}, since `{register}={word}`"}


def describe_exchange(step: Step, register: str, location: str, value: str) -> Effect:
    """Returns the effect of XCHG, or of `swap`."""
    return describe_word_exchange(step, register, location, step.parse_value(value))


def describe_word_exchange(step: Step, register: str, location: str, word: int) -> Effect:
    """Returns the effect of reading a location and writing a word to it, with nothing between."""
    old = step.find_word(location)
    step.require(dict(step.after["content"])[location] == word)
    read = f"{step.name} reads `{location}={old}` from memory into `{register}`"
    words = f"{read} and writes `{location}={word}` in one step{step.describe_waiting(location)}"
    effect = step.describe_put(register, old, words)
    effect["location"] = location
    effect.update(step.describe_cache(location))
    return effect


def describe_fetch_and_add(step: Step, register: str, location: str, value: str) -> Effect:
    """Returns the effect of LOCK XADD, or of `fetchadd`."""
    return describe_word_exchange(step, register, location, (step.find_word(location) + step.parse_value(value)) % WORD)


# The forms of instructions and statements, each with what it does.
FORMS: tuple[tuple[str, Callable], ...] = (
    (r"MOV \[(\w+)\],(\S+)", describe_store),
    (r"MOV (\w+),\[(\w+)\]", describe_load),
    (r"MOV (\w+),(\S+)", describe_assignment),
    (r"ADD (\w+),(\S+)", describe_add),
    (r"CMP (\w+),(\S+)", describe_compare),
    (r"MFENCE", describe_fence),
    (r"J\w+ (L\d+)", describe_jump),
    (r"XCHG \[(\w+)\],(\w+)", lambda step, location, register: describe_exchange(step, register, location, register)),
    (r"LOCK XADD \[(\w+)\],(\w+)", lambda step, location, register: describe_fetch_and_add(step, register, location, register)),
    (r"(r\d) := swap (\w+) (\w+)", describe_exchange),
    (r"(r\d) := fetchadd (\w+) (\w+)", describe_fetch_and_add),
    (r"(r\d) := (r\d) \+ (\w+)", describe_sum_assignment),
    (r"(r\d) := (\d\w*|r\d)", describe_assignment),
    (r"(r\d) := (\w+)", describe_load),
    (r"(\w+) := (\w+)", describe_store),
    (r"if (r\d) (!?=) (\w+) goto (\w+)", describe_conditional_jump),
    (r"goto (\w+)", describe_goto),
)


# Events.


def find_cell(cells: Cells, thread_state: ThreadState) -> str:
    """Returns the text of the cell of a thread's next statement. Empty if the thread has ended."""
    return next((it["text"] for it in cells if it["at"] == thread_state["at"] and not it["text"].endswith(":")), "")


def describe_statement(step: Step, text: str) -> Effect:
    """Returns the effect of a statement. Raises Unknown if no form matches it."""
    for form, effect in FORMS:
        if parts := re.fullmatch(form, text):
            return effect(step, *parts.groups())
    raise Unknown


def describe_drain(thread: int, before: State, after: State) -> Effect:
    """Returns the effect of a drain, by which the oldest entry of a store buffer leaves it."""
    location, word = before["threads"][thread]["buffer"][0]
    is_there = dict(after["content"])[location] == word
    return {"words": f"P{thread}'s `{location}={word}` leaves its store buffer" + " for memory" * is_there, "cache": thread}


def describe_event(event: str, cells: list[Cells], before: State, after: State) -> Effect:
    """Returns the effect of an event, by the states before and after it."""
    thread = int(event[1])
    effect: Effect = {"thread": thread}
    if event[0] == "D":
        effect.update(describe_drain(thread, before, after))
        return effect
    if event[0] == "E":
        return {"thread": thread, "words": f"P{thread}'s cache gives up its line of `{event[3:]}`"}
    text = find_cell(cells[thread], before["threads"][thread])
    try:
        effect.update(describe_statement(Step(thread, before, after), re.sub(r"^(?:\w+: *)+", "", text)))
    except Unknown:
        effect["words"] = f"P{thread} carries out `{text}`"
    return effect
