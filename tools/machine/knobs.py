"""The knobs of a run: what recipes may do. They are for those who measure; a run without them uses everything."""
from __future__ import annotations

from collections.abc import Iterable
from typing import Dict

from machine.faults import NotRun

SWITCH = ("0", "1")
# The words of each knob, of which the harness is passed the index; or the least and the largest number.
WORDS: dict[str, tuple[str, ...]] = {
    "sync": ("none", "flag", "time", "mixed"),
    "stores": ("plain", "nontemporal"),
    **{name: SWITCH for name in ("prepare", "ballast", "delay", "learn", "move", "halts", "schedules", "light", "pin")},
}
NUMBERS = {"stride": (0, 65536), "instances": (16, 1 << 20)}
DEFAULTS = {name: 1 for name in WORDS}
DEFAULTS.update(sync=3, stores=0, stride=0, instances=1024)
Knobs = Dict[str, int]


class NoKnob(NotRun):
    """A word that sets no knob, and why."""


def parse_number(name: str, value: str) -> int:
    """Returns the number that a knob is set to. Raises NoKnob if the text is no number within the knob's bounds."""
    minimum, maximum = NUMBERS[name]
    if not value.isdecimal() or not minimum <= int(value) <= maximum:
        raise NoKnob(f"{name} is a number from {minimum} to {maximum}, and not '{value}'")
    if name == "instances" and int(value) & (int(value) - 1):
        raise NoKnob(f"instances is a power of 2, and not {value}")
    return int(value)


def parse_knob(word: str) -> tuple[str, int]:
    """Returns the knob that a word `NAME=VALUE` sets, and the number that the harness is passed: the value, or its index among the knob's words.
    Raises NoKnob if the word sets no knob.
    """
    name, sign, value = word.partition("=")
    if not sign or name not in DEFAULTS:
        raise NoKnob(f"'{word}' sets no knob; NAME=VALUE does, and a NAME is one of {', '.join(sorted(DEFAULTS))}")
    if name in NUMBERS:
        return name, parse_number(name, value)
    if value not in WORDS[name]:
        raise NoKnob(f"{name} is one of {', '.join(WORDS[name])}, and not '{value}'")
    return name, WORDS[name].index(value)


def make_knobs(pairs: Iterable[tuple[str, int]]) -> Knobs:
    """Returns the number of each knob: that of its pair, if it is set, and otherwise its default."""
    return {**DEFAULTS, **dict(pairs)}
