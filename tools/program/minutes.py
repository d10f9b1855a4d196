"""Reads the minutes of the gate, crate by crate, from minutes.txt."""
from __future__ import annotations

import os

FILE = os.path.join(os.path.dirname(os.path.abspath(__file__)), "minutes.txt")
# The parts of the gate beside the crates.
OTHERS = {"other": "other processes of rt ci", "library": "the library's builds", "documents": "the documents"}


def read_lines() -> list[list[str]]:
    """Returns the lines of the file, split into words."""
    with open(FILE, encoding="utf-8") as file:
        return [line.split() for line in file if not line.startswith("#")]


def read_proof_minutes() -> dict[str, float]:
    """Returns the minutes of the proof of each crate that has any."""
    return {name: float(cells[0]) for name, *cells in read_lines() if name not in OTHERS and cells[0] != "-"}
