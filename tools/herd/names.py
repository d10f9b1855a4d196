"""Names of herd's tests as names of lw: registers beyond the six of lw, and locations with names that lw reserves."""
from __future__ import annotations

import re

import plain
from herd.text import Refused

SIX = plain.REGISTERS["X86"]


def number_registers(thread: int, names: dict[str, int], mark_name: str | None) -> dict[str, int]:
    """Returns an index for each register of a thread, whose names have the first ones; and for its mark, if one is left. Raises Refused if six are
    not enough.
    """
    numbers = {name: SIX.index(name) for name in names if name in SIX}
    free = [it for it in reversed(range(len(SIX))) if it not in numbers.values()]
    for name in sorted(set(names) - set(SIX)):
        if not free:
            raise Refused(f"P{thread} needs more than six registers, and lw has six: one is needed here", names[name])
        numbers[name] = free.pop(0)
    if mark_name and free:
        numbers[mark_name] = free[0]
    return numbers


def number_initial_register(name: str, numbers: dict[str, int]) -> int | None:
    """Returns the index of a register that the initial block names. A register that the thread does not use has its own index, or `None` if another
    register has that.
    """
    if name in numbers or name not in SIX or SIX.index(name) in numbers.values():
        return numbers.get(name)
    return SIX.index(name)


class LocationNames:
    """The table of locations: names of the text, each with a name that lw accepts."""

    def __init__(self) -> None:
        """Starts with no location."""
        self.index_of: dict[str, int] = {}  # by the names of the text
        self.names: list[str] = []

    def number_location(self, name: str) -> int:
        """Returns the index of a location, which is appended to the table if it is new."""
        if name not in self.index_of:
            self.insert_location(name)
        return self.index_of[name]

    def insert_location(self, name: str, shown: str | None = None) -> None:
        """Appends a location to the table. Its name there is free, lw accepts it, and it is like `shown`, or like the location's own name."""
        candidate = re.sub(r"\W", "_", shown or name)[:28]
        while plain.RESERVED.fullmatch(candidate) or candidate in self.names or candidate[:1].isdigit():
            candidate = f"{candidate}_"
        self.index_of[name] = len(self.names)
        self.names.append(candidate)

    def list_renamed(self) -> list[tuple[str, str]]:
        """Returns the locations that have another name in lw: both names."""
        shown = {name: number for name, number in self.index_of.items() if not name.startswith("(")}
        return [(name, self.names[number]) for name, number in shown.items() if name != self.names[number]]
