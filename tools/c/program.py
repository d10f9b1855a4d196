"""A file's code and data, and what is found out about all its threads together."""
from __future__ import annotations

from dataclasses import dataclass, field

from c.assembly import Assembly
from c.layout import Layout
from c.liveness import compute_live_sets
from c.locations import Locations
from c.refused import Refused


@dataclass
class Program:
    """The threads are the functions of `threads`. `names` are the names of values that the condition mentions, by thread, `asked` the
    addresses of the globals that it mentions.
    """

    assembly: Assembly
    threads: list[str]
    tries: int
    names: dict[int, set[str]]
    asked_names: list[str]
    layout: Layout = field(init=False)
    locations: Locations = field(init=False)
    live: list[frozenset[str]] = field(init=False)
    # The instructions at which functions start, and those that some jump targets backward.
    entries: set[int] = field(init=False)
    back_targets: set[int] = field(init=False)
    asked_addresses: dict[str, int] = field(init=False)
    # The first instructions of loops that a run passes at most `tries` times, and what is assumed.
    bounded: set[int] = field(default_factory=set)
    notes: set[str] = field(default_factory=set)
    # The words that each global can have at the end, of those that the condition names and only one thread uses.
    own_words: dict[str, set[int]] = field(default_factory=dict)
    # The number of instructions followed so far, and why the paths of the last round are incomplete, if they are.
    work: int = 0
    too_long: Refused | None = None

    def __post_init__(self) -> None:
        """Finds what the threads start with, and what is known of each location before they are followed."""
        self.layout = Layout(self.assembly)
        self.locations = Locations(self.layout, len(self.threads))
        self.live = compute_live_sets(self.assembly)
        self.entries, self.back_targets = self.assembly.find_function_starts(), self.assembly.find_backward_targets()
        self.asked_addresses = {name: self.find_asked_address(name) for name in self.asked_names}

    def find_asked_address(self, name: str) -> int:
        """Returns the address of a global that the condition names, such as x or x+8. Raises Refused if no variable is there."""
        base, _, number = name.partition("+")
        if base not in self.layout.addresses:
            raise Refused(f"the condition names '{base}', which is no variable of the compiled file")
        offset = int(number or 0)
        if offset >= max(self.assembly.objects[base].length, 1):
            raise Refused(f"the condition names '{name}', and '{base}' has {self.assembly.objects[base].length} bytes")
        return self.layout.addresses[base] + offset

    def find_asked_size(self, address: int) -> int:
        """Returns the number of bytes that the condition means by an address: those that are accessed there at once, or those of the object. Raises
        Refused if no object is there.
        """
        containing_object = self.layout.find_object(address)
        if containing_object is None:
            raise Refused("the condition names no object")
        _, data_object, offset = containing_object
        length = data_object.length - offset
        return self.locations.widest.get(address, length if length in (1, 2, 4, 8) else 4)

    def list_own_asked(self, thread: int) -> list[tuple[str, int]]:
        """Returns the globals that the condition names and that only this thread uses."""
        users, shared = self.locations.users, self.locations.shared
        return [(name, address) for name, address in self.asked_addresses.items() if address not in shared and users.get(address) == {thread}]
