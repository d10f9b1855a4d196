"""The memory as all threads together use it: which bytes several of them access, and the words that each shared location can have.

Each word has a clock: how many stores of each thread came before it, at least. A load of a thread that has done k stores cannot find a word
that needs more than k stores of it. So a counter does not feed itself, and the search ends.
"""
from __future__ import annotations

from typing import Any


from c.layout import Layout
from c.refused import Refused
from c.values import Clock, record_earlier

WIDEST = 8


class Wider(Exception):
    """A shared location is wider than assumed. All threads are followed again."""


class Locations:
    """Bytes by the threads that access them (`users`) and store them (`writers`), and the shared locations: the start of each, its size, and its words.
    """

    def __init__(self, layout: Layout, threads: int) -> None:
        """Starts with what no thread has accessed yet."""
        self.layout = layout
        self.never: Clock = (0,) * threads
        self.users: dict[int, set[int]] = {}
        self.writers: dict[int, set[int]] = {}
        self.shared: set[int] = set()
        self.sizes: dict[int, int] = {}
        self.words: dict[int, dict[int, Clock]] = {}
        # The widest access at each address, shared or not.
        self.widest: dict[int, int] = {}

    def record_access(self, thread: int, address: int, size: int) -> bool:
        """Records an access of a thread. Returns whether other threads access the bytes too."""
        bytes_of = range(address, address + size)
        for byte in bytes_of:
            self.users.setdefault(byte, set()).add(thread)
        self.widest[address] = max(size, self.widest.get(address, 0))
        if any(len(self.users[it]) > 1 or it in self.shared for it in bytes_of):
            self.shared.update(bytes_of)
            return True
        return False

    def record_store(self, thread: int, address: int, size: int) -> None:
        """Records that a thread stores some bytes."""
        for byte in range(address, address + size):
            self.writers.setdefault(byte, set()).add(thread)

    def find_writers(self, address: int, size: int) -> set[int]:
        """Returns the threads that store some of these bytes."""
        return set().union(*(self.writers.get(it, set()) for it in range(address, address + size)))

    def find_location(self, address: int, size: int) -> tuple[int, int]:
        """Returns the location of which an access is the whole or a part: its start, and its size. Raises Wider after it has merged smaller
        locations, and Refused if two overlap or one is not aligned.
        """
        # Each location that has one of the bytes: it contains the access, is contained in it, or overlaps it.
        for begin in range(address - WIDEST + 1, address + size):
            length = self.sizes.get(begin, 0)
            if not length or begin + length <= address:
                continue
            if begin <= address and address + size <= begin + length:
                return begin, length
            if address <= begin and begin + length <= address + size:
                self.merge_locations(address, size)
                raise Wider
            raise Refused(
                f"'{self.layout.name_address(begin)}', of {length} bytes, and {size} bytes at '{self.layout.name_address(address)}' overlap"
            )
        # A new location.
        if self.layout.compute_alignment(address) % size:
            alignment = self.layout.compute_alignment(address)
            aligned = f"is aligned to {alignment} only: a processor need not access it at once; declare it _Alignas({size})"
            raise Refused(f"'{self.layout.name_address(address)}' is accessed by {size} bytes, and {aligned}")
        self.sizes[address] = size
        self.words[address] = {self.layout.find_initial_word(address, size): self.never}
        return address, size

    def merge_locations(self, address: int, size: int) -> None:
        """Merges the locations of some bytes into one."""
        for begin in [it for it in self.sizes if address <= it < address + size]:
            del self.sizes[begin], self.words[begin]
        self.find_location(address, size)

    def forget_words(self) -> None:
        """Resets each location to its initial words."""
        self.words = {address: {self.layout.find_initial_word(address, size): self.never} for address, size in self.sizes.items()}

    def list_readable_words(self, address: int, thread: int, stores: int) -> frozenset[int]:
        """Returns the words that a thread can find in a location after that number of its own stores."""
        return frozenset(word for word, clock in self.words[address].items() if clock[thread] <= stores)

    def add_words(self, address: int, words: dict[int, Clock]) -> None:
        """Records words that some thread stores."""
        for word, clock in words.items():
            record_earlier(self.words[address], word, clock)

    def snapshot_accesses(self) -> tuple[Any, ...]:
        """Returns a copy of what is known of accesses, to be compared with a later copy."""
        writers = {address: frozenset(it) for address, it in self.writers.items()}
        users = {address: frozenset(it) for address, it in self.users.items()}
        return frozenset(self.shared), writers, users, dict(self.sizes)

    def copy_words(self) -> dict[int, dict[int, Clock]]:
        """Returns a copy of all words, to be compared with a later copy."""
        return {address: dict(words) for address, words in self.words.items()}
