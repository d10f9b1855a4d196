"""A cycle of edges as a test: its accesses, threads, locations and words, and the question whether all its edges can hold together."""
from __future__ import annotations

from dataclasses import dataclass

import plain
from shapes.edges import Edge, NoCycle

SPARE = {"X86": ("EDI", "ESI"), "SRC": ("r5", "r4")}
X86, SRC = "X86", "SRC"


@dataclass
class Access:
    """An access: `R` or `W`, its thread, its location, its word, whether it is locked; a load's register; what precedes it."""

    kind: str
    thread: int = 0
    location: str = ""
    word: int = 0
    is_locked: bool = False
    register: str = ""
    before: str = ""


@dataclass
class Shape:
    """A cycle's accesses in its order, and the number of stores to each location."""

    edges: list[Edge]
    accesses: list[Access]
    stores: dict[str, int]

    def list_threads(self) -> list[list[Access]]:
        """Returns the accesses of each thread."""
        count = 1 + max(it.thread for it in self.accesses)
        return [[it for it in self.accesses if it.thread == thread] for thread in range(count)]


def make_shape(edges: list[Edge]) -> Shape:
    """Returns the accesses of a cycle. Raises NoCycle if it has too many threads."""
    accesses = [Access(edge.source) for edge in edges]
    thread = location = 0
    for index, edge in enumerate(edges):
        access, before = accesses[index], edges[index - 1]
        access.thread, access.location = thread, str(location)
        access.is_locked = "A" in (edge.marks[:1], before.marks[1:])
        access.before = before.between or "" if index else ""
        thread += edge.is_external
        location += not edge.is_same_location
    assign_locations(accesses, edges, location)
    if thread > 4:
        raise NoCycle("the cycle has more than four threads, and lw has four at most")
    shape = Shape(edges, accesses, {})
    assign_words(shape)
    return shape


def assign_locations(accesses: list[Access], edges: list[Edge], places: int) -> None:
    """Replaces the number of each access's location by a name; `places` is the number of locations. The last edge to another location goes back to
    the first. Raises NoCycle if there are more than eight.
    """
    if places > 8:
        raise NoCycle("the cycle has more than eight locations, and lw has eight at most")
    names = "stuvwxyz"[-places:] if places > 2 else "xy"
    for access in accesses:
        access.location = names[int(access.location) % places]


def assign_words(shape: Shape) -> None:
    """Sets the word of each access, the register of each load, and the number of stores to each location. Each store to a location has the next
    number. Raises NoCycle if a condition could not ask for the cycle, or a thread has too many loads.
    """
    edges, accesses = shape.edges, shape.accesses
    # From each edge to another location, the accesses of one location: a store has the next word, a load the one before it.
    starts = [index for index in range(len(edges)) if not edges[index - 1].is_same_location]
    for begin in starts:
        index, count = begin, 0
        while True:
            access = accesses[index % len(accesses)]
            count += access.kind == "W"
            access.word = count
            if not edges[index % len(edges)].is_same_location:
                break
            index += 1
        shape.stores[access.location] = count
        if count > 2:
            raise NoCycle(f"the location {access.location} has more than two stores, and its last word does not tell their order")
    # The registers of each thread's loads, in their order.
    loads: dict[int, int] = {}
    for access in accesses:
        if access.kind == "R":
            access.register = str(loads.get(access.thread, 0))
            loads[access.thread] = int(access.register) + 1
    if max(loads.values(), default=0) > 4:
        raise NoCycle("a thread has more than four loads")


def format_cells(access: Access, language: str) -> list[str]:
    """Returns the statements or instructions of an access."""
    spare, second = SPARE[language]
    dummy = f"own{access.thread}"
    is_x86 = language == X86
    register = plain.REGISTERS[language][int(access.register)] if access.register else ""
    all_between: dict[str, list[str]] = {
        "": [],
        "mfence": ["MFENCE"],
        "xchg": [f"XCHG [{dummy}],{second}" if is_x86 else f"{second} := swap {dummy} {second}"],
        "xadd": [f"LOCK XADD [{dummy}],{second}" if is_x86 else f"{second} := fetchadd {dummy} {second}"],
    }
    between = all_between[access.before]
    if access.kind == "W" and access.is_locked:
        locked = [f"MOV {spare},${access.word}", f"XCHG [{access.location}],{spare}"]
        return between + (locked if is_x86 else [f"{spare} := {access.word}", f"{spare} := swap {access.location} {spare}"])
    if access.kind == "W":
        return [*between, f"MOV [{access.location}],${access.word}" if is_x86 else f"{access.location} := {access.word}"]
    if access.is_locked:
        return [*between, f"LOCK XADD [{access.location}],{register}" if is_x86 else f"{register} := fetchadd {access.location} {register}"]
    return [*between, f"MOV {register},[{access.location}]" if is_x86 else f"{register} := {access.location}"]


def make_question(shape: Shape, language: str) -> str:
    """Returns the question whether all edges can hold together: the loads' words, and the last words of locations with two stores."""
    atoms = []
    for access in sorted((it for it in shape.accesses if it.kind == "R"), key=lambda it: (it.thread, it.register)):
        atoms.append(f"{access.thread}:{plain.REGISTERS[language][int(access.register)]}={access.word}")
    atoms += [f"{location}={count}" for location, count in sorted(shape.stores.items()) if count > 1]
    return " /\\ ".join(atoms)


def format_test(shape: Shape, name: str, language: str, quantifier: str = "exists") -> str:
    """Returns the text of the test. Raises NoCycle if a source test would need fences."""
    if language == SRC and any(edge.between == "mfence" for edge in shape.edges):
        raise NoCycle("a source test has no fences: lw compile puts them in")
    columns = [[cell for it in thread for cell in format_cells(it, language)] for thread in shape.list_threads()]
    columns = [[f"P{number}", *cells] for number, cells in enumerate(columns)]
    widths = [max(len(cell) for cell in column) for column in columns]
    lines = [f"{language} {name}", f"Cycle={' '.join(edge.name for edge in shape.edges)}", "{}"]
    for index in range(max(len(column) for column in columns)):
        cells = [column[index] if index < len(column) else "" for column in columns]
        lines.append(" " + " | ".join(cell.ljust(width) for cell, width in zip(cells, widths)) + " ;")
    return plain.join_lines([*lines, f"{quantifier} ({make_question(shape, language)})"])


def format_threads(shape: Shape) -> str:
    """Returns the threads in the words of docs/FAMILIES.md."""
    return ", ".join(" ".join(f"{it.kind}{it.location}" for it in thread) for thread in shape.list_threads())
