"""A program as tests of lw: one, or one for each guess of what its locked instructions find; and the report that is put together from them."""
from __future__ import annotations

import itertools
import re
from collections.abc import Iterable, Iterator, Sequence
from dataclasses import dataclass

import plain
from c.assembly import Assembly
from c.compiler import NAME
from c.condition import Address, Condition, Global, ThreadValue
from c.program import Program
from c.refused import Refused
from c.registers import SIX
from c.rounds import find_threads
from c.source import MAX_THREADS, strip_prefix
from c.thread import Thread
from c.path_graph import Do, End, Fence, GiveUp
from c.write import Writer
from herd.convert import ConvertedTest

MAX_LOCATIONS, MAX_TESTS = 8, 256
ALWAYS = plain.Constant(True)


@dataclass
class ProgramTest:
    """A test of lw of a program, with its marks; the source lines of each thread's instructions; and for each thread the indices at which the code of
    a node of its paths begins.
    """

    conversion: ConvertedTest
    lines: list[list[set[int]]]
    begins: list[list[int]]


class ProgramConverter:
    """Converts a program that is compiled."""

    def __init__(self, assembly_text: str, condition: Condition, name: str, threads: int, tries: int, added: Iterable[str] = ()) -> None:
        """Parses the assembly of a program, and follows all its threads. `added` are local variables for which the source got an lw_see. Raises
        Refused if the program is not converted.
        """
        self.condition, self.name = condition, name
        assembly = Assembly(assembly_text, NAME)
        names = [f"P{number}" for number in range(MAX_THREADS) if f"P{number}" in assembly.labels]
        if len(names) != threads or f"P{threads - 1}" not in names:
            raise Refused(f"the source has {threads} threads, and its assembly the functions {', '.join(names) or 'of none'}: are they static?")
        for added_name in sorted({*added} & {*assembly.objects}):
            cause = f"'{added_name}', a value of a thread in the condition, is a global's name too"
            raise Refused(f"{cause}: lw_see({added_name}, ..) says what is meant")
        self.program = Program(assembly, names, tries, condition.collect_names(), condition.list_globals())
        try:
            self.threads: list[list[Thread]] = find_threads(self.program)
        except RecursionError:
            raise Refused("the threads have too many paths") from None
        self.check_seen()
        self.locations = self.number_locations()
        self.names = self.name_locations()
        self.check_words()

    # The unmarked.

    def check_seen(self) -> None:
        """Raises Refused if the condition has a name that no path shows."""
        for number, names in self.condition.collect_names().items():
            nodes = [thread.graph.nodes[index] for thread in self.threads[number] for index in thread.graph.list_reachable()]
            shown_names = {name for node in nodes if isinstance(node, End) for name, _ in node.values}
            for name in sorted(names - shown_names):
                if shown_names or any(isinstance(node, End) for node in nodes):
                    raise Refused(f"the condition asks about {number}:{name}, and no run of P{number} comes to lw_see({name}, ..)")

    def assign_seen_registers(self, thread: int) -> dict[str, int]:
        """Returns the registers of what the condition asks of a thread, the last ones first. A global of the thread's own has an `&`. Raises Refused
        if they are more than six.
        """
        names = {*self.condition.collect_names().get(thread, ()), *(f"&{name}" for name, _ in self.program.list_own_asked(thread))}
        if len(names) > SIX:
            raise Refused(f"the condition asks about more than {SIX} values of P{thread}")
        return {name: SIX - len(names) + index for index, name in enumerate(sorted(names))}

    # Locations.

    def number_locations(self) -> dict[int, int]:
        """Returns the numbers of the locations that some thread accesses, those that are asked about first. Raises Refused if they are more than lw
        has.
        """
        used = set()
        for thread in itertools.chain(*self.threads):
            for address in thread.graph.list_reachable():
                node = thread.graph.nodes[address]
                used |= {node.effect.address} if isinstance(node, Do) and not isinstance(node.effect, Fence) else set()
        used_globals = [address for address in self.program.asked_addresses.values() if address in used]
        order = list(dict.fromkeys([*used_globals, *sorted(used)]))
        if len(order) > MAX_LOCATIONS:
            names = ", ".join(map(self.program.layout.name_address, order))
            raise Refused(f"the threads share {len(order)} locations, and lw has {MAX_LOCATIONS}: {names}")
        return {address: number for number, address in enumerate(order)}

    def name_locations(self) -> dict[int, str]:
        """Returns the names of the locations in tests of lw."""
        names: dict[int, str] = {}
        for address in self.locations:
            name = re.sub(r"\W", "_", strip_prefix(self.program.layout.name_address(address)))[:28]
            name = f"v{name}" if not re.match(r"[A-Za-z_]", name) or plain.RESERVED.fullmatch(name) else name
            while name in names.values():
                name += "_"
            names[address] = name
        return names

    def check_words(self) -> None:
        """Raises Refused if lw can't distinguish two words of a location: its words have 32 bits, and a location may have wider ones only if their
        lowest 32 bits differ.
        """
        named_words = [(self.program.layout.name_address(address), self.program.locations.words[address]) for address in self.locations]
        for name, words in [*named_words, *self.program.own_words.items()]:
            if len({it % 2**32 for it in words}) != len(words):
                raise Refused(f"words of '{name}' have the same 32 lowest bits and differ above them")

    # The condition.

    def compute_number(self, word: int | Address) -> int:
        """Returns the number that an atom compares with. Raises Refused if it is the address of no variable."""
        if not isinstance(word, Address):
            return word
        base, _, offset = word.name.partition("+")
        if base not in self.program.layout.addresses:
            raise Refused(f"the condition names '&{word.name}', which is no variable of the compiled file")
        return self.program.layout.find_address(base, int(offset or 0))

    def find_site(self, site: ThreadValue | Global) -> plain.Site | None:
        """Returns where lw has what a site of the program means, or None if no thread stores it. Raises Refused if it is a part of a location."""
        if isinstance(site, ThreadValue):
            return plain.RegisterSite(site.thread, self.assign_seen_registers(site.thread)[site.name])
        address = self.program.asked_addresses[site.name]
        for thread in range(len(self.threads)):
            if (site.name, address) in self.program.list_own_asked(thread):
                return plain.RegisterSite(thread, self.assign_seen_registers(thread)[f"&{site.name}"])
        begin = next((it for it, size in self.program.locations.sizes.items() if it <= address < it + size), address)
        if begin != address:
            raise Refused(
                f"'{site.name}', which the condition names, is a part of what is accessed at once, '{self.program.layout.name_address(begin)}'"
            )
        return plain.LocationSite(self.locations[address]) if address in self.locations else None

    def convert_atom(self, eq: plain.Eq) -> plain.Proposition:
        """Returns an atom as a proposition of lw. Words that a location can't have are false. Raises Refused if the word does not fit into the
        location.
        """
        site, lw_site, number = eq.site, self.find_site(eq.site), self.compute_number(eq.word)
        if isinstance(site, ThreadValue):
            return plain.Eq(lw_site, number % 2**32)
        address = self.program.asked_addresses[site.name]
        size = self.program.find_asked_size(address) if not isinstance(lw_site, plain.LocationSite) else self.program.locations.sizes[address]
        if not -(1 << 8 * size - 1) <= number < 1 << 8 * size:
            raise Refused(f"the condition compares '{site.name}', of {size} bytes, with {number}")
        number %= 1 << 8 * size
        if lw_site is None:
            return ALWAYS if self.program.layout.find_initial_word(address, size) == number else plain.Not(ALWAYS)
        is_location = isinstance(lw_site, plain.LocationSite)
        if number not in (self.program.locations.words[address] if is_location else self.program.own_words[site.name]):
            return plain.Not(ALWAYS)
        return plain.Eq(lw_site, number % 2**32)

    def convert_proposition(self, proposition: plain.Proposition) -> plain.Proposition:
        """Returns a proposition as one of lw."""
        return plain.replace_atoms(proposition, self.convert_atom)

    # Tests.

    def list_tests(self) -> Iterator[ProgramTest]:
        """Yields the tests of lw. A guess under which a thread has no end makes none. Raises Refused if there are too many."""
        count = 1
        for guessed in self.threads:
            count *= len(guessed)
        if count > MAX_TESTS:
            raise Refused(f"the locked instructions make {count} tests, and {MAX_TESTS} at most are listed")
        for numbers in itertools.product(*(range(len(it)) for it in self.threads)):
            threads = [self.threads[index][number] for index, number in enumerate(numbers)]
            if all(it.graph.can_reach(End) for it in threads):
                yield self.make_test(threads, numbers)

    def make_test(self, threads: list[Thread], numbers: tuple[int, ...]) -> ProgramTest:
        """Returns the test under some guesses: `threads` are followed under them, and `numbers` are their indices."""
        columns: list[Sequence[plain.Statement]] = []
        lines, starts = [], []
        marks: list[plain.Site] = []
        for number, thread in enumerate(threads):
            seen_registers = self.assign_seen_registers(number)
            mark = self.choose_mark(number, seen_registers) if thread.graph.can_reach(GiveUp) else None
            marks += [] if mark is None else [plain.RegisterSite(number, mark)]
            writer = Writer(thread.graph, seen_registers, mark, self.locations, number)
            columns.append(writer.write_statements())
            lines.append([thread.graph.lines[index] for index in writer.origins])
            starts.append([index for index, (before, node) in enumerate(zip([None, *writer.origins], writer.origins)) if before != node])
        # The test without marks.
        sizes = self.program.locations.sizes
        words = tuple(self.program.layout.find_initial_word(index, sizes[index]) % 2**32 for index in self.locations)
        unmarked = plain.Test("X86", self.name, list(self.names.values()), [(0,) * SIX] * len(columns), words, columns)
        unmarked.quantifier, unmarked.proposition = self.condition.quantifier, self.convert_proposition(self.condition.proposition)
        places = (self.find_site(it.site) for it in self.condition.list_atoms())
        unmarked.listed = {it for it in places if it is not None}
        # The test with marks: a state is a run's that is not given up if all marks are set.
        listed = unmarked.listed | set(marks)
        name = self.name + ("+" + "-".join(map(str, numbers)) if len(numbers) and self.has_guesses() else "")
        test = plain.Test("X86", name, unmarked.locations, unmarked.registers, words, columns, listed, "forall", ALWAYS)
        return ProgramTest(ConvertedTest(test, unmarked, marks, numbers), lines, starts)

    def has_guesses(self) -> bool:
        """Returns whether the program is more than one test."""
        return any(len(it) > 1 for it in self.threads)

    def choose_mark(self, thread: int, seen_registers: dict[str, int]) -> int:
        """Returns the register that says at the end that a thread's run is not given up. Raises Refused if none is left."""
        free = [it for it in range(SIX) if it not in seen_registers.values()]
        if not free:
            raise Refused(f"P{thread} has no register that says whether its run is given up: ask about fewer values")
        return free[-1]
