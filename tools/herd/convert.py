"""A test in herd's form as tests of lw: one, or one for each guess of which LOCK CMPXCHG succeed.

A run that contradicts the guess, or goes through a loop more often than it is written down, is given up: it ends without the mark of its
thread, and the condition asks for all marks.
"""
from __future__ import annotations

from dataclasses import dataclass, field, replace
from itertools import product

import plain
from herd.cells import AddressOf, Instruction, read_code
from herd.flow import GIVE_UP, NUMBER, compute_held_addresses, find_read_flags, find_unset_flag_read
from herd.frame import Frame, read_frame
from herd.loops import find_loops, make_graph, unroll_code
from herd.names import LocationNames, number_initial_register, number_registers
from herd.order import Order, find_order
from herd.propositions import restrict
from herd.rewrite import FAILS, SUCCEEDS, Rewriter
from herd.text import Refused
from herd.widths import Widths
from plain import Constant, Eq, LocationSite, Number, Proposition, Register, RegisterSite, Site, Statement

MAX_GUESSES = 8
MARK, ONE = "(mark)", Number(1)
UNSET_FLAG = "the zero flag is read here before an instruction has set it: it is taken as not set at first"


@dataclass
class ConvertedTest:
    """A test of lw under a guess, whose condition asks for all marks, and what merges its report: the same test without marks (`unmarked`); the
    marks; the guess of each LOCK CMPXCHG, set if it succeeds; the filter, if there is one; and the sites that only the filter and the marks name
    (`shown_here_only`).
    """

    test: plain.Test
    unmarked: plain.Test
    marks: list[Site]
    guesses: tuple
    filter: Proposition | None = None
    shown_here_only: list[Site] = field(default_factory=list)
    # For each thread the places in the text of its instructions, and the indices at which the code of one instruction of the text begins. Those that
    # set marks come from none.
    places: list[list[int]] = field(default_factory=list)
    begins: list[list[int]] = field(default_factory=list)


@dataclass
class ConversionResult:
    """The result of a conversion: the tests, one for each guess; the notes, each with its place; the old and the new name of what is renamed; the
    number of copies of each loop, 0 if there is none; and all registers and locations of the text, as sites of its tests.
    """

    frame: Frame
    conversions: list[ConvertedTest]
    notes: list[tuple[int, str]]
    renamed: list[tuple[str, str]]
    tries: int = 0
    sites: list[Site] = field(default_factory=list)


@dataclass
class ThreadCode:
    """A thread's instructions of lw under a guess, by names, each with its place; and the index at which each instruction of the text begins."""

    statements: list[Statement] = field(default_factory=list)
    places: list[int] = field(default_factory=list)
    begins: list[int] = field(default_factory=list)
    notes: list[tuple[int, str]] = field(default_factory=list)

    def can_give_up(self) -> bool:
        """Returns whether some run may be given up."""
        return any(it.target == GIVE_UP for it in self.statements)

    def list_registers(self) -> dict[str, int]:
        """Returns the registers that are named, each with the first place."""
        names: dict[str, int] = {}
        for statement, offset in zip(self.statements, self.places):
            values = [statement.value.register] if isinstance(statement.value, Register) else []
            for name in [statement.register, *values]:
                if name is not None:
                    names.setdefault(name, offset)
        return names


def rewrite_thread(code: list[Instruction], initial: dict[str, str], guesses: dict[int, bool]) -> ThreadCode:
    """Returns a thread's instructions of lw. Jumps still target the indices of the text's instructions. `initial` says which registers hold
    addresses, and `guesses` which LOCK CMPXCHG succeed, by their indices. Raises Refused if an instruction is not converted.
    """
    thread_code, addresses, read = ThreadCode(), compute_held_addresses(code, initial), find_read_flags(code)
    for index, instruction in enumerate(code):
        rewriter = Rewriter(instruction, index, addresses[index], read[index], guesses.get(index))
        statements = rewriter.rewrite_statements()
        thread_code.begins.append(len(thread_code.statements))
        thread_code.statements += statements
        thread_code.places += [instruction.offset] * len(statements)
        thread_code.notes += rewriter.notes
    thread_code.begins.append(len(thread_code.statements))
    return thread_code


class HerdConverter:
    """Converts one frame, whose threads are read."""

    def __init__(self, frame: Frame, codes: list[list[Instruction]]) -> None:
        """Finds the registers and locations of a frame, whose threads are read, and what each of its tests needs. Raises Refused if lw has too few of
        them, or an observed register holds an address.
        """
        self.frame = frame
        self.codes = codes
        self.locations = LocationNames()
        self.held: list[dict[str, str]] = [{} for _ in codes]
        for entry in frame.entries:
            if isinstance(entry.site, RegisterSite) and isinstance(entry.value, AddressOf):
                self.held[entry.site.thread][entry.site.register] = entry.value.location
        is_guessed = lambda instruction: instruction.mnemonic == "CMPXCHG" and instruction.is_locked
        self.guessed = [(t, index) for t, code in enumerate(codes) for index, it in enumerate(code) if is_guessed(it)]
        self.sites = [*frame.listed, *frame.condition_sites]
        self.check_observed()
        extremes = [self.rewrite_threads((guess,) * len(self.guessed)) for guess in (SUCCEEDS, FAILS)]
        self.notes = [note for threads_of_guess in extremes[0] for note in threads_of_guess.notes]
        self.notes += [(it.offset, UNSET_FLAG) for it in map(find_unset_flag_read, codes) if it]
        self.has_mark = [threads_of_guess.can_give_up() for threads_of_guess in extremes[0]]
        self.registers = [self.number_registers(t, [threads_of_guess[t] for threads_of_guess in extremes]) for t in range(len(codes))]
        self.fix_locations(extremes[0])

    def check_observed(self) -> None:
        """Raises Refused if the question is about a register that holds an address at the end."""
        ends = [compute_held_addresses(code, addresses)[-1] for code, addresses in zip(self.codes, self.held)]
        for site, offset in self.sites:
            if isinstance(site, RegisterSite) and ends[site.thread].get(site.register, NUMBER) != NUMBER:
                raise Refused(f"{site.thread}:{site.register} may end with the address of a location, and words of lw are numbers", offset)

    def rewrite_threads(self, guesses: tuple[bool, ...]) -> list[ThreadCode]:
        """Returns the code of all threads under a guess. Raises Refused if an instruction is not converted."""
        by_thread: list[dict[int, bool]] = [{} for _ in self.codes]
        for (thread, index), guess in zip(self.guessed, guesses):
            by_thread[thread][index] = guess
        return [rewrite_thread(code, addresses, guesses_of_thread) for code, addresses, guesses_of_thread in zip(self.codes, self.held, by_thread)]

    def number_registers(self, thread: int, extremes: list[ThreadCode]) -> dict[str, int]:
        """Returns the index of each register of a thread, and of its mark if there is room for one. `extremes` is the thread's code if all guesses
        succeed, and if all fail: together they name all its registers. Raises Refused if six are not enough.
        """
        names: dict[str, int] = {}
        for code in extremes:
            names = {**code.list_registers(), **names}
        for site, offset in self.sites:
            if isinstance(site, RegisterSite) and site.thread == thread:
                names.setdefault(site.register, offset)
        return number_registers(thread, names, MARK if self.has_mark[thread] else None)

    def fix_locations(self, threads: list[ThreadCode]) -> None:
        """Puts all locations into the table, in the order of the text, and after them the marks that are locations."""
        sites = [(it.site, it.offset) for it in self.frame.entries]
        for site, _ in [*sites, *self.sites]:
            if isinstance(site, LocationSite):
                self.locations.number_location(site.location)
        for code in threads:
            for statement in code.statements:
                if statement.location is not None:
                    self.locations.number_location(statement.location)
        for thread, has_mark in enumerate(self.has_mark):
            if has_mark and MARK not in self.registers[thread]:
                self.locations.insert_location(f"{MARK}{thread}", f"done{thread}")

    def find_mark_site(self, thread: int) -> Site:
        """Returns the site that says that a thread's run is not given up."""
        number = self.registers[thread].get(MARK)
        return LocationSite(self.locations.number_location(f"{MARK}{thread}")) if number is None else RegisterSite(thread, number)

    def number_thread(self, number: int, thread_code: ThreadCode) -> tuple[Statement, ...]:
        """Returns the instructions of a thread, with indices in place of names, and at their end the one that sets the mark, if the thread has one."""
        end, last = len(thread_code.statements), []
        if self.has_mark[number]:
            site = self.find_mark_site(number)
            if isinstance(site, LocationSite):
                last = [Statement("store", location=site.location, value=ONE)]
            else:
                last = [Statement("set", site.register, value=ONE)]
            end += 1
        return (*(self.number_statement(number, it, thread_code.begins, end) for it in thread_code.statements), *last)

    def number_statement(self, thread: int, statement: Statement, starts: list[int], end: int) -> Statement:
        """Returns an instruction with indices in place of names. `end` is the index after the thread's code, to which a run jumps that is given up."""
        registers = self.registers[thread]
        return replace(
            statement,
            register=None if statement.register is None else registers[statement.register],
            location=None if statement.location is None else self.locations.number_location(statement.location),
            value=Register(registers[statement.value.register]) if isinstance(statement.value, Register) else statement.value,
            target=None if statement.target is None else end if statement.target == GIVE_UP else starts[statement.target],
        )

    def number_site(self, site: Site) -> Site:
        """Returns a site by indices."""
        if isinstance(site, LocationSite):
            return LocationSite(self.locations.number_location(site.location))
        return RegisterSite(site.thread, self.registers[site.thread][site.register])

    def number_proposition(self, proposition: Proposition) -> Proposition:
        """Returns a proposition whose sites are indices."""
        return plain.replace_atoms(proposition, lambda atom: Eq(self.number_site(atom.site), atom.word))

    def make_conversion(self, guesses: tuple[bool, ...]) -> ConvertedTest:
        """Returns the test of lw under a guess, which asks for all marks; and what merges its report: the same test without marks, the marks, and the
        sites that only they and the filter name.
        """
        frame, threads = self.frame, self.rewrite_threads(guesses)
        # The initial words; the address of a location is in the code of a thread.
        registers = [[0] * 6 for _ in threads]
        words = [0] * len(self.locations.names)
        for entry in frame.entries:
            if isinstance(entry.value, AddressOf):
                continue
            if isinstance(entry.site, LocationSite):
                words[self.locations.number_location(entry.site.location)] = entry.value.word
            else:
                number = number_initial_register(entry.site.register, self.registers[entry.site.thread])
                if number is not None:
                    registers[entry.site.thread][number] = entry.value.word
        # The test without marks: its condition holds only of states that the filter admits.
        filtered = restrict(frame.quantifier, [frame.filter] if frame.filter else [], frame.proposition)
        unmarked = plain.Test("X86", frame.name, list(self.locations.names), [tuple(it) for it in registers], tuple(words))
        unmarked.listed = {self.number_site(site) for site, _ in frame.listed}
        unmarked.quantifier, unmarked.proposition = frame.quantifier, self.number_proposition(filtered)
        unmarked.threads = [self.number_thread(number, it) for number, it in enumerate(threads)]
        # The test with marks, which also shows the sites that only they and the filter name.
        marks = [self.find_mark_site(number) for number, has_mark in enumerate(self.has_mark) if has_mark]
        name = frame.name + ("+" + "".join("FS"[it] for it in guesses) if guesses else "")
        proposition = restrict(frame.quantifier, [Eq(it, 1) for it in marks], unmarked.proposition)
        filter_of_test = self.number_proposition(frame.filter) if frame.filter else None
        shown = unmarked.listed | plain.list_sites(self.number_proposition(frame.proposition))
        shown_here_only = {*marks, *plain.list_sites(filter_of_test or Constant(True))} - shown
        test = replace(unmarked, name=name, proposition=proposition)
        places, starts = [it.places for it in threads], [it.begins[:-1] for it in threads]
        ordered = sorted(shown_here_only, key=plain.site_sort_key)
        return ConvertedTest(test, unmarked, marks, guesses, filter_of_test, ordered, places, starts)

    def list_sites(self) -> list[Site]:
        """Returns all registers and locations of the text, as sites of its tests."""
        registers = [RegisterSite(t, number) for t, names in enumerate(self.registers) for name, number in names.items() if name[0] != "("]
        return [*registers, *(LocationSite(number) for name, number in self.locations.index_of.items() if name[0] != "(")]


def list_width_notes(frame: Frame) -> list[tuple[int, str]]:
    """Returns the notes on words of 64 bits."""
    return [(0, "words of 64 bits are taken as words of 32 bits, into which all words of this test fit")] if frame.is_wide else []


def check_converted_test(test: plain.Test, offset: int) -> None:
    """Raises Refused, at `offset`, if lw does not read a converted test."""
    text = plain.format_canonical_text(test)
    try:
        plain.read_test(text)
    except plain.NoTest as fault:
        raise Refused(f"the converted test is too large, or not one of lw: {fault.cause}", offset) from None


def convert(text: str, tries: int = 0, is_att: bool | None = None) -> ConversionResult:
    """Returns the conversion of a text in herd's form. Raises Refused, or another fault of a text, if there is none."""
    frame = read_frame(text)
    order = find_order(text, frame.language, frame.threads) if is_att is None else Order(is_att)
    read = [read_code(cells, order.is_att) for cells in frame.threads]
    frame.is_wide |= any(is_wide for _, is_wide in read)
    converter = HerdConverter(frame, [unroll_code(code, tries) for code, _ in read])
    if len(converter.guessed) > MAX_GUESSES:
        thread, index = converter.guessed[MAX_GUESSES]
        raise Refused(f"there are more than {MAX_GUESSES} LOCK CMPXCHG", converter.codes[thread][index].offset)
    # A test for each guess, all of which lw must read, and whose words must fit into 32 bits.
    conversions = [converter.make_conversion(guesses) for guesses in product((SUCCEEDS, FAILS), repeat=len(converter.guessed))]
    for conversion in conversions:
        check_converted_test(conversion.test, text.find(frame.name))
    Widths(frame, converter.codes)
    # What is said of the conversion.
    notes = [*frame.notes, *converter.notes, *list_width_notes(frame)]
    if order.note:
        notes.append(order.note)
    if frame.filter:
        notes.append((0, "the filter is a part of the condition: states that it leaves out are listed too"))
    renamed = [*converter.locations.list_renamed(), *(pair for t, it in enumerate(converter.registers) for pair in list_renamed_registers(t, it))]
    has_loop = any(code and list(find_loops(make_graph(code)))[:1] for code, _ in read)
    return ConversionResult(frame, conversions, sorted(set(notes)), renamed, tries if has_loop else 0, converter.list_sites())


def list_renamed_registers(thread: int, registers: dict[str, int]) -> list[tuple[str, str]]:
    """Returns the registers of a thread that have another name in lw: both names."""
    names = [(f"{thread}:{name}", f"{thread}:{plain.REGISTERS['X86'][number]}") for name, number in registers.items()]
    return [pair for pair in names if pair[0] != pair[1]]
