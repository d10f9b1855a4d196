"""The frame of a test in herd's form: the initial block, the header, the cells of each thread, the list of names, and the condition."""
from __future__ import annotations

from collections.abc import Iterator
from dataclasses import dataclass, field

from herd.cells import AddressOf
from herd.propositions import PropositionReader
from herd.registers import parse_register
from herd.text import Reader, Refused, Token, parse_tokens
from plain import Constant, LocationSite, Number, Proposition, RegisterSite, Site

WORDS = ("int", "unsigned", "signed", "uint32_t", "int32_t", "long", "uint64_t", "int64_t", "intptr_t", "uintptr_t")
WIDE = ("uint64_t", "int64_t")
WIDE_IN_64_BITS = ("long", "intptr_t", "uintptr_t")
NARROW = ("char", "short", "bool", "uint8_t", "int8_t", "uint16_t", "int16_t")
QUALIFIERS = ("volatile", "const", "_Atomic")
TYPES = (*WORDS, *NARROW, *QUALIFIERS)
ENDS_OF_ROWS = ("locations", "exists", "forall", "~", "filter", "not", "")


@dataclass
class Entry:
    """An entry of the initial block: a site, its value, its position, the bits that its type says, if any, and whether the value is in the text."""

    site: Site
    value: Number | AddressOf
    offset: int
    bits: int | None = None
    has_value: bool = True


@dataclass
class Negative:
    """A negative number in the initial block, or in the condition: its site, the bits of the site's name, and the position."""

    site: Site
    bits: int | None
    offset: int
    is_initial: bool


@dataclass
class Frame:
    """A test without what its cells say. Its sites have names, and no indices."""

    language: str
    name: str
    entries: list[Entry] = field(default_factory=list)
    threads: list[list[list[Token]]] = field(default_factory=list)  # for each thread, the tokens of its cells, each with an end
    listed: list[tuple[Site, int]] = field(default_factory=list)  # sites with their places
    condition_sites: list[tuple[Site, int]] = field(default_factory=list)  # the sites of the condition and the filter, with their places
    filter: Proposition | None = None
    quantifier: str = "exists"
    proposition: Proposition = Constant(True)
    notes: list[tuple[int, str]] = field(default_factory=list)  # places, and what is said of them
    is_wide: bool = False  # whether words of 64 bits are spoken of
    negatives: list[Negative] = field(default_factory=list)


class FrameReader(PropositionReader):
    """A reader of the frame of a test from its tokens."""

    def __init__(self, frame: Frame, tokens: list[Token]) -> None:
        """Makes a reader of a test's tokens, which fills a frame."""
        Reader.__init__(self, tokens)
        self.frame = frame
        self.bits: int | None = None  # of the register that was read last
        self.is_in_block = True

    def read(self) -> Frame:
        """Reads the whole frame. Raises Refused if the text has another form, or what is not converted."""
        self.take_token("{")
        while not self.take_token_if("}"):
            self.read_entry()
            if not self.is_next("}"):
                self.take_token(";")
        self.is_in_block = False
        count = self.read_header()
        self.read_rows(count)
        self.read_list_filter_and_condition()
        self.check_threads(count)
        return self.frame

    def read_types(self) -> int | None:
        """Reads the words of a type, which may precede a site. Returns the bits that they say. `None` if they say none. Raises Refused for a type
        that is not converted.
        """
        bits, wide = None, WIDE + WIDE_IN_64_BITS * (self.frame.language == "X86_64")
        while self.token.kind == "name" and self.is_before_site(self.tokens[self.number + 1]):
            token = self.take_token()
            if token.text in NARROW:
                raise Refused(f"'{token.text}' has fewer than 32 bits, and a word of lw has 32", token.offset)
            if token.text not in (*WORDS, *QUALIFIERS):
                raise Refused(f"'{token.text}' is no type that is converted", token.offset)
            if token.text in WORDS:
                bits = 64 if token.text in wide or bits == 64 else 32
            while self.take_token_if("*"):
                bits = None
        self.frame.is_wide |= bits == 64
        if self.is_next("*"):
            raise Refused("a location that a location leads to is not converted: name it", self.token.offset)
        return bits

    def is_before_site(self, following: Token) -> bool:
        """Returns whether what follows a name says that the name is a word of a type."""
        return following.kind in ("name", "number") or following.text in ("*", "%") or following.text == "[" and self.token.text in TYPES

    def read_entry(self) -> None:
        """Reads an entry of the initial block. Raises Refused if a location begins with an address."""
        if self.is_next(";"):
            return
        bits = self.read_types()
        offset, site = self.token.offset, self.read_site()
        before = next((it for it in self.frame.entries if it.site == site), Entry(site, Number(0), offset, None, False))
        value, has_value = before.value, before.has_value or self.is_next("=")
        if self.take_token_if("="):
            self.frame.negatives = [it for it in self.frame.negatives if it.site != site]
            value = self.read_initial_value(site)
        if before.has_value and value != before.value:
            name = site.register if isinstance(site, RegisterSite) else site.location
            self.frame.notes.append((offset, f"'{name}' has two values in the initial block: the last one is taken"))
        if isinstance(value, AddressOf) and isinstance(site, LocationSite):
            cause = f"the location '{site.location}' begins with an address, and words of lw are numbers: use a number for each"
            raise Refused(cause, offset)
        self.put_entry(Entry(site, value, offset, bits or before.bits, has_value))

    def put_entry(self, entry: Entry) -> None:
        """Adds an entry of the initial block, in place of one of the same site if there is one."""
        sites = [it.site for it in self.frame.entries]
        if entry.site in sites:
            self.frame.entries[sites.index(entry.site)] = entry
        else:
            self.frame.entries.append(entry)

    def read_initial_value(self, site: Site) -> Number | AddressOf:
        """Reads what follows the `=` of an entry. Raises Refused at an array."""
        if self.is_next("{"):
            raise Refused("an array is not converted: use one location for each element", self.token.offset)
        self.take_token_if("&")
        if self.token.kind == "name":
            return AddressOf(self.take_token().text)
        return Number(self.read_word(site))

    def read_word(self, site: Site) -> int:
        """Returns the number of a site as a word of 32 bits. Raises Refused if it does not fit."""
        offset, number = self.token.offset, self.read_signed()
        if not -(2**31) <= number < 2**32:
            raise Refused(f"{number} does not fit into a word of 32 bits", offset)
        if number < 0:
            self.frame.negatives.append(Negative(site, self.bits, offset, self.is_in_block))
        return number % 2**32

    def read_thread_number(self) -> int:
        """Reads a thread's number, with or without `P`. Raises Refused if it is none."""
        offset, text = self.token.offset, self.take_token().text
        digits = text[1:] if text[:1] == "P" else text
        if not digits.isdigit():
            raise Refused(f"found '{text}', expected the number of a thread", offset)
        return int(digits[:9])

    def read_site(self) -> Site:
        """Reads a location, or a register of a thread. Raises Refused if it is neither, or an array."""
        self.bits = None
        if self.take_token_if("["):
            site = LocationSite(self.read_location())
            self.take_token("]")
            return site
        if self.peek(1) == ":":
            return self.read_thread_register()
        site = LocationSite(self.read_location())
        if self.is_next("["):
            raise Refused("an array is not converted: use one location for each element", self.token.offset)
        return site

    def read_thread_register(self) -> RegisterSite:
        """Reads a register of a thread. Raises Refused if it is none, or has fewer than 32 bits."""
        thread = self.read_thread_number()
        self.take_token(":")
        self.read_types()
        self.take_token_if("%")
        token = self.take_token()
        register = parse_register(token.text)
        if not register:
            raise Refused(f"'{token.text}' is no register that is converted", token.offset)
        if register[1] < 32:
            raise Refused(f"'{token.text}' has {register[1]} bits, and a word of lw has 32", token.offset)
        self.bits = register[1]
        return RegisterSite(thread, register[0])

    def read_location(self) -> str:
        """Reads the name of a location. Raises Refused if it is none."""
        if self.token.kind != "name":
            raise self.make_misplaced_refusal("a location")
        if parse_register(self.token.text):
            raise Refused(f"'{self.token.text}' is a register: write of which thread, as 0:{self.token.text}", self.token.offset)
        return self.take_token().text

    def read_header(self) -> int:
        """Reads the header, and returns the number of threads. Raises Refused if there are more than four."""
        count = 0
        while True:
            token = self.take_token(f"P{count}")
            if count == 4:
                raise Refused("there is a fifth thread, and lw has four at most", token.offset)
            count += 1
            if self.is_next(":"):
                self.frame.notes.append((self.token.offset, f"what follows P{count - 1} is left out: lw has no places for threads"))
                while not self.is_next("|", ";", ""):
                    self.take_token()
            if self.take_token("|", ";").text == ";":
                return count

    def read_rows(self, count: int) -> None:
        """Reads the cells of all threads. Raises Refused if a row has too few or too many."""
        self.frame.threads = [[] for _ in range(count)]
        while self.token.kind != "end" and self.token.text not in ENDS_OF_ROWS:
            for thread in range(count):
                self.frame.threads[thread].append(self.take_cell())
                token = self.take_token("|", ";")
                if (token.text == ";") != (thread == count - 1):
                    raise Refused(f"the row has {'fewer' if token.text == ';' else 'more'} cells than there are threads", token.offset)

    def take_cell(self) -> list[Token]:
        """Returns the tokens of a cell, and an end after them. Raises Refused if it has no end."""
        tokens = []
        while not self.is_next("|", ";"):
            if self.token.kind == "end":
                raise self.make_misplaced_refusal("'|' or ';'")
            tokens.append(self.take_token())
        return [*tokens, Token("end", self.token.text, self.token.offset)]

    def read_list_filter_and_condition(self) -> None:
        """Reads the list of names, the filter and the condition. Raises Refused if something follows the condition."""
        while self.is_next("locations", "filter"):
            token = self.take_token()
            if token.text == "filter":
                self.frame.filter = self.read_implication()
            else:
                self.frame.listed += self.read_list_of_names()
        if self.token.kind == "end":
            self.frame.notes.append((self.token.offset, "there is no condition: forall (true) is used instead"))
            self.frame.quantifier = "forall"
            return
        self.frame.quantifier = self.read_quantifier()
        self.frame.proposition = self.read_implication()
        if self.token.kind != "end":
            raise Refused(f"'{self.token.text}' comes after the condition", self.token.offset)

    def read_list_of_names(self) -> Iterator[tuple[Site, int]]:
        """Yields the elements of a list of names."""
        self.take_token("[")
        while not self.take_token_if("]"):
            if self.take_token_if(";"):
                continue
            self.read_types()
            yield self.read_site(), self.token.offset
            if not self.is_next("]"):
                self.take_token(";")

    def check_threads(self, count: int) -> None:
        """Raises Refused if a register is named of a thread that does not exist; `count` is the number of threads."""
        entries = [(it.site, it.offset) for it in self.frame.entries]
        for site, offset in [*entries, *self.frame.listed, *self.frame.condition_sites]:
            if isinstance(site, RegisterSite) and site.thread >= count:
                raise Refused(f"there is no thread {site.thread}", offset)


def read_frame(text: str) -> Frame:
    """Returns the frame of a test in herd's form. Raises Refused if the text is none, or has what is not converted."""
    language, name, tokens = parse_tokens(text)
    return FrameReader(Frame(language, name), tokens).read()
