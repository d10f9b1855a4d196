"""Makes random rows of instructions of one thread, each with the words that x86 leaves: the oracles of tools/gate/test_herd.py.

A row runs by itself while it is drawn, so what it leaves is known without tools/herd/. Rows of 64 bits have words that may not fit into a
word of lw. Rows in all spellings have what people write: both orders of operands, sometimes with marks of the other one.
"""
from __future__ import annotations

from random import Random

WORDS = {32: 2**32, 64: 2**64}
NUMBERS = (0, 1, 1, 2, 3, -1, -1, -2, 2**31 - 1, 2**31, 2**32 - 1)
INITIAL = (None, None, None, 0, 1, 2, 5, 2**31 - 1, 2**31, 2**32 - 1, -1)


class WideRow:
    """A random sequence of instructions of 32 and of 64 bits in AT&T's order, and the words that it leaves on x86. The methods `make_with_..` get two
    of the registers, `a` and `b`, how `a` is spelled (`register`), and its word in the instruction's bits.
    """

    def __init__(self, seed: int) -> None:
        """Makes a row. The same seed makes the same one."""
        self.random = Random(f"wide row {seed}")
        self.words = {"rax": 0, "rbx": 0, "rcx": 0}
        self.x = self.random.choice((0, 0, 1, 3, 2**32 - 1))
        self.entries = [f"{self.random.choice(('', 'uint64_t '))}x={self.x};"]
        self.zero = False
        for name in self.words:
            self.set_initial_word(name)
        self.cells = [self.execute_instruction() for _ in range(self.random.randint(1, 6))]

    def set_initial_word(self, name: str) -> None:
        """Chooses a register's initial word, and writes it into the initial block by one of the register's names, or leaves it out."""
        word, bits = self.random.choice(INITIAL), self.random.choice((64, 64, 32))
        if word is not None:
            self.entries.append(f"0:{self.spell_register(name, bits)[1:]}={word};")
            self.words[name] = word % WORDS[bits]

    @staticmethod
    def spell_register(name: str, bits: int) -> str:
        """Returns a register as an operand."""
        return f"%{name}" if bits == 64 else f"%e{name[1:]}"

    def set_flag(self, word: int) -> int:
        """Sets the flag by whether a word of the instruction's bits is 0."""
        self.zero = word % WORDS[self.bits] == 0
        return word

    def set_register(self, name: str, word: int) -> None:
        """Sets a register; a word of 32 bits clears the upper half."""
        self.words[name] = word % WORDS[self.bits]

    def store_word(self, word: int) -> None:
        """Stores a word to the location; one of 32 bits preserves the upper half."""
        self.x = word % 2**64 if self.bits == 64 else self.x // 2**32 * 2**32 + word % 2**32

    def execute_instruction(self) -> str:
        """Chooses a random instruction and executes it. Returns its text."""
        self.bits = self.random.choice((64, 64, 32))
        a, b = (self.random.choice(list(self.words)) for _ in range(2))
        draw = self.random.choice(
            (self.make_with_number, self.make_with_number, self.make_with_registers, self.make_with_memory, self.make_with_one_register)
        )
        text = draw(a, self.spell_register(a, self.bits), self.words[a] % WORDS[self.bits], b)
        mnemonic, _, operands = text.partition(" ")
        return f"{mnemonic.replace('_', ' ')}{'q' if self.bits == 64 else 'l'} {operands}"

    def make_with_number(self, a: str, register: str, word: int, _: str) -> str:
        """Executes an instruction with a number, and returns its text. Only MOV to a register has a number of 64 bits."""
        number, kind = self.random.choice(NUMBERS), self.random.randint(0, 5)
        if kind == 0 or self.bits == 64 and number >= 2**31:
            self.set_register(a, number)
            return f"mov ${number},{register}"
        if kind == 1:
            self.store_word(number)
            return f"mov ${number},(x)"
        if kind == 2:
            self.set_flag(word - number)
            return f"cmp ${number},{register}"
        if kind == 3:
            self.set_register(a, self.set_flag(word - number))
            return f"sub ${number},{register}"
        self.set_register(a, self.set_flag(word + number))
        return f"add ${number},{register}"

    def make_with_registers(self, a: str, register: str, word: int, b: str) -> str:
        """Executes an instruction with two registers, and returns its text."""
        other, spelled, kind = self.words[b] % WORDS[self.bits], self.spell_register(b, self.bits), self.random.randint(0, 5)
        if kind == 0:
            self.set_register(a, self.set_flag(word + other))
            return f"add {spelled},{register}"
        if kind == 1:
            self.set_flag(word - other)
            return f"cmp {spelled},{register}"
        if kind == 2:
            self.set_register(a, other if self.zero else word)
            return f"cmove {spelled},{register}"
        if kind == 3:
            self.set_register(a, other)
            self.set_register(b, word if a != b else other)
            return f"xchg {spelled},{register}"
        if kind == 4:
            return self.make_lea(a, register, b)
        self.set_register(a, other)
        return f"mov {spelled},{register}"

    def make_lea(self, a: str, register: str, b: str) -> str:
        """Executes LEA with an address of 32 or of 64 bits, and returns its text."""
        bits, number = self.random.choice((64, 64, 32)), self.random.choice((-3, -1, 0, 1, 2))
        self.set_register(a, (self.words[b] + number) % WORDS[bits])
        return f"lea {number}({self.spell_register(b, bits)}),{register}"

    def make_with_memory(self, a: str, register: str, word: int, _: str) -> str:
        """Executes an instruction with the location, and returns its text."""
        old_word, kind = self.x % WORDS[self.bits], self.random.randint(0, 5)
        if kind == 0:
            self.set_register(a, old_word)
            return f"mov (x),{register}"
        if kind == 1:
            self.store_word(word)
            return f"mov {register},(x)"
        if kind == 2:
            self.store_word(self.set_flag(old_word + 1))
            return "inc (x)"
        if kind == 3:
            self.store_word(self.set_flag(old_word - 1))
            return "lock_dec (x)"
        if kind == 4:
            self.set_register(a, old_word)
            self.store_word(self.set_flag(old_word + word))
            return f"lock_xadd {register},(x)"
        self.set_register(a, old_word)
        self.store_word(word)
        return f"xchg {register},(x)"

    def make_with_one_register(self, a: str, register: str, word: int, _: str) -> str:
        """Executes an instruction with one register, and returns its text."""
        kind = self.random.randint(0, 3)
        if kind == 0:
            self.set_register(a, self.set_flag(word - 1))
            return f"dec {register}"
        if kind == 1:
            self.set_register(a, self.set_flag(0))
            return f"xor {register},{register}"
        if kind == 2:
            self.set_register(a, self.set_flag(word))
            return f"and $-1,{register}"
        self.set_flag(word)
        return f"test {register},{register}"

    def make_text(self) -> str:
        """Returns the test: a branch at its end shows the flag."""
        body = "".join(f" {cell} ;\n" for cell in [*self.cells, "je END", "movl $1,(zero)", "END:"])
        names = "locations [0:rax; 0:rbx; 0:rcx; x; zero;]"
        return f"X86_64 Wide\n{{ {' '.join(self.entries)} }}\n P0 ;\n{body}{names}\nforall (true)\n"

    def format_state(self) -> str:
        """Returns the line of the final state on x86."""
        a, b, c = self.words.values()
        return f"0:EAX={a}; 0:EBX={b}; 0:ECX={c}; x={self.x}; zero={1 - self.zero};"


def make_wide_threads(seed: int) -> str:
    """Returns a random test of two threads with instructions of 64 bits, whose words may grow from thread to thread."""
    random = Random(f"wide threads {seed}")
    has_differences = random.random() < 0.5

    def make_cell() -> str:
        """Returns a random instruction."""
        first_register, second_register = (random.choice(("rax", "rbx")) for _ in range(2))
        location, number = random.choice("xy"), random.choice((1, 2, 5) if has_differences else (1, 2**29, 2**30, 2**31 - 1))
        moves = (
            f"movq ${number},%{first_register}", f"movq ${number},({location})", f"movq ({location}),%{first_register}",
            f"movq %{first_register},({location})",
        )
        sums = (
            f"addq ${number},%{first_register}", f"addq %{second_register},%{first_register}", f"incq ({location})",
            f"addq %{first_register},({location})", f"leaq 1(%{first_register},%{second_register}),%{first_register}",
        )
        differences = (
            f"decq %{first_register}", f"decq ({location})", f"lock subq $2,({location})", f"leaq -1(%{second_register}),%{first_register}"
        )
        locked = (f"lock xaddq %{first_register},({location})", f"xchgq %{first_register},({location})")
        return random.choice((*moves, *moves[2:], *sums, *locked, *(differences if has_differences else ())))

    rows = "".join(f" {make_cell()} | {make_cell()} ;\n" for _ in range(random.randint(2, 4)))
    initial = f"{{ x={random.choice((1, 3, 5) if has_differences else (0, 2**29, 2**31))}; y={4 * has_differences}; }}"
    return f"X86_64 Two\n{initial}\n P0 | P1 ;\n{rows}locations [0:rax; 0:rbx; 1:rax; 1:rbx; x; y;]\nforall (true)\n"


class SpelledRow:
    """A random sequence of instructions of 32 bits, in one order of operands, in the spellings of that order and sometimes of the other.
    """

    def __init__(self, seed: int) -> None:
        """Makes a row. The same seed makes the same one."""
        self.random = Random(f"spelled row {seed}")
        self.is_att = self.random.random() < 0.5
        self.is_mixed = self.random.random() < 0.5
        self.language = self.random.choice(("X86_64", "X86_64", "X86"))
        self.words = {"eax": 1, "ebx": 2, "ecx": 3, "x": 5, "y": 6}
        self.cells = [self.execute_instruction() for _ in range(self.random.randint(1, 5))]

    def spell_register(self, name: str) -> str:
        """Returns a register as an operand."""
        return f"%{name}" if self.is_att else self.random.choice((name, name.upper()))

    def spell_memory(self, name: str) -> str:
        """Returns a location as an operand."""
        if self.is_att:
            return self.random.choice([f"({name})", f"{name}(%rip)", name] + [f"[{name}]"] * self.is_mixed)
        spellings = [f"[{name}]", f"DWORD PTR [{name}]", f"dword ptr {name}[rip]", f"[rip+{name}]"]
        return self.random.choice(spellings + [f"({name})"] * self.is_mixed)

    def spell_number(self, number: int) -> str:
        """Returns a number as an operand."""
        return f"${number}" if self.is_att or self.random.random() < 0.3 else str(number)

    def spell_instruction(self, mnemonic: str, to: str, source: str | None = None) -> str:
        """Returns an instruction with its operands, in the order of the sequence, and sometimes with the letter of a size."""
        letter = "l" * (self.random.random() < 0.4 and (self.is_att or self.is_mixed))
        operands = [to] if source is None else [source, to] if self.is_att else [to, source]
        return f"{mnemonic}{letter} {','.join(operands)}"

    def execute_instruction(self) -> str:
        """Chooses a random instruction and executes it. Returns its text."""
        words, number = self.words, self.random.randint(0, 9)
        location = self.random.choice("xy")
        a, b = (self.random.choice(("eax", "ebx", "ecx")) for _ in range(2))
        register, other, memory = self.spell_register(a), self.spell_register(b), self.spell_memory(location)
        choices = (
            (("mov", register, self.spell_number(number)), lambda: words.update({a: number})),
            (("mov", register, other), lambda: words.update({a: words[b]})),
            (("mov", register, memory), lambda: words.update({a: words[location]})),
            (("mov", memory, register), lambda: words.update({location: words[a]})),
            (("mov", memory, self.spell_number(number)), lambda: words.update({location: number})),
            (("add", register, other), lambda: words.update({a: words[a] + words[b]})),
            (("add", register, memory), lambda: words.update({a: words[a] + words[location]})),
            (("add", memory, register), lambda: words.update({location: words[location] + words[a]})),
            (("lock inc", memory), lambda: words.update({location: words[location] + 1})),
            (("lock xadd", memory, register), lambda: words.update({location: words[location] + words[a], a: words[location]})),
            (("xchg", register, memory), lambda: words.update({location: words[a], a: words[location]})),
        )
        text, act = self.random.choice(choices)
        act()
        return self.spell_instruction(*text)

    def make_text(self) -> str:
        """Returns the text of a test whose only thread has these instructions."""
        body = "".join(f" {cell} ;\n" for cell in self.cells)
        initial = "{ 0:eax=1; 0:ebx=2; 0:ecx=3; x=5; y=6; }"
        return f"{self.language} Spelled\n{initial}\n P0 ;\n{body}locations [0:eax; 0:ebx; 0:ecx; x; y;]\nforall (true)\n"

    def format_state(self) -> str:
        """Returns the line of the final state on x86."""
        names = {"eax": "0:EAX", "ebx": "0:EBX", "ecx": "0:ECX"}
        return " ".join(f"{names.get(name, name)}={word % 2**32};" for name, word in self.words.items())
