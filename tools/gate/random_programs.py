"""Makes random programs in C, whose lists by tools/from_c.py have to be the outcomes that an interpreter of their source finds.

    python3 tools gate.random_programs COUNT [--seed N] [--compilers N] [--log FILE] [--processes N]

It runs COUNT programs of two or three threads, the first of which has the number --seed (0), each by --compilers (3) of the compilers and levels
on this machine, in --processes (2) at once. It prints the programs whose lists differ, and writes a line for each list into the file
--log. The interpreter knows C's integers, atomic operations, pointers and arrays, and x86's store buffers, but no assembly. A relaxed
store waits in a buffer, and every seq_cst operation except a load waits for the buffer: gcc and clang make no other code of them, and merge
none of them. The last line is 'N lists the same, M differ, K refused'.
"""
from __future__ import annotations

import sys
from collections import Counter
from collections.abc import Callable, Sequence
from concurrent.futures import ProcessPoolExecutor
from dataclasses import dataclass
from random import Random
from typing import List, NamedTuple, Tuple, TypeVar

import given
from c.compiler import list_compilers
from c.refused import Refused
from c.source import read_source
from from_c import RECURSION, convert_source
from shared import answers, command, start


class Kind(NamedTuple):
    """A type of C: how an atomic object of it and a plain value are written, its bytes (0 for bool), and whether it is signed."""

    atomic: str
    plain: str
    size: int
    is_signed: bool


KINDS = (
    Kind("atomic_int", "int", 4, True), Kind("atomic_uint", "unsigned", 4, False), Kind("_Atomic uint8_t", "uint8_t", 1, False),
    Kind("atomic_long", "long", 8, True), Kind("_Atomic short", "short", 2, True), Kind("atomic_bool", "bool", 0, False),
)
INT = KINDS[0]


def wrap(word: int, kind: Kind) -> int:
    """Returns a number as a value of a type."""
    if kind.size == 0:
        return int(word != 0)
    word &= (1 << 8 * kind.size) - 1
    return word - (1 << 8 * kind.size) if kind.is_signed and word >> (8 * kind.size - 1) else word


def to_int(word: int) -> int:
    """Returns a number as an int."""
    return wrap(word, INT)


TABLE = (5, -3, 7, 2)
# Expressions of two local variables, each with its value.
EXPRESSIONS: dict[str, Callable[[int, int], int]] = {
    "1": lambda a, b: 1, "2": lambda a, b: 2, "3": lambda a, b: 3, "-1": lambda a, b: -1, "255": lambda a, b: 255,
    "r0": lambda a, b: a, "r1": lambda a, b: b, "r0 + 1": lambda a, b: to_int(a + 1), "r1 - r0": lambda a, b: to_int(b - a),
    "r0 & 3": lambda a, b: a & 3, "r0 * 2": lambda a, b: to_int(a * 2), "r0 ^ 1": lambda a, b: a ^ 1, "r0 >> 1": lambda a, b: a >> 1,
    "(unsigned)r0 % 3": lambda a, b: (a & 0xFFFFFFFF) % 3, "r1 == r0": lambda a, b: int(a == b),
    "(signed char)r0": lambda a, b: wrap(a, Kind("", "", 1, True)),
    "(uint16_t)(r1 + 7)": lambda a, b: (b + 7) & 0xFFFF, "table[r0 & 3]": lambda a, b: TABLE[a & 3], "helper(r1)": lambda a, b: evaluate_helper(b),
    "r0 < r1 ? r0 : 4": lambda a, b: a if a < b else 4, "-r1": lambda a, b: to_int(-b), "~r0": lambda a, b: ~a,
}
CONDITIONS: dict[str, Callable[[int, int], int]] = {
    "r0 == 1": lambda a, b: a == 1, "r0 != r1": lambda a, b: a != b, "r0 < 2": lambda a, b: a < 2, "r1 >= 3": lambda a, b: b >= 3,
    "r0 & 1": lambda a, b: a & 1, "(unsigned)r0 > 1u": lambda a, b: (a & 0xFFFFFFFF) > 1, "r0": lambda a, b: a, "!r1": lambda a, b: not b,
    "r0 > 0 && r1 < 9": lambda a, b: a > 0 and b < 9, "helper(r0) == 2": lambda a, b: evaluate_helper(a) == 2,
}
OPERATIONS = {"+": lambda a, b: a + b, "-": lambda a, b: a - b, "|": lambda a, b: a | b, "&": lambda a, b: a & b, "^": lambda a, b: a ^ b}
FETCHES = {"+": "add", "-": "sub", "|": "or", "&": "and", "^": "xor"}
HEAD = (
    "#include <stdatomic.h>\n#include <stdbool.h>\n#include <stdint.h>\n"
    f"static const int table[4] = {{{', '.join(map(str, TABLE))}}};\n"
    "static __attribute__((noinline)) int helper(int a) { return a == 1 ? 2 : a & 6; }\n"
)


def evaluate_helper(a: int) -> int:
    """Returns the result of `helper` of HEAD."""
    return 2 if a == 1 else a & 6


# The indices of a thread's variables: r0 and r1, the fields of its own structure, and the address that it follows.
OWN_A, OWN_B, ADDRESS = 2, 3, 4
SHORT = Kind("", "", 2, True)


@dataclass(frozen=True)
class Statement:
    """A statement: its kind, its location, the variable that it sets, its expressions, and its jump's target."""

    kind: str
    location: int = 0
    register: int | None = None
    first: str = "1"
    second: str = "1"
    operation: str = "+"
    target: int = 0


WrittenCode = Tuple[str, List[Statement]]


class Program:
    """A random program: its text, and its threads as statements. An array's elements are the locations `arr` and `arr+4`; a pointer's
    word is the number of the location that it points to."""

    def __init__(self, random: Random) -> None:
        """Makes a program of random choices."""
        self.random = random
        self.has_pointer, self.has_array = random.random() < 0.3, random.random() < 0.3
        count = random.choice((2, 2, 3))
        self.kinds = [INT if self.has_pointer and index < 2 else random.choice(KINDS) for index in range(count)]
        self.names = list("xyz"[:count])
        self.first = [wrap(random.choice((0, 0, 0, 1, 3, 254)), it) for it in self.kinds]
        lines = [f"{kind.atomic} {name} = {word};\n" for kind, name, word in zip(self.kinds, self.names, self.first)]
        lines += [self.declare_pointer()] if self.has_pointer else []
        lines += [self.declare_array()] if self.has_array else []
        self.is_relaxed = random.random() < 0.4
        self.threads: list[list[Statement]] = []
        count = random.choice((2, 2, 2, 3))
        for number in range(count):
            text, code = self.make_body(number, (2, 3, 3, 4) if count == 2 else (1, 2, 2))
            self.threads.append(code)
            lines.append(f"struct {{ int a; short b; }} own{number};\nvoid P{number}(void) {{ int r0 = 0, r1 = 0; {text} }}\n")
        atoms = [f"{thread}:r{register}=1" for thread in range(count) for register in range(2)]
        atoms += [f"{name}={'&x' if name == 'p' else 1}" for name in self.names]
        atoms += [f"own{thread}{field}=1" for thread in range(count) for field in ("", "+4")]
        self.text = HEAD + "".join(lines) + "// lw: exists (" + " /\\ ".join(atoms) + ")\n"

    def declare_pointer(self) -> str:
        """Adds a pointer to x or y."""
        self.pointer = self.add_location("p", 0)
        return "_Atomic(atomic_int *) p = &x;\n"

    def declare_array(self) -> str:
        """Adds an array of two elements."""
        self.array = self.add_location("arr", 2)
        self.add_location("arr+4", 0)
        return "atomic_int arr[2] = {2, 0};\n"

    def add_location(self, name: str, word: int) -> int:
        """Adds a location. Returns its index."""
        self.names.append(name)
        self.kinds.append(INT)
        self.first.append(word)
        return len(self.names) - 1

    def make_expression(self) -> str:
        """Returns a random key of `EXPRESSIONS`, which is the text of an expression."""
        return self.random.choice(list(EXPRESSIONS))

    def make_statement(self, thread: int) -> WrittenCode:
        """Returns a statement that is no branch: its text, and its effect."""
        random = self.random
        choices = [self.make_plain_statement] * 8 + [self.make_own_statement] * 2 + [
            self.make_pointer_statement
        ] * (3 * self.has_pointer) + [self.make_array_statement] * (3 * self.has_array)
        return random.choice(choices)(thread)

    def make_plain_statement(self, _thread: int) -> WrittenCode:
        """Returns a statement on one of the first locations."""
        random = self.random
        location_index, register = random.randrange(sum(name in "xyz" for name in self.names)), random.randrange(2)
        kind, name = self.kinds[location_index], self.names[location_index]
        locked_kinds = ["fetch", "fetch", "set", "cas", "cas"] if kind.size else ["set"]
        kind_of_statement = random.choice(["store", "store", "load", "load", "exchange", *locked_kinds])
        first, second = self.make_expression(), self.make_expression()
        operation = random.choice(list(FETCHES))
        if kind_of_statement == "store" and self.is_relaxed:
            return f"atomic_store_explicit(&{name}, {first}, memory_order_relaxed);", [Statement("relaxed", location_index, None, first)]
        fetched = random.random() < 0.6
        texts = {
            "store": f"{name} = {first};", "load": f"r{register} = {name};", "exchange": f"r{register} = atomic_exchange(&{name}, {first});",
            "set": f"r{register} = {first};",
            "fetch": f"{f'r{register} = ' if fetched else ''}atomic_fetch_{FETCHES[operation]}(&{name}, {first});",
            "cas": f"{{ {kind.plain} e = {first}; r{register} = atomic_compare_exchange_strong(&{name}, &e, {second}); "
            f"if (!r{register}) r{register} = e + 10; }}",
        }
        sets = None if kind_of_statement == "store" or kind_of_statement == "fetch" and not fetched else register
        return texts[kind_of_statement], [Statement(kind_of_statement, location_index, sets, first, second, operation)]

    def make_own_statement(self, thread: int) -> WrittenCode:
        """Returns a statement on the thread's own structure."""
        field, register, first = self.random.choice((OWN_A, OWN_B)), self.random.randrange(2), self.make_expression()
        name = f"own{thread}.{'ab'[field - OWN_A]}"
        if self.random.random() < 0.6:
            return f"{name} = {first};", [Statement("set", 0, field, first)]
        return f"r{register} = {name};", [Statement("copy", 0, register, target=field)]

    def make_pointer_statement(self, _thread: int) -> WrittenCode:
        """Returns a statement on the pointer, or through it."""
        register, first, target = self.random.randrange(2), self.make_expression(), self.random.randrange(2)
        follow = Statement("load", self.pointer, ADDRESS)
        return self.random.choice([
            (f"p = &{self.names[target]};", [Statement("aim", self.pointer, None, target=target)]),
            (f"r{register} = *p;", [follow, Statement("load through", 0, register)]),
            (f"*p = {first};", [follow, Statement("store through", 0, None, first)]),
        ])

    def make_array_statement(self, _thread: int) -> WrittenCode:
        """Returns a statement on an element of the array."""
        register, first = self.random.randrange(2), self.make_expression()
        return self.random.choice([
            (f"r{register} = arr[r{register} & 1];", [Statement("load in", self.array, register)]),
            (f"arr[r0 & 1] = {first};", [Statement("store in", self.array, None, first)]),
        ])

    def make_body(self, thread: int, lengths: tuple[int, ...]) -> WrittenCode:
        """Returns the statements of a thread, and their text."""
        texts: list[str] = []
        code: list[Statement] = []
        for _ in range(self.random.choice(lengths)):
            text, them = self.make_statement(thread)
            kind = self.random.random()
            if kind < 0.3:
                texts.append(self.add_branch(thread, text, them, code))
            elif kind < 0.36:
                texts.append(f"for (int i = 0; i < 2; i++) {{ {text} }}")
                code += [*them, *them]
            else:
                texts.append(text)
                code += them
        return " ".join(texts), code

    def add_branch(self, thread: int, text: str, them: list[Statement], code: list[Statement]) -> str:
        """Adds the statements of an `if`. Returns its text."""
        condition, index = self.random.choice(list(CONDITIONS)), len(code)
        code += [Statement("unless", first=condition), *them]
        text, end = f"if ({condition}) {{ {text} }}", len(code)
        if self.random.random() < 0.4:
            other, others = self.make_statement(thread)
            code += [Statement("jump", target=len(code) + 1 + len(others)), *others]
            text, end = f"{text} else {{ {other} }}", end + 1
        code[index] = Statement("unless", first=condition, target=end)
        return text


# Statements that are executed while stores wait in the buffer.
WITH_BUFFER = ("relaxed", "load", "load through", "load in", "set", "copy", "unless", "jump")


class State(NamedTuple):
    """The state of a run: each thread's next statement, its variables and its buffer, and memory."""

    next: tuple[int, ...]
    registers: tuple[tuple[int, ...], ...]
    buffers: tuple[tuple[tuple[int, int], ...], ...]
    memory: tuple[int, ...]


# The registers of all threads, and memory, at the end of a run.
End = Tuple[Tuple[Tuple[int, ...], ...], Tuple[int, ...]]
Item = TypeVar("Item")


def replace_item(row: Sequence[Item], index: int, value: Item) -> tuple[Item, ...]:
    """Returns a tuple with another value at an index."""
    return (*row[:index], value, *row[index + 1 :])


class Interpreter:
    """All outcomes of a program's source."""

    def __init__(self, program: Program) -> None:
        """Prepares to run a program."""
        self.program = program

    def list_outcomes(self) -> set[End]:
        """Returns the values of variables and locations at the ends of all runs."""
        count = len(self.program.threads)
        first = State((0,) * count, ((0,) * (ADDRESS + 1),) * count, ((),) * count, tuple(self.program.first))
        seen, queue = {first}, [first]
        ends: set[End] = set()
        while queue:
            state = queue.pop()
            following = [it for thread in range(count) for it in self.list_successors(state, thread)]
            if not following:
                ends.add((state.registers, state.memory))
            for successor in following:
                if successor not in seen:
                    seen.add(successor)
                    queue.append(successor)
        return ends

    def list_successors(self, state: State, thread: int) -> list[State]:
        """Returns the states after each next action of a thread: to drain its oldest store, or to execute its next statement."""
        successors, buffer = [], state.buffers[thread]
        if buffer:
            (location, word), *rest = buffer
            buffers, memory = replace_item(state.buffers, thread, tuple(rest)), replace_item(state.memory, location, word)
            successors.append(state._replace(buffers=buffers, memory=memory))
        if state.next[thread] < len(self.program.threads[thread]):
            statement = self.program.threads[thread][state.next[thread]]
            if not buffer or statement.kind in WITH_BUFFER:
                successors.append(self.execute_statement(state, thread, statement))
        return successors

    def find_location(self, statement: Statement, registers: tuple[int, ...]) -> int:
        """Returns the location that a statement accesses."""
        if statement.kind.endswith("through"):
            return registers[ADDRESS]
        return statement.location + (registers[statement.register or 0] & 1 if statement.kind.endswith("in") else 0)

    def execute_statement(self, state: State, thread: int, statement: Statement) -> State:
        """Returns the state after a statement."""
        registers, next_index = state.registers[thread], state.next[thread] + 1
        if statement.kind in ("unless", "jump"):
            next_index = statement.target if statement.kind == "jump" or not CONDITIONS[statement.first](*registers[:2]) else next_index
            return state._replace(next=replace_item(state.next, thread, next_index))
        location = self.find_location(statement, registers)
        found_word = next((word for one, word in reversed(state.buffers[thread]) if one == location), state.memory[location])
        new, result = self.compute_effect(statement, location, found_word, registers)
        if statement.kind == "relaxed":
            assert new is not None
            state = state._replace(buffers=replace_item(state.buffers, thread, (*state.buffers[thread], (location, new))))
        elif new is not None:
            state = state._replace(memory=replace_item(state.memory, location, new))
        if result is not None and statement.register is not None:
            result = wrap(result, SHORT if statement.register == OWN_B else INT)
            state = state._replace(registers=replace_item(state.registers, thread, replace_item(registers, statement.register, result)))
        return state._replace(next=replace_item(state.next, thread, next_index))

    def compute_effect(self, statement: Statement, location: int, found_word: int, registers: tuple[int, ...]) -> tuple[int | None, int | None]:
        """Returns the word that a statement stores to its location, and the word to which it sets its variable, if it does."""
        kind, value = self.program.kinds[location], lambda text: EXPRESSIONS[text](*registers[:2])
        if statement.kind in ("set", "copy"):
            return None, value(statement.first) if statement.kind == "set" else registers[statement.target]
        if statement.kind.startswith("load"):
            return None, found_word
        if statement.kind == "aim":
            return statement.target, None
        if statement.kind == "cas":
            return (wrap(value(statement.second), kind), 1) if found_word == wrap(value(statement.first), kind) else (None, found_word + 10)
        operand = value(statement.first)
        return wrap(OPERATIONS[statement.operation](found_word, operand) if statement.kind == "fetch" else operand, kind), found_word


def list_expected(program: Program, shown: set[str]) -> set[str]:
    """Returns the outcomes of a program as lines of states that show some names."""
    lines = set()
    for registers, memory in Interpreter(program).list_outcomes():
        words = {f"{thread}:r{number}": word % 2**32 for thread, them in enumerate(registers) for number, word in enumerate(them[:2])}
        words.update({name: word % 2 ** (8 * max(kind.size, 1)) for name, word, kind in zip(program.names, memory, program.kinds)})
        words.update({f"own{thread}": them[OWN_A] % 2**32 for thread, them in enumerate(registers)})
        words.update({f"own{thread}+4": them[OWN_B] % 2**16 for thread, them in enumerate(registers)})
        texts = {name: str(word) for name, word in words.items()}
        if "p" in words:
            texts["p"] = f"&{program.names[words['p']]}"
        lines.add(" ".join(sorted(f"{name}={texts[name]};" for name in shown)))
    return lines


def list_listed(program: Program, compiler: str) -> set[str]:
    """Returns the states that tools/from_c.py lists."""
    source = read_source("random.c", program.text)
    return {" ".join(sorted(it.split())) for it in answers.filter_state_lines(convert_source(source, compiler, 3)[0].report)}


def compare_program(program: Program, compiler: str) -> str:
    """Returns `same`, `differs` with examples, or why a program is refused by a compiler."""
    try:
        states = list_listed(program, compiler)
    except (Refused, given.Fault) as why:
        return f"refused: {why.cause}"
    shown = {it.partition("=")[0] for line in states for it in line.replace(";", "").split()}
    expected = list_expected(program, shown)
    if states == expected:
        return "same"
    return f"differs: listed only {sorted(states - expected)[:2]}, expected only {sorted(expected - states)[:2]}"


def compare_random_program(seed: int, compilers: list[str], count: int) -> list[tuple[str, str, str]]:
    """Returns the results of a random program by some compilers: each compiler, the result, and the program's text."""
    sys.setrecursionlimit(RECURSION)
    random = Random(f"c {seed}")
    program = Program(random)
    chosen = random.sample(compilers, min(count, len(compilers)))
    return [(it, compare_program(program, it), program.text) for it in chosen]


def main() -> int:
    """Runs the command that the arguments describe. Returns the exit status."""
    given.set_output_encoding()
    reader = command.Reader(__doc__)
    reader.add_argument("count", type=int, metavar="COUNT")
    reader.add_argument("--seed", type=int, default=0, metavar="N")
    reader.add_argument("--compilers", type=int, default=3, metavar="N")
    reader.add_argument("--log", metavar="FILE")
    reader.add_argument("--processes", type=int, default=2, metavar="N")
    arguments = reader.read()
    compilers = list_compilers(".c")
    counts: dict[str, int] = Counter()
    log = open(arguments.log, "w", encoding="utf-8") if arguments.log else None
    seeds = range(arguments.seed, arguments.seed + arguments.count)
    with ProcessPoolExecutor(arguments.processes) as pool:
        for seed, them in zip(seeds, pool.map(compare_random_program, seeds, [compilers] * arguments.count, [arguments.compilers] * arguments.count)):
            for compiler, result, text in them:
                counts[result.split(":")[0]] += 1
                if log:
                    print(seed, compiler, result, file=log, flush=True)
                if result.startswith("differs"):
                    print(f"program {seed} by {compiler}: {result}\n{text}", flush=True)
    print(f"{counts['same']} lists the same, {counts['differs']} differ, {counts['refused']} refused")
    return 1 if counts["differs"] or not counts["same"] else 0


if __name__ == "__main__":
    sys.exit(start.run(main))
