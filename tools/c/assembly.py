"""Reads the assembly that gcc, clang and rustc write, in AT&T's order: the instructions, their labels and lines, and the data."""
from __future__ import annotations

import os
import re
from dataclasses import dataclass, field
from enum import Enum
from typing import Any

from c.operands import REGISTERS, Label, Operand, parse_number, parse_operand, parse_sum, split_operands
from c.refused import Refused


@dataclass(frozen=True)
class Instruction:
    """An instruction as written; `line` is that of the source, if it is known. What `lw_see` writes has the mnemonic `see`."""

    text: str
    mnemonic: str
    operands: tuple[Any, ...]  # of kinds that c/forms.py checks
    is_locked: bool = False
    line: int | None = None
    name: str = ""


@dataclass(frozen=True)
class Datum:
    """Some bytes of an object: the first of them, their number, and the symbol and the number that they represent."""

    offset: int
    size: int
    symbol: str | None
    number: int


@dataclass
class DataObject:
    """An object: its alignment in bytes, its nonzero bytes, and its length."""

    alignment: int = 1
    data: list[Datum] = field(default_factory=list)
    length: int = 0


class Section(Enum):
    """The content of a section: code, data in memory, or anything else."""

    CODE = "code"
    DATA = "data"
    OTHER = "other"


NAME = r"[A-Za-z_.$][\w.$]*"
LABEL = re.compile(rf"({NAME}|\d+):\s*")
SEE = re.compile(r"\s*#lw see (\S+) (\S+)")
PREFIXES = ("lock", "rep", "repz", "repe", "repnz", "repne", "notrack", "data16", "xacquire", "xrelease", "bnd")
SIZES = {".byte": 1, ".value": 2, ".short": 2, ".word": 2, ".2byte": 2, ".hword": 2, ".long": 4, ".int": 4, ".4byte": 4, ".quad": 8, ".8byte": 8}
WITHOUT_BYTES = (
    ".globl", ".global", ".type", ".size", ".ident", ".weak", ".hidden", ".internal", ".protected", ".local", ".addrsig", ".addrsig_sym",
    ".att_syntax", ".code64", ".end", ".line", ".version", ".symver", ".gnu_attribute", ".cg_profile",
)
# Sections by which code runs before `main`: lists of its addresses, and `.init`.
BEFORE_MAIN = (".init_array", ".preinit_array", ".ctors", ".init")
# Sections that are read only when a stack is unwound.
UNWINDING = (".gcc_except_table", ".eh_frame")
ESCAPES = {"n": 10, "t": 9, "r": 13, "b": 8, "f": 12, "\\": 92, '"': 34}


def parse_bytes(text: str) -> list[int]:
    """Returns the bytes of a quoted text of the assembler. Raises Refused for an escape that is not read."""
    byte_values: list[int] = []
    for match in re.finditer(r'\\([0-7]{1,3})|\\(.)|([^\\"])', text[text.index('"') + 1 : text.rindex('"')]):
        if match[2] and match[2] not in ESCAPES:
            raise Refused(f"a text has the escape '{match[0]}', which is not read")
        byte_values += [int(match[1], 8) & 255] if match[1] else [ESCAPES[match[2]]] if match[2] else list(match[3].encode("utf-8"))
    return byte_values


def classify_section(name: str, flags: str | None) -> Section:
    """Returns the content of a section, by its flags if it has any, and by its name otherwise."""
    if name.startswith(UNWINDING):
        return Section.OTHER
    if flags is not None:
        return Section.CODE if "x" in flags else Section.DATA if "a" in flags else Section.OTHER
    if name.startswith(".text"):
        return Section.CODE
    return Section.DATA if re.match(r"\.(data|bss|rodata|tdata|tbss)\b", name) else Section.OTHER


def split_statements(line: str) -> list[str]:
    """Returns the statements of a line, without comments; `;` separates them."""
    parts, quoted, part, offset = [], False, "", 0
    while offset < len(line):
        letter = line[offset]
        if quoted and letter == "\\":
            part += line[offset : offset + 2]
            offset += 2
            continue
        quoted ^= letter == '"'
        if letter == "#" and not quoted:
            break
        if letter == ";" and not quoted:
            parts.append(part)
            part = ""
        else:
            part += letter
        offset += 1
    return [it.strip() for it in [*parts, part] if it.strip()]


class Assembly:
    """All instructions of a file in sequence, labels as indices of instructions, and the objects of data by their names."""

    def __init__(self, text: str, source: str = "test") -> None:
        """Reads the text of an assembler's file. `source` is the name of the compiled file, without its suffix."""
        self.code: list[Instruction] = []
        self.labels: dict[str, int] = {}
        self.functions: set[str] = set()
        self.objects: dict[str, DataObject] = {}
        self.aliases: dict[str, str] = {}
        self.source = source
        Reader(self).read(text)
        for name in list(self.aliases):  # functions that are the same as others
            if self.resolve_alias(name) in self.labels:
                self.labels.setdefault(name, self.labels[self.resolve_alias(name)])

    def resolve_alias(self, name: str) -> str:
        """Returns the name to which an alias refers."""
        seen: set[str] = set()
        while name in self.aliases and name not in seen:
            seen.add(name)
            name = self.aliases[name]
        return name

    def find_function_starts(self) -> set[int]:
        """Returns the indices of the instructions at which functions start."""
        return {self.labels[it] for it in self.functions if it in self.labels}


    def find_backward_targets(self) -> set[int]:
        """Returns the indices of the instructions that some jump targets backward."""
        targets = set()
        for index, instruction in enumerate(self.code):
            label = instruction.operands[0] if instruction.operands else None
            target = self.labels.get(self.resolve_alias(label.name)) if isinstance(label, Label) else None
            targets |= {target} if target is not None and target <= index else set()
        return targets


class Reader:
    """A reader of the lines of a file."""

    def __init__(self, assembly: Assembly) -> None:
        """Makes a reader that adds what it reads to an assembly."""
        self.assembly = assembly
        self.section, self.section_name = Section.CODE, ".text"
        self.stack: list[tuple[Section, str]] = []
        # The object that is read, whether it has only labels so far, and the alignment that the next object gets.
        self.object, self.is_new, self.alignment = DataObject(), False, 1
        self.label: str | None = None
        self.main_files: set[str] = set()
        self.line: int | None = None
        self.prefixes: list[str] = []

    def read(self, text: str) -> None:
        """Reads all lines. Raises Refused if one is not read, with its number in the assembly."""
        text = re.sub(r"/\*.*?\*/", lambda it: re.sub(r"[^\n]", " ", it[0]), text, flags=re.S)
        for number, line in enumerate(text.splitlines(), 1):
            try:
                see = SEE.match(line)
                if see:
                    self.read_see(see[1], see[2], line.strip())
                    continue
                for statement in split_statements(line):
                    self.read_statement(statement)
            except Refused as why:
                raise Refused(f"{why.cause} (line {number} of the assembly)", self.line, line.strip()) from None

    def read_see(self, name: str, operand: str, text: str) -> None:
        """Reads what `lw_see` writes. Rust names registers without `%`. Raises Refused if the value is in no register."""
        register = REGISTERS.get(operand.lstrip("%"))
        if register is None:
            raise Refused("lw_see has a value that is in no register")
        self.assembly.code.append(Instruction(text, "see", (register,), line=self.line, name=name))

    def read_statement(self, text: str) -> None:
        """Reads the labels and the directive or the instruction of a statement."""
        label = LABEL.match(text)
        while label:
            self.begin_label(label[1])
            text = text[label.end() :]
            label = LABEL.match(text)
        alias = re.fullmatch(rf"({NAME})\s*=\s*({NAME})", text)
        if alias:
            self.assembly.aliases[alias[1]] = alias[2]
        elif text.startswith("."):
            word, _, rest = re.sub(r"\s+", " ", text, count=1).partition(" ")
            self.read_directive(word, rest.strip())
        elif text and self.section is Section.CODE:
            self.read_instruction(re.sub(r"\s+", " ", text))

    def begin_label(self, name: str) -> None:
        """Starts an object, or names the place of the next instruction."""
        assembly = self.assembly
        if self.section is Section.CODE:
            assembly.labels[name] = len(assembly.code)
            self.line = None if name in assembly.functions else self.line
        elif self.section is Section.DATA:
            if self.is_new:  # two names of one object
                assembly.aliases[name] = self.label or name
                return
            self.object, self.is_new, self.label = DataObject(self.alignment), True, name
            assembly.objects[name] = self.object
            self.alignment = 1

    # Directives.

    def read_directive(self, word: str, rest: str) -> None:
        """Reads a directive. Raises Refused for an unknown one that may emit bytes."""
        if word in (".section", ".pushsection", ".popsection", ".previous", ".text", ".data", ".bss", ".rodata"):
            self.change_section(word, rest)
        elif word in (".comm", ".lcomm"):
            name, size, *alignment = [it.strip() for it in rest.split(",")]
            self.assembly.objects[name] = DataObject(parse_number(alignment[0]) if alignment else 1, [], parse_number(size))
        elif word in (".set", ".equ"):
            name, value = [it.strip() for it in rest.split(",", 1)]
            self.assembly.aliases[name] = value
        elif word in (".type", ".file", ".loc"):
            self.read_debug_directive(word, rest)
        elif word in (".align", ".balign", ".p2align"):
            self.align(2 ** parse_number(rest.split(",")[0]) if word == ".p2align" else parse_number(rest.split(",")[0]))
        elif word in WITHOUT_BYTES or word.startswith(".cfi_") or self.section is Section.OTHER:
            return
        elif self.section is Section.CODE:
            raise Refused(f"'{word}' is in code, and is not read")
        else:
            self.read_data(word, rest)

    def change_section(self, word: str, rest: str) -> None:
        """Starts another section."""
        before = self.section, self.section_name
        if word in (".popsection", ".previous"):
            if self.stack:
                self.section, self.section_name = self.stack.pop()
            self.stack += [before] if word == ".previous" else []
        else:
            parts = split_operands(rest)
            self.stack.append(before)
            self.section_name = parts[0].strip('"') if word in (".section", ".pushsection") else word
            self.section = classify_section(self.section_name, parts[1].strip('"') if len(parts) > 1 and word != ".text" else None)
        # The object that is read, whether it has only labels so far, and the alignment that the next object gets.
        self.object, self.is_new, self.alignment = DataObject(), False, 1

    def read_debug_directive(self, word: str, rest: str) -> None:
        """Reads what a line says about functions and the source's lines."""
        if word == ".type":
            name, _, kind = rest.partition(",")
            self.assembly.functions |= {name.strip()} if "function" in kind else set()
        elif word == ".file":
            match = re.fullmatch(r'(\d+) (?:"[^"]*" )?"([^"]*)".*', rest)
            if match and os.path.splitext(os.path.basename(match[2]))[0] == self.assembly.source:
                self.main_files.add(match[1])
        else:
            number, line = rest.split()[:2]
            if number in self.main_files and line != "0":
                self.line = int(line)

    def align(self, alignment: int) -> None:
        """Skips to a place of this alignment."""
        self.alignment = max(self.alignment, alignment)
        if self.section is Section.DATA and not self.is_new:
            self.object.length = (self.object.length + alignment - 1) // alignment * alignment

    def read_data(self, directive: str, operands: str) -> None:
        """Reads the operands of a directive that gives the object bytes, such as `.long 5` or `.quad x+4` (a symbol stands for its address). Raises
        Refused in a section by which code runs before `main`, such as `.init_array`, for a filler other than 0, for a sum or an escape that is not read, and for any other
        directive.
        """
        if self.section_name.startswith(BEFORE_MAIN):
            raise Refused("a global begins with what code before main makes of it: give it a constant")
        if directive in SIZES:
            for part in split_operands(operands):
                self.append_bytes(SIZES[directive], *parse_sum(part))
        elif directive in (".zero", ".skip", ".space"):
            count, *filler = split_operands(operands)
            if filler and parse_number(filler[0]):
                raise Refused("a filler other than 0 is not read")
            self.object.length += parse_number(count)
        elif directive in (".ascii", ".asciz", ".string"):
            for byte in [*parse_bytes(operands), *([0] if directive != ".ascii" else [])]:
                self.append_bytes(1, None, byte)
        else:
            raise Refused(f"data by '{directive}' is not read")
        self.is_new, self.alignment = False, 1

    def append_bytes(self, size: int, symbol: str | None, number: int) -> None:
        """Adds some bytes to the object."""
        self.object.data.append(Datum(self.object.length, size, symbol, number))
        self.object.length += size

    # Instructions.

    def read_instruction(self, text: str) -> None:
        """Reads an instruction. A prefix may have a line of its own. Raises Refused if a prefix repeats it."""
        rest = text
        mnemonic, _, operands = rest.partition(" ")
        while mnemonic in PREFIXES:
            self.prefixes.append(mnemonic)
            if not operands:
                return
            mnemonic, _, operands = operands.partition(" ")
        repeated = [it for it in self.prefixes if it.startswith("rep")]
        if repeated and not mnemonic.startswith(("ret", "nop")):  # REP NOP is PAUSE
            raise Refused(f"'{repeated[0]} {mnemonic}' is not followed")
        is_jump_or_call = mnemonic[0] == "j" or mnemonic.startswith("call")
        operands_read = self.parse_target(operands) if is_jump_or_call else map(parse_operand, split_operands(operands))
        self.assembly.code.append(Instruction(text, mnemonic, tuple(operands_read), "lock" in self.prefixes, self.line))
        self.prefixes = []

    @staticmethod
    def parse_target(text: str) -> list[Operand]:
        """Returns the target of a jump or a call, as a list of one operand. Raises Refused if the target is found by the table of addresses (GOT)."""
        if text.startswith("*"):
            return [parse_operand(text)]
        if "@" in text and not text.endswith("@PLT"):
            raise Refused(f"'{text}' is found by a table of addresses: compile with -fno-pic")
        return [Label(text.replace("@PLT", "").strip())]
