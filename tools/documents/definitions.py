"""Follows definitions by name, from the contract of a public call down, for docs/BELIEVE.md.

A definition is a block of lines of a file of `specs/`: its name with its type, its clauses or fields, and the comment above it. It
depends on the names that it cites: those that its file imports from a crate of the workbench, those that are defined in its file,
and types that code declares, whose block is the declaration in `src/`. What the standard library defines is not followed.
"""
from __future__ import annotations

import os
import re
from collections.abc import Iterable, Sequence

from shared.home import HOME

NAME = r"[^\W\d][\w'◌=&|<>+≡↔-]*"
DEFINED = re.compile(rf"^\s*(?:abbrev )?(?:pub )?(?:data |record )?({NAME})(?=[ :]|$)")
IMPORT = re.compile(r"^(?:pub )?use Rattle\.(lw_\w+)\.specs\.([\w.]+?)(?:\.\{([^}]*)\}| as (\w+))?$")
WORD = re.compile(r"[^\W\d][\w']*(?:\.[^\W\d][\w']*)*")


class Definition:
    """A definition: its name, its file, and the numbers of its first and last line, counted from 1."""

    def __init__(self, name: str, path: str, first: int, last: int, text: str) -> None:
        """Makes a definition; `first` and `last` are line numbers, counted from 1."""
        self.name, self.path, self.first, self.last, self.text = name, path, first, last, text

    def count_lines(self) -> int:
        """Returns the number of lines."""
        return self.last - self.first + 1

    def key(self) -> tuple[str, int]:
        """Returns a key that distinguishes a definition from all others."""
        return self.path, self.first


def read_lines(path: str) -> list[str]:
    """Returns the lines of a file of the repository."""
    with open(f"{HOME}/{path}", encoding="utf-8") as file:
        return file.read().split("\n")


def split_paragraphs(lines: list[str]) -> list[tuple[int, list[str]]]:
    """Returns the runs of lines between blank lines, each with the number of its first line."""
    paragraphs, start = [], None
    for number, line in enumerate([*lines, ""], 1):
        if line.strip() and start is None:
            start = number
        if not line.strip() and start is not None:
            paragraphs.append((start, lines[start - 1 : number - 1]))
            start = None
    return paragraphs


def remove_comments(block: list[str]) -> list[str]:
    """Returns the lines of a block without their comments."""
    return [re.sub(r"\s*--.*$", "", line) for line in block]


class SpecFile:
    """A file of definitions: for each name that it imports the crate, the module and the name there (`imports`); for each module that it renames the
    crate and the module (`aliases`); and what it defines, by name (`defined`).
    """

    def __init__(self, path: str) -> None:
        """Reads a file of the repository."""
        self.path = path
        self.imports: dict[str, tuple[str, str, str]] = {}
        self.aliases: dict[str, tuple[str, str]] = {}
        self.defined: dict[str, Definition] = {}
        for start, block in split_paragraphs(read_lines(path)):
            if any(IMPORT.match(line) or line.startswith("use ") for line in block):
                self.record_imports(block)
            else:
                self.record_definition(start, block)

    def record_imports(self, block: list[str]) -> None:
        """Records the names and modules that a block of `use` lines imports."""
        for line in block:
            named = IMPORT.match(line)
            if named and named[3]:
                for entry in re.split(r",\s*", named[3]):
                    name, _, other = entry.partition(" as ")
                    self.imports[(other or name).strip()] = (named[1], named[2], name.strip())
            elif named and named[4]:
                self.aliases[named[4]] = (named[1], named[2])

    def record_definition(self, start: int, block: list[str]) -> None:
        """Records the definition in a block of lines, the first of which has the number `start`, by each name that it declares; a block of comments
        has none. A line that opens a module belongs to the definition after it.
        """
        code = remove_comments(block)
        opens = [number for number, line in enumerate(code) if re.match(r"^\s*module\b", line)]
        body = [line for line in code[opens[-1] + 1 if opens else 0 :] if line.strip()]
        if not body:
            return
        depth = len(body[0]) - len(body[0].lstrip())
        at_depth = [line for line in body if len(line) - len(line.lstrip()) == depth]
        names = [defined_name[1] for defined_name in map(DEFINED.match, at_depth) if defined_name]
        definition = Definition(names[0], self.path, start, start + len(block) - 1, "\n".join(code))
        for name in names:
            self.defined.setdefault(name, definition)
        if re.match(r"^\s*(?:abbrev )?(?:pub )?data ", body[0]):
            for match in filter(None, map(DEFINED.match, body[1:])):
                self.defined.setdefault(match[1], definition)


def find_declaration(crate: str, names: list[str]) -> Definition | None:
    """Returns the declaration in src/ of a type, of which `names` is the path after `declared`. `None` if there is none."""
    names = [it for it in names if it != "TheVariants"]
    path = f"crates/{crate}/src/{'/'.join(names[:-1])}.rt"
    for start, block in split_paragraphs(read_lines(path)):
        for number, line in enumerate(block):
            if re.match(rf"^pub(\(crate\))? (enum|struct) {names[-1]}\b", line):
                return parse_item(path, names[-1], start, block, number)
    return None


def parse_item(path: str, name: str, start: int, block: list[str], number: int) -> Definition:
    """Returns the item called `name` that begins at the index `number` of a block of code, with the comments and attributes above it. The block
    begins at the line `start`.
    """
    first = number
    while first and re.match(r"^\s*(///|#\[)", block[first - 1]):
        first -= 1
    last = number
    if not block[number].rstrip().endswith(";"):
        while last + 1 < len(block) and block[last] != "}":
            last += 1
    return Definition(name, path, start + first, start + last, "")


class Definitions:
    """All definitions that were read, by file."""

    def __init__(self) -> None:
        """Starts without a file."""
        self.files: dict[str, SpecFile] = {}

    def read_file(self, path: str) -> SpecFile:
        """Returns the SpecFile of a path, which is read at the first call."""
        if path not in self.files:
            self.files[path] = SpecFile(path)
        return self.files[path]

    def find_path(self, crate: str, module: str) -> str | None:
        """Returns the file of a module of a crate's specs, through what the crate exports; `None` if there is none."""
        path = f"crates/{crate}/specs/{module.replace('.', '/')}.antt"
        if os.path.exists(f"{HOME}/{path}"):
            return path
        for line in read_lines(f"crates/{crate}/specs/Lib.antt"):
            named = re.match(rf"^pub use Rattle\.(lw_\w+)\.specs\.(?:[\w.]*\.)?{module}$", line)
            if named:
                return self.find_path(named[1], module)
        return None

    def find_definition(self, crate: str, module: str, name: str) -> Definition | None:
        """Returns the definition of a name in a module, or `None`."""
        parts = module.split(".")
        if parts[0] == "declared":
            return find_declaration(crate, parts[1:])
        path = self.find_path(crate, module)
        if path is None:
            return None
        file = self.read_file(path)
        if name in file.defined:
            return file.defined[name]
        if name in file.imports:
            return self.find_definition(*file.imports[name])
        return None

    def list_cited(self, definition: Definition) -> list[Definition]:
        """Returns the definitions that one mentions, in the order in which it does."""
        if not definition.path.endswith(".antt"):
            return []
        file, cited = self.read_file(definition.path), []
        for word in WORD.findall(definition.text):
            head, _, rest = word.partition(".")
            cited_definition = None
            if head in file.aliases and rest:
                crate, module = file.aliases[head]
                cited_definition = self.find_definition(crate, module, rest.split(".")[0])
            elif head in file.imports:
                cited_definition = self.find_definition(*file.imports[head])
            elif head in file.defined:
                cited_definition = file.defined[head]
            if cited_definition is not None and cited_definition.key() != definition.key() and cited_definition not in cited:
                cited.append(cited_definition)
        return cited

    def list_reached(self, starts: Iterable[Definition], excluded: Sequence[str] = ()) -> list[Definition]:
        """Returns all definitions on which some depend, themselves among them; not those reached only through the excluded names."""
        reached, queue = {}, [*starts]
        while queue:
            definition = queue.pop(0)
            if definition.key() not in reached and definition.name not in excluded:
                reached[definition.key()] = definition
                queue += self.list_cited(definition)
        return [*reached.values()]
