"""Finds the names that .antt files declare and import, and what a name in a file means."""
from __future__ import annotations

import os
import re
from typing import NamedTuple

from shared import antt
from shared.antt_terms import Group, find_index, group_tokens
from shared.home import HOME, read_crates

MARKS = {"pattern", "unfoldable", "abbrev", "pub", "axiom"}
# The first words of sentences that declare no lemma or definition.
NO_DECLARATION = {"use", "mod", "open", "infix", "infixl", "infixr", "unfolding", "ruleset", "mutual", "deriving", "where"}
IMPORT = re.compile(r"^\s*(?:unfoldable )?(pub )?use ([^\s{]+?)(?:\.\{([^}]*)\}| as (\S+))?\s*$", re.M)


class Block(NamedTuple):
    """A block around a sentence: its indent, its head, and its kind, a word such as `module`, `record` or `where`."""

    indent: int
    head: antt.Sentence
    kind: str


class Declaration:
    """A lemma, a definition, a record or a type: its signature or head (`head`, at the line `number`), and its clauses or fields (`parts`).

    `scope` are the heads of the modules around the declaration; `owner` is the sentence whose `where` it is in, if any.
    """

    def __init__(self, file: File, name: str, sentence: antt.Sentence, scope: list[antt.Sentence], owner: antt.Sentence | None) -> None:
        """Makes a declaration of a name, whose signature or head is a sentence."""
        self.file, self.name, self.scope, self.owner = file, name, scope, owner
        self.number, self.head = sentence.number, sentence
        self.parts: list[antt.Sentence] = []
        marks = set(parse_words(sentence)[:3]) & MARKS
        self.is_public, self.is_definition = "pub" in marks, bool(marks & {"abbrev", "unfoldable", "pattern"})

    @property
    def place(self) -> str:
        """Returns where the declaration is, as FILE:LINE."""
        return f"{os.path.relpath(self.file.path, HOME)}:{self.number}"


def parse_words(sentence: antt.Sentence) -> list[str]:
    """Returns the tokens of a sentence, without comments."""
    return antt.parse_tokens(sentence.text)


class File:
    """A file: its module, its declarations, and its imports."""

    def __init__(self, path: str) -> None:
        """Reads a file."""
        self.path = path
        with open(path, encoding="utf-8") as file:
            self.text = file.read()
        inner = os.path.relpath(path, f"{HOME}/crates")[: -len(".antt")]
        self.crate = inner.split("/")[0]
        self.module = "Rattle." + re.sub(r"/Lib$", "", inner).replace("/", ".")
        self.all_sentences = antt.parse_sentences(self.text)  # with the lines between them
        self.sentences = [it for it in self.all_sentences if not it.is_between]
        self.imports: dict[str, tuple[str, str]] = {}  # for each name that is imported, its module and its name there
        self.modules: dict[str, str] = {}  # for each name of a module that is imported, the whole name
        self.reexports: set[str] = set()  # the names that are exported again
        self.record_imports()
        self.declarations: list[Declaration] = []
        self.record_declarations()
        self.own_names = {it.name for it in self.declarations if it.owner is None}

    def record_imports(self) -> None:
        """Records what the `use` lines import: names with the module and the name that each has there (`imports`), modules (`modules`), and which
        names are exported again (`reexports`).
        """
        for public, module, group, short in IMPORT.findall(self.text):
            module = module.replace("package.", "")
            if not group:
                self.modules[short or module.rsplit(".", 1)[-1]] = module
            for item in filter(None, map(str.strip, group.split(","))):
                name, _, renamed = item.partition(" as ")
                path, _, last = f"{module}.{name}".rpartition(".")
                self.imports[renamed or last] = path, last
                if public:
                    self.reexports.add(renamed or last)

    def record_declarations(self) -> None:
        """Records the declarations of all sentences, each with the blocks that contain it."""
        blocks: list[Block] = []
        before: antt.Sentence | None = None
        for sentence in self.sentences:
            while blocks and blocks[-1].indent >= sentence.indent:
                blocks.pop()
            words = parse_words(sentence)
            self.record_sentence(sentence, words, blocks)
            if words == ["where"] and before:
                blocks.append(Block(sentence.indent, before, "module" if parse_words(before)[0] == "module" else "where"))
            elif words[-1] == "where":
                kind = next(it for it in words if it not in MARKS)
                blocks.append(Block(sentence.indent, sentence, kind))
            before = sentence

    def record_sentence(self, sentence: antt.Sentence, words: list[str], blocks: list[Block]) -> None:
        """Records what a sentence inside some blocks is: one or several declarations, or a part of the last one. `words` are its tokens."""
        rest = [it for it in words[:3] if it not in MARKS]
        # A record or a type, and what is inside one.
        is_block = rest[0] in ("record", "data") and words[-1] == "where"
        if is_block or blocks and blocks[-1].kind in ("record", "data"):
            if is_block:
                self.add_declaration(rest[1], sentence, blocks)
            elif self.declarations:
                self.declarations[-1].parts.append(sentence)
            return
        if rest[0] in NO_DECLARATION or rest[0] == "module":
            if words[0] == "unfolding" and self.declarations:
                self.declarations[-1].parts.append(sentence)
            return
        # A signature, which may be of several names, or a clause.
        nodes = group_tokens(words)
        index = find_index(nodes, ":", "=")
        if index is not None and nodes[index] == ":":
            for name in nodes[:index]:
                if not isinstance(name, Group) and name not in MARKS:
                    self.add_declaration(name, sentence, blocks)
        else:
            self.add_clause(words, sentence)

    def add_declaration(self, name: str, sentence: antt.Sentence, blocks: list[Block]) -> None:
        """Adds a declaration of a name inside these blocks."""
        owners = [block.head for block in blocks if block.kind == "where"]
        scope = [block.head for block in blocks if block.kind == "module"]
        self.declarations.append(Declaration(self, name, sentence, scope, owners[-1] if owners else None))

    def add_clause(self, words: list[str], sentence: antt.Sentence) -> None:
        """Adds a clause to its declaration: the last one of that name, or (for an operator) the last."""
        candidates = [declaration for declaration in self.declarations if declaration.name in words[:1]] or self.declarations[-1:]
        for declaration in candidates[-1:]:
            declaration.parts.append(sentence)


class Files:
    """All .antt files, by module, those of lower crates first."""

    def __init__(self) -> None:
        """Reads all files of proofs and specs."""
        order = list(read_crates())
        self.all = [File(it) for it in antt.list_files("proofs/**/*.antt", "specs/**/*.antt")]
        self.all.sort(key=lambda it: (order.index(it.crate), it.path))
        self.by_module = {it.module: it for it in self.all}

    def find_origin(self, module: str, name: str) -> tuple[str, str]:
        """Returns the module that declares a name, whatever exports it again, and the name there."""
        seen = set()
        while module in self.by_module and (module, name) not in seen:
            seen.add((module, name))
            file = self.by_module[module]
            if name in file.own_names or name not in file.imports:
                break
            module, name = file.imports[name]
        return module, name

    def find_meaning(self, file: File, word: str) -> str:
        """Returns the meaning of a word in a file: a whole name, or the word itself if the file does not import it."""
        first, dot, rest = word.partition(".")
        if first in file.own_names:
            return f"{file.module}.{word}"
        if first in file.imports:
            return ".".join(self.find_origin(*file.imports[first])) + dot + rest
        if first in file.modules:
            return ".".join(self.find_origin(file.modules[first], rest))
        return word
