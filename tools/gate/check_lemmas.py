"""Lists the lemmas and definitions of proofs that nothing names, and the statements that are there twice.

    python3 tools gate.check_lemmas

- What proofs/ declares is named somewhere: in its file outside its own clauses, by a file that imports it, or in a .rt file. What
  answers a goal, in Answers, Invariants and Proof, is named by the prover.
- No statement and no definition is there twice, in proofs and specs/ of all crates. Two are the same if only the names of bound
  variables differ, their brackets, or the module's parameters that they do not name. Names are compared by what they mean.
- A `pub` lemma of proofs/api/ has a line of comment above it.

ALLOWED has what is right all the same, each with its reason. The last line is 'N passed, M failed'.
"""
from __future__ import annotations

import os
import re
import sys
from collections import defaultdict
from collections.abc import Iterable, Iterator

from gate.cases import Comparison
from shared import command
from shared.antt import Sentence
from shared.antt_names import MARKS, Declaration, File, Files, parse_words
from shared.antt_terms import Group, Node, find_index, group_tokens, require_index
from shared.home import HOME

IMPORTS = re.compile(r"\s*(unfoldable )?(pub )?use ")
ANSWERS = {"Answers.antt", "Invariants.antt", "Proof.antt"}
# The signs of a statement that claims something.
CLAIMS = {"≡", "≢", "<", "≤", "⊎", "×", "↔", "⊥", "→"}
# The declarations that nothing names, or that appear twice, each with the reason.
ALLOWED = {
    "Rattle.lw_base.specs.Types.TokenList": "a row of tokens and a table of names are lists of texts, and are not meant for one another",
    "Rattle.lw_tso.specs.Runs.InitialWords": "where a run begins is of the shape of an outcome, and is none",
    "Rattle.lw_arena.specs.Ownership.node_val": "a node is a struct of one pointer, of each of which the walks say the same",
    "Rattle.lw_orders.proofs.api.UnorderedPairs.not-Contains-nil": "lw_orders depends only on std, which does not have it",
}


def is_proof(file: File) -> bool:
    """Returns whether a file is one of proofs."""
    return "/proofs/" in os.path.relpath(file.path, HOME)


def is_answer(declaration: Declaration) -> bool:
    """Returns whether a declaration answers a goal."""
    return declaration.is_public and os.path.basename(declaration.file.path) in ANSWERS and not declaration.scope


# Declarations that nothing names.


def list_name_candidates(word: str) -> set[str]:
    """Returns a word, and the parts of it before each dot: a field's name follows that of its record, and a name that of its module."""
    parts = word.split(".")
    return {word, *(".".join(parts[:many]) for many in range(1, len(parts)))}


class UsedNames:
    """The names that are used, and their places."""

    def __init__(self, files: Files) -> None:
        """Gathers all names that files use of others."""
        self.files = files
        self.abroad: set[tuple[str, str]] = set()  # the modules and names that are used in other files
        for file in files.all:
            self.record_imports(file)
        self.code = list_code_names()

    def record_imports(self, file: File) -> None:
        """Records what a file uses of others: each name that it imports, except those that it only exports again, and what it names by a path."""
        bodies = [it for it in file.sentences if not IMPORTS.match(it.text)]
        words = {part for it in bodies for word in parse_words(it) for part in list_name_candidates(word)}
        for name, (module, name_there) in file.imports.items():
            if name not in file.reexports or name in words:
                self.abroad.add(self.files.find_origin(module, name_there))
        for word in words:
            module, _, name = self.files.find_meaning(file, word).rpartition(".")
            if module and module != file.module:
                self.abroad.add((module, name))

    def is_named(self, declaration: Declaration) -> bool:
        """Returns whether something names a declaration."""
        file, name = declaration.file, declaration.name
        if declaration.owner is None:
            if (file.module, name) in self.abroad or (file.module, name) in self.code:
                return True
            around = file.sentences
        else:
            around = list_sentences(declaration)
        own_ids = {id(it) for it in (declaration.head, *declaration.parts)}
        return any(is_in(name, it) for it in around if id(it) not in own_ids)


def is_in(name: str, sentence: Sentence) -> bool:
    """Returns whether a sentence names a name, or a field of it."""
    return any(it == name or it.startswith(f"{name}.") for it in parse_words(sentence))


def list_sentences(declaration: Declaration) -> list[Sentence]:
    """Returns the sentence that contains a declaration, and all that it contains."""
    sentences, owner = declaration.file.sentences, declaration.owner
    assert owner is not None  # only declarations inside a `where` are checked
    contained = [owner]
    for sentence in sentences[sentences.index(owner) + 1 :]:
        if sentence.indent <= owner.indent:
            break
        contained.append(sentence)
    return contained


def list_code_names() -> set[tuple[str, str]]:
    """Returns the names of proofs in .rt files, as a module and a name."""
    code_names: set[tuple[str, str]] = set()
    for crate in sorted(os.listdir(f"{HOME}/crates")):
        for folder, _, names in os.walk(f"{HOME}/crates/{crate}/src"):
            for name in names:
                with open(f"{folder}/{name}", encoding="utf-8") as file:
                    code_names.update(find_code_names(crate, file.read()))
    return code_names


def find_code_names(crate: str, text: str) -> Iterator[tuple[str, str]]:
    """Yields the names of proofs in the text of a crate's file: in attributes, and in `ghost use` items."""
    for home, path in re.findall(r"\b(\w+)::proofs::([\w:'-]+)", text):
        yield split_path(crate if home == "crate" else home, path.replace("::", "."))
    for home, path, group in re.findall(r"Rattle\.(\w+)\.proofs\.([\w.'-]+?)(?:\.\{([^}]*)\})?[;\s,)]", text):
        for name in group.split(",") if group else [""]:
            yield split_path(home, f"{path}.{name.split(' as ')[0].strip()}".rstrip("."))


def split_path(crate: str, path: str) -> tuple[str, str]:
    """Returns a module of a crate's proofs, and a name in it, by the path of both."""
    module, _, name = path.rpartition(".")
    return f"Rattle.{crate}.proofs" + (f".{module}" if module else ""), name


def list_unnamed(files: Files) -> Iterator[Declaration]:
    """Yields the declarations that nothing names."""
    names_in_use = UsedNames(files)
    for file in filter(is_proof, files.all):
        for declaration in file.declarations:
            if not is_answer(declaration) and not names_in_use.is_named(declaration):
                yield declaration


# Declarations that appear twice.


class Statement:
    """The statement of a declaration as words, in which bound variables have numbers, and other names their meaning: so equal ones say the same."""

    def __init__(self, files: Files, file: File) -> None:
        """Starts a statement of a file."""
        self.files, self.file = files, file
        self.bound: dict[str, str] = {}  # for each bound variable its number
        self.words: list[str] = []

    def bind_names(self, names: Iterable[str]) -> None:
        """Gives bound variables their numbers."""
        for name in names:
            self.bound[name] = f"?{len(self.bound)}"

    def add_word(self, word: str) -> None:
        """Adds a word, by its number or its meaning."""
        first, dot, rest = word.partition(".")
        if first in self.bound:
            word = self.bound[first] + dot + rest
        else:
            word = self.files.find_meaning(self.file, word)
        self.words.append(word)

    def add(self, nodes: list[Node]) -> None:
        """Adds words and groups, in their order: binders one by one, without arrows after them."""
        for index, node in enumerate(nodes):
            if isinstance(node, Group):
                self.add_group(node)
            elif node == "λ":
                end = find_index(nodes[index:], ".")
                self.bind_names(it for it in nodes[index + 1 : index + (end or 0)] if not isinstance(it, Group))
                self.words.append(node)
            elif not (node == "→" and self.words[-1:] == ["end of a binder"]):
                self.add_word(node)

    def add_group(self, group: Group) -> None:
        """Adds a group: its binders one by one, or its content in brackets."""
        colon = find_index(group.inner, ":") or 0
        names = group.inner[:colon]
        if names and not any(isinstance(it, Group) for it in names) and group.opening in "({" and names[0] not in ("let", "λ"):
            for name in names:
                self.words.append("binder")
                self.add(group.inner[colon + 1 :])
                self.bind_names([str(name)])
                self.words.append("end of a binder")
            return
        self.words.append(group.opening)
        self.add(group.inner)
        self.words.append(")" + group.suffix)


def list_parameters(declaration: Declaration) -> list[Group]:
    """Returns the binders of the modules around a declaration."""
    binders = []
    for head in declaration.scope:
        binders += [it for it in group_tokens(parse_words(head)) if isinstance(it, Group)]
    return binders


def list_binder_names(group: Group) -> list[str]:
    """Returns the names that a group binds."""
    colon = find_index(group.inner, ":")
    return [it for it in group.inner[:colon] if not isinstance(it, Group)] if colon else []


def list_names(nodes: list[Node]) -> Iterator[str]:
    """Yields the words of nodes, up to their first dot."""
    for node in nodes:
        if isinstance(node, Group):
            yield from list_names(node.inner)
        else:
            yield node.split(".")[0]


def list_module_binders(declaration: Declaration, nodes: list[Node]) -> list[Group]:
    """Returns the binders of modules on which a statement depends: those whose names it has, and premises about these."""
    groups = list_parameters(declaration)
    names_bound = set(list_names(nodes))
    count = None
    while count != len(names_bound):
        count = len(names_bound)
        for group in groups:
            kind = set(list_names(group.inner[require_index(group.inner, "a binder", ":") + 1 :])) if list_binder_names(group) else set()
            bound = {name for it in groups for name in list_binder_names(it)}
            if names_bound & (set(list_binder_names(group)) | kind & bound):
                names_bound |= set(list_binder_names(group)) | kind
    return [it for it in groups if names_bound & set(list_binder_names(it))]


def is_definition(declaration: Declaration) -> bool:
    """Returns whether a declaration says what something is, and not that something holds."""
    first = [it for it in parse_words(declaration.head)[:3] if it not in MARKS][0]
    return declaration.is_definition or first in ("record", "data") or not is_proof(declaration.file) and "/laws/" not in os.path.relpath(declaration.file.path, HOME)


def make_statement(files: Files, declaration: Declaration) -> tuple[str, ...]:
    """Returns the statement of a declaration, as words."""
    nodes = group_tokens(parse_words(declaration.head))
    if is_definition(declaration):
        for part in declaration.parts:
            nodes += [";", *group_tokens(parse_words(part))]
    else:
        nodes = nodes[require_index(nodes, "a signature", ":") + 1 :]
    statement = Statement(files, declaration.file)
    statement.bind_names([declaration.name] if is_definition(declaration) else [])
    statement.add([*list_module_binders(declaration, nodes), *nodes])
    if is_definition(declaration):
        bind_patterns(declaration, statement)
    return tuple(statement.words)


def bind_patterns(declaration: Declaration, statement: Statement) -> None:
    """Numbers the variables of a definition's clauses."""
    pattern_names = {name for part in declaration.parts for name in list_names(list_patterns(part))}
    free = [it for it in statement.words if it in pattern_names and "." not in it]
    numbers = {it: f"?{len(statement.bound) + index}" for index, it in enumerate(dict.fromkeys(free))}
    statement.words = [numbers.get(it.split(".")[0], it.split(".")[0]) + it[len(it.split(".")[0]) :] for it in statement.words]


def list_patterns(part: Sentence) -> list[Node]:
    """Returns the patterns of a clause: what is between its name and its sign of equality."""
    nodes = group_tokens(parse_words(part))
    equals = find_index(nodes, "=")
    return nodes[1:equals] if equals else []


def is_compared(declaration: Declaration) -> bool:
    """Returns whether a declaration may not appear twice: it is not a module's own abbreviation, a number, or without a premise and a
    claim.
    """
    if declaration.owner is not None or is_answer(declaration):
        return False
    if is_definition(declaration):
        is_number = re.search(r"= [0-9_]+$", " ".join(it.text for it in declaration.parts))
        return not is_number and not (declaration.scope and not declaration.is_public)
    return bool(CLAIMS & set(parse_words(declaration.head)))


def group_duplicates(files: Files) -> list[list[Declaration]]:
    """Returns the declarations that say the same, in groups."""
    groups = defaultdict(list)
    for file in files.all:
        for declaration in filter(is_compared, file.declarations):
            groups[make_statement(files, declaration)].append(declaration)
    return [it for it in groups.values() if len(it) > 1]


# Comments.


def list_uncommented(files: Files) -> Iterator[Declaration]:
    """Yields the `pub` lemmas of proofs/api/ without a comment above them."""
    for file in files.all:
        if "/proofs/api/" in file.path:
            lines = file.text.split("\n")
            for declaration in file.declarations:
                if declaration.is_public and declaration.owner is None and not lines[declaration.number - 2].lstrip().startswith("--"):
                    yield declaration


def format_full_name(declaration: Declaration) -> str:
    """Returns the name of a declaration with its module."""
    return f"{declaration.file.module}.{declaration.name}"


def find_faults(files: Files) -> Iterator[str]:
    """Yields a line for each fault."""
    for declaration in list_unnamed(files):
        if format_full_name(declaration) not in ALLOWED:
            yield f"{declaration.place}: nothing names {declaration.name}"
    for first, *others in group_duplicates(files):
        for declaration in others:
            if format_full_name(declaration) not in ALLOWED:
                yield f"{declaration.place}: {declaration.name} says what {first.name} says, {first.place}"
    for declaration in list_uncommented(files):
        yield f"{declaration.place}: no comment says what {declaration.name} is for"


def make_comparisons() -> Iterator[Comparison]:
    """Yields all comparisons, for tools/check_documents.py."""
    files = Files()
    yield "there are lemmas to look at", True, sum(len(it.declarations) for it in files.all) > 5000
    yield "lemmas that nothing names, that are there twice, or that have no comment (tools/gate/check_lemmas.py)", [], list(find_faults(files))


def main() -> int:
    """Runs the command that the arguments describe. Returns the exit status."""
    files = Files()
    faults = list(find_faults(files))
    for line in faults:
        print(line)
    print(f"{sum(len(it.declarations) for it in files.all) - len(faults)} passed, {len(faults)} failed")
    return 1 if faults else 0


if __name__ == "__main__":
    sys.exit(command.run_command(main, __doc__))
