"""Finds from where a proof can import a name that it uses and that it neither brings in, declares nor binds. For common_names.py.

A name is looked for, in the crate of the proof and in those that it depends on, in

- what the crate's own `proofs/Common.antt` passes on already: this comes first, whatever else has the name;
- what `specs/` declares, and `proofs/`, of lower crates only `proofs/api/`; a file that itself imports the proof is left out;
- what their proofs import of std, of the kit's libraries, and of what is generated from the code; and std's Common;
- if none of these has it, what `rt lemma` finds by that name.

One place is an answer. With none, or with several, the name is reported and nothing is imported. How names are read: shared/antt_free.py.
"""
from __future__ import annotations

import os
import re
import subprocess
from collections import defaultdict
from collections.abc import Iterator
from typing import Any

from shared.antt_free import list_free_names, split_head
from shared.antt_names import MARKS, File, Files, parse_words
from shared.home import HOME, read_crates as lines_of_crates

USE = re.compile(r"use ([\w.+'-]+)\.\{([^}]*)\}$")
FOUND = re.compile(r"^use ([\w.+'-]+)\.\{([^}]*)\}", re.M)


def split_names(group: str) -> list[str]:
    """Returns the names in the braces of an import."""
    return [it.strip() for it in group.split(",")]


def list_offered_names(file: File) -> set[str]:
    """Returns the names of a file that others can import: public names, and the constructors of its types."""
    offered_names = set()
    for declaration in file.declarations:
        if declaration.owner is None and not declaration.scope:
            if declaration.is_public:
                offered_names.add(declaration.name)
            if "data" in parse_words(declaration.head)[:3]:
                offered_names.update(word for part in declaration.parts for word in split_head(parse_words(part))[0] if word not in MARKS)
    return offered_names


def list_search_words(name: str) -> list[str]:
    """Returns the words by which a name is used: itself, or the signs of an operator."""
    return [it for it in name.split("◌") if it]


class Missing:
    """The names that proofs lack, and where they are defined; `reports` has, for each name that was missing, whether it has one origin, and the line
    on it.
    """

    def __init__(self, crates: Any, std: str, in_std: set[str]) -> None:
        """Finds where each name is defined. `crates` is a `Crates` of common_names.py, `std` the module of std's Common, and `in_std` are the names
        that this exports.
        """
        self.crates, self.std = crates, std
        self.reports: list[tuple[bool, str]] = []  # for each missing name whether it has one origin, and a line
        self.files = Files()
        self.by_path = {it.path: it for it in self.files.all}
        self.below: dict[str, set[str]] = {}
        for crate, (_, names) in lines_of_crates().items():
            self.below[crate] = {crate}.union(*(self.below[it] for it in names if it in self.below))
        self.places: dict[str, set[tuple[str, str, str]]] = defaultdict(set)  # for each word names, each with a crate and a module
        for file in self.files.all:
            for name in list_offered_names(file):
                self.add(name, file.crate, file.module)
            for short, (module, name) in file.imports.items():
                module, name = self.files.find_origin(module, name)
                if module not in self.files.by_module and short == name:
                    self.add(name, file.crate, std if module.startswith("Rattle.std.") and name in in_std else module)
        self.passed_by_std = {key: name for name in in_std for key in list_search_words(name)}

    def add(self, name: str, crate: str, module: str) -> None:
        """Records a module that has a name."""
        for key in list_search_words(name):
            self.places[key].add((name, crate, module))

    def is_open_to(self, file: File, crate: str, module: str) -> bool:
        """Returns whether a proof may use a module that a crate has or imports."""
        imported = self.files.by_module.get(module)
        if crate not in self.below[file.crate] or imported is file:
            return False
        if imported is None or "/specs/" in imported.path:
            return True
        is_near = imported.crate == file.crate or "/proofs/api/" in imported.path
        return is_near and not self.imports_file(imported, file)

    def imports_file(self, upper: File, lower: File) -> bool:
        """Returns whether a file imports another, directly or not."""
        seen: set[str] = set()
        queue = [upper]
        while queue:
            file = queue.pop()
            if file is lower:
                return True
            for module in {*file.modules.values(), *(module for module, _ in file.imports.values())} - seen:
                seen.add(module)
                queue += [self.files.by_module[module]] if module in self.files.by_module else []
        return False

    def find_modules(self, file: File, word: str) -> set[tuple[str, str]]:
        """Returns the modules that define a word, each with the name that it has there."""
        passed = {key: name for name in self.crates.exported[file.crate] for key in list_search_words(name)}
        if word in passed:
            return {(f"Rattle.{file.crate}.proofs.Common", passed[word])}
        modules = {(module, name) for name, crate, module in self.places[word] if self.is_open_to(file, crate, module)}
        if word in self.passed_by_std:
            modules.add((self.std, self.passed_by_std[word]))
        return modules or self.find_by_rt(file.crate, word)

    @staticmethod
    def find_by_rt(crate: str, word: str) -> set[tuple[str, str]]:
        """Returns the modules in which `rt lemma` finds a word, each with the name there."""
        printed = subprocess.run(["rt", "lemma", word], cwd=f"{HOME}/crates/{crate}", capture_output=True, text=True, check=False).stdout
        return {(module, name) for module, group in FOUND.findall(printed) for name in split_names(group) if word in list_search_words(name)}

    def module_has(self, module: str, name: str) -> bool:
        """Returns whether a module has a name; nothing is known of modules outside of the repository."""
        file = self.files.by_module.get(module)
        name = name.split(" as ")[0]
        return file is None or "." in name or name in file.own_names or name in file.imports or name in list_offered_names(file)

    def remove_false_imports(self, file: File) -> Iterator[str]:
        """Yields the lines of a file, without imports of names that their module lacks; removes these from `file.imports`."""
        for line in file.text.split("\n"):
            use = USE.match(line)
            lacking = [it for it in split_names(use[2]) if it and not self.module_has(use[1], it)] if use else []
            if not use or not lacking:
                yield line
                continue
            for name in lacking:
                file.imports.pop(name.split(" as ")[-1], None)
            names = [it for it in split_names(use[2]) if it not in lacking]
            if names:
                yield f"use {use[1]}.{{{', '.join(names)}}}"

    def complete_imports(self, path: str) -> str:
        """Returns a proof's text with missing imports added, and without those of names that their module lacks. Adds to `reports`, for each missing
        name, from where it is imported, or that it has no unique origin.
        """
        file = self.by_path[path]
        lines, added = list(self.remove_false_imports(file)), []
        for word in list_free_names(file):
            modules = sorted(self.find_modules(file, word))
            module_names = ", ".join(module for module, _ in modules)
            several = f"is in several modules: {module_names}" if modules else "is nowhere"
            says = f"is imported from {module_names}" if len(modules) == 1 else several
            self.reports.append((len(modules) == 1, f"{os.path.relpath(path, HOME)}: {word} {says}"))
            added += ["use {}.{{{}}}".format(*it) for it in modules if len(modules) == 1]
        first = next((index for index, line in enumerate(lines) if USE.match(line)), None)
        if first is None:
            first = next((index for index, line in enumerate(lines) if not line.startswith("--")), len(lines))
        return "\n".join([*lines[:first], *dict.fromkeys(added), *lines[first:]])
