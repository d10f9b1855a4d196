"""Gathers what the proofs of each crate name: of std, of lower crates, and of the crate's own definitions.

    python3 tools documents.common_names [--write]

A crate's `proofs/Common.antt` passes these names on, and its other proofs import them from there, in lines of at most 110 columns;
lower crates' definitions come by the lower crate's own Common. What is generated from the code (`specs.declared`, `specs.contracts`)
is not passed on from one crate to another, so each Common imports it from its own place. A proof also imports directly a crate's own lemmas, a
name that two modules share, one that is renamed (`as`), and one that a proof unfolds.

What a proof uses and imports nowhere is looked for first, and imported (missing_names.py): for each such name a line says from where. If
a name is nowhere, or in several modules, the line says so, and the exit status is 1: import it by hand.

Without --write it says what would change.
"""
from __future__ import annotations

import os
import re
import subprocess
import sys
from collections import Counter
from collections.abc import Iterator

from documents.missing_names import USE, Missing, split_names
from shared import command, start
from shared.home import HOME

WIDTH = 110
HEAD = "-- What proofs cite of std, of lower crates and of this crate's definitions, passed on from one place. Declares nothing.\n"
STD = "Rattle.std.proofs.Common"
PASSES = re.compile(r"^pub use ([\w.+'-]+)\.\{([^}]*)\}", re.M)
# Crates whose proofs import each name from its own place: they share few names.
WITHOUT = ("lw", "lw_test_reader", "lw_tso_caches", "lw_source", "lw_outcome_map", "lw_arena", "lw_library")


def read_text(path: str) -> str:
    """Returns the text of a file; an empty text if there is none."""
    if not os.path.exists(path):
        return ""
    with open(path, encoding="utf-8") as file:
        return file.read()


class Crates:
    """The crates, lowest first, what each one's Common exports now, and the texts of proofs, with missing imports added."""

    def __init__(self) -> None:
        """Reads the names that each Common exports."""
        self.completed: dict[str, str] = {}  # for each proof its text with the imports that it lacked
        text = re.sub(r"#.*", "", read_text(f"{HOME}/crates.txt"))
        self.order = re.findall(r"^(\w+)[^:\n]*:", text, re.M)
        self.exported = {it: self.read_exported_names(self.make_module_path(it)) for it in self.order}

    @staticmethod
    def make_module_path(crate: str) -> str:
        """Returns the path of a crate's Common."""
        return f"{HOME}/crates/{crate}/proofs/Common.antt"

    @staticmethod
    def read_exported_names(path: str) -> dict[str, str]:
        """Returns the names that a Common exports again, each with its module."""
        return {name: module for module, group in PASSES.findall(read_text(path)) for name in split_names(group)}

    def has_common(self, crate: str | None) -> bool:
        """Returns whether a crate has a Common."""
        return crate is not None and crate in self.order and crate not in WITHOUT and not crate.endswith("_tests")

    def find_origin(self, module: str, name: str) -> str:
        """Returns the module that defines a name, whatever exports it again."""
        while True:
            common = re.match(r"Rattle\.(\w+)\.proofs\.Common$", module)
            if not common or name not in self.exported.get(common[1], {}):
                return module
            module = self.exported[common[1]][name]

    def list_proofs(self, crate: str) -> Iterator[str]:
        """Yields the proofs of a crate, except its Common."""
        for folder, _, names in sorted(os.walk(f"{HOME}/crates/{crate}/proofs")):
            for name in sorted(names):
                if name.endswith(".antt") and f"{folder}/{name}" != self.make_module_path(crate):
                    yield f"{folder}/{name}"

    def read_proof(self, path: str) -> str:
        """Returns the text of a proof, with the imports that it lacked."""
        return self.completed.get(path, read_text(path))

    def add_missing_imports(self, missing: Missing) -> tuple[bool, list[str]]:
        """Adds the imports that each proof lacks. Returns whether each name has one origin, and a line for each that was missing."""
        self.completed = {path: missing.complete_imports(path) for crate in self.order for path in self.list_proofs(crate)}
        return all(is_found for is_found, _ in missing.reports), [line for _, line in missing.reports]


def find_unfolded_names(text: str) -> set[str]:
    """Returns the names that a proof unfolds: their definitions are opaque, except where `unfolding NAME` precedes."""
    return {word for line in re.findall(r"^\s*unfolding (.*)$", text, re.M) for word in line.split()}


def find_defining_crate(module: str) -> str | None:
    """Returns the crate in whose definitions a module is, whether or not it has a Common. `None` for proofs, for what the toolchain generates, and
    for std.
    """
    match = re.match(r"Rattle\.(\w+)\.specs\b", module)
    return match[1] if match and ".declared." not in module and ".contracts." not in module else None


def pack_names(head: str, names: list[str]) -> list[str]:
    """Returns lines `HEAD.{NAME, ..}` that have all names, as many in each as fit into WIDTH columns."""
    lines: list[str] = []
    line: list[str] = []
    for name in names:
        if line and len(f"{head}.{{{', '.join([*line, name])}}}") > WIDTH:
            lines.append(f"{head}.{{{', '.join(line)}}}")
            line = []
        line.append(name)
    return [*lines, f"{head}.{{{', '.join(line)}}}"] if line else lines


class Names:
    """Which names the Common of each crate exports, each with its module (`exported`)."""

    def __init__(self, crates: Crates, in_std: set[str]) -> None:
        """Finds what each crate's proofs import, and takes for each name the module that most of them import it from. The crates come from the
        highest down: what a Common takes from a lower one, that one must export. `in_std` has the names of std's Common.
        """
        self.crates, self.in_std = crates, in_std
        imports = {it: self.count_imports(it) for it in crates.order}
        # For each crate the names that its Common exports, each with its module.
        self.exported: dict[str, dict[str, str]] = {}
        for crate in reversed(crates.order):
            best: dict[str, str] = {}
            for module, name in sorted(imports[crate], key=lambda it: (-imports[crate][it], it)):
                best.setdefault(name, module)
            self.exported[crate] = best
            for name, module in best.items():
                below = find_defining_crate(module)
                if below != crate and crates.has_common(below):
                    imports[below].setdefault((module, name), 1)

    def find_module(self, module: str, name: str) -> str:
        """Returns the module that declares a name, or std's Common if that exports it."""
        module = self.crates.find_origin(module, name)
        return STD if module.startswith("Rattle.std.") and name in self.in_std else module

    def list_imports(self, text: str) -> Iterator[tuple[str, str]]:
        """Yields the imports of a proof, each a module and a name."""
        for line in text.split("\n"):
            use = USE.match(line)
            if use:
                yield from ((use[1], name) for name in split_names(use[2]))

    def count_imports(self, crate: str) -> dict[tuple[str, str], int]:
        """Counts how many proofs of a crate import each name, by module and name; only names that its Common would export."""
        counts: dict[tuple[str, str], int] = Counter()
        for path in self.crates.list_proofs(crate) if self.crates.has_common(crate) else ():
            text = self.crates.read_proof(path)
            unfolded = find_unfolded_names(text)
            for module, name in self.list_imports(text):
                module = self.find_module(module, name)
                is_own = module.startswith(f"Rattle.{crate}.proofs")
                if " as " not in name and name not in unfolded and not is_own:
                    counts[module, name] += 1
        return counts

    def make_common(self, crate: str) -> str:
        """Returns the text of a crate's Common."""
        by_module: dict[str, list[str]] = {}
        for name, module in self.exported[crate].items():
            below = find_defining_crate(module)
            if below != crate and below in self.exported and self.exported[below].get(name) == module:
                module = f"Rattle.{below}.proofs.Common"
            by_module.setdefault(module, []).append(name)
        order = self.crates.order

        def sort_key(module: str) -> tuple[bool, int, str]:
            """Returns the key of the order of imports: std first, then lower crates, then higher ones."""
            match = re.match(r"Rattle\.(\w+)", module)
            return (module != STD, order.index(match[1]) if match and match[1] in order else -1, module)

        lines = [it for module in sorted(by_module, key=sort_key) for it in pack_names(f"pub use {module}", sorted(by_module[module]))]
        return HEAD + "\n".join(lines) + "\n"

    def rewrite_proof(self, crate: str, text: str) -> str:
        """Returns a proof's text in which the imports are replaced: what its crate's Common exports comes from there."""
        unfolded = find_unfolded_names(text)
        common: list[str] = []
        others: dict[str, list[str]] = {}
        for module, name in self.list_imports(text):
            if name not in unfolded:
                module = self.find_module(module, name.split(" as ")[0])
            if " as " not in name and name not in unfolded and self.exported[crate].get(name) == module:
                common.append(name)
            else:
                others.setdefault(module, []).append(name)
        new = pack_names(f"use Rattle.{crate}.proofs.Common", list(dict.fromkeys(common)))
        for module, names in others.items():
            new += pack_names(f"use {module}", list(dict.fromkeys(names)))
        lines = text.split("\n")
        first = next((index for index, line in enumerate(lines) if USE.match(line)), len(lines))
        return "\n".join([*lines[:first], *new, *(it for it in lines[first:] if not USE.match(it))])


def list_wanted_texts(crates: Crates, names: Names) -> Iterator[tuple[str, str]]:
    """Yields, for each file of proofs, its path and the text that it should have."""
    for crate in crates.order:
        if not names.exported[crate]:
            yield from ((path, crates.read_proof(path)) for path in crates.list_proofs(crate))
            continue
        yield crates.make_module_path(crate), names.make_common(crate)
        library = f"{HOME}/crates/{crate}/proofs/Lib.antt"
        if "mod Common\n" not in read_text(library):
            yield library, "pub mod Common\n" + read_text(library)
        for path in crates.list_proofs(crate):
            if path != library:
                yield path, names.rewrite_proof(crate, crates.read_proof(path))


def main() -> int:
    """Runs the command that the arguments describe. Returns the exit status."""
    reader = command.Reader(__doc__)
    reader.add_argument("--write", action="store_true")
    is_writing = reader.read().write
    doc = subprocess.run(["rt", "doc"], stdout=subprocess.PIPE, text=True, check=True).stdout.strip()
    kit = os.path.dirname(doc)
    in_std = set(Crates.read_exported_names(f"{kit}/rattle/std/proofs/Common.antt"))
    crates = Crates()
    is_complete, lacking = crates.add_missing_imports(Missing(crates, STD, in_std))
    changed = [(path, text) for path, text in list_wanted_texts(crates, Names(crates, in_std)) if read_text(path) != text]
    for path, text in changed:
        print(os.path.relpath(path, HOME))
        if is_writing:
            os.makedirs(os.path.dirname(path), exist_ok=True)
            with open(path, "w", encoding="utf-8") as file:
                file.write(text)
    for line in lacking:
        print(line)
    print(f"{len(changed)} files {'written' if is_writing else 'would change'}")
    return 0 if is_complete else 1


if __name__ == "__main__":
    sys.exit(start.run(main))
