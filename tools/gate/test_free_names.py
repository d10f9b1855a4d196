"""Tests which names tools/shared/antt_free.py finds missing in a proof, and where tools/documents/missing_names.py finds them.

    python3 tools gate.test_free_names, or in tools/ python3 -m unittest gate.test_free_names

tools/check_documents.py calls this (tools/gate/cases.py).
"""
from __future__ import annotations

import os
import sys
import tempfile
from collections.abc import Sequence
from types import SimpleNamespace
from typing import Any
from unittest import mock

from documents.missing_names import Missing
from gate import cases
from shared.antt_free import list_free_names
from shared.antt_names import File

# Texts of proofs, each with its free names.
BOUND = (
    ("parameters of a signature", "f : (x y : A) {B : A} → P x y B\nf x y = g x", ["A", "P", "g"]),
    ("what λ and let bind", "f : A\nf = λ x (y : B). let z : C = x in h x y z", ["A", "B", "C", "h"]),
    ("what a λ takes apart", "f : A\nf = λ (x, y). h x y", ["A", "h"]),
    ("variables of a pattern", "f : A\nf (x ∷ xs) n = h x xs n", ["A", "∷", "h"]),
    ("variables of a case", "f : A\nf = elim e [ inl x ↦ h x | inr y ↦ k y ]", ["A", "e", "inl", "h", "inr", "k"]),
    ("fields of a record that is made", "f : A\nf = record { left = a; right = b }", ["A", "a", "b"]),
    ("what a record and its fields are called", "record R (x : A) : Type 0 where\n  pub left : B x\n\nf : R\nf = r.left", ["A", "B", "r"]),
    ("parameters of a module", "module _ (x : A) where\n  f : B x\n  f = x", ["A", "B"]),
    ("the lines under a lemma", "f : A\nf = g\n  where\n    g : B\n    g = h", ["A", "B", "h"]),
)
NO_VARIABLES = (
    ("a constructor with arguments", "f : A\nf (con x) = x", ["A", "con"]),
    ("a constructor that is written large", "f : A\nf Fence = B", ["A", "Fence", "B"]),
    ("zero, true and false", "f : A\nf zero true false = zero", ["A", "zero", "true", "false"]),
)
BROUGHT_IN = (
    ("names", "use M.{A, g}\n\nf : A\nf = g h", ["h"]),
    ("an operator by its signs", "use M.{◌++◌, A}\n\nf : A\nf = a ++ b ∷ c", ["a", "b", "∷", "c"]),
    ("a module by its last name, or by another", "use M.Goals\nuse M.N as n\n\nf : Goals.f\nf = n.g o.h", ["o"]),
)


def write_proof(folder: str, text: str) -> File:
    """Returns a file of proofs with this text."""
    path = os.path.join(folder, "Trial.antt")
    with open(path, "w", encoding="utf-8") as file:
        file.write(f"-- A trial.\n{text}\n")
    return File(path)


class FreeNames(cases.Case):
    """Names that a proof uses, and neither brings in, declares nor binds."""

    def compare(self, rows: Sequence[tuple[str, str, list[str]]]) -> None:
        """Compares the free names of texts with those that rows name."""
        for subject, text, names in rows:
            with self.subTest(subject), tempfile.TemporaryDirectory(prefix="lw-names-") as folder:
                self.assertEqual(names, list_free_names(write_proof(folder, text)))

    def test_bound(self) -> None:
        """A name that a lemma binds is not free in it."""
        self.compare(BOUND)

    def test_no_variables(self) -> None:
        """A constructor in a pattern is no variable."""
        self.compare(NO_VARIABLES)

    def test_brought_in(self) -> None:
        """A name that a file imports is not free in it."""
        self.compare(BROUGHT_IN)

    def test_built_in(self) -> None:
        """The language's own words, numbers and texts are no names."""
        self.compare([("words", 'f : (x : A) × ⊥ → Type 0\nf x = rw (← e) (omega (arith, 12, "a ++ b"))', ["A", "e", "arith"])])


class Places(cases.Case):
    """The places of the names that a proof lacks."""

    missing: Missing

    @classmethod
    def setUpClass(cls) -> None:
        # (No Common exports anything.)
        """Prepares the search for names in two crates without Commons."""
        cls.missing = Missing(SimpleNamespace(exported=dict.fromkeys(("lw_memory", "lw_tso"), {})), "STD", {"◌∷◌"})

    def setUp(self) -> None:
        """Makes `rt lemma` find nothing."""
        patch: Any = mock.patch.object(Missing, "find_by_rt", staticmethod(lambda crate, word: set()))
        self.addCleanup(patch.stop)
        patch.start()

    def find_modules(self, crate: str, word: str) -> list[str]:
        """Returns the modules in which a file of a crate finds a word."""
        file = next(it for it in self.missing.files.all if it.crate == crate and "/proofs/" in it.path)
        return sorted(module for module, _ in self.missing.find_modules(file, word))

    def test_definition(self) -> None:
        """A definition of a lower crate is found in its place."""
        self.assertEqual(["Rattle.lw_litmus.specs.WellFormed"], self.find_modules("lw_tso", "IsWellFormedOperation"))

    def test_generated(self) -> None:
        """A type of the code is found where proofs import it from."""
        self.assertEqual(["Rattle.lw_litmus.specs.declared.operation.Operation"], self.find_modules("lw_tso", "Operation"))

    def test_std(self) -> None:
        """A sign that std's Common passes on is found by the operator's name."""
        self.assertEqual(["STD"], self.find_modules("lw_tso", "∷"))

    def test_upper_crate(self) -> None:
        """A definition of a crate that is not below is not found."""
        self.assertFalse("Rattle.lw_litmus.specs.WellFormed" in self.find_modules("lw_memory", "IsWellFormedOperation"))

    def test_reported(self) -> None:
        """The report says what is imported, from where, and what is nowhere."""
        with tempfile.TemporaryDirectory(prefix="lw-names-") as folder:
            file = write_proof(folder, "f : IsWellFormedOperation\nf = nowhere_at_all")
            file.crate = "lw_tso"
            self.missing.by_path[file.path] = file
            self.missing.reports.clear()
            text = self.missing.complete_imports(file.path)
        self.assertEqual("-- A trial.\nuse Rattle.lw_litmus.specs.WellFormed.{IsWellFormedOperation}\nf : IsWellFormedOperation\nf = nowhere_at_all\n", text)
        found_lines = [(is_found, line.split(": ", 1)[1]) for is_found, line in self.missing.reports]
        first = (True, "IsWellFormedOperation is imported from Rattle.lw_litmus.specs.WellFormed")
        self.assertEqual([first, (False, "nowhere_at_all is nowhere")], found_lines)


if __name__ == "__main__":
    sys.exit(cases.main())
