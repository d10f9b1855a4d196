"""Tests what tools/gate/check_wings.py finds in lines of crates.txt that break a rule.

    python3 tools gate.test_wings, or in tools/ python3 -m unittest gate.test_wings

tools/check_documents.py calls this (tools/gate/cases.py).
"""
from __future__ import annotations

import sys

from gate import cases, check_wings

BROKEN = (
    ("lw", "lw_search", "lw -> lw_search: the program does without the search"),
    ("lw_bench", "lw_beyond", "lw -> lw_bench -> lw_beyond: the program does without the search"),
    ("lw_search", "lw_text", "lw_search -> lw_text: meaning depends on reading"),
)


class Lines(cases.Case):
    """The lines of crates.txt, as they are and with one crate more."""

    def test_as_it_is(self) -> None:
        """The repository breaks no rule."""
        self.assertEqual([], check_wings.find_faults())

    def test_broken(self) -> None:
        """A crate that depends on one that it may not name is reported, with the way to it."""
        for crate, line, fault in BROKEN:
            lines = check_wings.read_dependencies()
            with self.subTest(crate, more=line):
                self.assertIn(fault, check_wings.find_faults({**lines, crate: [*lines[crate], line]}))

    def test_unplaced(self) -> None:
        """A crate of no wing is reported."""
        lines: dict[str, list[str]] = {**check_wings.read_dependencies(), "lw_more": []}
        self.assertEqual(["lw_more is in no wing of tools/gate/check_wings.py"], check_wings.find_faults(lines))


if __name__ == "__main__":
    sys.exit(cases.main())
