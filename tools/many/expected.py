"""Expected verdicts: a table of which each line has a name and a word, as files of kinds have it that herd's tools read.

A name is that of a test, or the path of a file or its end. `#` begins a comment. A word is what the verdict has to be (Ok, No, None, Refused), or
what the observation has to be: of Allowed, that the proposition is true in some state; of Forbidden in none; of Required in all.
"""
from __future__ import annotations

import os
from typing import Dict, Tuple

from many import rows
from many.statuses import NoTable

VERDICTS = (rows.AS_ASKED, "No", rows.NO_VERDICT, rows.REFUSED)
# For each word the observations that it allows.
OBSERVATIONS: Dict[str, Tuple[str, ...]] = {
    **{it: (it,) for it in ("Never", "Sometimes", "Always")},
    **{it: ("Sometimes", "Always") for it in ("Allowed", "Allow")},
    **{it: ("Never",) for it in ("Forbidden", "Forbid")},
    **{it: ("Always",) for it in ("Required", "Require")},
}
WORDS = (*VERDICTS, *OBSERVATIONS)


def read_expectations(name: str) -> dict[str, str]:
    """Reads a table. Returns, for each name, its word. Raises NoTable if a line is none of a table, or contradicts another."""
    expectations: Dict[str, str] = {}
    with open(name, encoding="utf-8", errors="replace") as file:
        for number, line in enumerate(file, 1):
            test, _, word = line.partition("#")[0].strip().rpartition(" ")
            test, position = test.strip(), f"{name}:{number}"
            if not test and not word:
                continue
            if not test or word not in WORDS:
                raise NoTable(f"{position}: a line has a name and one of {', '.join(WORDS)}")
            if expectations.setdefault(test, word) != word:
                raise NoTable(f"{position}: '{test}' is expected to be {expectations[test]} before")
    return expectations


def is_met(row: rows.Row, word: str) -> bool:
    """Returns whether a row has the verdict or the observation that a word says."""
    return row.verdict == word if word in VERDICTS else (row.observation or "").split(" ")[0] in OBSERVATIONS[word]


def find_name(row: rows.Row, table: dict[str, str]) -> str | None:
    """Returns the name in a table that means a row: the longest end of its path, or the test's name. None if there is none."""
    path = os.path.normpath(row.file).replace(os.sep, "/")
    paths = [it for it in table if f"/{path}".endswith(f"/{os.path.normpath(it)}".replace(os.sep, "/"))]
    return max(paths, key=len) if paths else row.name if row.name in table else None


class Expected:
    """The expected verdicts of rows: those of a table, if there is one, and Ok for all others, if that is expected."""

    def __init__(self, name: str | None, is_ok_expected: bool, is_shard: bool = False) -> None:
        """Reads the table at a path, if one is named. Raises NoTable if it is none."""
        self.name, self.others, self.is_shard = name, rows.AS_ASKED if is_ok_expected else None, is_shard
        self.table = read_expectations(name) if name else {}
        self.met_names: set[str] = set()

    def find_word(self, row: rows.Row) -> str | None:
        """Returns the expected word for a row. `None` if nothing is expected of it."""
        name = find_name(row, self.table)
        if name is None:
            return self.others
        self.met_names.add(name)
        return self.table[name]

    def list_unmet(self, table: list[rows.Row]) -> list[tuple[rows.Row, str]]:
        """Returns the rows that are not as expected, each with the word. A file that has no answer is not reported twice, unless the table names it."""
        expected_words = [(row, self.find_word(row)) for row in table]
        unmet = [(row, word) for row, word in expected_words if word and not is_met(row, word)]
        return [(row, word) for row, word in unmet if row.verdict not in (rows.REFUSED, rows.NO_VERDICT) or find_name(row, self.table)]

    def is_expected(self, row: rows.Row) -> bool:
        """Returns whether the table expects that a row has no answer, and it has none."""
        return self.find_word(row) == row.verdict

    def list_missing(self) -> list[str]:
        """Returns the names of the table that mean no row, of those that were asked for. A shard has a part of the files, so there none is missing."""
        return [] if self.is_shard else [it for it in self.table if it not in self.met_names]
