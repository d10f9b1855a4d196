"""Tests that the types of tools/ agree, by mypy (Debian's package), as pyproject.toml configures it.

    python3 tools gate.test_types, or in tools/ python3 -m unittest gate.test_types

Without mypy the test is skipped, and a line says so. tools/check_documents.py calls this (tools/gate/cases.py).
"""
from __future__ import annotations

import os
import shutil
import subprocess
import sys
import tempfile
import unittest

from gate import cases
from shared.home import HOME

# (The python3 of a user may hide that of the system, for which the package is.)
MYPY = shutil.which("mypy", path=f"/usr/bin{os.pathsep}{os.environ.get('PATH', '')}")
WRONG = "from shared.matches import require_match\n\n\ndef read_name(text: str) -> int:\n    return require_match(None)[0]\n"


def describe_skipped() -> str | None:
    """Returns the line that says what was left out, or None if nothing was."""
    return None if MYPY else "the types of tools/: skipped, since mypy is missing"


def run_mypy(*arguments: str) -> tuple[int, str]:
    """Runs mypy. Returns its exit status, and what it prints."""
    ran = subprocess.run([str(MYPY), "--no-error-summary", *arguments], cwd=HOME, capture_output=True, text=True, check=False)
    return ran.returncode, ran.stdout


@unittest.skipUnless(MYPY, "mypy is missing")
class Types(cases.Case):
    """The types of tools/."""

    def test_tools(self) -> None:
        """All annotations agree with the code."""
        status, printed = run_mypy()
        self.assertEqual("", "\n".join(it for it in printed.splitlines() if ": error: " in it))
        self.assertEqual(0, status, printed)

    def test_wrong(self) -> None:
        """A function that returns another type than it says is found, by what it imports of tools/ too."""
        with tempfile.TemporaryDirectory(prefix="lw-types-") as folder:
            with open(f"{folder}/wrong.py", "w", encoding="utf-8") as file:
                file.write(WRONG)
            status, printed = run_mypy(f"{folder}/wrong.py")
        self.assertEqual(1, status, printed)
        self.assertIn("Incompatible return value type", printed)


if __name__ == "__main__":
    sys.exit(cases.main(describe_skipped))
