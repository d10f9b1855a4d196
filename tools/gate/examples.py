"""Has helpers of the checks of tools: the files of the repository, its examples, and the output of a command of tools/."""
from __future__ import annotations

import glob
import os
import subprocess
import sys

from shared.home import HOME

TOOLS = os.path.join(HOME, "tools")


def read(path: str) -> str:
    """Returns the text of a file of the repository."""
    with open(os.path.join(HOME, path), encoding="utf-8") as file:
        return file.read()


def examples() -> list[tuple[str, str]]:
    """Returns the names and the texts of all examples."""
    paths = sorted(glob.glob(f"{HOME}/examples/*.litmus"))
    return [(os.path.basename(path)[: -len(".litmus")], read(path)) for path in paths]


def run(arguments: list[str], text: str = "") -> tuple[str, str, int]:
    """Runs a command of tools/. Returns its output on both streams, and its exit status."""
    ran = subprocess.run([sys.executable, os.path.join(TOOLS, arguments[0]), *arguments[1:]], input=text.encode(), capture_output=True, cwd=HOME)
    return ran.stdout.decode(), ran.stderr.decode(), ran.returncode
