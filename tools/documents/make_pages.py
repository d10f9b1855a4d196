"""Writes the page NAME.page of each test of examples/ and examples/beyond/, only by tools/plain.py: `./lw` and `./beyond` have no part in it.

    python3 tools documents.make_pages

A page has the test's report (for a test past the limits of lists, that of `./beyond`), the replay of the schedule in its comment, the
replays of FURTHER below, and for a source test its compiled program.
"""
from __future__ import annotations

import glob
import os
import re
import sys

from shared import command
from shared.home import HOME
import plain
from shared.matches import require_match

# The folder of tests that only `./beyond` lists.
PAST_LIMITS = "beyond/"
# Further replays of a test: a schedule, and the protocol unless it is the default.
FURTHER = {
    "Dekker": [("P0 P1 P0 P0 P1 P1", "")],
    "Dekker+mfences-x86": [("P0 P0", "")],
    "HazardPointer": [("P0 P0 P1 P1 P1 P1 P0 P0 P0", "")],
    "HazardPointer+fences-x86": [("P0 P0 P0 P0 P0", "")],
    "Peterson+xchg-x86": [("P0 P0", "")],
    "PingPong-x86": [("P0 P0 P1 P1 E1:x", "")],
    "Sharing-x86": [("P1 P2 P0 P0 D0 P1 P2", "moesi")],
    "SpinLock-x86": [("P0 P0 P0 P0 P0 P0 P0 P0 P0 P0 P0 P0 P1 P1 P1 D0 D0", "")],
    "TicketLock+cmp-x86": [("P0 P1 P1 P1 P1 P0 P0 P0 P0 P0 P0 P0 P0 P0 D0 D0", "")],
    "WorkStealing": [("P0 P1 P0 P0 P1 P1", "")],
    "WorkStealing+mfence-x86": [("P1 P1", "")],
    "WriteBack-x86": [("P0 P0 D0", "")],
    "Z6.0": [("P0 P0 P1 P2 P1 P2", "")],
}
FIXED_WORDS = re.compile(
    r"Interleaving: (?P<interleaving>[a-z ]+)\. x86-TSO: (?P<x86>[a-z ]+)\. "
    r"(?:A telling schedule: (?P<telling>[^.()]*)|A run: (?P<run>[^.()]*)\. (?P<shown_by>\S+) shows the outcome) \*\)"
)


def match_fixed_words(text: str) -> re.Match[str]:
    """Returns the match of FIXED_WORDS in a test's comment."""
    return require_match(FIXED_WORDS.search(" ".join(text.split())))


def list_page_commands(name: str, text: str) -> list[list[str]]:
    """Returns the commands of a test's page, each a list of words."""
    words = match_fixed_words(text)
    replays = [["replay", words["telling"] or words["run"]]]
    for further, protocol in FURTHER.get(name, []):
        replays.append(["replay", further] + (["--protocol", protocol] if protocol else []))
    return [["states"], *replays] + ([["compile"]] if text.startswith("SRC") else [])


def make_page(name: str, text: str) -> str:
    """Returns the page of a test, which is named by its path in examples/."""
    page = ""
    for words in list_page_commands(name, text):
        program = "beyond" if name.startswith(PAST_LIMITS) and words == ["states"] else "lw"
        shown = " ".join(f'"{word}"' if index == 1 else word for index, word in enumerate(words))
        printed, status = plain.answer_command(words, text)
        page += f"$ ./{program} {shown} < examples/{name}.litmus\n{printed}" + (f"[status {status}]\n" if status else "")
    return page


def list_test_names() -> list[str]:
    """Returns the names of all tests: their paths in examples/, without the suffix."""
    paths = glob.glob(f"{HOME}/examples/*.litmus") + glob.glob(f"{HOME}/examples/{PAST_LIMITS}*.litmus")
    return sorted(os.path.relpath(it, f"{HOME}/examples")[: -len(".litmus")] for it in paths)


def main() -> None:
    """Runs the command that the arguments describe."""
    for name in list_test_names():
        path = f"{HOME}/examples/{name}"
        with open(f"{path}.litmus", encoding="utf-8") as test, open(f"{path}.page", "w", encoding="utf-8") as page:
            page.write(make_page(name, test.read()))


if __name__ == "__main__":
    sys.exit(command.run_command(main, __doc__))
