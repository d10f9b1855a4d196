"""Tests that tools/replay_state.py and web/replays.js take the same pages, and read the same from them.

    python3 tools gate.test_replay_state, or in tools/ python3 -m unittest gate.test_replay_state

The pages are those of replays of examples by tools/plain.py, which both take, and the same with a line left out, doubled, exchanged or
changed, which both refuse. node runs web/replays.js, if it is there. The program is not needed. tools/check_documents.py calls all
this (tools/gate/cases.py).
"""
from __future__ import annotations

import json
import os
import shutil
import subprocess
import sys
import tempfile
import unittest
from collections.abc import Iterator
from pathlib import Path

import plain
import replay_state
from gate import cases
from gate.examples import examples, read
from shared.home import HOME

SCHEDULES = ("", "P0", "P0 P0 P1 D0", "P0 P0 P0 P0 P1 P1 P1 D0 D1", "P0 D0 E0:x P1")
X86 = "P0 P0 P1 P1 D0"
# Changes of a page that no replay has, each of a part of the page of SB or of SB-x86 by the schedule above.
CHANGES = (
    ("Test SB", "Test"),
    ("Test SB", "Test S B"),
    ("Test SB", "Test S\u00e9"),
    ("Steps 4", "Steps four"),
    ("Steps 4", "Steps 04"),
    ("Steps 4", "Steps +4"),
    ("Steps 4", "Steps \u0664"),
    ("Steps 4", "Steps 9999999999999999"),
    ("End NotFinal", "End Soon"),
    ("End NotFinal", "End Stopped at 1 by 4"),
    ("P0 at", "P1 at"),
    ("P1 at", "P7 at"),
    ("P0 at 2", "P0 at -2"),
    ("EBX=0", "ebx=0"),
    ("EBX=0 ", ""),
    ("EBX=0 ECX=0", "ECX=0 EBX=0"),
    ("EBX=0", "EBX=4294967296"),
    ("EBX=0", "EBX=0x0"),
    ("EBX=0", "EBX=00"),
    ("EBX=0", "EBX=1_0"),
    ("EBX=0", "EBX="),
    ("EBX=0", "EBX"),
    ("r1=0", "r1=4294967296"),
    ("r1=0", "r1=0=0"),
    ("r1=0 ", "r1=0  "),
    ("P1 buffer y=1", "P1 buffer z=1"),
    ("P1 buffer", "P0 buffer"),
    ("P1 lines x=", "P1 lines y="),
    ("Memory x=0", "Memory z=0"),
    ("Content x=", "Content z="),
    ("Content x=1 ", "Content "),
    ("Memory ", "memory "),
)
BY_NODE = """
import { parseReplayState, NoReplay } from %s;
import { readFileSync } from "node:fs";
const stateOf = (text) => {
  try {
    return parseReplayState(text);
  } catch (why) {
    if (why instanceof NoReplay) return null;
    throw why;
  }
};
process.stdout.write(JSON.stringify(JSON.parse(readFileSync(0, "utf-8")).map(stateOf)));
"""


def list_pages() -> Iterator[str]:
    """Yields the pages of replays: of all examples by some schedules."""
    for _, text in examples():
        test = plain.read_test(text)
        for schedule in SCHEDULES:
            try:
                yield plain.replay(test, schedule)[0]
            except plain.NoSchedule:
                pass  # The example has no location x.


def make_two_pages() -> list[str]:
    """Returns a page of a source test, and one of an x86 test."""
    return [plain.replay(plain.read_test(read(f"examples/{name}.litmus")), X86)[0] for name in ("SB", "SB-x86")]


def list_wrong_pages() -> Iterator[str]:
    """Yields pages that no replay prints."""
    for page in make_two_pages():
        lines = page.splitlines(keepends=True)
        for index, line in enumerate(lines):
            if not (line.startswith("P1 at") and "r0" in line):  # A test of one thread has such a page.
                yield "".join(lines[:index] + lines[index + 1 :])
            yield "".join(lines[:index] + [line, line] + lines[index + 1 :])
            swapped = lines[:index] + lines[index + 1 : index + 2] + [line] + lines[index + 2 :]
            yield "".join(swapped) if index + 1 < len(lines) else page + "\n"
            yield "".join(lines[:index])
            yield "".join(lines[:index] + [" " + line] + lines[index + 1 :])
            yield "".join(lines[:index] + [line[:-1] + " \n"] + lines[index + 1 :])
            yield "".join(lines[:index] + [line[:-1] + "\u2028"] + lines[index + 1 :])
        yield page[:-1]
        yield page.rstrip("\n") + " "
        yield page + "Content x=1 y=1"
        yield page.replace("\n", "\r")
        yield from (page.replace(old, new, 1) for old, new in CHANGES if old in page)
    source, x86 = (it.splitlines(keepends=True) for it in make_two_pages())
    yield "".join(source[:4] + x86[6:9] + source[5:])
    yield from ("", "\n", "\r\n", "Test SB\n")


def parse_in_python(page: str) -> object:
    """Returns the state of a page by tools/replay_state.py, as JSON has it; `None` if it refuses the page."""
    try:
        return json.loads(json.dumps(replay_state.parse_replay_state(page)))
    except replay_state.NoReplay:
        return None


def parse_in_node(texts: list[str]) -> list[object]:
    """Returns the states of pages by web/replays.js."""
    with tempfile.TemporaryDirectory(prefix="lw-") as folder:
        # Node takes a file for a module by its name, or by its folder.
        module = os.path.join(folder, "replays.mjs")
        shutil.copy(os.path.join(HOME, "web", "replays.js"), module)
        words = ["node", "--input-type=module", "--eval", BY_NODE % json.dumps(Path(module).as_uri())]
        ran = subprocess.run(words, input=json.dumps(texts).encode(), stdout=subprocess.PIPE, check=True)
    return json.loads(ran.stdout)


class Pages(cases.Case):
    """Pages of replays."""

    def test_all_changes(self) -> None:
        """Each change is one of a page here."""
        for old, _ in CHANGES:
            with self.subTest(old):
                self.assertTrue(any(old in page for page in make_two_pages()))

    def test_taken(self) -> None:
        """tools/replay_state.py takes what a replay prints, with line ends of either kind."""
        for page in list_pages():
            state = parse_in_python(page)
            with self.subTest(page):
                self.assertTrue(state)
                self.assertEqual(state, parse_in_python(page.replace("\n", "\r\n")))

    def test_refused(self) -> None:
        """tools/replay_state.py refuses texts that no replay prints."""
        for page in list_wrong_pages():
            with self.subTest(page):
                self.assertEqual(None, parse_in_python(page))

    @unittest.skipUnless(shutil.which("node"), "node is missing")
    def test_same(self) -> None:
        """web/replays.js reads the same from all these pages, and refuses the same."""
        texts = [*list_pages(), *(it.replace("\n", "\r\n") for it in list_pages()), *list_wrong_pages()]
        for page, state in zip(texts, parse_in_node(texts)):
            with self.subTest(page):
                self.assertEqual(parse_in_python(page), state)

    def test_content(self) -> None:
        """A page of an x86 test without its last line is refused where that line should be."""
        page = make_two_pages()[1]
        head = page[: page.index("Content")]
        for text, message in ((head, "the text ends, and a replay prints more"), (page[:-1], "the last line has no end")):
            with self.subTest(message):
                with self.assertRaises(replay_state.NoReplay) as raised:
                    replay_state.parse_replay_state(text)
                self.assertEqual((message, len(head)), raised.exception.args)


if __name__ == "__main__":
    sys.exit(cases.main())
