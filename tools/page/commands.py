"""Finds what the commands in the documents of a made site do on the page: the test that a command reads, and its question about the test.

If commands make a text (with sed, printf and the like), they run when the site is made; tools/plain.py stands in for the program, and
prints the same. Commands that do more than make the text of a test are not run. If the text is no test, the page shows its fault: a command that asks
lw about it shows that on purpose, and another has no view.
"""
from __future__ import annotations

import functools
import os
import re
import shlex
import subprocess
import sys
from collections.abc import Iterator
from typing import NamedTuple

from interpreter.reading import read_test
from interpreter.tests import NoTest
from shared.home import HOME

NAME = re.compile(r"[\w.+-]+")
EXAMPLE = re.compile(r"(?:\.\./)?examples/([\w.+-]+)\.litmus")
# How a command begins that makes the text of a test.
MAKES_TEXT = re.compile(r"(?:sed|printf|cat|echo|\((?:echo|printf)|\./lw compile|python3 tools/cycles\.py)\b")
ASKS = re.compile(r"\./(?:lw|beyond)\b|python3 tools/(?:fences|graph)\.py\b")
# A command for each of some words.
EACH = re.compile(r"for (\w+) in ((?:\"[^\"]*\"|[\w.+-]+)(?: (?:\"[^\"]*\"|[\w.+-]+))*); do (.*); done")
FILE = re.compile(r"[\w./+-]+\.litmus")
REPLAY = re.compile(r'\breplay "([^"]*)"(?: --protocol (\w+))?')
RUN_OF_GRAPH = re.compile(r'\btools/graph\.py --text "([^"]*)"')
SECONDS = 60
FAULT = "see this fault"


class View(NamedTuple):
    """A link to the page: its words, and the fields of the page's address."""

    words: str
    fields: dict[str, str]


def is_example(name: str) -> bool:
    """Returns whether the page has an example of this name."""
    return bool(NAME.fullmatch(name)) and os.path.exists(f"{HOME}/examples/{name}.litmus")


def list_views(command: str) -> Iterator[View]:
    """Yields the views of the page that show what a command does with tests."""
    loop = EACH.fullmatch(command)
    if not loop:
        yield from list_pipeline_views(command)
        return
    name, words, body = loop.groups()
    for word in shlex.split(words):
        for view in list_pipeline_views(body.replace(f"${name}", word)):
            yield view._replace(words=f"{view.words}: {word}") if word not in view.words else view


def list_pipeline_views(command: str) -> Iterator[View]:
    """Yields the views of a pipeline: those of the last command in it that asks about a test."""
    stages = split_pipeline(command)
    index = max((index for index, it in enumerate(stages) if ASKS.match(it)), default=len(stages) - 1)
    title, fields = parse_command(stages[index])
    asks = bool(ASKS.match(stages[index]))
    text = run_pipeline(" | ".join(stages[:index])) if index and all(map(MAKES_TEXT.match, stages[:index])) else None
    if text is not None:
        yield from list_text_views(title.format("this test"), {"text": text, **fields}, asks)
        return
    for path in dict.fromkeys(FILE.findall(" ".join(stages[: index + 1]))):
        match = EXAMPLE.fullmatch(path)
        if match and is_example(match[1]):
            yield View(title.format(match[1]), {"example": match[1], **fields})
        elif os.path.isfile(f"{HOME}/{path}"):
            yield from list_text_views(title.format(os.path.basename(path)[: -len(".litmus")]), {"text": read_file(path), **fields}, asks)


def list_text_views(words: str, fields: dict[str, str], asks_lw: bool) -> Iterator[View]:
    """Yields the view of a text that is a test; of another text its fault, if the command asks lw about it."""
    if is_read(fields["text"]):
        yield View(words, fields)
    elif asks_lw:
        yield View(FAULT, fields)


@functools.lru_cache(maxsize=None)
def is_read(text: str) -> bool:
    """Returns whether a text is a test."""
    try:
        read_test(text)
        return True
    except NoTest:
        return False


def parse_command(command: str) -> tuple[str, dict[str, str]]:
    """Returns what a command does with a test, in words with a gap for the test, and the fields of the page's address that do the same."""
    if match := REPLAY.search(command) or RUN_OF_GRAPH.search(command):
        protocol = match[2] if match.re is REPLAY else None
        return "run {} so", {"view": "hand", "schedule": match[1], **({"protocol": protocol} if protocol else {})}
    if re.match(r"\./lw compile\b", command):
        return "compile {}", {"view": "compile"}
    if "tools/fences.py" in command:
        return "fences of {}", {"view": "fences"}
    return ("why not in {}", {"view": "why"}) if "--why-not" in command else ("open {}", {})


def split_pipeline(command: str) -> list[str]:
    """Returns the commands of a pipeline: what is between bars outside of quotes and parentheses."""
    stages, depth, quote = [""], 0, ""
    for letter in command:
        if quote:
            quote = "" if letter == quote else quote
        elif letter in "'\"":
            quote = letter
        elif letter in "()":
            depth += 1 if letter == "(" else -1
        elif letter == "|" and not depth:
            stages.append("")
            continue
        stages[-1] += letter
    return [it.strip() for it in stages]


@functools.lru_cache(maxsize=None)
def run_pipeline(pipeline: str) -> str | None:
    """Returns the text of a test that a pipeline makes, or None if it fails here or makes no text."""
    plain, python = (shlex.quote(it) for it in (f"{HOME}/tools/plain.py", sys.executable))
    stages = [re.sub(r"^\./lw\b", f"{python} {plain}", re.sub(r"^python3\b", python, it)) for it in split_pipeline(pipeline)]
    try:
        ran = subprocess.run(["sh", "-c", " | ".join(stages)], cwd=HOME, capture_output=True, timeout=SECONDS, check=True)
        return ran.stdout.decode() or None
    except (OSError, subprocess.SubprocessError, UnicodeDecodeError):
        return None


def read_file(path: str) -> str:
    """Returns the text of a file of the repository."""
    with open(f"{HOME}/{path}", encoding="utf-8") as file:
        return file.read()
