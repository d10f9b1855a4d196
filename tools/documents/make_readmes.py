"""Writes the list of files into the README.md of each crate: each file with the first sentence of its head comment.

    python3 tools documents.make_readmes

What precedes the list is written by hand: the crate's job, its place in the proof, its main types and calls, its main definitions, and its
main lemmas. The list has the sources, the definitions and the proofs, without those of one function, which are in the folders that are
named for it. After it come the commands with which one works on the crate. tools/check_documents.py checks that each crate has a README.md
with the present list, and that a file declares each name that links to it. The last line is 'N passed, M failed'.
"""
from __future__ import annotations

import os
import re
import sys
from collections.abc import Iterator

from shared import command
from shared.home import HOME, close_check, read_crates

BEGIN, END = "<!-- The files, made by tools/documents/make_readmes.py -->\n", "<!-- The end of the list -->\n"
# The folders of a crate, with the suffix of their files, and what they have.
FOLDERS = (("src", ".rt", "Code"), ("specs", ".antt", "Definitions"), ("proofs", ".antt", "Proofs"))
# Files that only export names again.
PASSING_ON = ("Lib.antt", "Common.antt", "lib.rt")
# A link from a name to a file of the crate.
NAME_LINK = re.compile(r"\[`([\w'+-]+)`\]\(([^)\s]+)\)")


def read_first_sentence(path: str) -> str:
    """Returns the first sentence of a file's head comment."""
    words = []
    with open(path, encoding="utf-8") as file:
        for line in file:
            comment = re.match(r"(//!|--)\s?(.*)", line)
            if not comment or not comment[2]:
                break
            words.append(comment[2].strip())
    text = " ".join(words)
    return re.split(r"(?<=[.:])\s+(?=[A-Z0-9`])", text)[0].rstrip(".:")


def list_files(crate: str, folder: str, suffix: str) -> Iterator[tuple[str, str]]:
    """Yields the files of a crate's folder, each with its first sentence. Of proofs, those of one function are left out."""
    top = f"{HOME}/crates/{crate}/{folder}"
    for path, folders, names in os.walk(top):
        folders.sort()
        inside = os.path.relpath(path, top)
        if folder == "proofs" and inside not in (".", "api"):
            continue
        for name in sorted(names):
            if name.endswith(suffix) and name not in PASSING_ON:
                yield os.path.normpath(os.path.join(inside, name)), read_first_sentence(f"{path}/{name}")


def list_test_crates(crate: str) -> list[str]:
    """Returns the crates of tests that depend on a crate."""
    return [name for name, below in read_dependencies() if name.endswith("_tests") and crate in below]


def read_dependencies() -> list[tuple[str, list[str]]]:
    """Returns the crates of crates.txt, each with those on which it depends."""
    return [(name, used) for name, (_, used) in read_crates().items()]


def make_list(crate: str) -> str:
    """Returns the list of a crate's files and of the commands that check it, as its README.md should have it."""
    lines = [BEGIN]
    for folder, suffix, title in FOLDERS:
        rows = [*list_files(crate, folder, suffix)]
        if rows:
            lines.append(f"\n| {title}: `{folder}/` | |\n|---|---|\n")
            lines += [f"| {name} | {says.replace('|', chr(92) + '|')} |\n" for name, says in rows]
    commands = [f"`python3 tools/check_up.py {crate}` proves the crate and all above it"]
    if os.path.isdir(f"{HOME}/crates/{crate}/must-fail"):
        commands.append("`rt must-fail` in its folder tries its wrong bodies")
    tests = list_test_crates(crate)
    if tests:
        commands.append("its tests are in " + ", ".join(tests))
    lines.append("\nTo work on it: " + "; ".join(commands) + ". docs/CONTRIBUTING.md has the recipes.\n")
    return "".join(lines) + END


def read_readme(crate: str) -> str:
    """Returns the text of a crate's README.md, or an empty text if there is none."""
    path = f"{HOME}/crates/{crate}/README.md"
    if not os.path.exists(path):
        return ""
    with open(path, encoding="utf-8") as file:
        return file.read()


def replace_list(text: str, file_list: str) -> str:
    """Returns a text with its list replaced, or with the list appended if it has none."""
    before, _, rest = text.partition(BEGIN)
    after = rest.partition(END)[2]
    return before.rstrip("\n") + "\n\n" + file_list + after


def declares(text: str, name: str) -> bool:
    """Returns whether a file's text declares a name, outside of comments."""
    code = "\n".join(line for line in text.split("\n") if not line.lstrip().startswith("--"))
    return re.search(rf"(?:^|\s)(?:fn |struct |enum |trait |record |data |abbrev |pub |unfoldable )*{re.escape(name)}(?=\s*[:(]|\s)", code) is not None


def find_link_faults(crate: str, text: str) -> Iterator[str]:
    """Yields the names of a README.md whose file does not declare them."""
    for name, path in NAME_LINK.findall(text):
        path_in_crate = f"{HOME}/crates/{crate}/{path}"
        if not os.path.exists(path_in_crate):
            yield f"{crate}/README.md links to {path}"
            continue
        with open(path_in_crate, encoding="utf-8") as file:
            if not declares(file.read(), name):
                yield f"{crate}/README.md links {name} to {path}, which does not declare it"


def make_comparisons() -> Iterator[tuple[str, object, object]]:
    """Yields the comparisons of tools/check_documents.py: the name, the expected value, and the value that was found."""
    for crate, _ in read_dependencies():
        text = read_readme(crate)
        yield f"the list of files in crates/{crate}/README.md", True, text == replace_list(text, make_list(crate)) and text != ""
        yield f"the links of names in crates/{crate}/README.md", [], [*find_link_faults(crate, text)]


def main() -> int:
    """Writes all lists. Returns the exit status."""
    for crate, _ in read_dependencies():
        path = f"{HOME}/crates/{crate}/README.md"
        text = read_readme(crate) or f"# {crate}\n"
        with open(path, "w", encoding="utf-8") as file:
            file.write(replace_list(text, make_list(crate)))
    return close_check(make_comparisons())


if __name__ == "__main__":
    sys.exit(command.run_command(main, __doc__))
