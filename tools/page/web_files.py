"""The files that the web page is made of: a fixed table, read when the server starts.

They are those of web/, and two that are made from the repository's own: the examples by family (examples/INDEX.md, with each test's comment),
and what docs/FORMAT.md says of each fault, limit and refusal. The workbench as a WebAssembly module is a further file. It is empty if the
module is not built from the present sources; then the page asks the server.
"""
from __future__ import annotations

import itertools
import json
import os
import re
from typing import Dict, Tuple, TypedDict

import build_wasm
from shared.home import HOME
from shared.matches import require_match

KINDS = {
    ".html": "text/html; charset=utf-8",
    ".css": "text/css; charset=utf-8",
    ".js": "text/javascript; charset=utf-8",
    ".svg": "image/svg+xml",
}
JSON = "application/json"
# Where tools/build_wasm.py puts the modules: with a memory of 64 bits, and one that more browsers take.
MODULES = [f"{HOME}/crates/lw_library/out/{name}" for name in ("lw.wasm", "lw32.wasm")]
# For each path the type of its file, and its bytes.
Files = Dict[str, Tuple[str, bytes]]
KNOWN = re.compile(r"Interleaving: [^.]*\. x86-TSO: .*", re.S)


def read_file(name: str) -> str:
    """Returns the text of a file of the repository."""
    with open(f"{HOME}/{name}", encoding="utf-8") as file:
        return file.read()


class Example(TypedDict):
    """An example: what its comment says of it, and separately what is known of its answer; its text, without the comment."""

    name: str
    shows: str
    also: str
    about: str
    known: str
    text: str


class Family(TypedDict):
    """The examples of a section of examples/INDEX.md, and what the section says of them."""

    name: str
    about: str
    tests: list[Example]


def read_all_files() -> Files:
    """Returns the type of each path's file, and its bytes."""
    files = {}
    for name in sorted(os.listdir(f"{HOME}/web")):
        path, ending = f"{HOME}/web/{name}", os.path.splitext(name)[1]
        if ending in KINDS and os.path.isfile(path) and not os.path.islink(path):
            files[f"/{name}"] = (KINDS[ending], read_file(f"web/{name}").encode())
    files["/"] = files["/index.html"]
    files["/examples.json"] = (JSON, json.dumps(list_families()).encode())
    files["/sentences.json"] = (JSON, json.dumps(list_sentences()).encode())
    files["/lw.wasm"] = ("application/wasm", read_module())
    return files


def read_module() -> bytes:
    """Returns the bytes of the module with a memory of 64 bits; none if there is none of the present sources."""
    return (read_modules() or [b""])[0]


def read_modules() -> list[bytes]:
    """Returns the bytes of the modules that are of the present sources, that with a memory of 64 bits first; none if that is missing. If
    there are no sources, they are those of the package.
    """
    if os.path.exists(f"{HOME}/crates.txt") and read_or_none("crates/lw_library/out/modules-of") != build_wasm.hash_sources() + "\n":
        return []
    modules = []
    for path in itertools.takewhile(os.path.exists, MODULES):
        with open(path, "rb") as file:
            modules.append(file.read())
    return modules


def read_or_none(name: str) -> str | None:
    """Returns the text of a file of the repository, or `None` if it can't be read."""
    try:
        return read_file(name)
    except OSError:
        return None


def list_families() -> list[Family]:
    """Returns the examples by family, as examples/INDEX.md has them."""
    families: list[Family] = []
    for part in read_file("examples/INDEX.md").split("\n## ")[1:]:
        rows = re.findall(r"^\| (?!Test )(\S+) \| (.*?) \| (.*?) ?\| (.*?) ?\| [^|]* \| [^|]* \|$", part, re.M)
        if rows:
            about = " ".join(part.partition("\n| ")[0].split("\n")[1:]).strip()
            tests = [make_example(name, shows, also) for name, shows, also, _ in rows]
            families.append({"name": part.splitlines()[0], "about": about, "tests": tests})
    return families


def make_example(name: str, shows: str, also: str) -> Example:
    """Returns an example. `shows` and `also` are cells of its row in examples/INDEX.md."""
    text = read_file(f"examples/{name}.litmus")
    heading, comment, rest = require_match(re.fullmatch(r"(\S+ \S+\n)\(\*(.*?)\*\)\n(.*)", text, re.S)).groups()
    comment = " ".join(comment.split())
    known = require_match(KNOWN.search(comment))[0]
    about = comment[: -len(known)].strip()
    return {"name": name, "shows": shows, "also": also, "about": about, "known": known, "text": heading + rest}


def list_sentences() -> dict[str, str]:
    """Returns what docs/FORMAT.md says of each fault, each limit and each event that is refused: by keys of its kind and its code, such as `cell 3` or
    `end 5`.
    """
    sentences_by_code, kind = {}, None
    for line in read_file("docs/FORMAT.md").splitlines():
        heading = re.match(r"\*\*(Text|Cell|Schedule) faults|\*\*(Limit)s|### (How a replay ends)", line)
        kind = next(it for it in heading.groups() if it).lower() if heading else kind
        row = re.match(r"\| (\d+) \| (\w+) \| (.*?) \| ", line)
        if row and kind:
            sentences_by_code[f"{'end' if kind.startswith('how') else kind} {row[1]}"] = row[3]
    return sentences_by_code
