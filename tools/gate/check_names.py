"""Checks that what the documents name exists: each crate, file, call, clause and definition that docs/THEOREMS.md, BELIEVE.md, AXIOMS.md,
DECISIONS.md, MAP.md, WEB.md, PROOF.md, TRUSTED.md and CONTRIBUTING.md have in backticks. tools/check_documents.py calls it.

    python3 tools gate.check_names

- `lw_x`, and a path: a crate, and a file or folder of it, with its ending or without; a path that begins with a crate or a folder of the
  repository is there as a whole; another one is of some crate.
- `lw_x::name`, `Type::name`: a function, type, field or variant of the crate, or of a crate that has the type.
- A single word: a name of the crates, tools or pages. In the column of contracts of THEOREMS.md it is a function, a clause, a field or
  a definition.
- A relation such as `IsReport`, alone or with arguments, is in the code or the definitions of some crate; docs/PROOF.md may name those of proofs.

What is no name (a command, a text, a number) is not checked, except the paths in a command; nor is what a build makes (in a folder out/). And:

- The files that README.md and all pages of docs/ link to, and the paths of files that are in them without backticks, exist.
- A link from a name in backticks to a file of a crate, as docs/PROOF.md has for lemmas: the file declares the name.
- A path below a crate, such as `specs/Limits.antt`: the crate named last before it in its paragraph, item or row has it; if none is named, some
  crate. `specs/laws/Cases.written` means a declaration of that file.
- docs/MAP.md has a row for each crate of crates.txt and for no other, with the crates that its line there names.
- README.md names the logic that `rt version` prints, if there is an `rt`.
- docs/TRUSTED.md says what the verdict of the built program says, if there is one (tools/gate/check_trusted.py).

The last line is 'N passed, M failed'.
"""
from __future__ import annotations

import glob
import os
import re
import subprocess
import sys
from collections.abc import Callable, Iterator

from gate import check_trusted, check_wings
from shared import command
from shared.home import HOME

DOCUMENTS = "THEOREMS", "BELIEVE", "AXIOMS", "DECISIONS", "MAP", "WEB", "PROOF", "TRUSTED", "CONTRIBUTING"
ENDINGS = "", ".antt", ".rt", ".py", ".md", ".txt", ".litmus"
WORD = re.compile(r"[^\W\d][\w'-]*")
PATH = re.compile(r"^(?:[\w.+-]+/)+[\w.*+-]*$")
QUALIFIED = re.compile(r"^(?:(lw_\w+)::)?(\w+(?:::\w+)*)$")
# Placeholders for names.
PLACEHOLDER = re.compile(r"\b(NAME|CRATE|NN|FILE|WORD|KIT)")
# A link from a name to a file of a crate.
LINKED_NAME = re.compile(r"\[`([\w'+-]+)`\]\(\.\./(crates/[^)\s]+)\)")
# A path below a crate, in backticks, with the crate before it or after it; or a crate.
BELOW_CRATE = re.compile(r"`(?:(lw_\w+)/)?((?:src|specs|proofs|must-fail)/[\w.+/-]*)`(?: of (lw_\w+))?|\b(lw_\w+)")
# The start of a paragraph, of an item of a list or of a row of a table.
BLOCK = re.compile(r"\n\s*\n|\n(?=\s*(?:-|\d+\.) |\|)")
# A relation in a text in backticks, and the page that may name those of proofs.
RELATION = re.compile(r"(?<![\w.-])(?:Is|Has|Are|Fails|Reaches)[A-Z]\w*")
ON_PROOFS = "PROOF"
# A function of the toolchain's crates; check_trusted compares those of docs/TRUSTED.md.
OF_KIT = re.compile(r"(libc|os)::[\w:]+")
# Words of the language, of std and of the format, which no file of the repository declares.
COMMON = {"where", "impl", "Vec", "String", "Option", "Err", "Ok", "Some", "None", "malloc", "rt", "fn", "dyn", "data", "module", "record"}


def list_files(*patterns: str) -> list[str]:
    """Returns the files of some patterns, without what is built, and without Python's."""
    paths = [it for pattern in patterns for it in glob.glob(f"{HOME}/{pattern}", recursive=True)]
    return [it for it in paths if os.path.isfile(it) and "/out/" not in it and "/__pycache__/" not in it]


def read_file(path: str) -> str:
    """Returns the text of a file."""
    with open(path, encoding="utf-8") as file:
        return file.read()


class Names:
    """The names of the repository: of each crate's code, and all words of code, definitions, proofs, tools and pages."""

    def __init__(self) -> None:
        """Reads all files that declare names."""
        self.crates = sorted(os.path.basename(os.path.dirname(it)) for it in glob.glob(f"{HOME}/crates/*/src"))
        self.code = {it: [read_file(path) for path in list_files(f"crates/{it}/src/**/*.rt")] for it in self.crates}
        specs = "\n".join(map(read_file, list_files("crates/*/specs/**/*.antt")))
        code = "\n".join(text for texts in self.code.values() for text in texts)
        self.files = {os.path.basename(it).partition(".")[0] for it in list_files("crates/*/specs/**/*.antt", "crates/*/src/**/*.rt")}
        others = "\n".join(
            map(read_file, list_files("crates/*/proofs/**/*.antt", "tools/*", "tools/*/*", "web/*", "crates/*/must-fail/*", "*.sh", "lw", "page"))
        )
        self.defined = set(WORD.findall(specs + code)) | COMMON
        self.words = self.defined | set(WORD.findall(others))
        declared = r"(?:fn|struct|enum|trait|type|ensures|requires|ghost|const|mod)\s+(\w+)"
        fields = r"^\s*(?:abbrev )?(?:pub )?(?:data |record )?(\w[\w']*)\s*(?:[:({]|$)"
        self.declared = set(re.findall(declared, code)) | set(re.findall(fields, specs + "\n" + code, re.M)) | COMMON

    def has_path(self, path: str) -> bool:
        """Returns whether a path means a file or folder of the repository, of a crate or of some crate."""
        places = [path, f"crates/{path}", f"crates/*/{path}", f"crates/*/specs/{path}", f"crates/*/proofs/{path}", f"docs/{path}"]
        return any(glob.glob(f"{HOME}/{place.rstrip('/')}{ending}") for place in places for ending in ENDINGS)

    def find_members(self, name: str) -> str:
        """Returns the code of all types, traits and impls of a name."""
        opening = re.compile(rf"^(?:pub(?:\(crate\))? )?(?:impl|trait|enum|struct)\b[^\n]*\b{name}\b")
        lines = []
        for text in (text for texts in self.code.values() for text in texts):
            is_inside = False
            for line in text.split("\n"):
                is_inside = is_inside or bool(opening.match(line))
                if is_inside:
                    lines.append(line)
                is_inside = is_inside and not line.startswith("}")
        return "\n".join(lines)

    def has_call(self, crate: str | None, parts: list[str]) -> bool:
        """Returns whether a crate, or some crate, declares what the parts of a qualified name say."""
        if crate and crate not in self.crates:
            return False
        *types, last = parts
        if types:
            declared = rf"(?:fn|ghost|const|type) {last}\b|^\s+(?:pub )?{last}\b\s*[,:({{]"
            return re.search(declared, self.find_members(types[-1]), re.M) is not None
        whole = "\n".join(self.code[crate or ""])
        return re.search(rf"(?:fn|struct|enum|trait|const) {last}\b|pub use [^;]*\b{last}\b", whole) is not None

    def exists(self, name: str, is_in_contracts: bool) -> bool | None:
        """Returns whether a name exists, in contracts if the text is on these. `None` if it is no name that is checked."""
        if name in self.crates or PLACEHOLDER.search(name):
            return True
        if OF_KIT.fullmatch(name):
            return None
        if "/out/" in f"/{name}":
            return None
        if PATH.match(name):
            return self.has_path(name) if re.search(r"[A-Za-z]", name) else None
        qualified = QUALIFIED.match(name)
        if qualified and "::" in name:
            return self.has_call(qualified[1], qualified[2].split("::"))
        if name.startswith("lw_"):
            return name in self.words
        if re.fullmatch(r"[^\W\d][\w']*", name) and len(name) > 2:
            return name in (self.declared if is_in_contracts else self.words) or name in self.files
        return None


def list_quoted(text: str) -> list[tuple[str, bool]]:
    """Returns the texts in backticks of a document, each with whether it is in a column of contracts."""
    quoted, contracts = [], False
    for line in text.split("\n"):
        if line.startswith("|"):
            cells = re.split(r"(?<!\\)\|", line)[1:-1]
            contracts = (contracts or cells[-1].strip() == "Contract") and len(cells) == 2
            for number, cell in enumerate(cells):
                quoted += [(it, contracts and number == 1) for it in re.findall(r"`([^`\n]+)`", cell)]
        else:
            contracts = False
            quoted += [(it, False) for it in re.findall(r"`([^`\n]+)`", line)]
    return quoted


def list_paths(text: str) -> list[str]:
    """Returns the whole paths of files of the repository in a text, in commands and sentences: those that start with one of its folders."""
    folders = "|".join(sorted(it for it in os.listdir(HOME) if os.path.isdir(f"{HOME}/{it}") and not it.startswith(".")))
    return re.findall(rf"(?<![\w./<-])(?:{folders})/[\w.+/-]*\w(?![\w*/$%{{}}<>])", text)


def list_commands(text: str) -> list[str]:
    """Returns the paths, without endings, of the modules that a text runs by `python3 tools MODULE`."""
    return [f"tools/{it.replace('.', '/')}" for it in re.findall(r"python3 tools ([a-z]\w*(?:\.\w+)*)", text)]


def find_path_faults(page: str, text: str) -> Iterator[str]:
    """Yields the broken links and whole paths of a page, README.md or one of docs/."""
    folder = os.path.dirname(page)
    for link in dict.fromkeys(re.findall(r"\]\(([^)#:\s]+)(?:#[^)]*)?\)", text)):
        if not os.path.exists(os.path.join(HOME, folder, link)):
            yield f"{page} links to {link}, which is not there"
    for path in dict.fromkeys(list_paths(text) + list_commands(text)):
        if not PLACEHOLDER.search(path) and "/out/" not in path and not any(glob.glob(f"{HOME}/{path}{it}") for it in ENDINGS):
            yield f"{page} names {path}, which is not there"


def declares(text: str, name: str) -> bool:
    """Returns whether a file of code, definitions or proofs declares a name."""
    in_code = rf"\b(?:fn|ensures|struct|enum|trait|const) {re.escape(name)}\b"
    in_logic = rf"^\s*(?:abbrev )?(?:pub )?(?:data |record )?{re.escape(name)} *(?:[:({{]|$)"
    return re.search(f"{in_code}|{in_logic}", text, re.M) is not None


def find_linked_name_faults(page: str, text: str, read_file: Callable[[str], str | None]) -> Iterator[str]:
    """Yields the names of a page that link to a file of a crate which does not declare them. `read_file` returns a file's text, or None."""
    for name, path in dict.fromkeys(LINKED_NAME.findall(text)):
        code = read_file(path)
        if code is not None and not declares(code, name):
            yield f"{page} says that {path} declares {name}, which it does not"


def is_below(crate: str, path: str) -> bool:
    """Returns whether a crate has a file or folder, or a file with a declaration whose name follows a dot."""
    path_in_crate = f"{HOME}/crates/{crate}/{path}"
    if any(os.path.exists(f"{path_in_crate}{it}") for it in (*ENDINGS, ".edit")):
        return True
    file, _, name = path_in_crate.rpartition(".")
    return os.path.isfile(f"{file}.antt") and declares(read_file(f"{file}.antt"), name)


def find_crate_path_faults(page: str, text: str, crates: list[str]) -> Iterator[str]:
    """Yields the paths of a page that its sentences place below a crate, and that are not there."""
    for block in BLOCK.split(text):
        last = None
        for before, path, after, crate in BELOW_CRATE.findall(block):
            if before or crate in crates:
                last = before or crate
            suffix = after or last
            if path and not PLACEHOLDER.search(path) and not any(is_below(it, path) for it in ([suffix] if suffix else crates)):
                yield f"{page} names {path} of {suffix or 'a crate'}, which is not there"


def read_repository_file(path: str) -> str | None:
    """Returns the text of a file of the repository, or None if there is none."""
    return read_file(f"{HOME}/{path}") if os.path.isfile(f"{HOME}/{path}") else None


def parse_crate_rows(text: str) -> dict[str, str]:
    """Returns the rows of docs/MAP.md's table of crates: each crate with those that it names, in words."""
    return dict(re.findall(r"^\| [\w ]+ \| (?!Crate )(\w+) \| [^|]* \| ([^|]*?) \|$", text, re.M))


def find_table_faults(rows: dict[str, str], lines: dict[str, list[str]]) -> Iterator[str]:
    """Yields the differences of the table of crates from crates.txt. `lines` has the dependencies of each crate there."""
    for crate in sorted({*rows} ^ {*lines}):
        yield f"docs/MAP.md has {'a' if crate in rows else 'no'} row for {crate}, which crates.txt has{'' if crate in lines else ' not'}"
    above: list[str] = []
    for crate, words in rows.items():
        but = re.fullmatch(r"all of the above but ([\w, ]+)", words)
        on_page = [it for it in above if it not in but[1].split(", ")] if but else [it for it in words.split(", ") if it != "std"]
        if crate in lines and sorted(on_page) != sorted(lines[crate]):
            yield f"docs/MAP.md says that {crate} names {', '.join(on_page)}, and crates.txt {', '.join(lines[crate])}"
        above.append(crate)


def find_logic_faults(text: str, version_text: str) -> Iterator[str]:
    """Yields the places where README.md names another logic than `rt version`."""
    named_here, by_rt = (re.search(r"\blogic [0-9a-f]{16}\b", it) for it in (text, version_text))
    if not named_here or by_rt and named_here[0] != by_rt[0]:
        yield f"README.md names '{named_here and named_here[0]}', and `rt version` '{by_rt and by_rt[0]}'"


def capture_version() -> str:
    """Returns what `rt version` prints; an empty text if there is no rt."""
    try:
        return subprocess.run(["rt", "version"], capture_output=True, text=True, check=False).stdout
    except OSError:
        return ""


def find_name_faults(names: Names) -> Iterator[str]:
    """Yields the names that do not exist, a line each."""
    for document in DOCUMENTS:
        quoted = list_quoted(read_file(f"{HOME}/docs/{document}.md"))
        for name, in_contracts in dict.fromkeys(quoted):
            if names.exists(name, in_contracts) is False:
                yield f"docs/{document}.md names `{name}`, which is not there"
        relations = dict.fromkeys(it for text, _ in quoted for it in RELATION.findall(text))
        if document != ON_PROOFS:
            yield from (f"docs/{document}.md names `{it}`, which no crate defines" for it in relations if it not in names.defined)


def find_faults() -> list[str]:
    """Returns all that documents name and that does not exist, a line each."""
    names = Names()
    faults = list(find_name_faults(names))
    for path in ("README.md", *sorted(os.path.relpath(it, HOME) for it in glob.glob(f"{HOME}/docs/*.md"))):
        text = read_file(f"{HOME}/{path}")
        faults += [
            *find_path_faults(path, text), *find_linked_name_faults(path, text, read_repository_file),
            *find_crate_path_faults(path, text, names.crates),
        ]
    faults += find_table_faults(parse_crate_rows(read_file(f"{HOME}/docs/MAP.md")), check_wings.read_dependencies())
    return [*faults, *find_logic_faults(read_file(f"{HOME}/README.md"), capture_version()), *check_trusted.find_faults()]


def main() -> int:
    """Runs the command that the arguments describe. Returns the exit status."""
    fault_lines = find_faults()
    for fault in fault_lines:
        print(fault)
    print(f"{0 if fault_lines else 1} passed, {len(fault_lines)} failed")
    return 1 if fault_lines else 0


if __name__ == "__main__":
    sys.exit(command.run_command(main, __doc__))
