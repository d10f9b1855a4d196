"""Follows the definitions on which the contract of `answer` depends, for the task `states`, and compares them with docs/BELIEVE.md.

    python3 tools documents.believe [--write | --print]

It begins with what the clauses of the contract say and goes from name to name (tools/documents/definitions.py), not from file to file. There are
seven sittings: what `made` and `machine` say, on the flat machine; what the laws of lw_axiomatic have in place of the machine, AXIOMS;
what `caches` adds; the limits and texts, which the first reaches only by way of LAST; what the lists of `beyond` add, SEARCH; what the
contract of the whole command adds, COMMAND; and other forms of the machine and the axioms, FORMS. It prints, step by step as the page has
them, each file with the lines that are reached in it and their number. It fails if a definition is reached that no step has,
if a step has other lines or another number, if the first sitting has more lines of definitions than MAX_LINES, and if the page's Notation
lacks a name of the standard library that a definition uses. With --write it writes the page's lines and numbers anew; with --print
it prints the contracts and all these lines, block by block, in the page's order.
tools/check_documents.py calls it. The last line is 'N passed, M failed'.
"""
from __future__ import annotations

import re
import sys
from collections.abc import Iterable, Iterator, Sequence
from typing import NamedTuple

from documents import definitions
from documents.definitions import Definition
from shared import command, start
from shared.home import HOME

PAGE = f"{HOME}/docs/BELIEVE.md"
MADE = ("lw_bench", "Outputs", "IsOutputOf"), ("lw_bench", "Lists", "IsStatesReport"), ("lw_bench", "Lists", "IsReachedOnMachine")
AXIOMS = ("lw_axiomatic", "Axioms", "IsAllowed"), ("lw_axiomatic", "Sequential", "IsScOutcome"), ("lw_litmus", "WellScoped", "IsWellScoped")
CACHES = (("lw_bench", "Lists", "IsReachedOverCaches"),)
LAST = "HasTest", "IsWithinListLimits"
SEARCH = (
    ("lw_search", "Reachability", "Visits"),
    ("lw_search", "Reachability", "ExceedsBudget"),
    ("lw_search", "Reachability", "HoldsOfCompiled"),
    ("lw_tso_caches", "CompleteLists", "ListsMachine"),
    ("lw_outcome_map", "Listings", "IsStrictlySorted"),
    ("lw_beyond", "Requests", "IsListedBy"),
)
COMMAND = (
    ("lw_bench", "Commands", "IsCommand"),
    ("lw_bench", "Endings", "WritesLine"),
    ("lw_bench", "Endings", "Reports"),
    ("lw_bench", "Endings", "EndsTask"),
)
FORMS = ("lw_tso", "LockPhases", "OutcomeInPhases"), ("lw_axiomatic", "SplitEvents", "IsAllowedBySplitAxioms"), ("lw_axiomatic", "Cycles", "HasNoCycle")
LATER_SITTINGS = tuple(f"## The {it} sitting" for it in ("second", "third", "fourth", "fifth", "sixth", "seventh"))
# The public functions whose contracts a sitting is about, by the file that has them; all of a file if none is named.
CONTRACTS = (
    (("lw_bench/src/render.rt", ("answer",)),),
    (("lw_axiomatic/src/laws.rt", ()),),
    (),
    (),
    (("lw_search/src/list.rt", ()), ("lw_beyond/src/answers.rt", ("answer_request",))),
    (("lw_bench/src/whole_command.rt", ()), ("lw_bench/src/ending.rt", ("refusal_of",))),
    (("lw_tso/src/lock_laws.rt", ()), ("lw_axiomatic/src/herd.rt", ())),
)
# The comment, the head and the clauses of a public function.
CONTRACT = re.compile(r"^(?:///.*\n)*pub fn (\w+)(?:.*\n)+?(?=\{)", re.M)
NOTATION = "## Notation"
MAX_LINES = 800
FIRST_SITTING = r"has \d+ lines of definitions, and \d+ of comments on them"
COMMENTS = "--", "//"
ROW = re.compile(r"^\| `(\S+)` \|\s*([\d, -]*?)\s*\|\s*(\d*)\s*\| (.*) \|$")
OF_STD = re.compile(r"^(?:pub )?use (?:Rattle\.std|Prim)\.[\w.]+?\.\{([^}]*)\}", re.M)


def find_definition(all_definitions: definitions.Definitions, crate: str, module: str, name: str) -> Definition:
    """Returns a definition that is known to exist."""
    definition = all_definitions.find_definition(crate, module, name)
    assert definition is not None, f"there is no {name} in {module} of {crate}"
    return definition


def list_sittings() -> list[list[Definition]]:
    """Returns the definitions that each sitting reaches and none before it: on the flat machine, by axioms, over caches, those reached only
    through LAST, by the search, by the whole command, and by other forms.
    """
    all_definitions = definitions.Definitions()
    starts_of = [[find_definition(all_definitions, *start) for start in starts] for starts in (MADE, AXIOMS, CACHES, SEARCH, COMMAND, FORMS)]
    of_flat_machine, axioms, caches, search, command, forms = starts_of
    sittings, keys = [], set()
    for starts, excluded in (of_flat_machine, LAST), (axioms, LAST), (caches, LAST), (of_flat_machine + caches, ()), (search, ()), (command, ()), (forms, ()):
        new = [it for it in all_definitions.list_reached(starts, excluded) if it.key() not in keys]
        keys |= {it.key() for it in new}
        sittings.append(new)
    return sittings


def group_lines_by_file(definitions_reached: Iterable[Definition]) -> dict[str, set[int]]:
    """Returns the line numbers of definitions, by file."""
    lines_by_file: dict[str, set[int]] = {}
    for definition in definitions_reached:
        lines_by_file.setdefault(definition.path[len("crates/") :], set()).update(range(definition.first, definition.last + 1))
    return lines_by_file


def list_std_names(definitions_reached: Iterable[Definition]) -> set[str]:
    """Returns the names of the standard library that definitions use."""
    std_names = set()
    for definition in definitions_reached:
        if definition.path.endswith(".antt"):
            names = OF_STD.findall("\n".join(definitions.read_lines(definition.path)))
            for name in re.split(r",\s*", ", ".join(names)):
                name = name.partition(" as ")[0].strip()
                parts = [re.escape(part) for part in name.split("◌") if part]
                patterns = parts if "◌" in name else [rf"(?<![\w'.]){re.escape(name)}(?![\w'])"]
                if name and all(re.search(part, definition.text) for part in patterns):
                    std_names.add(name)
    return std_names


def format_spans(path: str, numbers: set[int]) -> str:
    """Returns line numbers as ranges; blank lines do not split a range."""
    lines = definitions.read_lines(f"crates/{path}")
    spans: list[list[int]] = []
    for number in sorted(numbers):
        if spans and not "".join(lines[spans[-1][1] : number - 1]).strip():
            spans[-1][1] = number
        else:
            spans.append([number, number])
    return ", ".join(f"{first}-{last}" for first, last in spans)


def format_cells(path: str, numbers: set[int]) -> tuple[str, str]:
    """Returns the cells of a file's row: the ranges of its lines, and their number."""
    return format_spans(path, numbers), str(len(numbers))


class Step(NamedTuple):
    """A row of the page: its line's index, its heading, the index of its sitting, and the match of ROW."""

    line_index: int
    heading: str
    sitting: int
    row: re.Match[str]


def find_rows(text: str) -> list[Step]:
    """Returns the page's rows."""
    rows, heading, sitting = [], "", 0
    for number, line in enumerate(text.split("\n")):
        if line.startswith("## "):
            heading = line
            sitting += any(line.startswith(it) for it in LATER_SITTINGS)
        row = ROW.match(line)
        if row:
            rows.append(Step(number, heading, sitting, row))
    return rows


def update_page(text: str, files: list[dict[str, set[int]]]) -> str:
    """Returns the page with the present lines and numbers of its rows."""
    lines = text.split("\n")
    for number, _, sitting, row in find_rows(text):
        if row[1] in files[sitting]:
            where, count = format_cells(row[1], files[sitting][row[1]])
            lines[number] = f"| `{row[1]}` | {where} | {count} | {row[4]} |"
    return re.sub(FIRST_SITTING, format_size(files[0]), "\n".join(lines))


def count_lines(files: dict[str, set[int]]) -> int:
    """Returns the number of lines of a sitting."""
    return sum(map(len, files.values()))


def count_comment_lines(files: dict[str, set[int]]) -> int:
    """Returns the number of lines of a sitting that are comments only."""
    lines = (definitions.read_lines(f"crates/{path}")[number - 1] for path, numbers in files.items() for number in numbers)
    return sum(line.lstrip().startswith(COMMENTS) for line in lines)


def format_size(files: dict[str, set[int]]) -> str:
    """Returns the page's words on the size of a sitting."""
    comments = count_comment_lines(files)
    return f"has {count_lines(files) - comments} lines of definitions, and {comments} of comments on them"


def find_faults(text: str, sittings: list[list[Definition]]) -> list[str]:
    """Returns the faults of the page, a line each."""
    files = [group_lines_by_file(it) for it in sittings]
    faults: list[str] = []
    met: list[set[str]] = [set() for _ in files]
    for _, _, sitting, row in find_rows(text):
        path = row[1]
        met[sitting].add(path)
        if path not in files[sitting]:
            faults.append(f"docs/BELIEVE.md has {path}, where nothing is reached")
        elif (row[2], row[3]) != format_cells(path, files[sitting][path]):
            faults.append(f"docs/BELIEVE.md says of {path} {row[2]} ({row[3]}), and it is {' ('.join(format_cells(path, files[sitting][path]))})")
    for sitting, spans_by_path in enumerate(files):
        lacking = {path: lines for path, lines in spans_by_path.items() if path not in met[sitting]}
        faults += [f"docs/BELIEVE.md lacks {path}, lines {format_spans(path, lines)}" for path, lines in lacking.items()]
    if count_lines(files[0]) - count_comment_lines(files[0]) > MAX_LINES:
        faults.append(f"the first sitting {format_size(files[0])}, which is more than {MAX_LINES} lines")
    if format_size(files[0]) not in text:
        faults.append(f"docs/BELIEVE.md does not say that its first sitting {format_size(files[0])}")
    return faults + find_notation_faults(text, sittings)


def find_notation_faults(text: str, sittings: list[list[Definition]]) -> list[str]:
    """Returns a fault for each name of the standard library that the page's Notation lacks, a line each."""
    notation = text.partition(NOTATION)[2].partition("\n## ")[0]
    names = set().union(*map(list_std_names, sittings))
    return [f"docs/BELIEVE.md's Notation lacks {name}" for name in sorted(names) if not is_explained(name, notation)]


def is_explained(name: str, notation: str) -> bool:
    """Returns whether the Notation has a name in backticks: a sign between two arguments, as `a ≡ b`, or a word."""
    parts = [re.escape(part) for part in name.split("◌") if part]
    inside = r"[^`\n]*?".join(parts) if "◌" in name else rf"(?<![\w'.]){re.escape(name)}(?![\w'])"
    return re.search(rf"`[^`\n]*?{inside}[^`\n]*?`", notation) is not None


def read_page() -> str:
    """Returns the text of docs/BELIEVE.md."""
    with open(PAGE, encoding="utf-8") as file:
        return file.read()


def find_page_faults() -> list[str]:
    """Returns the faults, a line each, for tools/check_documents.py."""
    return find_faults(read_page(), list_sittings())


def list_contracts(path: str, names: Sequence[str]) -> Iterator[str]:
    """Yields the comment, the head and the clauses of the functions of a file that are named, or of all public ones if none is."""
    for match in CONTRACT.finditer("\n".join(definitions.read_lines(f"crates/{path}"))):
        if not names or match[1] in names:
            yield match[0].rstrip()


def print_contracts(sitting: int) -> None:
    """Prints the contracts that a sitting is about."""
    for path, names in CONTRACTS[sitting]:
        print(f"\n-- ---- {path}: contracts")
        for text in list_contracts(path, names):
            print(f"\n{text}")


def print_blocks(text: str, files: list[dict[str, set[int]]]) -> None:
    """Prints the contracts of each sitting, and the lines of all its definitions in the page's order, each file under its name."""
    last, sitting_before = "", -1
    for _, heading, sitting, row in find_rows(text):
        if sitting != sitting_before:
            sitting_before = sitting
            print_contracts(sitting)
        if heading != last:
            last = heading
            print(f"\n{heading}")
        lines = definitions.read_lines(f"crates/{row[1]}")
        print(f"\n-- ---- {row[1]}: {row[4]}")
        before = 0
        for number in sorted(files[sitting].get(row[1], ())):
            if before and number != before + 1:
                print()
            print(lines[number - 1])
            before = number


def main() -> int:
    """Runs the command that the arguments describe. Returns the exit status."""
    reader = command.Reader(__doc__)
    mode = reader.add_mutually_exclusive_group()
    mode.add_argument("--write", action="store_true")
    mode.add_argument("--print", action="store_true")
    arguments = reader.read()
    text, sittings = read_page(), list_sittings()
    files = [group_lines_by_file(it) for it in sittings]
    if arguments.print:
        print_blocks(text, files)
        return 0
    if arguments.write:
        text = update_page(text, files)
        with open(PAGE, "w", encoding="utf-8") as file:
            file.write(text)
    last = ""
    for _, heading, _, row in find_rows(text):
        if heading != last:
            last = heading
            print(heading[len("## ") :])
        print(f"{row[3]:>5} crates/{row[1]} {row[2]}")
    print(" lines, ".join(str(count_lines(it)) for it in files) + " lines in the seven sittings")
    faults = find_faults(text, sittings)
    for fault in faults:
        print(fault)
    print(f"{0 if faults else 1} passed, {len(faults)} failed")
    return 1 if faults else 0


if __name__ == "__main__":
    sys.exit(start.run(main))
