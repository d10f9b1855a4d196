"""Compares docs/TRUSTED.md with the verdict of the program `lw`.

    python3 tools gate.check_trusted [LOG]

LOG is what the build of `./lw`, `rt ci`, or `rt check --list-axioms` in crates/lw has printed; without it, it is crates/lw/out/log, which the
build of `./lw` writes. If LOG has no verdict of `lw`, nothing is compared, and a line says so. tools/gate/check_names.py calls this.

- The words of the verdict's last line are those of the page. `rt ci` takes nothing from earlier checks, so its line may lack the word for that.
- The page's table lists as many functions as the report says were reached, in its order, and begins with those that the report names.
- The linked files have the names that the page gives, in any folder.

The last line is 'N passed, M failed'.
"""
from __future__ import annotations

import os
import re
import sys
from collections.abc import Iterator

from shared import command, start
from shared.home import HOME

LOG = f"{HOME}/crates/lw/out/log"
PAGE = f"{HOME}/docs/TRUSTED.md"
# The words that the verdict of a build has, and that of `rt ci` may lack.
OF_BUILDS = {"incremental=trusted"}
# The lines with which the parts of a log of `rt ci` start.
PART = re.compile(r"^== (.+)$", re.M)
ROW = re.compile(r"^\| `(\w+(?:::\w+)+)` \|", re.M)


def read_text(path: str) -> str:
    """Returns the text of a file."""
    with open(path, encoding="utf-8", errors="replace") as file:
        return file.read()


def find_crate_log(log: str) -> str:
    """Returns the part of a log on the crate `lw`: all of it, or that crate's part of a log of `rt ci`."""
    pieces = PART.split(log)
    parts = dict(zip(pieces[1::2], pieces[2::2]))
    return parts.get("lw", "") if parts else log


def find_last_line(start_of_line: str, text: str) -> str | None:
    """Returns the last line that begins with `start_of_line`, a pattern, whatever blanks are before it. `None` if there is none."""
    lines = re.findall(rf"^ *({start_of_line}.*)$", text, re.M)
    return lines[-1] if lines else None


def parse_reached(text: str) -> dict[str, tuple[list[str], int]]:
    """Returns, for each crate of which the report reaches a function, the names of functions that it lists (perhaps only the first ones), and the
    number of all that it reaches.
    """
    reached = {}
    for crate, names, count in re.findall(r"^ *axioms (\w+): (.*) \((\d+) of the \d+ declared\)$", text, re.M):
        reached[crate] = [it for it in names.split(", ") if it != "..."], int(count)
    # With --list-axioms there is a line for each function.
    for crate, count in re.findall(r"^ *axioms (\w+): (\d+) reached of the \d+ declared$", text, re.M):
        reached[crate] = re.findall(rf"^ *({crate}::[\w:]+) +reached$", text, re.M), int(count)
    return reached


def find_line_faults(log: str, page: str) -> Iterator[str]:
    """Yields how the words of the verdict's last line differ from the page's."""
    in_log, on_page = (set((find_last_line("logic=proved", it) or "").split()) for it in (log, page))
    if in_log - on_page or on_page - in_log - OF_BUILDS:
        words = [f"the verdict has {', '.join(sorted(in_log - on_page)) or 'no more'}"]
        words.append(f"the page {', '.join(sorted(on_page - in_log)) or 'no more'}")
        yield f"docs/TRUSTED.md: {'; '.join(words)}"


def find_function_faults(log: str, page: str) -> Iterator[str]:
    """Yields how the functions of the report differ from the page's rows."""
    rows = ROW.findall(page)
    for crate, (names, count) in parse_reached(log).items():
        rows_of_crate = [it for it in rows if it.startswith(f"{crate}::")]
        if len(rows_of_crate) != count or rows_of_crate[: len(names)] != names:
            listed = f"docs/TRUSTED.md lists {len(rows_of_crate)} functions of {crate}, {', '.join(rows_of_crate)}"
            yield f"{listed}; the verdict reaches {count}, {', '.join(names)} first"
    for crate in sorted({it.partition("::")[0] for it in rows} - set(parse_reached(log))):
        yield f"docs/TRUSTED.md lists functions of {crate}, of which the verdict reaches none"


def list_linked_files(text: str) -> list[list[str]]:
    """Returns the names of the linked files, without their folders, for each line that says what was linked. `rt ci` links the program twice, the
    second time as Rattle's own compiler makes it, which no part of this repository runs."""
    lines = re.findall(r"^ *linked .*?files=(.*)$", text, re.M)
    return [[os.path.basename(it) for it in line.split(",")] for line in lines]


def find_link_faults(log: str, page: str) -> Iterator[str]:
    """Yields how the linked files differ from the page's, if the log says what was linked."""
    linked, documented = list_linked_files(log), list_linked_files(page)
    if linked and documented[:1] != linked[:1]:
        yield f"docs/TRUSTED.md has linked {', '.join(documented[0] if documented else ['nothing'])}, and the verdict {', '.join(linked[0])}"


def find_differences(log: str, page: str) -> list[str] | None:
    """Returns all differences between a log and the page, a line each, or None if the log has no verdict of `lw`."""
    part = find_crate_log(log)
    if find_last_line("logic=proved", part) is None:
        return None
    if find_last_line("logic=proved", page) is None:
        return ["docs/TRUSTED.md has no verdict"]
    return [*find_line_faults(part, page), *find_function_faults(part, page), *find_link_faults(part, page)]


def find_faults() -> list[str]:
    """Returns the differences between the page and the build's log, none if there is no such log."""
    return (find_differences(read_text(LOG), read_text(PAGE)) or []) if os.path.exists(LOG) else []


def main() -> int:
    """Runs the command that the arguments describe. Returns the exit status."""
    reader = command.Reader(__doc__)
    reader.add_argument("log", nargs="?", metavar="LOG")
    log = reader.read().log
    path = LOG if log is None else log
    if log is not None and not os.path.isfile(path):
        reader.error(f"there is no file {path}")
    faults = find_differences(read_text(path), read_text(PAGE)) if os.path.exists(path) else None
    if faults is None:
        print(f"skipped: no verdict of lw in {os.path.relpath(path, HOME)}")
    for fault in faults or []:
        print(fault)
    print(f"{0 if faults or faults is None else 1} passed, {len(faults or [])} failed")
    return 1 if faults else 0


if __name__ == "__main__":
    sys.exit(start.run(main))
