"""Says on which functions of a crate the last check from nothing spent its time.

    python3 tools documents.proof_times CRATE [N]

It reads when the files below crates/CRATE/out/incremental were written, each as soon as it was checked, one after another. So it is
right only after a check of the whole crate from nothing at one job (`rt check --jobs 1` in a folder without out/). It prints the N
slowest functions (20), each with the seconds of its parts: `Lts` is the model of the function's steps, `Tie` ties it to the contract,
`Proof` is the search for proofs of the goals without an answer, `Answers` are the answers.
"""
from __future__ import annotations

import collections
import os
import re
import sys
from typing import Any

from shared import command, start
from shared.home import HOME

MODULE = re.compile(r"Rattle-lw_\w+?-(?:proofs|specs)\.(.*)\.oantt$")


def measure_parts(folder: str) -> dict[str, Any]:
    """Returns the seconds of each part of each function, from the times between one file and the next."""
    files = sorted((os.stat(f"{folder}/{name}").st_mtime_ns, name) for name in os.listdir(folder) if name.endswith(".oantt"))
    parts: dict[str, Any] = collections.defaultdict(collections.Counter)
    for (before, _), (written, name) in zip(files, files[1:]):
        module = MODULE.search(name)
        function, _, part = (module[1] if module else name).rpartition(".")
        parts[function][re.sub(r"[-\d]+$", "", part)] += (written - before) / 1e9
    return parts


def main() -> None:
    """Runs the command that the arguments describe."""
    reader = command.Reader(__doc__)
    reader.add_argument("crate", metavar="CRATE")
    reader.add_argument("most", nargs="?", type=command.make_number_parser(0), default=20, metavar="N")
    arguments = reader.read()
    base = f"{HOME}/crates/{arguments.crate}/out/incremental"
    folder = max((f"{base}/{name}" for name in os.listdir(base)), key=os.path.getmtime)
    parts = measure_parts(folder)
    print(f"{sum(part.total() for part in parts.values()):7.1f} seconds in all")
    for function, part in sorted(parts.items(), key=lambda it: -it[1].total())[: arguments.most]:
        dearest = ", ".join(f"{name} {seconds:.1f}" for name, seconds in part.most_common(4))
        print(f"{part.total():7.1f} {function}: {dearest}")


if __name__ == "__main__":
    sys.exit(start.run(main))
