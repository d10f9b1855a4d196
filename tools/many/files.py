"""Which files are run, and which part of them a shard has."""
from __future__ import annotations

import os
import sys
from collections import namedtuple

# The suffixes of programs, which tools/from_c.py converts. All other files are tests.
PROGRAMS = (".c", ".cc", ".cpp", ".cxx", ".rs")
ENDINGS = (".litmus", *PROGRAMS)
# A shard's number, counted from 1, and how many there are.
Shard = namedtuple("Shard", "number of")


def list_files(names: list) -> list:
    """Returns the files that names mean: of a folder those with a suffix of tests or programs. Reads the names from standard input if there
    is none.
    """
    files = []
    for name in names or [line.strip() for line in sys.stdin if line.strip()]:
        if os.path.isdir(name):
            files += sorted(os.path.join(name, it) for it in os.listdir(name) if it.endswith(ENDINGS))
        else:
            files.append(name)
    return files


def is_program(file: str) -> bool:
    """Returns whether a file is a program in C, C++ or Rust."""
    return file.endswith(PROGRAMS)


def parse_shard(text: str) -> Shard | None:
    """Returns the shard of a text `I/N`. `None` if the text is no shard."""
    number, slash, of = text.partition("/")
    is_number = slash and all(it.isascii() and it.isdigit() for it in (number, of))
    return Shard(int(number), int(of)) if is_number and 1 <= int(number) <= int(of) else None


def select_shard(files: list, shard: Shard) -> list:
    """Returns the files of a shard: of all sorted names, every N-th from the I-th on. No file is in two shards."""
    return sorted(set(files))[shard.number - 1 :: shard.of]
