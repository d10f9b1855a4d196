"""Says where a made site comes from: the commit of its sources, how the gate ended on them, and where they are published, if its maker says so; and
that no licence has been chosen. A site may carry the archive of tools/pack.py, which has the tools.
"""
from __future__ import annotations

import os
import re
import subprocess
import tarfile
from typing import NamedTuple

from shared.home import HOME, read_lines

OUT = f"{HOME}/crates/lw/out"
# The number of shown digits of a commit.
DIGITS = 12
# The last line of a gate that has passed.
ENDING = re.compile(r"\d+ passed, 0 failed")
NO_ADDRESS = "This site knows no public address of that repository: ask whoever made the site."
NO_LICENCE = "No licence has been chosen yet: until its owner chooses one, nobody else may change lw or distribute it without the owner's permission."


class Origin(NamedTuple):
    """The commit, whether the sources differ from it, and the last line of the gate, `None` if it is not known; and the public address of the
    repository, `None` if the site's maker has named none.
    """

    commit: str | None
    is_changed: bool
    gate: str | None
    address: str | None = None


class Archive(NamedTuple):
    """An archive of tools/pack.py beside a site: the name of its file, and its size in words."""

    file: str
    size: str


class About(NamedTuple):
    """What a site says about itself: the words on its origin, and the archive that it carries; `None` if it carries none."""

    origin: str
    archive: Archive | None = None


class NoArchive(Exception):
    """A file that a site can't carry as its archive, and why."""


def describe_site(address: str | None = None, archive: str | None = None) -> About:
    """Returns what a site says about itself, by the address of its repository and the path of its archive. Raises NoArchive if there is no archive of the
    same commit.
    """
    origin = read_origin(address)
    return About(describe_origin(origin), read_archive(archive, origin.commit) if archive else None)


def read_archive(path: str, commit: str | None) -> Archive:
    """Returns the archive at a path. Raises NoArchive if the file is none, or is one of another commit."""
    try:
        size = os.path.getsize(path)
        with tarfile.open(path) as files:
            described = next((it for it in files if it.name.endswith("/PACK.txt")), None)
            content = described and files.extractfile(described)
            description = content.read().decode().splitlines() if content else []
    except (OSError, EOFError, tarfile.TarError, UnicodeDecodeError) as why:
        raise NoArchive(f"{path} is no archive of tools/pack.py: {why}") from why
    if not description:
        raise NoArchive(f"{path} is no archive of tools/pack.py: it has no PACK.txt")
    if parse_origin(description).commit != commit:
        raise NoArchive(f"{path} is of another commit than these sources")
    return Archive(os.path.basename(path), f"{max(1, round(size / 1e6))} MB")


def read_origin(address: str | None = None) -> Origin:
    """Returns the origin of the sources, with the repository's address. The gate counts only if it has passed for these sources in this checkout."""
    is_checkout = capture_lines("git", "rev-parse", "--show-toplevel") == [os.path.realpath(HOME)]
    if not is_checkout and (description := read_lines(f"{HOME}/PACK.txt")):
        return parse_origin(description)._replace(address=address)
    commit = next(iter(capture_lines("git", "rev-parse", "HEAD")), None) if is_checkout else None
    is_changed = commit is not None and bool(capture_lines("git", "status", "--porcelain"))
    made_of, ended = read_lines(f"{OUT}/made-of"), read_lines(f"{OUT}/gate")
    has_passed = len(made_of) > 3 and len(ended) == 2 and ended[0] == made_of[3]
    return Origin(commit, is_changed, ended[1] if has_passed else None, address)


def parse_origin(description: list[str]) -> Origin:
    """Returns the origin of an archive of tools/pack.py, by the lines of its PACK.txt."""
    fields = dict(line.split(":", 1) for line in description if line.startswith(("Commit:", "The gate:")))
    gate = fields.get("The gate", "").strip()
    return Origin(fields.get("Commit", "").strip() or None, False, gate if ENDING.fullmatch(gate) else None)


def describe_origin(origin: Origin) -> str:
    """Returns a site's words on its origin."""
    commit = f", at commit {origin.commit[:DIGITS]}" if origin.commit else ""
    changed = ", with changes" if origin.is_changed else ""
    gate = "Whether its gate has passed is not recorded here."
    if origin.gate:
        gate = f"The gate there, which proves and tests all of it, ended with “{origin.gate}”."
    address = f"The repository is at {origin.address} ." if origin.address else NO_ADDRESS
    return f"The program, its sources and its proof are in the repository that this site was made from{commit}{changed}. {gate} {address} {NO_LICENCE}"


def capture_lines(*arguments: str) -> list[str]:
    """Returns the lines that a command prints; none if it fails or is missing."""
    try:
        ran = subprocess.run(arguments, cwd=HOME, stdout=subprocess.PIPE, stderr=subprocess.DEVNULL, text=True, check=True)
    except (OSError, subprocess.SubprocessError):
        return []
    return ran.stdout.splitlines()
