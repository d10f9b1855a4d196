"""The exit statuses of tools/run_all.py, besides those that all commands have, and the fault of a table that it reads."""
from __future__ import annotations

# A machine showed a state that is not listed; nothing can be run on this machine; a file has no verdict; a verdict is not the expected one.
SEEN_AND_NOT_LISTED, NOT_RUN, NO_VERDICT, NOT_OK = 3, 5, 6, 7


class NoTable(Exception):
    """Why a table is not taken."""


def choose_status(statuses: set) -> int:
    """Returns the exit status of a command if several apply: a contradiction comes first, then the largest."""
    return SEEN_AND_NOT_LISTED if SEEN_AND_NOT_LISTED in statuses else max(statuses)
