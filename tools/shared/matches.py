"""Matches of regular expressions that are known to be there."""
from __future__ import annotations

from typing import Match


def require_match(match: Match[str] | None) -> Match[str]:
    """Returns a match that must be there. Raises AssertionError if there is none, which the caller excludes."""
    if match is None:
        raise AssertionError("a text has another form than its maker gives it")
    return match
