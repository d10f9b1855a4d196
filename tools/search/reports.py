"""The report of a search's result, as `lw states` prints it."""
from __future__ import annotations

import plain
from search.explore import SearchResult


def make_report(test: plain.Test, exploration: SearchResult) -> str:
    """Returns the report of the states that were found."""
    return plain.make_report(test, {plain.make_outcome_from_words(test, words) for words in exploration.schedules})
