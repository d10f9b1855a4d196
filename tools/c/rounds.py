"""Follows all threads in rounds until no location gets a new word, or as often as a run has stores."""
from __future__ import annotations


from c.locations import Wider
from c.program import Program
from c.refused import Refused
from c.thread import Thread, Unbounded, follow_guesses
from c.values import Clock

# How often all threads are followed by the same locations, how often locations may change, and the guesses of one thread.
MAX_ROUNDS, MAX_RESTARTS, MAX_GUESSES = 60, 40, 64


def follow_threads(program: Program) -> list[list[Thread]]:
    """Follows all threads, each under all its guesses, by what is known of locations so far."""
    return [follow_guesses(program, number, MAX_GUESSES) for number in range(len(program.threads))]


def is_enough(program: Program, threads: list[list[Thread]], words: dict[int, dict[int, Clock]], rounds: int) -> bool:
    """Returns whether all words that a run can store are found: `words` are those before the last round. The result of a run's n-th store is found in
    the n-th round, so a word that comes only after more rounds than a run has stores is in no run.
    """
    if program.locations.copy_words() == words:
        return True
    return rounds > sum(max(it.graph.count_max_stores() for it in guessed) for guessed in threads) + 1


def find_threads(program: Program) -> list[list[Thread]]:
    """Returns, for each thread, its paths under each of its guesses. Raises Refused if what locations can have does not come to an end."""
    locations, rounds, restarts = program.locations, 0, 0
    while restarts <= MAX_RESTARTS:
        words, shape = locations.copy_words(), locations.snapshot_accesses()
        program.too_long = None
        try:
            threads = follow_threads(program)
        except (Wider, Unbounded):
            threads = None
        rounds += 1
        if threads is None or locations.snapshot_accesses() != shape:
            locations.forget_words()
            rounds, restarts = 0, restarts + 1
        elif program.too_long:
            raise program.too_long
        elif is_enough(program, threads, words, rounds):
            return threads
        elif rounds > MAX_ROUNDS:
            raise Refused("what locations can have does not come to an end")
    raise Refused("which locations are shared does not come to an end")
