"""Reports, lists of schedules, and the words of the examples' comments."""
from __future__ import annotations

from collections.abc import Iterable, Sequence


from interpreter.compiling import compile_test
from interpreter.conditions import format_condition, format_site, is_true_in, list_sites, read_word, site_sort_key
from interpreter.tests import REGISTERS, Outcome, RegisterSite, Site, Test, join_lines
from interpreter.walks import explore_states, list_interleaved_moves, list_outcomes, list_x86_moves, make_schedule, make_x86_start


def list_observed_sites(test: Test) -> list[Site]:
    """Returns the sites that a report shows, in its order."""
    return sorted(test.listed | list_sites(test.proposition), key=site_sort_key)


def format_state(test: Test, words: Sequence[int]) -> str:
    """Returns the line of a report for a state, with the words of the observed sites."""
    return " ".join(f"{format_site(test, site)}={word};" for site, word in zip(list_observed_sites(test), words))


def make_outcome_from_words(test: Test, words: Sequence[int]) -> Outcome:
    """Returns an outcome with the observed words: what is not observed is 0."""
    registers = [[0] * len(REGISTERS[test.language]) for _ in test.threads]
    memory = [0] * len(test.locations)
    for site, word in zip(list_observed_sites(test), words):
        if isinstance(site, RegisterSite):
            registers[site.thread][site.register] = word
        else:
            memory[site.location] = word
    return Outcome(tuple(map(tuple, registers)), tuple(memory))


def collect_states(test: Test, reached: Iterable[Outcome]) -> list[tuple[tuple[int, ...], Outcome]]:
    """Returns the states that outcomes show, sorted: the words of the observed sites, each with the smallest outcome that has them."""
    sites = list_observed_sites(test)
    states: dict[tuple, Outcome] = {}
    for outcome in sorted(reached):
        states.setdefault(tuple(read_word(site, outcome) for site in sites), outcome)
    return sorted(states.items())


def make_report(test: Test, reached: Iterable[Outcome] | None = None) -> str:
    """Returns the report of a test, by default of all outcomes that it has."""
    states = collect_states(test, list_outcomes(test) if reached is None else reached)
    holding = sum(is_true_in(test.proposition, outcome) for _, outcome in states)
    others = len(states) - holding
    is_ok = {"exists": holding > 0, "~exists": holding == 0, "forall": others == 0}[test.quantifier]
    often = "Never" if holding == 0 else "Sometimes" if others else "Always"
    question = {"exists": "Allowed", "~exists": "Forbidden", "forall": "Required"}[test.quantifier]
    lines = [f"Test {test.name} {question}", f"States {len(states)}"]
    lines += [format_state(test, words) for words, _ in states]
    lines += ["Ok" if is_ok else "No", f"Positive: {holding} Negative: {others}", f"Condition {format_condition(test)}"]
    return join_lines(lines + [f"Observation {test.name} {often} {holding} {others}"])


def format_schedules(test: Test) -> str:
    """Returns a schedule to each state of the report: for a source test one of its compiled program."""
    program = compile_test(test)
    finals, origins = explore_states(program, make_x86_start(program), list_x86_moves)
    states = collect_states(test, finals)
    lines = [f"Test {test.name}", f"States {len(states)}"]
    for words, outcome in states:
        lines += [format_state(test, words), f" {make_schedule(finals[outcome], origins)}"]
    return join_lines(lines)


def find_verdicts(test: Test) -> tuple[str, str]:
    """Returns the verdicts of interleaving and x86-TSO on a test's condition. A source test is taken without fences, each store a plain store."""
    program = compile_test(test, has_fences=False)
    interleaved = explore_states(program, make_x86_start(program), list_interleaved_moves)[0]
    return find_verdict(test, interleaved), find_verdict(test, list_outcomes(program))


def find_verdict(test: Test, reached: Iterable[Outcome]) -> str:
    """Returns the verdict of outcomes on a test's condition: `allowed`, `forbidden`, `required` or `not required`."""
    truths = [is_true_in(test.proposition, outcome) for outcome in reached]
    if test.quantifier == "forall":
        return "required" if all(truths) else "not required"
    return "allowed" if any(truths) else "forbidden"
