"""Writes the tests of lw to which a program is converted; a run to each state, and which fences matter, by the lines of the source."""
from __future__ import annotations

import io
import re
from collections.abc import Iterable, Iterator
from contextlib import redirect_stdout
from dataclasses import replace

import fences
import films
import plain
from c.convert import ProgramConverter, ProgramTest
from c.report import Answer, Names
from fencing.together import CombinedTest, Original, Part, format_answer
from herd.propositions import restrict
from films import NoFilm
from herd.together import parse_state
from picture import draw_strip
from shared import answers

# The instructions that others can see, or that wait for the store buffer.
VISIBLE = ("load", "store", "xchg", "xadd", "mfence")


def restore_question(program_test: ProgramTest) -> plain.Test:
    """Returns the test whose condition is that of the source, and holds only of runs that are not given up: all marks are set."""
    unmarked = program_test.conversion.unmarked
    proposition = restrict(unmarked.quantifier, [plain.Eq(site, 1) for site in program_test.conversion.marks], unmarked.proposition)
    return replace(unmarked, name=program_test.conversion.test.name, proposition=proposition)


def format_lines(lines: Iterable[int]) -> str:
    """Returns the lines of the source that an instruction comes from."""
    return f"line {', '.join(map(str, sorted(lines)))}" if lines else "no line"


def format_tests(answer: Answer, converter: ProgramConverter) -> str:
    """Returns the texts of the tests of an answer."""
    return "".join(format_test(it, converter) for it in answer.tests)


def format_test(program_test: ProgramTest, converter: ProgramConverter) -> str:
    """Returns the text of a test, with a comment that says what its names mean, and from which lines its instructions come."""
    test = restore_question(program_test)
    heading, _, rest = plain.format_canonical_text(test).partition("\n")
    sites = Names(converter, test).sites
    rows = [f"{name} is {site} here." for site, name in sites.items() if name != site]
    for thread, (code, lines) in enumerate(zip(test.threads, program_test.lines)):
        texts = [plain.format_instruction(test, it) for it in code]
        rows += [f"P{thread} at {index}, {text}: {format_lines(lines[index])}" for index, text in enumerate(texts)]
    comment = "\n   ".join(rows)
    return f"{heading}\n(* {comment} *)\n{rest}"


def format_fences(answer: Answer, converter: ProgramConverter) -> str:
    """Returns what tools/fences.py says of the fences and exchanges of a program, with the lines of the source, and states in its names."""
    if len(answer.tests) != 1:
        return format_fences_together(answer, converter)
    program_test, printed = answer.tests[0], io.StringIO()
    test = restore_question(program_test)
    with redirect_stdout(printed):
        fences.print_fences(fences.Choices(exchanges=True), plain.format_canonical_text(test))
    names = Names(converter, test)
    with_line = lambda found: f"{found[0]} ({format_lines(program_test.lines[int(found[1])][int(found[2])])})"
    text = re.sub(r"\bP(\d) at (\d+)\b", with_line, printed.getvalue()).replace(plain.format_condition(test), converter.condition.text)
    text = re.sub(r"^( +)((?:[\w:]+=\d+;[ ]?)+)$", lambda found: found[1] + names.translate_line(found[2]), text, flags=re.M)
    places = [f"{name} is {site}" for name, site in names.sites.items() if name != site and ":" not in name]
    return text + (f"There {', '.join(places)}.\n" if places else "")


def format_fences_together(answer: Answer, converter: ProgramConverter) -> str:
    """Returns what tools/fences.py says of the fences and exchanges of a program that is several tests. Instructions of the same source lines are one
    place.
    """
    origin = lambda lines: tuple(sorted(lines))
    parts = [Part(it.conversion, [list(map(origin, lines)) for lines in it.lines], it.begins) for it in answer.tests]
    format_place = lambda place: f"P{place[0]} {format_lines(place[1])}"
    further_sites: set[plain.Site] = {plain.LocationSite(number) for number in converter.locations.values()}
    names = Names(converter, answer.tests[0].conversion.unmarked)
    original = Original(converter.name, converter.condition.text, format_place, format_place, further_sites, words_on_everything="its question and all locations")
    # (The maker of the lists and the number of tries are reported for the whole answer.)
    return plain.join_lines(format_answer(CombinedTest(parts, names.translate_line, True), original, False, True)[:-1])


def format_schedules(answer: Answer, converter: ProgramConverter) -> str:
    """Returns a run to each state of a report: its events, by the lines of the source."""
    runs: dict[str, list[str]] = {}
    for program_test in answer.tests:
        for state, schedule in list_schedules(program_test, converter):
            if state not in runs:
                runs[state] = list(list_visible_events(program_test, schedule.split()))
    return "".join(f"{state}\n" + "".join(f"  {event}\n" for event in runs[state]) for state in answers.filter_state_lines(answer.report))


def render_film(answer: Answer, converter: ProgramConverter, number: int, source: list[str]) -> str:
    """Returns the film of a run to the state of a number, counted from 1: a picture for each event, with its line of the source. Raises NoFilm if
    there is no such state.
    """
    states = answers.filter_state_lines(answer.report)
    if not 1 <= number <= len(states):
        raise NoFilm(f"the report has {len(states)} state{'s' * (len(states) != 1)}, and no state {number}")
    films.check_program()
    all_schedules = ((it, *schedule_pair) for it in answer.tests for schedule_pair in list_schedules(it, converter))
    program_test, schedule = next((it, schedule) for it, state, schedule in all_schedules if state == states[number - 1])
    try:
        film = films.make_film(plain.format_canonical_text(restore_question(program_test)).encode(), schedule, "mesi")
    except films.Refused as why:
        raise NoFilm(why.args[0]) from None
    # The lines of the source beside each instruction, and in the sentence on each step.
    for thread, cells in enumerate(film["cells"]):
        for cell in cells:
            cell["text"] += f"  ({format_lines(program_test.lines[thread][cell['at']])})" if cell["at"] < len(program_test.lines[thread]) else ""
    for event, before, effect in zip(film["events"], film["states"], film["effects"]):
        if event[0] == "P":
            lines = program_test.lines[int(event[1])][before["threads"][int(event[1])]["at"]]
            effect["words"] = " ".join([*(f"line {line}: {source[line - 1].strip()}" for line in sorted(lines)), f"({effect['words']})"])
    return draw_strip(film)


def list_schedules(program_test: ProgramTest, converter: ProgramConverter) -> Iterator[tuple[str, str]]:
    """Yields the states of a test that are not given up, by the names of the source, each with a schedule."""
    test, names = program_test.conversion.test, Names(converter, program_test.conversion.unmarked)
    shown = {plain.format_site(test, site) for site in plain.list_observed_sites(program_test.conversion.unmarked)}
    marks = [plain.format_site(test, site) for site in program_test.conversion.marks]
    lines = answers.make_answer(["schedules"], test).text.splitlines()[2:]
    for state, schedule in zip(lines[::2], lines[1::2]):
        words = parse_state(state)
        if all(words[mark] == 1 for mark in marks):
            shown_words = " ".join(f"{site}={word};" for site, word in words.items() if site in shown)
            yield names.translate_line(shown_words), schedule.strip()


def list_visible_events(program_test: ProgramTest, schedule: list[str]) -> Iterator[str]:
    """Yields the events of a schedule, without instructions that no other thread can see."""
    test = program_test.conversion.test
    state = plain.make_x86_start(test)
    for event in schedule:
        thread, processor = int(event[1]), state[0][int(event[1])]
        if event[0] == "D":
            yield f"D{thread}: the oldest store of P{thread} reaches memory"
        elif test.threads[thread][processor.position].kind in VISIBLE:
            instruction = test.threads[thread][processor.position]
            yield f"P{thread}, {format_lines(program_test.lines[thread][processor.position])}: {plain.format_instruction(test, instruction)}"
        state = dict(plain.list_x86_moves(test, state))[event]
