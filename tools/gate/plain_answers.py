"""Answers what the page asks for by other means than its JavaScript: for tools/gate/check_site.mjs, which compares.

    python3 tools gate.plain_answers

Each line of standard input is a question as JSON, as web/questions.js takes it; each printed line is its answer. Reports,
schedules, compiled texts and replays are the program's; tools/plain.py gives the marks on states, the rows of statements, texts without
fences, and the schedule of a source run; tools/fences.py gives the table of fences, and tools/picture.py and tools/graph.py draw.
"""
from __future__ import annotations

import json
import re
import sys
from collections.abc import Callable, Iterator, Sequence
from typing import Dict, TypedDict

import executions
import fences
import films
import given
import graph
import picture
import plain
from effects import describe_refusal
from fencing import exchanges
from films import Film, Refused, make_film, parse_language, replay_schedule
from replay_state import State, is_final_in
from shared import command
from shared.matches import require_match

MAX_BYTES = 65537
MAX_STATES = 200_000
FAULT = re.compile(r"lw: (text|cell|schedule) (\d+) (\w+) at (\d+)")
LIMIT = re.compile(r"lw: limit (\d+) (\w+)")


# A value that JSON can have, by its names.
Answer = Dict[str, object]


class ListedState(TypedDict):
    """A state of a report: its index, its line, and whether the proposition is true there, or None if that is not known."""

    index: int
    line: str
    holds: bool | None


class NoAnswer(Exception):
    """There is no answer: why, and in `more` the further fields of what is answered."""

    def __init__(self, why: str, **fields: object) -> None:
        """Makes the exception of a sentence and of further fields."""
        super().__init__(why)
        self.more = fields


def memoize(ask_once: Callable[[list[str], bytes], str]) -> Callable[[list[str], bytes], str]:
    """Returns a function that calls `ask_once` only once for the same words and text, and then answers from memory."""
    results = {}

    def ask(arguments: list[str], text: bytes) -> str:
        """Returns the program's output."""
        key = (tuple(arguments), text)
        if key not in results:
            results[key] = ask_once(arguments, text)
        return results[key]

    return ask


ask = memoize(films.ask_program)
films.ask_program = ask  # type: ignore[assignment]


def make_fault(line: str, status: int, text: bytes, schedule: str) -> Answer:
    """Returns a fault with its place: the row and the column, which counts characters, and the index in JavaScript's string."""
    fault: Answer = {"line": line, "status": status}
    if match := FAULT.fullmatch(line):
        position = int(match[4])
        front = (schedule.encode() if match[1] == "schedule" else text)[:position].decode(errors="replace")
        last = front.rpartition("\n")[2]
        fault.update(kind=match[1], number=int(match[2]), name=match[3], place=position)
        fault.update(row=front.count("\n") + 1, column=len(last) + 1, index=len(front.encode("utf-16-le")) // 2)
    elif match := LIMIT.fullmatch(line):
        fault.update(kind="limit", number=int(match[1]), name=match[2])
    return fault


# Lists.


def make_marker(text: bytes) -> Callable[[str], bool | None]:
    """Returns of a state's line whether tools/plain.py finds a test's proposition true there, or None if that is not known."""
    try:
        test = plain.read_test(text.decode())
    except (plain.NoTest, UnicodeDecodeError, RecursionError):
        return lambda line: None

    def holds(line: str) -> bool | None:
        """Returns whether the proposition is true in the state of a line. None if that is not known."""
        words = [int(word) for word in re.findall(r"=(\d+);", line)]
        return plain.is_true_in(test.proposition, plain.make_outcome_from_words(test, words))

    return holds


def make_report(text: bytes) -> Answer:
    """Returns the report of a test. It has at most MAX_STATES states of each kind: the first ones, and the first in which the proposition is true."""
    lines = ask(["states"], text).splitlines()
    head, number = lines[:2], int(lines[1].split()[1])
    positive = int(require_match(re.match(r"Positive: (\d+)", lines[2 + number + 1]))[1])
    marks = (lambda line: positive > 0) if positive in (0, number) else make_marker(text)
    states: list[ListedState] = []
    holding = 0
    for index, line in enumerate(lines[2 : 2 + number]):
        holds = marks(line)
        holding += holds is True
        if index < MAX_STATES or holds and holding <= MAX_STATES:
            states.append({"index": index, "line": line, "holds": holds})
    return make_report_parts(head, number, states, lines[2 + number :], holding)


def make_report_parts(head: list[str], number: int, states: list[ListedState], tail: list[str], holding: int) -> Answer:
    """Returns a report's parts. States are marked only if as many were found as the report counts."""
    positive = int(require_match(re.match(r"Positive: (\d+)", tail[1]))[1])
    is_marked = positive == holding and all(it["holds"] is not None for it in states)
    for state in states if not is_marked else []:
        state["holds"] = None
    return {
        "head": head,
        "number": number,
        "states": states,
        "tail": tail,
        "is_marked": is_marked,
        "left_out": number - len(states),
        "most": MAX_STATES,
        "asked": head[0].rpartition(" ")[2],
        "verdict": tail[0],
        "positive": positive,
        "condition": tail[2].partition(" ")[2],
    }


def make_ending(text: bytes, state: State) -> Answer | None:
    """Returns of a run that is final the program's line of its state, the condition, and whether its proposition is true there; or None."""
    if state["end"]["kind"] != "Final":
        return None
    try:
        condition = plain.format_condition(plain.read_test(text.decode()))
    except (plain.NoTest, UnicodeDecodeError, RecursionError):
        return None
    lines = ask(["states"], text).splitlines()
    line = next(it for it in lines[2 : 2 + int(lines[1].split()[1])] if is_final_in(state, it))
    return {"line": line, "condition": condition, "holds": make_marker(text)(line)}


def find_schedule(text: bytes, state: str) -> str:
    """Returns the schedule that the program lists to a state. Raises NoAnswer if there is none."""
    lines = ask(["schedules"], text).splitlines()[2:]
    schedule = dict(zip(lines[::2], lines[1::2])).get(state)
    if schedule is None:
        raise NoAnswer(f"The test does not end in `{state}`.")
    return schedule.strip()


# The source run.


def make_source_schedule(test: plain.Test, film: Film) -> str:
    """Returns the schedule of the source run that a compiled program's run follows: a step where an instruction begins a statement."""
    starts = [set(list_statement_starts(statements)) for statements in test.threads]
    steps = []
    for event, before in zip(film["events"], film["states"]):
        thread = int(event[1])
        if event[0] == "P" and before["threads"][thread]["at"] in starts[thread]:
            steps.append(event)
    return " ".join(steps)


def list_statement_starts(statements: Sequence[plain.Statement]) -> Iterator[int]:
    """Yields the index of the first instruction of each statement of a compiled thread."""
    fenced, begin = plain.find_fenced_loads(statements), 0
    for number, statement in enumerate(statements):
        yield begin
        begin += (number in fenced) + len(plain.compile_statement(statement))


def make_source_film(text: bytes, compiled_film: Film, state: str) -> Film | None:
    """Returns the film of the source run to a state, or None if that run is not known to end there."""
    try:
        film = make_film(text, make_source_schedule(plain.read_test(text.decode()), compiled_film), "mesi")
    except (plain.NoTest, RecursionError, Refused):
        return None
    return film if is_final_in(film["states"][-1], state) else None


# Questions.


def answer_states(text: bytes) -> Answer:
    """Returns the report of a test. (The words on its verdict are typed in tools/gate/check_site.mjs.)"""
    return {"report": make_report(text), "language": parse_language(text)}


def answer_film(text: bytes, state: str, protocol: str) -> Answer:
    """Returns the film to a state; of a source test that of its compiled program, and that of the source run."""
    schedule = find_schedule(text, state)
    is_source = parse_language(text) == "SRC"
    film = make_film(ask(["compile"], text).encode() if is_source else text, schedule, protocol)
    films: dict[str, Film | None] = {"x86": film}
    if is_source:
        films["source"] = make_source_film(text, film, state)
    return {"state": state, "schedule": schedule, "films": films}


def answer_moves(text: bytes, schedule: str, protocol: str, whole: bool = False) -> Answer:
    """Returns the answer on the state that a schedule reaches: the state, the one before, the last effect, how the run ends if it is final, and each
    event with its cause if the machine refuses it; with `whole` also `list_set_registers`. Raises NoAnswer if an event of the schedule is refused.
    """
    state = replay_schedule(text, schedule, protocol)
    end = state["end"]
    if end["kind"] == "Stopped":
        event = schedule.split()[end["at"]]
        why = f"Event {end['at'] + 1} of the schedule, {event}, is refused: {describe_refusal(end['number'])}."
        raise NoAnswer(why, refused={"event": event, "at": end["at"], "number": end["number"], "cause": end["cause"]})
    # Each event that could be next, by a replay that has it at its end.
    is_x86 = parse_language(text) == "X86"
    moves = []
    for thread in range(len(state["threads"])):
        evictions = [f"E{thread}:{name}" for name, _ in state["content"]] if is_x86 else []
        for event in [f"P{thread}"] + [f"D{thread}"] * is_x86 + evictions:
            ended = replay_schedule(text, f"{schedule} {event}", protocol)["end"]
            why_not = {"number": ended["number"], "cause": ended["cause"]} if ended["kind"] == "Stopped" else None
            moves.append({"event": event, "thread": thread, "refused": why_not})
    # The last effect, and the state before it.
    film = make_film(text, schedule, protocol)
    effect, before = film["effects"][-1] if film["effects"] else None, film["states"][-2:][0]
    answer: Answer = {
        "state": state, "before": before, "effect": effect, "written": list_set_registers(film) if whole else None, "ending": make_ending(text, state)
    }
    return {**answer, "moves": moves, "cells": film["cells"], "language": parse_language(text)}


def list_set_registers(film: Film) -> list[list[str]] | None:
    """Returns, for each thread, the registers that the events of a film have put words into; None if there are more than 100 events."""
    put: list[list[str]] = [[] for _ in film["cells"]]
    for effect in film["effects"]:
        if effect.get("register") is not None and effect["register"] not in put[effect["thread"]]:
            put[effect["thread"]].append(effect["register"])
    return put if len(film["effects"]) <= 100 else None


def answer_compile(text: bytes) -> Answer:
    """Returns a test beside its compiled program, with fences and without."""
    compiled = ask(["compile"], text)
    program = plain.read_test(compiled)
    places = fences.list_fences(program)
    bare = plain.format_canonical_text(fences.remove_fences(program, places))
    answer: Answer = {"language": parse_language(text), "compiled": compiled, "bare": bare, "cells": films.list_x86_cells(compiled), "fences": places}
    answer["bare_cells"] = films.list_x86_cells(bare)
    if answer["language"] == "SRC":
        answer["cells_of_source"] = films.list_source_cells(plain.read_test(text.decode()))
    return answer


def answer_fences(text: bytes, everything: bool) -> Answer:
    """Returns the table of tools/fences.py, the makers of its lists, and for each row the text without its fence."""
    test = plain.read_test(ask(["compile"], text))
    compared = fences.show_everything(test) if everything else test
    texts = [plain.format_canonical_text(fences.remove_fences(compared, [fence])) for fence in fences.list_fences(compared)]
    table = fences.make_fence_table(compared)
    # The page makes lists that the program refuses by a plain interpreter of its own, and not by a search.
    table["answered_by"] = sorted({it if it == "program" else "plain" for it in table["answered_by"]})
    return {"table": table, "condition": plain.format_condition(test), "texts": texts, "language": parse_language(text)}


def answer_more_fences(text: bytes) -> Answer:
    """Returns the places of fences that would leave no unwanted state, as tools/fences.py finds them; of a source test nothing."""
    if parse_language(text) == "SRC":
        return {"fenced": None}
    test = plain.read_test(ask(["compile"], text))
    fences.lists.clear()
    fenced = lambda places: fences.insert_fences(test, sorted(places))
    sets = fences.find_helping_sets(test) if fences.count_unwanted_states(test) else []
    shown = [
        {
            "places": [fences.format_new_place(test, place) for place in places],
            "text": plain.format_canonical_text(fenced(places)),
            "states": len(fences.list_states(fenced(places))),
        }
        for places in sets[:6]
    ]
    number = len(fences.list_fence_places(test))
    return {"fenced": {"number": number, "isAnswered": not fences.count_unwanted_states(test), "sets": shown, "more": len(sets) - len(shown)}}


def answer_exchanges(text: bytes, everything: bool) -> Answer:
    """Returns of each exchange its place, what tools/fences.py tries in its place, and the states that are added by that; its place if no register is free."""
    read = plain.read_test(ask(["compile"], text))
    test = fences.show_everything(read) if everything else read
    fences.lists.clear()
    rows: list[Answer] = []
    for thread, position in exchanges.list_exchanges(test):
        row: Answer = {"place": f"P{thread} at {position}, {plain.format_instruction(test, test.threads[thread][position])}"}
        instructions = exchanges.make_unlocked_instructions(test, (thread, position))
        if instructions:
            unlocked, known = exchanges.replace_instruction(test, (thread, position), instructions), set(fences.list_states(test))
            row["words"] = exchanges.format_instructions(instructions)
            row["added"] = [line for line in fences.list_states(unlocked) if line not in known]
            row["text"] = plain.format_canonical_text(unlocked)
        rows.append(row)
    return {"exchanges": rows}


def answer_enough_together(text: bytes, everything: bool) -> Answer:
    """Returns the smallest sets of a test's fences and locks that add no state, with the text of each."""
    read = plain.read_test(ask(["compile"], text))
    test = fences.show_everything(read) if everything else read
    fences.lists.clear()
    removable = exchanges.list_removable(test)
    places = list(removable)
    sets = fences.find_sets_together(test)
    words = lambda place: f"P{place[0]} at {place[1]}, {plain.format_instruction(test, test.threads[place[0]][place[1]])}"
    left_out = lambda kept: {place: it for place, it in removable.items() if place not in kept}
    shown = [
        {"kept": list(map(places.index, kept)), "text": plain.format_canonical_text(exchanges.leave_out(read, left_out(kept)))} for kept in sets[:6]
    ]
    named = [words(place) if removable[place] else fences.format_fence_place(test, place) for place in places]
    return {"together": {"places": named, "states": len(fences.list_states(test)), "sets": shown, "more": len(sets) - len(shown)}}


def answer_interleaved(text: bytes) -> Answer:
    """Returns the lines of the states of an x86 test that interleaving on one memory gives."""
    test = plain.read_test(ask(["compile"], text))
    reached = plain.explore_states(test, plain.make_x86_start(test), plain.list_interleaved_moves)[0]
    return {"interleaved": [plain.format_state(test, words) for words, _ in plain.collect_states(test, reached)]}


def answer_picture(text: bytes, schedule: str, protocol: str, strip: bool) -> Answer:
    """Returns a picture of the last state of a schedule, or a strip of all of them."""
    film = make_film(text, schedule, protocol)
    return {"picture": picture.draw_strip(film) if strip else picture.draw_film_state(film, len(film["events"]))}


def answer_graph(text: bytes, schedule: str) -> Answer:
    """Returns the execution of a run to its end, of a source test one of its compiled program, as a picture and in words. Raises NoAnswer if the run
    is not final.
    """
    canonical = ask(["compile"], text)
    if replay_schedule(canonical.encode(), schedule, "mesi")["end"]["kind"] != "Final":
        raise NoAnswer("The schedule is no run to the end.", isUnended=True)
    test = plain.read_test(canonical)
    execution = executions.make_execution(test, schedule)
    title = f"{test.name}, the execution of {schedule}"
    return {"graph": graph.draw_execution(execution, title), "words": graph.format_execution(execution), "hasCycle": bool(execution.find_cycle())}


def answer_why_not(text: bytes, state: str) -> Answer:
    """Returns why a test does not end in a state, with the cycles that forbid it. Raises NoAnswer if the state has other names than those that the
    test shows.
    """
    ask(["compile"], text)
    try:
        lines, _, cycles = graph.explain_states_of_any(plain.read_test(text.decode()), state)
    except given.Fault as why:
        message = why.cause
        raise NoAnswer(f"{message[0].upper()}{message[1:]}.") from None
    drawn = [{"graph": it.picture, "words": it.words, "kind": it.drawbacks} for it in cycles]
    return {"lines": lines, "cycles": drawn, "language": parse_language(text)}


QUESTIONS: dict[str, Callable[..., Answer]] = {
    "states": answer_states,
    "film": answer_film,
    "moves": answer_moves,
    "compile": answer_compile,
    "fences": answer_fences,
    "more fences": answer_more_fences,
    "exchanges": answer_exchanges,
    "enough together": answer_enough_together,
    "interleaved": answer_interleaved,
    "picture": answer_picture,
    "graph": answer_graph,
    "why not": answer_why_not,
}


def answer_question(question: str, text: str = "", **fields: object) -> Answer:
    """Returns the answer to a question on a text."""
    try:
        return QUESTIONS[question](text.encode()[:MAX_BYTES], **fields)
    except Refused as why:
        return {"fault": make_fault(*why.args)}
    except NoAnswer as why:
        return {"error": why.args[0], **why.more}
    except films.NoFilm as why:
        return {"error": why.args[0]}
    except (plain.NoTest, RecursionError):
        return {"error": "not read"}


def main() -> None:
    """Runs the command that the arguments describe."""
    for line in sys.stdin:
        print(json.dumps(answer_question(**json.loads(line))), flush=True)


if __name__ == "__main__":
    sys.exit(command.run_command(main, __doc__))
