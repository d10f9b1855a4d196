#!/usr/bin/env python3
"""Draws the execution of a run: which write each read reads from, and in which order each location is written. Or says why no run ends in a state.

    python3 tools/graph.py SCHEDULE [FILE]
    python3 tools/graph.py --text SCHEDULE [FILE]
    python3 tools/graph.py --why-not STATE [FILE]
    python3 tools/graph.py --why-not all [FILE]
    python3 tools/graph.py --documents

The first prints a picture (SVG) of the run of an x86 test by a schedule, as `lw schedules` lists it; of a source test it is a run of
its compiled program. Its events are in columns by thread, or in rows if that is narrower, with arrows for program order (po), reads-from (rf,
within a thread rfi), coherence order (co, dashed) and from-reads (fr, dotted). If no interleaving has this run, a cycle of these is marked, and
in it each store and later load that x86-TSO may reorder: a fence is missing there. --text prints the same in words, with what the
axioms of x86-TSO say of it.

--why-not takes a state that the test does not end in, as a report's line (`0:EAX=0; 1:EAX=0;`, of a source test `0:r0=0; 1:r0=0;`), and
says of each candidate execution with that state which axiom it breaks, and by which cycle; `all` takes each state that some candidate
execution has and the axioms forbid. A source test is asked about in its own names, and what is said is of its compiled program.
tools/executions.py has the axioms. It looks at no more than 400,000 candidates, and says so if that is too few.
--documents draws the pictures in docs/pictures/ anew.
"""
from __future__ import annotations

import math
import re
import sys
from collections.abc import Collection, Sequence
from typing import NamedTuple, Tuple

sys.dont_write_bytecode = True
from shared import command, start
from shared.home import HOME
import executions
import given
import plain
from picture import EDGE, LETTER, LINE, Drawing
from shared.graph_layout import BASE, GraphLayout, Point, Route

# The pictures of the documents: the file, an example and a schedule.
DOCUMENTS = (("docs/pictures/SB-graph.svg", "SB-x86", "P0 P0 P1 P1 D0 D1"),)
MAX_CANDIDATES = 400_000
MAX_CYCLES = 6
MAX_DRAWN_CYCLES = 3
MAX_NAMED_READS = 4  # the number of reads of the initial word with a name at their arrow
LETTERS = "abcdefghijklmnopqrstuvwxyz"
# What the axioms forbid if a word of it is `?`: no state.
UNKNOWN_WORDS = "executions whose words are not known"
NONE_FORBIDDEN = "x86-TSO allows every state that some candidate execution has."
# Why a cycle teaches little about buffers and fences, each with its weight: cycles of less weight are printed and drawn first.
COMPUTED = "The code computes some of these words: they are no constants of the test."
ONE_LOCATION = "The accesses of one location contradict each other: store buffers and fences have no part in that."
UNKNOWN = "A word that is ? would follow only from itself."
WEIGHTS = {COMPUTED: 1, ONE_LOCATION: 2, UNKNOWN: 4}
NAMES = {"po": "program order", "rf": "reads-from", "co": "coherence order", "fr": "from-reads"}
# Relations are distinguished by their names and by the dashes of their lines: colours are those of threads and locations.
STYLE = """
path { fill: none; stroke: #1b1b1b; stroke-width: 1.4 } path.po { stroke: #8a8a8a } path.co { stroke-dasharray: 8 4 } path.fr { stroke-dasharray: 3 3 }
path.marked { stroke: #1b1b1b; stroke-width: 3.2 } path.co.marked { stroke-dasharray: 11 6 } path.fr.marked { stroke-dasharray: 4 5 }
path.pale { stroke-opacity: 0.4 }
marker path[class] { stroke-dasharray: none }
text.relation { font-weight: bold; paint-order: stroke; stroke: #fff; stroke-width: 4 }
@media (prefers-color-scheme: dark) {
path { stroke: #ececec } path.po { stroke: #8d939c } path.marked { stroke: #ececec } text.relation { stroke: #16181c }
}
"""


# Words.


# The words of the observed sites of a state.
Words = Tuple[int, ...]
# The key of a way, equal for two ways that are the same: the axiom, the cycle, and the cycle's events.
WayKey = Tuple[str, str, Tuple[str, ...]]


class DrawnCycle(NamedTuple):
    """A cycle that forbids a state: its picture, its words, and the sentences on why it teaches little, which are empty if it teaches much."""

    picture: str
    words: str
    drawbacks: str


class WhyNot(NamedTuple):
    """The lines on a state, or on all; the exit status; and the cycles that are drawn."""

    lines: list[str]
    status: int
    cycles: list[DrawnCycle]


class Names:
    """The letters of an execution's events, and what each does."""

    def __init__(self, execution: executions.Execution) -> None:
        """Gives each event of an execution a letter."""
        self.execution = execution
        letter = lambda index: LETTERS[index] if index < 26 else f"{LETTERS[index % 26]}{index // 26}"
        self.letters = {event: letter(index) for index, event in enumerate(execution.list_events())}

    def describe_event(self, event: executions.Event) -> str:
        """Returns the label of an event: R, W or U (a locked instruction) with a location and its words, or MFENCE."""
        statement = self.execution.find_instruction(event)
        if statement.kind == "mfence":
            return "MFENCE"
        location = self.execution.test.locations[statement.location]
        read, written = (format_word(row.get(event)) for row in (self.execution.read, self.execution.written))
        if statement.kind == "load":
            return f"R {location}={read}"
        return f"W {location}={written}" if statement.kind == "store" else f"U {location}={read}→{written}"

    def format_event(self, event: executions.Event) -> str:
        """Returns the line of an event: its letter, its thread and what it does."""
        return f"{self.letters[event]}: P{event.thread} {self.describe_event(event)}"

    def format_cycle(self, edges: list[executions.Edge]) -> str:
        """Returns a cycle in letters: a -fr-> b -po-> a."""
        first = self.letters[edges[0].source]
        return first + "".join(f" -{it.kind}-> {self.letters[it.target]}" for it in edges)


def format_word(word: int | None) -> str:
    """Returns a word in print: `?` if it is None, not known."""
    return "?" if word is None else str(word)


def list_direct_edges(edges: list[executions.Edge]) -> list[executions.Edge]:
    """Returns the edges that the others do not follow from: those without an event between."""
    pairs = {(it.source, it.target) for it in edges}

    def has_event_between(edge: executions.Edge) -> bool:
        """Returns whether two edges lead from an edge's source to its target."""
        return any((edge.source, event) in pairs and (event, edge.target) in pairs for _, event in pairs)

    return [it for it in edges if not has_event_between(it)]


def list_direct_fr_edges(execution: executions.Execution) -> list[executions.Edge]:
    """Returns, for each read, the edge to the first write after the one that it reads from."""
    direct_fr_edges: dict[executions.Event, executions.Edge] = {}
    for edge in execution.list_fr_edges():
        direct_fr_edges.setdefault(edge.source, edge)
    return list(direct_fr_edges.values())


def list_drawn_edges(execution: executions.Execution, marked: list[executions.Edge]) -> list[executions.Edge]:
    """Returns the edges that a picture has: those of the relations, and those of a cycle that is marked."""
    edges = [
        *list_direct_edges(execution.list_po_edges()), *execution.list_rf_edges(), *list_direct_edges(execution.list_co_edges()),
        *list_direct_fr_edges(execution),
    ]
    return edges + [it for it in marked if it not in edges]


def list_unpreserved_pairs(execution: executions.Execution, cycle: list[executions.Edge]) -> list[executions.Edge]:
    """Returns the pairs of program order in a cycle that x86-TSO does not preserve if no fence is between."""
    return [it for it in cycle or [] if it.kind == "po" and not execution.is_preserved(it)]


def find_missing_fences(execution: executions.Execution, cycle: list[executions.Edge]) -> list[executions.Edge]:
    """Returns the pairs of program order in a cycle that x86-TSO may reverse: a plain store and a later load with nothing between that waits."""
    return [it for it in list_unpreserved_pairs(execution, cycle) if not execution.has_fence_between(it)]


def format_execution(execution: executions.Execution) -> list[str]:
    """Returns an execution in words, with what the axioms say of it."""
    names, cycle = Names(execution), execution.find_cycle()
    lines = [names.format_event(it) for it in execution.list_events()]
    for kind, edges in (
        ("rf", execution.list_rf_edges()),
        ("co", list_direct_edges(execution.list_co_edges())),
        ("fr", list_direct_fr_edges(execution)),
    ):
        pairs = ", ".join(f"{names.letters[it.source]} -> {names.letters[it.target]}" for it in edges)
        lines.append(f"{NAMES[kind]} ({kind}): {pairs or 'none'}")
    starts = [names.letters[read] for read, source in execution.rf.items() if source is None]
    lines.append(f"reads of the initial word: {', '.join(starts) or 'none'}")
    lines.append(format_verdict(execution, names))
    if not cycle:
        lines.append("A run of interleaving: po, rf, co and fr have no cycle.")
        return lines
    lines.append(f"No run of interleaving: {names.format_cycle(cycle)}")
    for edge in find_missing_fences(execution, cycle):
        lines.append(f"An MFENCE between {names.letters[edge.source]} and {names.letters[edge.target]} would keep their order.")
    return lines


def format_verdict(execution: executions.Execution, names: Names) -> str:
    """Returns the line that says whether x86-TSO allows the execution."""
    broken = execution.find_broken_axiom()
    if not broken:
        return "x86-TSO allows it: coherence and global happens-before have no cycle."
    return f"x86-TSO forbids it: {broken[0]} has the cycle {names.format_cycle(broken[1])}"


# The picture.


def round_to_tenth(number: float) -> float:
    """Returns a number to a tenth."""
    return math.floor(number * 10 + 0.5) / 10


def format_point(point: Point) -> str:
    """Returns a point, as a path has it."""
    x, y = point
    return f"{round_to_tenth(x):g} {round_to_tenth(y):g}"


def format_event_place(event: executions.Event) -> str:
    """Returns the place of an event in its test, as THREAD:POSITION, by which the page finds its instruction."""
    return f"{event.thread}:{event.position}"


def draw_edge(drawing: Drawing, layout: GraphLayout, route: Route, look: str) -> None:
    """Draws an arrow along the curves of a route. `look` is how, as a further class, or empty."""
    kind = route.edge.kind if route.edge else "rf"
    curves = layout.make_picture_curves(route)
    path = f"M{format_point(curves[0][0])} " + " ".join(f"C{' '.join(map(format_point, points))}" for _, *points in curves)
    start = "" if route.way == "start" else f'data-from="{format_event_place(route.source)}" '
    ends = f'{start}data-to="{format_event_place(route.target)}"'
    drawing.elements.append(f'<path class="{kind}{look and " " + look}" {ends} marker-end="url(#to-{kind})" d="{path}"/>')


def draw_label(drawing: Drawing, layout: GraphLayout, route: Route, name: str) -> None:
    """Writes the name of a relation at its arrow."""
    x, y = layout.place_label(route, len(name))
    drawing.draw_text(round_to_tenth(x - (len(name) * LETTER) / 2), round_to_tenth(y + 4), name, "relation")


def can_be_reversed(execution: executions.Execution, edge: executions.Edge) -> bool:
    """Returns whether x86-TSO may reverse an arrow: a thread that reads its own store, and program order that is not preserved."""
    return format_label(edge) == "rfi" or bool(list_unpreserved_pairs(execution, [edge]))


def format_label(edge: executions.Edge) -> str:
    """Returns the name of a relation at its arrow: a thread that reads its own store is marked."""
    return "rfi" if edge.kind == "rf" and edge.source.thread == edge.target.thread else edge.kind


def make_markers() -> str:
    """Returns the heads of the arrows, by relation."""
    head = '<marker id="to-{0}" viewBox="0 0 8 8" refX="7" refY="4" markerWidth="9" markerHeight="9" orient="auto" markerUnits="userSpaceOnUse">'
    head += '<path class="{0}" d="M1 1 L7 4 L1 7"/></marker>'
    return "<defs>" + "".join(head.format(it) for it in NAMES) + "</defs>"


def draw_events(
    drawing: Drawing, layout: GraphLayout, execution: executions.Execution, texts: dict[executions.Event, str], marked: Collection[executions.Event]
) -> None:
    """Draws the events, thread by thread, and marks those of a cycle."""
    for thread, events in enumerate(layout.threads):
        drawing.draw_text(*layout.find_title(thread), f"P{thread}", "title")
        for event in events:
            x, y = layout.find_corner(event)
            kind = "entry" if execution.find_instruction(event).kind == "store" else "box"
            drawing.elements.append(f'<g data-at="{format_event_place(event)}">')
            drawing.draw_box(x, y, *layout.box, f"{kind} marked" if event in marked else kind)
            drawing.draw_text(x + layout.room.beside, y + BASE, texts[event])
            drawing.elements.append("</g>")


def format_caption(
    names: Names, cycle: list[executions.Edge], broken: tuple[str, list[executions.Edge]] | None, missing: list[executions.Edge]
) -> list[str]:
    """Returns the caption below a picture."""
    if broken:
        return [f"Marked: a cycle, against {broken[0]}."]
    verdict = "Marked: a cycle, so no run of interleaving." if cycle else "No cycle: a run of interleaving, too."
    return [verdict, *(f"{names.letters[it.source]}, then {names.letters[it.target]}: no fence between" for it in missing)]


def draw_execution(execution: executions.Execution, title: str, broken: tuple[str, list[executions.Edge]] | None = None) -> str:
    """Returns the picture of an execution. Marked is a cycle: if x86-TSO forbids it, that of the axiom that it breaks (`broken`), and otherwise one
    of program order and communication, if there is one. In a forbidden one the arrows that x86-TSO may reverse are pale, unless they are in the cycle.
    """
    names, cycle = Names(execution), broken[1] if broken else execution.find_cycle() or []
    missing = [] if broken else find_missing_fences(execution, cycle)
    texts = {it: f"{names.letters[it]}: {names.describe_event(it)}" for it in execution.list_events()}
    initial = [read for read, source in execution.rf.items() if source is None]
    # The arrows are drawn below the events, and the labels above both.
    layout = GraphLayout(execution, texts, list_drawn_edges(execution, cycle if broken else list_unpreserved_pairs(execution, cycle)), initial)
    drawing = Drawing()
    drawing.elements += [f"<style>{STYLE}</style>", make_markers()]
    for route in [*layout.routes, *layout.starts]:
        is_pale = broken is not None and route.edge is not None and can_be_reversed(execution, route.edge)
        draw_edge(drawing, layout, route, "marked" if route.edge in cycle else "pale" if is_pale else "")
    draw_events(drawing, layout, execution, texts, {edge.source for edge in cycle} if broken else ())
    for route in layout.starts if len(initial) <= MAX_NAMED_READS else ():
        draw_label(drawing, layout, route, "init")
    for route in layout.routes:
        if route.edge and (route.edge.kind != "po" or route.edge in cycle):
            draw_label(drawing, layout, route, format_label(route.edge))
    lines = format_caption(names, cycle, broken, missing)
    wide, high = layout.size
    for index, text in enumerate(lines):
        drawing.draw_text(EDGE, high + LINE * (index + 1) - 5, text, "faint")
    width = max([wide] + [len(it) * LETTER + 2 * EDGE for it in lines])
    return drawing.make_svg(width, high + LINE * len(lines) + EDGE, title)


# Why not.


def parse_state(test: plain.Test, line: str) -> dict[plain.Site, int]:
    """Returns the words of a report's line, by site. Raises Fault unless the line names exactly what the test shows."""
    pairs = re.findall(r"([^\s=;]+)=([0-9]+);", line)
    word_of_name = dict(pairs)
    names = {plain.format_site(test, site): site for site in plain.list_observed_sites(test)}
    if sorted(name for name, _ in pairs) != sorted(names) or not re.fullmatch(r"(?:\s*[^\s=;]+=[0-9]+;)*\s*", line):
        raise given.Fault(f"the test shows {' '.join(f'{it}=..;' for it in names)}, and the state has to name these", 0)
    return {names[name]: int(word) for name, word in word_of_name.items()}


class Way:
    """A way in which the axioms forbid a state: the axiom and its cycle, with the clearest execution that has it (`execution`, and `broken`, what that
    violates), and how many have it (`times`).
    """

    def __init__(self, execution: executions.Execution, broken: tuple[str, list[executions.Edge]]) -> None:
        """Describes the cycle by which an execution breaks an axiom."""
        self.execution, self.broken, self.times = execution, broken, 0
        names = Names(execution)
        self.axiom, self.cycle = broken[0], names.format_cycle(broken[1])
        self.events = tuple(names.format_event(event) for event in dict.fromkeys(it.source for it in broken[1]))
        self.drawbacks = list_drawbacks(execution, broken[1])

    @property
    def weight(self) -> int:
        """Returns how little the cycle teaches about buffers and fences."""
        return sum(WEIGHTS[it] for it in self.drawbacks)

    def make_key(self) -> WayKey:
        """Returns what distinguishes this way: two executions have the same if they break the same axiom by the same cycle with the same words."""
        return self.axiom, self.cycle, self.events

    def add(self, other: Way) -> None:
        """Counts an execution of the same way, and takes it in place of this one's if it is clearer."""
        self.times += 1
        if other.weight < self.weight:
            self.execution, self.broken, self.drawbacks = other.execution, other.broken, other.drawbacks

    def make_rank(self) -> tuple[int, bool, bool, int, int]:
        """Returns the key by which the ways of a state are sorted: the clearest are first, then those of several threads, those through a fence or a locked
        instruction, the shortest, and the most frequent.
        """
        events = [it.source for it in self.broken[1]]
        is_plain = all(self.execution.find_instruction(it).kind in ("store", "load") for it in events)
        return self.weight, len({it.thread for it in events}) == 1, is_plain, len(self.events), -self.times


def list_constants(test: plain.Test) -> set[int]:
    """Returns the words that a test's code and initial block have."""
    values = [it.value for code in test.threads for it in code]
    return {*test.words, *(word for row in test.registers for word in row), *(it.word for it in values if isinstance(it, plain.Number))}


def list_drawbacks(execution: executions.Execution, cycle: list[executions.Edge]) -> list[str]:
    """Returns why a cycle teaches little about buffers and fences: it is of one location, or words are computed in it, or unknown in its execution."""
    events = [it.source for it in cycle]
    locations = {execution.find_instruction(it).location for it in events} - {None}
    of_one_location = [ONE_LOCATION] if len(locations) == 1 else []
    if None in [*(execution.read[it] for it in execution.rf), *execution.written.values()]:
        return [*of_one_location, UNKNOWN]
    words = {words[it] for words in (execution.read, execution.written) for it in events if words.get(it) is not None}
    return [*of_one_location, COMPUTED] if words - list_constants(execution.test) else of_one_location


def list_forbidden_states(
    test: plain.Test, state: dict[plain.Site, int] | None, max_candidates: int
) -> tuple[set[Words], dict[Words, dict[WayKey, Way]]]:
    """Returns the states that the axioms allow; and for each state that some candidate executions have, all of which the axioms forbid, the ways in
    which they do.

    If `state` has words, other states are left out. Raises TooMany if there are more than `max_candidates` candidate executions.
    """
    allowed: set[Words] = set()
    broken: dict[Words, dict[WayKey, Way]] = {}
    sites = plain.list_observed_sites(test)
    for execution in executions.list_candidates(test, max_candidates):
        # Executions of states that are known to be allowed, and of others than the one that is asked about, are passed over.
        outcome = execution.make_outcome()
        words = tuple(plain.read_word(site, outcome) for site in sites)
        if words in allowed or state is not None and any(None is not a != state[site] for a, site in zip(words, sites)):
            continue
        broken_axiom = execution.find_broken_axiom()
        if not broken_axiom:
            allowed.add(words)
            broken.pop(words, None)
            continue
        way = Way(execution, broken_axiom)
        broken.setdefault(words, {}).setdefault(way.make_key(), way).add(way)
    return allowed, broken


def sort_forbidden_states(broken: dict[Words, dict[WayKey, Way]]) -> list[tuple[Words, list[Way]]]:
    """Returns the states that are forbidden, sorted by their words (unknown ones last), each with the ways in which it is, the clearest first."""
    ordered = sorted(broken.items(), key=lambda it: [(word is None, word or 0) for word in it[0]])
    return [(words, sorted(ways.values(), key=Way.make_rank)) for words, ways in ordered]


def format_state(test: plain.Test, words: Words) -> str:
    """Returns the line of a state, as a report has it."""
    return " ".join(f"{plain.format_site(test, site)}={format_word(word)};" for site, word in zip(plain.list_observed_sites(test), words))


def draw_cycle(test: plain.Test, way: Way, line: str) -> DrawnCycle:
    """Returns a way as a picture with its words, which begin with the line of the state if several states are explained."""
    words = f"{way.axiom}: {way.cycle}"
    return DrawnCycle(draw_execution(way.execution, f"{test.name}: {way.cycle}", way.broken), f"{line} {words}" if line else words, " ".join(way.drawbacks))


def explain_state(test: plain.Test, words: Words, ways: list[Way]) -> list[str]:
    """Returns the lines on a state that the axioms forbid, or on executions with words that are not known, which end in no state."""
    unknown = f"{UNKNOWN_WORDS}: " if None in words else ""
    lines = [f"x86-TSO forbids {unknown}{format_state(test, words)}", *(f"  {sentence}" for sentence in ways[0].drawbacks)]
    for way in ways[:MAX_CYCLES]:
        breaking = "1 candidate execution breaks" if way.times == 1 else f"{way.times} candidate executions break"
        lines += [f"  {breaking} {way.axiom}: {way.cycle}", *(f"    {event}" for event in way.events)]
    if len(ways) > MAX_CYCLES:
        lines.append(f"  and {len(ways) - MAX_CYCLES} other cycles")
    return lines


def explain_states(test: plain.Test, state: str) -> WhyNot:
    """Returns the lines on a state, given as a report's line, or on all of them (`all`); the exit status; and the cycles that are drawn: the clearest
    ones. Raises Fault if the line has other names than those that the test shows.
    """
    state_words = None if state == "all" else parse_state(test, state)
    try:
        allowed, broken = list_forbidden_states(test, state_words, MAX_CANDIDATES)
    except executions.TooMany:
        return WhyNot([f"More than {MAX_CANDIDATES} candidate executions: that is too many for this tool."], 1, [])
    if state_words is not None and tuple(state_words[site] for site in plain.list_observed_sites(test)) in allowed:
        return WhyNot(["x86-TSO allows this state: `lw schedules` lists it with a schedule."], 1, [])
    if not broken:
        no_state = f"No candidate execution ends in {state} No choice of paths and reads gives these values together."
        return WhyNot([no_state if state_words else NONE_FORBIDDEN], 0, [])
    states = sort_forbidden_states(broken)
    least = min(ways[0].weight for _, ways in states)
    drawn = [(words, it) for words, ways in states for it in ways if it.weight == least][:MAX_DRAWN_CYCLES]
    cycles = [draw_cycle(test, it, format_state(test, words) if state_words is None else "") for words, it in drawn]
    return WhyNot([line for words, ways in states for line in explain_state(test, words, ways)], 0, cycles)


def explain_states_of_any(test: plain.Test, state: str) -> WhyNot:
    """Returns what `explain_states` does for a test of either language, in its own names: a source test's registers are those of its compiled
    program, by their numbers. Raises Fault if the state has other names than those that the test shows.
    """
    program = plain.compile_test(test)
    if test.language == "X86":
        return explain_states(program, state)
    try:
        explanation = explain_states(program, rename_registers(state, plain.REGISTERS["SRC"], plain.REGISTERS["X86"]))
    except given.Fault as fault:
        raise given.Fault(rename_to_source(fault.args[0]), *fault.args[1:]) from None
    cycles = [it._replace(words=rename_to_source(it.words)) for it in explanation.cycles]
    return explanation._replace(lines=[rename_to_source(line) for line in explanation.lines], cycles=cycles)


def rename_to_source(words: str) -> str:
    """Returns words in which registers have their names of the source language."""
    return rename_registers(words, plain.REGISTERS["X86"], plain.REGISTERS["SRC"])


def rename_registers(words: str, before: Sequence[str], after: Sequence[str]) -> str:
    """Returns words in which registers have their names of another language, by their numbers."""

    def rename(match: re.Match[str]) -> str:
        """Returns a site with its register's other name; another site as it is."""
        return f"{match[1]}:{after[before.index(match[2])]}" if match[2] in before else match[0]

    return re.sub(r"\b([0-3]):([A-Za-z][A-Za-z0-9_]*)\b", rename, words)


# The command line.


def draw_document_picture(example: str, schedule: str) -> str:
    """Returns a picture of the documents."""
    with open(f"{HOME}/examples/{example}.litmus", encoding="utf-8") as file:
        test = plain.compile_test(plain.read_test(file.read()))
    return draw_execution(executions.make_execution(test, schedule), f"{test.name}, the execution of {schedule}")


def write_documents() -> None:
    """Writes the graphs of the documents."""
    for path, *example_and_schedule in DOCUMENTS:
        with open(f"{HOME}/{path}", "w", encoding="utf-8") as file:
            file.write(draw_document_picture(*example_and_schedule))


def print_why_not(state: str, text: str) -> int:
    """Prints why a test does not end in a state. Returns the exit status."""
    lines, status, _ = explain_states_of_any(plain.read_test(text), state)
    print("\n".join(lines))
    return status


def print_graph(schedule: str, in_words: bool, text: str) -> int:
    """Prints a picture of a run, or the same in words. Returns the exit status."""
    test = plain.compile_test(plain.read_test(text))
    try:
        execution = executions.make_execution(test, schedule)
    except plain.NoSchedule as fault:
        return given.refuse("lw: schedule {} {} at {}".format(*fault.args))
    except (plain.Refused, IndexError) as why:
        return given.refuse(f"graph: the schedule is no run to the end: {why.args[-1]}")
    if in_words:
        print("\n".join(format_execution(execution)))
    else:
        print(draw_execution(execution, f"{test.name}, the execution of {schedule}"), end="")
    return 0


def main() -> int:
    """Runs the command that the arguments describe. Returns the exit status."""
    given.set_output_encoding()
    reader = command.Reader(__doc__)
    choices = reader.add_mutually_exclusive_group()
    choices.add_argument("--text", action="store_true")
    choices.add_argument("--why-not", metavar="STATE")
    choices.add_argument("--documents", action="store_true")
    reader.add_argument("others", nargs="*")
    arguments = reader.read()
    if arguments.documents and not arguments.others:
        write_documents()
        return 0
    is_run = arguments.why_not is None and not arguments.documents
    if is_run and not arguments.others:
        reader.error("a SCHEDULE is missing")
    if is_run and "." in arguments.others[0]:
        reader.error(f"a SCHEDULE, such as 'P0 P0 P1 P1 D0 D1', is missing before {arguments.others[0]}")
    files = arguments.others[int(is_run) :]
    if arguments.documents or len(files) > 1:
        reader.error(f"unrecognized arguments: {' '.join(files)}")
    if is_run:
        answer = lambda _name, text: print_graph(arguments.others[0], arguments.text, text)
    else:
        answer = lambda _name, text: print_why_not(arguments.why_not, text)
    return command.for_one("graph", (files or [given.STANDARD_INPUT])[0], answer)


if __name__ == "__main__":
    sys.exit(start.run(main))
