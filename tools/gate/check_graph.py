"""Compares the axioms of tools/executions.py with the machine, and checks what tools/graph.py draws. The last line is
'N passed, M failed'.

    python3 tools gate.check_graph

- For each listed state of each example: the execution of its schedule satisfies the axioms, and what it reads, its registers and its memory
  are those of tools/plain.py's replay of the schedule.
- The outcomes that the axioms allow are those that tools/plain.py finds by its walk: for the classic shapes, and for random tests.
- Why not: for each outcome of the classic shapes that candidate executions have and the machine has not, the tool prints a cycle of the
  relations that the axiom is about; and it calls no state that the machine has forbidden. First come cycles through several locations, of known
  words; if there is none, it says so.
- Each row of docs/FAMILIES.md: the execution that its test asks about has the row's cycle, and if x86-TSO forbids it, that is a cycle
  of global happens-before.
- In the picture of each of these executions no arrow crosses a box, no label lies over a box, over another label or out of it, and at most
  one lies over an arrow of another edge.
- No fence is missed between two events that have a fence or a locked instruction between them.
- What the tool prints and refuses.

The program lists the states if it is built, otherwise tools/plain.py. tools/check_documents.py calls this.
"""
from __future__ import annotations

import glob
import os
import re
import subprocess
import sys
import xml.etree.ElementTree
from collections.abc import Callable, Iterable, Iterator
from concurrent.futures import ProcessPoolExecutor

from shared import command
from shared.home import HOME, PROGRAM, close_check
import executions
import graph
import plain
import random_tests
from gate.cases import Comparison
from shared.graph_layout import find_curve_point

# The most candidate executions of a test whose outcomes are compared, and the number of random tests.
MAX_CANDIDATES = 1500
RANDOM = 150
# The most labels of a picture that lie over an arrow of another edge.
MAX_CROSSING = 1
WAITING = ("mfence", "xchg", "xadd")
SVG = {"svg": "http://www.w3.org/2000/svg"}
SB = f"{HOME}/examples/SB-x86.litmus"
SOURCE = f"{HOME}/examples/SB.litmus"
REFUSED: tuple[tuple[list[str], int], ...] = (
    ([], 2),
    (["--text"], 2),
    (["P0 P0 P1 P1 D0 D0", SB], 1),
    (["P0 P0", SB], 1),
    (["Q0", SB], 1),
    (["--why-not", "0:EAX=0;", SB], 1),
    (["--why-not", "0:EAX=0; 0:EAX=1; 1:EAX=0;", SB], 1),
    (["--why-not", "0:EAX=0; 1:EAX=\u0661;", SB], 1),
    (["--why-not", "0:r0=0;", SOURCE], 1),
    (["--why-not", "0:r0=0; 0:r0=0; 1:r0=0;", SOURCE], 1),
    (["--why-not", "0:EAX=0; 1:EAX=0;", SB], 1),
    (["P0", "/nowhere/X.litmus"], 1),
)


# Of examples a state, and what is printed of it first: the clearest cycle, or why none is clear.
CLEAREST = (
    ("MCS-x86", "0:ESI=1; 1:ESI=1; n=1;", ["  2 candidate executions break global happens-before: d -po-> e -fr-> j -po-> l -rf-> d"]),
    ("TicketLock", "0:r4=1; 1:r4=1; n=1;", ["  2 candidate executions break global happens-before: d -po-> e -rf-> g -po-> h -fr-> d"]),
    (
        "Peterson+mfences-x86", "0:ECX=1; 1:ECX=1;",
        ["  2 candidate executions break global happens-before: b -po-> c -po-> d -fr-> e -po-> f -co-> b"],
    ),
    ("Counter-x86", "0:EAX=0; 1:EAX=0; x=1;", [f"  {graph.ONE_LOCATION}", "  1 candidate execution breaks coherence: a -co-> b -fr-> a"]),
    ("Counter-x86", "0:EAX=1; 1:EAX=1; x=2;", [f"  {graph.ONE_LOCATION}", f"  {graph.UNKNOWN}"]),
)


def read_compiled(path: str) -> plain.Test:
    """Returns the x86 program of a test in a file."""
    with open(path, encoding="utf-8") as file:
        return plain.compile_test(plain.read_test(file.read()))


def list_schedules(path: str, test: plain.Test) -> list[str]:
    """Returns the schedules that lead to a test's states."""
    if os.path.exists(PROGRAM):
        with open(path, "rb") as file:
            printed = subprocess.run([PROGRAM, "schedules"], stdin=file, capture_output=True, check=False).stdout.decode()
    else:
        printed = plain.format_schedules(test)
    return [line.strip() for line in printed.splitlines() if line.startswith(" ")]


def check_schedules(path: str) -> list[Comparison]:
    """Returns the comparisons of an example's listed states: of the execution of each schedule, what it reads, its outcome, its picture and its
    sentences.
    """
    test, name = read_compiled(path), os.path.basename(path)
    results: list[Comparison] = []
    for schedule in list_schedules(path, test):
        execution = executions.make_execution(test, schedule)
        # What each read of the replay finds.
        run, read = plain.X86Replay(test, "mesi"), {}
        for kind, cpu, location in plain.read_schedule(schedule, test.locations):
            position = run.processors[cpu].position
            run.execute_event(kind, cpu, location)
            event = test.threads[cpu][position] if kind == "P" else None
            if event and event.kind in executions.READS:
                read[executions.Event(cpu, position)] = run.processors[cpu].registers[event.register]
        results.append((f"{name}, {schedule}: the axioms", None, execution.find_broken_axiom()))
        results.append((f"{name}, {schedule}: what is read", read, {it: word for it, word in execution.read.items() if it in execution.rf}))
        results.append((f"{name}, {schedule}: its outcome", run.make_outcome(), execution.make_outcome()))
        picture = graph.draw_execution(execution, name)
        results.append((f"{name}, {schedule}: what lies over something in its picture", [], find_picture_faults(picture)))
        results.append((f"{name}, {schedule}: few labels lie over arrows of other edges", True, count_crossing_labels(picture) <= MAX_CROSSING))
        words = graph.format_execution(execution)
        is_weak = any(it.startswith("No run of interleaving") for it in words)
        results.append((f"{name}, {schedule}: a cycle is found if interleaving has no such run", bool(execution.find_cycle()), is_weak))
        results.append((f"{name}, {schedule}: a fence is missed where one is", [], find_fenced_pairs(test, execution, words)))
    return results


def find_fenced_pairs(test: plain.Test, execution: executions.Execution, words: list[str]) -> list[tuple[str, str]]:
    """Returns the pairs of events between which an MFENCE is missed, though a fence or a locked instruction is between them on the path."""
    events = {letter: event for event, letter in graph.Names(execution).letters.items()}
    pairs = re.findall(r"^An MFENCE between (\w+) and (\w+) would keep their order\.$", "\n".join(words), re.M)
    return [pair for pair in pairs if any(test.threads[events[pair[0]].thread][position].kind in WAITING for position in list_positions_between(execution, events, pair))]


def list_positions_between(execution: executions.Execution, events: dict[str, executions.Event], pair: tuple[str, str]) -> list[int]:
    """Returns the positions of a path between two of its events."""
    first, second = (events[it] for it in pair)
    return [position for position in execution.paths[first.thread] if first.position < position < second.position]


def do_overlap(first: tuple[float, ...], second: tuple[float, ...]) -> bool:
    """Returns whether two boxes overlap, each a corner, a width and a height."""
    (x, y, width, height), (other_x, other_y, other_width, other_height) = first, second
    return x < other_x + other_width and other_x < x + width and y < other_y + other_height and other_y < y + height


def find_picture_faults(picture: str) -> list[str]:
    """Returns the overlaps in a picture of an execution: arrows that cross boxes, labels that lie over boxes or over each other, or out of it.
    """
    root = xml.etree.ElementTree.fromstring(picture)
    number = lambda it, key: float(it.get(key))
    boxes = [tuple(number(it, key) for key in ("x", "y", "width", "height")) for it in root.iterfind("./svg:g/svg:rect", SVG)]
    labels = [it for it in root.iterfind("./svg:text", SVG) if it.get("class") == "relation"]
    places = [(number(it, "x"), number(it, "y") - 12, 7.9 * len(it.text or ""), 14) for it in labels]
    faults = [f"{it.text} over a box" for it, label_box in zip(labels, places) if any(do_overlap(label_box, box) for box in boxes)]
    faults += [f"{label.text} over {other_label.text}" for n, label in enumerate(labels) for m, other_label in enumerate(labels[:n]) if do_overlap(places[n], places[m])]
    faults += [f"{it.text} out of the picture" for it, box in zip(labels, places) if box[0] < 0 or box[0] + box[2] > number(root, "width")]
    for path in root.iterfind("./svg:path", SVG):
        inside = [box for point in list_curve_points(path.attrib["d"]) for box in boxes if is_inside(point, box)]
        faults += [f"an arrow {path.get('class')} over a box"] * bool(inside)
    return faults


def count_crossing_labels(picture: str) -> int:
    """Returns the number of labels in a picture that lie over more than one arrow."""
    root = xml.etree.ElementTree.fromstring(picture)
    arrows = [list(list_curve_points(it.attrib["d"])) for it in root.iterfind("./svg:path", SVG)]
    labels = [it for it in root.iterfind("./svg:text", SVG) if it.get("class") == "relation"]
    places = [(float(it.attrib["x"]), float(it.attrib["y"]) - 12, 7.9 * len(it.text or ""), 14) for it in labels]
    return sum(sum(any(is_inside(point, label_box) for point in arrow) for arrow in arrows) > 1 for label_box in places)


def is_inside(point: tuple[float, float], box: tuple[float, ...]) -> bool:
    """Returns whether a point is well inside a box."""
    (x, y), (left, top, width, height) = point, box
    return left + 1 < x < left + width - 1 and top + 1 < y < top + height - 1


def list_curve_points(path: str) -> Iterator[tuple[float, float]]:
    """Yields points along the curves of a path."""
    numbers = [float(it) for it in re.findall(r"-?[0-9.]+", path)]
    ends = list(zip(numbers[::2], numbers[1::2]))
    for index in range(0, len(ends) - 1, 3):
        for part in range(21):
            yield find_curve_point(ends[index : index + 4], part / 20)


def compare_outcomes(name: str, test: plain.Test) -> list[Comparison]:
    """Returns the comparisons of the outcomes and states by the axioms with those of tools/plain.py; none if there are too many candidates."""
    try:
        allowed = executions.list_allowed_outcomes(test, MAX_CANDIDATES)
    except executions.TooMany:
        return []
    results: list[Comparison] = [(f"{name}: the outcomes by the axioms", plain.list_outcomes(test), allowed)]
    states = {words for words, _ in plain.collect_states(test, allowed)}
    listed_too, broken = graph.list_forbidden_states(test, None, 2 * MAX_CANDIDATES)
    results.append((f"{name}: the states by the axioms", states, listed_too))
    results.append((f"{name}: no state that the test has is forbidden", [], [it for it in broken if it in states]))
    results.append((f"{name}: each other state has a cycle", True, all(ways and all(cycle for _, cycle, _ in ways) for ways in broken.values())))
    return results


def check_example(path: str) -> list[Comparison]:
    """Returns the comparisons of an example: its schedules, and its outcomes by the axioms."""
    return compare_outcomes(os.path.basename(path), read_compiled(path))


def check_random(seed: int) -> list[Comparison]:
    """Returns the comparisons of a random x86 test; none if the text that was drawn is no test."""
    try:
        test = plain.read_test(random_tests.Writer("X86", seed).draw_test())
    except plain.NoTest:
        return []
    return compare_outcomes(f"random test {seed}", test)


RELATIONS = {"Pod": "po", "Rfe": "rf", "Rfi": "own rf", "Fre": "fr", "Coe": "co"}
TIMES = {"": 1, "three times": 3, "four times": 4}


def read_families() -> Iterator[tuple[str, list[str], str]]:
    """Yields the rows of docs/FAMILIES.md: a test's name, the relations of its cycle, and the verdict of x86-TSO."""
    with open(f"{HOME}/docs/FAMILIES.md", encoding="utf-8") as file:
        rows = re.findall(r"^\| (\S+) \| [^|]* \| ([^|]*?) \| \w+ \| (allowed|forbidden) \| \d \|", file.read(), re.M)
    for name, cycle, verdict in rows:
        letters, _, often = cycle.partition(", ")
        yield name, [RELATIONS[it[:3]] for it in letters.split()] * TIMES[often], verdict


def list_rotations(relations: Iterable[str]) -> list[list[str]]:
    """Returns a cycle from each of its events on. (A read of the thread's own store and program order after it are program order.)"""
    text = " ".join(relations).replace("own rf po", "po").split()
    return [text[index:] + text[:index] for index in range(len(text))]


def list_asked_words(proposition: plain.Proposition) -> dict[plain.Site, int]:
    """Returns the words that a conjunction asks for, by site."""
    if isinstance(proposition, plain.Eq):
        return {proposition.site: proposition.word}
    assert isinstance(proposition, plain.And)
    return {**list_asked_words(proposition.left), **list_asked_words(proposition.right)}


def make_bare_program(name: str) -> plain.Test:
    """Returns the x86 form of a source test: its compiled program without fences."""
    with open(f"{HOME}/examples/{name}.litmus", encoding="utf-8") as file:
        return plain.compile_test(plain.read_test(file.read()), has_fences=False)


def check_family(name: str, relations: list[str], verdict: str) -> Iterator[Comparison]:
    """Compares the execution that a test of a family asks about with its row. Reads that go against coherence are left out."""
    test = make_bare_program(name)
    expected = list_asked_words(test.proposition)
    matching = []
    for execution in executions.list_candidates(test, MAX_CANDIDATES):
        outcome = execution.make_outcome()
        if all(
            plain.read_word(site, outcome) == word for site, word in expected.items()
        ) and not executions.find_shortest_cycle(execution.list_coherence_edges()):
            matching.append(execution)
    yield f"{name}: candidate executions with its outcome", 1, len(matching)
    broken = matching[0].find_broken_axiom()
    yield f"{name}: the axiom that forbids it", "global happens-before" if verdict == "forbidden" else None, broken and broken[0]
    cycle = [it.kind for it in (broken[1] if broken else matching[0].find_cycle()) or []]
    yield f"{name}: its cycle", True, cycle in list_rotations(relations)


def find_stroke(style: str, classes: set[str]) -> str:
    """Returns the colour that a style sheet gives a path of some classes: by the last of the rules with the most classes."""
    found = (-1, "")
    for selectors, declarations in re.findall(r"([^{}]+)\{([^{}]*)\}", style):
        colour = re.search(r"(?<![-\w])stroke: (#\w+)", declarations)
        for element, *named in (it.strip().split(".") for it in selectors.split(",")):
            if colour and element == "path" and {*named} <= classes and len(named) >= found[0]:
                found = len(named), colour[1]
    return found[1]


def check_colours() -> Iterator[Comparison]:
    """Checks that a marked arrow of each relation has the same colour, by light and by dark."""
    light, _, dark = graph.STYLE.partition("@media (prefers-color-scheme: dark) {")
    for scheme, style in (("light", light), ("dark", light + dark)):
        marked = {find_stroke(style, {relation, "marked"}) for relation in graph.NAMES}
        yield f"all marked arrows have the colour of the others, {scheme}", {find_stroke(style, {"rf"})}, marked
        yield f"arrows of po that are not marked are paler, {scheme}", False, find_stroke(style, {"po"}) in marked


def check_tool() -> Iterator[Comparison]:
    """Compares what the tool prints."""
    tool = [sys.executable, f"{HOME}/tools/graph.py"]
    run = lambda *words: subprocess.run([*tool, *words], capture_output=True, text=True, check=False, stdin=subprocess.DEVNULL)
    for words, status in REFUSED:
        ran = run(*words)
        yield f"graph.py {' '.join(words)}", (status, True), (ran.returncode, bool(ran.stderr if status == 2 or not ran.stdout else ran.stdout))
    ran = run("--why-not", "all", f"{HOME}/examples/MP-x86.litmus")
    expected = "x86-TSO forbids 1:EAX=1; 1:EBX=0;\n  1 candidate execution breaks global happens-before: "
    yield "why MP does not end so", (0, True), (ran.returncode, ran.stdout.startswith(expected + "a -po-> b -rf-> c -po-> d -fr-> a\n"))
    for name, state, begin in CLEAREST:
        ran = run("--why-not", state, f"{HOME}/examples/{name}.litmus")
        yield f"the cycle of {name} that comes first", begin, ran.stdout.splitlines()[1 : 1 + len(begin)]
    explanation = graph.explain_states(read_compiled(f"{HOME}/examples/Counter-x86.litmus"), "all")
    drawn, lines = explanation.cycles, [it for it in explanation.lines if "=?;" in it]
    unknown = ["x86-TSO forbids executions whose words are not known: 0:EAX=?; 1:EAX=?; x=?;"]
    yield "what is forbidden of Counter without known words is called no state", unknown, lines
    yield "the states of Counter whose cycles are drawn have known words", [False] * 2, ["?" in it.words for it in drawn]
    ran = run("--why-not", "0:r0=0; 1:r0=0;", SOURCE)
    front = "x86-TSO forbids 0:r0=0; 1:r0=0;\n"
    yield "why SB does not end so, in its own names", (0, True), (ran.returncode, ran.stdout.startswith(front))
    ran = run("--why-not", "0:r0=7; 1:r0=0;", SOURCE)
    expected = "No candidate execution ends in 0:r0=7; 1:r0=0; No choice of paths and reads gives these values together.\n"
    yield "a state of words that no thread has", (0, expected), (ran.returncode, ran.stdout)
    ran = run("--why-not", "0:r0=0;", SOURCE)
    yield "a source test shows its own names", True, "the test shows 0:r0=..; 1:r0=..;" in ran.stderr
    text = run("--text", "P0 P0 P1 P1 D0 D1", SB).stdout
    yield "the execution of SB", True, "No run of interleaving: a -po-> b -fr-> c -po-> d -fr-> a\n" in text
    yield "where SB's fences are missing", 2, text.count("would keep their order")
    picture = run("P0 P0 P1 P1 D0 D1", SB).stdout
    yield "SB's picture marks its cycle", 4, picture.count(' marked"')
    yield from check_colours()
    for path, *arguments in graph.DOCUMENTS:
        with open(f"{HOME}/{path}", encoding="utf-8") as file:
            yield path, graph.draw_document_picture(*arguments), file.read()


def make_comparisons() -> Iterator[Comparison]:
    """Yields all comparisons: what is compared, what is expected, and what was found."""
    paths = sorted(glob.glob(f"{HOME}/examples/*.litmus"))
    in_x86 = [it for it in paths if it.endswith("-x86.litmus")]
    yield from check_tool()
    for row in read_families():
        yield from check_family(*row)
    with ProcessPoolExecutor() as pool:
        checks: tuple[tuple[Callable[..., list[Comparison]], Iterable[object]], ...] = (
            (check_schedules, paths), (check_example, in_x86), (check_random, range(1, RANDOM + 1))
        )
        for check, cases in checks:
            for results in pool.map(check, cases, chunksize=4):
                yield from results


def main() -> int:
    """Runs the command that the arguments describe. Returns the exit status."""
    return close_check(make_comparisons())


if __name__ == "__main__":
    sys.exit(command.run_command(main, __doc__))
