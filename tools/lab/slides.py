"""Makes the slides of the introduction: the words on each, and the pictures from the program's answers.

A test has its name from the sheet of docs/LAB.md; one more test has its name here. Each picture and each list names in the page its
test and its schedule, so that a check can ask the program again. The machine is drawn as on the page, and code has the page's colours, also in words
between backquotes: what the last event has changed has a frame, and what it has read another one.
"""
from __future__ import annotations

import re
from html import escape, unescape
from typing import List, NamedTuple, Tuple, Union
from urllib.parse import urlencode

import executions
import films
import graph
import picture
import plain
from lab import machine, tints
from lab.tests import list_examples, neutralize, read_file

MORE_TESTS = {"A1-turns": "SB"}
# Tests that are no examples. The machine is shown on one that no task is about.
TYPED = {"Slip": "X86 Slip\n{}\n P0         | P1          ;\n MOV [x],$1 | MOV EAX,[x] ;\nexists (1:EAX=0)\n"}
DARK = "@media (prefers-color-scheme: dark)"
# A text of a picture, its kind and its words; and the kinds that have no colours: code that is done, and the names of relations.
TEXT = re.compile(r'<text ([^>]*?)(?: class="([\w ]+)")?>([^<]*)</text>')
UNTINTED = ("faint", "relation")
# The name of a thread in words.
THREAD_NAME = re.compile(r"\bP(\d)\b")


class Words(NamedTuple):
    """Words: a paragraph."""

    text: str


class Code(NamedTuple):
    """The text of a test."""

    test: str


class States(NamedTuple):
    """The list of the report of `lw states` on a test, with its length in words."""

    test: str


class Film(NamedTuple):
    """The state that a schedule reaches: a picture of the machine, without its caches."""

    test: str
    schedule: str


class Note(NamedTuple):
    """A note for the teacher, which a key shows."""

    text: str


class Graph(NamedTuple):
    """The execution of a run."""

    test: str
    schedule: str


Part = Union[Words, Code, States, Film, Graph, Note]
Slide = Tuple[str, List[Part]]

# Up to the prediction, up to the tasks by hand, and after the tasks: so docs/LAB.md has them.
SLIDES: list[Slide] = [
    ("What can this program do?", [
        Words("Two threads, one memory, and what a processor makes of them."),
        Words("An introduction to litmus tests and x86-TSO"),
        Note("Leave this on while the class comes in."),
    ]),
    ("Two threads, two flags", [
        Code("A1"),
        Words("Each thread raises its own flag, and then looks at the other's. Can both miss the other's flag?"),
        Words("`MOV [x],$1` stores 1 to `x`. `MOV EAX,[y]` loads `y` into the register `EAX`. All begins with 0."),
        Note("Let somebody answer before the next slide. Most say no, and can say why."),
    ]),
    ("Interleaving: the threads take turns", [
        Film("A1-turns", "P0 P0"),
        Words("One memory. In each turn one thread does its next statement: such a run is an interleaving. Here P0 misses P1's flag. P1 can't miss P0's any more."),
        Note("P0 has done both statements; P1 has done none. Ask what P1 will find."),
    ]),
    ("All that interleaving can do", [
        States("A1-turns"),
        Words("Forbidden: the end that we ask about is none of the three states."),
        Words("Some load is the last statement of all. By then both stores are done, so it finds a 1."),
        Note("Forbidden is the verdict, as on the page: no run ends this way. That is a proof for all runs, since the list is complete."),
    ]),
    ("Predict", [
        Code("A2"),
        Words("Task 1, alone, on paper: six tests. Is the end possible by interleaving? Is it possible on x86? Say why, whatever you answer."),
        Note("Hand out the first page. Give the rest after it, since its questions show what is possible."),
    ]),
    ("A store waits", [
        Film("Slip", "P0"),
        Words("P0 has done its store. It is in P0's store buffer, and memory still has `x=0`."),
        Note("The test is one that no task is about. A buffer is a row of slips, as on the sheet."),
    ]),
    ("Others find the old word", [
        Film("Slip", "P0 P1"),
        Words("P1 loads `x`, and asks memory: it finds 0. It can't look into P0's buffer. P0 itself would find its own store."),
        Note("Ask what P0 would load, and what P1. Task 4 comes back to it."),
    ]),
    ("A drain", [
        Film("Slip", "P0 P1 D0"),
        Words("`D0` is a drain: the oldest entry of P0's store buffer goes to memory. From now on all find `x=1`."),
        Note("A drain comes at any time: the processor decides, not the program."),
    ]),
    ("Now by hand", [
        Words("`P0` is the next instruction of P0, `D0` a drain of its store buffer. A row of these is a schedule."),
        Words("A run ends when all threads are at their ends, and all buffers are empty."),
        Words("Task 2, in groups of four: two processors, one memory, and one who writes the schedule."),
        Note("Say nothing of what can happen: tasks 2 to 4 ask for it."),
    ]),
    ("The same program on x86", [
        States("A1"),
        Words("Allowed: the end that we ask about is one of the four states."),
        Words("One state more than by interleaving. The program lists all states and no others; that is proved."),
        Note("After the tasks. Compare with slide 4."),
    ]),
    ("Both loads before both drains", [
        Film("A1", "P0 P0 P1 P1"),
        Words("Both threads are at their ends, and both stores still wait. Each load asked memory, and found 0."),
        Note("Let a group say its schedule of task 2.1 while you point."),
    ]),
    ("The same run, by relations", [
        Graph("A1", "P0 P0 P1 P1 D0 D1"),
        Words("Each load reads the initial 0, so it comes before the other's store (fr). With program order (po) that is a cycle."),
        Note("Each arrow means: comes before. A run by interleaving has no cycle."),
    ]),
    ("A fence in each thread", [
        States("B1"),
        Words("Forbidden: the end that we ask about is none of the three states."),
        Words("Each thread has an `MFENCE` between its store and its load. It waits until the thread's buffer is empty: so the store comes before the load."),
        Note("These are the three states of slide 4. With one fence the fourth state comes back: a group can say which schedule reaches it."),
    ]),
    ("What to take with you", [
        Words("A load may be done before the others see a store in front of it."),
        Words("A buffer is a queue: the stores of one thread reach memory in their order."),
        Words("There is one memory beyond the buffers: what has left a buffer, all see."),
        Words("A fence waits until the own buffer is empty."),
        Note("One sentence from each group first, then this."),
    ]),
]


def read_texts() -> dict[str, bytes]:
    """Returns the text of each test, by its name."""
    examples = {**list_examples(read_file("docs/LAB.md")), **MORE_TESTS}
    return {name: text.encode() for name, text in {**{name: neutralize(name, it) for name, it in examples.items()}, **TYPED}.items()}


# The styles of pictures: paper is light, and a screen is as the system has it. What has changed and what was read has no colour of its own.
STYLE_OF_PICTURES = re.sub(r"(\.(?:changed|read) \{[^}]*?);? fill: #\w+ \}", r"\1 }", picture.STYLE + graph.STYLE)
STYLE_OF_PICTURES = re.sub(r" \.\w+ \{ \}", "", STYLE_OF_PICTURES).replace(DARK, DARK.replace("(", "screen and (", 1)) + tints.make_style()


def tint_picture(svg: str, text: str) -> str:
    """Returns a picture of a run of a test with the names of threads, registers and locations in colours, except in code that is done."""
    locations, thread = tints.find_tints(text), None
    parts, end = [], 0
    for match in TEXT.finditer(svg):
        attributes, kind, words = match.groups()
        if kind == "title":
            head = tints.THREAD.fullmatch(words)
            thread = int(head[1]) if head else None
            kind = kind if thread is None else f"{kind} thr-{thread}"
        elif kind not in UNTINTED:
            words = tints.render_code(unescape(words), locations, thread, "tspan")
        of_kind = f' class="{kind}"' if kind else ""
        parts += [svg[end : match.start()], f"<text {attributes}{of_kind}>{words}</text>"]
        end = match.end()
    return "".join(parts) + svg[end:]


def embed_picture(svg: str, text: str) -> str:
    """Returns a picture of a run of a test as a page has it: by the styles and in the colours of the page, as large as fits."""
    bare = re.sub(r"<style>.*?</style>", "", svg, flags=re.S)
    return tint_picture(re.sub(r'<svg xmlns="[^"]*" width="[^"]*" height="[^"]*"', "<svg", bare, count=1), text)


def make_figure(part: Film | Graph, kind: str, html: str) -> str:
    """Returns a picture of a run of a test as a figure, with attributes that name its kind, its test and its schedule for checks."""
    return f'<figure data-kind="{kind}" data-test="{part.test}" data-schedule="{part.schedule}">{html}</figure>\n'


def draw_film(part: Film, text: bytes) -> str:
    """Returns the machine at a film's end, without caches: what memory answers is all that is said of memory."""
    film = films.make_film(text, part.schedule, "mesi")
    return make_figure(part, "state", machine.Machine(film, len(film["events"]), text.decode()).render())


def draw_graph(part: Graph, text: bytes) -> str:
    """Returns a picture of an execution."""
    test = plain.compile_test(plain.read_test(text.decode()))
    drawn = graph.draw_execution(executions.make_execution(test, part.schedule), f"{part.test}, the execution of {part.schedule}")
    return make_figure(part, "graph", embed_picture(drawn, text.decode()))


def shorten_report(report: str) -> str:
    """Returns how many states a report lists, in the page's words, and their lines. The other lines need the words of docs/FORMAT.md: a reader takes
    `Allowed`, a kind of question, for the verdict. A slide says in a sentence how often the condition holds.
    """
    states = [it for it in report.splitlines(keepends=True) if it.endswith(";\n")]
    return "".join([f"{len(states)} final states\n", *states])


def render_words(words: str, locations: tints.Tints) -> str:
    """Returns words as HTML: code between backquotes is in the colours of a test's locations, and so are the names of threads."""
    parts = words.split("`")
    render_plain = lambda it: THREAD_NAME.sub(r'<b class="thr-\1">\g<0></b>', escape(it, quote=False))
    return "".join(f"<code>{tints.render_code(it, locations, None)}</code>" if at % 2 else render_plain(it) for at, it in enumerate(parts))


def render_part(part: Part, tests: dict[str, bytes], locations: tints.Tints) -> str:
    """Returns a part of a slide, of whose test the locations have colours."""
    if isinstance(part, Words):
        return f"<p>{render_words(part.text, locations)}</p>\n"
    if isinstance(part, Note):
        return f'<aside>{escape(part.text, quote=False)}</aside>\n'
    text = tests[part.test]
    if isinstance(part, Code):
        return f'<pre data-kind="code" data-test="{part.test}">{tints.render_test(text.decode())}</pre>\n'
    if isinstance(part, States):
        report = shorten_report(films.ask_program(["states"], text))
        return f'<pre data-kind="states" data-test="{part.test}">{tints.render_states(report, text.decode())}</pre>\n'
    return draw_film(part, text) if isinstance(part, Film) else draw_graph(part, text)


def make_view(part: Code | States | Film | Graph, text: str) -> dict[str, str]:
    """Returns the fields of the page's address that show what a part does: a prediction is asked for first, or the run is shown, which continues."""
    if isinstance(part, (Film, Graph)):
        return {"view": "hand", "schedule": part.schedule, "text": text}
    return {"predict": "1", "text": text} if isinstance(part, Code) else {"text": text}


def make_page_link(parts: list[Part], tests: dict[str, bytes], page: str) -> str:
    """Returns a link that opens a slide's test on the page at an address, in one tab for all of them; nothing if there is no test or no page."""
    shown = [it for it in parts if not isinstance(it, (Words, Note))]
    if not shown or not page:
        return ""
    view = make_view(shown[0], tests[shown[0].test].decode())
    return f'<a class="open" target="lw" href="{escape(page)}#{escape(urlencode(view))}">Open it on the page</a>\n'


def find_locations(parts: list[Part], tests: dict[str, bytes]) -> tints.Tints:
    """Returns the colours of the locations of the test that a slide shows; none if it shows none."""
    names = [it.test for it in parts if not isinstance(it, (Words, Note))]
    return tints.find_tints(tests[names[0]].decode()) if names else {}


def render_slides(page: str) -> list[tuple[str, str]]:
    """Returns, for each slide, its title and its HTML, with links to the page at an address, if that is not empty."""
    tests = read_texts()
    render_all = lambda parts: "".join(render_part(part, tests, find_locations(parts, tests)) for part in parts)
    return [(title, make_page_link(parts, tests, page) + render_all(parts)) for title, parts in SLIDES]
