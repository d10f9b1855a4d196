#!/usr/bin/env python3
"""Draws the machine as a picture: one state of a run, or a strip of all its states, as an SVG for paper, screens and dark mode.

    python3 tools/picture.py SCHEDULE [--strip] [--protocol PROTOCOL] FILE
    python3 tools/picture.py --documents

The first prints a picture of the state that a schedule reaches, or with --strip one picture for each event. The states come from the
program (`./lw replay` and `./lw compile`), which has to be built: so it needs Linux. Without FILE, or if it is `-`, standard input is
read. The second writes the pictures of the documents anew.

For each thread the picture shows its code, with an arrow at what comes next, the registers that it uses, its store buffer, with the oldest entry
nearest to memory, and the cache lines that it holds, with their letters; below them the words that a load finds. What the last
event has changed or added is bold and underlined, and what it has read is bold and slanted. A strip says what each event does.

If an event is refused, the picture ends before it and says so, and the exit status is 1, as that of `./lw replay`.
"""
from __future__ import annotations

import os
import re
import sys
from html import escape

sys.dont_write_bytecode = True
from shared import command, start
from shared.home import HOME
import films
import given
from effects import Effect, describe_refusal, find_cell
from films import Film
from replay_state import ThreadState

LETTER = 7.9  # the width of a letter
LINE = 19  # the height of a line
EDGE = 10
GAP = 14
PANELS = 3  # in a row of a strip
MAX_PANELS = 100
PROTOCOLS = ("mesi", "moesi")
# The pictures of the documents: the file, an example, a schedule, and whether it is a strip.
DOCUMENTS: tuple[tuple[str, str, str, bool], ...] = (
    ("docs/pictures/machine.svg", "SB-x86", "P0 P0 P1", False),
    ("docs/pictures/SB-strip.svg", "SB-x86", "P0 P0 P1 P1 D0 D1", True),
)
STYLE = """
text { font: 13px ui-monospace, Menlo, Consolas, "DejaVu Sans Mono", monospace; fill: #1b1b1b; white-space: pre }
.title { font-weight: bold } .faint { fill: #5c5c5c } .changed { font-weight: bold; text-decoration: underline; fill: #8a2c00 }
.read { font-weight: bold; font-style: italic; fill: #1f4e8c }
.ground { fill: #fff } .box { fill: #f7f7f4; stroke: #6b6b6b } .entry { fill: #fff3d6; stroke: #8a6a00 }
.word { fill: #e3eefc; stroke: #34609c } .next { font-weight: bold }
@media (prefers-color-scheme: dark) {
text { fill: #ececec } .faint { fill: #b0b0b0 } .changed { fill: #ffb27a } .read { fill: #9cc3f7 }
.ground { fill: #16181c } .box { fill: #22252b; stroke: #8d939c } .entry { fill: #4a3a10; stroke: #d9b14a }
.word { fill: #1d3350; stroke: #7fb0f0 }
}
"""


class Drawing:
    """The elements of a picture."""

    def __init__(self) -> None:
        """Starts without an element."""
        self.elements: list[str] = []

    def draw_text(self, x: float, y: float, text: str, kind: str = "") -> None:
        """Draws a text, of a class of the style if one is named."""
        attributes = f' class="{kind}"' if kind else ""
        self.elements.append(f'<text x="{x:g}" y="{y:g}"{attributes}>{escape(text, quote=False)}</text>')

    def draw_box(self, x: float, y: float, width: float, height: float, kind: str = "box") -> None:
        """Draws a box."""
        measures = f'x="{x:g}" y="{y:g}" width="{width:g}" height="{height:g}"'
        self.elements.append(f'<rect {measures} rx="4" class="{kind}"/>')

    def draw_framed_text(self, x: float, y: float, text: str, kind: str, text_kind: str) -> float:
        """Draws a text in a box of its own. Returns the box's right edge."""
        width = len(text) * LETTER + 12
        self.draw_box(x, y, width, LINE, kind)
        self.draw_text(x + 6, y + 14, text, text_kind)
        return x + width

    def make_svg(self, width: float, height: float, title: str) -> str:
        """Returns the picture as a text in SVG, with its title and the style of its classes."""
        ground = f'<rect width="{width:g}" height="{height:g}" class="ground"/>'
        size = f'width="{width:g}" height="{height:g}" viewBox="0 0 {width:g} {height:g}"'
        title_element = f"<title>{escape(title, quote=False)}</title>\n<style>{STYLE}</style>"
        head = f'<svg xmlns="http://www.w3.org/2000/svg" {size} role="img">'
        return "\n".join([head, title_element, ground, *self.elements, "</svg>\n"])


# The parts of a picture.


def list_used_registers(film: Film, thread: int) -> list[str]:
    """Returns the registers that a thread's code names, or that have a word other than 0 at some time."""
    names = set(re.findall(r"\w+", " ".join(it["text"] for it in film["cells"][thread])))
    rows = [state["threads"][thread]["registers"] for state in film["states"]]
    return [name for name, _ in rows[0] if name in names or any(dict(row)[name] for row in rows)]


def format_title(film: Film, step: int) -> str:
    """Returns the title of a step of a strip: its event, with its code."""
    if not step:
        return "0  at the start"
    event = film["events"][step - 1]
    thread = int(event[1])
    text = find_cell(film["cells"][thread], film["states"][step - 1]["threads"][thread]) if event[0] == "P" else ""
    return f"{step}  {event}" + (f": {text}" if text else "")


def find_effect(film: Film, step: int) -> Effect:
    """Returns the effect of the event before a step; of the start none."""
    return film["effects"][step - 1] if step else {"words": ""}


def format_effect(film: Film, step: int, letters: int) -> list[str]:
    """Returns the effect of the event before a step, in lines of at most `letters` letters, unless a word is longer."""
    lines: list[str] = []
    for word in find_effect(film, step)["words"].replace("`", "").split():
        longer = f"{lines[-1]} {word}" if lines else word
        if lines and len(longer) <= letters:
            lines[-1] = longer
        else:
            lines.append(word)
    return lines


def format_refusal(film: Film) -> str:
    """Returns the words on the event before which a film ends."""
    return f"Here {film['refused']['event']} is refused: {describe_refusal(film['refused']['number'])}" if film["refused"] else ""


def list_held_lines(thread_state: ThreadState) -> list[str]:
    """Returns the lines that a thread's cache holds, each with its letter."""
    return [f"{name}:{letter}" for name, letter in thread_state.get("lines", []) if letter != "I"]


class Measures:
    """How much room the threads of a film need, the same for all its states."""

    def __init__(self, film: Film) -> None:
        """Measures the threads of a film. Numbers of rows are the largest of all threads and states."""
        threads = range(len(film["cells"]))
        self.used = [list_used_registers(film, thread) for thread in threads]  # for each thread, its registers in the picture
        self.has_buffers = "buffer" in film["states"][0]["threads"][0]
        places = [thread_state for state in film["states"] for thread_state in state["threads"]]
        # The rows of a store buffer, of code, and of registers.
        self.entries = max([len(thread_state.get("buffer", [])) for thread_state in places] + [1]) if self.has_buffers else 0
        self.code = max([len(column) for column in film["cells"]] + [1])
        self.registers = max([len(used) for used in self.used] + [1])
        self.has_lines = any(list_held_lines(thread_state) for thread_state in places)
        self.width = max(self.find_width(film, thread) for thread in threads)
        self.height = LINE * (self.code + self.registers + 2) + EDGE * 2
        self.height += (self.entries + 1) * (LINE + 3) if self.has_buffers else 0
        self.height += LINE * self.has_lines
        content = sum(len(f"{name}={word}") * LETTER + 20 for name, word in film["states"][-1]["content"])
        self.whole_width = max(len(threads) * (self.width + GAP) - GAP, content + 10 * LETTER)
        self.whole_height = self.height + GAP + LINE + 8

    def find_width(self, film: Film, thread: int) -> float:
        """Returns the width of a thread's box."""
        texts = [it["text"] + "  " for it in film["cells"][thread]]
        for state in film["states"]:
            thread_state = state["threads"][thread]
            texts += [f"{name}={word}" for name, word in [*thread_state["registers"], *thread_state.get("buffer", [])]]
            texts.append("lines " + " ".join(list_held_lines(thread_state)))
        return max(len(it) for it in [*texts, "store buffer"]) * LETTER + EDGE * 2


# Drawing.


def draw_thread(drawing: Drawing, film: Film, step: int, thread: int, x: float, y: float, measures: Measures) -> None:
    """Draws a thread: its code, its registers, its store buffer and its cache lines."""
    thread_state = film["states"][step]["threads"][thread]
    thread_before = film["states"][max(step - 1, 0)]["threads"][thread]
    effect = find_effect(film, step)
    effect = effect if effect.get("thread") == thread else {}
    drawing.draw_box(x, y, measures.width, measures.height)
    x, top = x + EDGE, y + LINE
    drawing.draw_text(x, top, f"P{thread}", "title")
    # The code, from the title down.
    for row, cell in enumerate(film["cells"][thread]):
        is_next = cell["at"] == thread_state["at"]
        kind = "next" if is_next else "faint" if cell["at"] < thread_state["at"] else ""
        drawing.draw_text(x, top + LINE * (row + 1), ("▸ " if is_next else "  ") + cell["text"], kind)
    top += LINE * (measures.code + 1) + 4
    # The registers, and below them the cache lines and the store buffer.
    words, old_words = dict(thread_state["registers"]), dict(thread_before["registers"])
    for row, name in enumerate(measures.used[thread]):
        is_lit = words[name] != old_words[name] or name == effect.get("register")
        drawing.draw_text(x, top + LINE * row, f"{name}={words[name]}", "changed" if is_lit else "")
    top += LINE * measures.registers
    if measures.has_lines:
        lines_text = "lines " + (" ".join(list_held_lines(thread_state)) or "none")
        drawing.draw_text(x, top, lines_text, "changed" if thread_state["lines"] != thread_before["lines"] else "faint")
        top += LINE
    if measures.has_buffers:
        draw_buffer(drawing, thread_state["buffer"], thread_before["buffer"], effect.get("entry"), x, top, measures)


def draw_buffer(
    drawing: Drawing, buffer: list[tuple[str, int]], buffer_before: list[tuple[str, int]], entry_read: int | None, x: float, top: float,
    measures: Measures
) -> None:
    """Draws a store buffer as a queue: the oldest entry is lowest, next to memory. `entry_read` is the index of the entry that a load reads."""
    drawing.draw_text(x, top, "store buffer", "faint")
    if not buffer:
        drawing.draw_text(x, top + 6 + (measures.entries - 1) * (LINE + 3) + 14, "(empty)", "faint")
    for number, (name, word) in enumerate(buffer):
        y = top + 6 + (measures.entries - 1 - number) * (LINE + 3)
        is_new = len(buffer) > len(buffer_before) and number == len(buffer) - 1
        drawing.draw_framed_text(x, y, f"{name}={word}", "entry", "changed" if is_new else "read" if number == entry_read else "")


def draw_state(drawing: Drawing, film: Film, step: int, x: float, y: float, measures: Measures) -> None:
    """Draws one state of a film."""
    for thread in range(len(film["cells"])):
        draw_thread(drawing, film, step, thread, x + thread * (measures.width + GAP), y, measures)
    content, before = film["states"][step]["content"], dict(film["states"][max(step - 1, 0)]["content"])
    top = y + measures.height + GAP
    drawing.draw_text(x, top + 14, "content" if measures.has_buffers else "memory", "title")
    x += 9 * LETTER
    read = find_effect(film, step).get("location")
    for name, word in content:
        kind = "changed" if before[name] != word else "read" if name == read else ""
        x = drawing.draw_framed_text(x, top, f"{name}={word}", "word", kind) + 8


def draw_refusal(drawing: Drawing, refusal: str, y: float) -> float:
    """Draws the words on the event before which a film ends, if there are any. Returns the height that they take."""
    if not refusal:
        return 0
    drawing.draw_text(EDGE, y + 14, refusal, "changed")
    return LINE


def draw_film_state(film: Film, step: int) -> str:
    """Returns a picture of one state of a film."""
    drawing, measures = Drawing(), Measures(film)
    draw_state(drawing, film, step, EDGE, EDGE, measures)
    title = f"{film['states'][0]['name']} after {' '.join(film['events'][:step]) or 'no event'}"
    refusal = format_refusal(film) if step == len(film["events"]) else ""
    width = max(measures.whole_width, len(refusal) * LETTER)
    height = measures.whole_height + 2 * EDGE + draw_refusal(drawing, refusal, measures.whole_height + EDGE)
    return drawing.make_svg(width + 2 * EDGE, height, title)


def draw_strip(film: Film) -> str:
    """Returns a strip of all states of a film, each below the event that leads to it and what that does."""
    drawing, measures = Drawing(), Measures(film)
    number = min(len(film["states"]), MAX_PANELS)
    titles = [format_title(film, step) for step in range(number)]
    width = max([measures.whole_width] + [len(it) * LETTER for it in titles])
    captions = [[title, *format_effect(film, step, int(width / LETTER))] for step, title in enumerate(titles)]
    rows = max(map(len, captions))
    height = measures.whole_height + LINE * rows + GAP
    for step, lines in enumerate(captions):
        x, y = EDGE + step % PANELS * (width + 2 * GAP), EDGE + step // PANELS * (height + GAP)
        for row, line in enumerate(lines):
            drawing.draw_text(x, y + 14 + LINE * row, line, "" if row else "title")
        draw_state(drawing, film, step, x, y + LINE * rows + 4, measures)
    across, down = min(number, PANELS), -(-number // PANELS)
    refused = draw_refusal(drawing, format_refusal(film), down * (height + GAP))
    title = f"{film['states'][0]['name']}, event by event: {' '.join(film['events'])}"
    return drawing.make_svg(across * (width + 2 * GAP) - 2 * GAP + 2 * EDGE, down * (height + GAP) + EDGE + refused, title)


# The command line.


def draw_document_picture(example: str, schedule: str, is_strip: bool) -> str:
    """Returns one of the pictures in the documents: of this example's run by this schedule."""
    with open(f"{HOME}/examples/{example}.litmus", "rb") as file:
        film = films.make_film(file.read(), schedule, "mesi")
    return draw_strip(film) if is_strip else draw_film_state(film, len(film["events"]))


def write_documents() -> None:
    """Writes the pictures of the documents."""
    for path, example, schedule, is_strip in DOCUMENTS:
        os.makedirs(os.path.dirname(f"{HOME}/{path}"), exist_ok=True)
        with open(f"{HOME}/{path}", "w", encoding="utf-8") as file:
            file.write(draw_document_picture(example, schedule, is_strip))


def print_picture(schedule: str, protocol: str, is_strip: bool, text: str) -> int:
    """Prints a picture. Returns the exit status."""
    try:
        films.check_program()
        film = films.make_film(text.encode(), schedule, protocol)
    except films.NoFilm as why:
        return given.refuse(f"picture: {why}")
    except films.Refused as why:
        return given.refuse(why.args[0])
    print(draw_strip(film) if is_strip else draw_film_state(film, len(film["events"])), end="")
    if not film["refused"]:
        return 0
    cause = describe_refusal(film["refused"]["number"])
    return given.refuse("picture: event {at}, {event}, is refused: {why}".format(why=cause, **film["refused"]))


def main() -> int:
    """Runs the command that the arguments describe. Returns the exit status."""
    given.set_output_encoding()
    reader = command.Reader(__doc__)
    reader.add_argument("schedule", nargs="?", metavar="SCHEDULE")
    reader.add_file()
    reader.add_argument("--strip", action="store_true")
    reader.add_argument("--protocol", choices=PROTOCOLS, default="mesi")
    reader.add_argument("--documents", action="store_true")
    arguments = reader.read()
    if arguments.documents and arguments.schedule is None:
        write_documents()
        return 0
    if arguments.documents or arguments.schedule is None:
        reader.error("either a SCHEDULE or --documents")
    return command.for_one(
        "picture", arguments.file, lambda _name, text: print_picture(arguments.schedule, arguments.protocol, arguments.strip, text)
    )


if __name__ == "__main__":
    sys.exit(start.run(main))
