"""Plays the lab of docs/LAB.md as a student does, in a browser that has no network. For tools/gate/check_lab.py.

    unshare -n python3 tools gate.check_lab_browser FOLDER

FOLDER is what tools/make_lab.py writes, with the site. Each item of tasks 2 to 6 that is done on the page is done as the sheet says: it clicks
the link beside the test, then the page's controls, and types texts. It compares what the page shows with docs/SOLUTIONS.md if a
script finds it there, and otherwise with values in this file. Each printed line is a comparison as JSON: what is compared, what is
wanted, and what was found.

The namespace that `unshare -n` makes has only a loopback, over which the browser is driven; it is brought up here.
"""
from __future__ import annotations

import fcntl
import json
import re
import socket
import struct
import sys
import tempfile
from collections.abc import Iterator, Sequence

from gate.check_lab import parse_tasks
from gate.browser.user import Element, User
from gate.cases import Comparison
from lab.markdown import find_section
from lab.tests import read_file
from shared import command, start
from shared.matches import require_match

# Of <net/if.h> and <linux/sockios.h>.
SIOCSIFFLAGS, IFF_UP = 0x8914, 1
SHEET = "file://{}/students/sheet.html"
# Tells whether an address somewhere else is reached.
FETCH = """
const done = arguments[arguments.length - 1];
fetch("http://192.0.2.1/", { mode: "no-cors" }).then(() => done("reached"), () => done("not reached"));
"""
TEXT = "return document.getElementById('text').value"
# The entries of each store buffer of a run, and what memory answers.
SEEN = """
const shown = (it) => `${it.querySelector(".name").textContent}=${it.querySelector(".value").textContent}`;
const all = (place, css) => [...place.querySelectorAll(css)].map(shown);
return [[...document.querySelectorAll("#watching .thread")].map((it) => all(it, ".entry").reverse()), all(document, "#watching .memory .word")];
"""
# The registers of all processors.
REGISTERS = """
const shown = (it) => `${it.querySelector(".name").textContent}=${it.querySelector(".value").textContent}`;
return [...document.querySelectorAll("#watching .register")].map(shown);
"""
# The letters of the lines of each processor, as they are now, and memory's own words.
LINES = """
const texts = (css) => [...document.querySelectorAll(`#watching ${css}`)].map((it) => it.textContent.trim());
return [...texts(".cacheline .value"), ...texts(".own").map((it) => it.split(" ")[1])];
"""
# The place at which a row is typed: after a line.
GO_BEHIND = """
const it = document.getElementById("text");
const at = it.value.split("\\n").slice(0, arguments[0]).join("\\n").length;
it.focus();
it.setSelectionRange(at, at);
"""


class Solutions:
    """The answers of docs/SOLUTIONS.md: the text of each task (`tasks`), and for each list of states, by the test's name, the numbers of states in
    which the condition holds and of all states (`counts`).
    """

    def __init__(self) -> None:
        """Reads the section on the lab."""
        text = find_section(read_file("docs/SOLUTIONS.md"), "The lab")
        self.tasks = {int(number): answers for number, *_, answers in parse_tasks(text)}
        lists = re.findall(r"^Observation (\S+) \w+ (\d+) (\d+)$", text, re.M)
        self.counts = {name: [int(positive), int(positive) + int(negative)] for name, positive, negative in lists}

    def find_answer(self, task: int, number: int) -> str:
        """Returns the answer to the item `number` of a task."""
        return require_match(re.search(rf"^{number}\. (.*?)(?=^\d\. |\Z)", self.tasks[task], re.M | re.S))[1]

    def list_places(self) -> list[list[str]]:
        """Returns, for each test of the repair shop, the places that tools/fences.py prints, without their numbers."""
        lines = re.findall(r"^  (P\d at .*)$", self.tasks[5], re.M)
        return [[re.sub(r" at \d+", "", it) for it in line.split("; ")] for line in lines]


class Student(User):
    """A student with the sheet and the page."""

    def __init__(self, folder: str, temporary_folder: str) -> None:
        """Opens the sheet, and finds on it the link and the text of each test (`tests`), by its task and its name."""
        super().__init__(SHEET.format(folder), temporary_folder)
        self.driver.get(self.address)
        self.sheet, self.card = self.driver.current_window_handle, None
        elements = self.driver.find_elements("css selector", "h3, figure")
        self.tests: dict[tuple[int, str], tuple[Element, str]] = {}
        task = ""
        for element in elements:
            if element.tag_name == "h3":
                task = element.text[:1]
            else:
                self.tests[int(task), element.text.split()[0]] = (element.find_element("css selector", "a"), element.find_element("css selector", "pre").text)

    def open_test(self, task: int, name: str) -> None:
        """Opens a test of a task by its link on the sheet. All links have one tab."""
        link, text = self.tests[task, name]
        self.driver.switch_to.window(self.sheet)
        link.click()
        tabs = self.wait(lambda: [it for it in self.driver.window_handles if it not in (self.sheet, self.card)], "a tab of its own")
        self.driver.switch_to.window(tabs[0])
        self.wait(lambda: self.run("return document.body?.dataset.ready") and self.run(TEXT).strip() == text, f"{name} is there")
        self.wait_for_answer()

    def wait_for_answer(self) -> None:
        """Waits until the page answers."""
        stale = "return document.getElementById('answers').classList.contains('stale') || document.querySelector('.asking') !== null"
        self.wait(lambda: not self.run(stale), "an answer")

    def guess_and_count_states(self, guess: str | None = None) -> list[int]:
        """Makes a guess, if one is passed. Returns the numbers of states in which the condition holds and of all states."""
        if guess:
            self.click(f"#{guess}")
        self.wait_for_answer()
        self.click("#tab-states")
        sentence = self.text_with("#outcome .asked", "final state")
        holding, number = require_match(re.search(r"holds in (\d+|all|none)(?: of)? (\d+) final", sentence)).groups()
        return [int({"all": number, "none": "0"}.get(holding, holding)), int(number)]

    def begin_by_hand(self, guess: str) -> None:
        """Opens the tab By hand of a test, and makes the guess that is asked for there."""
        self.click("#tab-hand")
        self.click(f"#{guess}")
        self.text_with("#outcome .found", "States found so far: 0.")
        self.find("#watching [data-event=P0]")

    def play_schedule(self, schedule: Sequence[str]) -> tuple[list[str], bool]:
        """Makes a run by hand. Returns the registers at its end, as they are shown, and whether the page says that the run has ended."""
        self.click(".transport [aria-label='To the start']")
        self.wait(lambda: self.done() == "", "the start")
        self.carry_out(*schedule)
        ended = len(schedule) > 1 and "The run has ended" in self.says("The run has ended")
        return self.run(REGISTERS), ended

    def return_to_by_hand(self) -> None:
        """Goes back to running by hand."""
        self.click("#tab-hand")
        self.text_with("#outcome .found", "Found ")

    def type_row_after(self, line: int, row: str) -> None:
        """Types a row after a line of the test, and waits for the answer."""
        self.run(GO_BEHIND, line)
        self.press(self.keys.ENTER, row)
        self.wait_for_answer()

    def list_fences(self) -> tuple[list[str], str]:
        """Returns the fences in the table of the tab Fences, and the sentence above it."""
        self.click("#tab-fences")
        verdict = self.text("#fences .verdict")
        return self.texts("#fences tbody th:not(.locks *)"), verdict


# The tasks.


def check_by_hand(student: Student, answers: Solutions) -> Iterator[Comparison]:
    """Plays task 2: store buffering by hand."""
    student.open_test(2, "A1")
    yield "2.1: the page opens at By hand", "true", student.find("#tab-hand").get_attribute("aria-selected")
    student.begin_by_hand("yes")
    seen = student.texts("#outcome .verdicts:not(.veiled) .verdict, .said"), student.texts("table.strip .holds")
    yield "2.1: no state and no verdict is shown with the guess", ([], []), seen
    schedule = require_match(re.search(r"`(P0[^`]*)`", answers.find_answer(2, 1)))[1]
    yield "2.1", (["EAX=0", "EAX=0"], True), student.play_schedule(schedule.split())
    answer = answers.find_answer(2, 2)
    ends = re.findall(r"^P\d at \d (EAX=\d)$", answer, re.M)
    for index, run in enumerate(re.findall(r'"(P[^"]*)"', answer)):
        yield f"2.2, {run}", (ends[2 * index : 2 * index + 2], True), student.play_schedule(run.split())
    yield "2.2: all are found", "Found 4 of 4 states. These are all: no run ends otherwise.", student.text_with("#outcome .found", "4 of 4")
    yield "2.2: the list of A1, and the guess", ([1, 4], ["✓ As you said. Predict again Surprise me"]), (student.guess_and_count_states(), student.texts(".said"))
    student.open_test(2, "B1")
    student.begin_by_hand("no")
    student.click("#watching .menu summary")
    student.find("#written").send_keys(schedule)
    student.click("#follow")
    index = int(require_match(re.search(r"^End Stopped at (\d+) by \d+ \w+$", answers.find_answer(2, 3), re.M))[1])
    waits = "P0 can't go on: MFENCE waits for the processor's store buffer to be empty."
    refused = f"Event {index + 1} of the schedule, {schedule.split()[index]}, is refused. {waits}"
    yield "2.3", refused, student.text_with(".menu .notice", refused)
    student.play_schedule(["P0"])
    student.wait(lambda: student.find("#watching [data-event=P0]").get_attribute("aria-disabled") == "true", "the fence waits")
    student.click("#watching [data-event=P0]")
    yield "2.3: by a click", True, waits in student.says(waits)
    student.open_test(2, "B2")
    yield "2.4", answers.counts["SB+mfence-x86"], student.guess_and_count_states("yes")
    student.click(".transport [aria-label='To the end']")
    yield "2.4: its run", True, "The run has ended" in student.says("The run has ended")


def check_queue(student: Student, answers: Solutions) -> Iterator[Comparison]:
    """Plays task 3: the queue."""
    student.open_test(3, "A2")
    student.begin_by_hand("no")
    student.play_schedule(["P0", "P0"])
    first = require_match(re.search(r"`D0` takes `(\S+)`", answers.find_answer(3, 1)))[1]
    drain = student.find("#watching [data-event=D0]").get_attribute("aria-label")
    yield "3.1: what D0 takes", f"P0: the oldest entry, {first}, leaves the store buffer for memory", drain
    runs = ("P0 P0 D0 D0 P1 P1", "P0 P0 D0 P1 D0 P1", "P0 P0 P1 D0 D0 P1", "P0 P0 P1 P1 D0 D0")
    ends = [student.play_schedule(it.split())[0] for it in runs]
    yield "3.1: nobody sees y without x", [["EAX=1", "EBX=1"], ["EAX=0", "EBX=1"], ["EAX=0", "EBX=1"], ["EAX=0", "EBX=0"]], ends
    student.open_test(3, "C1")
    yield "3.2", answers.counts["2+2W-x86"], student.guess_and_count_states("no")
    student.open_test(3, "C2")
    student.begin_by_hand("yes")
    answer = answers.find_answer(3, 3)
    schedule = require_match(re.search(r'"(P[^"]*)"', answer))[1].split()
    yield "3.3", (re.findall(r"^P\d at \d (EAX=\d)", answer, re.M), True), student.play_schedule(schedule)
    yield "3.3: the list", [1, 9], student.guess_and_count_states()
    for name, example in {"A2": "MP", "A3": "LB", "A4": "R", "A5": "WRC", "A6": "IRIW"}.items():
        student.open_test(1, name)
        positive, number = answers.counts[f"{example}-x86"]
        # Of A2 the guess was made in task 3, and is not asked for again.
        guess = None if name == "A2" else "yes" if positive else "no"
        yield f"3.4, the last column: {name}", [positive, number], student.guess_and_count_states(guess)
        yield f"3.4, the guess on {name}", ["✓ As you said. Predict again Surprise me"], student.texts(".said")


def check_own_store(student: Student, answers: Solutions) -> Iterator[Comparison]:
    """Plays task 4: the own store."""
    student.open_test(4, "D1")
    yield "4.1", answers.counts["SB+own-x86"], student.guess_and_count_states("yes")
    student.open_test(4, "D2")
    student.guess_and_count_states("yes")
    actual = answers.find_answer(4, 2)
    schedule = require_match(re.search(r"^ (P0 .*)$", actual, re.M))[1].split()
    yield "4.2: the schedule", True, student.is_soon(lambda: student.schedule().split() == schedule)
    student.click(".transport [aria-label='To the start']")
    student.says("Step 0 of")
    steps = [student.run(SEEN)]
    for index, _ in enumerate(schedule, 1):
        student.click("#forward")
        student.says(f"Step {index} of")
        steps.append(student.run(SEEN))
    find_x = lambda entries, words: next((it for it in [*reversed(entries), *words] if it.startswith("x=")), None)
    differing = [index for index, (buffers, words) in enumerate(steps) if len({find_x(it, words) for it in buffers}) > 1]
    first, last = map(int, require_match(re.search(r"From step (\d+) to step (\d+)", actual)).groups())
    yield "4.2: where they disagree", [*range(first, last + 1)], differing
    said = re.search(r"Processor 1 would find `(x=\d)` in memory up to\s+step (\d), and its own `(x=\d)` from step (\d) on", actual)
    before, until, own, since = require_match(said).groups()
    found = [find_x(buffers[1], words) for buffers, words in steps[: last + 1]]
    yield "4.2: what processor 1 would find", [before] * (int(until) + 1) + [own] * (last + 1 - int(since)), found
    words_by_row = {name: words.split() for name, words in re.findall(r"^(P\d buffer|Content)(.*)$", actual, re.M)}
    yield "4.2: before the last drain", [[words_by_row["P0 buffer"], words_by_row["P1 buffer"]], words_by_row["Content"]], steps[last]
    student.open_test(4, "D3")
    yield "4.3", answers.counts["n7-x86"], student.guess_and_count_states("yes")
    student.type_row_after(4, " MFENCE | MFENCE | ;")
    yield "4.3: by interleaving, with fences", answers.counts["n7"], student.guess_and_count_states()


def check_repair_shop(student: Student, answers: Solutions) -> Iterator[Comparison]:
    """Plays task 5: a repair shop."""
    places = dict(zip(("A4", "E1", "E2"), answers.list_places()))
    # For each test the list as it is, a row after a line that repairs it, one that does not, and how each row ends.
    tests = {
        "A4": ("R-x86", (4, " | MFENCE ;", "R+mfence-x86"), (4, " MFENCE | ;", "R-x86")),
        "E1": ("Peterson-x86", (5, " MFENCE | MFENCE ;", "Peterson+mfences-x86"), (4, " MFENCE | MFENCE ;", "Peterson+between-x86")),
        "E2": ("ChaseLev-x86", (4, " MFENCE | ;", "ChaseLev+mfence-x86"), (4, " | MFENCE ;", "ChaseLev-x86")),
    }
    for name, (example, *rows) in tests.items():
        student.open_test(5, name)
        yield f"5, {name} as it is", answers.counts[example], student.guess_and_count_states(None if name == "A4" else "yes")
        for line, row, expected in rows:
            student.open_test(5, name)
            student.type_row_after(line, row)
            positive, number = answers.counts[expected]
            yield f"5, {name} with {row} after line {line}, and no second guess", [positive, number], student.guess_and_count_states()
            fences, verdict = student.list_fences()
            is_it = f"the condition holds in none of {number} states." if not positive else f"in the same {number} states, and the condition holds in 1 of them."
            yield f"5, {name} with {row} after line {line}: Fences", True, verdict.endswith(is_it) or verdict
            if not positive:
                yield f"5, {name}: the place", places[name], fences
    student.open_test(5, "E3")
    student.guess_and_count_states("yes")
    for line in (8, 4, 3):
        student.type_row_after(line, " MFENCE | MFENCE ;")
    yield "5.4, E3 with fences", answers.counts["TestThenSet-x86"], student.guess_and_count_states()
    nothing = "The fences change nothing: with all of them and with none the test ends in the same 3 states, and the condition holds in 1 of them."
    yield "5.4, E3: Fences", nothing, student.list_fences()[1]
    student.open_test(5, "E4")
    yield "5.4, E4: what is asked", True, "by interleaving, in which the threads take turns," in student.text("#outcome .predict")
    yield "5.4, E4", answers.counts["TestThenSet"], student.guess_and_count_states("yes")
    yield "5.4, E4: by interleaving", True, "There is a run by interleaving" in student.text("#outcome .verdict")


def check_caches(student: Student, answers: Solutions) -> Iterator[Comparison]:
    """Plays task 6: caches."""
    rows = re.findall(r"^\| `(\S+)` \| (.*) \|$", answers.tasks[6], re.M)
    schedule = [event for event, _ in rows]
    student.open_test(6, "F1")
    student.begin_by_hand("yes")
    student.click("#caches")
    student.find("#watching .cacheline")
    for step_number, (event, letters) in enumerate(rows, 1):
        student.carry_out(event)
        yield f"6.1, row {step_number}", letters.split(" | ")[:3], student.run(LINES)
    student.choose("#protocol", "moesi")
    student.wait(lambda: student.run("return document.querySelector('#protocol')?.value") == "moesi", "MOESI")
    for step_number, (_, letters) in reversed([*enumerate(rows, 1)]):
        expected = letters.split(" | ")[3:]
        student.is_soon(lambda: student.run(LINES) == expected)
        yield f"6.2, row {step_number}", expected, student.run(LINES)
        student.click("#back")
        student.wait(lambda: student.done() == " ".join(schedule[: step_number - 1]), "a step back")
    yield "6.3: the list", [1, 3], student.guess_and_count_states()


def make_comparisons(folder: str) -> Iterator[Comparison]:
    """Yields all comparisons: what is compared, what is expected, and what was found."""
    with tempfile.TemporaryDirectory(prefix="lw-student-") as temporary_folder:
        student = Student(folder, temporary_folder)
        student.driver.set_script_timeout(30)
        try:
            student.driver.find_element("link text", "A card").click()
            student.wait(lambda: len(student.driver.window_handles) > 1, "the card")
            student.card = student.driver.window_handles[1]
            student.driver.switch_to.window(student.card)
            yield "the sheet has a link to the card", "The syntax, on one card", student.text("h1")
            for task in (check_by_hand, check_queue, check_own_store, check_repair_shop, check_caches):
                yield from task(student, Solutions())
            yield "the browser complains of nothing", [], [it for it in student.complaints() if not it.startswith("chrome:")]
            yield "from the page nothing foreign is reached", "not reached", student.driver.execute_async_script(FETCH)
            student.driver.switch_to.window(student.sheet)
            actual = student.driver.execute_async_script(FETCH), any("net::ERR_" in it for it in student.complaints())
            yield "nor from the sheet, since there is no network", ("not reached", True), actual
        finally:
            student.driver.quit()


def enable_loopback() -> None:
    """Takes up the loopback, without which nothing is reached, not even the browser's driver."""
    with socket.socket(socket.AF_INET, socket.SOCK_DGRAM) as probe:
        fcntl.ioctl(probe, SIOCSIFFLAGS, struct.pack("16sH14x", b"lo", IFF_UP))


def main() -> int:
    """Runs the command that the arguments describe. Returns the exit status."""
    reader = command.Reader(__doc__)
    reader.add_argument("folder", metavar="FOLDER")
    folder = reader.read().folder
    enable_loopback()
    for comparison in make_comparisons(folder):
        print(json.dumps(comparison), flush=True)
    return 0


if __name__ == "__main__":
    sys.exit(start.run(main))
