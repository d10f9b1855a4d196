"""Checks that tools/make_lab.py makes what a class needs from docs/LAB.md. The last line is 'N passed, M failed'.

    python3 tools gate.check_lab

- The program reads each test on the sheet, and lists the states of its example. The name says nothing, there is no comment, and all tests
  ask the same. A link on the sheet has the test's text.
- The sheet, the card and the tests say no verdict, no name of an example and none of the longer schedules of comments; and no six words in a row
  are those of a comment or of an answer in docs/SOLUTIONS.md. They name no other site.
- The points of the items make up those of their tasks, and these and the minutes those of the timetable. docs/SOLUTIONS.md has the same
  tasks, and an answer to each item. Its table of cache lines is what the program replays.
- In Chromium, if it is there: task 1 prints on one page, the rest on at most seven, and sheet and card fit a phone. What is only for the screen is
  not printed, and the sheet's address is, if it has one. Items that ask for several schedules or a drawing have several lines.
- In Chromium without a network, if it is there with its driver and python3-selenium, and unshare is permitted, the lab is played from the
  sheet (tools/gate/check_lab_browser.py), and what the page shows is what docs/SOLUTIONS.md says. A line says what is skipped; with
  CI=true that is a failure if only the modules are missing.
- The same sources give the same bytes; without modules the site is left out, and without the program the slides, and nothing else.

tools/check_documents.py calls all this; the program has to be built.
"""
from __future__ import annotations

import base64
import contextlib
import functools
import http.server
import io
import json
import os
import re
import subprocess
import sys
import tempfile
import threading
import zipfile
from collections.abc import Iterator
from html import unescape
from typing import Any
from urllib.parse import parse_qs

import given
import make_lab
from gate.browser import user
from gate.cases import Comparison
from gate.examples import run
from lab import sheets
from lab.markdown import find_section, split_blocks
from lab.tests import list_examples, make_tests, read_file
from page import web_files
from shared import command
from shared.home import HOME, PROGRAM, close_check
from shared.matches import require_match

SMALLEST = b"\0asm\1\0\0\0"
VERDICTS = r"\b(?:allowed|forbidden|required|sometimes|never|always|positive|negative|observation)\b"
WORDS_IN_A_ROW = 6
TASK = re.compile(r"^### (\d)\. (.*) \((\d+) minutes, (\d+) points( more)?\)$", re.M)
ITEM = re.compile(r"^(\d)\. \((\d) points?, (easy|medium|hard)\) ", re.M)
TIME = re.compile(r"^\| (\d+) to (\d+) \| (.*?) \| (\d*) ?\|$", re.M)
# A page of a printed document; and a script that removes all of the sheet but the first task.
PAGE = re.compile(rb"/Type\s*/Page\b")
FIRST_TASK = "for (let it = document.querySelector('.new-page'); it;) { const next = it.nextElementSibling; it.remove(); it = next; }"
# What is seen of the sheet: its words, the lines below links, the address and whether it is seen, and how items, their tests and tasks are broken.
PRINTED = """
const all = (css) => [...document.querySelectorAll(css)], kinds = (css, of) => [...new Set(all(css).map((it) => of(getComputedStyle(it))))];
const address = document.getElementById('address');
return [document.body.innerText, kinds('a', (it) => it.textDecorationLine), [address.innerText, address.checkVisibility()],
  kinds('.unit, .tests, .task', (it) => it.breakInside)];
"""
MIN_TESTS, MIN_ITEMS, MIN_PLAYED = 16, 18, 70


# What the sheet has to say once, so that its words and those of the page are one: when a run ends, what slips are there, and the rest.
SENTENCES = (
    "A run ends when all threads are at their ends and all slips are handed over.",
    "On the page a row of slips is a store buffer, and a slip is its entry.",
    "Before anything is shown the page asks what you expect",
    "lists what is possible by interleaving.",
    "The last column is for task 3.",
    "P0 writes a message, x , and raises a flag, y",
    "At first all lines are in I.",
    "It has one state more, O: like M",
)


def ask_program(arguments: list[str], text: str) -> tuple[str, int]:
    """Returns the program's output, and its exit status."""
    ran = subprocess.run([PROGRAM, *arguments], input=text.encode(), stdout=subprocess.PIPE, stderr=subprocess.STDOUT, check=False)
    return ran.stdout.decode(), ran.returncode


def list_states(text: str) -> list[str] | str:
    """Returns the states that the program lists."""
    out, status = ask_program(["states"], text)
    return re.findall(r"^.*;$", out, re.M) if status == 0 else out


def extract_prose(text: str) -> str:
    """Returns the words of a document's paragraphs, without code blocks and tables."""
    return " ".join(" ".join(lines) for kind, lines in split_blocks(text) if kind in ("paragraph", "item"))


def list_word_rows(text: str) -> set[str]:
    """Returns all sequences of WORDS_IN_A_ROW words of a text, in small letters."""
    words = re.findall(r"[\w=]+", text.lower())
    return {" ".join(words[index : index + WORDS_IN_A_ROW]) for index in range(len(words) - WORDS_IN_A_ROW + 1)}


def extract_visible_text(page: str) -> str:
    """Returns the visible text of a page."""
    return unescape(re.sub(r"<style>.*?</style>|<[^>]*>", " ", page, flags=re.S))


def check_tests(lab: str, tests: dict[str, str]) -> Iterator[Comparison]:
    """Compares the tests with their examples."""
    yield "how many tests the lab has", True, len(tests) >= MIN_TESTS
    rows = re.findall(r"^\| ([A-Z]\d) \| \S+ \| ([\d, ]+) \|$", find_section(lab, "For the teacher"), re.M)
    tasks = parse_tasks(find_section(lab, "The sheet"))
    tasks_by_test = {name: [int(number) for number, *_, text in tasks if name in find_tests(text)] for name in tests}
    yield "tasks name the tests that the table says", tasks_by_test, {name: [int(it) for it in numbers.split(", ")] for name, numbers in rows}
    for name, example in list_examples(lab).items():
        text = tests[name]
        yield f"{name} is read by the program", 0, ask_program(["compile"], text)[1]
        yield f"{name} has the states of {example}", list_states(read_file(f"examples/{example}.litmus")), list_states(text)
        yield f"{name} has a neutral name, no comment, and asks `exists`", True, bool(re.match(rf"(SRC|X86) {name}\n[^\"*~]*\nexists [^~\"*]*\n\Z", text))


def find_tests(text: str) -> dict[str, str]:
    """Returns the tests that a task shows: for each how it is used, `by hand`, `to repair`, or ""."""
    lines = re.findall(r"^Tests(?: (by hand|to repair))?: (.*)$", text, re.M)
    return {name: use for use, names in lines for name in names.split()}


def parse_comments(lab: str) -> dict[str, str]:
    """Returns, for each example of the lab, its comment."""
    return {it: require_match(re.search(r"\(\*(.*?)\*\)", read_file(f"examples/{it}.litmus"), re.S))[1] for it in list_examples(lab).values()}


def check_silence(lab: str, page: str, tests: dict[str, str]) -> Iterator[Comparison]:
    """Checks that nothing on the sheet or in the tests gives an answer away."""
    visible_text = extract_visible_text(page) + "\n".join(tests.values())
    yield "the sheet says no verdict", [], re.findall(VERDICTS, visible_text, re.I)
    bases = {it.replace("-x86", "") for it in list_examples(lab).values()}
    yield "the sheet names no example", [], sorted(it for it in bases if re.search(rf"(?<![\w+]){re.escape(it)}(?![\w+])", visible_text))
    for name, comment in parse_comments(lab).items():
        schedule = require_match(re.search(r"A (?:telling schedule|run): ([\w\s:]*)", comment))[1].split()
        yield f"the sheet has not the schedule of {name}", False, len(schedule) > 5 and " ".join(schedule) in " ".join(visible_text.split())
        about = comment.partition("Interleaving: ")[0]
        yield f"the sheet says nothing of the comment of {name}", set(), list_word_rows(visible_text) & list_word_rows(about)
    answers = extract_prose(find_section(read_file("docs/SOLUTIONS.md"), "The lab"))
    yield "the sheet says nothing of the answers", set(), list_word_rows(visible_text) & list_word_rows(answers)
    yield "the sheet and the tests name no other site", [], re.findall(r"https?:|//\w", page + "".join(tests.values()))


def check_sentences(pages: str) -> Iterator[Comparison]:
    """Checks that the sheet and the card together have each of some sentences once."""
    html = " ".join(re.sub(r"</?em>", "", pages).replace("<", " <").split())
    words = " ".join(extract_visible_text(html).split())
    for sentence in SENTENCES:
        yield f"the sheet or the card says: {sentence}", 1, words.count(sentence)


def check_links(tests: dict[str, str]) -> Iterator[Comparison]:
    """Checks that a link on the sheet opens the test below it in one tab for all of them, at By hand if it is played by hand, with fences of
    one's own first if it is to be repaired, and asks for a prediction first.
    """
    lab = read_file("docs/LAB.md")
    page = sheets.make_sheet(lab, tests, "site/index.html")
    yield "tests of two lines that follow each other are side by side", 0, page.count('</div>\n<div class="tests">')
    tests_shown = [it for *_, text in parse_tasks(find_section(lab, "The sheet")) for it in find_tests(text).items()]
    links = re.findall(r'<figcaption>(\w+) <a class="screen" target="lw" href="site/index\.html#([^"]*)">', page)
    yield "each test has a link where it is used", [name for name, _ in tests_shown], [name for name, _ in links]
    views: dict[str, dict[str, list[str]]] = {"by hand": {"view": ["hand"]}, "to repair": {"fences": ["own"]}, "": {}}
    for (name, use), (_, link) in zip(tests_shown, links):
        view = views[use]
        yield f"the link of {name}", {"predict": ["1"], **view, "text": [tests[name]]}, parse_qs(unescape(link))
    yield "the card has a link", 1, page.count('<a href="card.html" target="_blank">')


def parse_tasks(text: str) -> list[tuple[str, str, int, int, str]]:
    """Returns the tasks of a text, in order: of each the number, the title, the minutes, the points, and the text below its heading."""
    matches = list(TASK.finditer(text))
    ends = [it.start() for it in matches[1:]] + [len(text)]
    return [(it[1], it[2], int(it[3]), int(it[4]), text[it.end() : end].partition("\n### ")[0]) for it, end in zip(matches, ends)]


def check_points(lab: str) -> Iterator[Comparison]:
    """Compares the points and minutes of the tasks with those of their items, of docs/SOLUTIONS.md and of the timetable."""
    tasks = parse_tasks(find_section(lab, "The sheet"))
    solved = parse_tasks(find_section(read_file("docs/SOLUTIONS.md"), "The lab"))
    yield "docs/SOLUTIONS.md has the tasks", [it[:4] for it in tasks], [it[:4] for it in solved]
    items = {number: ITEM.findall(text) for number, _, _, _, text in tasks}
    yield "how many items there are", True, sum(map(len, items.values())) >= MIN_ITEMS
    for (number, _, _, points, text), (*_, answers) in zip(tasks, solved):
        numbered = re.findall(r"^(\d)\. ", text, re.M)
        yield f"each item of task {number} has points", numbered, [it for it, _, _ in items[number]]
        yield f"the points of task {number}", points, sum(int(it) for _, it, _ in items[number])
        yield f"the answers to task {number}", numbered, re.findall(r"^(\d)\. ", answers, re.M)
    times = [(int(begin), int(end), heading, points) for begin, end, heading, points in TIME.findall(find_section(lab, "For the teacher"))]
    yield "the timetable has no gap", [0, *(it[1] for it in times)], [*(it[0] for it in times), 90]
    yield "the timetable has 75 minutes of work", True, any(it[1] == 75 for it in times)
    # The last task is for groups that are ready early: it has no row of its own in the timetable.
    for number, title, minutes, points, _ in tasks[:-1]:
        row = next((it for it in times if it[2] == f"{number}. {title}"), None)
        yield f"task {number} in the timetable", (minutes, str(points)), row and (row[1] - row[0], row[3])


def check_cache_lines() -> Iterator[Comparison]:
    """Compares the table of cache lines with the program."""
    rows = re.findall(r"^\| `(\S+)` \| (.*) \|$", find_section(read_file("docs/SOLUTIONS.md"), "The lab"), re.M)
    yield "the table has five events", 5, len(rows)
    for index, (_, letters) in enumerate(rows):
        schedule, replayed = " ".join(event for event, _ in rows[: index + 1]), []
        for protocol in ("mesi", "moesi"):
            out, _ = ask_program(["replay", schedule, "--protocol", protocol], read_file("examples/Cache-x86.litmus"))
            replayed += [*re.findall(r"lines y=(\w)", out), *re.findall(r"^Memory y=(\d+)$", out, re.M)]
        yield f"the cache lines after {schedule}", letters.split(" | "), replayed


def check_bytes() -> Iterator[Comparison]:
    """Checks that the same sources give the same bytes, with modules and without."""
    files, bare = make_lab.make_files([SMALLEST], "slides"), make_lab.make_files([], None)
    yield "the same bytes again", True, files == make_lab.make_files([SMALLEST], "slides")
    left_out = sorted(it for it in files if "/site/" not in it and it != "teacher/slides.html")
    yield "what is left out without modules and program", left_out, sorted(bare)
    yield "the site is there with modules", True, "students/site/index.html" in files
    yield "no link to a site without one", (False, False), (b"site/" in bare["students/sheet.html"], b"site/" in bare["students/index.html"])
    linked = re.findall(r'href="([^"]*)"', files["students/index.html"].decode())
    yield "the index leads to what is there", [], [it for it in linked if f"students/{it}" not in files]
    with zipfile.ZipFile(io.BytesIO(files["students.zip"])) as packed:
        inside = {f"students/{it.partition('/')[2]}": packed.read(it) for it in packed.namelist()}
    yield "students.zip is the folder", True, inside == {name: it for name, it in files.items() if name.startswith("students/")}
    yield "no answers for students", [], [it for it in files if it.startswith("students/") and re.search("solution|answer|timetable|slides", it)]
    yield "the solutions for the teacher", True, b"FenceWaits" in files["teacher/solutions.html"]


def check_paper(folder: str) -> Iterator[Comparison]:
    """Checks that on paper task 1 is one page, of A4 and of Letter, and the rest at most seven; and that a phone shows all of the sheet."""
    if not user.is_installed():
        return
    driver = user.start_chromium(f"{folder}/paper")
    try:
        driver.get(f"file://{folder}/students/sheet.html")
        for paper, width, height in (("A4", 8.27, 11.69), ("Letter", 8.5, 11)):
            yield f"the sheet, on {paper}: its pages", True, count_paper_pages(driver, width, height) <= 8
        yield from check_printed(driver, "")
        with serve_folder(f"{folder}/students") as address:
            driver.get(f"{address}/sheet.html")
            yield from check_printed(driver, f"{address}/sheet.html")
            driver.get(f"file://{folder}/students/sheet.html")
        driver.execute_cdp_cmd("Emulation.setDeviceMetricsOverride", {"width": 360, "height": 740, "deviceScaleFactor": 2, "mobile": True})
        for name in ("sheet", "card"):
            driver.get(f"file://{folder}/students/{name}.html")
            wide = driver.execute_script("return document.documentElement.scrollWidth")
            yield f"{name}.html fits a phone", 360, wide
        driver.execute_cdp_cmd("Emulation.clearDeviceMetricsOverride", {})
        driver.get(f"file://{folder}/students/sheet.html")
        driver.execute_script(FIRST_TASK)
        for paper, width, height in (("A4", 8.27, 11.69), ("Letter", 8.5, 11)):
            yield f"task 1, on {paper}: its pages", 1, count_paper_pages(driver, width, height)
    finally:
        driver.quit()


@contextlib.contextmanager
def serve_folder(folder: str) -> Iterator[str]:
    """Serves a folder over http, and yields its address."""

    class Handler(http.server.SimpleHTTPRequestHandler):
        """Serves the folder, and says nothing."""

        def __init__(self, *arguments: Any) -> None:
            """Serves the folder."""
            super().__init__(*arguments, directory=folder)

        def log_message(self, format: str, *arguments: Any) -> None:
            """Says nothing."""

    with http.server.ThreadingHTTPServer(("127.0.0.1", 0), Handler) as server:
        threading.Thread(target=server.serve_forever, daemon=True).start()
        try:
            yield f"http://127.0.0.1:{server.server_address[1]}"
        finally:
            server.shutdown()


def check_printed(driver: user.Driver, address: str) -> Iterator[Comparison]:
    """Checks what the sheet prints: no word on links, no line below one, its address if it has one, and no item on two pages."""
    driver.execute_cdp_cmd("Emulation.setEmulatedMedia", {"media": "print"})
    words, lines, shown, kinds = driver.execute_script(PRINTED)
    yield f"no word on links is printed, {address}", [], re.findall("beside a test|in another tab|\\bopen\\b(?= *\\n)", words)
    yield f"no link is underlined on paper, {address}", ["none"], lines
    yield f"the address on paper, {address}", [address, True], shown
    yield f"an item, its room and the tests stay on one page, {address}", ["avoid"], kinds
    driver.execute_cdp_cmd("Emulation.setEmulatedMedia", {"media": ""})
    yield f"the address is not on the screen, {address}", False, driver.execute_script("return document.querySelector('.address').checkVisibility()")


def check_room(page: str) -> Iterator[Comparison]:
    """Checks how many lines the items have for their answers: several for several schedules and for a drawing, none before a table."""
    lines = {}
    for task, text in re.findall(r'<section class="task[^"]*">\n<h3>(\d)(.*?)</section>', page, re.S):
        for item, unit in re.findall(r'<div class="unit">\n<p class="item"><b>(\d)\.</b>(.*?)(?=<div class="unit">|\Z)', text, re.S):
            lines[f"{task}.{item}"] = (unit.count('class="answer"'), "<table>" in unit)
    yield "items with several lines", ["2.2", "3.2", "4.3"], [it for it, (count, _) in lines.items() if count > 1]
    yield "items without lines have tables", ["1.1", "6.1"], [it for it, (count, has_table) in lines.items() if count == 0 and has_table]
    yield "all other items have one line", {1}, {count for count, has_table in lines.values() if count <= 1 and not has_table}
    yield "how many items have room", True, len(lines) >= MIN_ITEMS


def count_paper_pages(driver: user.Driver, width: float, height: float) -> int:
    """Returns how many pages of paper of a size, in inches, what is shown takes."""
    printed = driver.execute_cdp_cmd("Page.printToPDF", {"paperWidth": width, "paperHeight": height})
    return len(PAGE.findall(base64.b64decode(printed["data"])))


def check_command() -> Iterator[Comparison]:
    """Runs the command, and looks at its statuses."""
    with tempfile.TemporaryDirectory(prefix="lw-lab-") as folder:
        yield "make_lab.py FOLDER", ("", 0), run(["make_lab.py", folder])[::2]
        names = sorted(it for it in os.listdir(folder))
        yield "what it makes", ["students", "students.zip", "teacher"], names
        yield "what the teacher has", ["glossary.html", "slides.html", "solutions.html", "timetable.html"], sorted(os.listdir(f"{folder}/teacher"))
        yield "a folder that can't be made", 1, run(["make_lab.py", f"{folder}/students.zip/in"])[2]
        yield from check_paper(folder)
        yield from check_played(folder)
    yield "no words", 2, run(["make_lab.py"])[2]
    yield "--help", 0, run(["make_lab.py", "--help"])[2]


@functools.lru_cache(maxsize=None)
def find_offline_wrapper() -> list[str] | None:
    """Returns the words that run a command in a namespace without a network, as root or as its owner; None if that is not permitted."""
    for words in (["unshare", "-n"], ["unshare", "-rn"]):
        try:
            if subprocess.run([*words, "true"], capture_output=True, check=False).returncode == 0:
                return words
        except OSError:
            pass
    return None


def list_missing() -> list[str]:
    """Returns the parts that are missing to play the lab."""
    requirements: dict[str, object] = {"Chromium with its driver and selenium": user.is_installed(), "a permission for unshare": find_offline_wrapper()}
    requirements["the module of the sources as they are"] = web_files.read_module()
    return [requirement for requirement, is_installed in requirements.items() if not is_installed]


def check_played(folder: str) -> Iterator[Comparison]:
    """Plays the lab in a browser without a network, in a folder that is made for it."""
    if missing := list_missing():
        if os.environ.get("CI") == "true" and len(missing) == 1 and not web_files.read_module():
            yield "where CI=true the lab is played", [], missing
        return
    words = [*(find_offline_wrapper() or []), sys.executable, f"{HOME}/tools", "gate.check_lab_browser", folder]
    ran = subprocess.run(words, capture_output=True, text=True, timeout=900, check=False)
    yield from ((f"the lab, {subject}", expected, actual) for subject, expected, actual in map(json.loads, ran.stdout.splitlines()))
    yield "the lab is played to its end", (0, ""), (ran.returncode, ran.stderr[-2000:])
    yield "how much of the lab is played", True, len(ran.stdout.splitlines()) >= MIN_PLAYED


def describe_skipped() -> str | None:
    """Returns the line that says what was left out, or None if nothing was."""
    missing = list_missing()
    return f"the lab: it was not played in a browser, since this is missing: {', '.join(missing)}" if missing else None


def make_comparisons() -> Iterator[Comparison]:
    """Yields all comparisons: what is compared, what is expected, and what was found."""
    lab = read_file("docs/LAB.md")
    tests = make_tests(lab)
    page = sheets.make_sheet(lab, tests, None) + sheets.render_document("CARD")
    yield from check_tests(lab, tests)
    yield from check_silence(lab, page, tests)
    yield from check_sentences(page)
    yield from check_links(tests)
    yield from check_room(page)
    yield from check_points(lab)
    yield from check_cache_lines()
    yield from check_bytes()
    yield from check_command()


def main() -> int:
    """Runs the command that the arguments describe. Returns the exit status."""
    given.set_output_encoding()
    return close_check(make_comparisons(), describe_skipped=describe_skipped)


if __name__ == "__main__":
    sys.exit(command.run_command(main, __doc__))
