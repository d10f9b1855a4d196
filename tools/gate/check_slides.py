"""Checks that tools/make_slides.py makes the slides that docs/LAB.md describes. The last line is 'N passed, M failed'.

    python3 tools gate.check_slides

- There are fourteen slides, each with a title of its own; the page names no other site and loads nothing; the same sources give the same bytes.
  With the address of lw's page each slide that shows a test has a link that opens that test there.
- What is shown of a test is what the program says of it: each list is that of its report, with the verdict in words, and each machine has the
  registers, the store buffers and the words of its replay. An execution's loads have the words that the replay ends with.
- Code has the colours that the page's own JavaScript gives it, in node if it is there, and each has a contrast of 4.5 at least.
- The slides are in the order of the timetable. Before the tasks none shows a test of tasks 2 to 4, except the text of A1 and A2 and the
  list of A1 by interleaving, and no picture shows cache lines. Slide and sheet ask the same.
- In Chromium, if it is there with its driver and python3-selenium: keys, clicks and two buttons lead from slide to slide, the buttons cover
  nothing, a key shows notes in a window of their own and never on the slides, they are dark if the system is, and each is a white page of paper.

tools/check_documents.py calls all this; the program has to be built.
"""
from __future__ import annotations

import base64
import itertools
import json
import re
import shutil
import subprocess
import sys
import tempfile
from collections.abc import Callable, Iterator
from html import unescape
from typing import Any
from urllib.parse import parse_qsl

import given
import make_slides
from gate.browser import user as users
from gate.cases import Comparison
from gate.examples import run
from lab import quiz, slides, tints
from lab.tests import read_file
from page import web_files
from replay_state import State, parse_replay_state
from shared import command
from shared.home import HOME, PROGRAM, close_check

COUNT = 14
FIGURE = re.compile(r'<figure data-kind="(\w+)" data-test="([\w-]+)" data-schedule="([^"]*)">(.*?)</figure>', re.S)
LIST = re.compile(r'<pre data-kind="(\w+)" data-test="([\w-]+)">(.*?)</pre>', re.S)
# The parts of a machine: a thread, memory, and a name with its word, of a kind.
THREAD = re.compile(r'<section class="thread thr-(\d)">(.*?)</section>', re.S)
MEMORY = re.compile(r'<section class="memory">(.*?)</section>', re.S)
ITEM = re.compile(r'<li class="(register|entry|word)[^"]*"><span[^>]*>(\w+)</span> <b>(\d+)</b>(?: <i>initial</i>)?</li>')
OUTWARD = re.compile(r"https?:|\bsrc=|\bhref=|@import|url\((?!#)|(?<!:)//\w")
# The parts of tests that slides show before the tasks about them: the kind and the test of a text, a list or a picture.
BEFORE = {("code", "A1"), ("code", "A2"), ("states", "A1-turns"), ("state", "A1-turns"), ("state", "Slip")}
# The question of the sheet and of the slide in task 1.
SAID = "Say why, whatever you answer."
# The numbers of the slides that are shown, and the words between the buttons.
SHOWN = """
const shown = [...document.querySelectorAll('.slide')].flatMap((it, index) => (it.offsetHeight ? [index + 1] : []));
return [shown, document.querySelector('.controls output').innerText];
"""
# The slides whose words or pictures the buttons cover, each by its number.
COVERED = """
const box = document.querySelector(".controls").getBoundingClientRect();
const isCovered = (it) => {
  const { right, bottom } = it.getBoundingClientRect();
  return right > box.left && bottom > box.top;
};
return [...document.querySelectorAll(".slide")].flatMap((slide, index) => {
  show(index);
  return [...slide.querySelectorAll("p, pre, figure")].some(isCovered) ? [index + 1] : [];
});
"""
NODE = shutil.which("node")
# Prints for each text the words that web/tint.js gives a colour of a thread or a location, with their class, and the whole text.
TINTED = """
import { readFileSync } from "node:fs";

const make = (tag) => ({ tag, kind: "", words: "", setAttribute(name, value) { if (name === "class") this.kind = value; },
  append(...children) { this.words += children.join(""); } });
globalThis.document = { createElement: make, documentElement: { dataset: {} } };
const { findTints, renderText } = await import(`file://${process.argv[2]}/tint.js`);
const kindOf = (it) => it.kind?.match(/\\b(?:thr|loc)-\\d/)?.[0];
const show = (nodes) => [nodes.filter(kindOf).map((it) => [kindOf(it), it.words]), nodes.map((it) => it.words ?? it).join("")];
console.log(JSON.stringify(JSON.parse(readFileSync(0, "utf8")).map((text) => show(renderText(text, findTints(text))))));
"""
# A word in a colour, and the elements that colours are made of.
TINT = re.compile(r'<span class="([\w-]+)">(.*?)</span>')
TINT_TAG = re.compile(r"</?(?:span|tspan)\b[^>]*>")
# The grounds on which code is shown in light and in dark: those of slides and of boxes. Words of a location are on a ground that has some of its colour.
GROUND = re.compile(r"--(?:ground|paper): light-dark\((#\w+), (#\w+)\);")
MIXED = 0.09
MIN_CONTRAST = 4.5
# The page's words for the program's: slides have those of the page, and only these.
VERDICTS = {"Never": "Forbidden", "Sometimes": "Allowed"}
NUMBERS = ["none", "one", "two", "three", "four"]
# A page of a printed document.
PAGE = re.compile(rb"/Type\s*/Page\b")


def ask_program(arguments: list[str], text: bytes) -> str:
    """Returns the output of the program."""
    return subprocess.run([PROGRAM, *arguments], input=text, stdout=subprocess.PIPE, stderr=subprocess.STDOUT, check=False).stdout.decode()


def replay_schedule(text: bytes, schedule: str) -> State:
    """Returns the state that a schedule reaches, by the program."""
    return parse_replay_state(ask_program(["replay", schedule], text))


def check_page(page: str) -> Iterator[Comparison]:
    """Checks the page as a whole."""
    titles = re.findall(r'<section class="slide">\n<h2>(.*?)</h2>', page)
    yield "there are fourteen slides, each with its own title", (COUNT, COUNT), (len(titles), len(set(titles)))
    yield "the slides are numbered", [f"{index} of {COUNT}" for index in range(1, COUNT + 1)], re.findall(r"<footer>(.*?)</footer>", page)
    yield "the page loads nothing and names no other site", [], OUTWARD.findall(page)
    yield "the same bytes again", True, page == make_slides.make_page()
    prediction, by_hand = titles.index("Predict") + 1, titles.index("Now by hand") + 1
    lines = re.findall(r"^\| \d+ to \d+ \| Slides (\d+) to (\d+): ", read_file("docs/LAB.md"), re.M)
    expected = [(1, prediction), (prediction + 1, by_hand), (by_hand + 1, COUNT)]
    yield "the timetable has the slides, those up to the prediction first", expected, [(int(first), int(last)) for first, last in lines]
    front = page.split('<section class="slide">')[: by_hand + 1]
    shown_kinds = set(re.findall(r'data-kind="(\w+)" data-test="([\w-]+)"', "".join(front)))
    yield "before the tasks no slide shows what they ask for", set(), shown_kinds - BEFORE
    yield "each slide has a note", COUNT, page.count("<aside>")
    yield "no slide has the program's word for a verdict", [], re.findall(r"\b(?:Never|Sometimes)\b", page)
    yield "no slide shows cache lines", [], re.findall(r">lines [^<]*<", page)
    yield "sheet and slide ask the same of task 1", (True, True), (SAID in page, SAID in " ".join(read_file("docs/LAB.md").split()))


def check_links(tests: dict[str, bytes]) -> Iterator[Comparison]:
    """Checks that each slide with a test opens it on the page: a text is asked about first, and a run is the one that is shown."""
    linked = make_slides.make_page("index.html").split('<section class="slide">')[1:]
    for number, slide in enumerate(linked, 1):
        shown = re.findall(r'data-kind="(\w+)" data-test="([\w-]+)"(?: data-schedule="([^"]*)")?', slide)
        links = [unescape(it) for it in re.findall(r'<a class="open" target="lw" href="index\.html#([^"]*)">', slide)]
        more: dict[str, dict[str, str]] = {"code": {"predict": "1"}, "states": {}}
        expected = [{"text": tests[name].decode(), **more.get(kind, {"view": "hand", "schedule": schedule})} for kind, name, schedule in shown]
        yield f"what slide {number} opens", expected, [dict(parse_qsl(it)) for it in links]


def check_lists(page: str, tests: dict[str, bytes]) -> Iterator[Comparison]:
    """Checks the texts and the lists."""
    lists = LIST.findall(page)
    yield "how many lists there are", True, sum(kind == "states" for kind, _, _ in lists) >= 2
    for kind, name, text in lists:
        yield f"colours in the {kind} of {name}", True, bool(TINT.search(text))
        text = unescape(TINT_TAG.sub("", text))
        if kind == "code":
            yield f"the code of {name}", tests[name].decode(), text
            continue
        lines = ask_program(["states"], tests[name]).splitlines()
        count = int(lines[1].split()[1])
        yield f"the list of {name}", [f"{count} final states", *lines[2 : count + 2]], text.splitlines()
        _, _, verdict, positive, negative = lines[-1].split()
        number, total = NUMBERS[int(positive)], NUMBERS[count]
        yield f"the counts of {name}", count, int(positive) + int(negative)
        yield f"the verdict on {name} is in words", True, f"<p>{VERDICTS[verdict]}: the end that we ask about is {number} of the {total} states.</p>" in page


def list_items(html: str, kind: str) -> list[str]:
    """Returns the names of a part of a machine that are of a kind, with their words."""
    return [f"{name}={word}" for it, name, word in ITEM.findall(html) if it == kind]


def format_words(pairs: list[tuple[str, int]]) -> list[str]:
    """Returns pairs of a name and a word as texts NAME=WORD."""
    return [f"{name}={word}" for name, word in pairs]


def compare_state(subject: str, html: str, state: State) -> Iterator[Comparison]:
    """Compares a machine with the state that the program replays."""
    threads = THREAD.findall(html)
    yield f"{subject}: the words of memory", format_words(state["content"]), list_items("".join(MEMORY.findall(html)), "word")
    yield f"{subject}: its threads", [str(it) for it in range(len(state["threads"]))], [number for number, _ in threads]
    yield f"{subject}: registers are shown", True, bool(list_items(html, "register"))
    for (number, shown), thread_state in zip(threads, state["threads"]):
        registers = set(list_items(shown, "register"))
        yield f"{subject}: the registers of P{number}", [], sorted(registers - set(format_words(thread_state["registers"])))
        # In the tests of the slides the last instruction of a thread is the only one that writes its registers.
        unwritten = re.findall(r'<li class="register initial"><span[^>]*>(\w+)</span>', shown)
        yield f"{subject}: the registers of P{number} with their initial words", [] if "at its end" in shown else sorted(it.split("=")[0] for it in registers), unwritten
        # The newest entry is on top.
        entries = format_words(thread_state.get("buffer", []))[::-1]
        yield f"{subject}: the store buffer of P{number}", entries, list_items(shown, "entry")


def check_figures(page: str, tests: dict[str, bytes]) -> Iterator[Comparison]:
    """Checks the pictures."""
    figures = FIGURE.findall(page)
    yield "how many pictures there are", True, len(figures) >= 6
    for kind, name, schedule, drawn in figures:
        subject, events = f"{name} after {schedule}", schedule.split()
        state = replay_schedule(tests[name], schedule)
        yield f"{subject} is carried out", len(events), state["steps"]
        if kind == "state":
            yield from compare_state(subject, drawn, state)
        else:
            loaded = re.findall(r": R \w+=(\d+)<", TINT_TAG.sub("", drawn))
            yield f"{subject}, an execution: what is loaded", [str(dict(it["registers"])["EAX"]) for it in state["threads"]], loaded


def parse_colour(colour: str) -> list[int]:
    """Returns the red, the green and the blue of a colour, of three or six hexadecimal digits."""
    digits = "".join(it * 2 for it in colour[1:]) if len(colour) == 4 else colour[1:]
    return [int(digits[at : at + 2], 16) for at in (0, 2, 4)]


def mix(colour: str, ground: str) -> str:
    """Returns a ground that has some of a colour."""
    return "#" + "".join(f"{round(MIXED * one + (1 - MIXED) * other):02x}" for one, other in zip(parse_colour(colour), parse_colour(ground)))


def measure_luminance(colour: str) -> float:
    """Returns the relative luminance of a colour."""
    red, green, blue = (it / 12.92 if it <= 0.04045 else ((it + 0.055) / 1.055) ** 2.4 for it in (part / 255 for part in parse_colour(colour)))
    return 0.2126 * red + 0.7152 * green + 0.0722 * blue


def measure_contrast(one: str, other: str) -> float:
    """Returns the contrast of two colours."""
    dark, light = sorted(map(measure_luminance, (one, other)))
    return (light + 0.05) / (dark + 0.05)


def check_tints(tests: dict[str, bytes]) -> Iterator[Comparison]:
    """Checks that code has the page's colours: those of all examples, of the slides and of quizzes; and their contrasts."""
    colours = tints.list_colours()
    expected = [f"thr-{number}" for number in range(4)] + [f"loc-{number}" for number in range(tints.COLOURS)]
    yield "the page's colours are found", expected, [name for name, _, _ in colours]
    grounds = GROUND.findall(tints.read_colour_rules())
    yield "the grounds of slides and of boxes are found", 2, len(grounds)
    for index in (0, 1):
        pairs = [(name, colour, ground[index]) for (name, *by_theme), ground in itertools.product(colours, grounds) for colour in by_theme[index : index + 1]]
        pairs += [(name, colour, mix(colour, ground)) for name, colour, ground in pairs]
        yield "colours with too little contrast", [], [(name, ground) for name, colour, ground in pairs if measure_contrast(colour, ground) < MIN_CONTRAST]
    if not NODE:
        return
    texts = [*(it["text"] for family in web_files.list_families() for it in family["tests"]), *(it.decode() for it in tests.values())]
    texts += [it.text for seed in "123" for it in quiz.make_tests(10, seed, quiz.make_report_by_program)]
    with tempfile.TemporaryDirectory(prefix="lw-web-") as folder:
        shutil.copytree(f"{HOME}/web", f"{folder}/web")
        for name, text in (("web/package.json", '{ "type": "module" }\n'), ("tinted.mjs", TINTED)):
            with open(f"{folder}/{name}", "w", encoding="utf-8") as file:
                file.write(text)
        ran = subprocess.run([NODE, f"{folder}/tinted.mjs", f"{folder}/web"], input=json.dumps(texts), capture_output=True, text=True, check=False)
    yield "the page colours all texts", "", ran.stderr
    for text, by_page in zip(texts, json.loads(ran.stdout or "[]")):
        html = tints.render_test(text)
        found = [[[kind, unescape(words)] for kind, words in TINT.findall(html)], unescape(TINT_TAG.sub("", html))]
        yield f"the colours of {text.split()[1]}", by_page, found


def check_command() -> Iterator[Comparison]:
    """Checks the command."""
    with tempfile.TemporaryDirectory(prefix="lw-slides-") as folder:
        address = "site/index.html"
        cases: tuple[tuple[list[str], str], ...] = (([], make_slides.make_page()), (["--page", address], make_slides.make_page(address)))
        for words, made in cases:
            yield f"make_slides.py OUT.html {' '.join(words)}", ("", "", 0), run(["make_slides.py", f"{folder}/slides.html", *words])
            with open(f"{folder}/slides.html", encoding="utf-8") as file:
                yield f"what it makes, {words}", True, file.read() == made
        yield "a folder that is not there", 1, run(["make_slides.py", f"{folder}/nowhere/slides.html"])[2]
        yield from check_browser(folder)
    yield "no words", 2, run(["make_slides.py"])[2]
    yield "--help", 0, run(["make_slides.py", "--help"])[2]


def check_notes(driver: Any, count_on_slides: Callable[[], int]) -> Iterator[Comparison]:
    """Checks that the teacher's notes are in a window of their own, which follows the slides, and on no slide."""
    from selenium.webdriver.common.keys import Keys

    slide, before = driver.current_window_handle, set(driver.window_handles)
    driver.find_element("tag name", "body").send_keys("n")
    opened = [it for it in driver.window_handles if it not in before]
    yield "a key opens a window for notes, and no slide shows one", (1, 0), (len(opened), count_on_slides())
    for key, number in ((None, 1), ("ARROW_RIGHT", 2)):
        if key:
            driver.find_element("tag name", "body").send_keys(getattr(Keys, key))
        note = driver.execute_script("return slides[at].querySelector('aside')?.textContent ?? 'There is no note on this slide.'")
        driver.switch_to.window(opened[0])
        words = driver.find_element("tag name", "body").text
        driver.switch_to.window(slide)
        yield f"the window has the note of slide {number}", (True, True), (words.startswith(f"Slide {number} of {COUNT}: "), note.strip() in words)
    driver.find_element("tag name", "body").send_keys("n")
    yield "the key closes the window", before, set(driver.window_handles)


def check_browser(folder: str) -> Iterator[Comparison]:
    """Checks the keys, clicks, and the pages of paper."""
    if not users.is_installed():
        return
    driver = users.start_chromium(folder)
    try:
        from selenium.webdriver.common.keys import Keys

        driver.get(f"file://{folder}/slides.html")
        # Keys and clicks that lead from slide to slide.
        moves = [(Keys.PAGE_DOWN, 2), (Keys.SPACE, 3), (Keys.ARROW_RIGHT, 4), (Keys.ARROW_DOWN, 5), (Keys.PAGE_UP, 4), (Keys.ARROW_LEFT, 3)]
        moves += [(Keys.ARROW_UP, 2), (Keys.ENTER, 3), (Keys.END, COUNT), (Keys.PAGE_DOWN, COUNT), (Keys.HOME, 1), (Keys.PAGE_UP, 1)]
        for key, number in moves:
            driver.find_element("tag name", "body").send_keys(key)
            shown = driver.execute_script(SHOWN)
            yield f"a key leads to slide {number}", ([number], f"{number} of {COUNT}", f"#{number}"), (*shown, driver.current_url[-len(f"#{number}") :])
        driver.find_element("tag name", "body").click()
        yield "a click leads on", "#2", driver.current_url[-2:]
        # The two buttons, by clicks and by keys.
        back, on, noted = driver.find_elements("css selector", ".controls button")
        yield "the buttons have names", ["Previous slide", "Next slide", "Notes for the teacher"], [it.accessible_name for it in (back, on, noted)]
        for button, number in ((on, 3), (back, 2), (back, 1), (back, 1), (on, 2)):
            button.click()
            yield f"a button leads to slide {number}", f"#{number}", driver.current_url[-2:]
        for button, key, number in ((on, Keys.ENTER, 3), (on, Keys.SPACE, 4), (back, Keys.ENTER, 3), (back, Keys.SPACE, 2)):
            button.send_keys(key)
            yield f"a key on a button leads to slide {number}", f"#{number}", driver.current_url[-2:]
        # A link to the page, and the notes.
        driver.find_element("css selector", ".slide.shown .open").click()
        yield "a link leads to no other slide, and opens one tab", ("#2", 2), (driver.current_url[-2:], len(driver.window_handles))
        yield "nothing of a slide is below the buttons", [], driver.execute_script(COVERED)
        driver.find_element("tag name", "body").send_keys(Keys.HOME)
        yield "on the first slide no button leads back", ["true", "false"], [it.get_attribute("aria-disabled") for it in (back, on)]
        notes = lambda: driver.execute_script("return [...document.querySelectorAll('aside')].filter((it) => it.offsetHeight).length")
        yield from check_notes(driver, notes)
        # A phone, light and dark, and paper.
        driver.execute_cdp_cmd("Emulation.setDeviceMetricsOverride", {"width": 360, "height": 740, "deviceScaleFactor": 2, "mobile": True})
        yield "the slides fit a phone", 360, driver.execute_script("return document.documentElement.scrollWidth")
        size = "return parseFloat(getComputedStyle([...document.querySelectorAll('.slide p')].find((it) => it.offsetHeight)).fontSize)"
        yield "the slides can be read on a phone", True, driver.execute_script(size) >= 16
        driver.execute_cdp_cmd("Emulation.clearDeviceMetricsOverride", {})
        grounds = {"dark": ("rgb(15, 18, 23)", "rgb(24, 28, 35)"), "light": ("rgb(244, 245, 248)", "rgb(255, 255, 255)"), "print": ("rgb(255, 255, 255)",) * 2}
        for media, scheme in (("", "dark"), ("", "light"), ("print", "dark")):
            emulated = {"media": media, "features": [{"name": "prefers-color-scheme", "value": scheme}]}
            driver.execute_cdp_cmd("Emulation.setEmulatedMedia", emulated)
            body = driver.execute_script("return getComputedStyle(document.body).backgroundColor")
            box = driver.execute_script("return getComputedStyle(document.querySelector('.thread')).backgroundColor")
            yield f"the ground of slides and boxes, {scheme} {media}", grounds[media or scheme], (body, box)
        driver.execute_cdp_cmd("Emulation.setEmulatedMedia", {"media": "", "features": []})
        printed = driver.execute_cdp_cmd("Page.printToPDF", {"preferCSSPageSize": True})
        yield "each slide is a page", COUNT, len(PAGE.findall(base64.b64decode(printed["data"])))
    finally:
        driver.quit()


def make_comparisons() -> Iterator[Comparison]:
    """Yields all comparisons: what is compared, what is expected, and what was found."""
    tests = slides.read_texts()
    page = make_slides.make_page()
    yield from check_page(page)
    yield from check_links(tests)
    yield from check_lists(page, tests)
    yield from check_figures(page, tests)
    yield from check_tints(tests)
    yield from check_command()


def main() -> int:
    """Runs the command that the arguments describe. Returns the exit status."""
    given.set_output_encoding()
    return close_check(make_comparisons())


if __name__ == "__main__":
    sys.exit(command.run_command(main, __doc__))
