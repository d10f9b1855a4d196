"""Checks that tools/make_quiz.py makes a quiz, and that tools/read_codes.py reads its codes. The last line is 'N passed, M failed'.

    python3 tools gate.check_quiz

- The same seed gives the same bytes, by the program and by tools/plain.py. The page names no other site and loads nothing.
- Each verdict is the program's: the x86 test's report, and that of its source form, which has the test's accesses and no fence. That the
  end is possible by interleaving is checked with tools/plain.py, which interleaves the x86 test itself.
- No answer is in the page in plain sight: the hidden text has no symbol for each answer.
- A code that the page's own JavaScript makes, in node if it is there, and in Chromium if it is there with its driver and
  python3-selenium, is that of tools/lab/codes.py, and the command reads it with the right score.
- Of an end that can't be, the accesses of a cycle are shown, and why each comes before the next. If the cycle is the same by interleaving and on
  x86, only what x86 keeps of it is shown again.
- Each kind of bad code is refused, and so are all codes with one wrong symbol or two neighbours exchanged.
- A quiz of own tests has them without comments, with the right answers; others are refused with the cause.
- The quizzes of a site have links to each other, and each keeps its own answers; the list of documents has the first.

tools/check_documents.py calls all this; the program has to be built.
"""
from __future__ import annotations

import json
import os
import re
import shutil
import subprocess
import sys
import tempfile
from collections.abc import Iterator
from urllib.parse import parse_qsl

import given
import make_quiz
import plain
from gate.browser import user as users
from gate.cases import Comparison
from gate.examples import run
from lab import codes, quiz, reasons
from page import documents
from shared import command
from shared.home import HOME, close_check
from shared.matches import require_match

SEEDS = ("1", "2", "autumn26")
TESTS = 10
OUTWARD = re.compile(r"https?:|\bsrc=|\bhref=|@import|url\(|(?<!:)//\w")
SCRIPT = re.compile(r'<script id="codes">(.*?)</script>', re.S)
STUDENT = "ana 17"
HEADING = ["Line", "Student", "Right", "Wrong"]
NODE = shutil.which("node")
# Why a code is refused, by the command and by the page, and by the page only.
SUM_IS_WRONG = "the check sum is wrong: the code is mistyped, or a part of it is missing"
NO_CODE = "the check sum is right, and yet this is no code of a quiz"
OTHER_QUIZ = "the code is of another quiz"


def parse_data(page: str) -> quiz.Data:
    """Returns the contents of a quiz's page."""
    return json.loads(require_match(re.search(r"^const quiz = (\{.*\});$", page, re.M))[1])


def list_accesses(text: str) -> list[list[list[str]]]:
    """Returns the threads of a test by tools/plain.py, each access by what it stores, loads and names, without fences."""
    cells = [re.split(r" *\| *", line.strip(" ;")) for line in text.splitlines()[3:-1]]
    columns = list(zip(*(row + [""] * (len(cells[0]) - len(row)) for row in cells)))
    return [[re.findall(r"\b[a-z]\b(?!\d)|(?<=\$)\d|(?<=:= )\d", cell) for cell in column if cell not in ("", "MFENCE")] for column in columns]


def check_verdicts(seed: str) -> Iterator[Comparison]:
    """Checks the tests of a seed, and the verdicts on them."""
    tests = quiz.make_tests(TESTS, seed, quiz.make_report_by_program)
    yield f"the tests of {seed}, by the program and by tools/plain.py", tests, quiz.make_tests(TESTS, seed, quiz.make_report_by_plain)
    yield f"the tests of {seed} differ", TESTS, len({it.text.partition("\n")[2] for it in tests})
    yield f"how many ends of {seed} are possible by interleaving", TESTS // 3, sum(it.interleaved for it in tests)
    yield f"what is possible by interleaving is on x86, {seed}", [], [it.text for it in tests if it.interleaved and not it.on_x86]
    for index, test in enumerate(tests, 1):
        source = quiz.make_source_form(test.text)
        by_program = [
            require_match(re.search(r"^Positive: (\d+)", quiz.make_report_by_program(text), re.M))[1] != "0" for text in (source, test.text)
        ]
        yield f"the verdicts of test {index} of {seed}", [test.interleaved, test.on_x86], by_program
        words = ["allowed" if verdict else "forbidden" for verdict in (test.interleaved, test.on_x86)]
        yield f"the verdicts of test {index} of {seed}, by the x86 test itself", words, list(plain.find_verdicts(plain.read_test(test.text)))
        yield f"the source form of test {index} of {seed}", list_accesses(test.text), list_accesses(source)


def check_page(page: str, tests: list[quiz.QuizTest]) -> Iterator[Comparison]:
    """Checks the page as a whole."""
    data = parse_data(page)
    yield "the same bytes again", True, page == make_quiz.make_page(TESTS, "1", quiz.make_report_by_program)
    yield "the same bytes by tools/plain.py", True, page == make_quiz.make_page(TESTS, "1", quiz.make_report_by_plain)
    yield "the same bytes for another seed", False, page == make_quiz.make_page(TESTS, "2", quiz.make_report_by_program)
    yield "the page loads nothing and names no other site", [], OUTWARD.findall(page)
    yield "nothing of the template is left", [], re.findall(r"@[A-Z]+@", page)
    yield "the page holds the seed, a mark, the tests, and what is hidden", ["hidden", "mark", "reasons", "seed", "tests"], sorted(data)
    yield from check_reasons(data, tests)
    yield "the page has the tests", [it.text for it in tests], data["tests"]
    yield "what is hidden is found again", [it.encode_answers() for it in tests], quiz.parse_answers(data)
    symbols = {(it.encode_answers(), symbol) for it, symbol in zip(tests, data["hidden"])}
    yield "no answer has a symbol of its own", True, len(symbols) > len({it.encode_answers() for it in tests})


def check_reasons(data: quiz.Data, tests: list[quiz.QuizTest]) -> Iterator[Comparison]:
    """Checks why each test can end so or can't: a run if it can, which ends so, and a cycle if it can't. None is in plain sight."""
    for index, (other_reason, reason_read) in enumerate(zip(tests, quiz.parse_reasons(data)), 1):
        kinds = ["run" if verdict else "cycle" for verdict in (other_reason.interleaved, other_reason.on_x86)]
        yield f"the reasons on test {index}", kinds, [reason["kind"] for reason in reason_read]
        yield f"the reasons on test {index} have events", True, all(len(reason.get("steps") or reason["events"]) > 1 for reason in reason_read)
        test = plain.read_test(other_reason.text)
        for reason in reason_read:
            if "schedule" in reason:
                run_read = plain.X86Replay(test, "mesi")
                for event in plain.read_schedule(str(reason["schedule"]), test.locations):
                    run_read.execute_event(*event)
                yield f"the run of test {index} ends as it asks", True, plain.is_true_in(test.proposition, run_read.make_outcome())
        ways = [reasons.list_asked_schedules(test, plain.make_x86_start, moves) for moves in (plain.list_interleaved_moves, plain.list_x86_moves)]
        yield f"runs by tools/plain.py that end as test {index} asks", [other_reason.interleaved, other_reason.on_x86], [bool(runs) for runs in ways]
    words = ("store buffer", "steps", "events", "memory")
    yield "no reason is in plain sight", [], [word for word in words if word in json.dumps(data)]


# Why an access comes before the next one of its thread on x86, by what both do; and before one of another thread.
KEPT = {
    ("reads", "reads"): "x86 keeps a load before a later load", ("reads", "stores"): "x86 keeps a load before a later store",
    ("stores", "stores"): "x86 keeps a store before a later store: the store buffer is a queue",
    ("stores", "reads"): "the `MFENCE` between them waits until this store is in memory",
}
ACCESS = re.compile(r"P(\d) (stores|reads) `(\w+)=(\d+)`")


def make_why(first: list[str], second: list[str], text: str, is_on_x86: bool) -> str:
    """Returns why the first of two accesses, each by its thread, what it does, its location and its word, comes before the second in a test."""
    (thread, kind, location, word), (other_thread, other_kind, other_location, other_word) = first, second
    if thread == other_thread:
        return KEPT[kind, other_kind] if is_on_x86 else f"P{thread} carries out its instructions in order"
    assert location == other_location, f"{first} and {second} are of two locations"
    if (kind, other_kind) == ("stores", "reads"):
        return f"P{other_thread} reads the word that this store wrote" if word == other_word else "no reason"
    if (kind, other_kind) == ("reads", "stores"):
        return f"it reads `{location}` before P{other_thread}'s store overwrites it"
    ends_so = re.search(rf"\b{location}={other_word}\b", text.rpartition("exists")[2])
    return f"`{location}` ends with {other_word}, so this store comes first" if ends_so else "no reason"


def check_cycles(seed: str) -> Iterator[Comparison]:
    """Checks that each access of each cycle is one of its thread, and why it comes before the next."""
    for index, test in enumerate(quiz.make_tests(TESTS, seed, quiz.make_report_by_plain), 1):
        both = [reasons.explain_by_interleaving(test.text, quiz.make_source_form(test.text)), reasons.explain_on_x86(test.text)]
        for is_on_x86, reason in enumerate(both):
            if reason["kind"] != "cycle":
                continue
            accesses = [list(require_match(ACCESS.fullmatch(it)).groups()) for it in reason["events"]]
            whys = [make_why(it, accesses[(number + 1) % len(accesses)], test.text, bool(is_on_x86)) for number, it in enumerate(accesses)]
            yield f"why each access of test {index} of {seed} comes before the next, {'on x86' if is_on_x86 else 'by interleaving'}", whys, reason["whys"]
            threads = list_accesses(test.text)
            unknown = [it for it in accesses if not any(it[2] in access and (it[1] == "reads" or it[3] in access) for access in threads[int(it[0])])]
            yield f"the accesses of the cycle of test {index} of {seed} are in the test", [], unknown


def make_answers(rights: list[int], wrong: dict[int, int]) -> list[int]:
    """Answers of which some are wrong: for each test the difference from the right answer."""
    return [right ^ wrong.get(index, 0) for index, right in enumerate(rights, 1)]


WRONG = {2: 1, 5: 2, 9: 3}
ROW = [STUDENT, f"{2 * TESTS - 4}/{2 * TESTS}", "2 interleaving, 5 x86, 9 both"]


def run_and_split(text: str, *arguments: str) -> tuple[list[list[str]], str, int]:
    """Returns the output of the command on codes: the cells of each line, standard error, and the status."""
    out, err, status = run(["read_codes.py", *arguments], text)
    return [re.split(r" {2,}", line) for line in out.splitlines()], err, status


def check_codes(page: str, folder: str) -> Iterator[Comparison]:
    """Checks that a code is read as what it was made of, also with letters that are misread for others, and what tools/read_codes.py prints of codes;
    and the comparisons of `check_bad_codes` and `check_node`.
    """
    data, rights = parse_data(page), quiz.parse_answers(parse_data(page))
    code_of_page = codes.CodeContents(data["mark"], data["seed"], STUDENT, make_answers(rights, WRONG))
    code = codes.make_code(code_of_page)
    yield "a code has letters and digits", True, bool(re.fullmatch(r"[0-9A-Z]{12,40}", code))
    yield "a code is read", code_of_page, codes.parse_code(code)
    for students in ("a", "z" * codes.MAX_LETTERS, "0", "007"):
        handed_in = codes.CodeContents(data["mark"], "z" * quiz.MAX_SEED_LETTERS, students, rights)
        yield f"a code of {students} is read", handed_in, codes.parse_code(codes.make_code(handed_in))
    for quiz_word in (f"{folder}/quiz.html", "1"):
        yield f"read_codes.py {quiz_word[-9:]}", ([HEADING, ["1", *ROW]], "", 0), run_and_split(f"{code}\n", quiz_word)
    spread = "-".join(re.findall(".{1,4}", code.lower().replace("0", "o").replace("1", "l")))
    yield "small letters, hyphens, O and L", ([HEADING, ["2", *ROW]], "", 0), run_and_split(f"\n {spread} \r\n", "1", "-")
    note = f"-:2:1: note: {STUDENT} has handed in on line 1 too\n"
    yield "a code twice", ([HEADING, ["1", *ROW], ["2", *ROW]], note, 0), run_and_split(f"{code}\n{code}\n", "1")
    all_right = codes.make_code(code_of_page._replace(answers=rights))
    yield "all is right", [HEADING, ["1", STUDENT, f"{2 * TESTS}/{2 * TESTS}", "-"]], run_and_split(all_right, "1")[0]
    yield from check_bad_codes(code, code_of_page, folder)
    yield from check_node(page, code, rights)


def check_node(page: str, code: str, rights: list[int]) -> Iterator[Comparison]:
    """Checks the page's functions, in node."""
    if not NODE:
        return
    answers = make_answers(rights, WRONG)
    printed = subprocess.run([NODE, "-"], input=(require_match(SCRIPT.search(page))[1] + "console.log(JSON.stringify(quiz.tests.map((_, at) => reasonsOf(at))));").encode(),
                          capture_output=True, timeout=60, check=False)
    yield "the page's own JavaScript finds the reasons", quiz.parse_reasons(parse_data(page)), json.loads(
        printed.stdout or b"0"
    ) or printed.stderr.decode()
    script = f"console.log(JSON.stringify([rightAnswers(), codeOf(studentOf('  Ana  17 '), {answers}), studentOf(' Ä  é '), studentOf('a<b'), studentOf('a'.repeat(17))]));"
    ran = subprocess.run([NODE, "-"], input=(require_match(SCRIPT.search(page))[1] + script).encode(), capture_output=True, timeout=60, check=False)
    yield "the page's own JavaScript", [rights, code, "ä é", None, None], json.loads(ran.stdout or b"0") or ran.stderr.decode()
    # Codes of names in any letters.
    data = parse_data(page)
    for name in ("ä é", "李明", "ольга", "o'neil"):
        script = f"console.log(codeOf({json.dumps(name)}, {answers}));"
        ran = subprocess.run(
            [NODE, "-"], input=(require_match(SCRIPT.search(page))[1] + script).encode(), capture_output=True, timeout=60, check=False
        )
        handed_in = codes.CodeContents(data["mark"], data["seed"], name, answers)
        yield f"the page's code of {name}", codes.make_code(handed_in), ran.stdout.decode().strip()
        yield f"the code of {name} is read", handed_in, codes.parse_code(ran.stdout.decode().strip())
    # Good codes and bad ones, as the page's teacher reads them.
    handed_in = codes.CodeContents(data["mark"], data["seed"], STUDENT, answers)
    lines = [codes.make_code(handed_in._replace(student=name)) for name in (STUDENT, "ä é", "李明", "z" * codes.MAX_LETTERS)]
    others = [
        (" -".join(lines[0].lower()), ROW), (lines[0][:-1], [SUM_IS_WRONG]), ("", ["a code is longer"]), ("a*b", ["no code has *"]),
        (codes.make_code(handed_in._replace(seed="2")), [f"{OTHER_QUIZ}, that with the seed 2"]),
        (codes.make_code(handed_in._replace(mark=handed_in.mark ^ 1)), [OTHER_QUIZ]),
        (codes.make_code(handed_in._replace(answers=answers[1:])), [OTHER_QUIZ]), ("0" + lines[0], [NO_CODE]),
    ]
    script = f"console.log(JSON.stringify({json.dumps([*lines, *(line for line, _ in others)])}.map(rowOf)));"
    ran = subprocess.run([NODE, "-"], input=(require_match(SCRIPT.search(page))[1] + script).encode(), capture_output=True, timeout=60, check=False)
    rows = [[codes.parse_code(line).student, *ROW[1:]] for line in lines]
    yield "the page reads codes as the command does", [*rows, *(list(row) for _, row in others)], json.loads(ran.stdout or b"0") or ran.stderr.decode()


def can_read(code: str) -> bool:
    """Returns whether a code is read."""
    try:
        codes.parse_code(code)
    except codes.BadCode:
        return False
    return True


def list_mistyped(code: str) -> Iterator[str]:
    """Yields all codes with one wrong symbol, with two neighbours exchanged, or with one left out."""
    for index, symbol in enumerate(code):
        yield from (code[:index] + other + code[index + 1 :] for other in codes.SYMBOLS if other != symbol)
        if code[index : index + 2] != code[index : index + 2][::-1]:
            yield code[:index] + code[index : index + 2][::-1] + code[index + 2 :]
        yield code[:index] + code[index + 1 :]


def check_bad_codes(code: str, handed_in: codes.CodeContents, folder: str) -> Iterator[Comparison]:
    """Checks that each kind of bad code is refused with its place and its cause, and that good ones beside them are read."""
    yield "no mistyped code is read", [], [it for it in list_mistyped(code) if can_read(it)]
    kinds = [
        (code[:6] + "*" + code[6:], 7, "no code has '*'"),
        (code[:3] + "u" + code[4:], 4, "no code has 'u'"),
        (code[:4], 1, "a code is longer"),
        ("  " + code[:-1], 3, SUM_IS_WRONG),
        (code + code, 1, SUM_IS_WRONG),
        (codes.format_number(7) + codes.format_number(7, codes.LENGTH_OF_SUM), 1, NO_CODE),
        ("0" + code, 1, NO_CODE),
        (codes.make_code(handed_in._replace(student="")), 1, NO_CODE),
        (codes.make_code(handed_in._replace(seed="2")), 1, "the code is of the quiz with the seed 2, not 1"),
        (codes.make_code(handed_in._replace(answers=handed_in.answers[1:])), 1, f"the code is of a quiz with {TESTS - 1} tests, not {TESTS}"),
        (codes.make_code(handed_in._replace(mark=handed_in.mark ^ 1)), 1, "the code is of other tests with this seed"),
    ]
    with open(f"{folder}/codes.txt", "w", encoding="utf-8") as file:
        file.write("\n".join([code, *(bad for bad, _, _ in kinds)]))
    refused = "".join(f"{folder}/codes.txt:{line}:{column}: {cause}\n" for line, (_, column, cause) in enumerate(kinds, 2))
    answer = run_and_split("", f"{folder}/quiz.html", f"{folder}/codes.txt")
    yield "bad codes are refused", ([HEADING, ["1", *ROW]], refused, 1), answer


def check_shown_cycles(user: users.User, data: quiz.Data) -> Iterator[Comparison]:
    """Checks what the page shows of the cycles of each test: all of that by interleaving, and only what x86 keeps of it if that on x86 has the same
    accesses.
    """
    rows = user.run(
        "return [...document.querySelectorAll('fieldset .why')].map((it) => [...it.querySelectorAll('li')].map((row) => "
        "`${row.getAttribute('value') ?? ''} ${row.textContent}`))"
    )
    for index, both in enumerate(quiz.parse_reasons(data)):
        cycles = [(number, it) for number, it in enumerate(both) if it["kind"] == "cycle"]
        for number, reason in cycles:
            count, is_again = len(reason["events"]), number == 1 and reason["events"] == both[0].get("events")
            expected = [
                f"{position + 1 if is_again else ''} {event}. This comes before {(position + 1) % count + 1}: {why}.".replace("`", "")
                for position, (event, why) in enumerate(zip(reason["events"], reason["whys"])) if not is_again or why != both[0]["whys"][position]
            ]
            yield f"the cycle of test {index + 1} as the page shows it, {('interleaving', 'x86')[number]}", expected, rows[2 * index + number]
    texts = user.run("return [...document.querySelectorAll('.why')].map((it) => it.textContent)")
    is_shown_again = ["The reason is the same as for interleaving" in it for it in texts]
    yield "a cycle is the same on x86", True, any(is_shown_again[1::2]) and not any(is_shown_again[::2])


def check_browser(page: str, folder: str) -> Iterator[Comparison]:
    """Tries the page in a browser, as wide as a phone: it says what is missing, and the code that it shows is read."""
    if not users.is_installed():
        return
    user = users.User(f"file://{folder}/quiz.html", f"{folder}/profile")
    try:
        user.driver.execute_cdp_cmd("Emulation.setDeviceMetricsOverride", {"width": 360, "height": 740, "deviceScaleFactor": 2, "mobile": True})
        user.open()
        yield "the page fits a phone", [360, 360], user.run("return [innerWidth, document.documentElement.scrollWidth]")
        yield "the tests are shown", parse_data(page)["tests"], user.run("return [...document.querySelectorAll('pre')].map((it) => it.textContent)")
        whole = """
        const rowsOf = (it) => Math.round((it.clientHeight - it.querySelector(".thr-0").offsetHeight) / parseFloat(getComputedStyle(it).lineHeight)) + 1;
        return [...document.querySelectorAll("pre")].filter((it) => it.scrollWidth > it.clientWidth || rowsOf(it) > it.textContent.trimEnd().split("\\n").length + 1)
          .length;
        """
        yield "no test is wider than a phone, and only its question takes two lines", 0, user.run(whole)
        colours = "return [...document.querySelectorAll('pre .thr-0')].map((it) => getComputedStyle(it).color)"
        for scheme, ground, colour in (("dark", "rgb(22, 24, 28)", "rgb(130, 179, 255)"), ("light", "rgb(255, 255, 255)", "rgb(29, 91, 184)")):
            emulated = {"media": "", "features": [{"name": "prefers-color-scheme", "value": scheme}]}
            user.driver.execute_cdp_cmd("Emulation.setEmulatedMedia", emulated)
            shown = user.run("return getComputedStyle(document.body).backgroundColor"), set(user.run(colours))
            yield f"the ground of the page and the colour of a thread, {scheme}", (ground, {colour}), shown
        user.click("#done")
        # What is missing, answer by answer.
        printed = user.text("#fault"), user.focused().get_attribute("name")
        yield "what is missing is reported", ('Test 1 has no answer to "Can it end this way by interleaving?"', "interleaving1"), printed
        is_in_sight = "const { top, bottom } = document.getElementById('fault').getBoundingClientRect(); return top >= 0 && bottom <= innerHeight"
        yield "what is missing is reported in sight", True, user.run(is_in_sight)
        for index, answer in enumerate(make_answers(quiz.parse_answers(parse_data(page)), WRONG), 1):
            for kind, bit in (("interleaving", 1), ("x86", 2)):
                user.click(f"input[name={kind}{index}][value={'yes' if answer & bit else 'no'}]")
        user.find("#student").send_keys("a<b")
        user.click("#done")
        yield "a name that no code has", (True, "student"), ("No code has this name" in user.text("#fault"), user.focused().get_attribute("id"))
        yield "no result before", [], [it for it in user.all("#score, #code") if it.is_displayed()]
        yield from check_without_name(user, folder)
        # What is stored, and the code of all answers.
        user.driver.refresh()
        user.find("body[data-ready]")
        answers = user.run("return document.querySelectorAll('input:checked').length"), user.value("#student")
        yield "a reload keeps the answers", (2 * TESTS, "Ana 17"), answers
        user.click("#done")
        yield "the score", f"{2 * TESTS - 4} of {2 * TESTS} right.", user.text("#score")
        yield "the code is read", ([HEADING, ["1", *ROW]], "", 0), run_and_split(user.text("#code"), f"{folder}/quiz.html")
        user.click("#copy")
        yield "the code is copied", True, user.is_soon(lambda: user.text("#said") in ("Copied.", "It is selected: copy it by hand."))
        # What the page says after that.
        marks = user.texts("fieldset .told")
        yield "the page shows what was right", (2 * TESTS - 4, 4), (marks.count("✓"), sum(it.startswith("✗") for it in marks))
        whys = user.run("return [...document.querySelectorAll('fieldset .why')].map((it) => [it.open, it.querySelectorAll('li').length > 1])")
        yield "each question shows why, unfolded where the answer was wrong", [[not it.startswith("✓"), True] for it in marks], whys
        yield from check_shown_cycles(user, parse_data(page))
        # The teacher's part.
        code = user.text("#code")
        user.click("#teacher summary")
        user.find("#handed-in").send_keys(f"{code}\n\nabc")
        user.click("#read")
        yield "the page reads the codes", [f"1 {' '.join(ROW)}", "3 a code is longer"], user.texts("#table tr")[1:]
        yield "nothing can be changed any more", 0, user.run("return document.querySelectorAll('input:not([disabled])').length")
        yield "the page reports no fault", [], [it for it in user.driver.get_log("browser") if it["level"] == "SEVERE"]
    finally:
        user.driver.quit()


def check_without_name(user: users.User, folder: str) -> Iterator[Comparison]:
    """Checks that without a name the result is shown, and why, and that the code of the same answers comes when the name does."""
    user.find("#student").clear()
    user.click("#done")
    yield "the score without a name", f"{2 * TESTS - 4} of {2 * TESTS} right.", user.text("#score")
    yield "the reasons without a name", 2 * TESTS, len(user.run("return [...document.querySelectorAll('fieldset .why')]"))
    yield "a name is asked for", True, user.text("#nameless").startswith("The code for your teacher needs your name or number.")
    yield "no code without a name", [], [it for it in user.all("#code") if it.is_displayed()]
    yield "no answer can be changed", 0, user.run("return document.querySelectorAll('input[type=radio]:not([disabled])').length")
    user.click("#make-code")
    yield "the name is missing", ("Your name or number, please.", "student"), (user.text("#fault"), user.focused().get_attribute("id"))
    user.find("#student").send_keys("Ana 17")
    user.click("#make-code")
    yield "the code once there is a name", ([HEADING, ["1", *ROW]], "", 0), run_and_split(user.text("#code"), f"{folder}/quiz.html")


def check_links(page: str, folder: str) -> Iterator[Comparison]:
    """Checks that with the address of lw's page each answer has a link at the end: to its run, or to the test and why it has none."""
    if not users.is_installed():
        return
    user = users.User(f"file://{folder}/linked.html", f"{folder}/profile-of-links")
    try:
        user.open()
        yield "before the end there is no link to the page", [], user.all("a.open")
        user.run("for (const it of document.querySelectorAll('input[value=yes]')) it.click()")
        user.find("#student").send_keys("Ana 17")
        user.click("#done")
        user.find("#score")
        links = user.run("return [...document.querySelectorAll('a.open')].map((it) => [it.target, it.getAttribute('href')])")
        views = [dict(parse_qsl(href.partition("site/index.html#")[2])) for _, href in links]
        data = parse_data(page)
        expected = [
            {"text": text, **({"view": "hand", "schedule": str(reason["schedule"])} if "schedule" in reason else {"view": "why"})}
            for text, both in zip(data["tests"], quiz.parse_reasons(data)) for reason in both
        ]
        yield "each answer opens its test on the page, with its run", expected, views
        yield "all tests open in one tab", {"lw"}, {target for target, _ in links}
    finally:
        user.driver.quit()


def check_codes_of_others(files: dict[str, str]) -> Iterator[Comparison]:
    """Checks that each quiz of a site reads the codes of all of them, and of no other quiz."""
    if not NODE:
        return
    pages = {seed: make_quiz.make_page(TESTS, seed, quiz.make_report_by_plain, files=files) for seed in files}
    lines, rows = [], []
    for seed, page in pages.items():
        data = parse_data(page)
        rights = quiz.parse_answers(data)
        yield f"the answers of quiz {seed} are of all kinds", {0, 2, 3}, set(rights)
        lines.append(codes.make_code(codes.CodeContents(data["mark"], seed, STUDENT, make_answers(rights, WRONG))))
        rows.append((seed, ROW[1:]))
        lines.append(codes.make_code(codes.CodeContents(data["mark"] ^ 1, seed, STUDENT, rights)))
    for seed, page in pages.items():
        expected = []
        for other, row in rows:
            refused = OTHER_QUIZ if other == seed else f"{OTHER_QUIZ}, that with the seed {other}"
            expected += [[STUDENT if other == seed else f"{STUDENT} (quiz {other})", *row], [refused]]
        script = f"{require_match(SCRIPT.search(page))[1]}console.log(JSON.stringify({json.dumps(lines)}.map(rowOf)));"
        ran = subprocess.run([NODE, "-"], input=script.encode(), capture_output=True, timeout=60, check=False)
        yield f"quiz {seed} reads the codes of all", expected, json.loads(ran.stdout or b"0") or ran.stderr.decode()


def check_others(folder: str) -> Iterator[Comparison]:
    """Checks that the quizzes of a site lead to each other, that each keeps its own answers, and that the list of documents has the first."""
    files = documents.QUIZZES
    listed = [file for file, _ in documents.list_documents(True) if file in files.values()]
    yield "the list of documents has one quiz", [documents.QUIZ], listed
    folder = f"{folder}/site"
    os.mkdir(folder)
    for seed, name in files.items():
        page = make_quiz.make_page(TESTS, seed, quiz.make_report_by_plain, files=files)
        with open(f"{folder}/{name}", "w", encoding="utf-8") as file:
            file.write(page)
        others = [(file, other) for other, file in files.items() if other != seed]
        yield f"quiz {seed} links to the others", others, re.findall(r'<a href="([^"]*)">(\d)</a>', page)
        yield f"quiz {seed} has its number", True, f"This is quiz {seed}. " in page and f"<title>Quiz {seed}: " in page
    yield from check_codes_of_others(files)
    if not users.is_installed():
        return
    user = users.User(f"file://{folder}/{documents.QUIZ}", f"{folder}/profile")
    kept = "return [[...document.querySelectorAll('input:checked')].map((it) => `${it.name} ${it.value}`), document.getElementById('student').value]"
    try:
        user.open()
        user.click("input[name=x861][value=yes]")
        user.find("#student").send_keys("Ana 17")
        visits = (("2", [[], ""], "no"), ("3", [[], ""], "yes"), ("1", [["x861 yes"], "Ana 17"], "yes"), ("2", [["x861 no"], ""], "no"))
        before = "1"
        for seed, chosen, added in visits:
            user.click(f"nav a[href='{files[seed]}']")
            user.find(f"body[data-ready] nav a[href='{files[before]}']")
            yield f"what quiz {seed} has kept", chosen, user.run(kept)
            user.click(f"input[name=x861][value={added}]")
            before = seed
    finally:
        user.driver.quit()


OWN = "X86 Mine (* A comment. *)\n{ x=1; y=0; }\nP0 | P1;\nMOV [x],$2 | MOV EAX,[y];\nMOV [y],$1 | MFENCE;\n | MOV EBX,[x];\nlocations [x;]\n"
ASKED = "exists (1:EAX=1 /\\ 1:EBX=1)\n"
# What own tests become, with the answers by interleaving and on x86; and those of which no quiz is made, with what is said of them.
OWN_TESTS = [
    (
        OWN + ASKED,
        "{ x=1; }\n P0         | P1          ;\n MOV [x],$2 | MOV EAX,[y] ;\n MOV [y],$1 | MFENCE      ;\n            | MOV EBX,[x] ;\n" + ASKED,
        0,
    ),
]
NO_OWN_TESTS = [
    ("X86 A\n{}\n P0 ;\n XCHG [x],EAX ;\nexists (x=0)\n", ": the instruction XCHG [x],EAX has no source form here"),
    ("X86 A\n{}\n P0 ;\n MOVE [x],$1 ;\nexists (x=0)\n", ":4:2: 'MOVE' is no instruction that is read"),
    (f"{OWN}~{ASKED}", ": a quiz asks whether a test can end in a way, so write exists in place of ~exists or forall"),
    (f"{OWN}{ASKED}".replace("exists", "forall"), ": a quiz asks whether a test can end in a way, so write exists in place of ~exists or forall"),
    ("SRC A\n{}\n P0 ;\n x := 1 ;\nexists (x=0)\n", ": a quiz asks about X86 tests, of which it makes the source form itself"),
]


def check_own(folder: str) -> Iterator[Comparison]:
    """Checks a quiz of own tests: what they become, the answers, and that a code of it is read; and what is said of tests that it can't have."""
    names = [f"{HOME}/examples/SB-x86.litmus"]
    for index, (text, _, _) in enumerate(OWN_TESTS):
        names.append(f"{folder}/own{index}.litmus")
        with open(names[-1], "w", encoding="utf-8") as file:
            file.write(text)
    yield "make_quiz.py OUT.html FILE..", ("", "", 0), run(["make_quiz.py", f"{folder}/own.html", *names, "--seed", "mine"])
    with open(f"{folder}/own.html", encoding="utf-8", newline="") as file:
        data = parse_data(file.read())
    yield "own tests in a quiz", [f"X86 quiz{number}\n{it}" for number, (_, it, _) in enumerate(OWN_TESTS, 2)], data["tests"][1:]
    rights = [2, *(it for _, _, it in OWN_TESTS)]
    yield "the answers to own tests", rights, quiz.parse_answers(data)
    code = codes.make_code(codes.CodeContents(data["mark"], "mine", STUDENT, make_answers(rights, {2: 1})))
    row = ["1", STUDENT, f"{2 * len(rights) - 1}/{2 * len(rights)}", "2 interleaving"]
    yield "a code of a quiz of own tests", [HEADING, row], run_and_split(code, f"{folder}/own.html")[0]
    for text, cause in NO_OWN_TESTS:
        with open(f"{folder}/bad.litmus", "w", encoding="utf-8") as file:
            file.write(text)
        yield f"a quiz of {text!r}", ("", f"make_quiz: {folder}/bad.litmus{cause}\n", 1), run(["make_quiz.py", f"{folder}/no.html", f"{folder}/bad.litmus"])


def check_commands(folder: str) -> Iterator[Comparison]:
    """Runs the commands, and looks at their statuses."""
    for words, expected in (
        (["make_quiz.py"], 2), (["make_quiz.py", "--help"], 0), (["read_codes.py"], 2), (["read_codes.py", "--help"], 0),
        (["make_quiz.py", f"{folder}/nowhere/quiz.html"], 1), (["make_quiz.py", f"{folder}/no.html", "--tests", "0"], 1),
        (["make_quiz.py", f"{folder}/no.html", "--tests", "41"], 1), (["make_quiz.py", f"{folder}/no.html", "A", "--tests", "4"], 2), (["make_quiz.py", f"{folder}/no.html", "--seed", "A"], 1),
        (["read_codes.py", f"{folder}/nowhere.html"], 1), (["read_codes.py", "README.md"], 1), (["read_codes.py", "1", f"{folder}/nowhere.txt"], 1),
    ):
        _, err, status = run(words)
        command_text = " ".join(words).replace(folder, "ROOM")
        yield command_text, (expected, expected != 1 or 1), (status, expected != 1 or err.count("\n"))
    yield "no file is left of what is refused", False, os.path.exists(f"{folder}/no.html")


def make_comparisons() -> Iterator[Comparison]:
    """Yields all comparisons: what is compared, what is expected, and what was found."""
    for seed in SEEDS:
        yield from check_verdicts(seed)
        yield from check_cycles(seed)
    with tempfile.TemporaryDirectory(prefix="lw-quiz-") as folder:
        yield "make_quiz.py OUT.html", ("", "", 0), run(["make_quiz.py", f"{folder}/quiz.html", "--tests", str(TESTS), "--seed", "1"])
        with open(f"{folder}/quiz.html", encoding="utf-8", newline="") as file:
            page = file.read()
        words = [f"{folder}/linked.html", "--tests", str(TESTS), "--seed", "1", "--page", "site/index.html"]
        yield "make_quiz.py OUT.html --page LINK", ("", "", 0), run(["make_quiz.py", *words])
        yield from check_page(page, quiz.make_tests(TESTS, "1", quiz.make_report_by_program))
        yield from check_codes(page, folder)
        yield from check_own(folder)
        yield from check_commands(folder)
        yield from check_browser(page, folder)
        yield from check_links(page, folder)
        yield from check_others(folder)


def main() -> int:
    """Runs the command that the arguments describe. Returns the exit status."""
    given.set_output_encoding()
    return close_check(make_comparisons())


if __name__ == "__main__":
    sys.exit(command.run_command(main, __doc__))
