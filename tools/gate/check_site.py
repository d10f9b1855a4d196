"""Checks that the page answers what it should, with its server and in a browser without one. The last line is 'N passed, M failed'.

    python3 tools gate.check_site

- tools/gate/check_site.mjs, if node is there: it compares the JavaScript of web/ with tools/gate/plain_answers.py, on all examples; each of the
  module's answers with the program's, if the module is built; and some examples by way of a ./page.
- tools/make_site.py: what it makes, and what it refuses.
- If the modules are built, in each browser that is there (Debian's Chromium and Firefox): for each example the states, the schedules,
  the compiled text and three replays are the program's bytes, by each module; the sites that tools/make_site.py makes, opened as
  files, work for a user (tools/gate/browser/); and so does one that came from a web server, when the server is gone, and one whose hints do not come.

Lines say what is skipped, which with CI=true is a failure, except for node and Firefox, which the machine may lack. tools/check_documents.py
calls all this.
"""
from __future__ import annotations

import base64
import functools
import gzip
import html
import http.server
import io
import itertools
import json
import os
import re
import shutil
import subprocess
import sys
import tarfile
import tempfile
import threading
import urllib.parse
from collections.abc import Iterator, Sequence
from unittest import mock

import make_site
import make_slides
import plain
from gate import check_library, check_page, check_slides, firefox, processes
from gate.browser import graphs, lists, page_case, reading, subjects
from gate.browser.page_case import PageCase
from gate.browser.user import Start, User, list_browsers, is_installed
from gate.cases import Comparison
from lab import markdown
from lab.tests import read_file
from page import answers, commands, documents, letters, origin, web_files
from page.condition_words import describe_verdict
from replay_state import State, parse_replay_state
from shared import command
from shared.home import HOME, close_check
from shared.matches import require_match

NODE = shutil.which("node")
SMALLEST = b"\0asm\1\0\0\0"
# The most bytes of the site of one file.
MAX_BYTES = 1_000_000
# The most bytes that a browser loads of a site of files before its first answer: at 1.6 Mbit/s they take some 2.1 seconds.
MAX_LOADED_BYTES = 420_000
LOADED = ("index.html", "style.css", "tables.js", "page.js", "workbench1.js")
# Commands that make the text of a test, commands that ask about it, and the page's view of what they ask.
MADE: tuple[tuple[str, str, dict[str, str]], ...] = (
    ("sed 's,^exists.*,forall (0:r0=1 \\\\/ 1:r0=1),' examples/SB.litmus", "./lw states", {}),
    ("./lw compile < examples/OneSlot.litmus | sed 's/MFENCE//g'", "./lw states | tail -n 1", {}),
    ("./lw compile < examples/SB.litmus", './lw replay "P0 P0 P1 P1" | head -n 3', {"view": "hand", "schedule": "P0 P0 P1 P1"}),
    ("sed '/^ r0 := y/d' examples/SB+unwritten.litmus", "python3 tools/fences.py --everything", {"view": "fences"}),
    ("printf 'SRC Mine\\n{}\\n P0 ;\\n x = 1 ;\\nexists (x=1)\\n'", "./lw states", {}),
)
# A text of a picture: its kinds, and its words.
TEXT = re.compile(r'<text [^>]*?(?: class="([\w -]+)")?>([^<]*)</text>')
BUNDLED = {
    "main.js": 'import { two } from "./other.js";\nimport * as whole from "./other.js";\ntold.push(two(), whole.one, typeof site);\n',
    "other.js": "/** One. */\nexport const one = 1;\n\nexport function two() {\n  return one + 1;\n}\n",
}
# Modules that can't be joined: what the fault says, and the module's text.
REFUSED = (
    ("itself", 'import { a } from "./main.js";\nexport const a = 1;\n'),
    ("another form", 'import it from "./other.js";\n'),
    ("no script inside the page", 'const it = "</script>";\n'),
)


# In node.


# Examples that are asked by way of a ./page too: of each language, with fences and without, locked instructions, jumps.
SERVED = "SB SB-x86 SB+mfences-x86 MP-x86 IRIW-x86 Counter Peterson Peterson+xchg-x86 SpinLock-x86 Sharing-x86".split()


def make_node_command(*words: str) -> list[str]:
    """Returns the words that run tools/gate/check_site.mjs."""
    version = subprocess.run([str(NODE), "--version"], capture_output=True, text=True, check=True).stdout
    early = int(require_match(re.match(r"v(\d+)", version))[1]) < 24
    return [str(NODE), *["--experimental-wasm-memory64"] * early, f"{HOME}/tools/gate/check_site.mjs", *words]


def check_by_node() -> Iterator[Comparison]:
    """Yields the comparisons of the page's JavaScript with other means, if node is here: by the module if it is built, and by a ./page."""
    if not NODE:
        return
    module = ["--module", web_files.MODULES[0]] if web_files.read_module() else []
    yield "tools/gate/check_site.mjs", "0 failed", run_node(*module)
    page = check_page.Page()
    try:
        yield "tools/gate/check_site.mjs, by way of ./page", "0 failed", run_node("--server", page.origin, *SERVED)
    finally:
        page.end_server()


def run_node(*words: str) -> str:
    """Returns the output of tools/gate/check_site.mjs."""
    ran = subprocess.run(make_node_command(*words), capture_output=True, text=True, timeout=1800, check=False)
    last = ran.stdout.splitlines()[-1:] or [""]
    return "0 failed" if re.fullmatch(r"[1-9]\d* passed, 0 failed", last[0]) else (ran.stdout + ran.stderr)[-3000:]


# The files that are made.


def check_bundles() -> Iterator[Comparison]:
    """Checks that modules are put together, or refused."""
    with tempfile.TemporaryDirectory(prefix="lw-web-") as web:
        for name, text in BUNDLED.items():
            make_site.write_file(f"{web}/{name}", text)
        text = make_site.bundle_module("main", web)
        yield "a bundle has each module once", 1, text.count("const one = 1;")
        yield "a bundle has no import and no export", [], re.findall(r"^(?:import|export)\b", text, re.M)
        yield "a bundle has no comment", 0, text.count("One.")
        if NODE:
            script = f"const told = [];\n{text}console.log(told.join());"
            ran = subprocess.run([NODE, "-e", script.replace('"use strict";', "", 1)], capture_output=True, text=True, check=False)
            yield "a bundle runs", "2,1,undefined\n", ran.stdout + ran.stderr
        shared, *rest = make_site.bundle_page(make_site.WEB)
        for entry, part in zip(("main", "worker"), rest):
            whole = make_site.bundle_module(entry, make_site.WEB)
            needed, found = (sorted(re.findall(r"^const from_\w+ = \(", it, re.M)) for it in (whole, shared + part))
            yield f"the parts of the page's code have each module that {entry}.js needs once", needed, found
        scripts = (make_site.bundle_module("hints", make_site.WEB), shared + rest[0], rest[-1])
        of_hints, of_page, packed = (set(re.findall(r"^const from_\w+ = \(", it, re.M)) for it in scripts)
        yield "the hints are the modules that hints.js needs and the page lacks", (of_hints - of_page, True), (packed, "const from_faults = (" in packed)
        yield "the page's code says the same if it is shortened", "the same", compare_tokens("".join(make_site.bundle_page(make_site.WEB)))
        for fault, text in REFUSED:
            make_site.write_file(f"{web}/main.js", text)
            message = ""
            try:
                make_site.bundle_module("main", web)
            except make_site.NoSite as why:
                message = str(why)
            yield f"a module that has {fault} is refused", True, fault in message


# Prints whether two scripts have the same tokens, by the reader that node has of its own.
TOKENS = """
const { readFileSync } = require("node:fs");
const { tokenizer } = require("internal/deps/acorn/acorn/dist/acorn");
const tokensOf = (text) => [...tokenizer(text, { ecmaVersion: "latest" })].map(({ type, value }) => `${type.label} ${value?.pattern ?? ""} ${value?.flags ?? value}`);
const [one, other] = JSON.parse(readFileSync(0, "utf8")).map(tokensOf);
const at = one.findIndex((it, index) => it !== other[index]);
console.log(at < 0 && one.length === other.length ? "the same" : `${one.slice(at - 3, at + 3)} is ${other.slice(at - 3, at + 3)}`);
"""


def compare_tokens(script: str) -> str:
    """Returns "the same" if a script has the same tokens after it is shortened, or if no node can compare them; otherwise where they differ."""
    if not NODE:
        return "the same"
    texts = json.dumps([script, make_site.shorten_script(script)])
    ran = subprocess.run([NODE, "--expose-internals", "-e", TOKENS], input=texts, capture_output=True, text=True, check=False)
    return "the same" if "Cannot find module" in ran.stderr or "No such built-in module" in ran.stderr else ran.stdout.strip() or ran.stderr[-500:]


def check_files() -> Iterator[Comparison]:
    """Compares what a site holds."""
    with tempfile.TemporaryDirectory(prefix="lw-site-") as folder:
        make_site.make_site(f"{folder}/site", [SMALLEST])
        make_site.make_site(f"{folder}/one.html", [SMALLEST], True)
        with open(f"{folder}/site/tables.js", encoding="utf-8") as stream:
            yield "a site says where it comes from", True, "in the repository that this site was made from" in stream.read()
        names = sorted(os.listdir(f"{folder}/site"))
        page = ["hints.js", "icon.svg", "index.html", "offline.js", "page.js", "style.css", "tables.js", "workbench1.js"]
        slides = [documents.SLIDES] if make_slides.make_page_if_built() else []
        expected = sorted([*page, *documents.DOCUMENTS, documents.SHEET, *documents.QUIZZES.values(), *slides, documents.STYLE, documents.SCRIPT])
        yield "the files of a site", expected, names
        for found in ([], [documents.SLIDES]):
            listed = [file for file, _ in documents.list_documents(bool(found)) if file == documents.SLIDES]
            yield f"the page of a site with {found} names no other slides", found, listed
        for name in ("one.html", *(f"site/{it}" for it in names)):
            with open(f"{folder}/{name}", encoding="utf-8") as stream:
                text = stream.read()
            text = text.replace("http://www.w3.org/2000/svg", "").replace("http://127.0.0.1", "")
            yield f"{name} names no other site", [], re.findall(r"https?:|src=\"//|url\((?!#to-)", text)
            yield f"{name} has no module of JavaScript", [], re.findall(r"type=\"module\" src|^import |^export ", text, re.M)
        with open(f"{folder}/site/offline.js", encoding="utf-8") as stream:
            files = require_match(re.search(r"^const files = (.*);$", stream.read(), re.M))[1]
        yield "what the browser keeps of a site", ["./", *(it for it in names if it != "offline.js")], json.loads(files)


def check_documents() -> Iterator[Comparison]:
    """Checks that the documents of a site link to what exists, and open on the page what they show."""
    with tempfile.TemporaryDirectory(prefix="lw-site-") as folder:
        make_site.make_site(f"{folder}/site", [SMALLEST])
        texts = {}
        for name in os.listdir(f"{folder}/site"):
            with open(f"{folder}/site/{name}", encoding="utf-8") as stream:
                texts[name] = stream.read()
    names = {it["name"] for family in web_files.list_families() for it in family["tests"]}
    for file in [*documents.DOCUMENTS, documents.SHEET]:
        links = [html.unescape(it) for it in re.findall(r'href="([^"]*)"', texts[file])]
        yield f"{file} has no dead link", [], [it for it in links if is_dead_link(it, file, texts)]
        views = [dict(urllib.parse.parse_qsl(it.partition("#")[2])) for it in links if it.startswith("index.html#")]
        yield f"{file} opens examples that are there", [], [it["example"] for it in views if it.get("example", "SB") not in names]
        words = re.sub(r"<pre.*?</pre>|<code>.*?</code>|<svg.*?</svg>", "", texts[file], flags=re.S)
        yield f"{file} has no marks of Markdown", [], re.findall(r".*(?:\*\*|`|\]\().*", words)
        unlinked = re.findall(r"(?<![\w/])(?:docs/|examples/)?[A-Z-]+\.md", re.sub(r"<a\b.*?</a>", "", words, flags=re.S))
        yield f"{file} names no document without a link that the site carries", [], [it for it in unlinked if is_carried(it)]
    preparation = texts["lab.html"].partition('<h3 id="prepare-it-in-ten-minutes">')[2].partition("<h4")[0]
    needed = {documents.SHEET, documents.QUIZ, "card.html", "terms.html", documents.SHAPES, "tutorial.html", "solutions.html"}
    needed |= {documents.SLIDES} & set(texts)
    yield "a site has all to prepare the lab", needed, {it for it in re.findall(r'href="([^"#]*)"', preparation) if it in texts and it != "index.html"}
    yield "the preparation names no command", [], re.findall(r"python3|tools/\w+", preparation)
    for_all = re.sub(r'<details class="shell">.*?</details>', "", texts["lab.html"], flags=re.S).partition('<h2 id="the-sheet">')[0]
    for_all = for_all.partition('<h2 id="for-the-teacher">')[2]
    yield "what is only for those who have the repository is folded in the lab", [], re.findall(r"python3|tools/\w+|\w+\.md\b|\./lw|a pack\b|is built", for_all)
    tutorial = texts["tutorial.html"]
    commands = re.findall(r'^(?:<pre[^>]*>)?<span class="command">\$ \./lw (?:states|replay|compile)\b[^|\n]*&lt; examples/', tutorial, re.M)
    yield "each command of the tutorial has a link", True, 40 < len(commands) <= tutorial.count('">▸ ')
    unfolded = re.sub(r'<details class="shell">.*?</details>', "", tutorial, flags=re.S)
    yield "no command of the tutorial is outside of a fold", [], re.findall(r'class="command">(.*?)</span>', unfolded)
    yield "no paragraph for a shell is outside of a fold", [], re.findall(r"<p><em>In a shell.*", unfolded)


# Prints the condition of each text in words, with the verdict, by the modules of web/ in a folder.
WORDS = """
import { readFileSync } from "node:fs";

const load = (name) => import(`file://${process.argv[2]}/${name}.js`);
const [{ describeCondition }, { describeVerdict }] = [await load("condition_words"), await load("verdicts")];
const cases = JSON.parse(readFileSync(0, "utf8"));
console.log(JSON.stringify(cases.map(([text, language, report]) => describeVerdict(language, report, describeCondition(text)))));
"""


def check_answers() -> Iterator[Comparison]:
    """Checks that a walk shows of each command what the command prints: the states of a report, and the words of a replay."""
    reports = replays = 0
    for kind, lines in markdown.split_blocks(read_file("docs/TUTORIAL.md")):
        for shell_command, output in answers.split_runs(lines) if kind == "fence" else ():
            views = list(commands.list_views(shell_command))
            if output[0].startswith("Test ") and output[1].startswith("States ") and output[-1].startswith("Observation "):
                reports += 1
                test = plain.read_test(answers.read_text(views[0]))
                listed = answers.list_states(test)
                states = [" ".join(f"{name}={word};" for name, word in zip(listed.names, words)) for words, _ in listed.rows]
                yield f"the states of {shell_command}", [it for it in output if it.endswith(";")], states
                positive = sum(holds for _, holds in listed.rows)
                yield f"the ticks of {shell_command}", f"Positive: {positive} Negative: {len(states) - positive}", output[-3]
            elif output[0].startswith("Test ") and len(output) > 5 and "replay" in shell_command and "head" not in shell_command:
                replays += 1
                state = parse_replay_state("".join(f"{it}\n" for it in output if not it.startswith("[status")))
                shown = answers.draw_runs([(shell_command, output)], documents.make_page_link)
                yield from compare_picture(f"the picture of {shell_command}", shown.partition("<svg")[2], state)
    yield "reports and replays of the tutorial are compared", (True, True), (reports > 8, replays > 4)


def parse_picture(svg: str) -> tuple[list[list[str]], list[str] | None]:
    """Returns the contents of a picture of one state: the texts and the entries of each thread, and the words of memory."""
    threads: list[list[str]] = []
    content: list[str] | None = None
    for kind, text in TEXT.findall(check_slides.TINT_TAG.sub("", svg)):
        if kind.startswith("title") and re.fullmatch(r"P\d", text):
            threads.append([])
        elif kind == "title" and text == "memory":
            content = []
        elif content is not None:
            content.append(text)
        else:
            threads[-1].append(text)
    return threads, content


def find_buffer(words: list[str]) -> int:
    """Returns the start of the store buffer in the shown text of a thread."""
    return words.index("store buffer") if "store buffer" in words else len(words)


def compare_picture(subject: str, svg: str, state: State) -> Iterator[Comparison]:
    """Compares a picture of one state with the state that the program replays."""
    threads, content = parse_picture(svg)
    yield f"{subject}: the words of memory", check_slides.format_words(state["content"]), content
    yield f"{subject}: its threads", len(state["threads"]), len(threads)
    shown_words = [it for shown in threads for it in shown[: find_buffer(shown)]]
    yield f"{subject}: registers are shown", True, any(re.fullmatch(r"\w+=\d+", it) for it in shown_words)
    for number, (shown, thread_state) in enumerate(zip(threads, state["threads"])):
        begin = find_buffer(shown)
        registers = [it for it in shown[:begin] if re.fullmatch(r"\w+=\d+", it)]
        yield f"{subject}: the registers of P{number}", [], sorted(set(registers) - set(check_slides.format_words(thread_state["registers"])))
        entries = check_slides.format_words(thread_state.get("buffer", []))
        yield f"{subject}: the store buffer of P{number}", entries or ["(empty)"], shown[begin + 1 :] or ["(empty)"]


def check_condition_words() -> Iterator[Comparison]:
    """Checks that the page and the documents say the same of each example, in words, whatever its verdict is."""
    if not NODE:
        return
    tests = [it for family in web_files.list_families() for it in family["tests"]]
    cases = [(test, positive) for test in tests for positive in (0, 1, 3)]
    reports = [(test["text"], plain.read_test(test["text"]), positive) for test, positive in cases]
    kinds = {"exists": "Allowed", "~exists": "Forbidden", "forall": "Required"}
    is_ok = lambda test, positive: {"exists": positive > 0, "~exists": positive == 0, "forall": positive == 3}[test.quantifier]
    asked = [
        (text, test.language, {"asked": kinds[test.quantifier], "verdict": "Ok" if is_ok(test, positive) else "No", "positive": positive})
        for text, test, positive in reports
    ]
    with tempfile.TemporaryDirectory(prefix="lw-web-") as folder:
        shutil.copytree(f"{HOME}/web", f"{folder}/web")
        make_site.write_file(f"{folder}/web/package.json", '{ "type": "module" }\n')
        make_site.write_file(f"{folder}/words.mjs", WORDS)
        ran = subprocess.run([NODE, f"{folder}/words.mjs", f"{folder}/web"], input=json.dumps(asked), capture_output=True, text=True, check=False)
    yield "the conditions of all examples are put into words", "", ran.stderr
    printed = json.loads(ran.stdout or "[]")
    yield "the number of these conditions", len(cases), len(printed)
    for (test, positive), (_, read, _), words in zip(cases, reports, printed):
        yield f"the verdict on {test['name']} in words, if {positive} of 3 states have the condition", words, list(describe_verdict(read, positive, 3))


def check_commands() -> Iterator[Comparison]:
    """Checks that a command's link has the text that the program reads there, and what it asks of that text; of several commands there is a
    link each.
    """
    for text_command, lw_command, fields in MADE:
        text = subprocess.run(["bash", "-c", text_command], cwd=HOME, capture_output=True, text=True, check=True).stdout
        views = [it.fields for it in commands.list_views(f"{text_command} | {lw_command}")]
        yield f"the link of {text_command} | {lw_command}", [{"text": text, **fields}], views
    loop = 'for schedule in "P0" "P0 P1"; do ./lw replay "$schedule" < examples/SB-x86.litmus | grep at; done'
    expected = [("run SB-x86 so: P0", "P0"), ("run SB-x86 so: P0 P1", "P0 P1")]
    yield "a command for each of some words", expected, [(it.words, it.fields["schedule"]) for it in commands.list_views(loop)]
    faulty = "printf 'SRC Mine\\n{}\\n P0 ;\\n x = 1 ;\\nexists (x=1)\\n'"
    shown_fault = [it.words for it in commands.list_views(f"{faulty} | ./lw states")]
    yield "a command that asks about a text with a fault shows the fault", [commands.FAULT], shown_fault
    others = (f"{faulty} | python3 tools/read_codes.py 1", "python3 tools/assume.py tools/herd/tests/Mcs.litmus | tail -n 2")
    yield "another command on a text that is no test has no link", [], [it for other in others for it in commands.list_views(other)]
    yield "a command that is not known is not run", [], list(commands.list_views("touch made-here.txt | ./lw states"))
    yield "and made nothing", False, os.path.exists(f"{HOME}/made-here.txt")


def check_origin() -> Iterator[Comparison]:
    """Checks that a site says of which commit it is, and how the gate ended if that is known."""
    begin = "The program, its sources and its proof are in the repository that this site was made from"
    for given_origin, words in (
        (origin.Origin("0123456789abcdef", False, "5 passed, 0 failed"), ", at commit 0123456789ab. The gate there, which proves and tests all of it, "
         "ended with “5 passed, 0 failed”."),
        (origin.Origin("0123456789abcdef", True, None), ", at commit 0123456789ab, with changes. Whether its gate has passed is not recorded here."),
        (origin.Origin(None, False, None), ". Whether its gate has passed is not recorded here."),
    ):
        yield f"the origin {given_origin}", f"{begin}{words} {origin.NO_ADDRESS} {origin.NO_LICENCE}", origin.describe_origin(given_origin)
    address = "https://example.org/lw"
    published = origin.describe_origin(origin.Origin(None, False, None, address))
    expected = f"{begin}. Whether its gate has passed is not recorded here. The repository is at {address} . {origin.NO_LICENCE}"
    yield "the origin of a published repository", expected, published
    with mock.patch.object(origin, "read_lines", lambda path: ["a", "5 passed, 0 failed"] if path.endswith("/gate") else ["", "", "", "b"]):
        yield "the gate of other sources is not that of these", None, origin.read_origin().gate


def write_archive(path: str, commit: str, names: Sequence[str] = ("PACK.txt", "README.md")) -> None:
    """Writes an archive with files of these names, each of which names a commit as that of a pack does."""
    with tarfile.open(path, "w:gz") as tar:
        for name in names:
            text = f"lw, packed\n\nCommit:    {commit}\n".encode()
            info = tarfile.TarInfo(f"lw-packed/{name}")
            info.size = len(text)
            tar.addfile(info, io.BytesIO(text))


def check_archive() -> Iterator[Comparison]:
    """Checks that a site carries the archive that it is given, with links to it, and refuses one of other sources."""
    commit = "0123456789abcdef" * 2
    with tempfile.TemporaryDirectory(prefix="lw-site-") as folder, mock.patch.object(origin, "read_origin", lambda _: origin.Origin(commit, False, None)):
        archive = f"{folder}/lw-01234567.tar.gz"
        write_archive(archive, commit)
        make_site.make_site(f"{folder}/site", [SMALLEST], archive=archive)
        with open(archive, "rb") as given_file, open(f"{folder}/site/lw-01234567.tar.gz", "rb") as carried:
            yield "a site has its archive", given_file.read(), carried.read()
        texts = {}
        for name in ("tables.js", "offline.js", "tutorial.html", "fences.html"):
            with open(f"{folder}/site/{name}", encoding="utf-8") as stream:
                texts[name] = stream.read()
        site = require_match(re.search(r"^globalThis.site = (.*);$", texts["tables.js"], re.M))[1]
        yield "the page knows the archive", {"file": "lw-01234567.tar.gz", "size": "1 MB"}, json.loads(site)["archive"]
        for name in ("tutorial.html", "fences.html"):
            yield f"{name} has a link to the archive", True, '<a href="lw-01234567.tar.gz" download>' in texts[name]
        yield "the browser does not keep the archive", False, "lw-01234567" in texts["offline.js"]
        others = {"other.tar.gz": "fedc" * 8, "text.tar.gz": "", "empty.tar.gz": commit}
        write_archive(f"{folder}/other.tar.gz", others["other.tar.gz"])
        make_site.write_file(f"{folder}/text.tar.gz", "lw")
        write_archive(f"{folder}/empty.tar.gz", commit, ["README.md"])
        for name in (*others, "missing.tar.gz"):
            try:
                make_site.make_site(f"{folder}/refused", [SMALLEST], archive=f"{folder}/{name}")
                cause = None
            except origin.NoArchive as why:
                cause = str(why).replace(f"{folder}/", "")
            words = "is of another commit than these sources" if name == "other.tar.gz" else "is no archive of tools/pack.py: "
            yield f"{name} is refused", True, cause is not None and cause.startswith(f"{name} {words}")
        yield "and nothing is written", False, os.path.exists(f"{folder}/refused")


def is_carried(name: str) -> bool:
    """Returns whether a site carries the document with a file's name, as texts have it."""
    return {name, f"docs/{name}", f"../{name}"} & {f"{prefix}{it.source}.md" for it in documents.DOCUMENTS.values() for prefix in ("", "docs/")} != set()


def is_dead_link(link: str, file: str, texts: dict[str, str]) -> bool:
    """Returns whether a link of a file leads to no file of the site, or to no place in it."""
    target, _, part = link.partition("#")
    if target == "index.html":
        return False
    return (target or file) not in texts or bool(part) and f'id="{part}"' not in texts[target or file]


def check_packed() -> Iterator[Comparison]:
    """Checks that what is packed is unpacked again, that one site is the same each time, and what is left out of a module."""
    head, names, types = b"\0asm\1\0\0\0", b"\0\x07\x04namexy", b"\1\1\0"
    yield "a module without its names", head + types, make_site.remove_names(head + names + types)
    for unchanged in (b"", b"no module", head, head + types, head + names[:-1]):
        yield f"{unchanged!r}, without names", unchanged, make_site.remove_names(unchanged)
    content = bytes(range(256)) * 9
    packed = make_site.pack_bytes(content)
    if NODE:
        cases = [content[:count] for count in (0, 1, 2, 13, 14, 15, 300)] + [b"\xff" * 40, b"\0" * 40, gzip.compress(content, mtime=0)]
        program = f"const bytesOf = {letters.DECODER}; console.log(JSON.stringify(JSON.parse(process.argv[1]).map((it) => [...bytesOf(it)])))"
        words = [NODE, "-e", program, json.dumps([*map(letters.encode, cases), packed])]
        *decoded, unpacked = json.loads(subprocess.run(words, capture_output=True, text=True, check=True).stdout)
        yield "bytes as letters, and back", [list(it) for it in cases], decoded
        yield "what is packed", content, gzip.decompress(bytes(unpacked))
    yield "what is packed has letters that may be in a script", set(), set(packed) - set(letters.LETTERS)
    with tempfile.TemporaryDirectory(prefix="lw-site-") as folder:
        for name in ("one.html", "other.html"):
            make_site.make_site(f"{folder}/{name}", [SMALLEST], True)
        with open(f"{folder}/one.html", "rb") as first, open(f"{folder}/other.html", "rb") as second:
            yield "a site is the same each time", True, first.read() == second.read()


def check_words() -> Iterator[Comparison]:
    """Checks the command line."""
    tool = [sys.executable, f"{HOME}/tools/make_site.py"]
    run = lambda *words: subprocess.run([*tool, *words], capture_output=True, text=True, check=False)
    for words in ((), ("--one-file",), ("out", "--module"), ("out", "--more", "x"), ("out", "--one-file", "--archive", "x")):
        yield f"make_site.py {' '.join(words)}", 2, run(*words).returncode
    printed = run("-h")
    yield "make_site.py -h prints its words", (0, True), (printed.returncode, "make_site.py" in printed.stdout)
    ran = run("/dev/null/out", "--module", f"{HOME}/README.md")
    yield "a module that is none", (1, True), (ran.returncode, "is no WebAssembly module" in ran.stderr)


# In a browser.

# Calls a module as the page does, and keeps what it answers.
COMPARED = """
import { Workbench, compileModule } from "./module.js";

globalThis.load = async (number) => {
  const bytes = Uint8Array.from(atob(site.modules[number]), (it) => it.charCodeAt(0));
  const module = await compileModule(bytes);
  globalThis.workbench = module && new Workbench(module);
  document.body.dataset.module = module ? number : "none";
};
globalThis.answers = (cases) =>
  cases.map(([words, text]) => {
    const { status, isFault, out } = workbench.run(words, new TextEncoder().encode(text));
    return [status, isFault, new TextDecoder().decode(out)];
  });
document.body.dataset.ready = "";
"""
COMPARING = """<!doctype html>
<meta charset="utf-8">
<title>Answers</title>
<body>
<script src="workbench.js"></script>
<script src="compare.js"></script>
"""
MODULES = ("with a memory of 64 bits", "with a memory of 32 bits")


def make_comparing_page(folder: str, modules: list[bytes]) -> str:
    """Makes a page that calls the modules. Returns its address."""
    os.mkdir(folder)
    shutil.copy(f"{HOME}/web/module.js", folder)
    make_site.write_file(f"{folder}/main.js", COMPARED)
    make_site.write_file(f"{folder}/compare.js", make_site.bundle_module("main", folder))
    encoded = json.dumps([base64.b64encode(it).decode() for it in modules])
    make_site.write_file(f"{folder}/workbench.js", f"globalThis.site = {{ modules: {encoded} }};\n")
    make_site.write_file(f"{folder}/index.html", COMPARING)
    return f"file://{folder}/index.html"


def format_answer(ran: tuple[int, bytes, bytes]) -> list[object]:
    """Returns the program's answer, in the form of the module's."""
    status, out, errors = ran
    return [status, bool(errors), (errors[:-1] or out).decode()]


def compare_module_answers(
    address: str, modules: list[bytes], questions: list[tuple[str, list[str], bytes, list[object]]], start: Start
) -> Iterator[Comparison]:
    """Compares all answers of each module on each example, in a browser."""
    with tempfile.TemporaryDirectory(prefix="lw-browser-") as folder:
        user = User(address, folder, start)
        try:
            user.open()
            for number, module_name in enumerate(MODULES[: len(modules)]):
                user.run(f"load({number})")
                printed = user.wait(lambda: str(user.run("return document.body.dataset.module ?? ''")), "the module is loaded")
                user.run("delete document.body.dataset.module")
                if printed == "none":
                    yield f"the module {module_name}", "it is taken", "it is refused"
                    continue
                for name, cases in itertools.groupby(questions, lambda it: it[0]):
                    _, words, texts, expected = zip(*cases)
                    actual = user.run("return answers(arguments[0])", list(zip(words, (it.decode() for it in texts))))
                    yield f"the module {module_name}: {name}", list(expected), actual
        finally:
            user.driver.quit()


class Site(PageCase):
    """Properties that only a site has."""

    def test_where(self) -> None:
        """The page says that the workbench runs in the browser."""
        self.user.open_listed()
        self.user.click("#open-about")
        self.assertSays(", in this browser as a WebAssembly module.", "#about-dialog p")


def group_subjects(site: str, browser: str) -> Iterator[tuple[type[page_case.PageCase], ...]]:
    """Yields the subjects that are tried on a site, in groups that can be tried side by side: on one of files all, but those that one browser
    shows for all browsers in Chromium only, and those that need the processors for themselves; on one of one file those that this form could break.
    """
    if site != "a site":
        yield (Site, *subjects.OF_ONE_FILE)
        return
    is_first = browser == "Chromium"
    if is_first:
        yield (lists.AllExamples,)
        yield (graphs.AllGraphs,)
    for group in ((Site,), reading.SUBJECTS, *(it.SUBJECTS for it in subjects.PARTS)):
        yield tuple(it for it in group if it not in subjects.ALONE and (is_first or it not in subjects.OF_ONE_BROWSER))


def make_sites(folder: str) -> dict[str, str]:
    """Makes the sites that are opened. Returns of each what it is, and its address."""
    modules = web_files.read_modules()
    make_site.make_site(f"{folder}/site", modules)
    make_site.make_site(f"{folder}/one.html", modules, True)
    return {"a site": f"file://{folder}/site/index.html", "a site of one file": f"file://{folder}/one.html"}


class Quiet(http.server.SimpleHTTPRequestHandler):
    """Serves files, and writes nothing."""

    def log_message(self, *_message: object) -> None:
        """Writes nothing."""
        pass


def check_offline(folder: str) -> Iterator[Comparison]:
    """Checks that a site that came from a web server opens when the server is gone."""
    server = http.server.ThreadingHTTPServer(("127.0.0.1", 0), functools.partial(Quiet, directory=folder))
    threading.Thread(target=server.serve_forever, daemon=True).start()
    with tempfile.TemporaryDirectory(prefix="lw-browser-") as temporary_folder:
        user = User(f"http://127.0.0.1:{server.server_address[1]}/", temporary_folder)
        try:
            user.open_listed("#example=SB-x86")
            printed = user.text("#outcome .verdict")
            user.wait(lambda: user.run("return navigator.serviceWorker.controller !== null"), "the browser keeps the site")
            server.shutdown()
            server.server_close()
            user.open_listed("#example=SB-x86")
            yield "a site opens and answers when its server is gone", printed, user.text("#outcome .verdict")
        finally:
            user.driver.quit()


def check_without_hints(folder: str) -> Iterator[Comparison]:
    """Checks that lw's sentence is shown of a fault if the hints on faults do not come."""
    with tempfile.TemporaryDirectory(prefix="lw-browser-") as temporary_folder:
        shutil.copytree(folder, f"{temporary_folder}/site")
        os.remove(f"{temporary_folder}/site/hints.js")
        user = User(f"file://{temporary_folder}/site/index.html", temporary_folder)
        try:
            user.open("#text=" + urllib.parse.quote("X86 A\n{}\n P0 ;\n MOVE [x],$1 ;\nexists (x=1)\n"))
            said = user.text_with("#fault", "As lw prints it")
            yield "a fault has lw's sentence if no hints come", True, said.startswith("Line 4, column 2: Form: ") and said.endswith("cell 1 Form at 16")
            yield "and the panel says where it is", "No answer yet, because of line 4.", user.text("#outcome .no-answer")
        finally:
            user.driver.quit()


def check_by_browser() -> Iterator[Comparison]:
    """Yields all comparisons in a browser, if there is one, and of the module. Browsers run side by side, as many as there are processors."""
    if not web_files.read_module():
        yield from report_missing("the module of the sources as they are")
    if not is_installed():
        yield from report_missing("a browser")
    if web_files.read_module():
        answer = lambda words, text: format_answer(check_library.capture_status_and_streams([check_library.PROGRAM, *words], text))
        cases = [(name, words, text, answer(words, text)) for name, words, text in check_library.list_cases()]
        with tempfile.TemporaryDirectory(prefix="lw-sites-") as folder:
            modules = web_files.read_modules()
            comparing = make_comparing_page(f"{folder}/comparing", modules)
            opened = make_sites(folder)
            yield "the site: the one file is small", True, os.path.getsize(f"{folder}/one.html") < MAX_BYTES
            loaded = sum(os.path.getsize(f"{folder}/site/{name}") for name in LOADED)
            yield f"the site: few bytes come before the first answer: {loaded}", True, loaded < MAX_LOADED_BYTES
            compared = (
                functools.partial(compare_in_browser, name, comparing, modules, cases, start) for name, start in list_browsers().items()
            )
            yield from processes.run_checks([*list_site_checks(folder, opened), *compared])
            for name, start in list_browsers().items():
                yield from check_page.run_check(page_case.make_comparisons, opened["a site"], subjects.ALONE, f"a site, in {name}", start)


def list_site_checks(folder: str, opened: dict[str, str]) -> Iterator[processes.Check]:
    """Yields the checks of the sites in a folder, which are opened at their addresses, in each browser."""
    for name, start in list_browsers().items():
        for site, address in opened.items():
            for group in group_subjects(site, name):
                yield functools.partial(check_page.run_check, page_case.make_comparisons, address, group, f"{site}, in {name}", start)
    if is_installed():
        for check in (check_offline, check_without_hints):
            yield functools.partial(check_page.run_twice_if_needed, check, f"{folder}/site")


def compare_in_browser(name: str, *words: object) -> Iterator[Comparison]:
    """Compares all answers of each module on each example, in the browser with a name."""
    for subject, expected, actual in check_page.run_twice_if_needed(compare_module_answers, *words):
        yield f"in {name}, {subject}", expected, actual


# All of them.


def report_missing(requirement: str) -> Iterator[Comparison]:
    """Yields a fault if CI=true, since nothing may be missing then."""
    if os.environ.get("CI") == "true":
        yield f"the site: where CI=true, {requirement} is there", "", "it is missing"


def describe_skipped() -> str | None:
    """Returns the line that says what was left out, or None if nothing was."""
    requirements: dict[str, object] = {"node": NODE, "Chromium": is_installed(), "Firefox": firefox.is_installed()}
    requirements["the module of the sources as they are"] = web_files.read_module()
    lacking = [requirement for requirement, has_it in requirements.items() if not has_it]
    return f"the site: checks were skipped, since this is missing: {', '.join(lacking)}" if lacking else None


def make_comparisons() -> Iterator[Comparison]:
    """Yields all comparisons: what is compared, what is expected, and what was found."""
    for check in (
        check_bundles, check_files, check_documents, check_answers, check_condition_words, check_commands, check_origin, check_archive, check_packed, check_words,
    ):
        yield from ((f"the site: {subject}", expected, actual) for subject, expected, actual in check())
    yield from check_by_node()
    yield from check_by_browser()


def main() -> int:
    """Runs the command that the arguments describe. Returns the exit status."""
    return close_check(make_comparisons(), check_page.format_fault, describe_skipped)


if __name__ == "__main__":
    sys.exit(command.run_command(main, __doc__))
