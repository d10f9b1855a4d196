"""Runs ./page, and checks that it answers what it should, and refuses what it must. The last line is 'N passed, M failed'.

    python3 tools gate.check_page

By a plain client: each answer on each example is what `lw` prints; requests that are not for the page, or that are faulty, cut
off, slow or too many, are each answered and end nothing; runs that take too long, crash or are left by their client end with all
that they have started, and a run ends with its server. The last checks need a program that misbehaves, which stands in for `lw` in a copy of
the repository. tools/gate/check_site.mjs compares what the page makes of these answers.

In a browser, if Debian's chromium, chromium-driver and python3-selenium are there: the tests of tools/gate/browser/. Without them a line says
how many tests were skipped, which with CI=true is a failure. tools/check_documents.py calls all this.
"""
from __future__ import annotations

import contextlib
import glob
import importlib
import io
import json
import os
import re
import select
import shutil
import signal
import socket
import subprocess
import sys
import tempfile
import time
import traceback
from collections.abc import Callable, Iterable, Iterator, Mapping, Sequence
from concurrent.futures import ThreadPoolExecutor
from functools import partial
from typing import Any, Dict, List, Optional, Tuple, TypedDict, Union

import effects
import picture
from gate import processes
from gate.browser import page_case, subjects, user
from gate.cases import Comparison
from page import web_files, web_runs
from shared import command
from shared.home import BEYOND, HOME, PROGRAM, close_check
from shared.matches import require_match

HEADERS = {
    "x-content-type-options": "nosniff",
    "cache-control": "no-store",
    "referrer-policy": "no-referrer",
    "cross-origin-resource-policy": "same-origin",
    "cross-origin-opener-policy": "same-origin",
    "content-security-policy": "default-src 'none'; script-src 'self' 'wasm-unsafe-eval'; style-src 'self'; img-src 'self'; connect-src 'self'; "
    "worker-src 'self'; base-uri 'none'; form-action 'none'; frame-ancestors 'none'",
    "connection": "close",
}
# 64 times 64 states: each of two threads sees each of six stores, or does not.
MANY = "SRC Many\n{}\n P0 | P1 | P2 ;\n" + "".join(
    f" {name} := 1 | r{at} := {name} | r{at} := {name} ;\n" for at, name in enumerate("abcdef")
)
# The question names all registers, so that a report shows them, and asks about two.
MANY += "exists (1:r0=1 /\\ 1:r1=1"
MANY += "".join(f" /\\ ({thread}:r{at}=0 \\/ {thread}:r{at}=1)" for thread in (1, 2) for at in range(6)) + ")\n"
STAND_IN_RT = '#!/bin/sh\n[ "$1" = doc ] && echo "{kit}/START-HERE.md"\n'
STAND_IN = """#!/bin/sh
text=$(cat)
echo $$ >>{room}/started
case $text in
    *Hangs*) sleep 300 & echo $! >>{room}/started; wait ;;
    *Crashes*) kill -SEGV $$ ;;
    *Grows*) exec {python} -c 'x = [bytearray(1 << 26) for _ in range(1 << 16)]' ;;
    *Sleeps*) exec sleep 300 ;;
    *Whispers*) exec >&- 2>&-; sleep 300 ;;
    *Talks*) yes; exit 0 ;;
    *) printf '%s\\n' 'Test A Allowed' 'States 1' 'x=1;' Ok 'Positive: 1 Negative: 0' 'Condition exists (x=1)' \\
        'Observation A Always 1 0' ;;
esac
"""


# The status of HTTP, the headers, and the content of an answer.
HttpAnswer = Tuple[Optional[int], Dict[str, str], bytes]
# The value of a field of a request: one that is None is left out, and a list appears more than once.
Field = Union[str, List[str], None]


class RunAnswer(TypedDict):
    """The server's answer on a run: the exit status, what was printed, and the line of the fault, or None."""

    status: int
    printed: str
    fault: str | None


class Page:
    """A ./page that runs, at a port of its own."""

    def __init__(self, home: str = HOME, port: int | None = None, **environment: str) -> None:
        """Starts ./page, and waits until it listens."""
        variables = {name: value for name, value in os.environ.items() if name not in ("DISPLAY", "WAYLAND_DISPLAY")}
        self.port, self.home, pipe = port or find_free_port(), home, subprocess.PIPE
        env = {**variables, **environment}
        self.process = subprocess.Popen([f"{home}/page", str(self.port)], stdin=subprocess.DEVNULL, stdout=pipe, stderr=pipe, env=env)
        assert self.process.stdout is not None
        self.line = self.process.stdout.readline().decode()
        self.host = f"127.0.0.1:{self.port}"
        self.origin = f"http://{self.host}"

    def end_server(self, sent: int = signal.SIGTERM) -> tuple[int, str]:
        """Ends it. Returns its status, and what it has written since its first line."""
        self.process.send_signal(sent)
        try:
            out, err = self.process.communicate(timeout=60)
        except subprocess.TimeoutExpired:
            self.process.kill()
            out, err = self.process.communicate()
        return self.process.returncode, out.decode() + err.decode()

    def connect(self) -> socket.socket:
        """Returns a new connection to the server."""
        connection = socket.create_connection(("127.0.0.1", self.port), timeout=60)
        return connection

    def send_request(self, request: bytes, closes_after: bool = False) -> HttpAnswer:
        """Returns the server's answer to some bytes: the status, the headers, and the content."""
        with self.connect() as connection:
            with contextlib.suppress(BrokenPipeError, ConnectionResetError):
                connection.sendall(request)
                if closes_after:
                    connection.shutdown(socket.SHUT_WR)
            return read_answer(connection)

    def get_file(self, path: str, **headers: Field) -> HttpAnswer:
        """Returns the answer to a request of a file."""
        return self.send_request(make_head("GET", path, {"Host": self.host, **headers}))

    def post_question(self, question: object, **headers: Field) -> HttpAnswer:
        """Returns the answer to a question that is asked as JSON."""
        return self.post_bytes(json.dumps(question).encode(), "/run", **headers)

    def post_bytes(self, body: bytes, path: str = "/run", **headers: Field) -> HttpAnswer:
        """Returns the answer to a question whose body is some bytes."""
        other_headers = {name.replace("_", "-"): value for name, value in headers.items()}
        return self.send_request(make_head("POST", path, {**self.make_fields(str(len(body))), **other_headers}) + body)

    def make_fields(self, length: str) -> dict[str, str]:
        """Returns the fields of a request that is taken."""
        return {"Host": self.host, "Origin": self.origin, "Content-Type": "application/json", "Content-Length": length}

    def ask_run(self, text: str, *words: str) -> Any:
        """Returns the report on a run: its answer, or the status of HTTP and why there is none."""
        status, _, content = self.post_question({"words": words, "text": text})
        answer = json.loads(content)
        return answer if status == 200 else (status, answer["error"])

    def is_current(self) -> dict[str, bool]:
        """Returns the server's answer whether its program is current."""
        return json.loads(self.post_bytes(b"{}", "/current")[2])


def find_free_port() -> int:
    """Returns a port that nobody listens on."""
    with socket.socket() as probe:
        probe.bind(("127.0.0.1", 0))
        return probe.getsockname()[1]


def make_head(method: str, path: str, fields: Mapping[str, Field]) -> bytes:
    """Returns the head of a request. A field that is None is left out; a list appears more than once."""
    rows = [(name, values if isinstance(values, list) else [values]) for name, values in fields.items() if values is not None]
    lines = [f"{method} {path} HTTP/1.1", *(f"{name}: {value}" for name, values in rows for value in values)]
    return ("\r\n".join(lines) + "\r\n\r\n").encode()


def read_answer(connection: socket.socket) -> HttpAnswer:
    """Reads an answer: its status, its headers and its content."""
    received = bytearray()
    with contextlib.suppress(ConnectionResetError):
        while data := connection.recv(1 << 16):
            received += data
    first, _, content = bytes(received).partition(b"\r\n\r\n")
    line, *fields = first.decode("latin-1").split("\r\n")
    status = int(line.split()[1]) if line else None
    return status, {name.lower(): value for name, _, value in (it.partition(": ") for it in fields)}, content


def ask_lw(text: str, *arguments: str) -> RunAnswer:
    """Returns the program's output on a text, in the form of a run of the page."""
    return ask_program(PROGRAM, text, *arguments)


def ask_program(program: str, text: str, *arguments: str) -> RunAnswer:
    """Returns a program's output on a text, in the form of a run of the page."""
    ran = subprocess.run([program, *arguments], input=text.encode(), capture_output=True, timeout=60, check=False)
    return {"status": ran.returncode, "printed": ran.stdout.decode(), "fault": ran.stderr.decode().rstrip("\n") or None}


def read_file(name: str) -> str:
    """Returns the text of a file of the repository."""
    with open(f"{HOME}/{name}", encoding="utf-8") as file:
        return file.read()


# Requests that are refused.


def check_requests(page: Page) -> Iterator[Comparison]:
    """Compares what requests are answered that are no questions."""
    own, states = page.host, {"words": ["states"], "text": "SRC A\n"}
    body = json.dumps(states).encode()
    posted = {"Host": own, "Origin": page.origin, "Content-Type": "application/json", "Content-Length": str(len(body))}
    for host in ("lw.example", "127.0.0.1:1", "127.0.0.1", f"lw.example:{page.port}", f"localhost:{page.port}", None, [own, own]):
        yield f"GET with Host {host}", 403, page.send_request(make_head("GET", "/", {"Host": host}))[0]
        yield f"POST with Host {host}", 403, page.send_request(make_head("POST", "/run", {**posted, "Host": host}) + body)[0]
    others = ("http://lw.example", f"https://{own}", "http://127.0.0.1:1", f"http://localhost:{page.port}")
    for origin in (None, "null", *others, [page.origin] * 2):
        for path in ("/run", "/current"):
            status = page.send_request(make_head("POST", path, {**posted, "Origin": origin}) + body)[0]
            yield f"POST {path} with Origin {origin}", 403, status
    local = {"Host": f"localhost:{page.port}", "Origin": f"http://localhost:{page.port}"}
    yield "POST by the name localhost", 403, page.send_request(make_head("POST", "/run", {**posted, **local}) + body)[0]
    for cookie in ("a=b", "x" * 19000, "x" * 300000, "name=J\u00fcrgen".encode().decode("latin-1"), "a\tb", "\x01"):
        request = make_head("GET", "/", {"Host": own, "Cookie": cookie}).decode().encode("latin-1")
        yield f"a cookie of another application, {cookie[:12]!r}", 200, page.send_request(request)[0]
    yield "a Host with a letter past ASCII", 400, page.send_request(f"GET / HTTP/1.1\r\nHost: {own}\u00e9\r\n\r\n".encode("latin-1"))[0]
    for kind in (None, "text/plain", "application/x-www-form-urlencoded", "application/json; charset=latin-1"):
        yield f"POST of the kind {kind}", 415, page.post_question(states, Content_Type=kind)[0]
    for method in ("OPTIONS", "HEAD", "PUT", "DELETE", "PATCH", "TRACE"):
        headers = {"Host": own, "Origin": page.origin, "Access-Control-Request-Method": "POST"}
        answer_status, fields, _ = page.send_request(make_head(method, "/run", headers))
        refused = answer_status, [it for it in fields if it.startswith("access-control")]
        yield f"{method} is refused, with no header of CORS", (405, []), refused
    yield "POST to another path", 404, page.post_bytes(body, "/")[0]
    for path in ("/run", "/current"):
        yield f"GET {path} runs nothing", 404, page.get_file(path)[0]


def check_bodies(page: Page) -> Iterator[Comparison]:
    """Compares what bodies are refused."""
    body = json.dumps({"words": ["states"], "text": "SRC A\n"}).encode()
    yield "a body without its length", 411, page.post_bytes(body, Content_Length=None)[0]
    lengths: tuple[Field, ...] = (["30", "30"], ["30", "31"], "+30", "-1", "x", "30, 30", "0x1e", "")
    for length in lengths:
        yield f"a body with the length {length}", 400, page.post_bytes(body, Content_Length=length)[0]
    yield "a body in chunks", 400, page.post_bytes(b"5\r\nhello\r\n0\r\n\r\n", Content_Length=None, Transfer_Encoding="chunked")[0]
    yield "a body with a length and in chunks", 400, page.post_bytes(body, Transfer_Encoding="chunked")[0]
    yield "a body that is too long, and sent", 413, page.post_bytes(b" " * (600 << 10))[0]
    yield "a body that is said to be too long", 413, page.post_bytes(b"", Content_Length="99999999")[0]
    posted = make_head("POST", "/run", page.make_fields("100"))
    yield "a body that is cut off", 400, page.send_request(posted + body, closes_after=True)[0]
    yield "a head that is cut off", 400, page.send_request(b"GET / HTTP/1.1\r\nHost:", closes_after=True)[0]
    yield "a body with more after it", 400, page.post_bytes(body + b"GET / HTTP/1.1\r\n\r\n", Content_Length=str(len(body)))[0]
    yield "GET with a body", 400, page.send_request(make_head("GET", "/", {"Host": page.host, "Content-Length": "3"}) + b"abc")[0]
    yield "a head that is too long", 431, page.get_file("/", Cookie="x" * (2 << 20))[0]
    right = "GET / HTTP/1.1"
    for first in ("hello", "GET / HTTP/2.0", "GET  / HTTP/1.1", f"{right}\nX: y", f"{right}\r\n b", f"{right}\r\nX : y"):
        request = f"{first}\r\nHost: {page.host}\r\n\r\n"
        yield f"a head that begins with {first!r}", 400, page.send_request(request.encode())[0]


# Words that are no command which the page asks for.
NO_COMMANDS: tuple[list[object], ...] = (
    [],
    ["rm"],
    ["states", "more"],
    ["--help"],
    [["states"]],
    ["replay"],
    ["replay", 1],
    ["replay", "P0", "--protocol"],
    ["replay", "P0", "--protocol", "mosi"],
    ["replay", "P0", "--protocol", ["mesi"]],
    ["replay", "P0", "--caches", "mesi"],
    ["replay", "P0", "--protocol", "mesi", "P0"],
    ["states", "P0", "--protocol", "mesi"],
    ["replay", "P0\0"],
    ["replay", "\ud800"],
    ["replay", "P0 " * 6000],
    ["../lw"],
    [None],
    ["--budget", "10", "compile"],
    ["--budget", "10"],
    ["--budget", 10, "states"],
    ["--budget", "-1", "states"],
    ["--budget", "10000001", "states"],
    ["--budget", "\u0661", "states"],
    ["--search", "--budget", "10", "states"],
)
# Values that ask for no run, each with what is wrong with it.
NO_QUESTIONS: tuple[tuple[str, object], ...] = (
    ("no words", {"text": ""}),
    ("words that are a text", {"words": "states", "text": ""}),
    ("an unknown key", {"words": ["states"], "text": "", "more": 1}),
    ("no text", {"words": ["states"]}),
    ("a text that is a number", {"words": ["states"], "text": 1}),
    ("a text that is null", {"words": ["states"], "text": None}),
    ("half of a pair of surrogates", {"words": ["states"], "text": "\ud800"}),
    ("a list", ["states"]),
    ("a number", 1),
)
# Bodies that are no JSON of the kind that is wanted, each with what is wrong with it.
NO_BODIES = (
    ("no JSON", b"{"),
    ("no UTF-8", b'{"words":["states"],"text":"\xff"}'),
    ("a key twice", b'{"words":["states"],"text":"a","text":"b"}'),
    ("NaN", b'{"words":["states"],"text":NaN}'),
    ("deep nesting", b'{"text":"","words":' + b"[" * 100000 + b"]" * 100000 + b"}"),
    ("a number of many digits", b'{"words":["states"],"text":' + b"1" * 100000 + b"}"),
    ("nothing", b""),
)


def check_words(page: Page) -> Iterator[Comparison]:
    """Checks that bodies that ask for no run are refused."""
    for words in NO_COMMANDS:
        yield f"the words {str(words)[:60]}", 400, page.post_question({"words": words, "text": ""})[0]
    for fault, question in NO_QUESTIONS:
        yield f"a body with {fault}", 400, page.post_question(question)[0]
    for fault, body in NO_BODIES:
        yield f"a body with {fault}", 400, page.post_bytes(body)[0]
    for body in (b"", b"[]", b'{"words":[]}', b"null"):
        yield f"{body!r} does not ask whether the program is current", 400, page.post_bytes(body, "/current")[0]


def check_files(page: Page) -> Iterator[Comparison]:
    """Compares the files that are sent."""
    outside = ("/..", "/../README.md", "/web/..", "/%2e%2e/README.md", "/README.md", "/etc/passwd", "/tools/plain.py")
    other = ("/favicon.ico", "/./index.html", "//index.html", "/web", "/web/", "/index.html/", "/x?/index.html")
    for path in (*outside, *other, f"http://{page.host}/index.html"):
        yield f"GET {path}", 404, page.get_file(path)[0]
    texts = {".html": "text/html", ".css": "text/css", ".js": "text/javascript"}
    kinds = {".svg": "image/svg+xml", **{ending: f"{kind}; charset=utf-8" for ending, kind in texts.items()}}
    for name in sorted(os.listdir(f"{HOME}/web")):
        status, fields, content = page.get_file(f"/{name}")
        expected = (200, kinds[os.path.splitext(name)[1]], read_file(f"web/{name}"))
        yield f"GET /{name}", expected, (status, fields["content-type"], content.decode())
    for path in ("/", "/?x", "/index.html?x=/README.md"):
        yield f"GET {path} is index.html", page.get_file("/index.html")[2], page.get_file(path)[2]
    status, fields, content = page.get_file("/lw.wasm")
    yield "GET /lw.wasm", (200, "application/wasm", web_files.read_module()), (status, fields["content-type"], content)
    run = page.post_question({"words": ["compile"], "text": read_file("examples/SB.litmus")})
    answers = {"a file": page.get_file("/"), "an unknown path": page.get_file("/x"), "a refusal": page.send_request(b"x\r\n\r\n"), "a run": run}
    for file_name, (_, fields, _) in answers.items():
        yield f"the headers of {file_name}", HEADERS, {name: fields.get(name) for name in HEADERS}
        extra_fields = [it for it in fields if it.startswith(("access-control", "set-cookie"))]
        yield f"{file_name} has no header of CORS, and no cookie", [], extra_fields


def check_sources(page: Page) -> Iterator[Comparison]:
    """Checks what the page's files have: nothing that is loaded from elsewhere, and no way to make elements of a text."""
    for name in sorted(os.listdir(f"{HOME}/web")):
        # A picture that is saved is a file of its own, with its name space and its style.
        text = read_file(f"web/{name}").replace("http://www.w3.org/2000/svg", "").replace("<style>${STYLE}</style>", "")
        yield f"web/{name} names no other site", [], re.findall(r"https?:|//[a-z]+\.", text)
        makers = r"innerHTML|outerHTML|insertAdjacentHTML|document\.write|\beval\b|new Function"
        yield f"web/{name} makes elements of no text", [], re.findall(makers, text)
        in_place = r"<style|<script(?! type=\"module\" src=)|\son\w+=|\sstyle="
        yield f"web/{name} has no style or script in place", [], re.findall(in_place, text)
    examples = json.loads(page.get_file("/examples.json")[2])
    names = sorted(test["name"] for family in examples for test in family["tests"])
    yield "the page has each example once", list_examples(), names


def list_examples() -> list[str]:
    """Returns the names of all examples."""
    return sorted(os.path.basename(path)[: -len(".litmus")] for path in glob.glob(f"{HOME}/examples/*.litmus"))


# Answers.


def check_example(page: Page, name: str) -> Iterator[Comparison]:
    """Compares the server's answers on an example with what the program prints."""
    text = read_file(f"examples/{name}.litmus")
    for lw_command in ("states", "schedules", "compile"):
        yield f"{name}: {lw_command}", ask_lw(text, lw_command), page.ask_run(text, lw_command)
    schedules = ask_lw(text, "schedules")["printed"].splitlines()[3::2]
    compiled = ask_lw(text, "compile")["printed"]
    for schedule in {schedules[0].strip(), schedules[-1].strip()}:
        for words in (["replay", schedule], ["replay", schedule, "--protocol", "moesi"]):
            yield f"{name}: {words}", ask_lw(compiled, *words), page.ask_run(compiled, *words)


def check_answers(page: Page) -> Iterator[Comparison]:
    """Compares the answers to texts that are typed in: faults, limits, events that are refused, and a long list."""
    yield "the program is that of the sources", {"is_current": True}, page.is_current()
    test = read_file("examples/SB.litmus")
    five = "SRC Five\n{}\n P0 | P1 ;\n" + " x := 1 | x := 2 ;\n" * 5 + "exists (x=1)\n"
    deep = "SRC A\n{}\n P0 ;\n x := 1 ;\nexists " + "(" * 30000 + "x=1" + ")" * 30000 + "\n"
    for subject, text, words, status, line in (
        ("what is no test", "no test", ["states"], 1, "lw: text 4 Unexpected at 0"),
        ("nothing", "", ["compile"], 1, None),
        ("a NUL", "SRC A\0", ["states"], 1, None),
        ("letters of two and four bytes", "SRC A (* é𝄞 *)\n{}\n P0 ;\n(* é𝄞 *) x = 1 ;\nexists (x=1)\n", ["states"], 1, None),
        ("a text that is too long", "(* " + "x" * 70000, ["states"], 1, "lw: text 2 TooLong at 65536"),
        ("a limit", five, ["states"], 3, "lw: limit 2 TooManyOrders"),
        ("a schedule with a fault", test, ["replay", "P0 Q1"], 1, "lw: schedule 1 Word at 3"),
        ("an event that is refused", test, ["replay", "P0 D0"], 1, None),
        ("no event", test, ["replay", ""], 1, None),
        ("a condition that is nested deeply", deep, ["states"], 0, None),
        ("a list of 4,096 states", MANY, ["states"], 0, None),
        ("their schedules", MANY, ["schedules"], 0, None),
    ):
        expected, printed = ask_lw(text, *words), page.ask_run(text, *words)
        yield f"the answer to {subject}", expected, printed
        yield f"the line on {subject}", (status, line or expected["fault"]), (printed["status"], printed["fault"])


def check_searches(page: Page) -> Iterator[Comparison]:
    """Compares lists of any size, by the program beyond, if it is built of the sources as they are."""
    text = read_file("bench/beyond/TryLock3-x86.litmus")
    if subprocess.run([*web_runs.IS_CURRENT, "beyond"], capture_output=True, check=False).returncode != 0:
        expected = (500, "The program for tests of any size is not built of the sources as they are: run ./beyond once.")
        yield "a list of any size, where beyond is not built", expected, page.ask_run(text, "--budget", "10", "states")
        return
    for words in (["--budget", "1000000", "states"], ["--budget", "1000000", "schedules"], ["--budget", "10", "states"]):
        yield f"a list of any size: {words}", ask_program(BEYOND, text, *words), page.ask_run(text, *words)


def check_pictures(_page: Page) -> Iterator[Comparison]:
    """Compares the pictures of documents, and how refusals are printed."""
    sentences = {int(kind.split()[1]): it for kind, it in web_files.list_sentences().items() if kind.startswith("end ")}
    yield "refusals are explained by the sentences of docs/FORMAT.md", sentences, effects.REFUSALS
    for path, example, schedule, is_strip in picture.DOCUMENTS:
        yield f"{path} is as tools/picture.py draws it", picture.draw_document_picture(example, schedule, is_strip), read_file(path)
    for schedule, fields, line, panels in (
        ("P0 D1 P0", "--strip", "picture: event 1, D1, is refused: there is no entry to drain", 2),
        ("D0 P0", "--strip", "picture: event 0, D0, is refused: there is no entry to drain", 1),
        ("P0 E0:y", "", "picture: event 1, E0:y, is refused: the cache does not hold the line", 1),
    ):
        words = [sys.executable, f"{HOME}/tools/picture.py", schedule, *fields.split(), f"{HOME}/examples/SB-x86.litmus"]
        ran = subprocess.run(words, capture_output=True, text=True, check=False)
        printed = ran.returncode, ran.stderr.strip(), ran.stdout.count(">content<"), ran.stdout.count("Here ")
        yield f"a picture of {schedule}, of which an event is refused", (1, line, panels, 1), printed


# Many at once, slow ones, and runs that misbehave.


def check_many(page: Page) -> Iterator[Comparison]:
    """Compares the answers to many questions at once."""
    text = read_file("examples/SB-x86.litmus")
    with ThreadPoolExecutor(60) as pool:
        runs = [pool.submit(page.ask_run, text, "states") for _ in range(20)]
        files = [pool.submit(page.get_file, "/style.css") for _ in range(40)]
        yield "twenty runs at once are all answered", [ask_lw(text, "states")] * 20, [it.result() for it in runs]
        yield "forty files at once are all answered", [200] * 40, [it.result()[0] for it in files]


def check_slow(page: Page) -> Iterator[Comparison]:
    """Opens connections that say nothing, or too little, or stop in the body. Compares what each is answered, and that others are answered meanwhile."""
    began = time.monotonic()
    posted = make_head("POST", "/run", page.make_fields("100"))
    slow = [page.connect() for _ in range(36)]
    for index, connection in enumerate(slow):
        connection.sendall((b"", b"GET / HT", posted + b"{")[index % 3])
    time.sleep(0.5)
    yield "a request among slow ones is answered", 200, page.get_file("/")[0]
    yield "slow ones keep others from the page for five seconds at most", True, time.monotonic() - began < 8 * measure_patience()
    printed = [read_answer(it)[0] for it in slow]
    yield "slow ones are answered", [408] * 36, printed
    for slow_connection in slow:
        slow_connection.close()
    with page.connect() as connection:
        for byte in b"GET / HTTP/1.1\r\n" + b"X: y\r\n" * 9:
            connection.sendall(bytes([byte]))
            if select.select([connection], [], [], 0.2)[0]:
                break
        yield "one that sends byte by byte is ended", 408, read_answer(connection)[0]


def check_idle(page: Page) -> Iterator[Comparison]:
    """Opens many connections of another user, which say nothing, or ask for a file and do not take it."""
    for client, request in (("say nothing", b""), ("take nothing", make_head("GET", "/lw.wasm", {"Host": page.host}))):
        others = [page.connect() for _ in range(160)]
        for connection in others:
            connection.sendall(request)
        began = time.monotonic()
        yield f"a file, while 160 {client}", 200, page.get_file("/")[0]
        yield f"a run, while 160 {client}", {"is_current": True}, page.is_current()
        yield f"and at once, while 160 {client}", True, time.monotonic() - began < measure_patience()
        for connection in others:
            connection.close()


class Copy:
    """A copy of the files of ./page, with a program that misbehaves if its text says so."""

    def __init__(self, folder: str) -> None:
        """Copies the repository into a folder, with stand-ins for rt and for lw."""
        self.home, self.kit, self.room = f"{folder}/home", f"{folder}/kit", folder
        os.makedirs(f"{self.kit}/bin")
        self.write_program(f"{self.kit}/KIT-ID", "a stand-in\n")
        self.write_program(f"{self.kit}/bin/rt", STAND_IN_RT.format(kit=self.kit))
        for name in ("tools", "docs", "web", "examples"):
            shutil.copytree(f"{HOME}/{name}", f"{self.home}/{name}")
        for name in ("crates.txt", "page"):
            shutil.copy(f"{HOME}/{name}", f"{self.home}/{name}")
        os.makedirs(f"{self.home}/crates/lw/out")
        os.makedirs(f"{self.home}/crates/lw/src")
        self.write_program(f"{self.home}/crates/lw/src/main.rt", "// lw\n")
        self.write_program(f"{self.home}/crates/lw/out/lw", STAND_IN.format(room=folder, python=sys.executable))
        self.path = f"{self.kit}/bin:{os.environ['PATH']}"
        list_sources = 'home=$1; . "$home/tools/program/program.sh"; look_at_sources && list_sources >"$made_of"'
        subprocess.run(["sh", "-c", list_sources, "sh", self.home], env={**os.environ, "PATH": self.path}, check=True)

    @staticmethod
    def write_program(path: str, text: str) -> None:
        """Writes a program."""
        with open(path, "w", encoding="utf-8") as file:
            file.write(text)
        os.chmod(path, 0o755)

    def wait_for_processes(self, number: int) -> list[int]:
        """Waits up to ten seconds until the program has noted this number of processes. Returns those that it has noted; none if they are fewer."""
        for _ in range(100):
            with contextlib.suppress(FileNotFoundError), open(f"{self.room}/started", encoding="utf-8") as file:
                processes = [int(line) for line in file.read().split()]
                if len(processes) >= number:
                    return processes
            time.sleep(0.1)
        return []

    def forget_processes(self) -> None:
        """Removes the list of the processes that the program has noted."""
        with contextlib.suppress(FileNotFoundError):
            os.remove(f"{self.room}/started")


def is_alive(process: int) -> bool:
    """Returns whether a process runs. (One that has ended is still seen until its parent, or the system's first process, fetches it.)"""
    try:
        with open(f"/proc/{process}/stat", encoding="utf-8", errors="replace") as file:
            return file.read().rpartition(") ")[2][0] not in "ZX"
    except OSError:
        return False


def wait_until_gone(processes: Sequence[int]) -> bool:
    """Waits for processes to end, for two seconds times `measure_patience()`. Returns whether there are some and all have ended."""
    for _ in range(20 * measure_patience()):
        if processes and not any(map(is_alive, processes)):
            return True
        time.sleep(0.1)
    return False


def check_misbehaving() -> Iterator[Comparison]:
    """Compares what the page says of a program that crashes, hangs, or prints too much."""
    with tempfile.TemporaryDirectory(prefix="lw-page-") as folder:
        copy = Copy(folder)
        page = Page(copy.home, PATH=copy.path)
        try:
            yield from check_crashes(page)
            yield from check_abandoned_run(copy, page)
            yield from check_limits(copy, page)
            yield from check_too_long(copy, page)
            yield from check_stale(copy, page)
        finally:
            yield from check_ends(copy, page)


def check_crashes(page: Page) -> Iterator[Comparison]:
    """Compares the answers on a run that crashes."""
    yield "a run of the stand-in", "Observation A Always 1 0", page.ask_run("SRC A", "states")["printed"].splitlines()[-1]
    yield "a run that crashes is reported", (500, "The program was ended by the system."), page.ask_run("Crashes", "states")
    grown = 500, "The program failed, or needed more memory than it may have (1 GiB)."
    yield "a run that takes too much memory is reported", grown, page.ask_run("Grows", "states")
    yield "a run that prints without end is reported", (500, "The run's answer is too long."), page.ask_run("Talks", "states")
    yield "the server is alive after that", 200, page.get_file("/")[0]


def check_abandoned_run(copy: Copy, page: Page) -> Iterator[Comparison]:
    """Checks that a run is ended if its client closes the connection."""
    copy.forget_processes()
    body = json.dumps({"words": ["states"], "text": "Hangs"}).encode()
    with page.connect() as connection:
        connection.sendall(make_head("POST", "/run", page.make_fields(str(len(body)))) + body)
        started = copy.wait_for_processes(2)
        yield "a run that hangs has begun", 2, len(started)
    yield "a run that its client has left is ended, with all below it", True, wait_until_gone(started)
    yield "the server is alive after a client went away", 200, page.get_file("/")[0]


def check_limits(copy: Copy, page: Page) -> Iterator[Comparison]:
    """Compares the limits that the system sets to a run."""
    copy.forget_processes()
    with ThreadPoolExecutor(1) as pool:
        pool.submit(page.ask_run, "Sleeps", "states")
        started = copy.wait_for_processes(1)
        limits = ["Max address space", "Max cpu time", "Max core file size"]
        yield "the limits of a run", [str(1 << 30), "21", "0"], [read_limit(started[0], it) for it in limits]
        os.kill(started[0], signal.SIGKILL)


def read_limit(process: int, name: str) -> str:
    """Returns a limit of a process, as the system reports it."""
    with open(f"/proc/{process}/limits", encoding="utf-8") as file:
        return require_match(re.search(rf"^{name} +(\S+)", file.read(), re.M))[1]


def check_too_long(copy: Copy, page: Page) -> Iterator[Comparison]:
    """Asks for runs that take too long: four at once, one of which prints nothing more, and others that wait for their turn."""
    copy.forget_processes()
    began = time.monotonic()
    with ThreadPoolExecutor(5) as pool:
        hanging = [pool.submit(page.ask_run, it, "states") for it in ("Hangs", "Hangs", "Hangs", "Whispers")]
        started = copy.wait_for_processes(7)
        answer = page.get_file("/")[0], page.is_current()
        yield "files are there while four runs hang, and whether the program is current", (200, {"is_current": True}), answer
        future = pool.submit(page.post_question, {"words": ["states"], "text": "SRC A"})
        expected = [(504, "The run took longer than 20 seconds, and was ended.")] * 4
        yield "runs that take too long are reported", expected, [it.result() for it in hanging]
        yield "runs are ended after twenty seconds", True, 19 < time.monotonic() - began < 20 + 4 * measure_patience()
        yield "runs that take too long are ended, with all below them", True, wait_until_gone(started)
        yield "one that waited is answered", True, future.result()[0] in (200, 503)


def check_stale(copy: Copy, page: Page) -> Iterator[Comparison]:
    """Compares the answers on a program of other sources."""
    yield "the program is that of the sources", {"is_current": True}, page.is_current()
    copy.write_program(f"{copy.home}/crates/lw/src/main.rt", "// lw, changed\n")
    yield "changed sources are reported", {"is_current": False}, page.is_current()
    os.remove(f"{copy.home}/crates/lw/out/lw")
    yield "a missing program is reported", {"is_current": False}, page.is_current()
    yield "a run of a program that is gone", (500, "The program is gone: start ./page again."), page.ask_run("SRC A", "states")


def check_ends(copy: Copy, page: Page) -> Iterator[Comparison]:
    """Checks that what ends the server ends its runs. (The program was removed: it is put back first.)"""
    Copy.__init__(copy, f"{copy.room}/again")
    ways = [("TERM", signal.SIGTERM, "Hangs", 2), ("QUIT", signal.SIGQUIT, "Hangs", 2), ("HUP", signal.SIGHUP, "Hangs", 2)]
    # Nothing is there to end what a run has started itself, which the program does not.
    ways += [("KILL", signal.SIGKILL, "Sleeps", 1)] if web_runs.list_wrapper_words() else []
    for name, sent, text, number in ways:
        copy.forget_processes()
        again = Page(copy.home, PATH=copy.path)
        with ThreadPoolExecutor(1) as pool:
            pool.submit(again.ask_run, text, "states")
            started = copy.wait_for_processes(number)
            yield f"{name} ends the server, which has written nothing", (-9 if name == "KILL" else 0, ""), again.end_server(sent)
            yield f"{name} ends the runs", True, wait_until_gone(started)
    yield "Ctrl-C ends the server, which has written nothing", (0, ""), page.end_server(signal.SIGINT)


def check_start(page: Page) -> Iterator[Comparison]:
    """Checks the command line, and the ports."""
    run = lambda *words: subprocess.run([f"{HOME}/page", *words], capture_output=True, timeout=60, check=False)
    yield "the line with the address", f"The workbench is at http://127.0.0.1:{page.port}/ (Ctrl-C ends it)\n", page.line
    took = min(measure_first_report() for _ in range(3))
    yield "from ./page to the first report in two seconds, the best of three", True, took < 2 * measure_patience()
    printed = run(str(page.port))
    message = f"page: port {page.port} is in use, or may not be listened on; ./page PORT takes another\n"
    yield "a port that is in use", (1, "", message), (printed.returncode, printed.stdout.decode(), printed.stderr.decode())
    for words in (("0",), ("65536",), ("x",), ("8017", "8018"), ("-x",)):
        yield f"./page {' '.join(words)}", 2, run(*words).returncode
    for address in ("127.0.0.2", find_own_address()):
        with socket.socket() as probe:
            probe.settimeout(2)
            yield f"nobody listens on {address}", True, bool(probe.connect_ex((address, page.port)))


def check_ports() -> Iterator[Comparison]:
    """Checks how many ports ./page may take, and what it says if all are in use."""
    command = importlib.import_module("page.__main__")
    yield "./page may take one of a hundred ports", (8017, 100), (command.PORTS[0], len(command.PORTS))
    with socket.socket() as first, socket.socket() as second, contextlib.redirect_stderr(io.StringIO()) as actual:
        ports = []
        for port in (first, second):
            port.bind(("127.0.0.1", 0))
            port.listen()
            ports.append(port.getsockname()[1])
        listener = command.listen(ports)
    expected = f"page: ports {ports[0]} to {ports[1]} are in use, or may not be listened on; ./page PORT takes another\n"
    yield "where all ports are in use", (None, expected), (listener, actual.getvalue())


def check_no_program() -> Iterator[Comparison]:
    """Checks what tools/picture.py says if there is no program."""
    with tempfile.TemporaryDirectory(prefix="lw-page-") as folder:
        shutil.copytree(f"{HOME}/tools", f"{folder}/tools")
        shutil.copy(f"{HOME}/crates.txt", folder)
        words = [sys.executable, f"{folder}/tools/picture.py", "P0", f"{HOME}/examples/SB-x86.litmus"]
        ran = subprocess.run(words, capture_output=True, text=True, check=False)
    expected = "picture: there is no program of the sources as they are: ./lw builds it\n"
    yield "a picture where there is no program", (1, "", expected), (ran.returncode, ran.stdout, ran.stderr)


def check_port_of_http() -> Iterator[Comparison]:
    """Checks that a server at port 80, which a browser leaves out of `Host` and `Origin`, takes these without a port and refuses another host's. Yields
    nothing if port 80 can't be listened on.
    """
    if not can_listen(80):
        return
    page = Page(port=80)
    try:
        page.host, page.origin = "127.0.0.1", "http://127.0.0.1"
        answers = page.get_file("/")[0], page.is_current(), page.get_file("/", Host="localhost")[0]
        yield "a page at the port of HTTP", (200, {"is_current": True}, 403), answers
    finally:
        page.end_server()


def can_listen(port: int) -> bool:
    """Returns whether a port is free."""
    with socket.socket() as probe:
        probe.setsockopt(socket.SOL_SOCKET, socket.SO_REUSEADDR, 1)
        try:
            probe.bind(("127.0.0.1", port))
            return True
        except OSError:
            return False


def measure_patience() -> int:
    """Returns by what all limits of time are multiplied: 1, or more while other work uses all processors."""
    return 1 if os.getloadavg()[0] < len(os.sched_getaffinity(0)) else 10


def measure_first_report() -> float:
    """Returns the seconds from a ./page to its first report, with four of the files that a browser asks for."""
    began = time.monotonic()
    page = Page()
    try:
        for path in ("/", "/style.css", "/main.js", "/examples.json"):
            page.get_file(path)
        page.ask_run(read_file("examples/SB.litmus"), "states")
        return time.monotonic() - began
    finally:
        page.end_server()


def find_own_address() -> str:
    """Returns an address of this machine in its net, or one on which nobody can listen."""
    with socket.socket(socket.AF_INET, socket.SOCK_DGRAM) as probe:
        with contextlib.suppress(OSError):
            probe.connect(("192.0.2.1", 9))
            return probe.getsockname()[0]
    return "127.0.0.3"


# All of them.

CHECKS = (
    check_start,
    check_requests,
    check_bodies,
    check_words,
    check_files,
    check_sources,
    check_answers,
    check_searches,
    check_pictures,
    check_many,
)


def check_by_client() -> Iterator[Comparison]:
    """Yields all comparisons by a plain client: what is compared, what is expected, and what was found."""
    page = Page()
    try:
        with ThreadPoolExecutor(6) as pool:
            misbehaving = pool.submit(run_twice_if_needed, check_misbehaving)
            for check in CHECKS:
                yield from run_twice_if_needed(check, page)
            for results in pool.map(lambda name: run_twice_if_needed(check_example, page, name), list_examples()):
                yield from results
            yield from run_twice_if_needed(check_slow, page)
            yield from run_twice_if_needed(check_idle, page)
            yield from run_twice_if_needed(check_port_of_http)
            yield from run_twice_if_needed(check_ports)
            yield from run_twice_if_needed(check_no_program)
            yield from misbehaving.result()
        yield name_comparison(("the server is alive after all that", 200, page.get_file("/")[0]))
    finally:
        ended = page.end_server()
    yield name_comparison(("nothing was logged", (0, ""), ended))


def check_by_browser() -> Iterator[Comparison]:
    """Yields all comparisons in a browser, if there is one. CI has to have one."""
    if not user.is_installed():
        if os.environ.get("CI") == "true":
            yield name_comparison(("there is a browser where CI=true", "", describe_skipped()))
        return
    yield from processes.run_checks([partial(run_check, it) for it in (check_browser, check_browser_by_server, check_browser_misbehaving)])


def check_browser() -> Iterator[Comparison]:
    """Yields the comparisons in a browser of a page whose server has the module."""
    yield from try_subjects(Page(), subjects.WITH_SERVER, "in a browser")


def check_browser_by_server() -> Iterator[Comparison]:
    """Tries a page without the module, which asks the server for all."""
    with tempfile.TemporaryDirectory(prefix="lw-page-") as folder:
        make_handed_on_folder(f"{folder}/handed-on")
        yield from try_subjects(Page(f"{folder}/handed-on"), subjects.BY_SERVER, "in a browser without the module")


def check_browser_misbehaving() -> Iterator[Comparison]:
    """Tests in a browser what the page says of a program that misbehaves."""
    with tempfile.TemporaryDirectory(prefix="lw-page-") as folder:
        copy = Copy(folder)
        page = Page(copy.home, PATH=copy.path)
        names = {"copy": copy, "page": page}
        yield from try_subjects(page, [type("Misbehaving", (Misbehaving,), names)], "in a browser over a program that misbehaves")


def try_subjects(page: Page, chosen: Iterable[type[page_case.PageCase]], where: str) -> Iterator[Comparison]:
    """Yields the comparisons of subjects on a page, which ends after them."""
    try:
        yield from page_case.make_comparisons(page.origin + "/", chosen, where)
    finally:
        page.end_server()


def make_handed_on_folder(home: str) -> None:
    """Fills a folder with the files that ./page needs, without sources and without a module."""
    os.makedirs(f"{home}/crates/lw/out")
    for name in ("tools", "docs", "web", "examples"):
        shutil.copytree(f"{HOME}/{name}", f"{home}/{name}")
    for name in ("page", "crates/lw/out/lw"):
        shutil.copy(f"{HOME}/{name}", f"{home}/{name}")


class Misbehaving(page_case.PageCase):
    """A program that misbehaves, and a server that goes away."""

    copy: Copy
    page: Page

    def test_messages(self) -> None:
        """A run that hangs is cancelled; and the page says that the sources have changed, and that its server has ended."""
        user, copy = self.user, self.copy
        user.open()
        user.type("SRC Hangs")
        started = copy.wait_for_processes(2)
        user.click(".asking .cancel")
        self.assertSays("Cancelled.", "#outcome .notice")
        self.assertTrue(wait_until_gone(started))
        user.run_text("SRC A")
        self.assertSays("The condition holds in the only final state.", "#outcome .asked")
        copy.write_program(f"{copy.home}/crates/lw/src/main.rt", "// lw, changed\n")
        user.click("#run-it")
        self.assertSays("The sources have changed, or the program is gone: start ./page again.", "#outcome .notice")
        self.page.end_server()
        user.click("#run-it")
        self.assertSays("The server does not answer. Start ./page again.", "#outcome .notice")
        user.complaints()


def name_comparison(comparison: Comparison) -> Comparison:
    """Returns a comparison whose name begins with `./page`."""
    subject, expected, actual = comparison
    return f"./page: {subject}", expected, actual


def run_twice_if_needed(check: Callable[..., Iterator[Comparison]], *words: object) -> list[Comparison]:
    """Returns the comparisons of a check. Where something differs the check is made once more, since other work on the machine can have held
    it up; what differed is printed."""
    results = list(run_check(check, *words))
    if not any(format_fault(it) for it in results):
        return results
    print("a part of the checks of ./page is run once more, since at first:")
    for line in map(format_fault, results):
        if line:
            print(line, flush=True)
    return list(run_check(check, *words))


def run_check(check: Callable[..., Iterator[Comparison]], *words: object) -> Iterator[Comparison]:
    """Yields the comparisons of a check. One that breaks off has failed."""
    try:
        yield from map(name_comparison, check(*words))
    except Exception:
        yield name_comparison((f"{check.__name__} {words[1:]} comes to its end", "", traceback.format_exc()))


def format_fault(comparison: Comparison) -> str | None:
    """Returns the lines on a comparison that differs, or None."""
    subject, expected, actual = comparison
    return None if expected == actual else f"{subject}\n  wanted: {expected!r}\n  found:  {actual!r}"[:2000]


def describe_skipped() -> str | None:
    """Returns the line that says what was left out, or None if nothing was."""
    if user.is_installed():
        return None
    missing = "chromium, chromium-driver or python3-selenium is missing"
    return f"./page: {page_case.count_tests(subjects.WITH_SERVER)} tests in a browser were skipped: {missing}"


def main() -> int:
    """Runs the command that the arguments describe. Returns the exit status."""
    return close_check((it for compared in (check_by_client(), check_by_browser()) for it in compared), format_fault, describe_skipped)


if __name__ == "__main__":
    sys.exit(command.run_command(main, __doc__))
