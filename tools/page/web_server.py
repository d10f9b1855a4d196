"""The server of the web page, for this machine's own user: what it takes and what it refuses.

It listens only on 127.0.0.1. Every request names this address as its Host, so that no other name can lead to it: not another site's,
and not localhost, at which another user may listen by IPv6. GET gives the files of a fixed table, and runs nothing. POST /run hands the
words of a command of lw, or of a list of beyond, and a text to the program, and what that prints back; POST /machine runs the test of a text on
this processor for some seconds, as tools/on_machine.py does; POST /current says whether the program is that of the sources as they are. All
three are only for the page itself: Origin says so, which a browser sets and no other site can. Each connection has one request,
of known size, in known time. If there are too many connections, those that have been idle longest are cut, and some
places are never taken by runs. The server reads neither questions nor answers, stores nothing, and logs nothing.
"""
from __future__ import annotations

import json
import re
import socket
import threading
import time
from collections.abc import Mapping
from typing import Any, NoReturn

from c.source import is_herd_form
from page.web_files import Files
from page.web_runs import Gone, NoRun, Runs

MAX_CONNECTIONS = 96
MAX_POSTS = 32
MAX_SECONDS = 5
MAX_ANSWER_SECONDS = 20
# A browser sends the cookies of all applications at this address, whatever their port.
MAX_HEAD_BYTES = 1 << 20
MAX_BODY_BYTES = 512 << 10
MAX_SCHEDULE_BYTES = 16 << 10
# The number of bytes that are read and discarded after a refusal, so that it reaches a client that is still sending.
MAX_DISCARDED = 4 << 20
REASONS = {
    200: "OK",
    400: "Bad Request",
    403: "Forbidden",
    404: "Not Found",
    405: "Method Not Allowed",
    408: "Request Timeout",
    411: "Length Required",
    413: "Content Too Large",
    415: "Unsupported Media Type",
    431: "Request Header Fields Too Large",
    500: "Internal Server Error",
    503: "Service Unavailable",
    504: "Gateway Timeout",
}
# The fields of a request that are read.
USED = ("host", "origin", "content-type", "content-length", "transfer-encoding")
# `wasm-unsafe-eval` lets the page compile its WebAssembly module, and no text.
HEADERS = {
    "X-Content-Type-Options": "nosniff",
    "Cache-Control": "no-store",
    "Referrer-Policy": "no-referrer",
    "Cross-Origin-Resource-Policy": "same-origin",
    "Cross-Origin-Opener-Policy": "same-origin",
    "Content-Security-Policy": (
        "default-src 'none'; script-src 'self' 'wasm-unsafe-eval'; style-src 'self'; img-src 'self'; connect-src 'self'; "
        "worker-src 'self'; base-uri 'none'; form-action 'none'; frame-ancestors 'none'"
    ),
    "Connection": "close",
}
COMMANDS = (["states"], ["schedules"], ["compile"])
# The lists of the program beyond, and its option for the most states that it may visit.
LISTS = ("states", "schedules")
BUDGET = "--budget"
MAX_BUDGET = 10_000_000
PROTOCOLS = ("mesi", "moesi")
# The keys of a body, each with the type of its value.
SHAPE = {"words": list, "text": str}
SHAPE_ON_MACHINE = {"text": str, "seconds": int}
MAX_MACHINE_SECONDS = 10


class Refusal(Exception):
    """A request is refused: the status of HTTP, and why."""


# Requests.


class Head:
    """The first lines of a request: the method, the path, and the fields that are used. The values of others are not read."""

    def __init__(self, text: str) -> None:
        """Parses the head of a request. Raises Refusal if it is none, or has a field that is none."""
        first, *lines = text.split("\r\n")
        words = re.fullmatch(r"([A-Z]+) ([!-~]+) HTTP/1\.[01]", first)
        matches = [re.match(r"([!#$%&'*+.^_`|~0-9A-Za-z-]+):", line) for line in lines]
        named = [it for it in matches if it]
        if not words or len(named) < len(lines):
            raise Refusal(400, "This is no request of HTTP/1.1.")
        self.method, self.path = words.groups()
        self.fields = [(it[1].lower(), line[it.end() :].strip(" \t")) for it, line in zip(named, lines) if it[1].lower() in USED]
        if not all(re.fullmatch(r"[\t -~]*", value) for _, value in self.fields):
            raise Refusal(400, "A field of the request has what it can't have.")

    def find_single_field(self, name: str) -> str | None:
        """Returns the value of a field that appears once. `None` if it does not appear, or more often."""
        values = [value for it, value in self.fields if it == name]
        return values[0] if len(values) == 1 else None

    def has_field(self, name: str) -> bool:
        """Returns whether a field appears."""
        return any(it == name for it, _ in self.fields)


def check_head(head: Head, port: int) -> None:
    """Raises Refusal for a request to another server, of another method than GET and POST, or with a body of unknown size."""
    # Of the port of HTTP a browser says nothing.
    if head.find_single_field("host") not in (f"127.0.0.1:{port}", *(["127.0.0.1"] if port == 80 else [])):
        raise Refusal(403, f"The page is only at http://127.0.0.1:{port}/.")
    if head.method not in ("GET", "POST"):
        raise Refusal(405, "Only GET and POST are possible.")
    if head.has_field("transfer-encoding"):
        raise Refusal(400, "A body has to come with its length.")
    if head.method == "GET" and head.has_field("content-length") and head.find_single_field("content-length") != "0":
        raise Refusal(400, "GET has no body.")


def check_post(head: Head) -> int:
    """Returns the length of a request's body. Raises Refusal if the request is no question of the page itself."""
    if head.find_single_field("origin") != f"http://{head.find_single_field('host')}":
        raise Refusal(403, "Only the page itself may ask for runs.")
    if head.path not in ("/run", "/machine", "/current"):
        raise Refusal(404, "There is no such question.")
    if not re.fullmatch(r"application/json(; ?charset=utf-8)?", head.find_single_field("content-type") or "", re.I):
        raise Refusal(415, "The body has to be JSON.")
    if not head.has_field("content-length"):
        raise Refusal(411, "The length of the body is missing.")
    length = head.find_single_field("content-length")
    if not length or not re.fullmatch(r"[0-9]{1,9}", length):
        raise Refusal(400, "The length of the body is not one number.")
    if int(length) > MAX_BODY_BYTES:
        raise Refusal(413, f"The body has more than {MAX_BODY_BYTES} bytes.")
    return int(length)


def parse_object(body: bytes, shape: Mapping[str, type]) -> dict[str, Any]:
    """Returns the object that a body says, with these keys, each of its type. Raises Refusal if it is another."""
    try:
        value = json.loads(body.decode(), object_pairs_hook=make_object, parse_constant=refuse_number)
    except (ValueError, RecursionError):
        raise Refusal(400, "The body is no JSON of the kind that is wanted.") from None
    if not isinstance(value, dict) or {key: type(kind) for key, kind in value.items()} != shape:
        raise Refusal(400, f"The body has not exactly the keys {list(shape)}, each of its type.")
    return value


def parse_run(body: bytes) -> tuple[list[str], bytes]:
    """Returns the words of a command and the bytes of a text that a body says. Raises Refusal if they are no command."""
    fields = parse_object(body, SHAPE)
    if not are_words(fields["words"]):
        raise Refusal(400, "The words are no command of lw, or the schedule is too long.")
    return fields["words"], encode_text(fields["text"])


def parse_machine_run(body: bytes) -> tuple[bytes, int]:
    """Returns the bytes of a text, and for how many seconds its test is run on this machine, that a body says. Raises Refusal for another number of
    seconds, and for a test in herd's form of C, which would be compiled.
    """
    fields = parse_object(body, SHAPE_ON_MACHINE)
    if not 1 <= fields["seconds"] <= MAX_MACHINE_SECONDS:
        raise Refusal(400, f"A run on this machine takes from 1 to {MAX_MACHINE_SECONDS} seconds.")
    if is_herd_form(fields["text"]):
        raise Refusal(400, "A test in C is run by tools/on_machine.py only: a compiler would read the files that the test includes.")
    return encode_text(fields["text"]), fields["seconds"]


def are_words(words: list[object]) -> bool:
    """Returns whether words are a command of lw, or a list of beyond within a budget."""
    if words in COMMANDS:
        return True
    if len(words) == 3 and words[0] == BUDGET:
        return is_budget(words[1]) and words[2] in LISTS
    if len(words) == 4 and words[2] == "--protocol" and words[3] in PROTOCOLS:
        words = words[:2]
    return len(words) == 2 and words[0] == "replay" and type(words[1]) is str and is_schedule(words[1])


def is_budget(word: object) -> bool:
    """Returns whether a word is a budget that a run may have."""
    return type(word) is str and re.fullmatch(r"[0-9]{1,8}", word) is not None and int(word) <= MAX_BUDGET


def is_schedule(word: str) -> bool:
    """Returns whether a word can be handed to a program as a schedule."""
    return "\0" not in word and len(encode_text(word)) <= MAX_SCHEDULE_BYTES


def encode_text(text: str) -> bytes:
    """Returns the bytes of a text. Raises Refusal if it has half of a pair of surrogates."""
    try:
        return text.encode()
    except UnicodeEncodeError:
        raise Refusal(400, "The body has half of a pair of surrogates.") from None


def make_object(pairs: list[tuple[str, object]]) -> dict[str, object]:
    """Returns an object of JSON, by its pairs of a key and a value. Raises ValueError if two keys are the same."""
    if len(dict(pairs)) != len(pairs):
        raise ValueError("a key is there twice")
    return dict(pairs)


def refuse_number(word: str) -> NoReturn:
    """Raises ValueError for `NaN` and the like, which Python's reader of JSON takes for numbers."""
    raise ValueError(word)


# Connections.


class Reader:
    """Reads from a connection, up to a point in time."""

    def __init__(self, connection: socket.socket) -> None:
        """Starts to read from a connection, for MAX_SECONDS seconds."""
        self.connection, self.until, self.read = connection, time.monotonic() + MAX_SECONDS, b""

    def read_more(self) -> None:
        """Reads some more bytes. Raises Refusal if the request takes too long or ends too early."""
        remaining_seconds = self.until - time.monotonic()
        if remaining_seconds <= 0:
            raise Refusal(408, f"The request took longer than {MAX_SECONDS} seconds.")
        self.connection.settimeout(remaining_seconds)
        try:
            data = self.connection.recv(1 << 16)
        except socket.timeout:
            raise Refusal(408, f"The request took longer than {MAX_SECONDS} seconds.") from None
        if not data:
            raise Refusal(400, "The request ends too early.") if self.read else Gone()
        self.read += data

    def read_head(self) -> Head:
        """Reads the head of the request. Raises Refusal if it is too long."""
        while b"\r\n\r\n" not in self.read[: MAX_HEAD_BYTES + 4]:
            if len(self.read) > MAX_HEAD_BYTES:
                raise Refusal(431, f"The head of the request has more than {MAX_HEAD_BYTES} bytes.")
            self.read_more()
        head, _, self.read = self.read.partition(b"\r\n\r\n")
        return Head(head.decode("latin-1"))

    def read_body(self, length: int) -> bytes:
        """Reads the body, of a known length, after which nothing may follow. Raises Refusal if something does."""
        while len(self.read) < length:
            self.read_more()
        if len(self.read) > length:
            raise Refusal(400, "There is one request on a connection.")
        return self.read


class Places:
    """The connections: those that still ask, those with a place for a run, and those to which the server sends, the oldest first."""

    def __init__(self) -> None:
        """Starts with no connection."""
        self.lock = threading.Lock()
        self.asking: dict[socket.socket, None] = {}
        self.running: dict[socket.socket, None] = {}
        self.sending: dict[socket.socket, None] = {}

    def add_connection(self, connection: socket.socket) -> None:
        """Adds a connection. If there are too many, it cuts off the one that has asked for longest, or otherwise the oldest to which it sends."""
        with self.lock:
            while len(self.asking) + len(self.running) + len(self.sending) >= MAX_CONNECTIONS:
                among = self.asking or self.sending
                oldest = next(iter(among))
                del among[oldest]
                cut_connection(oldest)
            self.asking[connection] = None

    def promise_run(self, connection: socket.socket) -> None:
        """Promises a run to a connection. Raises NoRun if too many are promised, and Gone if the connection was cut off."""
        with self.lock:
            if len(self.running) >= MAX_POSTS:
                raise NoRun(503, "Too many runs are asked for. Try again in a while.")
            self.move_connection(connection, self.running)

    def promise_answer(self, connection: socket.socket) -> None:
        """Notes that an answer is sent to a connection."""
        with self.lock:
            self.move_connection(connection, self.sending)

    def move_connection(self, connection: socket.socket, group: dict[socket.socket, None]) -> None:
        """Moves a connection to another group. Raises Gone if it was cut off."""
        if connection not in self.asking and connection not in self.running:
            raise Gone
        self.asking.pop(connection, None)
        self.running.pop(connection, None)
        group[connection] = None

    def remove_connection(self, connection: socket.socket) -> None:
        """Forgets a connection."""
        with self.lock:
            for among in (self.asking, self.running, self.sending):
                among.pop(connection, None)


def cut_connection(connection: socket.socket) -> None:
    """Ends a connection, which its thread then finds ended."""
    try:
        connection.shutdown(socket.SHUT_RDWR)
    except OSError:
        pass


class Server:
    """Answers each connection in a thread of its own."""

    def __init__(self, listening: socket.socket, files: Files, runs: Runs) -> None:
        """Makes a server of a socket that listens. `files` are what it sends, by path."""
        self.listening, self.files, self.runs = listening, files, runs
        self.port = listening.getsockname()[1]
        self.places = Places()

    def serve(self) -> NoReturn:
        """Accepts connections for ever."""
        while True:
            try:
                connection = self.listening.accept()[0]
            except OSError:
                # No connection, or no more files for a while.
                time.sleep(0.05)
                continue
            self.places.add_connection(connection)
            try:
                threading.Thread(target=self.answer_connection, args=(connection,), daemon=True).start()
            except RuntimeError:
                # No more threads for a while.
                self.places.remove_connection(connection)
                connection.close()

    def answer_connection(self, connection: socket.socket) -> None:
        """Answers the request of a connection, and ends it."""
        try:
            with connection:
                answer = self.make_answer(connection)
                self.places.promise_answer(connection)
                send_answer(connection, *answer)
                close_connection(connection)
        except (OSError, Gone):
            pass
        finally:
            self.places.remove_connection(connection)

    def make_answer(self, connection: socket.socket) -> tuple[int, str, bytes]:
        """Returns the status, the type of the content, and its bytes."""
        try:
            reader = Reader(connection)
            head = reader.read_head()
            check_head(head, self.port)
            if head.method == "GET":
                return self.find_file(head.path)
            body = reader.read_body(check_post(head))
            self.places.promise_run(connection)
            return 200, "application/json", json.dumps(self.answer_post(head.path, body, connection)).encode()
        except (Refusal, NoRun) as why:
            return why.args[0], "application/json", json.dumps({"error": why.args[1]}).encode()

    def answer_post(self, path: str, body: bytes, connection: socket.socket) -> dict[str, Any]:
        """Returns the answer to a question of the page, as an object."""
        if path == "/current":
            parse_object(body, {})
            return {"is_current": self.runs.is_current(connection)}
        if path == "/machine":
            return self.runs.run_on_machine(*parse_machine_run(body), connection)
        return self.runs.run_program(*parse_run(body), connection)

    def find_file(self, path: str) -> tuple[int, str, bytes]:
        """Returns the status, the type and the bytes of the file at the path of a request, which may have a query. Raises Refusal if there is none."""
        name = path.partition("?")[0]
        if name not in self.files:
            raise Refusal(404, "There is no such file.")
        return (200, *self.files[name])


def send_answer(connection: socket.socket, status: int, kind: str, content: bytes) -> None:
    """Sends an answer."""
    fields = {**HEADERS, "Content-Type": kind, "Content-Length": len(content)}
    head = f"HTTP/1.1 {status} {REASONS[status]}\r\n" + "".join(f"{it}: {value}\r\n" for it, value in fields.items())
    connection.settimeout(MAX_ANSWER_SECONDS)
    connection.sendall(head.encode() + b"\r\n" + content)


def close_connection(connection: socket.socket) -> None:
    """Ends a connection so that the answer arrives, also at a client that is still sending."""
    connection.shutdown(socket.SHUT_WR)
    until, remaining_bytes = time.monotonic() + 1, MAX_DISCARDED
    while remaining_bytes > 0 and time.monotonic() < until:
        connection.settimeout(max(until - time.monotonic(), 0.01))
        data = connection.recv(1 << 16)
        if not data:
            return
        remaining_bytes -= len(data)
