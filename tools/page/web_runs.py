"""The runs of the proved program that the web page asks for, and of tests on this processor, each a process group of its own, with limits.

At most four run at once, and one on this processor; others wait for their turn. A run has 1 GiB of memory, and is ended after 20 seconds,
when the client goes away, and when the server ends. A server that is killed ends nothing: then the system ends its runs at once if it can
(by setpriv of util-linux), and otherwise when they have used their processor time. A run that crashes is reported, and ends nothing else.
"""
from __future__ import annotations

import contextlib
import json
import os
import resource
import selectors
import shutil
import signal
import socket
import subprocess
import sys
import threading
import time
from typing import Any, NamedTuple

from shared.home import BEYOND, HOME, PROGRAM

IS_CURRENT = ["sh", "-c", 'home=$1; . "$home/tools/program/program.sh"; use_program "$2"; is_current', "sh", HOME]
ON_MACHINE = os.path.join(HOME, "tools", "on_machine.py")
MAX_RUNS = 4
MAX_SECONDS = 20
MAX_MEMORY_BYTES = 1 << 30
MAX_ANSWER_BYTES = 64 << 20
# The limits of each run. The clock ends it first, as long as the server lives.
LIMITS = {resource.RLIMIT_AS: MAX_MEMORY_BYTES, resource.RLIMIT_CPU: MAX_SECONDS + 1, resource.RLIMIT_CORE: 0}
# Words that have the system end a process when its server ends.
WITH_SERVER = ["setpriv", "--pdeathsig", "KILL"]
PAUSE = 0.1


class EndedRun(NamedTuple):
    """A process that has ended: its status, which is negative if a signal ended it, and what it printed on both streams."""

    status: int
    printed: bytes
    complaint: bytes


class NoRun(Exception):
    """A run gave no answer: the status of HTTP, and why."""


class Gone(Exception):
    """The client went away."""


class Runs:
    """All present runs."""

    def __init__(self) -> None:
        """Starts with no run."""
        self.places = threading.BoundedSemaphore(MAX_RUNS)
        # Whether the program is current is asked with each question, and waits for no run.
        self.place_of_current = threading.BoundedSemaphore(1)
        # Runs on this processor disturb each other.
        self.place_of_machine = threading.BoundedSemaphore(1)
        self.lock = threading.Lock()
        self.running: set[subprocess.Popen] = set()
        self.is_over = False
        self.front = list_wrapper_words()

    def is_current(self, connection: socket.socket, name: str = "lw") -> bool:
        """Returns whether a program is that of the sources as they are."""
        return self.run_process([*IS_CURRENT, name], b"", connection, self.place_of_current).status == 0

    def run_program(self, arguments: list[str], text: bytes, connection: socket.socket) -> dict[str, object]:
        """Returns the program's answer to the words of a command and a text: its exit status, its output, and the line of a fault. Raises
        NoRun if the program fails or is ended.
        """
        program = PROGRAM
        if arguments[0] == "--budget":
            program = BEYOND
            if not self.is_current(connection, "beyond"):
                raise NoRun(500, "The program for tests of any size is not built of the sources as they are: run ./beyond once.")
        elif not os.access(PROGRAM, os.X_OK):
            raise NoRun(500, "The program is gone: start ./page again.")
        status, printed, complaint = self.run_process([program, *arguments], text, connection, self.places)
        if status < 0:
            raise NoRun(500, "The program was ended by the system.")
        if complaint and not complaint.startswith((b"lw: ", b"beyond: ")):
            raise NoRun(500, "The program failed, or needed more memory than it may have (1 GiB).")
        fault = complaint.decode("utf-8", "replace").rstrip("\n") or None
        return {"status": status, "printed": printed.decode("utf-8", "replace"), "fault": fault}

    def run_on_machine(self, text: bytes, seconds: int, connection: socket.socket) -> dict[str, Any]:
        """Returns the output of tools/on_machine.py on a text's test after some seconds, or why it runs nothing. Raises NoRun if the tool fails."""
        words = [sys.executable, ON_MACHINE, "--seconds", str(seconds), "--json", "-"]
        status, printed, complaint = self.run_process(words, text, connection, self.place_of_machine)
        try:
            return json.loads(printed.decode("utf-8"))
        except ValueError:
            why = complaint.decode("utf-8", "replace").rstrip("\n").rpartition("\n")[2] or f"it ended with status {status}"
            raise NoRun(500, f"The test was not run on this machine: {why}") from None

    def run_process(self, arguments: list[str], text: bytes, connection: socket.socket, places: threading.BoundedSemaphore) -> EndedRun:
        """Runs a command on a text, once there is a place for it. Raises Gone if the connection is closed meanwhile, and NoRun if there is no place
        in time, or the run takes too long or prints too much.
        """
        wait_for_place(places, connection)
        try:
            process = self.start_process(arguments)
            try:
                limit_process(process)
                return Communication(process, connection).communicate(text)
            finally:
                self.end_process(process)
        finally:
            places.release()

    def start_process(self, arguments: list[str]) -> subprocess.Popen:
        """Starts a command in a process group of its own. Raises Gone once the server ends."""
        pipe = subprocess.PIPE
        options: dict[str, Any] = {"stdin": pipe, "stdout": pipe, "stderr": pipe, "start_new_session": True, "cwd": "/"}
        with self.lock:
            if self.is_over:
                raise Gone
            process = subprocess.Popen([*self.front, *arguments], env={"PATH": os.environ.get("PATH", os.defpath)}, **options)
            self.running.add(process)
        return process

    def end_process(self, process: subprocess.Popen) -> None:
        """Ends all that a run has started."""
        with contextlib.suppress(ProcessLookupError):
            os.killpg(process.pid, signal.SIGKILL)
        for stream in filter(None, (process.stdin, process.stdout, process.stderr)):
            stream.close()
        process.wait()
        with self.lock:
            self.running.discard(process)

    def end_all(self) -> None:
        """Ends all runs, and allows no further ones."""
        with self.lock:
            self.is_over = True
            for process in self.running:
                with contextlib.suppress(ProcessLookupError):
                    os.killpg(process.pid, signal.SIGKILL)


def wait_for_place(places: threading.BoundedSemaphore, connection: socket.socket) -> None:
    """Waits for a place, while the client is there. Raises NoRun if that takes too long."""
    until = time.monotonic() + MAX_SECONDS
    while not places.acquire(timeout=PAUSE):
        if time.monotonic() > until:
            raise NoRun(503, "Four runs are going on, which is as many as may. Try again in a while.")
        check_connection(connection)


def list_wrapper_words() -> list[str]:
    """Returns WITH_SERVER if the system has that command, and otherwise no words."""
    if not shutil.which(WITH_SERVER[0]):
        return []
    tried = subprocess.run([*WITH_SERVER, "true"], stdin=subprocess.DEVNULL, capture_output=True, check=False)
    return WITH_SERVER if tried.returncode == 0 else []


def limit_process(process: subprocess.Popen) -> None:
    """Limits a process that has begun, and still waits for its text."""
    for kind, maximum in LIMITS.items():
        allowed = resource.prlimit(process.pid, kind)[1]
        maximum = maximum if allowed == resource.RLIM_INFINITY else min(maximum, allowed)
        resource.prlimit(process.pid, kind, (maximum, maximum))


def check_connection(connection: socket.socket) -> None:
    """Raises Gone if the client has gone away, or sends more than its one request."""
    with selectors.DefaultSelector() as ready:
        ready.register(connection, selectors.EVENT_READ)
        if ready.select(0):
            raise Gone


class Communication:
    """The communication with a run, which also watches the client and the clock."""

    def __init__(self, process: subprocess.Popen, connection: socket.socket) -> None:
        """Prepares to wait for the process and for the client at the same time."""
        self.process, self.until = process, time.monotonic() + MAX_SECONDS
        assert process.stdin and process.stdout and process.stderr  # `Runs.start` makes pipes of all three
        self.input = process.stdin
        self.heard = {process.stdout: bytearray(), process.stderr: bytearray()}
        self.ready = selectors.DefaultSelector()
        self.ready.register(connection, selectors.EVENT_READ)
        self.ready.register(self.input, selectors.EVENT_WRITE)
        for stream in self.heard:
            self.ready.register(stream, selectors.EVENT_READ)
        os.set_blocking(self.input.fileno(), False)

    def communicate(self, text: bytes) -> EndedRun:
        """Gives the text to the process, and returns its status and what it prints, to the end of both streams. Raises Gone if the client has gone or
        says more, and NoRun if the time is over or the answer too long.
        """
        open_streams = len(self.heard)
        with self.ready:
            while open_streams:
                for key, _ in self.wait_for_streams():
                    if key.fileobj is self.input:
                        text = self.write_part(text)
                    elif key.fileobj not in self.heard:
                        raise Gone
                    elif not self.read_part(key.fileobj):
                        open_streams -= 1
        return EndedRun(self.wait_for_status(), *map(bytes, self.heard.values()))

    def wait_for_streams(self) -> list[tuple[selectors.SelectorKey, int]]:
        """Returns which streams are ready. Raises NoRun if the time is over."""
        remaining_seconds = self.until - time.monotonic()
        ready_streams = self.ready.select(remaining_seconds) if remaining_seconds > 0 else []
        if not ready_streams and time.monotonic() >= self.until:
            raise make_too_long()
        return ready_streams

    def write_part(self, text: bytes) -> bytes:
        """Writes a part of a text to the process. Returns the rest."""
        try:
            text = text[os.write(self.input.fileno(), text) :]
        except BlockingIOError:
            return text
        except BrokenPipeError:
            text = b""
        if not text:
            self.ready.unregister(self.input)
            self.input.close()
        return text

    def read_part(self, stream: Any) -> bool:
        """Reads what a stream has. Returns whether there may be more. Raises NoRun if it has printed too much."""
        data = os.read(stream.fileno(), 1 << 16)
        self.heard[stream] += data
        if len(self.heard[stream]) > MAX_ANSWER_BYTES:
            raise NoRun(500, "The run's answer is too long.")
        if not data:
            self.ready.unregister(stream)
        return bool(data)

    def wait_for_status(self) -> int:
        """Returns the exit status of a process that prints nothing more. Raises NoRun if it does not end in time."""
        try:
            return self.process.wait(max(self.until - time.monotonic(), 0))
        except subprocess.TimeoutExpired:
            raise make_too_long() from None


def make_too_long() -> NoRun:
    """Returns the exception for a run that took too long."""
    return NoRun(504, f"The run took longer than {MAX_SECONDS} seconds, and was ended.")
