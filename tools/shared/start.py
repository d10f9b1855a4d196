"""How a command of tools/ starts and ends: each calls `run`, or that of tools/shared/command.py, which reads a command's words.

If nobody reads the output any more, as in `COMMAND | head -1`, the command ends with a status of its own and prints nothing about that. If
the output can't be written, as on a full disk, a line on standard error says so, and the status is 1. Little is imported here, so that
commands start quickly.
"""
from __future__ import annotations

import io
import os
import sys

TYPE_CHECKING = False
if TYPE_CHECKING:
    from collections.abc import Callable
    from typing import Any

# The status that a shell reports for a process that wrote into a closed pipe.
CLOSED = 141


class Unread(BaseException):
    """Nobody reads the output any more. No `except OSError` of a command takes this for a fault of a file."""


class Unwritten(BaseException):
    """The output cannot be written, and why."""


class Output(io.TextIOWrapper):
    """A stream of output whose faults are `Unread` and `Unwritten`."""

    def write(self, text: str) -> int:
        """Writes a text. Raises Unread or Unwritten if it can't."""
        return self.call_guarded(super().write, text)

    def flush(self) -> None:
        """Writes what is buffered. Raises Unread or Unwritten if it can't."""
        return self.call_guarded(super().flush)

    @staticmethod
    def call_guarded(call: Callable, *arguments: str) -> Any:
        """Calls a function that writes. Raises Unread if nobody reads the output, and Unwritten if it cannot be written."""
        try:
            return call(*arguments)
        except BrokenPipeError:
            raise Unread from None
        except OSError as why:
            raise Unwritten(why.strerror or str(why)) from None


def guard_output(stream: Any, mode: int) -> Output:
    """Returns a stream of output as an `Output`. If it was closed when the command started, it is one of the null device, opened in a mode:
    for reading, so that each write fails, or for writing.
    """
    if stream is None:
        return Output(io.BufferedWriter(io.FileIO(os.open(os.devnull, mode), "w")), encoding="utf-8")
    options = {"encoding": stream.encoding, "errors": stream.errors, "line_buffering": stream.line_buffering}
    return Output(stream.detach(), **options)


def drop_output() -> None:
    """Discards all further output, also what the interpreter writes at its end."""
    nowhere = os.open(os.devnull, os.O_WRONLY)
    for stream in (sys.stdout, sys.stderr):
        os.dup2(nowhere, stream.fileno())
    os.close(nowhere)


def find_command_name() -> str:
    """Returns the name of the command that runs, for its messages: that of its file, or of its package."""
    folder, file = os.path.split(sys.argv[0])
    return os.path.basename(folder) if file == "__main__.py" else os.path.splitext(file)[0]


def run(main: Callable[[], int | None]) -> int:
    """Runs the `main` of a command. Returns the exit status."""
    sys.stdout = guard_output(sys.stdout, os.O_RDONLY)
    sys.stderr = guard_output(sys.stderr, os.O_WRONLY)
    try:
        try:
            return main() or 0
        finally:
            sys.stdout.flush()
            sys.stderr.flush()
    except Unread:
        drop_output()
        return CLOSED
    except Unwritten as why:
        try:
            print(f"{find_command_name()}: standard output: {why}", file=sys.stderr, flush=True)
        except (Unread, Unwritten):
            pass
        drop_output()
        return 1
