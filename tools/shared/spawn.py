"""Runs the program many times in parallel, each run a process of its own that reads its file itself. Little is imported here, so that the
processor time goes to the program.
"""
from __future__ import annotations

import os
from collections import namedtuple

from shared.home import HOME, PROGRAM

TYPE_CHECKING = False
if TYPE_CHECKING:
    from collections.abc import Callable, Sequence

IS_CURRENT = 'home=$1; . "$home/tools/program/program.sh"; use_program "$2"; is_current 2>/dev/null'
# A file's run: what is printed, on either stream, the exit status, and the seconds of processor time.
Run = namedtuple("Run", "file out status seconds")


def can_spawn() -> bool:
    """Returns whether this system starts processes as it is done here."""
    return hasattr(os, "posix_spawn")


def spawn_command(file: str, arguments: list[str]) -> tuple[int, int]:
    """Starts a command with a file as its input. Returns the process, and the end from which the pipe is read that both its streams are written to.
    Raises OSError if it does not start.
    """
    read_end, write_end = os.pipe()
    nothing: dict[str, str] = {}
    streams = [(os.POSIX_SPAWN_OPEN, 0, file, os.O_RDONLY, 0), (os.POSIX_SPAWN_DUP2, write_end, 1), (os.POSIX_SPAWN_DUP2, write_end, 2)]
    try:
        return os.posix_spawn(arguments[0], arguments, nothing, file_actions=streams), read_end
    except OSError:
        os.close(read_end)
        raise
    finally:
        os.close(write_end)


def collect_run(file: str, process: int, printed: list[bytes]) -> Run:
    """Returns the run of a process that has printed everything."""
    _, wait_status, used = os.wait4(process, 0)
    code = os.WEXITSTATUS(wait_status) if os.WIFEXITED(wait_status) else 4
    return Run(file, b"".join(printed).decode(), code, used.ru_utime + used.ru_stime)


def run_all(
    jobs: Sequence[tuple[str, Sequence[str]]], report: Callable[[str], None] = lambda _file: None, program: str = PROGRAM
) -> list[Run]:
    """Returns the runs of all jobs, in their order: a job is a file, and the arguments of a command of the program. A run that does not
    start has no status. Calls `report` with each file whose run has ended.
    """
    import select

    # The runs that are done; and those that run, by the end of their pipe: the index of the job, the process, and what it has printed.
    indices = iter(range(len(jobs)))
    done = [Run(file, "", None, 0.0) for file, _ in jobs]
    poll = select.poll()
    running: dict[int, tuple[int, int, list[bytes]]] = {}

    def start_next() -> None:
        """Starts the next job. One that does not start is done, and the job after it is next."""
        for index in indices:
            file, words = jobs[index]
            try:
                process, end = spawn_command(file, [program, *words])
            except OSError as why:
                done[index] = Run(file, why.strerror or str(why), None, 0.0)
                continue
            running[end] = (index, process, [])
            poll.register(end, select.POLLIN)
            return

    # A run for each processor, and the next one when a pipe ends.
    for _ in range(os.cpu_count() or 1):
        start_next()
    while running:
        for end, _ in poll.poll():
            index, process, printed = running[end]
            part = os.read(end, 65536)
            if part:
                printed.append(part)
                continue
            poll.unregister(end)
            os.close(end)
            del running[end]
            start_next()
            done[index] = collect_run(jobs[index][0], process, printed)
            report(jobs[index][0])
    return done


def is_current(name: str = "lw") -> bool:
    """Returns whether the program of this name exists and is that of the present sources, as ./lw and ./beyond check too."""
    if not can_spawn():
        return False
    try:
        process = os.posix_spawnp("sh", ["sh", "-c", IS_CURRENT, "sh", HOME, name], os.environ)
    except OSError:
        return False
    return os.waitpid(process, 0)[1] == 0
