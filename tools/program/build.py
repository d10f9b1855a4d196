"""Proves and builds a program of the sources beside it, for ./lw and ./beyond.

    python3 tools program.build [--program NAME]
    python3 tools program.build [--program NAME] --first-answer WORD..

The program is lw if none is named. Only crates on which it depends are proved.

Each crate begins as soon as those that it depends on are proved, on all processors. Standard error shows how long this takes and how
far it is: bounds in minutes, by those of each crate in tools/program/minutes.txt, and by what the proved crates have taken here. Ctrl-C
ends all that was started; what is proved stays proved, and the next build continues from there. If two are called at once, the second waits,
whichever program it builds.

With --first-answer there is an answer before the proof: `rt try` compiles the program unproved, in about a minute, and standard error shows
its answer to the words and to standard input, as unproved. Standard output gets only the proved program's bytes, after the proof, and
a line says so if the two differ. The exit status is then that of the proved program.

A build that fails ends with status 5, and nothing goes to standard output.
"""
from __future__ import annotations

import argparse
import contextlib
import fcntl
import os
import re
import shutil
import signal
import subprocess
import sys
import tempfile
import threading
import time
from collections.abc import Callable
from typing import Any, NoReturn

from program.estimate import Bounds, Estimate, Plan, Running
from program.minutes import read_proof_minutes
from shared import command, start
from shared.home import HOME

# Builds of all programs share their crates, so they share these too.
LOCK = f"{HOME}/crates/lw/out/lock"
COPIES = f"{HOME}/crates/lw/out/build"
PARTS = ("src", "specs", "proofs")
MAX_INPUT_BYTES = 65537
FAILED = 5
SIGNALS = (signal.SIGINT, signal.SIGTERM, signal.SIGHUP)


class Failed(Exception):
    """Why a build failed."""


class Program:
    """A program of the repository: its name, which is that of its crate, its path, and the file that says of which sources it is."""

    def __init__(self, name: str) -> None:
        """Finds the files of a program."""
        self.name = name
        self.crate = f"{HOME}/crates/{name}"
        self.path = f"{self.crate}/out/{name}"
        self.made_of = f"{self.crate}/out/made-of"

    def report(self, text: str) -> None:
        """Prints a line on standard error, over the progress on a terminal."""
        print(f"{make_clear_sequence()}{self.name}: {text}", file=sys.stderr, flush=True)


LW = Program("lw")
BEYOND = Program("beyond")


def make_clear_sequence() -> str:
    """Returns the characters that clear the line of progress on a terminal."""
    return "\r\033[K" if sys.stderr.isatty() else ""


def ask_program_sh(command: str, program: Program = LW) -> bytes | None:
    """Returns the output of a command over the functions of tools/program/program.sh, or `None` if it fails."""
    words = ["sh", "-c", f'home=$1; . "$home/tools/program/program.sh"; use_program {program.name}; {command}', "sh", HOME]
    ran = subprocess.run(words, stdout=subprocess.PIPE, check=False)
    return None if ran.returncode else ran.stdout


class Crate:
    """A crate of the program: the crates on which it depends directly (`below`), and its minutes of proof by tools/program/minutes.txt."""

    def __init__(self, name: str, below: list[Crate], minutes: float) -> None:
        """Makes a crate of its name, of those on which it depends, and of its minutes."""
        self.name, self.below, self.minutes = name, below, minutes
        self.folder = f"{HOME}/crates/{name}"
        self.log = f"{self.folder}/out/log"

    def list_dependencies(self) -> list[Crate]:
        """Returns the crates on which this one depends, directly or not, lowest first."""
        lower = []
        for crate in self.below:
            lower += [added for added in [*crate.list_dependencies(), crate] if added not in lower]
        return lower

    def find_newest_change(self) -> float:
        """Returns when the crate was last changed, or one on which it depends."""
        paths = [f"{folder}/{name}" for part in PARTS for folder, _, names in os.walk(f"{self.folder}/{part}") for name in names]
        return max([os.path.getctime(it) for it in paths] + [it.find_newest_change() for it in self.below])

    def seems_built(self) -> bool:
        """Returns whether its library is younger than its sources; a guess, for how long the build takes."""
        with contextlib.suppress(OSError):
            return os.path.getmtime(f"{self.folder}/out/rlib/stamp") > self.find_newest_change()
        return False

    def count_functions(self) -> tuple[int, int]:
        """Returns the number of its functions that the log reports as checked, and the number of all; 0 and 0 if the log says nothing."""
        with contextlib.suppress(OSError), open(self.log, errors="replace", encoding="utf-8") as file:
            counts = re.findall(r"(\d+) of (\d+) functions", file.read())
            if counts:
                return int(counts[-1][0]), int(counts[-1][1])
        return 0, 0

    def measure_share_done(self) -> float:
        """Returns the share of its functions that are checked."""
        done, number = self.count_functions()
        return done / max(number, 1)


def list_crates(program: Program = LW) -> list[Crate]:
    """Returns the crates of a program, lowest first."""
    with open(f"{HOME}/crates.txt", encoding="utf-8") as file:
        libraries_by_crate = dict(re.findall(r"^(\w+):(.*)$", file.read(), re.M))
    minutes = read_proof_minutes()
    crates = {}

    def find_crate(name: str) -> Crate:
        """Returns the crate of a name, which is made at the first call, with those on which it depends."""
        if name not in crates:
            below = [find_crate(lower) for lower in libraries_by_crate[name].split() if lower in libraries_by_crate]
            crates[name] = Crate(name, below, minutes.get(name, 0))
        return crates[name]

    find_crate(program.name)
    return list(crates.values())


class Build:
    """A build of crates: those that run, those that are proved, and how long it has taken."""

    def __init__(self, program: Program, crates: list[Crate]) -> None:
        """Plans a build."""
        self.program = program
        self.left = list(crates)
        self.proved: list[Crate] = []
        self.running: dict[Crate, subprocess.Popen] = {}
        self.jobs: dict[Crate, int] = {}
        self.number = len(crates)
        self.processors = len(os.sched_getaffinity(0))
        self.began = time.monotonic()
        self.weight = {it: 0 if it.seems_built() else it.minutes for it in crates}
        self.plan = Plan({it: it.below for it in crates}, self.weight, self.processors)
        self.estimate = Estimate(self.plan, list(crates))

    def estimate_minutes(self) -> Bounds:
        """Returns the bounds of the minutes to go."""
        running = {it: Running(1 - it.measure_share_done(), self.jobs[it]) for it in self.running}
        return self.estimate.find_bounds(self.left, running, (time.monotonic() - self.began) / 60)

    def start_ready(self) -> None:
        """Starts the crates whose dependencies are proved."""
        for crate, jobs in self.plan.choose_next_jobs(self.left, list(self.running)).items():
            self.left.remove(crate)
            self.jobs[crate] = jobs
            self.running[crate] = start_build(crate, jobs, crate.name == self.program.name)

    def end_ended(self) -> None:
        """Ends the crates whose processes have ended. Raises Failed if one of them is not proved."""
        for crate, process in list(self.running.items()):
            if process.poll() is not None:
                del self.running[crate]
                finish_crate(crate)
                # The exit status of the program itself says nothing about its build.
                if process.returncode and not (crate.name == self.program.name and os.path.exists(self.program.path)):
                    with open(crate.log, errors="replace", encoding="utf-8") as file:
                        print(make_clear_sequence() + "".join(file.readlines()[-20:]), end="", file=sys.stderr)
                    raise Failed(f"the build failed at {crate.name}")
                self.proved.append(crate)
                to_go = f", {self.estimate_minutes()} to go" if self.left or self.running else ""
                self.program.report(f"{crate.name} is proved ({len(self.proved)} of {self.number}){to_go}")

    def show_progress(self) -> None:
        """Shows on a terminal how far the build is, and how long it has taken."""
        total = sum(self.weight.values()) or 1
        running = sum(self.weight[it] * it.measure_share_done() for it in self.running)
        done = (sum(self.weight[it] for it in self.proved) + running) / total
        functions = sum(it.count_functions()[1] for it in self.proved if self.weight[it]) + sum(it.count_functions()[0] for it in self.running)
        seconds = int(time.monotonic() - self.began)
        names = ", ".join(it.name for it in self.running)
        progress = f"{functions} functions proved, {done:.0%}; {seconds // 60}:{seconds % 60:02} gone, {self.estimate_minutes()} to go: {names}"
        print(f"{make_clear_sequence()}{self.program.name}: {progress}", end="", file=sys.stderr, flush=True)

    def build_all(self, at_each_turn: Callable[[], None]) -> None:
        """Builds all crates. Calls a function several times each second meanwhile."""
        try:
            while self.left or self.running:
                self.start_ready()
                if sys.stderr.isatty():
                    self.show_progress()
                time.sleep(0.2)
                at_each_turn()
                self.end_ended()
        finally:
            for process in self.running.values():
                stop_process(process)
            for crate in self.running:
                finish_crate(crate)


def start_build(crate: Crate, jobs: int, is_program: bool) -> subprocess.Popen:
    """Starts the build of a crate. Two processes of rt that depend on the same crate wait for each other, so each library has its own
    copies of those below it, with what is built of them. A program, run without arguments, only prints its usage line.
    """
    os.makedirs(f"{crate.folder}/out", exist_ok=True)
    verb, folder = ("run", crate.folder) if is_program else ("lib", copy_crate(crate))
    with open(crate.log, "wb") as log:
        options: dict[str, Any] = {"cwd": folder, "stdin": subprocess.DEVNULL, "stdout": log, "stderr": log, "start_new_session": True}
        return subprocess.Popen(["rt", verb, "--jobs", str(jobs)], **options)


def copy_crate(crate: Crate) -> str:
    """Makes a repository of the crate and those below it, with links to what is built of these and with the intermediate results that are
    kept of it, and returns the crate's folder there.
    """
    top = f"{COPIES}/{crate.name}"
    shutil.rmtree(top, ignore_errors=True)
    crates = [*crate.list_dependencies(), crate]
    for taken_crate in crates:
        for part in PARTS:
            if os.path.isdir(f"{taken_crate.folder}/{part}"):
                shutil.copytree(f"{taken_crate.folder}/{part}", f"{top}/crates/{taken_crate.name}/{part}")
        if os.path.isdir(f"{taken_crate.folder}/out/rlib"):
            shutil.copytree(f"{taken_crate.folder}/out/rlib", f"{top}/crates/{taken_crate.name}/out/rlib", copy_function=os.link)
    with open(f"{HOME}/crates.txt", encoding="utf-8") as listed, open(f"{top}/crates.txt", "w", encoding="utf-8") as file:
        file.writelines(line for line in listed if line.partition(":")[0] in [crate.name for crate in crates])
    os.makedirs(f"{top}/crates/{crate.name}/out", exist_ok=True)
    move_folder(f"{crate.folder}/out/incremental", f"{top}/crates/{crate.name}/out/incremental")
    return f"{top}/crates/{crate.name}"


def finish_crate(crate: Crate) -> None:
    """Moves back what the build of a crate has made, and removes its copies."""
    built = f"{COPIES}/{crate.name}/crates/{crate.name}/out"
    for part in ("incremental", "rlib"):
        move_folder(f"{built}/{part}", f"{crate.folder}/out/{part}")
    shutil.rmtree(f"{COPIES}/{crate.name}", ignore_errors=True)


def move_folder(folder: str, target: str) -> None:
    """Moves a folder to another place, if it exists, and replaces what is there."""
    if os.path.isdir(folder):
        shutil.rmtree(target, ignore_errors=True)
        os.rename(folder, target)


def stop_process(process: subprocess.Popen) -> None:
    """Ends a process that was started here, and all that it has started."""
    for sent in (signal.SIGTERM, signal.SIGKILL):
        with contextlib.suppress(ProcessLookupError):
            os.killpg(process.pid, sent)
        with contextlib.suppress(subprocess.TimeoutExpired):
            process.wait(5)


class FirstAnswer:
    """The answer of a program before it is proved, to the arguments and to standard input."""

    def __init__(self, program: Program, words: list[str], folder: str) -> None:
        """Starts to read standard input. The files of the answer are in the folder `folder`."""
        self.program = program
        self.words, self.is_read = words, False
        self.process: subprocess.Popen | None = None
        self.status: int | None = None
        self.input, self.output, self.errors = (f"{folder}/{it}" for it in ("input", "output", "errors"))
        self.reader = threading.Thread(target=self.read_input, daemon=True)
        self.reader.start()

    def read_input(self) -> None:
        """Writes what the program reads into a file: all of standard input, but no more than it takes. If it cannot be read, there is no first
        answer, and the proved program reports that.
        """
        data, part = b"", b" "
        with contextlib.suppress(OSError):
            while part and len(data) < MAX_INPUT_BYTES:
                part = os.read(0, MAX_INPUT_BYTES - len(data))
                data += part
            with open(self.input, "wb") as file:
                file.write(data)
            self.is_read = True

    def show_when_ready(self) -> None:
        """Starts the unproved program when its input is complete, and shows its answer."""
        if self.process is None and self.is_read:
            with open(self.input, "rb") as stdin, open(self.output, "wb") as output, open(self.errors, "wb") as errors:
                options: dict[str, Any] = {"stdin": stdin, "stdout": output, "stderr": errors, "start_new_session": True}
                self.process = subprocess.Popen(["rt", "try", "--", *self.words], cwd=self.program.crate, **options)
        if self.process and self.status is None and self.process.poll() is not None:
            self.status = self.process.returncode
            self.show_answer()

    def show_answer(self) -> None:
        """Shows the answer, or that the program could not be run unproved."""
        errors = read_bytes(self.errors)
        if not re.search(rb"^run=ended .*proved=no$", errors, re.M):
            return self.program.report("no answer before the proof: the program could not be run unproved")
        self.program.report("unproved, so only a first look (the proved answer follows):")
        errors = b"".join(it for it in errors.splitlines(True) if not re.match(rb"(checked|run|call|calls)[:=]", it))
        sys.stderr.buffer.write(read_bytes(self.output) + errors)
        sys.stderr.flush()

    def differs(self, arguments: list[str]) -> bool:
        """Returns whether the proved program answers otherwise."""
        with open(self.input, "rb") as content:
            ran = subprocess.run([self.program.path, *arguments], stdin=content, stdout=subprocess.PIPE, stderr=subprocess.DEVNULL, check=False)
        return (read_bytes(self.output), self.status) != (ran.stdout, ran.returncode)

    def end_process(self) -> None:
        """Ends the unproved program if it still runs."""
        if self.process and self.status is None:
            stop_process(self.process)


def read_bytes(file: str) -> bytes:
    """Returns the bytes of a file."""
    with open(file, "rb") as stream:
        return stream.read()


def build_program(program: Program, at_each_turn: Callable[[], None] = lambda: None) -> None:
    """Builds the program of the present sources. A change during the build starts it again."""
    for path in (LOCK, program.path):
        os.makedirs(os.path.dirname(path), exist_ok=True)
    with open(LOCK, "w", encoding="utf-8") as lock:
        try:
            fcntl.flock(lock, fcntl.LOCK_EX | fcntl.LOCK_NB)
        except BlockingIOError:
            program.report("another build is going on, which this one waits for")
            fcntl.flock(lock, fcntl.LOCK_EX)
        while ask_program_sh("is_current", program) is None:
            build_once(program, at_each_turn)


def build_once(program: Program, at_each_turn: Callable[[], None]) -> None:
    """Builds the program of the present sources. If they change meanwhile, it stays marked as not built. Raises Failed if a crate is not proved, or
    the sources can't be listed.
    """
    for path in (program.path, program.made_of):
        with contextlib.suppress(FileNotFoundError):
            os.remove(path)
    sources = ask_program_sh("look_at_sources && list_sources", program)
    if sources is None:
        raise Failed("the build failed: the sources can't be listed")
    # What an earlier build left is put back.
    crates = list_crates(program)
    for crate in crates:
        finish_crate(crate)
    work = Build(program, crates)
    number = len([it for it in crates if not it.seems_built()])
    program.report(f"crates to prove: {number}; on {work.processors} processors that takes {work.estimate_minutes()}, by docs/TIMES.md")
    work.build_all(at_each_turn)
    # The program is one of these sources, unless they changed.
    if ask_program_sh("look_at_sources && list_sources", program) != sources:
        program.report("the sources have changed meanwhile")
    else:
        with open(f"{program.made_of}.new", "wb") as file:
            file.write(sources)
        os.rename(f"{program.made_of}.new", program.made_of)
        program.report("built")


def build_and_answer(program: Program, arguments: list[str]) -> int:
    """Builds the program with a first answer meanwhile, and then prints the proved one. Returns its status."""
    with tempfile.TemporaryDirectory(prefix="lw-") as folder:
        first = FirstAnswer(program, arguments, folder)
        try:
            build_program(program, first.show_when_ready)
        finally:
            first.end_process()
        first.reader.join()
        if not first.is_read:
            return subprocess.run([program.path, *arguments], check=False).returncode
        if first.status is not None and first.differs(arguments):
            program.report("the first answer was another; that program was not proved, and this one is:")
        with open(first.input, "rb") as content:
            return subprocess.run([program.path, *arguments], stdin=content, check=False).returncode


def end_build(*_signal: object) -> NoReturn:
    """Raises Failed on a signal, which ends the build; further signals are ignored."""
    for signal_number in SIGNALS:
        signal.signal(signal_number, signal.SIG_IGN)
    raise Failed("the build was ended; what is proved stays proved")


def build_and_report(program: Program, arguments: list[str] | None = None) -> int:
    """Builds a program, and answers words by it if there are any. Returns the exit status."""
    for signal_number in SIGNALS:
        signal.signal(signal_number, end_build)
    try:
        if arguments is not None:
            return build_and_answer(program, arguments)
        build_program(program)
    except Failed as why:
        program.report(str(why))
        return FAILED
    except OSError as error:
        program.report(f"the build failed: {error.filename or 'a file'}: {error.strerror}")
        return FAILED
    return 0


def main() -> int:
    """Runs the command that the arguments describe. Returns the exit status."""
    reader = command.Reader(__doc__)
    reader.add_argument("--program", choices=("lw", "beyond"), default="lw", metavar="NAME")
    reader.add_argument("--first-answer", nargs=argparse.REMAINDER, metavar="WORD")
    arguments = reader.parse_args()
    return build_and_report(Program(arguments.program), arguments.first_answer)


if __name__ == "__main__":
    sys.exit(start.run(main))
