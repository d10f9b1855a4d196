"""Runs ./lw and ./beyond in a copy of the repository with a stand-in for `rt` that builds nothing and keeps a record of what it was asked to do.

    python3 tools gate.check_build

It checks which crates are built and in which order, what a second call does, what is built after a change of a crate, a build that
fails or is ended, two builds at once, and the first answer, which only terminals get; that ./lw builds no crate of ./beyond's, and
./beyond no crate twice; and the file that ./beyond reads. tools/check_documents.py calls it.
"""
from __future__ import annotations

import itertools
import os
import pty
import re
import shutil
import signal
import subprocess
import sys
import tempfile
import time
from collections.abc import Iterator, Sequence
from typing import Any, BinaryIO

from gate.cases import Comparison
from program import build
from shared import command
from shared.home import HOME

CHANGED = "lw_fence"
# `rt lib` stores, as the real one does, a checksum of the sources of which a library was built, and builds nothing if that is the same.
RT = r"""#!/bin/sh
sum=$(cat ../*/src/*.rt | cksum)
case $1 in
    doc) echo "$KIT/START-HERE.md" ;;
    lib)
        crate=${PWD##*/}
        [ "$(cat out/rlib/stamp 2>/dev/null)" != "$sum" ] || exit 0
        echo "begins $crate" >>"$KIT/record"
        sleep 0.2
        [ ! -e "$KIT/hangs-$crate" ] || sleep 60
        [ ! -e "$KIT/fails-$crate" ] || { echo "the log of $crate"; exit 1; }
        mkdir -p out/rlib && echo "$sum" >out/rlib/stamp
        echo "ends $crate" >>"$KIT/record"
        ;;
    run)
        crate=${PWD##*/}
        echo "begins $crate" >>"$KIT/record"
        printf '#!/bin/sh\necho "proved: $*"\ncat\nexit 3\n' >"out/$crate" && chmod +x "out/$crate"
        echo "ends $crate" >>"$KIT/record"
        exit 2
        ;;
    try)
        shift 2
        echo "$(cat "$KIT/answers" 2>/dev/null || echo proved): $*"
        cat
        echo "run=ended status=3 runners=1 proved=no" >&2
        exit 3
        ;;
esac
"""


class Checkout:
    """A copy of what ./lw consists of, with the stand-in first on PATH."""

    def __init__(self, folder: str) -> None:
        """Copies what ./lw consists of into a folder."""
        self.home, self.kit = f"{folder}/home", f"{folder}/kit"
        os.makedirs(f"{self.kit}/bin")
        self.write_file(f"{self.kit}/KIT-ID", "a stand-in\n")
        self.write_file(f"{self.kit}/bin/rt", RT)
        os.chmod(f"{self.kit}/bin/rt", 0o755)
        for name in ("tools", "docs"):
            shutil.copytree(f"{HOME}/{name}", f"{self.home}/{name}")
        for name in ("crates.txt", "lw", "beyond"):
            shutil.copy(f"{HOME}/{name}", f"{self.home}/{name}")
        self.crates = [it.name for it in build.list_crates()]
        # Those on which only the other program depends.
        self.further = [it.name for it in build.list_crates(build.BEYOND) if it.name not in self.crates]
        for name in self.crates + self.further:
            os.makedirs(f"{self.home}/crates/{name}/src")
            self.write_file(f"{self.home}/crates/{name}/src/lib.rt", f"// {name}\n")
        self.environment = {**os.environ, "KIT": self.kit, "PATH": f"{self.kit}/bin:{os.environ['PATH']}"}

    @staticmethod
    def write_file(path: str, text: str) -> None:
        """Writes a file."""
        with open(path, "w", encoding="utf-8") as file:
            file.write(text)

    def start_command(self, arguments: Sequence[str] = ("lw", "states"), **options: Any) -> Any:
        """Starts ./lw, or a command."""
        defaults: dict[str, Any] = {"stdin": subprocess.PIPE, "stdout": subprocess.PIPE, "stderr": subprocess.PIPE, "env": self.environment}
        return subprocess.Popen([f"{self.home}/{arguments[0]}", *arguments[1:]], start_new_session=True, **{**defaults, **options})

    def capture_streams_and_record(self, *arguments: str) -> tuple[bytes, str, list[str]]:
        """Returns what `./lw states`, or a command, prints on standard output and on standard error, and its calls of the stand-in."""
        streams = self.start_command(arguments or ("lw", "states")).communicate(b"text\n", timeout=60)
        return streams[0], streams[1].decode(), self.take_record()

    def take_record(self) -> list[str]:
        """Returns the calls of the stand-in since the last call of this method."""
        path = f"{self.kit}/record"
        if not os.path.exists(path):
            return []
        with open(path, encoding="utf-8") as file:
            lines = file.read().split("\n")[:-1]
        os.remove(path)
        return lines

    def change_source(self, crate: str) -> None:
        """Changes a source of a crate."""
        self.write_file(f"{self.home}/crates/{crate}/src/lib.rt", f"// {crate}, changed at {time.time()}\n")


ANSWER = b"proved: states\ntext\n"


def list_begun_crates(record: list[str]) -> list[str]:
    """Returns the crates whose builds have begun, by a record of the stand-in's calls; sorted."""
    return sorted(it.split()[1] for it in record if it.startswith("begins"))


def count_at_once(record: list[str]) -> int:
    """Returns how many crates are built at once, at most, by a record of the stand-in's calls."""
    return max(itertools.accumulate(1 if it.startswith("begins") else -1 for it in record))


def is_in_order(record: list[str]) -> bool:
    """Returns whether each crate started after the ends of those on which it depends, by a record of the stand-in's calls."""
    below = {it.name: [other.name for other in it.below] for it in build.list_crates()}
    return all(
        f"ends {it}" in record[:index] or f"begins {it}" not in record
        for index, line in enumerate(record)
        if line.startswith("begins")
        for it in below[line.split()[1]]
    )


def list_dependents(crate: str) -> list[str]:
    """Returns the crate, and all crates of the program that depend on it."""
    return sorted(it.name for it in build.list_crates() if it.name == crate or crate in [other.name for other in it.list_dependencies()])


def check_builds(checkout: Checkout) -> Iterator[Comparison]:
    """Compares what builds ask the stand-in to do: all of the program, what has changed, and nothing."""
    out, errors, record = checkout.capture_streams_and_record()
    yield "the first call answers by the program", ANSWER, out
    first, *others = errors.splitlines()
    pattern = rf"lw: crates to prove: {len(checkout.crates)}; on \d+ processors that takes \d+ to \d+ minutes, by docs/TIMES\.md"
    yield "the first line gives bounds of the minutes", True, bool(re.fullmatch(pattern, first))
    proved = [it for it in others if re.fullmatch(r"lw: \w+ is proved \(\d+ of \d+\), (\d+ to \d+|about \d+) minutes? to go", it)]
    yield "so does each crate that is proved, but the last", len(checkout.crates) - 1, len(proved)
    yield "the first call builds each crate once", sorted(checkout.crates), list_begun_crates(record)
    yield "each crate begins after those that it depends on", True, is_in_order(record)
    yield "crates are built beside each other", True, count_at_once(record) > 1
    yield "the second call builds nothing", (ANSWER, "", []), checkout.capture_streams_and_record()
    checkout.change_source(CHANGED)
    out, _, record = checkout.capture_streams_and_record()
    yield "a changed crate has those above it built", (ANSWER, list_dependents(CHANGED)), (out, list_begun_crates(record))


def check_copies(checkout: Checkout, folder: str) -> Iterator[Comparison]:
    """Checks that a tree with the same content answers at once: at other times, with other modes, elsewhere, without rt, and read-only."""
    os.utime(f"{checkout.home}/crates/{CHANGED}/src/lib.rt")
    yield "a file of another time with the same content has nothing built", (ANSWER, "", []), checkout.capture_streams_and_record()
    subprocess.run(["chmod", "-R", "go-rwx", checkout.home], check=True)
    yield "other modes have nothing built", (ANSWER, "", []), checkout.capture_streams_and_record()
    without_rt = {**checkout.environment, "PATH": os.environ["PATH"].replace(os.path.dirname(shutil.which("rt") or "/none/rt"), "/none")}
    for flag in ("-a", "-r"):
        copy = f"{folder}/copy{flag}"
        subprocess.run(["cp", flag, checkout.home, copy], check=True)
        subprocess.run(["chmod", "-R", "a+rX", folder], check=True)
        nobody: dict[str, Any] = {"user": 65534, "group": 65534, "extra_groups": []}
        users: list[dict[str, Any]] = [{}, nobody] if os.geteuid() == 0 else [{}]
        for who in users:
            ran = subprocess.run([f"{copy}/lw", "states"], input=b"text\n", capture_output=True, env=without_rt, check=False, **who)
            printed = ran.stdout, ran.stderr, ran.returncode
            yield f"a copy by cp {flag} answers without rt{', read only' if who else ''}", (ANSWER, b"", 3), printed
    checkout.change_source(CHANGED)
    os.utime(f"{checkout.home}/crates/{CHANGED}/src/lib.rt", (0, 0))
    yield "a changed file of an old time has those above it built", list_dependents(CHANGED), list_begun_crates(checkout.capture_streams_and_record()[2])


def check_failures(checkout: Checkout) -> Iterator[Comparison]:
    """Compares what builds print that fail."""
    checkout.change_source(CHANGED)
    checkout.write_file(f"{checkout.kit}/fails-{CHANGED}", "")
    ran = checkout.start_command()
    out, err = ran.communicate(b"text\n", timeout=60)
    yield "a build that fails prints nothing", (b"", 5), (out, ran.returncode)
    message = f"the log of {CHANGED}\nlw: the build failed at {CHANGED}\n"
    yield "a build that fails says where", True, err.decode().endswith(message)
    yield "a build that fails goes no further", [CHANGED], list_begun_crates(checkout.take_record())
    os.remove(f"{checkout.kit}/fails-{CHANGED}")
    yield "the next call goes on", list_dependents(CHANGED), list_begun_crates(checkout.capture_streams_and_record()[2])
    checkout.change_source(CHANGED)
    checkout.write_file(f"{checkout.kit}/hangs-{CHANGED}", "")
    ran = checkout.start_command()
    while not list_begun_crates(checkout.take_record()):
        time.sleep(0.1)
    os.killpg(ran.pid, signal.SIGINT)
    out, _ = ran.communicate(timeout=60)
    leftover_processes = subprocess.run(["pgrep", "-f", f"{checkout.kit}/bin/rt"], capture_output=True, check=False).stdout
    yield "a build that is ended prints nothing, and leaves nothing running", (b"", b""), (out, leftover_processes)
    os.remove(f"{checkout.kit}/hangs-{CHANGED}")
    processes = [checkout.start_command(), checkout.start_command()]
    yield "two calls at once both answer", [ANSWER] * 2, [it.communicate(b"text\n", timeout=60)[0] for it in processes]
    yield "two calls at once build each crate once", list_dependents(CHANGED), list_begun_crates(checkout.take_record())


def run_on_terminal(checkout: Checkout, output: BinaryIO | int) -> tuple[str, bytes | None, int]:
    """Returns the output of a call on a terminal, as standard error, and on standard output."""
    ours, theirs = pty.openpty()
    ran = checkout.start_command(stdin=subprocess.PIPE, stdout=output, stderr=theirs)
    os.close(theirs)
    ran.stdin.write(b"text\n")
    ran.stdin.close()
    shown = b""
    try:
        while data := os.read(ours, 4096):
            shown += data
    except OSError:
        pass
    return shown.decode(), ran.stdout.read() if output == subprocess.PIPE else None, ran.wait(60)


def check_first_answer(checkout: Checkout, folder: str) -> Iterator[Comparison]:
    """Compares the first answer, which is given before the proof."""
    for answer, is_told in (("proved", False), ("another", True)):
        checkout.change_source(CHANGED)
        checkout.write_file(f"{checkout.kit}/answers", answer)
        with open(f"{folder}/written", "w+b") as output:
            shown, _, status = run_on_terminal(checkout, output)
            output.seek(0)
            yield "standard output has only the proved answer", (ANSWER, 3), (output.read(), status)
        unproved = f"lw: unproved, so only a first look (the proved answer follows):\r\n{answer}: states\r\ntext\r\n"
        yield "a terminal shows the first answer, as unproved", True, unproved in shown
        yield "an answer that differs is reported", is_told, "lw: the first answer was another" in shown
    checkout.change_source(CHANGED)
    shown, out, status = run_on_terminal(checkout, subprocess.PIPE)
    yield "in a pipe nothing unproved is shown", (False, ANSWER, 3), ("unproved" in shown, out, status)


def check_other_program(checkout: Checkout, folder: str) -> Iterator[Comparison]:
    """Checks ./beyond, when ./lw is built."""
    checkout.capture_streams_and_record()
    file = f"{folder}/a test"
    checkout.write_file(file, "in a file\n")
    out, errors, record = checkout.capture_streams_and_record("beyond", "states")
    yield "./beyond answers by its program", ANSWER, out
    yield "./beyond says which program it builds", {"beyond"}, {it.partition(":")[0] for it in errors.splitlines()}
    yield "./beyond builds what ./lw has not built, and nothing else", sorted(checkout.further), list_begun_crates(record)
    yield "the second ./beyond builds nothing", (ANSWER, "", []), checkout.capture_streams_and_record("beyond", "states")
    for words in (["states"], ["--budget", "7", "--method", "schedules"], ["--search", "--budget", "states", "states"]):
        expected: tuple[bytes, str, list[str]] = f"proved: {' '.join(words)}\nin a file\n".encode(), "", []
        yield f"./beyond {' '.join(words)} FILE", expected, checkout.capture_streams_and_record("beyond", *words, file)
    for words in (["states", file, file], ["--budget", "states"], [file], ["states", ""]):
        expected = f"proved: {' '.join(words)}\ntext\n".encode(), "", []
        yield f"./beyond {' '.join(words)}, which names no file", expected, checkout.capture_streams_and_record("beyond", *words)
    printed = checkout.capture_streams_and_record("beyond", "states", f"{folder}/none")
    yield "./beyond of a file that isn't there", (b"", f"beyond: {folder}/none can't be opened\n", []), printed
    checkout.change_source("lw_search")
    yield "./lw takes no notice of a crate of ./beyond's", (ANSWER, "", []), checkout.capture_streams_and_record()
    yield "./beyond does", sorted(checkout.further), list_begun_crates(checkout.capture_streams_and_record("beyond", "states")[2])


def make_comparisons() -> Iterator[Comparison]:
    """Yields all comparisons: what is compared, what is expected, and what was found."""
    with tempfile.TemporaryDirectory() as folder:
        checkout = Checkout(folder)
        checks = check_builds(checkout), check_copies(checkout, folder), check_failures(checkout), check_first_answer(checkout, folder)
        for check in (*checks, check_other_program(checkout, folder)):
            for subject, expected, actual in check:
                yield f"with a stand-in for rt: {subject}", expected, actual


def main() -> int:
    """Runs the command that the arguments describe. Returns the exit status."""
    wrong = [it for it in make_comparisons() if it[1] != it[2]]
    for subject, expected, actual in wrong:
        print(f"{subject}\n  wanted: {expected!r}\n  found:  {actual!r}")
    return 1 if wrong else 0


if __name__ == "__main__":
    sys.exit(command.run_command(main, __doc__))
