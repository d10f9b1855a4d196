"""Runs the reader's compiler: from a source to assembly."""
from __future__ import annotations

import functools
import os
import re
import shlex
import shutil
import subprocess
import tempfile

from c.refused import Refused
from c.source import Source
from c.weaker import weaken_rust
from shared.home import HOME

HEADER = os.path.join(HOME, "include", "lw_see.h")
RUST_HEADER = os.path.join(HOME, "include", "lw_see.rs")
# Headers with weaker orders, of C and of C++.
WEAKER = {True: os.path.join(HOME, "tools", "c", "weaker.h"), False: os.path.join(HOME, "tools", "c", "weaker_cc.h")}
# The name of the file that is compiled.
NAME = "program"
# After the reader's words: no position-independent code, no guards around the program's own code, and the lines of the source.
FLAGS = (
    "-S -fno-pic -fno-pie -fno-lto -fno-asynchronous-unwind-tables -fno-stack-protector -fcf-protection=none -g1 -w"
).split()
RUST_FLAGS = (
    "--emit asm --crate-type lib --edition 2021 -C relocation-model=static -C panic=abort -C debuginfo=1 -C codegen-units=1 -A warnings"
).split()
SECONDS = 120
DEFAULTS = {".rs": "rustc -O", ".c": "gcc -O2"}
LEVELS = ("-O0", "-O1", "-O2", "-O3")
RUST_LEVELS = ("-C opt-level=0", "-C opt-level=1", "-C opt-level=2", "-C opt-level=3")


def choose_compiler(ending: str) -> str:
    """Returns the compiler that is run if the reader names none."""
    return DEFAULTS.get(ending, "g++ -O2")


def list_compilers(ending: str) -> list[str]:
    """Returns the compilers that are on this machine, each at all levels."""
    if ending == ".rs":
        return [f"rustc {level}" for level in RUST_LEVELS] if shutil.which("rustc") else []
    names = ("gcc", "clang") if ending == ".c" else ("g++", "clang++")
    return [f"{name} {level}" for name in names if shutil.which(name) for level in LEVELS]


@functools.lru_cache(maxsize=None)
def find_version(name: str) -> str:
    """Returns the version that a compiler says it has, as 12.2.0; empty if it says none or does not start."""
    try:
        ran = subprocess.run([name, "--version"], stdout=subprocess.PIPE, stderr=subprocess.DEVNULL, check=False, timeout=SECONDS)
    except (OSError, subprocess.TimeoutExpired):
        return ""
    match = re.search(rb"\b\d+\.\d+\.\d+\b", ran.stdout)
    return match[0].decode() if match else ""


def write_input_and_make_command(source: Source, arguments: list[str], weaker: int, folder: str) -> list[str]:
    """Writes the file that the compiler reads into a folder. Returns the command that compiles it."""
    path, target = os.path.join(folder, NAME + source.ending), os.path.join(folder, NAME + ".s")
    text = source.text
    if source.is_rust:
        with open(RUST_HEADER, encoding="utf-8") as file:
            text = file.read() + (weaken_rust(text, weaker) if weaker else text)
        command = [*arguments, *RUST_FLAGS, "-o", target, path]
    else:
        orders = ["-include", WEAKER[source.ending == ".c"], f"-DLW_WEAKER={weaker}"] if weaker else []
        command = [*arguments, *FLAGS, "-I", os.path.dirname(HEADER), "-include", HEADER, *orders, "-o", target, path]
    with open(path, "w", encoding="utf-8") as file:
        file.write(text)
    return command


def count_lines_before(source: Source) -> int:
    """Returns the lines that precede the source in the file that is compiled."""
    if not source.is_rust:
        return 0
    with open(RUST_HEADER, encoding="utf-8") as file:
        return file.read().count("\n")


def split_command(compiler: str) -> list[str]:
    """Returns the words of a compiler's command. Raises Refused if it names no compiler, or asks for code of 32 bits."""
    try:
        words = shlex.split(compiler)
    except ValueError as why:
        raise Refused(f"--cc: {why}") from None
    if not words:
        raise Refused("--cc names no compiler")
    if {"-m32", "-mx32", "-m16"} & {*words}:
        raise Refused("code of 32 bits is not followed")
    return words


def compile_to_assembly(source: Source, compiler: str, weaker: int = 0, include: str | None = None) -> str:
    """Returns the assembly that a compiler makes of a source. `weaker` is a number of tools/c/weaker.py, `include` the folder of the reader's file.
    Raises Refused if the compiler does not start, takes too long or reports a fault.
    """
    words = split_command(compiler)
    if include and not source.is_rust:
        words += ["-I", include]
    with tempfile.TemporaryDirectory(prefix="from_c-") as folder:
        command = write_input_and_make_command(source, words, weaker, folder)
        try:
            ran = subprocess.run(command, stdout=subprocess.PIPE, stderr=subprocess.STDOUT, check=False, timeout=SECONDS)
        except OSError as why:
            raise Refused(f"the compiler '{words[0]}' does not start: {why.strerror}") from None
        except subprocess.TimeoutExpired:
            raise Refused(f"the compiler takes longer than {SECONDS} seconds") from None
        if ran.returncode:
            raise parse_first_fault(ran.stdout.decode("utf-8", "replace"), count_lines_before(source))
        try:
            with open(os.path.join(folder, NAME + ".s"), encoding="utf-8") as file:
                return file.read()
        except (OSError, UnicodeDecodeError):
            raise Refused(f"'{compiler}' writes no assembly") from None


def parse_first_fault(printed: str, shift: int) -> Refused:
    """Returns the first fault that a compiler reports, with its line in the source, which begins after `shift` lines of the compiled file."""
    cause = re.search(r"\berror\b(?:\[\w+\])?:\s*(.*)", printed)
    line_match = re.search(rf"{NAME}\.\w+:(\d+):", printed)
    first = cause[1] if cause else (printed.strip().splitlines() or ["it says nothing"])[0]
    return Refused(f"the compiler refuses it: {first}", int(line_match[1]) - shift if line_match else None)


def demangle_last_part(symbol: str) -> str:
    """Returns the last part of a name that Rust or C++ has decorated, or the name."""
    rust = re.fullmatch(r"_ZN(.*)17h[0-9a-f]{16}E(.*)", symbol)
    rest, parts = (rust[1], []) if rust else ("", [])
    while digits := re.match(r"\d+", rest):
        end = len(digits[0]) + int(digits[0])
        parts.append(rest[len(digits[0]) : end])
        rest = rest[end:]
    thread = re.fullmatch(r"_Z2P(\d)v", symbol)
    return f"P{thread[1]}" if thread else parts[-1] if parts else symbol


def demangle_assembly(text: str) -> str:
    """Returns assembly in which names are as in the source, if no two of them would be the same."""
    symbols = sorted(set(re.findall(r"_ZN[\w$.]+17h[0-9a-f]{16}E[\w$.]*|_Z2P\dv", text)))
    names: dict[str, str] = {it: demangle_last_part(it) for it in symbols}
    counts: dict[str, int] = {}
    for name in names.values():
        counts[name] = counts.get(name, 0) + 1
    return re.sub(r"_ZN[\w$.]+17h[0-9a-f]{16}E[\w$.]*|_Z2P\dv", lambda it: names[it[0]] if counts[names[it[0]]] == 1 else it[0], text)
