"""Compiles the harness, once for all tests of a command, and each test with it."""
from __future__ import annotations

import glob
import os
import platform
import shutil
import subprocess
import sys
from collections.abc import Sequence

from machine import assembly, disassembly
from machine.assembly import Code
from machine.disassembly import find_last_line
from machine.faults import NotRun

SOURCES = sorted(glob.glob(os.path.join(os.path.dirname(os.path.abspath(__file__)), "harness", "*.c")))
# The test's instructions are no part of what is optimised: they are assembled as they are.
FLAGS = ["-O2", "-pthread"]


def check_system() -> None:
    """Raises NotRun on a system that cannot run x86 tests, or that lacks objdump."""
    if sys.platform != "linux" or platform.machine() not in ("x86_64", "AMD64"):
        raise NotRun(f"a test is run on Linux on x86-64 only, and this is {platform.system()} on {platform.machine()}")
    if not shutil.which(disassembly.COMMAND[0]):
        raise NotRun("there is no objdump, by which all that is run is checked before (Debian: binutils)")


def run_compiler(command: Sequence[str], folder: str) -> None:
    """Runs the compiler in a folder. Raises NotRun if it fails or does not start."""
    try:
        ran = subprocess.run(command, cwd=folder, stdin=subprocess.DEVNULL, stdout=subprocess.DEVNULL, stderr=subprocess.PIPE, check=False)
    except OSError as why:
        raise NotRun(f"the compiler '{command[0]}' does not start: {why.strerror}; --cc names another (Debian: gcc)") from None
    if ran.returncode:
        raise NotRun(f"the compiler '{command[0]}' fails: {find_last_line(ran.stderr)}")


class Builder:
    """The compiled harness, in a folder."""

    def __init__(self, compiler: list[str], folder: str) -> None:
        """Prepares to compile programs in a folder. Raises NotRun if the harness does not compile."""
        self.compiler, self.folder = compiler, folder
        check_system()
        run_compiler([*compiler, *FLAGS, "-c", *SOURCES], folder)
        self.objects = [os.path.basename(it)[:-2] + ".o" for it in SOURCES]

    def build_program(self, threads: Sequence[Code], first: Sequence[Sequence[int]]) -> str:
        """Returns the program of a test. Raises NotRun if it does not compile, or objdump shows that its code is not that of the threads."""
        with open(os.path.join(self.folder, "test.s"), "w", encoding="ascii") as file:
            file.write(assembly.format_assembly(threads, first))
        program = os.path.join(self.folder, "test")
        run_compiler([*self.compiler, *FLAGS, "test.s", *self.objects, "-o", program], self.folder)
        disassembly.check_program(threads, first, program)
        return program
