#!/usr/bin/env python3
"""Prints what python/lw.py answers of a test: its states, each with a schedule of its program, and the fault of a text that is none.

    PYTHONPATH=python python3 examples/python/use.py LIBRARY FILE

Where the wheel or the package for Debian is installed, PYTHONPATH is not needed.
"""
import sys

import lw


def main():
    """Prints the answers on the file that the command line names, by the library that it names."""
    bench = lw.Workbench(sys.argv[1])
    with open(sys.argv[2], "rb") as it:
        text = it.read()
    report = bench.states(text)
    print(f"{report.name}: {report.condition} {report.observation}, {report.verdict}")
    program = bench.compile(text)
    for state, words in bench.schedules(text):
        page, is_final = bench.replay(program, words)
        print(f"{state}  by {words}{'' if is_final else ', which is not final'}, as {len(page)} bytes tell")
    try:
        bench.states(text.replace(b"exists", b"exits", 1))
    except lw.Fault as fault:
        print(f"without its condition: {fault} (line {fault.line}, column {fault.column})")


if __name__ == "__main__":
    main()
