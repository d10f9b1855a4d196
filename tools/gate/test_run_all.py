"""Tests that tools/run_all.py answers a folder of mixed files by one table: tests of lw and of herd, and programs.

    python3 tools gate.test_run_all, or in tools/ python3 -m unittest gate.test_run_all

- A folder with tests of lw, one of them past the limits, tests in herd's form with compare-and-swap and loops, C, and files that are refused:
  a row for each file, in all forms, with how it was converted and by which method; its status, its notes and its causes.
- Shards, put together, are the whole; tables that are not of one split, or not whole, are refused.
- Verdicts that are not Ok, or not as a table has them, and files without a verdict, have statuses of their own. An earlier run of the folder does
  not differ.

Programs are left out if there is no gcc. tools/check_documents.py calls all this (tools/gate/cases.py).
"""
from __future__ import annotations

import csv
import io
import json
import os
import shutil
import sys
import tempfile
import unittest
from typing import Any, Dict, NoReturn
from unittest import mock

from gate import cases
from gate.examples import read, run
from many import conversions, expected, files, lists, rows, statuses, table
from many.expected import Expected
from shared import answers, logs, spawn
from shared.home import HOME

FROM_HERD = ("Cas", "CasLoop", "Less", "MP+filter", "Reserved", "SB-addresses", "Spin", "Unlocked")
HERD_C = """C SB-relaxed
{}
P0 (atomic_int* x, atomic_int* y) {
  atomic_store_explicit(x, 1, memory_order_relaxed);
  int r0 = atomic_load_explicit(y, memory_order_relaxed);
}
P1 (atomic_int* x, atomic_int* y) {
  atomic_store_explicit(y, 1, memory_order_relaxed);
  int r0 = atomic_load_explicit(x, memory_order_relaxed);
}
exists (0:r0=0 /\\ 1:r0=0)
"""
WITHOUT_QUESTION = "#include <stdatomic.h>\natomic_int x;\nvoid P0(void) { atomic_store(&x, 1); }\n"
NO_RUN = "X86_64 Waits\n{ uint32_t x; 0:rbx=x; }\n P0 ;\n L: movl (%rbx),%eax ;\n cmpl $1,%eax ;\n jne L ;\nexists (0:rax=1)\n"
FILTERED = "1:1: note: the filter is a part of the condition: states that it leaves out are listed too"
SB_HERE = """Test SB-addresses Allowed
States 4
0:R8=0; 1:R9=0;
0:R8=0; 1:R9=1;
0:R8=1; 1:R9=0;
0:R8=1; 1:R9=1;
Ok
Positive: 1 Negative: 3
Condition exists (0:R8=0 /\\ 1:R9=0)
Observation SB-addresses Sometimes 1 3
"""
# For each file of the folder what its row has: the verdict, the observation, the method, how it was converted, and the cause.
Row = Dict[str, Any]
ANSWERED = {
    "Cas.litmus": ("Ok", "Sometimes 1 1", "assume.py, X86: 4 tests", None),
    "CasLoop.litmus": ("Ok", "Always 1 0", "assume.py, X86_64: 4 tests, loops gone through at most once", None),
    "Less.litmus": ("Refused", None, None, "6:2: 'JL' is no instruction that is read; in herd's form: 'JL' is not converted: it reads another flag "
                    "than the zero flag, which is the only one that lw has"),
    "MP+filter.litmus": ("Ok", "Always 3 0", "from_herd.py, X86: 1 test", None),
    "Peterson3.litmus": ("Ok", "Never 0 5", None, None),
    "Reserved.litmus": ("Ok", "Always 1 0", "from_herd.py, X86: 1 test", None),
    "SB-addresses.litmus": ("Ok", "Sometimes 1 3", "from_herd.py, X86_64: 1 test", None),
    "SB.litmus": ("No", "Never 0 3", None, None),
    "Spin.litmus": ("Ok", "Never 0 1", "assume.py, X86_64: 1 test, loops gone through at most once", None),
    "Unlocked.litmus": ("Refused", None, None, "4:2: 'CMPXCHG' is no instruction that is read; in herd's form: CMPXCHG without LOCK is a load and a "
                        "store that others may part: write them, and a branch"),
    "Waits.litmus": ("None", "no run", "assume.py, X86_64: 1 test, loops gone through at most once", "no run goes through every loop within 1 try, "
                     "so nothing is said of the condition"),
}
PROGRAMS = {
    "Cut.c": ("Refused", None, None, "1:1: no comment says what is asked: // lw: exists (0:r0=0 /\\ 1:r0=0)"),
    "SB-relaxed.litmus": ("Ok", "Sometimes 1 3", "from_c.py, gcc -O2: 1 test", None),
    "StoreBuffering.c": ("No", "Never 0 3", "from_c.py, gcc -O2: 1 test", None),
}
HAS_GCC = shutil.which("gcc") is not None


def fail_conversion(_choices: object, _job: object) -> NoReturn:
    """Raises KeyError, as a conversion with a fault would."""
    raise KeyError("register")


def end_process(_choices: object, _job: object) -> NoReturn:
    """Ends the process of a conversion."""
    os._exit(1)


def write_file(folder: str, name: str, text: str) -> str:
    """Writes a file of a folder. Returns its path."""
    path = os.path.join(folder, name)
    with open(path, "w", encoding="utf-8") as file:
        file.write(text)
    return path


def make_folder(temporary_folder: str) -> str:
    """Writes the folder of mixed files. Returns its path."""
    path = os.path.join(temporary_folder, "mixed")
    os.mkdir(path)
    for name in FROM_HERD:
        write_file(path, f"{name}.litmus", read(f"tools/herd/tests/{name}.litmus"))
    write_file(path, "SB.litmus", read("examples/SB.litmus"))
    write_file(path, "Peterson3.litmus", read("tools/search/tests/Peterson3.litmus"))
    write_file(path, "Waits.litmus", NO_RUN)
    write_file(path, "notes.txt", "not a test\n")
    if HAS_GCC:
        write_file(path, "SB-relaxed.litmus", HERD_C)
        write_file(path, "Cut.c", WITHOUT_QUESTION)
        write_file(path, "StoreBuffering.c", read("examples/from_c/StoreBuffering.c"))
    return path


def list_wanted_rows() -> dict[str, tuple[str | None, ...]]:
    """Returns the expected rows of the folder, by file."""
    return {**ANSWERED, **(PROGRAMS if HAS_GCC else {})}


def remove_times(rows: list[Row]) -> list[Row]:
    """Returns rows without what differs from run to run."""
    return [{key: it for key, it in row.items() if key != "milliseconds"} for row in rows]


class Mixed(cases.Case):
    """One command over a folder of mixed files."""

    room: tempfile.TemporaryDirectory
    folder: str
    out: str
    err: str
    status: int
    rows: list[Row]

    @classmethod
    def setUpClass(cls) -> None:
        """Runs the tool on a folder with files of all kinds."""
        cls.room = tempfile.TemporaryDirectory(prefix="lw-run-all-")
        cls.folder = make_folder(cls.room.name)
        cls.out, cls.err, cls.status = run(["run_all.py", "--as", "json", cls.folder])
        cls.rows = json.loads(cls.out)

    @classmethod
    def tearDownClass(cls) -> None:
        """Removes the folder."""
        cls.room.cleanup()

    def find_row(self, name: str) -> dict[str, None | float | int | list[str] | str]:
        """Returns the row of a file."""
        return next(it for it in self.rows if os.path.basename(it["file"]) == name)

    def test_rows(self) -> None:
        """Each file has a row, sorted by names, with its verdict, how it was converted, and why it is refused; other endings are left out."""
        self.assertEqual(sorted(list_wanted_rows()), [os.path.basename(it["file"]) for it in self.rows])
        for name, expected in list_wanted_rows().items():
            with self.subTest(name):
                self.assertEqual(expected, tuple(self.find_row(name)[key] for key in ("verdict", "observation", "converted", "cause")))

    def test_status(self) -> None:
        """A file without a verdict comes before a refused one."""
        self.assertEqual(6, self.status)

    def test_methods(self) -> None:
        """Each row says by which method its list is made; one that is refused has none, nor a count."""
        by = {it["method"] for it in self.rows if it["verdict"] != "Refused"}
        self.assertEqual({rows.ENUMERATED, rows.SEARCHED} if spawn.is_current() and spawn.is_current("beyond") else by, by)
        refused = [it for it in self.rows if it["verdict"] == "Refused"]
        self.assertEqual({(None, None, None, None)}, {(it["method"], it["states"], it["asked"], it["listed"]) for it in refused})

    def test_weakest_method(self) -> None:
        """A report that is put together from lists of several makers has the method of the weakest."""
        method_of = conversions.choose_method
        makers = answers.Maker
        self.assertEqual(rows.SEARCHED, method_of([makers.BEYOND, makers.PROGRAM]))
        self.assertEqual(rows.SEARCHED_UNPROVED, method_of([makers.SEARCH, makers.BEYOND]))
        self.assertEqual(rows.PLAIN_UNPROVED, method_of([makers.PROGRAM, makers.PLAIN, makers.SEARCH]))

    def test_states(self) -> None:
        """JSON has the states of each test, in the names of the original: registers and locations have their names again."""
        self.assertEqual(SB_HERE.splitlines()[2:6], self.find_row("SB-addresses.litmus")["listed"])
        self.assertEqual(["0:EAX=1; 0:EBX=2;"], self.find_row("Reserved.litmus")["listed"])
        self.assertEqual(["0:r0=0; 1:r0=1;", "0:r0=1; 1:r0=0;", "0:r0=1; 1:r0=1;"], self.find_row("SB.litmus")["listed"])
        for row in self.rows:
            with self.subTest(row["file"]):
                self.assertEqual(row["states"], None if row["listed"] is None else len(row["listed"]))

    def test_notes(self) -> None:
        """Notes are on standard error and in JSON; each refused file has a line with its place."""
        path = os.path.join(self.folder, "MP+filter.litmus")
        self.assertEqual([f"{path}:{FILTERED}"], self.find_row("MP+filter.litmus")["notes"])
        self.assertIn(f"{path}:{FILTERED}", self.err.splitlines())
        for name, (verdict, _, _, cause) in list_wanted_rows().items():
            if verdict == "Refused":
                self.assertIn(f"{os.path.join(self.folder, name)}:{cause}", self.err.splitlines())

    def test_other_forms(self) -> None:
        """CSV and text have the same rows, and a further column for how files were converted and for causes."""
        table = list(csv.DictReader(io.StringIO(run(["run_all.py", "--as", "csv", self.folder])[0])))
        keys = ("file", "verdict", "observation", "method", "converted", "cause")
        self.assertEqual([tuple(it[key] or "" for key in keys) for it in self.rows], [tuple(it[key] for key in keys) for it in table])
        lines = run(["run_all.py", self.folder])[0].splitlines()
        self.assertEqual(["Test", "Asked", "Verdict", "Observation", "States", "ms", "Method", "Converted", "Cause"], lines[0].split())
        self.assertEqual(len(self.rows) + 1, len(lines))
        refused = next(line for line in lines if line.startswith("Less "))
        self.assertTrue("Refused" in refused and refused.endswith("which is the only one that lw has"))

    def test_shards(self) -> None:
        """The tables of all shards, put together in any order, are the whole, with its status; no file is lost, and none is there twice."""
        paths = []
        for number in (3, 1, 2):
            out = run(["run_all.py", "--as", "json", "--shard", f"{number}/3", self.folder])[0]
            paths.append(write_file(self.room.name, f"{number}.json", out))
        out, err, status = run(["run_all.py", "--as", "json", "--merge", *paths])
        self.assertEqual((remove_times(self.rows), self.status), (remove_times(json.loads(out)), status))
        self.assertEqual(sorted(it for it in self.err.splitlines() if "note: " not in it), sorted(err.splitlines()))
        text = run(["run_all.py", "--merge", *paths])[0].splitlines()
        self.assertEqual(len(self.rows) + 1, len(text))
        _, err, status = run(["run_all.py", "--merge", *paths[:2]])
        count = len(self.rows) - len(json.loads(read(paths[2])))
        self.assertEqual((f"run_all: {count} of {len(self.rows)} files are in the tables: there is no table of 2/3\n", 1), (err, status))
        _, err, status = run(["run_all.py", "--merge", paths[0], paths[0]])
        first = json.loads(read(paths[0]))[0]["file"]
        self.assertEqual((f"run_all: {paths[0]}: {first} is in {paths[0]} too\n", 1), (err, status))

    def test_against_itself(self) -> None:
        """A folder of mixed files does not differ from its own earlier run, nor from logs of the original tests, in their names."""
        log = write_file(self.room.name, "log", run(["run_all.py", "--as", "log", self.folder])[0])
        self.assertIn(SB_HERE, read(log))
        _, err, _ = run(["run_all.py", "--against", log, self.folder])
        count = sum(it["verdict"] != "Refused" for it in self.rows)
        self.assertEqual(f"{count} tests against {count} of {log}: 0 differ", err.splitlines()[-1])
        for text, differ in ((LOG_OF_HERD, 0), (LOG_OF_HERD.replace("x=2", "x=3"), 1)):
            path = write_file(self.room.name, "of-herd", text)
            names = [os.path.join(self.folder, f"{name}.litmus") for name in ("SB-addresses", "Cas", "Reserved")]
            _, err, status = run(["run_all.py", "--against", path, *names])
            self.assertEqual((f"3 tests against 3 of {path}: {differ} differ", differ), (err.splitlines()[-1], status))


LOG_OF_HERD = """Test SB-addresses Allowed
Histogram (4 states)
499   *>0:r8=0; 1:r9=0;
12    :>0:r8=0; 1:r9=1;
489   :>0:r8=0x1; 1:r9=0;
1     :>0:r8=1; 1:r9=1;
Ok
Test Cas Allowed
States 2
x=1;
x=2;
Ok
Test Reserved Required
States 1
0:EAX=1; 0:EBX=2;
Ok
"""


class Statuses(cases.Case):
    """Exit statuses, and words that are no command."""

    def test_expected(self) -> None:
        """With --expect-ok a verdict `No` has a status of its own, and a line; `Ok` has not, and without the option neither."""
        out, err, status = run(["run_all.py", "--expect-ok", "--as", "csv", "examples/SB.litmus", "examples/SB-x86.litmus"])
        self.assertEqual(("examples/SB.litmus: the verdict is No, and Ok is expected: Never 0 3\n", 7), (err, status))
        self.assertEqual(3, len(out.splitlines()))
        self.assertEqual(("", 0), run(["run_all.py", "--expect-ok", "examples/SB-x86.litmus"])[1:])
        self.assertEqual(("", 0), run(["run_all.py", "examples/SB.litmus"])[1:])

    def test_expected_by_table(self) -> None:
        """A table says of each test or file what is expected: a verdict or an observation. What is otherwise has a line and status 7."""
        with tempfile.TemporaryDirectory() as folder:
            names = ["examples/SB.litmus", "examples/SB-x86.litmus", "tools/herd/tests/Less.litmus"]
            for lines, status, message in (
                ("# kinds\nSB No  # by interleaving\nSB-x86 Sometimes\nLess Refused\n", 0, ""),
                ("examples/SB.litmus Forbidden\nSB-x86.litmus Allowed\ntests/Less.litmus Refused\n", 0, ""),
                ("SB Ok\nLess Refused\n", 7, "examples/SB.litmus: the verdict is No, and Ok is expected: Never 0 3\n"),
                ("SB-x86 Forbid\nLess Refused\n", 7, "examples/SB-x86.litmus: the verdict is Ok, and Forbid is expected: Sometimes 1 3\n"),
                ("SB-x86 Required\nexamples/SB-x86.litmus Allow\nLess Refused\n", 0, ""),
                ("Less Ok\n", 7, f"{names[2]}: the verdict is Refused, and Ok is expected\n"),
                ("SB Refused\nLess Refused\n", 7, "examples/SB.litmus: the verdict is No, and Refused is expected: Never 0 3\n"),
                ("SB No\n", 1, f"{names[2]}:6:2: 'JL'"),
                ("MP Never\n", 1, ": no file here is meant by MP\n"),
            ):
                path = write_file(folder, "kinds.txt", lines)
                _, err, ended = run(["run_all.py", "--expect", path, *names])
                with self.subTest(lines):
                    self.assertEqual(status, ended)
                    self.assertTrue(message in err and (message or "expected" not in err))
            path = write_file(folder, "kinds.txt", "SB No\n")
            self.assertEqual(("", 0), run(["run_all.py", "--expect-ok", "--expect", path, *names[:2]])[1:])
            message = "examples/SB.litmus: the verdict is No, and Ok is expected: Never 0 3\n"
            table = write_file(folder, "table", run(["run_all.py", "--as", "json", *names[:2]])[0])
            self.assertEqual((message, 7), run(["run_all.py", "--expect-ok", "--merge", table])[1:])
            self.assertEqual(("", 0), run(["run_all.py", "--expect-ok", "--expect", path, "--merge", table])[1:])
            self.assertEqual(("", 0), run(["run_all.py", "--expect", path, "--shard", "1/2", *names[:2]])[1:])

    def test_no_table(self) -> None:
        """A table that is none is refused, with its line."""
        with tempfile.TemporaryDirectory() as folder:
            words = ", ".join(expected.WORDS)
            for lines, message in (
                ("SB\n", f":1: a line has a name and one of {words}\n"), ("\nSB Maybe\n", f":2: a line has a name and one of {words}\n"),
                ("SB Ok\nSB No\n", ":2: 'SB' is expected to be Ok before\n"),
            ):
                path = write_file(folder, "kinds.txt", lines)
                with self.subTest(lines):
                    self.assertEqual(("", f"run_all: {path}{message}", 1), run(["run_all.py", "--expect", path, "examples/SB.litmus"]))
            self.assertEqual("run_all: nowhere: No such file or directory\n", run(["run_all.py", "--expect", "nowhere", "examples/SB.litmus"])[1])

    def test_names(self) -> None:
        """The text says of which file a row is, if two tests have one name, and only then."""
        with tempfile.TemporaryDirectory() as folder:
            path = write_file(folder, "other.litmus", read("examples/SB.litmus"))
            lines = run(["run_all.py", "examples/SB.litmus", path])[0].splitlines()
            self.assertEqual(["Test", "File", "Asked"], lines[0].split()[:3])
            self.assertEqual([["SB", "examples/SB.litmus"], ["SB", path]], [it.split()[:2] for it in lines[1:]])
            self.assertEqual(["Test", "Asked"], run(["run_all.py", "examples/SB.litmus"])[0].split()[:2])

    def test_sequence(self) -> None:
        """A contradiction by a machine comes first; then a verdict that is not Ok, a file without a verdict, and one that is refused."""
        row = rows.make_refused_row("a", "why")
        verdicts = [row._replace(verdict=it) for it in ("Ok", "No", rows.NO_VERDICT, rows.REFUSED)]
        with mock.patch.object(sys, "stderr", io.StringIO()):
            import run_all

            chosen = [statuses.choose_status({0} | run_all.report_rows(verdicts[begin:], Expected(None, True))) for begin in (0, 1, 2, 3)]
            self.assertEqual([7, 7, 6, 1], chosen)
            self.assertEqual(6, statuses.choose_status(run_all.report_rows(verdicts, Expected(None, False))))
            self.assertEqual(answers.NO_VERDICT, statuses.NO_VERDICT)
            self.assertEqual(3, statuses.choose_status({statuses.SEEN_AND_NOT_LISTED, 7, 6}))

    def test_tries_and_order(self) -> None:
        """Runs go through loops as often as --tries says; --order decides if marks contradict one another."""
        out, _, status = run(["run_all.py", "--as", "csv", "--tries", "2", "tools/herd/tests/Spin.litmus"])
        self.assertEqual((True, 0), ("loops gone through at most 2 times" in out, status))
        _, err, status = run(["run_all.py", "--tries", "0", "tools/herd/tests/Loop.litmus"])
        message = "a jump leads backward: --tries N goes through each loop N times at most"
        self.assertEqual((f"6:6: the jump to 'L' does not go forward; in herd's form: {message}", 1), (err.partition(".litmus:")[2].strip(), status))
        self.assertEqual(1, run(["run_all.py", "tools/herd/tests/MixedOrder.litmus"])[2])
        self.assertEqual(0, run(["run_all.py", "--order", "att", "tools/herd/tests/MixedOrder.litmus"])[2])

    def test_no_command(self) -> None:
        """Words that are no command have status 2, and nothing is run; options may be between the names."""
        for words in (["--shard", "0/3"], ["--shard", "4/3"], ["--shard", "1"], ["--shard", "1/"], ["--shard", "-1/3"], ["--tries", "-1"],
                      ["--merge"], ["--merge", "a", "--shard", "1/2"], ["--merge", "a", "--as", "log"], ["--merge", "a", "--against", "b"],
                      ["--against", ""], ["--machine-log"], ["--as"], ["--cc", " "]):
            with self.subTest(words):
                out, err, status = run(["run_all.py", "examples/SB.litmus", *words] if words[0] != "--merge" else ["run_all.py", *words])
                self.assertEqual(("", 2), (out, status))
                self.assertTrue(err.splitlines()[-1].startswith("run_all: "))
        out = run(["run_all.py", "examples/SB.litmus", "--as", "csv", "examples/MP.litmus"])[0]
        self.assertEqual(["name", "SB", "MP"], [line.split(",")[1] for line in out.splitlines()])

    @unittest.skipUnless(HAS_GCC, "there is no gcc")
    def test_compiler(self) -> None:
        """--cc names the compiler of C; one that does not start refuses the file, and no other."""
        out, err, status = run(["run_all.py", "--as", "csv", "--cc", "no-cc -O1", "examples/SB.litmus", "examples/from_c/StoreBuffering.c"])
        self.assertEqual(("examples/from_c/StoreBuffering.c: the compiler 'no-cc' does not start: No such file or directory\n", 1), (err, status))
        self.assertEqual(["No", "Refused"], [line.split(",")[3] for line in out.splitlines()[1:]])
        out = run(["run_all.py", "--as", "csv", "--cc", "gcc -O0", "examples/from_c/StoreBuffering.c"])[0]
        self.assertIn('"from_c.py, gcc -O0: 1 test"', out)


class Parts(cases.Case):
    """Shards, and tables of shards."""

    def test_split(self) -> None:
        """A split is stable: it does not depend on the order of the names. All parts together are all files, and none is in two."""
        names = [f"{number:02}" for number in range(10)]
        for of in (1, 3, 10, 12):
            parts = [files.select_shard(names, files.Shard(number, of)) for number in range(1, of + 1)]
            self.assertEqual(names, sorted(it for part in parts for it in part))
            self.assertEqual(parts, [files.select_shard(names[::-1] + names[:3], files.Shard(number, of)) for number in range(1, of + 1)])
            self.assertTrue(max(map(len, parts)) - min(map(len, parts)) <= 1)

    def test_empty_shards(self) -> None:
        """Shards without a file are put together with the others."""
        with tempfile.TemporaryDirectory(prefix="lw-run-all-") as folder:
            paths = []
            for number in (1, 2):
                out, _, status = run(["run_all.py", "--as", "json", "--shard", f"{number}/2", "examples/SB.litmus"])
                self.assertEqual(0, status)
                paths.append(write_file(folder, f"{number}.json", out))
            self.assertEqual([], json.loads(read(paths[1])))
            out, _, status = run(["run_all.py", "--as", "csv", "--merge", *paths])
            self.assertEqual((["file", "examples/SB.litmus"], 0), ([line.split(",")[0] for line in out.splitlines()], status))

    def test_seen(self) -> None:
        """A state that a machine showed and that is not listed gives the table that has it the status of the run."""
        row = rows.make_refused_row("a", "why")._replace(verdict="Ok", cause=None)
        with tempfile.TemporaryDirectory(prefix="lw-run-all-") as folder:
            for seen, expected in (("4 of 4", 0), ("4 of 4, and 1 not listed", 3)):
                path = write_file(folder, "table", json.dumps([row._replace(seen=seen)._asdict()]))
                out, _, status = run(["run_all.py", "--as", "json", "--merge", path])
                self.assertEqual((seen, expected), (json.loads(out)[0]["seen"], status))

    def test_no_tables(self) -> None:
        """A file that is no table, or was cut off, is refused by name, and nothing is printed; so are tables of two splits."""
        row = {**rows.make_refused_row("a", "why")._asdict()}
        with tempfile.TemporaryDirectory(prefix="lw-run-all-") as folder:
            whole = write_file(folder, "whole", json.dumps([row]))
            other = json.dumps([{**row, "file": "b", "part": "1/2", "parts": 2}])
            third = write_file(folder, "third", json.dumps([{**row, "file": "c", "part": "2/3", "parts": 2}]))
            for text, why in (("[{", "no whole table"), ("", "no whole table"), ("{}", "no table"), ('[{"file": 1}]', "no table"),
                              (json.dumps([{**row, "part": 3}]), "no table")):
                path = write_file(folder, "faulty", text)
                with self.subTest(text):
                    out, err, status = run(["run_all.py", "--merge", whole, path])
                    expected = f"run_all: {path}: it is {why} of --as json"
                    self.assertEqual(("", 1, expected), (out, status, err[: len(expected)]))
            path = write_file(folder, "other", other)
            for names in ([whole, path], [path, third]):
                self.assertEqual(("", "run_all: the tables are not of shards of one split\n", 1), run(["run_all.py", "--merge", *names]))
            self.assertEqual(("", f"run_all: {folder}/none: No such file or directory\n", 1), run(["run_all.py", "--merge", f"{folder}/none"]))


class Answers(cases.Case):
    """The makers of answers."""

    def test_not_built(self) -> None:
        """Without the programs of the sources nothing is said to be proved."""
        output = io.StringIO()
        with mock.patch.object(spawn, "is_current", lambda name="lw": False), mock.patch.object(sys, "stderr", output):
            done = lists.answer_all([f"{HOME}/examples/SB.litmus"], lists.Choices(1, None, None), lambda _: None)
        self.assertEqual([rows.PLAIN_UNPROVED], [it.row.method for it in done])
        self.assertIn("answered by tools/plain.py, not proved", output.getvalue())

    def test_faulty_conversion(self) -> None:
        """A conversion that fails, or whose process ends, makes a row that says so, and the other files are answered."""
        for conversion, why in ((fail_conversion, "KeyError: 'register'"), (end_process, "BrokenProcessPool: ")):
            with mock.patch.object(conversions, "answer_file", conversion):
                done = lists.answer_all([f"{HOME}/examples/SB.litmus", "a.c", "b.c"], lists.Choices(1, None, None), lambda _: None)
            self.assertEqual(["No", "Refused", "Refused"], [it.row.verdict for it in done])
            for row in done[1:]:
                self.assertIn(f"the conversion failed, which is a fault of it: {why}", row.row.cause)

    def test_missing(self) -> None:
        """A file that is not there is a row, and the others are answered."""
        for name in ("nowhere.litmus", "nowhere.c"):
            out, err, status = run(["run_all.py", "--as", "json", name, "examples/SB.litmus"])
            self.assertEqual((f"{name}: No such file or directory\n", 1), (err, status))
            self.assertEqual([("nowhere", "Refused", "No such file or directory"), ("SB", "No", None)],
                             [(it["name"], it["verdict"], it["cause"]) for it in json.loads(out)])

    def test_addresses(self) -> None:
        """States of programs are compared by their addresses, and by the bytes after the start of a global, too."""
        states = ["0:p=&x; x+8=1; y+8=1;", "0:p=&y; x+8=1; y+8=1;", "0:p=&y; x+8=1; y+8=2;", "0:p=0; x+8=2; y+8=1;"]
        states_read = logs.parse_states(["Test A Allowed", "States 4", *states, "Ok"])["A"]
        self.assertEqual({frozenset(line.rstrip(";").split("; ")) for line in states}, states_read)

    def test_two_names(self) -> None:
        """Two files of one name with different states are not compared."""
        lists_read = logs.collect_lists([])
        for line in ("x=1;", "x=2;"):
            logs.add_converted(lists_read, f"Test A Allowed\nStates 1\n{line}\nOk\n", [], 0)
        self.assertEqual(logs.TWO_FILES, lists_read.own["A"].why)

    def test_columns(self) -> None:
        """A table of tests of lw has the columns that it has always had; what only some rows have makes columns of its own."""
        row = rows.make_refused_row("a", "why")
        self.assertEqual(list(rows.ALWAYS), table.list_columns([row._replace(cause=None)]))
        self.assertEqual([*rows.ALWAYS, "cause"], table.list_columns([row._replace(cause=None), row]))
        self.assertEqual([*rows.ALWAYS, "seen", "converted", "cause"], table.list_columns([row._replace(seen="1 of 1", converted="by")]))


def describe_skipped() -> str | None:
    """Returns the line on skipped parts. None if there are none."""
    return None if HAS_GCC else "run_all.py on C was left out: there is no gcc"


if __name__ == "__main__":
    sys.exit(cases.main())
