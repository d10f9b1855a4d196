"""Tests what tools/gate/check_names.py finds in pages that name what does not exist, and tools/gate/check_trusted.py in docs/TRUSTED.md.

    python3 tools gate.test_names, or in tools/ python3 -m unittest gate.test_names

tools/check_documents.py calls this (tools/gate/cases.py).
"""
from __future__ import annotations

import sys

from gate import cases
from gate.check_names import (
    RELATION, Names, find_crate_path_faults, find_linked_name_faults, find_logic_faults, find_path_faults, find_table_faults, parse_crate_rows,
)
from gate.check_trusted import PAGE, find_differences, read_text

LINES: dict[str, list[str]] = {"lw_base": [], "lw_text": ["lw_base"], "lw_bench": ["lw_base"], "lw_order_tests": ["lw_base", "lw_text"]}
TABLE = """| Wing | Crate | Its one job | Names |
|---|---|---|---|
| both | lw_base | types | std |
| reading | lw_text | texts | lw_base |
| top | lw_bench | runs | all of the above but lw_text |
| tests | lw_order_tests | tests | lw_base, lw_text |
"""
PATHS: tuple[tuple[str, str, list[str]], ...] = (
    ("a link to a file", "see [a](../crates/lw_base/none.rt)", ["docs/X.md links to ../crates/lw_base/none.rt, which is not there"]),
    ("a link to a page and a place in it", "see [a](MAP.md#x), [b](https://example.org/none)", []),
    ("a path in a command", "`python3 tools/none.py --write`", ["docs/X.md names tools/none.py, which is not there"]),
    ("a module in a command", "`python3 tools gate.none --write`", ["docs/X.md names tools/gate/none, which is not there"]),
    ("a path in a sentence", "as examples/none shows", ["docs/X.md names examples/none, which is not there"]),
    ("files that are there", "tools/fences.py, `python3 tools gate.test_names`, `examples/SB+own.litmus`, examples/SB, crates/lw_base/specs/Outcomes", []),
    ("what stands for a name", "`examples/NAME.litmus`, `tools/*.py`, crates/lw/out/lw", []),
)
# Texts that name paths below crates, each with the paths and the crates of its faults. The first two are of docs/CONTRIBUTING.md as it once was.
CRATE_PATHS: tuple[tuple[str, str, list[str]], ...] = (
    ("a path after one of its crate", "6. The library: `lw_library/src/exports.rt` and `specs/Told.antt`, `include/lw.h`", ["specs/Told.antt of lw_library"]),
    (
        "paths after a crate",
        "in three files of lw_base: `MAX_THREADS` in `src/limits.rt`, `most_threads` in `specs/Limits.antt`, and\n`Cpu::all` in `src/number.rt`",
        ["src/number.rt of lw_base"],
    ),
    ("a path with its crate", "`lw_base/src/none.rt`", ["src/none.rt of lw_base"]),
    ("a crate after the path", "lw_base has none; `src/cpu_set.rt` of lw_mesi, `src/limits.rt` of lw_mesi", ["src/limits.rt of lw_mesi"]),
    ("a path of some crate", "`specs/inner/`, `proofs/api/`, `src/none.rt`", ["src/none.rt of a crate"]),
    ("another item, paragraph or row", "- lw_base\n- `src/cpu_set.rt`\n\nlw_base\n\n`src/cpu_set.rt`\n| lw_base |\n| `src/cpu_set.rt` |", []),
    ("a word that is no crate", "lw_base, `lw_states`, `src/limits`", []),
    ("a declaration", "`specs/laws/Cases.LineAfterRequest-after_write`, `specs/laws/Cases.none` of lw_mesi", ["specs/laws/Cases.none of lw_mesi"]),
    ("a placeholder", "lw_base: `proofs/FILE/FUNCTION/Answers.antt`", []),
)
LOGIC = "logic dac8208d650f15bf"
PROOF = """-- Why `gone` is not here.
abbrev pub IsFound : Type 0
  pub run-found : (n : ℕ)
pub record Expansion (n : ℕ) : Type 0 where
  one : Unit
"""
CODE = "pub fn reach(n: u8)\n    ensures made { n ≡ 0 }\n{}\n"
# The end of a log of a build, as the toolchain prints it: the first three functions of a crate, and how many.
BUILT = """axioms libc: libc::chdir, libc::read, libc::write, ... (4 of the 128 declared)
axioms os: os::c::rattle_arg (1 of the 22 declared)
axioms std: none reached of the 2 declared
logic=proved functions=12 axioms=5 sum=dac8 logic-built=trusted incremental=trusted
linked target=x86_64 files=out/lw.o,/opt/rattle/c/libos_c.a
"""
TRUSTED = "".join(f"    {it}\n" for it in BUILT.splitlines()) + """
| Function | Says |
|---|---|
| `libc::chdir` | a |
| `libc::read` | a |
| `libc::write` | a |
| `libc::zero` | a |
| `os::c::rattle_arg` | a |
"""


class Table(cases.Case):
    """The table of crates of docs/MAP.md beside crates.txt."""

    def test_same(self) -> None:
        """A table that is as crates.txt has no fault; `std` is no crate, and a row may name all above."""
        self.assertEqual([], list(find_table_faults(parse_crate_rows(TABLE), LINES)))

    def test_crate_of_any_name(self) -> None:
        """A crate needs no row less because its name begins otherwise; the head of the table is no row."""
        rows = parse_crate_rows(TABLE + "| top | beyond | a program | lw_base |\n")
        self.assertEqual([*LINES, "beyond"], list(rows))
        self.assertEqual([], list(find_table_faults(rows, {**LINES, "beyond": ["lw_base"]})))

    def test_crate_that_is_not_named_there(self) -> None:
        """A row that names a further crate is a fault, and so is one that lacks a crate."""
        for named in ("lw_base, lw_text, linked_list_allocator", "lw_base"):
            with self.subTest(named):
                faults = list(find_table_faults(parse_crate_rows(TABLE.replace("lw_base, lw_text |", f"{named} |")), LINES))
                self.assertEqual(["lw_order_tests"], [it.split()[3] for it in faults])

    def test_rows(self) -> None:
        """A crate without a row, and a row without a crate, are faults."""
        self.assertEqual(
            ["docs/MAP.md has no row for lw_more, which crates.txt has"],
            list(find_table_faults(parse_crate_rows(TABLE), {**LINES, "lw_more": []})),
        )
        self.assertEqual(
            ["docs/MAP.md has a row for lw_text, which crates.txt has not"],
            [it for it in find_table_faults(parse_crate_rows(TABLE), {it: LINES[it] for it in LINES if it != "lw_text"}) if "row" in it],
        )


class Paths(cases.Case):
    """Links and whole paths of a page."""

    def test_paths(self) -> None:
        """A link or a path that leads to nothing is reported."""
        for subject, text, expected in PATHS:
            with self.subTest(subject):
                self.assertEqual(expected, list(find_path_faults("docs/X.md", text)))

    def test_paths_below_crates(self) -> None:
        """A path that a sentence places below a crate is reported if that crate does not have it."""
        crates = Names().crates
        for subject, text, expected in CRATE_PATHS:
            with self.subTest(subject):
                faults = list(find_crate_path_faults("docs/X.md", text, crates))
                self.assertEqual([f"docs/X.md names {it}, which is not there" for it in expected], faults)

    def test_relation_of_proofs(self) -> None:
        """A relation that only proofs define is none for a page on contracts, even if it has arguments there."""
        names = Names()
        self.assertEqual((True, False), ("IsStatesReport" in names.defined, "IsDone" in names.defined))
        self.assertEqual(["IsDone", "HasRows"], RELATION.findall("IsDone States, HasRows t and AIsB"))

    def test_path_with_sign(self) -> None:
        """A path with a `+` is checked too."""
        names = Names()
        self.assertEqual((True, False), (names.exists("examples/SB+own.litmus", False), names.exists("examples/SB+none.litmus", False)))

    def test_path_of_a_build(self) -> None:
        """A path in a folder out/ is not checked: a clean checkout has none."""
        names = Names()
        self.assertEqual([None, None, None], [names.exists(it, False) for it in ("crates/lw/out/none", "out/none.o", "out/")])


class LinkedNames(cases.Case):
    """Names that link to the files that declare them."""

    def test_declared(self) -> None:
        """A name that the linked file does not declare is reported; a name in a comment is not declared."""
        files = {"crates/a/proofs/X.antt": PROOF, "crates/a/src/x.rt": CODE}
        for path, names, expected in (
            ("crates/a/proofs/X.antt", ("IsFound", "run-found", "Expansion", "one"), 0),
            ("crates/a/proofs/X.antt", ("gone", "run", "found", "reach"), 4),
            ("crates/a/src/x.rt", ("reach", "made"), 0),
            ("crates/a/src/x.rt", ("rea", "n"), 2),
            ("crates/a/src/none.rt", ("reach",), 0),
        ):
            with self.subTest(path=path, names=names):
                text = " ".join(f"[`{it}`](../{path})" for it in names)
                self.assertEqual(expected, len(list(find_linked_name_faults("docs/X.md", text, files.get))))


class Trusted(cases.Case):
    """docs/TRUSTED.md beside a verdict."""

    def test_same(self) -> None:
        """A page that has the verdict has no fault, wherever the toolchain is, and also if `rt ci` has printed it, among others."""
        self.assertEqual([], find_differences(BUILT, TRUSTED))
        self.assertEqual([], find_differences(BUILT.replace("/opt/rattle", "/kit"), TRUSTED))
        of_ci = BUILT.replace(" incremental=trusted", "").partition("linked")[0]
        others = "logic=proved functions=1 axioms=2 sum=dac8\n"
        self.assertEqual([], find_differences(f"== lw_bench\n{others}== lw\n{of_ci}== lw_run_tests: its tests\n{others}", TRUSTED))

    def test_linked_twice(self) -> None:
        """`rt ci` links the program as two compilers make it, and the page has the first."""
        twice = BUILT + "linked target=x86_64 files=out/lw.by-rattle.o,/opt/rattle/c/libos_c.a\n"
        self.assertEqual([], find_differences(f"== lw\n{twice}== lw_library\nlogic=proved\n", TRUSTED))

    def test_listed(self) -> None:
        """A report with a line for each function is compared by all of them."""
        names = "libc::chdir libc::read libc::write libc::zero".split()
        lines = "".join(f"  {it}   reached\n" for it in names) + "  libc::open\n"
        listed = f"axioms libc: 4 reached of the 128 declared\n{lines}{BUILT.partition('declared)')[2]}"
        self.assertEqual([], find_differences(listed, TRUSTED))
        self.assertEqual(1, len(find_differences(listed.replace("libc::zero", "libc::one"), TRUSTED) or ()))

    def test_differing(self) -> None:
        """Each number, word, function and file that differs is reported."""
        for old, new in (
            ("functions=12", "functions=13"),
            ("sum=dac8", "sum=dac9"),
            (" incremental=trusted", " incremental=trusted cache=trusted"),
            (" logic-built=trusted", ""),
            ("(4 of", "(5 of"),
            ("libc::read", "libc::open"),
            ("axioms os: os::c::rattle_arg (1 of the 22 declared)", "axioms os: none reached of the 22 declared"),
            ("libos_c.a", "libmore_c.a"),
        ):
            with self.subTest(old=old, new=new):
                self.assertEqual(1, len(find_differences(BUILT.replace(old, new), TRUSTED) or ()))

    def test_no_verdict(self) -> None:
        """A log without a verdict of `lw` is not compared, and a page without one is reported."""
        for log in ("", "fn lw::main: not proved\nlogic=not-proved\n", "== lw\nrt: lw is kept\n== beyond\n" + BUILT):
            with self.subTest(log=log):
                self.assertEqual(None, find_differences(log, TRUSTED))
        self.assertEqual(["docs/TRUSTED.md has no verdict"], find_differences(BUILT, "no verdict\n"))

    def test_page(self) -> None:
        """The page itself has rows for the number of functions that its verdict says."""
        page = read_text(PAGE)
        self.assertEqual([], find_differences("\n".join(it[4:] for it in page.splitlines() if it.startswith("    ")), page))


class Logic(cases.Case):
    """The logic that README.md names."""

    def test_logic(self) -> None:
        """README.md names the logic of `rt version`, whatever the kit is called; without an rt it names some logic."""
        for page, printed, fault_count in (
            (f"proved with\n\n    {LOGIC}\n", f"rattle-kit-13f {LOGIC}\n", 0),
            (f"proved with {LOGIC}", "", 0),
            (f"proved with {LOGIC}", "rattle-kit-13f logic 0000000000000000\n", 1),
            ("proved with rattle-kit-13b", "", 1),
        ):
            with self.subTest(page=page, told=printed):
                self.assertEqual(fault_count, len(list(find_logic_faults(page, printed))))


if __name__ == "__main__":
    sys.exit(cases.main())
