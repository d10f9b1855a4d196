"""Tests that the wheel and the package for Debian are well formed, and answer when they are installed.

    python3 tools gate.test_packages, or in tools/ python3 -m unittest gate.test_packages

- The wheel of tools/make_wheel.py is installed by pip in a venv without a network, and answers as the program: by its commands, by
  `python -m lw`, from Python, and by its tools.
- The package of tools/make_deb.py is unpacked by dpkg-deb in a folder, and as root in a container of files with only glibc, a shell and
  Python; there its commands answer by their names, and programs in C and Python use the library.
- What their descriptions say of the commit, of the gate and of the licence; checksums; and that the same tree gives the same bytes.

They are made from the built tree. What is missing is skipped, and a line says so. tools/check_documents.py calls all this
(tools/gate/cases.py).
"""
from __future__ import annotations

import base64
import contextlib
import email
import glob
import gzip
import hashlib
import importlib.util
import io
import os
import re
import runpy
import shutil
import subprocess
import sys
import tempfile
import unittest
import zipfile
from collections.abc import Callable
from typing import Any
from unittest import mock

import make_deb
import make_wheel
import pack
from editor import grammar
from gate import cases, check_library, container
from gate.examples import read
from packing import completion, manual, tree
from page import web_files
from shared import start
from shared.home import HOME, PROGRAM

TEST = f"{HOME}/examples/SB-x86.litmus"
PAST_LIMITS = f"{HOME}/examples/beyond/3.TryLock.litmus"
FENCED = f"{HOME}/examples/SB+mfences-x86.litmus"
ORIGIN = tree.Origin("0123456789abcdef0123456789abcdef01234567", 1795826399, "kit logic 0", "1 passed, 0 failed")
VERSION_BY_LIBRARY = "import lw; print(lw.version())"
BY_LIBRARY = "import sys, lw; sys.stdout.write(lw.Workbench().states(open(sys.argv[1], 'rb').read()).text.decode())"
WARNING = (
    "note: the gate (./test.sh) has not passed for these sources in this checkout; whether it has elsewhere, nothing here says; "
    "that the library is that of these sources was not checked; what is made says so"
)
# Commands of tools/ that are no commands of those who install: for lists if beyond is not built, and for other tools.
HELPERS = ("__main__", "beyond", "build_wasm", "random_tests", "replay_state")
# For each command that pip makes its name, the module of tools/ that it runs, and whether the module exists.
ENTRY_POINTS = """
import os
from importlib import metadata
for it in sorted(metadata.distribution("lw").entry_points, key=lambda it: it.name):
    module, = it.load().args
    path = os.path.join(os.path.dirname(__import__("lw").__file__), "tools", module)
    print(it.name, module, os.path.isfile(f"{path}.py") or os.path.isfile(f"{path}/__main__.py"))
"""
# Words of `python -m lw`: the program, the words that it gets, and the file that is its input.
PARTED = (
    ("lw", "states", "states", None),
    ("lw", "states FILE", "states", "FILE"),
    ("lw", "states -", "states", "-"),
    ("lw", "states --help", "states --help", None),
    ("lw", "states FILE FILE", "states FILE FILE", None),
    ("lw", "state FILE", "state FILE", None),
    ("lw", "", "", None),
    ("lw", "FILE", "FILE", None),
    ("lw", "replay P0", "replay P0", None),
    ("lw", "replay P0 FILE", "replay P0", "FILE"),
    ("lw", "replay P0 --protocol", "replay P0 --protocol", None),
    ("lw", "replay P0 --protocol moesi", "replay P0 --protocol moesi", None),
    ("lw", "replay P0 --protocol moesi FILE", "replay P0 --protocol moesi", "FILE"),
    ("beyond", "states", "states", None),
    ("beyond", "--search --budget 10 states FILE", "--search --budget 10 states", "FILE"),
    ("beyond", "marks FILE", "marks", "FILE"),
    ("beyond", "schedules --method", "schedules --method", None),
    ("beyond", "--budget 10", "--budget 10", None),
)
def describe_missing() -> str | None:
    """Returns the part that is not built, or None."""
    is_there = check_library.is_built() and web_files.read_module() and os.path.exists(PROGRAM)
    return None if is_there else "the program, the library or its module is not built, or cc is missing"


def describe_skipped() -> str | None:
    """Returns the line that says what is left out, or None."""
    if describe_missing():
        return f"the wheel and the package for Debian were not tried, since {describe_missing()}"
    left_out = [] if has_venv() else ["the wheel was not installed, since venv or pip is missing"]
    left_out += [] if shutil.which("dpkg-deb") else ["the package for Debian was not unpacked, since dpkg-deb is missing"]
    return "; ".join(left_out) or None


def has_venv() -> bool:
    """Returns whether this Python makes a venv, and there is pip for it."""
    return has_module("venv") and (has_module("pip") or has_module("ensurepip"))


def has_module(module: str) -> bool:
    """Returns whether this Python has a module."""
    return importlib.util.find_spec(module) is not None


def capture_merged(arguments: list[str], file: str | None = None, **options: Any) -> tuple[str, int]:
    """Returns what a command prints on both streams together, and its exit status. Its input is a file, or nothing."""
    with open(file or os.devnull, "rb") as stream:
        ran = subprocess.run(arguments, stdin=stream, stdout=subprocess.PIPE, stderr=subprocess.STDOUT, check=False, **options)
    return ran.stdout.decode(), ran.returncode


def find_status(main: Callable[[], int]) -> object:
    """Returns the exit status of a command's `main`."""
    try:
        return main()
    except SystemExit as ended:
        return ended.code


def run_program(*arguments: str, file: str = TEST) -> tuple[str, int]:
    """Returns what the program prints on a file, on both streams together, and its exit status."""
    return capture_merged([PROGRAM, *arguments], file)


class Packed(cases.Case):
    """The packages of the built tree, in a folder."""

    room: str
    files: dict[str, bytes]
    settings: dict[str, Any]

    @classmethod
    def setUpClass(cls) -> None:
        """Gathers the files that are packed. Raises SkipTest if a part is not built."""
        if describe_missing():
            raise unittest.SkipTest(str(describe_missing()))
        room = tempfile.TemporaryDirectory(prefix="lw-packed-")
        cls.addClassCleanup(room.cleanup)
        cls.room, cls.files = room.name, tree.read_files()
        # Nothing of this user's or of this folder's settings.
        cls.settings = {"env": {"PATH": "/usr/bin:/bin", "HOME": cls.room}, "cwd": cls.room}


class Origins(cases.Case):
    """Versions, and what is said of where something comes from."""

    def test_versions(self) -> None:
        """A version is the commit's time (UTC) and its digits; later commits have greater versions."""
        for seconds, version in ((0, "19700101.0"), (1795826399, "20261128.39"), (1795826399 + 3600, "20261128.139")):
            self.assertEqual(f"{tree.read_library_version()}.{version}+g01234567", ORIGIN._replace(seconds=seconds).version)

    def test_gate(self) -> None:
        """A gate that has not passed is named in the description and on standard error; so is a program that is left out."""
        unproved = ORIGIN._replace(gate=pack.NO_GATE)
        self.assertIn("The gate (./test.sh): 1 passed, 0 failed\n", tree.describe_provenance(ORIGIN, True))
        self.assertEqual([], tree.make_warning(ORIGIN, True))
        self.assertIn("and that the gate\nended as it says above", tree.describe_provenance(ORIGIN, True))
        self.assertIn(f"The gate (./test.sh): {pack.NO_GATE}\n", tree.describe_provenance(unproved, True))
        self.assertIn("\nThat the library is that of these sources was not checked", tree.describe_provenance(unproved, True))
        self.assertEqual([WARNING], tree.make_warning(unproved, True))
        self.assertIn("The program beyond is not in it", tree.describe_provenance(ORIGIN, False))
        self.assertEqual(["note: the program beyond is not built, and left out"], tree.make_warning(ORIGIN, False))

    def test_tools(self) -> None:
        """Each command of tools/ that is in the tree is installed as a command, or one of those that help others; and no other."""
        packed = [*(it for it in pack.FILES if re.fullmatch(r"tools/\w+\.py", it)), tree.find_tool("page")]
        run_by_name = {it for it in packed if '__name__ == "__main__"' in read(it)}
        self.assertEqual(sorted(run_by_name), sorted({tree.find_tool(it) for it in [*tree.TOOLS, *HELPERS]}))

    def test_gate_of_sources(self) -> None:
        """The gate's verdict on other sources does not count for these."""
        made_of = ["crates.txt", "kit", "version", "the sum of these"]
        for sum_of_gate, gate in (("the sum of others", pack.NO_GATE), (None, pack.NO_GATE), ("the sum of these", "5 passed, 0 failed")):
            ended = [sum_of_gate, "5 passed, 0 failed"] if sum_of_gate else []
            read_lines = lambda path, ended=ended: ended if path.endswith("/gate") else made_of
            with mock.patch.multiple(pack, find_commit=lambda: ORIGIN.commit, capture_lines=lambda *_: ["5"], read_lines=read_lines):
                self.assertEqual((ORIGIN.commit, 5, "5", gate), tuple(tree.read_origin()))

    def test_refusals(self) -> None:
        """Words that are none end with status 2; what is missing ends with status 1 and a line, and nothing is written."""
        for tool in (make_wheel, make_deb):
            for words, why, status in (("", None, 2), ("-x", None, 2), ("a b", None, 2), ("FOLDER", "files differ", 1)):
                errors = io.StringIO()
                with tempfile.TemporaryDirectory() as folder, contextlib.redirect_stderr(errors):
                    argv = ["tool", *words.replace("FOLDER", os.path.join(folder, "folder")).split()]
                    with mock.patch.object(sys, "argv", argv), mock.patch.object(pack, "find_commit", side_effect=pack.NoPack(why)):
                        self.assertEqual((status, []), (find_status(tool.main), os.listdir(folder)))
                self.assertIn(why or "usage: python3 tools/make_", errors.getvalue())

    def test_glibc(self) -> None:
        """The version of glibc is the greatest that a program names."""
        names = b"\0GLIBC_2.2.5\0GLIBC_2.34\0GLIBC_PRIVATE\0", b"\0GLIBC_2.9\0"
        self.assertEqual((2, 34), tree.find_least_glibc([*names]))


class Words(cases.Case):
    """The words of `python -m lw`."""

    def test_words(self) -> None:
        """A word after a command is its file."""
        parted = runpy.run_path(os.path.join(make_wheel.PACKAGE, "__main__.py"), run_name="words")["split_arguments"]
        for name, words, expected, file in PARTED:
            with self.subTest(words):
                self.assertEqual((expected.split(), file), parted(name, words.split()))


class Wheel(Packed):
    """The wheel of the built tree: its name, its description and its files."""

    path: str
    inside: dict[str, tuple[bytes, int]]  # for each name its bytes and its mode

    @classmethod
    def setUpClass(cls) -> None:
        """Makes a wheel, and reads what is in it."""
        super().setUpClass()
        cls.path = make_wheel.write_wheel(cls.room, ORIGIN, cls.files)
        with zipfile.ZipFile(cls.path) as archive:
            cls.inside = {info.filename: (archive.read(info), info.external_attr >> 16) for info in archive.infolist()}

    def test_name(self) -> None:
        """Its name has the version, and the glibc that its programs need."""
        name = r"lw-\d+\.\d+\.20261128\.39\+g01234567-py3-none-manylinux_2_\d+_x86_64\.whl"
        self.assertTrue(re.fullmatch(name, os.path.basename(self.path)))

    def test_description(self) -> None:
        """Its description has what pip needs, and says how the gate ended and that no licence is chosen."""
        metadata = email.message_from_bytes(self.inside[f"lw-{ORIGIN.version}.dist-info/METADATA"][0])
        self.assertEqual(("lw", ORIGIN.version, ">=3.8"), (metadata["Name"], metadata["Version"], metadata["Requires-Python"]))
        self.assertIn("No licence has been chosen yet", metadata["License"])
        for part in (ORIGIN.commit, ORIGIN.toolchain, ORIGIN.gate):
            self.assertIn(part, metadata.get_payload())

    def test_record(self) -> None:
        """RECORD has each file with its checksum and its length; programs can be run, and nothing of the sources is in it."""
        record = f"lw-{ORIGIN.version}.dist-info/RECORD"
        rows = {}
        for name, (content, _) in self.inside.items():
            digest = base64.urlsafe_b64encode(hashlib.sha256(content).digest()).decode().rstrip("=")
            rows[name] = f"{name},sha256={digest},{len(content)}"
        rows[record] = f"{record},,"
        self.assertEqual(sorted(rows.values()), sorted(self.inside[record][0].decode().splitlines()))
        self.assertEqual([], [it for it in self.inside if it.endswith((".rt", ".antt", ".a", "crates.txt")) or it in ("lw/lw", "lw/beyond")])
        runnable = {name for name, (_, mode) in self.inside.items() if mode & 0o111}
        self.assertTrue({f"lw/{tree.LW}", f"lw-{ORIGIN.version}.data/scripts/lw"} < runnable)
        self.assertFalse({"lw/__init__.py", "lw/include/lw_see.rs"} & runnable)

    def test_again(self) -> None:
        """The same tree gives the same bytes."""
        again = make_wheel.write_wheel(os.path.join(self.room, "again"), ORIGIN, tree.read_files())
        with open(self.path, "rb") as first, open(again, "rb") as second:
            self.assertTrue(first.read() == second.read())

    def test_backend(self) -> None:
        """The build backend of `pip install .` makes the same wheel, and pyproject.toml describes it as the wheel does."""
        with mock.patch.object(tree, "read_origin", lambda: ORIGIN):
            name = make_wheel.build_wheel(os.path.join(self.room, "by-pip"))
        with open(self.path, "rb") as first, open(os.path.join(self.room, "by-pip", name), "rb") as second:
            self.assertTrue(first.read() == second.read())
        metadata = email.message_from_bytes(self.inside[f"lw-{ORIGIN.version}.dist-info/METADATA"][0])
        for key, field in (("name", "Name"), ("description", "Summary"), ("requires-python", "Requires-Python")):
            self.assertIn(f'\n{key} = "{metadata[field]}"\n', read("pyproject.toml"))
        self.assertIn('build-backend = "make_wheel"\nbackend-path = ["tools"]\n', read("pyproject.toml"))

    @unittest.skipUnless(has_venv(), "venv or pip is missing")
    def test_installed(self) -> None:
        """Installed in a venv without a network, it answers as the program."""
        bin = self.install()
        for words, expected in (
            (["lw", "states"], run_program("states")),
            (["lw", "states", "x"], run_program("states", "x")),
            (["python", "-m", "lw", "states"], run_program("states")),
            (["python", "-m", "lw", "states", TEST], run_program("states")),
            (["python", "-m", "lw", "replay", "P0 D0", TEST], run_program("replay", "P0 D0")),
            (["python", "-m", "lw", "stat"], run_program("stat")),
            (["python", "-m", "lw", "states", "no-such-file"], ("lw: no-such-file can't be opened\n", 4)),
            (["python", "-c", BY_LIBRARY, TEST], run_program("states")),
            (["python", "-c", VERSION_BY_LIBRARY], (f"{tree.read_library_version()}\n", 0)),
            (["lw-plain", "states", TEST], run_program("states")),
            (["lw-fences", FENCED], capture_merged([sys.executable, f"{HOME}/tools/fences.py", FENCED])),
            (["python", "-m", "lw", "fences", FENCED], capture_merged([sys.executable, f"{HOME}/tools/fences.py", FENCED])),
        ):
            with self.subTest(words):
                self.assertEqual(expected, capture_merged([f"{bin}/{words[0]}", *words[1:]], TEST, **self.settings))
        if tree.BEYOND in self.files:
            expected = capture_merged([f"{HOME}/{tree.BEYOND}", "states"], PAST_LIMITS)
            self.assertEqual(expected, capture_merged([f"{bin}/beyond", "states"], PAST_LIMITS, **self.settings))
            self.assertEqual(expected, capture_merged([f"{bin}/python", "-m", "lw", "beyond", "states", PAST_LIMITS], **self.settings))
        self.check_commands(bin)

    def check_commands(self, bin: str) -> None:
        """Checks that each tool is a command that leads to a module, and that `python -m lw --help` has its name."""
        expected = "".join(f"{tree.name_command(it)} {it} True\n" for it in tree.TOOLS)
        self.assertEqual((expected, 0), capture_merged([f"{bin}/python", "-c", ENTRY_POINTS], **self.settings))
        listed = capture_merged([f"{bin}/python", "-m", "lw", "--help"], **self.settings)
        self.assertTrue(listed[0].endswith("".join(f"    {tree.name_command(it)[3:]}\n" for it in tree.TOOLS)))
        closed, writing = os.pipe()
        os.close(closed)
        ran = subprocess.run([f"{bin}/python", "-m", "lw", "--help"], stdout=writing, stderr=subprocess.PIPE, check=False, **self.settings)
        os.close(writing)
        self.assertEqual((b"", start.CLOSED), (ran.stderr, ran.returncode))
        for tool in ("from_c", "run_all"):
            printed = capture_merged([f"{bin}/{tree.name_command(tool)}", "--help"], **self.settings)
            self.assertEqual((True, 0), (f"tools/{tool}.py" in printed[0], printed[1]))

    def install(self) -> str:
        """Installs it in a venv. Returns the folder of its commands."""
        venv = os.path.join(self.room, "venv")
        # This Python's own pip takes less time than to install another.
        subprocess.run([sys.executable, "-m", "venv", *(["--without-pip", "--system-site-packages"] if has_module("pip") else []), venv], check=True)
        settings = {**self.settings, "env": {**self.settings["env"], "PIP_CONFIG_FILE": os.devnull}}
        pip = [f"{venv}/bin/python", "-m", "pip", "install", "--no-index", "--no-deps", "--no-compile", "--disable-pip-version-check"]
        printed = capture_merged([*pip, self.path], None, **settings)
        self.assertEqual(("", 0), ("" if printed[1] == 0 else printed[0], printed[1]))
        return f"{venv}/bin"


class Debian(Packed):
    """The package for Debian."""

    path: str
    unpacked_folder: str  # the folder in which it is unpacked

    @classmethod
    def setUpClass(cls) -> None:
        """Makes a package, and unpacks it. Raises SkipTest without dpkg-deb."""
        super().setUpClass()
        if not shutil.which("dpkg-deb"):
            raise unittest.SkipTest("dpkg-deb is missing")
        cls.path, cls.unpacked_folder = make_deb.write_package(cls.room, ORIGIN, cls.files), os.path.join(cls.room, "unpacked")
        subprocess.run(["dpkg-deb", "-R", cls.path, cls.unpacked_folder], check=True)

    def test_description(self) -> None:
        """Its description has what apt needs, and says how the gate ended and that no licence is chosen."""
        printed = email.message_from_string(capture_merged(["dpkg-deb", "-f", self.path])[0])
        self.assertEqual(("lw", ORIGIN.version, "amd64"), (printed["Package"], printed["Version"], printed["Architecture"]))
        self.assertTrue(re.fullmatch(r"libc6 \(>= 2\.\d+\), python3 \(>= 3\.8\)", printed["Depends"]))
        for part in (ORIGIN.commit, ORIGIN.toolchain, ORIGIN.gate, "No licence has been chosen yet"):
            self.assertIn(part, printed["Description"])

    def test_files(self) -> None:
        """The checksums are those of its files, each link leads to a file, and nothing of the sources is in it."""
        self.assertEqual(("", 0), capture_merged(["md5sum", "--quiet", "-c", "DEBIAN/md5sums"], cwd=self.unpacked_folder))
        paths = glob.glob(f"{self.unpacked_folder}/usr/**", recursive=True)
        self.assertTrue(len(paths) > 700)
        self.assertEqual([], [it for it in paths if not os.path.exists(it)])
        self.assertEqual([], [it for it in paths if it.endswith((".rt", ".antt", "crates.txt"))])
        self.assertTrue(os.path.exists(f"{self.unpacked_folder}/usr/share/lw/{grammar.FOLDER}/lw.tmLanguage.json"))
        modes = {os.stat(f"{self.unpacked_folder}/usr/{it}").st_mode & 0o777 for it in ("bin/lw", "bin/lw-fences")}
        self.assertEqual({0o755}, modes)

    def test_again(self) -> None:
        """The same tree gives the same bytes."""
        again = make_deb.write_package(os.path.join(self.room, "again"), ORIGIN, dict(reversed(self.files.items())))
        with open(self.path, "rb") as first, open(again, "rb") as second:
            self.assertTrue(first.read() == second.read())

    def test_unpacked(self) -> None:
        """Unpacked in a folder, the program, a tool and the library answer as they do here."""
        share = f"{self.unpacked_folder}/usr/share/lw"
        settings = {**self.settings, "env": {**self.settings["env"], "PYTHONPATH": f"{self.unpacked_folder}/{make_deb.PYTHON}"}}
        self.assertEqual(run_program("states"), capture_merged([f"{self.unpacked_folder}/usr/bin/lw", "states"], TEST))
        self.assertEqual(run_program("states"), capture_merged([sys.executable, "-c", BY_LIBRARY, TEST], None, **settings))
        fences = capture_merged([sys.executable, f"{HOME}/tools/fences.py", FENCED])
        self.assertEqual(fences, capture_merged([sys.executable, f"{share}/tools/fences.py", FENCED], **self.settings))

    def test_c(self) -> None:
        """A program in C takes the header, and the library that pkg-config names."""
        with open(f"{self.unpacked_folder}/{make_deb.LIB}/pkgconfig/lw.pc", encoding="utf-8") as file:
            flags = dict(re.findall(r"^(Cflags|Libs): (.*)$", file.read(), re.M))
        self.assertEqual({"Cflags": "-I${includedir}", "Libs": "-L${libdir} -llw"}, flags)
        if shutil.which("pkg-config"):
            environment = {"PKG_CONFIG_LIBDIR": f"{self.unpacked_folder}/{make_deb.LIB}/pkgconfig", "PATH": os.environ["PATH"]}
            self.assertEqual((f"{ORIGIN.version}\n", 0), capture_merged(["pkg-config", "--modversion", "lw"], env=environment))
            self.assertEqual(("", 0), capture_merged(["pkg-config", f"--atleast-version={tree.read_library_version()}", "lw"], env=environment))
        lib, program = f"{self.unpacked_folder}/{make_deb.LIB}", os.path.join(self.room, "lw-in-c")
        words = ["cc", "-I", f"{self.unpacked_folder}/usr/include", f"{HOME}/examples/c/use.c", "-L", lib, "-llw", "-o", program]
        subprocess.run(words, check=True)
        self.assertEqual(run_program("states"), capture_merged([program, "states"], TEST, env={"LD_LIBRARY_PATH": lib}))

    def test_in_container(self) -> None:
        """With only glibc, a shell and Python, its commands answer by their names."""
        if not container.can_be_made():
            self.skipTest("a container can't be made")
        with container.Container() as system:
            subprocess.run(["dpkg-deb", "-x", self.path, system.room], check=True)
            for words, expected in (
                (["lw", "states"], run_program("states")),
                (["lw-plain", "states", "/usr/share/lw/examples/SB-x86.litmus"], run_program("states")),
                (["lw-fences"], capture_merged([sys.executable, f"{HOME}/tools/fences.py"], TEST)),
            ):
                with self.subTest(words), open(TEST, "rb") as text:
                    with system.start_command(words, "/", stdin=text, stdout=subprocess.PIPE, stderr=subprocess.STDOUT) as ran:
                        out = ran.communicate(timeout=60)[0].decode()
                    self.assertEqual(expected, (out, ran.returncode))

    def test_manual(self) -> None:
        """Each command has a manual page, which groff takes without a warning."""
        commands = sorted(os.listdir(f"{self.unpacked_folder}/usr/bin"))
        pages = {os.path.basename(it)[: -len(".1.gz")]: it for it in glob.glob(f"{self.unpacked_folder}/usr/share/man/man1/*")}
        self.assertEqual(commands, sorted(pages))
        for name, path in pages.items():
            with gzip.open(path, "rt", encoding="utf-8") as file:
                text = file.read()
            with self.subTest(name):
                self.assertIn(f".SH NAME\n{manual.escape_roff(name)} \\- ", text)
                self.assertFalse("python3 tools/" in text)
                if shutil.which("groff"):
                    ran = subprocess.run(["groff", "-man", "-Tutf8", "-ww", "-z"], input=text.encode(), capture_output=True, check=False)
                    self.assertEqual((b"", 0), (ran.stderr, ran.returncode))

    def test_text_in_manual(self) -> None:
        """A line of a module docstring is no request of roff's."""
        text = "Reads a text. Never writes.\n\n    python3 tools/fences.py --x\n\n.so \\\\fB\n'br\n\n- one\n  goes on\n- two\n"
        page = manual.make_page("fences", f'"""{text}"""')
        self.assertIn("lw\\-fences \\- reads a text\n.SH DESCRIPTION\n.PP\nNever writes.\n", page)
        self.assertIn(".nf\n.RS 4\nlw\\-fences \\-\\-x\n.RE\n", page)
        self.assertIn("\\&.so \\efB\n\\&'br\n", page)
        self.assertIn(".IP \\(bu 2\none\ngoes on\n.IP \\(bu 2\ntwo\n", page)

    def test_completion(self) -> None:
        """The package has the completions of three shells, where Debian has such files, and each command's name leads to them
        (tools/gate/test_completion.py tries them).
        """
        commands = sorted(os.listdir(f"{self.unpacked_folder}/usr/bin"))
        options = {tree.name_command(it): completion.list_options(self.files[tree.find_tool(it)].decode()) for it in tree.TOOLS}
        for name, text in completion.make_files(options).items():
            folder, ending = os.path.dirname(name), ".fish" * name.endswith(".fish")
            names = ["_lw"] if "/zsh/" in name else [f"{it}{ending}" for it in commands]
            with self.subTest(name):
                self.assertEqual(sorted(names), sorted(os.listdir(f"{self.unpacked_folder}/{folder}")))
                for path in (f"{self.unpacked_folder}/{folder}/{it}" for it in names):
                    with open(path, encoding="utf-8") as file:
                        self.assertEqual(text, file.read())


if __name__ == "__main__":
    sys.exit(cases.main())
