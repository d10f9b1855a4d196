#!/usr/bin/env python3
"""Makes what a class needs for the lab of docs/LAB.md.

    python3 tools/make_lab.py FOLDER

FOLDER/students has the sheet (sheet.html) and a card of the syntax (card.html), which print well, an index.html that leads to them, the tests
of the lab as files, and the workbench as a site (tools/make_site.py); students.zip is the same, packed. The tests have neutral names and no
comments, and neither sheet nor card says a verdict. FOLDER/teacher has the solutions, the timetable, the slides (tools/make_slides.py) and a
page of terms to hand out at the end.

The site needs the workbench's WebAssembly modules, and the slides need the program, built from the present sources. Without them these are left
out, and a line says so. All else needs only Python 3.8, on any system. The same sources give the same bytes.
"""
from __future__ import annotations

import io
import os
import sys
import zipfile

sys.dont_write_bytecode = True
import given
import make_site
import make_slides
from lab import sheets
from lab.tests import NoLab, make_tests, read_file
from page import web_files
from page.origin import describe_site
from shared import command, start

NO_SITE = "make_lab: the site is left out: there are no modules of these sources (tools/build_wasm.py makes them)"

# The page, as the slides link to it.
PAGE = "../students/site/index.html"
NO_SLIDES = "make_lab: the slides are left out: there is no program of these sources (./lw builds it)"


def make_student_files(lab: str, modules: list[bytes]) -> dict[str, bytes]:
    """Returns the files for students: for each name its bytes."""
    tests = make_tests(lab)
    texts = {
        "sheet.html": sheets.make_sheet(lab, tests, "site/index.html" if modules else None), "card.html": sheets.render_document("CARD"),
        "index.html": sheets.make_index(bool(modules)),
    }
    texts.update((f"tests/{name}.litmus", text) for name, text in tests.items())
    if modules:
        texts.update((f"site/{name}", text) for name, text in make_site.make_folder(modules, make_site.WEB, describe_site(), has_documents=False).items())
    return {name: text.encode() for name, text in texts.items()}


def make_zip(files: dict[str, bytes], top: str) -> bytes:
    """Returns files as one zip file, in which all are in a folder. The same files give the same bytes."""
    stream = io.BytesIO()
    with zipfile.ZipFile(stream, "w") as archive:
        for name in sorted(files):
            info = zipfile.ZipInfo(f"{top}/{name}")
            info.compress_type = zipfile.ZIP_DEFLATED
            info.external_attr = 0o644 << 16
            info.create_system = 3
            archive.writestr(info, files[name])
    return stream.getvalue()


def make_files(modules: list[bytes], slides: str | None) -> dict[str, bytes]:
    """Returns all files: for each name its bytes. There is a site if there are modules, and slides if they are passed."""
    lab = read_file("docs/LAB.md")
    given_out = make_student_files(lab, modules)
    files = {f"students/{name}": it for name, it in given_out.items()}
    files["students.zip"] = make_zip(given_out, "lw-lab")
    files["teacher/timetable.html"] = sheets.make_timetable(lab).encode()
    files["teacher/solutions.html"] = sheets.render_solutions().encode()
    files["teacher/glossary.html"] = sheets.render_document("GLOSSARY").encode()
    if slides is not None:
        files["teacher/slides.html"] = slides.encode()
    return files


def write_files(folder: str, files: dict[str, bytes]) -> None:
    """Writes files into a folder."""
    for name, content in files.items():
        path = os.path.join(folder, *name.split("/"))
        os.makedirs(os.path.dirname(path), exist_ok=True)
        with open(path, "wb") as file:
            file.write(content)


def main() -> int:
    """Runs the command that the arguments describe. Returns the exit status."""
    given.set_output_encoding()
    reader = command.Reader(__doc__)
    reader.add_argument("folder", metavar="FOLDER")
    folder = reader.read().folder
    try:
        modules = web_files.read_modules()
        shown = make_slides.make_page_if_built(PAGE if modules else "")
        write_files(folder, make_files(modules, shown))
    except (NoLab, make_site.NoSite, OSError) as why:
        return given.refuse(f"make_lab: {why}")
    for line in (None if modules else NO_SITE, NO_SLIDES if shown is None else None):
        if line:
            print(line, file=sys.stderr)
    return 0


if __name__ == "__main__":
    sys.exit(start.run(main))
