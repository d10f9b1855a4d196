#!/usr/bin/env python3
"""Makes a quiz for a class: one HTML file, which works without a server and without a network.

    python3 tools/make_quiz.py OUT.html [--tests N] [--seed S] [--page LINK]
    python3 tools/make_quiz.py OUT.html FILE.. [--seed S] [--page LINK]

For each of N tests (10), or for each of the x86 tests in the files, it asks whether the test can end this way by interleaving, when threads take turns on one memory, and whether it can on
x86-TSO. At the end it shows which answers were right, and a code to hand in; tools/read_codes.py reads the codes, and so does the file itself, for
the teacher. The seed has up to eight small letters and digits; the same seed makes the same bytes. Own tests have loads, stores of constants and MFENCE only, and
ask by `exists`. With LINK, the address of lw's page as the quiz has it
(`site/index.html`), each answer has a link at the end that opens its test there, with the run or with the cycle that explains the answer. Code has
the colours of the page.

The answers are hidden in the file, but not well: a determined student can read them. The verdicts are those of the program's reports (./lw
states). Without a program of these sources they are those of tools/plain.py, and a line says so. Python 3.8 is enough, on any system.
"""
from __future__ import annotations

import functools
import os
import sys
from collections.abc import Callable, Mapping, Sequence

sys.dont_write_bytecode = True
import films
import given
import plain
from lab import codes, quiz, tints
from shapes.edges import NoCycle
from shared import command, start
from shared.literal import format_literal

DEFAULT_COUNT = 10
NOT_PROVED = "make_quiz: the verdicts are those of tools/plain.py: there is no program of these sources (./lw builds it)"
TEMPLATE = os.path.join(os.path.dirname(os.path.abspath(quiz.__file__)), "quiz.html")


def make_links(seed: str, files: Mapping[str, str]) -> str:
    """Returns a line that names the quiz of a seed, with links to the files of the others; "" if there are no others."""
    links = " · ".join(f'<a href="{file}">{other}</a>' for other, file in files.items() if other != seed)
    return f'<nav aria-label="Quizzes">This is quiz {seed}. Another quiz: {links}</nav>\n' if links else ""


# The tests of a quiz, which several pages of a site need.
make_tests = functools.lru_cache(quiz.make_tests)


def make_page(count: int, seed: str, report: Callable[[str], str], page: str = "", files: Mapping[str, str] | None = None) -> str:
    """Returns the quiz of a seed as one page, with links to lw's page at an address, if there is one, and to other quizzes: for each seed its file.
    It reads the codes of these, too.
    """
    others = [quiz.make_other_data(other, make_tests(count, other, report)) for other in files or {} if other != seed]
    return format_page(make_tests(count, seed, report), seed, page, make_links(seed, files or {}), others)


def format_page(tests: list[quiz.QuizTest], seed: str, page: str, links: str = "", others: Sequence[quiz.OtherData] = ()) -> str:
    """Returns the quiz of some tests as one page, with links to lw's page at an address, if there is one; the line of links to other quizzes; and what the
    page needs to read their codes.
    """
    with open(TEMPLATE, encoding="utf-8") as file:
        html = file.read()
    parts = {
        "@TITLE@": f"Quiz {seed}" if links else "A quiz", "@OTHERS@": links, "@OTHER_QUIZZES@": format_literal(list(others)), "@TINTS@": tints.make_style(),
        "@TINTED@": format_literal([tints.render_test(it.text) for it in tests]),
        "@SYMBOLS@": codes.SYMBOLS, "@LETTERS@": codes.LETTERS, "@MARKS@": str(codes.MARKS), "@MOST@": str(codes.MAX_TESTS),
        "@BYTES@": str(codes.BYTES),
        "@PRIME@": str(codes.PRIME), "@SUM@": str(codes.LENGTH_OF_SUM), "@PAGE@": format_literal(page),
        "@QUIZ@": format_literal(quiz.make_data(seed, tests)),
    }
    for name, part in parts.items():
        html = html.replace(name, part)
    return html


def make_own_page(names: list[str], seed: str, report: Callable[[str], str], page: str) -> str:
    """Returns the quiz of the tests in some files as one page. Raises NoQuiz as `quiz.make_own_tests` does, and if a file has no test, with the place."""
    quiz.check_seed(seed)
    texts = {}
    for name in names:
        data = given.read_bytes(name)
        try:
            texts[name] = given.decode(data)
            plain.read_test(texts[name])
        except given.Fault as fault:
            raise quiz.NoQuiz(given.format_fault(name, data, fault)) from None
    return format_page(quiz.make_own_tests(texts, report), seed, page)


def main() -> int:
    """Runs the command that the arguments describe. Returns the exit status."""
    given.set_output_encoding()
    reader = command.Reader(__doc__)
    reader.add_argument("out", metavar="OUT.html")
    reader.add_argument("files", nargs="*", metavar="FILE")
    reader.add_argument("--tests", type=int, metavar="N")
    reader.add_argument("--seed", default="1", metavar="S")
    reader.add_argument("--page", default="", metavar="LINK")
    arguments = reader.read()
    if arguments.files and arguments.tests is not None:
        reader.error("the files have all tests, so leave out --tests")
    report = quiz.choose_reporter()
    try:
        if arguments.files:
            html = make_own_page(arguments.files, arguments.seed, report, arguments.page)
        else:
            html = make_page(DEFAULT_COUNT if arguments.tests is None else arguments.tests, arguments.seed, report, arguments.page)
        with open(arguments.out, "w", encoding="utf-8", newline="\n") as file:
            file.write(html)
    except OSError as why:
        return given.refuse(f"make_quiz: {why.filename}: {why.strerror}")
    except (quiz.NoQuiz, NoCycle, films.NoFilm) as why:
        return given.refuse(f"make_quiz: {why}")
    if report is quiz.make_report_by_plain:
        print(NOT_PROVED, file=sys.stderr)
    return 0


if __name__ == "__main__":
    sys.exit(start.run(main))
