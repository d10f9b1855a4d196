#!/usr/bin/env python3
"""Reads the codes that students hand in after a quiz of tools/make_quiz.py, and prints a table.

    python3 tools/read_codes.py OUT.html [FILE]
    python3 tools/read_codes.py SEED [FILE]

The first word is the file with the quiz, or its seed. FILE, or standard input, has a code in each line. Capital and small letters are the
same, blanks and hyphens between them are skipped, and an O is read as 0, an I or L as 1. The table has of each code its line, the student,
how many answers are right, and which are wrong: `3 interleaving`, `5 x86`, or `7 both`.

A bad code is reported as `FILE:LINE:COLUMN: cause`, in which FILE is `-` for standard input, and the status is 1; the others are read. A
student who has handed in before is noted. Python 3.8 is enough, on any system.
"""
from __future__ import annotations

import json
import re
import sys
from typing import Tuple

sys.dont_write_bytecode = True
import films
import given
from lab import codes, quiz
from shapes.edges import NoCycle
from shared import command, start

DATA = re.compile(r"^const quiz = (\{.*\});$", re.M)
WRONG = ("", "interleaving", "x86", "both")


# A row of the table: the student, the points, and the tests with wrong answers.
Row = Tuple[str, ...]


class Quizzes:
    """The quizzes that codes may be of: the one of a page, or those of a seed."""

    def __init__(self, word: str) -> None:
        """Reads the quiz of the page at a path, or takes the word for a seed if it is small letters and digits. Raises NoQuiz if the file has no
        quiz.
        """
        self.quizzes: dict[int, quiz.Data] = {}  # by the number of tests
        self.page: quiz.Data | None = None
        self.seed = word
        if not re.fullmatch("[0-9a-z]+", word):
            match = DATA.search(given.decode(given.read_bytes(word)))
            if not match:
                raise quiz.NoQuiz(f"{word}: the file is no quiz of tools/make_quiz.py")
            self.page = json.loads(match[1])
            self.seed = self.page["seed"]

    def find_quiz(self, count: int) -> quiz.Data:
        """Returns the quiz of the page, whatever `count` is; of a seed, its quiz of `count` tests."""
        if self.page:
            return self.page
        if count not in self.quizzes:
            self.quizzes[count] = quiz.make_data(self.seed, quiz.make_tests(count, self.seed, quiz.choose_reporter()))
        return self.quizzes[count]

    def make_row(self, line: str) -> Row:
        """Returns the row of a line's code: the student; the points with the number of all points; and the tests with wrong answers, or `-`. Raises
        BadCode if the line is no code, or one of another quiz.
        """
        handed_in = codes.parse_code(line)
        begin = len(line) - len(line.lstrip(codes.BETWEEN))
        if handed_in.seed != self.seed:
            raise codes.BadCode(f"the code is of the quiz with the seed {handed_in.seed}, not {self.seed}", begin)
        data = self.find_quiz(len(handed_in.answers))
        if len(handed_in.answers) != len(data["tests"]):
            raise codes.BadCode(f"the code is of a quiz with {len(handed_in.answers)} tests, not {len(data['tests'])}", begin)
        if handed_in.mark != data["mark"]:
            raise codes.BadCode("the code is of other tests with this seed", begin)
        wrong = [answer ^ right for answer, right in zip(handed_in.answers, quiz.parse_answers(data))]
        points = sum(2 - (wrong_answers & 1) - (wrong_answers >> 1) for wrong_answers in wrong)
        mistakes = ", ".join(f"{number} {WRONG[wrong_answers]}" for number, wrong_answers in enumerate(wrong, 1) if wrong_answers)
        return handed_in.student, f"{points}/{2 * len(wrong)}", mistakes or "-"


def format_table(rows: list[Row]) -> str:
    """Returns rows as a table with aligned columns."""
    widths = [max(len(row[index]) for row in rows) for index in range(len(rows[0]) - 1)]
    return "".join("  ".join([*(cell.ljust(width) for cell, width in zip(row, widths)), row[-1]]) + "\n" for row in rows)


def print_table(quizzes: Quizzes, name: str, text: str) -> int:
    """Prints the table of a text's codes, and on standard error which lines are bad codes. Returns the exit status."""
    rows: list[tuple[str, ...]] = [("Line", "Student", "Right", "Wrong")]
    seen: dict[str, int] = {}
    faults = offset = 0
    for number, line in enumerate(text.split("\n"), 1):
        try:
            if line.strip(codes.BETWEEN):
                student, *rest = quizzes.make_row(line)
                rows.append((str(number), student, *rest))
                if student in seen:
                    print(command.format_note(name, text, offset, f"{student} has handed in on line {seen[student]} too"), file=sys.stderr)
                seen.setdefault(student, number)
        except codes.BadCode as why:
            cause, column = why.args
            faults = given.refuse(f"{name}:{given.format_line_and_column(text, offset + column)}: {cause}")
        offset += len(line) + 1
    print(format_table(rows), end="")
    return faults


def main() -> int:
    """Runs the command that the arguments describe. Returns the exit status."""
    given.set_output_encoding()
    reader = command.Reader(__doc__)
    reader.add_argument("quiz", metavar="OUT.html|SEED")
    reader.add_file()
    arguments = reader.read()
    try:
        quizzes = Quizzes(arguments.quiz)
        return command.for_one("read_codes", arguments.file, lambda name, text: print_table(quizzes, name, text))
    except OSError as why:
        return given.refuse(f"read_codes: {why.filename}: {why.strerror}")
    except given.Fault as fault:
        return given.refuse(f"read_codes: {arguments.quiz}: {fault.cause}")
    except (quiz.NoQuiz, NoCycle, films.NoFilm) as why:
        return given.refuse(f"read_codes: {why}")


if __name__ == "__main__":
    sys.exit(start.run(main))
