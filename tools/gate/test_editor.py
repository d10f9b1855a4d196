"""Tests that editors and the page show tests in colours by the words that are read.

    python3 tools gate.test_editor, or in tools/ python3 -m unittest gate.test_editor

- The table of tools/editor/words.py has the words of docs/FORMAT.md's tables and of its reserved names, and the reader of tools/plain.py takes them.
- The files that are made from the table are up to date.
- The grammar gives each token of each example the scope of its kind, as the reader has the tokens, by a small reader of such grammars
  (`Colours`).
- By Oniguruma, whose regular expressions VS Code's engine has, each expression is one, and the scopes are the same, if the library is here.

The programs are not needed. tools/check_documents.py calls all this (tools/gate/cases.py).
"""
from __future__ import annotations

import glob
import json
import os
import re
import shutil
import subprocess
import sys
import tempfile
import unittest
from collections.abc import Iterator
from typing import Any, Callable, Dict, Union

import plain
from editor import grammar, words
from gate import cases, oniguruma
from gate.examples import examples, read
from gate.oniguruma import Match, Pattern
from interpreter.reading import RESERVED, parse_heading
from interpreter.tokens import parse_tokens, skip_notes
from shared.home import HOME

# For a kind of token, the scopes that it may have.
NUMBERS = ("constant.numeric", "entity.name.section")
NAMES = ("variable.other", "entity.name.function", "entity.name.section")
# Words that the reader distinguishes and a list of words does not: a text, and the scopes of some of its words.
TYPED = (
    ("X86 MOV\n{}\n P0 ;\n MOV: MOV [MOV],1 ;\nexists (MOV=1)\n", "MOV", (
        "entity.name.type", "entity.name.function", "keyword.control", "variable.other", "variable.other")),
    ("X86 A\n{}\n P0 ;\n mov eax,[x] ;\nexists (0:EaX=0x1F)\n", "eax", ("variable.language", "variable.language")),
    ("SRC A\n{}\n P0 ;\n eax := 1 ;\n mov := 1 ;\nexists (r7=1)\n", "mov", ("variable.other",)),
    ("SRC A\n(* x (* SRC x *) x *)\nx=x{x\n\"x=x\" {x=1;}\n P0 ;\n x := 1 ;\nexists (x=1)\n", "x", (
        "comment.block", "comment.block", "comment.block", "variable.parameter", "string.unquoted", "string.unquoted",
        "string.quoted.double", "string.quoted.double", "variable.other", "variable.other", "variable.other")),
    ("(* SRC *) X86 A\n{}\n P0 ;\n lock xchg [x],eax ;\nexists (x=1)\n", "lock", ("keyword.other.fence",)),
    ("SRC A\n{}\n P0 ;\n r0 := fetchadd x r1 ;\n if r0 != 0 goto L ;\n L: ;\n~exists (not true)\n",
     "fetchadd|if|goto|L|exists|not|true", (
        "keyword.other.fence", "keyword.control", "keyword.control", "variable.other", "entity.name.function", "keyword.control.question",
        "keyword.operator.logical", "constant.language")),
)


# For a class of the page, the scopes that it may have: 0:EAX is one piece there, and three here.
OF_PAGE = {
    "comment": ("comment.block",),
    "keyword": ("keyword.control", "keyword.control.question", "storage.type", "constant.language", "keyword.operator.logical"),
    "fencing": ("keyword.other.fence",),
    "number": ("constant.numeric",),
    "loc": ("variable.other",),
    "head": ("entity.name.section",),
    "thr": ("variable.language", "entity.name.section", "punctuation.separator"),
    "bar": ("punctuation.separator",),
}
# In place of the page's own ways to make elements, and what prints the pieces of texts.
DOM = "export const el = (_name, more, ...inside) => ({ kind: more.class ?? null, text: inside.join('') });\n"
COLOURS_OF_PAGE = """import fs from "node:fs";
import { findTints, renderText } from "./tint.js";
const pieces = (text) => renderText(text, findTints(text)).map((it) => (typeof it === "string" ? [it, null] : [it.text, it.kind]));
console.log(JSON.stringify(JSON.parse(fs.readFileSync(0, "utf8")).map(pieces)));
"""


# A rule of a grammar, as JSON has it; a match by one of two libraries; and what compiles a pattern for it.
Rule = Dict[str, Any]
FoundMatch = Union[Match, "re.Match[str]"]
Compiler = Callable[[str], Union[Pattern, "re.Pattern[str]"]]


class Colours:
    """The scopes that a grammar gives the letters of a text. A rule matches within a line; of the first matches the rule that is first has it, and the
    end of what is open comes before all."""

    def __init__(self, value: Rule, compiler: Compiler = re.compile) -> None:
        """Prepares a grammar, whose patterns a function compiles."""
        self.rules, self.repository, self.compiler = value["patterns"], value["repository"], compiler
        self.compiled: dict[str, Pattern | re.Pattern[str]] = {}
        self.open: list[Rule] = []  # the rules whose end is looked for

    def find_scopes(self, text: str) -> list[str | None]:
        """Returns, for each letter, its innermost scope, or None."""
        scopes: list[str | None] = []
        self.open = []
        for line in text.splitlines(keepends=True):
            scopes += self.find_line_scopes(line)
        return scopes

    def find_match(self, pattern: str, line: str, index: int) -> FoundMatch | None:
        """Returns the first match of a pattern from an index on. None if there is none."""
        if pattern not in self.compiled:
            self.compiled[pattern] = self.compiler(pattern)
        return self.compiled[pattern].search(line, index)

    def expand_rules(self, rules: list[Rule]) -> Iterator[Rule]:
        """Yields some rules; in place of one that includes others come those."""
        for rule in rules:
            if "include" in rule:
                yield from self.expand_rules([self.repository[rule["include"][1:]]])
            elif set(rule) == {"patterns"}:
                yield from self.expand_rules(rule["patterns"])
            else:
                yield rule

    def find_next_rule(self, line: str, index: int) -> tuple[Rule, bool, FoundMatch] | None:
        """Returns the rule that matches first from an index on, whether it ends what is open, and the match; `None` if none does."""
        inner = self.open[-1] if self.open else {"patterns": self.rules}
        tried = [(inner, True, inner["end"])] if self.open else []
        tried += [(it, False, it.get("match") or it["begin"]) for it in self.expand_rules(inner.get("patterns", []))]
        matches = ((rule, is_end, self.find_match(pattern, line, index)) for rule, is_end, pattern in tried)
        matching = [(rule, is_end, match) for rule, is_end, match in matches if match]
        return min(matching, key=lambda it: it[2].start()) if matching else None

    def find_line_scopes(self, line: str) -> list[str | None]:
        """Returns, for each letter of a line, its innermost scope, or `None`."""
        scopes: list[str | None] = []
        index = 0
        while True:
            scope = next((it["name"] for it in reversed(self.open) if not it["name"].startswith("meta.")), None)
            next_rule = self.find_next_rule(line, index)
            if next_rule is None:
                return scopes + [scope] * (len(line) - index)
            rule, is_end, match = next_rule
            scopes += [scope] * (match.start() - index)
            scopes += self.find_match_scopes(rule, match, rule.get("captures") or (not is_end and rule.get("beginCaptures")) or {})
            index = match.end()
            if is_end:
                self.open.pop()
            elif "begin" in rule:
                self.open.append(rule)

    @staticmethod
    def find_match_scopes(rule: Rule, match: FoundMatch, captures: dict[str, dict[str, str]]) -> list[str | None]:
        """Returns, for each letter of a match, its innermost scope, or `None`."""
        scopes = [None if rule.get("name", "meta.").startswith("meta.") else rule["name"]] * len(match[0])
        for number, capture in captures.items():
            begin, end = (offset - match.start() for offset in match.span(int(number)))
            scopes[begin:end] = [capture["name"]] * (end - begin)
        return scopes


def list_patterns(value: object) -> list[str]:
    """Returns all regular expressions of a grammar, of a value of JSON."""
    if isinstance(value, list):
        return [it for each in value for it in list_patterns(each)]
    if not isinstance(value, dict):
        return []
    patterns = [it for key, it in value.items() if key in ("match", "begin", "end", "while")]
    return patterns + [it for each in value.values() for it in list_patterns(each)]


def list_wanted_scopes(language: str, kind: str, token: str, is_address: bool) -> tuple[str, ...]:
    """Returns the scopes that a token of a test may have. A name in brackets is a location, whatever it is."""
    if kind == "number":
        return NUMBERS
    if is_address and token.upper() not in plain.REGISTERS[language]:
        return NAMES
    upper = token.upper() if language == "X86" else token
    words_by_scope = {
        "keyword.control.question": words.QUESTIONS,
        "constant.language": words.CONSTANTS,
        "keyword.operator.logical": words.NEGATION,
        "variable.language": plain.REGISTERS[language],
        "keyword.control": words.X86 if language == "X86" else words.SOURCE,
        "keyword.other.fence": words.X86_WAITING if language == "X86" else words.SOURCE_WHOLE,
    }
    return tuple(scope for scope, these in words_by_scope.items() if upper in these or token in these) or NAMES


def read_table_words(heading: str) -> set[str]:
    """Returns the texts of a table of docs/FORMAT.md, without the names of registers, numbers, locations and labels."""
    rows = re.findall(r"^\| (`[^|]*) \| [^|]+ \|$", read("docs/FORMAT.md").partition(heading)[2].partition("\n\n**")[0].split("\n\n")[1], re.M)
    texts = " ".join(it for row in rows for it in re.findall(r"`([^`]+)`", row))
    return {it for it in re.findall(r"\b[A-Za-z]{2,}\b", texts)}


class Words(cases.Case):
    """The table of words."""

    def test_format(self) -> None:
        """The table has the words of docs/FORMAT.md's tables, and its reserved names."""
        self.assertEqual({*words.SOURCE, *words.SOURCE_WHOLE}, read_table_words("**Statements of a source test:**"))
        self.assertEqual({*words.X86, *words.X86_WAITING}, read_table_words("**Instructions of an x86 test.**"))
        text = " ".join(read("docs/FORMAT.md").partition("**Reserved names**")[2].partition("in any case of the letters")[0].split())
        reserved = {it for it in re.findall(r"`(\w+)`", text) if it != "r"}
        words_read = {*words.QUESTIONS, *words.CONSTANTS, *words.NEGATION, *words.SOURCE, *words.SOURCE_WHOLE}
        self.assertEqual(reserved, words_read | {*plain.REGISTERS["X86"], *words.OTHER_REGISTERS})

    def test_reader(self) -> None:
        """The reader reserves its words of both languages and of source tests, and takes its words of instructions."""
        for word in (*words.QUESTIONS, *words.CONSTANTS, *words.NEGATION, *words.SOURCE, *words.SOURCE_WHOLE, *words.OTHER_REGISTERS):
            self.assertTrue(RESERVED.fullmatch(word))
        for word in (*words.X86, *words.X86_WAITING, "NOP"):
            text = f"X86 A\n{{}}\n P0 ;\n {'LOCK ' * (word == 'XADD')}{word.lower()} ;\nexists (true)\n"
            try:
                plain.read_test(text)
                why = ""
            except plain.NoTest as fault:
                why = fault.cause
            self.assertEqual(word == "NOP", "is no instruction that is read" in why)

    def test_files(self) -> None:
        """The files that are made from the table are up to date, and some are JSON (tools/documents/make_grammar.py writes them)."""
        for name, text in grammar.make_files().items():
            with self.subTest(name):
                self.assertEqual(text, read(name))
                self.assertTrue(not name.endswith(".json") or json.loads(text))
        parts = grammar.make_extension()["contributes"]
        paths = [*(it["path"] for it in parts["grammars"]), *(it["configuration"] for it in parts["languages"])]
        self.assertEqual([], [it for it in paths if not os.path.exists(os.path.join(HOME, grammar.FOLDER, it))])


class Grammar(cases.Case):
    """The scopes that the grammar gives."""

    def test_examples(self) -> None:
        """Each token of each example has the scope of its kind."""
        colours = Colours(grammar.make_grammar())
        for name, text in examples():
            language, _, end = parse_heading(text)
            begin = skip_notes(text, end)
            scopes, wrong = colours.find_scopes(text), []
            tokens, places = parse_tokens(text, begin)
            for before, (kind, token), offset in zip([("symbol", "")] + tokens, tokens, places):
                token_scopes = {it and it[: -len(".lw")] for it in scopes[offset : offset + len(token)]}
                allowed = {*list_wanted_scopes(language, kind, token, before[1] == "[")}
                if kind != "symbol" and not (len(token_scopes) == 1 and token_scopes <= allowed):
                    wrong.append((token, token_scopes))
            with self.subTest(name):
                self.assertEqual([], wrong)

    def test_typed(self) -> None:
        """Names that are like words, letters of either case, comments in one another, notes, and the heading after a comment."""
        colours = Colours(grammar.make_grammar())
        for text, looked_for, scopes in TYPED:
            scopes_by_letter = colours.find_scopes(text)
            at_words = (scopes_by_letter[it.start()] for it in re.finditer(rf"(?i)\b(?:{looked_for})\b", text))
            token_scopes = tuple(it[: -len(".lw")] for it in at_words if it)
            with self.subTest(text):
                self.assertEqual(scopes, token_scopes)


@unittest.skipUnless(shutil.which("node"), "node is missing")
class Page(cases.Case):
    """The colours of the page, by its own code."""

    def color_texts(self, texts: list[str]) -> list[list[tuple[str, str | None]]]:
        """Returns, for each text, the pieces that the page shows, each with its class, or nothing."""
        with tempfile.TemporaryDirectory(prefix="lw-editor-") as folder:
            shutil.copytree(os.path.join(HOME, "web"), folder, dirs_exist_ok=True)
            for name, content in (("package.json", '{"type": "module"}'), ("dom.js", DOM), ("colours.js", COLOURS_OF_PAGE)):
                with open(os.path.join(folder, name), "w", encoding="utf-8") as file:
                    file.write(content)
            ran = subprocess.run(["node", os.path.join(folder, "colours.js")], input=json.dumps(texts).encode(), stdout=subprocess.PIPE, check=True)
        return json.loads(ran.stdout)

    def test_examples(self) -> None:
        """Each word of each example has a scope of the kind that the page shows it as, except in a test's name, which the page takes for words."""
        colours, tests = Colours(grammar.make_grammar()), examples()
        for (name, text), pieces in zip(tests, self.color_texts([text for _, text in tests])):
            wrong = []
            scopes = colours.find_scopes(text)
            offset = 0
            for piece, kind in pieces:
                piece_scopes = {it and it[: -len(".lw")] for it in scopes[offset : offset + len(piece)]}
                offset += len(piece)
                wanted_here = [scopes_here for of_page, scopes_here in OF_PAGE.items() if (kind or "").startswith(of_page)]
                if wanted_here and piece_scopes != {"entity.name.type"} and not piece_scopes <= {*wanted_here[0]}:
                    wrong.append((piece, kind, piece_scopes))
            with self.subTest(name):
                self.assertEqual(([], len(text)), (wrong, offset))


class Engine(cases.Case):
    """The grammar by the regular expressions of VS Code's engine, which are Oniguruma's."""

    def setUp(self) -> None:
        """Leaves these out if the library is not here."""
        library = oniguruma.load_library()
        if library is None:
            self.skipTest(describe_skipped())
        self.library = library

    def test_compiled(self) -> None:
        """Each regular expression of the grammar is one of Oniguruma's, and what is none is refused."""
        with open(os.path.join(HOME, grammar.FOLDER, "lw.tmLanguage.json"), encoding="utf-8") as file:
            patterns = list_patterns(json.load(file))
        self.assertTrue(len(patterns) > 30)
        for word in patterns:
            with self.subTest(word):
                self.assertTrue(self.library.compile_pattern(word))
        for word in ("(", "(?P<name>x)", "[z-a]"):
            try:
                message = str(self.library.compile_pattern(word))
            except oniguruma.Fault as why:
                message = why.args[0]
            self.assertIn(f"{word}: ", message)

    def test_matches(self) -> None:
        """A match is where Oniguruma finds it, in letters, with its groups."""
        match = self.library.compile_pattern(r"(ä)(b)?(c)").search("ääcb ac", 1)
        assert match is not None
        self.assertEqual([(1, 3), (1, 2), (-1, -1), (2, 3)], [match.span(it) for it in range(4)])
        self.assertEqual(("äc", None), (match[0], self.library.compile_pattern("(?!)").search("ab", 0)))

    def test_scopes(self) -> None:
        """Each example, and each text with traps, has the same scopes as by Python's expressions."""
        by_python, by_library = Colours(grammar.make_grammar()), Colours(grammar.make_grammar(), self.library.compile_pattern)
        texts = [*examples(), *((text.split()[1], text) for text, _, _ in TYPED)]
        texts += [(os.path.basename(it), read(it)) for it in sorted(glob.glob(os.path.join(HOME, "tools", "herd", "tests", "*.litmus")))]
        for name, text in texts:
            with self.subTest(name):
                self.assertEqual(by_python.find_scopes(text), by_library.find_scopes(text))


def describe_skipped() -> str | None:
    """Returns the line that says what is left out, if Oniguruma is not here. None if it is."""
    return None if oniguruma.load_library() else "the grammar for editors was not tried by Oniguruma, which is not here (Debian: libonig5)"


if __name__ == "__main__":
    sys.exit(cases.main(describe_skipped))
