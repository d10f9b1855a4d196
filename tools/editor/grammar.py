"""The grammar of tests for editors, in the form of TextMate, and the extension of VS Code that has it.

A grammar of this form knows no more than a line and what is open: so the language of a test is open from its heading to the end of the text,
and a note `Key=value` is one before the initial block only. A text that is no test is shown in colours too: nothing is concluded from them.
"""
from __future__ import annotations

import json
from collections.abc import Iterable
from typing import Any, Dict

from editor import words
from interpreter.tests import REGISTERS

SCOPE = "source.lw"
FOLDER = "tools/editor/vscode"
NAME = "[A-Za-z_][A-Za-z0-9_]*"
# A pattern that never matches: a rule that ends with it is open to the end of the text.
NEVER = "(?!)"


# A rule of the grammar, as a value of JSON.
Rule = Dict[str, Any]


def make_rule(scope: str | None, pattern: str, **captures: str) -> Rule:
    """Returns a rule that gives a scope to what a pattern matches. A capture is named `group1`, with the scope of that group."""
    new_rule: Rule = {"match": pattern}
    if scope:
        new_rule["name"] = f"{scope}.lw"
    if captures:
        new_rule["captures"] = {it[len("group") :]: {"name": f"{named}.lw"} for it, named in captures.items()}
    return new_rule


def make_span(scope: str, begin: str, end: str, patterns: list[Rule], captures: dict[int, str] | None = None) -> Rule:
    """Returns a rule for what is between two patterns, with rules for what is in it."""
    new_rule: Rule = {"name": f"{scope}.lw", "begin": begin, "end": end, "patterns": patterns}
    if captures:
        new_rule["beginCaptures"] = {str(number): {"name": f"{named}.lw"} for number, named in captures.items()}
    return new_rule


def include_rules(*names: str) -> list[Rule]:
    """Returns rules that include those of these names in the grammar's `repository`."""
    return [{"include": f"#{name}"} for name in names]


def make_word_pattern(alternatives: Iterable[str], ignores_case: bool = False) -> str:
    """Returns the pattern of a whole word that is one of the alternatives."""
    return f"\\b{'(?i:' if ignores_case else '(?:'}{words.make_pattern(alternatives)})\\b"


def make_statement_rules(language: str) -> list[Rule]:
    """Returns the rules for the registers and the words of a language. A name with `=` after it is a location, also if it is a word of
    instructions.
    """
    is_x86 = language == "X86"
    plain, whole = (words.X86, words.X86_WAITING) if is_x86 else (words.SOURCE, words.SOURCE_WHOLE)
    return [
        make_rule("variable.language", make_word_pattern(REGISTERS[language], is_x86)),
        make_rule("variable.other", rf"\b{NAME}(?=[ \t]*=)"),
        make_rule("keyword.other.fence", make_word_pattern(whole, is_x86)),
        make_rule("keyword.control", make_word_pattern(plain, is_x86)),
    ]


def make_test_rules(language: str) -> list[Rule]:
    """Returns the rules for a test of a language, after its notes."""
    parts = {"group1": "punctuation.section", "group2": "variable.other", "group3": "punctuation.section"}
    address = [make_rule(None, rf"(\[)[ \t]*({NAME})[ \t]*(\])", **parts)]
    return [*(address if language == "X86" else []), *include_rules("common"), *make_statement_rules(language), *include_rules("rest")]


def make_test_rule(language: str) -> Rule:
    """Returns the rule for a whole test of a language: its heading with its notes, up to the initial block, and the rest."""
    heading = {1: "storage.type", 2: "entity.name.type"}
    notes = include_rules("comment", "quoted", "note")
    head = make_span("meta.heading", rf"\b({language})[ \t]+(?!:=)([!-~]+)", r"(?=\{)", notes, heading)
    return make_span(f"meta.test.{language.lower()}", rf"(?=\b{language}[ \t]+[!-~])", NEVER, [head, *make_test_rules(language)])


def make_shared_rules() -> dict[str, Rule]:
    """Returns the rules that both languages share."""
    questions = [
        make_rule("keyword.control.question", make_word_pattern(words.QUESTIONS)),
        make_rule("keyword.operator.logical", make_word_pattern(words.NEGATION)),
    ]
    labels = [make_rule("entity.name.function", rf"\b{NAME}(?=[ \t]*:(?!=))"), make_rule("entity.name.section", r"\bP[0-3]\b(?=[ \t]*(?:[|;]|$))")]
    numbers = make_rule("constant.numeric", r"\$?\b(?:0x[0-9a-fA-F]+|[0-9]+)\b")
    thread = make_rule(None, r"\b([0-9]+)[ \t]*(:)(?!=)", group1="entity.name.section", group2="punctuation.separator")
    constants = make_rule("constant.language", make_word_pattern(words.CONSTANTS))
    operators = make_rule("keyword.operator", r":=|!=|/\\|\\/|[=+~$]")
    separators = make_rule("punctuation.separator", r"[|;:,]")
    return {
        "comment": make_span("comment.block", r"\(\*", r"\*\)", include_rules("comment")),
        "quoted": {"name": "string.quoted.double.lw", "begin": '"', "end": '"'},
        "note": make_rule(None, r"([A-Za-z0-9_-]+)[ \t]*(=)(.*)$", group1="variable.parameter", group2="keyword.operator", group3="string.unquoted"),
        "common": {"patterns": [*include_rules("comment"), *questions, constants, thread, *labels]},
        "rest": {"patterns": [make_rule("variable.other", rf"\b{NAME}\b"), numbers, operators, separators]},
    }


def make_grammar() -> dict[str, Any]:
    """Returns the grammar, as a value of JSON."""
    comment = "Written by tools/documents/make_grammar.py, from the table of tools/editor/words.py."
    patterns = [*include_rules("comment"), *map(make_test_rule, words.LANGUAGES)]
    return {"name": "lw", "scopeName": SCOPE, "fileTypes": ["litmus"], "comment": comment, "patterns": patterns, "repository": make_shared_rules()}


def make_extension() -> dict[str, Any]:
    """Returns the description of the extension of VS Code."""
    language = {"id": "lw", "aliases": ["lw litmus test"], "extensions": [".litmus"], "configuration": "./language-configuration.json"}
    colours = {"language": "lw", "scopeName": SCOPE, "path": "./lw.tmLanguage.json"}
    return {
        "name": "lw-litmus",
        "displayName": "lw litmus tests",
        "description": "Colours for the litmus tests of lw.",
        "publisher": "lw",
        "version": "1.0.0",
        "engines": {"vscode": "^1.40.0"},
        "contributes": {"languages": [language], "grammars": [colours]},
    }


def make_configuration() -> dict[str, Any]:
    """Returns how editors treat comments and brackets of tests."""
    pairs = [["{", "}"], ["[", "]"], ["(", ")"]]
    return {"comments": {"blockComment": ["(*", "*)"]}, "brackets": pairs, "autoClosingPairs": [*pairs, ['"', '"']]}


def make_files() -> dict[str, str]:
    """Returns the text of each file that is made."""
    values = {"lw.tmLanguage.json": make_grammar(), "package.json": make_extension(), "language-configuration.json": make_configuration()}
    written = {f"{FOLDER}/{name}": json.dumps(it, indent=1, ensure_ascii=False) + "\n" for name, it in values.items()}
    return {**written, "web/words.js": words.make_javascript()}
