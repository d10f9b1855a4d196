"""The words of tests that editors and the page show in colours: one table, of which the grammar and web/words.js are made.

tools/gate/test_editor.py compares it with docs/FORMAT.md, and with what tools/plain.py reads.
"""
from __future__ import annotations

from collections.abc import Iterable

from interpreter.tests import REGISTERS

# The words of questions and of propositions, in both languages.
QUESTIONS = ("exists", "forall", "locations", "filter")
CONSTANTS = ("true", "false")
NEGATION = ("not",)
# Of source tests. Those that are done at once, as a whole, are apart: they order what is before and after them.
SOURCE = ("if", "goto")
SOURCE_WHOLE = ("swap", "fetchadd")
# Of x86 tests, in any case of the letters: instructions, and those that wait for the store buffer.
X86 = ("MOV", "ADD", "CMP", "JE", "JNE", "JMP")
X86_WAITING = ("MFENCE", "XCHG", "LOCK", "XADD")
# Registers that name nothing in a test, and are reserved.
OTHER_REGISTERS = ("EBP", "ESP")
LANGUAGES = tuple(REGISTERS)


def make_pattern(words: Iterable[str]) -> str:
    """Returns the pattern that matches any of these words."""
    return "|".join(words)


def make_javascript() -> str:
    """Returns the text of web/words.js."""
    exact = make_pattern((*QUESTIONS, *CONSTANTS, *NEGATION, *SOURCE, *SOURCE_WHOLE))
    return f"""// The words of tests that are shown in colours. Written by tools/documents/make_grammar.py, from the table of tools/editor/words.py.

const EXACT = /^(?:{exact})$/;
const IN_ANY_CASE = /^(?:{make_pattern((*X86, *X86_WAITING))})$/i;
const REGISTER_OF_SOURCE = /^(?:{make_pattern(REGISTERS["SRC"])})$/;
const REGISTER_OF_X86 = /^(?:{make_pattern(REGISTERS["X86"])})$/i;

/** Whether a word is one of a test's own. */
export const KEYWORDS = {{ test: (word) => EXACT.test(word) || IN_ANY_CASE.test(word) }};

/** Whether a word is one of an access that is done at once, or of a fence. */
export const FENCES = {{ test: (word) => /^(?:{make_pattern(SOURCE_WHOLE)})$/.test(word) || /^(?:{make_pattern(X86_WAITING)})$/i.test(word) }};

/** Whether a word is a register. */
export const REGISTER = {{ test: (word) => REGISTER_OF_SOURCE.test(word) || REGISTER_OF_X86.test(word) }};
"""
