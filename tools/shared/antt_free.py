"""Finds the names that a file of proofs uses and neither imports nor declares nor binds.

What a lemma binds (parameters, `λ`, `let`, patterns, fields) is gathered over the lemma and the lines under it, so that a name that is
bound in one place counts as bound in all of them. A name that is said to be free is not bound anywhere in its lemma.
"""
from __future__ import annotations

import re
from collections.abc import Container

from shared import antt
from shared.antt_names import File, parse_words

# The language's own words and signs.
BUILT_IN = set(
    "pub abbrev unfoldable data record module where open use let in as at elim absurd tt Unit Type tactic lib"
    " rw simp search assumption cc omega grind hlevel first_of _ ? : = → λ | ↦ ← × ⊥ ¬ .".split()
)
# Constructors without arguments that are written in lower case.
CONSTRUCTORS = {"zero", "true", "false"}
BRACKETS = {*antt.OPENING, *antt.CLOSING}
SKIPPED = re.compile(r"\s*(?:(?:unfoldable )?(?:pub )?(?:use|mod)|open|unfolding|ruleset|infix[lr]?) ")
OPENED = re.compile(r"\s*open .* use \{([^}]*)\}")
NUMERAL_OR_TEXT = re.compile(r'[\d"]')


def take_until(tokens: list[str], index: int, ends: Container[str]) -> tuple[list[str], str]:
    """Returns the tokens from an index on up to the first of `ends`, and that one; it is empty if there is none."""
    before = []
    while index < len(tokens) and tokens[index] not in ends:
        before.append(tokens[index])
        index += 1
    return before, tokens[index] if index < len(tokens) else ""


def remove_types(tokens: list[str]) -> list[str]:
    """Returns some tokens, without what follows colons in their brackets."""
    tokens_left, depth, depth_of_type = [], 0, None
    for token in tokens:
        depth += (token in antt.OPENING) - (token in antt.CLOSING)
        if depth_of_type is not None and depth < depth_of_type:
            depth_of_type = None
        if depth_of_type is None and token == ":":
            depth_of_type = depth
        if depth_of_type is None:
            tokens_left.append(token)
    return tokens_left


def find_pattern(tokens: list[str], end: int) -> list[str]:
    """Returns the tokens of the pattern that ends before an index: from the bar or the bracket before it."""
    depth, begin = 0, end
    while begin and (depth or tokens[begin - 1] not in ("|", *antt.OPENING)):
        begin -= 1
        depth += (tokens[begin] in antt.CLOSING) - (tokens[begin] in antt.OPENING)
    return tokens[begin:end]


def list_variables(pattern: list[str]) -> set[str]:
    """Returns the names that patterns bind: their words, except constructors, which have arguments, or are capitalized with more than two letters."""
    variables = set()
    for before, word, after in zip(["", *pattern], pattern, [*pattern[1:], ""]):
        has_arguments = before == "(" and (after[:1].isalpha() or after in ("(", "{", "_"))
        is_constructor = has_arguments or word in CONSTRUCTORS or word[0].isupper() and len(word) > 2
        if word[0].isalpha() and not is_constructor:
            variables.add(word)
    return variables


def list_bound_by_words(tokens: list[str]) -> set[str]:
    """Returns the names that `λ`, `let`, the cases of `elim`, parameters and fields bind."""
    bound = set()
    for index, token in enumerate(tokens):
        if token == "λ":
            bound.update(remove_types(take_until(tokens, index + 1, (".",))[0]))
        elif token == "let":
            bound.update(take_until(tokens, index + 1, (":", "="))[0])
        elif token in ("(", "{"):
            names, end = take_until(tokens, index + 1, (":", "=", ",", ";", "→", *BRACKETS))
            if end == ":" or token == "{" and end in ("}", "="):
                bound.update(names)
        elif token == ";" and tokens[index + 2 : index + 3] in (["="], [":"]):
            bound.add(tokens[index + 1])
        elif token == "↦":
            bound |= list_variables(["(", *find_pattern(tokens, index), ")"])
    return bound


def split_head(tokens: list[str]) -> tuple[list[str], str]:
    """Returns the tokens before the sign of an equation or a signature, and that sign."""
    depth = 0
    for index, token in enumerate(tokens):
        depth += (token in antt.OPENING) - (token in antt.CLOSING)
        if not depth and token in ("=", ":"):
            return tokens[:index], token
    return tokens, ""


def list_bound(sentence: antt.Sentence) -> set[str]:
    """Returns the names that a sentence binds."""
    opened = OPENED.match(sentence.text)
    if opened:
        return {it.strip() for it in opened[1].split(",")}
    tokens = parse_words(sentence)
    head, sign = split_head(tokens)
    bound = list_bound_by_words(tokens)
    if sign == "=":
        bound |= list_variables(head[1:])
    if sign == ":":
        bound.update(remove_types(head))
    return bound


def group_lemmas(sentences: list[antt.Sentence]) -> list[list[antt.Sentence]]:
    """Returns the sentences in groups: a signature or a block's head at the margin, its clauses, and what is indented below it."""
    groups: list[list[antt.Sentence]] = []
    for sentence in sentences:
        tokens = parse_words(sentence)
        if not groups or sentence.indent == 0 and (split_head(tokens)[1] == ":" or {"module", "record", "data"} & set(tokens[:3])):
            groups.append([])
        groups[-1].append(sentence)
    return groups


def list_file_names(file: File) -> set[str]:
    """Returns the names that a whole file has: what it imports and declares, the parts of its operators, and what its heads and records
    bind.
    """
    known = {*BUILT_IN, *BRACKETS, *file.imports, *file.modules, *(declaration.name for declaration in file.declarations)}
    for declaration in file.declarations:
        for part in declaration.parts:
            head, sign = split_head(parse_words(part))
            known |= set(head) if sign == ":" else set()
    for sentence in file.sentences:
        if {"module", "record", "data"} & set(parse_words(sentence)[:3]) or OPENED.match(sentence.text):
            known |= list_bound(sentence) | set(parse_words(sentence)[:3])
    return known | {part for name in known for part in name.split("◌") if part}


def list_free_names(file: File) -> list[str]:
    """Returns the free names of a file, in their order."""
    known, free = list_file_names(file), []
    for lemma in group_lemmas(file.sentences):
        bound = set().union(*map(list_bound, lemma))
        for word in (it for sentence in lemma if not SKIPPED.match(sentence.text) for it in parse_words(sentence)):
            name = word.partition(".")[0]
            if not (name in known or name in bound or word in BUILT_IN or word[0] in ".,;" or NUMERAL_OR_TEXT.match(word)):
                free.append(name)
    return list(dict.fromkeys(free))
