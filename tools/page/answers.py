"""Draws in HTML what commands of a document print, as the page shows it: the list of a test with its verdict, a compiled program, the machine after a
run, the graph of an execution, and the caches after several runs.

A reader of a made site sees this in place of commands. The states, the code and the runs are those of tools/plain.py, which prints the same as the
program; so a site is the same whether or not the program is built.
"""
from __future__ import annotations

import re
from html import escape
from typing import Callable, List, NamedTuple, Tuple

import executions
import films
import graph
import picture
import plain
from interpreter.tests import NoTest, Test
from page.commands import View, list_views
from page.condition_words import describe_verdict
from replay_state import parse_replay_state
from shared.home import HOME
from shared.matches import require_match

# A command with the lines that it prints.
Run = Tuple[str, List[str]]
# Makes a link to a view of the page, of its words and the fields of the address.
LinkMaker = Callable[..., str]

# The largest list that is drawn with a column for each state.
MAX_STATES, MAX_NAMES = 20, 5
SIGNS = {"can": "○", "yes": "✓", "cannot": "⊘", "wrong": "!"}
ROW = re.compile(r" .* ;")
OBSERVATION = re.compile(r"Observation (\S+) (?:Never|Sometimes|Always) (\d+) (\d+)")
REFUSAL = re.compile(r"(?:2> )?(lw: .*)")
WHY_NOT = re.compile(r'--why-not "([^"]*)"')
# The parts of a replay that a table of caches shows: a processor's buffer, lines or registers, or the words of memory.
PART = re.compile(r"(P\d) (buffer|lines|at \d+)\b ?(.*)|(Memory|Content) (.*)")
SVG_STYLE = re.compile(r"<style>.*?</style>\n?", re.S)
SVG_WIDTH = re.compile(r'<svg ([^>]*)width="([\d.]+)"')
# A picture is made narrower where there is less room, but no narrower than this part, so that its words can be read.
LEAST_PART = 0.77
TITLES = {"buffer": "'s buffer", "lines": "'s line"}


class ListedStates(NamedTuple):
    """The states of a test, each with its words, and whether the condition holds there."""

    names: list[str]
    rows: list[tuple[list[int], bool]]


# Tests.


def read_text(view: View) -> str:
    """Returns the text of the test that a link to the page opens: its own, or that of its example."""
    if "text" in view.fields:
        return view.fields["text"]
    with open(f"{HOME}/examples/{view.fields['example']}.litmus", encoding="utf-8") as file:
        return file.read()


def list_states(test: Test) -> ListedStates:
    """Returns the states of a test."""
    states = plain.collect_states(test, plain.list_outcomes(test))
    names = [plain.format_site(test, it) for it in plain.list_observed_sites(test)]
    return ListedStates(names, [(list(words), plain.is_true_in(test.proposition, outcome)) for words, outcome in states])


def find_missing(test: Test, listed: ListedStates) -> list[int] | None:
    """Returns the words of a state that the condition asks about and that the list lacks, if the condition names a word for each site; or None."""
    atoms = []
    parts = [test.proposition]
    while parts:
        part = parts.pop()
        if isinstance(part, plain.And):
            parts += [part.left, part.right]
        elif isinstance(part, plain.Eq):
            atoms.append((plain.format_site(test, part.site), part.word))
        else:
            return None
    words = dict(atoms)
    if test.quantifier == "forall" or len(words) < len(atoms) or any(it not in words for it in listed.names) or any(holds for _, holds in listed.rows):
        return None
    return [words[it] for it in listed.names]


# Lists.


def render_code_words(sentence: str) -> str:
    """Returns a sentence with its code, which is between backquotes, marked."""
    return re.sub(r"`([^`]*)`", r"<code>\1</code>", escape(sentence, quote=False))


def describe_count(positive: int, count: int) -> str:
    """Returns the sentence that says in how many of `count` states the condition holds, of which `positive` is the number."""
    if count == 1:
        return f"The condition {'holds' if positive else 'does not hold'} in the only final state."
    holding = "all" if positive == count else f"{positive} of" if positive else "none of"
    return f"The condition holds in {holding} {count} final states."


def draw_list(test: Test) -> str:
    """Returns the verdict on a test and the list of its states, with a tick where the condition holds; nothing if the list is too large."""
    listed = list_states(test)
    if len(listed.rows) > MAX_STATES or len(listed.names) > MAX_NAMES:
        return ""
    positive = sum(holds for _, holds in listed.rows)
    kind, word, sentence = describe_verdict(test, positive, len(listed.rows))
    missing = find_missing(test, listed)
    # A row for each observed name, with a column for each state, and one for the state that is missing.
    never = lambda text, tag="td": f'<{tag} class="never">{text}</{tag}>' if missing else ""
    mark = lambda holds: ' class="holds"' if holds else ""
    heads = "".join(f'<th scope="col"{mark(holds)}>{number}</th>' for number, (_, holds) in enumerate(listed.rows, 1))
    rows = [f'<tr><th scope="row">state</th>{heads}{never("never", "th scope=col").replace("</th scope=col>", "</th>")}</tr>']
    for index, name in enumerate(listed.names):
        cells = "".join(f"<td{mark(holds)}>{words[index]}</td>" for words, holds in listed.rows)
        rows.append(f'<tr><th scope="row">{name}</th>{cells}{never(missing[index] if missing else "")}</tr>')
    if positive:
        ticks = "".join(f"<td{mark(holds)}>{'✓' if holds else ''}</td>" for _, holds in listed.rows)
        rows.append(f'<tr><th scope="row">condition holds</th>{ticks}{never("")}</tr>')
    condition = escape(plain.format_condition(test), quote=False)
    return (
        f'<p class="verdict {kind}"><span aria-hidden="true">{SIGNS[kind]}</span> <strong>{word}</strong> {render_code_words(sentence)}</p>\n'
        f"<p><code>{condition}</code> {describe_count(positive, len(listed.rows))}</p>\n"
        f'<div class="wide" tabindex="0">\n<table class="states">\n' + "".join(f"{it}\n" for it in rows) + "</table>\n</div>\n"
    )


def draw_verdicts(runs: list[tuple[View, str]], link: LinkMaker) -> str:
    """Returns a table of verdicts on several tests, each with a link."""
    rows = []
    for view, line in runs:
        name, positive, negative = require_match(OBSERVATION.fullmatch(line)).groups()
        count = int(positive) + int(negative)
        _, word, _ = describe_verdict(plain.read_test(read_text(view)), int(positive), count)
        holding = f"{positive if int(positive) else 'none'} of {count} states"
        rows.append(f"<tr><td>{link(f'▸ {name}', **view.fields)}</td><td>{word[:-1]}</td><td>{holding}</td></tr>\n")
    head = "<tr><th>Test</th><th>Verdict</th><th>The condition holds in</th></tr>\n"
    return f'<div class="wide" tabindex="0">\n<table>\n{head}{"".join(rows)}</table>\n</div>\n'


def draw_schedules(test: Test, output: list[str], link: LinkMaker) -> str:
    """Returns a table of states, each with the schedule of a run to it, which is a link to this run."""
    text = plain.format_canonical_text(plain.compile_test(test))
    pairs = [(line, after.strip()) for line, after in zip(output, output[1:]) if line.endswith(";") and after.startswith(" ")]
    row = lambda line, it: f"<tr><td><code>{line}</code></td><td>{link(f'▸ {it}', text=text, view='hand', schedule=it)}</td></tr>\n"
    return '<div class="wide" tabindex="0">\n<table>\n<tr><th>State</th><th>A run to it</th></tr>\n' + "".join(row(*it) for it in pairs) + "</table>\n</div>\n"


def find_end(view: View) -> str | None:
    """Returns the state in which a run ends, as a report's line; None if the run is not at its end."""
    text = read_text(view)
    state = parse_replay_state(ask_plain(["replay", view.fields["schedule"]], text.encode()))
    if state["end"]["kind"] != "Final":
        return None
    words = {name: word for name, word in state["content"]}
    words.update((f"{index}:{name}", word) for index, thread in enumerate(state["threads"]) for name, word in thread["registers"])
    test = plain.read_test(text)
    return " ".join(f"{name}={words[name]};" for name in (plain.format_site(test, it) for it in plain.list_observed_sites(test)))


def draw_ends(views: list[View], link: LinkMaker) -> str:
    """Returns a table of several runs, each with a link and the state in which it ends; nothing if one is not at its end."""
    ends = [find_end(it) for it in views]
    if None in ends:
        return ""
    rows = "".join(
        f"<tr><td>{link('▸ ' + view.fields['schedule'], **view.fields)}</td><td><code>{end}</code></td></tr>\n" for view, end in zip(views, ends)
    )
    return f'<div class="wide" tabindex="0">\n<table>\n<tr><th>Run</th><th>It ends in</th></tr>\n{rows}</table>\n</div>\n'


# Code.


def draw_code(rows: list[list[str]]) -> str:
    """Returns rows of code as a table with a column for each thread, in which fences are marked."""
    heads = "".join(f'<th scope="col">P{thread}</th>' for thread in range(len(rows[0])))
    mark = lambda it: ' class="fence"' if it.endswith("MFENCE") else ""
    body = "".join("<tr>" + "".join(f"<td{mark(it)}><code>{escape(it, quote=False)}</code></td>" for it in row) + "</tr>\n" for row in rows)
    return f'<div class="wide" tabindex="0">\n<table class="code">\n<tr>{heads}</tr>\n{body}</table>\n</div>\n'


def split_row(line: str) -> list[str]:
    """Returns the cells of a row of a test."""
    return [it.strip() for it in line.strip()[:-1].split("|")]


def draw_compiled(test: Test, output: list[str]) -> str:
    """Returns the code of a compiled test: the rows that are printed, or all if none is."""
    rows = [split_row(it) for it in output if ROW.fullmatch(it)]
    if not rows:
        canonical = plain.format_canonical_text(plain.compile_test(test)).partition("\n}\n")[2]
        rows = [split_row(it) for it in canonical.splitlines() if ROW.fullmatch(it)]
    return draw_code([it for it in rows if not it[0].startswith("P0")])


# Pictures.


def ask_plain(arguments: list[str], text: bytes) -> str:
    """Returns what tools/plain.py prints for these arguments of `lw` and this text."""
    return plain.answer_command(arguments, text.decode())[0]


def make_figure(svg: str) -> str:
    """Returns a picture in the colours of the document, which is scrolled where it is too wide."""
    least = lambda it: f'<svg {it[1]}style="min-width: {float(it[2]) * LEAST_PART:.0f}px" width="{it[2]}"'
    return f'<div class="picture" tabindex="0">\n{SVG_WIDTH.sub(least, SVG_STYLE.sub("", svg), count=1)}</div>\n'


def draw_machine(text: str, schedule: str) -> str:
    """Returns a picture of the machine after a schedule, without its caches."""
    film = films.make_film(text.encode(), schedule, "mesi", ask_plain)
    for state in film["states"]:
        for thread in state["threads"]:
            if "lines" in thread:
                thread["lines"] = []
    return make_figure(picture.draw_film_state(film, len(film["events"])).replace(">content<", ">memory<"))


def draw_graph(test: Test, schedule: str) -> str:
    """Returns the graph of a run's execution, as tools/graph.py draws it."""
    program = plain.compile_test(test)
    return graph.draw_execution(executions.make_execution(program, schedule), f"{program.name}, the execution of {schedule}")


def draw_why_not(test: Test, state: str) -> str:
    """Returns the cycles by which the axioms forbid a state, as pictures."""
    return "".join(make_figure(it.picture) for it in graph.explain_states_of_any(test, state).cycles)


# Caches.


def parse_parts(output: list[str]) -> dict[str, str] | None:
    """Returns the parts of a replay of which only those on one location are printed, by their titles; None if other lines are printed."""
    parts: dict[str, str] = {}
    for match in map(PART.fullmatch, output):
        if match is None:
            return None
        thread, kind, words, memory, word = match.groups()
        if memory:
            parts[memory.lower()] = word
        elif kind in TITLES:
            parts[f"{thread}{TITLES[kind]}"] = words
        else:
            parts[f"{thread}'s registers"] = " ".join(it for it in words.split() if not it.endswith("=0"))
    return parts if "memory" in parts and len(parts) > 2 else None


def draw_caches(runs: list[tuple[View, dict[str, str]]], link: LinkMaker) -> str:
    """Returns a table of the parts of several replays, each with a link to its run."""
    titles = sorted({it for _, parts in runs for it in parts}, key=lambda title: (title == "content", title == "memory", title))
    heads = "".join(f'<th scope="col">{it}</th>' for it in ("after", *titles))
    rows = ""
    for view, parts in runs:
        protocol = f" ({view.fields['protocol'].upper()})" if "protocol" in view.fields else ""
        run_link = link(f"▸ {view.fields['schedule']}{protocol}", **view.fields)
        cells = (f"<code>{parts[it]}</code>" if it in parts else "" for it in titles)
        rows += f"<tr><td>{run_link}</td>" + "".join(f"<td>{it}</td>" for it in cells) + "</tr>\n"
    return f'<div class="wide" tabindex="0">\n<table>\n<tr>{heads}</tr>\n{rows}</table>\n</div>\n'


# Commands.


def split_runs(lines: list[str]) -> list[Run]:
    """Returns the commands of a listing, each with the lines that it prints."""
    runs: list[Run] = []
    for line in lines:
        if line.startswith("$ "):
            runs.append((line[len("$ ") :], []))
        elif runs:
            runs[-1][1].append(line)
    return runs


def draw_command(command: str, output: list[str], view: View) -> str:
    """Returns the output of a command on one test, as the page shows it. Empty if the page shows it in no other way."""
    refusals = [match[1] for match in map(REFUSAL.fullmatch, output) if match]
    if refusals:
        return "".join(f'<p class="refused"><strong>Refused.</strong> <code>{escape(it, quote=False)}</code></p>\n' for it in refusals)
    text = read_text(view)
    try:
        test = plain.read_test(text)
    except NoTest:
        return ""
    kind = view.fields.get("view")
    if kind == "hand":
        is_graph = "tools/graph.py" in command
        return make_figure(draw_graph(test, view.fields["schedule"])) if is_graph else draw_machine(text, view.fields["schedule"])
    if kind == "compile":
        return draw_compiled(test, output)
    if kind == "why":
        match = WHY_NOT.search(command)
        return draw_why_not(test, match[1]) if match else ""
    return draw_list(test) if kind is None and "./lw states" in command else ""


def draw_runs(runs: list[Run], link: LinkMaker) -> str:
    """Returns what the commands of a listing print, as the page shows it, with links to it. Empty if the page shows the output of some command in no
    other way.
    """
    views = [list(list_views(command)) for command, _ in runs]
    parts = [parse_parts(output) for _, output in runs]
    # Replays of which only parts are printed are rows of one table.
    if all(parts) and all(len(it) == 1 for it in views):
        return draw_caches([(of_run[0], it) for of_run, it in zip(views, parts) if it], link)
    drawn = []
    for (command, output), of_command in zip(runs, views):
        lines = [it for it in output if not re.fullmatch(r"\[status \d+\]", it)]
        # A command on several tests: their verdicts, or the ends of their runs.
        if len(of_command) > 1 and len(of_command) == len(lines) and all(map(OBSERVATION.fullmatch, lines)):
            drawn.append(draw_verdicts(list(zip(of_command, lines)), link))
            continue
        if len(of_command) > 1 and all(it.fields.get("view") == "hand" for it in of_command) and (shown := draw_ends(of_command, link)):
            drawn.append(shown)
            continue
        if len(of_command) != 1:
            return ""
        # A command on one test.
        view = of_command[0]
        links = f'<p class="open">{link(make_label(view), **view.fields)}{describe_schedule(view)}</p>\n'
        if "./lw schedules" in command:
            shown = draw_schedules(plain.read_test(read_text(view)), lines, link)
        else:
            shown = draw_command(command, lines, view)
        if not shown:
            return ""
        drawn.append(f'<div class="answer">\n{links}{shown}</div>\n')
    return "".join(drawn)


def describe_schedule(view: View) -> str:
    """Returns the schedule of a run, in words; nothing of another view."""
    if "schedule" not in view.fields:
        return ""
    schedule = view.fields["schedule"]
    return f" <span>by the schedule <code>{schedule}</code></span>" if schedule else " <span>before the first event</span>"


def make_label(view: View) -> str:
    """Returns the words of the link that opens a view on the page."""
    if view.fields.get("view") == "hand":
        return "▸ Open this run on the page"
    return escape(f"▸ {view.words[0].upper()}{view.words[1:]} on the page")
