"""The documents that a made site carries beside the page: those of docs/, with links to each other, to the tests that they show, and back.

A test that a document shows has a link that opens it on the page. So have the commands that ask about a test (commands.py): a reader of a site
needs no program. In a document that is a walk, what the page shows comes first (answers.py), and the command with what it prints is folded; so is
each paragraph that begins with `SHELL`. A document of docs/ that the site does not carry is named, without a link.
"""
from __future__ import annotations

import re
from html import escape
from typing import NamedTuple
from urllib.parse import urlencode

from lab import markdown, sheets
from lab.tests import make_tests, read_file
from page import answers
from page.commands import EXAMPLE, is_example, list_views
from page.origin import About, Archive


class Document(NamedTuple):
    """A document of a site: its name as links of docs/ have it, its name in lists of documents, and what it is."""

    source: str
    title: str
    about: str


# For each file of a site its document. Those up to `LAST_LISTED` are in the list at the top of each.
DOCUMENTS = {
    "tutorial.html": Document("TUTORIAL", "Tutorial", "an hour's walk"),
    "page.html": Document("PAGE", "The page", "all that it shows"),
    "your-code.html": Document("YOUR-CODE", "Your own code", "what can be pasted, and what it becomes"),
    "lab.html": Document("LAB", "Lab", "90 minutes for a class"),
    "families.html": Document("FAMILIES", "Classic shapes", "by litmus tests, on one page"),
    "fences.html": Document("FENCES", "Fences", "which are needed, and why"),
    "algorithms.html": Document("ALGORITHMS", "Algorithms", "as litmus tests"),
    "limits.html": Document("LIMITS", "Limits", "a list that is too large"),
    "terms.html": Document("GLOSSARY", "Terms", "beside those of textbooks"),
    "card.html": Document("CARD", "Syntax", "on one page"),
    "format.html": Document("FORMAT", "Format", "all that is read and printed, faults and limits"),
    "axioms.html": Document("AXIOMS", "Axioms", "x86-TSO by relations"),
    "theorems.html": Document("THEOREMS", "What is proved", "in plain words, with the contracts"),
    "proof.html": Document("PROOF", "The proof", "explained for graduate students"),
    "believe.html": Document("BELIEVE", "What to read to believe it", "the definitions, in order"),
    "trusted.html": Document("TRUSTED", "What is trusted", "assumptions on one page"),
    "examples.html": Document("../examples/INDEX", "All examples", "by family, and where published"),
    "from-herd.html": Document("FROM-HERD", "From herd", "its tests, and logs"),
    "from-c.html": Document("FROM-C", "From C and Rust", "programs as tests"),
    "on-machine.html": Document("ON-MACHINE", "On a machine", "what a processor shows of a test"),
    "solutions.html": Document("SOLUTIONS", "Solutions", "to the tutorial and the lab"),
}
LAST_LISTED = "theorems.html"
SHAPES = "families.html"
# The documents that are printed on few pages, in small type.
CARDS = ("card.html", "terms.html", SHAPES)
SHEET, SLIDES, QUIZ = "sheet.html", "slides.html", "quiz.html"
# The quizzes of a site, by their seeds. Each has links to the others.
QUIZZES = {"1": QUIZ, "2": "quiz-2.html", "3": "quiz-3.html"}
# The heading of the lab below which a site says how to prepare the lab with what is on it, and the Markdown's own words there.
PREPARATION = re.compile(r'(<h3 id="prepare-it-in-ten-minutes">.*?</h3>\n).*?(?=<h4)', re.S)
# The documents in which commands are folded, and how paragraphs begin that are only for those who run them, or who have the repository: these
# words are the summary of the fold.
WALKS = ("tutorial.html", "solutions.html", "lab.html")
FOLDED = re.compile(r"\*(In a shell|If you have the repository):\* ")
FOLD = '<details class="shell"><summary>{summary}</summary>\n'
SHELL_FOLD = FOLD.format(summary="In a shell")
UNFOLD = "</details>\n"
STYLE, SCRIPT = "reading.css", "reading.js"
# The site's words on the links above commands, at the start of a document, and on the commands themselves, at its end.
OPEN_NOTE = "You need nothing installed: a link with ▸ does on this site's page what the command below it does, with the same test or run."
COMMAND_NOTE = "The commands themselves are for readers who have {tools}."
# The site's words at the start of a walk.
WALK_NOTE = (
    "You need nothing installed. A link with ▸ opens on lw's page what is shown below it. <em>In a shell</em> unfolds the command that prints the same, "
    "for readers who have {tools}."
)
REPOSITORY = "lw's repository"
# The tags of links, of which none may be within another.
WITHIN = re.compile(r"</?a\b[^>]*>")
NAMED = re.compile(r"(?:docs/)?\b([A-Z][A-Z-]+\.md)\b")
FIRST_LINE = re.compile(r"(?:SRC|X86) \S+")
QUESTION = re.compile(r"(?:~?exists|forall)\b")
# A command in a listing, as HTML: it looks different from its output.
COMMAND = re.compile(r"(?:(?<=>)|^)\$ [^\n<]*", re.M)


def make_page_link(words: str, **view: str) -> str:
    """Returns a link to the page with a view of a test, in one tab for all of them."""
    return f'<a target="lw" href="index.html#{escape(urlencode(view))}">{words}</a>'


def make_links(links: list[str]) -> str:
    """Returns a line of links, or nothing if there are none."""
    return f'<p class="open">{" ".join(links)}</p>\n' if links else ""


def is_test(lines: list[str]) -> bool:
    """Returns whether lines are a whole test."""
    return bool(lines) and bool(FIRST_LINE.fullmatch(lines[0])) and any(map(QUESTION.match, lines))


def make_anchor(words: str) -> str:
    """Returns the name by which links lead to a heading, as code hosts make it."""
    return re.sub(r"[^\w\- ]", "", words.lower()).replace(" ", "-")


class SiteRenderer(markdown.Renderer):
    """Renders a document of a site. `tests` are the lab's, by the names that its sheet has for them.

    A name of one letter may be another thing (`R` is a load, too), so it leads to an example only in the table of shapes.
    """

    def __init__(self, tests: dict[str, str], shortest: int, is_walk: bool = False) -> None:
        """Makes a renderer of a document. `tests` are those of the lab; names of examples with fewer than `shortest` letters are no links.
        """
        super().__init__()
        self.tests, self.shortest, self.is_walk = tests, shortest, is_walk
        # The pictures that are drawn already in place of commands.
        self.drawn = ""
        self.files = {it.source: file for file, it in DOCUMENTS.items()}
        self.headings: list[str] = []

    def render_body(self, text: str) -> str:
        """Returns a text as HTML, in which items that follow each other are a list."""
        html = super().render_body(text).replace(UNFOLD + SHELL_FOLD, "")
        html = re.sub(r"(?:<li>.*</li>\n)+", lambda it: f"<ul>\n{it[0]}</ul>\n", html)
        return re.sub(r'(?:<li value="\d+">.*</li>\n)+', lambda it: f"<ol>\n{it[0]}</ol>\n", html)

    def render_block(self, kind: str, lines: list[str]) -> str:
        """Returns a block; of a line that names tests of the lab these tests."""
        if kind == "paragraph" and (match := sheets.TESTS.fullmatch(lines[0])):
            shown = (sheets.render_test(it, self.tests[it], "index.html", sheets.VIEWS.get(match[1], {})) for it in match[2].split())
            return '<div class="tests">\n' + "".join(shown) + "</div>\n"
        if kind == "item":
            number, _, rest = markdown.join_lines(lines).partition(" ")
            value = "" if number == "-" else f' value="{number[:-1]}"'
            return f"<li{value}>{self.render_inline(rest)}</li>\n"
        if kind == "paragraph" and self.is_walk and (fold := FOLDED.match(lines[0])):
            return FOLD.format(summary=fold[1]) + super().render_block(kind, [lines[0][fold.end() :], *lines[1:]]) + UNFOLD
        html = super().render_block(kind, lines)
        is_on_commands = kind == "paragraph" and lines[0].startswith("`python3 tools/")
        return html.replace("<p>", '<p class="on-commands">', 1) if is_on_commands else html

    def render_heading(self, level: int, words: str) -> str:
        """Returns a heading that links lead to, and keeps it for the contents if it is one of the second level."""
        if level == 2:
            self.headings.append(words)
        return f'<h{level} id="{make_anchor(words)}">{self.render_inline(words)}</h{level}>\n'

    def render_listing(self, lines: list[str]) -> str:
        """Returns lines in a fixed pitch, with links that open on the page what they show: above commands, and below a test. In a walk commands are
        folded below what the page shows.
        """
        if self.is_walk and lines and lines[0].startswith("$ "):
            return self.render_commands(lines)
        views = [it for line in lines if line.startswith("$ ") for it in list_views(line[len("$ ") :])]
        above = make_links([make_page_link(escape(f"▸ {it.words}"), **it.fields) for it in views])
        below = make_links([make_page_link("▸ Open this test on the page", text="\n".join(lines) + "\n")] if is_test(lines) else [])
        return above + self.render_lines(lines) + below

    def render_lines(self, lines: list[str]) -> str:
        """Returns lines in a fixed pitch, in which commands are marked."""
        listing = super().render_listing(lines).replace("<pre>", '<pre tabindex="0">')
        return COMMAND.sub(r'<span class="command">\g<0></span>', listing)

    def render_commands(self, lines: list[str]) -> str:
        """Returns what the page shows of the commands of a listing, and folded the commands with what they print; not folded if the page shows in
        another way only what they ask about.
        """
        runs = answers.split_runs(lines)
        shown = answers.draw_runs(runs, make_page_link)
        self.drawn += shown
        views = [it for command, _ in runs for it in list_views(command)]
        if views and not shown:
            return make_links([make_page_link(escape(f"▸ {it.words}"), **it.fields) for it in views]) + self.render_lines(lines)
        return shown + SHELL_FOLD + self.render_lines(lines) + UNFOLD

    def render_picture(self, words: str, path: str) -> str:
        """Returns a picture of docs/ with its caption; nothing if it is drawn already."""
        drawn = answers.make_figure(read_file(f"docs/{path}"))
        return "" if drawn in self.drawn else f"<figure>\n{drawn}<figcaption>{self.render_inline(words)}</figcaption></figure>\n"

    def render_table(self, lines: list[str]) -> str:
        """Returns a table that a narrow screen can scroll."""
        return f'<div class="wide" tabindex="0">\n{super().render_table(lines)}</div>\n'

    def render_cell(self, text: str) -> str:
        """Returns the content of a cell; the name of an example leads to it."""
        return make_page_link(text, example=text) if self.is_name(text) else super().render_cell(text)

    def is_name(self, text: str) -> bool:
        """Returns whether a text is the name of an example here."""
        return len(text) >= self.shortest and is_example(text)

    def render_plain(self, text: str) -> str:
        """Returns words that have no marks, as HTML; the name of a document's file is a link to it."""
        return NAMED.sub(lambda it: self.render_link(it[0], it[1]) if it[1][: -len(".md")] in self.files else it[0], super().render_plain(text))

    def render_code(self, text: str) -> str:
        """Returns code within words, which may be broken at `_`; the name of an example leads to it."""
        match, html = EXAMPLE.fullmatch(text), super().render_code(text).replace("_", "_<wbr>")
        if match and is_example(match[1]):
            return make_page_link(html, example=match[1])
        return make_page_link(html, example=text) if len(text) > 1 and self.is_name(text) else html

    def render_link(self, words: str, target: str) -> str:
        """Returns a link to a document of the site, a part of it or an example; of any other link the words."""
        words = WITHIN.sub("", words)
        document, hash_sign, part = target.partition("#")
        document = document.replace("../docs/", "", 1)
        name = document[: -len(".md")] if document.endswith(".md") else document
        if not document or name in self.files:
            file = self.files.get(name, "")
            words = DOCUMENTS[file].title if words in (document, f"docs/{document}", document.replace("../", "", 1)) else words
            return f'<a href="{file}{hash_sign}{part}">{words}</a>'
        match = EXAMPLE.fullmatch(document)
        return make_page_link(words, example=match[1]) if match and is_example(match[1]) else words


def make_navigation(current: str) -> str:
    """Returns the links to the page and to the other documents, and the choice of light or dark."""
    names = [it for it in DOCUMENTS if list(DOCUMENTS).index(it) <= list(DOCUMENTS).index(LAST_LISTED)]
    mark_of_current = lambda it: ' aria-current="page"' if it == current else ""
    links = "".join(f'<a href="{it}"{mark_of_current(it)}>{DOCUMENTS[it].title}</a>\n' for it in names)
    options = "".join(f'<option value="{it.lower()}">{it}</option>' for it in ("System", "Light", "Dark"))
    return (
        f'<a class="skip" href="#document">To the text</a>\n<header>\n<a class="home" href="index.html" target="lw">lw: run a test</a>\n'
        f'<nav aria-label="Documents">\n{links}</nav>\n<label class="theme">Colours <select id="theme">{options}</select></label>\n</header>\n'
    )


def make_contents(headings: list[str], renderer: markdown.Renderer) -> str:
    """Returns the contents of a document that has several parts."""
    if len(headings) < 3:
        return ""
    items = "".join(f'<li><a href="#{make_anchor(it)}">{renderer.render_inline(it)}</a></li>\n' for it in headings)
    return f'<nav class="contents" aria-label="On this page">\n<ul>\n{items}</ul>\n</nav>\n'


def describe_tools(archive: Archive | None) -> str:
    """Returns words on what has the programs and the tools: the archive that a site carries, with a link to it, or the repository."""
    if archive is None:
        return REPOSITORY
    return f'<a href="{escape(archive.file)}" download>lw\'s archive</a> ({archive.size}, for Linux on x86-64 with Python)'


def make_next_link(file: str, origin: str) -> str:
    """Returns a link to the document after this one, and the words on the site's origin."""
    names = list(DOCUMENTS)
    after = names[(names.index(file) + 1) % len(names)]
    return (
        f'<p class="next">Next: <a href="{after}">{DOCUMENTS[after].title}</a>, {DOCUMENTS[after].about}. Or <a href="index.html" target="lw">run a test</a>.'
        f'</p>\n<p class="origin">{escape(origin)}</p>\n'
    )


def make_preparation(has_slides: bool) -> str:
    """Returns how a teacher prepares the lab with what is on the site, in steps."""
    link = lambda file, words: f'<a href="{file}" target="hand-out">{words}</a>'
    slides = (
        f"{link(SLIDES, 'The slides')} are in the timetable below. The arrows, a click or the two buttons lead through them; N shows notes for you, and "
        "a link on a slide opens its test here."
        if has_slides else "The slides are missing: this site was made without the built program, which they need."
    )
    compared = make_page_link("the test SB beside the same test with fences", example="SB-x86", beside="SB+mfences-x86")
    steps = [
        f"<strong>Try it</strong> in a browser of the room: open {link(SHEET, 'the sheet')}, click <em>open</em> beside the test A1, and then <em>Just show "
        "it</em>. The page shows a verdict and the machine. If it says that the browser does not take the module, use a newer browser.",
        f"<strong>Print</strong> {link(SHEET, 'the sheet')} for each student, from the browser. The first page is task 1; hand out the rest after it, "
        "since its questions show what is possible. Cut a dozen slips of paper for each group: they are the entries of store buffers.",
        f"<strong>Give out</strong> the link to {link(SHEET, 'the sheet')}: each test on it opens here, and asks for a prediction first. Nothing that a "
        f"student does is sent anywhere. {link('card.html', 'A card')} has the syntax.",
        f"<strong>Show.</strong> {slides} At the end, show {compared}: the state that only the first has is marked.",
        f"<strong>Afterwards.</strong> {link(QUIZ, 'A quiz')} of ten tests is for the end or for home: it says what was right, and why, and reads the "
        "codes that students hand in. It has links to two more quizzes. "
        f"{link('terms.html', 'The terms')} and {link(SHAPES, 'the classic shapes')} are pages to hand out, and {link('tutorial.html', 'the tutorial')} is "
        "for those who want to read on.",
    ]
    items = "".join(f"<li>{it}</li>\n" for it in steps)
    answers_note = f"This site has {link('solutions.html', 'the solutions')}, too. If your class shall not find them, give out the folder below."
    return f'<div class="note">\n<p>All that you need is on this site:</p>\n<ol>\n{items}</ol>\n<p>{answers_note}</p>\n</div>\n'


def make_page(file: str, tests: dict[str, str], policy: str, about: About, has_slides: bool) -> str:
    """Returns a document of a site as a page."""
    heading, _, text = read_file(f"docs/{DOCUMENTS[file].source}.md").partition("\n")
    is_walk = file in WALKS
    title, renderer = heading.lstrip("# "), SiteRenderer(tests, 1 if file == SHAPES else 2, is_walk)
    body = renderer.render_body(text)
    notes = (WALK_NOTE if is_walk else OPEN_NOTE, "" if is_walk else COMMAND_NOTE)
    tools = describe_tools(about.archive)
    open_note, command_note = (f'<p class="note">{it.format(tools=tools)}</p>\n' if it and '<p class="open">' in body else "" for it in notes)
    kind = ' class="card"' if file in CARDS else ""
    if file == "lab.html":
        body = PREPARATION.sub(lambda it: it[1] + make_preparation(has_slides), body, count=1)
    return (
        f'<!doctype html>\n<html lang="en">\n<head>\n<meta charset="utf-8">\n<meta name="viewport" content="width=device-width, initial-scale=1">\n'
        f'<title>{escape(title)}</title>\n<meta http-equiv="Content-Security-Policy" content="{policy}">\n<link rel="icon" href="icon.svg">\n'
        f'<link rel="stylesheet" href="{STYLE}">\n<script src="{SCRIPT}"></script>\n</head>\n<body{kind}>\n{make_navigation(file)}'
        f'<main id="document" tabindex="-1">\n<h1>{escape(title)}</h1>\n{open_note}{make_contents(renderer.headings, renderer)}{body}{command_note}{make_next_link(file, about.origin)}</main>\n</body>\n</html>\n'
    )


def list_documents(has_slides: bool) -> list[list[str]]:
    """Returns each document with what it is, as the page lists them, and after the lab its sheet, its slides if the site has them, and a quiz."""
    documents = [[file, f"{it.title}: {it.about}"] for file, it in DOCUMENTS.items()]
    after_lab = list(DOCUMENTS).index("lab.html") + 1
    slides = [[SLIDES, "Slides: for the lab's introduction"]] if has_slides else []
    quizzes = [[QUIZ, "Quiz: ten tests, with reasons; three quizzes"]]
    documents[after_lab:after_lab] = [[SHEET, "Sheet for students: the lab's items, to print"], *slides, *quizzes]
    return documents


def make_pages(policy: str, about: About, quizzes: dict[str, str], slides: str | None = None) -> dict[str, str]:
    """Returns the documents of a site, the sheet of the lab, its quizzes, and its slides if there are some: for each file its text."""
    lab = read_file("docs/LAB.md")
    tests = make_tests(lab)
    pages = {file: make_page(file, tests, policy, about, slides is not None) for file in DOCUMENTS}
    pages[SHEET] = sheets.make_sheet(lab, tests, "index.html", is_of_site=True)
    pages.update(quizzes)
    return pages if slides is None else {**pages, SLIDES: slides}
