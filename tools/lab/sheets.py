"""The sheet of the lab for students, and the pages for their teacher: HTML that prints well and loads nothing."""
from __future__ import annotations

import re
from html import escape
from urllib.parse import urlencode

from lab import markdown
from lab.tests import NoLab, read_file

STYLE = """
body { font: 11pt/1.4 Georgia, "DejaVu Serif", serif; max-width: 48em; margin: 1em auto; padding: 0 1em; color: #111; background: #fff }
h1, h2, h3 { font-family: sans-serif; line-height: 1.2; break-after: avoid }
h3 { border-top: 1px solid #888; padding-top: .6em; margin-top: 1.6em }
code, pre { font: .92em ui-monospace, Menlo, Consolas, "DejaVu Sans Mono", monospace }
pre { margin: .3em 0; white-space: pre; overflow-x: auto }
table { border-collapse: collapse; margin: .6em 0; break-inside: avoid }
th, td { border: 1px solid #888; padding: .25em .6em; text-align: left; vertical-align: top }
.sheet table { width: 100% }
.sheet td:empty { height: 1.7em; min-width: 4em }
.sheet th.wide { width: 56% } .sheet th.wide + th { min-width: 6.2em }
.unit { break-inside: avoid } .item { padding-left: 1.6em; text-indent: -1.6em; break-after: avoid }
.tests { display: flex; flex-wrap: wrap; gap: .6em; break-inside: avoid; break-after: avoid }
.tests figure { border: 1px solid #888; padding: .3em .7em; margin: 0; break-inside: avoid; font-size: .9em; max-width: 100%; box-sizing: border-box }
.tests figcaption { font: bold 1em sans-serif }
.answer { height: 3.2em; border-bottom: 1px dotted #888; margin: 0 0 .8em 1.6em }
.address { display: none } .address span { flex: 1; border-bottom: 1px solid #888; overflow-wrap: anywhere }
.who { display: flex; gap: 2em; font-family: sans-serif } .who span { flex: 1; border-bottom: 1px solid #888 }
.card { page: card; font: 9pt/1.25 Georgia, "DejaVu Serif", serif; max-width: 62em } .card h1 { margin: 0; font-size: 1.5em }
.card h2 { margin: .6em 0 0; font-size: 1.2em } .card p { margin: .3em 0 } .card td, .card th { padding: .1em .5em }
.card pre { white-space: pre-wrap } .card table { break-inside: auto }
.task { break-inside: avoid } .new-page { break-before: page }
@media print {
  .address { display: flex; gap: .6em } a { color: inherit; text-decoration: none } p { orphans: 3; widows: 3 }
  body { margin: 0; padding: 0; max-width: none; font-size: 10.5pt; line-height: 1.3 } .screen { display: none } pre { white-space: pre-wrap }
  h1 { margin: .3em 0; font-size: 1.5em } .sheet p { margin: .45em 0 } .tests { gap: .4em } .tests figure { padding: .15em .5em; font-size: .82em }
  .answer { height: 2.4em; margin-bottom: .5em } h3 { margin-top: 1em; padding-top: .4em } .sheet td:empty { height: 1.6em }
}
@media screen {
  :root { color-scheme: light dark }
  body { color: light-dark(#111, #e8eaee); background: light-dark(#fff, #181c23) } a { color: light-dark(#1849a9, #8ab4ff) }
}
@media (max-width: 40em) { body { padding: 0 .6em } table { display: block; overflow-x: auto } }
@page { margin: 16mm } @page card { margin: 10mm }
"""
TITLE = "What can this program do?"
# The sheet's sentence on the tests' files, up to the words on a link; and these words, which are left out on paper, as HTML.
FILES = "The tests are files in `tests`, and *open* "
ON_LINKS = re.compile(r"(?:, and|:) <em>open</em> (?:beside a test opens it .*?|is for later)(?=\.)|<em>Open</em> beside a test opens it [^.]*\. ?")
# The line of the sheet's address on paper: a sheet that is opened from a server prints it, and on any other it is written by hand.
ADDRESS = '<p class="address">This sheet in a browser: <span id="address"></span></p>\n'
SCRIPT = """<script>
if (location.protocol.startsWith("http")) document.getElementById("address").textContent = location.origin + location.pathname;
</script>
"""
# What an item asks for that needs several lines, and how many lines it gets; any other has one.
ASKS_FOR_ROOM = re.compile(r"Write down (?:the schedules|all)|Draw ")
ROOMY_LINES = 5
# Links from the sheet of a site to its other documents, on a screen.
BEGIN_WITH = "Begin with the sheet: it has the tasks in their order. Write down what you expect of a test before you look at its list."
WAY_BACK = '<p class="screen"><a href="index.html" target="lw">lw</a> · <a href="tutorial.html">Tutorial</a> · <a href="card.html">Syntax</a></p>\n'
WHO = '<p class="who"><span>Name:</span> <span>Group:</span> <span>Points:</span></p>\n'
# The column in which reasons are written has to be wide.
WHY = "<th>why</th>"
# A line that names tests, to be played by hand, to be repaired by fences, or neither; and what a link to such a test asks the page for.
TESTS = re.compile(r"Tests( by hand| to repair)?: (.*)")
VIEWS = {" by hand": {"view": "hand"}, " to repair": {"fences": "own"}}
# What is between the tests of two lines, of which the second follows the first: they are side by side.
BETWEEN_TESTS = '</div>\n<div class="tests">\n'
# The documents to which a sheet has links, besides tests.
GIVEN_OUT = {"CARD.md": "card.html"}
# The place of a picture of docs/, and the largest number of letters of a document that is a card.
PICTURE = re.compile(r'<figure data-picture="([^"]*)">')
MAX_CARD_LETTERS = 10000
# The headings that begin on a new page of paper: the tasks that are given out after the first, and the hints.
ON_NEW_PAGES = ("### 2. ", "### Hints")


def make_page(title: str, body: str, kind: str, head: str = "") -> str:
    """Returns a page; `head` is what its head has besides the title and the style."""
    return (
        f'<!doctype html>\n<html lang="en">\n<head>\n<meta charset="utf-8">\n'
        f'<meta name="viewport" content="width=device-width, initial-scale=1">\n<title>{title}</title>\n<style>{STYLE}</style>\n{head}</head>\n'
        f'<body class="{kind}">\n<h1>{title}</h1>\n{body}</body>\n</html>\n'
    )


def render_test(name: str, text: str, site: str | None, view: dict[str, str]) -> str:
    """Returns a test on the sheet, with a link that opens it in the site, in one tab for all of them, as the fields of a view say."""
    opened = f"{site}#{urlencode({'predict': '1', **view, 'text': text})}"
    link = f' <a class="screen" target="lw" href="{escape(opened)}">open</a>' if site else ""
    return f"<figure><figcaption>{name}{link}</figcaption><pre>{escape(text, quote=False)}</pre></figure>\n"


class Sheet(markdown.Renderer):
    """Renders the sheet: the tests in place of a line that names them, and room for an answer after each item that no table follows."""

    def __init__(self, tests: dict[str, str], site: str | None) -> None:
        """Makes a renderer of the sheet: `tests` are the tests by their names, `site` is the address of the page, if there is one."""
        super().__init__(GIVEN_OUT)
        self.tests, self.site = tests, site

    def render_block(self, kind: str, lines: list[str]) -> str:
        """Returns a block; of a line that names tests the tests. Raises NoLab if it names one that the lab lacks."""
        if kind == "paragraph" and (match := TESTS.fullmatch(lines[0])):
            names = match[2].split()
            if missing := [it for it in names if it not in self.tests]:
                raise NoLab(f"docs/LAB.md shows {missing[0]}, and does not say which test that is")
            return '<div class="tests">\n' + "".join(
                render_test(it, self.tests[it], self.site, VIEWS.get(match[1], {})) for it in names
            ) + "</div>\n"
        html = super().render_block(kind, lines).replace(WHY, WHY.replace("<th>", '<th class="wide">'))
        if kind == "heading" and html.startswith("<h3>"):
            new_page = " new-page" if any(it in lines[0] for it in ON_NEW_PAGES) else ""
            return f'</section>\n<section class="task{new_page}">\n{html}'
        return ON_LINKS.sub(r'<span class="screen">\g<0></span>', html) if kind == "paragraph" else html

    def render_body(self, text: str) -> str:
        """Returns the sheet's text as HTML. The tests of lines that follow each other are side by side. Paper breaks between two tasks rather than
        within one, and never within an item: that is its words and its table or its room.
        """
        parts, blocks = [], list(markdown.split_blocks(text))
        for index, (kind, lines) in enumerate(blocks):
            html = self.render_block(kind, lines)
            has_table = blocks[index + 1 : index + 2] and blocks[index + 1][0] == "table"
            if kind == "item" and lines[0][0].isdigit():
                html = f'<div class="unit">\n{html}' + ("" if has_table else f"{make_room(lines)}</div>\n")
            parts.append(html + "</div>\n" if kind == "table" else html)
        return WHO + ADDRESS + "<section>\n" + "".join(parts).replace(BETWEEN_TESTS, "") + "</section>\n" + SCRIPT


def make_room(lines: list[str]) -> str:
    """Returns the room for the answer to an item: dotted lines."""
    return '<div class="answer"></div>\n' * (ROOMY_LINES if ASKS_FOR_ROOM.search(markdown.join_lines(lines)) else 1)


def make_sheet(lab: str, tests: dict[str, str], site: str | None, is_of_site: bool = False) -> str:
    """Returns the sheet for students; its links lead to the page at `site`, if there is one. As a document of a made site it has the site's icon and
    links to its other documents, and does not name the files of the tests, which the site lacks. Raises NoLab if docs/LAB.md lacks the sentence on
    the files.
    """
    text = markdown.find_section(lab, "The sheet")
    if not is_of_site:
        return make_page(TITLE, Sheet(tests, site).render_body(text), "sheet")
    if FILES not in text:
        raise NoLab(f"docs/LAB.md does not say of the sheet: {FILES}")
    return make_page(TITLE, WAY_BACK + Sheet(tests, site).render_body(text.replace(FILES, "*Open* ")), "sheet", '<link rel="icon" href="icon.svg">\n')


def make_index(has_site: bool) -> str:
    """Returns the page on which a folder or a server opens: where to begin, and links to the sheet, the card, and the workbench."""
    site = [("site/index.html", "The page", "the workbench, with all examples")] if has_site else []
    links = [("sheet.html", "The sheet", "the tasks, and room for your answers"), ("card.html", "The card", "the syntax on one page"), *site]
    items = "".join(f'<li><a href="{link}">{title}</a>: {words}</li>\n' for link, title, words in links)
    return make_page("A lab", f"<h1>{TITLE}</h1>\n<p>{BEGIN_WITH}</p>\n<ul>\n{items}</ul>\n", "index")


def make_timetable(lab: str) -> str:
    """Returns the teacher's page: the preparations, the times and the tests."""
    return make_page("A lab of 90 minutes", markdown.Renderer().render_body(markdown.find_section(lab, "For the teacher")), "teacher")


def render_document(name: str) -> str:
    """Returns a document of docs/ as a page: one that fits a sheet of paper as a card."""
    heading, _, text = read_file(f"docs/{name}.md").partition("\n")
    shown = PICTURE.sub(lambda it: f"<figure>\n{read_file(f'docs/{it[1]}')}", markdown.Renderer().render_body(text))
    return make_page(heading.lstrip("# "), shown, "card" if len(text) < MAX_CARD_LETTERS else "reading")


def render_solutions() -> str:
    """Returns the answers."""
    return make_page(
        "The lab: solutions", markdown.Renderer().render_body(markdown.find_section(read_file("docs/SOLUTIONS.md"), "The lab")), "teacher"
    )
