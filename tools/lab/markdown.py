"""Renders the Markdown of documents as HTML: headings, paragraphs, items, tables, pictures, and text that is fenced or indented.

Of a link only the words remain, unless a renderer knows its target. An item is a paragraph with its number: text in a fence may follow it.
"""
from __future__ import annotations

import re
from collections.abc import Iterator
from html import escape
from typing import List, Tuple

Block = Tuple[str, List[str]]
FENCE = "```"
INDENTED = "    "
IMAGE = re.compile(r"!\[([^]]*)\]\((pictures/[\w-]+\.svg)\)")
ITEM = re.compile(r"(\d+\.|-) ")
# The marks within a paragraph. Code comes first, since it has no other marks; a link's words and strong words may have code.
MARKED = re.compile(
    r"`(?P<code>[^`]*)`|\[(?P<words>(?:`[^`]*`|[^]`])*)\]\((?P<target>[^)]*)\)|\*\*(?P<strong>.+?)\*\*|\*(?P<em>[^*\s][^*]*)\*"
)


def find_section(text: str, heading: str) -> str:
    """Returns the text below a heading of the second level, up to the next. Raises ValueError if there is no such heading."""
    match = re.search(rf"^## {re.escape(heading)}\n(.*?)(?=^## |\Z)", text, re.M | re.S)
    if match is None:
        raise ValueError(f"there is no heading {heading!r}")
    return match[1]


def find_block_kind(line: str) -> str:
    """Returns the kind of a block that begins with a line."""
    if line.startswith("#"):
        return "heading"
    if line.startswith("|"):
        return "table"
    if line.startswith(INDENTED):
        return "code"
    return "item" if ITEM.match(line) else "paragraph"


def split_blocks(text: str) -> Iterator[Block]:
    """Yields the blocks of a text, each with its kind and its lines."""
    block: list[str] = []
    lines = iter([*text.splitlines(), ""])
    for line in lines:
        is_start = line.startswith("#") or bool(ITEM.match(line)) or line.startswith(FENCE)
        if block and (not line.strip() or is_start):
            yield find_block_kind(block[0]), block
            block = []
        if line.startswith(FENCE):
            yield "fence", list(iter(lambda: next(lines), FENCE))
        elif line.strip():
            block.append(line)


def split_cells(row: str) -> list[str]:
    """Returns the cells of a row of a table."""
    return [it.strip().replace("\\|", "|") for it in re.split(r"(?<!\\)\|", row.strip())[1:-1]]


def join_lines(lines: list[str]) -> str:
    """Returns the lines of a paragraph as one."""
    return " ".join(it.strip() for it in lines)


def count_heading_marks(heading: str) -> int:
    """Returns the level of a heading by its marks."""
    return len(heading) - len(heading.lstrip("#"))


class Renderer:
    """Renders blocks as HTML. A link leads to what `links` has for its target, in a tab of its own."""

    def __init__(self, links: dict[str, str] | None = None) -> None:
        """Makes a renderer; without `links` no link leads anywhere."""
        self.links = links or {}

    def render_body(self, text: str) -> str:
        """Returns a text as HTML."""
        return "".join(self.render_block(kind, lines) for kind, lines in split_blocks(text))

    def render_block(self, kind: str, lines: list[str]) -> str:
        """Returns a block as HTML."""
        if kind == "table":
            return self.render_table(lines)
        if kind in ("fence", "code"):
            return self.render_listing([it[len(INDENTED) :] for it in lines] if kind == "code" else lines)
        words = join_lines(lines)
        if kind == "heading":
            return self.render_heading(count_heading_marks(words), words.lstrip("# "))
        if kind == "item":
            number, _, rest = words.partition(" ")
            return f'<p class="item"><b>{number.replace("-", "•")}</b> {self.render_inline(rest)}</p>\n'
        if (image := IMAGE.fullmatch(words)):
            return self.render_picture(image[1], image[2])
        return f"<p>{self.render_inline(words)}</p>\n"

    def render_heading(self, level: int, words: str) -> str:
        """Returns a heading as HTML."""
        return f"<h{level}>{self.render_inline(words)}</h{level}>\n"

    def render_listing(self, lines: list[str]) -> str:
        """Returns lines as they are, in a fixed pitch, as HTML."""
        return "<pre>" + escape("\n".join(lines), quote=False) + "</pre>\n"

    def render_picture(self, words: str, path: str) -> str:
        """Returns a place for a picture of docs/, with its caption."""
        return f'<figure data-picture="{path}"><figcaption>{self.render_inline(words)}</figcaption></figure>\n'

    def render_table(self, lines: list[str]) -> str:
        """Returns a table as HTML; its first row is a header."""
        head, _, *rows = lines
        tags = [("th", head), *(("td", row) for row in rows)]
        rows_of_cells = ("".join(f"<{tag}>{self.render_cell(it)}</{tag}>" for it in split_cells(row)) for tag, row in tags)
        return "<table>\n" + "".join(f"<tr>{it}</tr>\n" for it in rows_of_cells) + "</table>\n"

    def render_cell(self, text: str) -> str:
        """Returns the content of a cell as HTML."""
        return self.render_inline(text)

    def render_inline(self, text: str) -> str:
        """Returns words with their marks (code, strong, emphasis, and links) as HTML."""
        parts, end = [], 0
        for match in MARKED.finditer(text):
            parts += [self.render_plain(text[end : match.start()]), self.render_mark(match)]
            end = match.end()
        return "".join(parts) + self.render_plain(text[end:])

    def render_plain(self, text: str) -> str:
        """Returns words that have no marks, as HTML."""
        return escape(text, quote=False)

    def render_mark(self, match: "re.Match[str]") -> str:
        """Returns the HTML of one mark and its words."""
        if match["code"] is not None:
            return self.render_code(match["code"])
        if match["target"] is not None:
            return self.render_link(self.render_inline(match["words"]), match["target"])
        tag = "em" if match["strong"] is None else "strong"
        return f"<{tag}>{self.render_inline(match[tag])}</{tag}>"

    def render_code(self, text: str) -> str:
        """Returns code within words."""
        return f"<code>{escape(text)}</code>"

    def render_link(self, words: str, target: str) -> str:
        """Returns a link if its target is known, and otherwise its words."""
        return f'<a href="{self.links[target]}" target="_blank">{words}</a>' if target in self.links else words
