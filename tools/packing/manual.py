"""Makes manual pages of the tools from their module docstrings, which are what `--help` prints."""
from __future__ import annotations

import ast
import re

from packing import tree

# How a module docstring names a tool: as a file of the repository.
NAMED = re.compile(r"(?:python3 )?(?:tools/(\w+)\.py|\./(page)\b)")
ITEM = "- "


def name_as_command(match: re.Match[str]) -> str:
    """Returns a tool's name as that of its command, if it is one."""
    tool = match[1] or match[2]
    return tree.name_command(tool) if tool in tree.TOOLS else match[0]


def escape_roff(text: str) -> str:
    """Returns a text for roff, in which no character is a request or an escape."""
    escaped = text.replace("\\", "\\e").replace("-", "\\-")
    return re.sub(r"^(?=[.'])", r"\\&", escaped, flags=re.M)


def split_items(lines: list[str]) -> list[str]:
    """Returns the items of a list, each with the lines that continue it."""
    items = []
    for line in lines:
        if line.startswith(ITEM):
            items.append([line[len(ITEM) :]])
        else:
            items[-1].append(line.strip())
    return ["\n".join(it) for it in items]


def format_paragraph(text: str) -> str:
    """Returns a paragraph of a docstring: lines of commands, items, or text."""
    lines = text.split("\n")
    if all(it.startswith("    ") for it in lines):
        shown = "\n".join(it[4:] for it in lines)
        return f".PP\n.nf\n.RS 4\n{escape_roff(shown)}\n.RE\n.fi\n"
    if lines[0].startswith(ITEM):
        return "".join(f".IP \\(bu 2\n{escape_roff(it)}\n" for it in split_items(lines))
    return f".PP\n{escape_roff(text)}\n"


def make_page(tool: str, source: str) -> str:
    """Returns the manual page of a tool, given its source."""
    command = tree.name_command(tool)
    first, *paragraphs = NAMED.sub(name_as_command, ast.get_docstring(ast.parse(source)) or "").split("\n\n")
    title, _, rest = first.replace("\n", " ").partition(". ")
    title = (title[:1].lower() + title[1:]).rstrip(".")
    body = "".join(format_paragraph(it) for it in ([rest] if rest else []) + paragraphs)
    see_also = ".SH SEE ALSO\n.BR lw (1)\n.PP\nThe files that are named are in /usr/share/lw.\n"
    return f'.TH "{escape_roff(command.upper())}" 1\n.SH NAME\n{escape_roff(command)} \\- {escape_roff(title)}\n.SH DESCRIPTION\n{body}{see_also}'
