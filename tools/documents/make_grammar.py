"""Writes the grammar of tests for editors, and the page's table of words, from the table of tools/editor/words.py.

    python3 tools documents.make_grammar

It writes the extension of VS Code in tools/editor/vscode, whose lw.tmLanguage.json other editors take too, and web/words.js.
"""
from __future__ import annotations

import os
import sys

from editor import grammar
from shared import command
from shared.home import HOME


def main() -> int:
    """Writes each file."""
    os.makedirs(os.path.join(HOME, grammar.FOLDER), exist_ok=True)
    for name, text in grammar.make_files().items():
        with open(os.path.join(HOME, name), "w", encoding="utf-8") as file:
            file.write(text)
    return 0


if __name__ == "__main__":
    sys.exit(command.run_command(main, __doc__))
