"""Makes the completions of bash, zsh and fish for all commands, from one table: the words of the programs, and the options of the tools."""
from __future__ import annotations

import ast
import re
from collections.abc import Iterable, Mapping, Sequence
from typing import NamedTuple

OPTION = re.compile(r"(?<![\w-])--[a-z][a-z-]*")
PROGRAMS = ("lw", "beyond")
MADE = "Made by tools/packing/completion.py."


class Row(NamedTuple):
    """The words that a program takes at a position, after a word; None means any position, or any word. The first row that fits counts."""

    program: str
    position: object
    before: object
    words: tuple[str, ...]

    def make_pattern(self) -> str:
        """Returns the row as a pattern of `PROGRAM:POSITION:WORD`, which all three shells match."""
        return f"{self.program}:{'*' if self.position is None else self.position}:{'*' if self.before is None else self.before}"


ROWS = (
    Row("lw", 1, None, ("states", "schedules", "compile", "replay")),
    Row("lw", 3, None, ("--protocol",)),
    Row("lw", 4, "--protocol", ("mesi", "moesi")),
    Row("lw", None, None, ()),
    *(Row("beyond", None, it, ()) for it in ("--budget", "states", "schedules", "marks")),
    Row("beyond", None, None, ("states", "schedules", "marks", "--search", "--budget", "--method")),
)


def list_options(source: str) -> list[str]:
    """Returns the options of a tool, given its source: those that its --help names or its reader of arguments knows."""
    added = re.findall(r'add_argument\("(--[a-z-]+)"', source)
    return sorted({*OPTION.findall(ast.get_docstring(ast.parse(source)) or ""), *added, "--help"})


def make_bash(tools: Mapping[str, Sequence[str]]) -> str:
    """Returns the completion for bash. It is loaded by the name of any of the commands."""
    rows = "".join(f'        {it.make_pattern()}) words="{" ".join(it.words)}" ;;\n' for it in ROWS)
    options = "".join(f'        {name}:*) options="{" ".join(options_of_tool)}" ;;\n' for name, options_of_tool in tools.items())
    return f"""# Completion of bash for lw, beyond and the tools. {MADE}
_lw() {{
    local word=${{COMP_WORDS[COMP_CWORD]}} before=${{COMP_WORDS[COMP_CWORD - 1]}} words= options=
    case ${{COMP_WORDS[0]##*/}}:$COMP_CWORD:$before in
{rows}{options}    esac
    if [[ $word == -* && $options ]]; then
        words=$options
    elif [[ $options ]]; then
        compopt -o default 2>/dev/null
    fi
    mapfile -t COMPREPLY < <(compgen -W "$words" -- "$word")
}}
complete -F _lw {" ".join([*PROGRAMS, *tools])}
"""


def make_zsh(tools: Mapping[str, Sequence[str]]) -> str:
    """Returns the completion for zsh: a function that is loaded by its first line."""
    rows = "".join(f"    {it.make_pattern()}) compadd -- {' '.join(it.words)} ;;\n" if it.words else f"    {it.make_pattern()}) ;;\n" for it in ROWS)
    options = "".join(f"    {name}:*) long=({' '.join(options_of_tool)}) ;;\n" for name, options_of_tool in tools.items())
    return f"""#compdef {" ".join([*PROGRAMS, *tools])}
# Completion of zsh for lw, beyond and the tools. {MADE}
local -a long
case ${{words[1]:t}}:$((CURRENT - 1)):${{words[CURRENT - 1]}} in
{rows}{options}esac
if [[ -n $long && $PREFIX == -* ]]; then
    compadd -- $long
elif [[ -n $long ]]; then
    _files
fi
"""


def make_fish(tools: Mapping[str, Sequence[str]]) -> str:
    """Returns the completion for fish. It is loaded by the name of any of the commands."""
    rows = "".join(f"        case '{it.make_pattern()}'\n" + "".join(f"            echo {word}\n" for word in it.words) for it in ROWS)
    programs = "".join(f"complete -c {it} -f -a '(__lw_words)'\n" for it in PROGRAMS)
    options = "".join(f"complete -c {name} -l {it[2:]}\n" for name, options_of_tool in tools.items() for it in options_of_tool)
    return f"""# Completion of fish for lw, beyond and the tools. {MADE}
function __lw_words
    set -l its (commandline -opc)
    switch (string replace -r '.*/' '' -- $its[1]):(count $its):$its[-1]
{rows}    end
end
{programs}{options}"""


def make_files(tools: Mapping[str, Sequence[str]]) -> dict[str, str]:
    """Returns the file of each shell, by its path in a system of Debian."""
    return {
        "usr/share/bash-completion/completions/lw": make_bash(tools),
        "usr/share/zsh/vendor-completions/_lw": make_zsh(tools),
        "usr/share/fish/vendor_completions.d/lw.fish": make_fish(tools),
    }


def list_links(commands: Iterable[str]) -> dict[str, str]:
    """Returns the further names by which bash and fish find the file of another command."""
    others = [it for it in commands if it != "lw"]
    bash_file, fish_file = "usr/share/bash-completion/completions/{}", "usr/share/fish/vendor_completions.d/{}.fish"
    return {path.format(it): path.format("lw") for it in others for path in (bash_file, fish_file)}
