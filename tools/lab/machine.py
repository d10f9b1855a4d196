"""Draws a state of a run as the page does, in HTML: a card for each thread with its code, its registers and its store buffer, which reaches down to memory.

The styles are those of lw's page (web/style.css) in short: STYLE needs its colours. Of a program without store buffers no buffer is drawn.
"""
from __future__ import annotations

from html import escape

import picture
from films import Film
from lab import tints

STYLE = """
.machine .thr-0 { --c: var(--t0) } .machine .thr-1 { --c: var(--t1) } .machine .thr-2 { --c: var(--t2) } .machine .thr-3 { --c: var(--t3) }
.machine { display: flex; flex-direction: column; width: min(100%, 34em); margin: auto; font-family: var(--mono); line-height: 1.25 }
.machine ol, .machine ul { list-style: none; margin: 0; padding: 0 }
.machine .threads { display: grid; grid-auto-flow: column; grid-auto-columns: minmax(0, 1fr); gap: .8em }
.machine .thread { display: flex; flex-direction: column; background: var(--paper); border: 1px solid var(--edge); border-top: .22em solid; border-radius: .4em;
  padding: .35em .6em 0 }
.machine .thread > ol, .machine .thread > div { color: var(--ink) }
.machine h3 { margin: 0; font: 700 1em var(--sans) }
.machine .code li { padding: .08em .5em; border: 1px solid transparent; border-radius: .25em; white-space: pre }
.machine .code .next { font-weight: 700; border-color: var(--c); background: color-mix(in srgb, var(--c) 8%, var(--paper)) }
.machine .code .next::before { content: "▸ " }
.machine .code .behind { color: var(--faint) }
.machine .code .end { color: var(--faint); font-style: italic; font-size: .8em }
.machine .below { display: flex; gap: .8em; justify-content: space-between; align-items: end; margin-top: auto; padding-top: .4em; min-height: 3.3em }
.machine .registers { padding-bottom: .5em }
.machine .register, .machine .word, .machine .entry, .machine .slot { border: 1px solid; border-radius: .25em; padding: .1em .5em }
.machine .register { border-color: var(--edge); color: inherit; white-space: nowrap }
.machine .registers .register > span { font-weight: 600 }
.machine .register.initial { border-style: dashed; background: none }
.machine .register.initial b { color: var(--faint); font-weight: 400 }
.machine .register i { font: italic .62em var(--sans); color: var(--faint) }
.machine :is(.word, .entry) { background: color-mix(in srgb, currentColor 9%, var(--paper)); font-weight: 600 }
.machine b { color: var(--ink) }
.machine .changed { outline: .14em solid var(--lit); text-decoration: none }
.machine .read { outline: .14em solid var(--main); font-style: normal }
.machine .buffer { border: solid var(--strong-edge); border-width: 0 2px; padding: 0 .35em .8em; min-width: 6.4em; margin-bottom: -1px }
.machine .caption { display: block; text-align: center; font: .62em var(--sans); color: var(--faint); padding-bottom: .2em }
.machine .slot { border: 1px dashed var(--edge) }
.machine .slot::before { content: "\\a0" }
.machine .memory { display: flex; align-items: center; gap: 1.5em; margin-top: -1px; padding: .35em .7em; background: var(--sunk);
  border: 1px solid var(--edge); border-top: 2px solid var(--strong-edge); border-radius: .4em; color: var(--faint) }
.machine .memory ul { display: flex; flex: 1; justify-content: space-evenly }
"""


def make_item(name: str, word: int, kind: str, name_kind: str = "", note: str = "") -> str:
    """Returns a name with its word as an item of a list; the name may have a colour of its own, and a note follows the word."""
    of_name = f' class="{name_kind}"' if name_kind else ""
    return f'<li class="{kind.strip()}"><span{of_name}>{escape(name, quote=False)}</span> <b>{word}</b>{note and f" <i>{note}</i>"}</li>'


class Machine:
    """A state of a film, with what the event before it has done."""

    def __init__(self, film: Film, step: int, text: str) -> None:
        """Takes the state at a step of a film of a test."""
        self.film, self.locations = film, tints.find_tints(text)
        self.state, self.before = film["states"][step], film["states"][max(step - 1, 0)]
        self.effect = picture.find_effect(film, step)
        # The registers that some event up to this step has written, each with its thread.
        self.written = {(it["thread"], it["register"]) for it in film["effects"][:step] if "register" in it}
        # The rooms of the store buffers: all have as many as the fullest of the film needs.
        buffers = [len(it.get("buffer", [])) for state in film["states"] for it in state["threads"]]
        self.rooms = max([*buffers, 1])

    def find_kind(self, name: str) -> str:
        """Returns the class of the colour of a location."""
        return f"loc-{self.locations[name]}" if name in self.locations else ""

    def render_code(self, thread: int) -> str:
        """Returns the code of a thread, with its next instruction in a frame."""
        cells, at = self.film["cells"][thread], self.state["threads"][thread]["at"]
        kinds = ["next" if cell["at"] == at else "behind" if cell["at"] < at else "" for cell in cells]
        make_words = lambda cell, kind: escape(cell["text"], quote=False) if kind == "behind" else tints.render_code(cell["text"], self.locations, thread)
        lines = [f'<li class="{kind}">{make_words(cell, kind)}</li>' for cell, kind in zip(cells, kinds)]
        end = "" if "next" in kinds else '<li class="end">at its end</li>'
        return f'<ol class="code">{"".join(lines)}{end}</ol>'

    def render_registers(self, thread: int) -> str:
        """Returns the registers of a thread that its code uses; one that nothing has written yet is marked."""
        words, old = (dict(state["threads"][thread]["registers"]) for state in (self.state, self.before))
        put = self.effect.get("register") if self.effect.get("thread") == thread else None
        is_initial = lambda name: (thread, name) not in self.written
        kind_of = lambda name: "changed" if words[name] != old[name] or name == put else "initial" if is_initial(name) else ""
        make_register = lambda name: make_item(name, words[name], f"register {kind_of(name)}", f"thr-{thread}", "initial" if is_initial(name) else "")
        names = picture.list_used_registers(self.film, thread)
        return f'<ul class="registers">{"".join(map(make_register, names))}</ul>'

    def render_buffer(self, thread: int) -> str:
        """Returns the store buffer of a thread, the oldest entry lowest; "" if the program has none."""
        state = self.state["threads"][thread]
        if "buffer" not in state:
            return ""
        buffer, is_longer = state["buffer"], len(state["buffer"]) > len(self.before["threads"][thread]["buffer"])
        read = self.effect.get("entry") if self.effect.get("thread") == thread else None
        mark = lambda at: "changed" if is_longer and at == len(buffer) - 1 else "read" if at == read else ""
        entries = [make_item(name, word, f"entry {self.find_kind(name)} {mark(at)}") for at, (name, word) in enumerate(buffer)]
        empty = '<li class="slot"></li>' * (self.rooms - len(buffer))
        return f'<div class="buffer"><span class="caption">store buffer</span><ol>{empty}{"".join(reversed(entries))}</ol></div>'

    def render_thread(self, thread: int) -> str:
        """Returns a thread."""
        below = f'<div class="below">{self.render_registers(thread)}{self.render_buffer(thread)}</div>'
        return f'<section class="thread thr-{thread}"><h3>P{thread}</h3>{self.render_code(thread)}{below}</section>'

    def render_memory(self) -> str:
        """Returns the words of memory, as loads find them."""
        old, read = dict(self.before["content"]), self.effect.get("location")
        mark = lambda name, word: "changed" if old[name] != word else "read" if name == read else ""
        words = [make_item(name, word, f"word {self.find_kind(name)} {mark(name, word)}") for name, word in self.state["content"]]
        return f'<section class="memory"><h3>memory</h3><ul>{"".join(words)}</ul></section>'

    def render(self) -> str:
        """Returns the machine."""
        threads = "".join(self.render_thread(it) for it in range(len(self.film["cells"])))
        return f'<div class="machine"><div class="threads">{threads}</div>{self.render_memory()}</div>'
