#!/usr/bin/env python3
"""Makes the slides for the introduction of the lab (docs/LAB.md): one HTML file, which loads nothing.

    python3 tools/make_slides.py OUT.html [--page LINK]

PageDown, Space, Enter, the arrows to the right and down, a click and a tap lead on; PageUp and the other arrows lead back; Home and End to the
ends. Two small buttons lead back and on, with the number of the slide between them. N, or a third button, shows the teacher's notes in a window of
their own, which follows the slides; the slides themselves never show them. The number after `#` in the address is that of the slide. Printed, each
slide is a page. With LINK, the address of lw's page as the slides have it (`site/index.html`), each slide that shows a test has a link that opens
the test there, at the same run, in one tab for all slides.

What the slides show of tests comes from the program (`./lw states` and `./lw replay`), which has to be built: so it needs Linux. The machine is drawn as
on the page, graphs are those of tools/graph.py, and all has the colours of the page. The same sources give the same bytes.
"""
from __future__ import annotations

import sys
from html import escape

sys.dont_write_bytecode = True
import films
import given
from lab import machine, slides, tints
from lab.tests import NoLab
from shared import command, start

TITLE = "lw: an introduction"
POLICY = "default-src 'none'; style-src 'unsafe-inline'; script-src 'unsafe-inline'"
STYLE = """
html, body { margin: 0; background: var(--ground); color: var(--ink) }
.slide { box-sizing: border-box; width: 100vw; height: 100vh; padding: 3vh 4vw max(6.5vh, 2.4rem); display: flex; flex-direction: column; gap: 2vh;
  justify-content: space-between; overflow: hidden; position: relative; border-top: .3em solid var(--main); font: min(2.6vw, 4.5vh)/1.35 var(--sans) }
.slide h2 { margin: 0; font-size: 1.5em; line-height: 1.2; letter-spacing: -.01em }
.slide p { margin: 0 }
.slide p b { font-weight: 650 }
.slide code { font: .95em var(--mono) } .slide code [class] { font-weight: 600 }
.slide pre { margin: 0; font: 1.05em/1.3 var(--mono); background: var(--paper); border: 1px solid var(--edge); border-radius: .4em; padding: .5em .9em;
  width: max-content; max-width: 100%; box-sizing: border-box }
.slide figure { margin: 0; flex: 1; min-height: 0; display: flex }
.slide svg { width: 100%; height: 100% }
.slide svg .ground { fill: none } .slide svg .relation { stroke: var(--ground) } .slide svg :is(.box, .entry) { fill: var(--paper); stroke: var(--strong-edge) }
.slide aside { display: none }
.slide .open { position: absolute; left: 4vw; bottom: 1.5vh; font-size: .6em; color: var(--main) }
.slide footer { position: absolute; right: 2vw; bottom: 1vh; font-size: .6em; color: var(--faint) }
/* The title is calm: nothing but words. */
.slide:first-of-type { justify-content: center; gap: 1em; border-top-width: 0; border-left: .6em solid var(--main); padding-left: 8vw }
.slide:first-of-type h2 { font-size: 2em }
.slide:first-of-type h2::before { content: "lw"; display: block; font-size: .45em; letter-spacing: -.03em; color: var(--main); padding-bottom: .6em }
.slide:first-of-type p + p { font-size: .85em; color: var(--faint) }
.running .slide { display: none }
.running .slide.shown { display: flex }
.controls { display: none; position: fixed; right: 1.2vw; bottom: 1vh; align-items: center; gap: .4em; color: var(--faint); background: var(--ground);
  font: max(13px, min(1.4vw, 2.4vh))/1 var(--sans) }
.running .controls { display: flex }
.running .slide footer { display: none }
.controls button { font: inherit; color: inherit; background: var(--paper); border: 1px solid var(--strong-edge); border-radius: .3em;
  width: 2em; height: 1.9em; cursor: pointer }
.controls button:hover { background: var(--soft) }
.controls button:focus-visible { outline: 3px solid var(--focus) }
.controls [aria-disabled="true"] { border-color: var(--edge); cursor: default; opacity: .75 }
/* On a phone that is held upright a slide is as high as it has to be, in type that can be read. */
@media screen and (max-width: 40rem) and (orientation: portrait) {
  .running .slide, .slide { width: 100%; height: auto; min-height: 100vh; overflow: visible; justify-content: flex-start; gap: 1rem;
    padding: 1rem 1rem 4.5rem; font-size: 1.0625rem }
  .slide:first-of-type { justify-content: center }
  .slide h2 { font-size: 1.3em }
  .slide pre { font-size: .8125em; overflow-x: auto }
  .slide figure { flex: none }
  .slide .machine { font-size: .875em } .slide .machine .below { gap: .3em } .slide .machine .buffer { min-width: 4.6em; padding-inline: .2em }
  .slide svg { height: auto }
  .slide .open { position: static; font-size: .9em }
  .slide footer { right: 1rem; font-size: .8em }
  .controls { right: 0; bottom: 0; padding: .4rem 1rem; font-size: 1.25rem; border-radius: .3em }
}
/* A screen is dark if the system is; paper is white, and has the colours of boxes. */
@media print {
  :root { color-scheme: light; --ground: #fff }
  * { print-color-adjust: exact }
  .running .controls, .slide .open { display: none }
  .running .slide footer { display: block }
  .running .slide, .slide { display: flex; width: 297mm; height: 209mm; padding: 10mm 14mm; font-size: 19pt; break-after: page }
  .slide:last-of-type { break-after: auto }
}
@page { size: 297mm 210mm; margin: 0 }
"""
SCRIPT = """
const slides = [...document.querySelectorAll(".slide")];
const [back, on, noted] = document.querySelectorAll(".controls button");
let at = 0;
// The window with the teacher's notes, which is moved to the teacher's own screen.
let notes = null;

function showNote() {
  if (!notes || notes.closed) return;
  const title = slides[at].querySelector("h2").textContent;
  const words = slides[at].querySelector("aside")?.textContent ?? "There is no note on this slide.";
  const how = "This window is for the teacher: move it off the projected screen. N in the slides closes it.";
  const parts = [`Slide ${at + 1} of ${slides.length}: ${title}`, words, how];
  notes.document.title = "Notes for the teacher";
  notes.document.body.replaceChildren(...parts.map((it) => Object.assign(notes.document.createElement("p"), { textContent: it })));
  notes.document.body.style.font = "18px/1.45 system-ui, sans-serif";
}

function toggleNotes() {
  if (notes && !notes.closed) return notes.close();
  notes = open("", "lw-notes", "width=560,height=380");
  if (!notes) return alert("The browser opens no window for the notes: allow it for this page.");
  showNote();
}

function show(number) {
  at = Math.min(Math.max(number, 0), slides.length - 1);
  slides.forEach((it, index) => it.classList.toggle("shown", index === at));
  document.querySelector(".controls output").textContent = `${at + 1} of ${slides.length}`;
  back.setAttribute("aria-disabled", String(at === 0));
  on.setAttribute("aria-disabled", String(at === slides.length - 1));
  scrollTo(0, 0);
  showNote();
  history.replaceState(null, "", `#${at + 1}`);
}

const KEYS = {
  PageDown: () => at + 1, ArrowRight: () => at + 1, ArrowDown: () => at + 1, " ": () => at + 1,
  PageUp: () => at - 1, ArrowLeft: () => at - 1, ArrowUp: () => at - 1,
  Enter: () => at + 1, Home: () => 0, End: () => slides.length - 1,
};

addEventListener("keydown", (event) => {
  if (event.ctrlKey || event.altKey || event.metaKey) return;
  if (event.key === "n" || event.key === "N") toggleNotes();
  if (!KEYS[event.key] || event.target.closest("button, a") && [" ", "Enter"].includes(event.key)) return;
  event.preventDefault();
  show(event.key === " " && event.shiftKey ? at - 1 : KEYS[event.key]());
});
back.addEventListener("click", () => show(at - 1));
on.addEventListener("click", () => show(at + 1));
noted.addEventListener("click", toggleNotes);
addEventListener("pagehide", () => notes?.close());
addEventListener("click", ({ target }) => target.closest(".controls, a") || String(getSelection()) || show(at + 1));
addEventListener("hashchange", () => show((parseInt(location.hash.slice(1), 10) || 1) - 1));
document.body.classList.add("running");
show((parseInt(location.hash.slice(1), 10) || 1) - 1);
"""

CONTROLS = (
    '<nav class="controls" aria-label="Slides"><button type="button" aria-label="Previous slide" title="Previous slide (←)">‹</button> '
    '<output></output> <button type="button" aria-label="Next slide" title="Next slide (→)">›</button> '
    '<button type="button" aria-label="Notes for the teacher" title="Notes for the teacher, in a window of their own (N)">N</button></nav>\n'
)


def make_style() -> str:
    """Returns the style of the slides: the colours of lw's page, and the rules for pictures, for the machine and for slides."""
    return tints.read_colour_rules() + slides.STYLE_OF_PICTURES + machine.STYLE + STYLE


def make_page(page: str = "") -> str:
    """Returns the slides as one page, with links to lw's page at an address, if there is one."""
    all_slides = slides.render_slides(page)
    body = "".join(
        f'<section class="slide">\n<h2>{escape(title, quote=False)}</h2>\n{html}<footer>{number} of {len(all_slides)}</footer>\n</section>\n'
        for number, (title, html) in enumerate(all_slides, 1)
    )
    return (
        f'<!doctype html>\n<html lang="en">\n<head>\n<meta charset="utf-8">\n'
        f'<meta name="viewport" content="width=device-width, initial-scale=1">\n<meta http-equiv="Content-Security-Policy" content="{POLICY}">\n'
        f"<title>{TITLE}</title>\n<style>{make_style()}</style>\n</head>\n<body>\n{body}{CONTROLS}<script>{SCRIPT}</script>\n</body>\n</html>\n"
    )


def make_page_if_built(page: str = "") -> str | None:
    """Returns the slides with links to a page, or None if the program is not built, or not for this system."""
    try:
        films.check_program()
        return make_page(page)
    except (films.NoFilm, ImportError, OSError):
        return None


def main() -> int:
    """Runs the command that the arguments describe. Returns the exit status."""
    given.set_output_encoding()
    reader = command.Reader(__doc__)
    reader.add_argument("out", metavar="OUT.html")
    reader.add_argument("--page", default="", metavar="LINK")
    arguments = reader.read()
    try:
        films.check_program()
        html = make_page(arguments.page)
        with open(arguments.out, "w", encoding="utf-8", newline="\n") as file:
            file.write(html)
    except (films.NoFilm, NoLab, OSError) as why:
        return given.refuse(f"make_slides: {why}")
    return 0


if __name__ == "__main__":
    sys.exit(start.run(main))
