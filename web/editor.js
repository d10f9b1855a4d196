// The editor of a test: its text in colours below a field in which only the cursor shows, line numbers, and the mark of a fault, on its
// line and below its token. On paper the whole text is in its place, which shows a part.

import { el } from "./dom.js";
import { findTints, renderText } from "./tint.js";
import { findToken } from "./tokens.js";

// The least and the largest number of lines in sight.
const [MIN_LINES, MAX_LINES] = [6, 40];
// The lines that are to be seen whole, if that can be: rows of several threads, and the question.
const WIDE = /^ .*\||^\s*(?:~?\s*exists|forall)\b/;

/** The editor of a test. */
export class Editor {
  constructor(place, onChange) {
    this.numbers = el("pre", { class: "numbers", "aria-hidden": "true" });
    this.colours = el("pre", { class: "colours", "aria-hidden": "true" });
    this.marks = el("pre", { class: "marks", "aria-hidden": "true" });
    this.area = el("textarea", {
      id: "text",
      "aria-label": "The text of the test",
      "aria-describedby": "fault",
      spellcheck: "false",
      autocomplete: "off",
      autocapitalize: "off",
      wrap: "off",
      input: () => this.change(onChange),
      scroll: () => this.follow(),
    });
    this.printed = el("pre", { class: "printed", "aria-hidden": "true" });
    Object.assign(this, { place, isByPage: false });
    place.append(this.numbers, el("div", { class: "sheet" }, this.marks, this.colours, this.area, this.printed));
    this.fault = null;
    // Its test is not one of two that are side by side: a film of it may fill the window and change the address, and keys are for it.
    this.isAlone = true;
    this.hasKeys = true;
    this.draw();
  }

  /** Returns the id of an element that belongs to this test. */
  makeId(name) {
    return name;
  }

  /** Returns the text of the test. */
  get text() {
    return this.area.value;
  }

  /** Replaces the text of the test. */
  set text(text) {
    this.area.value = text;
    this.known = this.text;
    this.mark(null);
  }

  /** Takes note that the text has changed, and calls `changed` with the text before, and whether the page has changed it at the reader's request. */
  change(changed) {
    const before = this.known;
    this.known = this.text;
    this.mark(null);
    changed(before, this.isByPage);
  }

  /** Marks the token of a fault, or none. */
  mark(fault) {
    this.fault = fault;
    this.area.setAttribute("aria-invalid", fault ? "true" : "false");
    this.draw();
  }

  /** Draws the line numbers, the colours and the mark of a fault. */
  draw() {
    const lines = this.text.split("\n");
    const rows = lines.map((_, index) => {
      const isFaulty = this.fault && this.fault.row === index + 1;
      return el("span", { class: isFaulty ? "faulty" : "" }, `${isFaulty ? "✗ " : ""}${index + 1}\n`);
    });
    this.numbers.replaceChildren(...rows);
    this.size(lines);
    this.printed.textContent = this.text;
    this.colours.replaceChildren(...renderText(this.text, findTints(this.text)), "\n");
    this.marks.replaceChildren();
    if (this.fault) {
      const at = this.fault.index;
      const marked = findToken(this.text, at) || " ";
      const mark = el("mark", {}, marked.trim() ? marked : " ");
      this.marks.append(this.text.slice(0, at), mark, marked === "\n" ? "\n" : "", this.text.slice(at + marked.length));
    }
    this.follow();
  }

  /** Says how large the text is: style.css makes the type so small that its rows fit, and the editor so high. */
  size(lines) {
    const letters = Math.max(1, ...lines.filter((it) => WIDE.test(it)).map((it) => it.length));
    const { style } = this.place.parentElement;
    style.setProperty("--letters", String(letters));
    style.setProperty("--lines", String(Math.min(Math.max(lines.length, MIN_LINES), MAX_LINES)));
  }

  /** Scrolls what lies below the field with it. */
  follow() {
    this.numbers.scrollTop = this.area.scrollTop;
    this.marks.scrollTop = this.area.scrollTop;
    this.marks.scrollLeft = this.area.scrollLeft;
    this.colours.scrollTop = this.area.scrollTop;
    this.colours.scrollLeft = this.area.scrollLeft;
  }

  /** Replaces a part of the text as if the reader had written it, so that the browser can undo it. */
  replace({ begin, end, text }) {
    this.isByPage = true;
    this.area.focus();
    this.area.setSelectionRange(begin, end);
    if (!document.execCommand("insertText", false, text)) {
      this.area.setRangeText(text, begin, end, "end");
      this.area.dispatchEvent(new Event("input"));
    }
    this.isByPage = false;
  }

  /** Goes to an index of the text. */
  goTo(index) {
    this.area.focus();
    this.area.setSelectionRange(index, index + 1);
  }
}
