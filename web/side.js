// One of two tests that are shown side by side: its text, its states, and the films to them.

import { alignCells } from "./aligned.js";
import { endQuestions } from "./ask.js";
import { el } from "./dom.js";
import { largeType } from "./preferences.js";
import { States } from "./states.js";
import { findTints, renderText } from "./tint.js";
import { parseName } from "./tokens.js";

// A text is broad if one of its lines has more letters; of how many letters it has no room beside what is said of the test, in a window of less
// than a width, and in a wider one.
const BROAD = 36;
const MAX_LETTERS = 50;
const WIDE = matchMedia("(min-width: 100rem)");

/** Holds the text of a test in place of the editor: it is shown, and neither changed nor marked. */
class Sheet {
  constructor(name) {
    Object.assign(this, { name, shown: "" });
    this.place = el("pre", { class: "program", role: "group", "aria-label": "The text of the test", tabindex: "0" });
    this.isAlone = false;
    this.hasKeys = false;
    WIDE.addEventListener("change", () => this.fit());
    largeType.onChange(() => this.fit());
  }

  /** Returns the id of a part of the sheet. */
  makeId(name) {
    return `${this.name}-${name}`;
  }

  /** Returns the text that is shown. */
  get text() {
    return this.shown;
  }

  /** Shows a text in place of the one before. */
  set text(text) {
    this.shown = text;
    this.place.replaceChildren(...renderText(alignCells(text).trimEnd(), findTints(text)));
    this.fit();
  }

  /** Makes the type of a broad text smaller, and if it has no room beside what is said of the test, puts it above that. */
  fit() {
    const letters = Math.max(...this.place.textContent.split("\n").map((it) => it.length));
    this.place.classList.toggle("broad", letters > BROAD);
    this.place.classList.toggle("stacked", letters > (WIDE.matches ? BROAD : MAX_LETTERS) && !largeType.isOn);
  }
}

/** One of two tests: the choice of a test, its text, its states and its run. */
export class Side {
  /**
   * Makes an empty side. `onChoose` is called with what is chosen in the list of tests, `onReveal` when the states are shown and when they are gone,
   * `onDraw` when another run is shown, `onStep` when a run is at another step. `ownOf` returns the schedule that a text has of its own, or null.
   */
  constructor(name, label, { onChoose, onReveal, ...called }) {
    this.sheet = new Sheet(name);
    const [titled, listed] = [this.sheet.makeId("title"), this.sheet.makeId("example")];
    this.title = el("h2", { id: titled });
    this.select = el("select", { id: listed, change: () => onChoose(this.select.value) });
    const head = el("div", { class: "head row" }, this.title, el("label", { for: listed, class: "hidden" }, label), this.select);
    this.place = el("section", { class: "side", "aria-labelledby": titled }, head, this.sheet.place);
    // Both runs open at their start, and not at their telling steps: before these most pairs of runs have different events.
    this.states = new States(this.place, this.sheet, onReveal, { ...called, firstStep: 0 });
  }

  /** Returns where the run is, as a link has it; null at the start of the run. */
  formatPlace() {
    const { isOpen, isByHand, isOther, goal, step } = this.states.run;
    return isOpen && !isByHand && step ? String(new URLSearchParams({ state: goal, own: isOther ? "1" : "", step })) : null;
  }

  /** Shows a test, which of the options it is, and where in its run a link leads. What was shown before stays, if it is the same. */
  put(text, option, options, link = null) {
    this.select.replaceChildren(...options);
    this.select.value = option;
    if (text === this.sheet.text && (link === this.link || link === this.formatPlace())) return;
    this.link = link;
    this.sheet.text = text;
    this.title.textContent = parseName(text);
    endQuestions(this.sheet);
    this.states.clear();
    this.states.ask(link && Object.fromEntries(new URLSearchParams(link)));
  }
}
