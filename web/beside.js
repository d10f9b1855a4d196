// Two tests side by side: that in the editor, and a second one beside it. The address names both. What the page shows only of the first
// is hidden meanwhile, and nothing of it is lost.

import * as address from "./address.js";
import { ask } from "./ask.js";
import { measureCut } from "./code_window.js";
import { el, findById, makeButton, makePlainMark } from "./dom.js";
import { compareReports, makeStateKey } from "./differences.js";
import { insertFenceSet, removeFenceFromText } from "./fence_edit.js";
import * as guess from "./guess.js";
import { Lockstep } from "./lockstep.js";
import { largeType } from "./preferences.js";
import { Side } from "./side.js";
import { showError } from "./errors.js";
import { blankComments, parseName } from "./tokens.js";

// The second tests that are made from the first one, by the names that an answer has for them.
const MADE = { compiled: "what it is compiled to", bare: "that without its fences", fenced: "that with the fewest fences it needs" };

// The fields of the address that have the places in both runs.
const NO_PLACES = { left: null, right: null };

const NO_FENCES = "No fence makes a difference to what this test asks.";
const NOT_ASKED = "This test asks nothing, so no fence can be needed for it: ask what must not happen.";

// A low window in which two tests are side by side, and the arrangements there, each with how the machines are drawn: with the texts, and without them,
// with the list beside the verdict, or below it; and the store buffers below the code, or beside it.
const LOW = matchMedia("(min-width: 70rem) and (max-height: 53.7rem)");
const ARRANGEMENTS = ["", "beside"].flatMap((way) => ["", "without-texts across", "without-texts"].map((it) => [it, way]));
// More lines than any code has, for a text or a list that is cut, and for a place that is not in sight as a whole.
const [CUT, OUT_OF_SIGHT] = [1000, 10000];

/** Returns how much of a place is cut: lines of code, and far more if a text or a list in columns is cut, or if not all of the place is in sight. */
function measureCutOf(place) {
  const isBroad = (it) => it.scrollWidth > it.clientWidth + 1;
  const isHigh = place.scrollHeight > place.clientHeight + 1;
  const lines = [...place.querySelectorAll(".machine")].map(measureCut);
  return Math.max(0, ...lines) + ([...place.querySelectorAll(".program, .wide")].some(isBroad) ? CUT : 0) + (isHigh ? OUT_OF_SIGHT : 0);
}

/** The view of two tests side by side. */
export class Beside {
  /**
   * Makes both sides. `choose` puts an example into the editor, or with no name the reader's own test; `copyLink` copies the address; `onDraw` is
   * called when another run is shown.
   */
  constructor(editor, examples, own, { choose, copyLink, onDraw }) {
    // `made` is the last test that was made from a first one: `of` has the text of that, and `kind` is a name of MADE.
    Object.assign(this, { editor, examples, own, isOpen: false, made: null });
    this.place = findById("beside");
    const onReveal = () => this.compare();
    const onStep = () => {
      this.lockstep?.follow();
      this.keepPlaces();
    };
    const fitted = () => {
      onDraw();
      this.fitLater();
    };
    const called = { onReveal, onDraw: fitted, onStep, ownOf: (text) => examples.findOwnSchedule(text) };
    this.first = new Side("first", "The first test", { onChoose: choose, ...called });
    this.second = new Side("second", "The second test", { onChoose: (value) => this.choose(value), ...called });
    this.sides = [this.first, this.second];
    this.lockstep = new Lockstep(this.sides.map((it) => it.states.run), () => this.giveKeys(null));
    this.notices = el("div", {});
    this.compared = el("span", { class: "compared", role: "status" });
    this.notProved = el("span", {});
    this.layOut(copyLink);
    this.listen();
  }

  /** Puts the controls of both and the two sides into their place. */
  layOut(copyLink) {
    const status = el("span", { role: "status" });
    const controls = [
      makeButton("◂ Back to one test", () => this.close(), { id: "close-beside" }),
      makeButton("Link to both", () => copyLink(status), { id: "link-both" }),
      status,
      this.compared,
      this.lockstep.place,
    ];
    const title = el("h2", { class: "hidden", id: "beside-title" }, "Two tests side by side");
    const sides = el("div", { class: "sides" }, this.sides.map((it) => it.place));
    this.place.append(title, el("div", { class: "row both" }, controls), this.notices, sides);
  }

  /** Listens to the button that compares and to what changes the room, and gives the keys to what was used last: one side, or both together. */
  listen() {
    findById("set-beside").addEventListener("click", () => this.open());
    for (const side of this.sides) {
      for (const type of ["focusin", "pointerdown"]) side.place.addEventListener(type, () => this.giveKeys(side));
    }
    this.giveKeys(null);
    LOW.addEventListener("change", () => this.fitLater());
    largeType.onChange(() => this.fitLater());
    addEventListener("resize", () => this.isOpen && this.compare());
  }

  /** Gives the keys that step through a run to a side, or to both together if there is none. */
  giveKeys(side) {
    for (const other of this.sides) {
      other.sheet.hasKeys = other === side;
      other.place.classList.toggle("active", other === side);
    }
  }

  /** Sets beside an example the one to compare it with; beside another test the same without its fences, or with the fewest that forbid it. */
  async open() {
    const { name } = this.examples;
    const hasFences = /^\s*SRC|\bMFENCE\b/i.test(blankComments(this.editor.text));
    if (name) this.takeExample(name);
    else await this.make(hasFences ? "bare" : "fenced");
    if (this.isOpen) this.second.select.focus();
  }

  /** Sets beside the first test the example that is compared with one of a name. */
  takeExample(name) {
    this.take({ beside: this.examples.findPartner(name) });
  }

  /** Shows only the first test again. */
  close() {
    this.take({});
    findById("set-beside").focus();
  }

  /** Sets a test beside the first, an example or a text, and says so in the address; with neither only the first is shown again. */
  take({ beside = null, beside_text = null }) {
    const { example, text } = address.read();
    const first = example || text ? {} : { example: this.examples.name };
    address.put({ ...first, beside, beside_text, ...(beside || beside_text ? {} : NO_PLACES) }, true);
    this.follow();
  }

  /** Writes into the address where both runs are. */
  keepPlaces() {
    if (!this.isOpen || !this.lockstep.isReady) return;
    const [left, right] = this.sides.map((it) => it.formatPlace());
    address.put({ left, right });
  }

  /** Shows what the address says. */
  follow() {
    const link = address.read();
    const example = this.examples.findText(link.beside) === undefined ? "" : link.beside;
    const text = this.examples.findText(example) ?? link.beside_text;
    this.isOpen = text !== undefined;
    this.place.hidden = !this.isOpen;
    for (const name of ["test", "answers"]) findById(name).hidden = this.isOpen;
    document.body.classList.toggle("two", this.isOpen);
    if (this.isOpen) this.show(text, example, link);
    document.title = `${(this.isOpen ? [this.editor.text, text] : [this.editor.text]).map(parseName).join(" beside ")} - lw`;
  }

  /** Shows a second test beside the first, with the places in their runs that a link has. */
  show(text, example, { left, right }) {
    this.notices.replaceChildren();
    this.first.put(this.editor.text, this.examples.name, this.examples.makeOptions(), left);
    // A test that is to be repaired is not repaired here.
    const made = Object.entries(MADE).filter(([value]) => value !== "fenced" || address.read().fences !== "own");
    const derived = made.map(([value, words]) => el("option", { value: `=${value}` }, words));
    const options = [...this.examples.makeOptions(), el("optgroup", { label: "The first test" }, derived)];
    const isMade = this.made?.of === this.editor.text && this.made.text === text;
    this.second.put(text, isMade ? `=${this.made.kind}` : example, options, right);
  }

  /** Takes for the second test what is chosen in its list. */
  choose(value) {
    if (value.startsWith("=")) return this.make(value.slice(1));
    if (value) return this.take({ beside: value });
    if (this.own.text?.trim()) return this.take({ beside_text: this.own.text });
    this.follow();
    this.notices.append(makeNotice("You have not written a test yet. Go back to one test, and write it in the editor."));
  }

  /**
   * Takes for the second test what the first is compiled to, or that without its fences or with the fewest. If there is none, and no second test is
   * shown yet, it takes an example.
   */
  async make(kind) {
    const { text } = this.editor;
    this.follow();
    const place = this.isOpen ? this.notices : findById("unknown");
    const first = "First say what you expect of the first test.";
    if (guess.isAwaited(text)) return guess.wait(text, place, makeNotice(first), () => place.replaceChildren());
    const answer = await ask(this.second.sheet, kind === "fenced" ? "more fences" : "compile", { text }, { place });
    if (!answer || text !== this.editor.text) return;
    place.replaceChildren();
    const [set] = answer.fenced?.sets ?? [];
    const made = kind === "fenced" ? set && insertFenceSet(text, set) : kind === "bare" && answer.fences ? makeBareText(text, answer) : answer[kind];
    if (made) {
      this.made = { of: text, text: made, kind };
      return this.take({ beside_text: made });
    }
    const { isOpen } = this;
    if (!isOpen) this.takeExample(parseName(text));
    if ("fenced" in answer) this.notices.append(makeNotice(/exists\s*\(true\)\s*$/.test(text) ? NOT_ASKED : NO_FENCES));
    else if (isOpen) showError(answer, this.notices, this.first.sheet);
  }

  /** Fits both sides, after something of one side is shown: both have their parts in the same rows. */
  fitLater() {
    requestAnimationFrame(() => this.fit());
  }

  /** Fits both sides; in a low window as they are cut least, and with their texts if nothing is cut then. */
  fit() {
    this.showNotProved();
    let [best, fewest] = [null, Infinity];
    for (const arrangement of LOW.matches ? ARRANGEMENTS : [["", ""]]) {
      this.arrange(...arrangement);
      const cut = measureCutOf(this.place);
      if (cut < fewest) [best, fewest] = [arrangement, cut];
      if (!cut) return;
    }
    this.arrange(...best);
  }

  /** Lays the sides out, draws both machines in a way, and lets their code be as high as there is room. */
  arrange(arrangement, way) {
    this.place.querySelector(".sides").className = `sides ${arrangement}`;
    for (const { states } of this.sides) {
      const { stage } = states.run.view;
      stage.place.classList.toggle("beside", way !== "");
      stage.fit();
    }
  }

  /** Says whether the window is so narrow that one side is above the other. */
  get isStacked() {
    const [one, other] = this.sides.map(({ place }) => place.offsetLeft);
    return one === other;
  }

  /** Says how the lists of states differ, once both are shown, and marks in each what the other has not. */
  compare() {
    const reports = this.sides.map(({ states }) => states.report && states.counted);
    const { why, both, alone = [null, null] } = reports.every(Boolean) ? compareReports(...reports) : {};
    for (const [index, side] of this.sides.entries()) side.states.mark(alone[index]);
    const [first, second] = alone.map((lines) => lines?.length);
    const states = (number) => (number === 1 ? "1 state" : `${number} states`);
    const [one, other] = this.isStacked ? ["above", "below"] : ["left", "right"];
    const numbers = `${states(both)} in both, ${first} only ${one}, ${second} only ${other}.${this.explainAlso()}`;
    this.fitLater();
    this.compared.replaceChildren(...(why ? [why] : both === undefined ? [] : [numbers]), " ", this.notProved);
    this.showNotProved();
  }

  /** Says what the mark in the lists means, if one of them has it; and that this and the comparison are not proved. */
  showNotProved() {
    const isMarked = this.sides.some(({ states }) => states.strip.buffered.size);
    const hasNumbers = /^\d/.test(this.compared.textContent);
    const words = isMarked ? el("span", { class: "small" }, "◆ only by store buffers. ") : "";
    this.notProved.replaceChildren(words, isMarked || hasNumbers ? makePlainMark() : "");
  }

  /**
   * Returns a sentence that says that the state which the verdict on x86 shows is a state by interleaving, too; "" if that is not so, or not one test
   * is the source and the other x86.
   */
  explainAlso() {
    const [x86, source] = ["X86", "SRC"].map((language) => this.sides.find((it) => it.states.language === language)?.states);
    const key = x86 && source && x86.asked !== null ? makeStateKey(x86.asked) : null;
    const isAlso = key !== null && source.report.states.some(({ line }) => makeStateKey(line) === key);
    return isAlso ? ` ${x86.asked.replace(/;$/, "")} is reached also by interleaving.` : "";
  }
}

/** Returns a test without its `fences`: its own text if they can be taken out of that, or else `bare`, the canonical one. */
function makeBareText(text, { fences, bare }) {
  return fences.reduceRight((it, place) => it && removeFenceFromText(it, place), text) ?? bare;
}

/** Returns a notice that is read out at once. */
function makeNotice(text) {
  return el("p", { class: "notice", role: "alert" }, text);
}
