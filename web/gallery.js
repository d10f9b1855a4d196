// All examples: eight to begin with, and all of them by family, with a field that looks for them.

import { el, findById, makeButton, renderSentence } from "./dom.js";
import { findTests, isNameOf, listNotes } from "./finding.js";

// The examples with which a lesson may begin, and why.
const PICKS = [
  ["SB-x86", "Two stores wait, two loads go ahead"],
  ["SB+mfences-x86", "A fence on each side forbids it"],
  ["MP-x86", "A message and its flag arrive in order"],
  ["n6-x86", "A thread sees its own store first"],
  ["IRIW-x86", "Do two readers agree on the order?"],
  ["Peterson-x86", "A lock that breaks on x86"],
  ["ChaseLev-x86", "A work-stealing queue, one task taken twice"],
  ["SB", "Source code, and what it is compiled to"],
];

/** The dialog that lists all examples. */
export class Gallery {
  /** Fills the dialog. It calls `onChoose` with the name of an example, or with none for the reader's own test. */
  constructor(examples, onChoose) {
    Object.assign(this, { examples, onChoose });
    this.place = findById("gallery");
    this.search = el("input", {
      type: "search",
      id: "search",
      placeholder: `Search ${examples.tests.size} examples`,
      "aria-label": "Search the examples",
      autocomplete: "off",
      input: () => this.draw(),
      keydown: (event) => event.key === "Enter" && this.enter(event),
    });
    this.body = el("div", { class: "gallery-body" });
    this.place.addEventListener("keydown", (event) => this.move(event));
    this.count = el("p", { class: "small", role: "status" });
    const random = makeButton("Surprise me", () => null, { class: "surprise", title: "Predict a short test, chosen at random" });
    const own = makeButton("A test of my own", () => this.take(""), { id: "own-test" });
    const close = makeButton("Close", () => this.place.close(), { class: "close" });
    const title = el("h2", { id: "gallery-title" }, "Examples");
    this.place.append(el("div", { class: "gallery-head" }, title, this.search, this.count, random, own, close), this.body);
    this.place.addEventListener("click", (event) => event.target === this.place && this.place.close());
    findById("open-gallery").addEventListener("click", () => this.open());
  }

  /** Opens the gallery. */
  open() {
    this.search.value = "";
    this.family = null;
    this.draw();
    this.place.showModal();
    this.search.focus();
  }

  /**
   * Opens the example whose name is written, or if there is none the x86 test of that name; or the only example that is found. Of several the first
   * gets the focus.
   */
  enter(event) {
    event.preventDefault();
    const written = this.search.value.trim().toLowerCase();
    const buttons = [...this.body.querySelectorAll(".example")];
    const names = buttons.map((it) => it.dataset.name);
    const named = names.find((it) => isNameOf(it.toLowerCase(), written));
    const single = names.length === 1 ? names[0] : undefined;
    if (written && (named ?? single)) this.take(named ?? single);
    else if (written) buttons[0]?.focus();
  }

  /** Goes by arrows from the field to the first example and through the examples, and from the first back to the field. */
  move(event) {
    const step = { ArrowDown: 1, ArrowUp: -1 }[event.key];
    const places = [this.search, ...this.body.querySelectorAll(".card, .example")];
    const index = places.indexOf(event.target);
    if (step === undefined || index < 0 || !places[index + step]) return;
    event.preventDefault();
    places[index + step].focus();
  }

  /** Returns whether the test that is shown is an x86 test. */
  get isX86() {
    return !this.examples.findText(this.examples.name)?.startsWith("SRC");
  }

  /** Closes the dialog, and reports the choice. */
  take(name) {
    this.place.close();
    this.onChoose(name);
  }

  /** Returns whether nothing may be shown that gives an answer away. */
  get isPredicting() {
    return findById("predict").checked;
  }

  /** Draws the tests that are found, or all. */
  draw() {
    const text = this.search.value.trim();
    if (text) this.drawFound(text);
    else this.drawAll();
  }

  /** Shows what is found by all words of a text, the best first: by names, and unless the reader predicts also by what is said of the tests. */
  drawFound(text) {
    const tests = findTests(this.examples.families, text, this.isPredicting, this.isX86);
    this.count.textContent = `${tests.length} found`;
    const attributes = { class: "found-tests", "aria-label": "Examples that are found, the best first" };
    const list = el("ul", attributes, tests.map((it) => el("li", {}, this.makeExample(it))));
    const notes = listNotes(text).map((it) => el("p", { class: "search-note" }, renderSentence(it)));
    this.body.replaceChildren(...notes, tests.length ? list : el("p", {}, "Nothing is found. Look through the families: clear the field."));
  }

  /** Draws eight tests to begin with, and all by family. */
  drawAll() {
    const { families, name: shown } = this.examples;
    this.count.textContent = "";
    this.family ??= families.find(({ tests }) => tests.some((it) => it.name === shown)) ?? families[0];
    const names = families.map((family) => el("li", {}, this.makeChoice(family), el("span", { class: "small" }, String(family.tests.length))));
    const picks = el("section", { class: "picks", "aria-label": "Eight to begin with" }, el("h3", {}, "Eight to begin with"),
      el("div", { class: "cards" }, this.makePicks()));
    const byFamily = el("div", { class: "by-family" }, el("ul", { class: "families", "aria-label": "Families" }, names), this.makeFamily(this.family));
    this.body.replaceChildren(picks, el("h3", {}, "All, by family"), byFamily);
  }

  /** Returns the button that chooses a family. */
  makeChoice(family) {
    const choose = () => {
      this.family = family;
      this.draw();
      this.body.querySelector(".families [aria-pressed=true]").focus();
    };
    return makeButton(family.name, choose, { class: "family-name", "aria-pressed": String(family === this.family) });
  }

  /** Returns the cards of the tests to begin with. */
  makePicks() {
    return PICKS.filter(([name]) => this.examples.tests.has(name)).map(([name, words]) => {
      const language = this.examples.findText(name).startsWith("SRC") ? "source" : "x86";
      const inner = [el("b", {}, name), el("span", {}, this.isPredicting ? "" : words), el("span", { class: "small" }, language)];
      return el("button", { type: "button", class: "card", click: () => this.take(name) }, inner);
    });
  }

  /** Returns the tests of a family. */
  makeFamily({ name, about, tests }) {
    const head = el("h3", {}, name, el("span", { class: "small" }, ` ${tests.length}`));
    const words = about && !this.isPredicting ? el("p", { class: "small" }, about.replaceAll("*", "")) : null;
    return el("section", { class: "family" }, head, words, el("ul", {}, tests.map((it) => el("li", {}, this.makeExample(it)))));
  }

  /** Returns the button that takes an example. */
  makeExample({ name, shows }) {
    const kind = name === this.examples.name ? "example here" : "example";
    const inner = [el("b", {}, name), el("span", {}, this.isPredicting ? "" : renderSentence(shows))];
    return el("button", { type: "button", class: kind, "data-name": name, click: () => this.take(name) }, inner);
  }
}
