// A list of many states as rows below each other. Of these only the rows in sight are made, so that a list of any length is smooth. Arrow
// keys go through it.

import { el, makeButton } from "./dom.js";
import { largeType } from "./preferences.js";
import { makeVariable } from "./register_names.js";
import { parseReportLine } from "./replays.js";
import { saveReport } from "./reports.js";
import { renderSite } from "./tint.js";

// The height of a row in letters of the page's size, how many rows are in sight, how many if the window is low or narrow, and how many if two tests
// are beside each other in it, or if the type is large.
const HEIGHT = 1.6;
const [ROWS_IN_SIGHT, FEW_ROWS, MIN_ROWS, LOW, NARROW] = [6, 3, 2, 800, 700];
// The numbers of rows that are made above those in sight, and below.
const [ABOVE, BELOW] = [2, 6];
// The number of states by which the widths of the columns are found.
const MEASURED = 200;

/** A list of states as rows. */
export class Rows {
  constructor(strip) {
    const { report } = strip;
    Object.assign(this, { strip, report, shown: report.states, at: 0 });
    this.columns = this.measureWidths();
    this.never = this.makeNeverButton();
    this.head = this.makeHeadRow();
    this.spacer = el("div", { class: "spacer" });
    this.body = el("div", {
      class: "rows",
      role: "listbox",
      tabindex: "0",
      "aria-label": `All ${report.number} states in which a run ends`,
      scroll: () => this.draw(),
      keydown: (event) => this.handleKey(event),
      click: (event) => this.chooseClicked(event),
    }, this.spacer);
    this.place = el("div", { class: "rows-place" }, el("div", { class: "rows-box" }, this.head, this.body), this.makeTools());
  }

  /** Returns the columns of a row, as a grid has them: the number, the names, the mark, and what is said at the end. */
  measureWidths() {
    const { names, variables } = this.strip;
    const measured = this.report.states.slice(0, MEASURED).map(({ line }) => parseReportLine(line).map(([, word]) => String(word).length));
    const heads = names.map((it) => Math.max(it.length, variables.get(it)?.length ?? 0));
    const longest = heads.map((head, index) => Math.max(head, ...measured.map((it) => it[index])));
    return `5.5ch ${longest.map((it) => `${it + 2}ch`).join(" ")} ${this.report.is_marked ? "3ch" : ""} minmax(0, 1fr)`;
  }

  /** Returns the row of names above the list. */
  makeHeadRow() {
    const { names, tints, variables } = this.strip;
    const mark = this.report.is_marked ? el("span", { title: "the condition holds there" }, "✓") : null;
    const cells = [el("span", { class: "index" }, "#"), names.map((name) => el("span", {}, renderSite(name, tints), makeVariable(variables.get(name)))), mark];
    const head = el("div", { class: "row-head", "aria-hidden": "true" }, cells);
    head.style.gridTemplateColumns = this.columns;
    return head;
  }

  /** Returns the elements beside the list: the number of states, the choice of those in which the condition holds, and the list as a file. */
  makeTools() {
    const { report } = this;
    const formatNumber = (number) => number.toLocaleString("en");
    const box = el("input", { type: "checkbox", change: (event) => this.filter(event.target.checked) });
    const hasChoice = report.is_marked && report.positive && report.positive < report.number;
    const only = hasChoice ? el("label", {}, box, ` only the ${formatNumber(report.positive)} where the condition holds`) : null;
    const file = makeButton("Save the list as a file", () => saveReport(report), { class: "save-list" });
    return el("div", { class: "rows-tools" }, el("span", { class: "small" }, this.countStates(formatNumber)), this.never, only, file);
  }

  /** Returns how many states are counted, and how many more the list has. */
  countStates(formatNumber) {
    const { states, number } = this.report;
    const more = states.length - number;
    return `${formatNumber(number)} ${number === 1 ? "state" : "states"}${more > 0 ? `, and ${formatNumber(more)} more` : ""}`;
  }

  /** Returns the button of a state that the condition asks about and that no run ends in, with its words in the order of the columns. */
  makeNeverButton() {
    const { missing, why } = this.strip;
    if (!missing) return el("span", { hidden: true });
    const words = `never ${parseReportLine(missing).map(([, word]) => word).join(" ")}`;
    if (!why) return el("span", { class: "never", title: "No run ends this way." }, words);
    const attributes = { class: "never", "aria-label": `No run ends in ${missing} Why not?`, title: "No run ends this way. Why?" };
    return makeButton(words, () => why(missing), attributes);
  }

  /** Shows the rows, once the list has its place. */
  begin() {
    this.height = Math.round(HEIGHT * parseFloat(getComputedStyle(document.documentElement).fontSize));
    const isSmall = innerHeight < LOW || innerWidth < NARROW;
    const isCrowded = innerHeight < LOW && (!this.strip.editor.isAlone || largeType.isOn);
    const number = Math.min(isCrowded ? MIN_ROWS : isSmall ? FEW_ROWS : ROWS_IN_SIGHT, this.shown.length);
    this.body.style.height = `${this.height * number + 2}px`;
    // What is chosen stays in sight if the list becomes lower.
    new ResizeObserver(() => this.bring(this.at)).observe(this.body);
    this.follow();
  }

  /** Shows anew what is chosen, found and marked. */
  follow() {
    const index = this.shown.findIndex((it) => it.line === this.strip.chosen);
    if (index >= 0 && this.strip.chosen !== this.chosen) this.bring(index);
    else this.draw(true);
    this.chosen = this.strip.chosen;
    this.never.hidden = this.strip.ghost === null;
    this.never.classList.toggle("chosen", this.strip.ghost !== null && this.chosen === this.strip.ghost);
  }

  /** Shows only the states in which the condition holds, or all. */
  filter(isOnly) {
    this.shown = isOnly ? this.report.states.filter((it) => it.holds) : this.report.states;
    this.body.scrollTop = 0;
    this.at = 0;
    this.draw(true);
  }

  /** Brings a row into sight. */
  bring(index) {
    this.at = index;
    const top = index * this.height;
    if (top < this.body.scrollTop) this.body.scrollTop = top;
    else if (top + this.height > this.body.scrollTop + this.body.clientHeight) this.body.scrollTop = top + this.height - this.body.clientHeight;
    this.draw(true);
  }

  /** Makes the rows in sight, unless they are there already. */
  draw(isNew = false) {
    const first = Math.max(0, Math.floor(this.body.scrollTop / this.height) - ABOVE);
    if (!isNew && first === this.first) return;
    this.first = first;
    const last = Math.min(this.shown.length, first + Math.ceil((this.body.clientHeight || 200) / this.height) + BELOW);
    this.spacer.style.height = `${this.shown.length * this.height}px`;
    this.spacer.replaceChildren(...this.shown.slice(first, last).map((state, index) => this.makeRow(state, first + index)));
    this.body.setAttribute("aria-activedescendant", this.makeRowId(this.at));
  }

  /** Returns the id of the element of a row. */
  makeRowId(index) {
    return this.strip.editor.makeId(`${this.strip.name}-${index}`);
  }

  /** Returns the element of a row. */
  makeRow(state, index) {
    const { strip } = this;
    const isShown = strip.isShown(state);
    const words = parseReportLine(state.line).map(([, word]) => el("span", {}, isShown ? String(word) : "·"));
    const mark = this.report.is_marked ? el("span", {}, isShown && state.holds ? "✓" : "") : null;
    const buffered = isShown && strip.buffered.has(state.line) ? el("span", { class: "hidden" }, "only by store buffers") : null;
    const alone = strip.alone?.has(state.line) ? el("span", { class: "small" }, `+ ${strip.aloneWords}`) : null;
    const attributes = {
      class: `row-line ${strip.findKinds(state)}${index === this.at ? " at" : ""}`,
      role: "option",
      id: this.makeRowId(index),
      "aria-selected": String(state.line === strip.chosen),
      "aria-setsize": String(this.shown.length),
      "aria-posinset": String(index + 1),
      "data-at": String(index),
    };
    const row = el("div", attributes, el("span", { class: "index" }, String(state.index + 1)), words, mark, alone, buffered);
    Object.assign(row.style, { gridTemplateColumns: this.columns, top: `${index * this.height}px`, height: `${this.height}px` });
    return row;
  }

  /** Chooses the row that is clicked. */
  chooseClicked(event) {
    const index = event.target.closest("[data-at]")?.dataset.at;
    if (index === undefined) return;
    this.at = Number(index);
    this.choose();
  }

  /** Chooses the present row, if its state is shown. */
  choose() {
    const state = this.shown[this.at];
    if (this.strip.isShown(state)) this.strip.choose(state.line);
  }

  /** Goes through the list by keys, and chooses by Enter or the space bar. */
  handleKey(event) {
    const { at: index } = this;
    const [page, last] = [Math.floor(this.body.clientHeight / this.height), this.shown.length - 1];
    const to = { ArrowDown: index + 1, ArrowUp: index - 1, PageDown: index + page, PageUp: index - page, Home: 0, End: last }[event.key];
    if (to !== undefined) this.bring(Math.max(0, Math.min(to, last)));
    else if (event.key === "Enter" || event.key === " ") this.choose();
    else return;
    event.preventDefault();
  }
}
