// The list of a test's states. Few of them are columns side by side, with a row for each thing that is observed; many are rows below each
// other (rows.js). If the reader looks for them by hand, each is shown when it is found.

import { makeStateKey } from "./differences.js";
import { el, makeButton } from "./dom.js";
import { largeType } from "./preferences.js";
import { listVariables, makeVariable } from "./register_names.js";
import { parseReportLine } from "./replays.js";
import { listNames } from "./reports.js";
import { Rows } from "./rows.js";
import { renderSite } from "./tint.js";

// The largest numbers of states and names of a list in columns; the largest number of states with wide ones.
const MAX_COLUMNS = 20;
const MAX_NAMES = 5;
// The largest number of names with which columns are no higher than rows.
const FEW_NAMES = 2;
const FEW_COLUMNS = 6;
const FEW_IN_LARGE_TYPE = 4;
// In a window that is narrower the columns are scrolled sideways, as long as this part of them is in sight.
const PHONE = "(max-width: 40rem)";
const PART_IN_SIGHT = 0.5;
// The least height of a window in which columns fit below the verdict in large type.
const HIGH = 860;
// Widths in letters of the page's size: what the verdict needs beside the list, also in large type, a letter of a name, the titles of rows, and what is
// around.
const [VERDICT, LARGE_VERDICT] = [28, 18];
const LETTER = 0.57;
const TITLES = 6.4;
const [WIDE_COLUMN, NARROW_COLUMN, NEVER_COLUMN] = [3, 1.85, 4.2];
const AROUND_ROWS = 18;

const BUFFERED = " Only store buffers reach it.";
const UNWRITTEN = "its initial value: a jump passes over each instruction that writes it";
const MARKED = "in which states the condition holds";
const NOT_PROVED = `${MARKED}: found by the page's own code, which is not proved`;

/** The list of states, as columns or as rows. */
export class Strip {
  /**
   * Makes a place for a list. `choose` is called with the line of a state, `why` with the line of one that is missing. The list is as wide as `wide`;
   * what a state is that another list has not is said by `aloneWords`.
   */
  constructor(editor, { choose, why = null, name = "row", wide = null, aloneWords = "only here" }) {
    Object.assign(this, { editor, choose, why, name, wide, aloneWords, report: null, alone: null, buffered: new Set(), found: null, line: null, explained: null });
    this.place = el("div", { class: "states-place" });
    this.measured = new ResizeObserver(() => requestAnimationFrame(() => this.fit()));
  }

  /** Removes the list. */
  clear() {
    Object.assign(this, { report: null, alone: null, buffered: new Set(), found: null, line: null, explained: null, rows: null });
    this.place.replaceChildren();
  }

  /** Shows a report; `missing` is a state that is not in it, or null. */
  show(report, tints, missing) {
    const variables = listVariables(this.editor.text);
    Object.assign(this, { report, tints, names: listNames(report), variables, missing, rows: null });
    this.measured.observe(this.wide ?? this.place.parentElement ?? this.place);
    this.draw();
  }

  /** Shows the states that are found, or all if there is null. */
  hide(found) {
    this.found = found;
    this.draw();
  }

  /** Lays the list out anew, after the size of the type has changed. */
  layOut() {
    this.rows = null;
    this.draw();
  }

  /** Draws the list anew if it is in sight and has another width now. On a projector the list stays as it is, and the type is fitted to it. */
  fit() {
    const isIdle = !this.report || !this.place.getClientRects().length || document.documentElement.classList.contains("present");
    if (!isIdle && this.measureRoom() !== this.drawnIn) this.draw();
  }

  /** Marks a state as chosen; none if the line is null. */
  select(line) {
    this.line = line;
    this.draw();
  }

  /** Marks the state that is explained in place of the one whose run is shown, or if there is null, that one again. */
  explain(line) {
    if (this.explained === line) return;
    this.explained = line;
    this.draw();
  }

  /** Returns the line of the state that is marked as chosen. */
  get chosen() {
    return this.explained ?? this.line;
  }

  /** Marks the states that are not in another list. */
  mark(alone) {
    this.alone = alone && new Set(alone);
    this.draw();
  }

  /** Marks the states that no interleaving reaches, only store buffers. What is shown of the others stays. */
  markBuffered(lines) {
    this.buffered = new Set(lines);
    if (this.rows && lines.length) this.rows.follow();
    for (const state of this.report?.states.filter(({ line }) => this.buffered.has(line)) ?? []) {
      this.place.querySelector(`th [data-line="${CSS.escape(state.line)}"]`)?.parentElement.replaceWith(this.makeHead(state));
    }
  }

  /** Marks the words of registers that no instruction has written: for the line of each state of a text the names of these. */
  markUnwritten(text, names) {
    this.unwritten = { text, names };
    if (this.report && !this.rows && [...names.values()].some((it) => it.length)) this.draw();
  }

  /** Returns the word of a name in a state, which is marked if it is known that no instruction has written it. */
  makeWord(name, at, line) {
    const word = String(parseReportLine(line)[at][1]);
    const { text, names } = this.unwritten ?? {};
    return text === this.editor.text && names.get(line)?.includes(name) ? el("i", { class: "unwritten", title: UNWRITTEN }, word) : word;
  }

  /** Returns whether the words of a state are shown: the reader has found it, or does not look for the states. */
  isShown({ line }) {
    return this.found === null || this.found.has(makeStateKey(line));
  }

  /** Returns the missing state, if it is shown as a column. */
  get ghost() {
    return this.found === null ? (this.missing ?? null) : null;
  }

  // How it is shown.

  /** Returns how wide the list is as columns, and as rows. */
  measureWidths() {
    const { length } = this.report.states;
    const findVariable = (name) => this.variables.get(name)?.length ?? -1;
    const names = Math.max(TITLES, ...this.names.map((it) => (it.length + 1 + findVariable(it)) * LETTER)) + 1;
    const columns = names + length * (this.isNarrow(length) ? NARROW_COLUMN : WIDE_COLUMN) + (this.ghost ? NEVER_COLUMN : 0);
    const rows = AROUND_ROWS + this.names.reduce((sum, it) => sum + Math.max(it.length, findVariable(it)) + 2, 0) * LETTER;
    return { columns, rows };
  }

  /** Returns whether so many columns are narrow. */
  isNarrow(length) {
    return length > (largeType.isOn ? FEW_IN_LARGE_TYPE : FEW_COLUMNS);
  }

  /** Returns how wide the place of the list is, in letters of the page's size. */
  measureRoom() {
    const width = (this.wide ?? this.place.parentElement)?.clientWidth || 600;
    return width / parseFloat(getComputedStyle(document.documentElement).fontSize);
  }

  /** Draws the list: as columns, or as rows if these do not fit. */
  draw() {
    if (!this.report) return;
    const { states } = this.report;
    if (!states.length) return this.place.replaceChildren(this.found ? "" : el("p", { class: "small" }, "No run ends."));
    const [room, { columns, rows }] = [this.measureRoom(), this.measureWidths()];
    this.drawnIn = room;
    const beside = room - (largeType.isOn ? LARGE_VERDICT : VERDICT);
    const isHigher = this.editor.isAlone || this.names.length > FEW_NAMES;
    const isLow = largeType.isOn && innerHeight < HIGH && this.name === "row" && columns >= beside && isHigher;
    const isWide = columns > room && !(matchMedia(PHONE).matches && columns * PART_IN_SIGHT < room);
    const isLong = states.length > MAX_COLUMNS || this.names.length > MAX_NAMES || isWide || isLow;
    this.place.classList.toggle("aside", (isLong ? rows : columns) < beside);
    if (isLong) this.drawRows();
    else this.drawColumns();
  }

  /** Draws the list as rows. */
  drawRows() {
    if (this.rows) return this.rows.follow();
    this.rows = new Rows(this);
    this.place.replaceChildren(this.rows.place);
    this.rows.begin();
  }

  /** Draws the list as columns. */
  drawColumns() {
    this.rows = null;
    const focused = this.place.contains(document.activeElement) ? document.activeElement.dataset.line : null;
    const scrolled = this.place.querySelector(".wide")?.scrollLeft ?? 0;
    const showEdge = () => {
      wide.classList.toggle("more-left", wide.scrollLeft > 2);
      wide.classList.toggle("more-right", wide.scrollLeft + wide.clientWidth < wide.scrollWidth - 2);
    };
    const wide = el("div", { class: "wide", scroll: showEdge }, this.makeColumns());
    this.place.replaceChildren(wide);
    wide.scrollLeft = scrolled;
    this.bringChosen(wide);
    showEdge();
    if (focused) this.place.querySelector(`[data-line="${CSS.escape(focused)}"]`)?.focus({ preventScroll: true });
  }

  /** Scrolls the chosen column into sight, between the titles of the rows and the column `never`, which stays in sight in a narrow window. */
  bringChosen(wide) {
    const column = wide.querySelector("th.chosen");
    const [titles, never] = ["th", "th.never"].map((css) => wide.querySelector(css));
    if (!column || wide.scrollWidth <= wide.clientWidth) return;
    const isSticky = never !== null && getComputedStyle(never).position === "sticky";
    if (isSticky && column === never) return;
    const room = wide.clientWidth - (isSticky ? never.offsetWidth : 0);
    const [left, right] = [column.offsetLeft - titles.offsetWidth, column.offsetLeft + column.offsetWidth - room];
    wide.scrollLeft = Math.max(right, Math.min(wide.scrollLeft, left));
  }

  /** Returns the table with a column for each state. */
  makeColumns() {
    const { report, names } = this;
    const { states } = report;
    const head = el("tr", {}, el("th", { scope: "row", class: "corner" }, "state"), states.map((it) => this.makeHead(it)), this.makeGhostHead());
    const hasMarks = report.is_marked && report.positive > 0;
    const body = [...names.map((name, index) => this.makeRow(name, index)), hasMarks ? this.makeMarks() : null, this.alone?.size ? this.makeAlones() : null];
    const kind = this.isNarrow(states.length) ? "strip many" : "strip";
    const clicked = (event) => {
      const column = event.target.closest("td")?.dataset.column;
      if (column !== undefined && this.isShown(states[column])) this.choose(states[column].line);
    };
    const attributes = { class: kind, "aria-label": "All states in which a run ends", click: clicked };
    return el("table", attributes, el("thead", {}, head), el("tbody", {}, body));
  }

  /** Returns the classes of a column. */
  findKinds(state) {
    if (!this.isShown(state)) return "unfound";
    const { line, holds } = state;
    const kinds = [holds && "holds", line === this.chosen && "chosen", this.alone?.has(line) && "alone", this.buffered.has(line) && "buffered"];
    return kinds.filter(Boolean).join(" ");
  }

  /** Returns the head of a column, which starts a run to its state. */
  makeHead(state) {
    const isShown = this.isShown(state);
    const truth = `${state.holds ? " The condition holds there." : ""}${this.buffered.has(state.line) ? BUFFERED : ""}`;
    const label = isShown ? `Watch a run to ${state.line}${truth}` : `State ${state.index + 1}, not found yet`;
    const choose = makeButton(String(state.index + 1), () => isShown && this.choose(state.line), {
      class: "watch",
      "aria-label": label,
      "aria-pressed": String(state.line === this.chosen),
      "aria-disabled": isShown ? null : "true",
      "data-line": state.line,
      title: isShown && this.buffered.has(state.line) ? BUFFERED.trim() : null,
    });
    return el("th", { scope: "col", class: this.findKinds(state) }, choose);
  }

  /** Returns the classes of the column of a state that no run ends in. */
  get kindOfGhost() {
    return this.ghost === this.chosen ? "never chosen" : "never";
  }

  /** Returns the head of the column of a state that no run ends in; null if there is none. */
  makeGhostHead() {
    const { ghost } = this;
    if (!ghost) return null;
    const pressed = { "aria-pressed": String(ghost === this.chosen) };
    const attributes = { class: "watch", "aria-label": `No run ends in ${ghost} Why not?`, title: "No run ends this way. Why?", ...pressed };
    const head = this.why ? makeButton("never", () => this.why(ghost), attributes) : el("span", { class: "watch", title: "No run ends this way." }, "never");
    return el("th", { scope: "col", class: this.kindOfGhost }, head);
  }

  /** Returns a cell of each state, whose content is what `textOf` returns of it. */
  makeCells(textOf, kind = "") {
    return this.report.states.map((state, index) => el("td", { class: `${kind} ${this.findKinds(state)}`, "data-column": String(index) }, textOf(state)));
  }

  /** Returns the row of a name: its word in each state. */
  makeRow(name, at) {
    const { ghost } = this;
    const formatWord = (line) => String(parseReportLine(line)[at][1]);
    const cells = this.makeCells((state) => (this.isShown(state) ? this.makeWord(name, at, state.line) : "·"));
    const ofGhost = ghost ? el("td", { class: this.kindOfGhost }, formatWord(ghost)) : null;
    return el("tr", {}, el("th", { scope: "row" }, renderSite(name, this.tints), makeVariable(this.variables.get(name))), cells, ofGhost);
  }

  /** Returns the row that says in which states the condition holds. */
  makeMarks() {
    const makeMark = (state) => (state.holds ? "✓" : el("span", { class: "hidden" }, "false"));
    const cells = this.makeCells((state) => (this.isShown(state) ? makeMark(state) : ""), "mark");
    const words = [el("span", { class: "long-word" }, "condition "), "holds"];
    const title = el("th", { scope: "row", class: "small", title: this.report.is_proved ? MARKED : NOT_PROVED }, words);
    return el("tr", { class: "marks-row" }, title, cells, this.ghost ? el("td", { class: this.kindOfGhost }) : null);
  }

  /** Returns the row that says which states are not in another list. */
  makeAlones() {
    const title = el("th", { scope: "row", class: "small" }, this.aloneWords);
    return el("tr", { class: "alone-row" }, title, this.makeCells((state) => (this.alone.has(state.line) ? "+" : "")));
  }
}
