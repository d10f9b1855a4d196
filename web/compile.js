// Shows a test beside its compiled program, with its fences and without; and below each its list, as it comes, with a film to each state.

import { ask } from "./ask.js";
import { leaveOutWaiting } from "./condition_words.js";
import { el, makeButton, makePlainMark, renderSentence } from "./dom.js";
import { Film } from "./film.js";
import * as guess from "./guess.js";
import { describeMapping } from "./register_names.js";
import { describeLeftOut } from "./reports.js";
import { askOrSearch, isTooLong, makeSearchOffer } from "./search.js";
import { Strip } from "./strip.js";
import { findTints, renderCode } from "./tint.js";
import { showError, clearFault } from "./errors.js";
import { ENDED } from "./verdicts.js";

// The largest numbers of rows and threads of a code that is shown large.
const [MAX_ROWS, MAX_THREADS] = [6, 2];

/** The panel that shows what a test is compiled to, with the lists of states. */
export class Compile {
  /** Fills the panel. It calls `take` with a text for the editor. `makeSourceButton` returns a button that opens the source form of an x86 test, or null. */
  constructor(panel, editor, take, makeSourceButton) {
    Object.assign(this, { editor, take, makeSourceButton });
    this.place = el("div", {});
    this.film = new Film(editor);
    panel.append(this.place, this.film.place);
  }

  /** Removes what is shown. */
  clear() {
    this.askedOf = null;
    this.place.replaceChildren();
    this.film.clear();
  }

  /** Asks, unless the answer on the same text is shown. A question that runs by itself takes at most that number of milliseconds. */
  askOnce(timeout = null) {
    return this.askedOf === this.editor.text ? null : this.ask(timeout);
  }

  /** Asks what the test is compiled to, once the guess is made. The answer takes `timeout` milliseconds at most, or any time if that is null. */
  ask(timeout = null) {
    this.clear();
    this.askedOf = this.editor.text;
    clearFault(this.editor);
    return guess.unlock(this.editor, this.place, () => this.show(timeout));
  }

  /** Shows the compiled program of the test. */
  async show(timeout) {
    const { text } = this.editor;
    const answer = await ask(this.editor, "compile", { text }, { place: this.place, timeout });
    if (!answer) return;
    this.place.replaceChildren();
    if (!answer.compiled) return showError(answer, this.place, this.editor);
    this.tints = findTints(text);
    const lists = this.makeLists(answer, text);
    const codes = this.makeCodes(answer);
    const columns = lists.map((it, index) => el("div", {}, codes[index], it.place));
    this.place.append(this.describeAnswer(answer), el("div", { class: "columns" }, columns));
    const [bare, compiled] = ["bare", "compiled"].map((name) => lists.find((it) => it.name === name));
    await Promise.all(lists.map((it) => it.ask({ timeout, onList: () => bare?.markWhatIsNewTo(compiled) })));
  }

  /** Returns the words on the shown texts. */
  describeAnswer(answer) {
    const number = answer.fences.length;
    if (answer.language === "X86") return this.describeX86(number);
    const fences = number === 0 ? "No fence is needed." : number === 1 ? "There is one fence." : `There are ${number} fences.`;
    const texts = number ? "The source test, what it is compiled to, and that without its fences." : "The source test, and what it is compiled to.";
    return el("p", { role: "status" }, texts, " ", fences, " ", renderSentence(describeMapping(answer.compiled)));
  }

  /** Returns the words on an x86 test with a number of fences: nothing is compiled, and what there is instead. */
  describeX86(number) {
    const shown = number ? "here it is with its fences and without them" : "here are its code and its list";
    const source = this.makeSourceButton();
    const other = source ? [" Its source form is compiled: ", source, "."] : "";
    return el("p", { role: "status" }, `This test is x86 already, so nothing is compiled: ${shown}.`, other);
  }

  /** Returns the code of each text: of the source, of what it is compiled to, and of that without its fences. */
  makeCodes(answer) {
    const isSource = answer.language === "SRC";
    const compiled = answer.fences.length ? "x86, with its fences" : "x86, no fence needed";
    const codes = [this.makeCode(isSource ? compiled : "x86, as it is", answer.cells, answer.compiled)];
    if (isSource) codes.unshift(this.makeCode("Source", answer.cells_of_source));
    if (answer.fences.length) codes.push(this.makeCode(["x86, without fences ", makePlainMark()], answer.bare_cells, answer.bare));
    return codes;
  }

  /** Returns the code of all threads, each a column; a fence is marked. */
  makeCode(title, cells, text = null) {
    const height = Math.max(...cells.map((it) => it.length), 0);
    const rows = Array.from({ length: height }, (_, at) => el("tr", {}, cells.map((column, thread) => makeCell(column[at], this.tints, thread))));
    const head = el("tr", {}, cells.map((_, thread) => el("th", { scope: "col" }, el("span", { class: `thr thr-${thread}` }, `P${thread}`))));
    const isTight = height > MAX_ROWS || cells.length > MAX_THREADS;
    const code = el("table", { class: isTight ? "code tight" : "code" }, el("caption", {}, title), el("thead", {}, head), el("tbody", {}, rows));
    const take = text && makeButton("Take into the editor", () => this.take(text), { class: "take" });
    return el("div", {}, el("div", { class: "wide" }, code), take);
  }

  /** Returns the list of each text, in the order of their codes. */
  makeLists({ language, compiled, bare, fences }, text) {
    const isSource = language === "SRC";
    const { editor } = this;
    const watch = (of, run = null) => ({ text: shown, isSearched }, line) => this.film.show(line, { text: shown, of, run, search: isSearched });
    const [title, asItIs] = isSource ? [fences.length ? "With fences" : "Compiled", "of the compiled program "] : ["As it is", ""];
    const lists = [new List("compiled", title, compiled, { editor, watch: watch([asItIs]) })];
    if (isSource) lists.unshift(new List("source", "By interleaving", text, { editor, watch: watch([], "source") }));
    const without = ["of the program without fences ", makePlainMark(), " "];
    if (fences.length) lists.push(new List("bare", "Without fences", bare, { editor, watch: watch(without) }));
    return lists;
  }
}

/** Shows the list of a text, which is asked for by itself. */
class List {
  /** Makes an empty list of a text, which is made of the one in the editor, `of`. */
  constructor(name, title, text, { editor, watch }) {
    Object.assign(this, { name, title, text, editor, watch, of: editor.text, report: null, isSearched: false });
    this.place = el("div", {});
    const choose = (line) => {
      this.strip.select(line);
      this.watch(this, line);
    };
    this.strip = new Strip(editor, { choose, name, aloneWords: "new" });
  }

  /** Asks for the list, by a search if `search` is set; `onList` is called when it is there. */
  async ask({ timeout = null, onList, search = false }) {
    const placeholder = el("div", {});
    this.place.replaceChildren(el("h3", {}, this.title), placeholder);
    const how = { place: placeholder, timeout, name: `the list of what is ${this.name}` };
    const answer = await askOrSearch(this.editor, "states", { text: this.text, search }, how);
    if (!answer) return;
    placeholder.replaceChildren();
    const report = answer.report ? leaveOutWaiting(this.of, answer.report) : null;
    Object.assign(this, { report, hasWaiting: report !== (answer.report ?? null), isSearched: answer.isSearched });
    if (!this.report) return this.fail(answer, placeholder, onList);
    this.draw();
    onList();
  }

  /** Says why there is no list, and offers a search if it would take too long. */
  fail(answer, place, onList) {
    showError(answer, place, this.editor);
    const search = () => this.ask({ onList, search: true });
    if (isTooLong(answer)) place.append(makeSearchOffer(search, this.editor.makeId(`search-${this.name}`)));
  }

  /** Draws the list of states. */
  draw() {
    const { report, isSearched, hasWaiting } = this;
    this.strip.wide = this.place.closest("[role=tabpanel]");
    const states = report.number === 1 ? "1 state" : `${report.number.toLocaleString("en")} states`;
    const title = el("h3", {}, `${this.title}: ${states}${hasWaiting ? ENDED : ""}${isSearched ? ", by a search" : ""}`);
    this.place.replaceChildren(title, this.strip.place, describeLeftOut(report) ?? "");
    this.strip.show(report, findTints(this.text), null);
  }

  /** Marks the states that are not in another list, if both are there and the other is whole. */
  markWhatIsNewTo({ report }) {
    if (!this.report || !report || report.left_out) return;
    const lines = new Set(report.states.map((it) => it.line));
    const added = this.report.states.map((it) => it.line).filter((line) => !lines.has(line));
    this.strip.mark(added.length ? added : null);
  }
}

/** Returns a cell of the code. A fence is marked, and not only by its colour. */
function makeCell(cell, tints, thread) {
  const text = renderCode(cell?.text ?? "", tints, thread);
  if (!cell || !/MFENCE$/.test(cell.text)) return el("td", {}, text);
  return el("td", { class: "fence" }, text, " ", el("span", { class: "badge" }, "fence"));
}
