// Shows why a test does not end in a state: it draws the cycle that forbids it. The state that the condition asks about is answered at once; for
// a state in which a run ends, it draws that run.

import { ask } from "./ask.js";
import { parseQuestion } from "./condition_words.js";
import { el, findById, makeButton, makePlainMark, renderSentence } from "./dom.js";
import { makeGraph, makeGraphParts, makeLegend } from "./execution_graph.js";
import * as guess from "./guess.js";
import { findMissingState } from "./missing.js";
import { parseReportLine } from "./replays.js";
import { listNames } from "./reports.js";
import { findTints, renderSite } from "./tint.js";
import { showError } from "./errors.js";
import { parseHeading } from "./tokens.js";

const ARROWS = "Each bold arrow means “comes before”. ";
const CIRCLE = "They form a cycle, so no run can end this way.";
// How the first line of an answer on a forbidden state begins. Words that no candidate has are `?` there, so the page names the state that was asked
// about.
const FORBIDS = "x86-TSO forbids ";
// How the answer begins if no execution has a state.
const NO_CANDIDATE = "No candidate execution ends in ";
const PROVED = "Proved: the list is complete. ";
const PROVED_ALL_THE_SAME = " The list is complete (proved), so no run ends there.";
const DRAWN = "The execution and its cycle are found by the page: ";
// How large the first cycle or a run may be drawn, as factors of its own size, the largest first.
const SIZES = [1.6, 1.35, 1.15, 0.95];
// By how many pixels the column of the answers may be scrolled before that is seen.
const SCROLLED = 8;
// How the words on a cycle begin if it breaks the axiom of one location, for which program order always counts.
const OF_ONE_LOCATION = "coherence";
const RULE = "Program order counts here, but not";
const RULE_OF_COHERENCE = "Of one location program order always counts, of two it does not";
const RULE_OF_RUN = "By interleaving the bold arrows forbid this run. x86-TSO does not keep program order";
const EXCEPTION =
  " from a plain store to a later load, which may read while the store waits in its buffer. It counts again with an `MFENCE` or a locked instruction " +
  "between them.";
const OTHER_RUNS = "Another run to it may lack other fences.";

/** The panel that says why a test does not end in a state. */
export class Why {
  /**
   * Makes an empty panel. It calls `watch` with the line of a state whose run the reader wants to watch, and `explained` with that of a state that it
   * answers on, or with null.
   */
  constructor(editor, watch, explained) {
    Object.assign(this, { editor, watch, explained, fields: [], report: null, askedOf: null });
    this.form = el("div", { class: "why-form" });
    this.answers = el("div", { class: "why-answers", role: "status" });
    this.place = el("div", { class: "why" }, this.form, this.answers);
    addEventListener("resize", () => this.fitGraph());
  }

  /** Removes what is shown. */
  clear() {
    Object.assign(this, { report: null, askedOf: null, missing: null, telling: null, isOfAll: false, chosen: null, fields: [] });
    this.answers.replaceChildren();
    this.form.replaceChildren();
    this.form.hidden = false;
  }

  /**
   * Offers fields for the words of a state of a report. They hold the state that the condition asks about: one that the list lacks, or else
   * `telling`, one that it has; or any state that it lacks. If the condition asks about none, the first answer is on all forbidden states.
   */
  offer(report, telling = null) {
    this.clear();
    if (!report?.states.length) return;
    this.report = report;
    this.tints = findTints(this.editor.text);
    this.missing = findMissingState(report, parseQuestion(this.editor.text));
    this.telling = telling;
    this.isOfAll = this.missing === null && telling === null;
    const state = this.missing ?? telling ?? findMissingState(report) ?? report.states[0].line;
    const words = new Map(parseReportLine(state));
    this.fields = listNames(report).map((name) => ({ name, field: this.makeField(name, words.get(name)) }));
    const fields = this.fields.map(({ name, field }) => el("label", { class: "site-field" }, renderSite(name, this.tints), "=", field));
    const asked = makeButton("Why not?", () => this.ask(), { class: "main why-not" });
    const all = makeButton("Every forbidden state", () => this.answer("all"), { title: "Each state that some execution has and x86-TSO forbids" });
    this.form.append(el("span", {}, "Does a run end in"), ...fields, el("span", {}, "? If none does:"), asked, all);
  }

  /** Returns the field for the word of a name. */
  makeField(name, word) {
    const enter = (event) => event.key === "Enter" && this.ask();
    return el("input", { type: "text", inputmode: "numeric", value: word ?? "", size: "3", "aria-label": name, keydown: enter });
  }

  /**
   * Answers on the state that is offered, unless that was done already. If the list lacks no state that the condition asks about, it is the
   * state that is `chosen` in the list, if there is one.
   */
  askOnce(chosen = null) {
    this.form.hidden = guess.isLocked(this.editor.text);
    if (this.form.hidden) return guess.unlock(this.editor, this.answers, () => this.askOnce(chosen));
    if (this.report === null) return null;
    const isFirstOfAll = this.isOfAll && this.askedOf === null;
    const isOther = this.missing === null && chosen !== null && chosen !== this.chosen;
    this.chosen = chosen;
    if (isFirstOfAll) return this.answer("all");
    if (isOther) return this.set(chosen);
    if (this.askedOf === null) return this.open();
    return this.markExplained();
  }

  /**
   * Answers on the state that the condition asks about. Of several that are missing it is one that a cycle of several locations forbids; or if there
   * is none, one in which a run ends, if there is one.
   */
  async open() {
    const { report, missing, editor, telling } = this;
    const { isAsked, ...question } = parseQuestion(editor.text);
    const hasOther = missing !== null && findMissingState(report, { ...question, isAsked: (line) => line !== missing && isAsked(line) }) !== null;
    const { state = null, isOfSeveral = true } = hasOther ? await this.findTelling(editor.text) : {};
    if (this.report !== report || this.askedOf !== null) return null;
    const shown = isOfSeveral || telling === null ? state : telling;
    return shown === null ? this.ask() : this.set(shown);
  }

  /** Asks about a state. */
  set(line) {
    const words = new Map(parseReportLine(line));
    for (const { name, field } of this.fields) field.value = words.get(name) ?? field.value;
    return this.ask();
  }

  /** Asks about the state that is written in the fields. */
  ask() {
    return this.answer(this.fields.map(({ name, field }) => `${name}=${field.value.trim()};`).join(" "));
  }

  /** Says which state the answer is on; if it is on all, none. */
  markExplained() {
    this.explained(this.askedOf === "all" ? null : this.askedOf);
  }

  /** Answers on a state, or on `all`. The last answer is removed meanwhile. */
  async answer(state) {
    this.askedOf = state;
    this.answers.replaceChildren();
    this.markExplained();
    if (this.report.states.some(({ line }) => line === state)) return this.answerAllowed(state);
    const { text } = this.editor;
    const answer = await ask(this.editor, "why not", { text, state }, { place: this.answers });
    if (!answer) return null;
    this.answers.replaceChildren();
    if (!answer.lines) return showError(answer, this.answers, this.editor);
    const other = state === this.missing && answer.lines[0].startsWith(NO_CANDIDATE) ? (await this.findTelling(text)).state : undefined;
    if (other) return this.set(other);
    this.answers.append(...this.makeParts(answer, parseHeading(text).language === "SRC"));
    return this.bringIntoSight();
  }

  /**
   * Returns a state that the condition asks about and that some candidate execution has, in place of the proposed one, and whether a cycle of several
   * locations forbids it; or no `state`, if there is none.
   */
  async findTelling(text) {
    const listed = this.report.states.map((it) => it.line);
    const answer = await ask(this.editor, "candidate", { text, listed }, { place: this.answers });
    return answer ?? {};
  }

  /** Draws the first cycle, or a run, as large as the column of the answers has room for, in a window in which the column is scrolled by itself. */
  fitGraph() {
    const column = findById("answers");
    this.place.style.removeProperty("--of-why");
    if (!this.place.offsetParent || getComputedStyle(column).overflowY !== "auto") return;
    SIZES.find((size) => {
      this.place.style.setProperty("--of-why", String(size));
      return column.scrollHeight <= column.clientHeight;
    });
  }

  /**
   * Scrolls the column of the answers as far as the cycles need to be in sight, in a window in which the column is scrolled by itself. If that cuts
   * the verdict, it scrolls to the tabs below it, or not at all.
   */
  bringIntoSight() {
    this.fitGraph();
    const drawn = this.answers.querySelector(".why-drawn, .why-run");
    const [column, tabs] = [findById("answers"), findById("tabs")];
    if (!drawn || getComputedStyle(column).overflowY !== "auto") return;
    drawn.scrollIntoView({ block: "nearest" });
    const isCut = () => column.scrollTop > SCROLLED && tabs.getBoundingClientRect().top > column.getBoundingClientRect().top + 1;
    if (isCut()) tabs.scrollIntoView();
    if (isCut()) column.scrollTop = 0;
  }

  /** Says that a run ends in a state, and draws that run. */
  async answerAllowed(state) {
    const { text } = this.editor;
    const watched = makeButton("Watch that run", () => this.watch(state), { class: "main watch-allowed" });
    const head = el("p", { class: "why-head" }, el("b", {}, "A run ends in this state: "), el("code", {}, state), " ", watched, " ", el("span", { class: "small" }, OTHER_RUNS));
    const drawn = el("div", { class: "why-run" });
    this.answers.append(head, drawn);
    const film = await ask(this.editor, "film", { text, state, protocol: "mesi" }, { place: drawn, name: "the run to the state" });
    if (!film?.films || this.askedOf !== state) return;
    const answer = await ask(this.editor, "graph", { text, schedule: film.schedule }, { place: drawn, name: "the graph of that run" });
    if (!answer || this.askedOf !== state) return;
    drawn.replaceChildren(...(answer.graph ? [...makeGraphParts(answer, this.tints), answer.hasCycle ? makeRuleNote(RULE_OF_RUN) : ""] : []));
    this.bringIntoSight();
  }

  /** Returns why the cycles that are drawn forbid a state; of several, how many there are. */
  describeCycles(lines, drawn) {
    const number = countCycles(lines);
    if (number < 2 || this.askedOf === "all") return CIRCLE;
    const shown = number > drawn.length ? `, of which ${drawn.length} ${drawn.length === 1 ? "is" : "are"} drawn` : "";
    return `Whatever way a run took to this state, it would have one of ${number} cycles${shown}. So no run can end this way.`;
  }

  /** Returns the parts of an answer: the sentence, the pictures of cycles, and all in words. */
  makeParts({ lines, cycles }, isSource) {
    const drawn = cycles.map((it) => el("figure", {}, makeGraph(it.graph, this.tints).graph, makeCaption(it)));
    const inWords = el("details", { open: !drawn.length && lines.length > 1 }, el("summary", {}, "In words"), el("pre", {}, lines.join("\n")));
    const head = this.makeHead(lines, isSource);
    if (!drawn.length) return [head, lines.length > 1 ? inWords : ""];
    const rule = cycles.some(({ words }) => words.includes(OF_ONE_LOCATION)) ? RULE_OF_COHERENCE : RULE;
    const explained = el("p", { class: "small" }, ARROWS, this.describeCycles(lines, drawn));
    const notes = el("div", { class: "why-notes" }, explained, makeLegend(...drawn), makeRuleNote(rule));
    const [first, ...others] = drawn;
    const folded = others.length ? el("details", {}, el("summary", {}, `${others.length} more drawn`), el("div", { class: "figures" }, others)) : "";
    return [head, el("div", { class: "why-drawn" }, el("div", { class: "figures" }, first), notes), folded, inWords];
  }

  /** Returns the sentence of an answer. That a state is forbidden is proved if the whole list is shown: it lacks the state. */
  makeHead(lines, isSource) {
    const of = isSource ? "Of the compiled program, with the source's names: " : "";
    const states = lines.filter((it) => it.startsWith(FORBIDS));
    const isOfOne = states.length > 0 && this.askedOf !== "all";
    const isWhole = !this.report.left_out;
    const hasNone = lines[0].startsWith(NO_CANDIDATE);
    const words = isOfOne ? FORBIDS + this.askedOf : states.length ? describeForbidden(states) : lines[0];
    return el("p", { class: "why-head" }, of, el("b", {}, words), " ", isOfOne && isWhole ? el("span", { class: "by" }, PROVED) : makePlainMark(), hasNone && isWhole && PROVED_ALL_THE_SAME);
  }
}

/** Returns what the lines that begin the answers on forbidden states say together. A line with a word that is `?` is on no state. */
function describeForbidden(lines) {
  const known = lines.filter((it) => !it.includes("=?;"));
  if (lines.length === 1 && known.length) return lines[0];
  const states = known.length && `${known.length} state${known.length === 1 ? "" : "s"} that some candidate execution has`;
  const others = known.length < lines.length && "executions whose words are not known";
  return `${FORBIDS}${[states, others].filter(Boolean).join(", and ")}.`;
}

/** Returns the caption of a cycle that is drawn: its words, why it teaches little, if it does, and what is not proved of the picture. */
function makeCaption({ words, kind }) {
  return el("figcaption", {}, el("span", { class: "cycle-words" }, words), kind && el("span", { class: "kind" }, kind), el("span", {}, DRAWN, makePlainMark()));
}

/** Returns how many cycles the lines of an answer name, and how many more they count. */
function countCycles(lines) {
  const more = /^ {2}and (\d+) other cycles$/.exec(lines.at(-1))?.[1] ?? 0;
  return lines.filter((it) => /^ {2}\d+ candidate/.test(it)).length + Number(more);
}

/** Returns a note on which program order counts, which begins with a rule. */
function makeRuleNote(rule) {
  return el("p", { class: "rule small" }, renderSentence(rule + EXCEPTION));
}
