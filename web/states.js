// The states of a test: predict, then reveal; the verdict in one line; the list; and from each state the run that leads to it. A list that
// is refused by count can be made by a search instead.

import { ask } from "./ask.js";
import { describeCondition, leaveOutWaiting, makeEndTest, parseQuestion } from "./condition_words.js";
import { makeStateKey } from "./differences.js";
import { el, makeButton, makePlainMark, renderSentence } from "./dom.js";
import * as guess from "./guess.js";
import { countDifferences, findClosest, findMissingState } from "./missing.js";
import { makeMoreButton, markCut } from "./placing.js";
import { largeType } from "./preferences.js";
import { describeLeftOut, formatReport, saveReport } from "./reports.js";
import { Run } from "./run.js";
import { countPrediction } from "./score.js";
import { askOrSearch, isTooLong, makeSearchOffer } from "./search.js";
import { SeenHere } from "./seen_here.js";
import { Strip } from "./strip.js";
import { loadHints } from "./supplies.js";
import { findTints, renderCode, renderTestName, renderTintedSentence } from "./tint.js";
import { showError, clearFault } from "./errors.js";
import { ENDED, describeBuffered, describeCount, describeInterleaved, describeVerdict, isUnasked } from "./verdicts.js";

// How many milliseconds it may take to find which states interleaving gives.
const MAX_MILLISECONDS = 10000;
// The largest number of letters of a short note.
const SHORT_NOTE = 64;
// The largest number of states of a list that is shown as lw prints it.
const MAX_PRINTED = 500;
// The two ways in which a list is made, in words.
const BY = {
  enumerated: ["complete (proved)", "lw went through all orders of accesses that conflict. That lists all final states and no others, which is proved."],
  searched: ["complete (proved), by a search", "lw searched the states of the machine. That lists all final states and no others, which is proved."],
};
// The kind, the word and the sentence of a test that asks nothing.
const NO_QUESTION = ["can", "No question.", "The list has all states in which a run ends. Ask what must not happen, as `~exists (x=1)`."];
const SIGNS_IN_WORDS = "exists: can a run end this way? ~exists: can none? forall: does every run? /\\ and, \\/ or, ~ not";
const SIGNS = { can: "○", yes: "✓", cannot: "⊘", wrong: "!" };
const STUCK = "In none of these states every wait has ended: no run of the program comes to its end.";
const VEILED = "The answer comes when a run of yours decides it or you have found all states";
/** Returns, as children for `el`, why states are not marked. */
const makeUnmarkedNote = () => [
  "States are not marked, since the page's own reader ", makePlainMark(), " does not find as many in which the condition holds as lw counts.",
];

/** Returns the words on the reader's guess, if there is one, with the `reason` if it was wrong, and buttons that ask again and on another test. */
function makeGuessWords(guessed, isSo, askAgain, reason) {
  const words = guessed === null ? "" : guessed === isSo ? "✓ As you said." : "✗ Not as you said.";
  const kind = guessed === null ? "" : guessed === isSo ? " right" : " wrong";
  const why = kind === " wrong" && reason.length ? el("span", { class: "reason" }, reason, " ") : null;
  const surprise = makeButton("Surprise me", () => null, { class: "link again surprise" });
  const buttons = [makeButton("Predict again", askAgain, { class: "link again" }), " ", surprise];
  return el("p", { class: `said${kind}` }, words, " ", why, buttons);
}

/** The states of a test: the prediction, the verdict, the list and the run. */
export class States {
  /**
   * Makes the places for a verdict, a list and a run. `onReveal` is called when a list is shown, and when it is gone: `report` is that list, or null.
   * `why` is called with a missing state, `onWatch` with one whose run the reader wants to see, `onDraw` when another run is shown, `onStep` when
   * it is at another step, `onFence` if a fence is put into the test or taken out, and `onVeil` with whether the verdict is kept back. Runs are
   * shown in `runPanel`, and their graph in `graphPlace`. `firstStep` is the step at which the first run is shown: "telling", or a number. `ownOf`
   * returns the schedule that a text has of its own, or null, and `noteOf` a note on a text, given whether its outcome is allowed, or "", or null if
   * it is to be found out which states interleaving gives. `onUnlisted` is called with the state of a link that the list does not have. `next` is
   * shown below the run.
   */
  constructor(panel, editor, onReveal = () => null, more = {}) {
    const { why = null, runPanel = panel, graphPlace = null, firstStep = "telling", next = null, ...others } = more;
    const { onVeil = () => null, ownOf = () => null, noteOf = () => "", onWatch = null, onUnlisted = () => null, ...called } = others;
    Object.assign(this, { editor, onReveal, onVeil, ownOf, noteOf, firstStep, why, onWatch, onUnlisted });
    // `found` has the keys of the states that are found by hand, `answered` the text of which the verdict was shown, `counted` is the report without
    // the states in which a wait has not ended, and `isWhole` says whether the list has these, too.
    Object.assign(this, { report: null, isByHand: false, isSearched: false, isVeiled: false, found: new Set(), answered: null });
    Object.assign(this, { counted: null, isWhole: false });
    this.verdict = el("div", { role: "status", tabindex: "-1", class: "verdicts" });
    this.list = el("div", { class: "list-place" });
    this.strip = new Strip(editor, { choose: (line) => this.choose(line), why });
    const onEnd = (line, program) => this.reach(line, program);
    this.run = new Run(editor, { onEnd, truthOf: (line) => this.findTruth(line), graphPlace, ...called });
    panel.append(this.verdict, this.list, this.strip.place);
    this.here = new SeenHere(editor);
    largeType.onChange(() => this.strip.layOut());
    runPanel.append(this.run.place, el("div", { class: "row after-run" }, this.here.place, next));
  }

  /** Removes the list, the verdict and the run. */
  clear() {
    this.verdict.replaceChildren();
    this.list.replaceChildren();
    this.strip.clear();
    this.run.clear();
    this.here.offer(null);
    Object.assign(this, { report: null, isVeiled: false, found: new Set(), answered: null });
    this.onVeil(false);
    this.onReveal();
  }

  // The list.

  /**
   * Asks for the list, by a search if `search` is set, and shows then what a link leads to. With `isKept` what is shown stays till the
   * answer is there; `timeout` is the most milliseconds that it may take. Returns whether there is an answer.
   */
  async ask(link = null, { isKept = false, search = false, timeout = null } = {}) {
    if (!isKept) this.clear();
    clearFault(this.editor);
    const { text } = this.editor;
    const answer = await askOrSearch(this.editor, "states", { text, search }, { place: this.list, timeout });
    if (!answer) return false;
    this.list.replaceChildren();
    this.isSearched = answer.isSearched;
    if (!answer.report) return this.fail(answer, text, link, search);
    if (guess.isAwaited(text)) this.askForGuess(answer, text, link);
    else await this.reveal(answer, link);
    return true;
  }

  /** Says why there is no list. If it would take too long, a search is offered, and single runs can be made by hand. */
  fail(answer, text, link, isSearched) {
    if (answer.fault) guess.settle(text);
    showError(answer, this.list, this.editor, this.foundIn);
    if (answer.fault) this.verdict.replaceChildren();
    const search = () => this.ask(link, { search: true });
    if (isSearched || isTooLong(answer)) this.list.append(makeSearchOffer(search, this.editor.makeId("search-instead")));
    if (!isTooLong(answer)) return false;
    this.verdict.replaceChildren();
    this.strip.clear();
    this.run.clear();
    if (this.editor.isAlone) this.run.begin(link?.view === "hand" ? link : {});
    return true;
  }

  /** Asks what the reader expects, and shows the machine before its run meanwhile. */
  askForGuess(answer, text, link) {
    this.clear();
    guess.askForGuess(text, this.list, answer, (name) => this.editor.makeId(name), () => this.revealGuessed(answer, link));
    this.run.begin({}, { isLocked: true });
  }

  /** Has the reader predict once more. */
  askAgain() {
    guess.forgetGuess(this.editor.text);
    this.ask();
  }

  /** Shows the list after the guess. The verdict is kept back if the reader looks for the states by hand. */
  revealGuessed(answer, link) {
    const { activeElement } = document;
    const isHere = activeElement === document.body || this.list.contains(activeElement);
    this.list.replaceChildren();
    this.reveal(answer, link);
    if (isHere) this.verdict.focus({ preventScroll: true });
  }

  /** Shows a report, or asks for a guess first. */
  reveal({ report, language, words }, link) {
    // States that were found of another text do not count for this one.
    if (this.foundIn !== this.editor.text) Object.assign(this, { foundIn: this.editor.text, found: new Set() });
    Object.assign(this, { report, language, words, isVeiled: this.isKeptBack(this.isByHand || link?.view === "hand") });
    this.missing = findMissingState(report, parseQuestion(this.editor.text));
    Object.assign(this, { counted: leaveOutWaiting(this.editor.text, report), isWhole: false });
    this.strip.buffered = new Set();
    this.showVerdict();
    this.showNotes();
    this.here.offer(this.isByHand ? null : this.editor.text);
    this.showList();
    this.onReveal();
    if (this.isByHand) return this.beginByHand(link?.view === "hand" ? link : {});
    if (link?.view === "hand" && link.schedule !== undefined) return this.run.begin(link);
    const { state: named = null, protocol = "mesi", run = null } = link ?? {};
    const state = named && this.findListedLine(named);
    if (named && state === null) this.onUnlisted(named);
    const step = state ? Number(link.step) || 0 : this.firstStep;
    return this.watch(state, { step, run, protocol, isOwn: !state || link.own === "1" });
  }

  /** Says what the list leaves out, and that its states are not marked, if that is so. */
  showNotes() {
    const { report } = this;
    const unmarked = report.is_marked ? "" : el("p", { class: "small" }, makeUnmarkedNote());
    this.list.replaceChildren(describeLeftOut(report) ?? "", unmarked, this.makeHiddenNote());
  }

  /** Returns whether there are states in which a wait has not ended, and others. */
  get hasWaiting() {
    return this.counted !== this.report;
  }

  /**
   * Returns a sentence on the states in which a wait has not ended, with a button that shows or hides them; "" if there are none, or none are others.
   */
  makeHiddenNote() {
    const { report, counted, isWhole } = this;
    if (this.isByHand) return "";
    const makeNote = (...words) => el("p", { class: "small hidden-states" }, words);
    const hasEnded = this.hasWaiting ? null : makeEndTest(this.editor.text);
    if (hasEnded && report.states.length && !report.states.some(({ line }) => hasEnded(line))) return makeNote(STUCK);
    if (!this.hasWaiting) return "";
    const number = report.number - counted.number;
    const [states, are, them] = number === 1 ? ["1 state", "is", "it"] : [`${number} states`, "are", "them"];
    const toggle = makeButton(`${isWhole ? "Hide" : "Show"} ${them}`, () => this.showWaiting(!isWhole), { class: "link" });
    return makeNote(`${states} more, in which a wait has not ended, ${are} ${isWhole ? "shown, too, and not counted" : "hidden"}. `, toggle);
  }

  /** Lists the states in which a wait has not ended, too, or no longer. */
  showWaiting(isWhole) {
    this.isWhole = isWhole;
    this.showNotes();
    this.showList();
  }

  /** Lists all states if the list hides the one of a line. */
  uncover(line) {
    if (!this.listed.some((it) => it.line === line)) this.showWaiting(true);
  }

  /**
   * Returns the states that are listed: those that are counted; also all others if the reader wants to see them, or those of them that are found by
   * hand.
   */
  get listed() {
    const { report, counted, found } = this;
    if (this.isByHand) return report.states.filter((it) => counted.states.includes(it) || found.has(makeStateKey(it.line)));
    return this.isWhole ? report.states : counted.states;
  }

  /** Returns whether the verdict is kept back from a reader who looks for the states: one who was shown it on this text knows it. */
  isKeptBack(isByHand) {
    return isByHand && this.answered !== this.editor.text;
  }

  /** Shows the verdict, or the question before it. */
  showVerdict() {
    this.onVeil(this.isVeiled);
    if (this.isVeiled) this.showQuestion();
    else this.showAnswer();
  }

  /** Says what the reader looks for by hand, and nothing of the answer. */
  showQuestion() {
    const { text } = this.editor;
    const note = guess.findGuess(text) === null ? "" : "Your guess is kept. ";
    const [question, asked] = guess.makeQuestionParts(text, this);
    asked.append(" ", el("span", { class: "by" }, `${note}${VEILED}`, el("span", { class: "of-tabs" }, ", or in Watch"), ". "), makeButton("Show the answer", () => this.unveil(), { class: "unveil" }));
    this.verdict.className = "verdicts veiled";
    this.verdict.replaceChildren(question, asked);
  }

  /** Keeps the verdict back: the reader looks for the states. */
  veil() {
    this.isVeiled = true;
    this.showVerdict();
  }

  /** Shows the verdict that was kept back. */
  unveil() {
    if (!this.isVeiled) return;
    this.isVeiled = false;
    this.showVerdict();
    this.showList();
    if (this.isByHand) this.showFound();
  }

  /**
   * Shows the list; by hand only the words of the states that are found, and while the verdict is kept back no others: their number says a part of
   * it.
   */
  showList() {
    const { report, found, isByHand, isVeiled } = this;
    const known = report.states.filter(({ line }) => isVeiled && found.has(makeStateKey(line))).map((it, index) => ({ ...it, index }));
    this.strip.hide(isByHand ? found : null);
    const shown = isVeiled ? { ...report, states: known, number: known.length, positive: 0 } : { ...this.counted, states: this.listed };
    this.strip.show(shown, findTints(this.editor.text), this.missing);
  }

  /** Shows the verdict, and how good the guess was. */
  showAnswer() {
    const { report, words } = this;
    const { text } = this.editor;
    this.answered = text;
    const tints = findTints(text);
    const guessed = guess.findGuess(text);
    if (guessed !== null) countPrediction(text, guessed === words.is_so);
    const asksNothing = isUnasked(report);
    const [kind, word, sentence] = asksNothing ? NO_QUESTION : describeVerdict(this.language, report, describeCondition(text));
    const [by, way] = BY[this.isSearched ? "searched" : "enumerated"];
    const note = this.noteOf(text, word === "Allowed.");
    // Of an example the count is in the note, or beside the condition's if there is none; of another test the note says it.
    const counted = el("span", { class: "by buffer-words" });
    const said = note && el("span", { class: note.length < SHORT_NOTE ? "short" : null }, note, " ");
    const noted = note === "" ? "" : el("p", { class: "small note", id: this.editor.makeId("note") }, note === null ? "…" : [said, counted]);
    const [place, describe] = note === null ? [noted, describeInterleaved] : [counted, describeBuffered];
    if (this.language === "X86") setTimeout(() => this.noteInterleaved(place, report, describe));
    this.verdict.className = `verdicts ${kind}`;
    this.verdict.replaceChildren(
      guess.wasAsked(text) ? makeGuessWords(guessed, words.is_so, () => this.askAgain(), this.makeReason()) : "",
      el("p", { class: "verdict" }, el("span", { class: "sign", "aria-hidden": "true" }, SIGNS[kind]),
        el("span", {}, el("strong", {}, word), " ", el("span", { class: "in-words", title: words.bounds }, renderTintedSentence(sentence, tints)))),
      el("p", { class: "asked" }, renderTestName(text), el("code", { title: SIGNS_IN_WORDS }, renderCode(report.condition, tints, null)),
        el("span", { class: "count-words" }, ` ${describeCount(this.counted, this.hasWaiting ? ENDED : "")}`), " ",
        el("span", { class: "by", title: way }, el("span", { class: "long-by" }, "The list is "), `${by}.`),
        report.is_proved ? "" : [" ", el("span", { class: "by" }, "Its ticks are ", makePlainMark(), ".")], " ", note === "" ? counted : ""),
      noted && el("div", { class: "noted" }, noted, makeMoreButton(noted)),
    );
  }

  /**
   * Says in a place which states of a report of an x86 test interleaving gives, too, in words that `describe` returns; and marks the others in the
   * list.
   */
  async noteInterleaved(place, report, describe) {
    const fields = { text: this.editor.text, search: this.isSearched };
    const answer = place.isConnected && (await ask(this.editor, "interleaved", fields, { timeout: MAX_MILLISECONDS }));
    if (!answer || !place.isConnected) return;
    const all = report.left_out ? null : (answer.interleaved ?? null);
    const others = all && report.states.filter(({ line }) => !all.includes(line)).map(({ line }) => line);
    this.strip.markBuffered(others ?? []);
    const { counted } = this;
    const interleaved = all && this.hasWaiting ? all.filter((line) => counted.states.some((it) => it.line === line)) : all;
    const words = describe(counted, interleaved);
    place.replaceChildren(el("span", { class: "state-words", title: words.replaceAll("`", "") }, renderSentence(words)), " ", makePlainMark("this note"));
    markCut(place.closest(".note"));
    this.run.onDraw();
    const hints = await loadHints().catch(() => null);
    if (hints && this.report === report) this.strip.markUnwritten(fields.text, hints.findUnwritten(fields.text, report.states.map(({ line }) => line)));
  }

  /** Returns in a sentence which state shows the answer, with its run, or which is missing, with why; nothing if no single state shows it. */
  makeReason() {
    const missing = this.why && this.asked === null ? this.missing : null;
    const makeLinked = (words, line, text, act) => {
      const link = el("span", { class: "unbroken" }, "(", makeButton(text, () => act(line), { class: "link" }), ").");
      return [words, el("code", {}, line.replace(/;$/, "")), " ", link];
    };
    if (missing !== null) return makeLinked("No run ends in ", missing, "why not", this.why);
    return this.asked !== null && this.onWatch ? makeLinked("A run ends in ", this.asked, "watch it", this.onWatch) : [];
  }

  /** Returns the state whose run shows what the verdict says, or else that which comes closest, or the first; undefined if there is none. */
  get telling() {
    const { states } = this.counted;
    return states.find((it) => it.index === this.words.telling) ?? findClosest(states, this.missing) ?? states[0];
  }

  /**
   * Returns what is said of the run that an answer has, which is shown first: as `words` that no run ends as the test asks, or that it is an
   * interleaving, or null; and as `explain` what shows why no run ends so, or null.
   */
  describeOpening({ state: line, isOwn, isByTurns }) {
    const { report, missing } = this;
    const byTurns = isByTurns ? "This run is an interleaving: each store goes to memory at once." : null;
    if (report?.positive !== 0 || report.asked === "Required") return { words: byTurns, explain: null };
    const count = (it) => countDifferences(it, missing);
    const isClosest = missing !== null && count(line) === count(findClosest(this.counted.states, missing).line);
    const shown = isClosest ? "comes closest" : isOwn ? "is the test's example" : "ends in the first state";
    return { words: `No run ends as asked: this one ${shown}.`, explain: missing !== null && this.why ? () => this.why(missing) : null };
  }

  /** Returns the line of a state that the condition asks about, or null if no run ends in one or states are not marked. */
  get asked() {
    return this.telling && this.words.telling !== null ? this.telling.line : null;
  }

  /** Plays the run to a state that the reader chooses. */
  choose(line) {
    return this.watch(line, { play: true });
  }

  /**
   * Shows a run to a state: the one that the test has of its own if that ends there, unless `isOwn` is false; of a test that has none a run by
   * interleaving, if one ends there. With no state it is the own run, or else that to the state which shows what the verdict says.
   */
  async watch(state, { isOwn = true, ...how }) {
    const own = isOwn ? this.ownOf(this.editor.text) : null;
    const otherwise = this.telling?.line ?? null;
    if (!state && !otherwise) return this.run.clear();
    if (state) this.uncover(state);
    if (state || own === null) this.strip.select(state ?? otherwise);
    const opening = state ? null : (answer) => this.describeOpening(answer);
    const isByTurns = isOwn && own === null;
    await this.run.show(own === null ? (state ?? otherwise) : state, { own, otherwise, opening, search: this.isSearched, isByTurns, ...how });
    if (this.run.isOpen && !this.run.isByHand && this.report) this.strip.select(this.run.goal);
    return null;
  }

  /** Marks the states of the list that another list has not, given their lines; or none, if the two are not compared. */
  mark(lines) {
    if (this.report) this.strip.mark(lines);
  }

  /** Returns the words on the whole list, and the list as lw prints it; a long list is saved as a file. */
  makePrinted() {
    const { report, words } = this;
    if (!report) return [];
    const list = report.states.length > MAX_PRINTED ? [] : [el("pre", {}, formatReport(report))];
    const first = "The first line says what the test asks (`Allowed` for `exists`, `Forbidden` for `~exists`, `Required` for `forall`)";
    const sentences = [`${first}, and the last line the answer.`, words.bounds].map((it) => el("p", { class: "small" }, renderSentence(it)));
    return [...sentences, ...list, makeButton("Save the list as a file", () => saveReport(report))];
  }

  // By hand.

  /** Begins a run by hand: the reader looks for the states, and the list shows those that are found. */
  beginByHand(link = {}) {
    this.isByHand = true;
    if (!this.report) return null;
    if (this.countFound() < this.counted.number && this.isKeptBack(true)) this.veil();
    this.showList();
    this.strip.select(null);
    this.showFound();
    return this.run.begin(link);
  }

  /** Shows all states again. */
  endByHand() {
    if (!this.isByHand) return;
    this.isByHand = false;
    if (!this.report) return;
    this.showAll();
    this.watch(null, { step: "telling" });
  }

  /** Shows the verdict and all states. */
  showAll() {
    this.unveil();
    this.showNotes();
    this.showList();
    this.strip.hide(null);
  }

  /** Takes note of the state in which a run by hand has ended. */
  reach(line, program) {
    if (!this.report) return;
    const key = makeStateKey(line);
    const state = this.findState(key);
    if (!state) return this.showOther(line, program);
    const isNew = !this.found.has(key);
    this.found.add(key);
    if (!this.isByHand) this.uncover(state.line);
    this.strip.select(state.line);
    if (!this.isByHand) return;
    this.showFound(isNew, isNew && this.decides(state), !this.counted.states.includes(state));
    this.showList();
  }

  /** Returns whether one run to a state decides what the condition asks: it ends in one that shows the verdict. */
  decides({ holds }) {
    const { report, words } = this;
    return words.telling !== null && holds === report.states.find((it) => it.index === words.telling).holds;
  }

  /** Returns whether the condition holds in a state of the list, or null if the list has no such state or no marks. */
  findTruth(line) {
    return this.report ? (this.findState(makeStateKey(line))?.holds ?? null) : null;
  }

  /** Returns the state of the list with a key, by a table that is made once for each list. */
  findState(key) {
    if (this.tableOf !== this.report) {
      this.tableOf = this.report;
      this.byKey = new Map(this.report.states.map((it) => [makeStateKey(it.line), it]));
    }
    return this.byKey.get(key);
  }

  /**
   * Returns the line of the list that says the same as a line, whatever the order of its names; null if there is none, and the line itself if not all
   * are known.
   */
  findListedLine(line) {
    return this.report.left_out ? line : (this.findState(makeStateKey(line))?.line ?? null);
  }

  /** Says that a run has ended in a state that is not in the list, as a run of a program without its fences may. */
  showOther(line, program) {
    if (this.report.left_out) return;
    const why = program === "bare" ? " Without its fences the program ends in it too." : "";
    this.list.replaceChildren(el("p", { class: "found" }, el("b", {}, "Not in the list: "), el("code", {}, line), why));
  }

  /** Returns how many of the states that are counted are found by hand. */
  countFound() {
    return this.counted.states.filter(({ line }) => this.found.has(makeStateKey(line))).length;
  }

  /**
   * Shows the number of states that are found by hand; and the verdict after all of them, or after a run that `decides` it. If the last one
   * `isWaiting`, a wait has not ended in it.
   */
  showFound(isNew = false, decides = false, isWaiting = false) {
    const { number } = this.counted;
    const count = this.countFound();
    const isAll = count === number;
    if (isAll || decides) this.unveil();
    const decided = decides ? " This run decides the question." : "";
    const more = isAll ? " These are all: no run ends otherwise." : isNew ? " Start again with |◀ and look for another." : "";
    const which = this.hasWaiting ? ENDED : "";
    const counted = this.isVeiled ? `States${which} found so far: ${count}.` : `Found ${count} of ${number} state${number === 1 ? "" : "s"}${which}.`;
    const words = [el("b", {}, counted), isWaiting ? " This run's is none of them." : ""];
    this.list.replaceChildren(el("p", { class: `found${isNew ? " new" : ""}`, role: "status" }, words, decided, more));
  }
}
