// A run, event by event: one that is listed to a state, or one that the reader makes. Both are a schedule with a place in it. A reader who
// carries out another event than the next of the schedule leaves the schedule there, and the rest of the run is the reader's own. Each
// state is a replay by lw.

import * as address from "./address.js";
import { ask } from "./ask.js";
import { makeLabeller } from "./labels.js";
import { isStill } from "./motion.js";
import { caches, largeType } from "./preferences.js";
import { parseSchedule } from "./replays.js";
import { PROTOCOLS, RunView } from "./run_view.js";
import { findTints } from "./tint.js";
import { explainRefusal, showError } from "./errors.js";

const PROGRAMS = ["test", "compiled", "bare"];
// How long a step is shown before it is asked what can be done there, and how many answers are kept.
const LEARN = 150;
const MAX_KEPT = 1000;
// The elements in which keys mean something else, and those in which arrows do.
const WRITTEN_IN = "textarea, select, input:not([type=checkbox], [type=range]), dialog";
const HAS_ARROWS = "[role=tab], [role=listbox]";
const PRESSED = "button, input, summary, a, label";

// For each editor the run that is shown.
const shown = new WeakMap();

/** Returns the step at which most stores wait, since there is the most to see. */
function findTellingStep(frames) {
  const waiting = frames.map(({ state }) => state.threads.reduce((sum, it) => sum + (it.buffer?.length ?? 0), 0));
  return Math.max(0, waiting.indexOf(Math.max(...waiting)));
}

/** Returns for each thread the registers into which events have put words: those before the last event, and the one that its effect names. */
function addWritten(before, effect) {
  const register = effect?.register;
  return before.map((names, thread) => (register !== undefined && thread === effect.thread ? [...new Set([...names, register])] : names));
}

/** Returns the protocol of a name; if there is none, `mesi`. */
const findProtocol = (name) => (PROTOCOLS.includes(name) ? name : "mesi");

/** A run that is shown event by event. */
export class Run {
  /**
   * Makes a place for a run. `onEnd` is called with the line of a state in which a run by hand has ended, `onDraw` when another run is shown,
   * `onStep` when it is at another step, `onFence` when a fence is put into the test or taken out. `truthOf` says of the line of a state whether the
   * condition holds there, or null if the list does not say.
   */
  constructor(editor, { isLinked = true, graphPlace = null, ...called } = {}) {
    const nothing = () => null;
    Object.assign(this, { editor, onEnd: nothing, onDraw: nothing, onStep: nothing, onFence: nothing, truthOf: nothing, ...called });
    Object.assign(this, { isLinked: isLinked && editor.isAlone, isOpen: false, isLocked: false, protocol: "mesi" });
    // `kept` has answers by their schedules; `queue` ends when all clicked events are carried out; an answer is dropped if `ticket` has changed meanwhile.
    Object.assign(this, { kept: new Map(), queue: Promise.resolve(), ticket: 0 });
    this.view = new RunView(this, graphPlace);
    this.place = this.view.place;
    document.addEventListener("keydown", (event) => this.handleKey(event));
    for (const it of [caches, largeType]) it.onChange(() => this.isOpen && this.redraw());
  }

  /** Removes the run. */
  clear() {
    this.ticket += 1;
    this.isOpen = false;
    this.step = null;
    this.kept.clear();
    this.view.clear();
    this.onStep();
  }

  // The run.

  /**
   * Shows the run that is listed to a state; of a source test that of the source, unless `run` is "x86" or it is not known. `step` is a number or
   * "telling"; `of` says of which text the run is, if it is not that in the editor; `search` says that the list was made by a search. `own` is a
   * schedule that the test has of its own, or null: that run is shown if it ends in the state, or if `state` is null, and otherwise the run that is
   * listed to the state, or to `otherwise`; with `isByTurns` it is one of an x86 test by interleaving, if there is one. `opening` returns what is said of the
   * run at first, given the answer that has it, as `words` or null, and what explains it or null.
   */
  async show(state, { step = 0, run = null, protocol = this.protocol, text = this.editor.text, of = [], play = false, ...how } = {}) {
    const { search = false, own = null, otherwise = null, opening = null, isByTurns = false } = how;
    const ticket = this.prepare(protocol, false);
    const fields = { text, state, own, otherwise, protocol: this.protocol, search, isByTurns };
    const answer = await ask(this.editor, "film", fields, { place: this.isOpen ? null : this.place });
    if (!answer || ticket !== this.ticket) return;
    if (!answer.films) return this.fail(answer);
    Object.assign(this, { listed: answer, of, asked: text, goal: answer.state, isSearched: search, own });
    this.opening = opening?.(answer) ?? null;
    this.openListed(run === "x86" || !answer.films.source ? "x86" : "source");
    await this.go(step);
    if (play && !isStill()) this.view.player.play();
  }

  /** Opens the listed film of a program, `source` or `x86`. */
  openListed(program) {
    const film = this.listed.films[program];
    const frames = film.states.map((state, index) => ({ state, before: film.states[Math.max(index - 1, 0)], effect: film.effects[index - 1] ?? null }));
    for (const [at, it] of frames.entries()) it.written = addWritten(frames[at - 1]?.written ?? film.cells.map(() => []), it.effect);
    Object.assign(this, { isByHand: false, program, isX86: program === "x86", isSource: "source" in this.listed.films });
    this.open(film.text, film.cells, film.events, frames);
  }

  /**
   * Begins a run by hand, or goes to where the schedule of a link leads. One that is locked shows its start only: the reader has still to
   * predict. `of` says of which `text` it is, if that is not the text in the editor.
   */
  async begin({ schedule = "", run = "test", protocol = this.protocol }, { isLocked = false, text = this.editor.text, of = [] } = {}) {
    const ticket = this.prepare(protocol, isLocked);
    const program = PROGRAMS.includes(run) ? run : "test";
    const texts = program === "test" ? { test: text } : await ask(this.editor, "compile", { text });
    if (!texts || ticket !== this.ticket) return;
    if (!texts[program]) return this.fail(texts);
    const answer = await this.askWhere(texts[program], schedule);
    if (!answer || ticket !== this.ticket) return;
    if (!answer.moves) return this.fail(answer);
    const isSource = (texts.language ?? answer.language) === "SRC";
    const isX86 = answer.language === "X86";
    Object.assign(this, { listed: null, of, asked: text, isByHand: true, program, isSource, isX86 });
    this.open(texts[program], answer.cells, parseSchedule(schedule), []);
    this.keep(schedule, Promise.resolve(answer));
    this.frames[this.events.length] = answer;
    await this.go(this.events.length);
  }

  /** Prepares for another run. Of the test in an editor one run is shown at a time. Returns the number of what is asked for next. */
  prepare(protocol, isLocked) {
    if (shown.get(this.editor) !== this) shown.get(this.editor)?.clear();
    shown.set(this.editor, this);
    this.view.player.stop();
    clearTimeout(this.learning);
    Object.assign(this, { isLocked, protocol: findProtocol(protocol) });
    this.ticket += 1;
    return this.ticket;
  }

  /** Says why there is no run. */
  fail(answer) {
    this.isOpen = false;
    this.view.clear();
    showError(answer, this.place, this.editor);
  }

  /** Shows the parts of a run. `frames` has what is known of each step: its state, the state before, and the effect of its event. */
  open(text, cells, events, frames) {
    if (text !== this.text) this.kept.clear();
    const names = makeLabeller(this.asked);
    Object.assign(this, { text, events, frames, names, step: null, ending: null, isOpen: true, tints: findTints(this.asked) });
    this.cells = cells.map((column, thread) => column.map((it) => ({ ...it, text: names(it.text, thread) })));
    this.slots = cells.map((column) => column.filter(({ text: code }) => /^(?:\w+: *)*MOV \[/.test(code)).length);
    this.view.menu.reset();
    this.view.player.begin();
    this.view.layOut();
    this.onDraw();
  }

  /** Runs another program of a source test: by hand from its start, and a listed run anew. */
  chooseProgram(program) {
    if (this.isByHand) return this.begin({ run: program }, { text: this.asked, of: this.of });
    this.openListed(program);
    return this.go(program === "x86" ? "telling" : 0);
  }

  /** Returns whether the run is of the test in an editor that can be changed. */
  get isOfEditor() {
    return this.isLinked && !this.of.length && this.asked === this.editor.text;
  }

  /** Returns whether the run is another one than lw lists to its state: one that the example has of its own, or one by interleaving. */
  get isOther() {
    return !this.isByHand && Boolean(this.listed?.isOwn ?? this.listed?.isByTurns);
  }

  /** Shows from its start the run that lw lists to the same state. */
  chooseListed() {
    const { program, protocol, asked: text, of, isSearched: search } = this;
    return this.show(this.goal, { run: program, protocol, text, of, search });
  }

  /** Runs the same over caches of another protocol. */
  chooseProtocol(protocol) {
    const { step, program, asked: text, of, isSearched: search, own } = this;
    if (this.isByHand) return this.begin({ schedule: this.formatScheduleTo(step), run: program, protocol }, { text, of });
    return this.show(this.goal, { step, run: program, protocol, text, of, search, own, isByTurns: Boolean(this.listed?.isByTurns) });
  }

  /** Goes to the state that a schedule reaches. Returns the answer that says why there is none, or null. */
  async follow(schedule) {
    const answer = await this.askWhere(this.text, schedule);
    if (!answer) return null;
    if (!answer.moves) return answer;
    this.events = parseSchedule(schedule);
    this.frames = [];
    this.frames[this.events.length] = answer;
    this.leaveSchedule();
    await this.go(this.events.length);
    return null;
  }

  /** Returns the answer on the state that a schedule reaches, and on the events that are possible there. */
  askWhere(text, schedule) {
    return ask(this.editor, "moves", { text, schedule, protocol: this.protocol, whole: true }, { name: "where a schedule leads" });
  }

  // The step of the run.

  /** Returns what is known of the present step. */
  get frame() {
    return this.frames[this.step];
  }

  /** Returns the schedule up to a step. */
  formatScheduleTo(step) {
    return this.events.slice(0, step).join(" ");
  }

  /** Shows a step. What moves from one step to the next is animated. */
  async go(wanted) {
    const last = this.events.length;
    const step = wanted === "telling" ? findTellingStep(this.frames) : Math.max(0, Math.min(Math.floor(Number(wanted) || 0), last));
    this.ticket += 1;
    const { ticket } = this;
    if (!this.frames[step]) {
      const answer = await this.findMoves(step);
      if (!answer?.state || ticket !== this.ticket) return;
      this.frames[step] = { ...answer, written: answer.written ?? this.listWrittenAt(step, answer.effect) };
    }
    const direction = this.step === null || Math.abs(step - this.step) !== 1 ? 0 : step - this.step;
    Object.assign(this, { step, ending: null, isOpening: wanted === "telling" });
    this.view.draw(direction);
    this.onStep();
    this.putAddress();
    clearTimeout(this.learning);
    const isKnown = this.kept.has(this.makeKey(this.formatScheduleTo(step)));
    if (!this.view.player.timer) this.learning = setTimeout(() => this.learn(ticket), isKnown ? 0 : LEARN);
  }

  /** Returns the registers that events have put words into up to a step whose event has an effect, or null if that is not known. */
  listWrittenAt(step, effect) {
    const before = this.frames[step - 1]?.written;
    return before ? addWritten(before, effect) : null;
  }

  /** Shows the same step again, after a choice has changed how it is shown. */
  redraw() {
    const focused = document.activeElement;
    this.view.layOut();
    this.view.draw(0);
    this.learn(this.ticket);
    if (focused && !focused.isConnected) this.view.player.forward.focus({ preventScroll: true });
  }

  // The possible events.

  /** Returns the key under which the answer on a schedule is kept. */
  makeKey(schedule) {
    return `${this.protocol} ${schedule}`;
  }

  /** Keeps the answer on a schedule, or its promise. */
  keep(schedule, answer) {
    if (this.kept.size > MAX_KEPT) this.kept.clear();
    this.kept.set(this.makeKey(schedule), answer);
  }

  /** Returns the possible events after a number of events: each event, with its cause if it is refused. */
  findMoves(step) {
    const schedule = this.formatScheduleTo(step);
    const key = this.makeKey(schedule);
    if (!this.kept.has(key)) {
      const whole = !this.frames[step]?.written && !this.frames[step - 1]?.written;
      const answering = ask(this.editor, "moves", { text: this.text, schedule, protocol: this.protocol, whole }).then((answer) => {
        if (!answer?.moves) this.kept.delete(key);
        return answer;
      });
      this.keep(schedule, answering);
    }
    return this.kept.get(key);
  }

  /** Learns what can be done at the step, and in which state a run by hand has ended. */
  async learn(ticket) {
    if (!this.isOpen) return;
    const answer = await this.findMoves(this.step);
    if (!answer?.moves || ticket !== this.ticket || !this.isOpen) return;
    this.view.stage.allow(answer.moves);
    if (answer.state.end.kind !== "Final") return;
    this.ending = answer.ending;
    this.view.showStep();
    if (this.isByHand && this.view.hasGraph) this.view.drawGraph();
    if (answer.ending && this.isByHand) this.onEnd(answer.ending.line, this.program);
  }

  /** Carries out an event, if it can be done when its turn comes. Events that are clicked fast are carried out in sequence. */
  take(event) {
    if (this.isLocked) {
      this.view.showLocked();
      return null;
    }
    this.view.player.stop();
    this.queue = this.queue.then(() => this.takeNow(event)).catch(() => null);
    return this.queue;
  }

  /** Carries out an event, or says why it is refused. */
  async takeNow(event) {
    if (!this.isOpen) return;
    clearTimeout(this.learning);
    const answer = await this.findMoves(this.step);
    const move = answer?.moves?.find((it) => it.event === event);
    if (!move || !this.isOpen) return;
    if (move.refused) return this.view.refuse(explainRefusal(event, move.refused));
    this.view.player.touch();
    if (this.events[this.step] !== event) {
      this.events = [...this.events.slice(0, this.step), event];
      this.frames.length = this.step + 1;
      this.leaveSchedule();
    }
    await this.go(this.step + 1);
  }

  /** Makes the rest of the run the reader's own. */
  leaveSchedule() {
    if (this.isByHand) return;
    Object.assign(this, { isByHand: true, program: this.isSource && this.program === "x86" ? "compiled" : "test" });
    this.view.layOut();
    this.onDraw();
  }

  // The address and the keys.

  /** Writes the run and its step into the address. */
  putAddress() {
    if (!this.isLinked || this.isLocked || !this.isSeen()) return;
    const protocol = this.protocol === "mesi" ? null : this.protocol;
    const usual = this.isByHand ? "test" : this.isSource ? "source" : "x86";
    const run = this.program === usual ? null : this.program;
    const byHand = { view: "hand", schedule: this.formatScheduleTo(this.step), state: null, own: null, step: null };
    const listed = { view: "states", state: this.goal, own: this.isOther ? "1" : null, step: this.step, schedule: null };
    address.put({ ...(this.isByHand ? byHand : listed), run, protocol });
  }

  /** Returns whether the run is displayed, on a page that is in front. */
  isSeen() {
    return !document.hidden && this.place.getClientRects().length > 0;
  }

  /** Steps by keys, if they mean nothing else: arrows, and what presenters send. Digits carry out an instruction, with Shift they drain; g is the graph. */
  handleKey(event) {
    if (!this.isOpen || !this.isSeen() || !this.editor.hasKeys || event.altKey || event.ctrlKey || event.metaKey) return;
    const { key, target } = event;
    if (target.closest(WRITTEN_IN)) return;
    const [last, forward, back] = [this.events.length, this.step + 1, this.step - 1];
    const steps = { ArrowRight: forward, PageDown: forward, " ": forward, ArrowLeft: back, PageUp: back, Home: 0, End: last };
    const digit = /^Digit([0-3])$/.exec(event.code)?.[1];
    if (digit !== undefined && Number(digit) < this.cells.length) this.take(`${event.shiftKey ? "D" : "P"}${digit}`);
    else if (target.closest(HAS_ARROWS) || (key === " " && target.closest(PRESSED))) return;
    else if (key in steps) this.view.player.jump(steps[key]);
    else if (key === "g") this.view.chooseGraph();
    else return;
    event.preventDefault();
  }
}
