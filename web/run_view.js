// Shows a run: the row that plays it, the sentence on its step, the machine, and the graph of its events.

import { isScrolled, measureCut, measureHiddenHeight, measureSpareHeight } from "./code_window.js";
import { el, findById, makeButton, makePlainMark } from "./dom.js";
import { showGraph } from "./execution_graph.js";
import { computeLeastHeight, listUsedRegisters } from "./machine_size.js";
import { isStill } from "./motion.js";
import { Player } from "./player.js";
import { markCut, setRoom } from "./placing.js";
import { caches, hasStepped, largeType } from "./preferences.js";
import { listVariables } from "./register_names.js";
import { parseRegister } from "./replays.js";
import { RunMenu } from "./run_menu.js";
import { describeStep, describeWays } from "./run_words.js";
import { Stage } from "./stage.js";
import { makeThreadClass, renderTintedSentence } from "./tint.js";
import { explainRefusal } from "./errors.js";

export const PROTOCOLS = ["mesi", "moesi"];
// The forms of a source test that can be run by hand, and those that are listed, with a description of each.
const BY_HAND = [["test", "the source, by interleaving"], ["compiled", "the compiled program"], ["bare", "that without its fences"]];
const LISTED = [
  ["source", "Source", "The source by interleaving: the threads take turns on one memory"],
  ["x86", "Compiled to x86", "The compiled program, with its fences, on the x86-TSO machine"],
];
// The part of a graph that has to be in sight if it counts as seen, or the part of the window that it fills; and how often that is checked.
const SEEN = 0.9;
const LOOKS = 20;
// How a machine may be drawn, by its classes, the best first: as large as the window allows; if its code has no room then, with the store buffer
// beside the code; below notes that are folded and a list of fewer rows; in smaller type, with low lines and entries, with lines close to each other,
// and in fine type, unless the reader wants large type; and if a part of it is out of sight even so, below a condition that is cut to one line.
const TERSE = [
  "", "beside", "small", "beside small", "small low", "beside small low", "beside small low close", "fine small", "fine small low", "fine small low close",
  "small low cramped", "beside small low cramped", "beside small low close cramped", "fine small low close cramped",
];
const WAYS = ["", "beside", ...TERSE.map((it) => `terse ${it}`)];
const KINDS = [...new Set(WAYS.join(" ").split(" "))].filter(Boolean);
// More lines than any code has, for a machine that is out of sight in part.
const OUT_OF_SIGHT = 10000;
// The largest number of steps of a run whose sentences are measured.
const MAX_MEASURED = 100;
const LOCKED = "First say what you expect: then the machine runs.";
const OF_COMPILED = "This is the compiled run: ";
const NO_GRAPH = "Only a run of an x86 program has a graph. ";

/** The parts of the page that show a run. */
export class RunView {
  /** Makes the parts. `graphPlace` is where the graph is drawn, if it is apart from the machine; then it is drawn from the beginning. */
  constructor(run, graphPlace) {
    Object.assign(this, { run, hasGraph: graphPlace !== null, isGraphAside: graphPlace !== null });
    const id = (name) => run.editor.makeId(name);
    this.stage = new Stage({
      act: (event) => run.take(event),
      refuse: (event, refused) => this.refuse(explainRefusal(event, refused)),
      explain: (words) => run.isByHand && (run.isLocked ? this.showLocked() : this.refuse(words)),
      fence: (...fence) => run.onFence(...fence),
    });
    this.graph = graphPlace ?? el("div", { class: "graph-place", role: "status" });
    this.graphSwitch = makeButton("Graph", () => this.chooseGraph(), { class: "draw-execution", id: id("graph-switch") });
    this.seeGraph(false);
    const threshold = Array.from({ length: LOOKS + 1 }, (_, look) => look / LOOKS);
    new IntersectionObserver((all) => this.seeGraph(isInSight(all.at(-1))), { threshold }).observe(this.graph);
    this.menu = new RunMenu(run);
    const more = el("span", { class: "more" }, this.graphSwitch, this.menu.place);
    this.player = new Player(id, { go: (step) => run.go(step), isSeen: () => run.isSeen(), more });
    this.words = el("p", { class: "step", role: "status" });
    this.choice = el("div", { class: "choice" });
    this.hint = el("p", { class: "hint" });
    // A hint that has no room is not shown at all.
    new ResizeObserver(() => this.hint.classList.toggle("cut", this.hint.scrollHeight > this.hint.clientHeight + 2)).observe(this.hint);
    this.place = el("section", { class: "run", "aria-label": "A run, step by step", tabindex: "-1" });
  }

  /** Removes the machine and the graph. */
  clear() {
    this.player.stop();
    this.graph.replaceChildren();
    this.place.replaceChildren();
  }

  /** Shows the parts of a run that stay the same from step to step. */
  layOut() {
    const { run } = this;
    const goal = run.isByHand ? [] : ["to ", el("code", {}, run.goal)];
    const title = run.of.length ? [el("p", { class: "of" }, "A run ", run.of, goal)] : [];
    this.choice.replaceChildren(...[this.makeProgramChoice(), this.makeProtocolChoice()].filter(Boolean));
    this.choice.hidden = !this.choice.childElementCount;
    this.showHint();
    const head = el("div", { class: "run-head" }, this.player.place, el("div", { class: "step-row" }, this.words, this.choice));
    const body = el("div", { class: "body" }, this.stage.place, this.isGraphAside ? null : this.graph);
    this.place.replaceChildren(...title, head, body, this.hint);
    this.place.classList.toggle("locked", run.isLocked);
    this.place.classList.toggle("with-graph", this.hasGraph && !this.isGraphAside);
    if (this.hasGraph && !run.isLocked) this.drawGraph();
  }

  /** Says where to start, or what can be clicked. */
  showHint() {
    this.hint.replaceChildren(...describeWays(this.run));
  }

  /** Returns the choice of which program of a source test runs. */
  makeProgramChoice() {
    const { run } = this;
    if (!run.isSource) return null;
    const isPlain = run.program === "bare" || run.program === "source";
    const mark = isPlain ? [" ", makePlainMark()] : null;
    if (!run.isByHand) return el("span", { class: "row", role: "group", "aria-label": "What runs" }, this.makeListedChoice(), mark);
    const options = BY_HAND.map(([value, text]) => el("option", { value, selected: value === run.program }, text));
    const select = el("select", { id: run.editor.makeId("hand-runs"), change: (event) => run.chooseProgram(event.target.value) }, options);
    return el("label", {}, el("span", { class: "what-runs" }, "What runs "), select, mark);
  }

  /** Returns buttons that choose which of the two listed runs is shown: of the source and of its compiled program. */
  makeListedChoice() {
    const { run } = this;
    if (!run.listed.films.source) return el("span", { class: "small" }, "The run is that of the compiled program.");
    return LISTED.map(([program, text, title]) => {
      const id = run.editor.makeId(`run-${program}`);
      const choose = () => {
        run.chooseProgram(program);
        findById(id)?.focus({ preventScroll: true });
      };
      return makeButton(text, choose, { id, title, "aria-pressed": String(program === run.program) });
    });
  }

  /** Returns the choice of the protocol of caches; null if there are none. */
  makeProtocolChoice() {
    const { run } = this;
    if (!caches.isOn || !run.isX86) return null;
    const options = PROTOCOLS.map((it) => el("option", { value: it, selected: it === run.protocol }, it.toUpperCase()));
    const select = el("select", { id: run.editor.makeId("protocol"), change: (event) => run.chooseProtocol(event.target.value) }, options);
    return el("label", {}, "Caches keep ", select);
  }

  /** Shows the step that the run is at; `direction` is 1 if it is one step forward, -1 if it is one back, and 0 for a jump. */
  draw(direction) {
    const { run } = this;
    const places = listPlaces(run);
    const shown = { ...makeShown(run, places), direction };
    if (!direction) this.spare = 0;
    this.setLeast(computeLeastHeight(shown) - this.spare);
    this.stage.forgetMoves();
    this.stage.draw(shown);
    this.player.show(run.events, run.step, { isOpen: run.isByHand, places });
    this.showStep();
    if (direction) this.keepRoom();
    else this.fit();
    if (!direction || hasStepped.isOn) return;
    hasStepped.set(true);
    this.showHint();
  }

  /** Says how high the threads' boxes are at least, in letters of the page's size. */
  setLeast(height) {
    for (const it of [this.place, this.place.parentElement]) it?.style.setProperty("--least", String(height));
  }

  /**
   * Fits the machine into its room. The sentence has the room of the highest one of the run, unless a part of the machine, or what letters of cache
   * lines mean, is out of sight then.
   */
  fit() {
    this.reserveRoom();
    if (this.chooseWay() >= OUT_OF_SIGHT || (caches.isOn && this.hint.scrollHeight > this.hint.clientHeight + 2)) {
      this.words.parentElement.style.minHeight = "";
      this.chooseWay();
    }
    markCut(findById("outcome").querySelector(".note"));
    this.stage.fit();
  }

  /**
   * Draws the machine in the first way in which it is in sight with all of its code, or else with the most of it; and if it is cut in any way, beside a text
   * that is narrower, if less of it is cut then. Returns how much of it is cut, as `drawIn` does.
   */
  chooseWay() {
    const least = computeLeastHeight(this.stage.shown);
    if (this.run.editor.isAlone && this.slimFor !== this.run.text) findById("test").classList.remove("slim");
    let [best, fewest] = ["", Infinity];
    const ways = WAYS.filter((it) => !largeType.isOn || !it.includes("fine"));
    for (const way of isScrolled(this.stage.place) ? ways : [""]) {
      if (!fewest || (fewest < OUT_OF_SIGHT && way.includes("cramped"))) break;
      const cut = this.drawIn(way, least);
      // Fine type is of no use if a part is out of sight.
      const isWorse = way.includes("fine") && isOutOfSight(this.stage.place);
      if (cut < fewest && !isWorse) [best, fewest] = [way, cut];
    }
    if (fewest) this.drawIn(best, least);
    if (!fewest || !this.run.editor.isAlone || this.slimFor === this.run.text) return fewest;
    // A wide text of the reader's own leaves the machine the width in which it is whole; that of an example is whole itself.
    this.slimFor = this.run.text;
    if (!findById("example-shows").textContent) return fewest;
    findById("test").classList.add("slim");
    const slimmer = this.chooseWay();
    if (slimmer < fewest) return slimmer;
    findById("test").classList.remove("slim");
    return this.chooseWay();
  }

  /** Fits the machine again after the room for it has changed: if a part of it is cut, or in any case. */
  refit(isAnyway = false) {
    const { place, shown } = this.stage;
    if (this.run.isOpen && shown && (isAnyway || measureCut(place) || isOutOfSight(place))) this.fit();
  }

  /**
   * Draws the machine in a way. If it would be out of sight, its boxes become lower by what they have to spare. Returns how much of it is cut: lines
   * of code, and far more if a part of the machine is out of sight.
   */
  drawIn(way, least) {
    const { place } = this.stage;
    const letter = parseFloat(getComputedStyle(document.documentElement).fontSize);
    for (const kind of KINDS) place.classList.toggle(kind, way.includes(kind));
    this.stage.size();
    setRoom();
    this.setLeast(least);
    this.spare = measureSpareHeight(place) / letter;
    this.setLeast(least - this.spare);
    return measureCut(place) + (isOutOfSight(place) ? OUT_OF_SIGHT : 0);
  }

  /** Says what the step has done. */
  showStep() {
    const { effect } = this.run.frame;
    this.words.className = effect ? `step ${makeThreadClass(effect.thread)}` : "step";
    this.words.replaceChildren(...describeStep(this.run));
  }

  /** Gives the row of the sentence the height that it needs at any known step of the run, so that the machine stays where it is. */
  reserveRoom() {
    const { run, words } = this;
    const row = words.parentElement;
    if (!run.editor.isAlone) return;
    const describeStepAt = (step) => describeStep(Object.create(run, { step: { value: step }, isOpening: { value: run.isOpening && step === run.step } }));
    const probes = run.frames.slice(0, MAX_MEASURED).map((_, step) => el("p", { class: "step" }, describeStepAt(step)));
    const box = el("div", { class: "probe" }, probes.filter(Boolean));
    box.style.width = `${words.offsetWidth}px`;
    row.style.minHeight = "";
    row.append(box);
    const missing = Math.max(...[...box.children, words].map((it) => it.offsetHeight)) - words.offsetHeight;
    box.remove();
    row.style.minHeight = `${row.offsetHeight + missing}px`;
  }

  /** Lets the row of the sentence become no lower. */
  keepRoom() {
    const row = this.words.parentElement;
    row.style.minHeight = `${row.offsetHeight}px`;
  }

  /** Says why what is clicked can't be carried out. */
  refuse(why) {
    this.words.className = "step refusal";
    this.words.replaceChildren(...renderTintedSentence(why, this.run.tints));
  }

  /** Says that the reader has to predict first. */
  showLocked() {
    this.words.replaceChildren(LOCKED);
  }

  /** Takes note that the graph is in sight, or not any more: its button is lit if it is, and is no switch while it only leads to a graph out of sight. */
  seeGraph(isSeen) {
    const isDrawn = this.hasGraph && this.graph.childElementCount > 0 && this.graph.getClientRects().length > 0;
    Object.assign(this, { isSeen, isGraphSeen: isSeen && isDrawn });
    const isFar = isDrawn && !isSeen;
    this.graphSwitch.classList.toggle("far", isFar);
    this.graphSwitch.title = isFar ? "Go to the graph of the run (g)" : "The run as a graph of events (g)";
    if (isFar) this.graphSwitch.removeAttribute("aria-pressed");
    else this.graphSwitch.setAttribute("aria-pressed", String(this.isGraphSeen));
  }

  /** Shows the graph; one that is drawn out of sight comes into sight, and one in sight goes. On a projector it may take the place of the machine. */
  async chooseGraph() {
    const { classList, dataset } = document.documentElement;
    if (this.hasGraph && classList.contains("present") && /none|only/.test(dataset.graph)) {
      classList.toggle("graph-only");
      return this.run.onDraw();
    }
    if (this.hasGraph && this.isGraphSeen) return this.setGraph(false);
    this.graph.classList.add("wanted");
    if (!this.hasGraph) await this.setGraph(true);
    return this.graph.scrollIntoView({ block: "nearest", behavior: isStill() ? "auto" : "smooth" });
  }

  /** Shows or hides the graph of the run. */
  async setGraph(isOn) {
    this.hasGraph = isOn;
    if (!isOn) this.seeGraph(false);
    this.place.classList.toggle("with-graph", isOn && !this.isGraphAside);
    this.graph.replaceChildren();
    if (isOn) await this.drawGraph();
    this.run.onDraw();
  }

  /** Draws the graph of the run, and takes note whether it is in sight. */
  async drawGraph() {
    await this.fillGraph();
    this.seeGraph(this.isSeen);
  }

  /** Draws the graph of the run; of a listed source run that of the compiled program's. Of one by hand it says that there is none. */
  async fillGraph() {
    const { run } = this;
    const { isX86, isByHand, editor, tints } = run;
    this.graph.classList.toggle("of-compiled", !isX86);
    if (isX86) return showGraph(editor, run.text, run.events.join(" "), this.graph, tints);
    const makeLead = (words, text, program) => [words, makeButton(text, () => run.chooseProgram(program), { class: "link to-compiled" }), ". "];
    if (isByHand) return this.graph.replaceChildren(el("p", { class: "small" }, makeLead(NO_GRAPH, "Run the compiled program by hand", "compiled")));
    const { films, schedule } = run.listed;
    return showGraph(editor, films.x86.text, schedule, this.graph, tints, makeLead(OF_COMPILED, "watch it", "x86"));
  }
}

/** Returns whether a part of a machine is out of sight. */
function isOutOfSight(machine) {
  return measureHiddenHeight(machine) >= 2;
}

/** Returns whether an element is in sight, given what its observer reports: nearly all of it, or as much as the window has room for. */
function isInSight({ intersectionRect, intersectionRatio }) {
  return intersectionRatio >= SEEN || intersectionRect.height >= (SEEN - 0.1) * innerHeight;
}

/** Returns, for each event of a run, the place of its instruction, as far as it is known; a drain has that of its store. */
function listPlaces({ events, frames, cells }) {
  const stores = cells.map(() => []);
  return events.map((event, index) => {
    const thread = Number(event[1]);
    if (event[0] === "D") return stores[thread].shift() ?? null;
    const before = frames[index]?.state ?? frames[index + 1]?.before;
    if (event[0] !== "P" || !before) return null;
    const place = `${thread}:${before.threads[thread].at}`;
    if ((frames[index + 1]?.state.threads[thread].buffer?.length ?? 0) > (before.threads[thread].buffer?.length ?? 0)) stores[thread].push(place);
    return place;
  });
}

/**
 * Returns the data of the machine's drawing: the registers that are used in the whole run, how many entries have left each buffer, and more. `places`
 * has the places of the run's events.
 */
function makeShown(run, places) {
  const { cells, frame, frames, tints, slots, step, events, isByHand } = run;
  const known = isByHand ? [frame.state, frame.before] : frames.flatMap((it) => [it.state, it.before]);
  const used = cells.map((_, thread) => listUsedRegisters(cells, known, thread));
  const drained = cells.map((_, thread) => events.slice(0, step).filter((it) => it === `D${thread}`).length);
  const variables = listVariables(run.asked);
  const inVariable = variables.size ? (name, thread) => variables.get(`${thread}:${name}`) : null;
  // A compiled program's registers have the numbers of the source's.
  const inSource = run.isSource && run.isX86 ? (name) => `r${parseRegister(name)}` : inVariable;
  const done = events.slice(0, step).map((event, index) => event[0] === "P" && (places[index] ?? event[1]));
  const isSkipped = (thread, at) => !done.includes(String(thread)) && !done.includes(`${thread}:${at}`);
  const isWritten = (thread, name) => !frame.written || frame.written[thread].includes(name);
  const hasFences = run.isX86 && !run.isSource && !run.isLocked && run.isOfEditor;
  return { ...frame, cells, tints, slots, used, drained, inSource, isWritten, isSkipped, hasFences, event: step ? events[step - 1] : null };
}
