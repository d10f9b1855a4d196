// Draws the machine: the code, the registers and the store buffer of each thread, a queue whose oldest entry is nearest to memory; and
// memory, below all. The next instruction and the oldest entry are buttons: a click carries out the event. One state is drawn at a time; from
// one to the next a word moves from its old place to its new one.

import { fitCodes, showNext, watchCodes } from "./code_window.js";
import { el } from "./dom.js";
import { goToFence, makeFenceButton } from "./fence_buttons.js";
import { listFlights } from "./flights.js";
import { MAX_SLOTS, hasLongStores, isStacked, listSizeClasses } from "./machine_size.js";
import { fly, glow, isStill, measurePlaces, settle } from "./motion.js";
import { caches } from "./preferences.js";
import { makeVariable } from "./register_names.js";
import { explainNotNext, explainNotOldest } from "./run_words.js";
import { makeThreadClass, renderCode } from "./tint.js";

const WAITING = "Stores wait here, the oldest first, until they go to memory. Only their own thread reads them.";

// Causes that need no words: no event is left.
const NOTHING_LEFT = ["Ended", "BufferEmpty", "NotHeld"];
// The meanings of the letters of cache lines.
const LETTERS = { M: "modified", O: "owned", E: "exclusive", S: "shared", I: "invalid, not held" };

/** The machine. */
export class Stage {
  /**
   * Makes an empty machine. It calls `act` with the event that is clicked, `refuse` with an event that can't be carried out, and why, `explain` with
   * why an instruction or an entry that is clicked is no event now, and `fence` with a thread, the number of its instruction before which a fence is
   * put, or of the fence that is taken out, and whether it is put.
   */
  constructor({ act, refuse, explain, fence }) {
    Object.assign(this, { act, refuse, explain, fence, moves: new Map() });
    this.place = el("div", { class: "machine", keydown: (event) => goToFence(event), click: (event) => this.clickOther(event.target) });
    watchCodes(this.place);
  }

  /**
   * Draws a state. `shown` has the `cells`, the `state` and that `before` it, the `event` between them with its `effect`, which registers
   * are `used`, the `tints`, how many entries have left each buffer (`drained`), and `direction`: 1 for a step forward, -1 back, 0 for a jump.
   * `isWritten` says of a thread and the name of a register whether an event has put a word into it, `isSkipped` of a thread and the index of an earlier
   * instruction whether a jump has passed over it, and `hasFences` whether fences can be put.
   */
  draw(shown) {
    const { event: focused = null, fence = null } = this.place.contains(document.activeElement) ? document.activeElement.dataset : {};
    const was = measurePlaces(this.place);
    const before = this.shown;
    this.shown = shown;
    const threads = shown.state.threads.map((it, thread) => this.makeThread(it, thread));
    this.place.style.setProperty("--threads", String(threads.length));
    this.size();
    this.place.replaceChildren(el("div", { class: "threads" }, threads), this.makeMemory());
    this.mark();
    showNext(this.place);
    if (focused) (this.find(`[data-event="${CSS.escape(focused)}"]`) ?? this.find("[data-event]"))?.focus();
    if (fence) this.find(`[data-fence="${fence}"]`)?.focus({ preventScroll: true });
    if (shown.direction && before && !isStill()) this.move(was, shown.direction > 0 ? shown : before, shown.direction);
  }

  /** Chooses the size in which the machine is drawn; one that is `small` is not drawn large, whatever the window. */
  size() {
    const isSmall = this.place.classList.contains("small");
    for (const [kind, is] of Object.entries(listSizeClasses(this.shown))) this.place.classList.toggle(kind, is && !(kind === "roomy" && isSmall));
  }

  /** Fits the code into the room that there is, once all that is above the machine is shown. */
  fit() {
    fitCodes(this.place);
    showNext(this.place);
  }

  /** Returns the first element of the machine that a selector finds. */
  find(css) {
    return this.place.querySelector(css);
  }

  // The possible events.

  /** Shows what can be done, given the moves that the machine itself answers. */
  allow(moves) {
    this.moves = new Map(moves.map((it) => [it.event, it]));
    this.mark();
    showNext(this.place);
  }

  /** Forgets what can be done: until the machine has answered nothing is refused, and a click waits for its answer. */
  forgetMoves() {
    this.moves = new Map();
  }

  /** Marks the events that are refused now. */
  mark() {
    const findRefusal = (event) => this.moves.get(event)?.refused ?? null;
    const hasWords = (refused) => refused !== null && !NOTHING_LEFT.includes(refused.cause);
    for (const button of this.place.querySelectorAll("button[data-event]")) {
      const refused = findRefusal(button.dataset.event);
      button.setAttribute("aria-disabled", String(refused !== null));
      button.classList.toggle("refused", hasWords(refused));
    }
    for (const [thread, it] of [...this.place.querySelectorAll(".waits")].entries()) {
      it.textContent = hasWords(findRefusal(`P${thread}`)) ? "waits for its buffer" : "";
    }
  }

  /** Returns the button of an event, which says why the event is refused if it is. */
  makeEventButton(event, label, attributes, ...inner) {
    const clicked = () => {
      const refused = this.moves.get(event)?.refused;
      if (refused) this.refuse(event, refused);
      else this.act(event);
    };
    return el("button", { type: "button", "data-event": event, "aria-label": label, click: clicked, ...attributes }, ...inner);
  }

  /** Says why an instruction or an entry that is no button can't be carried out now, after a click that selects no text. */
  clickOther(target) {
    const thing = target.closest("span[data-key]");
    if (!thing || !getSelection().isCollapsed) return;
    const [kind, thread, at] = thing.dataset.key.split(":");
    const { state, cells, drained } = this.shown;
    const { at: place, buffer } = state.threads[thread];
    const entry = buffer?.[at - drained[thread]];
    const next = cells[thread].findLast((it) => it.at === place);
    this.explain(kind === "b" ? explainNotOldest(thread, entry, buffer[0]) : explainNotNext(thread, thing.textContent, next, buffer));
  }

  // A thread.

  /** Returns a thread: its code, its registers and its store buffer. */
  makeThread(state, thread) {
    const registers = this.listRegisters(state, thread);
    const stacked = isStacked(this.shown, registers.length) ? ` stacked${hasLongStores(this.shown.cells) ? " long" : ""}` : "";
    const below = [this.makeRegisterList(registers, thread), state.buffer ? this.makeBuffer(state.buffer, thread) : null];
    return el(
      "section",
      { class: `thread ${makeThreadClass(thread)}`, "aria-label": `Thread ${thread}` },
      el("h3", {}, el("span", { class: "badge-thread" }, `P${thread}`), " ", el("span", { class: "lines-in-sight" })),
      this.makeCode(state, thread),
      el("p", { class: "waits" }),
      el("div", { class: `below${stacked}` }, below),
      caches.isOn && state.lines ? this.makeLines(state.lines, thread) : null,
    );
  }

  /** Returns the code of a thread, in which the next instruction is marked. */
  makeCode(state, thread) {
    const cells = this.shown.cells[thread];
    const isEnd = cells.every((it) => it.at < state.at || it.text.endsWith(":"));
    const end = el("li", { class: isEnd ? "end reached" : "end" }, el("span", { class: "line" }, isEnd ? "at its end" : "end"));
    const fences = this.shown.hasFences ? cells.map((it) => makeFenceButton(it, cells, thread, this.fence)) : [];
    const first = fences.find(Boolean);
    if (first) first.tabIndex = 0;
    return el("ol", { class: "code", "aria-label": "code" }, cells.map((it, index) => this.makeLine(it, state, thread, fences[index])), end);
  }

  /** Returns a line of code; the next instruction is a button. */
  makeLine(cell, state, thread, fence = null) {
    const { tints, effect, event, before, cells, isSkipped } = this.shown;
    const isLabel = cell.text.endsWith(":");
    const isNext = cell.at === state.at && !isLabel;
    // The label of the end has been reached with the end.
    const isBehind = cell.at < state.at || (isLabel && cell.at === state.at && cell === cells[thread].at(-1));
    const skipped = isBehind && !isLabel && isSkipped(thread, cell.at);
    const isDone = event?.[0] === "P" && effect?.thread === thread && cell.at === before.threads[thread].at && !isLabel;
    const kinds = [isNext ? "next" : isBehind && "behind", isDone && "done", skipped && "skipped"];
    const key = `${thread}:${cell.at}`;
    const attributes = { class: "line", "data-key": `c:${key}${isLabel ? "l" : ""}`, "data-at": isLabel ? null : key };
    const text = renderCode(cell.text, tints, thread);
    const label = `P${thread}: carry out ${cell.text}`;
    const line = isNext ? this.makeEventButton(`P${thread}`, label, attributes, text) : el("span", attributes, text);
    const marks = { "aria-current": isNext ? "step" : null, title: skipped ? "A jump has passed over it." : null };
    return el("li", { class: kinds.filter(Boolean).join(" "), ...marks }, line, makeHiddenWords(skipped && "skipped"), fence);
  }

  /** Returns the registers of a thread that are shown, with their words. */
  listRegisters(state, thread) {
    return state.registers.filter(([name]) => this.shown.used[thread].has(name));
  }

  /** Returns the registers of a thread, in which changes are marked. */
  makeRegisterList(registers, thread) {
    const { before, effect } = this.shown;
    const old = new Map(before.threads[thread].registers);
    const rows = registers.map(([name, word]) => {
      const isPut = word !== old.get(name) || (effect?.thread === thread && effect.register === name);
      const isInitial = !isPut && !this.shown.isWritten(thread, name);
      const attributes = { class: `register${isPut ? " changed" : ""}${isInitial ? " initial" : ""}`, "data-key": `r:${thread}:${name}` };
      const inSource = makeVariable(this.shown.inSource?.(name, thread));
      const initial = isInitial && el("span", { class: "at-first", title: "its initial value: no instruction has written it yet" }, " initial");
      return el("li", attributes, el("span", { class: "name" }, name), inSource, " ", makeValue(word), initial, makeHiddenWords(isPut && "put"));
    });
    return el("ul", { class: "registers", "aria-label": "registers" }, rows);
  }

  /** Returns the queue: the newest entry on top, the oldest below, next to memory. */
  makeBuffer(entries, thread) {
    const slots = Math.max(Math.min(this.shown.slots[thread], MAX_SLOTS), entries.length, 1);
    const empty = Array.from({ length: slots - entries.length }, () => el("li", { class: "slot", "aria-hidden": "true" }));
    const full = entries.map((_, index) => el("li", {}, this.makeEntry(entries, index, thread))).reverse();
    const label = entries.length ? "store buffer, the oldest entry last" : "store buffer: empty";
    const caption = el("span", { class: "caption", title: WAITING }, el("span", { class: "long-word" }, "store "), "buffer");
    const kind = this.shown.slots[thread] ? "buffer" : "buffer without-stores";
    return el("div", { class: kind }, caption, el("ol", { "aria-label": label }, [...empty, ...full]));
  }

  /** Returns an entry of a store buffer; the oldest is a button. */
  makeEntry(entries, at, thread) {
    const { before, effect, tints, drained } = this.shown;
    const [name, word] = entries[at];
    const old = before.threads[thread].buffer ?? [];
    const isNew = entries.length > old.length && at === entries.length - 1;
    const isRead = effect?.thread === thread && effect.entry === at;
    const kind = `entry ${tints.findClass(name)}${isNew ? " changed" : ""}${isRead ? " read" : ""}`;
    const attributes = { class: kind, "data-key": `b:${thread}:${drained[thread] + at}` };
    const inner = [el("span", { class: "name" }, name), makeValue(word), makeHiddenWords(isRead && "read")];
    if (at > 0) return el("span", attributes, inner);
    const label = `P${thread}: the oldest entry, ${name}=${word}, leaves the store buffer for memory`;
    return this.makeEventButton(`D${thread}`, label, attributes, inner, el("span", { class: "drain", "aria-hidden": "true" }, "↓"));
  }

  /** Returns the lines of a thread's cache, each a button that gives it up. */
  makeLines(now, thread) {
    const old = new Map(this.shown.before.threads[thread].lines);
    const rows = now.map(([name, letter]) => {
      const kind = `cacheline ${this.shown.tints.findClass(name)}${old.get(name) !== letter ? " changed" : ""}${letter === "I" ? " invalid" : ""}`;
      const label = `P${thread}: the cache gives up its line of ${name}, which is ${letter}, ${LETTERS[letter]}`;
      const inner = [el("span", { class: "name" }, name), makeValue(letter)];
      const attributes = { class: kind, title: `${letter}: ${LETTERS[letter]}. Click to give it up.` };
      return el("li", {}, this.makeEventButton(`E${thread}:${name}`, label, attributes, inner));
    });
    return el("div", { class: "cache" }, el("span", { class: "caption" }, "cache lines"), el("ul", {}, rows));
  }

  // Memory.

  /** Returns the words of memory. */
  makeMemory() {
    const { state } = this.shown;
    const hasLines = caches.isOn && state.threads.some((it) => it.lines);
    const title = hasLines ? "Memory, as a load finds it beyond its own buffer; own: the words of memory itself" : "Memory";
    const words = state.content.map(([name, word]) => this.makeWord(name, word, hasLines));
    return el("section", { class: "memory", "aria-label": title }, el("h3", {}, hasLines ? "memory with caches" : "memory"), el("ul", {}, words));
  }

  /** Returns a word of memory, in which changes are marked. */
  makeWord(name, word, hasLines) {
    const { state, before, effect, tints } = this.shown;
    const findWord = (pairs) => new Map(pairs).get(name);
    const isNew = word !== findWord(before.content);
    const isRead = effect?.location === name;
    const kind = `word ${tints.findClass(name)}${isNew ? " changed" : ""}${isRead ? " read" : ""}`;
    const isOwnNew = findWord(state.memory) !== findWord(before.memory);
    const own = hasLines ? el("span", { class: `own${isOwnNew ? " changed" : ""}` }, ` own ${findWord(state.memory)}`) : null;
    const inner = [el("span", { class: "name" }, name), makeValue(word), own, makeHiddenWords((isNew && "changed") || (isRead && "read"))];
    return el("li", { class: kind, "data-key": `m:${name}` }, inner);
  }

  // Motion.

  /** Moves the words that the step between two states has moved, or back if `direction` is -1. `step` is the later of the two. */
  move(was, step, direction) {
    const findPlaced = (key) => this.find(`[data-key="${CSS.escape(key)}"]`);
    for (const it of this.place.querySelectorAll(".entry[data-key]")) if (was.has(it.dataset.key)) settle(it, was.get(it.dataset.key));
    for (const { from, to, word, kind } of listFlights(step)) {
      const [begin, end] = direction > 0 ? [from, to] : [to, from];
      const beginBox = was.get(begin) ?? findPlaced(begin)?.getBoundingClientRect();
      const endBox = findPlaced(end)?.getBoundingClientRect() ?? was.get(end);
      fly(this.place, beginBox, endBox, { word, kind, arrived: direction > 0 ? findPlaced(end)?.querySelector(".value") : null });
      if (direction > 0 && /^[mb]:/.test(from)) glow(findPlaced(from));
    }
  }
}

/** Returns the element of a word. */
function makeValue(word) {
  return el("span", { class: "value" }, String(word));
}

/** Returns words for readers who do not see colours. */
function makeHiddenWords(words) {
  return words ? el("span", { class: "hidden" }, ` ${words}`) : null;
}
