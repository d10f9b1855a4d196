// Describes a step of a run: what its event has done, and at the end the state in which the run has ended.

import { el, makeButton } from "./dom.js";
import { caches, hasStepped } from "./preferences.js";
import { renderTintedSentence } from "./tint.js";

const LOCKED = "This is the machine before the run. What do you expect?";
const BEGIN = "Nothing has happened yet.";
const BEGIN_OF_X86 = "Click an instruction to carry it out; then an entry of a store buffer, to let it go to memory.";
const BEGIN_OF_SOURCE = "Click a statement to carry it out: the threads take turns.";
const HINT_OF_X86 =
  "Click a framed instruction to carry it out, or the lowest entry of a store buffer to let it go to memory: from any step, in any order.";
const START = "Start here: ";
const START_BY_KEYS = "→ or Step goes one step on, |◀ to the beginning. Or click a framed ";
const HINT_OF_SOURCE = "Click a framed statement to carry it out: from any step, in any order.";
const LETTERS_OF_MESI =
  "Cache lines: M modified (memory's own word is old), E exclusive, S shared, I invalid (not held). Click one to give it up.";
const LETTERS_OF_MOESI =
  "Cache lines: M modified, O owned (both: memory's own word is old), E exclusive, S shared, I invalid (not held). Click one to give it up.";
const KEYS_OF_X86 =
  "By keys: 0 to 3 carry out the next instruction of that thread, with Shift its oldest entry drains; ← and → go back and forward.";
const KEYS_OF_SOURCE = "By keys: 0 to 3 carry out the next statement of that thread; ← and → go back and forward.";

/**
 * Returns what is said below the machine: to a reader who has not gone a step yet, where to start, and otherwise what can be clicked.
 * @param {Run} run
 * @returns {(Node | string)[]}
 */
export function describeWays(run) {
  const isFirst = !hasStepped.isOn && !run.isByHand && !caches.isOn;
  const clicked = run.slots.some(Boolean) ? "instruction, or a buffer's lowest entry." : "statement.";
  return isFirst ? [el("b", {}, START), START_BY_KEYS, clicked] : [describeClicks(run)];
}

/**
 * Returns a sentence that says what can be clicked; of a run by hand, where the sentence on its start says that, which keys do the same. If cache
 * lines are shown, it says what their letters mean.
 */
function describeClicks({ slots, isByHand, isX86: hasCaches, protocol }) {
  if (caches.isOn && hasCaches) return protocol === "moesi" ? LETTERS_OF_MOESI : LETTERS_OF_MESI;
  const isX86 = slots.some(Boolean);
  if (isByHand) return isX86 ? KEYS_OF_X86 : KEYS_OF_SOURCE;
  return isX86 ? HINT_OF_X86 : HINT_OF_SOURCE;
}

/**
 * Returns the sentence on the step that a run is at.
 * @param {Run} run
 * @returns {Node[]}
 */
export function describeStep(run) {
  const { effect } = run.frame;
  const number = describeNumber(run);
  const step = number && el("span", { class: "number-of-step" }, number, " ");
  const done = effect ? renderTintedSentence(`${run.names(describeEffect(effect), effect.thread)}.`, run.tints) : [describeBegin(run)];
  return [step, ...done, ...describeEnd(run), run.isOpening ? describeOpening(run) : null].filter(Boolean);
}

/** Returns the stores that wait in some threads, at most two, in words such as `: P0's x=1 and P1's y=1`; "" if there are more. */
function listWaiting(threads) {
  const waiting = threads.flatMap(({ buffer = [] }, thread) => (buffer.length ? [`P${thread}'s ${buffer.map((it) => it.join("=")).join(" and ")}`] : []));
  const count = threads.flatMap((it) => it.buffer ?? []).length;
  if (count > 2) return "";
  return `: ${count > waiting.length ? waiting.join("; ") : waiting.join(", ").replace(/, (?=[^,]*$)/, " and ")}`;
}

/**
 * Returns which run is shown first, with a button that explains why no run ends as asked, or why it opens at a step in its middle; null if it opens at
 * its start.
 */
function describeOpening({ opening, step, frame }) {
  const count = frame.state.threads.reduce((sum, it) => sum + (it.buffer?.length ?? 0), 0);
  const waits = `${count === 1 ? "A store waits" : `${count} stores wait`}${listWaiting(frame.state.threads)}.`;
  const words = opening?.words ?? (step ? waits : null);
  const why = opening?.explain ? [" ", makeButton("Why not?", opening.explain, { class: "link" })] : [];
  return words && el("span", { class: "opening" }, " ", words, ...why);
}

/** Returns the number of the step; of a run by hand its length only if events follow, and nothing before the first event. */
function describeNumber({ isLocked, isByHand, step, events }) {
  if (isLocked || (isByHand && events.length === 0)) return "";
  return isByHand && step === events.length ? `Step ${step}:` : `Step ${step} of ${events.length}:`;
}

/** Returns the words at the start of a run. */
function describeBegin({ isLocked, isByHand, events, frame }) {
  if (isLocked) return LOCKED;
  if (!isByHand || events.length) return BEGIN;
  return frame.state.threads[0].buffer ? BEGIN_OF_X86 : BEGIN_OF_SOURCE;
}

/** Returns the effect of an event in words. The words name memory, or the cache that has the word if the reader looks at cache lines. */
function describeEffect({ thread, words, cache }) {
  if (cache === undefined || !caches.isOn) return words;
  const owner = cache === thread ? "its own" : `P${cache}'s`;
  return words.replace(/ (from|for) memory/, (_, way) => ` ${way} ${owner} cache`);
}

/**
 * Returns the words that say that the run has ended, in which state, and whether the condition holds there: as the list says, or otherwise as the
 * page finds it. If the list shows the state, it is not named. There are no words if the run has not ended.
 */
function describeEnd({ frame, isByHand, ending, goal, isLinked, editor, truthOf }) {
  if (frame.state.end.kind !== "Final") return [];
  const line = isByHand ? ending?.line : goal;
  const state = line && !isLinked && editor.isAlone ? [" in ", el("code", {}, line)] : [];
  const holds = (line && truthOf(line)) ?? ending?.holds ?? null;
  const verdict = holds === null ? ["."] : [holds ? ". The condition holds." : ". The condition does not hold."];
  return [" ", el("strong", {}, "The run has ended"), ...state, ...verdict];
}

/**
 * Returns why an instruction or a label of a thread, which is not its next one, can't be carried out. `next` is the cell of the next instruction,
 * if there is one, and `buffer` the store buffer; a source test has none.
 * @param {string} thread
 * @param {string} text
 * @param {Cell | undefined} next
 * @param {[string, number][] | undefined} buffer
 * @returns {string}
 */
export function explainNotNext(thread, text, next, buffer) {
  if (text.endsWith(":")) return `\`${text}\` is a label, to which jumps go: there is nothing to carry out.`;
  const why = next && !next.text.endsWith(":") ? `its next ${buffer ? "instruction" : "statement"} is \`${next.text}\`` : "it is at its end";
  return `P${thread} can't carry out \`${text}\` now: ${why}.`;
}

/**
 * Returns why an entry of a store buffer that is not the oldest can't leave it.
 * @param {string} thread
 * @param {[string, number]} entry
 * @param {[string, number]} oldest
 * @returns {string}
 */
export function explainNotOldest(thread, entry, oldest) {
  return `P${thread}'s \`${entry.join("=")}\` can't leave the store buffer now: the buffer is a queue, and \`${oldest.join("=")}\` goes first.`;
}
