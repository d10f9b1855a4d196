// Finds the words that move in a step of a run, each from one place of the machine to another. Places have keys: `c:0:2` is the instruction 2 of
// thread 0, `b:0:1` the second entry that its buffer takes in the run, `r:0:EAX` a register of it, `m:x` a location of memory.
//
// `Shown` is what a machine is drawn from, as `makeShown` of run_view.js makes it. Of each thread `drained` has the number of entries that have left
// its buffer, this step's among them.

import { makeThreadClass } from "./tint.js";

/**
 * Returns the flights of a step, each `from` a key `to` a key, with its `word` and the `kind` that has its colour.
 * @param {Shown} step
 * @returns {{from: string, to: string, word: string, kind: string}[]}
 */
export function listFlights({ event, effect, state, before, drained, tints }) {
  if (!event || !effect) return [];
  const { thread } = effect;
  const [threadBefore, threadAfter] = [before.threads[thread], state.threads[thread]];
  const step = { effect, state, before, thread, threadBefore, threadAfter, drained: drained[thread], tints };
  if (event[0] === "D") return [makeDrainFlight(step)];
  return event[0] === "P" ? [...listStoreFlights(step), ...listLoadFlights(step), ...listMemoryFlights(step)] : [];
}

/** Returns the key of the instruction that a step carries out. */
const makeInstructionKey = ({ thread, threadBefore }) => `c:${thread}:${threadBefore.at}`;
/** Returns the name of a location with its word, as the machine shows them. */
const formatEquation = (name, word) => `${name}=${word}`;

/** Returns the flight of the oldest entry to memory. */
function makeDrainFlight({ thread, threadBefore, drained, tints }) {
  const [name, word] = threadBefore.buffer[0];
  return { from: `b:${thread}:${drained - 1}`, to: `m:${name}`, word: formatEquation(name, word), kind: tints.findClass(name) };
}

/** Returns the flight of the entry that a step puts into the buffer of its thread, in a list that is empty if it puts none. */
function listStoreFlights(step) {
  const { thread, threadBefore, threadAfter, drained, tints } = step;
  if (!threadAfter.buffer || threadAfter.buffer.length <= threadBefore.buffer.length) return [];
  const [name, word] = threadAfter.buffer.at(-1);
  const to = `b:${thread}:${drained + threadAfter.buffer.length - 1}`;
  return [{ from: makeInstructionKey(step), to, word: formatEquation(name, word), kind: tints.findClass(name) }];
}

/**
 * Returns the flight of a word to a register: from memory, from an entry of the own buffer, or from the instruction itself; in a list that is empty if
 * the step sets no register.
 */
function listLoadFlights(step) {
  const { thread, threadBefore, threadAfter, drained, tints, effect } = step;
  if (!effect.register) return [];
  const word = String(new Map(threadAfter.registers).get(effect.register));
  const to = `r:${thread}:${effect.register}`;
  if (effect.location !== undefined) return [{ from: `m:${effect.location}`, to, word, kind: tints.findClass(effect.location) }];
  if (effect.entry === undefined) return [{ from: makeInstructionKey(step), to, word, kind: makeThreadClass(thread) }];
  return [{ from: `b:${thread}:${drained + effect.entry}`, to, word, kind: tints.findClass(threadBefore.buffer[effect.entry][0]) }];
}

/** Returns the flights of words that change memory at once: of a locked instruction, or of a store of a source test, which has no buffers. */
function listMemoryFlights(step) {
  const before = new Map(step.before.content);
  const changed = step.state.content.filter(([name, word]) => before.get(name) !== word);
  const from = makeInstructionKey(step);
  return changed.map(([name, word]) => ({ from, to: `m:${name}`, word: formatEquation(name, word), kind: step.tints.findClass(name) }));
}
