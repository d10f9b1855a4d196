// Says in words what each event of a run does, and what a picture highlights: the register that it sets, and the location, or the entry of
// its thread's store buffer, that it reads. An effect is found by the text of the instruction, which is lw's own, or of the statement; and
// stated only if the state after the event agrees with it.
//
// An `Effect` has a `thread`; `words`, in which code is between backquotes; and, if the event has one, a `register` (its name), a
// `location` that is read from memory, or an `entry` that is read (its index in the buffer). If a word that is said to be in memory is in
// a cache, `cache` is the thread of that cache.

import { WORD } from "./token_reader.js";

// Why an event is refused, by the number of its cause: the sentences of docs/FORMAT.md.
const REFUSALS = {
  1: "there is no such thread",
  2: "there is no such location",
  3: "the thread is at its end",
  4: "`MFENCE` waits for the processor's store buffer to be empty",
  5: "`XCHG` or `LOCK XADD` waits for the processor's store buffer to be empty",
  6: "there is no entry to drain",
  7: "the cache does not hold the line",
  8: "there was no memory for a store buffer's entry",
};

/**
 * Returns why an event is refused, in words without backquotes; `number` is that of its cause.
 * @param {number} number
 * @returns {string}
 */
export function describeRefusal(number) {
  return REFUSALS[number].replaceAll("`", "");
}

/**
 * Returns the effect of an event, given the states before and after it.
 * @param {string} event
 * @param {Cell[][]} cells
 * @param {State} before
 * @param {State} after
 * @returns {Effect}
 */
export function describeEvent(event, cells, before, after) {
  const thread = Number(event[1]);
  return { thread, ...describeThreadEvent(event, thread, cells, before, after) };
}

/**
 * Returns the effect of an event of a thread, by the states before and after it.
 * @param {string} event
 * @param {number} thread
 * @param {Cell[][]} cells
 * @param {State} before
 * @param {State} after
 * @returns {Effect}
 */
function describeThreadEvent(event, thread, cells, before, after) {
  if (event[0] === "D") return describeDrain(thread, before, after);
  if (event[0] === "E") return { words: `P${thread}'s cache gives up its line of \`${event.slice(3)}\`` };
  const cell = cells[thread].find((it) => it.at === before.threads[thread].at && !it.text.endsWith(":"))?.text ?? "";
  return describeStatement(new Step(thread, before, after), cell.replace(/^(?:\w+: *)+/, "")) ?? { words: `P${thread} carries out \`${cell}\`` };
}

/** A step of a thread: the words that it finds and leaves. */
class Step {
  constructor(thread, before, after) {
    Object.assign(this, { thread, before, after, threadBefore: before.threads[thread] });
    this.registers = new Map(this.threadBefore.registers);
    this.threadAfter = after.threads[thread];
    this.name = `P${thread}`;
  }

  /**
   * Returns the word of a number, with a `$` before it or without, or of a register.
   * @param {string} text
   * @returns {number}
   */
  parseValue(text) {
    return this.registers.get(text) ?? Number(text.replace("$", ""));
  }

  /**
   * Returns whether the step leaves a word in a register.
   * @param {string} register
   * @param {number} word
   * @returns {boolean}
   */
  leaves(register, word) {
    return new Map(this.threadAfter.registers).get(register) === word;
  }

  /**
   * Returns the word of memory at a location, as a load finds it.
   * @param {string} location
   * @param {State} [state]
   * @returns {number}
   */
  findWord(location, state = this.before) {
    return new Map(state.content).get(location);
  }

  /** Returns the property `cache`: the cache that has the word of a location, its own if that holds the line, otherwise the owner's. Empty if none has. */
  describeCache(location) {
    const letters = this.before.threads.map(({ lines }) => new Map(lines).get(location) ?? "I");
    const owner = letters.findIndex((it) => it === "M" || it === "O");
    return letters[this.thread] !== "I" ? { cache: this.thread } : owner < 0 ? {} : { cache: owner };
  }

  /** Returns the index of the newest entry of a location in the own store buffer, or -1. */
  findNewestEntry(location) {
    return (this.threadBefore.buffer ?? []).map(([name]) => name).lastIndexOf(location);
  }

  /** Returns the words on the entries for a location that wait in the buffers of other threads, to follow a sentence; empty if there are none. */
  describeWaiting(location) {
    const entries = this.before.threads.flatMap(({ buffer }, thread) =>
      thread === this.thread ? [] : (buffer ?? []).filter(([name]) => name === location).map(([, word]) => ({ thread, word })),
    );
    return entries.map(({ thread, word }) => `; P${thread}'s \`${location}=${word}\` still waits in its store buffer`).join("");
  }
}

// The forms of instructions and statements, each with what it does.
const FORMS = [
  [/^MOV \[(\w+)\],(\S+)$/, describeStore],
  [/^MOV (\w+),\[(\w+)\]$/, describeLoad],
  [/^MOV (\w+),(\S+)$/, (step, register, value) => describeWordAssignment(step, register, step.parseValue(value))],
  [/^ADD (\w+),(\S+)$/, describeAdd],
  [/^CMP (\w+),(\S+)$/, describeCompare],
  [/^MFENCE$/, (step) => ({ words: `${step.name} passes its fence, since its store buffer is empty` })],
  [/^J\w+ (L\d+)$/, describeJump],
  [/^XCHG \[(\w+)\],(\w+)$/, (step, location, register) => describeWordExchange(step, register, location, step.parseValue(register))],
  [/^LOCK XADD \[(\w+)\],(\w+)$/, (step, location, register) => describeFetchAndAdd(step, register, location, register)],
  [/^(r\d) := swap (\w+) (\w+)$/, (step, register, location, value) => describeWordExchange(step, register, location, step.parseValue(value))],
  [/^(r\d) := fetchadd (\w+) (\w+)$/, describeFetchAndAdd],
  [/^(r\d) := (r\d) \+ (\w+)$/, (step, register, left, value) => describeWordAssignment(step, register, (step.parseValue(left) + step.parseValue(value)) % WORD)],
  [/^(r\d) := (\d\w*|r\d)$/, (step, register, value) => describeWordAssignment(step, register, step.parseValue(value))],
  [/^(r\d) := (\w+)$/, describeLoad],
  [/^(\w+) := (\w+)$/, describeStore],
  [/^if (r\d) (!?=) (\w+) goto (\w+)$/, describeConditionalJump],
  [/^goto (\w+)$/, (step, label) => ({ words: `${step.name} goes to \`${label}\`` })],
];

/**
 * Returns the effect of a statement, or null if it is not known.
 * @param {Step} step
 * @param {string} text
 * @returns {Effect | null}
 */
function describeStatement(step, text) {
  for (const [form, effect] of FORMS) {
    const parts = form.exec(text);
    if (parts) return effect(step, ...parts.slice(1));
  }
  return null;
}

/**
 * Returns the effect of a store of a value to a location, or null.
 * @param {Step} step
 * @param {string} location
 * @param {string} value
 * @returns {Effect | null}
 */
function describeStore(step, location, value) {
  const word = step.parseValue(value);
  const [name, stored] = step.threadAfter.buffer ? (step.threadAfter.buffer.at(-1) ?? []) : [location, step.findWord(location, step.after)];
  if (name !== location || stored !== word) return null;
  const [does, where] = step.threadAfter.buffer ? ["puts", "into its store buffer"] : ["writes", "to memory"];
  return { words: `${step.name} ${does} \`${location}=${word}\` ${where}` };
}

/**
 * Returns the effect of a load of a location into a register, or null.
 * @param {Step} step
 * @param {string} register
 * @param {string} location
 * @returns {Effect | null}
 */
function describeLoad(step, register, location) {
  const entry = step.findNewestEntry(location);
  const word = entry < 0 ? step.findWord(location) : step.threadBefore.buffer[entry][1];
  if (!step.leaves(register, word)) return null;
  const read = `${step.name} reads \`${location}=${word}\``;
  if (entry >= 0) return { words: `${read} from its own store buffer into \`${register}\``, register, entry };
  return { words: `${read} from memory into \`${register}\`${step.describeWaiting(location)}`, register, location, ...step.describeCache(location) };
}

/** Returns the effect of a step that sets a register, or null. */
function describeWordAssignment(step, register, word) {
  return step.leaves(register, word) ? { words: `${step.name} sets \`${register}=${word}\``, register } : null;
}

/**
 * Returns the effect of ADD, or null.
 * @param {Step} step
 * @param {string} register
 * @param {string} value
 * @returns {Effect | null}
 */
function describeAdd(step, register, value) {
  const word = (step.parseValue(register) + step.parseValue(value)) % WORD;
  if (!step.leaves(register, word)) return null;
  return { words: `${step.name} adds ${step.parseValue(value)}, which makes \`${register}=${word}\``, register };
}

/**
 * Returns the effect of CMP.
 * @param {Step} step
 * @param {string} register
 * @param {string} value
 * @returns {Effect}
 */
function describeCompare(step, register, value) {
  const [one, other] = [step.parseValue(register), step.parseValue(value)];
  const result = one === other ? "are equal" : "differ";
  return { words: `${step.name} compares \`${register}=${one}\` with ${other}: they ${result}` };
}

/** Returns the effect of a jump. The number in its label is the position of its target. */
function describeJump(step, label) {
  const jumps = step.threadAfter.at === Number(label.slice(1));
  return { words: jumps ? `${step.name} jumps to \`${label}\`` : `${step.name} does not jump` };
}

/** Returns the effect of `if r = n goto L`, or of one with `!=`; or null. */
function describeConditionalJump(step, register, sign, number, label) {
  const word = step.parseValue(register);
  const jumps = (word === Number(number)) === (sign === "=");
  if (!jumps && step.threadAfter.at !== step.threadBefore.at + 1) return null;
  return { words: `${step.name} ${jumps ? `goes to \`${label}\`` : "does not jump"}, since \`${register}=${word}\`` };
}

/** Returns the effect of a step that reads a location into a register and writes a word to it, with nothing between; or null. */
function describeWordExchange(step, register, location, word) {
  const old = step.findWord(location);
  if (!step.leaves(register, old) || step.findWord(location, step.after) !== word) return null;
  const read = `${step.name} reads \`${location}=${old}\` from memory into \`${register}\``;
  return { words: `${read} and writes \`${location}=${word}\` in one step${step.describeWaiting(location)}`, register, location, ...step.describeCache(location) };
}

/** Returns the effect of a step that adds a value to a location and reads the old word into a register, or null. */
function describeFetchAndAdd(step, register, location, value) {
  return describeWordExchange(step, register, location, (step.findWord(location) + step.parseValue(value)) % WORD);
}

/** Returns the effect of a drain: the oldest entry of a store buffer leaves it. */
function describeDrain(thread, before, after) {
  const [location, word] = before.threads[thread].buffer[0];
  const isThere = new Map(after.content).get(location) === word;
  return { words: `P${thread}'s \`${location}=${word}\` leaves its store buffer${isThere ? " for memory" : ""}`, cache: thread };
}
