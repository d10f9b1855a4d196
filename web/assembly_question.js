// Guesses what a test of assembly that asks nothing is about, and lists what its question does not name. Not proved.
//
// The records `Test` and `Statement` are those of tests.js and statements.js. What is known before a statement are the `values` of registers, each a
// { constant }, or a sum of a constant (`added`) and the word of a load, which has its `position`, its `location` and the number of writes of the location
// before it in its thread (`count`); the numbers of writes of locations so far (`counts`); and the positions that all runs have `passed`.

import { guessProposition } from "./guess_question.js";
import { REGISTERS, WORD } from "./token_reader.js";

// A register that is an operand.
const OPERAND = /(?<!\[|\(%|\w)%?[er]([abcd]x|[sd]i)\b/gi;
/** The name of a register. */
export const REGISTER = /^(?:[re]?(?:[abcd]x|[sd]i|[bs]p|ip)|r(?:[89]|1[0-5])[dwb]?)$/i;
// A location in an instruction, in brackets or relative to the next instruction.
const LOCATION = /\[\s*(?:rip\s*\+\s*|rel\s+)?(\w+)\s*\]|(?<![\w.$])([A-Za-z_]\w*)(?:\(%rip\)|\[rip\])/gi;

/**
 * Returns the locations in a line, each with whether it is before a comma (`isFirst`).
 * @param {string} line
 * @returns {{name: string, isFirst: boolean}[]}
 */
export function findLocations(line) {
  const found = [...line.matchAll(LOCATION)].map(({ 1: bare, 2: relative, index }) => ({ name: bare ?? relative, isFirst: line.indexOf(",") > index }));
  return found.filter((it) => !REGISTER.test(it.name));
}

/** Returns the locations in lines that are before a comma (`isFirst`), or those that are not. */
function listLocations(lines, isFirst) {
  return lines.flatMap(findLocations).filter((it) => it.isFirst === isFirst).map((it) => it.name);
}

/** Returns the locations that threads store, and whose last word no register shows: no thread loads them, or several store them. */
function listStoredLocations(threads, isAtt) {
  const stored = threads.map((it) => listLocations(it.filter((line) => /\b(?:mov|xchg|xadd|add|inc|dec|sub)/i.test(line)), !isAtt));
  const loaded = new Set(threads.flatMap((it) => listLocations(it, isAtt)));
  return [...new Set(stored.flat())].filter((name) => !loaded.has(name) || stored.filter((it) => it.includes(name)).length > 1);
}

/**
 * Returns the line before a question that lists what this does not name: registers, and the locations whose last word no register shows; all locations, if
 * there are no registers; "" if there is nothing to list. `isShown` says whether a register of a thread is listed, and `markers` are others.
 * @param {string[][]} threads
 * @param {boolean} isAtt
 * @param {string} question
 * @param {function(string): boolean} [isShown]
 * @param {string[]} [markers]
 * @returns {string}
 */
export function formatList(threads, isAtt, question, isShown = () => true, markers = []) {
  const operands = threads.flatMap((it, thread) => [...it.join("\n").matchAll(OPERAND)].map(([, register]) => `${thread}:E${register.toUpperCase()}`));
  const registers = operands.filter(isShown);
  const locations = registers.length ? listStoredLocations(threads, isAtt) : [true, false].flatMap((it) => listLocations(threads.flat(), it));
  const asked = new Set(question.match(/[\w:]+/g));
  const listed = [...new Set([...registers, ...locations, ...markers])].filter((it) => !asked.has(it));
  return listed.length ? `locations [${listed.map((it) => `${it};`).join(" ")}]\n` : "";
}

/** Returns the value of a register or a number before a statement. */
function getValue({ values }, { number, register }) {
  return number === undefined ? values.get(register) : { constant: number };
}

/** Returns the sum of two values, of which one is a constant; undefined if it is not known. */
function addValues(one, other) {
  const [by, value] = one?.constant === undefined ? [other?.constant, one] : [one.constant, other];
  if (by === undefined || !value) return undefined;
  return value.constant === undefined ? { ...value, added: (value.added + by) % WORD } : { constant: (value.constant + by) % WORD };
}

/** Returns the constant that the store of a value adds to a location, of which the thread has not stored after it loaded the value; null if it adds none. */
function findAdded(value, location, count) {
  return value?.location === location && value.count === count && value.added ? value.added : null;
}

/**
 * Changes what is known before a statement to what is known after it. Returns the access that it is: its `location`, whether it is a load (`isLoad`), the
 * constant that it adds (`added`) or null, and the position of the load whose word it stores (`from`) or undefined; null if it is no access.
 */
function applyStatement(state, { kind, register, location, value }, position) {
  const { values, counts } = state;
  const count = counts.get(location) ?? 0;
  const set = (it) => (it ? values.set(register, it) : values.delete(register));
  if (kind === "set") set(getValue(state, value));
  if (kind === "add") set(addValues(values.get(register), getValue(state, value)));
  if (kind === "load") {
    set({ position, location, added: 0, count });
    return { location, position, register, isLoad: true };
  }
  if (!["store", "xchg", "xadd"].includes(kind)) return null;
  const stored = kind === "store" ? getValue(state, value) : values.get(register);
  const from = kind === "store" && stored?.added === 0 ? stored.position : undefined;
  const added = kind === "store" ? findAdded(stored, location, count) : kind === "xadd" ? stored?.constant ?? null : null;
  counts.set(location, count + 1);
  // The old word is in the register, and is no part of a sum.
  if (kind !== "store") values.set(register, { position, location, added: 0, count: NaN });
  return { location, position, register, added, from, isLoad: false, isLocked: kind === "xadd" };
}

/** Returns what is known after two ways, on which different things are known. */
function joinKnown(one, other) {
  if (!one) return other;
  const isSame = (it, by) => JSON.stringify(it) === JSON.stringify(by);
  const locations = new Set([...one.counts.keys(), ...other.counts.keys()]);
  return {
    values: new Map([...one.values].filter(([register, it]) => isSame(it, other.values.get(register)))),
    // A count that differs is that of no load.
    counts: new Map([...locations].map((it) => [it, one.counts.get(it) === other.counts.get(it) ? one.counts.get(it) : NaN])),
    passed: new Set([...one.passed].filter((it) => other.passed.has(it))),
  };
}

/**
 * Returns the accesses of a thread that runs may make, each with whether all runs to the end make it (`isSure`), the `values` of registers at the end, and
 * whether a branch outside of loops follows a read (`isBranching`). If a line is in a loop (`looping`), the last statement marks the end, and a jump beyond
 * it leaves a loop.
 */
function followThread(statements, looping) {
  const end = looping.includes(true) ? statements.length - 1 : statements.length;
  const states = [{ values: new Map(), counts: new Map(), passed: new Set() }];
  const accesses = [];
  let isBranching = false;
  for (const [position, statement] of statements.slice(0, end).entries()) {
    if (!states[position]) continue;
    const { values, counts, passed } = states[position];
    const state = { values: new Map(values), counts: new Map(counts), passed: new Set([...passed, position]) };
    const access = applyStatement(state, statement, position);
    if (access) accesses.push(access);
    const { kind, target } = statement;
    isBranching ||= /^jn?e$/.test(kind) && !looping[position] && accesses.some((it) => it.isLoad || it.register !== undefined);
    const next = [target, kind === "jmp" ? undefined : position + 1].filter((it) => it <= end);
    for (const to of next) states[to] = joinKnown(states[to], state);
  }
  const { values, passed } = states[end] ?? states[0];
  return { accesses: accesses.map((it) => ({ ...it, isSure: passed.has(it.position), isInLoop: Boolean(looping[it.position]) })), values, isBranching };
}

/**
 * Returns the atoms of lost additions: of each location that several threads only add constants to, some of them by a load and a store, and that has another
 * word than their sum. If a loop loads it, there is none: the question leaves out runs that wait for an addition that is lost.
 */
function listLostAdditions({ locations, words }, threads) {
  const writes = threads.flatMap(({ accesses }, thread) => accesses.filter((it) => !it.isLoad).map((it) => ({ ...it, thread })));
  const awaited = new Set(threads.flatMap((it) => it.accesses.filter((access) => access.isInLoop).map((access) => access.location)));
  return locations.flatMap((name, location) => {
    const own = writes.filter((it) => it.location === location);
    const isAdding = own.every((it) => it.isSure && !it.isInLoop && it.added !== null) && own.some((it) => !it.isLocked);
    const isOfThreads = new Set(own.map((it) => it.thread)).size > 1;
    return isAdding && isOfThreads && !awaited.has(location) ? [`~${name}=${own.reduce((sum, it) => (sum + it.added) % WORD, words[location])}`] : [];
  });
}

/**
 * Returns the names of the locations of results by the positions of the loads of a thread whose words they have at the end: each run stores such a word
 * there, and no other instruction accesses the location.
 */
function findResults({ locations }, threads, thread) {
  const all = threads.flatMap((it) => it.accesses);
  const isResult = (it) => it.from !== undefined && it.isSure && !it.isInLoop && all.filter((other) => other.location === it.location).length === 1;
  return new Map(threads[thread].accesses.filter(isResult).map((it) => [it.from, locations[it.location]]));
}

/** Returns the sites of the registers of a thread that have the word of an access at the end, that of its own register first. */
function listSites({ values }, number, { position, register }, isShown) {
  const holding = [...values].filter(([, it]) => it.position === position && !it.added).map(([it]) => it);
  return holding.sort((it) => (it === register ? -1 : 1)).map((it) => `${number}:${REGISTERS.X86[it]}`).filter(isShown);
}

/**
 * Returns the loads of a thread, except those in loops, each with a `site` that has its word at the end, its `location` and the first `word` of that; null
 * if a run may leave one out, or neither a register nor a location of `results` has its word at the end, or a branch may depend on it; or if only a locked
 * sum loads.
 */
function listLoads({ locations, words }, thread, number, isShown, results) {
  const own = thread.accesses.filter((it) => !it.isInLoop);
  const loads = own.filter((it) => it.isLoad);
  const findSite = (it) => listSites(thread, number, it, isShown)[0];
  // An exchange may be a store: compilers write those of C++ so.
  if (!loads.length) return own.some((it) => it.isLocked && findSite(it)) ? null : [];
  const isHeld = loads.every(findSite);
  const found = loads.map((it) => {
    const site = isHeld ? findSite(it) : (results.get(it.position) ?? findSite(it));
    return it.isSure && site ? { site, location: locations[it.location], word: words[it.location] } : null;
  });
  return found.includes(null) || thread.isBranching ? null : found;
}

/**
 * Returns the proposition that two threads, which add the same constant to a location in a branch after an exchange, both found the first word by it, and
 * that one addition is lost; null if threads do something else.
 */
function guessLocked({ locations, words }, threads, isShown) {
  const found = threads.map((thread, number) => {
    const [swap] = thread.accesses;
    const adding = thread.accesses.filter((it) => !it.isLoad && it.added && !it.isSure);
    const isTaking = swap && !swap.isLoad && swap.register !== undefined && swap.isSure && !swap.isLocked && !swap.isInLoop;
    const [site] = isTaking ? listSites(thread, number, swap, isShown) : [];
    return site && adding.length === 1 ? { site, lock: swap.location, ...adding[0] } : null;
  });
  const [one, other] = found;
  if (found.length !== 2 || found.includes(null)) return null;
  if (one.lock !== other.lock || one.location !== other.location || one.added !== other.added) return null;
  const atoms = found.map(({ site, lock }) => `${site}=${words[lock]}`);
  return [...atoms, `${locations[one.location]}=${(words[one.location] + one.added) % WORD}`].join(" /\\ ");
}

/**
 * Returns a question for a test that has none: whether no addition is lost, if a load and a store make one, also after an exchange that takes a lock;
 * otherwise whether loads find the first words, as `guessProposition` says. Null if nothing is guessed. `looping` says which lines of each thread are
 * in loops, after which its last line marks its end, and `isShown` whether a register of a thread has a known word.
 * @param {Test} test
 * @param {boolean[][]} [looping]
 * @param {function(string): boolean} [isShown]
 * @returns {string | null}
 */
export function guessQuestion(test, looping = [], isShown = () => true) {
  const threads = test.threads.map((statements, thread) => followThread(statements, looping[thread] ?? []));
  const lost = listLostAdditions(test, threads);
  if (lost.length) return `~exists (${lost.join(" \\/ ")})\n`;
  const locked = guessLocked(test, threads, isShown);
  if (locked) return `~exists (${locked})\n`;
  const loads = threads.map((it, thread) => listLoads(test, it, thread, isShown, findResults(test, threads, thread)));
  const proposition = loads.includes(null) ? "true" : guessProposition(loads);
  return proposition === "true" ? null : `exists (${proposition})\n`;
}
