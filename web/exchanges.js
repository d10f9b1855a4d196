// Finds which states each XCHG and LOCK XADD of a test would add without its lock, as tools/fencing/exchanges.py: XCHG as a plain store, or as a load and a
// store if its old word is used; LOCK XADD as a load, a sum and a store. It also finds which of a test's fences and locks are enough together. The texts
// without a lock are written here, which is not proved; their lists are lw's.

import { formatCanonicalText, formatInstruction } from "./canonical.js";
import { findSmallestSets, listSuccessors } from "./fencing.js";
import { NoAnswer } from "./program.js";
import { listObservedSites } from "./propositions.js";
import { formatFencePlace } from "./sparing.js";
import { REGISTERS } from "./token_reader.js";

const READS_REGISTER = ["add", "cmp", "xchg", "xadd"];
const WRITES_REGISTER = ["load", "set", "add", "xchg", "xadd"];
// The largest number of lists that a search for sets makes, and of sets that are shown.
const MAX_LISTS = 200;
const MAX_SETS = 6;

/**
 * Returns for each position of a thread, and for its end, the registers whose words may still be read, or are observed.
 * @param {Test} test
 * @param {number} thread
 * @returns {Set<number>[]}
 */
function listNeededRegisters(test, thread) {
  const code = test.threads[thread];
  const needed = [];
  needed[code.length] = new Set(listObservedSites(test).filter((it) => it.thread === thread).map((it) => it.register));
  for (let position = code.length - 1; position >= 0; position -= 1) {
    const { kind, register, value } = code[position];
    needed[position] = new Set(listSuccessors(code[position], position).flatMap((it) => [...needed[it]]));
    if (WRITES_REGISTER.includes(kind)) needed[position].delete(register);
    if (READS_REGISTER.includes(kind)) needed[position].add(register);
    if (value?.register !== undefined) needed[position].add(value.register);
  }
  return needed;
}

/** Returns the last of the registers that a thread neither uses nor shows; undefined if there is none. */
function findFreeRegister(test, thread, needed) {
  const used = new Set([...needed[0], ...needed.at(-1), ...test.threads[thread].flatMap((it) => [it.register, it.value?.register])]);
  return REGISTERS.X86.map((_, register) => register).findLast((it) => !used.has(it));
}

/**
 * Returns the instructions that replace an exchange, without its lock; none if they need a register and none is free.
 * @param {Test} test
 * @param {Place} place
 * @returns {Statement[]}
 */
export function makeUnlockedInstructions(test, [thread, position]) {
  const { kind, register, location } = test.threads[thread][position];
  const needed = listNeededRegisters(test, thread);
  const isUsed = needed[position + 1].has(register);
  const store = { kind: "store", location, value: { register } };
  if (kind === "xchg" && !isUsed) return [store];
  const spare = findFreeRegister(test, thread, needed);
  if (spare === undefined) return [];
  const value = { register: spare };
  const added = kind === "xadd" ? [{ kind: "add", register, value }] : [];
  return [{ kind: "load", register: spare, location }, ...added, store, ...(isUsed ? [{ kind: "set", register, value }] : [])];
}

/** Returns the replacement of an exchange, in words. */
function formatInstructions(instructions) {
  if (instructions.length === 1) return "a plain store";
  return instructions.some((it) => it.kind === "add") ? "a load, a sum and a plain store" : "a load and a plain store";
}

/** Returns a test with other instructions in place of one. Jumps over the place lead further. */
function replaceInstruction(test, [thread, position], instructions) {
  const shift = (it) => (it.target > position ? { ...it, target: it.target + instructions.length - 1 } : it);
  const code = test.threads[thread].map(shift);
  return { ...test, threads: test.threads.map((it, at) => (at === thread ? [...code.slice(0, position), ...instructions, ...code.slice(position + 1)] : it)) };
}

/** Returns the words for the place of an exchange, and for the instruction. */
function formatExchangePlace(test, [thread, position]) {
  return `P${thread} at ${position}, ${formatInstruction(test, test.threads[thread][position])}`;
}

/** Returns the places of a test's instructions of some kinds. */
function listPlaces(test, kinds) {
  return test.threads.flatMap((code, thread) => code.flatMap((it, at) => (kinds.includes(it.kind) ? [[thread, at]] : [])));
}

/**
 * Returns of each XCHG and LOCK XADD of a test its place, what it is without its lock in words, the states that are new then, and the text; of one for which no
 * register is free only its place. `listOf` gives the lines of the states of a text, or null if lw refuses it. Throws NoAnswer then.
 * @param {Test} test
 * @param {function(string): ({lines: string[]} | null)} listOf
 * @returns {{place: string, words?: string, added?: string[], text?: string}[]}
 */
export function makeExchangeTable(test, listOf) {
  const listStates = (text) => {
    const list = listOf(text);
    if (!list) throw new NoAnswer("lw refuses the list of this test without a lock: `tools/fences.py --exchanges` tries more.");
    return list.lines;
  };
  const places = listPlaces(test, ["xchg", "xadd"]);
  const known = new Set(places.length ? listStates(formatCanonicalText(test)) : []);
  return places.map(([thread, position]) => {
    const place = formatExchangePlace(test, [thread, position]);
    const instructions = makeUnlockedInstructions(test, [thread, position]);
    if (!instructions.length) return { place };
    const text = formatCanonicalText(replaceInstruction(test, [thread, position], instructions));
    return { place, words: formatInstructions(instructions), added: listStates(text).filter((line) => !known.has(line)), text };
  });
}

/**
 * Returns the fences and the locks of a test that can be left out, each with its place in words and the instructions that replace it: none for a fence.
 * An exchange for which no register is free is not among them.
 */
function listRemovable(test) {
  const listed = listPlaces(test, ["mfence", "xchg", "xadd"]).map((at) => {
    const isFence = test.threads[at[0]][at[1]].kind === "mfence";
    const instructions = isFence ? [] : makeUnlockedInstructions(test, at);
    return { at, isFence, instructions, place: isFence ? formatFencePlace(test, at) : formatExchangePlace(test, at) };
  });
  return listed.filter(({ isFence, instructions }) => isFence || instructions.length);
}

/** Returns a test in which instructions replace some fences and exchanges: the last one first, so that the others stay in their places. */
function leaveOut(test, removed) {
  const fromLast = [...removed].sort((one, other) => other.at[1] - one.at[1]);
  return fromLast.reduce((changed, { at, instructions }) => replaceInstruction(changed, at, instructions), test);
}

/**
 * Returns the smallest sets of a test's fences and locks with which it has the states that it has with all of them. `places` has all that can be
 * left out, in words, and `states` the number of the states. Each set has the indices of what it `kept`, and the `text` without the others, which is that
 * of `original`: this test with the sites that it shows itself. `more` counts the sets that are not shown. `listOf` is that of makeExchangeTable. Throws
 * NoAnswer if a list is refused, or too many are needed.
 * @param {Test} test
 * @param {Test} original
 * @param {function(string): ({lines: string[]} | null)} listOf
 * @returns {{places: string[], states: number, sets: {kept: number[], text: string}[], more: number}}
 */
export function findEnoughTogether(test, original, listOf) {
  const removable = listRemovable(test);
  const lists = new Map();
  const formatWith = (kept, of = test) => formatCanonicalText(leaveOut(of, removable.filter((it) => !kept.includes(it))));
  const listStates = (text) => {
    if (lists.has(text)) return lists.get(text);
    if (lists.size >= MAX_LISTS) throw new NoAnswer("There are too many sets of fences and locks to try here: `tools/fences.py --exchanges` tries more.");
    const list = listOf(text);
    if (!list) throw new NoAnswer("lw refuses the list of this test with fewer fences or locks: `tools/fences.py --exchanges` tries more.");
    lists.set(text, list.lines);
    return list.lines;
  };
  const states = listStates(formatCanonicalText(test));
  const sets = findSmallestSets(removable, (kept) => listStates(formatWith(kept)).join() === states.join());
  const shown = sets.slice(0, MAX_SETS).map((kept) => ({ kept: kept.map((it) => removable.indexOf(it)), text: formatWith(kept, original) }));
  return { places: removable.map((it) => it.place), states: states.length, sets: shown, more: sets.length - shown.length };
}
