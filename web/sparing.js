// Finds the fences of an x86 test that matter, as the table of tools/fences.py: each MFENCE is left out by itself, and then, one after another, all that
// can be left out together. The texts without fences are written here, which is not proved; their lists are lw's, or, if it refuses one for its limits, those of walk.js.

import { formatCanonicalText, formatInstruction } from "./canonical.js";
import { sortSites } from "./propositions.js";
import { listStates } from "./walk.js";

/**
 * Returns the places of all fences: a thread, and the index of the instruction.
 * @param {Test} test
 * @returns {Place[]}
 */
export function listFences(test) {
  return test.threads.flatMap((code, thread) => code.flatMap((it, index) => (it.kind === "mfence" ? [[thread, index]] : [])));
}

/**
 * Returns a test without some of its fences. A jump to one of them targets the instruction after it.
 * @param {Test} test
 * @param {Place[]} leftOut
 * @returns {Test}
 */
export function removeFences(test, leftOut) {
  const threads = test.threads.map((code, thread) => {
    const positions = leftOut.filter(([of]) => of === thread).map(([, at]) => at);
    const shiftTarget = (target) => target - positions.filter((at) => at < target).length;
    const kept = code.filter((_, index) => !positions.includes(index));
    return kept.map((instruction) => (instruction.target === undefined ? instruction : { ...instruction, target: shiftTarget(instruction.target) }));
  });
  return { ...test, threads };
}

/**
 * Returns a test that shows all registers that it uses, and all locations.
 * @param {Test} test
 * @returns {Test}
 */
export function showEverything(test) {
  const used = test.threads.flatMap((code, thread) =>
    code.flatMap((it) => [it.register, it.value?.register].filter((at) => at !== undefined).map((register) => ({ thread, register }))),
  );
  return { ...test, listed: sortSites([...test.listed, ...used, ...test.locations.map((_, location) => ({ location }))]) };
}

/**
 * Returns the words for the place of a fence that the test has, and for the instruction after it.
 * @param {Test} test
 * @param {Place} place
 * @returns {string}
 */
export function formatFencePlace(test, [thread, position]) {
  const next = test.threads[thread][position + 1];
  return `P${thread} at ${position}${next ? `, before ${formatInstruction(test, next)}` : ""}`;
}

/** Asks for the lists of tests by `listOf`, and records in `answeredBy` who made them. */
class Lists {
  constructor(listOf) {
    this.listOf = listOf;
    this.answeredBy = new Set();
  }

  /** Returns the list of a test's states by the program, or by the page's own walk. */
  makeList(test) {
    const list = this.listOf(formatCanonicalText(test));
    this.answeredBy.add(list ? "program" : "plain");
    return list ?? listStates(test);
  }

  /** Returns the lines of the states of a test. */
  listStates(test) {
    return this.makeList(test).lines;
  }
}

/**
 * Returns of each fence its place, and the states that are new if only it is left out; the fences that are enough; the number of states, and of those
 * in which the proposition is true. `listOf` gives the lines of the states of a text, and that number; or null if lw refuses it.
 * @param {Test} test
 * @param {function(string): ({lines: string[], positive: number} | null)} listOf
 * @returns {{rows: {place: string, added: string[]}[], enough: string[], states: number, positive: number, answered_by: string[]}}
 */
export function makeFenceTable(test, listOf) {
  const lists = new Lists(listOf);
  const fences = listFences(test);
  const { lines: states, positive } = lists.makeList(test);
  const known = new Set(states);
  const rows = fences.map((fence) => {
    const added = lists.listStates(removeFences(test, [fence])).filter((line) => !known.has(line));
    return { place: formatFencePlace(test, fence), added };
  });
  const leftOut = findSparedFences(test, fences, states, lists);
  const enough = fences.filter((fence) => !leftOut.includes(fence)).map(([thread, at]) => `P${thread} at ${at}`);
  return { rows, enough, states: states.length, positive, answered_by: [...lists.answeredBy].sort() };
}

/** Returns fences that can be left out together. Each fence in turn is left out, with those before it that were, if the states are still `states`. */
function findSparedFences(test, fences, states, lists) {
  const leftOut = [];
  for (const fence of fences) {
    if (lists.listStates(removeFences(test, [...leftOut, fence])).join() === states.join()) leftOut.push(fence);
  }
  return leftOut;
}
