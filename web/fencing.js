// Finds where further MFENCEs would answer a test's question: the smallest sets of places, as tools/fencing/places.py and sets.py find them. A
// fence only removes outcomes, which cuts the search. The texts with fences are made here, which is not proved; their lists are lw's.
//
// A `Place` is a pair of a thread and a position: that of a fence, or of the instruction before which one is put.

import { formatCanonicalText, formatInstruction } from "./canonical.js";
import { NoAnswer } from "./program.js";

const WAITS = ["mfence", "xchg", "xadd"];
// The largest number of lists that are made, and of sets that are shown.
const MAX_LISTS = 200;
const MAX_SETS = 6;

/**
 * Returns the positions that may follow an instruction.
 * @param {Statement} instruction
 * @param {number} position
 * @returns {number[]}
 */
export function listSuccessors({ kind, target }, position) {
  if (target === undefined) return [position + 1];
  return kind === "jmp" ? [target] : [position + 1, target];
}

/**
 * Returns the positions that some path reaches from a store, with nothing between that waits for it.
 * @param {Statement[]} code
 * @returns {number[]}
 */
function findPositionsAfterStores(code) {
  const seen = new Set();
  const queue = code.flatMap((it, index) => (it.kind === "store" ? listSuccessors(it, index) : []));
  while (queue.length) {
    const position = queue.pop();
    if (position >= code.length || seen.has(position)) continue;
    seen.add(position);
    if (!WAITS.includes(code[position].kind)) queue.push(...listSuccessors(code[position], position));
  }
  return [...seen].sort((a, b) => a - b);
}

/**
 * Returns the positions of the loads that some path reaches from a position, this one included, as its first load, with nothing before it that waits.
 * @param {Statement[]} code
 * @param {number} position
 * @returns {number[]}
 */
function findNextLoads(code, position) {
  if (position === code.length || WAITS.includes(code[position].kind)) return [];
  if (code[position].kind === "load") return [position];
  return [...new Set(listSuccessors(code[position], position).flatMap((after) => findNextLoads(code, after)))];
}

/**
 * Returns whether a fence may help before an instruction, which a waiting store precedes: it is a load, or a branch to several next loads.
 * @param {Statement[]} code
 * @param {number} position
 * @returns {boolean}
 */
function isFencePlace(code, position) {
  const isBranch = ["je", "jne"].includes(code[position].kind);
  return code[position].kind === "load" || (isBranch && findNextLoads(code, position).length > 1);
}

/**
 * Returns all places where a fence may help, each a thread and the index of the instruction after the fence: before a load after a store; and before a
 * branch that several such loads follow, since one fence there orders all of them.
 * @param {Test} test
 * @returns {Place[]}
 */
export function listFencePlaces(test) {
  return test.threads.flatMap((code, thread) => findPositionsAfterStores(code)
    .filter((position) => isFencePlace(code, position))
    .map((position) => [thread, position]));
}

/**
 * Returns a test with a fence before each of some instructions. A jump to one of them targets its fence.
 * @param {Test} test
 * @param {Place[]} places
 * @returns {Test}
 */
export function insertFences(test, places) {
  const threads = test.threads.map((code, thread) => {
    const added = places.filter(([otherThread]) => otherThread === thread).map(([, position]) => position);
    const shiftTarget = (target) => target + added.filter((position) => position < target).length;
    return code.flatMap((instruction, index) => {
      const kept = instruction.target === undefined ? instruction : { ...instruction, target: shiftTarget(instruction.target) };
      return added.includes(index) ? [{ kind: "mfence" }, kept] : [kept];
    });
  });
  return { ...test, threads };
}

/**
 * Yields the ways to choose a number of items, in their order.
 * @param {Place[]} items
 * @param {number} size
 * @param {number} [begin]
 * @returns {Generator<Place[]>}
 */
function* listCombinations(items, size, begin = 0) {
  if (size === 0) yield [];
  for (let index = begin; size > 0 && index + size <= items.length; index += 1) {
    for (const others of listCombinations(items, size - 1, index + 1)) yield [items[index], ...others];
  }
}

/**
 * Returns all smallest sufficient sets of fences, each in their order; none if all fences together are not sufficient.
 * @param {Place[]} fences
 * @param {function(Place[]): boolean} isEnough
 * @returns {Place[][]}
 */
export function findSmallestSets(fences, isEnough) {
  const sortSet = (chosen) => fences.filter((it) => chosen.includes(it));
  if (!isEnough(sortSet(fences))) return [];
  const needed = fences.filter((it) => !isEnough(fences.filter((other) => other !== it)));
  if (isEnough(needed)) return [needed];
  const others = fences.filter((it) => !needed.includes(it));
  const tooFew = [];
  for (let size = 1; size <= others.length; size += 1) {
    const sets = [];
    for (const added of listCombinations(others, size)) {
      const candidate = sortSet([...needed, ...added]);
      if (tooFew.some((known) => candidate.every((it) => known.includes(it)))) continue;
      if (isEnough(candidate)) sets.push(candidate);
      else tooFew.push(growInsufficientSet(candidate, others, sortSet, isEnough));
    }
    if (sets.length) return sets;
  }
  return [];
}

/** Returns an insufficient set, to which each of the others is added that leaves it insufficient. `sortSet` returns a set in its order. */
function growInsufficientSet(fences, others, sortSet, isEnough) {
  let found = fences;
  for (const it of others) {
    const larger = sortSet([...found, it]);
    if (!found.includes(it) && !isEnough(larger)) found = larger;
  }
  return found;
}

/**
 * Returns the smallest sets of places at which fences answer a test's question: its condition holds in no state, or of `forall` in all. Each has
 * its `places` in words, its `text`, and the number of its `states`. `number` counts the places that were tried, `isAnswered` says whether the test
 * is answered without a further fence, and `more` counts the sets that are not shown. `listOf` gives the lines of the states of a text, and the number of those
 * in which the condition holds, or null if there is no list. Throws NoAnswer if a list is refused, or too many are needed.
 * @param {Test} test
 * @param {function(string): ({lines: string[], positive: number} | null)} listOf
 * @returns {{number: number, isAnswered: boolean, sets: {places: string[], text: string, states: number}[], more: number}}
 */
export function findHelpingSets(test, listOf) {
  const lists = new Map();
  const countStates = (places) => {
    const text = formatCanonicalText(insertFences(test, places));
    if (!lists.has(text)) {
      if (lists.size >= MAX_LISTS) throw new NoAnswer("There are too many places for fences to try them all here: `tools/fences.py` tries more.");
      lists.set(text, listOf(text));
    }
    const list = lists.get(text);
    if (!list) throw new NoAnswer("lw refuses the list of this test with a fence, so no place for fences is looked for.");
    return { text, states: list.lines.length, positive: list.positive };
  };
  const isAnswered = ({ states, positive }) => positive === (test.quantifier === "forall" ? states : 0);
  const formatNewPlace = ([thread, position]) => `P${thread} at ${position}, before ${formatInstruction(test, test.threads[thread][position])}`;
  const candidates = listFencePlaces(test);
  const sets = isAnswered(countStates([])) ? [] : findSmallestSets(candidates, (places) => isAnswered(countStates(places)));
  const shown = sets.slice(0, MAX_SETS).map((places) => {
    const { text, states } = countStates(places);
    return { places: places.map(formatNewPlace), text, states };
  });
  return { number: candidates.length, isAnswered: isAnswered(countStates([])), sets: shown, more: sets.length - shown.length };
}
