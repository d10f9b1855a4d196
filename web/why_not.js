// Says of a state that a test does not end in which axiom each candidate execution with it breaks, and draws the cycles that teach the most: as
// tools/graph.py does. Not proved.
//
// A `Way` in which the axioms forbid a state has the `axiom`, its `cycle` in letters, the `events` of the cycle in words, how many `times` an
// execution violates the axiom so, the clearest such `execution` with its `violation`, and its `kinds`, the sentences on why it teaches little.

import { TooMany, findThread, listCandidates } from "./executions.js";
import { Names, drawExecution, formatWord } from "./graphs.js";
import { NoAnswer } from "./program.js";
import { formatSite, listObservedSites, makeSiteKey, readWord } from "./propositions.js";
import { WORD } from "./token_reader.js";

const MAX_EXECUTIONS = 400000;
const MAX_CYCLES = 6;
const MAX_DRAWN = 3;
// The milliseconds in which states are looked for, of which one is explained, and the largest number of executions of one that are looked at.
const [MAX_MILLISECONDS, MAX_LOOKED_AT] = [4000, 2000];
// What the axioms forbid if a word of it is `?`: no state.
const UNKNOWN_WORDS = "executions whose words are not known";
const NONE_FORBIDDEN = "x86-TSO allows every state that some candidate execution has.";
// Why a cycle teaches little about buffers and fences, each with its weight: cycles of less weight are named and drawn first.
const COMPUTED = "The code computes some of these words: they are no constants of the test.";
const ONE_LOCATION = "The accesses of one location contradict each other: store buffers and fences have no part in that.";
const UNKNOWN = "A word that is ? would follow only from itself.";
const WEIGHTS = new Map([[COMPUTED, 1], [ONE_LOCATION, 2], [UNKNOWN, 4]]);

/**
 * Returns the words in a report's line, by site. Throws NoAnswer unless the line names exactly what the test shows.
 * @param {Test} test
 * @param {string} line
 * @returns {Map<string, number>}
 */
function parseState(test, line) {
  const pairs = [...line.matchAll(/([^\s=;]+)=(\d+);/g)].map(([, name, word]) => [name, Number(word)]);
  const words = new Map(pairs);
  const sites = listObservedSites(test);
  const names = sites.map((site) => formatSite(test, site));
  const isWhole = /^(?:\s*[^\s=;]+=\d+;)*\s*$/.test(line);
  if (!isWhole || pairs.length !== names.length || !names.every((name) => words.has(name))) {
    throw new NoAnswer(`The test shows ${names.map((it) => `${it}=..;`).join(" ")}, and the state has to name these.`);
  }
  return new Map(sites.map((site, index) => [makeSiteKey(site), words.get(names[index])]));
}

/** Returns the constants of a test: the words that its code and its initial block have. */
function listConstants(test) {
  const numbers = test.threads.flat().flatMap(({ value }) => (value?.number === undefined ? [] : [value.number]));
  return new Set([...test.words, ...test.registers.flat(), ...numbers]);
}

/**
 * Returns why a cycle teaches little about buffers and fences: it is of one location, or words are computed in it, or unknown in its execution.
 * @param {Execution} execution
 * @param {Edge[]} cycle
 * @param {Set<number>} constants
 * @returns {string[]}
 */
function listDrawbacks(execution, cycle, constants) {
  const events = cycle.map((it) => it.source);
  const locations = new Set(events.map((it) => execution.findInstruction(it).location).filter((it) => it !== undefined));
  const kinds = locations.size === 1 ? [ONE_LOCATION] : [];
  const isUnknown = (word) => word === null;
  if ([...execution.rf.keys()].some((it) => isUnknown(execution.read.get(it))) || [...execution.written.values()].some(isUnknown)) return [...kinds, UNKNOWN];
  const words = events.flatMap((it) => [execution.read.get(it) ?? null, execution.written.get(it) ?? null]);
  return words.every((it) => it === null || constants.has(it)) ? kinds : [...kinds, COMPUTED];
}

/** Returns how little a way teaches about buffers and fences. */
function computeWeight({ kinds }) {
  return kinds.reduce((sum, it) => sum + WEIGHTS.get(it), 0);
}

/** Counts the execution of another object of the same way, and takes it in place of this one's if it is clearer. */
function addExecution(way, other) {
  way.times += 1;
  if (computeWeight(other) < computeWeight(way)) Object.assign(way, { execution: other.execution, violation: other.violation, kinds: other.kinds });
}

/** Returns whether a proposition is true, given a function that returns the word of a site, or null if it is not known; null if that decides. */
function evaluate({ kind, parts, site, word }, findWord) {
  if (kind === "Eq") return findWord(site) === null ? null : findWord(site) === word;
  const truths = parts.map((it) => evaluate(it, findWord));
  if (kind === "Not") return truths[0] === null ? null : !truths[0];
  if (kind !== "And" && kind !== "Or") return kind === "True";
  const deciding = kind === "Or";
  return truths.includes(deciding) ? deciding : truths.includes(null) ? null : !deciding;
}

/**
 * Yields the candidate executions whose outcomes are wanted, each with its words of the sites that the test shows. `isWanted` is given a function
 * that returns the word of a site, or null if it is not known. Throws TooMany if there are too many candidates.
 * @param {Test} test
 * @param {function(function(Site): (number | null)): boolean} isWanted
 * @returns {Generator<{execution: Execution, words: (number | null)[]}>}
 */
function* listWanted(test, isWanted) {
  // The words of registers do not depend on the coherence orders.
  const fits = ({ ends }) => isWanted(({ thread, register }) => (register === undefined ? null : ends[thread][register]));
  for (const execution of listCandidates(test, MAX_EXECUTIONS, fits)) {
    const outcome = execution.makeOutcome();
    const findWord = (site) => readWord(site, outcome) ?? null;
    if (isWanted(findWord)) yield { execution, words: listObservedSites(test).map(findWord) };
  }
}

/**
 * Returns the line of a state that some candidate execution has, that the condition asks about, and that is none of the `listed` ones, or null if
 * there is none, or there are too many candidates; and whether its cycle is one of several locations. Of those that are found in some time, and in
 * which every wait has ended, it is the first whose cycle says the most about buffers and fences.
 * @param {Test} test
 * @param {string[]} listed
 * @param {(function(string): boolean) | null} [hasEnded]
 * @returns {{state: string | null, isOfSeveral: boolean}}
 */
export function findCandidateState(test, listed, hasEnded = null) {
  const isAsked = (findWord) => evaluate(test.proposition, findWord) !== (test.quantifier === "forall");
  const [known, looked, constants, end] = [new Set(listed), new Map(), listConstants(test), performance.now() + MAX_MILLISECONDS];
  let best = { state: null, weight: Infinity };
  try {
    for (const { execution, words } of listWanted(test, isAsked)) {
      const line = words.includes(null) ? null : formatState(test, words);
      const count = looked.get(line) ?? 0;
      if (line === null || known.has(line) || count > MAX_LOOKED_AT || (hasEnded && !hasEnded(line))) continue;
      looked.set(line, count + 1);
      const weight = computeWeightOf(execution, constants);
      if (weight < best.weight) best = { state: line, weight };
      if (weight === 0 || performance.now() > end) break;
    }
  } catch (error) {
    if (!(error instanceof TooMany)) throw error;
  }
  return { state: best.state, isOfSeveral: best.weight < WEIGHTS.get(ONE_LOCATION) };
}

/** Returns how little the cycle of an execution that the axioms forbid teaches. */
function computeWeightOf(execution, constants) {
  const violation = execution.findBrokenAxiom();
  return violation ? computeWeight({ kinds: listDrawbacks(execution, violation.cycle, constants) }) : Infinity;
}

/**
 * Returns the states that the axioms allow, and those that they forbid: each of these with the `ways` in which its candidate executions break an
 * axiom, by their keys. If `wanted` has words, other states are left out. Throws TooMany if there are too many candidates.
 * @param {Test} test
 * @param {Map<string, number> | null} wanted
 * @returns {{allowed: Set<string>, forbidden: {words: number[], ways: Map<string, Way>}[]}}
 */
function listForbiddenStates(test, wanted) {
  const [allowed, forbidden, sites, constants] = [new Set(), new Map(), listObservedSites(test), listConstants(test)];
  const isWanted = (findWord) => wanted === null || sites.every((it) => [null, wanted.get(makeSiteKey(it))].includes(findWord(it)));
  for (const { execution, words } of listWanted(test, isWanted)) {
    if (allowed.has(String(words))) continue;
    const violation = execution.findBrokenAxiom();
    if (!violation) {
      allowed.add(String(words));
      forbidden.delete(String(words));
      continue;
    }
    const names = new Names(execution);
    const events = violation.cycle.map((each) => names.formatEvent(each.source));
    const kinds = listDrawbacks(execution, violation.cycle, constants);
    const way = { axiom: violation.axiom, cycle: names.formatCycle(violation.cycle), events, times: 0, execution: execution, violation, kinds };
    const { ways } = forbidden.get(String(words)) ?? forbidden.set(String(words), { words, ways: new Map() }).get(String(words));
    const key = JSON.stringify([way.axiom, way.cycle, events]);
    if (!ways.has(key)) ways.set(key, way);
    addExecution(ways.get(key), way);
  }
  return { allowed, forbidden: [...forbidden.values()] };
}

/** Returns the line of a state, as a report has it. */
function formatState(test, words) {
  return listObservedSites(test).map((site, index) => `${formatSite(test, site)}=${formatWord(words[index])};`).join(" ");
}

/**
 * Returns the lines on a state that the axioms forbid, or on executions with words that are not known, which end in no state.
 * @param {Test} test
 * @param {{words: number[], ways: Way[]}} state
 * @returns {string[]}
 */
function explainState(test, { words, ways }) {
  const unknown = words.includes(null) ? `${UNKNOWN_WORDS}: ` : "";
  const lines = [`x86-TSO forbids ${unknown}${formatState(test, words)}`, ...ways[0].kinds.map((it) => `  ${it}`)];
  for (const { axiom, cycle, events, times } of ways.slice(0, MAX_CYCLES)) {
    const breaking = times === 1 ? "1 candidate execution breaks" : `${times} candidate executions break`;
    lines.push(`  ${breaking} ${axiom}: ${cycle}`, ...events.map((it) => `    ${it}`));
  }
  return ways.length > MAX_CYCLES ? [...lines, `  and ${ways.length - MAX_CYCLES} other cycles`] : lines;
}

/**
 * Returns what orders the ways of a state: the clearest are first, then those of several threads, those through a fence or a locked instruction, the
 * shortest, and the most frequent.
 */
function makeRank(way) {
  const { execution, violation, events, times } = way;
  const isOfOneThread = new Set(violation.cycle.map((it) => findThread(it.source))).size === 1;
  const isPlain = violation.cycle.every((it) => ["store", "load"].includes(execution.findInstruction(it.source).kind));
  return [computeWeight(way), Number(isOfOneThread), Number(isPlain), events.length, -times];
}

/** Compares two rows of numbers by the first ones that differ. */
function compareRows(one, other) {
  const index = one.findIndex((it, at) => it !== other[at]);
  return index < 0 ? 0 : one[index] - other[index];
}

/**
 * Returns the forbidden states, sorted by their words (unknown ones last), each with the ways in which it is forbidden, the clearest first.
 * @param {{words: number[], ways: Map<string, Way>}[]} forbidden
 * @returns {{words: number[], ways: Way[]}[]}
 */
function sortForbiddenStates(forbidden) {
  const makeKey = ({ words }) => words.map((word) => word ?? WORD);
  const compareWords = (a, b) => compareRows(makeKey(a), makeKey(b));
  const compareWays = (a, b) => compareRows(makeRank(a), makeRank(b));
  return forbidden.sort(compareWords).map(({ words, ways }) => ({ words, ways: [...ways.values()].sort(compareWays) }));
}

/**
 * Returns the lines that say why a test does not end in a state, or in each that some candidate has (`all`); and the clearest `cycles`, each as a
 * graph with its words, and with the sentences on why it teaches little, if it does (`kind`). Throws NoAnswer as `parseState` does.
 * @param {Test} test
 * @param {string} state
 * @returns {{lines: string[], cycles: {graph: string, words: string, kind: string}[]}}
 */
export function explainStates(test, state) {
  const wanted = state === "all" ? null : parseState(test, state);
  let byAxioms;
  try {
    byAxioms = listForbiddenStates(test, wanted);
  } catch (error) {
    if (!(error instanceof TooMany)) throw error;
    return { lines: [`More than ${MAX_EXECUTIONS} candidate executions: that is too many for this tool.`], cycles: [] };
  }
  if (wanted && byAxioms.allowed.has(String([...wanted.values()]))) {
    return { lines: ["x86-TSO allows this state: `lw schedules` lists it with a schedule."], cycles: [] };
  }
  if (!byAxioms.forbidden.length) {
    const none = `No candidate execution ends in ${state} No choice of paths and reads gives these values together.`;
    return { lines: [wanted ? none : NONE_FORBIDDEN], cycles: [] };
  }
  const states = sortForbiddenStates(byAxioms.forbidden);
  const allWays = states.flatMap(({ words, ways }) => ways.map((it) => ({ ...it, line: wanted ? "" : `${formatState(test, words)} ` })));
  const least = Math.min(...states.map(({ ways }) => computeWeight(ways[0])));
  const drawn = allWays.filter((it) => computeWeight(it) === least).slice(0, MAX_DRAWN);
  const cycles = drawn.map(({ execution, violation, cycle, axiom, kinds, line }) => {
    return { graph: drawExecution(execution, `${test.name}: ${cycle}`, violation), words: `${line}${axiom}: ${cycle}`, kind: kinds.join(" ") };
  });
  return { lines: states.flatMap((it) => explainState(test, it)), cycles };
}
