// The report of a test in parts, with the marks of the states in which its condition holds; the schedule that lw lists to a state; and in
// which state a run has ended. Marks are proved if the report says that none or all hold, or if the module makes them. The program lw makes
// none, and of a long list making them would take as long again as the list did; there the page finds them, which is not proved.
//
// A `Report` has the first two lines (`head`), the `number` of states and `states`: the first ones, and as many more in which the condition holds, at
// most `most` of either, each with its `index`, its `line` and whether the condition `holds` (null unless `is_marked`). It has whether its marks are
// proved (`is_proved`), how many states are `left_out`, what is `asked`, the `verdict`, the number of states in which the proposition is true
// (`positive`), the `condition`, and the last lines (`tail`).
//
// `How` says by which way a text is listed: by a search if `search` is set, which calls `onProgress` with words on how far it is.

import { NoAnswer, Refused } from "./program.js";
import { formatCondition, formatSite, isTrueIn, listObservedSites, readWord } from "./propositions.js";
import { parseReportLine } from "./replays.js";
import { readTest } from "./tests.js";

const MAX_STATES = 200000;
// The most states that the module is asked to mark.
const MAX_MARKED = 4096;

/**
 * Returns whether an error says that a test is nested too deeply for this browser's stack: a RangeError, in Firefox an InternalError.
 * @param {unknown} error
 * @returns {boolean}
 */
export function isTooDeep(error) {
  return error instanceof RangeError || error?.name === "InternalError";
}

/** Returns the test of a text. Throws TypeError if the text is not UTF-8, and NoTest if it is no test for the page's own reader. */
function decodeTest(text) {
  return readTest(new TextDecoder("utf-8", { fatal: true, ignoreBOM: true }).decode(text));
}

/**
 * Returns the marks of a text's states: `holds` says of a state's line and index whether the proposition is true there, or null if that is not known.
 * `counts` has the number of the states, and of those in which it is true.
 * @param {Program} program
 * @param {Uint8Array} text
 * @param {How} how
 * @param {{number: number, positive: number}} counts
 * @returns {{isProved: boolean, holds: function(string, number): (boolean | null)}}
 */
function findMarks(program, text, how, { number, positive }) {
  if (positive === 0 || positive === number) return { isProved: true, holds: () => positive > 0 };
  const marked = number <= MAX_MARKED ? program.listMarked(text, how) : null;
  if (marked === null) return { isProved: false, holds: computeMarks(text) };
  return { isProved: true, holds: (line, index) => parseMark(marked[index], line) };
}

/**
 * Returns whether a line of the marked list says that the proposition is true; null if that is another state's line.
 * @param {string | undefined} marked
 * @param {string} line
 * @returns {boolean | null}
 */
function parseMark(marked, line) {
  return marked?.slice(2) === line ? marked[0] === "+" : null;
}

/**
 * Returns marks that the page finds by reading the test: a function as `holds` of `findMarks`.
 * @param {Uint8Array} text
 * @returns {function(string): (boolean | null)}
 */
function computeMarks(text) {
  try {
    const test = decodeTest(text);
    const sites = listObservedSites(test);
    return (line) => {
      const outcome = { registers: test.threads.map(() => ({})), words: {} };
      for (const [at, [, word]] of parseReportLine(line).entries()) putWord(outcome, sites[at], word);
      return isTrueIn(test.proposition, outcome);
    };
  } catch {
    return () => null;
  }
}

/** Puts a word into an outcome, at a site; a site that is undefined is left out. */
function putWord(outcome, site, word) {
  if (site?.location !== undefined) outcome.words[site.location] = word;
  else if (site) outcome.registers[site.thread][site.register] = word;
}

/**
 * Returns the report of a test: with the first `MAX_STATES` states, as many in which the proposition is true, and the last lines.
 * @param {Program} program
 * @param {Uint8Array} text
 * @param {How} how
 * @returns {Report}
 */
export function makeReport(program, text, how) {
  const lines = program.list("states", text, how).split("\n").slice(0, -1);
  const head = lines.slice(0, 2);
  const number = Number(/^States (\d+)$/.exec(head[1])[1]);
  const tail = lines.slice(number + 2);
  const positive = Number(/^Positive: (\d+)/.exec(tail[1])[1]);
  const { isProved, holds: isHolding } = findMarks(program, text, how, { number, positive });
  const states = [];
  let holding = 0;
  for (let index = 0; index < number; index += 1) {
    const line = lines[index + 2];
    const isTrue = isHolding(line, index);
    if (isTrue) holding += 1;
    if (index < MAX_STATES || (isTrue && holding <= MAX_STATES)) states.push({ index, line, holds: isTrue });
  }
  return { ...listParts(head, number, states, tail, positive === holding), positive, is_proved: isProved };
}

/** Returns a report's parts. States are marked only if as many were found as the report counts. */
function listParts(head, number, states, tail, isWhole) {
  const isMarked = isWhole && states.every((it) => it.holds !== null);
  return {
    head,
    number,
    states: isMarked ? states : states.map((it) => ({ ...it, holds: null })),
    tail,
    is_marked: isMarked,
    left_out: number - states.length,
    most: MAX_STATES,
    asked: head[0].slice(head[0].lastIndexOf(" ") + 1),
    verdict: tail[0],
    condition: tail[2].slice(tail[2].indexOf(" ") + 1),
  };
}

/**
 * Returns the lines of the states of a text, and in how many of them its condition holds; or null if it is refused, or needs more memory than
 * there is.
 * @param {Program} program
 * @param {Uint8Array} text
 * @param {How} how
 * @returns {{lines: string[], positive: number} | null}
 */
export function listOrNull(program, text, how) {
  try {
    const report = program.list("states", text, how);
    const lines = report.split("\n");
    return { lines: lines.slice(2, 2 + Number(lines[1].split(" ")[1])), positive: Number(/^Positive: (\d+)/m.exec(report)[1]) };
  } catch (error) {
    if (error instanceof Refused || error.more?.isBeyond) return null;
    throw error;
  }
}

/**
 * Returns the schedule that is listed to a state. Throws NoAnswer if the test does not end in it, and Refused if its list is refused.
 * @param {Program} program
 * @param {Uint8Array} text
 * @param {string} wanted
 * @param {How} how
 * @returns {string}
 */
export function findSchedule(program, text, wanted, how) {
  const lines = program.list("schedules", text, how).split("\n").slice(2);
  for (let at = 0; at + 1 < lines.length; at += 2) if (lines[at] === wanted) return lines[at + 1].trim();
  throw new NoAnswer(`The test does not end in \`${wanted}\`.`);
}

/**
 * Returns the schedule that is listed to a state; null if the test does not end in it, or its list is refused.
 * @param {Program} program
 * @param {Uint8Array} text
 * @param {string} wanted
 * @param {How} how
 * @returns {string | null}
 */
export function findScheduleOrNull(program, text, wanted, how) {
  try {
    return findSchedule(program, text, wanted, how);
  } catch (error) {
    if (error instanceof Refused || error instanceof NoAnswer) return null;
    throw error;
  }
}

/**
 * Returns, for the state that a run has reached, its line, the condition, and whether the page finds the proposition true there; null if the run is not
 * final, or the page's own reader does not read the test.
 * @param {Uint8Array} text
 * @param {State} state
 * @returns {{line: string, condition: string, holds: boolean} | null}
 */
export function describeEnding(text, state) {
  if (state.end.kind !== "Final") return null;
  try {
    const test = decodeTest(text);
    const content = new Map(state.content);
    const registers = state.threads.map((it) => it.registers.map(([, word]) => word));
    const outcome = { registers, words: test.locations.map((name) => content.get(name)) };
    const words = listObservedSites(test).map((site) => `${formatSite(test, site)}=${readWord(site, outcome)};`);
    return { line: words.join(" "), condition: formatCondition(test), holds: isTrueIn(test.proposition, outcome) };
  } catch {
    return null;
  }
}
