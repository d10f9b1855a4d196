// Finds the states that two reports have in common, and those that only one has. Registers have names by the language; that of a compiled program
// represents that of its source with the same number. Not proved.

import { parseRegister, parseReportLine } from "./replays.js";

const OTHER_NAMES = "Not compared: the tests show different registers and locations.";
const NOT_WHOLE = "The states are not compared, since not all of them are shown.";

/**
 * Returns the contents of a line, whatever the language and the order of its names: pairs of a name and a word.
 * @param {string} line
 * @returns {[string, number][]}
 */
function parseSortedPairs(line) {
  const pairs = parseReportLine(line).map(([name, word]) => {
    const [, thread, register] = /^(\d):(\w+)$/.exec(name) ?? [];
    return [thread === undefined ? name : `${thread}:${parseRegister(register)}`, word];
  });
  return pairs.sort();
}

/**
 * Returns a key of the state that a line says: the same for two lines if they say the same, in either language.
 * @param {string} line
 * @returns {string}
 */
export function makeStateKey(line) {
  return String(parseSortedPairs(line));
}

/** Returns a key of the sites that the states of a report show, by those of the first one: the same for two reports if they show the same sites. */
function makeSitesKey({ states }) {
  return String(parseSortedPairs(states[0]?.line ?? "").map(([name]) => name));
}

/**
 * Returns how many states are in both of two reports, and the lines that only one of them has (`alone`); or `why` they can't be compared.
 * @param {...Report} reports
 * @returns {{both: number, alone: string[][]} | {why: string}}
 */
export function compareReports(...reports) {
  if (reports.some((it) => it.left_out)) return { why: NOT_WHOLE };
  if (makeSitesKey(reports[0]) !== makeSitesKey(reports[1])) return { why: OTHER_NAMES };
  const lines = reports.map(({ states }) => new Map(states.map(({ line }) => [makeStateKey(line), line])));
  const others = [...lines].reverse();
  const alone = lines.map((it, index) => [...it].filter(([key]) => !others[index].has(key)).map(([, line]) => line));
  return { both: lines[0].size - alone[0].length, alone };
}
