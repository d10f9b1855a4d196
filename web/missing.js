// Finds a state that a list lacks, to ask about, and the state of the list that comes closest to it.

import { parseReportLine } from "./replays.js";

// The largest number of states of a list in which a missing one is looked for, and of combinations of words that are tried.
const MAX_LOOKED_AT = 2000;
const MAX_TRIED = 20000;

/** Returns the words of each site: first those that the question names, then those that it has in the states of a report. */
function listColumns({ states }, wordsAsked) {
  const lines = states.map(({ line }) => parseReportLine(line));
  return (lines[0] ?? []).map(([name], index) => {
    const asked = wordsAsked.get(name) ?? [];
    const others = [...new Set(lines.map((it) => it[index][1]))].sort((a, b) => b - a);
    return { name, words: [...new Set([...asked, ...others])] };
  });
}

/**
 * Returns a state that a report lacks and that the question asks about, or, with no question, any of words that its states have; null if none is
 * found, or not all states are known.
 * @param {Report} report
 * @param {{isAsked: function(string): boolean, words: Map<string, number[]>}} [question]
 * @returns {string | null}
 */
export function findMissingState(report, { isAsked, words } = { isAsked: () => true, words: new Map() }) {
  if (report.left_out || !report.states.length || report.states.length > MAX_LOOKED_AT) return null;
  const lines = new Set(report.states.map(({ line }) => line));
  let tried = 0;
  const find = (begin, [column, ...others]) => {
    if (!column) {
      tried += 1;
      const line = begin.join(" ");
      return lines.has(line) || !isAsked(line) ? null : line;
    }
    for (const word of column.words) {
      const state = tried < MAX_TRIED ? find([...begin, `${column.name}=${word};`], others) : null;
      if (state !== null) return state;
    }
    return null;
  };
  return find([], listColumns(report, words));
}

/**
 * Returns in how many words two states differ, by their lines.
 * @param {string} line
 * @param {string} other
 * @returns {number}
 */
export function countDifferences(line, other) {
  const words = parseReportLine(other);
  return parseReportLine(line).filter(([, word], at) => word !== words[at][1]).length;
}

/**
 * Returns the first of the states of a list that differ in the fewest words from a missing one; undefined if none is missing.
 * @param {{line: string}[]} states
 * @param {string | null} missing
 * @returns {{line: string} | undefined}
 */
export function findClosest(states, missing) {
  if (missing === null) return undefined;
  return states.reduce((best, it) => (countDifferences(it.line, missing) < countDifferences(best.line, missing) ? it : best));
}
