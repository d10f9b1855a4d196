// Compares what the page says of typed texts, and makes of them, for the files of this folder that have the texts.

import { fileURLToPath } from "node:url";
import { isDeepStrictEqual } from "node:util";

/**
 * Returns the fault that lw reports of a text that does not begin as a test.
 * @param {string} text
 * @returns {Fault}
 */
export function makeFault(text) {
  return { kind: "text", number: 4, name: "Unexpected", row: 1, column: 1, index: text.search(/\S/) };
}

/**
 * Compares the words on texts, and the tests that are made of them.
 * @param {{faults: object, other_tools: object}} page
 * @param {function(string, any, any)} compare
 * @param {[string, string, string, string | null][]} texts each with its name, its words, and its test or null
 */
export function compareTexts({ faults, other_tools }, compare, texts) {
  for (const [name, text, words, made] of texts) {
    const { words: found, change } = faults.explainFault(makeFault(text), text);
    compare(`the words on ${name}`, words, found);
    compare(`the test of ${name}`, [made, made !== null], [change?.text ?? null, change !== null && other_tools.isRead(change.text)]);
  }
}

/** The most milliseconds of processor time that a long text may take: one with a quadratic pattern takes many times as long, also on a fast machine. */
export const SLOWEST = 4000;

/**
 * Returns the milliseconds of processor time that a function takes, which do not depend on what else the machine does.
 * @param {function(): void} run
 * @returns {number}
 */
export function measure(run) {
  const begin = process.cpuUsage();
  run();
  const { user, system } = process.cpuUsage(begin);
  return (user + system) / 1000;
}

/**
 * Compares the processor time that long texts take with the longest that they may take.
 * @param {{faults: object}} page
 * @param {function(string, any, any)} compare
 * @param {[string, string][]} texts each with its name
 */
export function compareTimes({ faults }, compare, texts) {
  for (const [name, text] of texts) {
    const took = measure(() => faults.explainFault(makeFault(text), text));
    compare(`the time for a long text of ${name}`, true, took < SLOWEST || took);
  }
}

/**
 * Runs comparisons if a module of this folder is the program that node runs, prints those that fail, and then their numbers.
 * @param {string} url
 * @param {function(function(string, any, any)): Promise<void>} compareAll
 */
export async function runAlone(url, compareAll) {
  if (process.argv[1] !== fileURLToPath(url)) return;
  const counts = [0, 0];
  await compareAll((what, expected, found) => {
    const isSame = isDeepStrictEqual(expected, found);
    counts[Number(!isSame)] += 1;
    if (!isSame) console.log(`${what}\n  wanted: ${JSON.stringify(expected)}\n  found:  ${JSON.stringify(found)}`);
  });
  console.log(`${counts[0]} passed, ${counts[1]} failed`);
  process.exitCode = counts[1] ? 1 : 0;
}
