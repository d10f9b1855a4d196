// Finds the faults of a text after its first one, which is the only one that lw reports: each fault is mended in a copy of the text, and lw is asked
// again. Not proved.

import { explainFault } from "./faults.js";
import { parseCells } from "./other_language.js";
import { findToken } from "./tokens.js";

const MAX_ROUNDS = 8;
// Texts whose numbers of tokens have a larger product are not aligned.
const MAX_PAIRS = 4e6;

/**
 * Returns, for each character of a new text that begins a token of the longest common sequence of tokens, the index of that token in an old text;
 * undefined for all other characters.
 * @param {string} old
 * @param {string} put
 * @returns {(number | undefined)[]}
 */
function alignTokens(old, put) {
  const [from, to] = [old, put].map((it) => [...it.matchAll(/\w+|\S/g)]);
  const indices = Array(put.length).fill();
  if (from.length * to.length > MAX_PAIRS) return indices;
  // The lengths of the longest common sequences, from a token of each text on.
  const lengths = Array.from({ length: from.length + 1 }, () => new Uint16Array(to.length + 1));
  for (let i = from.length - 1; i >= 0; i -= 1) {
    for (let j = to.length - 1; j >= 0; j -= 1) {
      lengths[i][j] = from[i][0] === to[j][0] ? lengths[i + 1][j + 1] + 1 : Math.max(lengths[i + 1][j], lengths[i][j + 1]);
    }
  }
  let j = 0;
  for (const [i, { 0: token, index }] of from.entries()) {
    if (lengths[i][j] === lengths[i + 1][j]) continue;
    while (to[j][0] !== token) j += 1;
    indices[to[j].index] = index;
    j += 1;
  }
  return indices;
}

/** Returns the edit that takes the code out of the cell that has an index, except its labels; undefined if no cell has it. */
function emptyCell(text, index) {
  const cell = parseCells(text).find(({ front, end }) => front <= index && index <= end);
  const [labels] = /^(?:\w+\s*:(?!=)\s*)*/.exec(cell?.code.slice(0, index - cell.begin));
  return cell && { begin: cell.begin + labels.length, end: cell.begin + cell.code.length, text: "" };
}

/** Returns the place of an index in a text. */
function findPlace(text, index) {
  const lines = text.slice(0, index).split("\n");
  return { row: lines.length, column: [...lines.at(-1)].length + 1, index };
}

/**
 * Returns the faults of a text after the first one, from top to bottom, each with its hint, whose `at` is its place in the text; and the `change`
 * that mends all of them and the first, or null if none is known. A fault that the mending may have caused is left out. `findFault` returns the first
 * fault of a text; null if it has none, and undefined if there is no answer.
 * @param {{fault: Fault, hint: Hint}} first
 * @param {string} text
 * @param {function(string): Promise<Fault | null | undefined>} findFault
 * @returns {Promise<{faults: {fault: Fault, hint: Hint}[], change: object | null}>}
 */
export async function findFurtherFaults(first, text, findFault) {
  // `words` are the first words of mended cells, which may be labels.
  const [faults, words] = [[], []];
  let [{ fault, hint }, mended, areProposed, change] = [first, text, true, null];
  // For each index of the mended text that in the text itself, or undefined if what is there was put in.
  let indices = Array.from({ length: text.length + 1 }, (_, at) => at);
  for (let round = 0; round < MAX_ROUNDS; round += 1) {
    const cell = fault.kind === "cell" ? emptyCell(mended, fault.index) : null;
    if (round) {
      hint = explainFault(fault, mended);
      const index = indices[hint.at?.index ?? fault.index];
      const at = indices[cell?.begin];
      const code = cell && mended.slice(cell.begin, cell.end);
      const isOriginal = !cell || text.slice(at, at + code.length) === code;
      if (index !== undefined && isOriginal) faults.push({ fault, hint: { ...hint, at: findPlace(text, index) } });
      else if (!cell) break;
    }
    const edit = hint.change ?? cell;
    // What is put in at the front of the text is a guess at its language.
    if (!edit?.end || edit.end - edit.begin === mended.length) break;
    if (cell) words.push(findToken(mended, cell.begin));
    areProposed &&= edit !== cell;
    const put = alignTokens(mended.slice(edit.begin, edit.end), edit.text).map((it) => indices[edit.begin + it]);
    indices = [...indices.slice(0, edit.begin), ...put, ...indices.slice(edit.end)];
    mended = mended.slice(0, edit.begin) + edit.text + mended.slice(edit.end);
    const next = await findFault(mended);
    if (next === null && areProposed) change = { begin: 0, end: text.length, text: mended };
    const isOfLabel = /^(?:LabelMissing|Backward)$/.test(next?.name) && words.includes(findToken(mended, next.index));
    if (!next || (next.kind !== "cell" && next.kind !== fault.kind) || next.name.startsWith("TooMany") || isOfLabel) break;
    fault = next;
  }
  return { faults: faults.sort((one, other) => one.hint.at.index - other.hint.at.index), change };
}
