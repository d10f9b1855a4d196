// Puts fences into the text of an x86 test, and takes them out again: nothing else of the text changes. A fence goes into a row of its own, or
// into an empty cell right before its place. The new text is read again, and is used only if it is the test that was wanted. Not proved.
//
// A `TextCell` has the offsets of its `begin` and its `end`, its `labels` and its `instruction`. A `Place` is that of fencing.js.

import { insertFences } from "./fencing.js";
import { removeFences } from "./sparing.js";
import { readTest } from "./tests.js";
import { blankComments } from "./tokens.js";

const FENCE = "MFENCE";
const END_OF_ROWS = /^\s*(?:locations|exists|forall|filter|~)/;

/**
 * Returns the rows of a test below its header: the offsets of the start and the end of each, and its cells.
 * @param {string} text
 * @returns {{begin: number, end: number, cells: TextCell[]}[]}
 */
function parseRows(text) {
  const code = blankComments(text);
  const rows = [];
  let begin = code.indexOf(";", code.indexOf("P0", code.indexOf("}"))) + 1;
  while (begin > 0 && !END_OF_ROWS.test(code.slice(begin))) {
    const end = code.indexOf(";", begin);
    if (end < 0) break;
    const line = findLineBegin(code, begin, end);
    rows.push({ begin: line, end, cells: parseCells(code, line, end) });
    begin = end + 1;
  }
  return rows;
}

/**
 * Returns the start of the line on which a row begins, or of the row itself if another one is on the same line.
 * @param {string} code
 * @param {number} begin
 * @param {number} end
 * @returns {number}
 */
function findLineBegin(code, begin, end) {
  const first = begin + /^\s*/.exec(code.slice(begin, end))[0].length;
  return Math.max(begin, code.lastIndexOf("\n", first - 1) + 1);
}

/**
 * Returns the cells of the row between two offsets.
 * @param {string} code
 * @param {number} begin
 * @param {number} end
 * @returns {TextCell[]}
 */
function parseCells(code, begin, end) {
  let at = begin;
  return code.slice(begin, end).split("|").map((raw) => {
    const [, labels, instruction] = /^\s*((?:\w+\s*:\s*)*)([^]*?)\s*$/.exec(raw);
    const cell = { begin: at, end: at + raw.length, labels, instruction };
    at += raw.length + 1;
    return cell;
  });
}

/**
 * Returns the row and the cell of an instruction, by its thread and its position; undefined if there is none.
 * @param {{cells: TextCell[]}[]} rows
 * @param {Place} place
 * @returns {{row: number, cell: TextCell} | undefined}
 */
function findCell(rows, [thread, position]) {
  const filled = rows.flatMap(({ cells }, row) => (cells[thread]?.instruction ? [{ row, cell: cells[thread] }] : []));
  return filled[position];
}

/** Returns a text in which another text takes the place of a cell. */
function replaceCell(text, { begin, end }, inner) {
  return text.slice(0, begin) + inner + text.slice(end);
}

/**
 * Returns the text of a cell, as wide as it was if that can be.
 * @param {string} inner
 * @param {TextCell} cell
 * @returns {string}
 */
function padCell(inner, { begin, end }) {
  return `${` ${inner}`.trimEnd().padEnd(end - begin - 1)} `;
}

/**
 * Returns a text with a fence before an instruction: labels of the instruction are the fence's then.
 * @param {string} text
 * @param {Place} place
 * @returns {string}
 */
function insertFence(text, place) {
  const rows = parseRows(text);
  const { row, cell } = findCell(rows, place);
  const [thread] = place;
  const labelled = `${cell.labels.trim()} ${FENCE}`.trim();
  const unlabelled = cell.labels ? replaceCell(text, cell, padCell(cell.instruction, cell)) : text;
  const above = rows[row - 1]?.cells[thread];
  const isFree = above && !text.slice(above.begin, above.end).trim();
  if (isFree) return replaceCell(unlabelled, above, padCell(labelled, above));
  const { begin, cells } = rows[row];
  const added = cells.map((it, index) => (index === thread ? padCell(labelled, it) : " ".repeat(Math.max(1, it.end - it.begin))));
  return `${unlabelled.slice(0, begin)}${added.join("|")};\n${unlabelled.slice(begin)}`;
}

/**
 * Returns a text without a fence, whose labels are those of the next instruction then. A row that only had the fence goes with it.
 * @param {string} text
 * @param {Place} place
 * @returns {string}
 */
function removeFence(text, place) {
  const rows = parseRows(text);
  const [thread] = place;
  const { row, cell } = findCell(rows, place);
  const below = rows[row + 1]?.cells[thread];
  const isMoved = Boolean(cell.labels && below?.instruction);
  const relabelled = isMoved ? replaceCell(text, below, padCell(`${cell.labels.trim()} ${below.labels}${below.instruction}`, below)) : text;
  const labels = isMoved ? "" : cell.labels.trim();
  const { begin, end, cells } = rows[row];
  const isAlone = !labels && cells.every((it) => it === cell || !text.slice(it.begin, it.end).trim());
  if (!isAlone) return replaceCell(relabelled, cell, padCell(labels, cell));
  return relabelled.slice(0, begin) + relabelled.slice(end + 1).replace(/^[ \t]*\n/, "");
}

/**
 * Returns a text with a change at each place, or null unless it then reads as the test that `changeTest` returns.
 * @param {string} text
 * @param {Place[]} places
 * @param {function(string, Place): string} change
 * @param {function(Test): Test} changeTest
 * @returns {string | null}
 */
function applyChanges(text, places, change, changeTest) {
  try {
    const inOrder = [...places].sort(([, one], [, other]) => other - one);
    const result = inOrder.reduce(change, text);
    return JSON.stringify(readTest(result).threads) === JSON.stringify(changeTest(readTest(text)).threads) ? result : null;
  } catch {
    return null;
  }
}

/**
 * Returns the text of an x86 test with fences before some instructions, each a thread and a position; null if that can't be done.
 * @param {string} text
 * @param {Place[]} places
 * @returns {string | null}
 */
export function insertFencesInText(text, places) {
  return applyChanges(text, places, insertFence, (test) => insertFences(test, places));
}

/**
 * Returns the text of an x86 test without one of its fences, by its thread and position; null if that can't be done.
 * @param {string} text
 * @param {Place} place
 * @returns {string | null}
 */
export function removeFenceFromText(text, place) {
  return applyChanges(text, [place], removeFence, (test) => removeFences(test, [place]));
}

/** Returns the place of a fence, a thread and an index in its code, that words such as `P0 at 1, before ..` name. */
function parsePlace(words) {
  const [, thread, at] = /^P(\d) at (\d+)/.exec(words);
  return [Number(thread), Number(at)];
}

/**
 * Returns a test with a set of fences that an answer has: the test's own text if the fences can be put into it, or else the canonical one.
 * @param {string} text
 * @param {{places: string[], text: string}} set
 * @returns {string}
 */
export function insertFenceSet(text, set) {
  return insertFencesInText(text, set.places.map(parsePlace)) ?? set.text;
}
