// Finds the `|` that the threads' names and the rows of a test lack, and cells with several statements, each of which needs a row of its own. Not proved.

import { alignCells } from "./aligned.js";
import { rewriteWhole } from "./notation.js";
import { isRead } from "./other_tools.js";
import { beginsWithX86, blankComments } from "./tokens.js";

const QUESTION = /^\s*(?:locations|filter|(?:[~!]\s*)?exists|forall|not\s+exists)\b/;
const HEADER = /^\s*P0\b(?:[\s,|]*P\d\b)*\s*(?:;\s*)?$/;
const RIGHT_HEADER = /^\s*P0(?:\s*\|\s*P\d)*\s*;\s*$/;
// Cells that two blanks or a tab separate.
const APART = /\S+(?: \S+)*/g;
// Where a further statement begins in a cell.
const BEGINS = {
  X86: /(?<=[\w\])])\s+(?=(?:LOCK\s+)?(?:(?:MOV|ADD|CMP|XCHG|XADD)[LQ]?|MFENCE|J[A-Z]{1,2})\b)(?<!\bLOCK\s+)/i,
  SRC: /(?<=\w)(?<!\bif)\s+(?=\w+\s*:?=(?!=))|(?<=\w)\s+(?=if\b)/,
};

/** Returns the parts of a text between matches of a pattern, without the blanks around them and without empty ones. */
function splitParts(text, pattern) {
  return text.split(pattern).map((it) => it.trim()).filter(Boolean);
}

/**
 * Returns the rows that a line of code means, as lists of cells, one for each of so many threads; null if that is not certain. `columns` has the threads, by the
 * columns at which their cells begin in other rows.
 * @param {string} line
 * @param {number} threads
 * @param {RegExp} begins
 * @param {Map<number, number>} columns
 * @returns {string[][] | null}
 */
function parseRows(line, threads, begins, columns) {
  const code = line.trim().replace(/;$/, "");
  const cells = code.split("|").map((it) => splitParts(it, ";"));
  if (cells.length === threads && cells.some((it) => it.length > 1)) {
    // The statements of a cell, one after another.
    return Array.from({ length: Math.max(...cells.map((it) => it.length)) }, (_, at) => cells.map((it) => it[at] ?? ""));
  }
  // A `;` within fewer cells may separate the cells, or the statements of one thread.
  if (cells.length >= threads || code.includes(";")) return null;
  const statements = cells.flat().flatMap((it) => splitParts(it, begins));
  if (statements.length === threads) return [statements];
  if (cells.length > 1) return null;
  const apart = findCellsApart(line);
  if (apart.length === threads) return [apart.map(([it]) => it)];
  const places = apart.map(({ index }) => columns.get(index));
  if (places.includes(undefined) || new Set(places).size < places.length) return null;
  return [Array.from({ length: threads }, (_, thread) => apart[places.indexOf(thread)]?.[0] ?? "")];
}

/** Returns the matches of the cells of a line that blanks separate. */
function findCellsApart(line) {
  return [...line.trimEnd().replace(/;$/, "").trimEnd().matchAll(APART)];
}

/** Returns the threads by the columns at which the cells of some lines begin, of those lines that have a cell for each of so many threads. */
function findColumns(lines, threads) {
  const full = lines.map(findCellsApart).filter((it) => it.length === threads);
  const all = full.flatMap((cells) => cells.map(({ index }, thread) => [index, thread]));
  return new Map(all.filter(([index, thread]) => all.every(([other, it]) => other !== index || it === thread)));
}

/** Returns the lines of a text, in which rows have what they lack, and the header has its `|`. */
function rewriteLines(text, lines, code, header) {
  const threads = code[header].match(/P\d/g).length;
  const end = code.findIndex((it, at) => at > header && QUESTION.test(it));
  const begins = BEGINS[beginsWithX86(text) ? "X86" : "SRC"];
  const columns = findColumns(code.slice(header, end), threads);
  const isRagged = (line) => line.trim() && (line.split("|").length !== threads || splitParts(line, ";").length > 1);
  return lines.map((line, at) => {
    if (code[at] !== line || at < header || at >= end) return line;
    if (at === header) return RIGHT_HEADER.test(line) ? line : ` ${line.match(/P\d/g).join(" | ")} ;`;
    const rows = isRagged(line) ? parseRows(line, threads, begins, columns) : null;
    return rows ? rows.map((cells) => ` ${cells.join(" | ")} ;`).join("\n") : line;
  });
}

/**
 * Returns a hint on a test whose header has no `|`, or whose rows have not a cell for each thread, with the change that puts in what they lack if the text
 * is then read, perhaps after it is rewritten in lw's notation; otherwise null.
 * @param {string} text
 * @returns {Hint | null}
 */
export function explainRaggedRows(text) {
  const code = blankComments(text).split("\n");
  const lines = text.split("\n");
  const header = code.findIndex((it) => HEADER.test(it));
  if (header < 0 || !code.some((it, at) => at > header && QUESTION.test(it))) return null;
  const made = rewriteLines(text, lines, code, header);
  const at = lines.findIndex((line, row) => line !== made[row]);
  const split = at === header ? alignCells(made.join("\n")) : made.join("\n");
  const { text: whole, words: others } = at < 0 || isRead(split) ? { text: split, words: "" } : rewriteWhole(split);
  if (at < 0 || !isRead(whole)) return null;
  const isSplit = whole.split("\n").length > lines.length;
  const areCells = lines.some((line, row) => row > at && line !== made[row]);
  const parts = at > header ? "Cells" : areCells ? "The threads' names and the cells" : "The threads' names";
  const words = isSplit ? "A cell has one statement, and `;` ends the row of all cells." : `${parts} have a \`|\` between them.`;
  const [begin, row] = [text.split("\n", at).join("\n").length + 1, { row: at + 1, column: 1 }];
  const start = others ? 0 : begin;
  const change = { begin: start, end: text.length, text: whole.slice(start), title: "Rewrite the rows", done: "Rewritten." };
  return { words: `${words} ${others}`.trim(), change, at: { ...row, index: begin } };
}
