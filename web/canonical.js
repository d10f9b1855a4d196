// The canonical text of an x86 test, written anew for a test without some of its fences, and the cells of code that the page shows.
// Not proved: canonical texts of whole tests are lw's own.
//
// A `Cell` has its `text` and `at`, the position of its statement, or of the next one if it only has a label.

import { formatCondition, formatSite, sortSites } from "./propositions.js";
import { REGISTERS } from "./token_reader.js";

/**
 * Returns an instruction in the canonical text.
 * @param {Test} test
 * @param {Statement} instruction
 * @returns {string}
 */
export function formatInstruction(test, instruction) {
  const names = REGISTERS.X86;
  const register = names[instruction.register] ?? "";
  const location = instruction.location === undefined ? "" : `[${test.locations[instruction.location]}]`;
  const value = instruction.value && (instruction.value.number === undefined ? names[instruction.value.register] : `$${instruction.value.number}`);
  if (instruction.kind === "store") return `MOV ${location},${value}`;
  if (instruction.kind === "load" || instruction.kind === "set") return `MOV ${register},${location || value}`;
  if (instruction.kind === "add" || instruction.kind === "cmp") return `${instruction.kind.toUpperCase()} ${register},${value}`;
  if (instruction.kind === "xchg") return `XCHG ${location},${register}`;
  if (instruction.kind === "xadd") return `LOCK XADD ${location},${register}`;
  return instruction.kind === "mfence" ? "MFENCE" : `${instruction.kind.toUpperCase()} L${instruction.target}`;
}

/** Returns the cells of a thread in the canonical text. */
function formatCells(test, code) {
  const targets = new Set(code.map((it) => it.target));
  const cells = code.map((it, index) => (targets.has(index) ? `L${index}: ` : "") + formatInstruction(test, it));
  return targets.has(code.length) ? [...cells, `L${code.length}:`] : cells;
}

/**
 * Returns the canonical text of an x86 test.
 * @param {Test} test
 * @returns {string}
 */
export function formatCanonicalText(test) {
  const formatRow = (cells) => ` ${cells.join(" | ")} ;`;
  const columns = test.threads.map((code) => formatCells(test, code));
  const registers = test.registers.flatMap((words, thread) => words.map((word, index) => [`${thread}:${REGISTERS.X86[index]}`, word]));
  const words = test.locations.map((name, index) => [name, test.words[index]]);
  const block = [...registers.filter(([, word]) => word), ...words].map(([name, word]) => ` ${name}=${word};`);
  const height = Math.max(...columns.map((it) => it.length));
  const rows = Array.from({ length: height }, (_, at) => formatRow(columns.map((column) => column[at] ?? "")));
  const listed = sortSites(test.listed).map((site) => `${formatSite(test, site)};`);
  const lines = [`X86 ${test.name}`, "{", ...block, "}", formatRow(columns.map((_, thread) => `P${thread}`)), ...rows];
  if (listed.length) lines.push(`locations [${listed.join(" ")}]`);
  return [...lines, formatCondition(test)].map((line) => `${line}\n`).join("");
}

/**
 * Returns, for each thread, its cells in a canonical text: row k has instruction k.
 * @param {string} canonical
 * @returns {Cell[][]}
 */
export function listX86Cells(canonical) {
  const lines = canonical.slice(canonical.indexOf("\n}\n") + 3).split("\n").filter((line) => line.startsWith(" "));
  const [head, ...rows] = lines.map((line) => line.slice(1, -2).split(" | "));
  return head.map((_, thread) => rows.map((row, index) => ({ text: row[thread], at: index })).filter((it) => it.text));
}

/**
 * Returns, for each thread, its cells that are not empty.
 * @param {Test} test
 * @returns {Cell[][]}
 */
export function listSourceCells(test) {
  return test.columns.map((cells) => {
    let at = 0;
    return cells.filter((cell) => cell.length).map((cell) => {
      const shown = { text: formatCell(cell), at };
      at += hasStatement(cell) ? 1 : 0;
      return shown;
    });
  });
}

/**
 * Returns whether a statement follows a cell's labels.
 * @param {Token[]} cell
 * @returns {boolean}
 */
function hasStatement(cell) {
  let at = 0;
  while (cell[at + 1]?.text === ":") at += 2;
  return at < cell.length;
}

/**
 * Spells a cell of a source test.
 * @param {Token[]} cell
 * @returns {string}
 */
function formatCell(cell) {
  const text = cell.map((it) => it.text).join(" ").replaceAll(" : ", ": ");
  return text.endsWith(" :") ? `${text.slice(0, -2)}:` : text;
}
