// Makes a test of a table of x86 instructions, as papers and manuals print it: `MOV [x] ← 1` below the names of processors, and a final state below. Not
// proved.

import { alignCells } from "./aligned.js";
import { numberThreads } from "./assembly.js";
import { guessQuestion } from "./assembly_question.js";
import { describeUnset } from "./assembly_test.js";
import { makeBlock } from "./initial_values.js";
import { isRead } from "./other_tools.js";
import { readTest } from "./tests.js";

const LONGEST = 4000;
const MAX_THREADS = 4;
const TAB = 8;
// A cell that begins farther from its column is not sure.
const MAX_SHIFT = 4;
const TEST = /^\s*(?:X86|SRC)\b|^[ \t]*P0[ \t]*\|(?!\|)[^;\n]*;/m;
const VERDICTS = /allow|forbid|possible|observ|permit/gi;
const KIND = "(?:proc(?:ess(?:or)?)?|thread|cpu|core|P|T)";
const NAME = new RegExp(`^${KIND}[ _:#]*(\\d)\\s*:?$`, "i");
const THREAD = new RegExp(`^\\s*${KIND}[ _#]*(\\d)\\s*:(?!=)\\s*(\\S.*)$`, "i");
const RULE = /^[\s=+|:-]*$/;
const BARS = /\|{1,2}|[\u2502\u2016\u2225]/;
// A number before an instruction, and the event that one is.
const LABEL = /^(?:poi\s*:?\s*\d+|\(?[a-z\d]\)|\d+:)\s*/i;
const EVENT = /\s*\((?:write|read|W|R)\b[^()]*\)$/i;
// Instructions, with those of lw. The operands of AT&T's notation have the other order.
const REGISTER = "(e[abcd]x|e[sd]i)";
const PLACE = "(?:dword\\s+(?:ptr\\s+)?)?\\[\\s*_?([A-Za-z]\\w*)\\s*\\]";
const GETS = "\\s*(?:\u2190|<-|:=|,)\\s*";
const INSTRUCTIONS = [
  [`mov[l]?\\s*${PLACE}${GETS}\\$?(\\d+)`, (x, n) => `MOV [${x}],$${n}`],
  [`mov[l]?\\s*${PLACE}${GETS}${REGISTER}`, (x, r) => `MOV [${x}],${r.toUpperCase()}`],
  [`mov[l]?\\s*${REGISTER}${GETS}${PLACE}`, (r, x) => `MOV ${r.toUpperCase()},[${x}]`],
  [`mov[l]?\\s*${REGISTER}${GETS}\\$?(\\d+)`, (r, n) => `MOV ${r.toUpperCase()},$${n}`],
  [`(?:lock\\s+)?xchg[l]?\\s*${PLACE}\\s*(?:,|\u2194)\\s*${REGISTER}`, (x, r) => `XCHG [${x}],${r.toUpperCase()}`],
  [`(?:lock\\s+)?xchg[l]?\\s*${REGISTER}\\s*(?:,|\u2194)\\s*${PLACE}`, (r, x) => `XCHG [${x}],${r.toUpperCase()}`],
  ["movl?\\s+\\$(\\d+)\\s*,\\s*([A-Za-z]\\w*)(?:\\(%rip\\))?", (n, x) => `MOV [${x}],$${n}`],
  [`movl?\\s+%${REGISTER}\\s*,\\s*([A-Za-z]\\w*)(?:\\(%rip\\))?`, (r, x) => `MOV [${x}],${r.toUpperCase()}`],
  [`movl?\\s+([A-Za-z]\\w*)(?:\\(%rip\\))?\\s*,\\s*%${REGISTER}`, (x, r) => `MOV ${r.toUpperCase()},[${x}]`],
  ["mfence", () => "MFENCE"],
].map(([pattern, write]) => [new RegExp(`^${pattern}$`, "i"), write]);
const IS_REGISTER = new RegExp(`^${REGISTER}$`, "i");
// Lines before the table: initial words, and what a title does not have.
const INITIAL = /^(?:initial(?:ly)?\b(?:\s+(?:state|values?))?\s*:?|(?=\{))(.*)$/i;
const NO_TITLE = /[=\u2190|{}]|<-|\b(?:init\w*|starts?|begins?|holds?|contains?|assum\w+)\b/i;
// Sites with one word in a final state, perhaps with the thread before them, and the other words of such a line.
const ATOM = new RegExp(`(?<![\\w.])(?:${KIND}?[ :]*(\\d)\\s*[:,]?\\s*)?(\\[\\s*_?\\w+\\s*\\]|[A-Za-z_]\\w*)\\s*==?\\s*\\$?(\\d+)(?![\\w.])`, "gi");
const BETWEEN = /\u2227|\/\\|&&?|\band\b|[\s,;.:?()]/gi;
const ASKING = new RegExp(
  "^(?:allowed|allow|forbidden|forbid|final|finally|states?|outcomes?|results?|possible|impossible|observable|observed|is|can|we|have|be|the|on|" +
    "x86|x86-tso|tso|end|in|at|both|with)$",
  "i",
);
const NOT_ALLOWED = /\b(?:(?:is|are)\s+)?not\s+(?:allowed|possible|permitted|observable|observed)\b/gi;
const QUESTION = /^(?:~\s*)?(?:exists|forall)\b/;
const OF_TABLE = "This is a table of instructions, as papers print it: `MOV [x] \u2190 1` is `MOV [x],$1` here.";
const LONGEST_LINE = 48;
// What a row of instructions has, and why lines are not read.
const INSTRUCTION = /\b(?:mov|add|sub|inc|dec|cmp|xchg|xadd|lock|[mls]fence|j[a-z]{1,2})[lq]?\b/i;
const OF_INSTRUCTIONS = "in such a row only `MOV`, `XCHG` and `MFENCE` on names and on registers of 32 bits are read";
const OF_STATES = "it is no final state for sure, as `0:EAX=0 \u2227 1:EBX=0` is";
const OF_FRONT = "the lines before it: write initial words as `Initially x = 1`";
const OF_GUESS = " The question is a guess: change it to yours.";

/** Returns an instruction of lw for a cell; "" for an empty one, and null if it is something else. */
function writeInstruction(cell) {
  const code = cell.replace(/;$/, "").trim().replace(LABEL, "").replace(EVENT, "").trim();
  if (!code) return "";
  for (const [pattern, write] of INSTRUCTIONS) {
    const found = pattern.exec(code);
    if (found) return write(...found.slice(1));
  }
  return null;
}

/** Returns a line with blanks in place of its tabs. */
function expandTabs(line) {
  return line.split("\t").reduce((all, part) => all + "\t".padStart(TAB - (all.length % TAB)) + part).replaceAll("\t", " ");
}

/** Returns the pieces of a line that are apart, each with the index at which it begins. */
function listPieces(line) {
  return [...expandTabs(line).matchAll(/\S+(?: \S+)*/g)].map(({ 0: code, index }) => ({ code, index }));
}

/** Returns the cells of a line between bars, without those of a frame. */
function splitBars(line, isFramed) {
  const row = line.trim().replace(/;$/, "");
  return (isFramed ? row.replace(/^\||\|$/g, "") : row).split(BARS).map((it) => it.trim());
}

/** Returns the numbers of threads that a line has the names of; null if it is something else. */
function readNames(line) {
  const isFramed = /^\s*\|(?!\|)/.test(line);
  const cells = BARS.test(line) ? splitBars(line, isFramed) : listPieces(line).map((it) => it.code);
  const numbers = cells.map((it) => NAME.exec(it)?.[1]);
  const [first] = numbers;
  const isInOrder = numbers.length > 1 && numbers.length <= MAX_THREADS && first <= 1 && numbers.every((it, at) => Number(it) === Number(first) + at);
  const columns = listPieces(line).map((it) => it.index);
  return isInOrder ? { first: Number(first), columns, count: numbers.length, hasBars: BARS.test(line), isFramed } : null;
}

/** Returns the cells of a row of code, one for each thread; null if it is not sure in which column each is. */
function readRow(line, { columns, count, hasBars, isFramed }) {
  if (hasBars) {
    const cells = splitBars(line, isFramed);
    return isFramed === /^\s*\|/.test(line) && BARS.test(line) && cells.length <= count ? [...cells, ...Array(count - cells.length).fill("")] : null;
  }
  const cells = Array(count).fill("");
  for (const { code, index } of listPieces(line)) {
    const thread = columns.findLastIndex((it) => index >= it - 2);
    if (thread < 0 || cells[thread] || index - columns[thread] > MAX_SHIFT) return null;
    cells[thread] = code;
  }
  return cells;
}

/** Returns the site of a final state as a question has it, given the code of each thread; null if it is none, or not sure. */
function writeSite(thread, name, codes) {
  const bare = name.replace(/[[\]\s]|(?<=\[\s*)_/g, "");
  if (IS_REGISTER.test(bare)) {
    const register = bare.toUpperCase();
    const having = codes.flatMap((code, at) => (code.some((it) => it.includes(register)) ? [at] : []));
    const at = thread ?? (having.length === 1 ? having[0] : undefined);
    return having.includes(at) ? `${at}:${register}` : null;
  }
  return thread === undefined && codes.flat().some((it) => it.includes(`[${bare}]`)) ? bare : null;
}

/** Returns the question of a line with a final state; null if it is something else. */
function writeQuestion(line, codes, first) {
  if (QUESTION.test(line)) return numberThreads(line, first);
  if ((line.match(VERDICTS)?.length ?? 0) > 1) return null;
  const atoms = [...line.matchAll(ATOM)].map(([, number, name, word]) => {
    const site = writeSite(number === undefined ? undefined : Number(number) - first, name, codes);
    return site && `${site}=${word}`;
  });
  const rest = line.replace(NOT_ALLOWED, "forbidden").replace(ATOM, " ").replace(BETWEEN, " ").trim().split(/\s+/).filter(Boolean);
  const sites = new Set(atoms.map((it) => it?.split("=")[0]));
  const isSure = atoms.length && !atoms.includes(null) && sites.size === atoms.length && rest.every((it) => ASKING.test(it));
  return isSure ? `exists (${atoms.join(" /\\ ")})` : null;
}

/** Returns the name and the initial values that lines before a table give; null if they may say something else. */
function readFront(lines) {
  const initial = lines.filter((it) => INITIAL.test(it)).map((it) => INITIAL.exec(it)[1].replace(/[{}]|[.;]\s*$/g, "").trim());
  const titles = lines.filter((it) => !INITIAL.test(it));
  const block = !initial.length ? "{}" : initial.length === 1 ? makeBlock(initial[0]) : null;
  if (block === null || titles.some((it) => NO_TITLE.test(it))) return null;
  return { name: titles.length === 1 && /^[A-Za-z]\w*$/.test(titles[0]) ? titles[0] : "Mine", block };
}

/**
 * Returns the code of each thread of a table, the number of the first one, and the indices of the lines at which it begins and ends; null if there is none.
 */
function readTable(lines) {
  const at = lines.findIndex(readNames);
  const names = at < 0 ? null : readNames(lines[at]);
  if (!names) return null;
  const rows = lines.slice(at + 1).map((it) => readRow(it, names)?.map(writeInstruction) ?? [null]);
  const found = rows.findIndex((it) => it.includes(null));
  const length = found < 0 ? rows.length : found;
  const codes = Array.from({ length: names.count }, (_, thread) => rows.slice(0, length).map((it) => it[thread]).filter(Boolean));
  return { codes, first: names.first, begin: at, end: at + 1 + length };
}

/** Returns the same of lines that each have the name of a thread and its code. */
function readThreads(lines) {
  const threads = lines.map((it) => THREAD.exec(it));
  const begin = threads.findIndex(Boolean);
  const found = begin < 0 ? 0 : threads.findIndex((it, at) => at > begin && !it);
  const own = begin < 0 ? [] : threads.slice(begin, found < 0 ? undefined : found);
  const codes = own.map(([, , code]) => code.split(";").map(writeInstruction).filter((it) => it !== ""));
  const first = Number(own[0]?.[1] ?? 2);
  const isSure = own.length > 1 && own.length <= MAX_THREADS && first <= 1 && own.every(([, number], at) => Number(number) === first + at);
  return isSure && !codes.flat().includes(null) ? { codes, first, begin, end: begin + own.length } : null;
}

/**
 * Returns the test of a table (`made`), whether its question is a guess, and what is said of its registers; or `why` it is none, if its first rows are
 * instructions; or null if a text is something else.
 */
function makeTable(text) {
  const lines = text.replace(/\r|\u00a0/g, (it) => (it === "\r" ? "" : " ")).split("\n").filter((it) => it.trim() && !RULE.test(it));
  const { codes, first, begin, end } = readTable(lines) ?? readThreads(lines) ?? { codes: [[]] };
  if (codes.some((it) => !it.length)) return codes.flat().length ? { why: doubtRest(lines[end]) } : null;
  const after = lines.slice(end).map((it) => it.trim());
  const isInitial = (it) => /^initial/i.test(it);
  const front = readFront([...lines.slice(0, begin).map((it) => it.trim()), ...after.filter(isInitial)]);
  const asked = after.filter((it) => !isInitial(it));
  const question = asked.length === 1 ? writeQuestion(asked[0], codes, first) : "";
  if (asked.length > 1 || question === null) return { why: doubtRest(asked[0]) };
  // Names from 1 on may be those of initial registers, too.
  if (!front || (first && /\d\s*:/.test(front.block))) return { why: OF_FRONT };
  const heads = codes.map((_, thread) => `P${thread}`);
  const table = Array.from({ length: Math.max(...codes.map((it) => it.length)) }, (_, row) => codes.map((it) => it[row] ?? ""));
  const bare = `X86 ${front.name}\n${front.block}\n${[heads, ...table].map((it) => ` ${it.join(" | ")} ;\n`).join("")}`;
  if (!isRead(`${bare}exists (true)\n`)) return null;
  const made = `${bare}${question || (guessQuestion(readTest(`${bare}exists (true)\n`))?.trim() ?? "exists (true)")}\n`;
  const unset = /\d:/.test(front.block) ? "" : describeUnset(codes);
  return isRead(made) ? { made: alignCells(made), isGuess: !question, unset: unset ? ` ${unset}` : "" } : { why: OF_FRONT };
}

/** Returns why a line after the rows of a table is not read. */
function doubtRest(line = "") {
  const code = line.trim().replace(/\s+/g, " ").replaceAll("`", "'");
  const why = INSTRUCTION.test(code) ? OF_INSTRUCTIONS : OF_STATES;
  return code ? `\`${code.length > LONGEST_LINE ? `${code.slice(0, LONGEST_LINE - 2)}..` : code}\`: ${why}` : "a thread without instructions";
}

/**
 * Returns a sentence that says what of a table of instructions is not read; or "".
 * @param {string} text
 * @returns {string}
 */
export function explainTableDoubt(text) {
  const table = text.length > LONGEST || TEST.test(text) ? null : makeTable(text);
  return table?.why ? `This looks like a table of instructions, and the page can't make a test of it because of ${table.why}.` : "";
}

/**
 * Returns a hint that offers a test of a table of x86 instructions; null if a text is something else.
 * @param {string} text
 * @returns {Hint | null}
 */
export function explainPaperTable(text) {
  const table = text.length > LONGEST || TEST.test(text) ? null : makeTable(text);
  if (!table?.made) return null;
  const change = { begin: 0, end: text.length, text: table.made, title: "Make x86 code of it", done: "Rewritten." };
  return { words: `${OF_TABLE}${table.unset}${table.isGuess ? OF_GUESS : ""}`, change, isOffer: true };
}
