// Finds a loop that only waits, and proposes a jump to the end of its thread in place of its jump back, since lw's jumps go forward. Not proved.
//
// Loads change nothing: a run in which such a loop ends has the states of a run in which only its last load is executed. A run in which the loop would go
// on leaves the thread; the question is asked of the other ones, if the loaded register says which these are.
//
// A `Step` has the `labels` and the `code` of a `cell`. A `Jump` has a `label`, `isAlways`, and the `comparison` of a `register` with an `operand` on which it
// depends, which says whether they are to be equal (`isEqual`); or null. A `Loop` has the `steps` of its thread, the indices of its `begin`, its `end` and its
// load (`loaded`), the `label` to which it jumps back, the `register` that it loads, and its `jumps`.

import { alignCells } from "./aligned.js";
import { addEnds, limitQuestion } from "./c_question.js";
import { findFreeRegister, makeRowsBelow } from "./instead.js";
import { parseCells } from "./other_language.js";
import { REGISTERS } from "./token_reader.js";

const MAX_THREADS = 4;
// The loops of a thread with more cells are not looked for.
const MAX_CELLS = 64;
const LABELS = /^(?:\w+\s*:(?!=)\s*)*/;
// In each language: a load, with its register; a comparison that sets a flag; a sum that does; a jump, with what it compares, if it does, and its label;
// and patterns of what may change a register, and of what does so whatever is in it, given its name.
const PATTERNS = {
  X86: {
    load: /^MOV\s+(?<register>E\w\w)\s*,\s*\[\s*\w+\s*\]$/i,
    compare: /^CMP\s+(?<register>E\w\w)\s*,\s*\$?(?<operand>\w+)$/i,
    sum: /^ADD\s+(E\w\w)\s*,\s*\$?\d\w*$/i,
    jump: /^J(?<condition>E|NE|MP)\s+(?<label>\w+)$/i,
    makeChange: (register) => new RegExp(`^(?!CMP\\b|MOV\\s+(?!${register}\\b)).*\\b${register}\\b`, "i"),
    makeSet: (register) => new RegExp(`^MOV\\s+${register}\\b(?!.*\\b${register}\\b)`, "i"),
  },
  SRC: {
    load: /^(?<register>r\d)\s*:=\s*(?!r\d\b)[A-Za-z_]\w*$/,
    compare: /^(?!)/,
    sum: /^(?!)/,
    jump: /^(?:if\s+(?<register>r\d)\s*(?<condition>!?=)\s*(?<operand>\w+)\s+)?goto\s+(?<label>\w+)$/,
    makeChange: (register) => new RegExp(`^${register}\\s*:=`),
    makeSet: (register) => new RegExp(`^${register}\\s*:=(?!.*\\b${register}\\b)`),
  },
};
// What does nothing, on which a loop may begin.
const IDLE = /^(?:(?:PAUSE|(?:REP\s+)?NOP)|)$/i;

/** Returns the steps of a thread; none if they are too many. */
function listSteps(cells, thread) {
  const filled = cells.filter((it) => it.thread === thread && it.code);
  return (filled.length > MAX_CELLS ? [] : filled).map((cell) => {
    const [front] = LABELS.exec(cell.code);
    return { cell, labels: front.match(/\w+/g) ?? [], code: cell.code.slice(front.length) };
  });
}

/** Returns the jump that a step is, with the comparison that it depends on, or null: in x86 code that of an earlier step. Null if it is no jump. */
function parseJump(code, patterns, compared) {
  const { condition, label, register, operand } = patterns.jump.exec(code)?.groups ?? {};
  if (!label) return null;
  const isAlways = !condition || /^mp$/i.test(condition);
  const sides = register ? { register, operand } : compared;
  return { label, isAlways, comparison: isAlways || !sides ? null : { ...sides, isEqual: /^(?:e|=)$/i.test(condition) } };
}

/** Returns the label to which a step jumps; undefined if it is no jump. */
function findTarget({ code }, patterns) {
  return parseJump(code, patterns, null)?.label;
}

/** Returns the registers or words that code compares, whose loop loads a register; null if it does not compare. A sum is compared with 0. */
function parseComparison(code, register, patterns) {
  const sum = patterns.sum.exec(code)?.[1];
  if (sum) return sum.toUpperCase() === register?.toUpperCase() ? { register: sum, operand: "0" } : null;
  return patterns.compare.exec(code)?.groups ?? null;
}

/**
 * Returns the register that the steps of a loop load, and the jumps in it, of which the last one goes back; null if they do more than load once, compare
 * and jump.
 * @param {Step[]} steps
 * @param {object} patterns
 * @returns {{register: string, jumps: Jump[]} | null}
 */
function parseLoop(steps, patterns) {
  const [first, ...others] = steps.map((it) => it.code).filter((it) => !IDLE.test(it));
  const { register } = patterns.load.exec(first)?.groups ?? {};
  let compared = null;
  const jumps = [];
  for (const code of others) {
    const jump = parseJump(code, patterns, compared);
    if (jump) jumps.push(jump);
    else compared = parseComparison(code, register, patterns);
    if (jump ? !jump.isAlways && !jump.comparison : !compared) return null;
  }
  return register && jumps.some((it) => it.comparison) ? { register, jumps } : null;
}

/** Returns whether a run comes into a loop, which has a begin and an end among the steps of its thread, at its load at the latest, and leaves it forward. */
function isEntered({ steps, begin, end, loaded, jumps }, patterns) {
  const labels = new Set(steps.slice(loaded + 1, end + 1).flatMap((it) => it.labels));
  const own = new Set(steps.slice(begin, end + 1).flatMap((it) => it.labels));
  return !steps.some((it) => labels.has(findTarget(it, patterns))) && jumps.slice(0, -1).every((it) => !own.has(it.label));
}

/**
 * Returns the loop that ends in the jump back that a step of a thread is; null if it is none, or if its loop does more than wait.
 * @param {Step[]} steps
 * @param {number} end
 * @param {object} patterns
 * @returns {Loop | null}
 */
function findLoop(steps, end, patterns) {
  const label = findTarget(steps[end], patterns);
  const begin = steps.findIndex((it) => it.labels.includes(label));
  const read = label !== undefined && begin >= 0 && begin <= end ? parseLoop(steps.slice(begin, end + 1), patterns) : null;
  if (!read) return null;
  const loop = { steps, begin, end, label, loaded: steps.findIndex((it, at) => at >= begin && !IDLE.test(it.code)), ...read };
  return isEntered(loop, patterns) ? loop : null;
}

/** Returns whether the register of a loop may change after the loop, perhaps since another jump goes back. */
function mayChange({ steps, end, register }, patterns) {
  const change = patterns.makeChange(register);
  const isBack = (it, at) => {
    const target = findTarget(it, patterns);
    return target !== undefined && steps.slice(0, end + 1 + at).some(({ labels }) => labels.includes(target));
  };
  return steps.slice(end + 1).some((it, at) => change.test(it.code) || isBack(it, at));
}

/** Returns whether a thread sets the register of a loop after the loop, before it uses it or jumps. */
function isSetNext({ steps, end, register, jumps }, patterns) {
  const use = new RegExp(`\\b${register}\\b`, "i");
  const later = steps.slice(end + 1);
  const next = later.find((it) => use.test(it.code) || findTarget(it, patterns) !== undefined);
  const exits = jumps.slice(0, -1).map((it) => it.label);
  return next !== undefined && patterns.makeSet(register).test(next.code) && exits.every((it) => later[0].labels.includes(it));
}

/** Returns whether a run may pass a loop by an earlier jump. */
function canBePassed({ steps, begin, loaded }, patterns) {
  const earlier = new Set(steps.slice(0, loaded + 1).flatMap((it) => it.labels));
  const targets = steps.slice(0, begin).map((it) => findTarget(it, patterns));
  return targets.some((it) => it !== undefined && !earlier.has(it));
}

/**
 * Returns the word with which a loop compares the register that it loads, and whether this is equal when the loop has ended; null if it compares more, or if a
 * run may not come to the loop.
 */
function describeEnd(loop, patterns) {
  const { register, jumps } = loop;
  const [{ comparison } = {}, another] = jumps.filter((it) => it.comparison);
  const word = /^(?:0x[\da-f]+|\d+)$/i.test(comparison?.operand ?? "") ? Number(comparison.operand) : null;
  if (another || word === null || comparison.register.toUpperCase() !== register.toUpperCase() || canBePassed(loop, patterns)) return null;
  return { word, isEqual: comparison.isEqual === jumps.at(-1).isAlways };
}

/** Returns a label for the end of a thread, and whether the thread has it there. */
function chooseEnd(steps) {
  const { labels, code } = steps.at(-1);
  if (labels.length && !code) return { label: labels[0], isThere: true };
  const names = new Set(steps.flatMap((it) => it.labels));
  let label = "END";
  while (names.has(label)) label += "_";
  return { label, isThere: false };
}

/** Returns the edits by which a loop's jump back goes to the end of its thread. */
function listLeavingEdits(text, cells, { steps, end: at, label }, thread) {
  const end = chooseEnd(steps);
  const last = cells.indexOf(steps.at(-1).cell);
  const row = cells.slice(last).find((it) => text[it.end] === ";");
  const { front } = cells.slice(0, last + 1).findLast((it) => it.thread === 0);
  const below = end.isThere ? null : makeRowsBelow(text, { front, end: row.end }, thread, [`${end.label}:`]);
  const { begin, code } = steps[at].cell;
  const index = begin + code.length;
  // The cell stays as broad as it is, if it has blanks.
  const blanks = new RegExp(`^ {0,${Math.max(0, end.label.length - label.length)}}(?= )`).exec(text.slice(index)) ?? [""];
  const jump = { begin: index - label.length, end: index + blanks[0].length, text: end.label };
  return below ? [jump, { begin: row.end, end: below.end, text: below.rows }] : [jump];
}

/** Returns the edits by which a loop loads another register. */
function listRegisterEdits({ steps, begin, end, register }, other) {
  const uses = new RegExp(`\\b${register}\\b`, "gi");
  const makeEdit = (index) => ({ begin: index, end: index + register.length, text: other });
  return steps.slice(begin, end + 1).flatMap(({ cell }) => [...cell.code.matchAll(uses)].map(({ index }) => makeEdit(cell.begin + index)));
}

/** Returns the register that a loop loads in a new test, of which the question may ask: another one if the thread sets its own again; or null. */
function chooseRegister(text, loop, thread, language) {
  const patterns = PATTERNS[language];
  if (!mayChange(loop, patterns)) return loop.register;
  return (isSetNext(loop, patterns) && findFreeRegister(text, thread, REGISTERS[language])) || null;
}

/**
 * Returns a text in which a thread leaves the last one of its loops that only wait, with the register that is put `instead` of its own, if it gets another one,
 * and the formula that it has ended if the question asks only for the states in which that holds (`asked`), or null; null if there is no such loop.
 * @param {string} text
 * @param {number} thread
 * @param {string} language
 * @returns {{text: string, instead: {from: string, to: string} | null, asked: Formula | null} | null}
 */
function leaveLastLoop(text, thread, language) {
  const patterns = PATTERNS[language];
  const cells = parseCells(text);
  const steps = listSteps(cells, thread);
  const loop = steps.map((_, at) => findLoop(steps, at, patterns)).findLast(Boolean);
  if (!loop) return null;
  const { register: from } = loop;
  const ended = describeEnd(loop, patterns);
  const to = ended && chooseRegister(text, loop, thread, language);
  const tail = text.slice(cells.at(-1).end + 1);
  const formula = to && { name: `${thread}:${language === "X86" ? to.toUpperCase() : to}`, ...ended };
  const question = to && limitQuestion(tail.trim(), [formula]);
  const instead = question && to !== from ? { from, to } : null;
  const edits = [...(instead ? listRegisterEdits(loop, to) : []), ...listLeavingEdits(text, cells, loop, thread)];
  const code = edits.reduceRight((whole, it) => whole.slice(0, it.begin) + it.text + whole.slice(it.end), text.slice(0, text.length - tail.length));
  return { text: code + (question ? `\n${question}\n` : tail), instead, asked: question ? formula : null };
}

/** Returns a text in which threads leave all loops that only wait, with what `leaveLastLoop` returns of each. */
function leaveLoops(text, language) {
  const left = [];
  // Later loops first: a run does not pass them by leaving an earlier one, of which the question is asked, too.
  for (let thread = 0; thread < MAX_THREADS; ) {
    const next = leaveLastLoop(left.at(-1)?.text ?? text, thread, language);
    if (next) left.push(next);
    else thread += 1;
  }
  const bare = left.at(-1)?.text ?? text;
  const asked = left.map((it) => it.asked).reverse();
  const made = addEnds(bare, asked.includes(null) ? [] : asked);
  return { left, made: alignCells(text) === text ? alignCells(made) : made };
}

/**
 * Returns an x86 test in which threads leave all loops that only wait; the test itself, if there is none.
 * @param {string} text
 * @returns {string}
 */
export function leaveAllLoops(text) {
  const { left, made } = leaveLoops(text, "X86");
  return left.length ? made : text;
}

/** Returns sentences on loops that only wait. */
function describeLoops(left) {
  const isSingle = left.length === 1;
  const { from, to } = left.find((it) => it.instead)?.instead ?? {};
  const only = isSingle ? "This loop only waits" : "These loops only wait";
  const leave = isSingle ? "its thread can leave it by a jump forward" : "threads can leave them by jumps forward";
  const renamed = from ? `, with \`${to}\` in place of \`${from}\`, which is set again later` : "";
  const asked = left.every((it) => it.asked) ? "are hidden in the list, and the question leaves them out" : "are in the list, too";
  return `${only}, so one try is enough: ${leave}${renamed}. States in which ${isSingle ? "it has" : "one has"} not ended ${asked}.`;
}

/**
 * Returns sentences on the loop that jumps back at a fault's place if it only waits, and proposes to leave its thread in place of that, in all such loops;
 * or "".
 * @param {FaultPlace} place
 * @returns {string}
 */
export function explainWaiting(place) {
  const { text, index, isX86 } = place;
  const language = isX86 ? "X86" : "SRC";
  const cells = parseCells(text);
  const cell = cells.find((it) => it.begin <= index && index < it.end);
  const steps = cell ? listSteps(cells, cell.thread) : [];
  const at = steps.findIndex((it) => it.cell === cell);
  if (at < 0 || !findLoop(steps, at, PATTERNS[language])) return "";
  const { left, made } = leaveLoops(text, language);
  place.proposeChange(made, 0, text.length);
  place.change.title = left.length === 1 ? `Jump to the end of P${cell.thread}` : `Change ${left.length} jumps`;
  return describeLoops(left);
}
