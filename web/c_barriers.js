// Leaves out barriers of programs in C and C++ at which all threads that use them begin or end: such a barrier changes no final state. Not proved.
//
// The record `Edit` is that of c_edits.js. Edits of one kind have a sentence on it, `words`.

import { isStatement, listCalls, replaceMatch } from "./c_edits.js";

const OF_BARRIER = " A barrier at which threads only begin or end is left out: it changes no final state.";
const BARRIER = /\b(?:std\s*::\s*)?(?:barrier\s*(?:<\s*>)?|latch)\s+(\w+)\s*[({]\s*(\w+)\s*[)}]\s*;/g;
const POSIX = /\b(?:static\s+)?pthread_barrier_t\s+(\w+)\s*;/g;
const COUNTING = /\bfor\s*\([^;(){}]*=\s*0\s*;\s*\w+\s*<\s*(\w+)\s*;[^;(){}]*\)\s*(?:\{[^{}]*)?[^;{}]*$/;
// What starts a lambda as a thread, up to the `{` of its body. And a `{` of a function, whose name is the group.
const LAMBDA = /(?:\bj?thread\s*(?:\w+\s*)?[({]|\bemplace_back\s*\(|\bpush_back\s*\()\s*\[[^\]]*\]\s*(?:\([^(){}]*\)\s*)?(?:mutable\s*)?\{\s*$/;
const FUNCTION = /\b(?:void|int)\s*\*?\s*(\w+)\s*\(([^(){};]*)\)\s*\{\s*$/;
const FUNCTIONS = /\b(?:void|int)\s*\*?\s*\w+\s*\([^(){};]*\)\s*\{/g;
// The end of a thread, which returns nothing that it loads there; and what it may hold then.
const END = /^\s*;\s*(?:return\b\s*(?:\(\s*void\s*\*\s*\)\s*)?(?:\d+|NULL|nullptr)?\s*;\s*)?\}/;
const HELD = /lock|mutex|mtx|\bsem_|acquire/i;

/**
 * Returns how often a thread starts whose body begins after a place: a number or the name of one for each place in the code where it starts; null if this is
 * not known.
 * @param {string} code
 * @param {number} begin
 * @returns {string[] | null}
 */
export function listStarts(code, begin) {
  const before = code.slice(0, begin);
  if (LAMBDA.test(before)) return [countStarts(before.replace(/\[[^\]]*\]\s*(?:\([^(){}]*\)\s*)?(?:mutable\s*)?\{\s*$/, ""))];
  const [, name] = FUNCTION.exec(before) ?? [];
  if (!name || name === "main") return null;
  const places = [...code.matchAll(new RegExp(`\\b${name}\\b(\\s*\\()?`, "g"))];
  // Without `main` a function is a thread, or two if it is the only one.
  if (!/\bmain\s*\(/.test(code)) return places.length === 1 && code.match(FUNCTIONS).length > 1 ? ["1"] : null;
  const uses = places.filter((it) => !it[1]);
  return places.length === uses.length + 1 ? uses.map((it) => countStarts(code.slice(0, it.index))) : null;
}

/** Returns how often a thread starts at the end of a code: as often as the loop counts that it is in, or once. */
function countStarts(before) {
  return COUNTING.exec(before)?.[1] ?? "1";
}

/** Returns whether the threads that use a barrier are as many as it waits for. */
function isWhole(starts, count) {
  return (starts.length === 1 && starts[0] === count) || starts.reduce((total, it) => total + Number(it), 0) === Number(count);
}

/** Returns the `{` of the body that ends after an index, where no other one begins or ends between; -1 if there is none. */
function findOpening(code, index) {
  let depth = 0;
  for (let at = index; at >= 0; at -= 1) {
    depth += Number(code[at] === "}") - Number(code[at] === "{");
    if (depth < 0) return at;
  }
  return -1;
}

/** Returns whether all calls of a barrier are at the begin or the end of the threads that use it, and these are as many as it waits for. */
function isOutside(code, calls, count) {
  const sides = [[], []];
  for (const it of calls) {
    const isFirst = /\{\s*$/.test(code.slice(0, it.begin));
    const open = findOpening(code, it.begin);
    const isLast = END.test(code.slice(it.end)) && !HELD.test(code.slice(open, it.begin));
    const starts = isStatement(code, it) && (isFirst || isLast) ? listStarts(code, open + 1) : null;
    if (!starts) return false;
    sides[Number(!isFirst)].push(...starts);
  }
  return calls.length > 0 && sides.every((it) => !it.length || isWhole(it, count));
}

/**
 * Returns the edits that leave out barriers at which threads begin or end; those that are used otherwise stay.
 * @param {string} code
 * @returns {{edits: Edit[], words: string}}
 */
export function listBarriers(code) {
  const edits = [];
  const count = (name) => code.split(new RegExp(`\\b${name}\\b`)).length - 1;
  for (const declared of code.matchAll(BARRIER)) {
    const [, name, threads] = declared;
    const calls = listCalls(code, new RegExp(`\\b${name}\\s*\\.\\s*arrive_and_wait\\s*\\(`, "g"));
    if (count(name) === calls.length + 1 && isOutside(code, calls, threads)) edits.push(replaceMatch(declared, ""), ...calls.map(({ begin, end }) => ({ begin, end, text: "" })));
  }
  for (const declared of code.matchAll(POSIX)) {
    const name = declared[1];
    const all = listCalls(code, /\bpthread_barrier_(\w+)\s*\(/g).filter((it) => it.values[0] === `&${name}` && isStatement(code, it));
    const [waits, inits] = ["wait", "init"].map((kind) => all.filter((it) => it.match[1] === kind));
    const isOwn = inits.length === 1 && count(name) === all.length + 1;
    if (isOwn && isOutside(code, waits, inits[0].values[2])) edits.push(replaceMatch(declared, ""), ...all.map(({ begin, end }) => ({ begin, end, text: "" })));
  }
  return { edits, words: edits.length ? OF_BARRIER : "" };
}
