// Rewrites latches and semaphores of programs in C and C++ as words that threads count down, take and give. Not proved.
//
// The record `Edit` is that of c_edits.js. Edits of one kind have a sentence on it, `words`.

import { listStarts } from "./c_barriers.js";
import { blank, findClosing } from "./c_code.js";
import { isStatement, listCalls, replaceMatch, splitList } from "./c_edits.js";

const OF_LATCH = " A latch is a word here, which `LOCK XADD` counts down.";
const OF_SEMAPHORE = " A semaphore is a word here, 0 or 1, which `XCHG` takes and gives.";
const LATCH = /\b(?:std\s*::\s*)?latch\s+(\w+)\s*[({]\s*(\w+)\s*[)}]\s*;/g;
const BINARY = /\b(?:std\s*::\s*)?(?:binary_semaphore|counting_semaphore\s*<\s*1\s*>)\s+([^;]*);/g;
const POSIX = /\bsem_t\s+(\w+(?:\s*,\s*\w+)*)\s*;/g;
const WORD = /^(\w+)\s*[({]\s*([01])\s*[)}]$/;
const ACQUIRE = "std::memory_order_acquire";

/** Returns how often a name is in a code. */
function countName(code, name) {
  return code.split(new RegExp(`\\b${name}\\b`)).length - 1;
}

/** Returns the edits of the calls of methods of an object, by what makes their code; null if something else is done with the object. */
function editMethods(code, name, methods) {
  const pattern = new RegExp(`\\b${name}\\s*\\.\\s*(\\w+)\\s*\\(`, "g");
  const calls = listCalls(code, pattern);
  const edits = calls.map((it) => {
    const text = isStatement(code, it) ? methods[it.match[1]]?.(it.values) : undefined;
    return text === undefined ? null : { begin: it.begin, end: it.end, text };
  });
  return edits.includes(null) || !edits.length || countName(code, name) !== edits.length + 1 ? null : edits;
}

/**
 * Returns the edits by which latches become words; null if something else is done with one.
 * @param {string} code
 * @returns {{edits: Edit[], words: string} | null}
 */
export function listLatches(code) {
  const edits = [];
  for (const declared of code.matchAll(LATCH)) {
    const [, name, count] = declared;
    const down = (values) => (values.length > 1 || !/^\w*$/.test(values[0] ?? "") ? undefined : `${name}.fetch_sub(${values[0] ?? 1}, std::memory_order_release)`);
    const wait = (values) => (values.length ? undefined : `while (${name}.load(${ACQUIRE}) != 0)`);
    const both = (values) => (values.length ? undefined : `${down([])}; ${wait([])}`);
    const calls = editMethods(code, name, { count_down: down, wait, arrive_and_wait: both });
    if (!calls) return null;
    edits.push(replaceMatch(declared, `std::atomic<int> ${name}{${count}};`), ...calls);
  }
  return { edits, words: edits.length ? OF_LATCH : "" };
}

/**
 * Returns the edits by which binary semaphores of C++ become words; null if something else is done with one.
 * @param {string} code
 * @returns {{edits: Edit[], words: string} | null}
 */
export function listBinarySemaphores(code) {
  const edits = [];
  for (const declared of code.matchAll(BINARY)) {
    const words = splitList(declared[1]).map((it) => WORD.exec(it));
    if (words.includes(null)) return null;
    edits.push(replaceMatch(declared, `std::atomic<int> ${words.map(([, name, value]) => `${name}{${value}}`).join(", ")};`));
    for (const [, name] of words) {
      const acquire = (values) => (values.length ? undefined : `while (${name}.exchange(0, ${ACQUIRE}) == 0)`);
      const release = (values) => (values.length ? undefined : `${name}.store(1)`);
      const calls = editMethods(code, name, { acquire, release });
      if (!calls) return null;
      edits.push(...calls);
    }
  }
  return { edits, words: edits.length ? OF_SEMAPHORE : "" };
}

/** Returns the body around an index, from its `{` to its `}`, of the outermost braces that are not those of a type or a namespace. */
function findBody(code, index) {
  for (const { index: at } of code.slice(0, index).matchAll(/\{/g)) {
    const close = findClosing(code, at);
    const isHolder = /\b(?:struct|class|namespace)\b[\w\s:]*$/.test(code.slice(0, at).split(/[;{}]/).at(-1));
    if (close > index && !isHolder) return { begin: at, end: close };
  }
  return null;
}

/** Returns whether a semaphore that begins with a word is 0 or 1 at all times: who takes it gives it back, or it is given once, by a thread that starts once. */
function isBinary(code, value, takes, gives) {
  const bodies = [...takes, ...gives].map((it) => findBody(code, it.begin));
  if (bodies.includes(null)) return false;
  const begins = [...new Set(bodies.map((it) => it.begin))];
  const alternates = (begin) => {
    const marks = [...takes.map((it) => [it.begin, "take"]), ...gives.map((it) => [it.begin, "give"])].filter(([at]) => findBody(code, at).begin === begin);
    const order = marks.sort(([one], [other]) => one - other).map(([, kind]) => kind);
    return order.length % 2 === 0 && order.every((kind, at) => kind === (at % 2 ? "give" : "take"));
  };
  // What lambdas of `main` do is not in the order of its text.
  const isOfMain = (begin) => /\bmain\s*\([^(){}]*\)\s*\{$/.test(code.slice(0, begin + 1));
  if (value === "1" && begins.every((it) => alternates(it) && !isOfMain(it)) && !/\b(?:if|for|while|return|break|continue|goto|switch)\b/.test(listInner(code, begins))) return true;
  if (value !== "0" || gives.length !== 1) return false;
  const { begin, end } = findBody(code, gives[0].begin);
  const isLoop = /\b(?:for|while|do|goto)\b/.test(code.slice(begin, end));
  return !isLoop && listStarts(code, begin + 1)?.join() === "1";
}

/** Returns the code of bodies, without the heads of loops that count, and without a `return` at the end. */
function listInner(code, begins) {
  const cut = (it) => code.slice(it, findClosing(code, it)).replace(/\breturn\b[^;{}]*;\s*$/, "");
  return begins.map((it) => cut(it).replace(/\bfor\s*\([^(){}]*\)\s*(?=\{)/g, blank)).join("\n");
}

/**
 * Returns the edits by which POSIX semaphores become words; null if something else is done with one, or it may be more than 1.
 * @param {string} code
 * @returns {{edits: Edit[], words: string} | null}
 */
export function listPosixSemaphores(code) {
  const edits = [];
  const calls = listCalls(code, /\bsem_(\w+)\s*\(/g);
  for (const declared of code.matchAll(POSIX)) {
    const names = splitList(declared[1]);
    const words = [];
    for (const name of names) {
      const own = calls.filter((it) => it.values[0] === `&${name}`);
      const list = (kind) => own.filter((it) => it.match[1] === kind && isStatement(code, it));
      const [inits, takes, gives, ends] = ["init", "wait", "post", "destroy"].map(list);
      const value = inits[0]?.values[2];
      const isWhole = inits.length === 1 && countName(code, name) === inits.length + takes.length + gives.length + ends.length + 1;
      if (!isWhole || !/^[01]$/.test(value) || !isBinary(code, value, takes, gives)) return null;
      words.push(`${name} = ${value}`);
      const replace = (all, text) => edits.push(...all.map(({ begin, end }) => ({ begin, end, text })));
      replace([...inits, ...ends], "");
      replace(takes, `while (atomic_exchange(&${name}, 0) == 0)`);
      replace(gives, `atomic_store(&${name}, 1)`);
    }
    edits.push(replaceMatch(declared, `atomic_int ${words.join(", ")};`));
  }
  return { edits, words: edits.length ? OF_SEMAPHORE : "" };
}
