// Rewrites what threads of a program in C or C++ wait for as loops that look at a variable: `wait` of an atomic variable, and waits for a condition. Not
// proved.
//
// The record `Edit` is that of c_edits.js. Edits of one kind have a sentence on it, `words`.

import { isStatement, listCalls, replaceMatch } from "./c_edits.js";

const OF_WAKING = "nothing: that a wake-up is missing is not found.";
const OF_WAIT = ` \`wait\` is a loop that loads here, and \`notify\` ${OF_WAKING}`;
const OF_CONDITION = ` A wait for a condition is a look at it here, once the mutex is taken, and to notify is ${OF_WAKING}`;
const ATOMIC = /\b(?:std\s*::\s*)?atomic(?:\s*<[^<>;{}()]*>|_\w+)\s+([^;()]*(?:\([^;()]*\)[^;()]*)*);/g;
const FLAG = /^(?:std\s*::\s*)?atomic_flag\b/;
const WAIT = /(?:\w+\s*(?:\.|->)\s*)*?\b(\w+)\s*(?:\.|->)\s*wait\s*\(/g;
const NOTIFY = /(?:\w+\s*(?:\.|->)\s*)*\b(\w+)\s*(?:\.|->)\s*notify_(?:one|all)\s*\(\s*\)(?=\s*;)/g;
const VALUE = /^-?\w+$/;
const ORDER = /^(?:std\s*::\s*)?memory_order(?:\s*::\s*|_)\w+$/;
// Declarations of conditions, and what else is said of them.
const CONDITION = /\b(?:(?:static|inline|mutable)\s+)*(?:std\s*::\s*condition_variable(?:_any)?|condition_variable|pthread_cond_t)\s+(\w+)\s*(?:=\s*PTHREAD_COND_INITIALIZER|\{\s*\})?\s*;/g;
const OF_CALLS = /\bpthread_cond_(?:signal|broadcast|init|destroy)\s*\(/g;
const COND_WAIT = /\bpthread_cond_wait\s*\(/g;
// What a loop looks at that waits for a variable, after whose name it is: nothing, or one access, compared with a word.
const LOOK = "(?:\\s*(?:\\.|->)\\s*(?:load|test|test_and_set|exchange)\\s*\\([\\w:,\\s]*\\))?(?:\\s*[!=]=\\s*\\w+)?";
// A lambda that only returns what is waited for, which is the group, and copies nothing. And a statement that takes a mutex.
const RETURNING = /^\[\s*(?:&|this|(?:&\s*\w+\s*,?\s*)+)?\s*\]\s*(?:\(\s*\)\s*)?(?:->\s*bool\s*)?\{\s*return\b([^;{}]*);\s*\}$/;
const TAKING = /(?:\bunique_lock\s*(?:<[^<>;]*>)?\s*(\w+)\s*[({]\s*[\w.&>-]+\s*[)}]|\bpthread_mutex_lock\s*\(\s*&\s*(\w+)\s*\))\s*;\s*$/;
const HEAD = /\bwhile\s*\(/g;
const OPPOSITES = { "==": "!=", "!=": "==", "<": ">=", ">": "<=", "<=": ">", ">=": "<" };
const NAME = /(?<![\w.]|->)[A-Za-z_]\w*\b(?!\s*\()/g;

/** Returns the atomic variables of a code, by their names, with whether each is a flag. */
function listAtomics(code) {
  const atomics = new Map();
  for (const { 0: whole, 1: list } of code.matchAll(ATOMIC)) {
    for (const [name] of list.matchAll(/(?<=^|,\s*|[})]\s*,\s*)[A-Za-z_]\w*/g)) atomics.set(name, FLAG.test(whole));
  }
  return atomics;
}

/**
 * Returns the edits by which `wait` of an atomic variable becomes a loop.
 * @param {string} code
 * @returns {{edits: Edit[], words: string}}
 */
export function listAtomicWaits(code) {
  const atomics = listAtomics(code);
  const isOne = ({ match, values: [value, order, ...more] }) => atomics.has(match[1]) && VALUE.test(value) && (!order || ORDER.test(order)) && !more.length;
  const calls = listCalls(code, WAIT).filter(isOne);
  // A loop that looks only at the variable ends when it would without the wait.
  const isLooking = ({ begin, end, match }) => {
    const [before, name] = [code.slice(0, begin), match[1]];
    const looks = new RegExp(`\\bwhile\\s*\\(\\s*!?\\s*(?:\\w+\\s*(?:\\.|->)\\s*)*${name}${LOOK}\\s*\\)\\s*(\\{\\s*)?$`).exec(before);
    return looks !== null && (looks[1] ? /^\s*;\s*\}/ : /^\s*;/).test(code.slice(end));
  };
  const looked = calls.filter(isLooking).map(({ begin, end }) => ({ begin, end, text: "" }));
  const waits = calls.filter((it) => isStatement(code, it) && !isLooking(it));
  const loops = waits.map(({ match, begin, end, values: [value, order = ""] }) => {
    const object = match[0].replace(/\s*(?:\.|->)\s*wait\s*\($/, "");
    const access = match[0].slice(object.length).replace(/wait\s*\($/, atomics.get(match[1]) ? "test(" : "load(");
    return { begin, end, text: `while (${object}${access}${order}) == ${value})` };
  });
  const edits = [...loops, ...looked];
  if (!edits.length) return { edits, words: "" };
  const notes = [...code.matchAll(NOTIFY)].filter((it) => atomics.has(it[1])).map((it) => replaceMatch(it, ""));
  return { edits: [...edits, ...notes], words: OF_WAIT };
}

/** Returns a condition that holds if another one does not. */
function negate(condition) {
  const bare = condition.trim();
  if (/^[\w.>-]+$/.test(bare)) return `!${bare}`;
  if (/^!\s*[\w.>-]+$/.test(bare)) return bare.slice(1).trim();
  const [, left, sign, right] = /^([\w.]+)\s*([=!]=|[<>]=?)\s*(-?\w+)$/.exec(bare) ?? [];
  return sign ? `${left} ${OPPOSITES[sign]} ${right}` : `!(${bare})`;
}

/** Returns a condition in which each name of a plain variable that threads share is loaded, as a call of a function makes a compiler do. */
function loadPlain(condition, code) {
  const isShared = (name) => new RegExp(`(?:^|[;{}])\\s*(?:static\\s+)?(?:int|bool|unsigned|long|size_t)\\b[^;(){}]*\\b${name}\\b`, "m").test(code);
  return condition.replace(NAME, (name) => (isShared(name) ? `READ_ONCE(${name})` : name));
}

/** Returns the waits of a code in loops that look at a condition: each with its range, the condition while which it waits, and the name of its lock. */
function listLoopsOfWaits(code, findLock) {
  return listCalls(code, HEAD).flatMap(({ begin, end, values }) => {
    const [body = ""] = /^\s*(?:\{[^{}]*\}|[^;{}]*;)/.exec(code.slice(end)) ?? [];
    const inner = body.trim().replace(/^\{\s*|\s*\}$/g, "");
    const lock = findLock(inner);
    return lock ? [{ begin, end: end + body.length, condition: values.join(","), lock }] : [];
  });
}

/**
 * Returns the edits by which waits for conditions become looks at these; null if the code waits for a condition otherwise.
 * @param {string} code
 * @returns {{edits: Edit[], words: string} | null}
 */
export function listConditionWaits(code) {
  const declared = [...code.matchAll(CONDITION)];
  const names = new Set(declared.map((it) => it[1]));
  if (!names.size) return { edits: [], words: "" };
  const findLock = (inner) => {
    const wait = /^(\w+)\s*\.\s*wait\s*\(\s*(\w+)\s*\)\s*;$/.exec(inner) ?? /^pthread_cond_wait\s*\(\s*&\s*(\w+)\s*,\s*&\s*(\w+)\s*\)\s*;$/.exec(inner);
    return wait && names.has(wait[1]) ? wait[2] : null;
  };
  const loops = listLoopsOfWaits(code, findLock).map((it) => ({ ...it, text: `while (${loadPlain(it.condition, code)}) ;` }));
  const isIn = (it) => loops.some(({ begin, end }) => begin <= it.begin && it.end <= end);
  const calls = [...listCalls(code, WAIT).filter((it) => names.has(it.match[1])), ...listCalls(code, COND_WAIT)].filter((it) => !isIn(it));
  const lambdas = calls.map(({ begin, end, values: [lock, lambda = ""] }) => {
    const [, condition] = RETURNING.exec(lambda) ?? [];
    return condition === undefined ? null : { begin, end, lock, text: `while (${loadPlain(negate(condition), code)})` };
  });
  const waits = [...loops, ...lambdas];
  // What a thread stores before it waits, others could see while it waits.
  const isTaken = ({ begin, lock }) => {
    const [, own, mutex] = TAKING.exec(code.slice(0, begin)) ?? [];
    return lock !== undefined && [own, mutex].includes(lock);
  };
  if (!waits.length || waits.some((it) => it === null || !isTaken(it))) return null;
  const notes = [...code.matchAll(NOTIFY)].filter((it) => names.has(it[1])).map((it) => replaceMatch(it, ""));
  const others = listCalls(code, OF_CALLS).filter((it) => isStatement(code, it)).map(({ begin, end }) => ({ begin, end, text: "" }));
  const edits = [...declared.map((it) => replaceMatch(it, "")), ...waits, ...notes, ...others];
  const isLeft = [...names].some((name) => code.split(new RegExp(`\\b${name}\\b`)).length - 1 > countNames(code, edits, name));
  return isLeft ? null : { edits, words: OF_CONDITION };
}

/** Returns how often a name is in the ranges of edits. */
function countNames(code, edits, name) {
  return edits.reduce((sum, { begin, end }) => sum + code.slice(begin, end).split(new RegExp(`\\b${name}\\b`)).length - 1, 0);
}
