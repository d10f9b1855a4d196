// Rewrites `call_once` of a program in C++ as double-checked locking: a word says whether it is done, and a mutex is taken only if it is not. Not proved.
//
// The record `Edit` is that of c_edits.js. Edits of one kind have a sentence on it, `words`.

import { isStatement, listCalls, replaceMatch } from "./c_edits.js";

const OF_ONCE = " `call_once` is a word here, which says whether it is done, and a mutex if it is not.";
const DECLARED = /\b(?:(?:static|inline)\s+)*(?:std\s*::\s*)?once_flag\s+(\w+)\s*(?:\{\s*\})?;/g;
const CALL = /\b(?:std\s*::\s*)?call_once\s*\(/g;
const LAMBDA = /^\[[^\]]*\]\s*(?:\(\s*\)\s*)?(?:mutable\s*)?\{([^]*)\}$/;
const ORDER = "std::memory_order_";

/** Returns what a call does once, by its function; null if it has arguments, or may leave before its end. */
function readOnce(called) {
  const [, body] = LAMBDA.exec(called) ?? [];
  if (body !== undefined) return /\breturn\b/.test(body) ? null : body;
  return /^&?\s*[A-Za-z_]\w*$/.test(called) ? `${called.replace(/^&\s*/, "")}();` : null;
}

/**
 * Returns the edits by which what is called once is guarded by a mutex; null if it is called in another way.
 * @param {string} code
 * @returns {{edits: Edit[], words: string} | null}
 */
export function listOnceCalls(code) {
  const declared = [...code.matchAll(DECLARED)];
  if (!declared.length) return { edits: [], words: "" };
  const names = declared.map((it) => it[1]);
  const calls = listCalls(code, CALL);
  const bodies = calls.map((it) => (it.values.length === 2 && names.includes(it.values[0]) && isStatement(code, it) ? readOnce(it.values[1]) : null));
  const isTaken = names.some((it) => new RegExp(`\\b${it}_(?:mutex|done|guard)\\b`).test(code));
  const isWhole = names.every((it) => code.split(new RegExp(`\\b${it}\\b`)).length === 2 + calls.filter(({ values }) => values[0] === it).length);
  if (!calls.length || bodies.includes(null) || isTaken || !isWhole) return null;
  const edits = declared.map((it) => replaceMatch(it, `std::mutex ${it[1]}_mutex; std::atomic<int> ${it[1]}_done{0};`));
  for (const [at, { begin, end, values: [name] }] of calls.entries()) {
    const look = (order, block) => `if (${name}_done.load(${ORDER}${order}) == 0) { ${block} }`;
    const once = look("relaxed", `${bodies[at]} ${name}_done.store(1, ${ORDER}release);`);
    edits.push({ begin, end, text: look("acquire", `std::lock_guard<std::mutex> ${name}_guard(${name}_mutex); ${once}`) });
  }
  return { edits, words: OF_ONCE };
}
