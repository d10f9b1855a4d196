// Finds `main` and the statements of a program in C or C++ in its text, before it is read. Not proved.

import { findClosing } from "./c_code.js";

const MAIN = /\bint\s+main\s*\([^(){}]*\)\s*\{/;
/** What starts threads: the groups are a handle of pthreads, and a declaration of some in C++, each of which begins with its handle. */
export const START = /^(?:pthread_create\s*\(\s*&\s*(\w+)\s*,|(?:std::)?j?thread\s+(\w+\s*[({][^]*);$)/;

/**
 * Returns the statements between two indices of a code without comments, those with braces as a whole.
 * @param {string} code
 * @param {number} begin
 * @param {number} end
 * @returns {{code: string, index: number}[]}
 */
export function listStatements(code, begin, end) {
  const statements = [];
  let depth = 0;
  let from = begin;
  for (let at = begin; at < end; at += 1) {
    depth += Number("({".includes(code[at])) - Number(")}".includes(code[at]));
    const isEnd = depth === 0 && (code[at] === ";" || (code[at] === "}" && !/^\s*(?:else\b|;)/.test(code.slice(at + 1, at + 40))));
    if (!isEnd) continue;
    const index = from + /^\s*/.exec(code.slice(from))[0].length;
    statements.push({ code: code.slice(index, at + 1), index });
    from = at + 1;
  }
  return statements;
}

/**
 * Returns `main` of a code without comments: the index of its head (`begin`) and those of its braces (`open` and `close`); null if there is none.
 * @param {string} code
 * @returns {{begin: number, open: number, close: number} | null}
 */
export function findMain(code) {
  const { 0: head, index: begin } = MAIN.exec(code) ?? { 0: "", index: 0 };
  const open = begin + head.length - 1;
  const close = head ? findClosing(code, open) : -1;
  return close < 0 ? null : { begin, open, close };
}
