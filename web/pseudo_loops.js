// Finds the loops of pseudo code around and before critical sections, of which a test has one pass or none. Not proved.
//
// A `Line` is that of pseudo_lines.js.

import { findClosing } from "./c_code.js";
import { isStoredAlike } from "./c_loop_reader.js";

/** A critical section. */
export const CRITICAL = /^<?\(?(?:in\s+)?(?:the\s+)?(?:critical(?:[\s_](?:section|region))?|CS)\)?>?(?:\(\))?\.*$/i;
// How an endless loop begins, and how it ends if that is not only a brace.
const ENDLESS = /^(?:(?:loop|repeat|do)(?:\s+forever)?|forever(?:\s+do)?|while\s*\(?\s*(?:true|1)\s*\)?(?:\s*do)?|for\s*\(\s*;\s*;\s*\))\s*:?$/i;
const BACK = /^(?:(?:until\s+(?:false|forever)|while\s*\(?\s*(?:true|1)\s*\)?|forever|end(?:[ _](?:loop|while|repeat|do))?|od)\s*;?|)$/i;
const IS_ENDLESS_AT_ONCE = /^(?:loop|(?:repeat|do) forever|forever|while|for)/i;
// What leaves a pass of a loop.
const LEAVES = /^(?!while\b.*\bcontinue\s*;?$).*\b(?:continue|break|goto|return|exit)\b/i;

/** Returns the index of the line with the brace that closes the one at the end of the first line; -1 if there is none. */
function findClosingLine(lines) {
  let depth = 0;
  return lines.findIndex(({ code }) => (depth += code.split("{").length - code.split("}").length) <= 0);
}

/**
 * Returns lines without the endless loop that ends them; null if there is none, it has no critical section, or a pass may be left.
 * @param {Line[]} lines
 * @returns {Line[] | null}
 */
export function unwrapEndless(lines) {
  const at = lines.findIndex(({ code }) => ENDLESS.test(code.replace(/\{$/, "").trim()));
  const inner = lines.slice(at + 1);
  if (at < 0 || !inner.some(({ code }) => CRITICAL.test(code.replace(/[;.]$/, ""))) || inner.some(({ code }) => LEAVES.test(code))) return null;
  const opened = lines.slice(at).map((it, row) => (row === 1 && it.code === "{" ? { ...it, code: "" } : it));
  const hasBrace = lines[at].code.endsWith("{") || inner[0]?.code === "{";
  const last = hasBrace ? findClosingLine([{ code: "{" }, ...opened.slice(1)]) : inner.length;
  const end = hasBrace ? opened[last]?.code.replace(/^\}/, "").trim() : inner.at(-1).code;
  const isBack = end !== undefined && BACK.test(end);
  // `do` and `repeat` are endless if their ends say so.
  if (!IS_ENDLESS_AT_ONCE.test(lines[at].code) && !(isBack && /^(?:until|while|forever)/i.test(end))) return null;
  const body = isBack ? inner.slice(0, -1) : inner;
  const least = body[0]?.indent > lines[at].indent ? lines[at].indent + 1 : lines[at].indent;
  if (hasBrace ? last < 0 || !isBack || opened.length > last + 1 : body.some((it) => it.indent < least)) return null;
  return [...lines.slice(0, at), ...(hasBrace ? opened.slice(1, last) : body)].filter((it) => it.code);
}

/**
 * Returns lines in which a critical section after a whole loop that waits has its indentation: books indent it further.
 * @param {Line[]} lines
 * @returns {Line[]}
 */
export function alignSections(lines) {
  // A loop may have its `;` in the next line.
  const isWaiting = (it) => /^(?:while|await|wait)\b.*[^;{\s]$/i.test(it?.code ?? "");
  const isEnded = (at) => lines[at]?.code === ";" && isWaiting(lines[at - 1]);
  const whole = lines.map((it, at) => (isEnded(at + 1) ? { ...it, code: `${it.code} ;` } : it)).filter((_, at) => !isEnded(at));
  const isAfterLoop = (at) => /^(?:while|await|wait)\b.*;$/i.test(whole[at - 1]?.code ?? "") && CRITICAL.test(whole[at].code.replace(/[.;]$/, ""));
  return whole.map((it, at) => (isAfterLoop(at) ? { ...it, indent: Math.min(it.indent, whole[at - 1].indent) } : it));
}

/** Returns whether code in C stores to a name in a condition, whose index is part of it. */
function storesTo(code, condition) {
  const names = condition.match(/(?<![\w&])[A-Za-z_]\w*(?:\[\d\])?(?![\w(])/g) ?? [];
  return names.map((it) => it.replace(/[[\]]/g, "\\$&")).some((it) => new RegExp(`(?<!\\w)${it} ?(?:[+-]?=(?!=)|\\+\\+)|&${it}(?!\\w)`).test(code));
}

/**
 * Returns the code in C of a thread in which a loop that stores, before a critical section, has no pass: who would begin one ends. Returns the same code
 * if it has no such loop, or the thread itself decides whether it begins one: it stores to what the loop's condition has, `before` the code or in it; and
 * if the loop does not store again as the code before it does.
 * @param {string} code
 * @param {string} [before]
 * @returns {string}
 */
export function enterAtOnce(code, before = "") {
  let depth = 0;
  for (const [at, sign] of code.split("").entries()) {
    if (sign === "{" || sign === "}") depth += sign === "{" ? 1 : -1;
    const [begin] = (depth === 0 && sign === "w" && /^while (?=\()/.exec(code.slice(at))) || [];
    if (!begin || !/(?:^|[;}])\s*$/.test(code.slice(0, at))) continue;
    const close = findClosing(code, at + begin.length);
    const [brace] = /^\s+\{/.exec(code.slice(close + 1)) ?? [];
    if (close < 0 || !brace) continue;
    const [condition, open] = [code.slice(at + begin.length, close + 1), close + brace.length];
    const end = findClosing(code, open);
    const [body, rest] = end < 0 ? ["", ""] : [code.slice(open + 1, end), code.slice(end + 1)];
    const isEntry = /=(?!=)|\+\+/.test(body.replace(/[=!]=/g, "")) && /\bcritical\+\+/.test(rest);
    // What an exchange in the condition writes is the same each time.
    const isAlike = condition.includes("__sync_") || isStoredAlike(before + code.slice(0, at), body);
    if (isEntry && (storesTo(before + code.slice(0, end), condition) || !isAlike)) return code;
    if (isEntry) return `${code.slice(0, at)}if (!${condition}) { ${enterAtOnce(rest, before + code.slice(0, end))} }`;
  }
  return code;
}
