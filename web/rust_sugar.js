// Rewrites a program in Rust as one that says the same with fewer forms: without `match`, values of `if`, other names of orders. Not proved.
//
// A `Branch` of a chain has its `condition`, null for the last `else`, and the `body` in its braces.

import { findClosing } from "./c_code.js";
import { writeLocks } from "./rust_locks.js";
import { splitArguments, splitStatements, Unread } from "./rust_statements.js";

const MOST = 40;
const OF_MATCHES = ": a `match` has `Ok(_)` and `Err(_)` of a compare-exchange, or constants and then `_`";
const OF_VALUES = ": the value of an `if` is that of a last expression in each of its branches";
// Other names of orders: of `Ordering` itself, and of one order.
const RENAMED = /\bOrdering\s+as\s+(\w+)/;
const CONSTANT = /(?:pub\s+)?const\s+(\w+)\s*:\s*(?:[\w:]+::)?Ordering\s*=\s*(?:[\w:]+::)?(Relaxed|Acquire|Release|AcqRel|SeqCst)\s*;/;
const MATCH = /(?<![\w.])match\s+(?=[^;{}]{1,200}\{)/;
const COMPARED = /^[\w.[\]]+\.compare_exchange(?:_weak)?\s*\(/;
const RESULT = /^(Ok|Err)\(\s*(\w+)\s*\)$/;
const WORD = /^(?:\d[\w]*|true|false)(?:\s*\|\s*(?:\d[\w]*|true|false))*$/;
// A value of an `if`, which a variable gets; and one that a function or a closure returns.
const LET_IF = /\blet\s+(?:mut\s+)?(\w+)(?:\s*:\s*(\w+))?\s*=\s*(?=if\b)/;
const RETURNING = /->\s*(\w+)\s*\{|(?:\bspawn\s*\(\s*(?:move\s+)?|\bmove\s+)\|\w*\|\s*\{/g;
// A loop that tries a compare-exchange until it succeeds: the groups are this, and what it does if that fails.
const TRIES = /\bloop\s*\{\s*if\s+([^{}]+)\.is_ok\(\)\s*\{\s*break\s*;?\s*\}\s*(?:else\s*\{\s*([\w:]*(?:\(\))?)\s*;?\s*\}\s*)?;?\s*\}/g;
const IS_VALUE = /^(?:-?\d\w*|true|false|\w+(?:\s*[+-]\s*\w+)?|!?[\w.[\]:]+\.(?:load|swap|fetch_\w+)\([^{};]*\)|[^{};=]+[=!]=[^{};=]+)$/;

/** Returns code in which an order has its own name. */
function renameOrders(code) {
  const [, name] = RENAMED.exec(code) ?? [];
  const used = new RegExp(`(?<![\\w:])${name}(?=::|\\s*=\\s*${name}::)`, "g");
  const renamed = name && name !== "_" ? code.replace(RENAMED, "Ordering").replace(used, "Ordering") : code;
  const [declaration, constant, order] = CONSTANT.exec(renamed) ?? [];
  if (!declaration || new RegExp(`\\b(?:let|const|static)\\s+(?:mut\\s+)?${constant}\\b`).test(renamed.replace(declaration, ""))) return renamed;
  const rest = renamed.replace(declaration, "").replace(new RegExp(`(?<![\\w.:])${constant}(?![\\w:])`, "g"), `Ordering::${order}`);
  return renameOrders(rest);
}

/** Returns the arms of a `match`, each with its `pattern` and its `body`. */
function listArms(code) {
  const arms = [];
  let rest = code.trim();
  while (rest) {
    const [head, pattern] = /^([^=]*?)\s*=>\s*/.exec(rest) ?? [];
    if (head === undefined || arms.length === MOST) throw new Unread(rest, OF_MATCHES);
    const after = rest.slice(head.length);
    const isBlock = after.startsWith("{");
    const [first] = isBlock ? [after.slice(0, findClosing(after, 0) + 1)] : splitArguments(after);
    if (first === undefined) throw new Unread(rest, OF_MATCHES);
    const body = isBlock ? first.slice(1, -1).trim() : first;
    arms.push({ pattern, body: body === "()" ? "" : body });
    rest = after.slice(after.indexOf(first) + first.length).replace(/^\s*,/, "").trim();
  }
  return arms;
}

/** Returns the two bodies of a `match` of a compare-exchange: if it succeeds, and if it fails. */
function readResults(arms, subject) {
  const find = (kind) => arms.find((it) => RESULT.exec(it.pattern)?.[1] === kind) ?? arms.slice(1).find((it) => /^_\w*$/.test(it.pattern));
  const [found, failed] = [find("Ok"), find("Err")];
  const isNamed = (it) => new RegExp(`(?<!\\w)${RESULT.exec(it.pattern)?.[2] ?? "_"}(?!\\w)`).test(it.body);
  if (arms.length !== 2 || !found || !failed || found === failed || isNamed(found) || isNamed(failed)) throw new Unread(`match ${subject}`, OF_MATCHES);
  return [found.body, failed.body];
}

/** Returns code in which each `match` is a branch: of a compare-exchange, or of a variable that has the word once. */
function writeMatches(code, count = 1) {
  const found = MATCH.exec(code);
  if (!found || count > MOST) return code;
  const open = code.indexOf("{", found.index);
  const close = findClosing(code, open);
  const subject = code.slice(found.index + found[0].length, open).trim();
  if (close < 0) throw new Unread(`match ${subject}`, OF_MATCHES);
  const arms = listArms(code.slice(open + 1, close));
  const [before, after] = [code.slice(0, found.index), code.slice(close + 1)];
  // The body of a closure has braces then.
  const isBody = /\|\w*\|\s*$/.test(before) && /^\s*[),]/.test(after);
  if (isBody) return writeMatches(`${before}{ ${code.slice(found.index, close + 1)} }${after}`, count);
  if (COMPARED.test(subject)) {
    const [ok, failed] = readResults(arms, subject);
    return writeMatches(`${before}if ${subject}.is_ok() { ${ok} } else { ${failed} }${after}`, count + 1);
  }
  const isTruth = arms.length === 2 && ["true", "false"].every((it) => arms.some((arm) => arm.pattern === it));
  const isWhole = isTruth || arms.slice(0, -1).every((it) => WORD.test(it.pattern)) && (arms.length > 1 && /^_\w*$/.test(arms.at(-1).pattern));
  const [, start] = /(?:^|[;{}]|=>)\s*((?:let\s+(?:mut\s+)?\w+(?:\s*:\s*\w+)?\s*=|return)?\s*)$/.exec(before) ?? [];
  if (!isWhole || start === undefined) throw new Unread(`match ${subject}`, OF_MATCHES);
  const name = `matched${count > 1 ? count : ""}`;
  const compare = (pattern) => pattern.split("|").map((it) => `${name} == ${it.trim()}`).join(" || ");
  const chain = arms.map(({ pattern, body }, at) => `${at < arms.length - 1 ? `if ${compare(pattern)} ` : ""}{ ${body} }`).join(" else ");
  const front = before.slice(0, before.length - start.length);
  return writeMatches(`${front} let ${name} = ${subject}; ${start}${chain}${after}`, count + 1);
}

/** Returns the branches of a chain at the start of code, and its length; null if it has no last `else`. */
function readChain(code) {
  const branches = [];
  let end = 0;
  for (let [head] = /^if\b/.exec(code) ?? []; head; [head] = /^\s*else\s*(?:if\b)?/.exec(code.slice(end)) ?? []) {
    const open = code.indexOf("{", end + head.length);
    const close = open < 0 ? -1 : findClosing(code, open);
    if (close < 0) return null;
    const condition = /if$/.test(head) ? code.slice(end + head.length, open).trim() : null;
    branches.push({ condition, body: code.slice(open + 1, close) });
    end = close + 1;
    if (condition === null) return { branches, end };
  }
  return null;
}

/** Returns a chain whose branches do what `set` writes of their values; null if one of them has no value. */
function assignChain({ branches }, set) {
  const written = branches.map(({ condition, body }) => {
    const statements = splitStatements(body);
    const last = statements.at(-1) ?? "";
    const inner = /^if\b/.test(last) ? readChain(last) : null;
    const isValue = IS_VALUE.test(last) && !/;\s*$/.test(body);
    const end = inner ? assignChain(inner, set) : isValue ? set(last) : null;
    const rest = statements.slice(0, -1).map((it) => (/\}$/.test(it) ? it : `${it};`)).join(" ");
    return end && `${condition === null ? "" : `if ${condition} `}{ ${rest} ${end} }`;
  });
  return written.includes(null) ? null : written.join(" else ");
}

/** Returns the type of the value of a chain, if it has none of its own. */
function findType({ branches }) {
  const isTruth = branches.every((it) => /^(?:true|false)$|[=!]=/.test(splitStatements(it.body).at(-1) ?? ""));
  return isTruth ? "bool" : "i32";
}

/** Returns code in which a variable that gets the value of an `if` is set in its branches. */
function writeValues(code, count = 0) {
  const found = LET_IF.exec(code);
  if (!found || count > MOST) return code;
  const [head, name, type] = found;
  const begin = found.index + head.length;
  const chain = readChain(code.slice(begin));
  const set = chain && assignChain(chain, (it) => `${name} = ${it};`);
  if (!set || !/^\s*;/.test(code.slice(begin + chain.end))) throw new Unread(head, OF_VALUES);
  const after = code.slice(begin + chain.end).replace(/^\s*;/, "");
  return writeValues(`${code.slice(0, found.index)}let ${name}: ${type ?? findType(chain)}; ${set}${after}`, count + 1);
}

/** Returns code in which the value of an `if` at the end of a function or a closure is that of a variable. */
function writeResults(code) {
  for (const { 0: head, 1: type, index } of code.matchAll(RETURNING)) {
    const isFunction = type && !code.slice(0, index).trimEnd().endsWith("|");
    const open = index + head.length - 1;
    const close = findClosing(code, open);
    const body = close < 0 ? "" : code.slice(open + 1, close);
    const last = splitStatements(body).at(-1) ?? "";
    const chain = /^if\b/.test(last) && body.trimEnd().endsWith(last) ? readChain(last) : null;
    const set = chain && chain.end === last.length ? assignChain(chain, (it) => (isFunction ? `return ${it};` : `value = ${it};`)) : null;
    if (!set || /\bvalue\b/.test(body)) continue;
    const front = body.trimEnd().slice(0, -last.length);
    if (isFunction) return writeResults(`${code.slice(0, open + 1)}${front}${set} ${code.slice(close)}`);
    return writeResults(`${code.slice(0, open + 1)}${front}let value: ${type ?? findType(chain)}; ${set} value ${code.slice(close)}`);
  }
  return code;
}

/**
 * Returns code of a program in Rust, without comments, that says the same with fewer forms. Throws Unread for a `match` or a value that it does not rewrite.
 * @param {string} code
 * @returns {string}
 */
export function desugar(code) {
  const matched = writeMatches(writeLocks(renameOrders(code)));
  return writeResults(writeValues(matched.replace(TRIES, (_, tried, pause = "") => `while ${tried}.is_err() { ${pause.replace(/^continue$/, "")} }`)));
}
