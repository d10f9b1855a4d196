// Writes the statements of a program in Rust as those of C++. Not proved.

import { findClosing } from "./c_code.js";

/** Thrown if a program is not rewritten: the message begins with the part that is not. */
export class Unread extends Error {
  constructor(part, why) {
    super(`\`${part.trim().replace(/\s+/g, " ").replace(/^(.{40}).+$/, "$1..")}\`${why}`);
  }
}

/** The types of C++ for those of Rust. */
export const TYPES = new Map([
  ["bool", "bool"], ["i8", "int8_t"], ["u8", "uint8_t"], ["i16", "int16_t"], ["u16", "uint16_t"], ["i32", "int"], ["u32", "unsigned"], ["i64", "int64_t"],
  ["u64", "uint64_t"], ["isize", "long"], ["usize", "size_t"],
].flatMap(([rust, cpp]) => [[rust, cpp], [`Atomic${rust[0].toUpperCase()}${rust.slice(1)}`, `std::atomic<${cpp}>`]]));
const ORDERS = { Relaxed: "relaxed", Acquire: "acquire", Release: "release", AcqRel: "acq_rel", SeqCst: "seq_cst" };
const ORDER = new RegExp(`(?:\\b(?:[\\w:]{1,40}::)?Ordering::|(?<=[(,]\\s{0,9}))(${Object.keys(ORDERS).join("|")})\\b`, "g");
const WORDS = [
  [ORDER, (_, order) => `std::memory_order_${ORDERS[order]}`],
  [/(?:\b[a-z_]+::){0,5}\bcompiler_fence\s*\(/g, "std::atomic_signal_fence("],
  [/(?:\b[a-z_]+::){0,5}\b(?<!atomic_thread_|atomic_signal_)fence\s*\(/g, "std::atomic_thread_fence("],
  [/(?:\b[a-z_]+::){0,5}\b(?:spin_loop(?:_hint)?|yield_now)\s*\(\)/g, "cpu_relax()"],
  [/\b(?:std::)?thread::sleep\s*\([\w:]{0,40}\(\w*\)\)|\be?print(?:ln)?!\s*\(\s*"\s*"\s*\)/g, "cpu_relax()"],
  [/\.swap\(/g, ".exchange("], [/\s+as\s+[iu](?:32|64|size)\b/g, ""],
  [/\b(\d[\d_]*?)_?[iu](?:8|16|32|64|size)\b/g, "$1"], [/(?<=\d)_(?=\d)/g, ""], [/(?<=[(,]\s{0,9})&(?:mut\s+)?(?=[A-Za-z_])/g, ""],
  [/\be?print(?:ln)?!\s*\(/g, "printf("], [/\bdebug_assert/g, "assert"],
];
// An operator on bits, whose rank in C is another one. And what refuses it.
const ON_BITS = /[\w)\]]\s*(?:(?<!&)&(?!&)|(?<!\|)\|(?!\|)|\^)\s*[\w(!]/;
// Branches that are not those of C.
const OTHER = /(?<!\w)(?:match\s[^{;]{0,200}|(?:if|while)\s+let\s[^{;]{0,200}|(?<=[=(]\s{0,9})if\s[^{;]{0,200})/;
const OF_OTHERS = ": an `if let` has `Ok(_)` or `Err(_)` of a compare-exchange here, and the value of an `if` is that of a `let` or of a function";
const OF_BITS = ": operators on bits are not rewritten";
const SWAP = /(?<!\w)([A-Za-z_]\w*(?:\[\w+\])?)\.compare_exchange(?:_weak)?\(/;
// A store, an assignment or a jump at the end of a block, without its semicolon.
const LAST = /(\b(?:break|continue|return)|\.store\([^(){};]*\)|[\w\]]\s{0,9}[+-]?=(?!=)[^=;{}()]*)(?=\s{0,99}\})/g;
const HEAD = /\b(if|while|loop|for\s+(\w+)\s+in\s+(\w+)\s*\.\.(=?)\s*(\w+)(?=\s*\{))(?!\w)/g;

/**
 * Returns the parts of code between commas outside of parentheses, brackets and braces.
 * @param {string} code
 * @returns {string[]}
 */
export function splitArguments(code) {
  return splitOutside(code, ",").map((it) => it.trim()).filter(Boolean);
}

/**
 * Returns the parts of code between a mark outside of parentheses, brackets and braces.
 * @param {string} code
 * @param {string} mark
 * @returns {string[]}
 */
export function splitOutside(code, mark) {
  const parts = [""];
  let depth = 0;
  for (const letter of code) {
    depth += "([{".includes(letter) - ")]}".includes(letter);
    if (letter === mark && depth === 0) parts.push("");
    else parts[parts.length - 1] += letter;
  }
  return parts;
}

/**
 * Returns the front of code before a mark outside of parentheses, brackets and braces, or all of it.
 * @param {string} code
 * @param {string} mark
 * @returns {string}
 */
export function readFront(code, mark) {
  let depth = 0;
  for (let at = 0; at < code.length; at += 1) {
    depth += "([{".includes(code[at]) - ")]}".includes(code[at]);
    if (code[at] === mark && depth === 0) return code.slice(0, at);
  }
  return code;
}

/**
 * Returns the index of what closes the parenthesis or brace at an index. Throws Unread if nothing does.
 * @param {string} code
 * @param {number} open
 * @returns {number}
 */
function findEnd(code, open) {
  const close = findClosing(code, open);
  if (close < 0) throw new Unread(code.slice(open), ": nothing closes it");
  return close;
}

/**
 * Returns the statements of code, without the semicolons after them. A branch or a loop ends with its block.
 * @param {string} code
 * @returns {string[]}
 */
export function splitStatements(code) {
  return splitOutside(code, ";").flatMap(splitBlocks).map((it) => it.trim()).filter(Boolean);
}

/** Returns the branches, loops and blocks at the begin of code, and the rest. */
function splitBlocks(code) {
  const parts = [];
  let rest = code.trim();
  while (/^(?:if|while|loop|for|unsafe\s*\{|\{)/.test(rest)) {
    let end = findClosing(rest, rest.indexOf("{")) + 1;
    const findElse = () => (end ? /^\s*else\b[^{]*/.exec(rest.slice(end))?.[0].length : undefined);
    for (let length = findElse(); length !== undefined; length = findElse()) end = findClosing(rest, end + length) + 1;
    // A block that is the front of an expression is no statement.
    if (!end || /^\s*[.=!&|+<>-]/.test(rest.slice(end))) break;
    parts.push(rest.slice(0, end));
    rest = rest.slice(end).trim();
  }
  return [...parts, rest];
}

/**
 * Returns code of statements, each with what ends it.
 * @param {string[]} statements
 * @returns {string}
 */
export function joinStatements(statements) {
  return statements.map((it) => (/^(?:if|while|loop|for|unsafe\s*\{|\{)[^]*\}$/.test(it) ? it : `${it};`)).join(" ");
}

/** Returns code in which each compare-exchange is a call that returns whether it succeeds. */
function rewriteSwaps(code) {
  const found = SWAP.exec(code);
  if (!found) return code;
  const open = found.index + found[0].length - 1;
  const close = findEnd(code, open);
  const [expected, desired] = splitArguments(code.slice(open + 1, close));
  const [asked = "", negated] = /^\s*\.is_(?:ok|(err))\(\)/.exec(code.slice(close + 1)) ?? [];
  if (!asked) return code;
  const call = `${negated ? "!" : ""}__sync_bool_compare_and_swap(&${found[1]}, ${expected}, ${desired})`;
  return code.slice(0, found.index) + call + rewriteSwaps(code.slice(close + 1 + asked.length));
}

/** Returns code in which each compare-exchange whose result has a pattern, or is compared with a success, is asked for that by a method. */
function rewritePatterns(code) {
  const found = SWAP.exec(code);
  if (!found) return code;
  const open = found.index + found[0].length - 1;
  const close = findEnd(code, open);
  const [before, call, after] = [code.slice(0, found.index), code.slice(found.index, close + 1), code.slice(close + 1)];
  const [pattern = "", word = "", kind] = (/^\s*\{/.test(after) && /\b((?:if|while)\s+)let\s+(Ok|Err)\(_\w*\)\s*=\s*$/.exec(before.slice(-60))) || [];
  const [equal = "", sign, value] = (!pattern && /^\s*([=!])=\s*Ok\((\w+)\)/.exec(after)) || [];
  const isSame = equal && value === splitArguments(code.slice(open + 1, close))[0];
  const asked = pattern ? (kind === "Ok" ? ".is_ok()" : ".is_err()") : !isSame ? "" : sign === "=" ? ".is_ok()" : ".is_err()";
  return before.slice(0, before.length - pattern.length) + word + call + asked + rewritePatterns(after.slice(isSame ? equal.length : 0));
}

/** Returns an operand of a comparison, in parentheses if it compares. */
function group(operand) {
  return /[=!]=|[<>]|&&|\|\|/.test(operand) ? `(${operand})` : operand;
}

/** Returns code in which assertions are those of C. */
function rewriteAssertions(code) {
  const [head, macro = ""] = /\bassert(_eq|_ne)?!\s*\(/.exec(code) ?? [];
  if (!head) return code;
  const open = code.indexOf(head) + head.length - 1;
  const close = findEnd(code, open);
  const operands = splitArguments(code.slice(open + 1, close));
  const [, left, sign, right] = (!macro && /^(\([\w\s,]+\))\s*([=!]=)\s*(\([\w\s,]+\))$/.exec(operands[0] ?? "")) || [];
  const kind = !sign ? macro : sign === "==" ? "_eq" : "_ne";
  const [first = "", second = ""] = sign ? [left, right] : operands;
  const [all, others] = [first, second].map((it) => (/^\(/.test(it) ? splitArguments(it.slice(1, -1)) : [it]));
  if (kind && all.length !== others.length) throw new Unread(code.slice(code.indexOf(head), close + 1), ": it compares what has other parts");
  const equal = all.map((it, at) => `${group(it)} == ${group(others[at])}`).join(" && ");
  const condition = !kind ? first : kind === "_eq" ? equal : all.length > 1 ? `!(${equal})` : `${group(first)} != ${group(second)}`;
  return `${code.slice(0, code.indexOf(head))}assert(${condition})${rewriteAssertions(code.slice(close + 1))}`;
}

/** Returns code without `unsafe`: a block that is a value is in parentheses. */
function rewriteUnsafe(code) {
  const found = /\bunsafe\s*(?=\{)/.exec(code);
  if (!found) return code;
  const open = found.index + found[0].length;
  const close = findEnd(code, open);
  const inner = code.slice(open + 1, close).trim();
  const isValue = /[=(!&|,+<>-]\s*$|\breturn\s*$|\b(?:if|while)\s*$/.test(code.slice(0, found.index)) || /^\s*[=!<>+&|-]/.test(code.slice(close + 1));
  const isLast = !code.slice(close + 1).trim() && !/;$/.test(inner) && !/[^=!<>]=(?!=)/.test(inner);
  const written = isValue || isLast ? inner : `${inner}${/[;}]$/.test(inner) || !inner ? "" : ";"}`;
  return code.slice(0, found.index) + (isValue && /\s/.test(written) ? `(${written})` : written) + rewriteUnsafe(code.slice(close + 1));
}

/** Returns code in which the conditions of branches and loops are in parentheses. */
function rewriteHeads(code) {
  let written = "";
  let at = 0;
  for (const found of code.matchAll(HEAD)) {
    const [whole, head, name, first, isWhole, last] = found;
    if (found.index < at) continue;
    const open = findBlock(code, found.index + whole.length);
    const condition = code.slice(found.index + whole.length, open).trim();
    const pass = name === "_" ? "pass" : name;
    const loop = `for (int ${pass} = ${first}; ${pass} ${isWhole ? "<=" : "<"} ${last}; ${pass}++)`;
    const made = head === "loop" ? "while (true)" : name ? loop : `${head} (${condition})`;
    written += `${code.slice(at, found.index)}${made} `;
    at = open;
  }
  return written + code.slice(at);
}

/** Returns the index of the brace that begins the block of a branch or loop, after an index. */
function findBlock(code, index) {
  let depth = 0;
  for (let at = index; at < code.length; at += 1) {
    if (code[at] === "{" && depth === 0) return at;
    depth += "([".includes(code[at]) - ")]".includes(code[at]);
  }
  return code.length;
}

/** Returns the declarations of variables as those of C++. */
function rewriteDeclarations(code) {
  const declare = (_, name, type) => (name === "_" ? "" : `${TYPES.get(type) ?? "auto"} ${name} =`);
  const typed = code.replace(/\blet\s+(?:mut\s+)?(\w+)\s*:\s*(\w+)\s*;/g, (_, name, type) => `${TYPES.get(type) ?? "int"} ${name};`);
  return typed.replace(/\blet\s+(?:mut\s+)?(\w+)(?:\s*:\s*([\w:]+))?\s*=(?!=)/g, declare);
}

/**
 * Returns an expression or statements in C++, with the variables that have other names.
 * @param {string} code
 * @param {Map<string, string>} names
 * @returns {string}
 */
export function writeExpression(code, names) {
  const asked = rewritePatterns(code.replace(LAST, "$1;"));
  const renamed = names.size ? asked.replace(/(?<![\w.])[A-Za-z_]\w*/g, (it) => names.get(it) ?? it) : asked;
  const words = WORDS.reduce((all, [pattern, word]) => all.replace(pattern, word), rewriteAssertions(rewriteUnsafe(renamed)));
  if (ON_BITS.test(words)) throw new Unread(ON_BITS.exec(words)[0].slice(1), OF_BITS);
  if (OTHER.test(asked)) throw new Unread(OTHER.exec(asked)[0], OF_OTHERS);
  return rewriteSwaps(rewriteDeclarations(rewriteHeads(words)));
}

/**
 * Returns the body of a function in C++, which returns its last expression if `isReturning`.
 * @param {string} body
 * @param {Map<string, string>} names
 * @param {boolean} isReturning
 * @returns {string}
 */
export function writeBody(body, names, isReturning) {
  const statements = splitStatements(body);
  const last = statements.at(-1) ?? "";
  const isValue = isReturning && last && !/;\s*$/.test(body) && !/^(?:let|if|while|loop|for|return)\b/.test(last);
  return writeExpression(joinStatements(isValue ? [...statements.slice(0, -1), `return ${last}`] : statements), names);
}
