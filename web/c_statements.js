// Reads the code of a thread of a program in C: its statements, with the branches and blocks, the sums and conditions in them, and why a statement is
// refused. Not proved.
//
// A `Statement` is a `Part` of a program. That of an `if` has its `condition`, and the statements of its branches, `then` and `otherwise`; one in
// braces has the statements of its `block`. A loop that only waits has its `condition`, the code of what it `assigns`, or "",
// the names of functions that it `calls`, and the conditions of loops `inner` to it. It `isLate` if it assigns before its condition, or not. A loop
// of loads has the statements of its `body`, and the condition of its next pass.

import { findClosing, parseConstant, refusePart } from "./c_code.js";
import { OF_DIRECTIVES } from "./c_directives.js";
import { explainType } from "./c_reasons.js";

/** The number of statements that a statement may be in. */
export const DEEPEST = 64;
const IF = /^if\s*\(/;
// A condition that declares a variable: the groups are the declaration, the name, and the condition after it, if there is one.
const DECLARING = /^(\s*(?:const\s+)?(?:auto|bool|int|unsigned(?:\s+int)?|(?:u?int\d+|s?size)_t)\s+(\w+)\s*=(?!=)[^;]*)(?:;([^;]*))?$/;
const ELSE = /^else\b/;
// How statements begin that are refused.
const LOOP = /^(?:else|while|for|do|switch)\b/;
const SWITCH = /^switch\b/;
// A body that only counts a variable.
const STEP = "(?:(?:\\+\\+|--)\\s*\\w+|\\w+\\s*(?:\\+\\+|--|[+-]=\\s*\\d+))\\s*;";
const COUNTING = new RegExp(`^\\s*(?:\\{\\s*${STEP}\\s*\\}|${STEP})`);
const HEAD = /^\w+\s*(?=\()/;
const DIRECTIVE = /^#[ \t]*(?:if|elif|else|endif)[^\n]*/;
/** Why a loop is refused, as the end of a sentence. */
export const OF_LOOPS = ": write out each pass of a loop. `tools/from_c.py` follows loops";
const OF_COUNTING = ": how often it counts depends on when it ends, so leave out the counting, or write some passes of it";
const OF_SWITCH = ": write an `if` for each case";
const OF_ELSE = ": an `else` follows the one statement or block of its `if`";
/** What prints, in squeezed code: the groups are a call, and a stream. */
export const OUTPUT = /^(?:((?:f?printf|f?puts|putchar|fmt::print|print(?:ln)?|fflush|setvbuf)\()|(cout|cerr)<<)/;
const STRING = /"(?:[^"\\]|\\.)*"/g;
const COMPARISON = /[=!]=|[^=!]=!|<(?!<)|(?<!>)>(?!>)|&&|\|\|/;
/** Why a call of a function is refused, as the end of a sentence. */
export const OF_FUNCTIONS = ": write what the function does in its place";
/** Why an index is refused, as the end of a sentence. */
export const OF_INDICES = ": an array is shared, and its indices are constants in it, as `a[0]`";
/** Why the index of a long array is refused, as the end of a sentence. */
export const OF_LENGTH = ": of an array the first 16 words are read";
// Why a statement is refused, by a part of it in squeezed code, unless a rule says so.
/** What sets or reads a bit in the Linux kernel. */
export const BITS = /\b(?:test_and_)?(?:set|clear|change|test)_bit\w*\s*\(/;
/** Why it is refused, as the end of a sentence. */
export const OF_BITS = ": of bits only bit 0 of a word is set and cleared here, which is only 0 or 1 then";
const REASONS = [
  [/\b(?!spin_|pthread_|mtx_|atomic_)\w+_try_?lock\(/, ": of what tries a lock `m.try_lock()`, `spin_trylock`, `pthread_mutex_trylock` and `mtx_trylock` are read"],
  [/_?try_?lock\(/, ": a lock is tried in a condition of its own, as `if (m.try_lock())`"],
  [/^(?:__)?asm(?:__)?\b|thread_fence/, ": a fence is `atomic_thread_fence(memory_order_seq_cst)`"],
  [/compare_exchange|cmpxchg/, ": the x86 format has no compare-and-swap. `tools/from_c.py` follows it"],
  [BITS, OF_BITS],
  [/fetch_(?:or|and|xor)/, ": of locked instructions the x86 format has only exchange and addition"],
  [/\blw_see\b/, ": the question names the variable itself, as `0:r0`"],
  [/\?/, ": write an `if`"],
  [/^(?:const )?(?:float|double|string)\b/, ": a variable is an integer, as `int r0`"],
  [/\w\[/, OF_INDICES],
  [/^\w+ ?\*(?!=)|(?<![\w)\]&])&(?=\w+$)/, ": threads have no pointers of their own"],
  [/^\w+:|^goto\b/, ": `goto` and labels are not rewritten"],
  [/[\w)](?:[*\/%^]|&(?!&)|\|(?!\|))|~|<<|>>/, ": the x86 format has sums only"],
  [/_cast</, ": write the word that the cast results in"],
  [COMPARISON, ": compare in the condition of an `if`"],
  [/^\w+\([^]*\)$|[=(,]\w+\(/, OF_FUNCTIONS],
];
// What is in no side of a comparison.
const OPERATOR = /\|\||&&|[<>?]|[=!]=|^!/;
/** Why a condition is refused, as the end of a sentence. */
export const OF_CONDITIONS = ": a condition compares by `==` or `!=`, and has `&&` or, in an `if`, `||`";
const OF_OTHERS = ": a statement is one load, store, exchange, addition or fence, or an `if`";

/**
 * Returns why a statement is refused that no rule refuses, as the end of a sentence.
 * @param {string} code squeezed
 * @returns {string}
 */
export function explainStatement(code) {
  return explainType(code) ?? REASONS.find(([pattern]) => pattern.test(code))?.[1] ?? OF_OTHERS;
}

/**
 * Returns why a condition is refused that no rule refuses, as the end of a sentence.
 * @param {string} code squeezed
 * @returns {string}
 */
export function explainCondition(code) {
  return REASONS.find(([pattern]) => pattern !== COMPARISON && pattern.test(code.replace(/[=!]=.*/, "")))?.[1] ?? OF_CONDITIONS;
}

/**
 * Reads the statements of a code, from its begin to its end. `at` is how far it is read, `depth` the number of statements that it is in, and `passCount` how
 * often the loops around it execute it.
 */
export class StatementReader {
  /**
   * `names` has the constants that have names.
   * @param {Part} code
   * @param {number} [depth]
   * @param {Map<string, string>} [names]
   * @param {number} [passCount]
   */
  constructor({ code, index }, depth = 0, names = new Map(), passCount = 1) {
    Object.assign(this, { code, index, depth, names, passCount, at: 0 });
    this.skipBlanks();
  }

  /** Returns a reader of a code in the statement, which is executed some times in each pass of the loops around it. */
  makeReader(part, count = 1) {
    return new this.constructor(part, this.depth + 1, this.names, this.passCount * count);
  }

  /** Returns what is not read yet. */
  get rest() {
    return this.code.slice(this.at);
  }

  /** Skips the blanks at the begin of the rest. */
  skipBlanks() {
    this.at += this.rest.search(/\S|$/);
  }

  /** Returns the part of some length at the begin of the rest, and skips it with the blanks after it. */
  takePart(length) {
    const part = { code: this.rest.slice(0, length), index: this.index + this.at };
    this.at += length;
    this.skipBlanks();
    return part;
  }

  /** Returns all statements, without empty ones. */
  readAll() {
    const all = [];
    while (this.rest) all.push(this.readStatement());
    return all.filter((it) => it.code.trim());
  }

  /** Returns the next statement. Throws NoTest if it is none that is rewritten, or has no end. */
  readStatement() {
    const { rest } = this;
    if (this.depth > DEEPEST) refusePart(this.takePart(rest.length), ": it is in too many other statements");
    if (rest.startsWith("{")) return this.readBlock();
    if (IF.test(rest)) return this.readBranch();
    if (LOOP.test(rest)) return this.readLoop();
    const [directive = ""] = DIRECTIVE.exec(rest) ?? [];
    if (directive) refusePart(this.takePart(directive.length), OF_DIRECTIVES);
    const length = this.findEnd();
    if (length < 0) refusePart(this.takePart(rest.length), ": its `;` is missing");
    const statement = this.takePart(length);
    this.takePart(1);
    return statement;
  }

  /** Returns the index of the `;` that ends the statement here; -1 if there is none. */
  findEnd() {
    return this.rest.indexOf(";");
  }

  /** Returns a block, whose braces are not in its statements. */
  readBlock() {
    const close = findClosing(this.rest, 0);
    if (close < 0) refusePart(this.takePart(this.rest.length), ": its `}` is missing");
    const { code, index } = this.takePart(close + 1);
    return { code, index, block: this.makeReader({ code: code.slice(1, -1), index: index + 1 }).readAll() };
  }

  /** Returns an `if`, with its `else`; if it declares a variable, a block of the declaration and the `if`. Its code is up to its condition. */
  readBranch() {
    const open = this.rest.indexOf("(");
    const close = findClosing(this.rest, open);
    if (close < 0) refusePart(this.takePart(this.rest.length), ": its `)` is missing");
    const head = this.takePart(close + 1);
    const then = this.readBranchBody(head);
    const hasElse = ELSE.test(this.rest);
    if (hasElse) this.takePart("else".length);
    const whole = head.code.slice(open + 1, -1);
    const branch = { ...head, condition: whole, then, otherwise: hasElse ? this.readBranchBody(head) : [] };
    const [, declaration, name, tested = name] = DECLARING.exec(whole) ?? [];
    if (!declaration) return branch;
    const declared = { code: declaration, index: head.index + open + 1 };
    return { ...head, block: [declared, { ...branch, condition: tested }] };
  }

  /** Returns the statements of a branch of an `if` that begins with a part. Throws NoTest for this part if there is none. */
  readBranchBody(head) {
    if (!this.rest) refusePart(head, ": a branch has a statement");
    this.depth += 1;
    const statement = this.readStatement();
    this.depth -= 1;
    return statement.block ?? [statement].filter((it) => it.code.trim());
  }

  /** Throws NoTest at a loop, at a `switch`, and at an `else`. */
  readLoop() {
    const { rest } = this;
    const head = HEAD.exec(rest)?.[0].length;
    const length = head ? findClosing(rest, head) + 1 : rest.search(/[;{]|$/);
    const [, why] = [[ELSE, OF_ELSE], [SWITCH, OF_SWITCH]].find(([pattern]) => pattern.test(rest)) ?? [LOOP, OF_LOOPS];
    const isCounting = why === OF_LOOPS && COUNTING.test(rest.slice(length));
    return refusePart(this.takePart(length), isCounting ? OF_COUNTING : why);
  }
}

/**
 * Returns code whose strings are blank, and whose other parts are in their places.
 * @param {string} code
 * @returns {string}
 */
export function removeStrings(code) {
  return code.replace(STRING, (it) => `"${" ".repeat(it.length - 2)}"`);
}

// Values. Their code is squeezed.

/**
 * Returns code without the parentheses around all of it.
 * @param {string} code
 * @returns {string}
 */
export function removeOuterParentheses(code) {
  const opening = code.search(/[^(]|$/);
  let end = code.length;
  while (code[end - 1] === ")") end -= 1;
  // The least number of parentheses that are open between the first ones and the last ones.
  let [depth, least] = [opening, opening];
  for (let at = opening; at < end; at += 1) {
    depth += Number(code[at] === "(") - Number(code[at] === ")");
    least = Math.min(least, depth);
  }
  const closing = code.length - end;
  const count = depth === closing ? Math.max(Math.min(least, closing), 0) : 0;
  return code.slice(count, code.length - count);
}

/**
 * Returns the parts of code between marks that are in no parentheses.
 * @param {string} code
 * @param {string} mark
 * @returns {string[]}
 */
export function splitOutside(code, mark) {
  const parts = [""];
  let depth = 0;
  for (let at = 0; at < code.length; at += 1) {
    depth += Number(code[at] === "(") - Number(code[at] === ")");
    if (!depth && code.startsWith(mark, at)) {
      parts.push("");
      at += mark.length - 1;
    } else parts[parts.length - 1] += code[at];
  }
  return parts;
}

/**
 * Returns the terms of a sum, each with its sign. A step as `x++` is one term, and so is a negative constant.
 * @param {string} code
 * @returns {{sign: string, term: string}[]}
 */
export function splitTerms(code) {
  const terms = [{ sign: "+", term: "" }];
  let depth = 0;
  for (let at = 0; at < code.length; at += 1) {
    const [letter, last] = [code[at], terms.at(-1)];
    depth += Number(letter === "(") - Number(letter === ")");
    const isSign = !depth && /[+-]/.test(letter);
    if (isSign && code[at + 1] === letter) {
      last.term += letter + letter;
      at += 1;
    } else if (isSign && last.term) terms.push({ sign: letter, term: "" });
    else if (depth || letter !== "@") last.term += letter;
  }
  return terms;
}

/**
 * Returns the comparisons of which a condition is true if all are: their two sides, and whether they are to be equal. Null if it is none of these.
 * @param {string} code
 * @returns {{sides: string[], isEqual: boolean}[] | null}
 */
export function parseCondition(code) {
  const parts = splitOutside(removeOuterParentheses(code), "&&").map((it) => parseComparison(removeOuterParentheses(it)));
  return parts.includes(null) ? null : parts;
}

/**
 * Returns an `if` of the first of several conditions that are joined by `||`, whose `else` is one of the others with the same branches. Null if the condition
 * has no `||` outside of parentheses, or more than comparisons around it.
 * @param {Statement} statement
 * @param {string} code its condition, squeezed
 * @returns {Statement | null}
 */
export function splitEither(statement, code) {
  const [condition, ...others] = splitOutside(removeOuterParentheses(code), "||");
  if (!others.length || /[?]|(?<![=!<>])=(?!=)/.test(code)) return null;
  return { ...statement, condition, otherwise: [{ ...statement, condition: others.join("||") }] };
}

/**
 * Returns whether code is a condition, and not a value that might be one.
 * @param {string} code
 * @returns {boolean}
 */
export function isCondition(code) {
  const inner = removeOuterParentheses(code);
  return !parseChoice(inner) && (inner.startsWith("!") || ["==", "!=", "&&"].some((mark) => splitOutside(inner, mark).length > 1));
}

/**
 * Returns the condition of a value that is chosen by `?`, and the codes of the value if it holds, and if not; null if code is no such value.
 * @param {string} code
 * @returns {{condition: string, then: string, otherwise: string} | null}
 */
export function parseChoice(code) {
  const [condition, ...others] = splitOutside(removeOuterParentheses(code), "?");
  if (!others.length) return null;
  // Each `?` of the first value has its own `:` before that of the first one.
  const parts = splitOutside(others.join("?"), ":");
  const count = parts.findIndex((_, at) => splitOutside(parts.slice(0, at + 1).join(":"), "?").length === at + 1) + 1;
  return { condition, then: parts.slice(0, count).join(":"), otherwise: parts.slice(count).join(":") };
}

/** Returns the two sides of a comparison, and whether they are to be equal: a bare value is not 0, and one after `!` is 0. Null if it is none. */
function parseComparison(code) {
  if (/^!(?!=)/.test(code)) return negateComparison(code.slice(1));
  const isEqual = splitOutside(code, "==").length === 2;
  const sides = splitOutside(code, isEqual ? "==" : "!=").map(removeOuterParentheses);
  if (sides.length > 2 || sides.some((it) => !it || OPERATOR.test(it))) return null;
  if (sides.length === 1) return { sides: [...sides, "0"], isEqual: false };
  return { sides: parseConstant(sides[0]) === null ? sides : sides.reverse(), isEqual };
}

/** Returns the comparison that holds if a value or a comparison in parentheses does not. Null if code is neither. */
function negateComparison(code) {
  const isWhole = /^\*?\w+$/.test(code) || (/^\w*\(/.test(code) && findClosing(code, code.indexOf("(")) === code.length - 1);
  const comparison = isWhole ? parseComparison(removeOuterParentheses(code)) : null;
  return comparison && { ...comparison, isEqual: !comparison.isEqual };
}
