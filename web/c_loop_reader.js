// Reads the loops of a thread of a program in C: those that count to a constant, whose passes are written one after another, those that only wait, and
// those that load until their loads fit together. Not proved.
//
// The records `Part` and `Statement` are those of c_reader.js and c_statements.js.

import { findClosing, parseConstant, refusePart, squeezeCode } from "./c_code.js";
import { DEEPEST, StatementReader } from "./c_statements.js";

// The body of a loop that only waits, in squeezed code: the group is what it assigns.
const PAUSE =
  '(?:continue;|(?:__)?asm(?:__)? (?:__)?volatile(?:__)?\\("pause"(?::::"memory")?\\);)|' +
  "(?:this_thread::)?\\w{0,40}(?:pause|relax|yield|sleep)\\w{0,40}\\((?:[^();]|\\([^();]*\\))*\\);";
const PAUSES = new RegExp(`^\\{?(?:${PAUSE})*`);
const WAITING = new RegExp(`^\\{?(?:;|(\\w+=[^;{}]+);)?(?:${PAUSE})*\\}?$`);
// The begin of a loop without a condition, up to the parenthesis of its first `if`; and what leaves it.
const ENDLESS_HEAD = /^(?:while\s*\(\s*(?:true|1)\s*\)|for\s*\(\s*;\s*;\s*\))/;
const ENDLESS = new RegExp(`${ENDLESS_HEAD.source}\\s*\\{\\s*(?:(?:bool|int|auto|unsigned)\\s+(\\w+\\s*=\\s*\\w+)\\s*;\\s*)?if\\s*\\(`);
const BREAK = /^\s*(?:(?:break|(return))\s*;|\{\s*(?:break|(return))\s*;\s*\})/;
// A branch that leaves a loop or a pass, and what a loop sets before it looks: the group is the assignment.
const LEAVING = /^\s*(?:continue|break)\s*$/;
const SETTING = /^\{\s*(\w+\s*=\s*\w+)\s*;(?=\s*while\b)/;
// The head of a loop that counts: the groups are its type, its variable, the first number, the variable again, the comparison, the bound, and how it
// counts.
const COUNTED = new RegExp(
  "^for\\s*\\(\\s*((?:(?:const|unsigned|signed|int|long|short|auto|(?:std\\s*::\\s*)?s?size_t|u?int\\d{1,2}_t)\\s+)+)(\\w+)\\s*=\\s*(\\d{1,9})\\s*;" +
    "\\s*(\\w+)\\s*(<=?|>=?|!=)\\s*(\\w+)\\s*;\\s*(\\w+\\s*(?:\\+\\+|--)|(?:\\+\\+|--)\\s*\\w+|\\w+\\s*[+-]=\\s*\\d{1,3})\\s*\\)",
);
// In its type, what has no sign, and what has 8 or 16 bits.
const UNSIGNED = /\bunsigned\b|\bsize_t\b|\buint/;
const SMALL = /\bshort\b|int(8|16)_t/;
const COMPARISONS = { "<": (a, b) => a < b, "<=": (a, b) => a <= b, ">": (a, b) => a > b, ">=": (a, b) => a >= b, "!=": (a, b) => a !== b };
const LEAVES = /\b(?:break|continue|goto)\b/;
const MOST_PASSES = 16;
/** Why a loop that counts far is refused, as the end of a sentence. */
export const OF_PASSES = ": count to 2 or 3 here, since a thread of a test has 32 instructions at most";
// A loop that counts down to 0: the group is its variable.
const COUNTDOWN = /^while\s*\(\s*(\w+)\s*--\s*(?:(?:>|!=)\s*0\s*)?\)/;
const DO = /^do\b/;
// An `else` after a branch. And how much of a code may have the head of a statement up to its parenthesis.
const ELSE = /^\s*else\b/;
const LONGEST_HEAD = 40;
const WHILE = /^\s*while\s*(?=\()/;
// A store of a constant in the body of a loop.
const STORES = /\bstore\w*\s*\(|WRITE_ONCE\s*\(|[\w\]]\s*=\s*(?:\d|true|false)/g;
// What ends such a loop otherwise than by its condition, and an addition, which may be what the loop is for.
const OTHER_END = /\b(?:break|return|goto|continue|throw|exit|abort)\b|\+\+|--|[+-]=|fetch_/;
/** Why a loop that stores is refused, as the end of a sentence. */
export const OF_STORING = ": a loop that stores before it looks again is not rewritten, so write only the entry, as `flag[0] = 1; if (flag[1] == 0) { n++; }`";

/**
 * Returns whether the last store in the body of a loop, and what follows this, is as at the end of the code before the loop, so that a thread looks again as it
 * looks first.
 * @param {string} before
 * @param {string} body
 * @returns {boolean}
 */
export function isStoredAlike(before, body) {
  const squeeze = (code) => code.replace(/\b(?:const|auto|int|bool|unsigned)\s+(?=\w+\s*=)/g, "").replace(/\s+/g, "");
  const { index } = [...body.matchAll(STORES)].at(-1) ?? {};
  if (index === undefined) return false;
  const begin = Math.max(...[";", "{", "}"].map((it) => body.lastIndexOf(it, index))) + 1;
  return squeeze(before).endsWith(squeeze(body.slice(begin)).replace(/\}+$/, ""));
}

/** Reads the statements of a thread. */
class ThreadReader extends StatementReader {
  /** Returns the loop here, if it counts, or only waits or loads. Throws NoTest at another one, at a `switch`, and at an `else`. */
  readLoop() {
    return this.readCounted() ?? this.readCountdown() ?? this.readWaiting() ?? this.readEndless() ?? this.readPass() ?? this.readStoring() ?? super.readLoop();
  }

  /**
   * Returns an `if` that ends the thread in place of the loop here, if that takes back and stores again what keeps others out, as in Dekker's lock: a
   * thread that would begin it ends there. Null if it does not. Throws NoTest if such a loop has another end, or stores otherwise than the code before it.
   */
  readStoring() {
    const { rest } = this;
    const head = WHILE.exec(rest)?.[0].length;
    const close = head ? findClosing(rest, head) : -1;
    const stores = close < 0 ? [] : findBody(rest, close + 1).code.match(STORES) ?? [];
    const isLooking = /[a-z_]/i.test(rest.slice(head, Math.max(close, head)).replace(/\btrue\b/g, ""));
    if (stores.length < 2 || !isLooking) return null;
    const { code: body, end } = findBody(rest, close + 1);
    const isEntry = !OTHER_END.test(body) && isStoredAlike(this.code.slice(0, this.at), body);
    const { code, index } = this.takePart(isEntry ? end : close + 1);
    const part = { code: code.slice(0, close + 1), index };
    const ending = { code: "return", index: index + close };
    return isEntry ? { ...part, condition: part.code.slice(head + 1, -1), then: [ending], otherwise: [], isEntry } : refusePart(part, OF_STORING);
  }

  /** Returns the passes of the loop here, each as a block, if it counts to a constant and nothing else changes its variable; null if it does not. */
  readCounted() {
    const { rest } = this;
    const [head = "", , name] = COUNTED.exec(rest) ?? [];
    const numbers = head ? listNumbers(head, this.names) : [];
    if (this.passCount * numbers.length > MOST_PASSES) refusePart(this.takePart(head.length), OF_PASSES);
    const { code, end } = findBody(rest, head.length);
    const isChanged = new RegExp(`(?:\\+\\+|--|&)\\s*${name}\\b|\\b${name}\\s*(?:\\+\\+|--|(?:[-+*/%&|^]|<<|>>)?=(?!=))`).test(code);
    if (!numbers.length || isChanged || LEAVES.test(code) || this.depth > DEEPEST) return null;
    const inner = code.startsWith("{") ? code.slice(1, -1) : code;
    const { index } = this.takePart(end);
    const at = index + end - code.length + (inner === code ? 0 : 1);
    const replace = (number) => inner.replace(new RegExp(`(?<![\\w.>])${name}\\b`, "g"), String(number).padEnd(name.length));
    const readPass = (number) => ({ code: head, index, block: this.makeReader({ code: replace(number), index: at }, numbers.length).readAll() });
    return { code: head, index, block: numbers.map(readPass) };
  }

  /**
   * Returns a block of the passes of the loop here, which counts a variable down to 0 that is declared with a constant before, and of what the variable is
   * after them; null if it is no such loop, or its body has the variable, too.
   */
  readCountdown() {
    const { rest } = this;
    const [head, name] = COUNTDOWN.exec(rest) ?? [];
    const { code, end } = head ? findBody(rest, head.length) : {};
    const before = this.code.slice(0, this.at);
    const declared = head && new RegExp(`\\bint\\s+${name}\\s*=\\s*(\\w+)\\s*;([^]*)$`).exec(before);
    const [, value, between] = declared || [];
    const count = parseConstant(this.names.get(value) ?? value ?? "");
    const isNamed = (text) => new RegExp(`\\b${name}\\b`).test(text);
    const isIn = between === undefined || isNamed(between) || /[{}]/.test(between) || isNamed(code) || LEAVES.test(code) || /\breturn\b/.test(code);
    if (isIn || count === null || this.depth > DEEPEST) return null;
    if (count * this.passCount > MOST_PASSES) refusePart(this.takePart(head.length), OF_PASSES);
    const inner = code.startsWith("{") ? code.slice(1, -1) : code;
    const { index } = this.takePart(end);
    const at = index + end - code.length + (inner === code ? 0 : 1);
    const readPass = () => ({ code: head, index, block: this.makeReader({ code: inner, index: at }, count).readAll() });
    const last = { code: `${name} = -1`, index };
    return { code: head, index, block: [...Array.from({ length: count }, readPass), last] };
  }

  /** Returns the loop here with its `condition` and what it `assigns` and `calls`; null if it does more than to wait. */
  readWaiting() {
    const { rest } = this;
    const isDo = DO.test(rest);
    const body = isDo ? findBody(rest, "do".length) : null;
    const begin = isDo ? body.end : 0;
    const head = WHILE.exec(rest.slice(begin))?.[0].length;
    const close = head ? findClosing(rest, begin + head) : -1;
    if (close < 0) return null;
    const { code, end } = isDo ? { ...body, end: close + 1 } : findBody(rest, close + 1);
    const [set = "", setting = ""] = isDo ? [] : SETTING.exec(code) ?? [];
    const inner = this.readInner(set ? `{${code.slice(set.length)}` : code);
    const [found, assigns = ""] = inner ? ["", setting] : WAITING.exec(squeezeCode(code)) ?? [];
    if (found === undefined) return null;
    const calls = code.match(/\b\w+(?=\s{0,9}\()/g) ?? [];
    const { index } = this.takePart(end);
    const condition = rest.slice(begin + head + 1, close);
    const setFirst = !isDo && !assigns && !inner ? splitAssignment(condition) : null;
    if (setFirst) return { code: rest.slice(0, close + 1), index, ...setFirst, calls, inner: [], isLate: true };
    const isInnerFirst = isDo && inner !== null;
    return { code: rest.slice(0, close + 1), index, condition, assigns, calls, inner: inner ? [inner] : [], isLate: isDo, isInnerFirst };
  }

  /** Returns the loop here, if it has no condition, begins with an `if` that leaves it, and otherwise only waits; null if it does not. */
  readEndless() {
    const { rest } = this;
    const head = ENDLESS.exec(rest)?.[0] ?? "";
    const open = head.length - 1;
    const close = head ? findClosing(rest, open) : -1;
    const end = head ? findClosing(rest, rest.indexOf("{")) : -1;
    const [left, one, other] = BREAK.exec(rest.slice(close + 1, end)) ?? [];
    if (close < 0 || left === undefined || end < close) return null;
    const after = rest.slice(close + 1 + left.length, end).trim();
    const inner = this.readInner(after);
    if (!inner && !/^\{?\}?$/.test(squeezeCode(after).replace(PAUSES, ""))) return null;
    const calls = after.match(/\b\w+(?=\s{0,9}\()/g) ?? [];
    const { index } = this.takePart(end + 1);
    const assigns = ENDLESS.exec(rest)[1] ?? "";
    const condition = `!${rest.slice(open, close + 1)}`;
    const loop = { code: rest.slice(0, close + 1), index, condition, assigns, calls, inner: inner ? [inner] : [], isLate: true };
    const result = one ?? other;
    return result ? { code: rest.slice(0, close + 1), index, block: [loop, { code: result, index: index + close + left.indexOf(result) + 1 }] } : loop;
  }

  /** Returns the loop here with the statements of its `body` and the `condition` of its next pass; null if there are others in these. */
  readPass() {
    const { rest } = this;
    const head = DO.exec(rest)?.[0] ?? ENDLESS_HEAD.exec(rest)?.[0] ?? "";
    const open = head.length + rest.slice(head.length).search(/\S|$/);
    const close = head && rest[open] === "{" ? findClosing(rest, open) : -1;
    const after = close < 0 ? "" : WHILE.exec(rest.slice(close + 1))?.[0] ?? "";
    const end = head !== "do" ? close : after ? findClosing(rest, close + 1 + after.length) : -1;
    if (end < 0 || this.depth > DEEPEST) return null;
    const condition = head === "do" ? rest.slice(close + 1 + after.length, end + 1) : "";
    const pass = makePass(this.readBody({ code: rest.slice(open + 1, close), index: this.index + this.at + open + 1 }), condition);
    return pass && { code: head, index: this.takePart(end + 1).index, ...pass };
  }

  /** Returns the statements of a loop; none if one is none that is rewritten. */
  readBody(code) {
    try {
      return this.makeReader(code).readAll();
    } catch {
      return [];
    }
  }

  /** Returns the condition of a loop that only waits, which is all that a code has, with braces or without; null if there is none. */
  readInner(code) {
    const inside = code.startsWith("{") ? code.slice(1, -1).trim() : code;
    if (!WHILE.test(inside) || this.depth > DEEPEST) return null;
    const reader = this.makeReader({ code: inside, index: 0 });
    const loop = reader.readWaiting();
    return loop && !loop.assigns && !loop.inner.length && !reader.rest ? loop.condition : null;
  }
}

/** Returns whether a type of the variable of a loop has a number. */
function hasNumber(type, number) {
  const bits = SMALL.test(type) ? Number(SMALL.exec(type)[1] ?? 16) : 32;
  return UNSIGNED.test(type) ? number >= 0 && number < 2 ** bits : Math.abs(number) < 2 ** (bits - 1);
}

/**
 * Returns the numbers that the variable of a loop has in its passes, given its head, at least the first ones if they are too many; none if the loop compares
 * or counts another variable, or counts to a number that its type has not.
 */
function listNumbers(head, names) {
  const [, type, name, first, compared, sign, named, step] = COUNTED.exec(head);
  const bound = parseConstant(names.get(named) ?? named) ?? NaN;
  const [counted] = /[A-Za-z_]\w*/.exec(step);
  const size = Number(/\d+$/.exec(step.replace(counted, ""))?.[0] ?? 1) * (step.includes("-") ? -1 : 1);
  if (compared !== name || counted !== name || Number.isNaN(bound)) return [];
  const numbers = [];
  let number = Number(first);
  for (; COMPARISONS[sign](number, bound) && numbers.length <= MOST_PASSES; number += size) numbers.push(number);
  return numbers.some((it) => it < 0) || ![Number(first), number].every((it) => hasNumber(type, it)) ? [] : numbers;
}

/** Returns what a condition `assigns` first, in parentheses, and the `condition` without it; null if it does not. */
function splitAssignment(code) {
  const [begin, name] = /\(\s*(\w+)\s*=(?!=)/.exec(code) ?? [];
  const open = begin ? code.indexOf(begin) : -1;
  const close = open < 0 ? -1 : findClosing(code, open);
  const isFirst = close >= 0 && !/\w/.test(code.slice(0, open));
  return isFirst ? { assigns: squeezeCode(code.slice(open + 1, close)), condition: code.slice(0, open) + name + code.slice(close + 1) } : null;
}

/**
 * Returns the `body` and the `condition` of a loop of loads, given its statements and the condition after these, or "": the condition of each statement
 * that leaves a pass is one of the next pass, and so is that of a loop in the pass. Null if it has other statements.
 */
function makePass(statements, condition) {
  const body = [];
  const conditions = condition ? [condition] : [];
  for (const it of statements) {
    const [left, ...others] = it.then ?? [];
    const isLast = it === statements.at(-1);
    const isLeaving = left && !condition && !others.length && !it.otherwise.length && LEAVING.test(left.code) && /break/.test(left.code) === isLast;
    if (isLeaving) conditions.push(`${isLast ? "!" : ""}(${it.condition})`);
    else if (it.assigns && it.isLate) {
      body.push({ code: it.assigns, index: it.index });
      conditions.push(`(${it.condition})`);
    } else if (it.block || it.then || it.condition !== undefined) return null;
    else body.push(it);
  }
  const isEnding = condition || (statements.at(-1)?.then && conditions.length);
  return isEnding && body.length ? { body, condition: conditions.join(" || ") } : null;
}

/** Returns where the statement ends that begins at an index: after the statements in it, and after its `else`; 0 if it has no end. */
function findStatementEnd(code, begin) {
  let [at, count] = [begin, 0];
  for (;;) {
    at += code.slice(at).search(/\S|$/);
    const [, word] = /^(if|while|for|switch)\s*\(/.exec(code.slice(at, at + LONGEST_HEAD)) ?? [];
    const close = word ? findClosing(code, code.indexOf("(", at)) : -1;
    if (word && close < 0) return 0;
    if (word) {
      at = close + 1;
      count += Number(word === "if");
      continue;
    }
    const isDo = DO.test(code.slice(at, at + LONGEST_HEAD));
    const body = isDo ? at + code.slice(at).search(/[{;]|$/) : at;
    const end = (code[body] === "{" ? findClosing(code, body) : code.indexOf(";", body)) + 1;
    const [other] = (count && ELSE.exec(code.slice(end))) || [];
    if (!end || (!isDo && !other)) return end;
    if (!isDo) count -= 1;
    at = isDo ? end : end + other.length;
  }
}

/** Returns the code of a statement or a block that begins at an index, after blanks, and where it ends. */
function findBody(code, index) {
  const begin = index + code.slice(index).search(/\S|$/);
  const end = findStatementEnd(code, begin) || code.length;
  return { code: code.slice(begin, end), end };
}

/**
 * Returns the statements of a code. Throws NoTest at a loop that does not only wait or load, and at a statement that has no end.
 * @param {Part} code
 * @param {Map<string, string>} names those of constants
 * @returns {Statement[]}
 */
export function readStatements(code, names) {
  return new ThreadReader(code, 0, names).readAll();
}
