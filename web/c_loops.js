// Writes loops of a thread in C that exchange or compare, each as one pass or one instruction. Not proved.
//
// The record `Statement` is that of c_statements.js.
// A `Swap` is a compare-exchange: the `name` of its variable, the codes of the word that is `expected` and of the one that is `desired`. It `isSetting`
// the variable that is expected to the word that it finds, or not.

import { findClosing, parseConstant } from "./c_code.js";
import { computeConstant } from "./c_constants.js";
import { parseTry } from "./c_locks.js";
import { parseFormula } from "./c_question.js";
import { OF_LOOPS, parseCondition, removeOuterParentheses, splitOutside, splitTerms } from "./c_statements.js";
import { hasName, OF_BRANCHES, OF_PLAIN_LOOPS, ThreadWriter } from "./c_thread.js";
import { WORD } from "./token_reader.js";

// In squeezed code, a compare-exchange that says whether it has exchanged: a method's variable, the name of a function, and the arguments. And one that
// returns what it has found.
const SWAP = new RegExp(
  "^(?:(\\w+)\\.compare_exchange_(?:weak|strong)|(atomic_compare_exchange_(?:weak|strong)(?:_explicit)?|__atomic_compare_exchange_n|" +
    "__sync_bool_compare_and_swap))\\((.*)\\)$",
);
const FOUND = /^(?:__sync_val_compare_and_swap|(?:atomic_)?cmpxchg)\((.*)\)$/;
// A load, which may be of a plain variable; and what waits or fences in a pass.
const LOAD = /^(?:\*?[A-Za-z_]\w*|atomic_load\w{0,20}\([^()]*\))$/;
const LOAD_IN_CONDITION = /\batomic_load\w{0,20}\([^()]*\)|\b[A-Za-z_]\w*\b(?!\()/g;
const SET = /^(?:(?:const )?(?:auto|bool|int|long|unsigned(?: int| long)?|s?size_t|u?int\d+_t) )?(\w+)=([^=].*)$/;
const PAUSE = /(?:pause|relax|yield)\w{0,20}\(\)|pause"|_fence\(/;
const ASSIGNMENT = /(?<![=!<>])=(?!=)|\+\+|--/;
const MOST = 400;
const OF_PASSES = ": a loop of loads only sets variables of the thread to what it loads, each once";
const OF_WORDS = ": no question of constants says when this loop ends";

/** Returns whether a formula holds if all its variables have a word. */
function isTrueOf({ sign, parts, word, isEqual }, found) {
  if (!sign) return isEqual === (word === found);
  return sign === "\\/" ? parts.some((it) => isTrueOf(it, found)) : parts.every((it) => isTrueOf(it, found));
}

/** Returns whether the first parenthesis of code is closed by its last letter. */
function isCall(code) {
  const inner = removeOuterParentheses(code);
  return findClosing(inner, inner.indexOf("(")) === inner.length - 1;
}

/**
 * Returns the compare-exchange that fails if a condition holds, as a loop waits for it; null if the condition is none.
 * @param {string} condition squeezed
 * @returns {Swap | null}
 */
export function parseSwap(condition) {
  const code = removeOuterParentheses(condition);
  const [, negated = /^(.*)==(?:0|false)$/.exec(code)?.[1] ?? ""] = /^!(.*)$/.exec(code) ?? [];
  const [, method, called, values] = SWAP.exec(removeOuterParentheses(negated)) ?? [];
  const [found, last = ""] = splitOutside(code, "!=");
  const [, words] = FOUND.exec(removeOuterParentheses(found)) ?? [];
  const parts = splitOutside(values ?? words ?? "", ",");
  const [name, expected = "", desired = ""] = method ? [method, ...parts] : [parts[0].replace(/^&/, ""), ...parts.slice(1)];
  const isOfC = called && !called.startsWith("__sync");
  const isWhole = words !== undefined ? isCall(found) : isCall(removeOuterParentheses(negated));
  const isOther = (isOfC && !expected.startsWith("&")) || (words !== undefined && expected !== (last || "0"));
  if (!desired || !isWhole || isOther || !/^\w+$/.test(name)) return null;
  return { name, expected: expected.replace(/^&/, ""), desired, isSetting: Boolean(method || isOfC) };
}

/**
 * Returns the compare-exchange of a value, which is the word that it finds; null if the value is none.
 * @param {string} value squeezed
 * @returns {Swap | null}
 */
export function parseFound(value) {
  const [, words] = FOUND.exec(value) ?? [];
  const expected = words && splitOutside(words, ",")[1];
  return expected ? parseSwap(`${value}!=${expected}`) : null;
}

/** Writes the instructions of a thread, in which loops by a compare-exchange and loops of loads are one pass. */
export class LoopWriter extends ThreadWriter {
  /** Makes a writer of a thread, as a `ThreadWriter`. */
  constructor(program, number, kept) {
    super(program, number, kept);
    // The constants that variables were last set to, with the branches around, and the loops whose ends are not known yet.
    this.lastConstants = new Map();
    this.unknownEnds = [];
  }

  /** Writes a loop. Throws NoTest if it does more than to wait, to exchange and to load. */
  writeWaiting(statement) {
    if (statement.body) return this.writeLoadingPass(statement);
    const code = this.squeeze(statement.condition);
    const lock = parseTry(code);
    if (lock) return this.writeTries(lock, statement);
    const swap = parseSwap(code);
    if (statement.isInnerFirst) this.checkInner(statement, swap, code);
    if (!swap && this.isOfWords(statement, code)) return this.writeLoadingPass({ ...statement, body: this.listAssigned(statement) });
    if (!swap) return super.writeWaiting(statement);
    const { loaded, loadedBranches } = this;
    const [, place, value] = SET.exec(this.squeeze(statement.assigns)) ?? [];
    if (statement.assigns && !place) this.refuseStatement(OF_LOOPS);
    if (!this.writeAddition(swap, place, value, statement.isLate)) this.writeSwaps(swap, place, value, statement);
    return Object.assign(this, { loaded, loadedBranches });
  }

  /** Writes the lock of a mutex in place of a loop that tries to lock it. Throws NoTest if it does more. */
  writeTries({ name, isSuccess }, { assigns, inner, calls }) {
    if (isSuccess || assigns || inner.length || calls.some((it) => this.isCalled(it))) this.refuseStatement(OF_LOOPS);
    this.writeLock(name);
  }

  /** Returns whether a loop of loads compares words of the thread, or otherwise than by `==` and `!=`. */
  isOfWords({ assigns, inner, isLate, calls }, code) {
    const formula = parseFormula(code);
    const isSimple = formula !== null && !hasName(formula, (it) => this.locals.has(it) && !assigns);
    const isLoad = (it) => it.startsWith("atomic_load") || (this.variables.has(it) && !this.locals.has(it));
    const hasLoad = [...code.matchAll(LOAD_IN_CONDITION)].some(([it]) => isLoad(it) || (assigns && isLate));
    const isPlain = !inner.length && !calls.some((it) => this.isCalled(it)) && (!assigns || isLate) && !/\w\(/.test(code.replace(LOAD_IN_CONDITION, ""));
    return isPlain && hasLoad && !isSimple && !ASSIGNMENT.test(code);
  }

  /** Returns the statement that a loop of loads assigns by. */
  listAssigned({ assigns, index }) {
    return assigns ? [{ code: assigns, index }] : [];
  }

  /**
   * Throws NoTest for a loop that looks before it exchanges, unless it only looks for the word at which it ends: it finds this before the exchange that
   * does, so that it may as well not look.
   */
  checkInner({ inner: [inner] }, swap, code) {
    const { sides: [value = "", last = ""] = [] } = parseCondition(code)?.[0] ?? {};
    const [, name = swap?.name] = /^atomic_exchange\w{0,20}\(&(\w+),/.exec(value) ?? [];
    const formula = parseFormula(this.squeeze(inner));
    const word = parseConstant(swap ? swap.expected : last);
    if (!formula || hasName(formula, (it) => it !== name) || word === null || isTrueOf(formula, word)) this.refuseStatement(OF_LOOPS);
  }

  /**
   * Writes one locked instruction in place of a loop that changes a word by a compare-exchange from what it has last found, if the new word is a constant
   * or a sum with one. The loop always ends, its failed passes change nothing, and the exchange that succeeds finds the word that is expected, as
   * the locked instruction does: like this, the variable has that word after it. Returns whether it is such a loop.
   */
  writeAddition({ name, expected, desired, isSetting }, place, value, isLate) {
    if (!this.locals.has(expected) || (!this.known.has(expected) && !isLate)) return false;
    const isLoad = place === expected && LOAD.test(value) && this.isLoadOf(name, value);
    const isNext = place !== undefined && place !== expected && place === desired && this.locals.has(place) && isLate;
    if ((place !== undefined && !isLoad && !isNext) || (!isSetting && !isLoad)) return false;
    if (!this.known.has(expected) && !isLoad) return false;
    const next = isNext ? value : desired;
    const terms = splitTerms(removeOuterParentheses(next));
    const others = terms.filter(({ sign, term }) => sign === "-" || term !== expected);
    const words = others.map(({ sign, term }) => Number(`${sign}1`) * (parseConstant(term) ?? NaN));
    const sum = words.reduce((all, it) => all + it, 0);
    if (Number.isNaN(sum) || terms.length - others.length > 1) return false;
    const isSum = terms.length > others.length;
    this.assignLocal(expected, isSum ? `atomic_fetch_add(&${name},${(sum + WORD) % WORD})` : `atomic_exchange(&${name},${sum})`);
    if (isNext) this.assignLocal(place, next);
    return true;
  }

  /** Returns whether squeezed code loads a variable. */
  isLoadOf(name, code) {
    return code === name || new RegExp(`^atomic_load\\w{0,20}\\(&${name}\\b`).test(code);
  }

  /**
   * Writes one exchange in place of a loop that changes one word to another by a compare-exchange. If the variable has no third word, an exchange does
   * the same: one that fails finds the word that it would write, and both drain the buffer, whether they change the word or not. Throws NoTest if it
   * is no such loop.
   */
  writeSwaps({ name, expected, desired }, place, value, { inner, isLate }) {
    const word = parseConstant(desired);
    const last = parseConstant(expected) ?? (place === expected ? parseConstant(value) : null);
    const isVariable = parseConstant(expected) === null;
    const isSet = !isVariable || isLate || this.findConstant(expected) === last;
    const isWhole = isVariable ? place === expected : place === undefined;
    if (word === null || last === null || word === last || !isSet || !isWhole || !inner.every((it) => this.isOfLoads(it))) this.refuseStatement(OF_LOOPS);
    const variable = isVariable && this.locals.has(expected) ? expected : this.nameVariable(name, "at its lock");
    this.locals.add(variable);
    this.assignLocal(variable, `atomic_exchange(&${name},${word})`);
    this.fixed.add(variable);
    this.pairs.push({ statement: this.statement, name, words: [word, last] });
    this.addWait({ name: this.makeSite(variable), word: last, isEqual: true });
    this.isWaiting = true;
  }

  /**
   * Writes one pass of a loop that loads until its loads fit together: the passes before the last one change nothing. Its end is a formula of the words
   * of variables, which is known when all threads are written. Throws NoTest if it does more.
   */
  writeLoadingPass(statement) {
    const { body, condition } = statement;
    const { loaded, loadedBranches } = this;
    if (this.branches.length || this.exits.length) this.refuseStatement(OF_BRANCHES);
    const written = [];
    const plain = [];
    for (const it of body) {
      this.statement = it;
      const [, place, value = ""] = SET.exec(this.squeeze(it.code)) ?? [];
      const isLoad = place && LOAD.test(value) && parseConstant(value) === null && !this.locals.has(value) && !written.includes(place);
      if (!isLoad && !PAUSE.test(this.squeeze(it.code))) this.refusePass(statement, it.code);
      const count = this.accesses.length;
      this.writeSimple(this.squeeze(it.code), false);
      const accesses = this.accesses.slice(count);
      if (accesses.some((access) => access.isWrite)) this.refuseStatement(OF_PASSES);
      if (place) written.push(this.names.get(place) ?? place);
      if (accesses.some((access) => access.isPlain)) plain.push(written.at(-1));
    }
    this.statement = statement;
    this.writeEnd(this.squeeze(condition), written, plain);
  }

  /** Throws NoTest for a statement of a loop of loads that sets a variable of the thread otherwise, or for the loop if the statement does more. */
  refusePass(loop, code) {
    const [, place] = SET.exec(this.squeeze(code).replace(/[+-]=/, "=")) ?? [];
    if (this.locals.has(place)) this.refuseStatement(OF_PASSES);
    this.statement = loop;
    this.refuseStatement(OF_LOOPS);
  }

  /** Writes the loads in the condition of a loop that loads, and records that its end is not known yet. */
  writeEnd(condition, written, plain) {
    const { loaded, loadedBranches } = this;
    const variables = new Set();
    const code = condition.replace(LOAD_IN_CONDITION, (it) => {
      if (parseConstant(it) !== null) return it;
      const isOwn = written.includes(it) || this.known.has(it);
      const variable = isOwn ? it : this.loadShared(it, "after its loop");
      if (isOwn ? plain.includes(it) : this.accesses.at(-1).isPlain) this.refuseStatement(OF_PLAIN_LOOPS);
      variables.add(variable);
      return `{${variable}}`;
    });
    for (const it of [...written, ...variables]) this.fixed.add(it);
    const end = { sign: "\\/", parts: [] };
    this.unknownEnds.push({ statement: this.statement, code, variables: [...variables].map((it) => [it, this.makeSite(it)]), end });
    this.waits.push(end);
    Object.assign(this, { loaded, loadedBranches, isWaiting: true });
  }

  /**
   * Finds the ends of loops that load: the words of their variables with which they end, given those that each variable of this thread may have. Throws
   * NoTest if these are not known, or too many.
   */
  findEnds(findWords) {
    for (const { statement, code, variables, end } of this.unknownEnds) {
      const choices = variables.map(([, site]) => findWords(site));
      const count = choices.reduce((all, it) => all * (it?.length ?? NaN), 1);
      if (!(count <= MOST)) this.refuseEnd(statement);
      const all = choices.reduce((some, words) => some.flatMap((it) => words.map((word) => [...it, word])), [[]]);
      for (const words of all) {
        const number = computeConstant(variables.reduce((some, [name], at) => some.replaceAll(`{${name}}`, `(${words[at]})`), code));
        if (number === null) this.refuseEnd(statement);
        const parts = variables.map(([, name], at) => ({ name, word: words[at], isEqual: true }));
        if (!number) end.parts.push(parts.length > 1 ? { sign: "/\\", parts } : parts[0]);
      }
      if (!end.parts.length) this.refuseEnd(statement);
      if (end.parts.length === 1) Object.assign(end, { sign: "/\\" });
    }
  }

  /** Throws NoTest for a loop whose end is not known. */
  refuseEnd(statement) {
    this.statement = statement;
    this.refuseStatement(OF_WORDS);
  }

  /** Writes the instructions that set a variable with a register, and records its word if that is a constant. */
  assignLocal(name, value) {
    super.assignLocal(name, value);
    this.lastConstants.set(name, { word: this.exits.length ? null : parseConstant(value), branches: [...this.branches] });
  }

  /** Returns the constant that a variable has on all paths to the statement; null if it may have another word. */
  findConstant(name) {
    const { word, branches } = this.lastConstants.get(name) ?? { word: null, branches: [] };
    return branches.every((it, at) => it === this.branches[at]) ? word : null;
  }

  /** Writes a step of a variable with a register, whose word is not known then. */
  writeOwnStep(step, register) {
    this.lastConstants.delete(step.place);
    super.writeOwnStep(step, register);
  }
}
