// Writes the branches and the loops of a thread in C in which words of variables are known: relations of few words as equalities, the rest of a
// block once for each word of an index, and loops that call a function till it succeeds. Not proved.

import { parseConstant } from "./c_code.js";
import { computeConstant, foldConstants } from "./c_constants.js";
import { findFact, KnownWriter } from "./c_known.js";
import { removeOuterParentheses, splitOutside } from "./c_statements.js";
import { joinPaths, OF_BRANCHES } from "./c_thread.js";
import { WORD } from "./token_reader.js";

// A comparison of a variable after a step in squeezed code: the groups are a parenthesis, the sign, and the variable. And a difference of a
// constant and a load that is compared: the groups are its sides, the sign, and the word.
const STEPPED = /^(\(?)([+-])\2(\w+)\b(?=[=!<>])/;
const DIFFERENCE = /^\(?(\d+)-([A-Za-z_]\w*|atomic_load\w{0,20}\([^()]*\))\)?([=!]=)(\d+)$/;
// A relation in squeezed code: the groups are its sides and its sign. And what may be loaded for it.
const RELATION = /^((?:[^<>=!&|]|&(?=\w))+)([<>]=?)((?:[^<>=!&|]|&(?=\w))+)$/;
// Bits of a variable, or its rest, which may be compared: the group is the variable.
const MASKED = /^\(?([A-Za-z_]\w*)[&%]\d+\)?(?:[=!]=\d+)?$/;
const COMPARED = /^(?:[A-Za-z_]\w*|atomic_(?:load|exchange|fetch_(?:add|sub))\w{0,20}\([^()]*\))$/;
const CHANGES = /\batomic_(?:exchange|fetch_)/;
const CALLS = /\b(\w+)\(/g;
const OF_RELATIONS = ": the page writes a condition as equalities, and here the words that are compared are too many, or not known, so compare by `==`";
const OF_SECOND = ": what `<` and its like compare is loaded before the other parts of a condition here, so write two `if`, one in the other";
const OF_PASSES = ": a loop that waits by a function calls one that changes nothing if the loop goes on, and returns constants";

/** Returns whether squeezed code has a relation that is no equality, or one of bits of a variable. */
function isRelation(code) {
  return MASKED.test(removeOuterParentheses(code.replace(/^!/, ""))) || (/(?<![<-])[<>](?![<>])/.test(code) && !/<<|>>|_cast</.test(code));
}

/** Returns a condition that compares a load with a constant in place of one that compares the difference of a constant and the load. */
function balanceDifference(code) {
  const [, first, load, sign, last] = DIFFERENCE.exec(removeOuterParentheses(code)) ?? [];
  return load ? `${load}${sign}${Number(first) - Number(last)}` : code;
}

/**
 * Returns equalities that say that a test holds of a variable, which has some words: it has none of those of which the test does not hold, or, if there is no
 * such word, another one that is `near`.
 */
function writeEqualities(variable, words, holds, near) {
  const [held, others] = [words.filter(holds), words.filter((it) => !holds(it))];
  if (held.length === 1) return `${variable}==${held[0]}`;
  const excluded = others.length ? others : near.filter((it) => !holds(it)).slice(0, 1);
  return excluded.map((it) => `${variable}!=${it}`).join("&&");
}

/** Writes the instructions of a thread, in whose conditions some words are known. */
export class ConditionWriter extends KnownWriter {
  /** Returns a squeezed condition with known words in place of variables, unless it may change one. */
  fillCondition(code, except = []) {
    const isLoading = [...code.matchAll(CALLS)].every(([, name]) => name.startsWith("atomic_load"));
    if (!isLoading || /(?<![=!<>])=(?!=)|\+\+|--/.test(code)) return code;
    const { filled, names } = this.fillShared(code, true);
    this.loadKnown([...names, ...this.indexed]);
    this.indexed.clear();
    return balanceDifference(foldConstants(this.fill(filled, except, true)));
  }

  /** Writes an `if`, only one of whose branches is reached if its condition is known. */
  writeBranch(statement, isLast) {
    let code = this.squeeze(statement.condition);
    const [stepped, open, sign, name] = STEPPED.exec(code) ?? [];
    if (stepped && this.locals.has(name) && !/&&|\|\||[?]/.test(code)) {
      this.writeAssignment(`${name}${sign}${sign}`);
      code = `${open}${name}${code.slice(stepped.length)}`;
    }
    const number = this.compute(code, true);
    if (number === null) return this.writeFilled({ ...statement, condition: this.writeRelations(this.fillCondition(code)) }, isLast);
    this.writeBlock(number ? statement.then : statement.otherwise, isLast);
    this.isOver = !this.known;
    return undefined;
  }

  /**
   * Returns a condition of equalities in place of one with relations of variables and constants, and writes the load in the first one: each
   * variable has one of a few words. The branch stays if the relation holds of all or none of them. Throws NoTest if they are not known.
   */
  writeRelations(code) {
    const parts = splitOutside(removeOuterParentheses(code), "&&");
    if (splitOutside(removeOuterParentheses(code), "||").length > 1 || !parts.some(isRelation)) return code;
    const first = parts.findIndex((it) => /\w\(/.test(it) || (it.match(/[A-Za-z_]\w*/g) ?? []).some((name) => this.isShared(name)));
    // What is loaded for a relation is written before all parts: a change may only be in the first of these.
    if (parts.some((it, at) => at > 0 && isRelation(it) && CHANGES.test(it))) this.refuseStatement(OF_SECOND);
    return parts.map((it, at) => (isRelation(it) ? this.writeRelation(it, at === first && at === 0) : it)).join("&&");
  }

  /** Returns equalities in place of a relation of a variable and a constant. It may load the variable if it `isFirst`, so that all runs do. */
  writeRelation(code, isFirst) {
    const [, negation, relation] = /^(!?)(.*)$/.exec(removeOuterParentheses(code));
    const [, masked] = MASKED.exec(removeOuterParentheses(relation)) ?? [];
    if (masked) return this.writeMasked(removeOuterParentheses(relation), masked, negation === "");
    const [, left, sign, right] = RELATION.exec(removeOuterParentheses(relation)) ?? this.refuseStatement(OF_RELATIONS);
    const isReversed = parseConstant(left) !== null;
    const [value, word] = isReversed ? [right, parseConstant(left)] : [left, parseConstant(right)];
    if (!isFirst && !this.locals.has(value) && COMPARED.test(value)) this.refuseStatement(OF_SECOND);
    const variable = this.locals.has(value) ? value : COMPARED.test(value) && word !== null ? this.loadCompared(value) : null;
    const words = variable && this.known.has(variable) && word !== null ? this.listLocal(variable) : null;
    if (!words || [...words, word].some((it) => it >= WORD / 2)) this.refuseStatement(OF_RELATIONS);
    const holds = (it) => Boolean(computeConstant(isReversed ? `${word}${sign}(${it})` : `(${it})${sign}${word}`)) === (negation === "");
    return writeEqualities(variable, words, holds, [word, word + 1, word - 1]);
  }

  /** Returns equalities in place of a condition on bits of a variable of the thread, or of one that does not hold. */
  writeMasked(code, variable, isHeld) {
    const words = this.locals.has(variable) && this.known.has(variable) ? this.listLocal(variable) : null;
    const holds = (it) => Boolean(computeConstant(code.replace(variable, String(it)))) === isHeld;
    if (!words || words.some((it) => it >= WORD / 2) || computeConstant(code.replace(variable, "1")) === null) this.refuseStatement(OF_RELATIONS);
    return writeEqualities(variable, words, holds, [0, 1, 2, 3]);
  }

  /** Returns whether a name is that of a shared variable. */
  isShared(name) {
    return this.variables.has(name) && !this.locals.has(name);
  }

  /** Loads a shared variable that is compared into one of the thread. Returns the name of this. */
  loadCompared(load) {
    const { loaded, loadedBranches } = this;
    const variable = this.nameNew(`${this.parseOperation(load).name}_compared`);
    this.locals.add(variable);
    this.assignLocal(variable, load);
    return Object.assign(this, { loaded, loadedBranches }) && variable;
  }

  /**
   * Returns the words that a variable of the thread may have: constants to which it was set, and words of variables that it loaded; null if not
   * known.
   */
  listLocal(variable) {
    const origins = this.origins.get(variable) ?? [];
    if (origins.length !== this.countSettings(variable) || origins.includes(null)) return null;
    for (const it of origins) if (it.name) this.listed.add(it.name);
    const lists = origins.map((it) => (it.name ? this.wordLists.get(it.name) ?? [this.words.get(it.name)] : [it.word]));
    return lists.includes(null) ? null : [...new Set(lists.flat())].sort((one, other) => one - other);
  }

  /** Writes an `if` with a condition in which known words are in place of variables. */
  writeFilled(statement, isLast) {
    const number = computeConstant(statement.condition);
    if (number === null) return super.writeBranch(statement, isLast);
    this.writeBlock(number ? statement.then : statement.otherwise, isLast);
    this.isOver = !this.known;
    return undefined;
  }

  /** Writes the instructions that jump to a label if a condition is false. What they change is not known on all paths. */
  writeCondition(condition, label) {
    const { isConditional } = this;
    this.isConditional = true;
    const comparisons = super.writeCondition(condition, label);
    this.isConditional = isConditional;
    return comparisons;
  }

  /** Returns what is known if a comparison of the result of the last call holds, and if it does not. */
  splitKnown([comparison, another]) {
    const { target, ends = [], count } = this.returned ?? {};
    const { variable, word, isEqual } = comparison;
    const isOfCall = variable !== null && variable === target && word !== null && !another && this.instructions.length === count + 2;
    if (!isOfCall) return super.splitKnown();
    const isHeld = (found) => isEqual === (found === word);
    return [isHeld, (it) => !isHeld(it)].map((isOf) => this.joinEnds(ends, isOf));
  }

  /** Returns what is known after the ends of the last call at which its result may be of some words. */
  joinEnds(ends, isOf) {
    const { target } = this.returned;
    const found = ends.filter((it) => {
      const word = findFact(it, target);
      return word === null || isOf(word);
    });
    const joined = found.length ? found.reduce(joinPaths) : this.known;
    return new Set([...joined].filter((it) => it.includes("=") || this.locals.has(it)));
  }

  /**
   * Writes the call of a function in place of a loop that calls it till it returns something else than 0, or 0. Passes before the last one change
   * nothing.
   * Returns whether it is such a loop.
   */
  writeCalling({ assigns, inner, isLate, body }, code) {
    const [, negation, whole] = /^(!?)(.*)$/.exec(removeOuterParentheses(code));
    const call = this.findCall(removeOuterParentheses(whole));
    if (!call || assigns || inner.length || body || isLate) return false;
    if (this.branches.length || this.exits.length) this.refuseStatement(OF_BRANCHES);
    const outer = { waitingFor: this.waitingFor };
    this.waitingFor = new Set(this.locals);
    this.learn("!", this.changeCount);
    const before = this.changeCount;
    const result = this.writeResult(removeOuterParentheses(whole));
    const isLeft = (word) => (word === 0) === (negation === "");
    const { ends } = this.returned;
    const failing = ends.filter((it) => !isLeft(findFact(it, result) ?? NaN) || findFact(it, result) === null);
    if (failing.some((it) => findFact(it, "!") !== before || findFact(it, result) === null)) this.refuseStatement(OF_PASSES);
    if (failing.length === ends.length) this.refuseStatement(OF_PASSES);
    this.known = this.joinEnds(ends, isLeft);
    Object.assign(this, outer, { isWaiting: true });
    this.fixed.add(result);
    const words = [...new Set(ends.map((it) => findFact(it, result)).filter(isLeft))];
    const parts = words.map((word) => ({ name: this.makeSite(result), word, isEqual: true }));
    this.addWait(parts.length > 1 ? { sign: "\\/", parts } : parts[0]);
    return true;
  }

  /** Writes one pass of a loop that waits. */
  writeWaiting(statement) {
    if (statement.body) return super.writeWaiting(statement);
    if (this.writeCalling(statement, this.squeeze(statement.condition))) return undefined;
    const [assigned = ""] = /^\w+/.exec(statement.assigns) ?? [];
    return super.writeWaiting({ ...statement, condition: this.fillCondition(this.squeeze(statement.condition), [assigned]) });
  }

  /** Writes statements, at the begin of which something may be known. */
  writeBlock(statements, isLast) {
    for (const [key, word] of this.facts.get(statements) ?? []) this.learn(key, word, true);
    this.split = this.rests.get(statements) ?? null;
    if (!this.split) super.writeBlock(statements, isLast);
    else this.writeRest(statements, isLast);
  }

  /** Writes the rest of statements once for each word that a variable may have which is loaded before. Returns whether there is one. */
  writeRest(rest, isLast) {
    const { split } = this;
    this.split = null;
    if (!split || !rest.length || !this.known) return false;
    const [word, ...others] = split.words;
    const { variable, name, statement } = split;
    const [then, otherwise] = [[...rest], [...rest]];
    const listFacts = (it) => [[variable, it], [`&${name}`, it]];
    this.facts.set(then, listFacts(word));
    if (others.length === 1) this.facts.set(otherwise, listFacts(others[0]));
    this.statement = statement;
    const branch = { code: statement.code, index: statement.index, condition: `${variable}==${word}`, then, otherwise };
    if (others.length > 1) this.rests.set(otherwise, { ...split, words: others });
    super.writeBranch(branch, isLast);
    return true;
  }
}
