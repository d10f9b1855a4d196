// Writes relations of variables in questions, as `r1 <= r2`, as formulas: each of their variables can have a few words only. Not proved.
//
// A `Formula` is that of c_question.js. A `Relation` has its `code`, in which `{0}` and so on are in place of its `operands`, and `isEqual`: whether
// it is to hold, or not. An operand has the `name` of a variable, the `code` of it, or of a load, and its `site`, if it is known.

import { computeConstant } from "./c_constants.js";
import { formatFormula, isAllUnequal, mapAtoms, negateFormula } from "./c_question.js";

// A load in squeezed code, or a name: the groups are the name of the variable.
const OPERAND = /\batomic_load(?:_explicit|_relaxed|_acquire)?\(&(\w+),?(?:memory_order_\w+)?\)|(?<![\w.])([A-Za-z_]\w*)(?![\w(.[])/g;
const TRUTH = /^(?:true|false)$/;
// Types and constants of 64 bits.
const IS_WIDE = /\blong\b|64|size_t|ptr_t|\b(?:0x[\da-f]+|\d+)u?l/i;
// Types of words without a sign, and constants of them.
const UNSIGNED = /\bunsigned\b|\b(?:atomic_)?u(?:int|long|char|short)|\bu(?:8|16|32|64)\b|size_t|\b(?:0x[\da-f]+|\d+)l{0,2}u|\b(?:DWORD|BYTE|WORD)/i;
// A relation of variables with more words, or of more choices of them, has no formula, nor has one with a longer formula.
const MOST_WORDS = 8;
const MOST_CHOICES = 64;
const LONGEST = 2000;
const OF_WORDS = ": the page writes the words for which this holds, and here these are too many, or not known";
const OF_SIGNS = ": here words below 0 are compared or computed with, and types without a sign are in the program, so that it is not sure what holds";
const OF_SIZES = ": here it may be a sum that 32 bits do not have, so that it is not sure what holds";

/**
 * Returns the relation of squeezed code; null if it has more than variables, loads, constants and operators that the page computes.
 * @param {string} code
 * @returns {Relation | null}
 */
export function parseRelation(code) {
  const operands = [];
  const relation = code.replace(OPERAND, (whole, loaded, name) => {
    if (TRUTH.test(whole)) return whole;
    operands.push({ name: loaded ?? name, code: whole });
    return `{${operands.length - 1}}`;
  });
  const isComputed = computeConstant(fillIn(relation, operands.map(() => 1)), true) !== null;
  return operands.length && isComputed ? { code: relation, operands, isEqual: true } : null;
}

/** Returns the code of a relation with numbers in place of its operands. */
function fillIn(code, numbers) {
  return code.replace(/\{(\d+)\}/g, (_, at) => `(${numbers[at]})`);
}

/** Returns the number of a word with a sign. */
function toSigned(word) {
  return word | 0;
}

/**
 * Returns the formula of the words for which a test holds, given the words that each site can have: in it is no site whose words all do the same. It
 * is true or false if all words do.
 */
function listHolding(choices, holds, chosen = []) {
  if (!choices.length) return holds(chosen);
  const [{ site, words }, ...others] = choices;
  const found = words.map((word) => [{ name: site, word, isEqual: true }, listHolding(others, holds, [...chosen, word])]);
  if (new Set(found.map(([, formula]) => (typeof formula === "boolean" ? formula : formatFormula(formula)))).size === 1) return found[0][1];
  const parts = found.filter(([, formula]) => formula !== false);
  const joined = parts.map(([atom, formula]) => (formula === true ? atom : { sign: "/\\", parts: [atom, formula] }));
  return joined.length > 1 ? { sign: "\\/", parts: joined } : joined[0];
}

/** Returns the formula that says that some sites have any of their words. */
function listAll(choices) {
  const parts = choices.map(({ site, words }) => ({ sign: "\\/", parts: words.map((word) => ({ name: site, word, isEqual: true })) }));
  const formulas = parts.map((it) => (it.parts.length > 1 ? it : it.parts[0]));
  return formulas.length > 1 ? { sign: "/\\", parts: formulas } : formulas[0];
}

/** Returns the formula of a relation, of what does not hold if this is shorter, or as short and the question is `isDenying`. */
function expandRelation({ code, operands, isEqual }, findWords, { isSigned, isMixed }, isDenying, refuse) {
  const sites = [...new Set(operands.map((it) => it.site))];
  const choices = sites.map((site) => ({ site, words: findWords(site) }));
  const count = choices.reduce((all, { words }) => all * (words && words.length <= MOST_WORDS ? words.length : NaN), 1);
  if (!(count <= MOST_CHOICES)) refuse(OF_WORDS);
  let isKnown = true;
  const holds = (words) => {
    const numbers = operands.map(({ site }) => toSigned(words[sites.indexOf(site)]));
    const number = computeConstant(fillIn(code, numbers), isSigned);
    // Beside words of 64 bits it is not known how those of 32 without a sign become longer.
    isKnown &&= number !== null && !(isMixed && (numbers.some((it) => it < 0) || /[-~]/.test(code)));
    return Boolean(number) === isEqual;
  };
  const [held, others] = [listHolding(choices, holds), listHolding(choices, (words) => !holds(words))];
  if (!isKnown) refuse(isSigned ? OF_SIZES : OF_SIGNS);
  if (held === true) return listAll(choices);
  if (held === false) return negateFormula(listAll(choices));
  const [length, otherLength] = [held, others].map((it) => formatFormula(it).length);
  if (Math.min(length, otherLength) > LONGEST) refuse(OF_WORDS);
  return otherLength < length || (isDenying && otherLength === length) ? negateFormula(others) : held;
}

/**
 * Returns a formula in which formulas of words are in place of relations.
 * @param {Formula} formula
 * @param {function(string): number[] | null} findWords returns the words that a site can have, or null
 * @param {string} text that of the program
 * @param {boolean} isAsserted whether the program asserts the formula
 * @param {function(string): never} refuse is called with the end of a sentence that says why there is no formula
 * @returns {Formula}
 */
export function expandRelations(formula, findWords, text, isAsserted, refuse) {
  const isSigned = !UNSIGNED.test(text);
  const types = { isSigned, isMixed: !isSigned && IS_WIDE.test(text) };
  const isDenying = isAsserted && isAllUnequal(formula);
  return mapAtoms(formula, (it) => (it.operands ? expandRelation(it, findWords, types, isDenying, refuse) : it));
}

/**
 * Returns a formula with sites in place of its variables, which a function returns for the names of these and their codes.
 * @param {Formula} formula
 * @param {function(string, string): string} findSite
 * @returns {Formula}
 */
export function mapSites(formula, findSite) {
  return mapAtoms(formula, (atom) => {
    if (!atom.operands) return { ...atom, name: findSite(atom.name, atom.code) };
    return { ...atom, operands: atom.operands.map((it) => ({ ...it, site: findSite(it.name, it.code) })) };
  });
}
