// Reads what a program in C or C++ asserts, and writes questions of lw. Not proved.
//
// A `Formula` is an atom, or has a `sign`, `/\` or `\/`, and the `parts` that it joins. An atom has the `name` of a variable, and a `word`; `isEqual`
// says whether the variable is to be this word, or another one. If it is read from a condition, its `code` is its variable, or a load of it. In place
// of an atom may be a `Relation` of c_relations.js.

import { parseConstant } from "./c_code.js";
import { removeOuterParentheses, splitOutside } from "./c_statements.js";
import { WAITS_END } from "./phrases.js";
import { blankComments } from "./tokens.js";

// A variable that a condition compares, in squeezed code, or a load of one: the groups are its name.
const SITE = /^(?:(\w+)|atomic_load(?:_explicit|_relaxed|_acquire)?\(&(\w+),?(?:memory_order_\w+)?\))$/;
const SIGNS = [["||", "\\/"], ["&&", "/\\"]];
const OPPOSITE = { "\\/": "/\\", "/\\": "\\/" };
// A question: the groups are the list before it, its quantifier, and its proposition.
const QUESTION = /^((?:locations\s*\[[^\]]*\]\s*)?)(~\s*exists|exists|forall)\b\s*([^]*)$/;
/** What is never true, in squeezed code. */
export const FALSE = /^(\(*)(?:0|false|!"[^"]*")(\)*)$/;
// A formula is no longer.
const LONGEST = 2000;

/**
 * Returns the formula of a condition, or null if it has more than variables, constants, `==`, `!=`, `!`, `&&` and `||`, and a function returns null
 * for what else is between `&&` and `||`.
 * @param {string} code squeezed
 * @param {function(string): Formula | null} [parseOther]
 * @returns {Formula | null}
 */
export function parseFormula(code, parseOther = () => null) {
  if (code.length > LONGEST) return null;
  const inner = removeOuterParentheses(code);
  for (const [mark, sign] of SIGNS) {
    const codes = splitOutside(inner, mark);
    if (codes.length === 1) continue;
    // A string says what is asserted, and what is false adds nothing.
    const idle = mark === "||" ? FALSE : /^"[^"]*"$/;
    const parts = codes.filter((it) => !idle.test(it)).map((it) => parseFormula(it, parseOther));
    if (parts.length === 1) return parts[0];
    return !parts.length || parts.includes(null) ? null : { sign, parts };
  }
  return (/^!(?!=)/.test(inner) ? parseNegation(inner.slice(1), parseOther) : parseAtom(inner)) ?? parseOther(inner);
}

/** Returns the formula of what follows a `!`: code in parentheses, or a variable. */
function parseNegation(code, parseOther) {
  const isWhole = code !== removeOuterParentheses(code) || SITE.test(code) || /^!(?!=)/.test(code);
  const formula = isWhole ? parseFormula(code, parseOther) : null;
  return formula && negateFormula(formula);
}

/** Returns the atom of a comparison, or of a variable, which is not 0. */
function parseAtom(code) {
  const isEqual = splitOutside(code, "==").length === 2;
  const sides = splitOutside(code, isEqual ? "==" : "!=").map(removeOuterParentheses);
  if (sides.length > 2) return null;
  const [site, constant = "0"] = parseConstant(sides[0]) === null ? sides : sides.reverse();
  const [, name, loaded] = SITE.exec(site) ?? [];
  const word = parseConstant(constant);
  return (name ?? loaded) && parseConstant(site) === null && word !== null ? { name: name ?? loaded, code: site, word, isEqual } : null;
}

/**
 * Returns the formula that holds if another one does not.
 * @param {Formula} formula
 * @returns {Formula}
 */
export function negateFormula(formula) {
  if (!formula.sign) return { ...formula, isEqual: !formula.isEqual };
  return { sign: OPPOSITE[formula.sign], parts: formula.parts.map(negateFormula) };
}

/**
 * Returns a formula with other atoms, which a function returns, from the first to the last.
 * @param {Formula} formula
 * @param {function(Formula): Formula} change
 * @returns {Formula}
 */
export function mapAtoms(formula, change) {
  return formula.sign ? { ...formula, parts: formula.parts.map((it) => mapAtoms(it, change)) } : change(formula);
}

/** Returns the parts of a formula with a sign, in which are those of its parts that have the same sign. */
function flattenParts(parts, sign) {
  return parts.flatMap((it) => (it.sign === sign ? flattenParts(it.parts, sign) : [it]));
}

/**
 * Returns a formula as lw writes it.
 * @param {Formula} formula
 * @returns {string}
 */
export function formatFormula({ sign, parts, name, word, isEqual }) {
  if (!sign) return `${isEqual ? "" : "~"}${name}=${word}`;
  const needsParentheses = (it) => sign === "/\\" && it.sign === "\\/";
  const codes = flattenParts(parts, sign).map((it) => (needsParentheses(it) ? `(${formatFormula(it)})` : formatFormula(it)));
  return [...new Set(codes)].join(` ${sign} `);
}

/**
 * Returns whether all atoms of a formula, except relations, are of other words.
 * @param {Formula} formula
 * @returns {boolean}
 */
export function isAllUnequal({ parts, operands, isEqual }) {
  return parts ? parts.every(isAllUnequal) : operands !== undefined || !isEqual;
}

/**
 * Returns the question that asks whether some formulas always hold: of what never happens if they only say what is not so.
 * @param {Formula[]} formulas
 * @returns {string}
 */
export function formatAssertion(formulas) {
  const formula = formulas.length === 1 ? formulas[0] : { sign: "/\\", parts: formulas };
  return isAllUnequal(formula) ? `~exists (${formatFormula(negateFormula(formula))})` : `forall (${formatFormula(formula)})`;
}

/** Returns whether each parenthesis of a code that closes has one that opens. */
function isBalanced(code) {
  let depth = 0;
  for (const letter of code) {
    depth += Number(letter === "(") - Number(letter === ")");
    if (depth < 0) return false;
  }
  return depth === 0;
}

/**
 * Returns a question of lw that asks the same as another one, but only of the states in which some formulas hold. Null if the other one is no question.
 * @param {string} question
 * @param {Formula[]} formulas
 * @returns {string | null}
 */
export function limitQuestion(question, formulas) {
  const [, list, quantifier] = QUESTION.exec(question) ?? [];
  const proposition = readProposition(question);
  if (!proposition || !isBalanced(proposition)) return null;
  const all = { sign: "/\\", parts: formulas };
  if (quantifier === "forall") return `${list}forall (${formatFormula(negateFormula(all))} \\/ ${proposition})`;
  const others = proposition === "true" ? [] : [proposition.includes("\\/") ? `(${proposition})` : proposition];
  return `${list}${quantifier} (${[formatFormula(all), ...others].join(" /\\ ")})`;
}

/**
 * Returns a test with a comment before its initial values that says in words what a proposition means, as phrases.js reads it.
 * @param {string} text
 * @param {string} words
 * @param {string} proposition
 * @returns {string}
 */
export function addPhrase(text, words, proposition) {
  const begin = blankComments(text).indexOf("{");
  return `${text.slice(0, begin)}(* ${words}: ${proposition} *)\n${text.slice(begin)}`;
}

/**
 * Returns a test with the phrase that says that all loops which wait have ended, given the formulas of this; the test itself if there are none.
 * @param {string} text
 * @param {Formula[]} ends
 * @returns {string}
 */
export function addEnds(text, ends) {
  return ends.length ? addPhrase(text, WAITS_END, formatFormula({ sign: "/\\", parts: ends })) : text;
}

/**
 * Returns the proposition of a question without the parentheses around it; "" if it is no question.
 * @param {string} question
 * @returns {string}
 */
export function readProposition(question) {
  return removeOuterParentheses((QUESTION.exec(question)?.[3] ?? "").trim());
}
