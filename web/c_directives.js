// Blanks the lines of a program in C or C++ that are not compiled, by `#if`, `#ifdef` and their like, if the program defines the names in these. Not
// proved.
//
// A branch of `#if` in which a line is `holds`, or not, and `held` says whether one of the branches up to it does.

import { blank } from "./c_code.js";

const DEFINED = /^[ \t]*#[ \t]*define[ \t]+(\w+)(?!\()[ \t]*(?:\(?(-?\d+)[uUlL]*\)?|(.*\S))?[ \t]*\r?$/gm;
// A directive: the groups are its word and its condition.
const DIRECTIVE = /^[ \t]*#[ \t]*(ifdef|ifndef|if|elif|else|endif)\b[ \t]*(.*?)[ \t]*\r?$/;
const CHANGING = /^[ \t]*#[ \t]*(?:undef\b|if[^\n]*\\$)/m;
// A condition of a name: the groups are a `!`, the name that is `defined`, and the name or number with what it equals.
const CONDITION = /^(!?)\s*(?:defined\s*\(?\s*(\w+)\s*\)?|(\w+)\s*(?:(==|!=|>|>=)\s*(\d+))?)$/;
const COMPARE = {
  "==": (one, other) => one === other, "!=": (one, other) => one !== other, ">": (one, other) => one > other, ">=": (one, other) => one >= other,
};
const MOST = 200;
/** Why a directive is refused, as the end of a sentence. */
export const OF_DIRECTIVES = ": leave out `#if` and its like, with what is not compiled";

/** Returns the numbers of the names that a program defines, and null for others; undefined if one has several. */
function listDefined(code) {
  const isNumber = (number, other) => number !== undefined && other === undefined;
  const all = [...code.matchAll(DEFINED)].map(([, name, number, other]) => [name, isNumber(number, other) ? Number(number) : null]);
  return new Map(all).size === all.length ? new Map(all) : undefined;
}

/** Returns whether the condition of a directive holds, which is before a line; null if this is not known. */
function evaluate(word, condition, defined, next) {
  const [, first] = [...next.matchAll(DEFINED)][0] ?? [];
  if (word === "else" || (word === "ifndef" && first === condition && !defined.has(condition))) return true;
  if (word === "ifdef" || word === "ifndef") return defined.has(condition) ? word === "ifdef" : null;
  const [, negation, name, value, sign, number] = CONDITION.exec(condition) ?? [];
  if (name) return defined.has(name) ? !negation : null;
  const found = /^\d+$/.test(value ?? "") ? Number(value) : defined.get(value) ?? null;
  if (found === null || (negation && sign)) return null;
  return (sign ? COMPARE[sign](found, Number(number)) : found !== 0) !== Boolean(negation);
}

/** Follows a directive before a line, given the branches around it. Returns whether it is known which lines are compiled. */
function follow([, word, condition], branches, defined, next) {
  const last = branches.at(-1);
  if (word === "endif") return branches.pop() !== undefined;
  const holds = evaluate(word, condition, defined, next);
  if (holds === null || (!last && !word.startsWith("if"))) return false;
  if (word.startsWith("if")) branches.push({ holds, held: holds });
  else Object.assign(last, { holds: holds && !last.held, held: last.held || holds });
  return true;
}

/**
 * Returns a code without comments in which lines that are not compiled are blank, and so are the directives that say so; the code itself if this is
 * not known of all.
 * @param {string} code
 * @returns {string}
 */
export function blankUncompiled(code) {
  const defined = /^[ \t]*#[ \t]*if/m.test(code) && !CHANGING.test(code) ? listDefined(code) : undefined;
  const lines = code.split("\n");
  const count = lines.filter((it) => DIRECTIVE.test(it)).length;
  if (!defined || count > MOST) return code;
  const branches = [];
  let isKnown = true;
  // Names are defined before they are used.
  const before = new Map();
  const written = lines.map((line, at) => {
    const directive = DIRECTIVE.exec(line);
    if (directive) isKnown &&= follow(directive, branches, before, lines[at + 1] ?? "");
    const isCompiled = !directive && branches.every((it) => it.holds);
    const [, name, , other] = (isCompiled && [...line.matchAll(DEFINED)][0]) || [];
    if (name) before.set(name, defined.get(name));
    const isEmpty = name && defined.get(name) === null && other === undefined;
    return isCompiled && !isEmpty ? line : blank(line);
  });
  return isKnown && !branches.length ? written.join("\n") : code;
}
