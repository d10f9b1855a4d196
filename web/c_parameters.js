// Reads the parameters of functions in C and C++, and gives them the arguments of a call: names for constants and variables, and copies. Not proved.
//
// The records `Program`, `CThread` and `Declaration` are those of c_reader.js.
// A `Parameter` has a `name`, or "", the `mark` of its type, which is `&`, `*` or "", and the code of its `value` by default, or "". It `isConst`, or
// not. Its `declaration` is null if it has the type of a class, or that of its argument.

import { parseConstant, parseDeclaration, squeezeCode } from "./c_code.js";
import { computeConstant } from "./c_constants.js";
import { removeOuterParentheses, splitOutside } from "./c_statements.js";
import { WORD } from "./token_reader.js";

// A parameter in squeezed code: the groups are its type and its name.
const PARAMETER = /^(.*[>&* ])(\w+)((?:\[\w*\])?)$/;
const ORDER = /^memory_order_\w+$/;
const REFERRED = /^(?:std::|c?ref\()*(\w+)\)?$/;

/** Returns the parts of squeezed code between commas that are in no parentheses, braces and types of templates. */
function splitParameters(code) {
  return splitOutside(code.replace(/<[^<>(),]*(?:,[^<>(),]*)+>/g, ""), ",");
}

/**
 * Returns the parameters of a function.
 * @param {string} code
 * @returns {Parameter[]}
 */
export function parseParameters(code) {
  const squeezed = squeezeCode(code);
  if (!squeezed || squeezed === "void") return [];
  return splitParameters(squeezed).map((it) => {
    const [whole, value = ""] = it.split(/(?<![=!<>])=(?!=)/);
    const [, typed = `${whole} `, name = "", array = ""] = PARAMETER.exec(whole) ?? [];
    const type = `${typed.trim()}${array && "*"}`.replace(/(?<=[*&]) ?const$/, "");
    const [mark = ""] = /[&*]+$/.exec(type) ?? [];
    const base = type.slice(0, type.length - mark.length);
    const declaration = /\bauto\b/.test(base) ? null : parseDeclaration(squeezeCode(`${base} it`))[0] ?? null;
    return { name, mark: mark.slice(0, 1), value, isConst: /\bconst\b/.test(base), declaration, isOrder: /\bmemory_order$/.test(base), base };
  });
}

/**
 * Returns whether code may change a variable by its name, or by a function of a list, whose parameters are references.
 * @param {string} name
 * @param {string} code
 * @param {string[]} changing
 * @returns {boolean}
 */
export function isChanged(name, code, changing) {
  const here = `\\b${name}\\b`;
  const step = new RegExp(`(?:\\+\\+|--)\\s{0,9}${here}|${here}\\s{0,9}(?:\\+\\+|--|(?:[-+*/%&|^]|<<|>>)?=(?!=))`);
  const address = new RegExp(`(?<!&)(?<![\\w)\\]]\\s{0,9})&\\s{0,9}${here}|compare_exchange_\\w{1,9}\\s{0,9}\\(\\s{0,9}${here}`);
  const isPassed = (it) => new RegExp(`\\b${it}\\s{0,9}\\([^;{}]{0,200}(?<=[(,]\\s{0,9})${here}\\s{0,9}[,)]`).test(code);
  return step.test(code) || address.test(code) || changing.some(isPassed);
}

/** Returns the code of a constant that a parameter has; null if it has not the type of one. */
function convertConstant(number, limit) {
  if (limit === 2) return String(Number(number !== 0));
  // A blank makes no step of two signs.
  return number >= limit || (number < 0 && limit < WORD) ? null : `${number < 0 ? " " : ""}${number}`;
}

/** Gives parameters of a function the arguments of a call. `scope` is the writer of the thread that calls it. */
export class ArgumentBinder {
  /**
   * @param {ThreadWriter} scope
   * @param {CThread} called
   * @param {Map<string, string>} names those that the function has besides
   */
  constructor(scope, called, names) {
    Object.assign(this, { scope, called, names });
    this.copies = [];
    // Whether a parameter has a number.
    this.hasConstants = false;
    this.isWide = false;
    this.referred = new Set();
  }

  /** Gives all parameters their arguments, in squeezed code. Returns whether they have them. */
  bindAll(codes) {
    const parameters = parseParameters(this.called.parameters);
    const values = parameters.map((it, at) => codes[at] ?? it.value);
    if (codes.length > parameters.length || values.some((it) => !it)) return false;
    const isReference = (it, at) => it.mark === "*" || (it.mark && !(it.isConst && it.declaration && !this.isPlaceOfType(it, values[at])));
    parameters.forEach((it, at) => isReference(it, at) && this.referred.add(values[at].replace("&", "")));
    return parameters.every((it, at) => (isReference(it, at) ? this.bindPlace(it, values[at]) : this.bindValue(it, values[at])));
  }

  /** Returns whether a value is a variable of the type of a parameter, which then refers to it. What starts a thread copies variables for it. */
  isPlaceOfType({ declaration }, value) {
    const { program, locals, limits, called } = this.scope;
    if (this.called === called && !/\bc?ref\(/.test(value)) return false;
    const place = REFERRED.exec(removeOuterParentheses(value))?.[1];
    const { order, limit } = program.variables.get(place) ?? (locals.has(place) ? { order: "plain", limit: limits.get(place) ?? WORD } : {});
    return declaration.order === order && declaration.limit === limit;
  }

  /** Gives a reference or a pointer the variable, the object or the array that it refers to. Returns whether it has it. */
  bindPlace({ name, mark, declaration, base }, value) {
    const { variables, objects, arrays, unwritten } = this.scope.program;
    const number = mark === "*" ? computeConstant(value) : null;
    if (mark === "*" && number !== null && /\bvoid$/.test(base)) return this.bindNumber(name, number, WORD);
    const place = removeOuterParentheses(value);
    const isArray = arrays.has(place);
    const [, referred] = REFERRED.exec(mark === "*" && !isArray ? place.replace(/^(?!&).*/, "-").slice(1) : place) ?? [];
    if (!name || !referred) return !name;
    this.setName(name, mark === "*" && !isArray ? `&${referred}` : referred);
    if (isArray || objects.has(referred)) return true;
    if (unwritten.has(referred)) this.hasConstants = true;
    const { order, limit } = variables.get(referred) ?? { order: "plain", limit: this.scope.limits.get(referred) ?? WORD };
    const isKnown = variables.has(referred) || this.scope.locals.has(referred);
    const isOfType = declaration === null || (declaration.order === order && declaration.limit === limit);
    return isKnown && isOfType && parseConstant(referred) === null;
  }

  /** Gives a parameter by value a constant, a variable of the thread that stays as it is, or a copy. Returns whether it has it. */
  bindValue({ name, declaration, isOrder, mark }, code) {
    const value = removeOuterParentheses(code);
    const number = computeConstant(value);
    if (isOrder) return ORDER.test(value) && this.setName(name, value);
    if (mark && !declaration && this.scope.program.variables.has(value)) return this.setName(name, value);
    const { limit, isWide, order } = declaration ?? { limit: WORD, isWide: false, order: "plain" };
    if (order !== "plain" || this.scope.program.objects.has(value)) return false;
    if (isWide) this.isWide = true;
    const isVariable = name && isChanged(name, this.called.code.code, this.scope.changing);
    if (number !== null && !isVariable) return this.bindNumber(name, number, limit);
    const { known, locals, limits, variables } = this.scope;
    const isLocal = known?.has(value) && locals.has(value) && !variables.has(value) && (limits.get(value) ?? WORD) <= limit;
    if (!name && !isLocal) return false;
    if (isLocal && !isVariable && !this.referred.has(value)) this.setName(name, value);
    else this.copies.push({ variable: { name, limit, isWide }, value });
    return true;
  }

  /** Gives a name its code, in place of all that it named. */
  setName(name, code) {
    for (const it of [...this.names.keys()]) if (it.startsWith(`${name}[`) || it.startsWith(`${name}.`)) this.names.delete(it);
    this.names.set(name, code);
    return true;
  }

  /** Gives a parameter a number. Returns whether its type has it. */
  bindNumber(name, number, limit) {
    const converted = convertConstant(number, limit);
    if (name && converted !== null) this.setName(name, converted);
    if (new RegExp(`(?<!\\(void\\)\\s{0,9})\\b${name || "_"}\\b`).test(this.called.code.code)) this.hasConstants = true;
    return converted !== null;
  }
}
