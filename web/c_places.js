// Finds the variables that pointers, members of objects and indices of arrays are in the code of a program in C. Not proved.
//
// The records `Program` and `Declaration` are those of c_reader.js.

import { parseDeclaration, squeezeCode } from "./c_code.js";
import { computeConstant } from "./c_constants.js";

// In code with pointers that are known: what they point to, an object by a pointer, a member or a method of an object, and a word of an array.
const POINTED = /(?<!\w)\(\s{0,9}\*\s{0,9}&\s{0,9}(\w+)\s{0,9}\)|\*\s{0,9}&\s{0,9}(\w+)/g;
const CAST = /\*\s{0,9}\(\s{0,9}([\w<>: ]{1,40}?)\s{0,9}\*\s{0,9}\)\s{0,9}(?=&)/g;
const CAST_IN_CPP = /\b(?:static|reinterpret)_cast\s{0,9}<([\w<>: ]{1,40}?)\s{0,9}\*\s{0,9}>\s{0,9}\((\s{0,9}&\s{0,9}\w+\s{0,9})\)/g;
const CAST_IN_PARENTHESES = /\*\s{0,9}\(\s{0,9}(\([\w<>: ]{1,40}\*\s{0,9}\)\s{0,9}&\s{0,9}\w+)\s{0,9}\)/g;
const CAST_OF_ADDRESS = /\*\s{0,9}\(\s{0,9}[\w<>: ]{1,40}\*\s{0,9}\)\s{0,9}&/;
const ARROW = /&\s{0,9}(\w+)\s{0,9}->/g;
const MEMBER = /\b(\w+)\s{0,9}\.\s{0,9}(\w+)(?=\s{0,9}(\()?)/g;
const INDEX = /\b(\w+)\s{0,9}\[([^\][]{1,80})\]/g;

/** Returns whether a variable has the type of a cast of its address. */
function isOfType(type, variable) {
  const [declared] = parseDeclaration(squeezeCode(`${type} it`));
  return declared && variable && declared.order === variable.order && declared.limit === variable.limit;
}

/** Returns code without casts of addresses to pointers of their own type. */
function removeCasts(code, { variables }) {
  const text = code.replace(CAST_IN_CPP, "($1*)$2").replace(CAST_IN_PARENTHESES, "*$1");
  if (!CAST_OF_ADDRESS.test(text)) return text;
  return text.replace(CAST, (whole, type, at) => (isOfType(type, variables.get(/&\s*(\w+)/.exec(text.slice(at))?.[1])) ? "*" : whole));
}

/**
 * Returns code with the names of variables in place of what pointers are of, and of members, methods and words of arrays.
 * @param {string} code
 * @param {Program} program
 * @returns {string}
 */
export function resolvePlaces(code, program) {
  const { names, objects, functions, arrays, unwritten } = program;
  let text = code;
  if (text.includes("&")) {
    text = removeCasts(text, program).replace(POINTED, (_, first, second) => unwritten.get(first ?? second) ?? first ?? second).replace(ARROW, "$1.");
  }
  if (objects.size) {
    text = text.replace(MEMBER, (whole, object, member, open) => {
      const method = `${object}__${member}`;
      return open && functions.has(method) ? method : objects.has(object) ? names.get(`${object}.${member}`) ?? whole : whole;
    });
  }
  return arrays.size ? text.replace(INDEX, (whole, name, index) => names.get(`${name}[${computeConstant(squeezeCode(index))}]`) ?? whole) : text;
}
