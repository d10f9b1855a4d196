// Rewrites enumerations of a program in C or C++ that are types: their names are constants, and words of the type are integers. Not proved.
//
// The record `Edit` is that of c_edits.js.

import { replaceMatch } from "./c_edits.js";

// An enumeration: the groups are `typedef`, its name, its constants, and the name after it.
const ENUMERATION = /(?<=^|[;{}:])(\s*)(typedef\s+)?enum\b(?:\s+(?:class|struct)\b)?(?:\s+(\w+))?\s*(?::\s*[\w:]+\s*)?\{([\w\s=,+*-]*)\}\s*(\w+)?\s*;/gm;
// A constant: the groups are its name, and its word, which may be a sum of names and numbers.
const WORD = /^(\w+)(?:\s*=\s*(\w+(?:\s*[-+*]\s*\w+)?))?$/;

/** Returns the constants of an enumeration with their words, from a list; null if a word is not known. */
function readConstants(list) {
  let last = "-1";
  const found = list.split(",").map((it) => it.trim()).filter(Boolean).map((it) => WORD.exec(it)).map((it) => {
    last = it?.[2] ?? (/^-?\d+$/.test(last) ? String(Number(last) + 1) : "");
    return it && [it[1], /^\w+$/.test(last) ? last : `(${last})`];
  });
  return found.some((it) => it === null || it[1] === "()") ? null : found;
}

/**
 * Returns the edits by which the words of the constants of enumerations that are types are in their place, and the types are `int`; none if a constant has
 * another meaning, too.
 * @param {string} code
 * @returns {{edits: Edit[], words: string}}
 */
export function listEnumerations(code) {
  const none = { edits: [], words: "" };
  const edits = [];
  const words = new Map();
  for (const declared of code.matchAll(ENUMERATION)) {
    const [, , typedef, first, list, last] = declared;
    const name = typedef ? last : first;
    const constants = readConstants(list);
    if ((typedef && !name) || (!typedef && last) || !constants || constants.some(([it]) => words.has(it) || isDeclared(code, it))) return none;
    for (const [constant, word] of constants) words.set(constant, word);
    edits.push(replaceMatch(declared, ""));
    if (name) edits.push(...[...code.matchAll(new RegExp(`(?<!\\w|\\.|->)(?:enum\\s+)?${name}\\b(\\s*::\\s*(?=\\w))?`, "g"))].map((it) => replaceMatch(it, it[1] ? "" : "int")));
  }
  for (const [constant, word] of words) edits.push(...[...code.matchAll(new RegExp(`(?<!\\w|\\.|->)${constant}\\b`, "g"))].map((it) => replaceMatch(it, word)));
  const declarations = edits.filter((it) => it.end - it.begin > 1 && it.text === "" && /\}\s*\w*\s*;$/.test(code.slice(it.begin, it.end)));
  const isIn = (it) => declarations.some((other) => other !== it && other.begin <= it.begin && it.end <= other.end);
  return { edits: edits.filter((it) => !isIn(it)), words: "" };
}

/** Returns whether a name is declared as a variable or a function, too. */
function isDeclared(code, name) {
  return new RegExp(`(?:>|\\b(?!(?:return|else|case|enum|class|struct)\\b)\\w+)\\s+[*&]?\\s*${name}\\s*[;=,{(\\[]`).test(code);
}
