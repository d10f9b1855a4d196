// Finds in assembly what the program that printed it has put there: prompts of debuggers and shells, and hashes in names of Rust; and says which words are
// numbers below 0. Not proved.

import { WORD } from "./token_reader.js";

// A command after the prompt of a debugger or of a shell.
const PROMPT = new RegExp(
  "^[ \\t]*(?:(?:\\((?:gdb|lldb)\\)|gdb-peda\\$|pwndbg>|gef[^\\w\\s]?|>>>|\\[?[\\w.-]+@[^\\n$#%]{0,80}[$#%])(?=[ \\t\\r]|$)|" +
    "[$%][ \\t]+\\.?/?[\\w.+/-]+(?=[ \\t\\r]|$)).*$",
  "gm",
);
// The name of a variable of Rust as its compiler writes it, whose group is its path; and the hash at the end of such a name.
const MANGLED = /^_ZN((?:\d+[A-Za-z_][\w$.]*?)+)17h[\da-f]{16}E(?:\.\d+)?$/;
const HASH = /::h[\da-f]{16}(?:\.\d+)?$/;
// A number below 0 in instructions, and words that may be such numbers.
const BELOW_ZERO = /[\s,$]-\d/;
const LARGE = /(?<![\w$.])\$?(\d{10})(?![\w.])/g;

/**
 * Returns a text with blanks in place of prompts and what is typed after them.
 * @param {string} text
 * @returns {string}
 */
export function blankPrompts(text) {
  return text.replace(PROMPT, (it) => " ".repeat(it.length));
}

/**
 * Returns the name of a variable of Rust with its path and without its hash; the same name, if it is another one.
 * @param {string} variable
 * @returns {string}
 */
export function dropHash(variable) {
  const [, parts] = MANGLED.exec(variable) ?? [];
  if (!parts) return variable.replace(HASH, "");
  const path = [];
  for (let rest = parts; rest;) {
    const [digits = ""] = /^\d+/.exec(rest) ?? [];
    const end = digits.length + Number(digits);
    if (!Number(digits) || end > rest.length) return variable;
    path.push(rest.slice(digits.length, end));
    rest = rest.slice(end);
  }
  return path.join("::");
}

/**
 * Returns a sentence on the first word of a test that is a number below 0 in the instructions of which it is made; "" if they have none.
 * @param {string} text
 * @param {string} made
 * @returns {string}
 */
export function describeNegative(text, made) {
  const word = [...made.matchAll(LARGE)].map(([, it]) => Number(it)).find((it) => it > WORD / 2 && it < WORD);
  return word && BELOW_ZERO.test(text) ? `The word \`${word}\` is ${word - WORD}.` : "";
}
