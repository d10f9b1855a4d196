// Reads the text of a program in Rust: blanks its comments and strings, and refuses what has another meaning in C++. Not proved.

import { findClosing } from "./c_code.js";
import { Unread } from "./rust_statements.js";

// A comment that is no question, a string and a letter. What is not closed ends with the text.
const BLANKED = /\/\/(?! ?lw:).*|\/\*[^]*?(?:\*\/|$)|\bb?r(#*)"[^]*?(?:"\1|$)|"(?:\\[^]|[^"\\])*(?:"|$)|'(?:\\[^][^'\n]{0,9}|[^\\'\n])'/g;
// What is before a `!` of a condition, and what follows one that is compared or counted.
const OF_CONDITION = /(?:\b(?:if|while)|&&|\|\||\bassert!\s{0,9}\()[\s(!]*$/;
const IS_COUNTED = /^\s*(?:[=!<>]=|[<>+*/%-]|as\b)/;
const IS_CONDITION = /[=!]=|[<>]|&&|\|\|/;

/**
 * Returns a text with blanks in place of its comments, and of the letters in strings. Throws Unread for a comment in a comment.
 * @param {string} text
 * @returns {string}
 */
export function blankText(text) {
  return text.replace(BLANKED, (it) => {
    if (/^\/\*[^]*\/\*/.test(it)) throw new Unread("/*", ": a comment is in a comment");
    const blanks = it.replace(/[^\n]/g, " ");
    return it.startsWith("/") ? blanks : `${it[0] === "'" ? "'" : '"'}${blanks.slice(2)}${it[0] === "'" ? "'" : '"'}`;
  });
}

/** Returns the length of the operand at the start of code. */
function measureOperand(code) {
  let end = /^[!\s*]*(?:unsafe\s*(?=\{))?/.exec(code)[0].length;
  const begin = end;
  for (;;) {
    const [word] = /^[\w:.]+/.exec(code.slice(end)) ?? [];
    const isOpen = "([".includes(code[end] ?? " ") || (code[end] === "{" && end === begin);
    const close = isOpen ? findClosing(code, end) : -1;
    if (!word && close < 0) return end;
    end = word ? end + word.length : close + 1;
  }
}

/**
 * Throws Unread for a `!` that may be of an integer, whose bits it inverts: it is in no condition, and its variable is no `bool`.
 * @param {string} code
 * @param {string[]} names those of variables that are `bool`
 * @param {string[]} fields those of words of structures that are `bool`
 */
export function checkNegations(code, names, fields = []) {
  for (const { index } of code.matchAll(/(?<!\w)!(?!=)/g)) {
    const rest = code.slice(index + 1);
    const operand = rest.slice(0, measureOperand(rest));
    const after = rest.slice(operand.length);
    const [name] = /[A-Za-z_]\w*/.exec(operand.replace(/\bunsafe\b/, "")) ?? [];
    const isCounted = IS_COUNTED.test(after);
    const isCompared = /^\s*\(/.test(operand) && IS_CONDITION.test(operand.trim().slice(1, -1).replace(/\([^()]*\)/g, ""));
    const isAsked = /^\s*(?:&&|\|\|)/.test(after) || OF_CONDITION.test(code.slice(Math.max(index - 40, 0), index));
    const [, field] = /^\s*\w+\.(\w+)\.(?:load|swap|fetch_\w+)\([^]*\)\s*$/.exec(operand) ?? [];
    if (names.includes(name) || fields.includes(field) || isCompared || /\.is_(?:ok|err)\(\)$/.test(operand) || (isAsked && !isCounted)) continue;
    throw new Unread(`!${operand}`, ": a `!` of what may be no `bool`");
  }
}
