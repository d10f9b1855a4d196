// Edits the text of a program, and finds indices of the edited text in the program. Not proved.
//
// An `Edit` replaces a text from its `begin` to its `end` by its `text`.

import { findClosing } from "./c_code.js";

/**
 * Returns the text after edits, of which none is in another one, and what finds an index of it in the text before.
 * @param {string} text
 * @param {Edit[]} edits
 * @returns {{text: string, findIndex: function(number): number}}
 */
export function applyEdits(text, edits) {
  const places = [];
  let [made, end] = ["", 0];
  for (const it of [...edits].sort((one, other) => one.begin - other.begin)) {
    places.push({ at: made.length, index: end, limit: it.begin });
    made += text.slice(end, it.begin) + it.text;
    end = it.end;
  }
  places.push({ at: made.length, index: end, limit: text.length });
  const findIndex = (at) => {
    const place = places.findLast((it) => it.at <= at);
    return Math.min(place.index + at - place.at, place.limit);
  };
  return { text: made + text.slice(end), findIndex };
}

/**
 * Returns the edit of a match of a pattern.
 * @param {RegExpMatchArray} found
 * @param {string} text
 * @returns {Edit}
 */
export function replaceMatch({ 0: whole, index }, text) {
  return { begin: index, end: index + whole.length, text };
}

/**
 * Returns the parts of a list that are separated by commas outside of all parentheses, braces and angles.
 * @param {string} list
 * @returns {string[]}
 */
export function splitList(list) {
  let depth = 0;
  const parts = [""];
  for (const mark of list) {
    depth += Number("({[<".includes(mark)) - Number(")}]>".includes(mark));
    if (mark === "," && !depth) parts.push("");
    else parts[parts.length - 1] += mark;
  }
  return parts.map((it) => it.trim());
}

/**
 * Returns the calls of a code that a pattern finds up to their `(`: each with its `match`, its range, and its list of `values`.
 * @param {string} code
 * @param {RegExp} pattern
 * @returns {{match: RegExpMatchArray, begin: number, end: number, values: string[]}[]}
 */
export function listCalls(code, pattern) {
  return [...code.matchAll(pattern)].flatMap((match) => {
    const open = match.index + match[0].length - 1;
    const close = findClosing(code, open);
    const list = code.slice(open + 1, close).trim();
    return close < 0 ? [] : [{ match, begin: match.index, end: close + 1, values: list ? splitList(list) : [] }];
  });
}

/**
 * Returns whether a range of a code is a statement by itself, without its `;`.
 * @param {string} code
 * @param {{begin: number, end: number}} range
 * @returns {boolean}
 */
export function isStatement(code, { begin, end }) {
  return /(?:^|[;{}])\s*$/.test(code.slice(0, begin)) && /^\s*;/.test(code.slice(end));
}
