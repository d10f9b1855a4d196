// Finds what a text has from a word processor, a chat or a book: signs that only look like lw's, and lines around it. Not proved.

import { makeChange } from "./change.js";

// Signs in print, and what lw has in their place.
const SIGNS = {
  "\u00a0": " ", "\u2002": " ", "\u2003": " ", "\u2007": " ", "\u2009": " ", "\u202f": " ", "\u3000": " ", "\ufeff": "", "\u200b": "",
  "\u201c": '"', "\u201d": '"', "\u2018": "'", "\u2019": "'", "\u2212": "-", "\u2013": "-",
  "\u2227": "/\\", "\u2228": "\\/", "\u00ac": "~", "\u2203": "exists ", "\u2200": "forall ", "\u2260": "!=",
  "\u2502": "|", "\u2503": "|", "\u2551": "|", "\u2190": ":=", "\u2254": ":=", "\uff1b": ";", "\uff1d": "=", "\uff08": "(", "\uff09": ")",
};
const SIGN = new RegExp(`[${Object.keys(SIGNS).join("")}]`, "g");
// A line around a text in a chat or a forum, and what a quoted text has before each line.
const FENCE = /^[ \t]*(?:`{3,}.*|~{3,}.*|<\/?pre>)[ \t]*$/;
const QUOTED = /^[ \t]*>[ \t]?/;

/** Returns a text without the lines around it, and without what quoted lines begin with. */
function unwrap(text) {
  const lines = text.split("\n").filter((it) => !FENCE.test(it));
  const areQuoted = lines.every((it) => QUOTED.test(it) || !it.trim());
  return (areQuoted ? lines.map((it) => it.replace(QUOTED, "")) : lines).join("\n");
}

/**
 * Returns a sentence that says that signs of a text only look like lw's, or that lines around it belong to no test, and proposes the text with lw's signs
 * and without these lines; or "".
 * @param {FaultPlace} place
 * @returns {string}
 */
export function explainTypography(place) {
  const { text } = place;
  const signs = new Set(text.match(SIGN));
  const mended = unwrap(text).replace(SIGN, (it) => SIGNS[it]);
  if (mended === text) return "";
  const { begin, end, text: put } = makeChange(text, mended);
  place.proposeChange(put, begin, end);
  place.change.title = signs.size ? "Put in lw's signs" : "Take out these lines";
  const shown = [...signs].find((it) => SIGNS[it].trim());
  if (!signs.size) return "Lines around the test are no part of it.";
  return shown ? `The text has signs of print: lw's sign for \`${shown}\` is \`${SIGNS[shown].trim()}\`.` : "The text has blanks or marks of a word processor.";
}
