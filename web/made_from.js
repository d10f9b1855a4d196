// Shows below a test the code from which a button of the page made it, and keeps that in the address, so that a link has it. A text that is another one than
// that test has none.

import * as address from "./address.js";
import { isOtherText } from "./change.js";
import { el, findById } from "./dom.js";

// The largest number of letters of code that a link has.
const MAX_LETTERS = 16000;
const OF_COMPILERS = "A compiler may also reorder or merge its relaxed and plain accesses.";

/** The fields of the address: the code, and whether a compiler is to compile it. */
export const NO_CODE = { from: null, compiled: null };

// The fields of the code that is shown.
let shown = NO_CODE;

/** Returns the fields of the code that is shown: a test that the page makes of the one in the editor keeps it. */
export function findShownCode() {
  return shown;
}

/**
 * Keeps the code from which the test in the editor was made.
 * @param {string} code
 * @param {boolean} isCompiled
 */
export function keepCode(code, isCompiled) {
  address.put({ from: code.length > MAX_LETTERS ? null : code.trim(), compiled: isCompiled ? "1" : null });
  showCode();
}

/**
 * Forgets the code if a text is another one than that before it.
 * @param {string} before
 * @param {string} text
 */
export function followCode(before, text) {
  if (address.read().from && isOtherText(before, text)) address.put(NO_CODE);
  showCode();
}

/** Shows the code that the address has, or nothing. */
export function showCode() {
  const { from: code, compiled } = address.read();
  shown = { from: code, compiled };
  const place = findById("made-from");
  if (!code) return place.replaceChildren();
  const whole = el("details", {}, el("summary", {}, "The code that this test was made from"), el("pre", {}, code));
  return place.replaceChildren(whole, compiled ? el("p", {}, OF_COMPILERS) : "");
}
