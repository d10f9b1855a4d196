// Explains a first line or a row of threads' names that is not as lw's: a name of several words, and threads with other names or numbers. Not proved.

import { numberThreads } from "./assembly.js";
import { makeChange } from "./change.js";

const NAME_OF_WORDS = /^\s*(?:X86|SRC)[ \t]+([\w+-]+(?:[ \t]+[\w+-]+)+)[ \t]*(?=[{\n]|$)/;
// A row of threads' names, and one of them, with its number.
const ROW = /^[ \t]*(?:p|t|cpu|core|proc|processor|thread)[ \t_]*\d[ \t]*(?:\|[^|;\n]*)*;?[ \t]*$/im;
const THREAD = /^\s*(?:p|t|cpu|core|proc|processor|thread)[ \t_]*(\d)\s*$/i;
const QUESTION = /^[ \t]*(?:locations\b|forall\b|(?:(?:[~!]|not\b)[ \t]*)?exists\b|\()/im;

/**
 * Returns a sentence that says that the name of a test has several words, and proposes one; or "".
 * @param {FaultPlace} place
 * @returns {string}
 */
export function explainName(place) {
  const [front, name] = NAME_OF_WORDS.exec(place.text) ?? [];
  if (!name || place.index > front.length) return "";
  const begin = front.lastIndexOf(name);
  return `The name of a test is one word.${place.propose(name.replace(/[ \t]+/g, "-"), begin, begin + name.length)}`;
}

/**
 * Returns a sentence that says that the threads of a test have other names than lw's, and proposes these, with the numbers of the question if the first
 * thread has the number 1; or "".
 * @param {FaultPlace} place
 * @returns {string}
 */
export function explainThreadNames(place) {
  const { text, index } = place;
  const { 0: row, index: begin } = ROW.exec(text) ?? { 0: "", index: text.length };
  const [, blanks, names] = /^(\s*)([^;]*?)\s*(?:;\s*)?$/.exec(row) ?? [];
  const numbers = names?.split("|").map((it) => THREAD.exec(it)?.[1]) ?? [];
  const first = Number(numbers[0]);
  const end = begin + row.length;
  const isRight = names?.split("|").every((it, thread) => it.trim() === `P${thread}`);
  if (isRight || index < begin || index > end || first > 1 || numbers.some((it, at) => Number(it) !== first + at)) return "";
  const header = numbers.map((_, thread) => `P${thread}`).join(" | ") + (row.includes(";") ? "" : " ;");
  const asked = place.propose(header, begin + blanks.length, begin + blanks.length + names.length);
  const words = "The threads are `P0`, `P1` and so on.";
  if (!first) return words + asked;
  proposeNumbers(place, end);
  place.change.title = `Change them to ${header}`;
  return `${words} The first one has the number 0.`;
}

/** Extends the proposed change of the threads' names, before an index: the numbers of threads in the question are less by 1. */
function proposeNumbers(place, index) {
  const { text, change } = place;
  const at = index + Math.max(0, text.slice(index).search(QUESTION));
  const whole = text.slice(0, change.begin) + change.text + text.slice(change.end, at) + numberThreads(text.slice(at), 1);
  const { begin, end, text: put } = makeChange(text, whole);
  place.proposeChange(put, begin, end);
}
