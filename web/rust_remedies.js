// Finds what to change in a program in Rust that is not rewritten, where smaller counts help: those of its threads, and of what each of them repeats. Not proved.

import { makeChange } from "./change.js";
import { blank, findClosing } from "./c_code.js";

const NO_CODE = /"(?:[^"\\]|\\.)*"|\/\/.*|\/\*[^]*?\*\//g;
const NUMBER = /(?<!\w|(?<!\.)\.)\d[\d_]*(?=(?:[iu](?:\d+|size))?\b(?!\.\d))/g;
// A range: the group is its end. And a constant: the groups are its name and its word.
const RANGE = /(?<![\w.])\d+\s*\.\.=?\s*(\w+)/g;
const CONSTANT = /\b(?:const|static)\s+(\w+)\s*:\s*\w+\s*=\s*(\d[\d_]*)\s*;/g;
const COUNT = 2;
const LEAST = 4;
const MOST_COUNTS = 4;
const LONGEST = 20000;

/** Returns the number that is written as some digits. */
function parseNumber(digits) {
  return Number(digits.replaceAll("_", ""));
}

/** Returns the counts of the ranges of a code that are large, one for each range. */
function listCounts(code) {
  const constants = new Map([...code.matchAll(CONSTANT)].map(([, name, digits]) => [name, parseNumber(digits)]));
  const ends = [...code.matchAll(RANGE)].map(([, end]) => (/^\d/.test(end) ? parseNumber(end) : constants.get(end) ?? 0));
  return ends.filter((it) => it >= LEAST);
}

/** Returns the numbers that counts and their products become. */
function listProducts(counts) {
  let products = [[1, 1]];
  for (const count of counts) products = [...products, ...products.map(([before, after]) => [before * count, after * COUNT])];
  return new Map(products.filter(([before]) => before > 1));
}

/** Returns a function that says whether an index of a code is in what asks: an assertion, or the condition of a branch or a loop. */
function listAsked(code) {
  const assertions = [...code.matchAll(/\bassert(?:_eq|_ne)?!\s*\(/g)].map(({ 0: head, index }) => [index, findClosing(code, index + head.length - 1)]);
  const conditions = [...code.matchAll(/\b(?:if|while)\b[^{};]*\{/g)].map(({ 0: head, index }) => [index, index + head.length]);
  return (at) => [...assertions, ...conditions].some(([begin, end]) => begin <= at && at <= end);
}

/** Returns whether all ranges of a code begin with 0, and leave out their ends. */
function areFromZero(code) {
  return [...code.matchAll(/(?<![\w.])(\d+)\s*\.\.(=?)/g)].every(([, begin, sign]) => Number(begin) === 0 && !sign);
}

/**
 * Returns the change of a program in Rust with smaller counts, because of which it is rewritten; null if it has no such counts, or a number may be a sum of
 * theirs that is none of their products.
 * @param {string} text
 * @param {function(string): {made?: string}} rewrite
 * @returns {{begin: number, end: number, text: string, title: string} | null}
 */
export function findRustRemedy(text, rewrite) {
  if (text.length > LONGEST) return null;
  const code = text.replace(NO_CODE, blank);
  const counts = listCounts(code);
  if (!counts.length || counts.length > MOST_COUNTS) return null;
  const products = listProducts(counts);
  const numbers = [...code.matchAll(NUMBER)].map(({ 0: word, index }) => ({ word, index, value: parseNumber(word) }));
  const isSum = (value) => value > Math.min(...counts) && counts.some((it) => value % it === 0);
  const isAsked = listAsked(code);
  if (numbers.some(({ value, index }) => !products.has(value) && (isSum(value) || (value > 1 && isAsked(index))))) return null;
  // A sum needs ranges from 0 on.
  if (!areFromZero(code) && numbers.some(({ index }) => isAsked(index))) return null;
  const changed = numbers.filter(({ value }) => products.has(value)).reverse();
  const whole = changed.reduce((it, { index, word, value }) => it.slice(0, index) + products.get(value) + it.slice(index + word.length), text);
  if (!rewrite(whole)?.made) return null;
  return { ...makeChange(text, whole), title: `Make ${counts.length > 1 ? "each" : "the"} count ${COUNT}` };
}
