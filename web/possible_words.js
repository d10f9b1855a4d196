// The words that a register or a location may have in runs of a test: a list of them, or, if they are many, only the greatest. Not proved.
//
// `Words` have a `list`, or null, and a `max`. `Flags` have the `pairs` of words that were compared, or null, their `width`, and `isZero`, if they only say
// whether a result is 0; `isTurned`, if that is so where lw's flag says that words differ; and the `register` that was compared with a `constant`, while it
// has not changed.

const MAX_LISTED = 16;
const WORD = 2 ** 32;

/** Any word. */
export const ANY = { list: null, max: WORD - 1 };

/**
 * Returns the words of a list.
 * @param {number[]} list
 * @returns {Words}
 */
export function makeWords(list) {
  const words = [...new Set(list)];
  return { list: words.length > MAX_LISTED ? null : words, max: Math.max(...words) };
}

/**
 * Returns the words that are in one of two lists.
 * @param {Words} one
 * @param {Words} other
 * @returns {Words}
 */
export function joinWords(one, other) {
  if (one.list && other.list) return makeWords([...one.list, ...other.list]);
  return { list: null, max: Math.max(one.max, other.max) };
}

/**
 * Returns the words that a function gives for each of those that are listed, and of another list; null if it is not known which they are.
 * @param {Words} one
 * @param {Words} other
 * @param {function(number, number): number} change
 * @returns {Words | null}
 */
export function combineWords(one, other, change) {
  return one.list && other.list ? makeWords(one.list.flatMap((it) => other.list.map((by) => change(it, by)))) : null;
}

/**
 * Returns the only word, or undefined.
 * @param {Words} words
 * @returns {number | undefined}
 */
export function getOnly({ list }) {
  return list?.length === 1 ? list[0] : undefined;
}

/**
 * Returns the flags of a comparison.
 * @param {Words} one
 * @param {Words} other
 * @param {number} width
 * @returns {Flags}
 */
export function compareWords(one, other, width) {
  const pairs = one.list && other.list && one.list.flatMap((it) => other.list.map((by) => [it, by]));
  // Of words that are not listed each is between 0 and the greatest: so are all answers if 0 is compared with.
  const isWithZero = getOnly(other) === 0 && one.max < 2 ** (Math.min(width, 33) - 1);
  return { pairs: pairs ?? (isWithZero ? [0, 1, one.max].map((it) => [it, 0]) : null), width };
}

/** Returns whether a condition holds after a comparison of two words. */
function holds(condition, one, other, width) {
  const toSigned = (word) => (word >= 2 ** (width - 1) ? word - 2 ** width : word);
  const [left, right] = [toSigned(one), toSigned(other)];
  const isNegative = width > 32 ? one < other : (one - other + 2 ** width) % 2 ** width >= 2 ** (width - 1);
  const answers = { e: one === other, b: one < other, be: one <= other, l: left < right, le: left <= right, s: isNegative };
  const opposite = { ne: "e", ae: "b", a: "be", ge: "l", g: "le", ns: "s" }[condition];
  return opposite ? !answers[opposite] : answers[condition];
}

/**
 * Returns which condition of lw, `e` or `ne`, holds if and only if another one does; `always` or `never` if that is so, and null if there is none.
 * @param {Flags} flags
 * @param {string} condition
 * @returns {string | null}
 */
export function findCondition({ pairs, width, isZero }, condition) {
  const isOwn = condition === "e" || condition === "ne";
  if (!pairs || (isZero && !isOwn)) return isOwn ? condition : null;
  const answers = pairs.map(([one, other]) => ({ isHeld: holds(condition, one, other, width), isEqual: one === other }));
  if (answers.some((it) => it.isHeld === undefined)) return null;
  if (answers.every((it) => it.isHeld)) return "always";
  if (!answers.some((it) => it.isHeld)) return "never";
  if (answers.every((it) => it.isHeld === it.isEqual)) return "e";
  return answers.every((it) => it.isHeld !== it.isEqual) ? "ne" : null;
}
