// Compares a text with another one. Makes the change by which one becomes the other.

/**
 * Returns the change that makes a text of another one: it leaves what both begin with and what both end with.
 * @param {string} text
 * @param {string} whole
 * @returns {{begin: number, end: number, text: string}}
 */
export function makeChange(text, whole) {
  const shorter = Math.min(text.length, whole.length);
  let [begin, rest] = [0, 0];
  while (begin < shorter && text[begin] === whole[begin]) begin += 1;
  while (rest < shorter - begin && text.at(-1 - rest) === whole.at(-1 - rest)) rest += 1;
  return { begin, end: text.length - rest, text: whole.slice(begin, whole.length - rest) };
}

/**
 * Returns whether a text is another one than that before it, rather than an edited one: most of its lines are new.
 * @param {string} before
 * @param {string} text
 * @returns {boolean}
 */
export function isOtherText(before, text) {
  const listLines = (it) => it.split("\n").map((line) => line.trim()).filter(Boolean);
  const [known, lines] = [new Set(listLines(before)), listLines(text)];
  return lines.filter((it) => !known.has(it)).length * 2 > lines.length;
}
