// Finds initial values that are written in another way than lw's: with commas, `and` or blanks between them, with `:=` or `:`, or without braces. Not proved.

// Sites with one initial word, and this word, as in `x = y = 0`; and one of these sites.
const ENTRY = /((?:(?:\d\s*:\s*%?|\[\s*)?[A-Za-z_]\w*\s*\]?\s*(?::=|=|:)\s*)+)(0x[\da-f]+|\d+)\b/gi;
const SITE = /((?:\d\s*:\s*%?)?[A-Za-z_]\w*)\s*\]?\s*(?::=|=|:)\s*/g;
// What may be between entries.
const BETWEEN = /^(?:[\s,;&]|\band\b|\/\\)*$/i;
// Entries as lw writes them.
const REGULAR = /^(?:\s*[^\s=:,;&]+(?:\s*:\s*\w+)?\s*=\s*\w+\s*(?:;|$))*\s*$/;
// A block of more letters than this is not rewritten.
const MAX_LETTERS = 500;

/**
 * Returns a block of the initial values that are between braces; null if they are as lw writes them, or are something else.
 * @param {string} code
 * @returns {string | null}
 */
export function rewriteEntries(code) {
  return code.length > MAX_LETTERS || REGULAR.test(code) ? null : makeBlock(code);
}

/**
 * Returns a block of initial values that have no braces; null if there are none, or if code has something else, too.
 * @param {string} code
 * @returns {string | null}
 */
export function makeBlock(code) {
  return code.length <= MAX_LETTERS && BETWEEN.test(code.replace(ENTRY, "")) ? formatEntries(code) : null;
}

/** Returns a block of the entries in code as lw writes it, or null if there are none. */
function formatEntries(code) {
  const entries = [...code.matchAll(ENTRY)].flatMap(([, sites, word]) => [...sites.matchAll(SITE)].map(([, site]) => `${site.replace(/[\s%]/g, "")}=${word};`));
  return entries.length ? `{ ${entries.join(" ")} }` : null;
}

/**
 * Returns the index in a text, without comments, at which initial values without braces begin, after its first line and before an index; and the block that
 * they mean. Null if there are none.
 * @param {string} code
 * @param {number} end
 * @returns {{begin: number, block: string} | null}
 */
export function findBareEntries(code, end) {
  const line = code.search(/\S/);
  const begin = code.indexOf("\n", line) + 1;
  const part = begin > 0 && begin < end ? code.slice(begin, end).replace(/^\s*\(|\)\s*$/g, "") : "";
  const block = makeBlock(part);
  return block && { begin, block };
}
