// Finds the word that a misspelt one may mean: of some names the one that takes the fewest changes of letters.

// The largest number of letters of a word in which one letter may be wrong; in a longer one two may be.
const SHORT = 4;

/**
 * Returns how many letters are changed, added, left out or exchanged with the next one to make the other word of a word.
 * @param {string} word
 * @param {string} other
 * @returns {number}
 */
export function countChanges(word, other) {
  let [before, row] = [[], Array.from({ length: other.length + 1 }, (_, at) => at)];
  for (let i = 1; i <= word.length; i += 1) {
    const next = [i];
    for (let j = 1; j <= other.length; j += 1) {
      next[j] = Math.min(row[j] + 1, next[j - 1] + 1, row[j - 1] + (word[i - 1] === other[j - 1] ? 0 : 1));
      const isExchanged = i > 1 && j > 1 && word[i - 1] === other[j - 2] && word[i - 2] === other[j - 1];
      if (isExchanged) next[j] = Math.min(next[j], before[j - 2] + 1);
    }
    [before, row] = [row, next];
  }
  return row[other.length];
}

/**
 * Returns the one name that is nearest to a word, whatever the case of its letters; null if none is near, or if two are as near.
 * @param {string} word
 * @param {string[]} names
 * @returns {string | null}
 */
export function findNearest(word, names) {
  const limit = word.length < 2 ? 0 : word.length <= SHORT ? 1 : 2;
  const candidates = names.map((name) => ({ name, changes: countChanges(word.toUpperCase(), name.toUpperCase()) }));
  const least = Math.min(...candidates.map((it) => it.changes));
  const best = candidates.filter((it) => it.changes === least);
  return least > 0 && least <= limit && best.length === 1 ? best[0].name : null;
}
