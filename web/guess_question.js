// Guesses what a test that asks nothing is about. Not proved.

/**
 * Returns the proposition that a test may be about, given the loads of each thread, each with the `site` of its register, its `location` and the first
 * `word` of that, which is 0 if it is not named: a thread that loads once finds this word, and one that loads two locations finds another word first, and
 * then the first word. It is `true` if a thread loads otherwise, or none loads.
 * @param {{site: string, location: string, word?: number}[][]} threads
 * @returns {string}
 */
export function guessProposition(threads) {
  const parts = threads.filter((it) => it.length).map(([first, second, ...others]) => {
    const format = ({ site, word = 0 }) => `${site}=${word}`;
    if (!second) return format(first);
    const areApart = first.site !== second.site && first.location !== second.location;
    return areApart && !others.length ? `~${format(first)} /\\ ${format(second)}` : null;
  });
  return parts.length && !parts.includes(null) ? parts.join(" /\\ ") : "true";
}
