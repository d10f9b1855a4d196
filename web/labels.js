// The names of labels as the reader has written them, for what is shown: the canonical text of an x86 test counts them instead.

import { readTest } from "./tests.js";

/** Returns, for each thread of an x86 test, a map of the label at each position; of a source test nothing. Throws NoTest if the text is no test. */
function listLabels(text) {
  const test = readTest(text);
  if (test.language !== "X86") return [];
  return test.columns.map((cells) => {
    const labels = new Map();
    let position = 0;
    for (const cell of cells) {
      let index = 0;
      for (; cell[index + 1]?.text === ":"; index += 2) labels.set(position, cell[index].text);
      if (index < cell.length) position += 1;
    }
    return labels;
  });
}

/**
 * Returns a function that takes a text, code of a thread or words about it, and the thread, and puts the reader's own labels in place of counted ones.
 * @param {string} text
 * @returns {function(string, number): string}
 */
export function makeLabeller(text) {
  let labels = [];
  try {
    labels = listLabels(text);
  } catch {
    // The page's own reader does not read the test: labels stay counted.
  }
  return (words, thread) => words.replace(/\bL(\d+)\b/g, (counted, number) => labels[thread]?.get(Number(number)) ?? counted);
}
