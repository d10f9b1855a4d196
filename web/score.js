// The reader's score in this tab: on how many tests the first prediction was right. It lasts until the tab is closed.

import { findById } from "./dom.js";

const KEY = "score";
// The largest number of lines of a test that is short enough to be predicted.
const MAX_LINES = 9;

// For each text whether the first prediction on it was right.
const results = new Map(readStored());

/**
 * Returns the results that the tab has stored.
 * @returns {[string, boolean][]}
 */
function readStored() {
  try {
    return JSON.parse(sessionStorage.getItem(KEY)) ?? [];
  } catch {
    return [];
  }
}

/**
 * Counts a prediction on a text, if it is the first one.
 * @param {string} text
 * @param {boolean} isRight
 */
export function countPrediction(text, isRight) {
  if (results.has(text)) return;
  results.set(text, isRight);
  try {
    sessionStorage.setItem(KEY, JSON.stringify([...results]));
  } catch {
    // Without a store it lasts until the page is loaded anew.
  }
  showScore();
}

/** Shows the score beside the choice to predict, if there is one. */
export function showScore() {
  const right = [...results.values()].filter(Boolean).length;
  findById("score").textContent = results.size ? `${right} of ${results.size} right` : "";
  findById("score").className = right === 0 ? "none" : right === results.size ? "all" : "";
}

/**
 * Returns the name of a short test at random: of one that was not predicted yet, if there is any.
 * @param {Example[]} tests
 * @param {string} name The test that is shown, which is left out.
 * @returns {string}
 */
export function chooseRandomTest(tests, name) {
  const short = tests.filter((it) => it.name !== name && it.text.trim().split("\n").length <= MAX_LINES);
  const others = short.filter(({ text }) => !results.has(text));
  const from = others.length ? others : short;
  return from[Math.floor(Math.random() * from.length)].name;
}
