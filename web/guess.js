// Says whether the reader still has to predict the answer on a test: a reader who has asked to predict first sees no answer before that. An
// answer that is asked for meanwhile waits until the guess is made and answered, or until the reader does not want to predict any more.

import { describeCondition } from "./condition_words.js";
import { el, findById, makeButton } from "./dom.js";
import { parseProposition } from "./reports.js";
import { findTints, renderCode, renderTestName, renderTintedSentence } from "./tint.js";

const KEY = "guesses";
const KEY_OF_ANSWERED = "answered";
const FIRST = "First say above what you expect.";
const OPEN = "Your prediction is still open: find the states by hand, or show the answer above.";

// For each text what the reader has said of it: yes, no, null for nothing, or undefined if there was nothing to say, since lw refuses it. What
// was said is kept in the tab, so that it is not asked again.
const guesses = new Map(readStored(KEY));
// The texts of which the answer was shown after a guess: it is not kept back any more.
const answered = new Set(readStored(KEY_OF_ANSWERED));
// The text that the reader made by hand from one with a guess: there is no second guess on it.
let edited = null;
// The panels that wait for guesses, or until their answers are shown: each with its text, what it shows meanwhile, and what it does then.
let pending = [];

/**
 * Returns whether a guess on a text is awaited.
 * @param {string} text
 * @returns {boolean}
 */
export function isAwaited(text) {
  return findById("predict").checked && !guesses.has(text) && text !== edited;
}

/**
 * Returns the prediction of the reader, who wants to predict, on a text, or null.
 * @param {string} text
 * @returns {boolean | null}
 */
export function findGuess(text) {
  return findById("predict").checked ? (guesses.get(text) ?? null) : null;
}

/**
 * Keeps what the reader expects of a text: null for nothing, and undefined if nothing can be expected of it, since lw refuses it.
 * @param {string} text
 * @param {boolean | null} [guess]
 */
export function settle(text, guess) {
  guesses.set(text, guess);
  store();
  follow();
}

/**
 * Returns whether the reader, who wants to predict, was asked about a text before.
 * @param {string} text
 * @returns {boolean}
 */
export function wasAsked(text) {
  return findById("predict").checked && guesses.get(text) !== undefined;
}

/**
 * Forgets what was said of a text, or of all texts: it is asked again.
 * @param {string | null} [text]
 */
export function forgetGuess(text = null) {
  for (const it of text === null ? [...guesses.keys()] : [text]) {
    guesses.delete(it);
    answered.delete(it);
  }
  edited = null;
  store();
}

/**
 * Returns whether the answer to the guess on a text was shown.
 * @param {string} text
 * @returns {boolean}
 */
export function isAnswered(text) {
  return findGuess(text) !== null && answered.has(text);
}

/**
 * Returns whether there is a guess on a text whose answer was not shown.
 * @param {string} text
 * @returns {boolean}
 */
export function isOpen(text) {
  return findGuess(text) !== null && !answered.has(text);
}

/**
 * Records that the answer on a text is shown: it counts if there was a guess.
 * @param {string} text
 */
export function noteAnswer(text) {
  if (findGuess(text) === null) return;
  answered.add(text);
  store();
  follow();
}

/**
 * Returns the list that is stored under a key; an empty one if there is none.
 * @param {string} key
 * @returns {object[]}
 */
function readStored(key) {
  try {
    return JSON.parse(sessionStorage.getItem(key)) ?? [];
  } catch {
    return [];
  }
}

/** Stores the guesses, for when the page is loaded anew. */
function store() {
  try {
    sessionStorage.setItem(KEY, JSON.stringify([...guesses].filter(([, guess]) => guess !== undefined)));
    sessionStorage.setItem(KEY_OF_ANSWERED, JSON.stringify([...answered]));
  } catch {
    // Without a store it is kept till the page is loaded anew.
  }
}

/**
 * Takes note that the reader has changed a text by hand.
 * @param {string} before
 * @param {string} after
 */
export function noteChange(before, after) {
  edited = guesses.get(before) !== undefined || before === edited ? after : null;
}

/** Does what has waited for a guess or its answer, once none is waited for. What is not shown any more is forgotten. */
export function follow() {
  const visible = pending.filter((it) => it.shown.isConnected);
  pending = visible.filter((it) => isAwaited(it.text) || (it.isUntilAnswered && isOpen(it.text)));
  for (const it of pending) if (it.isUntilAnswered) it.shown.textContent = isOpen(it.text) ? OPEN : FIRST;
  for (const it of visible) if (!pending.includes(it)) it.show();
}

/**
 * Shows a notice in a place till there is a guess on a text, or till its answer is shown, and does then what waits for it.
 * @param {string} text
 * @param {Element} place
 * @param {Element} notice
 * @param {function(): void} show
 * @param {boolean} [isUntilAnswered]
 */
export function wait(text, place, notice, show, isUntilAnswered = false) {
  place.replaceChildren(notice);
  pending.push({ text, shown: notice, show, isUntilAnswered });
}

/**
 * Returns the question on a text, in words if the page has some, and below it the condition as the test has it.
 * @param {string} text
 * @param {{report: Report, words: object}} answer
 * @returns {Element[]}
 */
export function makeQuestionParts(text, { report, words }) {
  const tints = findTints(text);
  const { words: condition = null, premise = "" } = describeCondition(text) ?? {};
  const inWords = condition && `${premise && `if ${premise}, `}${condition}`;
  const formula = el("code", {}, renderCode(parseProposition(report), tints, null));
  const sign = el("span", { class: "sign", "aria-hidden": "true" }, "?");
  const asked = el("span", {}, el("strong", {}, `${words.question}:`), " ", inWords ? renderTintedSentence(inWords, tints) : formula, "?");
  return [el("p", { class: "verdict" }, sign, asked), el("p", { class: "asked" }, renderTestName(text), inWords ? formula : "")];
}

/**
 * Asks in a place what the reader expects of a text, given the answer that has its list; `id` makes the ids of the choices.
 * @param {string} text
 * @param {Element} place
 * @param {{report: Report, words: object}} answer
 * @param {function(string): string} id
 * @param {function(): void} show
 */
export function askForGuess(text, place, answer, id, show) {
  const settleAs = (guess) => () => {
    settle(text, guess);
    if (document.activeElement === document.body) place.focus();
  };
  const makeChoice = (title, guess, name) => makeButton(title, settleAs(guess), { id: id(name) });
  const yes = makeChoice("Yes", true, "yes");
  const choices = el("p", { class: "row" }, yes, makeChoice("No", false, "no"), makeChoice("Just show it", null, "just-show"));
  place.tabIndex = -1;
  wait(text, place, el("div", { class: "predict" }, makeQuestionParts(text, answer), choices), show);
  yes.focus();
}

/**
 * Returns whether nothing may be shown of a text yet: a guess is awaited, or its answer was not shown.
 * @param {string} text
 * @returns {boolean}
 */
export function isLocked(text) {
  return isAwaited(text) || isOpen(text);
}

/**
 * Shows in a panel's place what is asked for, once the reader has said what to expect of the test and was shown the answer. Returns what `show` returns,
 * if nothing is waited for.
 * @param {Editor} editor
 * @param {Element} place
 * @param {function(): unknown} show
 * @returns {unknown}
 */
export function unlock({ text }, place, show) {
  if (!isLocked(text)) return show();
  return wait(text, place, el("p", {}, isOpen(text) ? OPEN : FIRST), show, true);
}
