// A list that is refused because its test has too many orders is made by a search of the machine's states instead. Both ways are proved.

import { ask } from "./ask.js";
import { el, makeButton } from "./dom.js";

const TITLE = "List the states by a proved search of the machine's states, which counts no orders";
// The most milliseconds of a search that nobody has asked for.
const MAX_MILLISECONDS = 5000;

/**
 * Returns whether an answer says that a list is refused for its number of orders.
 * @param {object} answer
 * @returns {boolean}
 */
export function isTooLong(answer) {
  return answer.fault?.kind === "limit";
}

/**
 * Makes the button that searches.
 * @param {function(): void} search
 * @param {string} id
 * @returns {Element}
 */
export function makeSearchOffer(search, id) {
  return el("p", { class: "row" }, makeButton("Search instead", search, { id, class: "main", title: TITLE }));
}

/**
 * Returns the answer of `ask`. If it would be refused for the number of orders, it is the answer by a search, which has `isSearched`, unless that takes
 * too long.
 * @param {Editor} editor
 * @param {string} question
 * @param {object} fields
 * @param {object} how
 * @returns {Promise<object | null>}
 */
export async function askOrSearch(editor, question, fields, how) {
  const answer = await ask(editor, question, fields, how);
  if (fields.search || !answer || !isTooLong(answer)) return answer && { ...answer, isSearched: fields.search };
  const found = await ask(editor, question, { ...fields, search: true }, { ...how, timeout: MAX_MILLISECONDS });
  return found && (found.fault || found.error ? answer : { ...found, isSearched: true });
}
