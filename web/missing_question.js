// Proposes a question for a test that ends after its rows. Not proved.

import { makeChange } from "./change.js";
import { guessProposition } from "./guess_question.js";
import { rewriteWhole } from "./notation.js";
import { isRead } from "./other_tools.js";
import { readTest } from "./tests.js";
import { REGISTERS } from "./token_reader.js";
import { blankComments } from "./tokens.js";

const LOADS = ["load", "xchg", "xadd", "swap", "fetchadd"];
// The shortest question.
const SHORTEST = "exists (true)\n";

/** Returns a guessed question, with a list of the registers that it does not name and that threads load; of all locations, if they load none. */
function guessQuestion({ threads, language, locations }) {
  const makeLoad = (it, thread) => ({ site: `${thread}:${REGISTERS[language][it.register]}`, location: it.location });
  const loads = threads.map((code, thread) => code.filter((it) => LOADS.includes(it.kind)).map((it) => makeLoad(it, thread)));
  const proposition = threads.flat().some((it) => it.target !== undefined) ? "true" : guessProposition(loads);
  const sites = loads.flat().map((it) => it.site);
  const listed = new Set(sites.length ? sites.filter((it) => !proposition.includes(it)) : locations);
  const list = listed.size ? `locations [${[...listed].map((it) => `${it};`).join(" ")}]\n` : "";
  return `${list}exists (${proposition})\n`;
}

/**
 * Returns a sentence that says that a test has no question, and proposes one; or "" if that is not so.
 * @param {FaultPlace} place
 * @returns {string}
 */
export function explainMissingQuestion(place) {
  const { text } = place;
  const end = blankComments(text).trimEnd().length;
  const rows = text.slice(0, end);
  const candidates = [rows, `${rows} ;`].map((it) => rewriteWhole(`${it}\n${SHORTEST}`));
  const found = candidates.find((it) => isRead(it.text));
  if (!found) return "";
  const question = guessQuestion(readTest(found.text));
  const { begin, end: to, text: put } = makeChange(text, found.text.replace(SHORTEST, () => question));
  place.proposeChange(put, begin, to);
  place.change.title = "Put in a question";
  place.change.done = "Rewritten.";
  const words = `The test has no question at its end. ${/true/.test(question) ? "" : "The one of the button is a guess: change it to yours. "}`;
  return `${words}${found.words}`.trim();
}
