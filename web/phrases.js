// The phrases of a test: a comment as `(* every wait ends: 0:EAX=0 /\ 1:EAX=0 *)` says in words what a proposition means. The verdict has these words if
// the condition has the proposition, and the list leaves out the states in which a wait has not ended. Not proved.
//
// A `Conjunct` is a proposition that is no conjunction, and whether it is denied.

import { makeSiteKey } from "./propositions.js";
import { readTest } from "./tests.js";

/** The words of the proposition that all loops which wait have ended. */
export const WAITS_END = "every wait ends";
// A comment with a phrase: the groups are its words and its proposition. And what one of its words is after the first: a verb.
const PHRASE = /\(\*\s*([a-z][\w ,'-]*):([^*;]*=[^*;]*)\*\)/g;
const VERB = /\w (?:is|are|has|have|ends?|enters?|reads?|sees?|gets?|holds?|fails?|loses?|wins?|waits?|writes?|meets?) ?/;
// The begin of a question.
const QUANTIFIER = /^[ \t]*(?:~[ \t]*exists|exists|forall)\b/gm;

/**
 * Returns the conjuncts of a proposition, or of its negation, in their order.
 * @param {Proposition} proposition
 * @param {boolean} [isDenied]
 * @returns {Conjunct[]}
 */
export function listConjuncts(proposition, isDenied = false) {
  const { kind, parts } = proposition;
  if (kind === "Not") return listConjuncts(parts[0], !isDenied);
  return kind === (isDenied ? "Or" : "And") ? parts.flatMap((it) => listConjuncts(it, isDenied)) : [{ proposition, isDenied }];
}

/** Returns a text that differs for conjuncts that differ in more than their parentheses. */
function makeKey({ proposition: { kind, parts, site, word }, isDenied }) {
  if (kind === "Eq") return `${isDenied ? "~" : ""}${makeSiteKey(site)}=${word}`;
  if (kind === "Not") return makeKey({ proposition: parts[0], isDenied: !isDenied });
  return `(${[(kind === "And") === !isDenied, ...parts.map((it) => makeKey({ proposition: it, isDenied }))].join(" ")})`;
}

/** Returns the proposition of a code on the sites of a test; null if it is none, or if the test has no question on lines of its own. */
function readProposition(text, code) {
  const quantifier = [...text.matchAll(QUANTIFIER)].at(-1);
  if (!quantifier) return null;
  const [begin, end] = [quantifier.index, quantifier.index + quantifier[0].length];
  try {
    // After the question's own proposition the locations have the numbers that they have in the test.
    return readTest(`${text.slice(0, begin)}exists (${text.slice(end)}) /\\ (${code})`).proposition.parts[1];
  } catch {
    return null;
  }
}

/**
 * Returns the phrases of a test, each with its `words` and its `proposition`.
 * @param {string} text
 * @returns {{words: string, proposition: Proposition}[]}
 */
export function readPhrases(text) {
  return [...text.matchAll(PHRASE)].flatMap(([, words, code]) => {
    const proposition = VERB.test(`${words} `) ? readProposition(text, code) : null;
    return proposition ? [{ words, proposition }] : [];
  });
}

/**
 * Returns the words of the phrases whose propositions conjuncts have, and the conjuncts that are left.
 * @param {Conjunct[]} conjuncts
 * @param {{words: string, proposition: Proposition}[]} phrases
 * @returns {{said: string[], left: Conjunct[]}}
 */
export function sayPhrases(conjuncts, phrases) {
  const said = [];
  let left = conjuncts;
  for (const { words, proposition } of phrases) {
    const keys = listConjuncts(proposition).map(makeKey);
    if (!keys.every((key) => left.some((it) => makeKey(it) === key))) continue;
    said.push(words);
    left = left.filter((it) => !keys.includes(makeKey(it)));
  }
  return { said, left };
}
