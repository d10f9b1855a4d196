// The proposition of a test: the sites that it names, whether it is true in an outcome, and its text. Not proved.
//
// An `Outcome` has the `registers` of all threads and the `words` of the locations, as far as they are known.
//
// A `Proposition` has a `kind`: Eq (a site has a word), Not, And, Or, True or False, as in tools/interpreter/tests.py. Its `parts` are the
// propositions of which it consists. An Eq has a `site` and a `word`, and no parts.
//
// A `Site` is a register, with its `thread` and the index `register`, or a location, with the index `location`.

import { REGISTERS } from "./token_reader.js";

/**
 * Returns a key that differs for different sites.
 * @param {Site} site
 * @returns {string}
 */
export function makeSiteKey(site) {
  return site.location === undefined ? `${site.thread}:${site.register}` : `[${site.location}]`;
}

/**
 * Returns the sites that a proposition names, with duplicates.
 * @param {Proposition} proposition
 * @returns {Site[]}
 */
export function listSites(proposition) {
  return proposition.kind === "Eq" ? [proposition.site] : proposition.parts.flatMap(listSites);
}

/**
 * Returns the number of nodes of a proposition: its atoms and connectives.
 * @param {Proposition} proposition
 * @returns {number}
 */
export function countNodes(proposition) {
  return proposition.parts.reduce((sum, part) => sum + countNodes(part), 1);
}

/**
 * Returns sites sorted, without duplicates: registers by thread and index, then locations.
 * @param {Site[]} sites
 * @returns {Site[]}
 */
export function sortSites(sites) {
  const makeSortKey = (site) => (site.location === undefined ? site.thread * 6 + site.register : 1000 + site.location);
  return [...new Map(sites.map((it) => [makeSiteKey(it), it])).values()].sort((a, b) => makeSortKey(a) - makeSortKey(b));
}

/**
 * Returns the sites that a report shows, in its order.
 * @param {Test} test
 * @returns {Site[]}
 */
export function listObservedSites(test) {
  return sortSites([...test.listed, ...listSites(test.proposition)]);
}

/**
 * Returns the word of a site in an outcome.
 * @param {Site} site
 * @param {Outcome} outcome
 * @returns {number | undefined}
 */
export function readWord(site, outcome) {
  return site.location === undefined ? outcome.registers[site.thread][site.register] : outcome.words[site.location];
}

/**
 * Returns whether a proposition is true in an outcome.
 * @param {Proposition} proposition
 * @param {Outcome} outcome
 * @returns {boolean}
 */
export function isTrueIn({ kind, parts, site, word }, outcome) {
  if (kind === "Eq") return readWord(site, outcome) === word;
  if (kind === "And") return isTrueIn(parts[0], outcome) && isTrueIn(parts[1], outcome);
  if (kind === "Or") return isTrueIn(parts[0], outcome) || isTrueIn(parts[1], outcome);
  return kind === "Not" ? !isTrueIn(parts[0], outcome) : kind === "True";
}

/**
 * Returns a site as it is written.
 * @param {Test} test
 * @param {Site} site
 * @returns {string}
 */
export function formatSite(test, site) {
  return site.location === undefined ? `${site.thread}:${REGISTERS[test.language][site.register]}` : test.locations[site.location];
}

/**
 * Returns a proposition with only the parentheses that reading needs.
 * @param {Test} test
 * @param {Proposition} proposition
 * @returns {string}
 */
function formatProposition(test, { kind, parts, site, word }) {
  const formatPart = (inner, kinds) => {
    const text = formatProposition(test, inner);
    return kinds.includes(inner.kind) ? `(${text})` : text;
  };
  if (kind === "Eq") return `${formatSite(test, site)}=${word}`;
  if (kind === "Not") return `~${formatPart(parts[0], ["And", "Or"])}`;
  if (kind === "And") return `${formatPart(parts[0], ["Or"])} /\\ ${formatPart(parts[1], ["And", "Or"])}`;
  if (kind === "Or") return `${formatPart(parts[0], [])} \\/ ${formatPart(parts[1], ["Or"])}`;
  return kind === "True" ? "true" : "false";
}

/**
 * Returns the condition of a test: its quantifier and its proposition.
 * @param {Test} test
 * @returns {string}
 */
export function formatCondition(test) {
  return `${test.quantifier} (${formatProposition(test, test.proposition)})`;
}
