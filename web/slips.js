// Finds slips in a test that lw takes: a question about a site that no instruction writes, or for two words of one site at once, and a load of a
// location that no thread writes. They are hints of the page's own, beside lw's answers. Not proved.
//
// A `Slip` has its `words`, and the `change` of the text that the page proposes, or null.

import { listAlternatives } from "./condition_words.js";
import { el, makeButton, makePlainMark, renderSentence } from "./dom.js";
import { findNearest } from "./nearest.js";
import { formatSite, listSites, makeSiteKey, sortSites } from "./propositions.js";
import { readTest } from "./tests.js";
import { REGISTERS } from "./token_reader.js";
import { blankComments } from "./tokens.js";

const STORES = ["store", "xchg", "xadd", "swap", "fetchadd"];
const LOADS = ["load", "xchg", "xadd", "swap", "fetchadd"];
// The kinds of statements that put a word into their register.
const SETS = [...LOADS, "set", "add", "sum"];
const ADDRESS = /^r(?:[abcd]x|[sd]i|[sb]p|[89]|1[0-5])$/i;
// Names of registers of other widths, which are no misspelt locations.
const OTHER_WIDTH = /^(?:r?(?:[abcd]x|[sd]i|[sb]p)|r\d+[dwb]?|[abcd][hl]|[sd]il|[sb]pl)$/i;
const MAX_SHOWN = 3;

// The start of a text's question.
const QUESTION = /~?\s*\b(?:exists|forall)\b[^;]*$/;

/**
 * Returns a slip: its `words`, and the `change` that is proposed if there is a name that may be meant in place of a written one, in the question or
 * in the code; or null.
 */
function makeSlip(words, written, name, isInQuestion) {
  return name ? { words: `${words} Did you mean \`${name}\`?`, change: { written, name, isInQuestion } } : { words, change: null };
}

/**
 * Returns a text in which a name takes the place of a written one wherever that is in the question, or in the rest.
 * @param {string} text
 * @param {{written: string, name: string, isInQuestion: boolean}} change
 * @returns {string}
 */
export function applyChange(text, { written, name, isInQuestion }) {
  const index = text.search(QUESTION);
  // A register may be written in small letters.
  const pattern = new RegExp(`(?<![\\w:])${written.replace(":", "\\s*:\\s*")}\\b`, written.includes(":") ? "gi" : "g");
  const [rest, question] = [text.slice(0, index), text.slice(index)];
  return isInQuestion ? rest + question.replace(pattern, name) : rest.replace(pattern, name) + question;
}

/** Returns the slips in which the question asks for two words of one site at once. */
function findTwoWordSlips(test) {
  const claims = (listAlternatives(test.proposition) ?? []).map((atoms) => atoms.filter((it) => !it.isDenied));
  const isOther = (atom) => (it) => makeSiteKey(it.site) === makeSiteKey(atom.site) && it.word !== atom.word;
  const names = claims.flatMap((atoms) => atoms.filter((it) => atoms.some(isOther(it)))).map((it) => formatSite(test, it.site));
  return [...new Set(names)].map((name) => makeSlip(`The question asks for two words of \`${name}\` at once: no state has both.`, name, null, true));
}

/** Returns the indices of the registers that a thread's code writes. */
function listWrittenRegisters(code) {
  return [...new Set(code.filter((it) => SETS.includes(it.kind)).map((it) => it.register))];
}

/** Returns the slip that the question names a register that its thread does not write, in a list that is empty if the thread writes the register. */
function findRegisterSlips(test, site, askedSites) {
  const { thread, register } = site;
  const written = listWrittenRegisters(test.threads[thread]);
  if (written.includes(register)) return [];
  const names = REGISTERS[test.language];
  const free = written.filter((it) => !askedSites.some((other) => other.thread === thread && other.register === it));
  const isAsked = (other) => askedSites.some((it) => it.thread === other && it.register === register);
  const others = test.threads.flatMap((code, other) => (listWrittenRegisters(code).includes(register) && !isAsked(other) ? [other] : []));
  const ofOther = !free.length && others.length === 1 ? `${others[0]}:${names[register]}` : null;
  const proposed = free.length === 1 ? `${thread}:${names[free[0]]}` : ofOther;
  const word = test.registers[thread][register];
  const named = formatSite(test, site);
  const words = `The question names \`${named}\`, but nothing in P${thread} writes ${names[register]}: it is ${word} in every run.`;
  return [makeSlip(words, named, proposed, true)];
}

/** Returns the slips that a location has the name of a register of 64 bits, as one in brackets that is meant as an address. */
function findAddressSlips(test) {
  const names = test.language === "X86" ? test.locations.filter((it) => ADDRESS.test(it)) : [];
  return names.map((it) => makeSlip(`\`[${it}]\` is read as a location of the name ${it}: lw has no addresses in registers.`, it, null, false));
}

/** Returns the slips that a number begins with 0, as one of base 8 in other languages. */
function findZeroSlips(text) {
  const numbers = blankComments(text.slice(text.indexOf("{"))).match(/(?<![\w.])0\d+\b/g) ?? [];
  return [...new Set(numbers)].map((it) => makeSlip(`\`${it}\` is ${Number(it)}: lw has no base 8.`, it, null, false));
}

/** Returns the slips on locations that no thread writes: the question names one, or a thread loads one to which the text gives no word. */
function findLocationSlips(test, text, askedSites) {
  const code = test.threads.flat();
  const isAccessedBy = (kinds) => (_, location) => code.some((it) => kinds.includes(it.kind) && it.location === location);
  const stored = test.locations.filter(isAccessedBy(STORES));
  const block = /\{[^}]*/.exec(blankComments(text))[0];
  return test.locations.flatMap((name, location) => {
    if (stored.includes(name)) return [];
    const isInQuestion = askedSites.some((it) => it.location === location);
    const hasInitialWord = new RegExp(`\\b${name}\\b`).test(block);
    const isLoadOfNothing = !hasInitialWord && isAccessedBy(LOADS)(name, location);
    if (!isInQuestion && !isLoadOfNothing) return [];
    const begin = isInQuestion ? `The question names \`${name}\`` : `A thread loads \`${name}\``;
    const words = `${begin}, but no thread writes ${name}: it is ${test.words[location]} in every run.`;
    const names = OTHER_WIDTH.test(name) ? [] : stored.filter((it) => !OTHER_WIDTH.test(it));
    const namesake = names.find((it) => it.toLowerCase() === name.toLowerCase()) ?? null;
    return [makeSlip(words, name, namesake ?? findNearest(name, names), isInQuestion)];
  });
}

/**
 * Returns the slips in a text, in whose words code is between backquotes; none of a text that the page's own reader refuses.
 * @param {string} text
 * @returns {Slip[]}
 */
export function findSlips(text) {
  let test;
  try {
    test = readTest(text);
  } catch {
    return [];
  }
  const askedSites = sortSites(listSites(test.proposition));
  const registers = askedSites.filter((it) => it.location === undefined);
  const ofRegisters = registers.flatMap((site) => findRegisterSlips(test, site, askedSites));
  return [...findAddressSlips(test), ...findZeroSlips(text), ...findTwoWordSlips(test), ...ofRegisters, ...findLocationSlips(test, text, askedSites)];
}

/**
 * Returns the elements on the slips in a text. `mend` is called with a text that a reader wants in its place.
 * @param {string} text
 * @param {function(string): void} mend
 * @returns {Element[]}
 */
export function makeSlipNotes(text, mend) {
  const slips = findSlips(text).slice(0, MAX_SHOWN);
  return slips.map(({ words, change }) => {
    const apply = change && makeButton(`Change it to ${change.name}`, () => mend(applyChange(text, change)), { class: "apply" });
    return el("p", { class: "slip" }, el("b", {}, "A hint of the page: "), renderSentence(words), " ", makePlainMark(), " ", apply);
  });
}
