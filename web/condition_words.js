// Writes the condition of a test in words: what the threads read, and the words of registers and memory at the end; of a condition with `\/` each
// alternative. A condition with more than `MAX_ATOMS` atoms is not put into words. Not proved.
//
// An `Atom` is a site, a word, and whether the condition denies that the site has the word. Conjuncts and phrases are those of phrases.js.

import { listConjuncts, readPhrases, sayPhrases, WAITS_END } from "./phrases.js";
import { formatSite, isTrueIn, listObservedSites, listSites, makeSiteKey } from "./propositions.js";
import { listVariables } from "./register_names.js";
import { parseReportLine } from "./replays.js";
import { readTest } from "./tests.js";
import { parseHeading } from "./tokens.js";

const MAX_ATOMS = 6;
// The kinds of statements that read a word from memory into a register, and those that put another word into one.
const READS = ["load", "xchg", "xadd", "swap", "fetchadd"];
const SETS = ["set", "add", "sum"];

/**
 * Reads a text as a test, with the `variables` that its registers have in the program from which it was made. Returns null if the page's own reader
 * does not read it.
 * @param {string} text
 * @returns {(Test & {variables: Map<string, string>}) | null}
 */
function readTestOrNull(text) {
  try {
    return { ...readTest(text), variables: listVariables(text) };
  } catch {
    return null;
  }
}

/**
 * Returns the alternatives of a proposition, each as its atoms; null if it has too many, or has true or false in it.
 * @param {Proposition} proposition
 * @param {boolean} [isDenied]
 * @returns {Atom[][] | null}
 */
export function listAlternatives({ kind, parts, site, word }, isDenied = false) {
  if (kind === "Eq") return [[{ site, word, isDenied }]];
  if (kind === "Not") return listAlternatives(parts[0], !isDenied);
  const [first, second] = parts.map((it) => listAlternatives(it, isDenied));
  if (!first || !second) return null;
  const isChoice = (kind === "Or") !== isDenied;
  const alternatives = isChoice ? [...first, ...second] : first.flatMap((it) => second.map((other) => [...it, ...other]));
  return alternatives.flat().length > MAX_ATOMS ? null : alternatives;
}

/**
 * Returns the read whose word a register has at the end of every run, with its position; or null.
 * @param {Test} test
 * @param {Site} site
 * @returns {Statement | null}
 */
function findRead(test, { thread, register }) {
  const code = test.threads[thread];
  if (code.some((it) => it.target !== undefined)) return null;
  const writes = code.flatMap((it, position) => (it.register === register && [...READS, ...SETS].includes(it.kind) ? [{ ...it, position }] : []));
  return writes.length === 1 && READS.includes(writes[0].kind) ? writes[0] : null;
}

/**
 * Returns the name that a register has in the program from which a test was made, unless a location has it, too; and otherwise the register's own.
 */
function findName(test, site) {
  const [name, variable] = [formatSite(test, site), test.variables.get(formatSite(test, site))];
  return variable === undefined || test.locations.includes(variable) ? name.slice(2) : variable;
}

/**
 * Returns what one thread does, in words: its reads in the order of its code, and the words that it ends with. A register that several of its atoms
 * name is no read, since it has one word only.
 * @param {Test} test
 * @param {Atom[]} atoms
 * @returns {string}
 */
function describeThread(test, atoms) {
  const isNamedOnce = ({ site }) => atoms.filter((it) => it.site.register === site.register).length === 1;
  const observations = atoms.map((it) => ({ ...it, read: isNamedOnce(it) ? findRead(test, it.site) : null }));
  const reads = observations.filter((it) => it.read).sort((first, second) => first.read.position - second.read.position);
  const others = observations.filter((it) => !it.read).map((it) => formatAtom(findName(test, it.site), it));
  const parts = [];
  if (reads.length) parts.push(`reads ${reads.map((it) => formatAtom(test.locations[it.read.location], it)).join(", then ")}`);
  if (others.length) parts.push(`ends with ${others.join(" and ")}`);
  return parts.join(" and ");
}

/**
 * Returns a phrase for each thread, and one for all threads that end with the same words.
 * @param {[number, string][]} said The threads, each with what it does.
 * @returns {string[]}
 */
function makeThreadPhrases(said) {
  return said.flatMap(([thread, words]) => {
    const same = said.filter(([, other]) => other === words && words.startsWith("ends")).map(([it]) => `P${it}`);
    if (same.length < 2) return [`P${thread} ${words}`];
    const all = `${same.slice(0, -1).join(", ")} and ${same.at(-1)} ${same.length > 2 ? "all" : "both"}`;
    return same[0] === `P${thread}` ? [`${all} ${words.replace("ends", "end")}`] : [];
  });
}

/**
 * Returns an atom as code, by the name of its site, or of the location that its read reads.
 * @param {string} name
 * @param {Atom} atom
 * @returns {string}
 */
function formatAtom(name, { word, isDenied }) {
  return `\`${name}${isDenied ? "≠" : "="}${word}\``;
}

/**
 * Returns one alternative of a condition in words.
 * @param {Test} test
 * @param {Atom[]} atoms
 * @returns {string}
 */
function describeAlternative(test, atoms) {
  const threads = test.threads.map((_, thread) => atoms.filter(({ site }) => site.thread === thread));
  const phrases = makeThreadPhrases(threads.flatMap((atomsOfThread, thread) => (atomsOfThread.length ? [[thread, describeThread(test, atomsOfThread)]] : [])));
  const words = atoms.filter(({ site }) => site.location !== undefined).map((it) => formatAtom(formatSite(test, it.site), it));
  if (words.length) phrases.push(`memory ends with ${words.join(" and ")}`);
  return phrases.join(phrases.length > 2 ? "; " : " and ");
}

/** Returns conjuncts in words, each alternative of them; "" if there are none, and null if they are not put into words. */
function describeConjuncts(test, conjuncts, isDenied = false) {
  if (!conjuncts.length) return "";
  const parts = conjuncts.map((it) => (it.isDenied ? { kind: "Not", parts: [it.proposition] } : it.proposition));
  const alternatives = listAlternatives(parts.reduce((one, other) => ({ kind: "And", parts: [one, other] })), isDenied);
  return alternatives && alternatives.map((it) => describeAlternative(test, it)).join(", or ");
}

/** Returns words that hold together, as one sentence has them. */
function joinWords(words) {
  return [words.slice(0, -1).join(", "), words.at(-1)].filter(Boolean).join(" and ");
}

/**
 * Returns the condition in `words`, in which code is between backquotes, with the words of the test's phrases in place of their propositions; and of
 * a condition that all runs are to have, in which every wait ends, this phrase as the `premise`, or else "", and what is so `otherwise`, or "". Null
 * if it is not put into words.
 * @param {string} text
 * @returns {{words: string, premise: string, otherwise: string} | null}
 */
export function describeCondition(text) {
  const test = readTestOrNull(text);
  if (!test) return null;
  const isRequired = test.quantifier === "forall";
  const phrases = readPhrases(text).filter((it) => !isRequired || it.words === WAITS_END);
  const { said, left } = sayPhrases(listConjuncts(test.proposition, isRequired), phrases);
  const words = describeConjuncts(test, left, isRequired);
  if (words === null || !(words || said.length)) return null;
  const all = joinWords([...said, words].filter(Boolean));
  if (!isRequired) return { words: all, premise: "", otherwise: "" };
  return { words: words || "false", premise: said.join(""), otherwise: describeConjuncts(test, left) ?? "" };
}

/**
 * Returns whether in the state of a report's line all loops that wait have ended, as a function; null if the test has no phrase on them.
 * @param {string} text
 * @returns {(function(string): boolean) | null}
 */
export function makeEndTest(text) {
  const { proposition } = readPhrases(text).find((it) => it.words === WAITS_END) ?? {};
  const test = proposition && readTestOrNull(text);
  const shown = new Set((test ? listObservedSites(test) : []).map(makeSiteKey));
  const isShown = proposition && listSites(proposition).every((it) => shown.has(makeSiteKey(it)));
  return isShown ? (line) => isTrueIn(proposition, parseOutcome(test, line)) : null;
}

/**
 * Returns a function that returns those of some states in which every wait has ended, as the phrase of an x86 test says, given a function that
 * returns a state's line; all of them if there is no phrase, or a wait has not ended in any of them. What is counted of a test's states is counted in
 * these.
 * @template State
 * @param {string} text
 * @returns {function(State[], function(State): string): State[]}
 */
export function makeEndedFilter(text) {
  const hasEnded = parseHeading(text).language === "X86" ? makeEndTest(text) : null;
  return (states, lineOf) => {
    const ended = hasEnded ? states.filter((it) => hasEnded(lineOf(it))) : [];
    return ended.length ? ended : states;
  };
}

/**
 * Returns a report of a test, or of a program with its code, with only the states in which every wait of the test has ended; all that is counted is
 * counted in it.
 * @param {string} text
 * @param {Report} report
 * @returns {Report}
 */
export function leaveOutWaiting(text, report) {
  const states = makeEndedFilter(text)(report.states, ({ line }) => line);
  const { length } = states;
  return length === report.states.length ? report : { ...report, states, number: length, positive: states.filter((it) => it.holds).length };
}

/**
 * Returns what a test's question is about: `isAsked` says of a state's line whether the condition asks about it, and every wait has ended in it; and
 * `words` has, by the names of sites, the words that it names there. The condition `isRequired` of all states, or not. In a text that is not read,
 * the question is about all states.
 * @param {string} text
 * @returns {{isAsked: function(string): boolean, words: Map<string, number[]>, isRequired: boolean}}
 */
export function parseQuestion(text) {
  const test = readTestOrNull(text);
  if (!test) return { isAsked: () => true, words: new Map(), isRequired: false };
  const isRequired = test.quantifier === "forall";
  const [words, hasEnded] = [new Map(), makeEndTest(text)];
  const collect = ({ kind, parts, site, word }) => {
    if (kind === "Eq") words.set(formatSite(test, site), [...(words.get(formatSite(test, site)) ?? []), word]);
    parts.forEach(collect);
  };
  collect(test.proposition);
  const isAsked = (line) => isTrueIn(test.proposition, parseOutcome(test, line)) !== isRequired && (!hasEnded || hasEnded(line));
  return { isAsked, words, isRequired };
}

/**
 * Returns the outcome with the words that a report's line has. What the line does not name is undefined in it.
 * @param {Test} test
 * @param {string} line
 * @returns {Outcome}
 */
function parseOutcome(test, line) {
  const outcome = { registers: test.threads.map(() => ({})), words: {} };
  const byName = new Map(parseReportLine(line));
  for (const [location, name] of test.locations.entries()) if (byName.has(name)) outcome.words[location] = byName.get(name);
  for (const site of listShownRegisters(test)) outcome.registers[site.thread][site.register] = byName.get(formatSite(test, site));
  return outcome;
}

/**
 * Returns the registers that a test's list or its proposition names.
 * @param {Test} test
 * @returns {Site[]}
 */
function listShownRegisters(test) {
  const sites = new Map();
  const add = (site) => site.location === undefined && sites.set(makeSiteKey(site), site);
  const collect = ({ kind, parts, site }) => {
    if (kind === "Eq") add(site);
    parts.forEach(collect);
  };
  test.listed.forEach(add);
  collect(test.proposition);
  return [...sites.values()];
}
