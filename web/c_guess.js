// Guesses what a program in C that asks nothing is about, and lists the sites that a question leaves out. Not proved.
//
// A `ThreadWriter` is that of c_thread.js, with the accesses of its thread.

import { formatFormula, negateFormula } from "./c_question.js";
import { guessProposition } from "./guess_question.js";
import { WORD } from "./token_reader.js";

/**
 * Returns the branches that a thread enters by its only `if`: the statements of this, or those of its `else` or those that follow it if it returns, if only
 * they access shared variables, or add to one. Those of a thread with several are around all its additions, and say of each `return` before these that it
 * is not taken. Null if it has no such branches.
 * @param {ThreadWriter} writer
 * @returns {object[] | null}
 */
export function findEntry({ entered, accesses }) {
  const isIn = (it, branches) => it.around?.at(-1) === branches.at(-1);
  const isWhole = ({ around, exitCount }) => around.filter((it) => it.isLeft).length === exitCount;
  const added = accesses.filter((it) => !it.isSure && it.isWrite && it.added !== null);
  if (entered.length > 1) return added.some((it) => it.around.length) && added.every((it) => isIn(it, added[0].around) && isWhole(it)) ? added[0].around : null;
  const [branches = []] = entered;
  const accessing = branches.filter((it) => accesses.some((access) => isIn(access, it)));
  const adding = branches.filter((it) => added.some((access) => isIn(access, it)));
  return [branches, accessing, adding].find((it) => it.length === 1)?.[0] ?? null;
}

/**
 * Returns the branches around each copy of what a thread does if one of several conditions holds that `||` joins, if that is its only `if`, and each copy
 * adds the same; null otherwise.
 * @param {ThreadWriter} writer
 * @returns {object[][] | null}
 */
export function findEither({ entered, accesses }) {
  const copies = entered.map(([branches]) => branches);
  const [{ index } = {}] = copies[0] ?? [];
  const isOne = copies.length > 1 && entered.flat(2).every((it) => it.index === index);
  const listAdded = (branches) => accesses.filter((it) => it.around?.at(-1) === branches.at(-1)).map((it) => `${it.name} ${it.isWrite} ${it.added}`);
  const [first, ...others] = copies.map((it) => listAdded(it).join());
  const isAdding = isOne && accesses.some((it) => it.added !== null && it.around?.at(-1) === copies[0].at(-1));
  return isAdding && others.every((it) => it === first) ? copies : null;
}

/** Returns the accesses of threads, without those of further copies of what they do if one of several conditions holds. */
function listOnce(writers) {
  return writers.flatMap((writer) => {
    const copies = findEither(writer)?.slice(1).map((it) => it.at(-1)) ?? [];
    return writer.accesses.filter((it) => !copies.includes(it.around?.at(-1)));
  });
}

/**
 * Returns whether a guessed question may ask whether all threads enter a branch: each of several has one, and waits for nothing; and if one takes back
 * what keeps others out, or has several branches, they add to a location there.
 * @param {Program} program
 * @param {ThreadWriter[]} writers
 * @returns {boolean}
 */
export function areEntering(program, writers) {
  if (writers.length < 2 || !writers.every((it) => (findEntry(it) ?? findEither(it)) && !it.waits.length)) return false;
  const accesses = listOnce(writers);
  const isOfAdditions = isTakenBack(accesses) || writers.some((it) => it.entered.length > 1);
  return !isOfAdditions || listLostAdditions(program, accesses, false).length === 1;
}

/** Returns whether a thread stores in a branch, or once more, what another one loads outside of branches. */
function isTakenBack(accesses) {
  const writes = accesses.filter((it) => it.isWrite);
  const isAgain = (it) => writes.some((other) => other !== it && other.thread === it.thread && other.name === it.name);
  const isLoaded = (it) => accesses.some((other) => other.isRead && other.isSure && other.name === it.name && other.thread !== it.thread);
  return writes.some((it) => (!it.isSure || isAgain(it)) && isLoaded(it));
}

/**
 * Returns the phrases that all threads enter the only branch that they have, and lose an addition in it if a thread takes back what keeps others out; none
 * if that is not all that they do, or if a condition has no register that still has its word at the end.
 */
function sayEntered(program, writers) {
  if (!areEntering(program, writers)) return [];
  const accesses = listOnce(writers);
  const parts = writers.flatMap((writer) => findEntry(writer)?.map((it) => makeEntered(writer, it)) ?? [makeEither(writer)]);
  if (parts.includes(null)) return [];
  const places = new Set(writers.map((it) => it.entries.length ? "loop" : "if"));
  const place = [...places].sort().join(" or ");
  const isPast = writers.some((it) => findEntry(it)?.some((branch) => branch.isNegated));
  const tries = places.has("loop") ? " at the first try" : "";
  const words = `${writers.length === 2 ? "both" : "all"} threads ${isPast ? "get past" : "enter"} their ${place}${tries}`;
  return [{ words, formula: { sign: "/\\", parts } }, ...sayLost(isTakenBack(accesses) ? listLostAdditions(program, accesses, false) : [])];
}

/** Returns the formula that says of final states whether a thread has entered a branch; null if no words of registers say it. */
function makeEntered(writer, { whole, isNegated, settingCounts }) {
  const isUnknown = ({ variable, word }, at) => variable === null || word === null || writer.countSettings(variable) !== settingCounts[at];
  if (whole.some(isUnknown)) return null;
  const parts = whole.map(({ variable, word, isEqual }) => ({ name: writer.makeSite(variable), word, isEqual }));
  const formula = parts.length > 1 ? { sign: "/\\", parts } : parts[0];
  return isNegated ? negateFormula(formula) : formula;
}

/** Returns the formula that says of final states whether a thread has entered one of the copies of a branch; null if no words of registers say it. */
function makeEither(writer) {
  const copies = findEither(writer).map((branches) => branches.map((it) => makeEntered(writer, it)));
  if (copies.flat().includes(null)) return null;
  return { sign: "\\/", parts: copies.map((it) => (it.length > 1 ? { sign: "/\\", parts: it } : it[0])) };
}

/** Returns the phrase of formulas of lost additions, of which one holds; none if there are no formulas. */
function sayLost(lost) {
  const names = lost.map((it) => it.name).join(" or ");
  return lost.length ? [{ words: `an addition to ${names} is lost`, formula: lost.length === 1 ? lost[0] : { sign: "\\/", parts: lost } }] : [];
}

/**
 * Returns the formulas of lost additions: of each location that several threads only add constants to, some of them by a load and a store, and that has
 * another word than their sum.
 */
function listLostAdditions({ words }, accesses, isSure = true) {
  return [...new Set(accesses.filter((it) => it.added !== null).map((it) => it.name))].flatMap((name) => {
    const writes = accesses.filter((it) => it.isWrite && it.name === name);
    const isOfThreads = new Set(writes.map((it) => it.thread)).size > 1 && writes.some((it) => !it.isLocked);
    if (!isOfThreads || !writes.every((it) => it.isSure === isSure && it.added !== null)) return [];
    const word = writes.reduce((all, it) => (all + it.added) % WORD, words.get(name));
    return [{ name, word, isEqual: false }];
  });
}

/**
 * Returns a question for a test that has none: whether an addition can be lost, if a load and a store make one; or whether all threads can enter their
 * branches at once; and otherwise whether all variables that threads loaded last can have their first words, if these loads are reached, and if what a
 * thread loaded before has another one. Or can a thread find a location not yet set that a lock is for? It is `true` if a thread loads otherwise, or
 * none loads. The question of a defect has `phrases`, which say what it is.
 * @param {Program} program
 * @param {ThreadWriter[]} writers
 * @param {object[]} accesses
 * @returns {{question: string, phrases: {words: string, formula: Formula}[]}}
 */
export function guessQuestion(program, writers, accesses) {
  const lost = sayLost(listLostAdditions(program, accesses));
  const entered = lost.length ? lost : sayEntered(program, writers);
  const phrases = entered.length ? entered : sayUnset(program, writers, accesses);
  if (!phrases.length) return { question: guessFirstWords(program, writers), phrases };
  return { question: `~exists (${formatFormula({ sign: "/\\", parts: phrases.map((it) => it.formula) })})`, phrases };
}

/**
 * Returns the phrase that a thread finds a location not yet set, if all threads take a lock, set it in a branch to one constant, and load it last: as
 * double-checked locking does. None if that is not what they do.
 */
function sayUnset({ words }, writers, accesses) {
  const name = writers[0].loads.at(-1)?.location;
  const written = accesses.filter((it) => it.isWrite && it.name === name);
  const [first] = written;
  const isOnce = ({ isSure, word }) => !isSure && word !== null && word === first.word && word !== words.get(name);
  if (writers.length < 2 || !first || !written.every(isOnce)) return [];
  const isSetting = (writer) => {
    const { variable, location } = writer.loads.at(-1) ?? {};
    const [, register] = location === name ? writer.makeSite(variable).split(":") : [];
    const last = writer.instructions.findLast((it) => new RegExp(`(?:MOV|ADD) ${register},|(?:XCHG|XADD) \\[\\w+\\],${register}$`).test(it));
    const isLast = last?.endsWith(`MOV ${register},[${name}]`) && writer.accesses.findLast((it) => it.name === name && it.isRead)?.isSure;
    return isLast && writer.waits.length > 0 && written.some((it) => it.thread === writer.number);
  };
  if (!writers.every(isSetting)) return [];
  const parts = writers.map((it) => ({ name: it.makeSite(it.loads.at(-1).variable), word: words.get(name), isEqual: true }));
  return [{ words: `a thread finds ${name} not yet set`, formula: { sign: "\\/", parts } }];
}

/** Returns the question whether variables that threads loaded last can have their first words, as `guessQuestion` says. */
function guessFirstWords(program, writers) {
  if (!writers.some((it) => it.loadedBranches.length)) {
    const loads = writers.map((writer) => {
      const awaited = writer.waits.flatMap(listNames);
      const sites = writer.loads.map(({ variable, location }) => ({ site: writer.makeSite(variable), location, word: program.words.get(location) }));
      return sites.filter(({ site }) => !awaited.includes(site));
    });
    const loading = writers.filter((it) => it.loaded);
    return `exists (${loading.every((it) => isAskedOf(it) && !it.hasBranch) ? guessProposition(loads) : "true"})`;
  }
  const asked = writers.filter(isAskedOf).flatMap((writer) => {
    const branches = writer.loadedBranches.flatMap((it) => it.comparisons);
    const atoms = [...branches, { variable: writer.loaded, word: 0, isEqual: true }];
    return atoms.map(({ variable, word, isEqual }) => formatFormula({ name: writer.makeSite(variable), word, isEqual }));
  });
  return `exists (${[...new Set(asked)].join(" /\\ ") || "true"})`;
}

/** Returns the names in a formula. */
function listNames({ parts, name }) {
  return parts ? parts.flatMap(listNames) : [name];
}

/**
 * Returns whether a question can ask of the variable that a thread loaded last: it has a value, or it is known in which states it has one, since variables
 * of the conditions around the load are not set again.
 */
function isAskedOf(writer) {
  const { loaded, known, loadedBranches } = writer;
  const comparisons = loadedBranches.flatMap((it) => it.comparisons);
  const isSetAgain = ({ variable }, count) => variable !== null && writer.countSettings(variable) !== count;
  if (loadedBranches.some(({ whole, settingCounts }) => whole.some((it, at) => isSetAgain(it, settingCounts[at])))) return false;
  if (comparisons.some(({ variable, word }) => variable === null || word === null)) return false;
  return comparisons.length > 0 || known.has(loaded);
}

/**
 * Returns the names of locations whose last word says what a run did, and that no question names: those that two threads write, and those that are
 * written and not read.
 */
function listWritten(accesses, question) {
  const isListed = (name) => {
    const all = accesses.filter((it) => it.name === name && !it.isMutex);
    const writers = new Set(all.filter((it) => it.isWrite).map((it) => it.thread));
    return writers.size > 1 || (writers.size === 1 && !all.some((it) => it.isRead));
  };
  return [...new Set(accesses.map((it) => it.name))].filter((it) => isListed(it) && !new RegExp(`\\b${it}\\b`).test(question));
}

/**
 * Returns the list of sites that a question does not name, as the line before it; "" if there is none. If the question is a guess, these are also
 * registers, and all locations if no thread only loads, or if there would be none.
 * @param {string} question
 * @param {boolean} isGuess
 * @param {object[]} accesses
 * @param {string[]} sites
 * @returns {string}
 */
export function formatList(question, isGuess, accesses, sites) {
  if (question.startsWith("locations")) return "";
  const registers = isGuess ? sites.filter((it) => !question.includes(it)) : [];
  const isOpen = isGuess && question.endsWith("(true)");
  const written = [...registers, ...listWritten(accesses, question)];
  const isOfStores = isOpen && (!written.length || !accesses.some((it) => it.isRead && !it.isWrite));
  const listed = isOfStores ? [...registers, ...new Set(accesses.map((it) => it.name))] : written;
  return listed.length ? `locations [${listed.join("; ")}]\n` : "";
}
