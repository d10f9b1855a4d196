// Finds which words of variables are known to the threads of a program in C: they are written till no thread breaks what another one assumes. Not
// proved.
//
// A `Program` is that of c_reader.js.

import { replaceNames } from "./c_code.js";
import { hasNamedIndex } from "./c_known.js";
import { OF_CONDITIONS, OF_LOOPS } from "./c_statements.js";
import { findAllWords } from "./c_words.js";

// How many words a variable may have that is compared by a relation, and how often threads are written.
const MOST_LISTED = 8;
const MOST_ROUNDS = 20;

/** Returns the names of the variables that a thread seems to write, by its code and that of the functions whose names are in it. */
function listWritten({ name: own, code: { code: first }, values = [] }, { names, words, functions, globals }) {
  const found = new Map([[own, `${first} ${values.join(" ")}`]]);
  for (const text of found.values()) {
    const called = [...functions].filter(([key, it]) => !found.has(key) && new RegExp(`\\b(?:${key}|${it.name})\\b`).test(text));
    for (const [key, it] of called) found.set(key, replaceNames(it.code.code, new Map(it.members ?? [])));
  }
  const code = replaceNames([...found.values()].join("\n"), names);
  const isWritten = (name) => {
    const { object } = globals.get(name) ?? {};
    const member = object ? `|\\w+\\s*(?:->|\\.)\\s*${name.slice(object.length + 1)}` : "";
    const here = `(?<![\\w.])(?:${name}${member})\\b`;
    const assigned = `(?:\\+\\+|--)\\s*${here}|${here}\\s*(?:\\+\\+|--|(?:[-+*/%&|^]|<<|>>)?=(?!=)|\\.\\s*(?!load\\b)\\w)`;
    return new RegExp(`${assigned}|(?<!\\w)(?!\\w*(?:load|LOAD|READ))\\w+\\(\\s*&\\s*${here}|WRITE_ONCE\\(\\s*${here}`).test(code);
  };
  return [...words.keys()].filter(isWritten);
}

/** Adds the words that shared variables may have, as threads are written, to those of which conditions are written. Returns whether it adds some. */
function extendLists(wordLists, writers, { words }) {
  const findWords = findAllWords(writers, words);
  let isExtended = false;
  for (const name of new Set(writers.flatMap((it) => [...it.listed]))) {
    const [before, found] = [wordLists.get(name) ?? [words.get(name)], findWords(name)];
    if (wordLists.get(name) === null || found?.every((it) => before.includes(it))) continue;
    isExtended = true;
    wordLists.set(name, !found || found.length > MOST_LISTED ? null : [...new Set([...before, ...found])]);
  }
  return isExtended;
}

/**
 * Returns the writers of threads, in which variables that other threads write are not known.
 * @param {Program} program
 * @param {function(Program): ThreadWriter[]} write
 * @returns {ThreadWriter[]}
 */
export function writeKnown(program, write) {
  const written = program.threads.map((it) => listWritten(it, program));
  const allWritten = written.map((it) => new Set(it));
  const unknowable = written.map((_, number) => new Set(written.filter((_names, other) => other !== number).flat()));
  const wordLists = new Map();
  for (let round = 0; round < MOST_ROUNDS; round += 1) {
    const writers = write({ ...program, unknowable, written: allWritten, wordLists });
    const accesses = writers.flatMap((it) => it.accesses);
    const isBroken = ({ number }, name) => accesses.some((it) => it.isWrite && it.name === name && it.thread !== number);
    const broken = writers.map((writer) => [...writer.assumed].filter((it) => isBroken(writer, it)));
    if (!extendLists(wordLists, writers, program) && !broken.some((it) => it.length)) return writers;
    for (const [number, names] of broken.entries()) for (const it of names) unknowable[number].add(it);
  }
  const none = new Map([...program.words.keys()].map((it) => [it, null]));
  return write({ ...program, unknowable: written.map(() => new Set(program.words.keys())), written: allWritten, wordLists: none });
}

/**
 * Returns whether a program that is refused needs words that are known: for an index, for a variable that has a value after some results of a
 * function, for a loop that calls one, or for a relation.
 * @param {{why: string, index: number}} test
 * @param {string} text
 * @returns {boolean}
 */
export function needsWords({ why, index }, text) {
  const isCalling = why.endsWith(OF_LOOPS) && /^while\s*\(\s*!?\s*[\w.]+\s*\(/.test(text.slice(index, index + 80));
  const part = text.slice(index, index + 200);
  const isRelation = (why.endsWith(OF_CONDITIONS) && /^[^{};]*[<>]/.test(part)) || /^(?:if|while)\b[^{};]*(?<!&)[&%]\s*\d/.test(part);
  return hasNamedIndex(text) || isCalling || isRelation || why.endsWith(" has no value on some path to here");
}
