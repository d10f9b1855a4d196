// Finds which functions of a program in C are threads, what code each of these reaches, and which variables have the same word in all runs. Not proved.
//
// The records `Program` and `CThread` are those of c_reader.js.

import { replaceNames } from "./c_code.js";
import { isChanged, parseParameters } from "./c_parameters.js";
import { WORD } from "./token_reader.js";

// Functions that are read as others.
const CONVERTED = /^(?:xchg|smp_|atomic_|READ_ONCE$|WRITE_ONCE$|__|(?:test_and_)?(?:set|clear)_bit)/;

/** Returns the code of a function, and of those that it calls or may call, by their names. */
function findReached(program, { code, values = [], name }) {
  const found = new Map([[name, `${code.code} ${values.join(" ")}`]]);
  const isNamed = ([key, it], text) => new RegExp(`\\b(?:${key}|${it.name}|${it.objectName ?? key})\\b`).test(text);
  for (const text of found.values()) {
    const called = [...program.functions].filter((it) => !found.has(it[0]) && isNamed(it, text));
    for (const [key, it] of called) found.set(key, replaceNames(it.code.code, new Map(it.members ?? [])));
  }
  return [...found.values()].join("\n");
}

/**
 * Returns a program whose threads are those of its functions that no other one calls, if no `main` starts them, and each of which knows the code that it
 * reaches.
 * @param {Program} program
 * @returns {Program}
 */
export function linkThreads(program) {
  const { threads, functions, names, isHerd } = program;
  if (isHerd) return { ...program, unwritten: new Map() };
  const codes = [...functions.values()].map((it) => [it.name, it.code.code]);
  // A function of the program may do something else than the one that it is named as.
  for (const [name, it] of [...functions].filter(([key]) => CONVERTED.test(key))) {
    functions.set(`own__${name}`, it);
    names.set(`${name}(`, `own__${name}`);
  }
  const isCalled = ({ name, isStarted }) => {
    const call = new RegExp(`(?<![.\\w>])${name}\\s{0,9}\\(`);
    return !isStarted && !/^P\d$/.test(name) && codes.some(([other, code]) => other !== name && call.test(code));
  };
  const all = threads.filter((it) => !isCalled(it));
  return { ...program, unwritten: findUnwritten(program), threads: all.map((it) => ({ ...it, reached: findReached(program, it) })) };
}

/** Returns the numbers of plain variables that functions have by pointers only, if none changes what a pointer or a reference is of. */
function findUnwritten({ globals, words, threads, functions }) {
  const all = [...functions.values(), ...threads];
  const isChanging = ({ parameters, code }) => parseParameters(parameters).some((it) => it.mark && isChanged(it.name, code.code, []));
  if (all.some(isChanging)) return new Map();
  const isHidden = ({ name, element, object, order }) => {
    const pattern = new RegExp(`\\b(?:${name}|${element?.split("[")[0] ?? name})\\b`);
    return order === "plain" && !object && words.get(name) < WORD / 2 && !all.some((it) => pattern.test(it.code.code));
  };
  return new Map([...globals.values()].filter(isHidden).map(({ name }) => [name, String(words.get(name))]));
}
