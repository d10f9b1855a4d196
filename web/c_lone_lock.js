// Gives a lock of a program in C or C++ that no thread uses two threads that take it, and a function that is the only thread a second one that runs
// it. Not proved.
//
// The records `Program`, `CThread` and `Part` are those of c_reader.js, and `Class` is that of c_classes.js. A pair has the functions or methods
// `lock` and `unlock`.

import { refusePart } from "./c_code.js";
import { linkThreads } from "./c_links.js";
import { parseParameters } from "./c_parameters.js";
import { readProgram } from "./c_reader.js";

// What takes a lock, and what gives it back, as parts of names.
const VERBS = [["lock", "unlock"], ["acquire", "release"], ["enter", "leave"], ["enter", "exit"], ["take", "give"]];
// Words in names of other functions of a lock: of those that try it, and of those that prepare it.
const TRYING = /(?<![a-z])try(?![a-z])|(?<![a-z])try(?:lock|acquire|enter|take)/;
const OTHERS = /(?<![a-z])(?:is|locked|islocked|init|initialize|setup|create|reset|destroy|held|owned)(?![a-z])/;
const PREPARING = /(?<![a-z])(?:init|initialize|setup|create|reset)(?![a-z])/;
// What sets another word than 0.
const SETS_WORD = /\b(?:0*[1-9]\w*|true)\b/;
// Names of a parameter that is the number of a thread, and types of what is a lock.
const NUMBER = /^(?:me|self|i|n?id|[tp]id|p|my\w*|own\w*|mine|this\w*|who\w*|\w*thread\w*|\w*proc\w*|cpu|side|slot|idx|index)$/i;
const LOCK_TYPE = /lock|mutex|mtx|latch|peterson|dekker|flag|atomic|volatile/i;
const NODE = /node|entry|waiter/i;
// A call that may write, and a result that says nothing.
const WRITES = /xchg|exchange|swap|test_and_set|fetch_|store|_(?:set|inc|dec)\b|Interlocked|WRITE_ONCE|\+\+|--|\block\b|_lock\s*\(|EnterC|AcquireS/;
// What waits: a loop, or a call of another lock. And names of a variable that is a lock.
const WAITS = /\b(?:while|for|do|goto)\b|\block\b|_lock\s*\(|EnterC|AcquireS/;
const LOCK_NAME = /lock|mutex|mtx|latch|flag|held|taken|busy|^[lmsf]\d?$/i;
const VOID = /^(?:(?:static|inline|extern|constexpr|__\w+)\s+)*void\s*$/;
const RETURN = /\breturn\b\s*([^;]*);/g;
const UNUSED = /^\s*void\s*\*\s*\w*\s*$/;
const LONGEST = 20000;
const OF_USERS = ": no thread uses this lock, so write functions that do, each as `lock(); counter++; unlock();`";
const OF_SEVERAL = ": no thread uses these locks, so write functions that do, each as `lock(); counter++; unlock();`";

/** Returns whether a pattern finds a word in the name of a function, whose words begin with capitals or after a `_`. */
function isNamed({ name }, pattern) {
  return pattern.test(name.replace(/([a-z])(?=[A-Z])/g, "$1_").toLowerCase());
}

/** Returns whether threads need not call a function of a lock. */
function isOther(it) {
  return isNamed(it, TRYING) || isNamed(it, OTHERS);
}

/** Returns the name of what gives a lock back that a function of a name takes, among others; null if there is none. */
function findOpposite(name, names) {
  const found = VERBS.flatMap(([verb, opposite]) => [...name.matchAll(new RegExp(verb, "gi"))].map(({ 0: it, index }) => {
    const isUpper = it === it.toUpperCase();
    const word = isUpper ? opposite.toUpperCase() : it[0] === it[0].toUpperCase() ? opposite[0].toUpperCase() + opposite.slice(1) : opposite;
    return name.slice(0, index) + word + name.slice(index + it.length);
  }));
  return found.find((it) => names.includes(it)) ?? null;
}

/** Returns the pairs of functions that take locks and give them back. */
function listPairs(functions) {
  const names = functions.map((it) => it.name);
  return functions.filter((it) => !isNamed(it, TRYING)).flatMap((lock) => {
    const name = findOpposite(lock.name, names);
    return name === null ? [] : [{ lock, unlock: functions.find((it) => it.name === name) }];
  });
}

/** Returns whether a function may take a lock: it waits, unless its name is sure, and writes, since one that only loads waits for data. */
function isTaking({ name, type, code, parameters }, names, functions) {
  const isCalling = functions.some((it) => it.name !== name && new RegExp(`\\b${it.name}\\s{0,9}\\(`).test(code.code));
  if (VOID.test(type) && !/lock/i.test(name) && !isCalling && !WAITS.test(code.code)) return false;
  const all = [...names, ...parseParameters(parameters).map((it) => it.name)].filter(Boolean);
  const writes = all.map((it) => new RegExp(`\\b${it}\\s{0,9}(?:\\[[^\\]]{0,40}\\]\\s{0,9})?(?:(?:->|\\.)\\s{0,9}\\w{1,40}\\s{0,9})?[-+]?=(?!=)`));
  return WRITES.test(code.code) || writes.some((it) => it.test(code.code));
}

/** Returns whether a function has no result that says whether it took a lock. */
function isSure({ type, code }) {
  const results = [...code.code.matchAll(RETURN)].map(([, it]) => it.trim());
  return VOID.test(type) || (new Set(results).size < 2 && results.every((it) => /^(?:\d|true|\w*SUCCESS)?$/.test(it)));
}

/** Writes the threads that use a lock. Names that it gives are not in the text. */
class UserWriter {
  /** @param {string} text @param {Program} program */
  constructor(text, program) {
    Object.assign(this, { text, program, declared: [], hasNumber: false });
    [this.counter, this.user, this.number] = ["counter", "add", "me"].map((it) => this.nameNew(it));
  }

  /** Returns a name that the text does not have, which begins as another one. */
  nameNew(name) {
    let found = name;
    for (let number = 2; new RegExp(`\\b${found}\\b`).test(this.text); number += 1) found = `${name}${number}`;
    return found;
  }

  /** Returns the code of the lock of a pointer or a reference: the only one of the program, or a new one. Throws NoTest if it may be no lock. */
  findLock({ base, declaration, mark }, whole) {
    if (!LOCK_TYPE.test(base) || NODE.test(base)) refusePart(whole, OF_USERS);
    const { objects, globals, types } = this.program;
    const named = [...globals.values()].map((it) => it.name).filter((it) => LOCK_NAME.test(it));
    const only = declaration ? named : new Set(types.values()).size === 1 ? [...objects] : [];
    this.lock ??= only.length === 1 ? only[0] : this.declareLock(base.replace(/\b(?:static|const)\s+/g, ""));
    return `${mark === "*" ? "&" : ""}${this.lock}`;
  }

  /** Declares a new lock. Returns its name. */
  declareLock(type) {
    const name = this.nameNew("the_lock");
    this.declared.push(`${type} ${name};`);
    return name;
  }

  /** Returns the code of the arguments of a function. Throws NoTest if a parameter is neither the number of a thread nor a lock. */
  writeArguments({ parameters, whole }) {
    const all = parseParameters(parameters);
    if (all.filter((it) => it.mark).length > 1) refusePart(whole, OF_USERS);
    return all.map((it) => {
      if (it.mark) return this.findLock(it, whole);
      if (it.declaration?.order !== "plain" || !NUMBER.test(it.name)) refusePart(whole, OF_USERS);
      this.hasNumber = true;
      return this.number;
    }).join(", ");
  }

  /** Returns the program with two threads that take a lock, add to a variable and give it back; methods have their object before them. */
  writeUsers({ lock, unlock }, prepares, object = "") {
    const [take, give] = [lock, unlock].map((it) => `${object}${it.name}(${this.writeArguments(it)});`);
    const parameter = this.hasNumber ? `int ${this.number}` : "";
    const own = [...this.declared, `int ${this.counter};`, `void ${this.user}(${parameter}) { ${take} ${this.counter}++; ${give} }`];
    const numbers = this.hasNumber ? " They are the threads 0 and 1." : "";
    const users = ` No thread uses the lock: here each of two threads takes it, adds to \`${this.counter}\`, and gives it back.${numbers}`;
    return { text: `${this.text}\n${[...own, this.writeMain(this.user, prepares)].join("\n")}\n`, users, part: lock.whole };
  }

  /** Returns `main` that starts two threads of a function. */
  writeMain(name, prepares = [], isOfPosix = false) {
    const [first, second] = isOfPosix
      ? [0, 1].map((it) => `pthread_create(&t${it}, NULL, ${name}, NULL);`)
      : [0, 1].map((it) => `std::thread t${it}(${name}${this.hasNumber ? `, ${it}` : ""});`);
    const [handles, joins] = isOfPosix ? ["pthread_t t0, t1; ", "pthread_join(t0, NULL); pthread_join(t1, NULL);"] : ["", "t0.join(); t1.join();"];
    return `int main() { ${prepares.map((it) => `${it.name}(); `).join("")}${handles}${first} ${second} ${joins} }`;
  }
}

/** Returns the functions of others that `main` calls first. Throws NoTest for one that sets a lock to another word than 0 and has an argument. */
function listPrepares(others, isOfClass) {
  const needed = others.filter((it) => isNamed(it, PREPARING) && SETS_WORD.test(it.code.code));
  const other = needed.find((it) => isOfClass || !/^\s*(?:void)?\s*$/.test(it.parameters));
  if (other) refusePart(other.whole, OF_USERS);
  return needed;
}

/** Returns the program with threads that use its only lock, of functions; null if it has others. Throws NoTest if it is not clear how it is used. */
function useFunctions(writer, { threads, globals, arrays, functions }) {
  const names = [...globals.keys(), ...arrays];
  const pairs = listPairs(threads).filter(({ lock }) => isTaking(lock, names, [...functions.values()]));
  const others = threads.filter((it) => !pairs.some(({ lock, unlock }) => lock === it || unlock === it));
  if (!pairs.length || !others.every(isOther)) return null;
  const [{ lock }] = pairs;
  if (pairs.length > 1) refusePart(lock.whole, OF_SEVERAL);
  if (!isSure(lock)) refusePart(lock.whole, OF_USERS);
  return writer.writeUsers(pairs[0], listPrepares(others, false));
}

/** Returns the program with threads that use the only lock that is a class; null if it has none. Throws NoTest if it is not clear how it is used. */
function useClass(writer, { threads, types, functions, globals }) {
  const locks = [...types].map(([name, { methods, members }]) => ({ name, methods, members, pairs: listPairs(methods) }));
  const all = locks.filter((it, at) => it.pairs.length && locks.findIndex((other) => other.methods === it.methods) === at);
  if (!all.length || !threads.every(isOther)) return null;
  const [{ name, methods, members, pairs: [{ lock, unlock }, second] }] = all;
  const places = [...globals.keys(), ...members.map((it) => it.element?.split("[")[0] ?? it.name)];
  if (!isTaking(lock, places, methods)) return null;
  if (all.length > 1 || second) refusePart(lock.whole, OF_SEVERAL);
  if (!isSure(lock)) refusePart(lock.whole, OF_USERS);
  listPrepares(methods, true);
  const objects = [...functions.values()].filter((it) => it.objectName && it.code === lock.code).map((it) => it.objectName);
  if (objects.length > 1) return null;
  return writer.writeUsers({ lock, unlock }, [], `${objects[0] ?? writer.declareLock(name)}.`);
}

/** Returns the program with two threads of the only function that is one; null if it has others, or if this is `P0`, or has arguments. */
function runTwice(writer, { threads }) {
  const used = threads.filter((it) => !isNamed(it, TRYING));
  const [only, second] = used.length ? used : threads;
  if (!only || second || /^P\d+$/.test(only.name)) return null;
  const isOfPosix = UNUSED.test(only.parameters);
  const all = isOfPosix ? [] : parseParameters(only.parameters);
  writer.hasNumber = all.length === 1 && !all[0].mark && NUMBER.test(all[0].name);
  if (all.length && !writer.hasNumber) return null;
  const numbers = writer.hasNumber ? " They have the numbers 0 and 1." : "";
  const users = ` The program starts no threads: here two threads run \`${only.name}\`.${numbers}`;
  return { text: `${writer.text}\n${writer.writeMain(only.name, [], isOfPosix)}\n`, users, part: only.whole };
}

/** Throws NoTest for a program that asks something of the two functions of a lock; null if it does not. */
function checkAsked({ threads }) {
  const [pair] = threads.length === 2 ? listPairs(threads) : [];
  return pair && /lock/i.test(pair.lock.name) ? refusePart(pair.lock.whole, OF_USERS) : null;
}

/**
 * Returns the text of a program with two threads that use its lock, or that run its only thread, if it has no `main` and asks nothing; with a
 * sentence that says so, `users`, and the function that they call, `part`. Null of another program. Throws NoTest if it has a lock, and it is not
 * clear how threads use it.
 * @param {string} text
 * @returns {{text: string, users: string, part: Part} | null}
 */
export function addUsers(text) {
  const program = text.length > LONGEST ? null : tryReading(text);
  if (!program || program.isHerd || program.main) return null;
  if (program.question.code) return checkAsked(program);
  const writer = new UserWriter(text, program);
  return useFunctions(writer, program) ?? useClass(writer, program) ?? runTwice(writer, program);
}

/** Returns a program with its threads; null if it is not read. */
function tryReading(text) {
  try {
    return linkThreads(readProgram(text));
  } catch {
    return null;
  }
}

/**
 * Returns why a program is refused to which threads were added, at a part of its own.
 * @param {Part} part
 * @returns {{why: string, index: number}}
 */
export function refuseUsers(part) {
  try {
    return refusePart(part, OF_USERS);
  } catch ({ message, index }) {
    return { why: message, index };
  }
}
