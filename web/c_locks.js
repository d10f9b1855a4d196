// Writes the instructions that lock and unlock mutexes of a program in C or C++, themselves and by guards. Not proved.

import { removeOuterParentheses } from "./c_statements.js";
import { SPARE, ValueWriter } from "./c_values.js";

// The patterns are of squeezed code. A guard: the groups are its name, and its arguments. A call that locks or unlocks: a mutex or a guard and a verb, or a
// verb and a mutex. And a call that locks several ones: the group is their names.
const GUARD = /^(?:const )?(?:lock_guard|unique_lock|scoped_lock)(?:<(?:\w+(?:,\w+)*)?>| )(\w+)[({](\w+(?:,\w+)*)[)}]$/;
const LOCK = /^(?:(\w+)\.(lock|unlock)\(\)|(?:pthread_mutex|mtx)_(lock|unlock)\(&(\w+)\)|(?:pthread_)?spin_(lock|unlock)\(&?(\w+)\))$/;
const LOCKS = /^lock\((\w+(?:,\w+)+)\)$/;
// A call that tries to lock, and what it is compared with: the groups are `!`, what is true if it locks, what is 0 then, and a comparison with 0.
const TRY = new RegExp(
  "^(!?)(?:(?:(\\w+)\\.try_lock\\(\\)|spin_trylock\\(&?(\\w+)\\))|(?:pthread_(?:mutex|spin)|mtx)_trylock\\(&?(\\w+)\\))" +
    "(?:([=!]=)(0|false|true|thrd_success))?$",
);
// What says that a guard does not lock: its mutex is locked, or will be.
const TAG = /^(?:adopt|defer)_lock$/;
const OF_MUTEXES = ": only a mutex, as `std::mutex m`, is locked and unlocked";
const OF_GUARDS = ": a guard is locked and unlocked in no branch";
const OF_HELD = ": a thread locks this only if it has not locked it already";
const OF_TRIES = ": try the mutex itself, as `if (m.try_lock())`";
const OF_SEVERAL = ": of several locks each is a mutex, as `std::mutex m`";

/**
 * Returns the name of the mutex that a condition tries to lock, whether the condition holds if it does (`isSuccess`), and whether it is another
 * number than 0 and 1 (`isNumber`); null if it tries none.
 * @param {string} code squeezed
 * @returns {{name: string, isSuccess: boolean, isNumber: boolean} | null}
 */
export function parseTry(code) {
  const [, negation, method, spin, called, sign, word] = TRY.exec(removeOuterParentheses(code)) ?? [];
  const name = method ?? spin ?? called;
  // A `!` is of the call.
  if (!name || (negation && sign) || (called ? word === "true" || word === "false" : word === "thrd_success")) return null;
  const isTrue = sign === undefined ? !negation : (sign === "==") === (word === "true");
  return { name, isSuccess: called ? !isTrue : isTrue, isNumber: Boolean(called && !negation && !sign) };
}

/** Writes the instructions of mutexes of a thread. */
export class LockWriter extends ValueWriter {
  /** Makes a writer of a thread, as a `ValueWriter`. */
  constructor(number, variables, names) {
    super(number, variables, names);
    // The mutexes that a thread may lock again, and has locked, with the number of branches around their locks.
    this.held = new Map();
    // The guards around a statement: their names, the mutexes that they guard, and those that they unlock, or null.
    this.guards = [];
  }

  /** Writes what unlocks the mutexes of guards, from the last one back to the one at an index. */
  unlockGuards(index) {
    for (const { mutex } of this.guards.slice(index).reverse()) if (mutex) this.writeUnlock(mutex);
  }

  /** Writes the exchange that locks a mutex. Throws NoTest if the name is that of no mutex. */
  writeLock(name) {
    if (this.variables.get(name)?.order !== "mutex") this.refuseStatement(OF_MUTEXES);
    this.holdRecursive(name);
    const register = this.findRegister(this.nameVariable(name, "at its lock"));
    this.writeExchange(name, 1, register);
    this.addWait({ name: `${this.number}:${register}`, word: 0, isEqual: true });
  }

  /** Throws NoTest if a mutex may be locked already that the thread may lock again, which no exchange does. */
  holdRecursive(name) {
    if (this.held.has(name)) this.refuseStatement(OF_HELD);
    if (this.variables.get(name).isRecursive) this.held.set(name, this.branches.length);
  }

  /** Writes the exchange that unlocks a mutex, or the store that unlocks a spin lock. Throws NoTest if the name is that of no mutex. */
  writeUnlock(name, isSpin = false) {
    if (this.variables.get(name)?.order !== "mutex") this.refuseStatement(OF_MUTEXES);
    if (this.branches.length <= this.held.get(name)) this.held.delete(name);
    if (!isSpin) this.writeExchange(name, 0, SPARE);
    else {
      this.recordMutex(name, 0);
      this.writeInstruction(`MOV [${name}],$0`);
    }
  }

  /** Writes the exchange that locks a mutex if it is free. Returns a variable that is 0 then. Throws NoTest if the name is that of no mutex. */
  writeTry(name) {
    if (this.variables.get(name)?.order !== "mutex" || this.guards.some((it) => it.guard === name)) this.refuseStatement(OF_MUTEXES);
    this.holdRecursive(name);
    const variable = this.nameNew(`${name}_tried`);
    this.locals.add(variable);
    this.writeExchange(name, 1, this.findRegister(variable));
    this.accesses.at(-1).isTried = true;
    this.recordSetting(variable, null);
    this.known.add(variable);
    return variable;
  }

  /** Returns a name of a variable that no other one has, which begins as another one. */
  nameNew(name) {
    let found = name;
    while (this.locals.has(found) || this.variables.has(found) || this.registers.includes(found)) found += "_";
    return found;
  }

  /** Writes the exchange of a mutex with a word. */
  writeExchange(name, word, register) {
    this.recordMutex(name, word);
    this.writeInstruction(`MOV ${register},$${word}`);
    this.writeInstruction(`XCHG [${name}],${register}`);
  }

  /** Records an access to a mutex. */
  recordMutex(name, word) {
    const isSure = !this.branches.length && !this.exits.length;
    const common = { isPlain: false, isRead: true, isWrite: true, limit: 2, isMutex: true, added: null };
    this.accesses.push({ thread: this.number, name, ...common, word, isSure });
  }

  /** Writes a statement that locks or unlocks a mutex, itself or by a guard. Returns whether it is one. */
  writeMutex(statement) {
    const [, guard, guarded = ""] = GUARD.exec(statement) ?? [];
    const [, several] = (!this.functions.has("lock") && LOCKS.exec(statement)) || [];
    const [, object, method, verb, parameter, spinVerb, spinLock] = LOCK.exec(statement) ?? [];
    const name = object ?? parameter ?? spinLock;
    const isLock = (method ?? verb ?? spinVerb) === "lock";
    const held = this.guards.find((it) => it.guard === name);
    if (guard) this.writeGuard(guard, guarded.split(","));
    else if (several) this.writeAll(several.split(","));
    else if (!name) return false;
    else if (held && this.branches.length) this.refuseStatement(OF_GUARDS);
    else if (isLock) this.writeLock(held?.guarded ?? name);
    else this.writeUnlock(held?.guarded ?? name, Boolean(spinLock));
    if (held) held.mutex = isLock ? held.guarded : null;
    // Its loop looks like one of the program, and a store unlocks it.
    if (spinLock) Object.assign(this, { isWaiting: true }).accesses.at(-1).isSpin = true;
    return true;
  }

  /** Writes what a guard of mutexes locks, unless they are locked already or later. */
  writeGuard(guard, values) {
    if (values.includes("try_to_lock")) this.refuseStatement(OF_TRIES);
    const tag = values.find((it) => TAG.test(it));
    const names = values.filter((it) => it !== tag);
    if (!tag) this.writeAll(names);
    for (const it of names) this.guards.push({ guard, guarded: it, mutex: tag === "defer_lock" ? null : it });
  }

  /**
   * Writes the locks of several mutexes, one after the other. A thread that gives some back, since it did not get another one, accesses nothing between,
   * so that their order does not matter to threads that get all of theirs.
   */
  writeAll(names) {
    for (const name of names) {
      const held = this.guards.find((it) => it.guard === name);
      if (held && this.branches.length) this.refuseStatement(OF_GUARDS);
      if (names.length > 1 && this.variables.get(held?.guarded ?? name)?.order !== "mutex") this.refuseStatement(OF_SEVERAL);
      this.writeLock(held?.guarded ?? name);
      if (held) held.mutex = held.guarded;
    }
  }
}
