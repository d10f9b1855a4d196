// Writes the functions that a thread of a program in C calls in place of the calls, and numbers in place of parameters. Not proved.
//
// The records `Program`, `CThread` and `Part` are those of c_reader.js, and `Statement` is that of c_statements.js.
// A `Call` has the function that is `called`, a `CThread`, and the codes of its `values`.

import { findClosing, parseConstant, parseDeclaration, refusePart, replaceNames, squeezeCode } from "./c_code.js";
import { computeConstant, foldConstants } from "./c_constants.js";
import { readStatements } from "./c_loop_reader.js";
import { ArgumentBinder, isChanged, parseParameters } from "./c_parameters.js";
import { resolvePlaces } from "./c_places.js";
import { isCondition, OF_FUNCTIONS, parseChoice, removeOuterParentheses, splitEither, splitOutside } from "./c_statements.js";
import { SwapWriter } from "./c_swaps.js";
import { joinPaths } from "./c_thread.js";
import { OF_LOADS, OF_STEPS, SPARE } from "./c_values.js";
import { REGISTERS, WORD } from "./token_reader.js";

// The code of a function that only returns a value: the group is this.
const RETURNING = /^\s*return\b\s*([^;{}]+);\s*$/;
const CALLED = /\b(\w+)\(/g;
// How many calls may be in one another, and how many a thread may have.
const DEEPEST = 12;
const MOST = 200;
// Longer code is not extended.
const LONGEST = 4000;
// In a method, what is before its functions and before its variables, and a name that is called as a function.
const THIS_OF_CALL = /\bthis\s{0,9}->\s{0,9}(?=\w+\s{0,9}\()/g;
const THIS = /\bthis\s{0,9}->\s{0,9}/g;
const SIBLING = /(?<!(?:\.|->)\s{0,9})\b(\w+)(?=\s{0,9}\()/g;
// A statement that stores the result of a call: the groups are before it and after it.
const STORED = [/^(\*?\w+=)()$/, /^(atomic_(?:store|exchange)\w{0,20}\(&\w+,)((?:,memory_order_\w+)?\))$/];
// An argument that changes a variable, and a statement without an effect.
const CHANGING = /\+\+|--|(?<![=!<>])=(?!=)/;
const USED = /^\(void\)\w+$/;
// Why a statement is refused.
const OF_ARGUMENTS = ": its arguments are constants, variables of the thread, and shared variables of the types of its parameters";
const OF_HOISTED = ": call a function in a statement of its own, as `int r = f();`";
const OF_EXITS = ": only the function of the thread itself ends the thread";
const OF_VALUES = ": this function returns no integer";
const OF_OBJECTS = ": an object of a class is declared outside of functions";

/** Returns whether a value is a truth, which is 0 or 1. */
function isTruth(code) {
  const inner = removeOuterParentheses(code);
  return isCondition(inner) || (!parseChoice(inner) && splitOutside(inner, "||").length > 1) || /^(?:[01]|true|false)$/.test(inner);
}

/** Writes the instructions of a thread, in which functions are in place of their calls. */
export class CallWriter extends SwapWriter {
  /** Makes a writer of a thread, as a `SwapWriter`. */
  constructor(program, number, kept) {
    super(program, number, kept);
    Object.assign(this, { program: { ...program, variables: this.variables }, called: program.threads[number], callCount: 0, depth: 0 });
    // The functions whose calls the statement is in, the variables before the innermost one, and what its result is assigned to. And of the last call
    // what its result is assigned to, what is known at each of its ends, and the number of instructions before what follows it.
    this.frames = [];
    this.outer = new Set();
    this.target = null;
    this.returned = null;
    this.hasConstants = false;
    this.changing = [...program.functions].filter(([, it]) => !program.isHerd && it.parameters.includes("&")).map(([name]) => name.split("__").at(-1));
  }

  /** Writes all instructions, after those of the parameters of the thread. */
  writeThread() {
    const { called } = this;
    this.statement = called.start ?? called.whole;
    if (called.values) this.enterFunction(called, called.values);
    // What started the thread had loaded them before.
    if (this.accesses.length) refusePart(this.statement, OF_ARGUMENTS);
    return super.writeThread();
  }

  /** Gives a function its arguments, and writes the copies of those that it changes. Throws NoTest if they don't fit its parameters. */
  enterFunction(called, values) {
    const binder = this.bindArguments(called, values) ?? refusePart(this.statement, OF_ARGUMENTS);
    if (values.length > 1 && values.some((it) => CHANGING.test(it))) this.refuseStatement(OF_STEPS);
    if (binder.copies.filter(({ value }) => /[^\w+ -]/.test(value) || this.variables.has(value)).length > 1) this.refuseStatement(OF_LOADS);
    if (binder.isWide) this.isWide = true;
    for (const { variable, value } of binder.copies) {
      const name = this.nameLocal(variable.name);
      this.locals.add(name);
      if (variable.limit < WORD) this.limits.set(name, variable.limit);
      this.assignLocal(name, value);
      binder.names.set(variable.name, name);
    }
    this.names = binder.names;
    this.hasConstants = binder.hasConstants;
  }

  /** Returns the binder of arguments that fit the parameters of a function; null if they don't. */
  bindArguments(called, values) {
    const names = called.isMacro ? this.names : this.program.names;
    const binder = new ArgumentBinder(this, called, new Map([...names, ...(called.members ?? [])]));
    return binder.bindAll(values) ? binder : null;
  }

  // Code.

  /** Throws NoTest for the statement, with the end of a sentence. */
  refuseStatement(why) {
    const [, type] = /^\s*(?:(?:const|struct)\s+)?(\w+)\s+\w+/.exec(this.statement.code) ?? [];
    super.refuseStatement(why ?? (this.program.types?.has(type) ? OF_OBJECTS : undefined));
  }

  /** Returns squeezed code with the values of names in place of these, and values of functions in place of those that only return them. */
  squeeze(code) {
    return this.expandCalls(this.translate(code, this.names, this.hasConstants));
  }

  /** Returns squeezed code with the values of names in place of these. */
  translate(code, names, hasConstants) {
    if (this.isHerd) return squeezeCode(replaceNames(code, names));
    const called = code.replace(THIS_OF_CALL, "").replace(THIS, "this.").replace(SIBLING, (name) => names.get(`${name}(`) ?? name);
    const replaced = resolvePlaces(replaceNames(called, names), this.program);
    const squeezed = squeezeCode(replaced);
    return hasConstants ? foldConstants(squeezed) : squeezed;
  }

  /** Returns squeezed code with values in place of calls of functions that only return them, if their arguments are as names. */
  expandCalls(code) {
    if (!this.functions.size || !code.includes("(") || code.length > LONGEST) return code;
    const pieces = [];
    let at = 0;
    for (const { 0: head, 1: name, index } of code.matchAll(CALLED)) {
      const open = index + head.length - 1;
      const end = index < at || !this.functions.has(name) ? -1 : findClosing(code, open);
      const value = end < 0 ? null : this.findValue(this.functions.get(name), splitArguments(this.expandCalls(code.slice(open + 1, end))));
      if (value === null) continue;
      pieces.push(code.slice(at, index), value);
      at = end + 1;
    }
    return pieces.length ? [...pieces, code.slice(at)].join("") : code;
  }

  /** Returns the code of the value that a function returns, if it does nothing else; otherwise null. */
  findValue(called, values) {
    const [, value] = RETURNING.exec(called.code.code) ?? [];
    if (value === undefined || this.depth >= DEEPEST || this.callCount > MOST) return null;
    const { limit, isVoid, isWide } = findResult(called);
    const binder = isVoid || (limit > 2 && limit < WORD) ? null : this.bindArguments(called, values);
    if (!binder || binder.copies.length) return null;
    if (isWide || binder.isWide) this.isWide = true;
    this.depth += 1;
    this.callCount += 1;
    const code = this.expandCalls(this.translate(value, binder.names, this.hasConstants || binder.hasConstants));
    this.depth -= 1;
    if (code.length > LONGEST) return null;
    if (limit === 2 && !isTruth(code) && !this.isOfBool(code)) return `((${code})!=0)`;
    return /^\w+$|^\w+\([^()]*\)$/.test(code) ? code : `(${code})`;
  }

  /** Returns whether a value is that of a variable that is 0 or 1. */
  isOfBool(code) {
    const [, name] = /^(?:atomic_(?:load|exchange)\w{0,20}\(&)?(\w+)\b/.exec(code) ?? [];
    return /^\w+$|^\w+\([^()]*\)$/.test(code) && (this.variables.get(name)?.limit ?? this.limits.get(name)) === 2;
  }

  // Calls.

  /** Returns the operation of a call. Throws NoTest if it is none. */
  parseCall(code) {
    for (const [, name] of code.matchAll(CALLED)) if (this.functions.has(name)) this.refuseStatement(OF_HOISTED);
    return super.parseCall(code);
  }

  /** Returns the call of a function of the program that all of squeezed code is; null if it is none. */
  findCall(code) {
    const name = /^\w+(?=\()/.exec(code)?.[0];
    if (!this.functions.has(name) || findClosing(code, name.length) !== code.length - 1) return null;
    return { called: this.functions.get(name), values: splitArguments(code.slice(name.length + 1, -1)) };
  }

  /** Writes the statements of a function in place of its call, whose result a variable gets, unless this is null. */
  writeCall({ called, values }, target) {
    this.callCount += 1;
    const isRepeated = this.frames.includes(called) || called.code === this.called.code;
    if (isRepeated || this.frames.length >= DEEPEST || this.callCount > MOST) this.refuseStatement(OF_FUNCTIONS);
    const { names, end, exits, outer, statement, hasConstants, outerGuardCount, branches } = this;
    const inner = new Set(this.locals);
    const caller = { names, end, exits, outer, statement, hasConstants, outerGuardCount, target: this.target, isOver: false };
    const count = branches.length;
    this.enterFunction(called, values);
    Object.assign(this, { end: this.makeLabel(), exits: [...exits], outer: inner, outerGuardCount: this.guards.length, target });
    this.frames.push(called);
    this.writeStatements(readStatements(called.code, this.names), true);
    this.frames.pop();
    const ends = [...this.exits.slice(exits.length), this.known];
    this.known = ends.reduce(joinPaths);
    this.endFunction();
    Object.assign(this, caller, { returned: { target, ends: ends.filter(Boolean), count: this.instructions.length } });
    branches.length = count;
    for (const name of this.locals) if (!inner.has(name)) [this.locals, this.limits, this.known].forEach((it) => it.delete(name));
  }

  /** Writes a statement, which may call a function of the program. */
  writeSimple(statement, isLast) {
    if (this.isHerd) return super.writeSimple(statement, isLast);
    const code = this.translate(this.statement.code, this.names, this.hasConstants).replace(/^\(void\)(?=\w+\()/, "");
    const call = this.findCall(code);
    if (call) return this.writeCall(call, null);
    if (this.frames.length && /^pthread_exit\(/.test(statement)) this.refuseStatement(OF_EXITS);
    const declared = parseDeclaration(statement);
    if (declared.length < 2) return super.writeSimple(this.hoistCall(statement), isLast);
    // The name of each variable may be another one in the values of those after it.
    const [type] = new RegExp(`^[^,]*?(?=\\b${declared[0].name}\\b)`).exec(this.statement.code) ?? [];
    const parts = splitOutside(this.statement.code.replace(/<[^<>]*>/g, ""), ",");
    if (type === undefined || parts.length !== declared.length) return super.writeSimple(statement, isLast);
    return parts.forEach((it, at) => super.writeSimple(this.squeeze(at ? `${type} ${it}` : it), isLast));
  }

  /** Writes the call whose result a statement stores. Returns the statement that stores it from a variable; the same statement if it does not. */
  hoistCall(statement) {
    if (statement.length > LONGEST) return statement;
    for (const { 1: name, index } of statement.matchAll(CALLED)) {
      const end = this.functions.has(name) ? findClosing(statement, index + name.length) + 1 : 0;
      const before = statement.slice(0, index);
      const isStored = STORED.some((it) => it.test(before + statement.slice(end))) && !this.locals.has(before.slice(0, -1));
      if (!end || !isStored) continue;
      return before + this.writeResult(statement.slice(index, end)) + statement.slice(end);
    }
    return statement;
  }

  /** Writes a call. Returns the name of a new variable that has its result. */
  writeResult(code) {
    const call = this.findCall(code);
    const { limit, isVoid } = findResult(call.called);
    if (isVoid) this.refuseStatement(OF_VALUES);
    const name = this.nameLocal(`${call.called.name}_result`);
    this.locals.add(name);
    if (limit < WORD) this.limits.set(name, limit);
    this.writeCall(call, name);
    return name;
  }

  /** Writes statements, after which names in them that have numbers or other names have them no more. */
  writeBlock(statements, isLast) {
    const { names } = this;
    this.names = new Map(names);
    super.writeBlock(statements, isLast);
    this.names = names;
  }

  /** Writes an `if`, only one of whose branches is reached if its condition is one of constants. */
  writeBranch(statement, isLast) {
    const code = this.squeeze(statement.condition);
    const number = this.hasConstants ? computeConstant(code) : null;
    const either = number === null ? splitEither(statement, code) : null;
    if (either) this.writeBranch(either, isLast);
    else if (number === null) super.writeBranch(statement, isLast);
    else {
      this.writeBlock(number ? statement.then : statement.otherwise, isLast);
      this.isOver = !this.known;
    }
  }

  /** Returns the squeezed code of a condition, in which the result of a call with which it begins is a variable. */
  readCondition(condition) {
    const code = this.squeeze(condition);
    const begin = code.search(/\w|$/);
    const name = /^\w+(?=\()/.exec(code.slice(begin))?.[0];
    const isCalling = (it) => [...it.matchAll(CALLED)].some(([, other]) => this.functions.has(other));
    if (this.isHerd || !isCalling(code)) return code;
    const end = this.functions.has(name) ? findClosing(code, begin + name.length) + 1 : 0;
    // What is compared with the result has no place before or after the call.
    const [compared] = splitOutside(code.slice(end), "&&");
    const isFirst = end && (compared.match(/\w+/g) ?? []).every((it) => parseConstant(it) !== null);
    if (!isFirst || isCalling(code.slice(begin + name.length))) this.refuseStatement(OF_HOISTED);
    return code.slice(0, begin) + this.writeResult(code.slice(begin, end)) + code.slice(end);
  }

  /** Writes an assignment to a variable of the thread, which may be of the result of a call. */
  assignLocal(name, value) {
    const call = this.isHerd ? null : this.findCall(removeOuterParentheses(value));
    if (!call) return super.assignLocal(name, value);
    if (findResult(call.called).isVoid) this.refuseStatement(OF_VALUES);
    return this.writeCall(call, name);
  }

  /** Writes a `return` of the thread, or of a function that it calls. */
  writeReturn(result, isLast) {
    if (!this.frames.length) return super.writeReturn(result, isLast);
    const { limit, isVoid, isWide } = findResult(this.frames.at(-1));
    if (isVoid && result) this.refuseStatement(OF_VALUES);
    if (isWide) this.isWide = true;
    if (this.target && result) this.returnTo(this.target, result, limit);
    else if (result && isCondition(result)) this.writeTruth(result, SPARE);
    else if (result && !this.findOperand(result)) this.writeValue(result, SPARE);
    return this.leaveFunction(isLast);
  }

  /** Assigns what a function returns, whose words are below a limit, to a variable. */
  returnTo(target, result, limit) {
    const outer = this.limits.get(target);
    if (limit < (outer ?? WORD)) this.limits.set(target, limit);
    this.assignLocal(target, result);
    if (outer === undefined) this.limits.delete(target);
    else this.limits.set(target, outer);
    if (!this.outer.has(result) && this.loaded === result) {
      this.loaded = target;
      this.loads.forEach((it) => it.variable === result && Object.assign(it, { variable: target }));
    }
  }

  // Variables.

  /** Returns a name of a variable with a register that no other one has that is used here or in a question. */
  nameLocal(name) {
    const isFree = (it) => !this.locals.has(it) && !this.fixed.has(it) && !this.variables.has(it);
    return [name, ...[...REGISTERS.X86, ""].map((_, at) => `${name}_${at + 2}`)].find(isFree) ?? name;
  }

  /** Returns whether a variable of a name is of the function that is written. */
  hasLocal(name) {
    return this.locals.has(name) && !this.outer.has(name);
  }

  /** Declares a variable: a name for a number that it always has, or a variable with a register, whose name no variable of a caller has. */
  declareLocal(variable, value) {
    const { name, limit } = variable;
    const number = value ? computeConstant(value) : null;
    const isOfType = limit === 2 || limit === WORD || (number >= 0 && number < limit);
    if (number !== null && isOfType && this.isConstant(name)) {
      this.names.set(name, limit === 2 ? String(Number(number !== 0)) : String(number));
      this.hasConstants = true;
      return;
    }
    const free = this.frames.length || (this.fixed.has(name) && !this.isAsked(name)) ? this.nameLocal(name) : name;
    if (free !== name) this.names.set(name, free);
    super.declareLocal({ ...variable, name: free }, value);
  }

  /** Returns whether a variable of the function that is written keeps its number, and whether this matters: it is an index, an argument, or of others. */
  isConstant(name) {
    const { code } = (this.frames.at(-1) ?? this.called).code;
    const isIndex = new RegExp(`\\[[^\\][]{0,40}\\b${name}\\b`).test(code);
    const isArgument = [...code.matchAll(new RegExp(`\\b(\\w+)\\s{0,9}\\([^;(){}]{0,80}\\b${name}\\b`, "g"))].some(([, it]) => this.isCalled(it));
    const [, ...after] = code.split(new RegExp(`\\b${name}\\b\\s{0,9}(?:=(?!=)|\\{)`));
    const isKept = after.length === 1 && !isChanged(name, after[0], this.changing);
    return (isIndex || isArgument || this.hasConstants) && isKept && !this.isAsked(name) && !this.variables.has(name);
  }

  /** Returns whether the question of the program has a name. */
  isAsked(name) {
    return new RegExp(`\\b${name}\\b`).test(this.program.question.code);
  }

  /** Returns the names of its shared variables with registers that it changes, and whose initial words it or its functions may have used before. */
  listUnset() {
    const others = (this.called.reached ?? "").slice(this.code.code.length);
    const isElsewhere = (name) => this.firstValues.has(name) && new RegExp(`\\b${name}\\b`).test(others);
    return [...super.listUnset(), ...this.own.map((it) => it.name).filter(isElsewhere)];
  }

  // Locks.

  /** Writes what locks a mutex or an object. */
  writeLock(name) {
    if (!this.writeMethod(name, "lock")) super.writeLock(name);
  }

  /** Writes what unlocks a mutex or an object. */
  writeUnlock(name, isSpin) {
    if (!this.writeMethod(name, "unlock")) super.writeUnlock(name, isSpin);
  }

  /** Writes the call of a method of an object that has it. Returns whether it has. */
  writeMethod(object, method) {
    const called = this.functions.get(`${object}__${method}`);
    if (called) this.writeCall({ called, values: [] }, null);
    return called !== undefined;
  }

  /** Returns whether a statement only says that a parameter is not used. */
  isUseOfParameter(statement) {
    return super.isUseOfParameter(statement) || (!this.isHerd && USED.test(statement) && this.isNameOfParameter());
  }

  /** Returns whether the statement names a parameter after `(void)`, or in the parentheses of a macro that does the same. */
  isNameOfParameter() {
    const name = /(\w+)\s*\)?\s*$/.exec(this.statement.code)?.[1];
    return parseParameters((this.frames.at(-1) ?? this.called).parameters).some((it) => it.name === name);
  }
}

/** Returns the arguments of a call, in squeezed code. */
function splitArguments(code) {
  return code ? splitOutside(code, ",") : [];
}

/** Returns whether a function returns nothing, whether it returns words of 64 bits, and the limit of its words. */
function findResult({ type }) {
  const squeezed = squeezeCode(type).replace(/\b(?:constexpr|virtual) /g, "");
  const [declared] = parseDeclaration(squeezeCode(`${squeezed} it`));
  const isVoid = !declared || declared.isPointer;
  return { isVoid, limit: isVoid ? WORD : declared.limit, isWide: !isVoid && declared.isWide };
}
