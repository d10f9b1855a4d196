// Writes the instructions of a thread of a program in C, whose branches become jumps forward. Not proved.
//
// The records `Program` and `CThread` are those of c_reader.js, and `Statement` is that of c_statements.js.

import { FALSE, mapAtoms, negateFormula, parseFormula } from "./c_question.js";
import { mapSites, parseRelation } from "./c_relations.js";
import { defineName, parseConstant, parseDeclaration, refusePart, replaceNames } from "./c_code.js";
import { LockWriter } from "./c_locks.js";
import { OF_STORING, readStatements } from "./c_loop_reader.js";
import {
  isCondition,
  OF_CONDITIONS,
  OF_FUNCTIONS,
  OF_LOOPS,
  OUTPUT,
  parseChoice,
  parseCondition,
  removeStrings,
  splitOutside,
} from "./c_statements.js";
import { explainLimit, isBelow, OF_LOADS, OF_REGISTERS, OF_STEPS, OF_SUBTRACTION, parseStep, SPARE } from "./c_values.js";
import { REGISTERS, WORD } from "./token_reader.js";

// The patterns are of squeezed code. First fences, and those of which x86 code has none.
const ASSEMBLY = "(?:__)?asm(?:__)? (?:__)?volatile(?:__)?";
const FENCE = new RegExp(
  "^(?:atomic_thread_fence\\(memory_order_seq_cst\\)|(?:smp_mb|__sync_synchronize|_mm_mfence|__builtin_ia32_mfence)\\(\\)|" +
    `${ASSEMBLY}\\("(?:mfence|lock ?(?:add|or)[lq]?\\$0x?0? ?-?\\d* ?%%[re]sp)":::"memory"(?:,"cc")?\\))$`,
);
const NO_FENCE = new RegExp(
  "^(?:atomic_thread_fence\\(memory_order_(?:relaxed|consume|acquire|release|acq_rel)\\)|atomic_signal_fence\\(memory_order_\\w+\\)|" +
    "(?:smp_[rw]mb|smp_mb__(?:before|after)_atomic|barrier|_mm_[ls]fence|_mm_pause|__builtin_ia32_pause|cpu_relax|sched_yield|(?:this_thread::)?yield)\\(\\)|" +
    `${ASSEMBLY}\\("":::"memory"\\)|${ASSEMBLY}\\("(?:[ls]fence|pause)"(?::::"memory")?\\))$`,
);
const RETURN = /^(?:return\b ?(.*)|pthread_exit\((?:NULL|nullptr|0)\))$/;
// What a thread returns that has no result.
const NOTHING = /^(?:NULL|nullptr|0|\(void\*\)0)$/;
// A statement without an effect, in squeezed code: the group is the name of a parameter.
const NO_USE = /^\(void\)(\w+)$/;
// A load in a loop that waits: the groups are the variable that it is assigned to, if there is one, and the load.
const AWAITED = /^(?:(\w+)=)?(\*?\w+|atomic_load\w{0,20}\([^()]*\))$/;
// An exchange in a loop that waits.
const EXCHANGE = /^atomic_exchange\w{0,20}\([^()]*\)$/;
const ASSERTION = /^assert\((.*)\)$/;
// What ends the program, as an assertion does that does not hold.
const ABORT = /^(?:abort\(\)|terminate\(\)|__builtin_trap\(\)|_?exit\((?:[1-9]\d*|EXIT_FAILURE)\))$/;
// What an output has besides values: strings, letters, streams, and the end of a line.
const PRINTED = /^(?:" *"|'.*'|std(?:out|err)|endl|flush|)$/;
// An assignment: the groups are its place, the sign of `+=` or `-=`, and its value.
const ASSIGNMENT = /^(\*?\w+)([+-]?)=([^=].*)$/;
// A declaration of a name that has a value, which is in its place.
const SHADOWING = /^(?:[A-Za-z_]\w* )+-?(?:\d\w*|memory_order_\w+)(?:=(?!=)|[{(])/;
// A call after which another statement begins.
const UNENDED = /^(?!return\b)(?:[\w ]*\w=)?&?\w+\((?:[^()]|\([^()]*\))*\)(?!(?:and|or|xor|bitand|bitor|not_eq)\b)[A-Za-z_]/;
const OF_STEP = /\+\+|--|(?<![=!<>])=(?!=)/;
// Why a statement is refused.
const OF_UNREACHED = ": no run comes here after a `return`";
const OF_RETURN = ": a thread that returns a value is `int P0(void)`";
const OF_RETURN_IN_HERD = ": a thread of herd returns nothing, so set a variable, as `int r0`";
const OF_SIDES = ": compare with a constant or a variable of the thread";
const OF_CHOICES = ": what `?` chooses are constants and variables of the thread";
const OF_ATOMICS = ": a thread's own variable is not atomic, as `int r0`";
/** Why a loop in a branch is refused, as the end of a sentence. */
export const OF_BRANCHES = ": a loop that waits is in no branch, and after no `return`";
const OF_FIXED = ": a loop or an assertion has the value of this variable, so set another one";
const OF_OUTPUT = ": a thread prints variables and constants only";
const OF_ASSERTIONS = ": an assertion compares variables, constants and sums of them, joined by `&&` and `||`";
const OF_BRANCHED = ": an `if` around an assertion compares variables, which keep their words after it";
const OF_ALWAYS = ": an assertion that never holds is in a branch";
const OF_RETURNS = ": before an assertion, a `return` is the end of an `if` that is in no other one";
/** Why a loop of a plain variable is refused, as the end of a sentence. */
export const OF_PLAIN_LOOPS = ": a compiler may load a plain variable only once, so make it atomic or volatile";
const OF_NAMES = ": give it a name that no other variable has";
const OF_MARKS = ": a `;` is missing in it";
const OF_STATIC = ": a static variable is shared, so declare it outside of functions";
// The label at the end of a thread.
const END = "END";
/** The variable of what a thread returns, by its name in a question. */
export const RESULT = "return";

/** Returns a statement in which a step of a place is an assignment: `x+=1` for `x++` and `++x`, and `*x+=1` for `(*x)++`. */
function convertStep(statement) {
  const step = parseStep(statement);
  return step ? `${step.place}${step.sign}=1` : statement;
}

/** Returns the comparisons of which all hold if some do not all hold: of no variable, if this is more than one comparison. */
function negateComparisons([only, another]) {
  return another ? [{ variable: null, word: null, isEqual: false }] : [{ ...only, isEqual: !only.isEqual }];
}

/**
 * Returns the variables that are known after two paths; each is null if no run comes to its end.
 * @param {Set<string> | null} one
 * @param {Set<string> | null} other
 * @returns {Set<string> | null}
 */
export function joinPaths(one, other) {
  return one && other ? new Set([...one].filter((it) => other.has(it))) : one ?? other;
}

/**
 * Returns whether a name in a formula passes a test.
 * @param {Formula} formula
 * @param {function(string): boolean} test
 * @returns {boolean}
 */
export function hasName({ parts, name }, test) {
  return parts ? parts.some((it) => hasName(it, test)) : test(name);
}

/** Returns whether a formula holds if all its variables are 0. */
function isTrueOfZeros({ sign, parts, word, isEqual }) {
  if (!sign) return isEqual === (word === 0);
  return sign === "\\/" ? parts.some(isTrueOfZeros) : parts.every(isTrueOfZeros);
}

/** Returns an atom that says of a `bool` which of the two words it is, and not which it is not. */
function normalizeAtom({ name, word, isEqual, limit }) {
  const isOther = limit === 2 && !isEqual && word < 2;
  return { name, word: isOther ? 1 - word : word, isEqual: isEqual || isOther };
}

/** Returns the atom that holds if another one does not. */
function negateAtom(atom) {
  return normalizeAtom(negateFormula(atom));
}

/** Writes the instructions of a thread, and records what they access. */
export class ThreadWriter extends LockWriter {
  /**
   * Makes a writer of a thread, given its number, and the indices of each `if` whose loads have registers of their own. Nothing is written yet.
   * @param {Program} program
   * @param {number} number
   * @param {number[]} [kept]
   */
  constructor({ words, names, functions, threads, owners, unwritten, isHerd }, number, kept = []) {
    const { name, head, code, parameters, variables, returnsWord, isStarted } = threads[number];
    super(number, variables, names);
    Object.assign(this, { name, head, code, parameters, words, returnsWord, isStarted, isHerd, functions, kept });
    // The shared variables that only this thread uses, and that are neither atomic nor volatile. They have registers.
    const codes = threads.map((it) => replaceNames(it.reached ?? it.code.code, names));
    const isUsed = (variable, text) => new RegExp(`\\b${variable}\\b`).test(text);
    const isOwn = (variable) => isUsed(variable, codes[number]) && codes.filter((it) => isUsed(variable, it)).length === 1;
    const isOther = (pattern) => codes.some((it) => new RegExp(pattern).test(it));
    // By an index that is a parameter, or by a reference to all of it.
    const isHidden = ({ element, object }) =>
      (element && isOther(`\\b${element.split("[")[0]}\\b`)) || (object && isOther(`\\b${object}\\b(?!\\s{0,9}\\.)`));
    const isOwned = (it) => !unwritten.has(it.name) && (owners ? owners.get(it.name) === number : !it.isOfClass && isOwn(it.name) && !isHidden(it));
    this.own = [...variables.values()].filter((it) => it.order === "plain" && !it.isPointer && isOwned(it));
    if (returnsWord) this.locals.add(RESULT);
    // How many labels there are, and the variable that was loaded last.
    Object.assign(this, { isWide: false, labelCount: 0, loaded: null });
    this.loads = [];
    this.hasBranch = false;
    // The loops that store, at which it ends.
    this.entries = [];
    // For each `if` the branches of which a run comes to one, each with the branches around it: the statements of the `if`, those of its `else`, or those
    // that follow it if it returns.
    this.entered = [];
    // The formula of the end of each loop that waits and of each lock; and the variables of loops that exchange, with the words that these may have.
    this.waits = [];
    this.isWaiting = false;
    this.pairs = [];
    // The number of guards before the function of the statement, whose mutexes are not unlocked at its `return`, which jumps to a label.
    this.outerGuardCount = 0;
    this.end = END;
    // Whether constants say that no run comes to the next statement.
    this.isOver = false;
    // The branches around the last load: the index of their `if`, and the comparisons that hold in them.
    this.loadedBranches = [];
    // The formulas that it asserts, of sites; the first statement that does; and the number of loops that wait before it.
    this.asserted = [];
    this.assertion = null;
    this.waitCount = 0;
    // The indices of branches around an assertion, whose conditions have registers if it is to be written.
    this.unkept = [];
  }

  /** Writes all instructions. Returns this writer. Throws NoTest at a statement that is not rewritten, and if there are too few registers. */
  writeThread() {
    for (const variable of this.own) {
      const word = this.words.get(variable.name);
      this.declareLocal(variable, word ? String(word) : "");
      this.known.add(variable.name);
    }
    this.firstValues.clear();
    this.writeStatements(readStatements(this.code, this.names), true);
    const known = [...this.exits, this.known].reduce(joinPaths, null);
    this.known = new Set([...known].filter((it) => this.locals.has(it)));
    this.endFunction();
    if (this.labels.length) this.instructions.push(`${this.labels.join(": ")}:`);
    const needed = this.registers.length + Number(this.instructions.some((it) => it.includes(SPARE)));
    if (needed > REGISTERS.X86.length) refusePart({ code: this.name, index: this.head }, OF_REGISTERS);
    this.instructions = this.instructions.map((it) => it.replaceAll(SPARE, REGISTERS.X86[this.registers.length]));
    return this;
  }

  /** Returns the names of its shared variables with registers that it changes, and whose initial words it may have used before. */
  listUnset() {
    const code = replaceNames(this.code.code, this.names);
    const isSetFirst = (name) => {
      const pattern = new RegExp(`\\b${name}\\b`);
      const [first] = code.slice(code.search(pattern)).split(";", 1);
      return this.firstValues.get(name) && /^\w+\s*=(?!=)/.test(first) && first.split(pattern).length === 2;
    };
    return this.own.map((it) => it.name).filter((it) => this.firstValues.has(it) && !isSetFirst(it));
  }

  /** Returns a new label. */
  makeLabel() {
    this.labelCount += 1;
    return `L${this.labelCount}`;
  }

  /** Writes statements, and unlocks what guards in them have locked. `isLast` says that none follows them in the thread. */
  writeStatements(statements, isLast) {
    const guardCount = this.guards.length;
    for (const [at, statement] of statements.entries()) {
      this.statement = statement;
      if (!this.known && this.isOver) break;
      if (!this.known) this.refuseStatement(OF_UNREACHED);
      const isEnd = isLast && at === statements.length - 1 && this.guards.length === guardCount;
      if (statement.block) this.writeBlock(statement.block, isEnd);
      else if (statement.then) this.writeBranch(statement, isEnd);
      else if (statement.condition !== undefined) this.writeWaiting(statement);
      else this.writeSimple(this.squeeze(statement.code), isEnd);
      if (this.writeRest(statements.slice(at + 1), isLast && this.guards.length === guardCount)) break;
    }
    if (this.known) this.unlockGuards(guardCount);
    this.guards.length = guardCount;
  }

  /** Returns the variables that are known if comparisons hold, and if they don't all hold. */
  splitKnown() {
    return [this.known, new Set(this.known)];
  }

  /** Writes the rest of statements otherwise than one after another. Returns whether it does. */
  writeRest() {
    return false;
  }

  /** Writes statements, after which the variables that they declare can't be used. */
  writeBlock(statements, isLast) {
    const outer = new Set(this.locals);
    this.writeStatements(statements, isLast);
    for (const name of this.locals) {
      if (outer.has(name)) continue;
      [this.locals, this.limits, this.known].forEach((it) => it?.delete(name));
    }
  }

  /** Records a loop that stores, at which the thread ends. Throws NoTest if it is in a branch or in another function, or a mutex is locked then. */
  enterStoring() {
    if (this.isHerd || this.frames?.length || this.branches.length || this.exits.length || this.guards.length) this.refuseStatement(OF_STORING);
    this.entries.push(this.statement);
  }

  /** Returns the squeezed code of a condition. */
  readCondition(condition) {
    return this.squeeze(condition);
  }

  /** Writes an `if`: its comparisons jump over its first branch, which jumps over the second one if there is one. */
  writeBranch({ condition, then, otherwise, isEntry }, isLast) {
    this.hasBranch = true;
    if (isEntry) this.enterStoring();
    const other = isLast && !otherwise.length ? this.end : this.makeLabel();
    const end = isLast ? this.end : otherwise.length ? this.makeLabel() : other;
    const { index } = this.statement;
    const depth = this.branches.length;
    const comparisons = this.writeCondition(this.readCondition(condition), other);
    const settingCounts = comparisons.map((it) => this.countSettings(it.variable));
    const negated = { index, comparisons: negateComparisons(comparisons), whole: comparisons, isNegated: true, settingCounts };
    this.branches.push({ index, comparisons, whole: comparisons, settingCounts });
    const entered = [[...this.branches]];
    this.entered.push(entered);
    const [inside, before] = this.splitKnown(comparisons);
    this.known = inside;
    this.writeBlock(then, isLast && !otherwise.length);
    this.branches.length = depth;
    const after = this.known;
    this.known = before;
    if (otherwise.length) {
      if (after) this.writeInstruction(`JMP ${end}`);
      this.labels.push(other);
      this.branches.push(negated);
      entered.push([...this.branches]);
      this.writeBlock(otherwise, isLast);
      this.branches.length = depth;
    }
    // What follows is as in the other branch if the first one returns.
    if (!after && !otherwise.length) {
      this.branches.push({ ...negated, isLeft: true });
      entered.push([...this.branches]);
    }
    this.known = joinPaths(after, this.known);
    const isTarget = this.instructions.some((it) => it.endsWith(` ${end}`));
    if (!isLast && isTarget) this.labels.push(end);
  }

  /**
   * Writes one pass of a loop that only waits: the loop ends as its last pass does, and those before change nothing. Its registers are not set again, so
   * that a question can ask how it ended. Throws NoTest if it does more, or if it may not be reached and then seems to wait.
   */
  writeWaiting({ condition, assigns, calls, inner }) {
    if (calls.some((it) => this.isCalled(it))) this.refuseStatement(OF_LOOPS);
    const { loaded, loadedBranches } = this;
    const code = this.squeeze(condition);
    const [comparison, another] = parseCondition(code) ?? [];
    if (!inner.every((it) => this.isOfLoads(it))) this.refuseStatement(OF_LOOPS);
    const isExchange = !another && !assigns && EXCHANGE.test(comparison?.sides[0]);
    const isSingle = comparison && !another;
    const wait = isExchange ? this.writeExchanges(comparison) : isSingle ? this.writeLoads(comparison, assigns) : this.writePass(code, assigns);
    this.addWait(wait);
    Object.assign(this, { loaded, loadedBranches, isWaiting: true });
  }

  /** Returns whether a condition only loads shared variables. */
  isOfLoads(condition) {
    const formula = parseFormula(this.squeeze(condition));
    return formula !== null && !hasName(formula, (it) => !this.variables.has(it));
  }

  /** Returns whether a name is that of a function or a method of the program. */
  isCalled(name) {
    return this.functions.has(name) || [...this.functions.values()].some((it) => it.name === name);
  }

  /** Records when a loop or a lock ends. Throws NoTest if it may not be reached, and then seems to wait, unless its registers are 0 then. */
  addWait(end) {
    const isReached = !this.branches.length && !this.exits.length;
    if (!isReached && (!isTrueOfZeros(end) || hasName(end, (it) => this.isSetElsewhere(it)))) this.refuseStatement(OF_BRANCHES);
    this.waits.push(end);
  }

  /** Returns whether the register of a site may have another word than 0 on a path that does not come to the statement. */
  isSetElsewhere(site) {
    const variable = this.registers[REGISTERS.X86.indexOf(site.split(":")[1])];
    const isHere = ({ branches, exit }) => exit === this.exits.at(-1) && this.branches.every((it, at) => it === branches[at]);
    return (this.settings.get(variable) ?? []).some((it) => it.word !== 0 && !isHere(it));
  }

  /** Returns a name of a variable with a register that no other one has. */
  nameVariable(name, use, number = 1) {
    // One of these names is new, since there are more of them than registers.
    const names = [...REGISTERS.X86, ""].map((_, at) => `${name} ${use}${number + at > 1 ? ` ${number + at}` : ""}`);
    return names.find((it) => !this.registers.includes(it));
  }

  /** Loads a variable in place of a loop that waits. Returns an atom that says whether it is a word. */
  loadAwaited(load, place, word, isEqual) {
    const { name } = this.parseOperation(load);
    const number = this.waits.length + 1;
    const variable = place ?? (number > 1 ? this.nameVariable(name, "after loop", number) : this.nameVariable(name, "after its loop"));
    this.assignLocal(variable, load);
    this.fixed.add(variable);
    const { isPlain, limit } = this.accesses.at(-1);
    if (isPlain) this.refuseStatement(OF_PLAIN_LOOPS);
    return { name: this.makeSite(variable), word, isEqual, limit };
  }

  /** Writes the load of a loop that compares one load with a constant. Returns the formula of its end. */
  writeLoads({ sides: [value, other], isEqual }, assigns) {
    const word = parseConstant(other);
    const isAssigned = assigns && assigns.startsWith(`${value}=`);
    const [, place, load] = AWAITED.exec(isAssigned ? this.squeeze(assigns) : assigns ? "" : value) ?? [];
    const isLoad = load && parseConstant(load) === null && !this.locals.has(load) && (!place || this.locals.has(place));
    if (word === null || !isLoad) this.refuseStatement(OF_LOOPS);
    return negateAtom(this.loadAwaited(load, place, word, isEqual));
  }

  /** Writes the loads of a loop that compares several ones, with jumps past those that it leaves out. Returns the formula of its end. */
  writePass(code, assigns) {
    const formula = assigns ? null : parseFormula(code);
    if (!formula || hasName(formula, (it) => this.locals.has(it))) this.refuseStatement(OF_LOOPS);
    const end = this.makeLabel();
    const written = this.writeFormula(formula, end, end);
    if (this.instructions.some((it) => it.endsWith(` ${end}`))) this.labels.push(end);
    return mapAtoms(negateFormula(written), normalizeAtom);
  }

  /**
   * Writes the loads of a formula, and jumps to labels if it is false, and if it is true. What follows is meant by null in place of one, and if both are
   * the same. Returns the formula of its registers.
   */
  writeFormula({ sign, parts, code, word, isEqual }, whenFalse, whenTrue) {
    if (!sign) {
      const atom = this.loadAwaited(code, undefined, word, isEqual);
      if (whenFalse !== whenTrue) {
        this.writeInstruction(`CMP ${atom.name.split(":")[1]},$${word}`);
        this.writeInstruction(`${isEqual === (whenTrue === null) ? "JNE" : "JE"} ${whenTrue ?? whenFalse}`);
      }
      return atom;
    }
    const isAnd = sign === "/\\";
    const end = this.makeLabel();
    const [early, late] = isAnd ? [whenFalse, whenTrue] : [whenTrue, whenFalse];
    const first = isAnd ? [early ?? end, null] : [null, early ?? end];
    const written = parts.map((it, at) => this.writeFormula(it, ...(at < parts.length - 1 ? first : isAnd ? [early, late] : [late, early])));
    if (early === null) this.labels.push(end);
    return { sign, parts: written };
  }

  /**
   * Writes one exchange in place of a loop of them, which is enough if each that fails writes the word that it has read. Returns the formula of its end.
   */
  writeExchanges({ sides: [value, other], isEqual }) {
    const last = parseConstant(other);
    const operation = this.parseCall(value);
    const word = parseConstant(operation.value);
    if (operation.kind !== "exchange" || last === null || word === null || isEqual !== (word === last)) this.refuseStatement(OF_LOOPS);
    const variable = this.nameVariable(operation.name, "at its lock");
    this.writeOperation(operation, this.findRegister(variable));
    if (!isEqual) this.pairs.push({ statement: this.statement, name: operation.name, words: [word, last] });
    return negateAtom({ name: this.makeSite(variable), word: last, isEqual, limit: this.accesses.at(-1).limit });
  }

  /**
   * Writes the instructions that jump to a label if a condition is false. Returns its comparisons: of a variable that has a register, or null, with a
   * word, or null.
   */
  writeCondition(condition, label) {
    return (parseCondition(condition) ?? this.refuseStatement(OF_CONDITIONS)).map(({ sides: [value, other], isEqual }) => {
      if (this.locals.has(other) && parseStep(value)?.place === other) this.refuseStatement(OF_STEPS);
      const isKept = this.kept.includes(this.statement.index) && (AWAITED.test(value) || EXCHANGE.test(value));
      const variable = this.known.has(value) ? value : isKept ? this.keepLoad(value) : null;
      const register = variable === null ? SPARE : this.findRegister(variable);
      if (register === SPARE) this.writeValue(value, SPARE);
      this.writeInstruction(`CMP ${register},${this.findOperand(other) ?? this.refuseStatement(OF_SIDES)}`);
      this.writeInstruction(`${isEqual ? "JNE" : "JE"} ${label}`);
      return { variable, word: parseConstant(other), isEqual, other };
    });
  }

  /** Loads or exchanges a shared variable of a condition into one of its own, which is not that which is loaded last. Returns its name. */
  keepLoad(load) {
    const { loaded, loadedBranches } = this;
    const variable = this.loadShared(load, "in its condition");
    return Object.assign(this, { loaded, loadedBranches }) && variable;
  }

  /** Writes a statement that has no statements in it: a declaration, a fence, a `return`, or an operation. */
  writeSimple(statement, isLast) {
    if (SHADOWING.test(statement)) this.refuseStatement(OF_NAMES);
    if (UNENDED.test(statement)) this.refuseStatement(OF_MARKS);
    if (defineName(statement, this.names) || this.writeMutex(statement)) return;
    if (this.functions.has(/^\w+(?=\()/.exec(statement)?.[0])) this.refuseStatement(OF_FUNCTIONS);
    const declared = parseDeclaration(statement);
    for (const variable of declared) {
      if (variable.isPointer || variable.element) this.refuseStatement();
      // A compiler may make an exchange, which waits, of an assignment to a variable that is atomic.
      if (variable.order === "seq_cst") this.refuseStatement(OF_ATOMICS);
      if (this.variables.has(variable.name) || this.hasLocal(variable.name)) this.refuseStatement(OF_NAMES);
      if (/^static (?!const )/.test(statement)) this.refuseStatement(OF_STATIC);
      this.declareLocal(variable, variable.value);
    }
    const [isReturn, result = ""] = RETURN.exec(statement) ?? [];
    const [, condition] = ABORT.test(statement) ? [null, "false"] : ASSERTION.exec(statement) ?? [];
    if (FENCE.test(statement)) this.writeInstruction("MFENCE");
    else if (condition) this.writeAssertion(condition);
    else if (OUTPUT.test(statement)) this.writeOutput(this.squeeze(removeStrings(this.statement.code)));
    else if (isReturn) this.writeReturn(result, isLast);
    else if (!declared.length && !NO_FENCE.test(statement) && !this.isUseOfParameter(statement)) this.writeAssignment(statement);
  }

  /** Loads a shared variable that has no register, into one of its own, which gets a name that no other one has. Returns this name. */
  loadShared(load, use) {
    const { name } = this.parseOperation(load);
    const variable = [`${name} ${use}`, ...REGISTERS.X86.map((_, number) => `${name} ${use} ${number + 2}`)]
      .find((it) => !this.known.has(it) && !this.fixed.has(it));
    this.locals.add(variable);
    this.assignLocal(variable, load);
    return variable;
  }

  /** Writes the loads of an assertion, and records what it asserts if it is reached. Throws NoTest if it is of more than relations of variables. */
  writeAssertion(condition) {
    const isFalse = FALSE.test(condition);
    const formula = isFalse ? { sign: "\\/", parts: [] } : parseFormula(condition, parseRelation) ?? this.refuseStatement(OF_ASSERTIONS);
    const reached = this.findReached();
    if (isFalse && !reached.length) this.refuseStatement(OF_ALWAYS);
    if (!this.assertion) Object.assign(this, { assertion: this.statement, waitCount: this.waits.length });
    mapAtoms(formula, ({ operands = [] }) => {
      if (operands.filter((it) => !this.known.has(it.name)).length > 1) this.refuseStatement(OF_LOADS);
    });
    const asserted = mapSites(formula, (name, code) => this.fixSite(this.known.has(name) ? name : this.loadShared(code, "as asserted")));
    const parts = [...reached.map(negateFormula), ...(isFalse ? [] : [asserted])];
    this.asserted.push(parts.length > 1 ? { sign: "\\/", parts } : parts[0]);
  }

  /** Returns the site of a variable with a register, which is not set again. */
  fixSite(variable) {
    this.fixed.add(variable);
    return this.makeSite(variable);
  }

  /**
   * Returns the formulas that say of final states whether the statement is reached: all of them hold. Throws NoTest if a branch around it has no
   * formula of variables with registers that are not set again. Then `unkept` has the indices of the branches.
   */
  findReached() {
    this.unkept = this.branches.map((it) => it.index);
    if (this.exits.length !== this.branches.filter((it) => it.isLeft).length) this.refuseStatement(OF_RETURNS);
    return this.branches.map(({ whole, isNegated, settingCounts }) => {
      if (whole.some((it, at) => it.variable === null || this.countSettings(it.variable) !== settingCounts[at])) this.refuseStatement(OF_BRANCHED);
      const parts = whole.map((it) => this.makeReachedAtom(it));
      const formula = parts.length > 1 ? { sign: "/\\", parts } : parts[0];
      return isNegated ? negateFormula(formula) : formula;
    });
  }

  /** Returns the atom of a comparison of a branch, or the relation of two variables. */
  makeReachedAtom({ variable, word, isEqual, other }) {
    const site = this.fixSite(variable);
    if (word !== null) return { name: site, word, isEqual };
    return { code: "{0}=={1}", operands: [{ site }, { site: this.fixSite(other) }], isEqual };
  }

  /** Returns how often a variable with a register was set up to here. */
  countSettings(variable) {
    return this.settings.get(variable)?.length ?? 0;
  }

  /** Writes the load of the shared variable that an output prints, if it prints one. */
  writeOutput(code) {
    const isCall = OUTPUT.exec(code)[1] !== undefined;
    const values = isCall ? splitOutside(code.slice(code.indexOf("(") + 1, -1), ",") : splitOutside(code, "<<").slice(1);
    const others = values.filter((it) => !PRINTED.test(it) && parseConstant(it) === null && !this.known.has(it));
    if (others.some((it) => !AWAITED.test(it) || it.includes("="))) this.refuseStatement(OF_OUTPUT);
    if (others.length > 1) this.refuseStatement(OF_LOADS);
    others.forEach((it) => this.loadShared(it, "as printed"));
  }

  /** Returns whether a statement only says that a parameter is not used. */
  isUseOfParameter(statement) {
    const [, name] = NO_USE.exec(statement) ?? [];
    return name !== undefined && !this.isHerd && this.parameters.endsWith(name) && !this.variables.has(name);
  }

  /** Returns whether a variable of a name can be used here, so that no other one has this name. */
  hasLocal(name) {
    return this.locals.has(name);
  }

  /** Declares a variable that has a register, and assigns the code of its initial value, unless that is empty. */
  declareLocal({ name, limit, isWide }, value) {
    this.locals.add(name);
    if (limit < WORD) this.limits.set(name, limit);
    if (isWide) this.isWide = true;
    if (value) this.assignLocal(name, value);
  }

  /** Writes a `return`, with the code of its value or "". What `main` is not asked for is not set. */
  writeReturn(result, isLast) {
    const value = !this.isHerd && NOTHING.test(result) && (this.isStarted || !this.returnsWord) ? "" : result;
    if (value && !this.returnsWord) this.refuseStatement(this.isHerd ? OF_RETURN_IN_HERD : OF_RETURN);
    if (value) this.assignLocal(RESULT, value);
    this.leaveFunction(isLast);
  }

  /** Puts the label after a function to which some of it jumps. A jump to the next instruction is left out. */
  endFunction() {
    if (!this.labels.length && this.instructions.at(-1) === `JMP ${this.end}`) this.instructions.pop();
    if (this.instructions.some((it) => it.endsWith(` ${this.end}`))) this.labels.push(this.end);
  }

  /** Writes what a `return` does besides its value. */
  leaveFunction(isLast) {
    this.unlockGuards(this.outerGuardCount);
    this.exits.push(this.known);
    this.known = null;
    if (!isLast) this.writeInstruction(`JMP ${this.end}`);
  }

  /** Writes an assignment, a step, or a call whose result is not used. */
  writeAssignment(statement) {
    const [, place, sign, value] = ASSIGNMENT.exec(convertStep(statement)) ?? [];
    if (!place) this.writeOperation(this.parseCall(statement));
    else if (!this.locals.has(place)) this.writeOperation(this.makeOperation(place, sign, value));
    else this.assignLocal(place, sign ? this.makeSum(place, sign, value) : value);
  }

  /** Writes the instructions that set a register to 1 if a condition holds, and otherwise to 0. */
  writeTruth(condition, register) {
    this.writeChoice({ condition, then: "1", otherwise: "0" }, register);
  }

  /** Writes the instructions that set a register to one of two values. Throws NoTest if a value accesses memory, or changes a variable. */
  writeChoice({ condition, then, otherwise }, register) {
    const [other, end] = [this.makeLabel(), this.makeLabel()];
    this.writeCondition(condition, other);
    const count = this.accesses.length;
    if ([then, otherwise].some((it) => !it || OF_STEP.test(it))) this.refuseStatement();
    this.writeValue(then, register);
    this.writeInstruction(`JMP ${end}`);
    this.labels.push(other);
    this.writeValue(otherwise, register);
    this.labels.push(end);
    if (this.accesses.length > count) this.refuseStatement(OF_CHOICES);
  }

  /** Writes the instructions that set a register to a value, which may be chosen by `?`. */
  writeValue(code, register) {
    const choice = parseChoice(code);
    if (choice) this.writeChoice(choice, register);
    else super.writeValue(code, register);
  }

  /** Writes the instructions that set a variable with a register. Throws NoTest if its words are below a limit, and the value may not be. */
  assignLocal(name, value) {
    const count = this.accesses.length;
    if (this.fixed.has(name)) this.refuseStatement(OF_FIXED);
    if (!this.firstValues.has(name)) this.firstValues.set(name, !this.branches.length && !this.exits.length);
    this.recordSetting(name, parseConstant(value));
    const [isTruth, isChoice] = [isCondition(value), parseChoice(value) !== null];
    if (isTruth) this.writeTruth(value, this.findRegister(name));
    else this.writeValue(value, this.findRegister(name));
    this.known.add(name);
    const [access, another] = this.accesses.slice(count);
    const limit = this.limits.get(name) ?? WORD;
    const isLoaded = access?.limit <= limit && !another && !isChoice && !/^(?:\w+: )*ADD\b/.test(this.instructions.at(-1));
    if (limit < WORD && !isTruth && !isLoaded && !isBelow(limit, value)) this.refuseStatement(explainLimit(limit));
    if (!access || access.isWrite || isTruth || isChoice) return;
    Object.assign(this, { loaded: name, loadedBranches: [...this.branches] });
    this.loads.push({ variable: name, location: access.name });
  }
}
