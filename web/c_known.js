// Writes the instructions of a thread in C in which words of variables are known in the order of the program: those of the thread's own variables,
// and of shared ones that no other thread writes. So an index that a thread loads is one word of an array, as in a ring buffer. Not proved.
//
// A thread that is the only one to write a variable loads its own last word of it, from its buffer or from memory. Whether it is the only one is
// assumed while it is written, and checked in the accesses of all threads: till a first access breaks an assumption, all threads run as they are
// written.
// What is known on all paths to a statement is in `known` beside the variables that have a value: `h=1` of one of the thread, and `&head=1` of a
// shared one. `%h=1` says that the thread itself made this word: only by such words a branch is decided, and left out if it is not reached.

import { CallWriter } from "./c_calls.js";
import { MOST_ELEMENTS, replaceNames, squeezeCode } from "./c_code.js";
import { computeConstant, foldConstants } from "./c_constants.js";
import { resolvePlaces } from "./c_places.js";
import { OF_INDICES, OF_LENGTH, parseChoice } from "./c_statements.js";
import { SPARE } from "./c_values.js";
import { REGISTERS, WORD } from "./token_reader.js";

// An instruction that changes something: the groups are a location, the register that is exchanged with it, and another register.
const CHANGE = /(?:^|: )(?:MOV|ADD|XCHG|LOCK XADD) (?:\[(\w+)\],(\w+|[?$].*)|(\w+),)/;
const LOAD = /(?:^|: )MOV \w+,\[\w+\]$/;
// A name in squeezed code that is no place of an assignment, of a step, of an address or of a call.
const NAME = /(?<![\w.]|\+\+|--|->|(?:^|[^\w)\]&])&)[A-Za-z_]\w*\b(?!\(|\+\+|--|\.|->|\[|(?:[-+*/%&|^]|<<|>>)?=(?!=))/g;
const COMPUTED = /[\w)](?:[*/%^]|&(?!&)|\|(?!\|))|~|<<|>>/;
const NAMED_INDEX = /\w\s*(?:\[[^\][]*[A-Za-z_][^\][]*\]|\.\s*at\s*\([^()]*[A-Za-z_][^()]*\))/;
const INDEX = /\[([^\][]{1,80})\]/g;
// A load in squeezed code: the groups are the name of its variable. A value that is one, and the end of the instructions of a result.
const SHARED = new RegExp(
  "\\batomic_load(?:_explicit|_relaxed|_acquire)?\\(&(\\w+),?(?:memory_order_\\w+)?\\)|" +
    "(?<![\\w.]|->|(?:^|[^\\w)\\]&])&)([A-Za-z_]\\w*)\\b(?!\\(|\\.|->|\\[)",
  "g",
);
const LOADING = /^(?:[A-Za-z_]\w*|atomic_load\w{0,20}\([^()]*\))$/;
const RESULT_OF = /(?:^|: )(?:MOV \w+,\[\w+\]|(?:XCHG|LOCK XADD) \[\w+\],\w+)$/;
// A variable with more words is not known by trying them.
const MOST_WORDS = 4;
const OF_WORDS = ": an index is a constant, or comes from a variable that only this thread writes, and that has a known constant then";

/**
 * Returns the word that a variable has by what is known; null if it is not known.
 * @param {Iterable<string>} known
 * @param {string} key
 * @returns {number | null}
 */
export function findFact(known, key) {
  const fact = [...known].find((it) => it.startsWith(`${key}=`));
  return fact ? Number(fact.slice(key.length + 1)) : null;
}

/**
 * Returns whether code may have an index that is not a constant.
 * @param {string} code
 * @returns {boolean}
 */
export function hasNamedIndex(code) {
  return NAMED_INDEX.test(code);
}

/** Writes the instructions of a thread some words of which are known. */
export class KnownWriter extends CallWriter {
  /** Makes a writer of a thread, as a `CallWriter`. The program has the names of variables that are `unknowable` to each thread. */
  constructor(program, number, kept) {
    super(program, number, kept);
    this.unknowable = program.unknowable[number];
    // The shared variables that the thread seems to write.
    this.written = program.written[number];
    // The variables that no other thread may write, what is known at the begin of blocks, and the variable that the last statement loaded.
    this.assumed = new Set();
    this.facts = new Map();
    this.rests = new Map();
    this.split = null;
    this.isConditional = false;
    // The variables of the thread that it has loaded from those which other threads write, with the names of these.
    this.loadedFrom = new Map();
    // Where each variable of the thread has its words from, the words of shared ones, and the names of those whose words are used.
    this.origins = new Map();
    this.wordLists = program.wordLists;
    this.listed = new Set();
    // The shared variables that are in indices of the statement.
    this.indexed = new Set();
    // The variables of the thread before a loop that waits by a function, and how often something changes that such a loop may not change.
    this.waitingFor = null;
    this.changeCount = 0;
  }

  /** Writes all instructions, at the begin of which the initial words are known. */
  writeThread() {
    for (const [name, word] of this.words) this.learn(`&${name}`, word, this.written.has(name));
    return super.writeThread();
  }

  /** Throws NoTest for the statement, with the end of a sentence. */
  refuseStatement(why) {
    const { code, condition = code } = this.statement;
    const isOfIndex = why === OF_INDICES || (why === undefined && NAMED_INDEX.test(this.squeeze(condition)));
    const isComputed = why === undefined && COMPUTED.test(this.squeeze(condition));
    const unknown = isComputed && [...this.loadedFrom].find(([name]) => new RegExp(`\\b${name}\\b`).test(this.squeeze(condition)));
    if (isOfIndex && NAMED_INDEX.test(condition)) super.refuseStatement(OF_WORDS);
    super.refuseStatement(unknown ? `: \`${unknown[0]}\` is no known constant here, since another thread may write \`${unknown[1]}\`` : why);
  }

  // Words.

  /** Records the word of a variable, and whether the thread itself made it (`isOwn`). */
  learn(key, word, isOwn = false) {
    this.forget(key);
    if (!this.known || this.isConditional) return;
    this.known.add(`${key}=${word}`);
    if (isOwn) this.known.add(`%${key}=1`);
  }

  /** Removes what is known of a variable. */
  forget(key) {
    for (const it of this.known ?? []) if (it.startsWith(`${key}=`) || it.startsWith(`%${key}=`)) this.known.delete(it);
  }

  /** Returns whether the thread itself made all known words of variables in squeezed code. */
  isOwnWord(code) {
    const keys = (code.match(/[A-Za-z_]\w*/g) ?? []).map((it) => (this.locals.has(it) ? it : this.variables.has(it) ? `&${it}` : null));
    return keys.every((it) => it === null || this.findWord(`%${it}`) !== null);
  }

  /** Returns the word of a variable; null if it is not known. */
  findWord(key) {
    return findFact(this.known ?? [], key);
  }

  /** Records that a loop which waits by a function may change something here. */
  recordChange() {
    this.changeCount += 1;
    this.learn("!", this.changeCount);
  }

  /** Returns squeezed code with words in place of variables of the thread that are known, except some. In a condition (`isDeciding`) it made them. */
  fill(code, except = [], isDeciding = false) {
    return code.replace(NAME, (name) => {
      const isFilled = this.locals.has(name) && !except.includes(name) && (!isDeciding || this.isOwnWord(name));
      const word = isFilled ? this.findWord(name) : null;
      return word === null || word >= WORD / 2 ? name : String(word);
    });
  }

  /**
   * Returns squeezed code with words in place of shared variables that only this thread writes, if they are known, and the names of these. Where it
   * loads them does not matter then. In a condition (`isDeciding`) it made these.
   */
  fillShared(code, isDeciding = false) {
    const names = [];
    const filled = code.replace(SHARED, (whole, loaded, name = loaded) => {
      const isShared = this.variables.has(name) && !this.locals.has(name) && !this.unknowable.has(name) && !this.variables.get(name).isPointer;
      const word = isShared && (!isDeciding || this.isOwnWord(name)) ? this.findWord(`&${name}`) : null;
      if (word === null || word >= WORD / 2) return whole;
      names.push(name);
      return String(word);
    });
    return { filled, names: [...new Set(names)] };
  }

  /** Writes the loads of shared variables whose words are known. */
  loadKnown(names) {
    for (const name of names) {
      this.assumed.add(name);
      super.writeOperation({ ...this.makeOperation(name), kind: "load", order: this.variables.get(name).order, value: "" }, SPARE);
    }
  }

  /** Returns the number of squeezed code that may load variables only this thread writes, and writes these loads; null if it is not known. */
  computeLoading(code) {
    const number = this.compute(code);
    if (number !== null || this.isConditional || /(?<![=!<>])=(?!=)|\+\+|--/.test(code) || LOADING.test(code)) return number;
    const { filled, names } = this.fillShared(code);
    const found = names.length ? this.compute(filled) : null;
    if (found !== null) this.loadKnown(names);
    return found;
  }

  /** Returns the number of squeezed code; null if it is not known. In a condition (`isDeciding`) the thread made its words. */
  compute(code, isDeciding = false) {
    const choice = parseChoice(code);
    if (choice) {
      const number = this.compute(choice.condition, true);
      return number === null ? null : this.compute(number ? choice.then : choice.otherwise, isDeciding);
    }
    const filled = this.fill(code, [], isDeciding);
    return computeConstant(filled) ?? computeConstant(foldConstants(filled));
  }

  /** Returns the words that a variable may have which no other thread writes; null if they are too many, or not known. */
  listWords(name) {
    const written = this.accesses.filter((it) => it.isWrite && it.name === name).map((it) => it.word);
    const words = [...new Set([this.words.get(name), ...written])];
    return words.includes(null) || words.length > MOST_WORDS ? null : words;
  }

  // What changes them.

  /** Writes an instruction. What it changes is not known then. */
  writeInstruction(instruction) {
    super.writeInstruction(instruction);
    const [whole, location, exchanged, changed] = CHANGE.exec(instruction) ?? [];
    const register = changed ?? (/XCHG|XADD/.test(whole ?? "") ? exchanged : undefined);
    const variable = this.registers[REGISTERS.X86.indexOf(register)];
    if (location) this.forget(`&${location}`);
    if (variable) this.forget(variable);
    if (location || this.waitingFor?.has(variable)) this.recordChange();
  }

  /** Writes the instructions that set a variable with a register. */
  assignLocal(name, value) {
    const count = this.accesses.length;
    const { loaded, loadedBranches } = this;
    const isOwn = this.isOwnWord(value);
    const number = this.computeLoading(value);
    super.assignLocal(name, number === null ? value : String(number));
    if (this.findCall(value)) return;
    const [access, another] = this.accesses.slice(count);
    this.recordOrigin(name, number, another ? null : access);
    if (number !== null) this.learn(name, (number + WORD) % WORD, isOwn);
    else if (access && !another && !access.isWrite && LOAD.test(this.instructions.at(-1)) && this.learnLoad(name, access.name)) {
      // No question asks of what is known.
      Object.assign(this, { loaded, loadedBranches });
      this.loads.pop();
    }
  }

  /** Records where a variable of the thread has its word from: a number, or an access whose result it is. */
  recordOrigin(name, number, access) {
    const isResult = access && RESULT_OF.test(this.instructions.at(-1));
    const origin = number !== null ? { word: (number + WORD) % WORD } : isResult ? { name: access.name } : null;
    this.origins.set(name, [...this.origins.get(name) ?? [], origin]);
  }

  /** Records the word of a variable that the thread has loaded from a shared one. Returns whether it is one of some that are known. */
  learnLoad(variable, name) {
    const word = this.findWord(`&${name}`);
    if (this.unknowable.has(name)) this.loadedFrom.set(variable, name);
    if (this.unknowable.has(name) || this.isConditional) return false;
    const words = word === null ? this.listWords(name) : [word];
    if (!words) return false;
    if (words.length === 1) this.learn(variable, words[0], word === null ? this.written.has(name) : this.isOwnWord(name));
    else if (NAMED_INDEX.test((this.frames.at(-1) ?? this.called).code.code)) this.split = { variable, name, words, statement: this.statement };
    this.assumed.add(name);
    return true;
  }

  /** Declares a variable with a register. */
  declareLocal(variable, value) {
    const { name } = variable;
    this.forget(name);
    const number = value && this.isOwnWord(value) ? this.declareLoaded(variable, value) ?? this.computeLoading(value) : null;
    super.declareLocal(variable, number === null ? value : String(number));
    if (!value && !this.frames.length && this.own.some((it) => it.name === name)) this.learn(name, this.words.get(name), this.written.has(name));
  }

  /** Writes the load of a variable whose word is known into one of the thread that keeps it. Returns the word; null if it is no such load. */
  declareLoaded({ name }, value) {
    if (!LOADING.test(value) || this.isConditional || !this.isConstant(name)) return null;
    const { filled, names } = this.fillShared(value);
    const number = computeConstant(filled);
    if (number !== null) this.loadKnown(names);
    return number;
  }

  /** Writes the instructions of an operation. Its result is in a register, if one is given. */
  writeOperation(operation, register) {
    const { kind, name, value } = operation;
    const number = value ? this.computeLoading(value) : null;
    const [isOwn, isOwnBefore] = [!value || this.isOwnWord(value), this.isOwnWord(name)];
    const before = this.unknowable.has(name) ? null : this.findWord(`&${name}`);
    super.writeOperation(number === null ? operation : { ...operation, value: String(number) }, register);
    if (number !== null && before !== null && kind.startsWith("fetch")) {
      this.learn(`&${name}`, (before + (kind === "fetch_sub" ? -number : number) + WORD) % WORD, isOwn && isOwnBefore);
      this.assumed.add(name);
    }
    if (number !== null && /^(?:store|exchange)$/.test(kind)) this.learn(`&${name}`, (number + WORD) % WORD, isOwn);
  }

  // Statements.

  /** Returns the number of an index in squeezed code, and records the variables that the statement loads for it; null if it is not known. */
  computeIndex(code) {
    const { filled, names } = this.fillShared(code);
    const number = this.compute(filled);
    if (number >= MOST_ELEMENTS) this.refuseStatement(OF_LENGTH);
    if (number !== null) for (const it of names) this.indexed.add(it);
    return number;
  }

  /** Writes a statement, after the loads of the indices in it. */
  writeSimple(statement, isLast) {
    this.loadKnown(this.indexed);
    this.indexed.clear();
    super.writeSimple(statement, isLast);
    this.indexed.clear();
  }

  /** Returns squeezed code with the values of names in place of these, and known words in place of indices. */
  translate(code, names, hasConstants) {
    const isChanged = (name) => new RegExp(`(?:\\+\\+|--)\\s*${name}\\b|\\b${name}\\s*(?:\\+\\+|--)`).test(code);
    const filled = code.replace(INDEX, (whole, index) => {
      const inner = resolvePlaces(replaceNames(index, names), this.program);
      const number = (index.match(/[A-Za-z_]\w*/g) ?? []).some(isChanged) ? null : this.computeIndex(squeezeCode(inner));
      return number === null || number < 0 ? whole : `[${number}]`;
    });
    return super.translate(filled, names, hasConstants);
  }
}
