// Writes the instructions of values in C: constants, variables of a thread, sums, and operations on shared variables. Not proved.
//
// The records `Part` and `Declaration` are those of c_reader.js, and `Statement` is that of c_statements.js.
// An `Operation` has its `kind` (load, store, exchange, fetch_add or fetch_sub), its `order`, the `name` of a shared variable, which `isPointer` if
// the code uses it as one, and the code of the `value` that it stores or adds, or "".
// An `Access` has the number of its `thread`, and the `name` of its location. It `isPlain`, `isRead` if its result is used, and `isWrite`, or not, and
// its words are below the `limit`. The `word` is the constant that it writes, or null, and
// `added` the constant that it adds, or null. It `isLocked` if its load and its store are one instruction. It `isSure` if all runs of its thread do it.
// The `around` are the branches that it is in, the innermost one last; the `exitCount` is the number of returns before it.

import { MOST_ELEMENTS, parseConstant, refusePart, replaceNames, squeezeCode } from "./c_code.js";
import { explainCondition, explainStatement, isCondition, OF_INDICES, OF_LENGTH, parseChoice, removeOuterParentheses, splitTerms } from "./c_statements.js";
import { REGISTERS, WORD } from "./token_reader.js";

// The patterns are of squeezed code. A call: the groups are its kind, an order in its name, a `&`, the variable, a value, and an order.
const CALL = /^atomic_(load|store|exchange|fetch_(?:add|sub))(?:_explicit|_(relaxed|acquire|release))?\((&?)(\w+),?(.*?)(?:,?memory_order_(\w+))?\)$/;
// A variable, or what a pointer points to.
const PLACE = /^\*?\w+$/;
// `x++`, and `++x`: the groups are the place and the sign, and again the sign and the place.
const STEP = /^(?:(\w+|\(\*\w+\))([+-])\2|([+-])\3(\*?\w+|\(\*\w+\)))$/;
const ASSIGNMENT_IN_VALUE = /(?<![=!<>])=(?!=)/;
const STEP_KINDS = { "+": "fetch_add", "-": "fetch_sub" };
// The kinds and orders of which gcc and clang make the same code.
const SAME_CODE =
  /^(?:load (?:plain|relaxed|consume|acquire)|store (?:plain|relaxed|release)|exchange (?:consume|acquire|acq_rel)|fetch_\w+ \w+|\w+ seq_cst)$/;
// Why a statement is refused.
const NO_ORDER = ": no order of memory has this name; they are `relaxed`, `consume`, `acquire`, `release`, `acq_rel` and `seq_cst`";
const ORDER = /^(?:relaxed|consume|acquire|release|acq_rel|seq_cst|plain)$/;
const OF_ORDER = ", of which compilers make different code";
const OF_ASSIGNMENTS = ": write each assignment as a statement of its own";
const OF_CONSTANTS = ": a constant is decimal, or `0x` and hexadecimal, of 32 bits";
/** Why two loads in one statement are refused, as the end of a sentence. */
export const OF_LOADS = ": load each shared variable into one of the thread first, since compilers choose which is first";
/** Why a thread is refused that has more variables than registers, as the end of a sentence. */
export const OF_REGISTERS = ", which needs more than six registers";
/** Why a step of a thread's own variable is refused in a value, as the end of a sentence. */
export const OF_STEPS = ": write `++` and `--` of a thread's own variable in a statement of its own";
// Why such a step of a variable that is not atomic is refused.
const OF_PLAIN_STEPS = ": write `++` and `--` of a variable that is not atomic in a statement of its own";
/** Why a difference is refused, as the end of a sentence. */
export const OF_SUBTRACTION = ": the x86 format subtracts constants only";
const OF_SUMS = ": give what is added a variable of its own";
// Why a value of a `bool` and of a variable of few bits is refused.
const OF_BOOLS = ": a `bool` is set to `true`, `false`, or another `bool` that is loaded";
const OF_SMALL = ": a variable of 8 or 16 bits is set to a constant from 0 to 127, or to another one that is loaded";
/** What is in place of a register that no variable of its thread has, until all variables have theirs. */
export const SPARE = "?";

/**
 * Returns whether code is a constant below a limit, or a choice of such.
 * @param {number} limit
 * @param {string} code
 * @returns {boolean}
 */
export function isBelow(limit, code) {
  const choice = parseChoice(code);
  if (choice) return isBelow(limit, choice.then) && isBelow(limit, choice.otherwise);
  const word = parseConstant(code);
  return word !== null && word < limit;
}

/**
 * Returns why a variable is refused whose words would not be below a limit, as the end of a sentence.
 * @param {number} limit
 * @returns {string}
 */
export function explainLimit(limit) {
  return limit === 2 ? OF_BOOLS : OF_SMALL;
}

/** Returns the word of a sum or a difference of words. */
function toWord(number) {
  return ((number % WORD) + WORD) % WORD;
}

/** Returns a name or a constant without the parentheses around it, or code that is neither. */
function removeParentheses(code) {
  const inner = removeOuterParentheses(code);
  return /^-?\w+$/.test(inner) ? inner : code;
}

/** Returns whether an operation of a kind adds to a variable. */
function isStep(kind) {
  return kind.startsWith("fetch");
}

/** Returns the word that an operation of a kind adds to a variable; null if it is not constant. */
function findSum(kind, value) {
  const word = parseConstant(value);
  return word === null ? null : toWord(kind === "fetch_sub" ? -word : word);
}

/** Returns the constant that a store adds to the word of its own variable; null if it does not. */
function findAdded({ name, isPointer, value }) {
  const terms = splitTerms(removeOuterParentheses(value));
  const others = terms.filter(({ sign, term }) => sign === "-" || term !== (isPointer ? `*${name}` : name));
  const words = others.map(({ sign, term }) => Number(`${sign}1`) * (parseConstant(term) ?? NaN));
  const sum = words.reduce((all, it) => all + it, 0);
  return others.length === terms.length - 1 && !Number.isNaN(sum) ? toWord(sum) : null;
}

/**
 * Returns the place of a step, its sign, and whether it is before the place; null if code is no step. The place of `(*x)++` is `*x`.
 * @param {string} code
 * @returns {{place: string, sign: string, isBefore: boolean} | null}
 */
export function parseStep(code) {
  const [, lastPlace, lastSign, firstSign, firstPlace] = STEP.exec(code) ?? [];
  const place = lastPlace ?? firstPlace;
  return place ? { place: place.replace(/[()]/g, ""), sign: lastSign ?? firstSign, isBefore: lastPlace === undefined } : null;
}

/** Writes the instructions of values and operations of a thread. Which variables can be used is set from outside. */
export class ValueWriter {
  /**
   * Makes a writer for a thread, given its number, the shared variables, and the values of names. Nothing is written yet.
   * @param {number} number
   * @param {Map<string, Declaration>} variables
   * @param {Map<string, string>} names
   */
  constructor(number, variables, names) {
    Object.assign(this, { number, variables, names: new Map(names) });
    this.instructions = [];
    this.accesses = [];
    // The labels of the next instruction.
    this.labels = [];
    // The variables that have registers, in the order of these.
    this.registers = [];
    // The variables with registers that can be used here: the limits of those of few bits, and those that have a value on all paths to here. No
    // path comes here if these are null.
    this.locals = new Set();
    this.limits = new Map();
    this.known = new Set();
    // Of each variable with a register that is set, whether all runs do the first assignment to it.
    this.firstValues = new Map();
    // Where each is set: with which constant, or null, in which branches, and after which `return`.
    this.settings = new Map();
    // Those that are not set again, since a question asks of the value that they have.
    this.fixed = new Set();
    // The branches around a statement, and the variables that have a value at each `return`.
    this.branches = [];
    this.exits = [];
    // What is refused.
    this.statement = null;
  }

  /** Throws NoTest for the statement, with the end of a sentence. */
  refuseStatement(why) {
    const { code, condition } = this.statement;
    refusePart(this.statement, why ?? (condition === undefined ? explainStatement(this.squeeze(code)) : explainCondition(this.squeeze(condition))));
  }

  /** Returns squeezed code with the values of names in place of these. */
  squeeze(code) {
    return squeezeCode(replaceNames(code, this.names));
  }

  /** Writes an instruction, with the labels before it. */
  writeInstruction(instruction) {
    this.instructions.push([...this.labels, instruction].join(": "));
    this.labels = [];
  }

  /** Returns the register of a variable, which has one from here on. Throws NoTest if all registers are of others. */
  findRegister(variable) {
    if (!this.registers.includes(variable)) this.registers.push(variable);
    if (this.registers.length > REGISTERS.X86.length) refusePart({ code: this.name, index: this.head }, OF_REGISTERS);
    return REGISTERS.X86[this.registers.indexOf(variable)];
  }

  /** Returns the site of a variable in a question. */
  makeSite(variable) {
    return `${this.number}:${this.findRegister(variable)}`;
  }

  /** Returns the constant or the register that an instruction has for a value; null if it is neither. */
  findOperand(value) {
    const word = parseConstant(value);
    if (word !== null) return `$${word}`;
    return this.known.has(value) ? this.findRegister(value) : null;
  }

  /** Records that a variable with a register is set here, to a constant or to another word, which is null. */
  recordSetting(name, word) {
    const settings = this.settings.get(name) ?? [];
    settings.push({ word, branches: [...this.branches], exit: this.exits.at(-1) });
    this.settings.set(name, settings);
  }

  // Values.

  /** Writes the instructions that set a register to a value: a sum, or one term. */
  writeValue(code, register) {
    if (ASSIGNMENT_IN_VALUE.test(code)) this.refuseStatement(OF_ASSIGNMENTS);
    const value = removeOuterParentheses(code);
    const terms = splitTerms(value).map(({ sign, term }) => ({ sign, term: removeParentheses(term) }));
    if (terms.length > 1) this.writeSum(terms, register);
    else this.writeTerm(value, register);
  }

  /** Writes a sum of constants, variables of the thread, and one operation at most, which comes first. */
  writeSum(terms, register) {
    const others = terms.filter(({ term }) => parseConstant(term) === null);
    const operations = others.filter(({ term }) => !this.known.has(term));
    if (others.some(({ sign }) => sign === "-")) this.refuseStatement(OF_SUBTRACTION);
    if (operations.length > 1) this.refuseStatement(OF_LOADS);
    if (operations.some(({ term }) => this.locals.has(parseStep(term)?.place))) this.refuseStatement(OF_STEPS);
    // A register that is itself a term is the first one, and may be added to itself then. Otherwise the sum is made in another register.
    const isSelf = ({ term }) => this.findOperand(term) === register;
    const selves = others.filter(isSelf);
    const target = selves.length > 2 || (selves.length && operations.length) ? SPARE : register;
    const ordered = [...operations, ...selves, ...others.filter((it) => !operations.includes(it) && !isSelf(it))];
    const constants = terms.filter((it) => !others.includes(it));
    const sum = toWord(constants.reduce((all, { sign, term }) => all + Number(`${sign}1`) * parseConstant(term), 0));
    this.writeTerm(ordered[0]?.term ?? String(sum), target);
    for (const { term } of ordered.slice(1)) this.writeInstruction(`ADD ${target},${this.findOperand(term)}`);
    if (constants.length && ordered.length) this.writeInstruction(`ADD ${target},$${sum}`);
    if (target !== register) this.writeInstruction(`MOV ${register},${target}`);
  }

  /** Writes the instructions that set a register to a term: a constant, a variable, or the result of an operation. */
  writeTerm(value, register) {
    const operand = this.findOperand(value);
    const step = parseStep(value);
    if (operand === register) return;
    if (operand) this.writeInstruction(`MOV ${register},${operand}`);
    else if (step && this.locals.has(step.place)) this.writeOwnStep(step, register);
    else {
      this.writeOperation(this.parseOperation(value), register);
      if (step?.isBefore) this.writeInstruction(`ADD ${register},$${toWord(Number(`${step.sign}1`))}`);
    }
  }

  /** Writes a step of a variable with a register, whose value before or after it another register gets. */
  writeOwnStep({ place, sign, isBefore }, register) {
    const own = this.findRegister(place);
    if (own === register || !this.known.has(place) || this.limits.has(place) || this.fixed.has(place)) this.refuseStatement(OF_STEPS);
    if (!this.firstValues.has(place)) this.firstValues.set(place, false);
    this.recordSetting(place, null);
    const step = `ADD ${own},$${toWord(Number(`${sign}1`))}`;
    const copy = `MOV ${register},${own}`;
    for (const instruction of isBefore ? [step, copy] : [copy, step]) this.writeInstruction(instruction);
  }

  /** Returns the operation of a value: a load by the name of a variable, a step, or a call. */
  parseOperation(value) {
    const step = parseStep(value);
    if (step) {
      const operation = this.makeOperation(step.place, step.sign, "1");
      return operation.kind === "store" ? this.refuseStatement(OF_PLAIN_STEPS) : operation;
    }
    return PLACE.test(value) ? this.makeOperation(value) : this.parseCall(value);
  }

  // Operations.

  /**
   * Returns the operation of an operator: an addition if there is a sign, a store if there is only a value, and otherwise a load. An addition to a
   * variable that is not atomic is a store of a sum. Throws NoTest if the variable is not shared, and at a step of one that is not atomic in a value,
   * which compilers store at different places.
   */
  makeOperation(place, sign = "", value = "") {
    const name = place.replace("*", "");
    const { order } = this.findShared(name, place !== name);
    const common = { order, name, isPointer: place !== name };
    if (!sign || order === "seq_cst") return { kind: STEP_KINDS[sign] ?? (value ? "store" : "load"), ...common, value };
    return { kind: "store", ...common, value: this.makeSum(place, sign, value) };
  }

  /** Returns the sum of a place and a value, or their difference. Throws NoTest if the value binds less than its sign. */
  makeSum(place, sign, value) {
    if (sign === "-" && parseConstant(value) === null) this.refuseStatement(OF_SUBTRACTION);
    if (isCondition(value) || parseChoice(value)) this.refuseStatement(OF_SUMS);
    return `${place}${sign}@${value}`;
  }

  /** Returns the declaration of a shared variable, which code uses as a pointer or not. Throws NoTest if it is none of these. */
  findShared(name, isPointer) {
    if (/^\d/.test(name)) this.refuseStatement(OF_CONSTANTS);
    if (this.locals.has(name)) this.refuseStatement(`: \`${name}\` ${this.known.has(name) ? "is not shared" : "has no value on some path to here"}`);
    const index = new RegExp(`\\b${name}\\[(\\d+)\\]`).exec(this.squeeze(this.statement.condition ?? this.statement.code))?.[1];
    if (index >= MOST_ELEMENTS && this.variables.has(`${name}_${MOST_ELEMENTS - 1}`)) this.refuseStatement(OF_LENGTH);
    const isArray = this.variables.get(`${name}_0`)?.element || new RegExp(`\\b${name}\\s{0,9}\\[`).test(this.statement.condition ?? this.statement.code);
    const variable = this.variables.get(name) ?? this.refuseStatement(isArray ? OF_INDICES : `: \`${name}\` is not declared`);
    if (isPointer && !variable.isPointer) this.refuseStatement(`: \`${name}\` is no pointer, as \`&${name}\` is`);
    if (variable.order === "mutex") this.refuseStatement(`: \`${name}\` is a mutex, which is only locked and unlocked`);
    if (!isPointer && variable.isPointer) this.refuseStatement(`: \`${name}\` is a pointer to \`*${name}\``);
    return variable;
  }

  /** Returns the operation of a call. Throws NoTest if it is none. */
  parseCall(code) {
    const [, kind, namedOrder = "seq_cst", ampersand, name, value, order = namedOrder] = CALL.exec(code) ?? [];
    if (!kind) this.refuseStatement();
    return { kind, order, name, isPointer: !ampersand, value };
  }

  /** Throws NoTest if its variable has no such operation, or compilers make different code of it. `hasResult` says that its result is used. */
  checkOperation({ kind, order, name, isPointer, value }, hasResult) {
    const variable = this.findShared(name, isPointer);
    const isLoad = kind === "load";
    if (isLoad !== !value || (kind === "store" && hasResult)) this.refuseStatement();
    const isLimited = variable.limit < WORD && !isLoad;
    if (isLimited && (isStep(kind) || !isBelow(variable.limit, value))) this.refuseStatement(explainLimit(variable.limit));
    if (kind === "fetch_sub" && parseConstant(value) === null) this.refuseStatement(OF_SUBTRACTION);
    // A compiler may make a load of an addition that is not seq_cst if it finds that it adds 0.
    if (!ORDER.test(order)) this.refuseStatement(NO_ORDER);
    const isIdle = isStep(kind) && order !== "seq_cst" && !parseConstant(value);
    if (isIdle || !SAME_CODE.test(`${kind} ${order}`)) this.refuseStatement(OF_ORDER);
  }

  /** Writes the instructions of an operation. Its result is in a register, if one is given. */
  writeOperation(operation, register) {
    this.checkOperation(operation, register !== undefined);
    const { kind, order, name, value } = operation;
    const { limit } = this.variables.get(name);
    const isSure = !this.branches.length && !this.exits.length;
    const isPlain = order === "plain";
    const isRead = kind !== "store" && register !== undefined;
    const word = isStep(kind) ? null : parseConstant(value);
    const added = isStep(kind) ? findSum(kind, value) : kind === "store" ? findAdded(operation) : null;
    const around = [...this.branches];
    const common = { limit, word, added, isLocked: kind !== "store", isSure, around, exitCount: this.exits.length };
    this.accesses.push({ thread: this.number, name, isPlain, isRead, isWrite: kind !== "load", ...common });
    const target = register ?? SPARE;
    if (kind === "load") this.writeInstruction(`MOV ${target},[${name}]`);
    else if (kind === "store" && order !== "seq_cst") this.writeStore(operation);
    else {
      this.writeValue(kind === "fetch_sub" ? String(added) : value, target);
      this.writeInstruction(`${isStep(kind) ? "LOCK XADD" : "XCHG"} [${name}],${target}`);
    }
  }

  /** Writes the instructions of a store that is not seq_cst. */
  writeStore({ name, value }) {
    const operand = this.findOperand(value);
    if (!operand) this.writeValue(value, SPARE);
    this.writeInstruction(`MOV [${name}],${operand ?? SPARE}`);
  }
}
