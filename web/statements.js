// Reads the cells of a test: statements of the source language, instructions of x86, and their labels. Not proved.
//
// A `Statement` has a `kind` and, if it has one, a `register`, a `location`, a `value`, the first register of a sum (`left`), and the position that its
// jump targets (`target`; while a thread is read that is a label). A `Value` is { number } or { register }. Registers and locations are indices. A reader
// passes on the NoTest that TokenReader throws.

import { TokenReader, isReserved } from "./token_reader.js";
import { NoTest } from "./tokens.js";

const MAX_STATEMENTS = { SRC: 16, X86: 32 };

/**
 * Reads a number, in an x86 test with a `$` before it or without, or a register.
 * @param {TokenReader} reader
 * @returns {Value}
 */
function readValue(reader) {
  if (reader.test.language === "X86" && reader.next === "$") {
    reader.takeToken("$");
    return { number: reader.readNumber() };
  }
  return reader.kind === "number" ? { number: reader.readNumber() } : { register: reader.readRegister() };
}

/**
 * Reads a statement of a source test. Throws NoTest if it is none.
 * @param {TokenReader} reader
 * @returns {Statement}
 */
function readStatement(reader) {
  if (reader.next === "if") return readConditionalJump(reader);
  if (reader.next === "goto") {
    reader.takeToken("goto");
    return { kind: "goto", target: reader.readName() };
  }
  const register = reader.findRegister(reader.next ?? "");
  if (register === null) {
    const location = reader.readLocation();
    reader.takeToken(":=");
    return { kind: "store", location, value: readValue(reader) };
  }
  reader.takeToken();
  reader.takeToken(":=");
  return readAssignment(reader, register);
}

/**
 * Reads `if r = n goto L`, or one with `!=`. Throws NoTest if it has another sign.
 * @param {TokenReader} reader
 * @returns {Statement}
 */
function readConditionalJump(reader) {
  reader.takeToken("if");
  const register = reader.readRegister();
  const sign = reader.takeToken();
  if (sign !== "=" && sign !== "!=") throw new NoTest(`${sign} compares nothing`);
  const number = reader.readNumber();
  reader.takeToken("goto");
  return { kind: sign === "=" ? "if equal" : "if unequal", register, value: { number }, target: reader.readName() };
}

/**
 * Reads what follows `d :=` for a register d.
 * @param {TokenReader} reader
 * @param {number} register
 * @returns {Statement}
 */
function readAssignment(reader, register) {
  if (reader.next === "swap" || reader.next === "fetchadd") {
    const kind = reader.takeToken();
    const location = reader.readLocation();
    return { kind, register, location, value: { register: reader.readRegister() } };
  }
  if (reader.kind === "number") return { kind: "set", register, value: { number: reader.readNumber() } };
  if (reader.next === null || reader.findRegister(reader.next) === null) {
    return { kind: "load", register, location: reader.readLocation() };
  }
  const left = reader.readRegister();
  if (reader.next !== "+") return { kind: "set", register, value: { register: left } };
  reader.takeToken("+");
  return { kind: "sum", register, value: readValue(reader), left };
}

/**
 * Reads an instruction of an x86 test. Throws NoTest if it is none that lw has.
 * @param {TokenReader} reader
 * @returns {Statement}
 */
function readInstruction(reader) {
  const mnemonic = reader.readName().toUpperCase();
  if (mnemonic === "MFENCE") return { kind: "mfence" };
  if (["JE", "JNE", "JMP"].includes(mnemonic)) return { kind: mnemonic.toLowerCase(), target: reader.readName() };
  if (mnemonic === "MOV") return readMove(reader);
  if (mnemonic === "ADD" || mnemonic === "CMP") {
    const register = reader.readRegister();
    reader.takeToken(",");
    return { kind: mnemonic.toLowerCase(), register, value: readValue(reader) };
  }
  const isLocked = mnemonic === "LOCK";
  const locked = isLocked ? reader.readName().toUpperCase() : mnemonic;
  if (locked === "XCHG" || (locked === "XADD" && isLocked)) return readExchange(reader, locked.toLowerCase());
  throw new NoTest(`${locked} is not read`);
}

/**
 * Reads the operands of MOV.
 * @param {TokenReader} reader
 * @returns {Statement}
 */
function readMove(reader) {
  if (reader.next === "[") {
    const location = reader.readBracketedLocation();
    reader.takeToken(",");
    return { kind: "store", location, value: readValue(reader) };
  }
  const register = reader.readRegister();
  reader.takeToken(",");
  if (reader.next === "[") return { kind: "load", register, location: reader.readBracketedLocation() };
  return { kind: "set", register, value: readValue(reader) };
}

/**
 * Reads the operands of XCHG, in both orders, or of XADD, with the location first.
 * @param {TokenReader} reader
 * @param {string} kind
 * @returns {Statement}
 */
function readExchange(reader, kind) {
  if (reader.next === "[" || kind === "xadd") {
    const location = reader.readBracketedLocation();
    reader.takeToken(",");
    return { kind, register: reader.readRegister(), location };
  }
  const register = reader.readRegister();
  reader.takeToken(",");
  return { kind, register, location: reader.readBracketedLocation() };
}

/**
 * Reads the statements of a thread, and resolves its jumps. Throws NoTest if a cell has more than its statement, or the thread has too many.
 * @param {Test} test
 * @param {Token[][]} cells
 * @returns {Statement[]}
 */
export function readThread(test, cells) {
  const statements = [];
  const labels = new Map();
  for (const cell of cells) {
    const reader = new TokenReader(test, cell);
    while (reader.isBefore(":")) readLabel(reader, labels, statements.length);
    if (reader.next !== null) statements.push(test.language === "SRC" ? readStatement(reader) : readInstruction(reader));
    if (reader.next !== null) throw new NoTest(`${reader.next} comes after a statement`);
  }
  if (statements.length > MAX_STATEMENTS[test.language]) throw new NoTest("a thread has too many statements");
  return statements.map((it, position) => resolveJump(it, position, labels));
}

/**
 * Reads a label, and records its target: a statement's position. Throws NoTest if it is reserved, or defined twice in its thread.
 * @param {TokenReader} reader
 * @param {Map<string, number>} labels
 * @param {number} position
 */
function readLabel(reader, labels, position) {
  const label = reader.readName();
  if (labels.has(label) || isReserved(label)) throw new NoTest(`${label} can't be a label here`);
  labels.set(label, position);
  reader.takeToken(":");
}

/**
 * Returns the statement at a position, with the position that its jump targets in place of the label. Throws NoTest if there is no such label,
 * or the target does not follow the statement.
 * @param {Statement} statement
 * @param {number} position
 * @param {Map<string, number>} labels
 * @returns {Statement}
 */
function resolveJump(statement, position, labels) {
  if (statement.target === undefined) return statement;
  // A label that is missing counts as position 0, to which no jump leads forward.
  const target = labels.get(statement.target) ?? 0;
  if (target <= position) throw new NoTest(`a jump to ${statement.target} leads nowhere, or not forward`);
  return { ...statement, target };
}
