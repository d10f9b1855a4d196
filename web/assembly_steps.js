// Writes each instruction of assembly as instructions of lw that do the same. Not proved.
//
// The record `Operation` is that of assembly_operations.js, and `Words` are those of possible_words.js.

import { isClearing } from "./assembly_operations.js";
import { OF_SUM, SumWriter } from "./assembly_sums.js";
import { compareWords, getOnly, joinWords, makeWords } from "./possible_words.js";
import { OF_FLAGS, OPPOSITE, Refusal } from "./register_state.js";

const OF_CAS =
  "lw's machine has no compare-exchange. One that expects a constant and writes another one is read, as `XCHG`, if its variable has only these two words";
/** Why a call is refused. */
export const OF_CALL = "a test has no calls: let the compiler inline the function, and leave out assertions, as by `-DNDEBUG`";
const OF_END = "a test has no such end";
const BITWISE = { and: (one, by) => (one & by) >>> 0, or: (one, by) => (one | by) >>> 0, xor: (one, by) => (one ^ by) >>> 0 };
// Operations that have a method of the same name, or of this one.
const METHODS = {
  mov: "writeMove", movz: "writeMove", movs: "writeSigned", xchg: "writeExchange", xadd: "writeExchangeSum", cmpxchg: "writeCompareExchange",
  add: "writeSum", sub: "writeSum", inc: "writeSum", dec: "writeSum", cmp: "writeComparison", test: "writeTest", and: "writeBits", or: "writeBits",
  xor: "writeBits", neg: "writeNegation", not: "writeNegation", adc: "writeCarry", sbb: "writeCarry", lea: "writeAddress", set: "writeSet",
  cmov: "writeChoice", mfence: "writeFence", nop: "writeNothing", push: "writeNothing", pop: "writePop",
};

/** Writes steps, one after another. */
export class StepWriter extends SumWriter {
  /** Writes a step. `areFlagsRead` says that a branch may read its flags. */
  writeStep(step, areFlagsRead) {
    Object.assign(this, { step, areFlagsRead });
    const { operation, code } = step;
    if (/^(?:lock\s+)?cmpxchg(?:8|16)b/i.test(code)) throw new Refusal(OF_CAS);
    if (/^call/i.test(code)) throw new Refusal(OF_CALL);
    if (/^(?:ud2|hlt|int3?)\b/i.test(code)) throw new Refusal(OF_END);
    const method = METHODS[operation?.name];
    if (!method || (operation.isLocked && !/^(?:x?add|sub|inc|dec|and|x?or|xchg|cmpxchg)$/.test(operation.name))) throw new Refusal("");
    this[method](operation);
  }

  writeNothing() {}

  writePop({ operands: [to] }) {
    if (to?.register) this.forget(to.register);
    else throw new Refusal("");
  }

  writeFence() {
    this.emit("MFENCE");
  }

  writeMove({ width, from: narrow = width, operands: [to, from] }) {
    if (to.location) {
      const { text, words } = this.take(from, width);
      this.store(to.location, width, text, words);
    } else if (from?.location && to.register) {
      const words = this.shared.access(from.location, narrow);
      this.emit(`MOV ${this.names.get(to.register)},[${from.location}]`);
      this.write(to.register, width, words);
    } else if (to.register && from?.register && width >= 32 && narrow === width && this.getContent(from.register).known < width) {
      this.copyPart(to.register, from.register);
    } else if (to.register) {
      const { text, words } = this.take(from, narrow);
      this.set(to, width, text, words);
    } else throw new Refusal("");
  }

  /** Copies a register of which only the lowest bits are known. */
  copyPart(to, from) {
    const content = this.getContent(from);
    this.emit(`MOV ${this.names.get(to)},${this.names.get(from)}`);
    this.forget(to);
    this.contents.set(to, content);
  }

  writeSigned(operation) {
    const { width, from: narrow, operands: [to, from] } = operation;
    this.writeMove(operation);
    const { max, list } = from.location ? this.shared.access(from.location, narrow) : this.read(to.register, width);
    if (max < 2 ** (narrow - 1)) return;
    if (this.areFlagsRead || width === 64 || !list) throw new Refusal(OF_SUM);
    this.replace(to, width, (word) => (word >= 2 ** (narrow - 1) ? word + 2 ** width - 2 ** narrow : word));
  }

  /** Sets a register to what a function gives for its word, of which there are two at most. It changes the flag, if there are two. */
  replace(to, width, change) {
    const name = this.names.get(to.register);
    const { list } = this.read(to.register, width);
    if (!list) throw new Refusal("");
    const words = list.map(change);
    const [one, other] = words;
    if (words.some((it, at) => it !== list[at])) {
      if (words.some((it) => it !== one) && list.length > 2) throw new Refusal("");
      const isOne = words.every((it) => it === one);
      const label = isOne ? "" : this.makeLabel();
      if (!isOne) this.emit(`CMP ${name},$${list[0]}`);
      this.emit(`MOV ${name},$${one}`);
      if (!isOne) {
        this.emit(`JE ${label}`);
        this.emit(`MOV ${name},$${other}`);
        this.pending = [...this.pending, label];
      }
    }
    this.write(to.register, width, makeWords(words));
  }

  writeExchange({ width, operands }) {
    const [to, from] = operands[0].location ? operands : [...operands].reverse();
    if (!from?.register) throw new Refusal("");
    const name = this.names.get(from.register);
    const words = this.read(from.register, width);
    if (to.location) {
      this.exchange(to.location, width, words, from.register);
      this.emit(`XCHG [${to.location}],${name}`);
    } else {
      const other = this.read(to.register, width);
      if (to.register === from.register) return this.write(to.register, width, other);
      const spare = this.takeSpare();
      for (const it of [`${spare},${name}`, `${name},${this.names.get(to.register)}`, `${this.names.get(to.register)},${spare}`]) this.emit(`MOV ${it}`);
      this.write(from.register, width, other);
      this.write(to.register, width, words);
    }
    return undefined;
  }

  /** Where the variable has only the two words an exchange does the same: it writes the new word over the expected one, or over itself. */
  writeCompareExchange({ width, isLocked, operands: [to, from] }) {
    if (!to.location || !from?.register || !isLocked) throw new Refusal(OF_CAS);
    const words = this.read(from.register, width);
    const [word, expected] = [getOnly(words), getOnly(this.read("RAX", width))];
    const { list } = this.shared.access(to.location, width);
    if (word === undefined || expected === undefined || !list?.every((it) => it === word || it === expected)) throw new Refusal(OF_CAS);
    this.emit(`MOV EAX,$${word}`);
    this.emit(`XCHG [${to.location}],EAX`);
    if (this.areFlagsRead) this.emit(`CMP EAX,$${expected}`);
    this.exchange(to.location, width, words, "RAX");
    const old = this.getContent("RAX");
    this.flags = { ...compareWords(old, makeWords([expected]), width), isZero: true, register: "RAX", constant: expected };
    this.pairs.add(to.location);
  }

  writeComparison({ width, operands: [to, from] }) {
    if (to.number !== undefined) throw new Refusal("");
    const one = this.take(to, width);
    const other = this.take(from, width, Number(Boolean(to.location)));
    this.emit(`CMP ${one.text},${other.text}`);
    this.flags = { ...compareWords(one.words, other.words, width), register: to.register, constant: getOnly(other.words) };
  }

  /** A test of bits compares with the only word that lacks all of them, or, with the flag turned round, with the only other one. */
  writeTest({ width, operands: [to, from] }) {
    const one = this.take(to, width);
    const isSelf = to.register && to.register === from?.register;
    if (!isSelf && from?.number === undefined) throw new Refusal("");
    const mask = isSelf ? 2 ** Math.min(width, 32) - 1 : this.toWord(from.number, width);
    const isCovered = one.words.max <= mask && Number.isInteger(Math.log2(mask + 1));
    const isLacking = (word) => (word & mask) === 0;
    const lists = isCovered ? [[0]] : [one.words.list?.filter(isLacking), one.words.list?.filter((it) => !isLacking(it))];
    const isTurned = lists[0]?.length !== 1;
    const [word] = lists.find((it) => it?.length === 1) ?? [];
    if (word === undefined) throw new Refusal("");
    this.emit(`CMP ${one.text},$${word}`);
    this.flags = { ...compareWords(one.words, makeWords([word]), width), isZero: !isCovered, isTurned, register: to.register, constant: word };
  }

  /** Sets all bits of a register. */
  fill({ width, operands: [to] }) {
    const word = this.toWord(-1, width);
    this.set(to, width, `$${word}`, makeWords([word]));
    this.setFlags(to, width);
  }

  writeBits(operation) {
    const { name, width, isLocked, operands: [to, from] } = operation;
    if (isClearing(operation)) return this.clear(operation);
    const isSelf = to.register && to.register === from?.register;
    if (name === "or" && to.register && from?.number === -1) return this.fill(operation);
    const by = isSelf ? 0 : this.toWord(from?.number ?? NaN, width);
    if (Number.isNaN(by)) throw new Refusal("");
    const isNeutral = isSelf || by === (name === "and" ? 2 ** Math.min(width, 32) - 1 : 0);
    if (to.isStack && isLocked && isNeutral) return this.fence();
    if (to.location && isLocked && isNeutral) return this.addToLocation(to.location, width, { number: 0 }, 1, true);
    const results = to.location && isLocked && this.shared.access(to.location, width).list?.map((it) => BITWISE[name](it, by));
    if (results && results.every((it) => it === results[0])) return this.exchangeFor(to.location, width, results[0]);
    if (!to.register) throw new Refusal("");
    const isMask = name === "and" && Number.isInteger(Math.log2(by + 1)) && this.read(to.register, width).max <= by;
    if (!isNeutral && !isMask) this.replace(to, width, (word) => BITWISE[name](word, by));
    return this.setFlags(to, width);
  }

  /** Exchanges a location for a constant. */
  exchangeFor(location, width, word) {
    this.forgetFlags();
    const spare = this.takeSpare();
    this.emit(`MOV ${spare},$${word}`);
    this.emit(`XCHG [${location}],${spare}`);
    this.share(location, width, makeWords([word]));
    this.changes = [...this.changes, { step: this.step, register: null }];
  }

  writeNegation({ name, width, operands: [to] }) {
    if (!to.register || width > 32 || this.areFlagsRead) throw new Refusal("");
    this.replace(to, width, (word) => (name === "not" ? 2 ** width - 1 - word : (2 ** width - word) % 2 ** width));
    this.flags = null;
  }

  /** Returns whether a register has the word that says whether it is not 0: it was compared with 0, and it has no other words than 0 and 1. */
  isTruth(register, condition) {
    const { register: compared, constant, isTurned } = this.flags ?? {};
    const { list } = this.getContent(register);
    return condition === "ne" && !isTurned && compared === register && constant === 0 && Boolean(list?.every((it) => it === 0 || it === 1));
  }

  writeSet({ condition, operands: [to] }) {
    const found = this.findCondition(condition);
    if (to.register && this.isTruth(to.register, found)) return this.write(to.register, 8, this.read(to.register, 8));
    const name = to.register ? this.names.get(to.register) : this.takeSpare();
    const words = this.choose(name, found, [1, 0]);
    if (to.register) this.write(to.register, 8, words);
    else if (to.location) this.store(to.location, 8, name, words);
    else throw new Refusal("");
    return undefined;
  }

  writeChoice({ condition, width, operands: [to, from] }) {
    const found = this.findCondition(condition);
    const before = this.read(to.register, width);
    const source = from.location ? this.shared.access(from.location, width) : this.take(from, width).words;
    const isSkipped = found === "never";
    const label = this.makeLabel();
    if (OPPOSITE[found]) this.emit(`J${OPPOSITE[found].toUpperCase()} ${label}`);
    if (!isSkipped) this.emit(`MOV ${this.names.get(to.register)},${from.location ? `[${from.location}]` : this.names.get(from.register)}`);
    if (OPPOSITE[found]) this.pending = [...this.pending, label];
    this.write(to.register, width, isSkipped ? before : found === "always" ? source : joinWords(before, source));
  }
}
