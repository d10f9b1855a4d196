// Writes sums and differences of assembly as instructions of lw that do the same. Not proved.
//
// The record `Operation` is that of assembly_operations.js, and `Words` are those of possible_words.js.

import { isClearing } from "./assembly_operations.js";
import { ANY, combineWords, getOnly, joinWords, makeWords } from "./possible_words.js";
import { OF_FLAGS, OPPOSITE, Refusal, RegisterState } from "./register_state.js";

const WORD = 2 ** 32;
/** Why a sum is refused. */
export const OF_SUM = "the sum may not fit into the bits that it is written to: use 32";

/** Writes steps that are sums. */
export class SumWriter extends RegisterState {
  /** Returns the possible words of a sum, of which the second part may be subtracted. */
  add(one, by, width, sign = 1) {
    const isWrapping = width === 32;
    const sum = combineWords(one, by, (left, right) => left + sign * right);
    const [min, max] = sum?.list ? [Math.min(...sum.list), sum.max] : [sign > 0 ? 0 : -1, Math.min(one.max + by.max, this.shared.limit)];
    if (isWrapping && sum?.list) return makeWords(sum.list.map((it) => (it + WORD) % WORD));
    if (isWrapping) return min < 0 || max >= WORD ? ANY : { list: null, max };
    if (min < 0 || max >= 2 ** Math.min(width, 32)) throw new Refusal(OF_SUM);
    return sum ?? { list: null, max };
  }

  writeSum(operation) {
    const { name, width, isLocked, operands: [to, from = { number: 1 }] } = operation;
    if (isClearing(operation)) return this.clear(operation);
    const isLess = /^(?:sub|dec)$/.test(name);
    const [part, sign] = this.toAddend(from, width, isLess);
    if (to.isStack && isLocked && from.number === 0) return this.fence();
    if (to.location) return this.addToLocation(to.location, width, part, sign, isLocked);
    if (to.register === "RSP") return this.forgetFlags();
    if (!to.register) throw new Refusal("");
    const { text, words } = this.take(part, width);
    const result = this.add(this.read(to.register, width), words, width, sign);
    this.emit(`ADD ${this.names.get(to.register)},${sign < 0 ? this.negate(words) : text}`);
    this.write(to.register, width, result);
    return this.keepFlag(result, width, to.register);
  }

  /** Returns a part that is added, and the sign with which it is: of what is subtracted only a constant is known. */
  toAddend(from, width, isLess) {
    if (width === 32 && from.number !== undefined) return [{ number: isLess ? -from.number : from.number }, 1];
    if (from.number < 0) return [{ number: -from.number }, isLess ? 1 : -1];
    if (!isLess) return [from, 1];
    const word = from.register ? getOnly(this.read(from.register, width)) : from.number;
    if (word === undefined) throw new Refusal("");
    return [{ number: word }, -1];
  }

  /** Returns the constant that is added in place of one that is subtracted. */
  negate({ list: [word] }) {
    return `$${(WORD - word) % WORD}`;
  }

  /** Adds to a location: in one step if that is locked. */
  addToLocation(location, width, part, sign, isLocked) {
    const spare = this.takeSpare();
    const before = this.shared.access(location, width);
    const { text, words } = this.take(part, width, 1);
    const result = this.add(before, words, width, sign);
    const addend = sign < 0 ? this.negate(words) : text;
    if (isLocked) {
      this.emit(`MOV ${spare},${addend}`);
      this.emit(`LOCK XADD [${location}],${spare}`);
      this.share(location, width, result);
      this.changes = [...this.changes, { step: this.step, register: null }];
    } else {
      this.emit(`MOV ${spare},[${location}]`);
      this.emit(`ADD ${spare},${addend}`);
      this.store(location, width, spare, result);
    }
    this.keepFlag(result, width);
  }

  writeExchangeSum({ width, isLocked, operands: [to, from] }) {
    if (!to.location || !from?.register) throw new Refusal("");
    const name = this.names.get(from.register);
    const before = this.shared.access(to.location, width);
    const result = this.add(before, this.read(from.register, width), width);
    if (isLocked) {
      this.emit(`LOCK XADD [${to.location}],${name}`);
      this.share(to.location, width, result);
      this.changes = [...this.changes, { step: this.step, register: null }];
    } else {
      const { text } = this.take(to, width);
      this.emit(`ADD ${name},${text}`);
      this.store(to.location, width, name, result);
      this.emit(`MOV ${name},${text}`);
    }
    this.write(from.register, width, before);
    this.keepFlag(result, width);
  }

  /** A sum with the carry flag, or a difference, is one of two sums; the flag of lw says which. */
  writeCarry({ name, width, operands: [to, from] }) {
    const found = this.findCondition("b");
    if (this.areFlagsRead) throw new Refusal(OF_FLAGS);
    if (!to.register || width !== 32) throw new Refusal("");
    const register = this.names.get(to.register);
    if (name === "sbb" && to.register === from.register) this.write(to.register, width, this.choose(register, found, [WORD - 1, 0]));
    else {
      const sign = name === "sbb" ? -1 : 1;
      const added = [sign * from.number, sign * (from.number + 1)];
      const skipped = added.indexOf(0);
      if (skipped < 0 || !OPPOSITE[found]) throw new Refusal("");
      const before = this.read(to.register, width);
      const sum = this.add(before, makeWords([(added[1 - skipped] + WORD) % WORD]), width);
      const label = this.makeLabel();
      this.emit(`J${(skipped ? found : OPPOSITE[found]).toUpperCase()} ${label}`);
      this.emit(`ADD ${register},$${(added[1 - skipped] + WORD) % WORD}`);
      this.pending = [...this.pending, label];
      this.write(to.register, width, joinWords(before, sum));
    }
    this.flags = null;
  }

  /** An address is a sum of registers, of which some are added twice or more often, and a number. */
  writeAddress({ width, operands: [to, { address }] }) {
    if (this.areFlagsRead) throw new Refusal(OF_FLAGS);
    const registers = (address ?? []).flatMap((it) => Array.from({ length: it.register ? it.scale : 0 }, () => it.register));
    const own = registers.filter((it) => it === to.register);
    if (!address || width < 32 || own.length > 2 || registers.length > 5) throw new Refusal("");
    const offset = address.reduce((sum, it) => sum + (it.number ?? 0), 0);
    const words = [...registers.map((it) => this.read(it, width)), makeWords([Math.abs(offset)])];
    const result = words.reduce((all, it, at) => this.add(all, it, width, at === registers.length && offset < 0 ? -1 : 1), makeWords([0]));
    const name = this.names.get(to.register);
    const [first, ...others] = [...own, ...registers.filter((it) => it !== to.register)].map((it) => this.names.get(it));
    if (first !== name) this.emit(`MOV ${name},${first}`);
    for (const it of others) this.emit(`ADD ${name},${it}`);
    if (offset) this.emit(`ADD ${name},$${(offset + WORD) % WORD}`);
    this.write(to.register, width, result);
    this.flags = null;
  }
}
