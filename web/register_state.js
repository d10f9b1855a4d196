// The registers and locations of a thread while its instructions are written as those of lw, and what lw's code is so far. Not proved.
//
// A `Content` is what is known of a register of 64 bits: its lowest bits, `known` in number, are the word of the register that lw has for it, as a number; the
// bits above these are not known, as those that a write of 8 bits leaves. (A function that returns a `bool` leaves them so, too: by the calling convention its
// caller looks at the lowest 8 bits only.) Its words are those of possible_words.js.

import { ANY, compareWords, findCondition, getOnly, joinWords, makeWords } from "./possible_words.js";

const WORD = 2 ** 32;
const UNKNOWN = { known: 0, ...ANY };
const OF_WIDTHS = "a location of lw is one word, so all accesses of a variable are to have one size";
const OF_LARGE = "the value may not fit into the bits that it reads or writes";
const OF_PART = "it reads more bits of a register than are set before it: extend them, as by `movzx`";
/** Why flags are refused. */
export const OF_FLAGS = "a branch reads flags after it that lw does not have";
/** The conditions that are the opposite of lw's. */
export const OPPOSITE = { e: "ne", ne: "e" };
const OF_SPARE = "no register is free: lw has six";

/** Why an instruction is not rewritten: the rest of the sentence. */
export class Refusal extends Error {
  constructor(why, step = null) {
    super(why);
    this.step = step;
  }
}

/** The possible words of the locations of all threads, and their widths. A sum has at most `limit`. */
export class SharedWords {
  constructor(initial, limit) {
    Object.assign(this, { words: new Map(), widths: new Map(), initial, limit, isChanged: false });
  }

  /** Returns the possible words of a location that is accessed in some width. */
  access(name, width) {
    if ((this.widths.get(name) ?? width) !== width) throw new Refusal(OF_WIDTHS);
    this.widths.set(name, width);
    if (!this.words.has(name)) this.words.set(name, makeWords([this.initial(name, width)]));
    return this.words.get(name);
  }

  /** Adds words that a location may have. */
  store(name, width, words) {
    const before = this.access(name, width);
    const joined = joinWords(before, words);
    const max = joined.list ? joined.max : Math.max(before.max, Math.min(WORD - 1, 2 ** width - 1, this.limit));
    this.isChanged ||= max > before.max || joined.list?.length !== before.list?.length;
    this.words.set(name, { list: joined.list, max });
  }
}

/** Writes lw's instructions of a thread, and follows what is in its registers. */
export class RegisterState {
  /**
   * Makes a state before the first step. `names` has the register of lw for each of the thread's, `spare` those that are free, and `begin` the words of
   * registers, or null if these have none.
   */
  constructor(shared, names, spare, begin) {
    Object.assign(this, { shared, names, spare, begin, lines: [], pending: [], taken: 0, labelCount: 0 });
    this.contents = new Map();
    this.flags = begin ? { pairs: [[1, 0]], width: 32 } : null;
    this.changes = [];
    // Set where no run comes.
    this.isImpossible = false;
  }

  /** Returns a copy of what is known. */
  save() {
    return { contents: new Map(this.contents), flags: this.flags, changes: this.changes, isImpossible: this.isImpossible };
  }

  /** Sets what is known. */
  restore({ contents, flags, changes, isImpossible }) {
    Object.assign(this, { contents: new Map(contents), flags, changes, isImpossible });
  }

  /** Writes an instruction of lw. */
  emit(code) {
    this.lines.push({ labels: this.pending, code, step: this.step });
    this.pending = [];
  }

  /** Returns a new label. */
  makeLabel() {
    this.labelCount += 1;
    return `S${this.labelCount}`;
  }

  /** Returns the free register at an index, of which the thread uses no more than are taken. */
  takeSpare(index = 0) {
    if (!this.spare[index]) throw new Refusal(OF_SPARE);
    this.taken = Math.max(this.taken, index + 1);
    return this.spare[index];
  }

  /** Returns what is in a register. */
  getContent(register) {
    const begin = this.begin ? { known: 64, ...makeWords([this.begin.get(register) ?? 0]) } : UNKNOWN;
    return this.contents.get(register) ?? begin;
  }

  /** Returns the possible words of the lowest bits of a register. */
  read(register, width) {
    const { known, list, max } = this.getContent(register);
    if (known < width) throw new Refusal(known ? OF_PART : `\`${register.toLowerCase()}\` has no value before it: set it, as by \`mov\``);
    if (max >= 2 ** width) throw new Refusal(OF_LARGE);
    return { list, max };
  }

  /** Records that the lowest bits of a register have some words. A write of 32 bits sets the upper ones to 0, and one of fewer bits leaves them. */
  write(register, width, words) {
    const { known, list, max } = this.getContent(register);
    if (words.max >= 2 ** width) throw new Refusal(OF_LARGE);
    const isLeft = width < 32 && !(known > width && max < 2 ** width);
    const isSame = (it) => list?.length === 1 && list[0] === it.word;
    // An exchange that found the word that it wrote has changed nothing.
    const others = this.changes.filter((it) => it.register !== register || !isSame(it));
    this.changes = others.map((it) => (it.register === register ? { ...it, register: null } : it));
    if (this.flags?.register === register) this.flags = { ...this.flags, register: undefined };
    this.contents.set(register, { known: isLeft ? width : width < 32 ? known : 64, list: words.list, max: words.max });
  }

  /** Records that a register has an unknown word. */
  forget(register) {
    this.write(register, 64, ANY);
    this.contents.set(register, UNKNOWN);
  }

  /** Returns a number as a word of some width. */
  toWord(number, width) {
    if (width === 64 && (number < 0 || number >= WORD)) throw new Refusal(OF_LARGE);
    if (Math.abs(number) >= 2 ** Math.min(width, 32)) throw new Refusal(OF_LARGE);
    return width === 64 ? number : (number + 2 ** width) % 2 ** width;
  }

  /** Returns an operand as lw writes it, and its possible words. A location is loaded into a register. */
  take(part, width, index = 0) {
    if (part?.number !== undefined) {
      const word = this.toWord(part.number, width);
      return { text: `$${word}`, words: makeWords([word]) };
    }
    if (part?.register) return { text: this.names.get(part.register), words: this.read(part.register, width) };
    if (!part?.location) throw new Refusal("");
    const words = this.shared.access(part.location, width);
    const text = this.takeSpare(index);
    this.emit(`MOV ${text},[${part.location}]`);
    return { text, words };
  }

  /** Records that a location may have some words. */
  share(location, width, words) {
    this.shared.access(location, width);
    if (!this.isImpossible) this.shared.store(location, width, words);
  }

  /** Writes the store of a register or a number. */
  store(location, width, text, words) {
    if (words.max >= 2 ** width) throw new Refusal(OF_LARGE);
    this.share(location, width, words);
    this.changes = [...this.changes, { step: this.step, register: null }];
    this.emit(`MOV [${location}],${text}`);
  }

  /** Records that a location was exchanged for words, and that its old word is in a register. */
  exchange(location, width, words, register) {
    const old = this.shared.access(location, width);
    if (words.max >= 2 ** width) throw new Refusal(OF_LARGE);
    this.share(location, width, words);
    this.write(register, width, old);
    const word = getOnly(words);
    this.changes = [...this.changes, { step: this.step, register: word === undefined ? null : register, word }];
  }

  /** Sets a register, which may be that of a part, to what another one has, or a constant. */
  set(to, width, text, words) {
    const name = this.names.get(to.register);
    if (text !== name) this.emit(`MOV ${name},${text}`);
    this.write(to.register, width, words);
  }

  /** Sets the flags by a word that is in a register. */
  setFlags(to, width) {
    this.flags = null;
    if (!this.areFlagsRead) return;
    this.emit(`CMP ${this.names.get(to.register)},$0`);
    this.flags = { ...compareWords(this.read(to.register, width), makeWords([0]), width), register: to.register, constant: 0 };
  }

  /** Records that the flag of lw says whether a result is 0. */
  keepFlag(words, width, register = undefined) {
    this.flags = { ...compareWords(words, makeWords([0]), width), isZero: true, register, constant: 0 };
  }

  /** Sets a register to 0. */
  clear({ width, operands: [to] }) {
    this.set(to, width, "$0", makeWords([0]));
    this.setFlags(to, width);
  }

  /** Writes a fence in place of what is locked on the stack and changes nothing there. */
  fence() {
    if (this.areFlagsRead) throw new Refusal(OF_FLAGS);
    this.emit("MFENCE");
  }

  /** Records that no branch may read the flags. */
  forgetFlags() {
    if (this.areFlagsRead) throw new Refusal(OF_FLAGS);
    this.flags = null;
  }

  /** Returns which condition of lw is that of a branch. */
  findCondition(condition) {
    if (condition === "mp") return "always";
    if (this.flags && /^n?e$/.test(condition)) return this.flags.isTurned ? OPPOSITE[condition] : condition;
    const found = this.flags && findCondition(this.flags, condition);
    if (!found) throw new Refusal(this.flags ? "lw's jumps are `JE` and `JNE`: compare with one word" : OF_FLAGS);
    return found;
  }

  /** Sets a register of lw to one of two constants, by a condition. */
  choose(name, condition, [yes, no]) {
    this.emit(`MOV ${name},$${condition === "never" ? no : yes}`);
    if (!OPPOSITE[condition]) return makeWords([condition === "never" ? no : yes]);
    const label = this.makeLabel();
    this.emit(`J${condition.toUpperCase()} ${label}`);
    this.emit(`MOV ${name},$${no}`);
    this.pending = [...this.pending, label];
    return makeWords([yes, no]);
  }
}

/**
 * Returns what is known after two ways on which different things are known.
 * @param {object | undefined} one
 * @param {object} other
 * @returns {object}
 */
export function joinStates(one, other, begin) {
  if (!one || one.isImpossible) return other;
  if (other.isImpossible) return one;
  const contents = new Map();
  for (const register of new Set([...one.contents.keys(), ...other.contents.keys()])) {
    const [first, second] = [one, other].map((it) => it.contents.get(register) ?? begin(register));
    contents.set(register, { known: Math.min(first.known, second.known), ...joinWords(first, second) });
  }
  const isSame = JSON.stringify(one.flags) === JSON.stringify(other.flags);
  const isKnown = [one, other].every(({ flags }) => flags && !flags.isTurned);
  const flags = isSame ? one.flags : isKnown ? { pairs: null, width: 32 } : null;
  return { contents, flags, changes: [...new Set([...one.changes, ...other.changes])], isImpossible: false };
}
