// Takes the tokens of a test from left to right: numbers, names, registers, locations and sites. A fault is thrown as NoTest. Not proved.

import { NoTest } from "./tokens.js";

export const WORD = 2 ** 32;
export const REGISTERS = {
  SRC: ["r0", "r1", "r2", "r3", "r4", "r5"],
  X86: ["EAX", "EBX", "ECX", "EDX", "ESI", "EDI"],
};
const RESERVED = /^(?:r\d+|if|goto|swap|fetchadd|exists|forall|locations|filter|true|false|not)$/;
const X86_RESERVED = /^(?:EAX|EBX|ECX|EDX|ESI|EDI|EBP|ESP)$/i;
const MAX_LOCATIONS = 8;
const MAX_LETTERS = 32;

/**
 * Returns whether a name is reserved, and so is no location and no label.
 * @param {string} name
 * @returns {boolean}
 */
export function isReserved(name) {
  return RESERVED.test(name) || X86_RESERVED.test(name);
}

/** Reads tokens for a test, whose table of locations grows by what is read. */
export class TokenReader {
  /**
   * Makes a reader of tokens, at the first of them.
   * @param {Test} test
   * @param {Token[]} tokens
   */
  constructor(test, tokens) {
    this.test = test;
    this.tokens = tokens;
    this.index = 0;
  }

  /** Returns the text of the next token, or null. */
  get next() {
    return this.tokens[this.index]?.text ?? null;
  }

  /** Returns the kind of the next token, or null. */
  get kind() {
    return this.tokens[this.index]?.kind ?? null;
  }

  /**
   * Returns whether the tokens after the next one begin with a symbol.
   * @param {string} symbol
   * @returns {boolean}
   */
  isBefore(symbol) {
    return this.tokens[this.index + 1]?.text === symbol;
  }

  /**
   * Takes the next token, which has to be `wanted` unless that is null. Returns its text. Throws NoTest if it is another token, or there is none.
   * @param {string | null} [wanted]
   * @returns {string}
   */
  takeToken(wanted = null) {
    const text = this.next;
    if (text === null || (wanted !== null && text !== wanted)) throw new NoTest(`found ${text}, expected ${wanted ?? "more"}`);
    this.index += 1;
    return text;
  }

  /**
   * Reads a number, which is a word. Throws NoTest if it is none, or too large.
   * @returns {number}
   */
  readNumber() {
    if (this.kind !== "number") throw new NoTest(`${this.next} is no number`);
    const value = Number(this.takeToken());
    if (value >= WORD) throw new NoTest(`${value} is too large`);
    return value;
  }

  /**
   * Reads a name. Throws NoTest if it is none, or too long.
   * @returns {string}
   */
  readName() {
    if (this.kind !== "name" || this.next.length > MAX_LETTERS) throw new NoTest(`${this.next} is no name`);
    return this.takeToken();
  }

  /**
   * Returns the index of a register, or null.
   * @param {string} text
   * @returns {number | null}
   */
  findRegister(text) {
    const index = REGISTERS[this.test.language].indexOf(this.test.language === "X86" ? text.toUpperCase() : text);
    return index < 0 ? null : index;
  }

  /**
   * Reads a register. Returns its index. Throws NoTest if it is none.
   * @returns {number}
   */
  readRegister() {
    const name = this.readName();
    const register = this.findRegister(name);
    if (register === null) throw new NoTest(`${name} is no register`);
    return register;
  }

  /**
   * Reads a location. Returns its index; a new one is appended to the table of the test. Throws NoTest if it is none, or the table is full.
   * @returns {number}
   */
  readLocation() {
    const name = this.readName();
    if (isReserved(name)) throw new NoTest(`${name} is reserved`);
    const { locations } = this.test;
    if (!locations.includes(name)) locations.push(name);
    if (locations.length > MAX_LOCATIONS) throw new NoTest(`there are more than ${MAX_LOCATIONS} locations`);
    return locations.indexOf(name);
  }

  /**
   * Reads a location in brackets. Returns its index.
   * @returns {number}
   */
  readBracketedLocation() {
    this.takeToken("[");
    const location = this.readLocation();
    this.takeToken("]");
    return location;
  }

  /**
   * Reads a location or a thread's register, as the block, the list and the condition name it.
   * @returns {Site}
   */
  readSite() {
    if (this.next === "[") return { location: this.readBracketedLocation() };
    if (this.kind !== "number") return { location: this.readLocation() };
    const thread = this.readNumber();
    this.takeToken(":");
    return { thread, register: this.readRegister() };
  }

  /**
   * Reads the entries up to the closing bracket `end`, each by `readEntry` and ended by `;`, which the last may lack. `Entry` is what `readEntry` returns.
   * @param {function(): Entry} readEntry
   * @param {string} end
   * @returns {Entry[]}
   */
  readEntries(readEntry, end) {
    const read = [];
    while (this.next !== end) {
      read.push(readEntry());
      if (this.next !== end) this.takeToken(";");
    }
    this.takeToken(end);
    return read;
  }

  /**
   * Reads a site with its word, as the block and atoms have it.
   * @returns {{site: Site, word: number}}
   */
  readEquation() {
    const site = this.readSite();
    this.takeToken("=");
    return { site, word: this.readNumber() };
  }
}
