// Finds code in another language than the first word of its text: source statements in an x86 test, and instructions in a source test. Not proved.
//
// A `CodeCell` of a text has its `code`, without the blanks around it, its `thread`, and the indices at which the cell begins (`front`), the code in it
// (`begin`), and the `|` or `;` after it is (`end`).

import { REGISTERS } from "./token_reader.js";
import { blankComments, findFirstWord } from "./tokens.js";

const LABELS = "(?:\\w+\\s*:(?!=)\\s*)*";
const ONLY_LABELS = new RegExp(`^${LABELS}$`);
// How code of each language begins, after its labels.
const CODE = {
  SRC: new RegExp(`^${LABELS}(?:\\w+\\s*:=|\\w+\\s*=[\\w\\s+-]*$|if\\b|goto\\b)`),
  X86: new RegExp(`^${LABELS}(?:MOV|ADD|CMP|JE|JNE|JMP|XCHG|LOCK(?!\\s*\\()|XADD)\\b`, "i"),
};
const END_OF_ROWS = /;\s*(?:(?:locations|filter|(?:(?:[~!]|not\b)\s*)?exists|forall)\b|(?:(?:forbidden|never|allowed|required|always)\s*)?\(|\d\s*:\s*%?\w+\s*=)/i;
const SAID = {
  SRC: "This is a statement of a source test, and the text's first word is `X86`.",
  X86: "This is an x86 instruction, and the text's first word is `SRC`.",
};
/** The sentences on code that is all in a language, and not in that of its text. */
export const SAID_OF_ALL = {
  SRC: "All code is that of a source test, and the text's first word is `X86`.",
  X86: "All code is x86 code, and the text's first word is `SRC`.",
};

/**
 * Returns the register of the other language with the same number, or null if a word is none of that language.
 * @param {string} word
 * @param {boolean} isX86
 * @returns {string | null}
 */
export function convertRegister(word, isX86) {
  const [own, other] = isX86 ? [REGISTERS.X86, REGISTERS.SRC] : [REGISTERS.SRC, REGISTERS.X86];
  return own[other.indexOf(isX86 ? word : word.toUpperCase())] ?? null;
}

/**
 * Returns an operand that is a register or a number, in the other language than it is written in; null if it is neither.
 * @param {string} language
 * @param {string} word
 * @returns {string | null}
 */
function convertValue(language, word) {
  const number = /^\$?(\d+)$/.exec(word)?.[1];
  if (number) return language === "X86" ? `$${number}` : number;
  return convertRegister(word, language === "X86");
}

/**
 * Returns an instruction for a source statement that stores, loads or sets a register, or null.
 * @param {string} cell
 * @returns {string | null}
 */
export function convertToX86(cell) {
  const [, to, from] = /^(\w+)\s*:=\s*(\w+)$/.exec(cell) ?? [];
  if (!to) return null;
  const [register, value] = [convertRegister(to, true), convertValue("X86", from)];
  if (register === null) return value && `MOV [${to}],${value}`;
  return `MOV ${register},${value ?? `[${from}]`}`;
}

/**
 * Returns a source statement for an instruction that stores, loads or sets a register, or null.
 * @param {string} cell
 * @returns {string | null}
 */
function convertToSource(cell) {
  const [, store, stored] = /^MOV\s+\[(\w+)\]\s*,\s*(\$?\w+)$/i.exec(cell) ?? [];
  if (store) return convertValue("SRC", stored) && `${store} := ${convertValue("SRC", stored)}`;
  const [, to, load, from] = /^MOV\s+(\w+)\s*,\s*(?:\[(\w+)\]|(\$?\w+))$/i.exec(cell) ?? [];
  const [register, value] = [to && convertRegister(to, false), load ?? (from && convertValue("SRC", from))];
  return register && value ? `${register} := ${value}` : null;
}

/**
 * Returns the cells of the rows of code of a text, also the empty ones; none if the text has no header or no question after the rows.
 * @param {string} text
 * @returns {CodeCell[]}
 */
export function parseCells(text) {
  const code = blankComments(text);
  let begin = code.indexOf(";", code.search(/\bP0\b/)) + 1;
  let thread = 0;
  const rows = code.slice(begin, begin + code.slice(begin).search(END_OF_ROWS) + 1);
  return rows.split(/(?<=[|;])/).map((cell) => {
    const front = begin;
    begin += cell.length;
    const made = { front, begin: front + /^\s*/.exec(cell)[0].length, end: begin - 1, code: cell.slice(0, -1).trim(), thread };
    thread = cell.endsWith("|") ? thread + 1 : 0;
    return made;
  });
}

/**
 * Returns whether all code of a text is in a language.
 * @param {string} language
 * @param {string} text
 * @returns {boolean}
 */
export function isAllIn(language, text) {
  const cells = parseCells(text).map(({ code }) => code).filter((it) => !ONLY_LABELS.test(it));
  const isInLanguage = (it) => CODE[language].test(it) || (language === "X86" && /^MFENCE$/i.test(it));
  return cells.length > 0 && cells.every(isInLanguage);
}

/**
 * Returns a sentence that says that all code of a text is in the other language than its first word says, and proposes the other first word; or ""
 * if that is not so.
 * @param {FaultPlace} place
 * @returns {string}
 */
export function explainOtherFirstWord(place) {
  const other = place.isX86 ? "SRC" : "X86";
  if (!isAllIn(other, place.text)) return "";
  const { word, offset } = findFirstWord(place.text);
  return `${SAID_OF_ALL[other]}${place.propose(other, offset, offset + word.length)}`;
}

/**
 * Returns the code of the cell that has an index of a text, and the index at which the code begins.
 * @param {string} text
 * @param {number} index
 * @returns {{begin: number, code: string}}
 */
export function findCell(text, index) {
  const begin = Math.max(...["|", ";"].map((it) => text.lastIndexOf(it, index - 1))) + 1;
  const cell = text.slice(begin, begin + text.slice(begin).search(/[|;]|$/));
  const code = cell.trim();
  return { begin: begin + cell.indexOf(code), code };
}

/**
 * Returns a sentence that says that the code at a fault's place is in the other language, or "" if that is not so. It proposes the other first word
 * if all code is in the other language, and otherwise the same code in the language of the test.
 * @param {FaultPlace} place
 * @returns {string}
 */
export function explainCode(place) {
  const { text, index, isX86 } = place;
  const other = isX86 ? "SRC" : "X86";
  const { begin: start, code } = findCell(text, index);
  if (!CODE[other].test(code)) return "";
  const proposal = explainOtherFirstWord(place);
  if (proposal) return proposal;
  const translated = isX86 ? convertToX86(code) : convertToSource(code);
  if (translated === null) return SAID[other];
  return `${SAID[other]}${place.propose(translated, start, start + code.length)}`;
}
