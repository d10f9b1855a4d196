// Computes sums and other expressions of constants in C, as the indices and words of a thread are that has a number. Not proved.

import { parseConstant } from "./c_code.js";

// A longer expression is not computed.
const LONGEST = 200;
// A token of an expression: the groups are a constant and an operator.
const TOKEN = /\s*(?:(0x[\da-f]+u?l{0,2}|\d+u?l{0,2}|true|false)(?![\w.])|(\|\||&&|[=!<>]=|<<|>>|[-+*/%^&|<>!~()]))/iy;
// The operators with two sides, from those that are applied last to those that are applied first. All have words of 32 bits with a sign.
const LEVELS = [
  { "||": (a, b) => Number(a !== 0 || b !== 0) }, { "&&": (a, b) => Number(a !== 0 && b !== 0) }, { "|": (a, b) => a | b }, { "^": (a, b) => a ^ b },
  { "&": (a, b) => a & b }, { "==": (a, b) => Number(a === b), "!=": (a, b) => Number(a !== b) },
  { "<": (a, b) => Number(a < b), ">": (a, b) => Number(a > b), "<=": (a, b) => Number(a <= b), ">=": (a, b) => Number(a >= b) },
  { "<<": (a, b) => a * 2 ** b, ">>": (a, b) => Math.floor(a / 2 ** b) }, { "+": (a, b) => a + b, "-": (a, b) => a - b },
  { "*": (a, b) => a * b, "/": (a, b) => Math.trunc(a / b), "%": (a, b) => a % b },
];
const BEFORE = { "-": (a) => -a, "+": (a) => a, "!": (a) => Number(a === 0), "~": (a) => ~a };
// Those whose result depends on the sign of a word, or on its bits; and those that compare words with a sign.
const OF_POSITIVES = /^(?:[<>/%&|^~]|<=|>=|<<|>>)$/;
const OF_SIGNS = /^[<>]=?$/;
// A greater word may be one without a sign.
const GREATEST = 2 ** 31;
// A cast of a constant to a type that has it. And parentheses, in which there are no others, which are those of no call.
const TYPE_OF_WORD = "(?:(?:const|unsigned|signed|long|int|s?size_t|u?int(?:32|64|ptr)_t|void(?=\\*)) ?)+\\*?";
const CAST = new RegExp(`\\(${TYPE_OF_WORD}\\)(?=\\d)|\\bstatic_cast<${TYPE_OF_WORD}>(?=\\(\\d+\\))`, "g");
const INNER = /(^|[^\w)\]>])\(([^()[\]=,;"?]{1,60}|[^()[\]=,;"?]{1,60}[=!]=[^()[\]=,;"?]{1,60})\)/g;
// What separates expressions.
const MARK = /(&&|\|\||[=!<>]=|(?<!<)<(?!<)|(?<!>)>(?!>)|[+\-]=|=|[()[\],?:;{}])/;
const MOST = 20;

/** Reads an expression of constants. `at` is how far it is read. */
class ConstantReader {
  constructor(code, isSigned) {
    Object.assign(this, { code, isSigned, at: 0, constant: null, operator: null });
    this.readToken();
  }

  /** Reads the next token, which is a constant or an operator; both are null at the end. */
  readToken() {
    TOKEN.lastIndex = this.at;
    const [token = "", constant = null, operator = null] = TOKEN.exec(this.code) ?? [];
    Object.assign(this, { at: this.at + token.length, constant, operator, isEnd: !token });
  }

  /** Returns the number of an expression whose operators are of a level or of later ones; NaN if it is none, or its sign or size may matter. */
  readLevel(level) {
    if (level === LEVELS.length) return this.readOperand();
    let number = this.readLevel(level + 1);
    while (this.operator && Object.hasOwn(LEVELS[level], this.operator)) {
      const { operator } = this;
      this.readToken();
      const other = this.readLevel(level + 1);
      const isOfPositives = OF_POSITIVES.test(operator) && !(this.isSigned && OF_SIGNS.test(operator));
      const isUnknown = isOfPositives && (number < 0 || other < 0);
      number = isUnknown ? NaN : checkSize(LEVELS[level][operator](number, other), number, other);
    }
    return number;
  }

  /** Returns the number of a constant, of one after an operator, or of an expression in parentheses. */
  readOperand() {
    const { constant, operator } = this;
    this.readToken();
    if (constant !== null) return checkSize(parseConstant(constant) ?? NaN);
    if (operator === "(") {
      const number = this.readLevel(0);
      const isClosed = this.operator === ")";
      this.readToken();
      return isClosed ? number : NaN;
    }
    if (!operator || !Object.hasOwn(BEFORE, operator)) return NaN;
    const number = this.readOperand();
    return checkSize(BEFORE[operator](number), number);
  }
}

/** Returns a number if it and its operands are such, and it is a word with a sign; otherwise NaN. */
function checkSize(number, ...operands) {
  return operands.some(Number.isNaN) || Math.abs(number) >= GREATEST ? NaN : number;
}

/**
 * Returns the number of an expression of constants; null if it has more than these, or if its result depends on its type. `isSigned` says that its
 * words have signs.
 * @param {string} code squeezed
 * @param {boolean} [isSigned]
 * @returns {number | null}
 */
export function computeConstant(code, isSigned = false) {
  const plain = code.replaceAll("@", "");
  if (plain.length > LONGEST || !/\d|true|false/.test(plain)) return null;
  const reader = new ConstantReader(plain, isSigned);
  const number = reader.readLevel(0);
  return Number.isInteger(number) && reader.isEnd && !plain.slice(reader.at).trim() ? number : null;
}

/** Returns the code of a number that an expression has, or its own code. What is compared binds more than `&`, `^` and `|`. */
function foldPiece(code, before, after) {
  if (!/[-+*/%^&|~!<>]/.test(code) || /[)\]]$/.test(before) || /^[([]/.test(after)) return code;
  if (/^[=!<>]=?$/.test(`${before}`) && before !== "=" && /[&|^]/.test(code)) return code;
  if (/^(?:[=!<>]=|[<>])$/.test(after) && /[&|^]/.test(code)) return code;
  const number = computeConstant(code);
  return number === null ? code : String(number);
}

/**
 * Returns squeezed code with numbers in place of expressions of constants.
 * @param {string} code
 * @returns {string}
 */
export function foldConstants(code) {
  let folded = code;
  for (let count = 0; count < MOST; count += 1) {
    const pieces = folded.replace(CAST, "").split(MARK);
    const next = pieces.map((it, at) => (at % 2 ? it : foldPiece(it, pieces[at - 1] ?? "", pieces[at + 1] ?? ""))).join("")
      .replace(INNER, (whole, before, inner) => {
        const number = computeConstant(inner);
        return number === null ? whole : `${before}${number < 0 ? `(${number})` : number}`;
      });
    if (next === folded) return folded;
    folded = next;
  }
  return folded;
}
