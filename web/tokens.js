// Reads the text of a test as tokens, by docs/FORMAT.md: its heading, its notes, and what follows them. Not proved.
//
// A `Token` has its `kind` (number, name or symbol) and its `text`.

const TOKEN = new RegExp(
  "(?<blank>[ \\t\\r\\n]+)|(?<number>0x[0-9a-fA-F]+|[0-9]+)(?![A-Za-z0-9_])|(?<name>[A-Za-z_][A-Za-z0-9_]*)" +
    "|(?<symbol>:=|!=|/\\\\|\\\\/|[{}\\[\\]()|;:,$=+~])",
  "y",
);
// A token, or what may be meant as one.
const WRITTEN = /0x[\da-fA-F]+|\d\w*|[A-Za-z_]\w*|:=|[!=]=|=>|<>|&&|\|\||\/\\|\\\/|[^]/uy;
const KEY = /[A-Za-z0-9_-]+[ \t]*=[^\n]*/y;
const HEADING = /(SRC|X86)[ \t\r\n]+([!-~]{1,128})(?![^ \t\r\n])/y;
const BLANKS = " \t\r\n";

/** The text is no test, or none that is read here. */
export class NoTest extends Error {}

/**
 * Returns the match of a sticky pattern at an offset, or null.
 * @param {RegExp} pattern
 * @param {string} text
 * @param {number} offset
 * @returns {RegExpExecArray | null}
 */
function matchAt(pattern, text, offset) {
  pattern.lastIndex = offset;
  return pattern.exec(text);
}

/**
 * Returns the offset of the end of the comment that starts at an offset; comments nest. Throws NoTest if it has no end.
 * @param {string} text
 * @param {number} offset
 * @returns {number}
 */
function skipComment(text, offset) {
  let depth = 0;
  do {
    const opens = text.indexOf("(*", offset);
    const closes = text.indexOf("*)", offset);
    if (closes < 0) throw new NoTest("a comment is left open");
    const isOpened = opens >= 0 && opens < closes;
    depth += isOpened ? 1 : -1;
    offset = (isOpened ? opens : closes) + 2;
  } while (depth > 0);
  return offset;
}

/**
 * Returns a text of the same length with blanks in place of its comments, whose ends of lines stay. A comment that is left open stays as it is.
 * @param {string} text
 * @returns {string}
 */
export function blankComments(text) {
  let [blanked, offset] = ["", 0];
  try {
    for (let opens = text.indexOf("(*"); opens >= 0; opens = text.indexOf("(*", offset)) {
      const end = skipComment(text, opens);
      blanked += text.slice(offset, opens) + text.slice(opens, end).replace(/./g, " ");
      offset = end;
    }
  } catch {
    // The last comment is left open.
  }
  return blanked + text.slice(offset);
}

/**
 * Returns the tokens from an offset on. Throws NoTest at a character that begins none.
 * @param {string} text
 * @param {number} offset
 * @returns {Token[]}
 */
export function parseTokens(text, offset) {
  const tokens = [];
  while (offset < text.length) {
    if (text.startsWith("(*", offset)) {
      offset = skipComment(text, offset);
      continue;
    }
    const token = matchAt(TOKEN, text, offset);
    if (!token) throw new NoTest(`no token begins at ${offset}`);
    const kind = Object.keys(token.groups).find((it) => token.groups[it] !== undefined);
    if (kind !== "blank") tokens.push({ kind, text: token[0] });
    offset += token[0].length;
  }
  return tokens;
}

/**
 * Returns the offset of the initial block, which follows quoted texts, lines `Key=value`, blanks and comments. Throws NoTest if there is none.
 * @param {string} text
 * @param {number} offset
 * @returns {number}
 */
export function skipNotes(text, offset) {
  while (offset < text.length) {
    const key = matchAt(KEY, text, offset);
    if (BLANKS.includes(text[offset])) offset += 1;
    else if (text.startsWith("(*", offset)) offset = skipComment(text, offset);
    else if (text[offset] === '"' && text.includes('"', offset + 1)) offset = text.indexOf('"', offset + 1) + 1;
    else if (key) offset += key[0].length;
    else if (text[offset] === "{") return offset;
    else break;
  }
  throw new NoTest("there is no initial block");
}

/**
 * Returns the offset after the blanks and comments at the start of a text. Throws NoTest if a comment is left open.
 * @param {string} text
 * @returns {number}
 */
function skipTrivia(text) {
  let offset = 0;
  while (offset < text.length && (BLANKS.includes(text[offset]) || text.startsWith("(*", offset))) {
    offset = text.startsWith("(*", offset) ? skipComment(text, offset) : offset + 1;
  }
  return offset;
}

/**
 * Returns the first word of a text, which follows blanks and comments, and its offset; at the end of the text, and empty, if there is none.
 * @param {string} text
 * @returns {{word: string, offset: number}}
 */
export function findFirstWord(text) {
  try {
    const offset = skipTrivia(text);
    return { word: /^\S*?(?=\s|\(\*|$)/.exec(text.slice(offset))[0], offset };
  } catch {
    return { word: "", offset: text.length };
  }
}

/**
 * Returns whether the first word of a text is that of an x86 test.
 * @param {string} text
 * @returns {boolean}
 */
export function beginsWithX86(text) {
  return findFirstWord(text).word === "X86";
}

/**
 * Returns the language and the name of a test, and the offset of its heading's end. Throws NoTest if there is none.
 * @param {string} text
 * @returns {{language: string, name: string, end: number}}
 */
export function parseHeading(text) {
  const offset = skipTrivia(text);
  const heading = matchAt(HEADING, text, offset);
  if (!heading) throw new NoTest("there is no heading");
  return { language: heading[1], name: heading[2], end: offset + heading[0].length };
}

/**
 * Returns the name of a test, or "A test" if its text has no heading.
 * @param {string} text
 * @returns {string}
 */
export function parseName(text) {
  try {
    return parseHeading(text).name;
  } catch {
    return "A test";
  }
}

/**
 * Returns the token at an index of a text, or what may be meant as one; it is empty at the end of the text.
 * @param {string} text
 * @param {number} index
 * @returns {string}
 */
export function findToken(text, index) {
  WRITTEN.lastIndex = index;
  return WRITTEN.exec(text)?.[0] ?? "";
}
