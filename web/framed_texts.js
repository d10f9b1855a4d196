// Finds a test or a program in a text that has other things around it: numbers before its lines, sentences and marks of Markdown around its code. Not
// proved.

import { isRead } from "./other_tools.js";

const LONGEST = 20000;
// A line that opens or closes code in Markdown.
const MARK = /^[ \t]*(?:`{3,}|~{3,})[^`\n]*$/;
// A number before a line, and blanks or a sign after it.
const NUMBER = /^([ \t]*)(\d{1,3})([:.)|]?)(?=[ \t]|\r?$)/;
const FEWEST = 3;
const MOST_MARKS = 12;
// How a program begins, and lines of a text in words.
const PROGRAM = /^\s*(?:#[ \t]*include|#[ \t]*define|\/\/|\/\*|std::|atomic|volatile|int\b|_Atomic|use\b|static\b|extern\b|C\s+\w|struct\b|class\b|using\b)/;
const WORDS = /^[A-Z"(][^;{}=#|\\]*$/;
const SENTENCE_END = /[.:?!,]\)?\s*$/;
// Words around code that may say with which words its variables begin.
const START = "(?:init\\w*|start\\w*|begin\\w*|assum\\w+|suppos\\w+|imagin\\w+|let|given|hold\\w*|contain\\w*|first|before)";
const WORD = "(?:[1-9]\\d*|true|one|two|three)";
const OF_START = new RegExp(`\\b${START}\\b[^.\\n]*\\b${WORD}\\b|\\b${WORD}\\b[^.\\n]*\\b${START}\\b`, "i");
const IS_PSEUDO = /^This is (?:pseudo code|a table)/;
const OF_NUMBERS = "Its lines have numbers, which are left out.";
const OF_TEXT = "The text around the code is left out: look there for initial words and for what it asks.";
const OF_WORDS = "This is code with text around it that may say with which words its variables begin: paste only the code, with these words in it.";
const OF_SEVERAL = "This text has several pieces of code: paste one of them.";
const OF_TEST = "There is text around the test, which is no part of it.";

/** Returns a text with blanks in place of the numbers of its lines; null if not each line has the next number. */
function blankNumbers(text) {
  const lines = text.split("\n");
  const numbers = lines.filter((it) => it.trim()).map((it) => NUMBER.exec(it));
  const areNumbers = numbers.length >= FEWEST && numbers.every((it, at) => it && (!at || Number(it[2]) === Number(numbers[at - 1][2]) + 1));
  return areNumbers ? lines.map((it) => it.replace(NUMBER, (number) => " ".repeat(number.length))).join("\n") : null;
}

/** Returns the indices of the lines that are marks of Markdown around code. */
function listMarks(lines) {
  return lines.flatMap((it, row) => (MARK.test(it) ? [row] : []));
}

/** Returns whether a text has several pieces of code between marks, each of which is a test or explained as one. */
function hasSeveral(text, explain) {
  const lines = text.split("\n");
  const marks = listMarks(lines);
  if (marks.length < 4 || marks.length % 2 || marks.length > MOST_MARKS) return false;
  const pieces = marks.filter((_, at) => at % 2 === 0).map((open, at) => `${lines.slice(open + 1, marks[2 * at + 1]).join("\n")}\n`);
  return pieces.every((it) => it.trim()) && pieces.filter((it) => isRead(it) || isUseful(explain(it), it.length, "")).length > 1;
}

/** Returns the only code between marks of Markdown, with the index at which it begins; null if there is none, several, or nothing else in a text. */
function findMarked(text) {
  const lines = text.split("\n");
  const marks = listMarks(lines);
  if (marks.length !== 2) return null;
  const [open, close] = marks;
  const around = [...lines.slice(0, open), ...lines.slice(close + 1)].join("\n").trim();
  return around ? { code: `${lines.slice(open + 1, close).join("\n")}\n`, begin: lines.slice(0, open + 1).join("\n").length + 1 } : null;
}

/** Returns a program without the lines in words before and after it, with the index at which it begins; null if a text has none. */
function findProgram(text) {
  const lines = text.split("\n");
  const isEnd = (row) => SENTENCE_END.test(lines[row]) || !lines[row + 1]?.trim();
  const isWords = (it, row) => WORDS.test(it) && !PROGRAM.test(it) && it.trim().split(/\s+/).length > 2 && (isEnd(row) || WORDS.test(lines[row + 1]));
  const first = lines.findIndex((it, row) => it.trim() && !isWords(it, row));
  const last = lines.findLastIndex((it, row) => it.trim() && !isWords(it, row));
  const isWhole = first >= 0 && (first > 0 || last < lines.findLastIndex((it) => it.trim()));
  // A brace or a semicolon is at the end of code.
  if (!isWhole || !PROGRAM.test(lines[first]) || !/[;})]\s*$|\*\/\s*$/.test(lines[last])) return null;
  return { code: `${lines.slice(first, last + 1).join("\n")}\n`, begin: first ? lines.slice(0, first).join("\n").length + 1 : 0 };
}

/** Returns a hint on a part of a text as one on the whole text: its change is that of all, and its place has the row and the index there. */
function widenHint(hint, text, begin, words) {
  const rows = text.slice(0, begin).split("\n").length - 1;
  const widen = (it) => it && { ...it, begin: 0, end: text.length };
  const at = hint.at && { ...hint.at, row: hint.at.row + rows, index: hint.at.index + begin };
  return { ...hint, words: `${hint.words} ${words}`, change: widen(hint.change), also: widen(hint.also), at };
}

/** Returns whether a hint says something of code with a text `around`: it makes a test of it, or names the line that is not read. */
function isUseful(hint, length, around) {
  if (around && IS_PSEUDO.test(hint.words)) return false;
  const isWhole = hint.change?.begin === 0 && hint.change.end === length && isRead(hint.change.text);
  return isWhole || (!hint.change && hint.at !== undefined && /can't make a test/.test(hint.words ?? ""));
}

/**
 * Returns a hint on the code in a text that has numbers before its lines, or words around it, given a function that explains a text that begins as no test;
 * null if a text is something else.
 * @param {string} text
 * @param {function(string): Hint} explain
 * @returns {Hint | null}
 */
export function explainFramed(text, explain) {
  if (text.length > LONGEST) return null;
  if (hasSeveral(text, explain)) return { words: OF_SEVERAL, change: null };
  const plain = blankNumbers(text);
  const part = plain ? { code: plain, begin: 0 } : (findMarked(text) ?? findProgram(text));
  if (!part) return null;
  const { code, begin } = part;
  if (isRead(code)) {
    const change = { begin: 0, end: text.length, text: code.trimStart(), title: "Take the test out of it", done: "Taken." };
    return { words: plain ? OF_NUMBERS : OF_TEST, change };
  }
  const hint = explain(code);
  const around = plain ? "" : text.slice(0, begin) + text.slice(begin + code.length);
  if (!isUseful(hint, code.length, around.trim())) return null;
  if (hint.change && OF_START.test(around)) return { words: OF_WORDS, change: null };
  return widenHint(hint, text, begin, plain ? OF_NUMBERS : OF_TEXT);
}
