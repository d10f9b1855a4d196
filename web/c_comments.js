// Reads the question of a program in C, C++ or Rust that only a comment asks, as `// r1 == 1 && r2 == 1 ?`. If a comment seems to ask, and is not
// read for sure, the test asks nothing: a guessed question would be taken for that of the comment. Not proved.

import { formatFormula, mapAtoms, parseFormula } from "./c_question.js";
import { readQuestion } from "./pseudo_questions.js";

// A string, a letter, and a comment: the group is what is in a block. Comments in lines one below the other are one.
const COMMENT = /"(?:[^"\\\n]|\\.)*"|'(?:[^'\\\n]|\\.)'|\/\/.*(?:\n[ \t]*\/\/.*)*|\/\*([^]*?)\*\//g;
const SEEMS_TO_ASK =
  /\b(?:im)?possible\b|\b(?:allowed|forbidden)\b|^\W*~?\s*(?:exists|forall)\s*\(|\bnever\b[^]*=|=[^]*\bnever\b/i;
// What asks if it compares something, too.
const MAY_ASK = /\?|\bhappens?(?![- ]before)\b/i;
const COMPARES = /[\w)\]]\s*(?:[=!]?=|≠|[<>])\s*\w|\b(?:is|are|be|equals?|reads?|both)\s+(?:both\s+)?\d/i;
// What says that something never happens. And what may deny that again.
const NEVER = new RegExp(
  "\\b(?:(?:assert|claim|check|ensure)s?\\s*:?\\s*)?(?:(?:must|should|will|can|may)\\s+)?" +
    "(?:never|not)(?:\\s+(?:be\\s+possible|happens?|occurs?|hold|holds))?\\b|" +
    "\\b(?:must|should)\\s+be\\s+(?:impossible|forbidden)\\b|\\b(?:cannot|can't|mustn't|shouldn't|won't)\\s+(?:happen|occur)\\b|\\bassert\\s*!(?=\\s*\\()", "i",
);
const DENIAL = /\b(?:not|never|no|none|neither|nor|impossible|forbidden|cannot|unless|except|without|only|always)\b|n't\b/i;
// Words around a condition that asks whether it can hold.
const ASKING = new RegExp(
  "^(?:[\\s,.:;?\"'`*-]|\\b(?:can|could|may|might|is|are|it|that|possible|impossible|allowed|forbidden|happen|happens|occur|ever|outcome|outcomes|result|final|" +
    "state|question|the|this|we|have|get|see|to|be|there|still|under|on|x86|tso|x86-tso|a|an|at|end|q|how|what|about)\\b)*$", "i",
);
const CONDITION = /[(!~]*\s*\w+\s*(?:[=!]=)[^?]*(?:\w|\))/;
const QUANTIFIED = /^\s*(~\s*exists|exists|forall)\s*\(([^]*)\)[\s.?;]*$/;
const EQUATION = /[=!]=?\s*(?:\d|true|false)/g;
const OTHERS_ASKED = /\b(?:or|if|when|while|unless|then)\b/i;
// A register of a test: the groups are the number of its thread, and its name in the program. And its locations.
const REGISTER = /\b(\d):E[A-Z]{2} is (\w+)(?=,| \*\))/g;
const BLOCK = /^\{ ([^}]*)\}/m;
const ADDRESS = /\bhttps?:\S+/g;
const LONGEST = 60;
const OF_SEVERAL = " Several comments seem to ask, and a test has one question: leave in the one that is yours.";

/** Returns the comments of a program that seem to ask, each with its `words` and its `index`. */
function listAsking(text) {
  const comments = [...text.matchAll(COMMENT)].filter(([whole]) => whole.startsWith("/"));
  const read = comments.map(({ 0: whole, 1: block, index }) => {
    const lines = (block ?? whole).split("\n").map((it) => (block === undefined ? it.replace(/^[ \t]*\/\/+!?/, "") : it.replace(/^[ \t]*\*+/, "")));
    return { words: lines.join("\n").trim(), index };
  });
  const seems = (words) => SEEMS_TO_ASK.test(words) || (MAY_ASK.test(words) && COMPARES.test(words));
  return read.filter(({ words }) => seems(words.replace(ADDRESS, "")) && !/\blw:/.test(words));
}

/** Returns the names of the registers of each thread of a test, and those of its locations. */
function listNames(made) {
  const registers = [...made.matchAll(REGISTER)].map(([, thread, name]) => ({ thread: Number(thread), name }));
  const count = /^ (P0[^;]*);/m.exec(made)[1].split("|").length;
  const own = Array.from({ length: count }, (_, thread) => registers.filter((it) => it.thread === thread).map((it) => it.name));
  const [, block = ""] = BLOCK.exec(made) ?? [];
  return { own, locations: [...block.matchAll(/(\w+)=/g)].map(([, name]) => name) };
}

/**
 * Returns the names that a comment at an index asks of: in a function, or beside a line of pseudo code, those of registers that are set once, since others
 * may be asked of there and then.
 */
function listAskedNames(text, index, made, isPseudo) {
  const { own, locations: all } = listNames(made);
  // A name that lw has ends in `_` in a test.
  const locations = all.map((it) => (it.endsWith("_") && !new RegExp(`\\b${it}\\b`).test(text) ? it.slice(0, -1) : it));
  const blanked = text.replace(COMMENT, (it) => it.replace(/[^\n]/g, " "));
  const isBeside = isPseudo && /\S[^\n]*$/.test(blanked.slice(0, index));
  const isOutside = blanked.slice(0, index).split("{").length === blanked.slice(0, index).split("}").length && !isBeside;
  const isAtEnd = /\bmain\b/.test(blanked.slice(0, index)) && /^\s*(?:return 0;\s*)?[}\s]*$/.test(blanked.slice(index));
  if (isOutside || isAtEnd) return { own, locations };
  const isOnce = (name) => [...blanked.matchAll(new RegExp(`(?<![\\w.])${name}\\s*(?:=(?!=)|[-+*/|&^]=|\\+\\+|--|\\{|\\()`, "g"))].length < 2;
  return { own: own.map((names) => names.filter(isOnce)), locations: [] };
}

/** Returns the formula of a condition in C, with the thread of each name; "" if a name is not known for sure. */
function readCondition(code, { own, locations }) {
  const squeezed = code.replace(/\band\b|\/\\|∧/g, "&&").replace(/\\\/|∨/g, "||").replace(/([^=!<>])=(?!=)/g, "$1==").replace(/\s/g, "");
  const formula = parseFormula(squeezed);
  let isKnown = formula !== null;
  const findSite = (name) => {
    const threads = own.flatMap((it, thread) => (it.includes(name) ? [thread] : []));
    const isLocation = locations.includes(name);
    isKnown &&= threads.length + Number(isLocation) === 1;
    return isLocation ? name : `${threads[0]}:${name}`;
  };
  const made = formula && formatFormula(mapAtoms(formula, (it) => ({ ...it, name: findSite(it.name) })));
  return isKnown ? made : "";
}

/** Returns the question of the words of a comment, as the program may have it after `// lw:`; "" if it is not read for sure. */
function readComment(words, names) {
  const [, quantifier, proposition] = QUANTIFIED.exec(words) ?? [];
  const quantified = quantifier ? readCondition(proposition, names) : "";
  if (quantifier && /\b\d\s*:/.test(proposition)) return `${quantifier.replace(/\s/g, "")} (${proposition})`;
  if (quantified) return `${quantifier.replace(/\s/g, "")} (${quantified})`;
  const isDenied = NEVER.test(words);
  const bare = isDenied ? words.replace(NEVER, " ") : words;
  if (isDenied && (DENIAL.test(bare) || bare.includes("?"))) return "";
  const [condition = ""] = CONDITION.exec(bare) ?? [];
  // Words may be at its end.
  const parts = condition.split(/(?=\s[a-z][\w-]*(?:\s|$))/i);
  const ends = parts.map((_, at) => parts.slice(0, parts.length - at).join("")).filter((it) => /[\d)]$/.test(it.trim()));
  const found = condition && !OTHERS_ASKED.test(bare) ? ends.find((it) => readCondition(it, names) && ASKING.test(bare.replace(it, " "))) : undefined;
  if (found) return `${isDenied ? "~" : ""}exists (${readCondition(found, names)})`;
  // A comment may have more than one sentence with words of variables.
  const others = bare.split(/(?<=[.?;])\s+|\n/).filter((it) => !/\binit/i.test(it)).join(" ");
  const codes = names.own.map((it, thread) => [...it, ...(thread ? [] : names.locations)].join("; "));
  const asked = /\b\d\s*:|\b[PT]\d\b|\bthread|\bcpu|\bproc/i.test(bare) ? "" : readQuestion(bare.split("\n"), codes, names.own, 0, (it) => it);
  const count = (it) => it.match(EQUATION)?.length ?? 0;
  if (!asked || (!quantifier && count(asked) !== count(others))) return "";
  return isDenied ? asked.replace(/^exists/, "~exists") : asked;
}

/** Returns the begin of the words of a comment, as a sentence quotes them. */
function quote(words) {
  const line = words.replace(/\s+/g, " ").replaceAll("`", "'");
  return `\`${line.length > LONGEST ? `${line.slice(0, LONGEST - 2)}..` : line}\``;
}

/** Returns the test that a function makes with a question that asks nothing, or else the test itself, with a sentence on the comments (`asks`). */
function askNothing(test, ask, asks) {
  const other = ask("exists (true)");
  return other?.made ? { ...other, asks } : { ...test, asks: asks.replace(", and guesses none.", ".") };
}

/**
 * Returns a test of a text that asks nothing itself, with the question of its only comment that asks: a function makes it with a question. `asks` is a
 * sentence on the comment then. Returns the test itself if no comment asks.
 * @param {string} text
 * @param {object} test
 * @param {function(string): object | null} ask
 * @param {boolean} [isPseudo] whether the text is pseudo code
 * @returns {object}
 */
export function askByComments(text, test, ask, isPseudo = false) {
  const comments = listAsking(text);
  if (!comments.length) return test;
  const questions = comments.map((it) => readComment(it.words, listAskedNames(text, it.index, test.made, isPseudo)));
  const [{ words }] = comments;
  if (new Set(questions.map((it, at) => it || comments[at].words)).size > 1) return askNothing(test, ask, OF_SEVERAL);
  const asked = questions[0] && ask(questions[0]);
  if (asked?.made) return { ...asked, asks: ` The question is that of the comment ${quote(words)}.` };
  return askNothing(test, ask, ` The page does not read the question of the comment ${quote(words)}, and guesses none.`);
}

/**
 * Returns what a function makes of a program, with the question of its only comment that asks, if the program itself asks nothing.
 * @param {string} text
 * @param {function(string): object | null} rewrite
 * @returns {object | null}
 */
export function rewriteWithComment(text, rewrite) {
  const test = rewrite(text);
  const asksNothing = test?.made && (test.isGuess || test.sections);
  return asksNothing ? askByComments(text, test, (question) => rewrite(`${text}\n// lw: ${question}\n`)) : test;
}
