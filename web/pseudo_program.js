// Makes a test of pseudo code with branches, loops that wait, assertions and critical sections, and of the programs of books: as a program in C first, in
// which each name that threads share is volatile, so that each access is one instruction. Not proved.
//
// Initial words are by the names that have them, with those of an array in a list.

import { numberThreads } from "./assembly.js";
import { askByComments } from "./c_comments.js";
import { rewriteProgram } from "./c_program.js";
import { IN_SECTION, OF_LOST, OF_SECTION } from "./c_sections.js";
import { explainMade } from "./other_tools.js";
import { NO_ANNOTATIONS, OF_ANNOTATIONS, readAnnotations } from "./pseudo_annotations.js";
import { Doubt, makeDoubt } from "./pseudo_doubts.js";
import { findPseudoThreads, hasOutcome, OF_OUTCOME } from "./pseudo_lines.js";
import { enterAtOnce } from "./pseudo_loops.js";
import { writeProcesses } from "./pseudo_processes.js";
import { ATOM, listNames, nameThreads, OF_START, QUESTION, readQuestion } from "./pseudo_questions.js";
import { StatementWriter, toC, Unread } from "./pseudo_statements.js";

// What is before initial words, types of theirs, and an initializer of C++.
const INITIALLY = /^\s*(?:initial(?:ly)?(?:\s+(?:state|values?))?|init|shared|globals?|variables?)\b\s*:?/i;
const ATOMIC_TYPE = /\b(?:std::)?atomic(?:<\w+>|_\w+)/g;
const TYPE = /\b(?:int|bool|boolean|integer|var|volatile|shared|unsigned)\b/gi;
// The type after a name, and words that all names begin with 0.
const TYPE_AFTER = new RegExp(
  ":(?!=)\\s*(?:shared\\s+)?(?:array\\s*(?:of\\s+\\d+|\\[[\\d.,\\s]*\\])\\s*(?:of\\s+)?)?" +
    "(?:booleans?|bools?|integers?|ints?|bits?|words?)\\b(?:\\s*\\[\\d\\])?",
  "gi",
);
const ALL_ZERO = new RegExp(
  "\\b(?:all|every)\\s+(?:the\\s+)?(?:shared\\s+|memory\\s+)?(?:variables?|locations?|values?|words?|memory|flags?)\\s*" +
    "(?:are|is|have|has|hold|=|==|:=)?\\s*(?:the\\s+value\\s+)?(?:0|zero|false)\\b",
  "gi",
);
// A name without a value, and the value of the next one that is not 0.
const TYPED = /\b(?:int|bool|boolean|integer|var|unsigned|atomic\w*|bit|byte)\b/i;
const SET_LAST = /^\s*[A-Za-z_]\w*\s*(?:,|&&?|\band\b)(?:[^=]*(?:,|\band\b))?\s*[A-Za-z_]\w*\s*(?::=|<-|←|==?)\s*(?!0\b|false\b)\w/i;
const INITIALIZER = /(\w)\s*\{\s*(\w+)\s*\}/g;
// Words with which a line before the threads asks, and a question of a test.
const ASKS = /\?|\b(?:can|could|allowed|forbidden|outcomes?|possible)\b(?!\s*(?:[,;:=]|<-|←|$))/i;
// Words of initial values, and a value other than 0.
const SAYS_INITIAL = /\b(?:init\w*|starts?|begin\w*|let|assum\w+|suppose|all|both)\b/i;
const OTHER_VALUE = /(?<![\w.-])(?:[1-9]\d*|true|one|set|null)(?![\w.-]*\w)/i;
const ASKS_BELOW = new RegExp(
  "\\?|\\b(?:can|could|may|might|must|will|what|question|outcomes?|results?|final|finally|forbidden|allowed|possible|impossible|cannot|should|exists|forall|assert|(?:bug|warn)_on(?:_once)?)\\b",
  "i",
);
const SAYS_WORD = /\b(?:is|are|holds?|has|have)\b|=/i;
// A question in parentheses, which explains the one before it.
const ASIDE = /^\s*\(.*\?\s*\)\s*$/;
// Code of any number of threads has a loop, and elements of arrays that are those of a thread and of another one.
const OF_ANY_NUMBER = [/\bfor\b/, /\[\s*i\s*\]/, /\[\s*(?:j|k)\s*\]/, /(?::?=|<-|\u2190)/];
const IS_ANY_NUMBER = "This looks like code of any number of threads: write out that of two, each below its name, as `P0:`.";
// Why lines are not read.
const OF_INITIAL = "it is not sure what initial words it has, so write them as `Initially x = 0`";
const OF_WORDS = "it may be an initial word or an outcome, so begin it with `Initially` or `Can`";
// Names of registers and of what a thread has for itself.
const OWN = /^(?:r\d*|reg\d*|t\d|te?mp\d*|e[abcd]x|local\w*)$/i;
const REGISTER = /^(?:r|reg)\d*$|^e[abcd]x$/i;
const MADE = /^(?:inside|printed|loaded)\d/;
// The last text that was rewritten, and its test: several readers need it.
let latest = { text: null, test: null };
// What is said of pseudo code.
const OF_ACCESSES = "This is pseudo code: each access of a name that threads share is one load or one store.";
const OF_ATOMICS = " Those of atomic variables are as gcc and clang compile them.";
const OF_LOCKED = " Exchanges, additions and compare-exchanges by name are locked instructions.";
const AT_FIRST = " at the first try";
const OF_ENDLESS = " An endless loop is one pass here: runs with more passes are left out.";
const OF_ENTRY =
  " A loop that stores before its critical section is no single pass, so a thread that would begin one ends there: what this test finds can happen, but " +
  "runs with such passes are left out.";
const OF_STAYING = " The question is whether all are in the critical section at once.";
const OF_TWO_STAYING = " The question is whether two are in the critical section at once.";

/** Returns whether a text has one of some names. */
function hasName(text, names) {
  return names.some((it) => new RegExp(`(?<!\\w)${it}(?!\\w)`).test(text));
}

/** Returns a line without the remark after its values, unless that has a value and another one of the names. */
function dropRemark(line, names) {
  const [, code, remark] = /^(.*(?:=|<-|←).*?)\s*(?:\/\/|--\s)(.*)$/.exec(line) ?? [];
  const others = names.filter((it) => !hasName(code ?? "", [it]));
  return code && !(hasName(remark, others) && (/\b(?:[1-9]\d*|true)\b/i.test(remark) || !/;\s*$/.test(code))) ? code : line;
}

/** Returns the initial words that lines declare, by names, with the words of an array in a list. Throws Unread if a line says something else. */
function readInitial(lines, names) {
  const words = new Map();
  for (const line of lines) {
    const declared = dropRemark(line.replace(/^\s*(?:\/\/|#|--)/, ""), names);
    const typed = declared.replace(TYPE_AFTER, "").replace(ALL_ZERO, "").replace(ATOMIC_TYPE, "int").replace(INITIALIZER, "$1 = $2");
    const bare = typed.replace(INITIALLY, "").replace(/[.;]\s*$/, "");
    // A line without values is a title, or declares names that begin with 0.
    if (!/=|:=|<-|←/.test(bare)) {
      if (OTHER_VALUE.test(typed.replace(/\[\d+\]/g, "")) && (SAYS_INITIAL.test(line) || hasName(line, names))) throw makeDoubt(line, OF_INITIAL);
      continue;
    }
    // The word may be that of the last name only.
    if (!TYPED.test(line) && SET_LAST.test(bare)) throw new Unread(`\`${bare.trim()}\`: write the word of each name`);
    const code = toC(bare).replace(/==/g, "=").replace(TYPE, "").replace(/&&?|;|(?<=\w)\s+(?=\w)/g, ",");
    const entries = code.split(/,(?![^{[(]*[}\])])/).map((it) => it.trim()).filter(Boolean);
    for (const entry of entries) readEntry(entry, words, TYPED.test(line) && !/\b0$/.test(entry), line);
  }
  return words;
}

/** Adds the words of an entry, as `x = y = 0` or `flag[2] = {0, 0}`, to those of names. */
function readEntry(entry, words, isTyped, line) {
  const parts = entry.split("=").map((it) => it.trim());
  const last = parts.length > 1 ? parts.pop() : "0";
  const list = /^[{[(]([\d\s,]*)[}\])]$/.exec(last)?.[1].split(",").map((it) => it.trim()).filter(Boolean);
  if (!list && !/^\d+$/.test(last)) throw makeDoubt(line, OF_INITIAL);
  for (const part of parts) {
    const [, name, index] = /^\[?\s*_?([A-Za-z_]\w*)\s*\]?(?:\[(\d*)\])?$/.exec(part) ?? [];
    if (!name) throw makeDoubt(line, OF_INITIAL);
    const isElement = index && !list && entry.includes("=");
    // The word of an array that has a size may be that of each element.
    if (isElement && isTyped) throw new Unread(`\`${entry}\`: write the word of each element, as \`{1, 1}\``);
    words.set(isElement ? `${name}[${index}]` : name, list ?? last);
  }
}

/** Returns a test that asks for words that loads of it read, with a list of its other registers. */
function listOthers(made) {
  const [named] = /\(\*[^]*?\*\)/.exec(made) ?? [""];
  const question = made.slice(made.search(/^exists/m));
  const others = [...named.matchAll(/\b(\d:E[A-Z]{2}) is\b/g)].map(([, site]) => site).filter((it) => !question.includes(it));
  return others.length ? made.replace(/^(?=exists)/m, `locations [${others.join("; ")}]\n`) : made;
}

/** Throws Unread if an initial word other than 0 is that of a name or an element which code does not have. */
function refuseUnused(initial, code) {
  const isUnused = ([name, word]) => [word].flat().some((it) => Number(it) !== 0) && !hasName(code, [name.replace(/[[\]]/g, "\\$&")]);
  const [unused] = [...initial].find(isUnused) ?? [];
  if (unused) throw new Unread(`the initial word of \`${unused}\`, which no thread has`);
}

/**
 * Throws Unread if lines around the threads may say more than what is asked: initial words, or words of locations that no sentence asks for. A location is
 * a name of the code that is no thread's own.
 */
function refuseOthers(after, asking, codes, own) {
  const locations = listNames(codes.join(" ")).filter((it) => !own.some((names) => names.includes(it)));
  const isStart = (it) => /\binit/i.test(it) || (OF_START.test(it) && OTHER_VALUE.test(it) && hasName(it, locations));
  const isWord = (it) => !ASKS_BELOW.test(it) && hasName(it, locations) && (it.search(ATOM) >= 0 || (SAYS_WORD.test(it) && OTHER_VALUE.test(it)));
  const unsure = [...asking, ...after].find(isStart) ?? after.find(isWord);
  if (unsure) throw makeDoubt(unsure, OF_WORDS);
}

/**
 * Throws Unread if names of several letters may be those of constants, as `up` and `READY`: no thread sets them, and the lines before the threads do
 * not declare them, or only without a value if they are capital letters.
 */
function refuseConstants(codes, initial, before) {
  const code = codes.join(" ");
  const declared = before.filter((it) => TYPED.test(it) || INITIALLY.test(it)).join("\n").replace(/[{(][^{}()]*[})]/g, "");
  const isSet = (it) => new RegExp(`(?<!\\w)${it}\\b\\s*(?:[+-]?=(?!=)|\\+\\+|\\.|->|\\[)|&${it}\\b`).test(code);
  const isGiven = (it) => initial.has(it) || /^(?:(?![TF]$)[A-Za-z]\d?|true|false)$/.test(it) || (!/^[A-Z]{2,}$/.test(it) && hasName(declared, [it]));
  const constant = listNames(code).find((it) => !isGiven(it) && !isSet(it));
  if (constant) throw makeDoubt(constant, "it may be a constant, so write its number, or its initial word, as `Initially x = 0`");
}

/**
 * Returns the names of each thread that are its own: those that it declares, those of registers, which each thread sets that has them, and names that it sets
 * from another name and no other thread has. Throws Unread if each thread loads a name first that may be that of a location.
 */
function findOwnNames(codes, declared, initial) {
  const has = (code, name) => listNames(code).includes(name);
  const isElsewhere = (name, thread) => codes.some((it, other) => other !== thread && has(it, name));
  const isSet = (name, code, value = "") => new RegExp(`(?<![\\w\\]])${name} = ${value}`).test(code);
  const isOwn = (name, code, thread) => {
    if (MADE.test(name) || declared[thread].has(name)) return true;
    if (OWN.test(name) && initial.has(name) && !isElsewhere(name, thread)) return true;
    if (OWN.test(name) && initial.has(name) && !REGISTER.test(name)) return false;
    if (OWN.test(name)) return codes.every((it) => !has(it, name) || isSet(name, it));
    return isSet(name, code, "[A-Za-z_]") && !isElsewhere(name, thread) && !initial.has(name);
  };
  const isLoadedBy = (name) => codes.some((it) => isSet(name, it, "[A-Za-z_]"));
  const isOther = (name, code) => REGISTER.test(name) && !initial.has(name) && !isSet(name, code) && isLoadedBy(name);
  const other = codes.flatMap((code) => listNames(code).filter((it) => isOther(it, code)))[0];
  if (other) throw makeDoubt(other, "a thread has it, and another one sets it, so ask for it below the threads, or write a name that is shared");
  const own = codes.map((code, thread) => [...new Set(listNames(code))].filter((name) => isOwn(name, code, thread)));
  const isLoaded = (name, code) => {
    const first = code.search(new RegExp(`(?<!\\w)${name}\\b`));
    return first < 0 || new RegExp(`^${name} = (?!${name}\\b|r\\d)[A-Za-z_]`).test(code.slice(first));
  };
  const names = [...new Set(codes.flatMap((code, thread) => listNames(code).filter((it) => !own[thread].includes(it))))];
  const loaded = names.find((it) => !initial.has(it) && codes.every((code) => isLoaded(it, code)));
  if (loaded) throw makeDoubt(loaded, "each thread sets it first, so it may be shared or each thread's own: write two names, or its initial word");
  return own;
}

/** Returns the declarations of the names that threads share. */
function declareShared(codes, own, initial) {
  const shared = [...new Set(codes.flatMap((it, thread) => listNames(it).filter((name) => !own[thread].includes(name))))];
  return shared.map((name) => {
    const used = codes.join(" ").matchAll(new RegExp(`(?<!\\w)${name}\\[(\\d)\\]`, "g"));
    const indices = [...used].map(([, index]) => Number(index));
    const isOneOf = (pattern) => codes.some((it) => new RegExp(pattern).test(it));
    if (isOneOf(`pthread_mutex_\\w+\\(&${name}\\b`)) return `pthread_mutex_t ${name};`;
    const isAtomic = isOneOf(`(?<!\\w)${name}(?:\\.|->)|(?<!__sync_\\w{0,30}\\()&${name}\\b`);
    if (isAtomic) return `std::atomic<int> ${name}{${initial.get(name) ?? 0}};`;
    if (!indices.length) return `volatile int ${name} = ${initial.get(name) ?? 0};`;
    const given = initial.get(name);
    const words = Array.from({ length: Math.max(...indices, (Array.isArray(given) ? given.length : 0) - 1) + 1 }, (_, at) => {
      return initial.get(`${name}[${at}]`) ?? (Array.isArray(given) ? (given[at] ?? 0) : 0);
    });
    return `volatile int ${name}[${words.length}] = {${words.join(", ")}};`;
  }).join(" ");
}

/** Returns propositions with a sign between them, in parentheses if there are several. */
function join(parts, sign) {
  return parts.length > 1 ? `(${parts.join(` ${sign} `)})` : parts[0];
}

/** Returns the sets of two or more of some writers that have all those that are not in branches. */
function listEntered(sections) {
  const sets = sections.reduce((all, it) => [...all.map((set) => [...set, it]), ...(it.isBranched ? all : [])], [[]]);
  return sets.filter((it) => it.length > 1).reverse();
}

/** Returns the question whether two threads can be in the critical section at once; "" if no two have one. */
function askOfSections(writers) {
  const sections = writers.filter((it) => it.hasSection);
  if (sections.length < 2) return "";
  // Who does nothing after its section stays in it.
  const isStaying = sections.every((it) => it.isBranched && !it.isAfterSection);
  const pairs = sections.flatMap((one, at) => sections.slice(at + 1).map((other) => [one, other]));
  const sets = isStaying ? pairs : listEntered(sections);
  const cases = sets.map((set) => {
    const others = isStaying ? [] : sections.filter((it) => !set.includes(it));
    const entered = [...set.filter((it) => it.isBranched).map((it) => `inside${it.number}=1`), ...others.map((it) => `inside${it.number}=0`)];
    const lost = join(set.slice(1).map((_, at) => `critical=${at + 1}`), "\\/");
    return (isStaying ? entered : [...entered, lost]).join(" /\\ ");
  });
  return `~exists (${cases.length > 1 ? cases.map((it) => (/ /.test(it) ? `(${it})` : it)).join(" \\/ ") : cases[0]})`;
}

/** Returns statements without what the question on critical sections does not need. */
function dropUnasked(code, section) {
  const entered = section.includes("inside") ? code : code.replace(/inside\d = 1; /g, "");
  return section.includes("critical") ? entered : entered.replaceAll("critical++;", "");
}

/**
 * Returns the program in C of a text, what it asks of critical sections, and whether the text itself asks. Throws Unread if a part of the text is not read.
 */
function writeProgram({ before, threads, after, first }, isEntry) {
  const writers = threads.map((it, number) => new StatementWriter(it, number));
  const whole = writers.map((it) => it.writeThread());
  const codes = isEntry ? whole.map(enterAtOnce) : whole;
  for (const [at, writer] of writers.entries()) writer.isBranched ||= codes[at] !== whole[at];
  const section = askOfSections(writers);
  const written = codes.map((it) => dropUnasked(it, section));
  const questions = before.filter((it) => ASKS.test(it));
  const isAside = (it) => ASIDE.test(it) && questions.some((other) => !ASIDE.test(other) && other.search(ATOM) >= 0);
  const asking = questions.filter((it) => !isAside(it));
  const initial = readInitial(before.filter((it) => !questions.includes(it)), listNames(codes.join(" ")));
  refuseUnused(initial, codes.join(" "));
  refuseConstants(written, initial, before);
  const own = findOwnNames(written, writers.map((it) => it.declared), initial);
  if (hasOutcome(written, own)) throw new Doubt(`a number that a register gets: ${OF_OUTCOME}`);
  refuseOthers(after, asking, written, own);
  const started = written.map((code, thread) => `${setOwnNames(own, thread, initial)}${code}`);
  const asked = readQuestion([...after, ...asking], written, own, first, numberThreads);
  // A name of one thread is declared outside, where it begins with 0.
  const isLocal = (name) => own.filter((names) => names.includes(name)).length > 1;
  const declare = (names) => names.map((it) => `int ${it}; `).join("");
  const bodies = started.map((code, thread) => `void P${thread}(void) { ${declare(own[thread].filter(isLocal))}${code} }\n`);
  const reads = writers.flatMap((it) => it.reads);
  const read = reads.length ? nameThreads(`exists (${reads.join(" /\\ ")})`, own) : "";
  const question = asked || nameThreads(section, own) || read;
  const outside = `${declareShared(written, own, initial)} ${declare(own.flat().filter((it) => !isLocal(it)))}\n`;
  const isEndless = writers.some((it) => it.isEndless);
  const hasEntry = !isEntry && whole.some((it) => enterAtOnce(it) !== it);
  return { program: `${outside}${bodies.join("")}${question && `// lw: ${question}\n`}`, section, asked, isReading: question !== "" && question === read, isEndless, hasEntry };
}

/** Returns what sets the names of one thread's own to initial words other than 0. Throws Unread if another thread has such a name, too. */
function setOwnNames(own, thread, initial) {
  const names = own[thread].filter((it) => initial.has(it) && initial.get(it) !== "0");
  if (names.some((name) => own.filter((it) => it.includes(name)).length > 1 || Array.isArray(initial.get(name)))) throw new Unread();
  return names.map((it) => `${it} = ${initial.get(it)}; `).join("");
}

/**
 * Returns a hint that offers an x86 test of pseudo code, with whether the text asks in words (`isAsked`); or says why it is not rewritten, with whether that
 * is a call of a function (`isCall`), as code of a language has; or null if a text is something else.
 * @param {string} text
 * @returns {Hint & {isAsked?: boolean, isCall?: boolean} | null}
 */
export function explainPseudoProgram(text) {
  const test = rewritePseudoProgram(text);
  if (!test || test.isDoubt) return null;
  const why = test.why?.replace(/\. `tools.*/, "");
  if (why) return { words: `This is pseudo code, and the page can't make a test of it because of ${why}.`, change: null, isCall: test.isCall };
  const passes = `${test.isEndless ? OF_ENDLESS : ""}${test.isEntry ? OF_ENTRY : ""}`;
  const staying = test.section.includes("\\/") ? OF_TWO_STAYING : OF_STAYING;
  const sections = test.section.includes("critical") ? `${OF_SECTION}${test.asked ? "." : OF_LOST}` : test.section && !test.asked ? staying : "";
  const change = { begin: 0, end: text.length, text: test.made, title: `Make x86 code of ${test.isEntry ? "its entry" : "it"}`, done: "Rewritten." };
  const isAsked = test.asked !== "" && !QUESTION.test(text);
  const locked = test.program.includes("__sync_") ? OF_LOCKED : "";
  const atomics = (test.program.includes("std::atomic<") ? OF_ATOMICS : "") + locked;
  return { words: `${OF_ACCESSES}${test.said}${atomics}${sections}${passes}${explainMade(test)}`, change, isOffer: true, isAsked };
}

/**
 * Returns a sentence that says which part of a text that looks like pseudo code is not sure, and why; or "".
 * @param {string} text
 * @returns {string}
 */
export function explainDoubt(text) {
  const test = rewritePseudoProgram(text);
  if (!test && OF_ANY_NUMBER.every((it) => it.test(text))) return IS_ANY_NUMBER;
  return test?.isDoubt ? `This looks like pseudo code, and the page can't make a test of it because of ${test.why}.` : "";
}

/**
 * Returns the x86 test of pseudo code, as `rewriteProgram` does, with the question of its critical sections (`section`) and its own (`asked`), each "" if
 * there is none, whether one pass is in place of an endless loop (`isEndless`), whether it has only the entries of critical sections (`isEntry`), and a
 * sentence on the threads (`said`). If a part is not read for a reason (`isUnread`), it has only that, `why`, and whether it is a doubt (`isDoubt`). Returns null if a text is something else.
 * @param {string} text
 * @returns {object | null}
 */
export function rewritePseudoProgram(text) {
  if (latest.text !== text) latest = { text, test: rewriteText(text) };
  return latest.test;
}

/** Rewrites a text, as `rewritePseudoProgram` does for a text that is not the last one. Words beside its loads are its question, if it has no other one. */
function rewriteText(text) {
  const annotated = readAnnotations(text);
  if (!annotated) return rewriteBare(text);
  const bare = rewriteBare(annotated.text);
  if (!bare?.made || bare.asked) return bare;
  const asking = annotated.question ? rewriteBare(`${annotated.text.trimEnd()}\n\n${annotated.question}\n`) : null;
  const isLoaded = (name) => new RegExp(`\\bis ${name}(?=,| \\*)`).test(asking.made);
  if (asking?.made && asking.asked && annotated.names.every(isLoaded)) return { ...asking, said: asking.said + OF_ANNOTATIONS };
  const open = rewriteBare(`${annotated.text.trimEnd()}\n\nexists (true)\n`);
  return open?.made ? { ...open, said: open.said + NO_ANNOTATIONS } : open;
}

/** Rewrites a text in which no words are beside loads, and that may ask in a comment. */
function rewriteBare(text) {
  const test = rewriteUnasked(text);
  if (!test?.made || test.asked) return test;
  const program = test.program.replace(/\/\/ lw:.*\n$/, "");
  const ask = (question) => ({ ...test, made: undefined, asked: question, ...rewriteProgram(`${program}// lw: ${question}\n`) });
  return askByComments(text, test, ask, true);
}

/** Rewrites a text as if no comment asked. */
function rewriteUnasked(text) {
  const processes = writeProcesses(text);
  const rewrite = (read, isEntry) => {
    const { program, ...asks } = writeProgram(read, isEntry);
    const test = rewriteProgram(program, asks.section && !asks.asked ? `${IN_SECTION}${isEntry ? AT_FIRST : ""}` : "");
    const made = test.made && asks.isReading ? listOthers(test.made) : test.made;
    return { ...test, made, ...asks, program, isEntry, isUnread: false, said: processes?.words ?? "" };
  };
  try {
    const read = findPseudoThreads(processes?.text ?? text);
    if (!read) return null;
    const test = rewrite(read, false);
    const entry = test.made || !test.hasEntry ? test : rewrite(read, true);
    return entry.made ? entry : test;
  } catch (error) {
    if (error instanceof Doubt) return { why: error.message, isUnread: true, isDoubt: true };
    if (error instanceof Unread) return error.message ? { why: error.message, isUnread: true, isCall: error.isCall } : null;
    throw error;
  }
}
