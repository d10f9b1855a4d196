// Reads the question of pseudo code, and of a comment: as a test has it, as an assertion, or in words, as `Can r1 = 0 and r2 = 0?`. Not proved.

import { toC, toCondition } from "./pseudo_statements.js";

/** How a question of a test begins. */
export const QUESTION = /^\s*(?:~\s*exists|exists|forall)\b/m;
/** What says that words are those at the start. */
export const OF_START = /\b(?:init\w*|start\w*|from|begin\w*|before\w*|beforehand|originally|assum\w+|suppos\w+|given|let)\b/i;
/** Sites with one word, as `r1 = r2 = 0`. */
export const ATOM = /(?<![\w:])((?:(?:P|T|Proc |Thread )?\d\s*:\s*)?%?[A-Za-z_]\w*(?:\[\d\])?(?:\s*==?\s*[A-Za-z_]\w*)*)\s*==?\s*(\d+|true|false)\b/gi;
// Words of a sentence that asks whether its sites have these words at once, and signs in it. Each other word may change what it asks.
const ASKING_WORDS = new Set(
  (
    "can could may might is are was be been it its possible allowed legal permitted forbidden impossible cannot both and with while when if but " +
    "also happen happens occur occurs ever still what about how outcome outcomes result results state states final finally end ends end-state " +
    "allow allows permit permits lead to execution run program code test this that the a an of in under on at there so for they we you here say " +
    "show time hold holds true same see sees seen read reads observe observes observed print prints printed find finds load loads return returns " +
    "get gets have has produce produces question q expected bug output condition violation postcondition post-condition x86 tso x86-tso sc intel amd arm machine " +
    "processor processors thread threads cpu core model register registers"
  ).split(" "),
);
const SIGNS = /^(?:[\s,.;:?()"'`“”]|\/\\|∧|&&?|\{|\}|\[|\])*$/;
const CONDITIONAL = /\b(?:if|when|while)\b/i;
const POSSIBLE = /\b(?:can|could|may|might|possible|allowed|happens?|occurs?|ever)\b/i;
const FOLLOWS = /^(?:what|how) about\b/i;
// What reads a word, and the name of a thread in a sentence: the groups have its number.
const READING = /\b(?:read|reads|see|sees|seen|observe|observes|observed|print|prints|printed|load|loads|find|finds|get|gets|return|returns)\b/i;
const THREAD = /(?<!\w)(?:[PT](\d)|(?:thread|process|processor|cpu|core|proc)\s*(\d))(?!\w)(?!\s*:)/gi;
// Pairs of sites and words, and one or two sites with a word.
const PAIRS = /\(\s*(\w+)\s*,\s*(\w+)\s*\)\s*==?\s*\(\s*(\d+)\s*,\s*(\d+)\s*\)/g;
const NOT_ALLOWED = /\b(?:(?:is|are)\s+)?not\s+(?:allowed|possible|permitted)\b|\b(?:should|must|can|may|does)\s*not\s+produce\b/gi;
// What explains an answer, after it, and says of no word what it is.
const EXPLANATION = new RegExp(
  ",?\\s*\\b(?:because|since|although|even\\s+though|due\\s+to)\\b" +
    "(?!.*(?:=|\\b(?:is|are|be|was|equals?|holds?|reads?|sees?|not)\\b\\s*(?:\\d|$|[.,])|\\b(?:non)?zero\\b)).*$",
  "i",
);
const BOTH = /(?<!\w)([A-Za-z_]\w*)(?:\s+and\s+([A-Za-z_]\w*))?\s+(?:both\s+)?(?:be|equal)\s+(?=\d+\b)/gi;
const KEYWORDS = new Set("if else while do int void volatile assert smp_mb smp_rmb std".split(" "));

/**
 * Returns the names in code, without those of C.
 * @param {string} code
 * @returns {string[]}
 */
export function listNames(code) {
  return (code.match(/(?<![\w.:>]|->)[A-Za-z_]\w*\b(?!\s*(?:\(|::))/g) ?? []).filter((it) => !KEYWORDS.has(it));
}

/**
 * Returns a question in which names of one thread's own have the thread before them; "" if two threads have one of the names.
 * @param {string} question
 * @param {string[][]} own
 * @returns {string}
 */
export function nameThreads(question, own) {
  const counts = (name) => own.filter((names) => names.includes(name)).length;
  const names = question.match(/(?<![\w:])[A-Za-z_]\w*/g) ?? [];
  if (names.some((it) => counts(it) > 1)) return "";
  return question.replace(/(?<![\w:])[A-Za-z_]\w*/g, (it) => (counts(it) ? `${own.findIndex((names) => names.includes(it))}:${it}` : it));
}

/**
 * Returns the question of lines that ask of names of code, as the test's question; "" if none asks in a way that is known. The first thread has the number
 * `first` in them, and a function gives the threads of a question the numbers of a test.
 * @param {string[]} lines
 * @param {string[]} codes
 * @param {string[][]} own the names that only each thread has
 * @param {number} first
 * @param {function(string, number): string} numberThreads
 * @returns {string}
 */
export function readQuestion(lines, codes, own, first, numberThreads) {
  const names = listNames(codes.join(" "));
  const raw = lines.findIndex((it) => QUESTION.test(it));
  if (raw >= 0) return nameThreads(numberThreads(lines.slice(raw).join(" "), first), own);
  const asserted = lines.map((it) => /^\s*assert\b\s*([^;]*?)\s*;?\s*$/.exec(it)?.[1]).find(Boolean);
  if (asserted) return nameThreads(`forall (${negateSites(toCondition(asserted))})`, own);
  const failing = lines.map((it) => /^\s*(?:BUG|WARN)_ON(?:_ONCE)?\s*(\(.*\))\s*;?\s*$/.exec(it)?.[1]).find(Boolean);
  if (failing) return nameThreads(`~exists (${negateSites(toCondition(failing))})`, own);
  const sentence = findAsking(lines);
  if (!sentence || !isConjunction(sentence, names)) return "";
  const atoms = [...sentence.matchAll(ATOM)].flatMap(({ 1: sites, 2: word, index }) => sites.split(/\s*==?\s*/).map((it) => {
    const site = it.replace(/^(?:P|T|Proc|Thread)\s*(?=\d)|[\s%]/gi, "");
    return `${readSite(site, sentence, index, { codes, own, first })}=${toC(word)}`;
  }));
  const sites = atoms.map((it) => it.split("=")[0]);
  const [bare, isLocation] = [sites.map((it) => it.replace(/^\d:/, "")), (it) => /^[A-Za-z_]/.test(it) && !own.some((all) => all.includes(it))];
  const isTwice = new Set(sites).size < sites.length || sites.some((it, at) => it !== bare[at] && sites.includes(bare[at]));
  if (isTwice || bare.some((it) => !names.includes(/^\w+/.exec(it)?.[0])) || (CONDITIONAL.test(sentence) && sites.some(isLocation))) return "";
  return nameThreads(numberThreads(`exists (${atoms.join(" /\\ ")})`, first), own);
}

/** Returns the sentence of lines that asks of sites; undefined if there is none, or another one may ask, too. */
function findAsking(lines) {
  const joined = lines.join("\n").replace(/\n\s*(?=(?:and|or|with|while|when|but|then|if)\b)|(?<=[,:]|\b(?:and|or|if|can|with))\s*\n/gi, " ");
  const sentences = joined.split(/(?<=[?.])\s+|\n/).map((it) => writeEquations(it.replace(EXPLANATION, ""))).filter((it) => it.search(ATOM) >= 0);
  const asking = sentences.filter((it) => it.includes("?"));
  const chosen = (asking.length ? asking : sentences).filter((it) => !FOLLOWS.test(it));
  return chosen.length === 1 ? chosen[0] : undefined;
}

/** Returns whether a sentence asks whether all its sites have their words at once: it has no names beside them, and no words that may change that. */
function isConjunction(sentence, names) {
  const rest = sentence.replace(/\((?:or|and)[^)]*\)/gi, "").replace(ATOM, " ").replace(THREAD, " ");
  const words = rest.match(/[A-Za-z_][\w'-]*/g) ?? [];
  if (OF_START.test(sentence) || (CONDITIONAL.test(rest) && !POSSIBLE.test(rest))) return false;
  return words.every((it) => ASKING_WORDS.has(it.toLowerCase()) && !names.includes(it)) && SIGNS.test(rest.replace(/[A-Za-z_][\w'-]*/g, ""));
}

/**
 * Returns a site of a sentence at an index: if that asks what a thread reads, the register of the only load of a location, with its thread, or "" if
 * it is not sure which one that is.
 */
function readSite(site, sentence, index, { codes, own, first }) {
  const threads = [...sentence.matchAll(THREAD)].map((it) => ({ index: it.index, thread: Number(it[1] ?? it[2]) - first }));
  const isLocation = /^[A-Za-z_]/.test(site) && !own.some((it) => it.includes(site));
  if (!isLocation || (!READING.test(sentence) && !threads.length)) return site;
  const last = threads.findLast((it) => it.index < index)?.thread;
  const escaped = site.replace(/[[\]]/g, "\\$&");
  const loads = codes.flatMap((code, thread) => {
    const [, register] = new RegExp(`(?<!\\w)(\\w+) = ${escaped};`).exec(code) ?? [];
    const count = code.match(new RegExp(`(?<!\\w)${escaped}(?!\\w| = )`, "g"))?.length ?? 0;
    return count && (last === undefined || last === thread) ? [{ thread, register: count === 1 && register }] : [];
  });
  const [{ thread, register } = {}] = loads;
  const isOnce = register && own[thread].includes(register) && codes[thread].match(new RegExp(`(?<!\\w)${register} `, "g")).length === 1;
  return loads.length === 1 && isOnce ? `${thread + first}:${register}` : "";
}

/** Returns a sentence in which pairs, and words as `both be 0`, are equations, and what is not allowed is forbidden. */
function writeEquations(sentence) {
  const pairs = sentence.replace(NOT_ALLOWED, "is forbidden").replace(PAIRS, "$1 = $3, $2 = $4");
  return pairs.replace(BOTH, (_, one, other) => (other ? `${one} = ${other} = ` : `${one} = `));
}

/** Returns a condition with negations as those of a question. */
function negateSites(condition) {
  return condition.replace(/(\w[\w[\]]*)\s*!=\s*(\w+)/g, "~$1=$2").replace(/!(?=\s*\()/g, "~");
}
