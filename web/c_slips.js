// Finds slips in a program in C or C++ that is not rewritten: a misspelt name, or a `;`, a `)` or a `}` that is missing. Not proved.
//
// A `CSlip` has its `words`, which are the end of a sentence and perhaps a question, its `index` in the text, the `whole` text without it, and the
// `title` of a button, or "" if it is not sure what is meant.

import { makeChange } from "./change.js";
import { blank } from "./c_code.js";
import { countChanges, findNearest } from "./nearest.js";

// Names by what they are, also those of what is not rewritten, since none of these is misspelt.
const ORDERS = ["relaxed", "consume", "acquire", "release", "acq_rel", "seq_cst"];
const OPERATIONS = [
  "load", "store", "exchange", "fetch_add", "fetch_sub", "fetch_or", "fetch_and", "fetch_xor", "compare_exchange_weak", "compare_exchange_strong",
];
const METHODS = [
  ...OPERATIONS, "lock", "unlock", "try_lock", "lock_shared", "unlock_shared", "join", "detach", "joinable", "test_and_set", "clear", "test", "wait",
  "notify_one", "notify_all", "emplace_back", "push_back", "reset", "release", "acquire", "swap", "size", "push", "pop",
  "top", "front", "back", "begin", "get",
];
const FUNCTIONS = [
  ...OPERATIONS.flatMap((it) => [`atomic_${it}`, `atomic_${it}_explicit`]),
  ...["read", "set", "inc", "dec", "add", "sub", "xchg", "cmpxchg", "init", "or", "and"].map((it) => `atomic_${it}`),
  ...["atomic_flag_test_and_set", "atomic_flag_clear"],
  ...["thread", "signal"].map((it) => `atomic_${it}_fence`), ...["m", "l", "s"].map((it) => `_mm_${it}fence`),
  ...["create", "join", "exit", "mutex_lock", "mutex_trylock", "mutex_unlock", "mutex_init", "mutex_destroy"].map((it) => `pthread_${it}`),
  ...["thrd_create", "thrd_join", "thrd_yield", "mtx_lock", "mtx_trylock", "mtx_unlock", "mtx_init", "spin_lock", "spin_unlock", "spin_trylock"],
  // What tries a lock in the kernel and in POSIX: others return 0 on success.
  ...["mutex", "rt_mutex", "down", "down_read", "down_write", "read", "write", "raw_spin", "pthread_spin"].map((it) => `${it}_trylock`),
  ...["smp_mb", "smp_rmb", "smp_wmb", "smp_load_acquire", "smp_store_release", "smp_store_mb", "READ_ONCE", "WRITE_ONCE", "sched_yield"],
  ...["assert", "printf", "fprintf", "sprintf", "insert", "malloc", "calloc", "while", "switch", "for", "if", "return", "sizeof", "defined"],
];
const STANDARD = [
  "atomic", "atomic_thread_fence", "atomic_flag", "atomic_int", "atomic_bool", "thread", "jthread", "mutex", "lock_guard", "unique_lock",
  "scoped_lock", "vector", "array", "cout", "endl", "memory_order", ...ORDERS.map((it) => `memory_order_${it}`),
];
const WORDS = [
  "void", "return", "while", "else", "bool", "const", "unsigned", "static", "struct", "atomic_int", "atomic_bool", "atomic_uint",
  "atomic_flag", "pthread_t", "pthread_mutex_t", "thrd_t", "mtx_t", "constexpr", "namespace", "int", "_Atomic",
  "_Bool", "auto", "break", "char", "continue", "extern", "inline", "long", "short", "signed", "size_t", "using", "volatile", "switch", "case",
  "default",
];
const NAME = /[A-Za-z_]\w*/g;
// What looks like a comment, a string or a letter, in which nothing is looked for.
const NO_CODE = /"(?:[^"\\\n]|\\.)*"|'(?:[^'\\\n]|\\.)'|\/\/.*|\/\*[^]*?\*\/|^[ \t]*#.*/gm;
// A line that a `;` may be missing after, also one with a value in braces; one that has no `;`; and one that continues the line before.
const OPEN_LINE = /(?:[\w)\]"+-]|[\w\]]\s{0,9}\{[^{};()]{0,80}\})[ \t]*$/;
// A `)` in a line after which a statement begins.
const UNENDED = /\)(?=\s+(?:(?:const\s+)?(?:int|auto|bool|unsigned|long)\s+\w+\s*=|return\b|(?:if|while|for)\s*\(|\w+(?:\[\w+\])?\s*(?:=(?!=)|\+\+|--|[+-]=|(?:\.|->)\s*\w+\s*\()))/g;
const HEAD = /^\s*(?:(?:\}\s*)?else\b|if\b|while\b|for\b|do\b|switch\b|template\b|#|case\b|default\b)/;
const CONTINUATION = /^\s*(?:[{.,:?=&|<>*/%^)+-]|$)/;
const UNDECLARED = /`(\w+)` is not declared|^`(\w+)`, of which the question asks/;
// A word with fewer letters has one wrong letter at most. In longer texts nothing is looked for. And how many changes are tried.
const SHORT = 8;
const LONGEST = 20000;
const MOST = 12;

/** Returns the number of the line of an index. */
function findLine(text, index) {
  return text.slice(0, index).split("\n").length;
}

/** Returns the name that a word may mean; null if it is a name itself, or none is near. */
function findMeant(word, names) {
  if (names.includes(word)) return null;
  const nearest = names.find((it) => it.toLowerCase() === word.toLowerCase()) ?? findNearest(word, names);
  return nearest !== null && (word.length >= SHORT || countChanges(word.toLowerCase(), nearest.toLowerCase()) < 2) ? nearest : null;
}

/** Returns the names that a word may be, by what is before it and after it. */
function listNames(before, word, after) {
  const isCalled = /^\s*\(/.test(after);
  if (/\bmemory_order\s*::\s*$/.test(before)) return ORDERS;
  if (/(?:\.|->)\s*$/.test(before)) return isCalled ? METHODS : [];
  if (/\bstd\s*::\s*$/.test(before)) return STANDARD;
  if (/^memory_o/.test(word)) return ORDERS.map((it) => `memory_order_${it}`);
  return isCalled ? FUNCTIONS : WORDS;
}

/** Returns the slips of misspelt names in a program, in whose code comments and strings are blank. A name that the program declares is none. */
function listMisspelt(text, code, why) {
  const undeclared = UNDECLARED.exec(why)?.slice(1).find(Boolean);
  const all = [...code.matchAll(NAME)];
  const own = [...new Set(all.map(([it]) => it))].filter((it) => it !== undeclared && it.length > 2);
  return all.flatMap(({ 0: word, index }) => {
    const [before, after] = [code.slice(Math.max(index - 40, 0), index), code.slice(index + word.length, index + word.length + 40)];
    const names = listNames(before, word, after);
    const isOfVariables = word === undeclared && word.length > 2 && !/\d/.test(word);
    const name = (word.length < 3 ? null : findMeant(word, names)) ?? (isOfVariables ? findMeant(word, own) : null);
    // A name that the program has often is its own, and a call without arguments is no loop and no branch.
    const isOwn = names === WORDS && word !== undeclared && all.filter(([it]) => it === word).length > 1;
    const isCall = /^(?:for|while|if|switch)$/.test(name) && /^\s*\(\s*\)\s*;/.test(after);
    if (name === null || isOwn || isCall || new RegExp(`\\b${word}\\s{0,9}\\([^(){};]{0,99}\\)[\\w\\s]{0,40}\\{`).test(code)) return [];
    const whole = text.replace(new RegExp(`\\b${word}\\b`, "g"), (it, at) => (code.startsWith(word, at) ? name : it));
    // Two orders of memory may be as likely.
    const another = names.length && /^(?:memory_order_)?rel/.test(name) ? findMeant(word, names.filter((it) => it !== name)) : null;
    const [meant, title] = another ? [`\`${name}\` or \`${another}\``, ""] : [`\`${name}\``, `Change it to ${name}`];
    return [{ words: `line ${findLine(text, index)} has \`${word}\`. Did you mean ${meant}?`, index, whole, title }];
  });
}

/** Returns the slip that a mark is missing at an index, and where this is. */
function makeMissing(text, mark, index, where) {
  const whole = text.slice(0, index) + mark + text.slice(index);
  const place = text.slice(index).trim() ? `${where} line ${findLine(text, index)}` : "at the end";
  return { words: `a \`${mark.trim()}\` is missing ${place}.`, index, whole, title: `Put in the ${mark.trim()}` };
}

/** Returns the slips that a `)` is missing: before a `;` in parentheses, and before a `{` in those of a condition. */
function listOpen(text, code) {
  const slips = [];
  const opened = [];
  for (const { 0: mark, index } of code.matchAll(/[(){};]/g)) {
    const [last, at] = opened.at(-1) ?? [];
    const head = code.slice(Math.max(at - 9, 0), at);
    const isMissing = last === "(" && !/\bfor\s*$/.test(head) && (mark === ";" || (mark === "{" && /\b(?:if|while)\s*$/.test(head)));
    if (isMissing) slips.push(makeMissing(text, ")", code.slice(0, index).trimEnd().length, "in"));
    if (isMissing || ")}".includes(mark)) opened.pop();
    if ("({".includes(mark)) opened.push([mark, index]);
  }
  return slips;
}

/** Returns whether a `)` at an index closes the head of a loop or a branch. */
function isHead(line, close) {
  let depth = 0;
  for (let at = close; at >= 0; at -= 1) {
    depth += Number(line[at] === ")") - Number(line[at] === "(");
    if (!depth) return !/\w\s*$/.test(line.slice(0, at)) || /\b(?:if|while|for|switch|return)\s*$/.test(line.slice(0, at));
  }
  return true;
}

/** Returns the slips of marks that are missing in lines. */
function listMissing(text, code) {
  let begin = 0;
  const lines = code.split("\n").map((line) => {
    begin += line.length + 1;
    return { line, begin: begin - line.length - 1 };
  });
  const slips = lines.flatMap(({ line, begin: front }, at) => {
    const next = lines.slice(at + 1).find((it) => it.line.trim())?.line ?? "}";
    const end = front + line.trimEnd().length;
    const isOpen = OPEN_LINE.test(line) && !HEAD.test(line) && (!CONTINUATION.test(next) || /^\s*(?:\}|\+\+|--)/.test(next));
    const inner = line.search(/[\w)\]]\s*\}/);
    return [
      ...(isOpen ? [makeMissing(text, ";", end, "at the end of")] : []),
      ...(inner >= 0 ? [makeMissing(text, ";", front + inner + 1, "in")] : []),
      ...[...line.matchAll(UNENDED)].filter((it) => !isHead(line, it.index)).map((it) => makeMissing(text, ";", front + it.index + 1, "in")),
    ];
  });
  if (code.split("{").length <= code.split("}").length) return slips;
  const heads = lines.filter(({ line }, at) => at && /^(?:\w.*\)\s*\{|exists|~exists|forall|int main)/.test(line));
  const ends = [...heads.map((it) => it.begin), text.length];
  return [...slips, ...ends.map((index) => makeMissing(text, "}\n", index, "before"))];
}

/**
 * Returns the slip because of which a program is not rewritten: without it the program is rewritten, `isWhole`, or, if it is a name, refused at a later
 * part, or rewritten without another slip, if it may be the first of two. Null if there is none.
 * @param {string} text
 * @param {{why: string, index?: number}} fault
 * @param {function(string): {made?: string, index?: number}} rewrite
 * @param {boolean} [isFirstOfTwo]
 * @returns {{words: string, index: number, isWhole: boolean, change: object | null} | null}
 */
export function findSlip(text, { why, index }, rewrite, isFirstOfTwo = true) {
  if (text.length > LONGEST || index === undefined) return null;
  const code = text.replace(NO_CODE, blank);
  const slips = [...listMisspelt(text, code, why), ...listMissing(text, code), ...listOpen(text, code)];
  const near = slips.sort((one, other) => Math.abs(one.index - index) - Math.abs(other.index - index)).slice(0, MOST);
  const found = near.map((it) => ({ ...it, next: rewrite(it.whole) }));
  const isLater = ({ next, whole, index: at }) => next.index > Math.max(index, at) + whole.length - text.length;
  // A mark is put only into a program that is read as a whole then: of a name it is sure what it is, and another slip may be after it.
  const isName = (it) => /\bhas `/.test(it.words);
  const isFirst = (it) => isName(it) && isFirstOfTwo && findSlip(it.whole, it.next, rewrite, false)?.isWhole;
  const slip = found.find((it) => it.next.made) ?? found.find((it) => isName(it) && isLater(it)) ?? found.find(isFirst);
  if (!slip) return null;
  const change = slip.title ? { ...makeChange(text, slip.whole), title: slip.title } : null;
  return { words: slip.words, index: slip.index, isWhole: Boolean(slip.next.made), change };
}
