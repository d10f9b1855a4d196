// Rewrites a program in C or C++ of other tools as one that the page reads: CppMem's threads are functions, a test of GoogleTest is `main`, letters
// are their codes, orders of memory that are numbers have names, references are the variables that they name, loops that try a lock wait for it, what
// `?` chooses is in branches, and threads that are started outside of functions are started in `main`. Not proved.
//
// The record `Edit` is that of c_edits.js.

import { refusePart } from "./c_code.js";
import { applyEdits, listCalls, replaceMatch } from "./c_edits.js";

// What looks like code and is none, except letters.
const NO_CODE = /"(?:[^"\\\n]|\\.)*"|\/\/.*|\/\*[^]*?\*\//g;
// The threads of CppMem: the groups are what is before them, and what is between the braces.
const PARALLEL = /^([^]*?)\{\{\{([^]*?)\}\}\}\s*;?\s*(?:return\b[^;]*;\s*)?\}?\s*$/;
const MAIN = /\b(?:int|void)\s+main\s*\([^()]*\)\s*\{/;
const READING = /\b([A-Za-z_]\w*)\s*=\s*\w+(?:\s*\.\s*load\s*\([^()]*\))?\s*(\.\s*readsvalue\s*\(\s*(\d+)\s*\))/g;
const SET = /(?<![\w.>])([A-Za-z_]\w*)\s*=(?!=)/g;
// A test of GoogleTest, what it expects, and the C code of that.
const TEST = /\bTEST\s*\(\s*\w+\s*,\s*\w+\s*\)\s*(?=\{)/g;
const EXPECTATION = /\b(?:EXPECT|ASSERT)_(TRUE|FALSE|EQ|NE)\s*\(/g;
const MEANINGS = {
  TRUE: ([it]) => `assert(${it})`, FALSE: ([it]) => `assert(!(${it}))`,
  EQ: ([one, other]) => `assert((${one}) == (${other}))`, NE: ([one, other]) => `assert((${one}) != (${other}))`,
};
const LETTER = /(?<=(?:[(,=<>:?]|\breturn)\s*)'([^'\\\n]|\\[0abfnrtv'"\\])'/g;
const ESCAPES = { 0: 0, a: 7, b: 8, t: 9, n: 10, v: 11, f: 12, r: 13 };
const OUTPUT = /(?:\b(?:f?printf|puts?|putchar|f?putc)\s*\(|\bc(?:out|err)\b|\bcase\b)[^;{}]*$/;
const BUILTIN = /\b__atomic_(\w+)\s*\(/g;
const ORDERS = ["RELAXED", "CONSUME", "ACQUIRE", "RELEASE", "ACQ_REL", "SEQ_CST"];
const COUNTS = { load_n: 2, store_n: 3, exchange_n: 3, thread_fence: 1, signal_fence: 1, test_and_set: 2, clear: 2, compare_exchange_n: 6 };
// A reference: the groups are its name, and what it refers to.
const TYPE = "(?:const\\s+|volatile\\s+)*(?:auto|(?:std\\s*::\\s*)?atomic\\s*<[\\w\\s:]+>|(?:std\\s*::\\s*)?atomic_\\w+|(?:unsigned\\s+)?int|unsigned|long|bool)";
const REFERENCE = new RegExp(`(?<=^|[;{}]\\s*)(?:static\\s+)?${TYPE}\\s*&\\s*(\\w+)\\s*(?:=\\s*(\\w+)|\\{\\s*(\\w+)\\s*\\}|\\(\\s*(\\w+)\\s*\\))\\s*;`, "g");
// What is refused, each with the reason.
const OTHERS = [
  [/\bthread_local\b[^;{}()]*/, ": each thread has its own variable of this name, so declare it in the functions of the threads, as `int t = 0;`"],
  [/\bunion\b\s*\w*(?=\s*\{)/, ": its members share their bytes, and here each variable has a word of its own, so declare what the threads access"],
  [REFERENCE, ": a reference is another name of a variable, and it is not sure of which one here, so write the variable in its place"],
];
// A loop that looks at a lock and then tries to get it: the groups are the loads, the exchanges, and what leaves it.
const LOAD = "(\\w+\\s*\\.\\s*load\\s*\\([^()]*\\)|atomic_load\\w*\\s*\\([^()]*\\)|[A-Za-z_]\\w*)";
const TAKE = "(\\w+\\s*\\.\\s*(?:exchange|test_and_set)\\s*\\([^()]*\\)|atomic_(?:exchange|flag_test_and_set)\\w*\\s*\\([^()]*\\))";
const FOREVER = "\\b(?:for\\s*\\(\\s*;\\s*;\\s*\\)|while\\s*\\(\\s*(?:true|1)\\s*\\))\\s*\\{\\s*";
const LEAVE = "(?:\\{\\s*)?(break|return)\\s*;(?:\\s*\\})?\\s*\\}";
const isZero = (it) => `(?:!\\s*${it}|${it}\\s*==\\s*(?:0|false)\\b)`;
const TRYING = [
  new RegExp(`${FOREVER}if\\s*\\(\\s*${isZero(LOAD)}\\s*&&\\s*${isZero(TAKE)}\\s*\\)\\s*${LEAVE}`, "g"),
  new RegExp(`${FOREVER}while\\s*\\(\\s*${LOAD}\\s*\\)\\s*(?:;|\\{\\s*\\})\\s*if\\s*\\(\\s*!\\s*${TAKE}\\s*\\)\\s*${LEAVE}`, "g"),
  new RegExp(`\\bwhile\\s*\\(\\s*${LOAD}\\s*\\|\\|\\s*${TAKE}\\s*\\)\\s*(?:;|\\{\\s*\\})`, "g"),
];
// An assignment, a declaration or a `return` of what `?` chooses: the groups are its type, its place, and its value.
const CHOSEN = /(?<=[;{}]\s*)(?:(?:const\s+)?((?:auto|int|bool|unsigned|long)\s+)?(\w+)\s*=(?!=)|(return)\b)([^;{}?]+)\?([^;{}?]+);/g;
const LOADING = /load\w*\s*\(|READ_ONCE|load_acquire/;
const WIDE = /64|\blong\b|size_t|ptr_t/;
// Threads that are started outside of functions, up to the name of the first one, and a function.
const STARTED = /^(?:std\s*::\s*)?j?thread\s+\w+\s*[({]/m;
const FUNCTION = /\)\s*(?:noexcept\s*)?\{/;
const OF_READING = ": what a load reads is asked of a register, as `r1 = x.load(memory_order_acquire).readsvalue(1)`";
const OF_TESTS = ": the page takes one test of several, so leave out the others";
const LONGEST = 20000;

/** Returns the edits by which the threads of CppMem are functions, and what their loads read is the question; none for another program. */
function editParallel(code) {
  const [, front, inner] = PARALLEL.exec(code) ?? [];
  if (inner === undefined) return [];
  const main = MAIN.exec(front);
  const begin = front.length + 3;
  const edits = main ? [replaceMatch(main, "")] : [];
  const questions = [];
  let at = begin;
  for (const [thread, body] of inner.split("|||").entries()) {
    const reads = [...body.matchAll(READING)];
    if (body.split("readsvalue").length - 1 > reads.length) refusePart({ code: body.trim(), index: at + body.search(/\S|$/) }, OF_READING);
    questions.push(...reads.map(([, name, , word]) => `${thread}:${name}=${word}`));
    edits.push(...reads.map((it) => ({ begin: at + it.index + it[0].length - it[2].length, end: at + it.index + it[0].length, text: "" })));
    const isDeclared = (name) => new RegExp(`\\b(?:int|auto|long|bool|unsigned|atomic_\\w+|atomic<\\w+>)\\s[^;(){}]*\\b${name}\\b`).test(`${front};${body}`);
    const names = [...new Set([...body.matchAll(SET)].map(([, name]) => name))].filter((name) => !isDeclared(name));
    const declared = names.map((name) => ` int ${name};`).join("");
    const open = /^\s*\{/.exec(body);
    edits.push({ begin: at - 3, end: at + (open?.[0].length ?? 0), text: `void P${thread}(void) {${declared} ` });
    if (!open) edits.push({ begin: at + body.length, end: at + body.length, text: " } " });
    at += body.length + 3;
  }
  const asked = questions.length ? `\n// lw: exists (${questions.join(" /\\ ")})\n` : "";
  return [...edits, { begin: at - 3, end: code.length, text: asked }];
}

/** Returns the edits by which a test of GoogleTest is `main`; none for another program. */
function editTest(code) {
  const [test, another] = code.matchAll(TEST);
  if (!test || MAIN.test(code)) return [];
  if (another) refusePart({ code: another[0].trim(), index: another.index }, OF_TESTS);
  const expected = listCalls(code, EXPECTATION).map(({ match: [, kind], begin, end, values }) => {
    const message = /^\s*<<[^;]*/.exec(code.slice(end))?.[0].length ?? 0;
    return { begin, end: end + message, text: MEANINGS[kind](values) };
  });
  return [replaceMatch(test, "int main() "), ...expected];
}

/** Returns the edits by which letters that are no output are their codes. */
function editLetters(code) {
  return [...code.matchAll(LETTER)].filter((it) => !OUTPUT.test(code.slice(0, it.index))).map((it) => {
    const [, letter] = it;
    return replaceMatch(it, String(letter.length > 1 ? ESCAPES[letter[1]] ?? letter.charCodeAt(1) : letter.charCodeAt(0)));
  });
}

/** Returns the edits by which orders of memory that are numbers have their names. */
function editOrders(code) {
  return listCalls(code, BUILTIN).flatMap(({ match: [, kind], end, values }) => {
    const count = COUNTS[kind] ?? (/^(?:fetch_\w+|\w+_fetch)$/.test(kind) ? 3 : 0);
    const orders = values.slice(kind === "compare_exchange_n" ? -2 : -1);
    if (values.length !== count || !orders.every((it) => /^(?:[0-5]|__ATOMIC_\w+)$/.test(it))) return [];
    // They are the last values, so that each is the last part of its kind.
    let at = end - 1;
    return orders.reverse().flatMap((order) => {
      at = code.lastIndexOf(order, at - 1);
      return order.length === 1 ? [{ begin: at, end: at + 1, text: `__ATOMIC_${ORDERS[order]}` }] : [];
    });
  });
}

/** Returns the edits by which loops that look at a lock before they try it wait for each: the last pass of both is the same. */
function editTries(code) {
  return TRYING.flatMap((pattern) => [...code.matchAll(pattern)]).map((it) => {
    const parts = it.slice(1).filter(Boolean);
    const leave = /^(?:break|return)$/.test(parts.at(-1)) ? parts.pop() : "";
    return replaceMatch(it, `{ while (${parts[0]}) ; while (${parts[1]}) ;${leave === "return" ? " return;" : ""} }`);
  });
}

/** Returns the edits by which what `?` chooses is in branches, if it is loaded there. */
function editChoices(code) {
  return [...code.matchAll(CHOSEN)].flatMap((it) => {
    const [, type = "", place, result, condition, values] = it;
    const [then, otherwise, another] = values.split(/(?<!:):(?!:)/);
    const front = code.slice(Math.max(code.lastIndexOf("{", it.index), code.lastIndexOf("}", it.index)) + 1, it.index);
    const isInHead = front.split("(").length > front.split(")").length;
    if (isInHead || otherwise === undefined || another !== undefined || !LOADING.test(values) || (type && WIDE.test(code))) return [];
    const set = result ? "return" : `${place} =`;
    const declared = type ? `${type.replace("auto", "int")}${place}; ` : "";
    return [replaceMatch(it, `${declared}if (${condition}) { ${set} ${then}; } else { ${set} ${otherwise}; }`)];
  });
}

/** Returns the edits by which threads that are started outside of functions are started in `main`. */
function editStarts(code) {
  const { index } = STARTED.exec(code) ?? {};
  const isOutside = code.slice(0, index).split("{").length === code.slice(0, index).split("}").length;
  const isLast = !FUNCTION.test(code.slice(index).replace(/\[[^\][]*\]\s*(?:\([^()]*\)\s*)?(?:mutable\s*)?\{/g, " "));
  if (index === undefined || MAIN.test(code) || !isOutside || !isLast) return [];
  return [{ begin: index, end: index, text: "int main() { " }, { begin: code.length, end: code.length, text: "\n}\n" }];
}

/** Returns whether a name seems to be declared. */
function isDeclared(code, name) {
  const declared = new RegExp(`(?:\\b(?!(?:return|else|case|new|delete|co_return|throw)\\b)[A-Za-z_]\\w*|>)[\\s*&]+${name}\\b|,\\s*[*&]?${name}\\s*[;={,]`, "g");
  return [...code.matchAll(declared)].some((it) => !/^\w*\s*&&|^\w+\s+[*&]\s/.test(it[0]));
}

/** Returns the end of the block around an index; that of the code if there is none. */
function findBlockEnd(code, index) {
  let depth = 0;
  for (let at = index; at < code.length; at += 1) {
    depth += Number(code[at] === "{") - Number(code[at] === "}");
    if (depth < 0) return at;
  }
  return code.length;
}

/** Returns the edits by which the variables that references name are in their place, if no other variable has one of the names there. */
function editReferences(code) {
  return [...code.matchAll(REFERENCE)].flatMap((it) => {
    const [whole, name, ...values] = it;
    const referred = values.find(Boolean);
    const begin = it.index + whole.length;
    const rest = code.slice(begin, findBlockEnd(code, begin));
    if (/^\d/.test(referred) || isDeclared(rest, name) || isDeclared(rest, referred)) return [];
    const used = [...rest.matchAll(new RegExp(`(?<![\\w.]|->|::\\s{0,9})${name}\\b`, "g"))];
    return [replaceMatch(it, ""), ...used.map((place) => ({ begin: begin + place.index, end: begin + place.index + name.length, text: referred }))];
  });
}

/**
 * Returns the text of a program of other tools as the page reads it, and a function that returns the index that one of it has in the program; null if it is
 * none. Throws NoTest at a part that the page does not read, if that is at the index that is `refused`.
 * @param {string} text
 * @param {number} [refused]
 * @returns {{text: string, findIndex: function(number): number} | null}
 */
export function rewriteDialect(text, refused) {
  if (text.length > LONGEST) return null;
  const code = text.replace(NO_CODE, (it) => it.replace(/[^\n]/g, " "));
  const edits = [];
  for (const list of [editParallel, editTest, editStarts, editLetters, editOrders, editReferences, editTries, editChoices]) {
    const found = list(code);
    const isIn = (it) => edits.some(({ begin, end }) => it.begin < end && begin < it.end);
    if (!found.some(isIn)) edits.push(...found);
  }
  for (const [pattern, why] of OTHERS) {
    const found = [...code.matchAll(new RegExp(pattern, "g"))].find((it) => it.index <= refused && refused < it.index + it[0].length);
    const isEdited = found && edits.some((it) => it.begin === found.index);
    if (found && !isEdited) refusePart({ code: found[0].trim(), index: found.index }, why);
  }
  return edits.length ? applyEdits(text, edits) : null;
}
