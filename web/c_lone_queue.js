// Gives a queue of a program in C++ that no thread uses two threads: one that puts a word into it, and one that takes once. Not proved.

import { blankComments, findClosing } from "./c_code.js";

const PUTTING = /^(?:try_?)?(?:push|enqueue|put|send|offer|produce)(?:_?back)?$/i;
const TAKING = /^(?:try_?)?(?:pop|dequeue|take|receive|recv|poll|consume)(?:_?front)?$/i;
// A class: the groups are the parameters of its template, and its name.
const CLASS = /(?:\btemplate\s*<([^<>;{}]*)>\s*)?\b(?:class|struct)\s+(?:alignas\s*\(\w+\)\s*)?(\w+)\s*(?:final\s*)?\{/g;
// A method with one parameter or none: the groups are its type, its name, and the type, the mark and the name of its parameter.
const METHOD = /\b(bool|void|int|unsigned|[A-Z]\w*)\s+(\w+)\s*\(\s*(?:(?:const\s+)?([A-Za-z_]\w*)(?:\s+const)?\s*(&{0,2}|\*)\s*(\w+)\s*)?\)\s*(?:noexcept\s*|const\s*)*\{/g;
const PARAMETER = /^(typename|class|(?:std::)?size_t|int|unsigned(?:\s+int)?)\s+(\w+)(\s*=[^]*)?$/;
const WORD = /^(?:int|unsigned|bool|u?int(?:8|16|32|64)_t|size_t|long)$/;
const SIZE = "2";
const SAID = " No thread uses the queue: here one thread puts 1 into it, and another one takes once";
const OF_SIZE = `, and its size is ${SIZE}`;

/**
 * Returns the arguments of a template, the names of its parameters that are types, and what is said of a size that is given; null if a parameter is neither a
 * type nor a number.
 */
function findArguments(list) {
  if (list === undefined) return { words: "", types: [], size: "" };
  const parameters = list.split(",").map((it) => PARAMETER.exec(it.trim()));
  if (parameters.includes(null)) return null;
  const isType = ([, kind]) => /^(?:typename|class)$/.test(kind);
  // What has a default keeps it.
  const given = parameters.filter((it) => isType(it) || !it[3]);
  if (given.length > 1 && parameters.indexOf(given.at(-1)) !== given.length - 1) return null;
  const words = `<${given.map((it) => (isType(it) ? "int" : SIZE)).join(", ")}>`;
  return { words, types: parameters.filter(isType).map((it) => it[2]), size: given.every(isType) ? "" : OF_SIZE };
}

/** Returns the statements that take from a queue by a function, before whose name is the queue of a method; null if it has another form. */
function writeTaking([, type, name, parameter, mark, own], isWord, queue) {
  if (own && !isWord(parameter)) return null;
  if (own) {
    const call = `${queue}${name}(${mark === "*" ? "&" : ""}taken)`;
    return mark === "&" || mark === "*" ? `int taken = 0; ${type === "bool" ? `bool got = ${call};` : `${call};`}` : null;
  }
  return isWord(type) && type !== "bool" ? `int taken = ${queue}${name}();` : null;
}

/** Returns the only class of a code, as the match of its head and its range, if nothing is outside of it; null if that is not so. */
function findClass(code) {
  const classes = [...code.matchAll(CLASS)].map((it) => ({ match: it, begin: it.index, end: findClosing(code, it.index + it[0].length - 1) + 1 }));
  const outer = classes.filter((it) => !classes.some((other) => other !== it && other.begin < it.begin && it.end <= other.end));
  const outside = outer.length === 1 && outer[0].end ? [code.slice(0, outer[0].begin), code.slice(outer[0].end)].map((it) => it.replace(/^[ \t]*#.*$/gm, "")) : null;
  return outside && !/[({]/.test(outside[0]) && !/\w/.test(outside[1]) ? outer[0] : null;
}

/** Returns the functions that put and take, of those of a code; null if it has not one of each. */
function findPair(code) {
  const functions = [...code.matchAll(METHOD)];
  const [puts, takes] = [PUTTING, TAKING].map((pattern) => functions.filter((it) => pattern.test(it[2])));
  return puts.length === 1 && takes.length === 1 ? { put: puts[0], take: takes[0], count: functions.length } : null;
}

/** Returns two threads that use a queue, and its declaration, if it is a class; null if its functions have another form. */
function writeUsers({ put, take }, { words, types }, type, queue) {
  const isWord = (it) => WORD.test(it) || types.includes(it);
  const object = type ? `${queue}.` : "";
  const taking = writeTaking(take, isWord, object);
  if (!taking || !isWord(put[3]) || put[4] === "*") return null;
  return `${type ? `${type}${words} ${queue};\n` : ""}void put_1() { ${object}${put[2]}(1); }\nvoid take_1() { ${taking} }\n`;
}

/**
 * Returns a program with two threads that use its queue, which is its only class, or its only two functions, and a sentence on them; null if it is no such
 * program.
 * @param {string} text
 * @returns {{text: string, users: string} | null}
 */
export function addQueueUsers(text) {
  const code = blankComments(text);
  const only = findClass(code);
  const pair = findPair(only ? code.slice(only.begin, only.end) : code);
  const isOfFunctions = pair?.count === 2 && !/\b(?:class|struct|main|template)\b/.test(code) && (code.match(/\)\s*\{/g) ?? []).length >= 2;
  const given = findArguments(only?.match[1]);
  const queue = ["queue", "the_queue", "lone_queue"].find((it) => !new RegExp(`\\b${it}\\b`).test(code));
  if (!pair || !given || !queue || !(only || (isOfFunctions && areUncalled(code, pair)))) return null;
  const users = writeUsers(pair, given, only?.match[2], queue);
  return users && { text: `${text.trimEnd()}\n${users}`, users: `${SAID}${given.size}.` };
}

/** Returns whether nothing in a code calls a pair of functions, and all other functions have no name of a thread. */
function areUncalled(code, { put, take }) {
  const isOnce = ([, , name]) => code.split(new RegExp(`\\b${name}\\b`)).length === 2;
  const others = [...code.matchAll(/\bvoid\s*\*?\s*\w+\s*\([^(){};]*\)\s*\{/g)].filter((it) => it.index !== put.index && it.index !== take.index);
  return isOnce(put) && isOnce(take) && !others.length;
}
