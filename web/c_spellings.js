// Rewrites a program in C or C++ in the spellings that the page reads: counters are declared in their loops, a chain of assignments is one after another, and
// a constant such as `1e9` has all its digits; and the number of a thread that functions of a lock have, which nothing declares, is their parameter. Not proved.
//
// The record `Edit` is that of c_edits.js.

import { findClosing } from "./c_code.js";
import { isStatement, replaceMatch } from "./c_edits.js";

// A declaration of integers: the groups are its type, and its variables. And the head of a loop that sets a counter, up to its name, which is the group.
const DECLARATION = /(?<=[;{}]\s*)((?:unsigned\s+|long\s+)*(?:int|unsigned|long|size_t)\s+)([A-Za-z_]\w*(?:\s*=\s*\d+)?(?:\s*,\s*[A-Za-z_]\w*(?:\s*=\s*\d+)?)*)\s*;/g;
const LOOP = /\bfor\s*\(\s*(?=([A-Za-z_]\w*)\s*=\s*\d+\s*;)/g;
const FUNCTION = /\)\s*(?:const\s*|noexcept\s*)*\{/g;
// Several assignments of a constant in one statement, of variables and of words of arrays. (Another constant than 0 and 1 might not fit into one of them.)
const PLACE = "[A-Za-z_]\\w*(?:\\s*\\[\\s*\\w+\\s*\\]|\\.\\w+)?";
const CHAIN = new RegExp(`(?<=[;{}]\\s*)(${PLACE}(?:\\s*=(?!=)\\s*${PLACE})+)\\s*=(?!=)\\s*([01]|true|false)(?=\\s*;)`, "g");
// A function without parameters, up to them, and the number of a thread.
const BARE = /\b(?:void|int)\s+\w+\s*\(\s*(?:void\s*)?(?=\)\s*\{)/g;
const NUMBER = /(?<!\w|\.|->)(?:self|me|tid|myid|my_id|pid)\b/;
const SCALED = /(?<![\w.])(\d{1,3})[eE](\d)(?![\w.])/g;
const MOST = 2 ** 32;

/** Returns the bodies of the functions of a code, each with its range. */
function listBodies(code) {
  const bodies = [...code.matchAll(FUNCTION)].map(({ 0: head, index }) => {
    const begin = index + head.length - 1;
    return { begin, end: findClosing(code, begin) };
  });
  return bodies.filter((it) => it.end > 0 && !bodies.some((other) => other !== it && other.begin < it.begin && it.end <= other.end));
}

/** Returns the ranges of the loops of a body that set a variable first, each with the index of its name. */
function listLoops(code, { begin, end }, name) {
  return [...code.slice(begin, end).matchAll(LOOP)].filter((it) => it[1] === name).map(({ 0: head, index }) => {
    const open = code.indexOf("(", begin + index);
    const close = findClosing(code, open);
    const body = /^\s*\{/.test(code.slice(close + 1)) ? findClosing(code, code.indexOf("{", close)) : code.indexOf(";", close + 1);
    return { begin: begin + index, at: begin + index + head.length, end: body };
  });
}

/** Returns the edits by which counters of a body, which nothing but their loops has, are declared in these. */
function editCounters(code, body) {
  const edits = [];
  for (const declared of code.slice(body.begin, body.end).matchAll(DECLARATION)) {
    const [whole, type, list] = declared;
    const begin = body.begin + declared.index;
    const names = list.split(",").map((it) => it.trim());
    const isCounter = (it) => {
      const name = it.split("=")[0].trim();
      const loops = listLoops(code, body, name);
      const places = [...code.slice(body.begin, body.end).matchAll(new RegExp(`(?<!\\w|\\.|->)${name}\\b`, "g"))].map(({ index }) => body.begin + index);
      const isIn = (at) => (begin <= at && at < begin + whole.length) || loops.some((loop) => loop.begin <= at && at <= loop.end);
      return loops.length > 0 && loops.every((loop) => loop.end > 0) && places.every(isIn);
    };
    const counters = names.filter(isCounter);
    if (!counters.length) continue;
    const others = names.filter((it) => !counters.includes(it));
    edits.push({ begin, end: begin + whole.length, text: others.length ? `${type}${others.join(", ")};` : "" });
    for (const it of counters) edits.push(...listLoops(code, body, it.split("=")[0].trim()).map(({ at }) => ({ begin: at, end: at, text: type })));
  }
  return edits;
}

/** Returns the edits by which a chain of assignments of one constant is one after another, the last variable first. */
function editChains(code) {
  return [...code.matchAll(CHAIN)].filter((it) => isStatement(code, { begin: it.index, end: it.index + it[0].length })).map((it) => {
    const places = it[1].split("=").map((place) => place.trim());
    return replaceMatch(it, places.reverse().map((place) => `${place} = ${it[2]}`).join("; "));
  });
}

/** Returns the edits by which functions of a code without threads have the number of their thread as a parameter, if nothing declares it. */
function editNumbers(code) {
  const [name] = NUMBER.exec(code) ?? [];
  if (!name || /\b(?:main|thread|pthread_create)\b/.test(code) || new RegExp(`(?:\\w|\\*|&)\\s+[*&]?${name}\\s*[;=,)]`).test(code)) return [];
  const isUser = ({ index, 0: head }) => {
    const begin = code.indexOf("{", index + head.length);
    return new RegExp(`(?<!\\w|\\.|->)${name}\\b`).test(code.slice(begin, findClosing(code, begin)));
  };
  return [...code.matchAll(BARE)].filter(isUser).map((it) => replaceMatch(it, `${it[0].replace(/\(\s*(?:void\s*)?$/, "")}(int ${name}`));
}

/**
 * Returns the edits by which a code has the spellings that the page reads.
 * @param {string} code
 * @returns {{edits: Edit[], words: string}}
 */
export function listSpellings(code) {
  const scaled = [...code.matchAll(SCALED)].map((it) => ({ it, value: Number(it[1]) * 10 ** Number(it[2]) })).filter(({ value }) => value < MOST);
  const digits = scaled.map(({ it, value }) => replaceMatch(it, String(value)));
  const edits = [...digits, ...editChains(code), ...editNumbers(code), ...listBodies(code).flatMap((it) => editCounters(code, it))];
  return { edits, words: "" };
}
