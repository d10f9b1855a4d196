// Moves what a class of a program in C++ has for all its objects out of the class: static variables and methods, as a singleton has them. Not
// proved.
//
// An `Edit` replaces a text from its `begin` to its `end` by its `text`.

import { blankComments, findClosing } from "./c_code.js";

const CLASS = /\b(?:class|struct)\s+(\w+)\s*(?:final\s*)?\{/g;
// A static member in a class: a method up to its code, or a variable. The group is its name.
const METHOD = /^static\s+(?:[\w:]+(?:\s*<[^<>;{}()]*>)?[\s*&]+)+?(\w+)\s*\([^(){};]*\)\s*\{/;
const VARIABLE = /^(?:inline\s+static|static(?:\s+inline)?)\s+(?!const)[\w:]+(?:\s*<[^<>;{}()]*>)?[\s*&]+(\w+)\s*(?:=[^;{}()]*|\{[\w\s]*\})?;/;
const CONSTANT = /\bconst(?:expr)?\b/;
// A constructor that only gives members constants in its code: the groups are its name and the code. And what is deleted or left to the compiler.
const CONSTRUCTOR = /^(\w+)\s*\(\s*\)\s*\{((?:\s*\w+\s*=\s*[\w-]+\s*;)+)\s*\}/;
const COMPILED = /^(?:~?\w+|[\w:]+\s*&\s*operator\s*=)\s*\([^(){};]*\)\s*=\s*(?:delete|default)\s*;/;

/** Returns the static members of a class between its braces, and the edits of others in it that only say what the compiler does anyway. */
function listMembers(code, open, close) {
  const [members, edits] = [[], []];
  let at = open + 1;
  while (at < close) {
    const rest = code.slice(at, close);
    const [skipped] = /^(?:\s|;|(?:public|private|protected)\s*:(?!:))+/.exec(rest) ?? [""];
    if (skipped) {
      at += skipped.length;
      continue;
    }
    const [method, name] = METHOD.exec(rest) ?? [];
    const [variable, shared] = VARIABLE.exec(rest) ?? [];
    const [compiled] = COMPILED.exec(rest) ?? [];
    const [constructor, own, given] = CONSTRUCTOR.exec(rest) ?? [];
    const end = method ? findClosing(code, at + method.length - 1) + 1 : at + (variable ?? compiled ?? constructor ?? "").length;
    if (method && !end) return { members: [], edits: [] };
    if (method || variable) members.push({ name: name ?? shared, begin: at, end, isVariable: !method });
    if (compiled) edits.push({ begin: at, end, text: "" });
    if (constructor) edits.push({ begin: at, end, text: `${own}() : ${listGiven(given)} {}` });
    at = end > at ? end : findMemberEnd(code, at, close);
  }
  return { members, edits };
}

/** Returns what a constructor gives its members in its code as what it gives them before. */
function listGiven(code) {
  return code.trim().replace(/;$/, "").replace(/(\w+)\s*=\s*([\w-]+)\s*/g, "$1($2)").replaceAll(";", ",");
}

/** Returns where another member of a class ends that begins at an index. */
function findMemberEnd(code, begin, close) {
  const found = code.slice(begin, close).search(/[;{]/);
  if (found < 0) return close;
  const at = begin + found;
  return (code[at] === "{" ? findClosing(code, at) : at) + 1 || close;
}

/** Returns the edits that move the static members of a class out of it; none if a name of them may mean something else outside. */
function listEdits(text, code, name, open, close) {
  const { members, edits } = listMembers(code, open, close);
  if (!members.length) return [];
  const outside = `${code.slice(0, open)} ${code.slice(close)}`;
  const isTaken = (it) => new RegExp(`(?<!\\b${name}\\s*::\\s*)(?<!\\w)${it.name}\\b`).test(outside);
  const isVirtual = /\bfriend\b|\boperator\b(?!\s*=\s*\([^()]*\)\s*=)|\btemplate\b/.test(code.slice(open, close));
  if (members.some(isTaken) || isVirtual || members.some((it) => CONSTANT.test(code.slice(it.begin, it.end).split(/[({]/)[0]))) return [];
  const moved = members.flatMap((it) => {
    const own = text.slice(it.begin, it.end).replace(/\b(?:static|inline)\s+/g, "").replace(new RegExp(`\\b${name}\\s*::\\s*`, "g"), "");
    const isDefined = it.isVariable && new RegExp(`\\b${name}\\s*::\\s*${it.name}\\s*(?:[;={]|\\()`).test(code.slice(close));
    return isDefined ? [] : [own];
  });
  const tail = /^\}\s*;/.exec(code.slice(close))?.[0].length;
  if (!tail) return [];
  const names = members.map((it) => it.name).join("|");
  const qualified = [...code.matchAll(new RegExp(`\\b${name}\\s*::\\s*(?=(?:${names})\\b)`, "g"))].filter((it) => it.index < open || it.index > close);
  return [
    ...edits,
    ...members.map((it) => ({ begin: it.begin, end: it.end, text: "" })),
    { begin: close + tail, end: close + tail, text: `\n${moved.join("\n")}\n` },
    ...qualified.map((it) => ({ begin: it.index, end: it.index + it[0].length, text: "" })),
  ];
}

/**
 * Returns the edits that move static members of the classes of a program out of these.
 * @param {string} text
 * @returns {Edit[]}
 */
export function listStaticEdits(text) {
  if (!/\bstatic\b/.test(text)) return [];
  const code = blankComments(text);
  return [...code.matchAll(CLASS)].flatMap(({ 0: head, 1: name, index }) => {
    const open = index + head.length - 1;
    const close = findClosing(code, open);
    return close < 0 ? [] : listEdits(text, code, name, open, close);
  });
}
