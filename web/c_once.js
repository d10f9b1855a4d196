// Finds out whether a program in C or C++ makes an object once, since a lock is around a test whether it is made: as double-checked locking does.
// Not proved.
//
// The first thread that has the lock makes the object, and stores its pointer before it gives the lock back. Each one that gets the lock later
// finds this pointer. So it matters that nothing else sets the pointer, and that the lock is one.

import { findClosing } from "./c_code.js";

// What takes a lock, at the end of code: the groups are the names of the lock in a guard, a method, a function of C, and a loop that spins.
const LOCK = new RegExp(
  "[;{}]\\s*(?:(?:std::)?(?:lock_guard|unique_lock|scoped_lock)\\s*(?:<\\s*[\\w:]+\\s*>)?\\s*\\w+\\s*[({]\\s*(\\w+)\\s*[)}]\\s*|" +
    "(\\w+)\\s*\\.\\s*lock\\s*\\(\\s*\\)\\s*|pthread_mutex_lock\\s*\\(\\s*&\\s*(\\w+)\\s*\\)\\s*|" +
    "while\\s*\\(\\s*(\\w+)\\s*\\.\\s*test_and_set\\s*\\([\\w:\\s]*\\)\\s*\\)\\s*(?:\\{\\s*\\}|(?=;)))\\s*;?\\s*$",
);
const GUARD = /_(?:guard|lock)\s*(?:<|\s\w)/;
// The load of a pointer into another one, at the end of code: the groups are the latter and the shared one.
const LOAD = "(?:\\.\\s*load\\s*\\([\\w:\\s]*\\))?";
const LOADED = new RegExp(`(?<=[;{}]\\s*)(?:(?:auto|\\w+)\\s*\\*?\\s+\\*?\\s*)?(\\w+)\\s*=\\s*(\\w+)\\s*${LOAD}\\s*;\\s*$`);
// A condition that a pointer is null: the groups are its name.
const NULL = "(?:nullptr|NULL|0)";
const IS_NULL = new RegExp(`^\\s*(?:!\\s*(\\w+)\\s*${LOAD}|(\\w+)\\s*${LOAD}\\s*==\\s*${NULL}|${NULL}\\s*==\\s*(\\w+)\\s*${LOAD})\\s*$`);
const HEAD = /\bif\s*\($/;
const MUTEX = "(?:(?:std::)?mutex|pthread_mutex_t|(?:std::)?atomic_flag)\\s+";
// The heads of a namespace, and of a class: the group is its name.
const SPACE = /\b(?:namespace\s*[\w:]*|extern\s*"\s*C\s*")$/;
const CLASS = /\b(?:struct|class)\s+(\w+)\s*(?:final\s*)?(?::(?!:)[^{}]*)?$/;

/**
 * Returns the indices at which the head and the block of the innermost `if` around an index begin and end; null if it is in none, or in a block in
 * it.
 */
function findBranch(code, index) {
  let [at, depth] = [index, 0];
  while (at > 0 && depth < 1) {
    at -= 1;
    depth += Number(code[at] === "{") - Number(code[at] === "}");
  }
  const before = code.slice(0, at).trimEnd();
  let open = before.length - 1;
  if (depth < 1 || before[open] !== ")") return null;
  for (depth = 0; open >= 0; open -= 1) {
    depth += Number(before[open] === ")") - Number(before[open] === "(");
    if (!depth) break;
  }
  const [head] = HEAD.exec(before.slice(0, open + 1)) ?? [];
  return head ? { begin: open + 1 - head.length, condition: before.slice(open + 1, -1), open: at, close: findClosing(code, at) } : null;
}

/**
 * Returns the pointer and the lock because of which the code at an index, which makes an object, is executed once at most: it is in an `if` that
 * finds the pointer null after the lock is taken, and sets this pointer before the lock is given back. Nothing else sets it. Null if there are none.
 * @param {string} code without comments
 * @param {number} index
 * @returns {[string, string] | null}
 */
export function findDoubleCheck(code, index) {
  const branch = findBranch(code, index);
  const [, negated, left, right] = (branch && IS_NULL.exec(branch.condition)) || [];
  const tested = negated ?? left ?? right;
  if (!tested || branch.close < 0) return null;
  const before = code.slice(0, branch.begin);
  const [loading, local, loaded] = LOADED.exec(before) ?? [];
  const pointer = local === tested ? loaded : tested;
  const [lock, ...names] = LOCK.exec(loading ? before.slice(0, -loading.length) : before) ?? [];
  const mutex = names.find(Boolean);
  if (!lock || (loading && local !== tested) || !new RegExp(`\\b${MUTEX}(?:\\w+\\s*,\\s*)*${mutex}\\b`).test(code)) return null;
  // Its declaration, its lock, and what gives it back after the branch.
  const [, , third, ...others] = [...code.matchAll(new RegExp(`\\b${mutex}\\b`, "g"))].map((it) => it.index);
  if (others.length || third < branch.close || (third === undefined) !== GUARD.test(lock)) return null;
  const inner = code.slice(branch.open + 1, branch.close);
  const setting = new RegExp(`(?<![\\w.>])${pointer}\\s*(?:=(?!=)|\\.\\s*(?!load\\b)\\w+|\\{|\\()`, "g");
  // Its declaration, with null or nothing, and the store in the branch.
  const settings = [...code.matchAll(setting)].filter((it) => !isDeclaration(code, it.index, it[0].length));
  const isAddressed = new RegExp(`(?<!&)&\\s*${pointer}\\b`).test(code.replace(/\batomic_load\w*\s*\(\s*&/g, ""));
  const isOnly = settings.length === 1 && !isAddressed && settings[0].index > index && settings[0].index < branch.close;
  const isLeft = /[{}]|\bif\b|\b(?:un)?lock\b|\bunlock|\bclear\b|\breturn\b|\bgoto\b|\bthrow\b|\?/.test(inner);
  return isOnly && !isLeft ? [pointer, mutex] : null;
}

/** Returns whether a setting of a pointer at an index is its declaration, by which it is null. */
function isDeclaration(code, index, length) {
  const isTyped = /(?:>|\*)\s*$/.test(code.slice(0, index));
  return isTyped && new RegExp(`^\\s*(?:${NULL})?\\s*[)}]?\\s*;`).test(code.slice(index + length));
}

/** Returns where the statement begins in which an index is, and the heads of the blocks around it without namespaces, the innermost first. */
function findPlace(code, index) {
  const findBegin = (at) => Math.max(...[";", "{", "}"].map((mark) => (at > 0 ? code.lastIndexOf(mark, at - 1) : -1))) + 1;
  const open = [];
  for (let at = 0; at < index; at += 1) {
    if (code[at] === "{") open.push(at);
    if (code[at] === "}") open.pop();
  }
  const heads = open.map((at) => code.slice(findBegin(at), at).trim()).filter((it) => !SPACE.test(it));
  return { begin: findBegin(index), heads: heads.reverse() };
}

/** Returns how many objects of a class a declaration at an index declares, which has its name: Infinity if this is not known. */
function countDeclared(code, name, index) {
  const { begin, heads } = findPlace(code, index);
  const [before, after] = [code.slice(begin, index), code.slice(index + name.length)];
  const [head] = /\b(?:struct|class)\s+$/.test(before) ? /^\s*(?:final\s*)?(?::(?!:)[^;{}]*)?(?=[;{])/.exec(after) ?? [] : [];
  if (head !== undefined && !/\btypedef\b/.test(before)) {
    const close = after[head.length] === "{" ? findClosing(after, head.length) : -1;
    const declared = close < 0 ? "" : /^[^;]*/.exec(after.slice(close + 1))[0].trim();
    return !declared ? 0 : /^\w+$/.test(declared) ? 1 : Infinity;
  }
  const isOwn = /^\s*\(/.test(after) && (/::\s*$/.test(before) || new RegExp(`\\b(?:struct|class)\\s+${name}\\b`).test(heads[0]));
  if (isOwn || /~\s*$/.test(before) || /^\s*(?:::|(?:const\s*)?[&*])/.test(after)) return 0;
  // Each thread that executes a function has its own local objects.
  const isSingle = !heads.some((it) => CLASS.test(it)) && (!heads.length || /\bstatic\b/.test(before) || /\bmain\s*\(/.test(heads.at(-1)));
  return isSingle && /^\s+\w+\s*(?:\{[^{},]*\}|\([^(),]*\)|=[^,;[]*)?\s*;/.test(after) ? 1 : Infinity;
}

/**
 * Returns whether all threads have one and the same variable of a name: it is declared once, outside of functions and classes, or as a static
 * variable, or in a class that has one object.
 * @param {string} code without comments
 * @param {string} name
 * @returns {boolean}
 */
export function isOne(code, name) {
  const typed = `>\\s*|[\\w>,]\\s*\\*\\s*(?:(?:const|_Atomic|volatile)\\s+)?|\\bauto\\s+|\\b${MUTEX}(?:\\w+\\s*,\\s*)*`;
  const pattern = new RegExp(`(?:${typed})&?\\s*${name}\\b`, "g");
  const [first, second] = [...code.matchAll(pattern)].filter((it) => !/\breturn\s*\*?\s*$/.test(code.slice(0, it.index + 1)));
  if (!first || second || /\bthread_local\b|\b__thread\b|\b_Thread_local\b/.test(code)) return false;
  const { begin, heads } = findPlace(code, first.index);
  const declaration = code.slice(begin, first.index + first[0].length);
  if (declaration.split("(").length > declaration.split(")").length || first[0].includes("&")) return false;
  if (!heads.length || /\bstatic\b/.test(declaration)) return true;
  const [, type] = (heads.length === 1 && CLASS.exec(heads[0])) || [];
  const named = type ? [...code.matchAll(new RegExp(`\\b${type}\\b`, "g"))] : [];
  return Boolean(type) && named.reduce((count, it) => count + countDeclared(code, type, it.index), 0) <= 1;
}
