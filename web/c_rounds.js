// Rewrites a program in C or C++ whose threads run one round after another, which semaphores begin and end, as one whose `main` starts the threads for each
// round: there it sets variables, posts a semaphore for each thread, and waits till all threads have posted theirs. Each thread waits in an endless loop
// for its semaphore, and posts that which says that it has ended its round. A round begins with empty store buffers, since semaphores take locked
// instructions. Not proved.
//
// A `Loop` has the index of its head (`begin`), those of its braces (`open` and `close`), and the code of the statements in it, with their indices.

import { blankComments, findClosing } from "./c_code.js";
import { blankUncompiled } from "./c_directives.js";
import { findMain, listStatements, START } from "./c_outline.js";
import { splitOutside } from "./c_statements.js";

const SEMAPHORES = /^[ \t]*(?:static\s+)?sem_t\s+([\w\s,]+);/gm;
const ENDLESS = /\b(?:for\s*\(\s*;\s*;\s*\)|while\s*\(\s*(?:1|true)\s*\))\s*\{/g;
// A loop of `main`.
const ROUNDS = /\b(?:for|while)\s*\(/g;
const WAIT = /^sem_wait\s*\(\s*&\s*(\w+)\s*\)\s*;$/;
const POST = /^sem_post\s*\(\s*&\s*(\w+)\s*\)\s*;$/;
const OF_SEMAPHORE = /\bsem_(?:wait|post|init|destroy)\s*\(/;
// The begin of the declaration of a thread in C++; and words that several variables get.
const HANDLE = /^\s*(\w+)\s*[({]/;
const ASSIGNMENTS = /^((?:\w+\s*=\s*){2,})([\w-]+)\s*;$/;
// The end of the head of a function: the group is its name. And what may be in it beside the loop, or in `main` after its rounds.
const FUNCTION = /(\w+)\s*\([^(){}]*\)\s*$/;
const WITHOUT_EFFECT = new RegExp(
  "^(?:\\(\\s*void\\s*\\)\\s*\\w+|return\\b[^;=]*|[A-Z]\\w*(?:::\\w+)*\\s+\\w+\\s*(?:\\([\\w\\s,]*\\)|\\{[\\w\\s,]*\\})?|" +
    "(?:f?printf|puts|sem_destroy|pthread_join)\\s*\\([^;=]*\\)|(?:std::)?cout\\b[^;=]*|\\w+\\s*\\.\\s*join\\s*\\(\\s*\\))\\s*;$",
);
const HEAD_LETTERS = 200;
const MOST_LETTERS = 12000;

/** Returns the loop whose head ends with a brace, or null if that has no end. */
function makeLoop(code, begin, open) {
  const close = findClosing(code, open);
  return close < 0 ? null : { begin, open, close, statements: listStatements(code, open + 1, close) };
}

/** Returns the function whose code a loop is, as its `name`, if nothing else is in it that a round might keep; null otherwise. */
function findFunction(code, { begin, close }) {
  let [open, depth] = [begin, 0];
  while (open > 0 && depth < 1) {
    open -= 1;
    depth += Number(code[open] === "{") - Number(code[open] === "}");
  }
  const end = findClosing(code, open);
  const [, name] = FUNCTION.exec(code.slice(Math.max(0, open - HEAD_LETTERS), open)) ?? [];
  const isOnly = [...listStatements(code, open + 1, begin), ...listStatements(code, close + 1, end)].every((it) => WITHOUT_EFFECT.test(it.code));
  return depth === 1 && end > close && isOnly ? name ?? null : null;
}

/**
 * Returns the endless loops of threads, each with the semaphores that it `waits` for and `posts`, and the `name` of its function; null if one has other
 * semaphores, or a round is not all that its function does.
 */
function listThreadLoops(code, limit) {
  const loops = [...code.matchAll(ENDLESS)].filter((it) => it.index < limit).map((it) => makeLoop(code, it.index, it.index + it[0].length - 1));
  if (!loops.length || loops.includes(null)) return null;
  const named = loops.map((it) => {
    const [waits, posts] = [WAIT.exec(it.statements[0]?.code ?? "")?.[1], POST.exec(it.statements.at(-1)?.code ?? "")?.[1]];
    const others = it.statements.slice(1, -1).some(({ code: inner }) => OF_SEMAPHORE.test(inner) || /\b(?:break|continue|return|goto)\b/.test(inner));
    const name = findFunction(code, it);
    return waits && posts && name && !others ? { ...it, waits, posts, name } : null;
  });
  if (named.includes(null)) return null;
  const areApart = (key) => new Set(named.map((it) => it[key])).size === named.length;
  return areApart("waits") && areApart("name") && !named.some((it) => named.some((other) => other.posts === it.waits)) ? named : null;
}

/** Returns the first loop of `main` that has semaphores, in its parts: what is before the first one, and what is after the last one; null if it has others. */
function readRounds(code, main, loops) {
  const heads = [...code.matchAll(ROUNDS)].filter((it) => it.index > main.open && it.index < main.close);
  for (const { 0: head, index } of heads) {
    const end = findClosing(code, index + head.length - 1);
    const open = end < 0 ? -1 : end + 1 + code.slice(end + 1).search(/\S/);
    const loop = code[open] === "{" ? makeLoop(code, index, open) : null;
    const found = loop?.statements.flatMap((it, at) => (OF_SEMAPHORE.test(it.code) ? [at] : [])) ?? [];
    if (!found.length) continue;
    const { statements } = loop;
    const synchronizing = statements.slice(found[0], found.at(-1) + 1).map((it) => it.code);
    const posted = synchronizing.slice(0, loops.length).map((it) => POST.exec(it)?.[1]);
    const awaited = synchronizing.slice(loops.length).map((it) => WAIT.exec(it)?.[1]);
    const isSame = (one, other) => one.length === other.length && [...one].sort().join() === [...other].sort().join();
    const isWhole = isSame(posted, loops.map((it) => it.waits)) && isSame(awaited, loops.map((it) => it.posts));
    const isLast = listStatements(code, loop.close + 1, main.close).every((it) => WITHOUT_EFFECT.test(it.code));
    return isWhole && isLast ? { ...loop, before: statements.slice(0, found[0]), after: statements.slice(found.at(-1) + 1) } : null;
  }
  return null;
}

/** Returns the handles of the threads that a statement starts. */
function listHandles(code) {
  const [, handle, declared] = START.exec(code) ?? [];
  return handle ? [handle] : splitOutside(declared ?? "", ",").flatMap((it) => HANDLE.exec(it)?.[1] ?? []);
}

/** Returns the functions of the threads that a statement starts. */
function listFunctions(code) {
  const [, handle, declared] = START.exec(code) ?? [];
  if (handle) return [/^[^,]*,[^,]*,\s*&?(\w+)/.exec(code)?.[1] ?? ""];
  return splitOutside(declared ?? "", ",").map((it) => /^\s*\w+\s*[({]\s*&?(\w+)\s*[)}]/.exec(it)?.[1] ?? "").filter((it) => it || declared);
}

/** Returns statements in place of one that gives several variables a word. */
function splitAssignments(code) {
  const [, names, word] = ASSIGNMENTS.exec(code) ?? [];
  return names ? names.split("=").map((it) => it.trim()).filter(Boolean).map((it) => `${it} = ${word};`).join(" ") : code;
}

/**
 * Returns `main` of a loop whose passes are runs: what the loop of rounds sets, the threads, their joins, and what it does after them; null if `main` does
 * more.
 */
function makeMain(text, code, main, loops, rounds) {
  const outer = listStatements(code, main.open + 1, rounds.begin).filter((it) => !OF_SEMAPHORE.test(it.code));
  const starts = outer.flatMap((it) => listHandles(it.code));
  const functions = outer.flatMap((it) => listFunctions(it.code));
  if (functions.sort().join() !== loops.map((it) => it.name).sort().join()) return null;
  const firstStart = outer.findIndex((it) => START.test(it.code));
  const isStarting = firstStart >= 0 && outer.slice(firstStart).every((it) => START.test(it.code) || /^int\s+\w+\s*=\s*\d+\s*;$/.test(it.code));
  if (!isStarting || rounds.before.some((it) => /[{}]/.test(it.code))) return null;
  const cut = ({ code: { length }, index }) => splitAssignments(text.slice(index, index + length));
  const isC = /\bpthread_create\b/.test(code);
  const joins = starts.map((it) => (isC ? `pthread_join(${it}, NULL);` : `${it}.join();`));
  const [started, others] = [true, false].map((isStart) => outer.filter((it) => START.test(it.code) === isStart).map(cut));
  const round = [...rounds.before.map(cut), ...started, ...joins, ...rounds.after.map(cut)].join(" ");
  return `${others.join(" ")} for (int round = 0; round < 1000; round++) { ${round} }`;
}

/**
 * Returns the text of a program whose `main` starts the threads of a program of rounds for each of them. It is the same up to `main`, whose code begins at an
 * index. Null if a program is none of rounds.
 * @param {string} text
 * @returns {{text: string, main: number} | null}
 */
export function rewriteRounds(text) {
  if (text.length > MOST_LETTERS || !/\bsem_t\b/.test(text)) return null;
  const all = blankComments(text);
  const code = blankUncompiled(all);
  const main = findMain(code);
  const initialized = [...code.matchAll(/\bsem_init\s*\(([^()]*)\)/g)];
  if (initialized.some(([, values]) => !/,\s*0\s*,\s*0\s*$/.test(values))) return null;
  const loops = main && listThreadLoops(code, main.begin);
  const rounds = loops && readRounds(code, main, loops);
  const [lines, before] = [code.split("\n"), all.split("\n")];
  const compiled = text.split("\n").map((it, at) => (lines[at] === before[at] ? it : lines[at])).join("\n");
  const body = rounds && makeMain(compiled, code, main, loops, rounds);
  if (body === null || body === undefined || /\S/.test(code.slice(main.close + 1))) return null;
  const removed = loops.flatMap(({ begin, open, close, statements }) => {
    const [first, last] = [statements[0], statements.at(-1)];
    return [[begin, open + 1], [close, close + 1], [first.index, first.index + first.code.length], [last.index, last.index + last.code.length]];
  });
  const declared = [...code.matchAll(SEMAPHORES)].map((it) => [it.index, it.index + it[0].length]);
  const letters = [...compiled];
  for (const [begin, end] of [...removed, ...declared]) for (let at = begin; at < end; at += 1) if (letters[at] !== "\n") letters[at] = " ";
  const front = letters.slice(0, main.open + 1).join("");
  return /\bsem_\w+\s*\(/.test(blankComments(front)) ? null : { text: `${front} ${body} }\n`, main: front.length };
}
