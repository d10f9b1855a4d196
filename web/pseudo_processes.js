// Writes out pseudo code that two processes share, as `process i` and the methods `lock` and `unlock` of a class do: once for each of them. Not proved.

import { findClosing } from "./c_code.js";

const SAID_OF_PROCESSES = " Two threads run this code, each with its own number.";
const SAID_OF_SAME = " Two threads run this code.";
const SAID_OF_OLD_WORD = " A compare-and-swap that is compared with 0 returns the old word.";
const SAID_OF_PROMELA = " A statement of Promela is atomic, and here it is not.";
const SAID_OF_LOCK = " Each of two threads calls `lock`, is in a critical section, and calls `unlock`.";
// The name of a process with a letter in place of its number, and what follows it in its line up to its code.
const KIND = "(?:process(?:or)?|proc|thread)";
const PROCESS = new RegExp(
  `^[ \\t]*(?://[ \\t]*)?(?:${KIND}(?:[ _]+P)?[ _]*[[(]?i[\\])]?|P_?[[({]?i[\\])}]?)(?![\\w'])` +
    "(?<said>(?:\\([^\\n()]*\\)|[^\\n{:(])*)(?<end>:(?!=)|\\{|$)",
  "gim",
);
const OTHER_PROCESS = new RegExp(`^[ \\t]*(?://[ \\t]*)?(?:${KIND}[ _]*\\w{1,3}|[PT]_?[\\dj])[ \\t]*(?:[:{]|\\(\\s*\\)|$)`, "im");
// What may follow the name: the numbers of the processes. The number of the other one, as an expression and with a name.
const SAID = new RegExp(
  "^\\s*(?=$|[(,;∈]|(?:for|where|with|in|do|begin|code)\\b)[\\s,;()=∈{}.]*" +
    "(?:(?:i|j|in|for|where|with|and|or|to|do|begin|[01]|2(?=\\s*[-–−]\\s*i\\b|[\\s)},]*$)|3(?=\\s*-\\s*i\\b)|1\\s*[-–−]\\s*i|code)[\\s,;()=∈{}.-]*)*$",
  "i",
);
const FROM_ONE = /\bi\s*(?:=|∈|in)\s*[{[]?\s*1\s*(?:,|or|to|\.{2,3}|…|[-–−])\s*2\b|\b3\s*[-–−]\s*i\b/;
const RANGE = /\b1\s*(?:\.{2,3}|…)\s*2\b/;
// The number 2 of a process or an element, not the length of an array.
const HAS_TWO = /(?:[=≠]|<-|←)\s*2\b(?!\s*[-–−]\s*i\b)|(?<=\b\w+)\[\s*2\s*\](?=\s*(?::=|==?|!=|≠|<-|←)\s*[^\s{[(])/;
const OTHER_NUMBER = /\(\s*[13]\s*[-–−]\s*i\s*\)|\b[13]\s*[-–−]\s*i\b|\(\s*i\s*\+\s*1\s*\)\s*(?:%|mod)\s*2\b/g;
const SETS_OTHER = /(?<=^|[;{])[ \t]*(?:let |int |const |final |local |var )*j\s*(?::=|<-|←|=)\s*\(?(?:[13]\s*[-–−]\s*i|other)\)?\s*(?:;|$|(?=\/\/))/gm;
// Code of more than two processes.
const OF_MANY = /\b[nN]\b|\bfor\b|\bforall\b|∀|\bmax\b|\[\s*(?:i|j)\s*[+-]/;
const ASKING = /^[ \t]*(?:can|could|is|may|might|does|question|assert)\b.*$/gim;
// Code of one process without its name: declarations before it, the number of the process and that of the other one, and what is in place of a section.
const DECLARATIONS = /^(?:[ \t]*(?:(?:bool|boolean|int|integer|var|shared|volatile|variables?|initial(?:ly)?)\b.*|\/\/.*|\/\*[^*]*\*\/[ \t]*|)\n)*/i;
const OF_NUMBERS = /\[\s*i\s*\]/;
const OF_OTHERS = /\bj\b|\b1\s*[-–−]\s*i\b/;
const SECTION = /^\W*(?:in\s+)?(?:the\s+)?(?:critical[ _](?:section|region)|CS)\W*$/im;
// An endless loop that is a whole text, a locked instruction that gets a lock, which is the group, what is set, and a loop of the old word of a lock.
const ENDLESS = /^\s*(?:do\s*\{[^]*\}\s*while\s*\(\s*(?:true|1)\s*\)\s*;?|while\s*\(\s*(?:true|1)\s*\)\s*\{[^]*\})\s*$/i;
const LOCKED = /\bwhile\s*\(\s*(?:test_?and_?set|compare_?and_?swap)\s*\(\s*&?\s*(\w+)\b/i;
const ASSIGNED = /(?<![\w.])([A-Za-z_]\w*)(?:\[[^\]]*\])?\s*=(?!=)/g;
const OLD_WORD = /(?<=\bwhile\s*\(\s*)compare_?and_?swap\s*\(\s*&?\s*(\w+)\s*,\s*0\s*,\s*1\s*\)\s*!=\s*0(?=\s*\))/gi;
// A class with a lock, words of Java that pseudo code does without, what gives a thread its number, and what of Java is not written.
const CLASS = /^\s*(?:(?:public|final)\s+)*class\s+\w+(?:\s+(?:implements|extends)\s+\w+)?\s*\{([^]*)\}\s*$/;
const CONSTANT = /\b(?:(?:private|public|protected)\s+)?(?:static\s+final|final\s+static)\s+int\s+(\w+)\s*=\s*(\d+)\s*;/g;
const UNUSED_METHOD = /\bbool\s+(tryLock|isLocked)\s*\([^()]*\)\s*\{/;
const WORDS_IN_BRACES = /=\s*\{[\w\s,]*\}/g;
const OF_JAVA = /\b(?:public|private|protected|static|final|new)\s+|@\w+/g;
const NUMBER = /\b(?:int\s+)?(\w+)\s*=\s*(?:ThreadID\.get\(\)|(?:\(int\)\s*)?Thread\.currentThread\(\)\.\w+\(\))(?:\s*%\s*2)?\s*;/g;
const OTHER_NAME = /\bint\s+(\w+)\s*=\s*1\s*-\s*\w+\s*;/g;
const UNWRITTEN = /\bvolatile\b|\bAtomic(?!Boolean\b|Integer\b)\w+|\bsynchronized\b|\b(?:compareAnd\w+|lazySet|weak\w+|setRelease|\w+Plain|\w+Acquire)\s*\(/;
const OBJECT = /\bAtomic(?:Boolean|Integer)(\s+\w+)(?:\s*=\s*Atomic\w+\(\s*(\w*)\s*\))?/g;
const METHODS = [[/\.getAndSet\s*\(/g, ".exchange("], [/\.getAndAdd\s*\(/g, ".fetch_add("], [/\.set\s*\(/g, ".store("], [/\.get\s*\(\s*\)/g, ".load()"]];

// A process of Promela: the groups are how many there are, and its name. What of Promela is not written, what is left out, and statements that wait.
const PROCTYPE = /\b(active\s*(?:\[\s*(\d)\s*\]\s*)?)?proctype\s+(\w+)\s*\(\s*\)\s*\{/;
const UNWRITTEN_PROMELA = new RegExp(
  "::|\\b(?:atomic|d_step|goto|chan|mtype|inline|run(?!\\s*\\w+\\s*\\(\\s*\\))|timeout|else|break|do|if|typedef|unless|for|select)\\b|" +
    "[!?]\\s*\\w+\\s*;|#|->[^;]*->",
);
const OWN_OF_PROCESS = /(?<=^|[;{]\s*|^\s*)(?:byte|bit|bool|int|short)\s+(\w+)\s*;/g;
const PRINTED = /\bprintf\s*\([^;{}]*\)\s*;?/g;
const WAITS = /(?<=[;{]\s*)((?:!|\(|\w[\w[\] -]*[=!]=)(?:[^;{}=>]|[=!]=)*?)\s*(?:->|;|(?=\}|$))/g;

/** Returns whether a name is only that of one process: no other code has it, or it is that of a register. */
function isOwn(code, body, name) {
  const count = (it) => it.match(new RegExp(`\\b${name}\\b`, "g"))?.length ?? 0;
  return /^(?:r\d*|te?mp\d*)$/.test(name) || count(body) === count(code);
}

/** Returns the code of the processes of a model in Promela as pseudo code; null if it has other statements, or a text is no such model. */
function writePromela(text) {
  const code = text.replace(/\/\*[^]*?\*\/|\/\/.*/g, "").replace(PRINTED, "");
  let [rest, before] = [code, ""];
  const processes = [];
  for (let found = PROCTYPE.exec(rest); found; found = PROCTYPE.exec(rest)) {
    const [head, active, count = "1", name] = found;
    const close = findClosing(rest, found.index + head.length - 1);
    if (close < 0 || processes.length > 4) return null;
    const written = `;${rest.slice(found.index + head.length, close)}`.replace(WAITS, "await $1;").slice(1);
    const body = written.replace(OWN_OF_PROCESS, (whole, own) => (isOwn(code, written, own) ? "" : whole)).replace(/[;{}]\s*/g, "$&\n  ");
    processes.push({ name, count: active ? Number(count) : 0, body });
    before += rest.slice(0, found.index);
    rest = rest.slice(close + 1);
  }
  const [init, started] = /\binit\s*\{([^{}]*)\}/.exec(rest) ?? ["", ""];
  if (!processes.length || UNWRITTEN_PROMELA.test(processes.map((it) => it.body).join("\n") + started) || rest.replace(init, "").trim()) return null;
  // `init` has a number, too.
  if (init && /\b_pid\b/.test(code)) return null;
  const run = [...started.matchAll(/\brun\s+(\w+)/g)].flatMap(([, name]) => processes.filter((it) => it.name === name));
  const threads = [...processes.flatMap((it) => Array(it.count).fill(it)), ...run];
  // A variable outside is shared, also if it has the name of a register.
  const declared = before.match(/\b(?:r\d*|reg\d*|t\d|te?mp\d*|e[abcd]x|local\w*)\b/gi) ?? [];
  if (declared.some((name) => threads.filter((it) => new RegExp(`\\b${name}\\b`).test(it.body)).length > 1)) return null;
  const bodies = threads.map(({ body }, at) => `P${at} {\n  ${body.trim().replace(/\b1\s*-\s*_pid\b/g, String(1 - at)).replace(/\b_pid\b/g, String(at))}\n}\n`);
  return { text: `${before.replace(/\b(?:byte|bit|short)\b/g, "int").trim()}\n${bodies.join("")}`, words: SAID_OF_PROMELA };
}

/** Returns code of the process with a number, in which the other one has the other number. */
function setNumbers(code, number, other) {
  return code.replace(SETS_OTHER, "").replace(OTHER_NUMBER, String(other)).replace(/\bi\b/g, String(number)).replace(/\bj\b/g, String(other));
}

/** Returns the code of a method of a class without its braces; null if the class does not have the method without parameters. */
function findMethod(code, name) {
  const [head] = new RegExp(`\\bvoid\\s+${name}\\s*\\(\\s*\\)\\s*\\{`).exec(code) ?? [];
  if (!head) return null;
  const begin = code.indexOf(head);
  const inner = code.slice(begin + head.length);
  let depth = 1;
  const length = inner.split("").findIndex((it) => (depth += (it === "{") - (it === "}")) === 0);
  return length < 0 ? null : { body: inner.slice(0, length), begin, end: begin + head.length + length + 1 };
}

/** Returns code of a class in which the number of a thread is `i`, and that of the other one `j`; null if they have several names. */
function nameNumbers(code) {
  const [own, others] = [[...code.matchAll(NUMBER)], [...code.matchAll(OTHER_NAME)]].map((all) => [...new Set(all.map(([, name]) => name))]);
  if (own.length > 1 || others.length > 1) return null;
  const rename = (all, name, to) => (name ? all.replace(new RegExp(`\\b${name}\\b`, "g"), to) : all);
  return rename(rename(code, own[0], "i"), others[0], "j");
}

/** Returns code of a class with numbers in place of its constants. */
function setConstants(code) {
  const constants = [...code.matchAll(CONSTANT)];
  return constants.reduce((all, [, name, word]) => all.replace(new RegExp(`\\b${name}\\b`, "g"), word), code.replace(CONSTANT, ""));
}

/** Returns code of a class without a method that tries its lock, if no other one calls it. */
function dropUnused(code) {
  const { 0: head, 1: name, index } = UNUSED_METHOD.exec(code) ?? [];
  const close = head ? findClosing(code, index + head.length - 1) : -1;
  const rest = close < 0 ? code : code.slice(0, index) + code.slice(close + 1);
  return head && !new RegExp(`\\b${name}\\b`).test(rest) ? rest : code;
}

/** Returns the fields of a class as pseudo code declares them: an array has two words, as threads have two numbers. */
function declareFields(fields) {
  const bare = fields.replace(/\/\/.*/g, "").replace(OBJECT, (_, name, word) => `int${name} = ${word || 0}`);
  return bare.replace(/\b(bool|int)\s*\[\]\s*(\w+)(?:\s*=\s*(?:bool|int)\s*\[2\])?/g, "$1 $2[2]").trim();
}

/** Returns the code of two threads that use the lock of a class; null if a text is no such class. */
function writeLock(text) {
  const code = nameNumbers(dropUnused(setConstants(CLASS.exec(text)?.[1] ?? "").replace(OF_JAVA, "").replace(/\bboolean\b/g, "bool")));
  const methods = code && !UNWRITTEN.test(text) ? ["lock", "unlock"].map((it) => findMethod(code, it)) : [null];
  if (methods.includes(null)) return null;
  const parts = [...methods].sort((one, other) => other.begin - one.begin);
  const declared = declareFields(parts.reduce((all, it) => all.slice(0, it.begin) + all.slice(it.end), code));
  if (/[{}()]/.test(declared.replace(WORDS_IN_BRACES, "")) || OF_MANY.test(methods[0].body.replace(/\/\/.*/g, ""))) return null;
  const bodies = [0, 1].map((it) => {
    const plain = methods.map(({ body }) => body.replace(NUMBER, "").replace(/\bThreadID\.get\(\)/g, "i").replace(/\{\s*\}/g, ";\n"));
    const written = plain.map((body) => METHODS.reduce((all, [pattern, name]) => all.replace(pattern, name), body));
    const [before, after] = written.map((all) => setNumbers(all, it, 1 - it));
    return `P${it} {\n${before}\ncritical section;\n${after}\n}\n`;
  });
  return { text: `${declared}\n${bodies.join("")}`, words: SAID_OF_LOCK };
}

/** Returns the code of two processes with numbers from `first` on, given the name of one of them up to its number and what follows the number. */
function writeBoth(before, name, end, code, first) {
  const rest = code.replace(ASKING, "");
  const threads = [first, first + 1].map((it) => `${name}${it}${end}${setNumbers(rest, it, 2 * first + 1 - it)}\n`);
  const asked = [...code.matchAll(ASKING)].map(([line]) => `${line}\n`);
  return { text: before + threads.join("") + asked.join(""), words: SAID_OF_PROCESSES };
}

/**
 * Returns the text of two processes that run one endless loop with a critical section, before which a locked instruction gets the only variable that they set;
 * null if a text is something else.
 */
function writeLocking(before, code) {
  const [, lock] = LOCKED.exec(code) ?? [];
  const isAll = ENDLESS.test(code) && SECTION.test(code) && [...code.matchAll(ASSIGNED)].every(([, name]) => name === lock);
  if (!lock || !isAll || /\b[ij]\b/.test(code) || OF_MANY.test(code.replace(/\/\*[^]*?\*\//g, ""))) return null;
  // What returns whether it stored would not be compared with the word of a free lock.
  const compared = code.replace(OLD_WORD, "!CAS(&$1, 0, 1)");
  const returned = compared === code ? "" : SAID_OF_OLD_WORD;
  if (/compare/i.test(compared)) return null;
  return { text: `${before}P0:\n${compared.trimEnd()}\nP1:\n${compared.trimEnd()}\n`, words: SAID_OF_SAME + returned };
}

/** Returns the text of two processes that one without a name is the code of; null if a text is something else. */
function writeNameless(text) {
  const [before] = DECLARATIONS.exec(text);
  const code = text.slice(before.length);
  const locking = OTHER_PROCESS.test(text) ? null : writeLocking(before, code);
  if (locking) return locking;
  const isProcess = OF_NUMBERS.test(code) && OF_OTHERS.test(code) && SECTION.test(code) && !OF_MANY.test(code);
  return isProcess && !OTHER_PROCESS.test(text) ? writeBoth(before, "P", ":\n", code, 0) : null;
}

/**
 * Returns the text of two threads that a text of one process `i`, or a class with a lock, is the code of, with a sentence that says so; null if a text is
 * something else.
 * @param {string} text
 * @returns {{text: string, words: string} | null}
 */
export function writeProcesses(text) {
  const model = /\bproctype\b/.test(text) ? writePromela(text) : null;
  if (model) return model;
  const heads = [...text.matchAll(PROCESS)];
  if (!heads.length) return writeLock(text) ?? writeNameless(text);
  const [{ 0: head, index, groups: { said, end } }] = heads;
  const code = text.slice(index + head.length);
  if (heads.length > 1 || OTHER_PROCESS.test(text.replace(head, "")) || !SAID.test(said) || OF_MANY.test(code) || !/\bi\b/.test(code)) return null;
  const first = FROM_ONE.test(head) || FROM_ONE.test(code) || RANGE.test(text) ? 1 : 0;
  if (first === 0 && HAS_TWO.test(text)) return null;
  return writeBoth(text.slice(0, index), `${/^[ \t]*/.exec(head)[0]}P`, end || ":", code, first);
}
