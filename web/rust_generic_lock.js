// Rewrites a program in Rust with a lock of its own for any type, as `SpinLock<T>` with a guard that gives it back when it is dropped, as one
// without the lock's type: each lock is its atomics and its data, and its code is in place of the calls. Not proved.

import { findClosing } from "./c_code.js";
import { findBlockEnd, isStatement } from "./rust_locks.js";
import { splitStatements, Unread } from "./rust_statements.js";

const VISIBLE = "(?:pub(?:\\([^)]*\\))?\\s+)?";
// The heads of items: a structure, whose groups are its name and its parameters, and an `impl`, whose groups are a trait and a type.
const STRUCT = new RegExp(`${VISIBLE}struct\\s+(\\w+)\\s*<([^>]*)>\\s*(?=\\{)`, "g");
const IMPL = /(?:unsafe\s+)?impl\s*<[^>]*>\s*(?:(\w+)\s+for\s+)?(\w+)\s*<[^>]*>\s*(?:where\b[^{]*)?(?=\{)/g;
const FUNCTION = /(?:pub(?:\([^)]*\))?\s+)?(?:const\s+|unsafe\s+)*fn\s+(\w+)\s*\(([^()]*)\)\s*(?:->\s*[^{]*)?(?=\{)/g;
const FIELD = /(\w+)\s*:\s*([\w:<>' &]+?)\s*(?:,|$)/g;
const NUMBER = /^(?:[iu](?:32|64|size))$/;
const CLONE = /\blet\s+(\w+)\s*=\s*(?:Arc::clone\(\s*&\s*(\w+)\s*\)|(\w+)\.clone\(\s*\))\s*;/g;
const LOCKED = "\\s*\\.\\s*lock\\s*\\(\\s*\\)";
// Marks that are in place of what takes a lock and what gives it back, before its name.
const [TAKEN, GIVEN] = ["\u0001", "\u0002"];
// The head of a block that joins each thread of a list.
const JOINING = /\bfor\s+\w+\s+in\b[^{};]*$|\bfor_each\s*\(\s*\|\s*\w+\s*\|\s*$/;
const OF_GUARDS =
  ": a lock is taken by `let mut g = L.lock();`, and its data is only `*g`, up to `drop(g)` in the same block or the end of this, which nothing " +
  "leaves before";
const LEAVING = /\b(?:return|break|continue|await)\b|\?|\bpanic!|\.unwrap\(\)\s*\?/;

/** Returns the items of code with a head, each with the groups of this, its body, and its range. */
function listItems(code, pattern) {
  return [...code.matchAll(pattern)].map((found) => {
    const open = found.index + found[0].length;
    const close = findClosing(code, open);
    return { groups: found.slice(1), body: code.slice(open + 1, close), begin: found.index, end: close + 1, isWhole: close > 0 };
  });
}

/** Returns the fields of a structure: the names and the types. */
function listFields(body) {
  const plain = body.replace(new RegExp(`\\b${VISIBLE}(?=\\w+\\s*:)`, "g"), "").trim();
  return [...plain.matchAll(FIELD)].map(([, name, type]) => ({ name, type: type.replace(/\s/g, "") }));
}

/**
 * Returns the lock of a program with its guard: their names, the field of the data, the initial words of the others, and what locks and unlocks;
 * null if there is none.
 */
function findLock(code) {
  const structs = listItems(code, STRUCT);
  const impls = listItems(code, IMPL);
  const lock = structs.find((it) => /\bUnsafeCell\s*<\s*T\s*>/.test(it.body) && it.groups[1].trim() === "T");
  const reference = lock && new RegExp(`^\\s*${VISIBLE}\\w+\\s*:\\s*&\\s*'\\w+\\s+${lock.groups[0]}\\s*<\\s*T\\s*>\\s*,?\\s*$`);
  const guard = lock && structs.find((it) => it !== lock && reference.test(it.body));
  if (!guard || structs.length !== 2 || ![...structs, ...impls].every((it) => it.isWhole)) return null;
  const [name, guardName] = [lock.groups[0], guard.groups[0]];
  const [back] = /\w+(?=\s*:)/.exec(guard.body.replace(/\bpub\b(?:\([^)]*\))?/, ""));
  const fields = listFields(lock.body);
  const [data, ...others] = [...fields].sort((one, other) => Number(other.type === "UnsafeCell<T>") - Number(one.type === "UnsafeCell<T>"));
  if (data?.type !== "UnsafeCell<T>" || !others.length || others.some((it) => !/^Atomic(?:Bool|[IU](?:32|size))$/.test(it.type))) return null;
  const isOf = (trait, type) => (it) => it.groups[0] === trait && it.groups[1] === type;
  const own = impls.find(isOf(undefined, name));
  const dropping = impls.find(isOf("Drop", guardName));
  const access = new RegExp(
    "^\\s*(?:type\\s+Target\\s*=\\s*T\\s*;\\s*)?" +
      "fn\\s+deref(?:_mut)?\\s*\\(\\s*&\\s*(?:mut\\s+)?self\\s*\\)\\s*->\\s*&\\s*(?:mut\\s+)?(?:T|Self::Target)\\s*" +
      `\\{\\s*unsafe\\s*\\{\\s*&\\s*(?:mut\\s+)?\\*\\s*self\\s*\\.\\s*${back}\\s*\\.\\s*${data.name}\\s*\\.\\s*get\\s*\\(\\s*\\)\\s*\\}\\s*\\}\\s*$`,
  );
  const derefs = impls.filter((it) => ["Deref", "DerefMut"].includes(it.groups[0]) && it.groups[1] === guardName);
  const rest = impls.filter((it) => it !== own && it !== dropping && !derefs.includes(it));
  const isPlain = rest.every((it) => /^(?:Sync|Send)$/.test(it.groups[0] ?? "") && !it.body.trim());
  if (!own || !dropping || !derefs.length || !derefs.every((it) => access.test(it.body)) || !isPlain) return null;
  const parts = readParts(own.body, dropping.body, { name, guardName, back, data, others });
  return parts && { name, data, others, ...parts, items: [...structs, ...impls] };
}

/** Returns the initial words of atomics, and what locks and unlocks; null if the methods do more. */
function readParts(own, dropping, { name, guardName, back, data, others }) {
  const functions = listItems(own, FUNCTION);
  const [maker, taker] = ["new", "lock"].map((it) => functions.find((one) => one.groups[0] === it));
  const [drop] = listItems(dropping, FUNCTION);
  if (functions.length !== 2 || !maker || !taker || drop?.groups[0] !== "drop") return null;
  const [, parameter] = /^\s*(\w+)\s*:\s*T\s*$/.exec(maker.groups[1]) ?? [];
  const [, literal] = new RegExp(`^\\s*(?:Self|${name})\\s*\\{([^]*)\\}\\s*$`).exec(maker.body) ?? [];
  const words = new Map([...(literal ?? "").matchAll(/(\w+)\s*:\s*Atomic\w+::new\(\s*(\w+)\s*\)/g)].map(([, field, word]) => [field, word]));
  const isMade = parameter && literal && new RegExp(`\\b${data.name}\\s*:\\s*UnsafeCell::new\\(\\s*${parameter}\\s*\\)`).test(literal);
  const [, locking] = new RegExp(`^([^]*[;}])\\s*${guardName}\\s*\\{\\s*(?:${back}\\s*:\\s*)?self\\s*\\}\\s*$`).exec(taker.body) ?? [];
  const unlocking = drop.body.replace(new RegExp(`\\bself\\s*\\.\\s*${back}\\b`, "g"), "self");
  const isField = (one) => others.some((it) => it.name === one.replace(/^self\s*\.\s*/, ""));
  const isOwn = (it) => (it.match(/\bself\b(?:\s*\.\s*\w+)?/g) ?? []).every(isField);
  if (!isMade || !locking || others.some((it) => !words.has(it.name)) || !isOwn(locking) || !isOwn(unlocking)) return null;
  return /\blet\b|\breturn\b/.test(locking + unlocking) ? null : { words, locking, unlocking: `${unlocking.trim().replace(/;?$/, ";")}` };
}

/** Returns whether code of a block has no value: it ends with a statement, or with blocks that have none. */
function isWithoutValue(code) {
  const last = splitStatements(code).at(-1) ?? "";
  const blocks = [];
  for (let open = /^(?:if\b|unsafe\s*\{|\{)/.test(last) ? last.indexOf("{") : -1; open >= 0; ) {
    const close = findClosing(last, open);
    blocks.push(last.slice(open + 1, close));
    open = last.indexOf("{", close);
  }
  return isStatement(code) || (blocks.length > 0 && blocks.every(isWithoutValue));
}

/** Returns code in which a guard of a lock, whose declaration is found last, ends where Rust drops it, and its data is a word. */
function replaceGuard(code, [declaration, guard, name], index, word, refuse) {
  const begin = index + declaration.length;
  const end = findBlockEnd(code, begin);
  const body = code.slice(begin, end);
  const given = new RegExp(`\\b(?:(?:std::)?mem::)?drop\\s*\\(\\s*${guard}\\s*\\)\\s*;`).exec(body);
  // A guard without a name is dropped at once.
  const held = guard === "_" ? "" : given ? body.slice(0, given.index) : body;
  const after = guard === "_" ? body : given ? body.slice(given.index + given[0].length) : "";
  const inner = held.replace(new RegExp(`\\*\\s*${guard}\\b`, "g"), word);
  const isNested = findClosing(`{${held}}`, 0) !== held.length + 1;
  const isUsed = guard !== "_" && new RegExp(`\\b${guard}\\b`).test(inner + after);
  if (isNested || isUsed || LEAVING.test(held) || !isWithoutValue(held)) refuse(declaration);
  const written = inner.trimEnd().replace(/[^;}\s]$/, "$&;");
  return `${code.slice(0, index)}${TAKEN}${name}; ${written} ${GIVEN}${name}; ${after}${code.slice(end)}`;
}

/** Returns the statements of code, each with the mark that ends it. */
function splitAfter(code) {
  return code.match(/[^;]*;|[^;]+$/g) ?? [];
}

/** Returns a statement with words in place of what takes free locks, unless it takes one twice: the first guard ends with the statement. */
function freeLocks(statement, pattern, words) {
  const names = [...statement.matchAll(pattern)].map((it) => it[1]);
  return new Set(names).size < names.length ? statement : statement.replace(pattern, (whole, name) => words.get(name));
}

/**
 * Returns code without guards of locks, whose words are known by their names: marks are where it takes a lock and gives it back. The last guard is
 * replaced first, since Rust drops it first. Calls `refuse` with a guard that does more than to change a number.
 */
function replaceGuards(code, words, refuse) {
  const names = [...words.keys()].join("|");
  const guard = new RegExp(`\\blet\\s+(?:mut\\s+)?(\\w+)\\s*=\\s*(${names})${LOCKED}\\s*;`, "g");
  let text = code;
  for (const found of [...code.matchAll(guard)].reverse()) text = replaceGuard(text, found, found.index, words.get(found[2]), refuse);
  const statics = new Set([...code.matchAll(/\bstatic\s+(?:mut\s+)?(\w+)/g)].map(([, it]) => it));
  const [begin, end] = findRest(text) ?? [text.length, text.length];
  const free = splitAfter(text.slice(begin, end)).map((it) => freeLocks(it, new RegExp(`\\*\\s*(${names})${LOCKED}`, "g"), words));
  text = text.slice(0, begin) + free.join("") + text.slice(end);
  // What is on the right is computed before the lock is taken.
  const change = new RegExp(`(?<=[;{}]\\s*)\\*\\s*(${names})${LOCKED}\\s*([-+]?=)\\s*(\\w+(?:\\s*[-+]\\s*\\w+)*)\\s*(?:;|(?=\\}))`, "g");
  const read = new RegExp(`(?<=[;{}]\\s*)(let\\s+(?:mut\\s+)?(?!_\\b)\\w+\\s*(?::\\s*\\w+\\s*)?=)\\s*\\*\\s*(${names})${LOCKED}\\s*;`, "g");
  const dropped = new RegExp(`(?<=[;{}]\\s*)(${names})${LOCKED}\\s*;`, "g");
  const hold = (name, statement) => `${TAKEN}${name}; ${statement} ${GIVEN}${name};`;
  const isLocal = (value) => value.split(/[-+\s]+/).every((it) => !statics.has(it));
  return text
    .replace(change, (whole, name, sign, value) => (isLocal(value) ? hold(name, `${words.get(name)} ${sign} ${value};`) : whole))
    .replace(read, (whole, front, name) => hold(name, `${front} ${words.get(name)};`))
    .replace(dropped, (whole, name) => hold(name, ""));
}

/**
 * Returns where code begins and ends that the function executes which joins the threads, after it has joined the last one, when it finds all locks
 * free; null if there is none.
 */
function findRest(code) {
  const scopes = [...code.matchAll(/\bthread::scope\s*\(/g)].map((it) => findClosing(code, it.index + it[0].length - 1));
  let begin = Math.max(code.lastIndexOf(".join()"), ...scopes);
  if (begin < 0) return null;
  let end = findBlockEnd(code, begin);
  const cutHead = () => code.slice(0, findOpen(code, end));
  for (; end < code.length && JOINING.test(cutHead()); end = findBlockEnd(code, begin)) begin = end + 1;
  // A closure may be that of a thread, and so may a function in the rest.
  const isWhole = listItems(code, FUNCTION).some((it) => it.end === end + 1) || /\bmodel\s*\(\s*(?:move\s*)?\|\|\s*$/.test(cutHead());
  return isWhole && !/\bfn\b|\bspawn\b/.test(code.slice(begin, end)) ? [begin, end] : null;
}

/** Returns the index of the brace that opens the block which one at an index closes. */
function findOpen(code, close) {
  let [at, depth] = [close, 1];
  while (at > 0 && depth > 0) {
    at -= 1;
    depth += Number(code[at] === "}") - Number(code[at] === "{");
  }
  return at;
}

/** Returns code with a static lock in place of one that threads share by `Arc`, and of the names of its clones. */
function shareLock(code, { name }) {
  const made = new RegExp(`\\blet\\s+(\\w+)\\s*=\\s*Arc::new\\(\\s*${name}::new\\(\\s*(-?\\d+)(?:_?([iu]\\d+|[iu]size))?\\s*\\)\\s*\\)\\s*;`, "g");
  const [first, second] = [...code.matchAll(made)];
  if (!first || second) return code;
  const names = new Set([first[1]]);
  const text = code.replace(made, "").replace(CLONE, (whole, alias, one, other) => {
    if (!names.has(one ?? other)) return whole;
    names.add(alias);
    return "";
  });
  // A name that has another meaning, too, is left.
  const others = [...names].filter((it) => new RegExp(`\\blet\\s+(?:mut\\s+)?${it}\\b|\\b${it}\\s*:|\\|\\s*${it}\\b`).test(text));
  if (others.length) return code;
  const renamed = [...names].reduce((all, it) => all.replace(new RegExp(`(?<![\\w.])${it}\\b(?!\\s*[(!])`, "g"), first[1]), text);
  return `static ${first[1]}: ${name}<${first[3] ?? "i32"}> = ${name}::new(${first[2]});\n${renamed}`;
}

/**
 * Returns the code of a program in Rust without the type of a lock that it defines for any type; the same code if it has none, or does more with it
 * than to lock static ones, and to change their numbers.
 * @param {string} code without comments
 * @returns {string}
 */
export function rewriteGenericLock(code) {
  const lock = /\bUnsafeCell\s*<\s*T\s*>/.test(code) ? findLock(code) : null;
  if (!lock) return code;
  const items = [...lock.items].sort((one, other) => other.begin - one.begin);
  let text = shareLock(items.reduce((all, { begin, end }) => all.slice(0, begin) + all.slice(end), code), lock);
  const declared = new RegExp(
    `\\bstatic\\s+(\\w+)\\s*:\\s*${lock.name}\\s*<\\s*(\\w+)\\s*>\\s*=\\s*${lock.name}\\s*::\\s*new\\s*\\(\\s*(-?\\d+)\\s*\\)\\s*;`,
    "g",
  );
  const locks = [...text.matchAll(declared)];
  const words = new Map(locks.map(([, name]) => [name, `${name}_${lock.data.name}`]));
  const isTaken = [...words.keys()].some((name) => [lock.data, ...lock.others].some((it) => new RegExp(`\\b${name}_${it.name}\\b`).test(code)));
  if (!locks.length || words.size < locks.length || isTaken || locks.some(([, , type]) => !NUMBER.test(type))) return code;
  text = text.replace(declared, (_, name, type, word) => {
    const atomics = lock.others.map((it) => `static ${name}_${it.name}: ${it.type} = ${it.type}::new(${lock.words.get(it.name)});`);
    return `${atomics.join(" ")} static mut ${words.get(name)}: ${type} = ${word};`;
  });
  // Names of clones are not those of the program.
  const refuse = (part) => {
    throw new Unread(code.includes(part.trim()) ? part : lock.name, OF_GUARDS);
  };
  text = replaceGuards(text, words, refuse);
  for (const name of words.keys()) {
    const [taking, giving] = [lock.locking, lock.unlocking].map((it) => it.replace(/\bself\s*\.\s*(\w+)/g, `${name}_$1`));
    text = text.replaceAll(`${TAKEN}${name};`, () => taking).replaceAll(`${GIVEN}${name};`, () => giving);
    const [other] = new RegExp(`[^;{}]*\\b${name}\\b[^;{}]*`).exec(text) ?? [];
    if (other) refuse(other);
  }
  return new RegExp(`\\b${lock.name}\\b`).test(text) ? code : text;
}
