// Rewrites what a `Mutex` in Rust has as a static variable beside a mutex of C++, and the data of an `UnsafeCell` as plain data. Not proved.

import { findClosing } from "./c_code.js";
import { splitStatements, Unread } from "./rust_statements.js";

const OF_GUARDS = ": a mutex is locked by `let mut g = m.lock().unwrap()`, and its data is only `*g`, up to `drop(g)` or the end of the block";
const OF_NAMES = ": give it a name that no other variable has";
const MOST = 40;
// A mutex, static or not: the groups are its name, the type of its data and their first word.
const STATIC = /(?:pub(?:\([^)]*\))?\s+)?static\s+(\w+)\s*:\s*(?:[\w:]+::)?Mutex<\s*(\w+|\(\))\s*>\s*=\s*(?:[\w:]+::)?Mutex::new\((\(\)|[^()]*)\)\s*;/;
const LOCAL = new RegExp(
  "let\\s+(\\w+)(?:\\s*:\\s*(?:Arc<\\s*)?(?:[\\w:]+::)?Mutex<\\s*(\\w+|\\(\\))\\s*>+)?\\s*=\\s*(?:(?:[\\w:]+::)?Arc::new\\(\\s*)?" +
    "(?:[\\w:]+::)?Mutex::new\\((\\(\\)|[^()]*)\\)\\s*\\)?\\s*;",
);
const LOCKED = "\\.lock\\(\\)(?:\\.unwrap\\(\\)|\\.expect\\([^()]*\\))?";
const CELL_GET = /\*\s*((?:self|[A-Za-z_]\w*)(?:\.[a-z_]\w*)*)\.get\(\)/g;

/**
 * Returns the index of the brace that ends the block in which an index is; the length of code, if none does.
 * @param {string} code
 * @param {number} index
 * @returns {number}
 */
export function findBlockEnd(code, index) {
  let depth = 0;
  for (let at = index; at < code.length; at += 1) {
    depth += (code[at] === "{") - (code[at] === "}");
    if (depth < 0) return at;
  }
  return code.length;
}

/** Returns code in which clones of a mutex have its name. Throws Unread if such a name is that of something else, too. */
function renameClones(code, name) {
  let written = code;
  for (let count = 0; count < MOST; count += 1) {
    const clone = new RegExp(`\\blet\\s+(\\w+)\\s*=\\s*(?:(?:[\\w:]+::)?Arc::clone\\(\\s*&\\s*${name}\\s*\\)|${name}\\.clone\\(\\)|&\\s*${name})\\s*;`);
    const [whole, alias] = clone.exec(written) ?? [];
    if (!whole) return written;
    written = written.replace(whole, "");
    if (alias !== name) written = written.replace(clone, (it, other) => (other === alias ? "" : it)).replace(new RegExp(`(?<![\\w.])${alias}\\b`, "g"), name);
  }
  return written;
}

/**
 * Returns whether code of a block ends with a statement, which has no value.
 * @param {string} code
 * @returns {boolean}
 */
export function isStatement(code) {
  const last = splitStatements(code).at(-1) ?? "";
  return /(?:^|;)\s*$/.test(code) || /^(?:while|for|loop)\b|^if\b(?![^]*\belse\b)/.test(last) || /^[^{}]*[^=!<>{}]=(?!=)[^{}]*$/.test(last);
}

/** Returns code in which a guard of a mutex, whose declaration is found, is one of C++, or a lock and an unlock where it is dropped. */
function writeGuard(code, name, found) {
  const [declaration, guard] = found;
  const end = findBlockEnd(code, found.index);
  const body = code.slice(found.index + declaration.length, end);
  const drop = new RegExp(`\\b(?:(?:std::)?mem::)?drop\\(\\s*${guard}\\s*\\)\\s*;?`);
  const dropped = drop.exec(body);
  const inside = dropped ? body.slice(0, dropped.index) : body;
  const isNested = dropped && (findBlockEnd(body, 0) !== body.length || findClosing(`{${inside}}`, 0) !== inside.length + 1);
  const data = inside.replace(new RegExp(`\\*\\s*${guard}\\b`, "g"), name);
  const rest = dropped ? body.slice(dropped.index + dropped[0].length) : "";
  // After a drop another guard may have its name.
  const own = dropped ? rest.split(new RegExp(`\\blet\\s+(?:mut\\s+)?${guard}\\b`))[0] : rest;
  const isLeft = dropped && /\b(?:return|break|continue)\b|\?;/.test(inside);
  if (guard === "_" || isNested || isLeft || new RegExp(`(?<![\\w.])${guard}\\b`).test(data + own)) throw new Unread(declaration, OF_GUARDS);
  const isSimple = dropped || (!/\.lock\(\)|_lock\b|\b(?:return|break|continue)\b|\?;/.test(inside) && isStatement(inside));
  const locked = `${name}_lock.lock(); ${data.trimEnd().replace(/[^;}\s]$/, "$&;")} ${name}_lock.unlock(); ${rest}`;
  const made = isSimple ? locked : `std::lock_guard<std::mutex> ${guard}(${name}_lock);${data}`;
  return code.slice(0, found.index) + made + code.slice(end);
}

/** Returns code in which statements that lock a mutex only for themselves lock and unlock it, and what the function asks at its end reads the data. */
function writeStatements(code, name) {
  const locked = `\\*\\s*${name}${LOCKED}`;
  const change = new RegExp(`(?<=[;{}]\\s*)${locked}\\s*([+-]?=)\\s*(-?\\w+)\\s*(?:;|(?=\\}))`, "g");
  const read = new RegExp(`(?<=[;{}]\\s*)let\\s+(\\w+)\\s*=\\s*${locked}\\s*;`, "g");
  // What is on the right is computed before the mutex is locked, which matters for what other threads change.
  const changed = code.replace(change, (whole, sign, value) => {
    const isShared = new RegExp(`\\bstatic\\s+(?:mut\\s+)?${value}\\b`).test(code);
    return isShared ? whole : `${name}_lock.lock(); ${name} ${sign} ${value}; ${name}_lock.unlock();`;
  });
  const scope = /\bscope\s*\(/.exec(changed);
  const last = Math.max(changed.lastIndexOf(".join("), scope ? findClosing(changed, scope.index + scope[0].length - 1) : -1);
  // What the function that joins the threads asks after this ends before the next function.
  const length = last < 0 ? 0 : `${changed.slice(last)} fn `.search(/\bfn\s/);
  const end = changed.slice(last, last + length);
  const asked = end.replace(new RegExp(`((?:assert\\w*!|print\\w*!)\\s*\\([^;]*?)${locked}`, "g"), `$1${name}`);
  // What starts a thread is not the end.
  const whole = last < 0 || /\bspawn\b/.test(end) ? changed : changed.slice(0, last) + asked + changed.slice(last + length);
  return whole.replace(read, `${name}_lock.lock(); let $1 = ${name}; ${name}_lock.unlock();`);
}

/** Returns code in which one mutex is a static variable and a mutex of C++. */
function writeMutex(code, [declaration, name, type, word]) {
  const rest = renameClones(code.replace(declaration, ""), name);
  const isTaken = new RegExp(`\\b${name}_lock\\b|\\blet\\s+(?:mut\\s+)?${name}\\b|\\b(?:static|const)\\s+(?:mut\\s+)?${name}\\b`).test(rest);
  if (isTaken) throw new Unread(declaration, OF_NAMES);
  let written = rest;
  const guard = new RegExp(`\\blet\\s+(?:mut\\s+)?(\\w+)\\s*(?::[^=;]+)?=\\s*${name}${LOCKED}\\s*;`);
  for (let found = guard.exec(written), count = 0; found && count < MOST; found = guard.exec(written), count += 1) written = writeGuard(written, name, found);
  written = writeStatements(written, name);
  const [other] = new RegExp(`(?<![\\w.])${name}\\.\\w+\\([^;]{0,40}`).exec(written.replaceAll(`${name}_lock`, "")) ?? [];
  if (other) throw new Unread(other, OF_GUARDS);
  const suffix = /\d_?([iu](?:8|16|32|64|size))$/.exec(word)?.[1];
  const itsType = type ?? suffix ?? (/^(?:true|false)$/.test(word.trim()) ? "bool" : "i32");
  const data = word.trim() === "()" ? "" : `static mut ${name}: ${itsType} = ${word}; `;
  return `${data}static ${name}_lock: Lock = Lock::new();\n${written}`;
}

/**
 * Returns code of a program in Rust, without comments, whose mutexes are static variables and those of C++, and whose cells are plain data. Throws Unread if a
 * mutex is used otherwise.
 * @param {string} code
 * @returns {string}
 */
export function writeLocks(code) {
  const cells = new Set([...code.matchAll(/\b(\w+)\s*:\s*(?:[\w:]+::)?(?:Sync)?UnsafeCell</g)].map(([, name]) => name));
  const bare = !cells.size ? code : code
    .replace(CELL_GET, (whole, path) => (cells.has(path.split(".").at(-1)) ? path : whole))
    .replace(/\b(?:[\w:]+::)?(?:Sync)?UnsafeCell<\s*(\w+)\s*>/g, "$1").replace(/\b(?:[\w:]+::)?(?:Sync)?UnsafeCell::new\(([^()]*)\)/g, "$1");
  let written = bare;
  for (let count = 0; count < MOST; count += 1) {
    const found = STATIC.exec(written) ?? LOCAL.exec(written);
    if (!found) return written;
    written = writeMutex(written, found);
  }
  return written;
}
