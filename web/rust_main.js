// Reads the function of a program in Rust that makes variables, starts threads, joins them and asserts. Not proved.
//
// A `Spawned` thread has the code of its `body`, the name of its `handle` or of the list with it, that of the scope that is its `owner`, and the names
// of the variables that have its `results`.

import { findClosing } from "./c_code.js";
import { nameVariables } from "./rust_names.js";
import { splitArguments, splitStatements, Unread, writeExpression } from "./rust_statements.js";

const ATOMIC = "((?:[\\w:]*::)?Atomic\\w+)::new\\(([^()]*)\\)";
const SHARED = new RegExp(
  `^let\\s+(?:mut\\s+)?(\\w+)(?:\\s*:[^=]+)?\\s*=\\s*(?:&\\s*)?(?:\\w+::)*(?:(?:Arc::new|Rc::new|Box::new|Box::leak|CachePadded::new)\\()*${ATOMIC}\\)*$`,
);
// A static variable or a constant of the function; an object; and a number that threads of a scope may share, or that is a constant.
const STATIC = /^(static|const)\s+(?:mut\s+)?(\w+)\s*:\s*([^=]+?)\s*=\s*([^]*)$/;
const OBJECT = /^let\s+(\w+)(?:\s*:\s*[\w:<>&\s]{1,60})?\s*=\s*(?:&\s*)?(?:Arc::new\()?((\w+)(?:::\w+\(\)|\s*\{[^{}]*\}))\)?$/;
const NUMBER = /^let\s+(mut\s+)?(\w+)(?:\s*:\s*(\w+))?\s*=\s*(-?\d+|true|false)$/;
const CLONE = /^(?:(?:std::sync::)?Arc::clone\(\s*&\s*(\w+)\s*\)|&\s*(?:mut\s+)?(\w+)|(\w+)(?:\.clone\(\))?)$/;
const SPAWN = /^(?:(?:std::|loom::|shuttle::)?thread::|(\w+)\.)spawn\s*(?=\()/;
const SCOPE = /^(?:[\w:]+::)?(?:scope|model|check_random)\s*(?=\()/;
const CLOSURE = /^(?:move\s+)?\|\s*(\w*)[^|]*\|\s*(?:->[^{]*)?([^]*)$/;
const UNWRAPPED = "\\.join\\(\\)(?:\\.unwrap\\(\\)|\\.expect\\([^()]*\\))?";
const JOINED = new RegExp(`\\b(\\w+)${UNWRAPPED}`, "g");
const JOIN = new RegExp(`^(\\w+)${UNWRAPPED}$`);
// Joins of a list of threads: the groups are its name and what follows.
const JOIN_EACH = new RegExp(
  `^for\\s+(\\w+)\\s+in\\s+(\\w+|\\[[\\w\\s,]+\\])(?:\\.into_iter\\(\\)|\\.drain\\(\\.\\.\\))?\\s*\\{\\s*(?:let\\s+_\\s*=\\s*)?\\1${UNWRAPPED};?([^]*)\\}$`,
);
const FOR_EACH = new RegExp(`^(\\w+)\\.into_iter\\(\\)\\.for_each\\(\\|(\\w+)\\|\\s*\\{?\\s*\\2${UNWRAPPED};?\\s*\\}?\\)$`);
// Threads of a loop: the groups are its variable, its first number, that after its last one, and its body; and those of a list.
const LOOP = /^for\s+(\w+)\s+in\s+(\d)\s*\.\.\s*(\d)\s*\{([^]*)\}$/;
const MAP = /^\((\d)\s*\.\.\s*(\d)\)\.map\(\|(\w+)\|([^]*)\)\.collect(?:::<[^()]*>)?\(\)$/;
const PUSH = /^(\w+)\.push\(([^]*)\)$/;
const LIST = /^(?:vec!\s*)?\[([^]*)\]$/;
const EMPTY = /^(?:(?:Vec::(?:new\(\)|with_capacity\(\w+\))|vec!\[\]|\(\)|drop\(\w+\)|(?:return\s+)?Ok\(\(\)\)|)|use\s(?![^]*\w\s+as\s)[^]*)$/;
/** Output that changes nothing. */
export const OUTPUT = /^(?:e?print(?:ln)?!|drop|dbg!)\s*\((?![^]*\.(?!load\(|get\(|is_\w+\()\w+\()/;
const ASSERTION = /^(?:debug_)?assert(?:_eq|_ne)?!\s*\(/;
// A branch that reports: the group is its condition. And one that ends the program.
const REPORT = /^if\s+([^{};]+)\{\s*(?:panic!|unreachable!|e?print(?:ln)?!)\s*\([^(){};]*\);?\s*\}$/;
const IS_FAULT = /\{\s*(?:panic|unreachable)!/;
const MOST_THREADS = 4;
const DEEPEST = 20;
export const OF_MAIN = ": `main` only makes variables, starts threads, joins them, and asserts";
const OF_MOVED = ": a closure that begins with `move` has numbers of its own, so leave out `move`";
const OF_LATER = ": it starts after others have been joined, or after what `main` does";

/** Returns the parts of a tuple, or the one value. */
function splitTuple(code) {
  return splitArguments(code.trim().replace(/^\(([^]*)\)$/, "$1"));
}

/**
 * Returns the name that a result of a thread has in C++: no variable of the thread has it.
 * @param {string} name
 * @param {number} thread
 * @returns {string}
 */
export function nameResult(name, thread) {
  return `${name}_of_P${thread}`;
}

/** Reads what a function does that starts threads. `aliases` has the variables of other names of theirs. */
export class Starter {
  constructor(taken, structs) {
    // `depth` counts blocks. `numbers` has the names of the shared variables that are no atomics, `taken` those of what is outside, and `names` those
    // of results in C++. `structs` has the names of structures, and `reported` what is asked if nothing is asserted.
    Object.assign(this, { depth: 0, taken, shared: [], numbers: new Set(), threads: [], handles: new Map(), names: new Map() });
    Object.assign(this, { structs, asserted: [], reported: [], words: [] });
  }

  /** Returns whether no thread runs. */
  get isIdle() {
    return this.threads.every((it) => it.isJoined);
  }

  /** Returns the names that variables of threads do not have. */
  get allTaken() {
    return new Set([...this.taken, ...this.shared.map((it) => it.name)]);
  }

  /** Reads the statements of code. Throws Unread at another one. */
  readAll(code, aliases) {
    for (const it of splitStatements(code)) this.readStatement(it, aliases);
  }

  /** Reads a statement, which may be in blocks. Throws Unread if those are many. */
  readStatement(statement, aliases) {
    this.depth += 1;
    if (this.depth > DEEPEST) throw new Unread(statement, OF_MAIN);
    this.readShallow(statement, aliases);
    this.depth -= 1;
  }

  /** Reads an assertion that joins threads itself: the joins are before it. Returns whether it is one. */
  readJoined(statement, aliases) {
    const joined = ASSERTION.test(statement) ? [...statement.matchAll(JOINED)] : [];
    const isOne = joined.length > 0 && joined.every(([, handle]) => this.handles.has(handle)) && !/\.join\(\)[^.]*\.\d/.test(statement);
    if (!isOne) return false;
    const named = joined.map(([join, handle]) => ({ join, name: `${handle}_result` }));
    const other = named.find(({ name }) => this.allTaken.has(name) || this.names.has(name));
    if (other) throw new Unread(statement, OF_MAIN);
    for (const { join, name } of named) this.readStatement(`let ${name} = ${join}`, aliases);
    this.readStatement(statement.replace(JOINED, (_, handle) => `${handle}_result`), aliases);
    return true;
  }

  /** Reads a statement by its form. */
  readShallow(statement, aliases) {
    if (this.readJoined(statement, aliases)) return;
    const [, names, value] = /^let\s+(?:mut\s+)?([\w\s(),]+?)(?:\s*:[^=]+)?\s*=\s*([^]*)$/.exec(statement) ?? [null, null, statement];
    if (names && (/\bspawn\s*\(/.test(value) || EMPTY.test(value))) this.forget(names);
    if (this.readVariable(statement, aliases) || this.readThreads(value, names, aliases) || this.readJoins(value, names, aliases)) return;
    const [, condition] = REPORT.exec(value) ?? [];
    const hasThreads = this.threads.length > 0;
    if (/^unsafe\s*\{/.test(value) && !names) this.readInside(() => this.readAll(value.slice(value.indexOf("{") + 1, -1), new Map(aliases)));
    else if (names && this.addAliases(names, value, aliases)) return;
    else if ((condition || ASSERTION.test(value)) && hasThreads && this.isIdle) this.addQuestion(condition, value, aliases);
    else if (!hasThreads && /^\w+(?:\[\d\])?\.store\(\s*\w+\s*,[^,]*\)$/.test(value)) this.words.push(writeExpression(value, aliases));
    else if (!(OUTPUT.test(value) && this.isIdle) && !EMPTY.test(value)) this.readOwn(statement, value, names, aliases);
  }

  /** Adds what the program asks at its end: an assertion, or a branch that reports if a condition holds. */
  addQuestion(condition, value, aliases) {
    const list = condition && !IS_FAULT.test(value) ? this.reported : this.asserted;
    list.push(writeExpression(condition ? `assert!(!(${condition}))` : value, this.renamed(aliases)));
  }

  /** Reads a declaration of a shared variable or a constant. Returns whether it is one. */
  readVariable(statement, aliases) {
    const shared = SHARED.exec(statement) ?? undefined;
    const [, kind, constant, itsType, itsValue] = STATIC.exec(statement) ?? [];
    const [, isMutable, number, type = "i32", word] = NUMBER.exec(statement) ?? [];
    const [, object, made, struct] = OBJECT.exec(statement) ?? [];
    const isObject = this.structs.includes(struct);
    if (this.threads.length && !shared && !kind && !isObject) return false;
    if (isObject) this.addShared([statement, object, struct, made], aliases);
    else if (shared) this.addShared(shared, aliases);
    else if (kind) this.addShared([statement, constant, itsType, itsValue], aliases, kind);
    else if (number && isMutable) this.numbers.add(this.addShared([statement, number, type, word], aliases));
    else if (number) aliases.set(number, word);
    return isObject || Boolean(shared ?? kind ?? number);
  }

  /** Reads what starts threads. Returns whether it does. */
  readThreads(value, names, aliases) {
    const [, list = ""] = LIST.exec(value) ?? [];
    const [, name, begin, end, body] = LOOP.exec(value) ?? [];
    const [, first, last, index, made] = MAP.exec(value) ?? [];
    const [, pushing, pushed] = PUSH.exec(value) ?? [];
    const isStarting = /\bspawn\s*\(/.test(value);
    if (SCOPE.test(value)) this.readScope(value, names, aliases);
    else if (SPAWN.test(value)) this.spawn(value, names, aliases);
    else if (/^\{/.test(value)) this.readBlock(value, names, aliases);
    else if (this.handles.has(pushed?.trim())) Object.assign(this.handles.get(pushed.trim()), { handle: pushing });
    else if (pushed && isStarting) return this.readThreads(pushed.trim(), pushing, aliases);
    else if (list && isStarting) return splitArguments(list).every((it) => this.readThreads(it, names, aliases));
    else if (name && isStarting) this.unroll(name, Number(begin), Number(end), body, aliases);
    else if (index && isStarting) this.unroll(index, Number(first), Number(last), `${names}.push(${made.trim()})`, aliases);
    else return false;
    return true;
  }

  /** Reads what joins threads. Returns whether it does. */
  readJoins(value, names, aliases) {
    const [, , list, rest = ""] = JOIN_EACH.exec(value) ?? [];
    const [, each] = FOR_EACH.exec(value) ?? [];
    const parts = names && /^\(/.test(value) ? splitTuple(value) : [];
    const isTuple = parts.length > 0 && parts.every((it) => JOIN.test(it)) && splitTuple(names).length === parts.length;
    const moved = names ? splitArguments(LIST.exec(value)?.[1] ?? "") : [];
    const isMoved = moved.length > 0 && moved.every((it) => this.handles.has(it));
    const lists = [each ?? list?.replace(/^\[|\]$/g, "") ?? []].flat().flatMap(splitArguments);
    const isList = list !== undefined && splitStatements(rest).every((it) => OUTPUT.test(it));
    if (isTuple) parts.forEach((it, at) => this.readStatement(`let ${splitTuple(names)[at]} = ${it}`, aliases));
    else if (JOIN.test(value)) this.join(JOIN.exec(value)[1], names);
    else if (isList || each) this.joinAll((it) => lists.includes(it.handle));
    else if (isMoved) moved.forEach((it) => Object.assign(this.handles.get(it), { handle: names }));
    return isTuple || JOIN.test(value) || isList || each !== undefined || isMoved;
  }

  /** Notes that a name of threads is that of others from here. */
  forget(name) {
    this.handles.delete(name);
    for (const it of this.threads.filter(({ handle }) => handle === name)) it.handle = undefined;
  }

  /** Notes that the threads are joined of which `isOne` holds. */
  joinAll(isOne) {
    for (const it of this.threads.filter(isOne)) it.isJoined = true;
  }

  /** Adds a shared variable that is made here. Returns its name. */
  addShared([, name, type, value], aliases, kind = "static") {
    if (this.threads.length || this.allTaken.has(name)) throw new Unread(`let ${name}`, OF_MAIN);
    this.shared.push({ kind, name, type, value });
    aliases.delete(name);
    return name;
  }

  /** Reads a block that starts a thread, perhaps with other names of variables before. */
  readBlock(block, names, aliases) {
    const inner = new Map(aliases);
    const statements = splitStatements(block.slice(1, -1));
    const last = statements.pop() ?? "";
    this.readInside(() => {
      statements.forEach((it) => this.readStatement(it, inner));
      if (!this.readThreads(last, names, inner)) this.readStatement(names ? `let ${names} = ${last}` : last, inner);
    });
  }

  /** Reads what is in a block: results in it have their names there only, except those of a list. */
  readInside(read, kept = []) {
    const outer = [...this.names];
    read();
    this.names = new Map([...outer, ...kept.map((it) => [it, this.names.get(it)]).filter(([, it]) => it)]);
  }

  /** Reads the body of a loop that starts threads, for each number of its variable. */
  unroll(name, begin, end, body, aliases) {
    if (new RegExp(`\\blet\\s+(?:mut\\s+)?${name}\\b`).test(body)) throw new Unread(`for ${name}`, OF_MAIN);
    for (let number = begin; number < end; number += 1) {
      const own = new Map(aliases);
      this.readAll(body, name === "_" ? own : own.set(name, String(number)));
    }
  }

  /** Reads the closure of a scope or of a model checker, whose last expression may join the threads and have the results of `names`. */
  readScope(value, names, aliases) {
    const open = value.indexOf("(");
    const [, owner, body = ""] = CLOSURE.exec(splitArguments(value.slice(open + 1, findClosing(value, open)))[0] ?? "") ?? [];
    const statements = splitStatements(body.trim().replace(/^\{([^]*)\}$/, "$1"));
    const results = names ? splitTuple(names) : [];
    const joins = names ? splitTuple(statements.pop() ?? "") : [];
    const count = this.threads.length;
    if (joins.length !== results.length) throw new Unread(value, OF_MAIN);
    const inner = new Map(aliases);
    const all = [...statements, ...joins.map((it, at) => `let ${results[at]} = ${it}`)];
    this.readInside(() => all.forEach((it) => this.readStatement(it, inner)), results);
    const own = this.threads.slice(count);
    if (/scope/.test(value.slice(0, open))) this.joinAll((it) => own.includes(it) && it.owner === owner);
  }

  /** Adds other names of shared variables. Returns whether these are such. A number has another name by a reference only. */
  addAliases(names, value, aliases) {
    const [all, values] = [splitTuple(names), splitTuple(value)];
    const isPlain = (name) => this.shared.some((it) => it.name === name && it.kind === "static" && /^(?:bool|[iu](?:\d+|size))$/.test(it.type));
    const readSource = ([, cloned, referred, moved]) => {
      const name = cloned ?? referred ?? moved;
      const isRead = this.isShared(name, aliases) ? !moved || !isPlain(moved) : referred && /^[A-Z]/.test(referred) && this.taken.has(referred);
      return isRead ? name : "";
    };
    const sources = values.map((it) => CLONE.exec(it) ?? []).map(readSource);
    if (all.length !== sources.length || sources.includes("")) return false;
    const own = sources.map((it) => aliases.get(it) ?? it);
    all.forEach((name, at) => aliases.set(name, own[at]) && this.names.delete(name));
    return true;
  }

  /** Returns whether a name is that of a shared variable. */
  isShared(name, aliases) {
    return aliases.has(name) || this.shared.some((it) => it.name === name);
  }

  /** Adds a thread. */
  spawn(value, handle, aliases) {
    if (this.threads.some((it) => it.isJoined)) throw new Unread(value, OF_LATER);
    if (this.threads.length === MOST_THREADS) throw new Unread(value, ": there are more than 4 threads");
    const [head, owner] = SPAWN.exec(value);
    const close = findClosing(value, head.length);
    const inner = value.slice(head.length + 1, close).trim();
    if (value.slice(close + 1).trim()) throw new Unread(value, OF_MAIN);
    if (/^\{/.test(inner)) {
      const own = new Map(aliases);
      const statements = splitStatements(inner.slice(1, -1));
      statements.slice(0, -1).forEach((it) => this.readStatement(it, own));
      return this.spawn(`${head}(${statements.at(-1)})`, handle, own);
    }
    const [, , body = `${inner}()`] = CLOSURE.exec(inner) ?? [];
    const moved = /^move\b/.test(inner) ? [...this.numbers].find((it) => new RegExp(`\\b${it}\\b`).test(body)) : undefined;
    if (moved) throw new Unread(moved, OF_MOVED);
    const isBlock = /^\{/.test(body) && findClosing(body, 0) === body.length - 1;
    const named = nameVariables(isBlock ? body.slice(1, -1) : body, aliases, this.allTaken);
    const thread = { body: named, handle, owner, results: [], isJoined: false };
    this.threads.push(thread);
    if (handle) this.handles.set(handle, thread);
    return undefined;
  }

  /** Notes that a thread is joined, and the names that its results have. */
  join(handle, names) {
    const thread = this.handles.get(handle);
    if (!thread || thread.isJoined) throw new Unread(`${handle}.join()`, OF_MAIN);
    thread.isJoined = true;
    const all = names === "_" ? [] : splitTuple(names ?? "");
    thread.results = all.map((it, at) => (it === "_" ? `unused${at}` : it));
    for (const it of thread.results) this.names.set(it, nameResult(it, this.threads.indexOf(thread)));
  }

  /** Reads what the function does itself while all its threads run: it is the last thread, whose variables are results. */
  readOwn(statement, value, names, aliases) {
    const isFirst = !this.own;
    const isRunning = this.threads.length > 0 && this.threads.every((it) => it === this.own || !it.isJoined);
    // A guard ends with its block, of which this is no more a part.
    if (!isRunning || /^std::lock_guard|\b(?:spawn|join|scope|return|let)\b/.test(value) || /\W/.test(names ?? "")) throw new Unread(statement, OF_MAIN);
    this.own ??= { body: "", results: [], isOwn: true, isJoined: true };
    if (isFirst) this.threads.push(this.own);
    const code = nameVariables(value, this.renamed(aliases), this.allTaken);
    const result = names && names !== "_" ? nameResult(names, this.threads.length - 1) : "";
    if (this.own.results.includes(names)) throw new Unread(statement, ": give it a name that no other variable has");
    if (result) this.own.results.push(names);
    if (result) this.names.set(names, result);
    this.own.body += `${result ? `${result} = ` : ""}${code}${/\}$/.test(code) && !result ? " " : "; "}`;
  }

  /** Returns the names of results, in C++, beside other names. */
  renamed(aliases) {
    return new Map([...aliases, ...this.names]);
  }
}
