// Rewrites a program in C or C++ with pointers to one object of each type as a program without pointers: a pointer is a word, 0 for null and 1 for the
// object, and the members of the object are variables. Not proved.
//
// An `Edit` replaces the text from its `begin` to its `end` by its `text`. A `Pointed` is a type that pointers are of: its `name`, the `members` of its
// objects, which are declarations, and the part of the text that defines it (`whole`), or null if it is none of the program's. The records `Part` and
// `Declaration` are those of c_reader.js.

import { blank, blankComments, findClosing, parseConstant, parseDeclaration, refusePart, squeezeCode } from "./c_code.js";
import { findDoubleCheck, isOne } from "./c_once.js";
import { splitOutside } from "./c_statements.js";
import { WORD } from "./token_reader.js";

// A structure up to its members: the group is its name. And what follows it: the group is the name of a type.
const STRUCTURE = /\b(?:typedef\s+)?(?:struct|class)\b\s*(\w*)\s*(?:final\s*)?\{/g;
const AFTER_STRUCTURE = /^\}\s*(\w*)\s*;/;
// What is before a structure of a template.
const TEMPLATE = /\btemplate\s*<[^<>]{0,80}>\s*$/;
// A constructor that only gives members its arguments or constants: the groups are its parameters, and what it gives to which. And one of these.
const CONSTRUCTOR = /\b(?:explicit\s+)?\w+\s*\(([^(){}]*)\)\s*:\s*((?:\w+\s*(?:\(\w*\)|\{\w*\})[\s,]*)+)\{\s*\}/;
const GIVEN = /(\w+)\s*[({](\w*)[)}]/g;
// What makes an object: the groups are its type, the initial values in parentheses or braces, and the begin of an index; and what calls of C make, with its
// type or without it.
const MADE = /\bnew\s+(?:struct\s+)?((?:std::)?\w+)\b\s*(?:\(([^()]*)\)|\{([^{}]*)\}|(\[))?/g;
const ALLOCATED = /(?:\(\s*(?:struct\s+)?(\w+)\s*\*\s*\)\s*)?\b(?:malloc|calloc|kmalloc|kzalloc)\s*\(/g;
const FREED = /\bdelete\b(?!\s*;)|\bk?free(?:_rcu)?\s*\(|\b(?:unique|shared)_ptr\b|\bmake_(?:unique|shared)\b/;
// What is before a statement that makes an object, in it: a declaration or an assignment, a store of the pointer, or its initial value.
const BEFORE = new RegExp(
  "^\\s*(?:(?:const\\s+)?(?:struct\\s+)?[\\w:]+(?:\\s*<[\\w:*\\s]{1,40}>)?[\\s*]+(?:const\\s+)?\\w+\\s*[=({]|\\w+\\s*=|" +
    "\\w+\\s*\\.\\s*(?:store|exchange)\\s*\\(|rcu_assign_pointer\\s*\\(\\s*\\w+\\s*,)\\s*$",
);
// What is before a brace of a loop or a branch, without what is in its parentheses.
const BRANCHING = /\b(?:for|while|do|if|else|switch|catch|try)\s*(?:constexpr\s*)?$/;
const REPEATING = /\b(?:for|while|do)\b/;
// The ends of the heads of functions and of lambdas: the groups are their names, if they have one. And the begin of a namespace.
const FUNCTION = /(\w+)\s*\([^(){}]*\)\s*(?:const\s*|noexcept\s*)*$/;
const LAMBDA = /\]\s*(?:\([^(){}]*\)\s*)?(?:mutable\s*|noexcept\s*)*$/;
const NAMED_LAMBDA = /(\w+)\s*=\s*\[[^\][]*\]\s*(?:\([^(){}]*\)\s*)?(?:mutable\s*|noexcept\s*)*$/;
const OF_CLASS = /\b(?:class|struct)\s+\w+\s*(?:final\s*)?(?::[^{};]*)?$/;
const SPACE = /\b(?:namespace\s*[\w:]*|extern\s*"\s*C\s*")\s*$/;
const ARROW = /\b(\w+)\s*->\s*(\w+)|\(\s*\*\s*(\w+)\s*\)\s*\.\s*(\w+)/g;
const OTHER_ARROW = /[)\]]\s*->\s*\w+\s*(?![\w\s]*\{)/;
// What the kernel does with pointers, and the same with words.
const OF_RCU = [
  [/\brcu_assign_pointer\s*\(\s*(\w+)/g, "smp_store_release(&$1"],
  [/\brcu_dereference(?:_check)?\s*\(\s*(\w+)\s*\)/g, "READ_ONCE($1)"],
  [/\brcu_read_(?:un)?lock\s*\(\s*\)\s*;/g, ""],
];
const UNSIGNED = /\bunsigned\b|\bu(?:int|long|char|short)|\bsize_t\b/;
const STRING = /"(?:[^"\\\n]|\\.)*"/g;
const NULL = /\bnullptr\b|\bNULL\b/g;
// Why a part of a program with pointers is refused, as the end of a sentence.
const OF_SEVERAL = ": pointers are rewritten if one object of their type is made, by one thread";
const OF_LOOPS = ": an object is made in a statement of its own, in no loop and no branch";
const OF_EACH = ": several threads make one object only if all of them take one and the same lock, and test one and the same pointer";
const OF_METHODS = ": an object is made in a function, not in a method of a class, which others may call, too";
const OF_FREED = ": what is freed may be made anew, which is not rewritten";
const OF_VALUES = ": an object is made with constants and variables";
const OF_SUMS = ": a pointer is null or of the object here, without sums and indices";
const OF_SHARED = ": load the pointer into a variable of the thread first";
const OF_CONSTRUCTORS = ": a constructor gives members its arguments or constants, and no argument has a value by default";
const OF_TYPES = ": give it a name that no pointer of another type has";
const OF_MEMBERS = ": an object that pointers are of has integers, `bool` and such pointers";
const OF_NOTHING = ": an object that pointers are of has a variable, which a thread may find not yet set";
const OF_STATIC = ": what a class has for all its objects is not rewritten, so write it outside of the class";
const DEEPEST = 4;
// The largest numbers of pointers and of letters that a program has here.
const [MOST_POINTERS, LONGEST] = [60, 12000];
// The number of letters before a brace that are looked at.
const HEAD_LETTERS = 200;

/** Returns the code that declares a variable of the kind of another one, without an initial value. */
function formatDeclaration({ order, limit, isWide, isUnsigned }, name) {
  const type = limit === 2 ? "bool" : `${isUnsigned ? "unsigned " : ""}${limit < WORD ? "short" : isWide ? "long" : "int"}`;
  return order === "seq_cst" ? `std::atomic<${type}> ${name};` : `${order === "relaxed" ? "volatile " : ""}${type} ${name};`;
}

/** Returns a statement that gives a variable its first word. That of an atomic variable is no atomic access. */
function formatStore({ order }, name, value) {
  return order === "seq_cst" ? `std::atomic_store_explicit(&${name}, ${value}, std::memory_order_relaxed); ` : `${name} = ${value}; `;
}

/** Returns the name of the variable that is in place of a member of an object, or of the object itself if it is a word. */
function nameMember({ name, whole }, member) {
  return whole ? `${name}_${member}` : name;
}

/** Rewrites the pointers of a program. */
class PointerWriter {
  /** @param {string} text */
  constructor(text) {
    Object.assign(this, { text, code: blankComments(text), edits: [], words: new Map([['""', "0"]]) });
    this.types = this.listTypes();
    const names = [...this.types.keys()].map((it) => it.replace("std::", "(?:std::)?")).join("|");
    this.pointer = new RegExp(`\\b(?:const\\s+)?(?:struct\\s+)?(?:${names || "-"})\\s*(?:const\\s*)?\\*(?:\\s*const\\b)?`, "g");
  }

  /** Returns a part of the text. */
  cutPart(index, length) {
    return { code: this.text.slice(index, index + length), index };
  }

  /** Adds an edit. */
  replace(begin, end, text) {
    this.edits.push({ begin, end, text });
  }

  /** Returns whether an index is in an edit. */
  isReplaced(index) {
    return this.edits.some((it) => it.begin <= index && index < it.end);
  }

  /** Returns the types that pointers may be of, by their names: structures of the program, strings and numbers. */
  listTypes() {
    const types = new Map([["std::string", { name: "a_string", members: parseDeclaration("int it"), whole: null }]]);
    for (const { 0: head, 1: name, index } of this.code.matchAll(STRUCTURE)) {
      const end = findClosing(this.code, index + head.length - 1);
      const [tail, alias] = (end >= 0 && AFTER_STRUCTURE.exec(this.code.slice(end, end + 80))) || [];
      const names = [name, head.startsWith("typedef") ? alias : ""].filter(Boolean);
      const isRead = tail && names.length && (head.startsWith("typedef") || !alias) && !TEMPLATE.test(this.code.slice(Math.max(0, index - 100), index));
      if (!isRead) continue;
      const body = this.cutPart(index + head.length, end - index - head.length);
      const type = { name: names[0], body, whole: this.cutPart(index, end + tail.length - index) };
      for (const it of names) types.set(it, type);
    }
    for (const [, name] of this.code.matchAll(MADE)) {
      if (/^(?:int|long|bool)$/.test(name)) types.set(name, { name: `a_${name}`, members: parseDeclaration(`${name} it`), whole: null });
    }
    return types;
  }

  /** Returns the text without pointers; null if it has none of such types. Throws NoTest at a part that is not rewritten. */
  rewrite() {
    const pointers = [...this.code.matchAll(this.pointer)];
    if (!pointers.length || pointers.length > MOST_POINTERS || this.text.length > LONGEST) return null;
    this.used = new Set(pointers.map(([it]) => this.findType(it)));
    this.names = this.listPointers();
    const objects = this.listObjects();
    if (!objects) return null;
    const freed = FREED.exec(this.code);
    if (freed) refusePart(this.cutPart(freed.index, freed[0].length), OF_FREED);
    for (const type of this.used) {
      this.readMembers(type);
      this.makeObject(type, objects.get(type));
    }
    this.replaceAccesses();
    this.replaceTypes();
    return this.applyEdits();
  }

  /** Returns the type in the code of a pointer; undefined if it is none of those here. */
  findType(code) {
    const name = code.replace(/\b(?:const|struct)\b|[\s*]/g, "");
    return this.types.get(name) ?? this.types.get(`std::${name}`);
  }

  /** Returns the names of pointers, each with its type, and whether it is declared outside of functions. */
  listPointers() {
    const names = new Map();
    for (const { 0: code, index } of this.code.matchAll(this.pointer)) {
      const [, name] = /^\s*[>)]?\s*(?:_Atomic\s+|volatile\s+)?(\w+)/.exec(this.code.slice(index + code.length)) ?? [];
      const isShared = this.findHeads(index).length === 0 && !this.isInParentheses(index);
      if (name) this.addPointer(names, name, this.findType(code), isShared, this.cutPart(index, code.length));
    }
    for (const { 1: name, index } of this.code.matchAll(/\bauto\s*\*?\s*(\w+)\s*=/g)) {
      const source = /^[^;]*/.exec(this.code.slice(index))[0];
      const found = [...names].find(([it]) => new RegExp(`\\b${it}\\b`).test(source.slice(source.indexOf("="))));
      const made = [...source.matchAll(MADE)].map((it) => this.findType(it[1])).find((it) => this.used.has(it));
      if (found || made) this.addPointer(names, name, found?.[1].type ?? made, false, this.cutPart(index, source.length));
    }
    return names;
  }

  /** Adds a pointer to names. Throws NoTest for a part if it has the name of one of another type. */
  addPointer(names, name, type, isShared, part) {
    const known = names.get(name) ?? { type, isShared: false, places: new Set() };
    if (known.type !== type) refusePart(part, OF_TYPES);
    known.places.add(this.findHeads(part.index)[0]?.at ?? this.code.indexOf("{", part.index));
    names.set(name, { ...known, isShared: known.isShared || isShared });
  }

  /** Returns whether an index is in parentheses of its statement, as a parameter is. */
  isInParentheses(index) {
    const before = this.code.slice(this.findStatement(index), index);
    return before.split("(").length > before.split(")").length;
  }

  /** Returns the index at which the statement begins in which an index is. What is in parentheses, as the head of a loop is, belongs to it. */
  findStatement(index) {
    let depth = 0;
    for (let at = index - 1; at >= 0; at -= 1) {
      depth = Math.max(0, depth + Number(this.code[at] === ")") - Number(this.code[at] === "("));
      if (depth === 0 && ";{}".includes(this.code[at])) return at + 1;
    }
    return 0;
  }

  /** Reads the members of a type. */
  readMembers(type) {
    if (type.members) return;
    const { index, code } = type.body;
    const own = this.code.slice(index, index + code.length).replace(/\b(?:public|private|protected)\s*:(?!:)/g, blank);
    const shared = /\bstatic\b[^;{}()=]*/.exec(own);
    if (shared) refusePart(this.cutPart(index + shared.index, shared[0].length), OF_STATIC);
    const [constructor = "", parameters = "", given = ""] = CONSTRUCTOR.exec(own) ?? [];
    if (constructor) type.parameters = parameters.split(",").filter((it) => it.trim()).map((it) => /(\w*)\s*$/.exec(it)[1]);
    type.given = new Map([...given.matchAll(GIVEN)].map(([, member, value]) => [member, value.replace(NULL, "0") || "0"]));
    const isKnown = (it) => type.parameters.includes(it) || parseConstant(it) !== null;
    if (parameters.includes("=") || ![...type.given.values()].every(isKnown)) refusePart(type.whole, OF_CONSTRUCTORS);
    type.members = splitOutside(own.replace(constructor, ""), ";").filter((it) => it.trim()).flatMap((it) => {
      const declared = parseDeclaration(squeezeCode(it.replace(this.pointer, "int ").replace(NULL, "0")));
      const isRead = declared.length && declared.every(({ isPointer, element, value }) => !isPointer && !element && (!value || parseConstant(value) !== null));
      return isRead ? declared.map((member) => ({ ...member, isUnsigned: UNSIGNED.test(it) })) : refusePart(type.whole, OF_MEMBERS);
    });
    if (!type.members.length) refusePart(type.whole, OF_NOTHING);
  }

  /** Returns what is before each brace that is open at an index, the outermost first, without namespaces. */
  findHeads(index) {
    const open = [];
    for (let at = 0; at < index; at += 1) {
      if (this.code[at] === "{") open.push(at);
      if (this.code[at] === "}") open.pop();
    }
    const heads = open.map((at) => ({ at, head: this.code.slice(Math.max(0, at - HEAD_LETTERS), at), isBranching: BRANCHING.test(this.cutBefore(at)) }));
    return heads.filter((it) => !SPACE.test(it.head));
  }

  /** Returns the end of the code before a brace at an index, without parentheses at its end and what is in them. */
  cutBefore(brace) {
    let at = this.code.slice(0, brace).trimEnd().length;
    if (this.code[at - 1] !== ")") return this.code.slice(Math.max(0, at - HEAD_LETTERS), at);
    for (let depth = 0; at > 0; ) {
      at -= 1;
      depth += Number(this.code[at] === ")") - Number(this.code[at] === "(");
      if (!depth) break;
    }
    return this.code.slice(Math.max(0, at - HEAD_LETTERS), at);
  }

  /** Throws NoTest unless the code at an index is executed once at most: it is in no loop and no branch, and what it is in is named once. */
  checkOnce(index, part, depth = 0) {
    const checked = depth ? null : findDoubleCheck(this.code, index);
    if (checked && !checked.every((it) => isOne(this.code, it))) refusePart(part, OF_EACH);
    if (checked) return;
    const heads = this.findHeads(index);
    const isInLoop = (at) => REPEATING.test(this.code.slice(this.findStatement(at), at));
    const isRepeated = heads.some((it) => it.isBranching || isInLoop(it.at)) || isInLoop(index);
    if (!heads.length || depth > DEEPEST || isRepeated) refusePart(part, OF_LOOPS);
    for (const { head, at } of heads) {
      const isLambda = LAMBDA.test(head);
      const [, name] = (isLambda ? NAMED_LAMBDA : FUNCTION).exec(head) ?? [];
      if (!isLambda && !name) refusePart(part, OF_CLASS.test(head) ? OF_METHODS : OF_LOOPS);
      if (name && name !== "main") this.checkNamedOnce(name, at, part, depth);
    }
  }

  /** Throws NoTest unless a function or a lambda, whose code begins at an index, is named once at most in others, in code that is executed once. */
  checkNamedOnce(name, begin, part, depth) {
    const definition = this.code.lastIndexOf(name, begin);
    const found = [...this.code.matchAll(new RegExp(`\\b${name}\\b`, "g"))].map((it) => it.index);
    const named = found.filter((at) => at !== definition && this.findHeads(at).length);
    if (named.length > 1) refusePart(part, OF_SEVERAL);
    for (const at of named) this.checkOnce(at, part, depth + 1);
  }

  /**
   * Returns the only object that the program makes of each type, as its `part` and the code of its initial `values`; null if it makes none of a type. Throws
   * NoTest at a second one of a type.
   */
  listObjects() {
    const made = [...this.code.matchAll(MADE)].map(({ 0: code, 1: name, 2: inner, 3: other = "", index }) => {
      return { type: this.findType(name), part: this.cutPart(index, code.length), values: inner ?? other };
    });
    for (const { 0: head, 1: name, index } of this.code.matchAll(ALLOCATED)) {
      const length = findClosing(this.code, index + head.length - 1) + 1 - index;
      const sized = /sizeof\s*\(?\s*(?:struct\s+)?(\*?\s*\w+)/.exec(this.code.slice(index, index + length))?.[1] ?? "";
      const type = this.findType(name ?? sized) ?? this.names.get(sized.replace(/^\*\s*/, ""))?.type;
      made.push({ type, part: this.cutPart(index, length), values: "" });
    }
    const objects = new Map();
    for (const { type, part, values } of made.filter((it) => this.used.has(it.type))) {
      if (objects.has(type)) refusePart(part, OF_SEVERAL);
      objects.set(type, { part, values });
    }
    return objects.size === this.used.size ? objects : null;
  }

  /** Puts 1 in place of what makes an object, and the stores of its initial values before the statement. */
  makeObject(type, { part, values }) {
    const { members } = type;
    const { index, code } = part;
    const begin = Math.max(...[";", "{", "}"].map((mark) => this.code.lastIndexOf(mark, this.findStart(index)))) + 1;
    if (!BEFORE.test(this.code.slice(begin, index))) refusePart(part, OF_LOOPS);
    this.checkOnce(index, part);
    const given = splitOutside(this.readValues(values, index), ",").map((it) => it.trim()).filter(Boolean);
    const names = members.map((it) => nameMember(type, it.name));
    if (/\[$/.test(code)) refusePart(part, OF_VALUES);
    const taken = names.find((it) => new RegExp(`\\b${it}\\b`).test(this.code));
    if (taken) refusePart(part, `: its members are variables here, and the program has another \`${taken}\``);
    const isFitting = type.parameters ? given.length === type.parameters.length : given.length <= members.length;
    if (!isFitting || given.some((it) => !/^-?\w+$/.test(it))) refusePart(part, OF_VALUES);
    const findValue = (member) => type.given?.get(member) ?? "";
    const listed = members.map((it, at) => (type.parameters ? given[type.parameters.indexOf(findValue(it.name))] ?? findValue(it.name) : given[at]) || it.value);
    const stores = members.flatMap((it, at) => (listed[at] ? [formatStore(it, names[at], listed[at])] : []));
    const blanks = /^\s*/.exec(this.code.slice(begin))[0].length;
    if (stores.length) this.replace(begin + blanks, begin + blanks, stores.join(""));
    this.replace(index, index + code.length, "1");
  }

  /** Returns the index at which the brace of an initial value is open, in which an index is, or this index. */
  findStart(index) {
    const open = /\{\s*$/.exec(this.code.slice(0, index));
    return open && /[\w>]\s*$/.test(this.code.slice(0, open.index)) ? open.index - 1 : index - 1;
  }

  /** Returns initial values, which are at an index, with words in place of strings and of null. */
  readValues(values, index) {
    const begin = index + Math.max(this.code.slice(index).indexOf(values), 0);
    const written = this.text.slice(begin, begin + values.length).replace(STRING, (it) => this.findWord(it));
    return written.replace(NULL, "0");
  }

  /** Returns the word of a string: 0 of the empty one, 1 of the first other one, and so on. */
  findWord(string) {
    if (!this.words.has(string)) this.words.set(string, String(this.words.size));
    return this.words.get(string);
  }

  /** Puts variables in place of the members of objects and of what pointers to words are of, and 0 in place of null. */
  replaceAccesses() {
    const other = OTHER_ARROW.exec(this.code);
    // A lambda may have a type after an arrow.
    const isOfLambda = other && /\]\s*(?:\([^()]*\)\s*)?->/.test(this.code.slice(Math.max(0, other.index - 80), other.index + 4));
    if (other && !isOfLambda) refusePart(this.cutPart(other.index + 1, other[0].length - 1), OF_SHARED);
    for (const { 0: whole, 1: arrow, 2: first, 3: star, 4: second, index } of this.code.matchAll(ARROW)) {
      const [pointer, member] = [arrow ?? star, first ?? second];
      if (this.names.has(pointer)) this.replaceAccess(this.cutPart(index, whole.length), pointer, member);
    }
    for (const [name, { type }] of this.names) {
      this.refuseSums(name);
      this.replaceStars(name, type);
    }
    for (const { 0: code, index } of this.code.matchAll(NULL)) if (!this.isReplaced(index)) this.replace(index, index + code.length, "0");
    for (const [pattern, by] of OF_RCU) {
      for (const { 0: code, index } of this.code.matchAll(pattern)) this.replace(index, index + code.length, code.replace(new RegExp(pattern.source), by));
    }
  }

  /** Throws NoTest if a pointer is counted on, or has an index. */
  refuseSums(name) {
    const { places, isShared } = this.names.get(name);
    const sums = this.code.matchAll(new RegExp(`(?:\\+\\+|--)\\s*${name}\\b|(?<!\\*\\s{0,9})\\b${name}\\s*(?:\\+|-(?!>)|\\[)`, "g"));
    // Another function may have a number of this name.
    const found = [...sums].find((it) => isShared || places.has(this.findHeads(it.index)[0]?.at));
    if (found) refusePart(this.cutPart(found.index, found[0].length), OF_SUMS);
  }

  /** Puts a variable in place of a member of the object of a pointer. */
  replaceAccess(part, pointer, member) {
    const { type, isShared } = this.names.get(pointer);
    if (isShared) refusePart(part, OF_SHARED);
    if (!type.members.some((it) => it.name === member)) refusePart(part, OF_MEMBERS);
    this.replace(part.index, part.index + part.code.length, nameMember(type, member));
  }

  /** Puts a variable in place of what a pointer to a word is of, and words in place of the strings beside it. */
  replaceStars(name, type) {
    if (type.whole) return;
    for (const { 0: code, index } of this.code.matchAll(new RegExp(`(?<![\\w)\\]>]\\s{0,9})\\*\\s*${name}\\b`, "g"))) {
      if (this.names.get(name).isShared) refusePart(this.cutPart(index, code.length), OF_SHARED);
      this.replace(index, index + code.length, type.name);
      const [beside, between, string] = /^(\s*[=!]=\s*)("(?:[^"\\\n]|\\.)*")/.exec(this.text.slice(index + code.length)) ?? [];
      const begin = index + code.length + (between?.length ?? 0);
      if (beside) this.replace(begin, begin + string.length, this.findWord(string));
    }
  }

  /** Puts words in place of pointers in declarations, and variables in place of the types of their objects. */
  replaceTypes() {
    const inside = ({ whole }, at) => whole && whole.index <= at && at < whole.index + whole.code.length;
    for (const { 0: code, index } of this.code.matchAll(this.pointer)) {
      if (!this.isReplaced(index) && ![...this.used].some((it) => inside(it, index))) this.replace(index, index + code.length, "int ");
    }
    for (const { 0: code, index } of this.code.matchAll(/\bauto\s*\*/g)) this.replace(index, index + code.length, "auto ");
    for (const type of this.used) {
      const { members, whole } = type;
      const declared = members.map((it) => formatDeclaration(it, nameMember(type, it.name))).join(" ");
      if (whole) this.replace(whole.index, whole.index + whole.code.length, declared);
      else this.replace(0, 0, `${declared}\n`);
    }
  }

  /** Returns the text after all edits, of which none may be in another one, and what finds an index of it in the text before. */
  applyEdits() {
    const sorted = this.edits.map((it, at) => ({ ...it, at })).sort((a, b) => a.begin - b.begin || a.end - b.end || a.at - b.at);
    const places = [];
    let [text, end] = ["", 0];
    for (const it of [...sorted, { begin: this.text.length, end: this.text.length, text: "" }]) {
      if (it.begin < end) refusePart(this.cutPart(it.begin, it.end - it.begin), OF_VALUES);
      places.push({ at: text.length, index: end, limit: it.begin });
      text += this.text.slice(end, it.begin) + it.text;
      end = it.end;
    }
    const findIndex = (at) => {
      const place = places.findLast((it) => it.at <= at);
      return Math.min(place.index + at - place.at, place.limit);
    };
    const [type] = this.used;
    return { text, findIndex, variable: nameMember(type, type.members[0].name) };
  }
}

/**
 * Returns the text of a program without pointers that does the same as one in which pointers are of one object of each type, with a function that returns the
 * index that one of it has in the program, and the name of a `variable` that is in place of a member; null if the program makes no such objects. Throws NoTest at
 * a part that is not rewritten so.
 * @param {string} text
 * @returns {{text: string, findIndex: function(number): number, variable: string} | null}
 */
export function rewritePointers(text) {
  return new PointerWriter(text).rewrite();
}
