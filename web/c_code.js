// Reads the code of C and C++: its parts, names, constants and declarations, and writes it with few blanks, in one form for all ways to access a
// variable. Not proved.
//
// The records `Part`, `Program` and `Declaration` are those of c_reader.js.

import { convertWindows } from "./c_windows.js";
import { WORD } from "./token_reader.js";
import { NoTest } from "./tokens.js";

const ORDER = /^memory_order_\w+$/;
// What gives names. In squeezed code, a name for an order of memory, for a constant, and for a reference by which a variable is atomic: the groups are
// its name, and what it is of.
const NAMED_ORDER = /^(?:static |const |constexpr )*(?:auto|memory_order) (\w+)[={](memory_order_\w+)\}?$/;
const NAMED_WORD = /^(?:static |const )*constexpr (?:const )?(?:auto|bool|int|long|unsigned(?: int| long)?|s?size_t|u?int\d+_t) (\w+)[={](\w+)\}?$/;
const REFERENCE = /^(?:static |const )*(?:atomic_ref(?:<[\w ]{0,40}>| )(\w+)|auto (\w+)=atomic_ref(?:<[\w ]{0,40}>)?)[({](\w+)[)}]$/;
// What may be a name with a value: a name, or one of a member, of which the groups are both names, or a name and an index.
const NAME_OF_VALUE = /\b([A-Za-z_]\w*)(?:\s{0,9}\.\s{0,9}([A-Za-z_]\w*)|\s{0,9}\[\s{0,9}(\w+)\s{0,9}\])?/g;
// What the methods of an `atomic_flag` do: the kind of the access, and the word that it writes.
const FLAG_CALLS = { test_and_set: ["exchange", "1"], clear: ["store", "0"], test: ["load", ""] };
const CLOSING = { "(": ")", "{": "}", "[": "]" };
// A declaration in squeezed code: the groups are its type, a `*`, and its variables.
const DECLARATION =
  new RegExp(
    "^((?:(?:static|extern|inline|const|volatile|auto|(?:un)?signed|int|long|short|char|s?size_t|u?int(?:8|16|32|64|ptr)_t|_?[Bb]ool|_Atomic|" +
      "atomic(?:_(?:u?int(?:(?:8|16|32|64|ptr)_t)?|bool|flag|u?l?long|[us]?char|u?short|size_t|t))?)\\b ?|[<>()])+)(\\*?)([A-Za-z_].*)$",
  );
// In such a type, what has 64 bits, and what has 8 or 16. Words of the latter are below a limit, so that their signs do not matter.
export const WIDE = /(?:^|\W|_)(?:u?l?long|s?size_t|u?int(?:64|ptr)_t)\b/;
const SMALL = /(?:^|\W|_)(?:[us]?char|u?short|u?int(?:8|16)_t)\b/;
const SMALL_LIMIT = 128;
// A variable in a declaration: the groups are its name, and its initial value after `=`, or in braces or parentheses.
const DECLARATOR = /^(\w+(?:\[\d+\](?==))?)(?:=(?!\{)(.+)|=?[{(](.*)[})])?$/;
// A declaration of mutexes in squeezed code: the groups are a `*` and their names. And an array in a declaration: the groups are its name, the number of
// its words, and their initial values.
const MUTEXES = new RegExp(
  "^(?:(?:static|extern|inline|mutable) )*(?:mutex|mtx_t|spinlock_t|CRITICAL_SECTION|SRWLOCK|pthread_(?:mutex_t|spinlock_t))(?: |(\\*))" +
    "(\\w+(?:,\\w+)*)(?:=PTHREAD_MUTEX_INITIALIZER|=SRWLOCK_INIT|\\{\\})?$",
);
const ARRAY = /^(\w+)\[([1-9]\d{0,5})\](?:=?\{(.*)\})?$/;
/** The number of words of an array that are read at most, which are its first ones. A test has fewer locations. */
export const MOST_ELEMENTS = 16;
// A constant of C that is in base 10 or 16. (One in base 8 is none here.)
const CONSTANT_OF_C = /^(-?[1-9]\d*|0|0x[\da-f]+)(?:ul{0,2}|l{1,2}u?)?$/i;
// A part that is long: the group is what is shown of it.
const LONG = /^(.{40}).+/;
/** A string, a letter or a comment. */
export const NO_CODE = /"(?:[^"\\\n]|\\.)*"|'(?:[^'\\\n]|\\.)'|\/\/.*|\/\*[^]*?\*\//g;
// What in a string might be taken for code.
const MARK = /[(){};,*&<>-]/g;
/** Why the value of a declaration is refused, as the end of a sentence. */
export const OF_VALUES = ": an initial value is one constant, as in `x = 1` or `x{1}`, and of a `bool` 0 or 1";
const OF_SMALL_VALUES = ": a variable of 8 or 16 bits has a constant from 0 to 127 here";
/** Why a name is refused that another variable has, as the end of a sentence. */
export const OF_LONE = ": give it a name that no other variable has";

/**
 * Throws NoTest for a part of a program, which is cut if it is long, with the rest of a sentence. The fault has the `index` of the part.
 * @param {Part} part
 * @param {string} [why]
 */
export function refusePart({ code, index }, why = "") {
  const fault = new NoTest(`\`${code.trim().replace(/\s+/g, " ").replace(LONG, "$1..")}\`${why}`);
  throw Object.assign(fault, { index: index + Math.max(code.search(/\S/), 0) });
}

/**
 * Returns the index of the parenthesis or brace that closes the one at an index; -1 if there is none.
 * @param {string} code
 * @param {number} open
 * @returns {number}
 */
export function findClosing(code, open) {
  const [opens, closes] = [code[open], CLOSING[code[open]]];
  let depth = 0;
  for (let at = open; at < code.length; at += 1) {
    depth += Number(code[at] === opens) - Number(code[at] === closes);
    if (!depth) return at;
  }
  return -1;
}

/**
 * Returns the parts of a code between marks of one letter.
 * @param {Part} part
 * @param {string} mark
 * @returns {Part[]}
 */
export function splitCode({ code, index }, mark) {
  let begin = index;
  return code.split(mark).map((it) => {
    begin += it.length + 1;
    return { code: it, index: begin - it.length - 1 };
  });
}

/**
 * Returns blanks in place of a text, whose ends of lines stay.
 * @param {string} text
 * @returns {string}
 */
export function blank(text) {
  return text.replace(/[^\n]/g, " ");
}

/**
 * Returns a program in which comments are blank, and strings have no marks of code.
 * @param {string} text
 * @returns {string}
 */
export function blankComments(text) {
  return text.replace(NO_CODE, (it) => (it.startsWith("/") ? blank(it) : it.replace(MARK, "_")));
}

/**
 * Returns code with few blanks and no `std::`, in which methods and macros that access a variable are calls of functions of C. The order of a macro
 * is in the name of its function. Between two signs of which blanks make no operator is a `@`.
 * @param {string} code
 * @returns {string}
 */
export function squeezeCode(code) {
  const short = code.replace(/([+-])\s+(?=[+-]|=(?!=))|([=!])\s+(?==)/g, "$&@").replace(/\s+/g, " ").replace(/ ?([^\w ]) ?/g, "$1").trim();
  const words = short.replace(/\bstd::/g, "").replace(/\bmemory_order::/g, "memory_order_").replace(/\bATOMIC_FLAG_INIT\b/g, "0");
  if (!words.includes("(")) return words;
  return convertKernel(convertBuiltins(convertWindows(words)))
    .replace(/\batomic_ref(?:<[\w ]{0,40}>)?[({](\w+)[)}](?=\.)/g, "$1")
    .replace(/\bATOMIC_(?:VAR_)?INIT\((-?\w+)\)/g, "$1")
    .replace(/\b(\w+)(\.|->)(load|store|exchange|fetch_\w+)\(/g, (_, name, sign, method) => `atomic_${method}(${sign === "." ? "&" : ""}${name},`)
    .replace(/\b(\w+)(\.|->)(test_and_set|clear|test)\((\)?)/g, (_, name, sign, method, end) => convertFlag(method, sign === "." ? `&${name}` : name, end))
    .replace(/\batomic_flag_(test_and_set|clear|test)(?:_explicit)?\((&?\w+)([,)])/g, (_, method, name, end) => convertFlag(method, name, end))
    .replace(/\b(READ|WRITE)_ONCE\((\*?)/g, (_, macro, star) => `atomic_${macro === "READ" ? "load" : "store"}_relaxed(${star ? "" : "&"}`)
    .replace(/\bsmp_(load_acquire|store_release)\(/g, "atomic_$1(")
    .replace(/\bsmp_store_mb\((\*?)/g, (_, star) => `atomic_exchange(${star ? "" : "&"}`)
    .replace(/\batomic_(read_acquire|set_release)\((?!\*)/g, (_, verb) => `atomic_${verb === "read_acquire" ? "load_acquire" : "store_release"}(`)
    .replace(/\batomic_(read|set)\((?!\*)/g, (_, verb) => `atomic_${verb === "read" ? "load" : "store"}_relaxed(`)
    .replace(/\batomic_(inc|dec)\((&?\w+)\)/g, (_, verb, name) => `atomic_fetch_${verb === "inc" ? "add" : "sub"}(${name},1)`)
    .replace(/\bxchg(?:_relaxed|_acquire|_release)?\(/g, "atomic_exchange(");
}

/** Returns squeezed code in which functions of gcc and clang that access variables are those of C. */
function convertBuiltins(code) {
  if (!code.includes("__")) return code;
  return code
    .replace(/\b__ATOMIC_(RELAXED|CONSUME|ACQUIRE|RELEASE|ACQ_REL|SEQ_CST)\b/g, (_, order) => `memory_order_${order.toLowerCase()}`)
    .replace(/\b__atomic_(load|store|exchange)_n\(/g, "atomic_$1_explicit(")
    .replace(/\b__atomic_fetch_(add|sub)\(/g, "atomic_fetch_$1_explicit(")
    .replace(/\b__atomic_(thread|signal)_fence\(/g, "atomic_$1_fence(")
    .replace(/\b__sync_lock_test_and_set\(/g, "atomic_exchange_acquire(")
    .replace(/\b__sync_lock_release\((&?\w+)\)/g, "atomic_store_release($1,0)")
    .replace(/\b__sync_fetch_and_(add|sub)\(/g, "atomic_fetch_$1(");
}

/**
 * Returns squeezed code in which functions of C are in place of those of the Linux kernel, as this is compiled for x86: `lock inc` and its like, and
 * `lock bts` of bit 0, which is a compare-exchange of a word that is only 0 or 1.
 */
function convertKernel(code) {
  if (!/\batomic_|_bit/.test(code)) return code;
  const convertReturned = (whole, verb, value, name) => {
    const [sign, call] = /^(?:add|inc)/.test(verb) ? ["+", "add"] : ["-", "sub"];
    const called = `atomic_fetch_${call}(${name},${value})`;
    return whole === code ? called : `(${called}${sign}@${value})`;
  };
  return code
    .replace(/\batomic_xchg(?:_relaxed|_acquire|_release)?\(/g, "atomic_exchange(")
    .replace(/\batomic_(?:fetch_)?(add|sub)(?:_relaxed|_acquire|_release)?\((\d+),(&?[A-Za-z_]\w*)\)/g, "atomic_fetch_$1($3,$2)")
    .replace(/\batomic_(add|sub)_return(?:_relaxed|_acquire|_release)?\((\d+),(&?\w+)\)/g, convertReturned)
    .replace(/\batomic_(inc|dec)_return(?:_relaxed|_acquire|_release)?\((&?\w+)\)/g, (whole, verb, name) => convertReturned(whole, verb, "1", name))
    .replace(/\batomic_dec_and_test\((&?\w+)\)/g, "((atomic_fetch_sub($1,1)-@1)==0)")
    .replace(/\btest_and_(set|clear)_bit(?:_lock)?\(0,(&?\w+)\)/g, (_, verb, name) => `(${convertBit(verb, name)}!=0)`)
    .replace(/(?<![\w])(set|clear)_bit(?:_unlock)?\(0,(&?\w+)\)/g, (_, verb, name) => convertBit(verb, name));
}

/** Returns the compare-exchange that sets or clears a word that is only 0 or 1. */
function convertBit(verb, name) {
  return `__sync_val_compare_and_swap(${name},${verb === "set" ? "0,1" : "1,0"})`;
}

/** Returns the begin of a call that does to a flag what one of its methods does, up to the mark after the flag. */
function convertFlag(method, name, end) {
  const [kind, word] = FLAG_CALLS[method];
  return `atomic_${kind}(${name}${word && `,${word}`}${end || ","}`;
}

/**
 * Returns code with other code in place of names. A name before a `.` is that of an object.
 * @param {string} code
 * @param {Map<string, string>} names
 * @returns {string}
 */
export function replaceNames(code, names) {
  if (!names.size) return code;
  return code.replace(NAME_OF_VALUE, (whole, name, member, index) => {
    if (index) return names.get(`${name}[${names.get(index) ?? index}]`) ?? `${names.get(name) ?? name}[${names.get(index) ?? index}]`;
    const field = names.get(`${name}.${member}`);
    if (field ?? !member) return field ?? names.get(name) ?? name;
    return `${names.get(`${name}.`) ?? names.get(name) ?? name}.${names.get(member) ?? member}`;
  });
}

/** Returns whether code is a name that has no value. */
function isNewName(code) {
  return /^[A-Za-z_]/.test(code) && !ORDER.test(code);
}

/**
 * Adds to `names` what squeezed code names: an order of memory, a constant, or a reference by which a variable is atomic. Returns whether it names one.
 * @param {string} code
 * @param {Map<string, string>} names
 * @returns {boolean}
 */
export function defineName(code, names) {
  const [, name, order] = NAMED_ORDER.exec(code) ?? [];
  const [, constant, word] = NAMED_WORD.exec(code) ?? [];
  const [, first, second, variable] = REFERENCE.exec(code) ?? [];
  const isWord = constant !== undefined && parseConstant(word) !== null;
  // A name that is declared again has its value in its place here.
  if (!isNewName(name ?? constant ?? first ?? second ?? "")) return false;
  if (order) names.set(name, order);
  if (isWord) names.set(constant, word);
  // Only its methods are atomic without a word that says so.
  if (variable) names.set(`${first ?? second}.`, variable);
  return Boolean(order || isWord || variable);
}

/**
 * Returns the code of a constant, or of an order of memory, without blanks and `std::`; null if code is neither.
 * @param {string} code
 * @returns {string | null}
 */
export function parseNamedValue(code) {
  const value = squeezeCode(code).replace(/^\((.*)\)$/, "$1");
  return parseConstant(value) !== null || ORDER.test(value) ? value : null;
}

/**
 * Returns the word of a constant, or null if code is none.
 * @param {string} code
 * @returns {number | null}
 */
export function parseConstant(code) {
  if (code === "true" || code === "false") return Number(code === "true");
  const number = Number(CONSTANT_OF_C.exec(code)?.[1]);
  return Math.abs(number) < WORD ? (number + WORD) % WORD : null;
}

/**
 * Returns the variables that squeezed code declares; none if it is no declaration.
 * @param {string} code
 * @returns {Declaration[]}
 */
export function parseDeclaration(code) {
  const [, pointer, mutexes] = MUTEXES.exec(code) ?? [];
  const isRecursive = /\bCRITICAL_SECTION\b/.test(code);
  const ofMutex = { value: undefined, isPointer: pointer !== undefined, limit: 2, isWide: false, order: "mutex", isRecursive };
  if (mutexes) return mutexes.split(",").map((name) => ({ name, ...ofMutex }));
  const [, type, star, variables = ""] = DECLARATION.exec(code) ?? [];
  const declarators = splitDeclarators(variables).flatMap(listElements).map((it) => DECLARATOR.exec(it));
  if (!declarators.every(Boolean)) return [];
  const order = /atomic/i.test(type) ? "seq_cst" : type.includes("volatile") ? "relaxed" : "plain";
  const limit = /bool|_flag/i.test(type) ? 2 : SMALL.test(type) ? SMALL_LIMIT : WORD;
  return declarators.map(([, place, value, inner]) => {
    const [name, element] = place.endsWith("]") ? [place.replace("[", "_").slice(0, -1), place] : [place];
    return { name, element, value: value ?? inner, isPointer: star !== "", limit, isWide: WIDE.test(type), order };
  });
}

/** Returns the parts of squeezed code between commas that are in no parentheses and braces. */
function splitDeclarators(code) {
  const parts = [];
  let [begin, depth] = [0, 0];
  for (let at = 0; at < code.length; at += 1) {
    depth += Number("({".includes(code[at])) - Number(")}".includes(code[at]));
    if (depth || code[at] !== ",") continue;
    parts.push(code.slice(begin, at));
    begin = at + 1;
  }
  return [...parts, code.slice(begin)];
}

/** Returns the declarators of a declarator: if it is of an array, each word has one, as `a[0]=1`. */
function listElements(declarator) {
  const [, name, count, values = ""] = ARRAY.exec(declarator) ?? [];
  const words = values.replace(/[{}]/g, "").split(",");
  if (!name || words.length > Math.min(Number(count), MOST_ELEMENTS)) return [declarator];
  return Array.from({ length: Math.min(Number(count), MOST_ELEMENTS) }, (_, index) => `${name}[${index}]=${words[index] || "0"}`);
}

/**
 * Adds what code declares to some variables, and the initial words of these to a program's. Throws NoTest for the part that is `shown`, with a reason,
 * if it is no declaration of shared variables, which are pointers in herd's form only.
 * @param {{words: Map<string, number>, names: Map<string, string>, arrays: Set<string>, isHerd: boolean, hasSpaces?: boolean}} program
 * @param {Map<string, Declaration>} variables
 * @param {string} code
 * @param {Part} shown
 * @param {string} why
 */
export function declareVariables({ words, names, arrays, isHerd, hasSpaces }, variables, code, shown, why) {
  const declared = parseDeclaration(squeezeCode(replaceNames(code, names)));
  if (!declared.length || declared[0].isPointer !== isHerd) refusePart(shown, why);
  for (const variable of declared) {
    const { name, element, value, limit } = variable;
    const word = value ? parseConstant(value) : words.get(name) ?? 0;
    if (word === null || word >= limit) refusePart(shown, word !== null && limit === SMALL_LIMIT ? OF_SMALL_VALUES : OF_VALUES);
    const former = variables.get(name);
    if (former && (element || former.element || former.object || hasSpaces)) refusePart(shown, OF_LONE);
    if (element) names.set(element, name) && arrays.add(element.split("[")[0]);
    words.set(name, word);
    variables.set(name, variable);
  }
}
