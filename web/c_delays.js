// Blanks what a program in C or C++ has that changes nothing its threads share: random delays, with the objects and the classes of these, and
// classes that nothing uses. Not proved.
//
// A `Class` has its `name`, and the `ranges` of a code that define it and its methods. A range has a `begin` and an `end`.

import { blank, blankComments, findClosing } from "./c_code.js";

// The begin of a class: the group is its name. What follows one that declares no objects. And the begin of a method outside of it, up to its code.
const CLASS = /(?:\btemplate\s*<[^<>;{}]{0,80}>\s*)?\b(?:class|struct)\s+(\w+)\s*(?:final\s*)?\{/g;
const AFTER_CLASS = /^\}\s*;/;
const makeMethod = (name) =>
  new RegExp(
    `(?<=^|[;}])\\s*(?:inline\\s+)?(?:[\\w:]+[\\s*&]+){0,4}${name}::~?\\w+\\s*\\([^(){};]*\\)\\s*(?:const\\s*|noexcept\\s*)*` +
      "(?::[^{};]{0,200})?\\{",
    "g",
  );
// What a class may have that touches nothing but its own integers: words of the language, types of integers, and names that it defines.
const KNOWN = new RegExp(
  "^(?:class|struct|public|private|protected|unsigned|signed|int|long|short|char|bool|u?int(?:_fast|_least)?\\d+_t|s?size_t|std|void|const|" +
    "constexpr|explicit|inline|noexcept|this|return|if|else|for|while|do|break|continue|true|false|static_cast|__attribute__|noinline|\\d\\w*)$",
);
const NAME = /(?<![\w.])[A-Za-z_]\w*/g;
// What such a class has not: pointers, references, and what is shared by more than its object.
const SHARING = new RegExp(
  String.raw`->|\b(?:static|extern|volatile|mutable|operator|virtual|friend|template|auto|new)\b|\batomic|\basm\b|\b(?:int|long|short|` +
    String.raw`char|bool|unsigned|signed|void|\w+_t|const)\s*[*&]`,
);
const LOCAL = new RegExp(
  String.raw`(?:[{;(]|^)\s*(?:const\s+)?(?:(?:unsigned|signed|int|long|short|char|bool|u?int\d+_t|` +
    String.raw`(?:std::)?size_t)\s+)+(\w+(?:\s*(?:\[[^\][]*\])?(?:\s*=[^,;(){}]*)?\s*,\s*\w+)*)`,
  "g",
);
const CONSTANT = new RegExp(
  String.raw`^[ \t]*#[ \t]*define[ \t]+(\w+)[ \t]+\(?-?(?:0x)?[\da-f]+[ul]*\)?[ \t]*$|\bconst(?:expr)?\s+(?:unsigned\s+)?(?:int|long|auto|` +
    String.raw`std::size_t|size_t|unsigned)\s+(\w+)\s*=\s*\d+\s*;`,
  "gim",
);
// A method of a class up to its code: the group is its name.
const OWN_METHOD = new RegExp(
  String.raw`\b(\w+)\s*\([^(){};]*\)\s*(?:const\s*|noexcept\s*|__attribute__\s*\(\([^()]*\)\)\s*)*(?::[^{};]*)?[{;]`,
  "g",
);
// What gives random numbers, by its name in other files, and in the standard library.
const GENERATOR = "[A-Z]\\w*(?:Twister|Random|Rng|Generator)\\w*";
const RANDOM = "(?:std\\s*::\\s*)?(?:mt19937(?:_64)?|minstd_rand0?|default_random_engine|random_device|uniform_int_distribution\\s*(?:<[\\w\\s:]*>)?)";
// The begin of a function with a reference to what gives them: the groups are its name, and that of the reference.
const DELAYING = new RegExp(
  `(?<=^|[;{}]\\s*)(?:(?:static|inline)\\s+)*void\\s+(\\w+)\\s*\\(\\s*(?:${RANDOM}|${GENERATOR})\\s*&\\s*(\\w+)\\s*\\)\\s*\\{`,
  "g",
);
const NUMBERS = /^(?:std|s?rand|random|rand_r|\d\w*)$/;
// Where a program defines one of these itself: a function, a macro, or an object that is called.
const OWN_NUMBERS = new RegExp(
  String.raw`\b(?:s?rand|random|rand_r)\b\s*(?:\([^(){};]*\)\s*(?:\{|->|[A-Za-z_])|=(?!=)|\{|\))|\bdefine[ \t]+(?:s?rand|random|rand_r)\b|` +
    String.raw`\busing\s+(?!std\b)[\w:]+::(?:s?rand|random|rand_r)\b`,
);
// A number that a variable gives, which is the group.
const OF_SEED = /\brand_r\s*\(\s*&\s*(\w+)\s*\)/g;
// What chooses the numbers that a program gets.
const SEEDING = new RegExp(
  String.raw`(?<=[;{}])\s*(?:std\s*::\s*)?srand\s*\(\s*(?:\(\s*unsigned(?:\s+int)?\s*\)\s*)?(?:\d+|(?:std\s*::\s*)?time\s*\(\s*(?:NULL|` +
    String.raw`nullptr|0)\s*\))\s*\)\s*;`,
  "g",
);
// A loop without statements: the group is its condition. And one that counts: the groups are its variable, its first value, its bound, and how it
// counts.
const IDLE = "(?:__)?asm(?:__)?\\s+(?:__)?volatile(?:__)?\\s*\\(\\s*\"\\s*(?:nop|pause|rep_? ?nop|)\\s*(?:\\\\n)?\"[\\s:]*(?:\"memory\"\\s*)?\\)\\s*;";
const EMPTY = `\\s*(?:;|\\{\\s*;?\\s*\\}|${IDLE}|\\{\\s*${IDLE}\\s*\\})`;
const VALUE = "(?:[^(){};]|\\([^(){};]*\\)){1,120}";
const WAITING = new RegExp(`\\bwhile\\s*\\((${VALUE})\\)${EMPTY}`, "g");
const COUNTED = new RegExp(
  `\\bfor\\s*\\(\\s*(?:(?:volatile|register|unsigned|int|long|auto|(?:std::)?size_t|u?int\\d+_t)\\s+)+(\\w+)\\s*=(${VALUE});\\s*` +
    `(?:\\1\\s*<(?![<=])(${VALUE});\\s*(?:\\+\\+\\s*\\1|\\1\\s*(?:\\+\\+|\\+=\\s*[1-9]\\d*))|` +
    `\\1\\s*>(?![>=])(${VALUE});\\s*(?:--\\s*\\1|\\1\\s*(?:--|-=\\s*[1-9]\\d*)))\\s*\\)${EMPTY}`,
  "g",
);
// What an unused class may do before the threads, or be used by without its name.
const REGISTERING = /\binline\s+static\b|\bstatic\s+(?:thread_local\s+)?inline\b|\bfriend\b/;
// A lambda with what is outside of it.
const CAPTURING = /\[\s*[&=\w][^\][]*\]\s*[({]/;
const SPACE = /\b(?:namespace\s*[\w:]*|extern\s*"[^"]*")\s*$/;
const MOST_LETTERS = 20000;

/** Returns the classes that a code defines without objects. */
function listClasses(code) {
  return [...code.matchAll(CLASS)].flatMap(({ 0: head, 1: name, index }) => {
    const end = findClosing(code, index + head.length - 1);
    const [tail] = (end >= 0 && AFTER_CLASS.exec(code.slice(end, end + 80))) || [];
    if (!tail) return [];
    const methods = [...code.matchAll(makeMethod(name))].map((it) => ({ begin: it.index, end: findClosing(code, it.index + it[0].length - 1) + 1 }));
    return methods.some((it) => !it.end) ? [] : [{ name, ranges: [{ begin: index, end: end + tail.length }, ...methods] }];
  });
}

/** Returns the names of constants of a code. */
function listConstants(code) {
  return [...code.matchAll(CONSTANT)].map(([, first, second]) => first ?? second);
}

/** Returns a code in which all that is in braces is blank, unless these are of a namespace. */
function blankBlocks(code) {
  const outer = [];
  let depth = 0;
  return Array.from({ length: code.length }, (_, at) => {
    const letter = code[at];
    if (letter === "{") {
      outer.push(depth);
      depth += Number(depth > 0 || !SPACE.test(code.slice(Math.max(at - 80, 0), at)));
    }
    const shown = depth && letter !== "\n" ? " " : letter;
    if (letter === "}") depth = outer.pop() ?? 0;
    return shown;
  }).join("");
}

/** Returns the names of macros of a code. */
function listMacros(code, constants) {
  return [...code.matchAll(/^[ \t]*#[ \t]*define[ \t]+(\w+)/gm)].map((it) => it[1]).filter((it) => !constants.includes(it));
}

/** Returns the names of functions that a code defines, and of methods. */
function listFunctions(code) {
  return [...code.matchAll(/\b(\w+)\s*\([^(){};]*\)\s*(?:const\s*|noexcept\s*)*(?:->[^(){};]*)?\{/g)].map((it) => it[1]);
}

/**
 * Returns whether objects of a class touch only their own integers, so that what they do changes nothing else. `global` is the code outside of
 * functions.
 */
function isOwn(code, { name, ranges }, constants, global) {
  const parts = ranges.map(({ begin, end }) => code.slice(begin, end).replace(new RegExp(`\\b${name}::`, "g"), " "));
  const own = parts.join("\n");
  if (SHARING.test(own) || new RegExp(`\\b${name}\\s*[*&]`).test(own)) return false;
  const declared = [...own.matchAll(LOCAL)].flatMap(([, list]) => list.replace(/\[[^\][]*\]|=[^,]*/g, "").match(/\w+/g) ?? []);
  const parameters = [...own.matchAll(/\(([^(){};]*)\)\s*(?:const\s*|noexcept\s*|__attribute__\s*\(\([^()]*\)\)\s*)*[:{;]/g)]
    .flatMap(([, list]) => list.split(",").map((it) => /\w[\s]+(\w+)\s*$/.exec(it)?.[1] ?? ""));
  const methods = [...own.matchAll(OWN_METHOD)].map((it) => it[1]);
  const outside = ranges.slice(1).map(({ begin, end }) => /::~?(\w+)\s*\(/.exec(code.slice(begin, end))?.[1]);
  const defined = [...outside, ...methods.filter((it) => isMethod(own, it))];
  const names = new Set([name, ...declared, ...parameters, ...constants, ...defined]);
  const isGlobal = (it) => new RegExp(`\\b${it}\\b`).test(global);
  if ([...declared, ...parameters].some((it) => it && isGlobal(it))) return false;
  return (own.match(NAME) ?? []).every((it) => KNOWN.test(it) || names.has(it));
}

/** Returns whether a code declares a method of a name, after its type. */
function isMethod(code, name) {
  return new RegExp(`\\b(?:unsigned|int|long|short|char|bool|void|u?int\\d+_t|size_t)\\s+${name}\\s*\\(`).test(code);
}

/** Returns a text in which ranges are blank. A range that `isStatement` leaves an empty one. */
function blankRanges(text, ranges) {
  const blankRange = (code, isStatement) => blank(isStatement ? code.slice(0, -1) : code) + (isStatement ? ";" : "");
  const blankOne = (all, { begin, end, isStatement }) => all.slice(0, begin) + blankRange(all.slice(begin, end), isStatement) + all.slice(end);
  return ranges.reduce(blankOne, text);
}

/** Returns the ranges of matches. */
function listRanges(matches) {
  return matches.map((it) => ({ begin: it.index, end: it.index + it[0].length }));
}

/** Returns whether code names only what gives random numbers: objects, their methods, functions of C, and constants. */
function isRandom(value, objects, constants, seeds = []) {
  const code = value.replace(OF_SEED, (whole, seed) => (seeds.includes(seed) ? "rand()" : whole));
  const names = code.replace(/(?<=\w\s*)\.\s*\w+(?=\s*\()/g, "").match(/[A-Za-z_]\w*/g) ?? [];
  return !/(?<![=!<>])=(?!=)|(?<!&)&(?!&)|->|\[/.test(code) && names.every((it) => objects.includes(it) || constants.includes(it) || NUMBERS.test(it));
}

/** Returns the names of variables that are only numbers for `rand_r`. */
function listSeeds(code) {
  const names = [...new Set([...code.matchAll(OF_SEED)].map((it) => it[1]))];
  const left = code.replace(OF_SEED, " ");
  const type = "\\b(?:unsigned(?:\\s+int)?|int)\\s+(?:\\w+\\s*=\\s*\\w+\\s*,\\s*)*";
  const isDeclared = (name) => new RegExp(`${type}${name}\\s*(?:=\\s*\\w+\\s*)?[,;]`).test(left);
  return names.filter((name) => left.match(new RegExp(`\\b${name}\\b`, "g"))?.length === 1 && isDeclared(name));
}

/**
 * Returns whether a condition that names only what gives random numbers may fail: none of the remainders of a division by a constant may all fulfil
 * it.
 */
function canFail(condition) {
  if (/>=\s*-?0\s*$|>\s*-\s*\d+\s*$/.test(condition)) return false;
  const [, modulus, sign, other] = /%\s*(\d+)[\s)]*(?:([!=<>]=|[<>])\s*\(?\s*(\d+)[\s)]*)?$/.exec(condition) ?? [];
  if (modulus === undefined) return true;
  const [least, most, bound] = [0, Number(modulus) - 1, Number(other)];
  const ofLess = { "<": most >= bound, "<=": most > bound, ">": least <= bound, ">=": least < bound };
  return { "!=": bound <= most, "==": most > 0 || bound > 0, ...ofLess }[sign] ?? true;
}

/**
 * Returns whether an object of a class of the program is that of one thread, as one that a function declares, of which no lambda has a reference.
 */
function isOfThread(code, global, { index, 0: declaration }) {
  const end = index + declaration.length;
  if (/\bthread_local\b/.test(declaration)) return true;
  if (/\bstatic\b/.test(declaration) || /\S/.test(global.slice(end - 1, end))) return false;
  let depth = 0;
  let at = end;
  for (; at < code.length && depth >= 0; at += 1) depth += Number(code[at] === "{") - Number(code[at] === "}");
  return !CAPTURING.test(code.slice(end, at));
}

/** Returns the names of what the arguments in a declaration of an object call. */
function listCalls(declaration) {
  return [...declaration.matchAll(/[(,{]\s*(?:\w+\s*::\s*)*(\w+)\s*\(/g)].map((it) => it[1]);
}

/** Returns the objects that may give numbers for delays, with the ranges of their declarations, and whether their type `isKnown`. */
function listObjects(code, classes, harmless, global, isDirected) {
  const isDefined = (type) => classes.some((it) => it.name === type);
  const functions = listFunctions(code);
  const known = [...harmless.map((it) => it.name), RANDOM].join("|");
  const type = `(${[known, GENERATOR].join("|")})`;
  const begin = `(?<=[;{}])\\s*(?:(?:thread_local|static)\\s+)*${type}`;
  const declared = new RegExp(`${begin}\\s+(\\w+)\\s*(?:\\([\\w\\s,()]*?\\)|\\{[\\w\\s,()]*?\\})?\\s*;`, "g");
  return [...code.matchAll(declared)].flatMap((it) => {
    const isKnown = new RegExp(`^(?:${known})$`).test(it[1]);
    const isCalling = listCalls(it[0]).some((name) => functions.includes(name));
    if (isCalling || [it[1], it[2]].some(isDirected) || (isDefined(it[1]) && !isOfThread(code, global, it))) return [];
    return isKnown || !isDefined(it[1]) ? [{ name: it[2], isKnown, ...listRanges([it])[0] }] : [];
  });
}

/** Returns the functions that only wait for the numbers of an object that they have by a reference: their names, and their ranges. */
function listDelaying(code, constants, isDirected) {
  return [...code.matchAll(DELAYING)].flatMap(({ 0: head, 1: name, 2: object, index }) => {
    const end = findClosing(code, index + head.length - 1) + 1;
    const body = code.slice(index + head.length, end - 1);
    const isWaiting = ([, condition]) => /\w\s*\(/.test(condition) && isRandom(condition, [object], constants) && canFail(condition);
    const left = blankRanges(body, listRanges([...body.matchAll(WAITING)].filter(isWaiting)));
    return end && !left.trim() && body.trim() && !isDirected(name) ? [{ name, begin: index, end }] : [];
  });
}

/** Returns the ranges of such functions and of their calls with objects, which are statements; none of one that is named otherwise, too. */
function listCallsOfDelays(code, delaying, objects) {
  return delaying.flatMap((it) => {
    const pattern = new RegExp(`(?<=[;{}])\\s*${it.name}\\s*\\(\\s*(\\w+)\\s*\\)\\s*;`, "g");
    const calls = listRanges([...code.matchAll(pattern)].filter(([, object]) => objects.includes(object))).map((call) => ({ ...call, isStatement: true }));
    const isOther = new RegExp(`\\b${it.name}\\b`).test(blankRanges(code, [...calls, it]));
    return isOther ? [] : [...calls, { begin: it.begin, end: it.end }];
  });
}

/** Returns the ranges of the delays of a code, and of the objects that are only in them; and whether there are delays. */
function listDelays(code, classes, harmless, constants, global, isDirected) {
  let objects = listObjects(code, classes, harmless, global, isDirected);
  const seeds = listSeeds(code);
  const delaying = listDelaying(code, constants, isDirected);
  for (;;) {
    const names = objects.map((it) => it.name);
    const isKnown = (name) => objects.some((it) => it.name === name && it.isKnown);
    const isWaiting = ([, condition]) => /\w\s*\(/.test(condition) && isRandom(condition, names, constants, seeds) && canFail(condition);
    const isCounting = ([, , first, bound, other]) => [first, bound ?? other].every((it) => isRandom(it, names, constants, seeds));
    const found = listRanges([...[...code.matchAll(WAITING)].filter(isWaiting), ...[...code.matchAll(COUNTED)].filter(isCounting)]);
    const called = listCallsOfDelays(code, delaying, names);
    const isCalled = (it) => called.some(({ begin, end }) => begin <= it.begin && it.end <= end);
    const loops = [...found.filter((it) => !isCalled(it)).map((it) => ({ ...it, isStatement: true })), ...called];
    const calls = listRanges([...code.matchAll(/(?<=[;{}])\s*(\w+)\s*\.\s*\w+\s*\([\w\s,]*\)\s*;/g)].filter(([, it]) => isKnown(it)));
    const ranges = [...loops, ...calls, ...objects, ...listRanges([...code.matchAll(SEEDING)])];
    const left = blankRanges(code, ranges);
    const used = names.filter((it) => new RegExp(`\\b${it}\\b`).test(left));
    if (!used.length) return { ranges, isDelayed: loops.length > 0 };
    objects = objects.filter((it) => !used.includes(it.name));
  }
}

/**
 * Returns the text of a program in which delays and unused classes are blank, and whether there are delays (`isDelayed`); null if it has neither.
 * @param {string} text
 * @returns {{text: string, isDelayed: boolean} | null}
 */
export function blankDelays(text) {
  if (text.length > MOST_LETTERS) return null;
  const all = blankComments(text);
  if (OWN_NUMBERS.test(all)) return null;
  const constants = listConstants(all);
  const code = all.replace(/^[ \t]*#.*$/gm, blank);
  const directives = (all.match(/^[ \t]*#(?:.*\\\n)*.*$/gm) ?? []).filter((it) => !/^[ \t]*#[ \t]*include\b/.test(it)).join("\n");
  const isDirected = (name) => !constants.includes(name) && new RegExp(`\\b${name}\\b`).test(directives);
  const macros = listMacros(all, constants);
  const classes = listClasses(code);
  const outside = blankRanges(code, classes.flatMap((it) => it.ranges));
  const global = blankBlocks(outside);
  const expanded = new RegExp(`\\b(?:${macros.join("|")})\\b`);
  const isExpanded = (ranges) => macros.length > 0 && ranges.some(({ begin, end }) => expanded.test(code.slice(begin, end)));
  const harmless = classes.filter((it) => isOwn(code, it, constants, global) && !isExpanded(it.ranges));
  const { ranges, isDelayed } = listDelays(outside, classes, harmless, constants, global, isDirected);
  if (isExpanded(ranges)) return null;
  let left = blankRanges(code, ranges);
  const unused = [];
  // Later classes may use earlier ones.
  for (const it of [...classes].reverse()) {
    const others = blankRanges(left, it.ranges);
    if (new RegExp(`\\b${it.name}\\b`).test(others) || isDirected(it.name) || !/\)\s*(?:const\s*|noexcept\s*)*\{/.test(others)) continue;
    if (it.ranges.some(({ begin, end }) => REGISTERING.test(code.slice(begin, end)))) continue;
    unused.push(...it.ranges);
    left = others;
  }
  const blanked = [...ranges, ...unused];
  return blanked.length ? { text: blankRanges(text, blanked), isDelayed } : null;
}
