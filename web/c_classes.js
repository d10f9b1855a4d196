// Reads structures and classes of a program in C or C++: their variables, their methods, and the words that variables of their objects have. Not proved.
//
// The records `Program`, `Part` and `Declaration` are those of c_reader.js.
// A `Class` has the declarations of its `members`, which have their initial words as their values, and its `methods`, which are functions.

import { blank, findClosing, OF_LONE, OF_VALUES, parseConstant, parseDeclaration, refusePart, replaceNames, squeezeCode } from "./c_code.js";
import { computeConstant } from "./c_constants.js";
import { explainType } from "./c_reasons.js";

const ACCESS = /^(?:public|private|protected)\s*:(?!:)/;
// What a class may have that does not matter here, and what needs no code: a method that has none, or that of the compiler.
const WITHOUT_CODE = /^[^;{}()]*\([^;{}()]*\)[^;{}()]{0,40};/;
const CONSTANT = /^(?:(?:static|const|inline)\s+)*constexpr\b/;
// A constant of a class in squeezed code: the groups are its name and its value.
const NAMED = new RegExp(
  "^(?=[^=]*\\bstatic )(?:(?:static|inline|const|constexpr) )+(?:auto|bool|int|long|unsigned(?: int| long)?|s?size_t|u?int(?:32|64)_t) " +
    "(\\w+)[={]([^{};,]+)\\}?$",
);
// A method up to its code: the groups are its type, its name, and its parameters. And a constructor: its name, its parameters, and its initial values.
const METHOD = /^((?:(?:std::)?\w+[\s*&]+)+)(\w+)\s*\(([^(){};]*)\)\s*(?:const\s*|override\s*|final\s*)*\{/;
const CONSTRUCTOR = /^(?:(?:explicit|constexpr|inline)\s+)*(\w+)\s*\(([^(){};]*)\)\s*(?::((?:\s*,?\s*\w+\s*(?:\([^()]*\)|\{[^{}]*\}))*)\s*)?\{/;
const DESTRUCTOR = /^(?:virtual\s+)?~\w+\s*\(\s*\)\s*\{\s*\}/;
const INITIAL = /(\w+)\s*(?:\(([^()]*)\)|\{([^{}]*)\})/g;
const ASSIGNED = /^(\w+(?:\[\d\])?)(?:=|\.store\()([\w-]+)(?:,memory_order_\w+)?\)?$/;
// A declaration of objects in squeezed code: the groups are their type, and their names.
const OBJECTS = /^(?:(?:static|inline|extern) )*(?:(?:struct|class) )?(\w+) (\w+(?:,\w+)*)(?:\{\}|=\{0?\}|=\w+(?:\(\)|\{\}))?$/;
/** Why a function with the name of another one is refused, as the end of a sentence. */
export const OF_OVERLOADS = ": give each function a name of its own";
const OF_MEMBERS = ": a class has integers, `bool`, mutexes, arrays of these, and functions";
const OF_CONSTRUCTORS = ": a constructor has no parameters, and only sets variables of its object to constants";

/** Reads the code of a class from its begin to its end. `rest` is what is not read yet. */
class ClassReader {
  constructor(name, { code, index }, names) {
    Object.assign(this, { name, rest: code, end: index + code.length, names, members: [], methods: [], words: new Map() });
    this.skipPart(0);
  }

  /** Returns a part at the begin of the rest, of some length. */
  cutPart(length) {
    return { code: this.rest.slice(0, length), index: this.end - this.rest.length };
  }

  /** Removes a part of some length from the rest, and the blanks and marks after it. */
  skipPart(length) {
    this.rest = this.rest.slice(length).replace(/^[\s;]+/, "");
  }

  /** Returns the class, some methods of which are outside of it. Throws NoTest at what an object here has not. */
  readClass(others) {
    while (this.rest) this.readMember();
    for (const { code, index } of others) {
      Object.assign(this, { rest: code, end: index + code.length });
      this.skipPart(0);
      while (this.rest) this.readMember();
    }
    for (const member of this.members) {
      const place = member.element ?? member.name;
      if (this.words.has(place)) member.value = this.words.get(place);
      this.words.delete(place);
    }
    // A word that is left over is one of a variable outside of the class.
    if (this.words.size) refusePart(this.constructed, OF_CONSTRUCTORS);
    return { members: this.members, methods: this.methods };
  }

  /** Reads a method, a constructor, or a declaration of variables. */
  readMember() {
    const [skipped] = ACCESS.exec(this.rest) ?? DESTRUCTOR.exec(this.rest) ?? WITHOUT_CODE.exec(this.rest) ?? [];
    const constructor = CONSTRUCTOR.exec(this.rest);
    const method = METHOD.exec(this.rest);
    const isDeclaration = skipped?.split("(")[0].includes("=") && parseDeclaration(squeezeCode(skipped.slice(0, -1))).length;
    if (skipped && !isDeclaration) this.skipPart(skipped.length);
    else if (constructor && constructor[1] === this.name) this.readConstructor(constructor);
    else if (method) this.readMethod(method);
    else this.readVariables();
  }

  /** Returns the part of a function whose head has a length, and that of its code. Throws NoTest if it has no end. */
  cutFunction(length) {
    const close = findClosing(this.rest, length - 1);
    if (close < 0) refusePart(this.cutPart(length), ": its `}` is missing");
    const whole = this.cutPart(close + 1);
    this.skipPart(close + 1);
    return { whole, code: { code: whole.code.slice(length, -1), index: whole.index + length } };
  }

  /** Reads a method. */
  readMethod([{ length }, type, name, parameters]) {
    const head = this.cutPart(length).index + this.rest.indexOf(name, type.length);
    if (this.methods.some((it) => it.name === name)) refusePart({ code: name, index: head }, OF_OVERLOADS);
    this.methods.push({ name, type, head, parameters, ...this.cutFunction(length) });
  }

  /** Reads the initial words that a constructor sets. */
  readConstructor([{ length }, , parameters, values = ""]) {
    const { whole, code } = this.cutFunction(length);
    const convert = (it) => it.replaceAll("this->", "").replace(/\.store\b/, " =").replace(/= *\(([\w-]+)[^()]*\)/, "= $1");
    const assigned = code.code.split(";").map((it) => squeezeCode(convert(it)));
    const found = assigned.filter(Boolean).map((it) => ASSIGNED.exec(it));
    if (parameters.trim() || found.includes(null)) refusePart(whole, OF_CONSTRUCTORS);
    this.constructed = whole;
    for (const [, name, inner, other] of values.matchAll(INITIAL)) this.words.set(name, squeezeCode(inner ?? other) || "0");
    for (const [, name, value] of found) this.words.set(name, value);
  }

  /** Gives the name of a constant its value. Returns whether squeezed code declares one. Throws NoTest if the name has another value elsewhere. */
  readConstant(code, part) {
    const [, name, value] = NAMED.exec(code) ?? [];
    const number = name && /\b(?:const|constexpr) /.test(code) ? computeConstant(value) : null;
    if (number === null || number < 0) return false;
    const word = String(number);
    if ((this.names.get(name) ?? word) !== word) refusePart(part, OF_LONE);
    this.names.set(name, word);
    this.skipPart(part.code.length);
    return true;
  }

  /** Reads a declaration of variables. */
  readVariables() {
    const part = this.cutPart(this.rest.search(/;|$/) + 1);
    const code = squeezeCode(replaceNames(part.code.replace(/\bmutable\b/, blank).replace(/;$/, ""), this.names));
    if (this.readConstant(code, part)) return;
    const declared = parseDeclaration(code);
    const isStatic = /^(?:inline )?static\b/.test(code);
    if (!declared.length || isStatic || CONSTANT.test(code) || declared.some((it) => it.isPointer)) {
      refusePart(part, explainType(code) ?? OF_MEMBERS);
    }
    this.members.push(...declared);
    this.skipPart(part.code.length);
  }
}

/**
 * Returns a class, given its name, the part between its braces, the values of names, and its methods outside of the braces, without its name in them.
 * @param {string} name
 * @param {Part} code
 * @param {Map<string, string>} names
 * @param {Part[]} [others]
 * @returns {Class}
 */
export function readClass(name, code, names, others = []) {
  return new ClassReader(name, code, names).readClass(others);
}

/**
 * Adds the objects that squeezed code declares to a program. Returns whether it declares some. Throws NoTest for the part that is `shown`.
 * @param {Program} program
 * @param {string} code
 * @param {Part} shown
 * @returns {boolean}
 */
export function declareObjects(program, code, shown) {
  const [, type, objects] = (program.types.size && OBJECTS.exec(code)) || [];
  if (!program.types.has(type)) return false;
  // The first variable is 0 then, whatever its own initial value is.
  if (code.endsWith("={0}") && parseConstant(program.types.get(type).members[0]?.value ?? "0") !== 0) refusePart(shown, OF_VALUES);
  for (const object of objects.split(",")) addObject(program, object, program.types.get(type), shown);
  return true;
}

/**
 * Adds an object of a class to a program: its members are variables, whose names are of both, and its methods are functions. Throws NoTest for the part
 * that is `shown` if it has initial values or names that are not as here.
 * @param {Program} program
 * @param {string} object
 * @param {Class} type
 * @param {Part} shown
 */
export function addObject({ words, globals, names, objects, arrays, functions }, object, { members, methods }, shown) {
  const own = new Map();
  for (const { name, element, value, ...others } of members) {
    const joined = `${object}_${name}`;
    const word = value ? parseConstant(value) : 0;
    if (word === null || word >= others.limit) refusePart(shown, OF_VALUES);
    if (globals.has(joined)) refusePart(shown, OF_LONE);
    words.set(joined, word);
    globals.set(joined, { ...others, name: joined, element: element && `${object}_${element}`, value, object, isOfClass: methods.length > 0 });
    const array = element?.split("[")[0];
    const places = element ? [[element, joined], [array, `${object}_${array}`]] : [[name, joined]];
    for (const [place, code] of places) names.set(`${object}.${place}`, code) && own.set(place, code).set(`this.${place}`, code);
    if (!element) continue;
    names.set(`${object}_${element}`, joined);
    arrays.add(`${object}_${array}`);
  }
  for (const { name } of methods) own.set(`${name}(`, `${object}__${name}`);
  objects.add(object);
  for (const it of methods) functions.set(`${object}__${it.name}`, { ...it, members: own, objectName: object, variables: globals, isStarted: false });
}
