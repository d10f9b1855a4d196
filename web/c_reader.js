// Reads a program in C or C++, or a test of herd in C: its shared variables, its threads, which are functions, and its question. Not proved.
//
// A `Program` has its `text`, a `name`, the initial `words` of its shared variables by their names, the declarations of those outside of functions in
// `globals`, the values of its constants by their `names`, its `functions` by their names, its `threads`, and its `question`. It has its structures and
// classes, the `types`, by their names, and the names of their `objects` and of its `arrays`. It `isHerd`, or not. If it has a `main`, this is a `Part`,
// and its threads are all other functions until c_main.js has followed it. If a loop of `main` runs its threads repeatedly, `repeated` has the
// `statement` of the loop, and the `names` of variables that the loop sets before.
// A `Part` has its `code`, as the program has it, or "", and its `index` in the text. A question is one; if `main` asks it, it has also the `source`
// in `main`, which is a part.
// A `CThread` has a `name`, its `code`, which is a `Part`, the index of its `head`, and the declarations of the shared `variables` that it may use,
// by their names. It has its `whole` part, and the codes of its `type` and of its `parameters`. It `returnsWord`, or not, and `isStarted` by `main`,
// or not. If it is, it has the statement of its `start`, and the codes of the `values` of its parameters. A function has the names of `members`, with
// their codes: of those of its object, whose name is its `objectName`, if it is a method, or of numbers, if it is a lambda. It `isMacro`, or not.
// A member of a structure is a variable, and the name of its object is in its own, as `s_x` for `s.x`.
// A `Declaration` has the `name` of a variable, and the code of its initial `value`, if it has one. It `isPointer`, or not. Its words are below its
// `limit`, which is 2 for a `bool`. A mutex `isRecursive`
// if a thread may lock it again, or not. It `isWide` if it has 64 bits, or not. It has the name of its `object`, if it is a member of one, which
// `isOfClass` if this has methods. The `element` is the code of a word of an array, as `a[0]`. The `order` is
// that of the operators on it: seq_cst if it is atomic, relaxed if it is volatile, mutex if it is one, and otherwise plain.

import { addObject, declareObjects, OF_OVERLOADS, readClass } from "./c_classes.js";
import {
  blank,
  declareVariables,
  defineName,
  findClosing,
  OF_LONE,
  OF_VALUES,
  parseConstant,
  parseDeclaration,
  parseNamedValue,
  refusePart,
  replaceNames,
  splitCode,
  squeezeCode,
} from "./c_code.js";
import { computeConstant } from "./c_constants.js";
import { blankUncompiled, OF_DIRECTIVES } from "./c_directives.js";
import { explainType } from "./c_reasons.js";
import { removeOuterParentheses } from "./c_statements.js";
import { isOfWindows, listWindowsNames } from "./c_windows.js";
import { WORD } from "./token_reader.js";
import { blankComments } from "./tokens.js";

// How a test of herd begins. (The first word of one in C may be wrong.) And one without its first line: the group is what is in its block.
const HERD = /^\s*(?:C|X86|SRC)\s/;
const BARE = /^\s*(?:\{([^{}]*)\}\s*)?(?:(?:static\s+)?void\s+)?P0\s*\([^(){};]*\*[^(){};]*\)\s*\{/;
// The heading of a test of herd and its block: the groups are its name, and what is in the block.
const HEADING = /^\s*(?:C|X86|SRC)\s+([^\s{]+)[^{(]*\{([^}]*)\}/;
// A comment in C: the groups are the question in a line and that in a block. MARK of tools/c/source.py finds the same, also after a second `//`.
// A string or a letter is matched first, since what looks like a comment is none in it. A backslash at the end of a comment's line continues the comment.
const COMMENT =
  /"(?:[^"\\\n]|\\.)*"|'(?:[^'\\\n]|\\.)'|\/\/(?:.*?lw:(?<=\/\/[ \t]*lw:)(.*)|(?:\\\r?\n|.)*)|\/\*(?:\s*lw:([^]*?)|[^]*?)\*\//g;
// What in a string or a letter might be taken for code.
const MARK_IN_STRING = /[(){};,]/g;
const MARK_IN_LETTER = /[(){};,"/]/g;
// What a program may have that does not matter here.
const HEADERS = /^[ \t]*#[ \t]*(?:include|pragma)\b.*/gm;
const WITHOUT_EFFECT = /\busing\s[\w:\s]{0,80};|\balignas\s{0,9}\([\s\w:]{0,80}\)|\[\[[\w:, ]{0,80}\]\]|\bnoexcept\b/g;
const HANDLES = /^(?:static\s+)?(?:pthread_t|thrd_t|HANDLE|(?:std::)?j?thread)\s+[\w\s,[\]]{1,80};$/;
// An entry of a block of initial values: the groups are the name of a variable, and its value.
const ENTRY = /^(?:\w[\w ]*[ *])?\[?([A-Za-z_]\w*)\]?(?:=(.+))?$/;
// A function up to its code: the groups are its type, its name, and its parameters.
const FUNCTION = /^((?:(?:std::)?\w+[\s*]+)*?)(\w+)\s*\(([^(){};]*)\)\s*\{/;
// A method outside of its class: the groups are what is before the name of this, and this name.
const METHOD_OUTSIDE = /(?<=^|[;}])(\s*(?:(?:std::)?\w+[\s*&]+){0,5})(\w+)::~?\w+\s*\([^(){};]*\)\s*(?:const\s*|noexcept\s*)*(?::[^{};]{0,200})?\{/g;
// The types of a result of 32 bits.
const WORD_TYPE = /^(?:(?:static|extern|inline|const|(?:un)?signed|int|u?int32_t)\s+)*(?:(?:un)?signed|int|u?int32_t)\s+$/;
// The parameters of a thread: none, or a pointer to anything, whose name is the group.
const PARAMETERS = /^\s*(?:void\s*(?:\*\s*(\w*)\s*)?)?$/;
const PROTOTYPE = /^(?:\w+[\s*]+)+\w+\s*\([^(){};]*\)\s*;/;
// A macro: the groups are its name, unless it has parameters, and its text. And a constant of C++ or C, with its name and its value.
const MACRO = /^#[ \t]*define\b(?:[ \t]+(\w+)(?![\w(])[ \t]*(.*)|.*)/;
const CONSTANT = new RegExp(
  "^(?:(?:static|inline)\\s+)*(?:constexpr|const)\\s+(?:auto|(?:(?:unsigned|long)\\s+)*(?:unsigned|int|long|short|char)|bool|s?size_t|u?int\\d+_t|" +
    "(?:std::)?memory_order)\\s+(\\w+)\\s*[={]\\s*([\\w:]+|[\\w\\s()+*<-]{1,60}?)\\s*\\}?\\s*;",
);
// An array of the standard library, up to its name: the groups are the type of its words, their number, and the name.
const ARRAY = /\b(?:std::)?array\s*<\s*((?!(?:std::)?j?thread\b)[\w:]+(?:\s*<[\w\s]*>)?)\s*,\s*(\w+)\s*>\s*(\w+)(?=\s*[;{=])/g;
// A declaration of one variable that calls nothing: the group is its name.
const UNUSED = /^[^,;(){}=]*?\b(\w+)\s*(?:\[\w*\]\s*)*(?:=[^,;(]*|\{[^,;(]*\}\s*)?;$/;
// What in it changes something, or makes an object.
const WRITING = /\+\+|--|\bnew\b|=[^;=]*=|\{[^;{=]*=/;
// What may give a name to an order of memory, or to a reference.
const NAMING = /\b(?:atomic_ref|memory_order)/;
// A macro that is called without arguments: the groups are its name and its text. One that the kernel defines. Names of constants, and of a type, with it.
const CALLED_MACRO = /^#[ \t]*define[ \t]+(\w+)\([ \t]*\)[ \t]+(\S.*)/;
const ONCE = new RegExp(
  "^#[ \\t]*define[ \\t]+(?:READ_ONCE\\(\\w+\\)|WRITE_ONCE\\(\\w+, ?\\w+\\))[ \\t]+(?:do \\{ )?\\(?\\*\\((?:const )?volatile [\\w() ]{1,40}\\*\\) ?&" +
    "\\(?\\w+\\)?\\)?(?: ?= ?\\(?\\w+\\)?)?(?:; \\} while \\(0\\))?\\)?[ \\t]*(?=\\r?\\n|$)",
);
const ENUMERATION = /^enum(?:\s+\w+)?\s*\{([\w\s=,]{1,400})\}\s*;/;
const ALIAS = /^(?:using\s+(\w+)\s*=\s*([\w:<>\s]{1,60})|typedef\s+([\w:<>\s]{1,60}?)\s+(\w+))\s*;/;
// The begin of a block of declarations: the group is its name.
const SPACE = /^(?:(?:inline\s+)?namespace(?:\s+([\w:]+))?|extern\s+"C")\s*\{/;
// The begin of a structure: the groups are `typedef`, and its name. And what follows it: the names of objects or of types.
const STRUCTURE = /^(typedef\s+)?(?:static\s+)?(?:struct|class)(?:\s+(\w+))?\s*(?:final\s*)?\{/;
const OBJECTS = /^\s*([\w\s,]{0,200});/;
// A longer declaration is not one of objects. And what is outside of functions, to its end.
const LONGEST = 400;
const STATEMENT = /^[^;]*;/;
const QUESTION = /^(?:~|exists|forall|locations)/;
// What a program has in place of a part that is refused.
const OF_HEADING = ": a test begins with `C`, its name, and its initial values in braces";
const OF_ENTRIES = ": initial values are entries as `x=1;`";
const OF_GLOBALS = ": outside of threads are only declarations of integers and `bool`, as `atomic_int x = 1;`";
const OF_MACROS = ": write its text where it is used";
const OF_PARAMETERS = ": a parameter is a pointer to 32 bits, as `atomic_int *x`";
const OF_THREADS = ": a thread is a function without parameters, or with an unused `void *`";
const OF_UNUSED = ": no thread uses it, so write functions that do, as `void P0() { .. }`";
const OF_WINDOWS = ": the page knows this function of Windows, so leave it out";
const OF_END = ": after the threads is the question, as `exists (0:r0=0)`";

/** Returns the code of the number of an expression, which is in parentheses if it is that of a macro; null if it is none, or below 0. */
function computeNamed(code, isMacro) {
  const squeezed = squeezeCode(code);
  const number = isMacro && removeOuterParentheses(squeezed) === squeezed ? null : computeConstant(squeezed);
  return number === null || number < 0 ? null : String(number);
}

/** Returns a declaration of an array of the standard library as one of an array, of the same length. */
function writeArray(whole, type, count, name) {
  return `${type} ${name}[${count}]`.padStart(whole.length);
}

/** Returns code in which words and lengths of arrays of the standard library are as those of arrays, in the same places. */
function writeArrays(code) {
  const names = [...code.matchAll(ARRAY)].map(([, , count, name]) => [name, count]);
  return names.reduce((text, [name, count]) => {
    const at = new RegExp(`\\b${name}\\s*\\.\\s*at\\s*\\(([^()]*)\\)`, "g");
    const size = new RegExp(`\\b${name}\\s*\\.\\s*size\\s*\\(\\s*\\)`, "g");
    return text.replace(at, (whole, index) => `${name}[${index}]`.padEnd(whole.length)).replace(size, (whole) => count.padEnd(whole.length));
  }, code).replace(ARRAY, writeArray);
}

/** Reads a program from its begin to its end. `rest` is what is not read yet, in which comments are blank. */
class ProgramReader {
  /** @param {string} text */
  constructor(text) {
    this.text = text;
    this.isHerd = HERD.test(text) || BARE.test(text.replace(COMMENT, ""));
    this.rest = text;
    this.name = "Mine";
    this.words = new Map();
    this.globals = new Map();
    this.names = new Map(listWindowsNames(text));
    // The structures and classes by their names, the names of their objects and of arrays, and the functions by their names.
    this.types = new Map();
    this.objects = new Set();
    this.arrays = new Set();
    this.functions = new Map();
    // The methods outside of classes by the names of these.
    this.methods = new Map();
    this.threads = [];
    this.main = null;
    // Whether variables may have the same name, in several namespaces.
    this.hasSpaces = false;
  }

  /** Returns the index of the rest in the text. */
  get index() {
    return this.text.length - this.rest.length;
  }

  /** Returns a part at the begin of the rest, of some length. */
  cutPart(length) {
    return { code: this.rest.slice(0, length), index: this.index };
  }

  /** Removes a part of some length from the rest, and the blanks after it. */
  skipPart(length) {
    this.rest = this.rest.slice(length).trimStart();
  }

  /** Returns the program. Throws NoTest at what is no declaration of a variable, no function of a thread and no question. */
  readProgram() {
    const asked = this.takeComments();
    if (this.isHerd) this.readHeading();
    const compiled = writeArrays(blankUncompiled(this.rest).replace(HEADERS, blank).replace(WITHOUT_EFFECT, blank));
    this.rest = compiled.replace(/\bif\s+constexpr\b/g, (it) => "if".padEnd(it.length)).trimStart();
    this.takeMethods();
    while (this.rest && !QUESTION.test(this.rest)) this.readDefinition();
    const question = this.rest ? this.cutPart(this.rest.length) : asked;
    // A comment of herd begins as a macro of a pointer does, so that it is found only here.
    if (this.isHerd) question.code = question.code.replace(/\(\*[^]*?\*\)/g, blank);
    const { text, name, isHerd, words, globals, names, types, objects, arrays, functions, threads, main } = this;
    return { text, name, isHerd, words, globals, names, types, objects, arrays, functions, threads, main, question };
  }

  /** Takes the comments out of the text. Returns the question in them. Throws NoTest if a program asks twice. */
  takeComments() {
    const questions = [];
    this.rest = (this.isHerd ? blankComments(this.text) : this.text).replace(COMMENT, (comment, line, block, index) => {
      if (comment.startsWith('"')) return comment.replace(MARK_IN_STRING, " ");
      if (comment.startsWith("'")) return comment.replace(MARK_IN_LETTER, " ");
      const code = line ?? block;
      if (code !== undefined) questions.push({ code, index: index + comment.lastIndexOf(code) });
      if (questions.length > 1 && !this.isHerd) refusePart({ code: comment, index }, ": a second comment says what is asked");
      return blank(comment);
    });
    return questions.find((it) => it.code) ?? { code: "", index: 0 };
  }

  /** Takes the methods out of the rest that are outside of their classes, without the names of these in them. */
  takeMethods() {
    for (const { 0: head, 1: before, 2: name, index } of this.rest.matchAll(METHOD_OUTSIDE)) {
      const end = findClosing(this.rest, index + head.length - 1) + 1;
      if (!end || !new RegExp(`\\b(?:class|struct)\\s+${name}\\b[^;{]*\\{`).test(this.rest)) continue;
      const whole = this.rest.slice(index, end);
      const code = whole.slice(0, before.length) + blank(`${name}::`) + whole.slice(before.length + name.length + "::".length);
      this.methods.set(name, [...this.methods.get(name) ?? [], { code, index: this.index + index }]);
      this.rest = this.rest.slice(0, index) + blank(whole) + this.rest.slice(end);
    }
  }

  /** Reads the name and the initial values of a test of herd. */
  readHeading() {
    const isBare = !HERD.test(this.rest);
    const [, values = ""] = BARE.exec(this.rest) ?? [];
    const bare = [values && this.rest.slice(0, this.rest.indexOf("}") + 1), this.name, values];
    const [heading, name, block] = isBare ? bare : HEADING.exec(this.rest) ?? refusePart(this.cutPart(this.rest.length), OF_HEADING);
    this.name = name;
    for (const entry of splitCode({ code: block, index: this.index + heading.indexOf("{") + 1 }, ";").filter((it) => it.code.trim())) {
      const [, variable, value = "0"] = ENTRY.exec(squeezeCode(entry.code)) ?? refusePart(entry, OF_ENTRIES);
      this.words.set(variable, parseConstant(value) ?? refusePart(entry, OF_ENTRIES));
    }
    this.skipPart(heading.length);
  }

  /** Reads a function, or a declaration outside of them. */
  readDefinition() {
    const found = FUNCTION.exec(this.rest);
    const [prototype] = (!this.isHerd && PROTOTYPE.exec(this.rest)) || [];
    if (found) this.readFunction(found);
    else if (this.rest[0] === ";") this.skipPart(1);
    else if (prototype) this.skipPart(prototype.length);
    else if (!this.readNamedValue() && !this.readSpace() && !this.readStructure() && !this.readObjects()) this.readVariables();
  }

  /** Reads a structure with its objects, if one is here. Returns whether it is. */
  readStructure() {
    const [head, isType, name] = STRUCTURE.exec(this.rest) ?? [];
    const end = head ? findClosing(this.rest, head.length - 1) : -1;
    const [tail, objects] = OBJECTS.exec(this.rest.slice(end + 1)) ?? [];
    if (end < 0 || tail === undefined) return false;
    const part = this.cutPart(end + 1 + tail.length);
    const code = { code: this.rest.slice(head.length, end), index: this.index + head.length };
    const others = objects.split(",").map((it) => it.trim()).filter(Boolean);
    if (this.types.has(name)) refusePart(part, OF_LONE);
    const type = readClass(name, code, this.names, this.methods.get(name));
    for (const it of [name, ...(isType ? others : [])]) if (it) this.types.set(it, type);
    for (const object of isType ? [] : others) addObject(this, object, type, part);
    this.skipPart(part.code.length);
    return true;
  }

  /** Reads a declaration of objects of a structure, if one is here. Returns whether it is. */
  readObjects() {
    const [whole] = (this.types.size && STATEMENT.exec(this.rest)) || [""];
    const isOfObjects = whole.length < LONGEST && declareObjects(this, squeezeCode(whole.slice(0, -1)), this.cutPart(whole.length));
    if (isOfObjects) this.skipPart(whole.length);
    return isOfObjects;
  }

  /** Reads a macro or a constant, if one is here, and returns whether it is. Throws NoTest at a macro that is no constant. */
  readNamedValue() {
    if (this.readNames()) return true;
    const [macro, macroName, text = ""] = MACRO.exec(this.rest) ?? [];
    const [constant, constantName, code = ""] = CONSTANT.exec(this.rest) ?? [];
    if (!macro && !constant) return false;
    const named = replaceNames(macro ? text : code, this.names);
    const value = parseNamedValue(named) ?? computeNamed(named, macro !== undefined);
    if (macro && (!macroName || value === null)) refusePart(this.cutPart(macro.length), OF_MACROS);
    if (value === null) return false;
    this.setName(macroName ?? constantName, value, this.cutPart((macro ?? constant).length));
    this.skipPart((macro ?? constant).length);
    return true;
  }

  /** Reads names of constants or of a type, or a macro that is a function or does what the kernel's does, if one is here. Returns whether it is. */
  readNames() {
    const [macro, name, text] = CALLED_MACRO.exec(this.rest) ?? [];
    const [enumeration, constants = ""] = ENUMERATION.exec(this.rest) ?? [];
    const [alias, first, type, other, last] = ALIAS.exec(this.rest) ?? [];
    const found = macro ?? enumeration ?? alias ?? ONCE.exec(this.rest)?.[0];
    if (!found || (alias && !parseDeclaration(squeezeCode(`${type ?? other} it`)).length)) return false;
    let word = -1;
    for (const it of constants.split(",").filter((constant) => constant.trim())) {
      const [constant, value] = it.split("=").map((part) => part.trim());
      word = value === undefined ? (word + 1) % WORD : parseConstant(value) ?? refusePart(this.cutPart(found.length), OF_VALUES);
      this.setName(constant, String(word), this.cutPart(found.length));
    }
    if (alias) this.names.set(first ?? last, type ?? other);
    if (macro) this.addMacro(this.cutPart(found.length), name, text);
    this.skipPart(found.length);
    return true;
  }

  /** Gives a name a value. Throws NoTest for a part if it has another one, as in two namespaces. */
  setName(name, value, part) {
    if ((this.names.get(name) ?? value) !== value) refusePart(part, OF_LONE);
    this.names.set(name, value);
  }

  /** Adds a macro as a function. */
  addMacro(whole, name, text) {
    if (isOfWindows(name)) refusePart(whole, OF_WINDOWS);
    const statement = text.replace(/;?\s*$/, "");
    if (statement.includes(";")) refusePart(whole, OF_MACROS);
    const code = { code: `${statement};`, index: whole.index + whole.code.lastIndexOf(text) };
    const common = { type: "void", parameters: "", variables: this.globals, returnsWord: false, isMacro: true };
    this.functions.set(name, { name, head: whole.index, whole, code, ...common });
  }

  /** Reads the begin of a namespace, if one is here, whose end is blank then. Returns whether it is. */
  readSpace() {
    const [head, name] = SPACE.exec(this.rest) ?? [];
    const end = head ? findClosing(this.rest, head.length - 1) : -1;
    if (end < 0) return false;
    this.rest = `${this.rest.slice(0, end)} ${this.rest.slice(end + 1)}`;
    if (name) this.hasSpaces = true;
    if (name) this.rest = this.rest.replace(new RegExp(`\\b${name}::`, "g"), blank);
    this.skipPart(head.length);
    return true;
  }

  /** Reads a declaration of variables. */
  readVariables() {
    const [whole] = STATEMENT.exec(this.rest) ?? [this.rest];
    const part = this.cutPart(whole.length);
    if (this.isHerd) refusePart(part, OF_END);
    const [directive = ""] = /^#[ \t]*(?:if|elif|else|endif)[^\n]*/.exec(whole) ?? [];
    if (directive) refusePart(this.cutPart(directive.length), OF_DIRECTIVES);
    const why = explainType(whole) ?? OF_GLOBALS;
    if (!whole.endsWith(";")) refusePart(part, why);
    const isName = HANDLES.test(whole) || this.isUnused(whole) || (NAMING.test(whole) && defineName(squeezeCode(whole.slice(0, -1)), this.names));
    if (!isName) declareVariables(this, this.globals, whole.slice(0, -1), part, why);
    this.skipPart(whole.length);
  }

  /** Returns whether a declaration is of one variable of a type that the page does not follow, and nothing else names it. */
  isUnused(code) {
    const [, name] = (code.length < LONGEST && UNUSED.exec(code.replace(/<[^;]*>/, ""))) || [];
    const isStarting = /\b(?:j?thread|async|future|promise)\b/.test(code);
    return name !== undefined && !isStarting && !WRITING.test(code) && explainType(code) !== null && this.text.split(new RegExp(`\\b${name}\\b`)).length === 2;
  }

  /**
   * Reads a function, which is a thread or `main`. In herd's form its parameters are its variables.
   * @param {string[]} found the match of FUNCTION
   */
  readFunction([{ length }, type, name, parameters]) {
    const end = findClosing(this.rest, length - 1);
    if (end < 0) refusePart(this.cutPart(length), ": its `}` is missing");
    const whole = this.cutPart(end + 1);
    const variables = this.isHerd ? new Map() : this.globals;
    const begin = this.index + this.rest.indexOf("(") + 1;
    for (const parameter of this.isHerd ? splitCode({ code: parameters, index: begin }, ",") : []) {
      declareVariables(this, variables, parameter.code, parameter.code.trim() ? parameter : whole, OF_PARAMETERS);
    }
    const code = { code: this.rest.slice(length, end), index: this.index + length };
    const namedType = replaceNames(type, this.names);
    const returnsWord = !this.isHerd && WORD_TYPE.test(namedType);
    const head = this.index + this.rest.indexOf(name, type.length);
    const named = this.isHerd ? parameters : replaceNames(parameters, this.names);
    const thread = { name, type: namedType, head, whole, parameters: named, code, variables, returnsWord, isStarted: false };
    if (isOfWindows(name)) refusePart({ code: name, index: head }, OF_WINDOWS);
    if (!this.isHerd && this.functions.has(name)) refusePart({ code: name, index: head }, OF_OVERLOADS);
    if (name === "main" && !this.isHerd) this.main = code;
    else {
      this.threads.push(thread);
      this.functions.set(name, thread);
    }
    this.skipPart(end + 1);
  }
}

/**
 * Throws NoTest if a program has no thread, or one with parameters that it may use; or if some threads are functions `P0`, `P1` and so on, and one is
 * not in its place.
 * @param {Program} program
 */
export function checkThreads({ text, isHerd, threads, types }) {
  const [type] = [...types].find(([, { methods }]) => methods.length) ?? [];
  const [head] = (type && new RegExp(`\\b(?:class|struct)\\s+${type}\\b`).exec(text)) || [];
  if (!threads.length && head) refusePart({ code: head, index: text.indexOf(head) }, OF_UNUSED);
  if (!threads.length) refusePart({ code: text, index: 0 }, ": threads are functions `P0`, `P1` and so on");
  const withParameters = threads.find((it) => !isHerd && !it.values && !PARAMETERS.test(it.parameters));
  if (withParameters) refusePart(withParameters.whole, OF_THREADS);
  const isNumbered = threads.some((it) => /^P\d+$/.test(it.name));
  const other = threads.find((it, number) => isNumbered && it.name !== `P${number}`);
  if (other) refusePart({ code: other.name, index: other.head }, ": all functions are threads, `P0`, `P1` and so on, in this order");
}

/**
 * Reads a program. Throws NoTest if it has what is not rewritten.
 * @param {string} text
 * @returns {Program}
 */
export function readProgram(text) {
  return new ProgramReader(text).readProgram();
}
