// Rewrites the class templates of a program in C++ that all have one list of arguments as classes, with the arguments in place of the parameters. Not proved.
//
// A `Template` has the `name` of its class, its `parameters`, their `defaults`, which are "" if they have none, the `begin` of its head, and the `from`
// and the `end` of its code. The record `Part` is that of c_reader.js.

import { blankComments, findClosing, refusePart, squeezeCode } from "./c_code.js";
import { applyEdits } from "./c_edits.js";

const HEAD = /\btemplate\s*<([^<>;{}]*)>\s*/g;
// What follows a head: a class, or a method outside of one. The group is the name of the class.
const CLASS = /^(?:class|struct)\s+(\w+)\s*(?:final\s*)?\{/;
const METHOD = /^(?:[\w:]+(?:<[\w\s,]*>)?[\s*&]+){0,4}(\w+)\s*<[\w\s,]*>\s*::~?\w+\s*\([^(){};]*\)\s*(?:const\s*|noexcept\s*)*(?::[^{};]{0,200})?\{/;
const FUNCTION = /^(?:[\w:]+[\s*&]+){1,5}\w+\s*\(/;
// A parameter: the groups are its name, and its argument by default.
const PARAMETER = new RegExp(
  "^(?:typename|class|(?:std::)?(?:s?size_t|u?int(?:32|64)_t)|int|unsigned(?: int)?|bool)\\s+(\\w+)(?:\\s*=\\s*([\\w:]+(?: \\w+)?))?$",
);
const TYPE = /^(?:unsigned|signed|int|long|short|char|bool|(?:std::)?\w+_t)\b/;
const ARGUMENT = /^(?:std::)?\w+(?: \w+)?$/;
// A sum of numbers in parentheses, which are not those of a call.
const SUM = /(?<=[[%=<>+*/(,-]\s*)\((\d+)\s*([-+*])\s*(\d+)\)/g;
const OF_FUNCTIONS = ": a template of a function is not rewritten, so write the function for its types";
const OF_PARTS = ": a template is rewritten if it is one class, with methods outside of it, so write this for its types";
const OF_NAMES = ": a use of the template names it, too, so give it another name here";
const OF_SEVERAL = ": a template is rewritten if all its uses have the same arguments, which are types and constants, as `Queue<int, 2>`";

/** Returns a number in place of a sum, a difference or a product in parentheses, as long as these. */
function addNumbers(whole, one, sign, other) {
  const [first, second] = [Number(one), Number(other)];
  return String(sign === "+" ? first + second : sign === "*" ? first * second : first - second).padEnd(whole.length);
}

/** Returns the templates of a code. Throws NoTest at one that is no class and no method of one. */
function listTemplates(text, code) {
  return [...code.matchAll(HEAD)].map(({ 0: head, 1: list, index }) => {
    const from = index + head.length;
    const part = { code: text.slice(index, from + 60), index };
    const [begin, name] = CLASS.exec(code.slice(from)) ?? METHOD.exec(code.slice(from)) ?? refusePart(part, FUNCTION.test(code.slice(from)) ? OF_FUNCTIONS : OF_PARTS);
    const found = list.split(",").map((it) => PARAMETER.exec(it.trim()) ?? refusePart(part, OF_SEVERAL));
    const [parameters, defaults] = [found.map((it) => it[1]), found.map((it) => it[2] ?? "")];
    // A default may be another parameter.
    if (defaults.some((it) => parameters.includes(it))) refusePart(part, OF_SEVERAL);
    const end = findClosing(code, from + begin.length - 1);
    return end < 0 ? refusePart(part, ": its `}` is missing") : { name, parameters, defaults, begin: index, from, end };
  });
}

/** Returns the uses of a class with arguments: each with the range of these, and the list of them, in which defaults are in place of those left out. */
function listUses(code, name, defaults) {
  return [...code.matchAll(new RegExp(`\\b${name}\\s*(<([^<>;{}()]*)>)`, "g"))].map(({ 0: whole, 1: list, 2: values, index }) => {
    const end = index + whole.length;
    const given = values.trim() ? values.split(",").map((it) => squeezeCode(it)) : [];
    return { begin: end - list.length, end, values: [...given, ...defaults.slice(given.length).map((it) => squeezeCode(it))] };
  });
}

/** Throws NoTest if a template has a name of its own that is an argument of its uses, too: the argument would have the meaning of that name. */
function refuseName(text, code, value, templates, uses) {
  if (!/^[A-Za-z_]\w*$/.test(value)) return;
  for (const { parameters, from, end } of templates) {
    const found = [...code.slice(from, end).matchAll(new RegExp(`(?<!\\w|(?:\\.|->|::)\\s*)${value}\\b`, "g"))].map((it) => from + it.index);
    const index = found.find((place) => !uses.some((it) => it.begin <= place && place < it.end));
    if (index !== undefined && !parameters.includes(value)) refusePart({ code: text.slice(index, index + value.length), index }, OF_NAMES);
  }
}

/** Returns the edits that put the arguments of a template in place of its parameters. Throws NoTest if its uses have several lists of arguments. */
function listEdits(text, code, name, templates) {
  const isOwn = ({ begin, values }) => templates.some((it) => it.begin < begin && begin < it.end && values.join() === it.parameters.join());
  const { defaults } = templates.find((it) => it.defaults.some(Boolean)) ?? { defaults: [] };
  const uses = listUses(code, name, defaults);
  const [first, ...others] = uses.filter((it) => !isOwn(it));
  if (!first) return [];
  const other = [first, ...others].find((it) => it.values.join() !== first.values.join() || !it.values.every((value) => ARGUMENT.test(value)));
  if (other) refusePart({ code: text.slice(other.begin - name.length, other.end), index: other.begin - name.length }, OF_SEVERAL);
  for (const value of first.values.filter((it) => !TYPE.test(it))) refuseName(text, code, value, templates, uses);
  const edits = uses.map(({ begin, end }) => ({ begin, end, text: "" }));
  for (const { parameters, begin, from, end } of templates) {
    if (parameters.length !== first.values.length) refusePart({ code: text.slice(begin, from), index: begin }, OF_SEVERAL);
    edits.push({ begin, end: from, text: "" });
    for (const [at, parameter] of parameters.entries()) {
      const found = [...code.slice(from, end).matchAll(new RegExp(`(?<!\\w|(?:\\.|->|::)\\s*)${parameter}\\b`, "g"))].map((it) => from + it.index);
      const outside = found.filter((place) => !uses.some((it) => it.begin <= place && place < it.end));
      edits.push(...outside.map((place) => ({ begin: place, end: place + parameter.length, text: first.values[at] })));
    }
  }
  return edits;
}

/**
 * Returns the text of a program whose class templates are classes, and a function that returns the index that one of it has in the program; null if the program
 * uses no templates. Throws NoTest at a template that is not rewritten so.
 * @param {string} text
 * @returns {{text: string, findIndex: function(number): number} | null}
 */
export function rewriteTemplates(text) {
  if (!/\btemplate\s*</.test(text)) return null;
  const code = blankComments(text);
  const templates = listTemplates(text, code);
  const names = [...new Set(templates.map((it) => it.name))];
  const edits = names.flatMap((name) => listEdits(text, code, name, templates.filter((it) => it.name === name)));
  if (!edits.length) return null;
  const { text: made, findIndex } = applyEdits(text, edits);
  return { text: made.replace(SUM, addNumbers), findIndex };
}
