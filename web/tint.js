// One colour for each thread and one for each location, the same in the text, the machine, the graph and the list; and a text of a test in
// these colours. This is a way of showing: nothing is concluded from it, and a text that is no test is shown too.

import { el } from "./dom.js";
import { readTest } from "./tests.js";
import { parseName } from "./tokens.js";
import { FENCES, KEYWORDS, REGISTER } from "./words.js";

// The number of colours, and the locations that have the same colour in every test.
const COLOURS = 8;
const FIXED = ["x", "y", "z", "w"];
const MAX_COLOURED = 20000;
const TOKEN = /\(\*|\*\)|\d+:[A-Za-z]\w*|0x[\da-fA-F]+|\$?\d+|[A-Za-z_]\w*|\s+|:=|[^\sA-Za-z_0-9]/g;
// How a test begins, or a part of one; other texts are programs, whose comments are these.
const TEST = /^\s*(?:\(\*|X86\b|SRC\b)|^\s*P0\s*[|;]/im;
const TOKEN_OF_PROGRAM = new RegExp(`//.*|/\\*[^]*?(?:\\*/|$)|${TOKEN.source}`, "g");

/** Chooses the colours of the locations of a test: those of the four usual names are the same in all tests. */
class Tints {
  constructor(names) {
    const sorted = [...new Set(names)].sort();
    const free = Array.from({ length: COLOURS }, (_, at) => at).filter((at) => !sorted.includes(FIXED[at]));
    this.numbers = new Map(sorted.map((name) => [name, FIXED.includes(name) ? FIXED.indexOf(name) : (free.shift() ?? COLOURS - 1)]));
  }

  /**
   * Returns the class of a location, or an empty text if no location has the name.
   * @param {string} name
   * @returns {string}
   */
  findClass(name) {
    return this.numbers.has(name) ? `loc loc-${this.numbers.get(name)}` : "";
  }
}

/**
 * Returns the class of a thread.
 * @param {number | string} thread
 * @returns {string}
 */
export function makeThreadClass(thread) {
  return `thr thr-${thread}`;
}

let last = { text: null, tints: new Tints([]) };

/**
 * Returns the colours of a text's locations; of a text that is no test those of the last one.
 * @param {string} text
 * @returns {Tints}
 */
export function findTints(text) {
  if (text === last.text) return last.tints;
  try {
    last = { text, tints: new Tints(readTest(text).locations) };
  } catch {
    last = { text, tints: last.tints };
  }
  return last.tints;
}

/**
 * Returns a site of a state, `0:EAX` or `x`, in its colour.
 * @param {string} name
 * @param {Tints} tints
 * @returns {Element}
 */
export function renderSite(name, tints) {
  const thread = /^(\d):/.exec(name)?.[1];
  return el("span", { class: thread === undefined ? tints.findClass(name) : makeThreadClass(thread) }, name);
}

/**
 * Returns the name of a test, for views that show it nowhere else.
 * @param {string} text
 * @returns {Element}
 */
export function renderTestName(text) {
  return el("b", { class: "test-name" }, `${parseName(text)} `);
}

/**
 * Returns a piece of code of a thread, in colours; if `thread` is null, registers have no colour.
 * @param {string} text
 * @param {Tints} tints
 * @param {number | string | null} thread
 * @returns {(Node | string)[]}
 */
export function renderCode(text, tints, thread) {
  return [...text.matchAll(TOKEN)].map(([it]) => renderToken(it, tints, thread));
}

/** Returns a token in the colour of its thread or location. */
function renderToken(token, tints, thread) {
  const observed = /^(\d):([A-Za-z]\w*)$/.exec(token);
  if (observed) return el("span", { class: makeThreadClass(observed[1]) }, token);
  if (/^\s|^[^\w$]/.test(token)) return token;
  if (REGISTER.test(token)) return thread === null ? token : el("span", { class: makeThreadClass(thread) }, token);
  // A location may be called as an instruction of the other language: `lock` of a source test.
  const kind = tints.findClass(token);
  if (kind) return el("span", { class: kind }, token);
  if (FENCES.test(token)) return el("span", { class: "fencing" }, token);
  if (KEYWORDS.test(token) || token === "SRC" || token === "X86") return el("span", { class: "keyword" }, token);
  const title = token[0] === "$" ? `the number ${token.slice(1)} itself` : null;
  return /^\$?\d/.test(token) ? el("span", { class: "number", title }, token) : token;
}

/**
 * Returns a whole text, a test or a program, in colours: the bars between the cells of a test say what each thread has.
 * @param {string} text
 * @param {Tints} tints
 * @returns {(Node | string)[]}
 */
export function renderText(text, tints) {
  if (text.length > MAX_COLOURED) return [text];
  const nodes = [];
  let [depth, thread, isHead] = [0, null, false];
  const isTest = TEST.test(text);
  for (const [token] of text.matchAll(isTest ? TOKEN : TOKEN_OF_PROGRAM)) {
    if (token === "(*" && isTest) depth += 1;
    if (depth > 0 || /^\/[/*]/.test(token)) {
      nodes.push(el("span", { class: "comment" }, token));
      if (token === "*)") depth -= 1;
      continue;
    }
    if (/^P\d$/.test(token)) {
      [thread, isHead] = [Number(token[1]), true];
      nodes.push(el("span", { class: `head ${makeThreadClass(thread)}` }, token));
      continue;
    }
    if (thread !== null && token === "|") thread += 1;
    if (thread !== null && token === ";") [thread, isHead] = [0, false];
    if (!isHead && /^(?:exists|forall|locations|filter)$/.test(token)) thread = null;
    nodes.push(token === "|" || token === ";" ? el("span", { class: "bar" }, token) : renderToken(token, tints, thread));
  }
  return nodes;
}

/**
 * Returns a sentence whose code, between backquotes, is in colours.
 * @param {string} text
 * @param {Tints} tints
 * @returns {(Node | string)[]}
 */
export function renderTintedSentence(text, tints) {
  const thread = /^P(\d)/.exec(text)?.[1] ?? null;
  return text.split("`").flatMap((part, index) => {
    if (index % 2) return [el("code", {}, renderCode(part, tints, thread))];
    return part.split(/\b(P\d)\b/).map((it, odd) => (odd % 2 ? el("b", { class: makeThreadClass(it[1]) }, it) : it));
  });
}
