// Makes the parts of a test of functions in assembly: the code of its threads, the words at the begin, and what the question has to know. Not proved.
//
// The record `Source` is that of assembly.js.

import { parseRegister } from "./assembly_operations.js";
import { listUnset, lowerThreads } from "./assembly_lowering.js";
import { addEnds, limitQuestion } from "./c_question.js";
import { Refusal } from "./register_state.js";

const WORD = 2 ** 32;
const SITE = /\b(\d)(\s*:\s*)(%?[a-z]\w*)/gi;
const ENTRY = /(?<!\w)(?:(\d)\s*:\s*)?%?(?<!\w)([A-Za-z_]\w*)\s*=\s*(0x[\da-f]+|\d+)/gi;
const OF_HALF = "the word at the begin does not fit into the bits that are accessed";
const OF_PART = "not all of its bits are known at the end of the thread";
const OF_LIMITED = ", and the question leaves them out.";
const OF_QUESTION = ": a question is `exists (..)`, `~exists (..)` or `forall (..)`.";

/** Returns the place of a location: the name of its variable, and its first byte in this. */
function findPlace(name, locations) {
  const [key = name] = [...locations].find(([, it]) => it === name) ?? [];
  const [variable, offset = "0"] = key.split("+");
  return { variable, offset: Number(offset) };
}

/** Returns a function that returns the word at the begin of a location of some width, of variables with bytes of data. */
function makeInitial(variables, locations) {
  const bytes = new Map();
  for (const { name, words } of variables) {
    for (const { offset, word, bytes: count } of words.filter((it) => it.word)) {
      for (let at = 0; at < count && at < 8; at += 1) bytes.set(`${name}+${offset + at}`, Math.floor(word / 256 ** at) & 255);
    }
  }
  return (name, width) => {
    const { variable, offset } = findPlace(name, locations);
    const read = Array.from({ length: width / 8 }, (_, at) => bytes.get(`${variable}+${offset + at}`) ?? 0);
    const word = read.reduceRight((all, it) => all * 256 + it, 0);
    if (!(word < WORD)) throw new Refusal(OF_HALF);
    return word;
  };
}

/** Returns the words at the begin that the front of a test has: of locations, and of the registers of threads. */
function readFront(front, count) {
  const entries = [...front.matchAll(ENTRY)].map(([, thread, name, word]) => ({ thread, name, word: Number(word) }));
  const listOf = (thread) => entries.filter((it) => it.thread === String(thread));
  const registers = Array.from({ length: count }, (_, at) => listOf(at).map((it) => [parseRegister(it.name)?.register, it.word]));
  return { words: new Map(entries.filter((it) => !it.thread).map((it) => [it.name, it.word])), begins: registers.map((it) => new Map(it)) };
}

/** Returns a location, as code names it, that is only a part of a word of another one, or that no access reads in one step; undefined if there is none. */
function findPart(widths, locations) {
  const places = [...widths].map(([name, width]) => ({ ...findPlace(name, locations), bytes: width / 8 }));
  const isIn = (it) => (other) => other.variable === it.variable && it.offset > other.offset && it.offset < other.offset + other.bytes;
  const part = places.find((it) => it.offset % it.bytes || places.some(isIn(it)));
  return part && `${part.variable}+${part.offset}`;
}

/** Returns whether threads are in AT&T's notation. */
const isInAtt = (threads) => threads.flat().some((it) => /%[a-z]/i.test(it));

/**
 * Returns a sentence on registers that threads read before they set them, as arguments of functions; or "".
 * @param {string[][]} threads
 * @returns {string}
 */
export function describeUnset(threads) {
  const formatSite = (thread) => (register) => `\`${register.replace(/^R(?=[A-Z])/, "E")}\` of P${thread}`;
  const sites = listUnset(threads, isInAtt(threads)).flatMap((registers, thread) => registers.map(formatSite(thread)));
  return sites.length ? `${sites[0]} has no value before it is read: it is 0 here.` : "";
}

/** Returns sentences on what is in place of bytes, of loops and of compare-exchanges. `isLimited` says whether the question asks for the ends of loops. */
function describeLowering({ written, widths, pairs }, isLimited) {
  const other = [...widths].find(([, width]) => width !== 32);
  const ends = written.flatMap(({ marker }, thread) => (marker ? [`\`${thread}:${marker}=1\` says that P${thread} has come to its end`] : []));
  const [pair] = pairs;
  return [
    other && `\`${other[0]}\` has ${other[1]} bits: all its values fit, so a word of lw does the same.`,
    pair && `\`lock cmpxchg\` is an \`XCHG\` here, since \`${pair}\` only has the two words that it expects and writes.`,
    ends.length && `A loop that waits is one pass here: ${ends.join(", ")}. The list hides other states${isLimited ? OF_LIMITED : "."}`,
  ];
}

/**
 * Returns the end of a test, which begins at an index of the text, in which the registers that it asks for have lw's names. Throws Refusal for one that has
 * no word at the end.
 */
function renameSites(tail, begin, { written, registers }) {
  return tail.replace(SITE, (whole, thread, colon, name, index) => {
    const { register, width } = parseRegister(name) ?? {};
    if (!register || !written[thread]) return whole;
    const isKnown = (it) => it.register === register && (it.known >= Math.min(width, 32) || register === "RAX");
    if (!written[thread].shown.some(isKnown)) throw new Refusal(OF_PART, { code: whole, index: begin + index });
    return `${thread}${colon}${registers[thread].names.get(register)}`;
  });
}

/**
 * Returns what a test of threads in assembly has: their `lines`, the `own` ones of the code, and for each of these whether it is in a loop (`looping`); the
 * `block` of words at the begin, whether a site of a register `isShown`, the `tail` of the text, which has a question, with lw's registers, and the `ends`
 * to which a question can be limited. `say` returns what is said of the test, given whether it is so. `isBegin` says whether a test has the words at the
 * begin that were taken. Throws Refusal.
 * @param {Source} source
 * @returns {object}
 */
export function lowerText({ threads, places, locations, variables, front, tail, end }) {
  const read = makeInitial(variables, locations);
  const { words, begins } = readFront(front, threads.length);
  const initial = (name, width) => words.get(name) ?? read(name, width);
  const sites = [...tail.matchAll(SITE)].map(([, thread, , name]) => ({ thread: Number(thread), register: parseRegister(name)?.register }));
  const asked = begins.map((begin, thread) => [...begin.keys(), ...sites.filter((it) => it.thread === thread && it.register).map((it) => it.register)]);
  const isAtt = isInAtt(threads);
  const lowered = lowerThreads(threads, { isAtt, initial, begins: begins.map((it) => (front ? it : null)), asked, places });
  const { written, widths } = lowered;
  const part = findPart(widths, locations);
  if (part) return { part };
  const entries = [...widths].map(([name, width]) => ({ name, word: initial(name, width) })).filter((it) => it.word);
  const shown = new Set(written.flatMap((it, thread) => it.shown.map(({ name }) => `${thread}:${name}`)));
  return {
    lines: written.map((it) => it.lines),
    own: written.map((it) => it.own),
    block: entries.map(({ name, word }) => `${name}=${word};`).join(" "),
    isShown: (site) => !site.includes(":") || shown.has(site),
    tail: renameSites(tail, end, lowered),
    ends: written.flatMap(({ marker }, thread) => (marker ? [{ name: `${thread}:${marker}`, word: 1, isEqual: true }] : [])),
    say: (isLimited) => describeLowering(lowered, isLimited),
    looping: written.map((it) => it.looping),
    isBegin: (test) => test.locations.every((name, at) => !widths.has(name) || test.words[at] === initial(name, widths.get(name))),
  };
}

/**
 * Returns a test whose question asks only of the states in which some formulas hold; or a sentence that refuses it.
 * @param {string} text
 * @param {Formula[]} ends
 * @param {RegExp} question
 * @returns {{text?: string, why?: string}}
 */
export function limitTest(text, ends, question) {
  const index = text.search(question);
  const limited = ends.length ? limitQuestion(text.slice(index).trim(), ends) : text.slice(index).trim();
  return limited === null ? { why: OF_QUESTION } : { text: addEnds(`${text.slice(0, index)}${limited}\n`, ends) };
}
