// Finds examples by words: in names, other names, families and descriptions, each by the first letters of its words. The best matches come first:
// a whole name, then the start of a name, then a word of a name, then the description. The examples use other words for some words of users, and
// some words mean things that the format lacks: then a note says what it has instead.
//
// A `Family` has the `tests` of a section of examples/INDEX.md, each an `Example`, and the `name` of the section and what that says of them (`about`), as
// tools/page/web_files.py lists them. An `Example` has its `name` and its `text`, what it `shows` and other names for that (`also`), by its row in the
// section, and its comment: what that says `about` it, and what is `known` of its outcome.
//
// How well a word fits a test is a number, its fit: the less, the better.

import { findNearest } from "./nearest.js";

// Of a word that readers look for the words that the examples have for it, the best first.
const SYNONYMS = {
  aba: ["hazardpointer", "epoch"], acquire: ["mp", "publication", "seqlock"], arc: ["counter"], atomic: ["locked", "xchg", "xadd", "swap"],
  barrier: ["mfence", "fence"], cas: ["trylock", "consensus", "xchg", "swap", "locked"], channel: ["spscring", "ringbuffer", "queue"],
  cmpxchg: ["trylock", "consensus", "xchg", "swap", "locked"], coherence: ["co"], condition_variable: ["wakeup"], condvar: ["wakeup"],
  dcl: ["doublechecked"], deadlock: ["peterson", "dekker", "lock"], deque: ["chaselev", "workstealing"], eventcount: ["wakeup"],
  exchange: ["xchg", "swap"], fence: ["mfence", "fences"], fetch_add: ["xadd", "fetchadd"], fifo: ["queue", "ring"], futex: ["wakeup", "spinlock"],
  lazy: ["doublechecked", "publication"], lockfree: ["chaselev", "ringbuffer", "hazardpointer"], mesi: ["cache"], moesi: ["cache"],
  mpsc: ["producer", "queue"], mutex: ["spinlock", "peterson", "dekker", "ticketlock", "bakery", "lock"], notify: ["wakeup"], once: ["doublechecked"],
  queue: ["ring", "workstealing", "chaselev"], rcu: ["urcu", "epoch"], reclamation: ["hazardpointer", "epoch", "urcu"], refcount: ["counter", "xadd"],
  reference: ["counter"], relaxed: ["sb", "mp"], release: ["mp", "publication", "seqlock"], reordering: ["buffering"], rmw: ["swap", "xchg", "xadd"],
  rwlock: ["readerswriter", "bytelock"], semaphore: ["lock"], seq_cst: ["sb"], shared_ptr: ["counter", "xadd"], singleton: ["doublechecked"],
  spin: ["lock"], spsc: ["ringbuffer", "oneslot"], stack: ["hazardpointer"], stale: ["mp", "publication", "seqlock"], stealing: ["chaselev"],
  swap: ["xchg"], tas: ["spinlock", "trylock", "testthenset"], treiber: ["hazardpointer"], volatile: ["mp", "publication", "doublechecked"],
};
// The full names of the classics, each with the name that its tests have: these come first, also by the beginnings of their words.
const FULL_NAMES = {
  "independent reads of independent writes": "iriw", "load buffering": "lb", "load buffer": "lb", "message passing": "mp", "read to write causality": "rwc",
  "store buffering": "sb", "store buffer": "sb", "store forwarding": "n6", "write to read causality": "wrc", "double checked locking": "doublechecked",
  "reference count": "counter", "reference counting": "counter", "test and set": "spinlock", "work stealing": "workstealing", "dekker lock": "dekker", "peterson lock": "peterson",
  "false sharing": "sharing", "read copy update": "urcu", "compare and swap": "trylock",
};
// The number of letters with which the beginnings of two words of a full name are looked for.
const MIN_LETTERS = 3;
// The notes on words whose meanings the format lacks: what it has instead.
const NOTES = [
  [["cas", "cmpxchg", "compare"], "lw reads no compare-and-swap. `TryLock` and `Consensus` have a swap in its place."],
  [["deadlock", "livelock", "starvation"], "No run waits for ever: jumps go forward only. A test of a lock tries once or twice, and asks who got in."],
  [["volatile"], "The format has no `volatile`: each load and store is carried out once, as it is written."],
  [["acquire", "release", "relaxed", "seq_cst"],
    "A test has no memory orders: a source test is sequentially consistent, and x86 code is what the machine runs. The text may be a program in C."],
  [["loop", "while", "retry"], "Jumps go forward only: a loop is written out as often as it is tried."],
  [["array", "struct"], "Locations have names and no addresses: an array has a location for each element."],
  [["clflush", "movnti", "nontemporal", "prefetch", "streaming"],
    "lw has ordinary loads and stores to cached memory: no nontemporal store, flush or prefetch."],
  [["herd", "herd7", "litmus7", "x86_64", "aarch64", "arm", "ppc", "riscv"],
    "The page reads `SRC` and `X86` tests. `tools/from_herd.py` converts tests of herd for X86 and X86_64, and none of other processors."],
  [["c11", "rust", "stdatomic"],
    "Paste a small program in C, C++ or Rust in place of the text: a button makes a test of it. `tools/from_c.py` asks a compiler."],
  [["at&t", "att", "movl", "intel"], "An instruction has its destination first, as in `MOV EAX,[x]`. The page turns a text in AT&T's order by a button."],
  [["aba", "treiber", "stack", "pointer", "linked"],
    "A test has words and no pointers: `HazardPointer` and `Epoch` ask whether a node may be freed while another thread reads it."],
  [["refcount", "refcounting", "shared_ptr", "arc"], "`Counter-x86` adds by a locked instruction, as a reference count does, and `Counter+plain-x86` by a load and a store."],
  [["litmus"], "Every example is a litmus test: search for a name or a subject, such as `SB` or lock."],
  [["sfence", "lfence"], "The only fence is `MFENCE`; a locked instruction does the same."],
];
// How well a word fits, the best first; a synonym fits less than the word itself.
const [WHOLE, OTHER_LANGUAGE, BEGIN, IN_NAME, IN_FAMILY, IN_WORDS, BEGINS_WORD] = [0, 0.5, 1, 2, 4, 6, 8];
const FOR_SYNONYM = 3;
// The least number of letters of a word that may be misspelt.
const MIN_MEANT = 5;
// The addition to the fit of a test whose full name is written, and the fit of one whose whole name is: the test comes before all others.
const FULL_NAME = -20;
const EXACT = -40;
// The ending of an x86 test's name that begins with the name of its source test.
const X86_FORM = "-x86";

/**
 * Returns the words of a name: `ChaseLev+mfence-x86` has chase, lev, mfence and x86.
 * @param {string} name
 * @returns {string[]}
 */
function listNameWords(name) {
  return name.replace(/([a-z])([A-Z])/g, "$1 $2").toLowerCase().split(/[^a-z0-9.]+/);
}

/** Returns the words of a text, in small letters: the longest sequences of letters and digits. */
const listWords = (text) => text.toLowerCase().match(/[a-z0-9]+/g) ?? [];
/** Returns a function that says whether a text is a word, or its plural. */
const isWord = (word) => (it) => it === word || it === `${word}s`;

/**
 * Returns the fit of a word to a test; null if it does not fit. The source test and the x86 test of a name have that name, the one in the preferred
 * language first. If only names count, descriptions are not searched.
 * @param {string} word
 * @param {Example} test
 * @param {Family} family
 * @param {{isOnlyNames: boolean, isX86: boolean}} how
 * @returns {number | null}
 */
function measureFit(word, { name, also, shows, about }, family, { isOnlyNames, isX86 }) {
  const lower = name.toLowerCase();
  const begins = (it) => it.startsWith(word);
  if (isNameOf(lower, word)) return lower.endsWith(X86_FORM) === isX86 ? WHOLE : OTHER_LANGUAGE;
  if (lower.startsWith(word)) return BEGIN;
  if (listNameWords(name).some(begins)) return IN_NAME;
  if (isOnlyNames) return null;
  if ([also, family.name].some((it) => listWords(it).some(isWord(word)))) return IN_FAMILY;
  const words = listWords(`${shows} ${about}`);
  if (words.some(isWord(word))) return IN_WORDS;
  return [...words, ...listWords(family.name)].some(begins) ? BEGINS_WORD : null;
}

/**
 * Returns whether a word, in small letters, is the name of a test, or that without the form of x86.
 * @param {string} lower
 * @param {string} word
 * @returns {boolean}
 */
export function isNameOf(lower, word) {
  return lower === word || lower === `${word}${X86_FORM}`;
}

/**
 * Returns the best fit of a word, or of a synonym of it, to a test; null if none fits.
 * @param {string} word
 * @param {Example} test
 * @param {Family} family
 * @param {{isOnlyNames: boolean, isX86: boolean}} how
 * @returns {number | null}
 */
function measureBestFit(word, test, family, how) {
  const others = Object.hasOwn(SYNONYMS, word) ? SYNONYMS[word] : [];
  const allFits = [measureFit(word, test, family, how), ...others.map((it, index) => addPenalty(measureFit(it, test, family, how), FOR_SYNONYM + index))];
  const fits = allFits.filter((it) => it !== null);
  return fits.length ? Math.min(...fits) : null;
}

/** Returns a fit that is worse by a penalty; null if there is none. */
const addPenalty = (fit, penalty) => (fit === null ? null : fit + penalty);

/**
 * Returns the words of a search, in small letters and without the marks around them.
 * @param {string} text
 * @returns {string[]}
 */
function listSearchWords(text) {
  const words = text.toLowerCase().split(/(?<=[a-z]{3})-(?=[a-z]{3})|\s+/).map((it) => it.replace(/^[^a-z0-9]+|'s$|[^a-z0-9]+$/g, ""));
  return words.filter(Boolean);
}

/** Returns the name that the tests have whose full name begins with words, or has words that begin so; null if there is none. */
function findNameByFullName(words) {
  const begins = (name) => name.split(" ").every((it, at) => at >= words.length || it.startsWith(words[at]));
  const isLong = words.length > 1 && words.every((it) => it.length >= MIN_LETTERS);
  const phrase = words.join(" ");
  const name = Object.keys(FULL_NAMES).find((it) => it === phrase) ?? Object.keys(FULL_NAMES).find((it) => isLong && it.split(" ").length >= words.length && begins(it));
  return FULL_NAMES[name] ?? null;
}

/**
 * Returns notes on what the format has instead of the words of a search, as sentences in which code is between backquotes.
 * @param {string} text
 * @returns {string[]}
 */
export function listNotes(text) {
  const words = listSearchWords(text);
  return NOTES.filter(([names]) => names.some((it) => words.includes(it))).map(([, note]) => note);
}

/**
 * Returns the tests of families that all words of a text fit, the best first: before all others the test of which the text is the name. Of the tests
 * that have a name in both languages those of x86 are first if `isX86` is set. If no test fits, words that are misspelt names are taken for these.
 * @param {Family[]} families
 * @param {string} text
 * @param {boolean} isOnlyNames
 * @param {boolean} [isX86]
 * @returns {Example[]}
 */
export function findTests(families, text, isOnlyNames, isX86 = false) {
  const words = listSearchWords(text);
  const candidates = families.flatMap((family) => family.tests.map((test) => ({ test, family })));
  const phrase = words.join(" ");
  const fullName = findNameByFullName(words);
  const fitting = candidates.flatMap(({ test, family }) => {
    if (test.name.toLowerCase() === phrase) return [{ test, fit: EXACT }];
    const named = fullName === null ? null : measureFit(fullName, test, family, { isOnlyNames: true, isX86 });
    if (named !== null) return [{ test, fit: FULL_NAME + named }];
    const fits = words.map((it) => measureBestFit(it, test, family, { isOnlyNames, isX86 }));
    return fits.includes(null) ? [] : [{ test, fit: fits.reduce((sum, it) => sum + it, 0) }];
  });
  if (fitting.length || !words.length) return words.length ? fitting.sort((one, other) => one.fit - other.fit).map((it) => it.test) : [];
  const meant = isOnlyNames ? phrase : correctWords(words, candidates);
  return meant === phrase ? [] : findTests(families, meant, isOnlyNames, isX86);
}

/** Returns words in which each that begins no name has the nearest word of a name in its place. */
function correctWords(words, candidates) {
  const names = [...new Set(candidates.flatMap(({ test }) => listNameWords(test.name)))].filter((it) => it.length >= MIN_MEANT);
  const correct = (word) => (word.length < MIN_MEANT || names.some((it) => it.startsWith(word)) ? word : (findNearest(word, names) ?? word));
  return words.map(correct).join(" ");
}
