// Reads a whole test, only by docs/FORMAT.md: its block, its threads, its list of names and its condition. Not proved.
//
// A `Test` has a `language`, a `name`, the names of its `locations` and the `words` that these begin with, for each thread the words of
// its `registers`, its statements (`threads`) and its cells (`columns`, each a list of tokens), the sites that are `listed`, and its
// `quantifier` and `proposition`. A site is { location } or { thread, register }. A reader passes on the NoTest that TokenReader throws.

import { countNodes, listSites, makeSiteKey } from "./propositions.js";
import { readThread } from "./statements.js";
import { TokenReader } from "./token_reader.js";
import { NoTest, parseHeading, parseTokens, skipNotes } from "./tokens.js";

const MAX_BYTES = 65536;
const MAX_THREADS = 4;
const MAX_ROWS = 64;
const MAX_NODES = 256;
const NUMBER_OF_REGISTERS = 6;
const ENDS_OF_ROWS = ["locations", "exists", "forall", "filter", "~"];

/**
 * Reads a test. Throws NoTest if the text is none.
 * @param {string} text
 * @returns {Test}
 */
export function readTest(text) {
  if (new TextEncoder().encode(text).length > MAX_BYTES) throw new NoTest("the text is too long");
  const { language, name, end } = parseHeading(text);
  const test = { language, name, locations: [], listed: [] };
  const reader = new TokenReader(test, parseTokens(text, skipNotes(text, end)));
  reader.takeToken("{");
  const initial = new Map(reader.readEntries(() => reader.readEquation(), "}").map(({ site, word }) => [makeSiteKey(site), { site, word }]));
  const threads = readHeader(reader);
  test.columns = readRows(reader, threads);
  if (reader.next === "locations") test.listed = readListedSites(reader);
  readCondition(reader);
  checkThreads([...[...initial.values()].map((it) => it.site), ...test.listed, ...listSites(test.proposition)], threads);
  test.threads = test.columns.map((cells) => readThread(test, cells));
  const findWord = (site) => initial.get(makeSiteKey(site))?.word ?? 0;
  const registers = Array.from({ length: NUMBER_OF_REGISTERS }, (_, register) => register);
  test.registers = test.threads.map((_, thread) => registers.map((register) => findWord({ thread, register })));
  test.words = test.locations.map((_, location) => findWord({ location }));
  return test;
}

/**
 * Reads the header. Returns the number of threads. Throws NoTest if there are more than four.
 * @param {TokenReader} reader
 * @returns {number}
 */
function readHeader(reader) {
  for (let threads = 1; ; threads += 1) {
    reader.takeToken(`P${threads - 1}`);
    if (threads > MAX_THREADS) throw new NoTest(`there are more than ${MAX_THREADS} threads`);
    if (reader.next !== "|") {
      reader.takeToken(";");
      return threads;
    }
    reader.takeToken("|");
  }
}

/**
 * Reads the rows. Returns, for each thread, its cells, each a list of tokens. Throws NoTest if there are too many rows, or a row has no end.
 * @param {TokenReader} reader
 * @param {number} threads
 * @returns {Token[][][]}
 */
function readRows(reader, threads) {
  const columns = Array.from({ length: threads }, () => []);
  while (!ENDS_OF_ROWS.includes(reader.next)) {
    for (const [thread, column] of columns.entries()) {
      const begin = reader.index;
      while (reader.next !== "|" && reader.next !== ";") reader.takeToken();
      column.push(reader.tokens.slice(begin, reader.index));
      reader.takeToken(thread < threads - 1 ? "|" : ";");
    }
  }
  if (columns[0].length > MAX_ROWS) throw new NoTest(`there are more than ${MAX_ROWS} rows`);
  return columns;
}

/**
 * Reads the list of sites after `locations`.
 * @param {TokenReader} reader
 * @returns {Site[]}
 */
function readListedSites(reader) {
  reader.takeToken("locations");
  reader.takeToken("[");
  return reader.readEntries(() => reader.readSite(), "]");
}

/**
 * Reads the condition. Throws NoTest if something follows it, or it has too many nodes.
 * @param {TokenReader} reader
 */
function readCondition(reader) {
  const { test } = reader;
  test.quantifier = readQuantifier(reader);
  test.proposition = readDisjunction(reader);
  if (countNodes(test.proposition) > MAX_NODES) throw new NoTest(`the condition has more than ${MAX_NODES} nodes`);
  if (reader.next !== null) throw new NoTest(`${reader.next} comes after the condition`);
}

/**
 * Reads `exists`, `~exists` or `forall`. Throws NoTest if it is none of them.
 * @param {TokenReader} reader
 * @returns {string}
 */
function readQuantifier(reader) {
  if (reader.next === "~") {
    reader.takeToken("~");
    return `~${reader.takeToken("exists")}`;
  }
  if (reader.next !== "exists" && reader.next !== "forall") throw new NoTest("there is no condition");
  return reader.takeToken();
}

/**
 * Reads an atom, a proposition in parentheses, or a negation.
 * @param {TokenReader} reader
 * @returns {Proposition}
 */
function readAtom(reader) {
  if (reader.next === "~" || reader.next === "not") {
    reader.takeToken();
    return { kind: "Not", parts: [readAtom(reader)] };
  }
  if (reader.next === "(") {
    reader.takeToken("(");
    const inner = readDisjunction(reader);
    reader.takeToken(")");
    return inner;
  }
  if (reader.next === "true" || reader.next === "false") return { kind: reader.takeToken() === "true" ? "True" : "False", parts: [] };
  return { kind: "Eq", ...reader.readEquation(), parts: [] };
}

/**
 * Reads atoms between which there is `/\\`.
 * @param {TokenReader} reader
 * @returns {Proposition}
 */
function readConjunction(reader) {
  let left = readAtom(reader);
  while (reader.next === "/\\") {
    reader.takeToken();
    left = { kind: "And", parts: [left, readAtom(reader)] };
  }
  return left;
}

/**
 * Reads conjunctions between which there is `\\/`.
 * @param {TokenReader} reader
 * @returns {Proposition}
 */
function readDisjunction(reader) {
  let left = readConjunction(reader);
  while (reader.next === "\\/") {
    reader.takeToken();
    left = { kind: "Or", parts: [left, readConjunction(reader)] };
  }
  return left;
}

/**
 * Throws NoTest if a site is of a thread that does not exist.
 * @param {Site[]} sites
 * @param {number} threads
 */
function checkThreads(sites, threads) {
  for (const { thread } of sites) if (thread >= threads) throw new NoTest(`there is no thread ${thread}`);
}
