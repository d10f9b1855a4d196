// Reads what `lw replay` prints of a run into the state that it describes.
//
// A `State` has `name`, `steps` and `end`: its `kind` is Final, NotFinal or Stopped, and of a run that stopped `at`, `number` and `cause`.
// It has `threads`, of each a `ThreadState`: `at`, the number of its next statement, and `registers`, pairs of a name and a word; of an x86 test also
// `buffer`, pairs of a location and a word, the oldest first, and `lines`, pairs of a location and its line's letter. And it has
// `memory` and `content`, pairs of a location and a word; a source test's content is its memory.
//
// A text of another form is refused. Each line that a replay prints has to be present, in its place and with its
// end; an end may be that of Windows. tools/replay_state.py takes the same texts.

const REGISTERS = ["EAX", "EBX", "ECX", "EDX", "ESI", "EDI"];
const SOURCE = ["r0", "r1", "r2", "r3", "r4", "r5"];
const MAX_THREADS = 4;
const NUMBER = "(0|[1-9][0-9]{0,14})";
const NAME = "[A-Za-z_][A-Za-z0-9_]*";
const WORDS = `((?: ${NAME}=(?:0|[1-9][0-9]{0,9}))*)`;
const LETTERS = `((?: ${NAME}=[MOESI])*)`;
const END = `End (?:(Final|NotFinal)|Stopped at ${NUMBER} by ${NUMBER} ([A-Za-z]+))`;

/** The text is not what a replay prints. */
export class NoReplay extends Error {}

/** Returns the pairs of a name and what follows its `=`. */
const parsePairs = (text) => text.split(" ").filter(Boolean).map((it) => it.split("="));

/** Returns whether the names of two lists of pairs are the same, in the same order. */
const hasNames = (actual, names) => actual.map(([name]) => name).join(" ") === names.join(" ");

/** The lines of a text, which are read one after another. */
class Page {
  constructor(text) {
    this.lines = text.split("\n");
    this.rest = this.lines.pop();
    this.line = "";
  }

  /**
   * Takes the next line, and returns the groups of a pattern's match in it. Throws NoReplay if it does not match, or there is none.
   * @param {string} pattern
   * @returns {string[]}
   */
  takeLine(pattern) {
    if (!this.lines.length) throw new NoReplay(this.rest ? "the last line has no end" : "the text ends, and a replay prints more");
    this.line = this.lines.shift();
    const found = new RegExp(`^(?:${pattern})$`).exec(this.line.replace(/\r$/, ""));
    this.require(found);
    return found.slice(1);
  }

  /**
   * Returns the pairs of a name and a word in a part of the line that was read last. Throws NoReplay if a word has more than 32 bits.
   * @param {string} text
   * @returns {[string, number][]}
   */
  parseWords(text) {
    const found = parsePairs(text).map(([name, word]) => [name, Number(word)]);
    this.require(found.every(([, word]) => word < 2 ** 32));
    return found;
  }

  /** Throws NoReplay with the line that was read last unless a condition holds. */
  require(condition) {
    if (!condition) throw new NoReplay(this.line);
  }

  /** Throws NoReplay if something follows the lines that were read. */
  close() {
    if (this.lines.length || this.rest) throw new NoReplay(this.lines[0] ?? this.rest);
  }
}

/** Returns how a run ended, by the groups of a match of END. */
function makeEnd([kind, at, number, cause]) {
  return kind ? { kind } : { kind: "Stopped", at: Number(at), number: Number(number), cause };
}

/**
 * Reads the lines of the thread with a number, whose registers have to be those of one of some languages. Throws NoReplay if they are not. Returns its
 * state.
 * @param {Page} page
 * @param {number} number
 * @param {string[][]} languages
 * @returns {ThreadState}
 */
function readThread(page, number, languages) {
  const [at, text] = page.takeLine(`P${number} at ${NUMBER}${WORDS}`);
  const thread = { at: Number(at), registers: page.parseWords(text) };
  page.require(languages.some((names) => hasNames(thread.registers, names)));
  if (!hasNames(thread.registers, REGISTERS)) return thread;
  const buffer = page.parseWords(page.takeLine(`P${number} buffer${WORDS}`)[0]);
  return { ...thread, buffer, lines: parsePairs(page.takeLine(`P${number} lines${LETTERS}`)[0]) };
}

/**
 * Reads the lines of all threads, which have to be of one language. Throws NoReplay if they are not. Returns their states.
 * @param {Page} page
 * @returns {ThreadState[]}
 */
function readThreads(page) {
  const threads = [readThread(page, 0, [REGISTERS, SOURCE])];
  const language = threads[0].registers.map(([name]) => name);
  while (threads.length < MAX_THREADS && page.lines[0]?.startsWith("P")) threads.push(readThread(page, threads.length, [language]));
  return threads;
}

/**
 * Returns the state that a replay's text says. Throws NoReplay if the text is no replay's.
 * @param {string} text
 * @returns {State}
 */
export function parseReplayState(text) {
  const page = new Page(text);
  const [name] = page.takeLine("Test ([!-~]{1,128})");
  const steps = Number(page.takeLine(`Steps ${NUMBER}`)[0]);
  const end = makeEnd(page.takeLine(END));
  const threads = readThreads(page);
  const memory = page.parseWords(page.takeLine(`Memory${WORDS}`)[0]);
  const names = memory.map(([it]) => it);
  const ofX86 = threads.filter((it) => it.lines);
  page.require(ofX86.every((it) => hasNames(it.lines, names) && it.buffer.every(([location]) => names.includes(location))));
  const content = ofX86.length ? page.parseWords(page.takeLine(`Content${WORDS}`)[0]) : memory;
  page.require(hasNames(content, names));
  page.close();
  return { name, steps, end, threads, memory, content };
}

/**
 * Returns the index of a register of either language, by its name; -1 if there is none.
 * @param {string} name
 * @returns {number}
 */
export function parseRegister(name) {
  return name.startsWith("r") ? Number(name.slice(1)) : REGISTERS.indexOf(name);
}

/**
 * Returns the contents of a report's line: pairs of an observed name and a word.
 * @param {string} line
 * @returns {[string, number][]}
 */
export function parseReportLine(line) {
  return [...line.matchAll(/(\S+)=(\d+);/g)].map(([, name, word]) => [name, Number(word)]);
}

/**
 * Returns whether a run is final, in the state of a report's line. A register is named in either language.
 * @param {State} state
 * @param {string} line
 * @returns {boolean}
 */
export function isFinalIn(state, line) {
  const content = new Map(state.content);
  const findWord = (name) => {
    const [, thread, register] = /^(\d):(\w+)$/.exec(name) ?? [];
    return thread === undefined ? content.get(name) : state.threads[thread].registers[parseRegister(register)][1];
  };
  return state.end.kind === "Final" && parseReportLine(line).every(([name, word]) => findWord(name) === word);
}

/**
 * Returns the events of a schedule.
 * @param {string} schedule
 * @returns {string[]}
 */
export function parseSchedule(schedule) {
  return schedule.split(/\s+/).filter(Boolean);
}
