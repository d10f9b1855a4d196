// Asks the workbench, and finds the place of a refusal in the text. The answers are lw's own bytes.
//
// A `Fault` has lw's own `line` and the `status`; its `kind` is text, cell, schedule, limit or budget, with the `number` and the `name` of the cause.
// One in a text or a schedule has its `place`, a byte, and the same as a `row`, a `column` and an `index` in a string.

import { Trap } from "./module.js";
import { parseReplayState } from "./replays.js";
import { parseHeading } from "./tokens.js";

const FAULT = /^lw: (text|cell|schedule) (\d+) (\w+) at (\d+)$/;
const LIMIT = /^lw: limit (\d+) (\w+)$/;
const BUDGET = /^beyond: budget (\d+)$/;
// The most states that a search may find: the next is tried if the one before it is not enough, so that it is known how far the search is.
const BUDGETS = [100000, 1000000, 10000000];
const SHORT_OF_MEMORY = "lw: memory";
// The limits of kept answers: the number of answers on one text, and the characters of each.
const MAX_KEPT = 4096;
const MAX_CHARACTERS = 16384;

/** The workbench refuses what it was given: `fault` says what and why. */
export class Refused extends Error {
  constructor(fault) {
    super(fault.line);
    this.fault = fault;
  }
}

/**
 * There is no answer, and why. `more` is what else is answered: `isBeyond` says that it is beyond this browser, and that the program itself
 * may have it; `refused` is an event of the schedule that is refused; `isUnended` says that the schedule is no run to the end.
 */
export class NoAnswer extends Error {
  constructor(why, more = {}) {
    super(why);
    this.more = more;
  }
}

/**
 * Returns a text in UTF-8.
 * @param {string} text
 * @returns {Uint8Array}
 */
export function encodeText(text) {
  return new TextEncoder().encode(text);
}

/**
 * Returns the text of bytes in UTF-8.
 * @param {Uint8Array} bytes
 * @returns {string}
 */
export function decodeText(bytes) {
  return new TextDecoder("utf-8", { ignoreBOM: true }).decode(bytes);
}

/**
 * Returns the language of a text. Throws NoTest if the text has no heading, as no text that the workbench takes.
 * @param {Uint8Array} text
 * @returns {"SRC" | "X86"}
 */
export function parseLanguage(text) {
  return parseHeading(decodeText(text)).language;
}

/**
 * A workbench that answers words as on the command line: `run(words, bytes)` gives { status, isFault, out }. Its `room` says in words
 * how much memory a run may have; `hasFilmsAndMarks` says whether it answers `film` and `marks` too.
 */
export class Program {
  constructor(workbench) {
    this.workbench = workbench;
    this.kept = new Map();
    this.searched = new Map();
    this.textOfKept = null;
  }

  /**
   * Returns what is printed of a list, `states` or `schedules`; of one by a search `onProgress` is called with words on how far that is. Throws as
   * `askAnew` does; and NoAnswer if a search ends without a list.
   * @param {string} output
   * @param {Uint8Array} text
   * @param {{search?: boolean, onProgress?: function(string): void}} [options]
   * @returns {string}
   */
  list(output, text, { search = false, onProgress = () => null } = {}) {
    return search ? this.search(output, text, onProgress) : this.ask([output], text);
  }

  /**
   * Returns a list by a search, which is kept whatever its length as long as the same text is asked about.
   * @param {string} output
   * @param {Uint8Array} text
   * @param {function(string): void} onProgress
   * @returns {string}
   */
  search(output, text, onProgress) {
    this.findKept(text);
    if (!this.searched.has(output)) this.searched.set(output, this.searchAnew(output, text, onProgress));
    return this.searched.get(output);
  }

  /** Returns a list by searches with one budget after another, until one suffices. Throws NoAnswer if none does. */
  searchAnew(output, text, onProgress) {
    for (const budget of BUDGETS) {
      try {
        return this.askAnew(["--budget", String(budget), output], text);
      } catch (error) {
        if (error.fault?.kind !== "budget") throw error;
        onProgress(`more than ${budget.toLocaleString("en")} states of the machine`);
      }
    }
    const states = BUDGETS.at(-1).toLocaleString("en");
    throw new NoAnswer(`The search found more than ${states} states of the machine, and was ended. \`./beyond --budget N\` takes more.`);
  }

  /**
   * Returns what is printed. Short answers are kept as long as the same text is asked about: films and runs by hand ask for many again. Throws as `askAnew`
   * does.
   * @param {string[]} words
   * @param {Uint8Array} text
   * @returns {string}
   */
  ask(words, text) {
    const kept = this.findKept(text);
    const key = words.join(" ");
    const printed = kept.get(key) ?? this.askAnew(words, text);
    if (printed.length <= MAX_CHARACTERS) kept.set(key, printed);
    return printed;
  }

  /** Returns the answers that are kept of a text, a map by the words that were asked. Forgets those of another text. */
  findKept(text) {
    const decoded = decodeText(text);
    if (decoded !== this.textOfKept || this.kept.size >= MAX_KEPT) this.kept = new Map();
    if (decoded !== this.textOfKept) this.searched = new Map();
    this.textOfKept = decoded;
    return this.kept;
  }

  /** Returns what is printed. Throws Refused if the workbench refuses the words or the text, and NoAnswer if memory runs out. */
  askAnew(words, text) {
    const { status, isFault, out } = this.run(words, text);
    const printed = decodeText(out);
    if (!isFault) return printed;
    if (printed === SHORT_OF_MEMORY) throw new NoAnswer(`The run needed more memory than ${this.workbench.room}.`, { isBeyond: true });
    throw new Refused(parseFault(printed.trim(), status, text, words[0] === "replay" ? words[1] : ""));
  }

  /** Runs the workbench. Throws NoAnswer if the browser ends the module. */
  run(words, text) {
    try {
      return this.workbench.run(words, text);
    } catch (error) {
      if (!(error instanceof Trap)) throw error;
      throw new NoAnswer(`The module was ended by the browser: ${error.message}.`, { isBeyond: true });
    }
  }

  /**
   * Returns the state that a schedule leads to, or in which it stops. Throws as `askAnew` does.
   * @param {Uint8Array} text
   * @param {string} schedule
   * @param {string} protocol
   * @returns {State}
   */
  replay(text, schedule, protocol) {
    return parseReplayState(this.ask(["replay", schedule, "--protocol", protocol], text));
  }

  /**
   * Returns the states to which all prefixes of a schedule lead, the shortest first: one call, if the workbench has films. Throws as `askAnew` does.
   * @param {Uint8Array} text
   * @param {string[]} events
   * @param {string} protocol
   * @returns {State[]}
   */
  listStatesAlong(text, events, protocol) {
    if (!this.workbench.hasFilmsAndMarks) {
      return Array.from({ length: events.length + 1 }, (_, count) => this.replay(text, events.slice(0, count).join(" "), protocol));
    }
    const pages = this.ask(["film", events.join(" "), "--protocol", protocol], text).split("\n\n");
    return pages.slice(0, -1).map((page) => parseReplayState(`${page}\n`));
  }

  /**
   * Returns the lines of the list of states, each with its mark, listed as by `list`; null if the workbench has no marks. Throws as `list` does.
   * @param {Uint8Array} text
   * @param {{search?: boolean, onProgress?: function(string): void}} [options]
   * @returns {string[] | null}
   */
  listMarked(text, { search = false, onProgress = () => null } = {}) {
    if (!this.workbench.hasFilmsAndMarks) return null;
    const marks = search ? this.search("marks", text, onProgress) : this.ask(["--budget", "0", "marks"], text);
    return marks.split("\n").slice(0, -1);
  }
}

/**
 * Returns the fault that lw's line states: if it has a place, with its row and its column, which counts characters, and its index in a string.
 * @param {string} line
 * @param {number} status
 * @param {Uint8Array} text
 * @param {string} schedule
 * @returns {Fault}
 */
function parseFault(line, status, text, schedule) {
  const [, kind, number, name, digits] = FAULT.exec(line) ?? [];
  if (kind) {
    const offset = Number(digits);
    const front = decodeText((kind === "schedule" ? encodeText(schedule) : text).subarray(0, offset));
    const last = front.slice(front.lastIndexOf("\n") + 1);
    const where = { row: front.split("\n").length, column: [...last].length + 1, index: front.length };
    return { line, status, kind, number: Number(number), name, place: offset, ...where };
  }
  const limit = LIMIT.exec(line);
  if (limit) return { line, status, kind: "limit", number: Number(limit[1]), name: limit[2] };
  return BUDGET.test(line) ? { line, status, kind: "budget" } : { line, status };
}
